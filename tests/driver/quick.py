"""Many short runs of the program, one after the other, without pipes: the streams are files, which
are used again, and nothing but the program is started."""

import os
import select
import signal
import tempfile
from typing import Optional

from driver.program import Outcome


class QuickProgram:
    """The program at a path, which is run once at a time."""

    def __init__(self, path: str):
        self.path = os.path.abspath(path)
        self.streams = [tempfile.TemporaryFile(buffering=0) for _ in range(3)]
        self.actions = [
            (os.POSIX_SPAWN_DUP2, stream.fileno(), number)
            for number, stream in enumerate(self.streams)
        ]

    def run(self, arguments: list[str], source: bytes, limit: float) -> Outcome:
        """Runs it with these arguments, standard input and seconds."""
        given, output, errors = self.streams
        for stream in self.streams:
            stream.seek(0)
            stream.truncate()
        given.write(source)
        given.seek(0)
        child = os.posix_spawn(
            self.path, [self.path] + arguments, os.environ, file_actions=self.actions
        )
        status = status_of(child, limit)
        output.seek(0)
        errors.seek(0)
        return Outcome(status, output.read(), errors.read())


def status_of(child: int, limit: float) -> Optional[int]:
    """Waits for the end of a process, and gives its status; None where it was killed since it took
    too long."""
    descriptor = os.pidfd_open(child)
    try:
        is_over = bool(select.select([descriptor], [], [], limit)[0])
    finally:
        os.close(descriptor)
    if not is_over:
        os.kill(child, signal.SIGKILL)
    status = os.waitstatus_to_exitcode(os.waitpid(child, 0)[1])
    return status if is_over else None
