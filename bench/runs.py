"""Runs of commands on a script, and what was measured of them."""

import hashlib
import os
import signal
import statistics
import subprocess
import sys
from typing import NamedTuple, Optional

MEASURE = os.path.join(os.path.dirname(os.path.abspath(__file__)), "measure.py")
SPARE = 30


class Run(NamedTuple):
    """Seconds, those of a processor, peak memory in KiB, status (None: it was ended at the limit),
    and the output's bytes and checksum."""

    seconds: float
    processor: float
    peak: int
    status: Optional[int]
    size: int
    checksum: str

    def end(self) -> tuple:
        """How it ended, and what it wrote."""
        return self.status, self.size, self.checksum


class Measured(NamedTuple):
    """One work at one scale: its size, and runs by cat, by the program, and by the other one."""

    name: str
    scale: str
    lines: int
    read: int
    cat: float
    program: Run
    other: Optional[Run]

    def is_well(self) -> bool:
        """Whether the program came to its end without a fault, and wrote what the other one did."""
        return self.program.status == 0 and (self.other is None or self.is_equal())

    def is_equal(self) -> bool:
        """Whether both outputs and statuses are equal."""
        return (self.other is not None and self.other.status is not None
                and self.other.end() == self.program.end())


class Runner:
    """Runs commands with files in a folder: so many times each, each at most so long."""

    def __init__(self, folder: str, runs: int, limit: float):
        self.folder = folder
        self.runs = runs
        self.limit = limit

    def path(self, name: str) -> str:
        return os.path.join(self.folder, name)

    def measure(self, name: str, scale: str, text: bytes, command: list[str],
                other: Optional[list[str]]) -> Measured:
        """Runs both commands on a script, and cat on as many bytes."""
        write(self.path("script"), text)
        program = self.median(command)
        beside = self.median(other) if other else None
        return Measured(name, scale, text.count(b"\n"), len(text), self.cat(program.size),
                        program, beside)

    def cat(self, size: int) -> float:
        """The seconds of reading the script and of writing so many bytes, by two processes."""
        write(self.path("blank"), bytes(size))
        return sum(self.median(["cat"], source).seconds for source in ("script", "blank"))

    def median(self, command: list[str], source: str = "script") -> Run:
        """The median times and the greatest peak of some runs; where one takes long, of that one.
        All have to write the same."""
        runs = [self.once(command, source)]
        while len(runs) < self.runs and runs[-1].seconds < self.limit / 10:
            runs.append(self.once(command, source))
        if len({run.end() for run in runs}) > 1:
            raise RuntimeError("%s does not write the same twice" % command[0])
        return runs[0]._replace(
            seconds=statistics.median(run.seconds for run in runs),
            processor=statistics.median(run.processor for run in runs),
            peak=max(run.peak for run in runs),
        )

    def once(self, command: list[str], source: str) -> Run:
        target = self.path("output")
        words = [sys.executable, "-I", "-S", MEASURE, str(self.limit), self.path(source), target]
        seconds, processor, peak, status = told_by(words + command, self.limit + SPARE).split()
        return Run(float(seconds), float(processor), int(peak),
                   None if status == b"none" else int(status), os.path.getsize(target),
                   checksum(target))


def told_by(command: list[str], limit: float) -> bytes:
    """What a command writes. Where this program is stopped, it is ended with all that it began."""
    with subprocess.Popen(command, stdout=subprocess.PIPE, start_new_session=True) as process:
        try:
            return process.communicate(timeout=limit)[0]
        except BaseException:
            os.killpg(process.pid, signal.SIGKILL)
            raise


def write(path: str, content: bytes) -> None:
    with open(path, "wb") as file:
        file.write(content)


def checksum(path: str) -> str:
    found = hashlib.sha256()
    with open(path, "rb") as file:
        while block := file.read(1 << 20):
            found.update(block)
    return found.hexdigest()
