"""Runs one command; tells its seconds, those of a processor, its peak memory in KiB and its status.

    python3 -I -S bench/measure.py LIMIT SOURCE TARGET COMMAND..

Its standard input is the file SOURCE, its standard output the file TARGET, and its errors are not
looked at. After LIMIT seconds it is ended, and its status is told as `none`. A process of its own,
and as small as it gets: what it has in memory is the least peak that it can tell.
"""

import os
import select
import signal
import sys
import time


def main(limit: str, source: str, target: str, *command: str) -> None:
    streams = [
        (os.POSIX_SPAWN_OPEN, 0, source, os.O_RDONLY, 0),
        (os.POSIX_SPAWN_OPEN, 1, target, os.O_WRONLY | os.O_CREAT | os.O_TRUNC, 0o644),
        (os.POSIX_SPAWN_OPEN, 2, os.devnull, os.O_WRONLY, 0),
    ]
    begun = time.perf_counter()
    process = os.posix_spawnp(command[0], command, os.environ, file_actions=streams)
    # The process is not waited for before it is known to be over: until then its number is its own.
    is_over = bool(select.select([os.pidfd_open(process)], [], [], float(limit))[0])
    if not is_over:
        os.kill(process, signal.SIGKILL)
    _, status, usage = os.wait4(process, 0)
    seconds = time.perf_counter() - begun
    told = os.waitstatus_to_exitcode(status) if is_over else "none"
    processor = usage.ru_utime + usage.ru_stime
    print("%.6f %.6f %d %s" % (seconds, processor, usage.ru_maxrss, told))


if __name__ == "__main__":
    main(*sys.argv[1:])
