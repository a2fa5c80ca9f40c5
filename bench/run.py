#!/usr/bin/env python3
"""Times the built program on seven kinds of work.

    bench/run.py [--program PATH] [--beside "CMD"] [--scales F,..] [--runs N] [--limit S] [NAME ..]

Tells time and peak memory of each work at each scale, beside reading and writing as many bytes, and
beside another program, which gets the script on standard input too. Nothing is judged by its time:
the status is 1 only where a run fails, or both programs differ.
"""

import argparse
import os
import shlex
import shutil
import sys
import tempfile

from runs import Measured, Runner
from table import growth_lines, head, line
from work import WORKS, scale_of, script

TOP = os.path.dirname(os.path.dirname(os.path.abspath(__file__)))
BUILT = os.path.join(TOP, "crates", "l4map", "out", "l4map")


def options() -> argparse.Namespace:
    parser = argparse.ArgumentParser(description="Times the built program on seven kinds of work.")
    parser.add_argument("names", nargs="*", metavar="NAME",
                        help="of %s (default: all)" % ", ".join(WORKS))
    parser.add_argument("--program", default=BUILT, help="its path (default: %(default)s)")
    parser.add_argument("--beside", help="the command of another program, as 'other run'")
    parser.add_argument("--scales", default="1/8,1", help="of a full copy (default: %(default)s)")
    parser.add_argument("--runs", type=int, default=3, help="of which the median is told")
    parser.add_argument("--limit", type=float, default=600, help="the seconds of a run")
    parser.add_argument("--seed", type=int, default=1, help="of the scripts")
    chosen = parser.parse_args()
    for name in chosen.names:
        if name not in WORKS:
            parser.error("no such work: %s" % name)
    if chosen.runs < 1 or not chosen.limit > 0:
        parser.error("a run at least, and some time for it")
    try:
        scales = [scale_of(scale) for scale in chosen.scales.split(",")]
    except (ValueError, ZeroDivisionError):
        scales = []
    if not scales or min(scales) <= 0:
        parser.error("no such scales: %s" % chosen.scales)
    if chosen.beside and shutil.which(shlex.split(chosen.beside)[0]) is None:
        parser.error("no such program: %s" % chosen.beside)
    return chosen


def measure(runner: Runner, chosen: argparse.Namespace, name: str, scale: str) -> Measured:
    """Runs one work at one scale by cat, by the program, and by the other one."""
    text = script(name, scale_of(scale), chosen.seed)
    other = shlex.split(chosen.beside) if chosen.beside else None
    return runner.measure(name, scale, text, [os.path.abspath(chosen.program), "run"], other)


def main() -> int:
    chosen = options()
    if not os.access(chosen.program, os.X_OK):
        print("%s is not there: build it first, as ./l4map does" % chosen.program)
        return 1
    folder = tempfile.mkdtemp(prefix="l4map-bench-")
    runner, all_measured = Runner(folder, chosen.runs, chosen.limit), []
    try:
        print(head(), flush=True)
        for name in chosen.names or WORKS:
            for scale in chosen.scales.split(","):
                all_measured.append(measure(runner, chosen, name, scale))
                print(line(all_measured[-1]), flush=True)
    finally:
        shutil.rmtree(folder, ignore_errors=True)
    for told in growth_lines(all_measured):
        print(told)
    return 0 if all(measured.is_well() for measured in all_measured) else 1


if __name__ == "__main__":
    sys.exit(main())
