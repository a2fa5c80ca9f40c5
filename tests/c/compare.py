#!/usr/bin/env python3
"""Runs random scripts over the library for C and by `l4map run`, and compares what both reply.

    tests/c/compare.py --driver PATH [--program PATH] [--count N] [--seed S]

The driver is tests/c/script.c, compiled. It takes well-spelled scripts without `tree`, so lines
`tree` are left out of each script, and so is what stands from its first faulty line on. The last
line is `N passed, M failed`.
"""

import argparse
import os
import subprocess
import sys

TESTS = os.path.dirname(os.path.dirname(os.path.abspath(__file__)))
sys.path.insert(0, TESTS)

from maker.scripts import case_of  # noqa: E402

SHOWN = 3
SECONDS = 120


def options() -> argparse.Namespace:
    parser = argparse.ArgumentParser(description="Compares the library for C with l4map.")
    parser.add_argument("--driver", required=True, help="tests/c/script.c, compiled")
    parser.add_argument(
        "--program",
        default=os.path.join(os.path.dirname(TESTS), "crates", "l4map", "out", "l4map"),
        help="the program's path (default: %(default)s)",
    )
    parser.add_argument("--count", type=int, default=1000, help="how many scripts are compared")
    parser.add_argument("--seed", type=int, default=1, help="the first seed")
    chosen = parser.parse_args()
    if chosen.count < 1:
        parser.error("--count is above 0")
    return chosen


def replies(command: list[str], text: bytes) -> tuple[int, bytes]:
    done = subprocess.run(
        command, input=text, stdout=subprocess.PIPE, stderr=subprocess.DEVNULL, timeout=SECONDS
    )
    return done.returncode, done.stdout


def without_trees(text: bytes) -> bytes:
    """The lines but those that ask the tree."""
    lines = text.replace(b"\r\n", b"\n").split(b"\n")
    return b"\n".join(line for line in lines if line.split()[:1] != [b"tree"])


def script_of(seed: int, program: str) -> bytes:
    """The script of a seed as the driver takes it; empty where that is none. A program that ends in
    another way than at a faulty line ends the comparison."""
    case = case_of(seed, may_be_great=False)
    if case.command != "run":
        return b""
    text = without_trees(case.text)
    status, output = replies([program, "run"], text)
    if status == 0:
        return text
    fault = output.rstrip(b"\n").split(b"\n")[-1].split(b" ")
    if status != 1 or fault[0] != b"line":
        sys.exit("seed %d: the program ended with status %d" % (seed, status))
    return b"".join(line + b"\n" for line in text.split(b"\n")[: int(fault[1]) - 1])


def main() -> int:
    chosen = options()
    passed, failed, seed = 0, 0, chosen.seed
    while passed + failed < chosen.count:
        text = script_of(seed, chosen.program)
        if text:
            found = replies([chosen.driver], text)
            wanted = replies([chosen.program, "run"], text)
            if found == wanted:
                passed += 1
            else:
                failed += 1
                if failed <= SHOWN:
                    print("seed %d: the driver's status is %d, the program's %d, or replies differ"
                          % (seed, found[0], wanted[0]))
        seed += 1
    print("%d passed, %d failed" % (passed, failed))
    return 1 if failed else 0


if __name__ == "__main__":
    sys.exit(main())
