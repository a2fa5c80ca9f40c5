#!/usr/bin/env python3
"""Meets the built program from outside.

    tests/run.py [--short] [--jobs N] [--program PATH] [KIND ..]
    tests/run.py fuzz [--minutes N | --count N] [--seed S]

Runs these kinds of tests, or all: rows, dialogue, pictures, refusals, libraries, links, streams,
hostile, fuzz and planted. Each tells what it ran, and how many cases passed and failed. The last
line is the sum, `N passed, M failed`; the status is 0 only where none failed.
"""

import argparse
import os
import sys

sys.path.insert(0, os.path.dirname(os.path.abspath(__file__)))

from driver.dialogue import run_dialogues  # noqa: E402
from driver.fuzz import fuzz  # noqa: E402
from driver.hostile import run_hostile  # noqa: E402
from driver.interposer import Workshop  # noqa: E402
from driver.libraries import run_libraries  # noqa: E402
from driver.links import run_links  # noqa: E402
from driver.pictures import run_pictures  # noqa: E402
from driver.planted import run_planted  # noqa: E402
from driver.program import BUILT, Program  # noqa: E402
from driver.refusals import run_refusals  # noqa: E402
from driver.rows import run_rows  # noqa: E402
from driver.streams import run_streams  # noqa: E402
from driver.tally import Tally, total  # noqa: E402

KINDS = [
    "rows", "dialogue", "pictures", "refusals", "libraries", "links", "streams", "hostile", "fuzz",
    "planted"
]
SHORT_COUNT = 5000
LONG_COUNT = 100000


def options() -> argparse.Namespace:
    parser = argparse.ArgumentParser(description="Meets the built program from outside.")
    parser.add_argument(
        "kinds", nargs="*", metavar="KIND", help="of %s (default: all)" % ", ".join(KINDS)
    )
    parser.add_argument(
        "--program", default=BUILT, help="the program's path (default: %(default)s)"
    )
    parser.add_argument(
        "--short", action="store_true", help="a short form of all, in less than five minutes"
    )
    parser.add_argument("--minutes", type=float, help="how long fuzz runs")
    parser.add_argument("--count", type=int, help="how many scripts fuzz runs")
    parser.add_argument("--seed", type=int, default=1, help="the first seed of fuzz")
    parser.add_argument("--jobs", type=int, default=1, help="how many runs at a time (default: 1)")
    found = parser.parse_args()
    for kind in found.kinds:
        if kind not in KINDS:
            parser.error("no such kind: %s" % kind)
    for name in ("jobs", "count", "minutes"):
        number = getattr(found, name)
        if number is not None and number <= 0:
            parser.error("--%s is above 0" % name)
    return found


def run_kind(
    kind: str, chosen: argparse.Namespace, program: Program, workshop: Workshop
) -> Tally:
    """Runs one kind of tests."""
    if kind == "rows":
        return run_rows(program)
    if kind == "dialogue":
        return run_dialogues(program)
    if kind == "pictures":
        return run_pictures(program, chosen.short, chosen.jobs)
    if kind == "hostile":
        return run_hostile(program, chosen.short)
    if kind == "fuzz":
        count = chosen.count or (
            None if chosen.minutes else SHORT_COUNT if chosen.short else LONG_COUNT
        )
        return fuzz(
            program, count, chosen.seed, chosen.minutes, chosen.jobs, may_be_great=not chosen.short
        )
    interposer = workshop.interposer
    if kind == "planted":
        return run_planted(program, interposer, workshop.folder, chosen.jobs)
    if interposer is None:
        return Tally(kind).skip("there is no C compiler")
    if kind == "libraries":
        return run_libraries(interposer, chosen.jobs)
    if kind == "links":
        return run_links(program, interposer)
    run_interposed = run_refusals if kind == "refusals" else run_streams
    return run_interposed(program, interposer, chosen.short, chosen.jobs)


def main() -> int:
    chosen = options()
    program = Program(chosen.program)
    if not program.is_there():
        print("%s is not there: build it first, as ./l4map does" % chosen.program)
        print("0 passed, 1 failed")
        return 1
    with Workshop() as workshop:
        return total([run_kind(kind, chosen, program, workshop) for kind in chosen.kinds or KINDS])


if __name__ == "__main__":
    sys.exit(main())
