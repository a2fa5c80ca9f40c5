#!/usr/bin/env python3
"""Replays a kernel's log, and tells the first answer that differs from what the kernel showed.

    first_difference.py [--exact] LOG

A log is a script for `l4map run`, with the kernel's answers as comments: `#= ANSWER` below a line.
Lines without an answer are replayed and not compared. A page that shows less than the database does
is no difference, but with --exact it is. The program is L4MAP, or crates/l4map/out/l4map.

The status is 0 where there is no difference, 1 where there is one, and 2 where nothing can be said:
the log cannot be read, has no answer or is no script, or the replay failed.
"""

import argparse
import itertools
import os
import re
import subprocess
import sys
from typing import Iterator, NamedTuple, Optional

TOP = os.path.dirname(os.path.dirname(os.path.dirname(os.path.abspath(__file__))))
BUILT = os.path.join(TOP, "crates", "l4map", "out", "l4map")
PAGE_ANSWER = re.compile("(rights|served)( none|( [0-9a-f]{5,}:[r-][w-][x-])+)")
ISSUES = ("map", "words", "unmap", "end")
TAKES = ("deliver", "merge", "load")
NOTHING = ("records none", "revocations 0", "taken 0")


class Line(NamedTuple):
    """A line that has a reply: its number in the log, and what the kernel showed."""

    number: int
    text: str
    shown: list[str]

    def word(self) -> str:
        return self.text.split()[0]

    def processor(self) -> str:
        """The processor whose copy is asked or changed."""
        words = self.text.split()
        if words[0] == "tree":
            return "0"
        return words[2 if words[0] == "deliver" else 1]


def lines_in(log: str) -> list[Line]:
    """The lines that have a reply, each with the answers that stand below it."""
    found: list[Line] = []
    for number, text in enumerate(log.split("\n"), 1):
        words = text.split()
        if words and words[0].startswith("#=") and found:
            found[-1].shown.append(text.strip()[2:].strip())
        elif words and not words[0].startswith("#") and words[0] != "processors":
            found.append(Line(number, text.strip(), []))
    return found


def replies_in(output: str) -> Iterator[list[str]]:
    """The replies of a run, one after the other: a table has a line for each row too."""
    lines = iter(output.splitlines())
    for line in lines:
        rows = int(line.split()[1]) if line.startswith("table ") else 0
        yield [line] + list(itertools.islice(lines, rows))


def frames(answer: list[str]) -> dict[str, set[str]]:
    """What a page shows: its frames, each with its rights; those of a frame told twice together."""
    pairs = [word.split(":") for word in answer[0].split()[1:] if word != "none"]
    shown: dict[str, set[str]] = {}
    for frame, rights in pairs:
        shown.setdefault(frame, set()).update(set(rights) - {"-"})
    return shown


def is_less(line: Line, reply: list[str]) -> bool:
    """Whether the kernel shows of a page some of what the database shows, and nothing else."""
    if not all(PAGE_ANSWER.fullmatch(answer[0]) for answer in (line.shown, reply)):
        return False
    if len(line.shown) > 1 or line.shown[0].split()[0] != line.word():
        return False
    database = frames(reply)
    return all(rights <= database.get(frame, set()) for frame, rights in frames(line.shown).items())


def last_change(replayed: list[tuple[Line, list[str]]], processor: str) -> Optional[Line]:
    """The last line that changed a processor's copy."""
    changes = (
        line
        for line, reply in reversed(replayed)
        if line.word() in ISSUES + TAKES and line.processor() == processor
        if reply[0] not in NOTHING and not reply[0].startswith("refused")
    )
    return next(changes, None)


def tell(line: Line, reply: list[str], change: Optional[Line]) -> None:
    """Tells a difference."""
    print("line %d: %s" % (line.number, line.text))
    print("kernel:   %s" % "\n          ".join(line.shown))
    print("database: %s" % "\n          ".join(reply))
    if change:
        which = (line.processor(), change.number, change.text)
        print("processor %s was last changed by line %d: %s" % which)


def compare(lines: list[Line], output: str, exact: bool) -> int:
    """Compares answers with replies until one differs. A faulty line's reply is the last one."""
    replies = list(replies_in(output))
    fault = replies.pop()[0] if replies and replies[-1][0].startswith("line ") else None
    if not fault and len(replies) != len(lines):
        print("the replay has %d replies to %d lines" % (len(replies), len(lines)))
        return 2
    replayed = list(zip(lines, replies))
    less = 0
    for place, (line, reply) in enumerate(replayed):
        if line.shown and line.shown != reply:
            if exact or not is_less(line, reply):
                tell(line, reply, last_change(replayed[:place], line.processor()))
                return 1
            less += 1
    if fault:
        print("the log is no script: %s" % fault)
        return 2
    compared = sum(1 for line, _ in replayed if line.shown)
    if not compared:
        print("the log has no answer to compare")
        return 2
    print("no difference: %d answers compared, %d of them show less" % (compared, less))
    return 0


def main() -> int:
    parser = argparse.ArgumentParser(description="Tells the first difference of a kernel's log.")
    parser.add_argument("--exact", action="store_true", help="also tell where a page shows less")
    parser.add_argument("log")
    chosen = parser.parse_args()
    program = os.path.abspath(os.environ.get("L4MAP", BUILT))
    if not os.access(program, os.X_OK):
        print("%s is not there: ./l4map builds it, and L4MAP names another" % program)
        return 2
    try:
        with open(chosen.log, "rb") as file:
            log = file.read()
    except OSError as error:
        print(error)
        return 2
    try:
        done = subprocess.run([program, "run"], input=log, capture_output=True)
    except OSError as error:
        print(error)
        return 2
    if done.returncode > 1 or done.returncode < 0:
        print("the replay ended with status %d" % done.returncode)
        sys.stderr.buffer.write(done.stderr)
        return 2
    return compare(lines_in(log.decode(errors="replace")), done.stdout.decode(), chosen.exact)


if __name__ == "__main__":
    sys.exit(main())
