#!/usr/bin/env python3
"""Runs the commands that a text shows, and compares what they write with what the text shows.

    tests/shown.py TEXT PROGRAM

A command stands behind `$ ` in an indented block, and the lines below it are what it writes. A block
that begins with `processors` is a script, and what it writes stands below the word `writes`. The
commands run in a folder that has the examples and PROGRAM as `l4map`. `many-machines/run.sh` is
left out, since its counts differ from run to run, and `make`. The status is 0 only where all is as
shown.
"""

import os
import re
import subprocess
import sys
import tempfile

TOP = os.path.dirname(os.path.dirname(os.path.abspath(__file__)))
LEFT_OUT = ("many-machines/run.sh", "make ")
SECONDS = 60


def commands_in(text: str) -> list[tuple[str, list[str]]]:
    """The commands of a text, each with the lines that stand below it in its block, without what
    indents the block."""
    found: list[tuple[str, list[str]]] = []
    is_below, indent = False, 0
    for line in text.split("\n"):
        if line.startswith("    ") and line.lstrip().startswith("$ "):
            found.append((line.strip()[2:], []))
            is_below, indent = True, len(line) - len(line.lstrip())
        elif line.startswith("    ") and is_below:
            found[-1][1].append(line.rstrip()[indent:])
        else:
            is_below = False
    return found


def scripts_in(text: str) -> list[tuple[str, list[str]]]:
    """The scripts of a text, as commands, each with what the text says that it writes."""
    found = re.findall(
        r"^    (processors .*\n(?:    .*\n)+)\nwrites\n\n((?:    .*\n)+)", text, re.MULTILINE
    )
    return [command_of(script.replace("\n    ", "\n"), written) for script, written in found]


def command_of(script: str, written: str) -> tuple[str, list[str]]:
    """The command that runs a script, and the lines that it is said to write."""
    lines = [line[4:] for line in written.splitlines()]
    name = "threads" if lines[0].startswith("processor 0 ") else "run"
    return "./l4map %s <<'end'\n%send" % (name, script), lines


def written_by(command: str, folder: str) -> list[str]:
    """What a command writes, line by line."""
    done = subprocess.run(
        ["sh", "-c", command],
        cwd=folder,
        env={**os.environ, "L4MAP": os.path.join(folder, "l4map")},
        stdout=subprocess.PIPE,
        text=True,
        timeout=SECONDS,
    )
    return [line.rstrip() for line in done.stdout.splitlines()]


def main() -> int:
    path, program = sys.argv[1:]
    with open(path) as file:
        text = file.read()
    commands = commands_in(text) + scripts_in(text)
    differences = 0
    with tempfile.TemporaryDirectory() as folder:
        os.symlink(os.path.join(TOP, "examples"), os.path.join(folder, "examples"))
        os.symlink(os.path.abspath(program), os.path.join(folder, "l4map"))
        for command, shown in commands:
            is_left_out = any(words in command for words in LEFT_OUT)
            written = shown if is_left_out else written_by(command, folder)
            if written != shown:
                differences += 1
                print("%s\n  shown:   %s\n  written: %s" % (command, shown, written))
    print("%d commands, %d write something else" % (len(commands), differences))
    return 0 if commands and not differences else 1


if __name__ == "__main__":
    sys.exit(main())
