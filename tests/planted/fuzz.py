"""Faults that `fuzz` has to report: wrong programs, and models of which one line is another.

Each is tried on one random script after the other, from a seed on that is known to meet it, until
it is reported. Where the random scripts have changed, that may take some seeds more.
"""

import os
import re
import shutil
import subprocess
import sys
from typing import Iterator, NamedTuple

from driver.fuzz import fuzz, why_different
from driver.program import TESTS, Program
from driver.tally import Met, Tally
from maker.scripts import case_of
from planted.faults import Fault, Scene, wrapped

MOST_SEEDS = 40
LIMIT = 120
WHERE = "seed [0-9]* .(run|threads), [a-z ]*.: "

# Name, what is told behind the seed, a seed, and the wrong program.
PROGRAMS = [
    ("a reply is changed", "reply [0-9]*: wanted b'records none', found b'Records none'", 1,
     '"$program" "$@" | sed "s/^records none/Records none/"'),
    ("another status", "status wanted [01], found 3", 1, '"$program" "$@"; exit 3'),
    ("something on the errors", "errors wanted b'', found b'warning", 1,
     'echo warning >&2; exec "$program" "$@"'),
    ("an end by a signal", "status wanted [01], found -9", 1, '"$program" "$@"; kill -KILL $$'),
    ("a script that is reduced to its lines",
     "reply 1: .*\n *b'processors [^\n]*'\n *b'end [^\n]*'$", 1,
     '"$program" "$@" | sed "s/^ended /left /"'),
]


class Line(NamedTuple):
    """A line of a module of the model, another one in its place, and a seed that meets it."""

    module: str
    name: str
    line: str
    other: str
    seed: int


LINES = [
    Line("places", "a send base is counted in pages", "index = item.send_base >> order",
         "index = item.send_base >> PAGE_ORDER", 614),
    Line("places", "an fpage need not be aligned", "if address % (1 << order) != 0:", "if False:",
         3145),
    Line("facts", "what is revoked again is new", "& ~self.revoked(operation.target, page) for",
         "for", 3980),
    Line("facts", "a parent may have the record's number",
         "if record.parent.number >= record.name.number:",
         "if record.parent.number > record.name.number:", 4440),
    Line("facts", "copies are the same whatever is revoked",
         "and self.all_cut_runs() == other.all_cut_runs())", ")", 1207),
    Line("rights", "a space that has ended has rights", "or record.space in facts.ended or not",
         "or not", 1628),
    Line("rights", "a record has what its parent lacks",
         "& record.rights & rights_of(facts, record.parent, source)", "& record.rights", 1150),
    Line("copies", "a record's number is how many there are",
         "max((name.number for name in self.facts.records), default=0)", "len(self.facts.records)",
         4738),
    Line("copies", "what has no rights is handed on",
         "                if has_some_right(self.facts, piece.holder, piece.pages, rights)]", "]",
         2985),
    Line("copies", "memory's number has later versions", "if space.number == MEMORY.number:",
         "if space == MEMORY:", 2225),
    Line("copies", "children lose in the order in which they came",
         "for name in sorted(self.facts.records):", "for name in self.facts.records:", 415),
    Line("grammar", "a comment is a word alone", "words[0].startswith(b\"#\")",
         "words[0] == b\"#\"", 1051),
    Line("spelling", "an address has no limit", "if address >= 1 << 48:", "if False:", 3772),
    Line("kernel_words", "a bit that is reserved is not looked at", "if second // 8 % 2 != 0:",
         "if False:", 3680),
    Line("script", "a carriage return stays",
         "return line[:-1] if line.endswith(b\"\\r\") else line", "return line", 1320),
    Line("script", "the tree goes on with what others did",
         "self.has_taken or copy.processor == 0", "self.has_taken", 2615),
    Line("snapshot", "a text may have more keys", "shape_unless(set(value) == KEYS)",
         "shape_unless(set(value) >= KEYS)", 3461),
    Line("json_text", "-0 is a whole number", "if digits.startswith(\"-\") or",
         "if digits.startswith(\"-\") and digits != \"-0\" or", 2423),
    Line("table", "rows that go on stay apart", "if rows and rows[-1].goes_on(row):", "if False:",
         3140),
    Line("tree", "an unmap without flush is one with it", "in below if flush else below[1:]:",
         "in below:", 1369),
    Line("tree", "a map goes into a page that has a node",
         "run.space == receiver and run.pages.meet(new.pages)", "False", 9),
    Line("tree", "a map has no widest place", "if transfer.source.order > WIDEST_ORDER:",
         "if False:", 16),
    Line("tree", "an unmap has no widest place", "if place.order > WIDEST_ORDER:", "if False:", 7),
    Line("threads", "a refusal ends a processor's commands", "            continue",
         "            break", 2619),
]


def fuzz_faults() -> list[Fault]:
    return [
        Fault("fuzz", "as it is", None, on_seeds),
        Fault("fuzz", "model as it is", None, model_as_it_is),
    ] + [
        by_program(*row) for row in PROGRAMS
    ] + [
        Fault("fuzz", "a number of processors that is not told", "errors wanted b'run fault count",
              without_count)
    ] + [by_line(line) for line in LINES]


def by_program(name: str, told: str, seed: int, text: str) -> Fault:
    """A wrong program that runs one script after the other."""
    def run(scene: Scene) -> Tally:
        program = wrapped(scene, "fuzz " + name, text)
        return first_failed(fuzz(program, 1, seed + step, may_be_great=False)
                            for step in range(MOST_SEEDS))
    return Fault("fuzz", name, WHERE + told, run)


def first_failed(tallies: Iterator[Tally]) -> Tally:
    """The first tally with a failure, or the last one."""
    for tally in tallies:
        if tally.failed:
            break
    return tally


def without_count(scene: Scene) -> Tally:
    """A script for more processors than there are threads, whose errors are lost."""
    program = wrapped(scene, "fuzz without count", 'exec "$program" "$@" 2>/dev/null')
    why, tally = why_different(program, "threads", b"processors 5\n"), Tally("fuzz")
    tally.check(Met(why is None, "five processors", str(why)))
    return tally


def by_line(line: Line) -> Fault:
    """A model with another line, on one script after the other."""
    def run(scene: Scene) -> Tally:
        folder = copied(scene, "%s-%d" % (line.module, LINES.index(line)))
        path = os.path.join(folder, "model", line.module + ".py")
        with open(path) as file:
            text = file.read()
        if text.count(line.line) != 1:
            raise ValueError("%s has not one line %r" % (path, line.line))
        with open(path, "w") as file:
            file.write(text.replace(line.line, line.other))
        return first_failed(run_copy(scene.program, folder, line.seed + step)
                            for step in range(MOST_SEEDS))
    return Fault("fuzz", "%s: %s" % (line.module, line.name), WHERE, run)


def model_as_it_is(scene: Scene) -> Tally:
    """A copy of the driver, with its model, on a script that another model is tried on."""
    return run_copy(scene.program, copied(scene, "model-as-it-is"), LINES[0].seed)


def on_seeds(scene: Scene) -> Tally:
    """The program as it is, on the scripts that other models are tried on."""
    tally = Tally("fuzz")
    for line in LINES:
        case = case_of(line.seed, may_be_great=False)
        why = why_different(scene.program, case.command, case.text)
        tally.check(Met(why is None, "seed %d" % line.seed, str(why)))
    return tally


def copied(scene: Scene, name: str) -> str:
    """A copy of the driver, with its model, in a folder of this name."""
    folder = os.path.join(scene.folder, name)
    shutil.copytree(TESTS, folder, ignore=shutil.ignore_patterns("__pycache__", "rows"))
    return folder


def run_copy(program: Program, folder: str, seed: int) -> Tally:
    """Runs a copy of the driver on one random script, as anyone does."""
    command = [sys.executable, os.path.join(folder, "run.py"), "fuzz", "--short", "--count", "1"]
    done = subprocess.run(
        command + ["--seed", str(seed), "--program", program.path],
        timeout=LIMIT, stdout=subprocess.PIPE, stderr=subprocess.STDOUT, text=True,
    )
    print(done.stdout)
    return summed(done.stdout, done.returncode)


def summed(text: str, status: int) -> Tally:
    """What the last line says. A status that does not go with it is no sum."""
    last = (text.splitlines() or [""])[-1]
    sum_of = re.fullmatch("([0-9]+) passed, ([0-9]+) failed", last)
    if sum_of is None or (int(sum_of[2]) == 0) != (status == 0):
        raise ValueError("the last line is %r, the status %d" % (last, status))
    tally = Tally("fuzz")
    tally.passed, tally.failed = int(sum_of[1]), int(sum_of[2])
    return tally
