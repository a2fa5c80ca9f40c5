"""Faults that the sums have to report: the last line and the status of the driver and of `all`."""

import contextlib
import io
import os
import shutil
import subprocess
import sys
from typing import NamedTuple

from driver.program import TESTS, Program
from driver.tally import Tally
from planted.faults import Fault, Scene, wrapped

LIMIT = 120
FAILED = "^[0-9]+ passed, [1-9][0-9]* failed$"

# Answers nothing, and asks for memory once.
SILENT = """
#include <stdlib.h>
int main(void) { free(malloc(64)); return 0; }
"""


class Part(NamedTuple):
    """What a part of `all` tells, and its status."""

    told: str
    status: int


# The parts of `all`, in order, and what they tell where all is well.
PARTS = ["rt", os.path.join("tests", "run.py"), os.path.join("tests", "examples.sh"),
         os.path.join("tests", "c", "run.sh")]
WELL, ALSO_WELL = Part("3 passed, 0 failed", 0), Part("20 passed, 0 failed", 0)
EXAMPLES, LIBRARY = Part("5 passed, 0 failed", 0), Part("7 passed, 0 failed", 0)

# Name, the last line, and what the parts tell; those that are not named are well.
SUMS = [
    ("a first part that fails", "2 passed, 1 failed", Part("2 passed, 1 failed", 1)),
    ("a first part that fails without a failure", "3 passed, 1 failed", Part(WELL.told, 1)),
    ("a first part without a sum", "0 passed, 1 failed", Part("well", 0)),
    ("a first part without a word", "0 passed, 1 failed", Part("", 1)),
    ("a second part that fails", "34 passed, 1 failed", WELL, Part("19 passed, 1 failed", 1)),
    ("a second part without a sum", "15 passed, 1 failed", WELL, Part("well", 0)),
    ("a third part that fails", "34 passed, 1 failed", WELL, ALSO_WELL,
     Part("4 passed, 1 failed", 1)),
    ("a fourth part that fails", "34 passed, 1 failed", WELL, ALSO_WELL, EXAMPLES,
     Part("6 passed, 1 failed", 1)),
]


def sums_faults() -> list[Fault]:
    return [
        Fault("sums", "as it is", None, all_well),
        Fault("sums", "a program that is not there", "is not there: .*\n0 passed, 1 failed",
              absent),
        Fault("sums", "rows of a program that is silent", FAILED,
              lambda scene: driver_on(wrapped(scene, "silent", "exit 0"), "rows")),
        Fault("sums", "refusals of a program that is silent", FAILED,
              lambda scene: driver_on(silent(scene, "refusals"), "refusals")),
        Fault("sums", "streams of a program that is silent", FAILED,
              lambda scene: driver_on(silent(scene, "streams"), "streams")),
        Fault("sums", "an archive that is not built", "^28 passed, 1 failed$",
              lambda scene: run_all_of(scene, "no-archive", [], Part("", 1))),
    ] + [by_parts(name, last, told) for name, last, *told in SUMS]


def silent(scene: Scene, kind: str) -> Program:
    """A compiled program that answers nothing, for tests of this kind."""
    path = os.path.join(scene.folder, "silent-" + kind)
    with open(path + ".c", "w") as file:
        file.write(SILENT)
    subprocess.run([*scene.interposer.compiler, "-o", path, path + ".c"], check=True)
    return Program(path)


def absent(scene: Scene) -> Tally:
    return driver_on(Program(os.path.join(scene.folder, "absent")), "rows")


def driver_on(program: Program, kind: str) -> Tally:
    """Runs one kind of tests, as anyone does."""
    command = [sys.executable, os.path.join(TESTS, "run.py"), kind, "--short"]
    return tally_of(command + ["--program", program.path])


def all_well(scene: Scene) -> Tally:
    """All parts are well, and the sum is theirs."""
    report = io.StringIO()
    with contextlib.redirect_stdout(report):
        tally = run_all_of(scene, "well", [])
    if report.getvalue().rstrip().split("\n")[-1] != "35 passed, 0 failed":
        tally.failed += 1
    return tally


def by_parts(name: str, last: str, told: list[Part]) -> Fault:
    """Parts of `all`, of which one may tell a failure, or nothing."""
    return Fault("sums", name, "^%s$" % last, lambda scene: run_all_of(scene, name, told))


def run_all_of(
    scene: Scene, name: str, told: list[Part], archive: Part = Part("", 0)
) -> Tally:
    """Runs `all` in a folder where its parts and the builder of the archive are others. The first
    parts tell what is said here, and the rest is well."""
    top = os.path.join(scene.folder, "all-" + name.replace(" ", "-"))
    os.makedirs(os.path.join(top, "tests", "c"))
    shutil.copy(os.path.join(TESTS, "all"), os.path.join(top, "tests"))
    write_part(os.path.join(top, "tests", "archive.sh"), archive)
    well = [WELL, ALSO_WELL, EXAMPLES, LIBRARY]
    for path, part in zip(PARTS, told + well[len(told):]):
        write_part(os.path.join(top, path), part)
    return tally_of([os.path.join(top, "tests", "all")], PATH=top + ":" + os.environ["PATH"])


def write_part(path: str, part: Part) -> None:
    write_script(path, "echo some lines\necho '%s'\nexit %d" % part)


def write_script(path: str, text: str) -> None:
    with open(path, "w") as file:
        file.write("#!/bin/sh\n%s\n" % text)
    os.chmod(path, 0o755)


def tally_of(command: list[str], **added: str) -> Tally:
    """One failure where the status tells one."""
    done = subprocess.run(
        command, timeout=LIMIT, env={**os.environ, **added},
        stdout=subprocess.PIPE, stderr=subprocess.STDOUT, text=True,
    )
    print(done.stdout)
    tally = Tally("sums")
    tally.passed, tally.failed = (1, 0) if done.returncode == 0 else (0, 1)
    return tally
