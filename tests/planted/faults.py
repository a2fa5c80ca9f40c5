"""What a planted fault is, and what it is tried with."""

import contextlib
import io
import os
import re
import traceback
from typing import Callable, NamedTuple, Optional

from driver.interposer import Interposer
from driver.program import Program
from driver.scripts import Script, examples, rows
from driver.tally import Met, Tally

SHOWN = 600

# The smallest scripts of which something is told.
ONE_END = Script("one_end", ["run"], b"processors 1\nend 0 1\n", b"ended 1\n", 0)
END_AND_SAVE = Script("end_and_save", ["run"], b"processors 1\nend 0 1\nsave 0\n",
                      b"ended 1\n"
                      b'snapshot {"cuts":[],"ended":[[1,0]],"records":[],"version":3}\n', 0)
ONE_THREAD = Script("one_thread", ["threads"], b"processors 1\nend 0 1\n",
                    b"processor 0 commands 1 issued 1\nsame yes\n", 0)


class Scene(NamedTuple):
    """The program as it is, the library before the C library, and a folder for files."""

    program: Program
    interposer: Optional[Interposer]
    folder: str


class Fault(NamedTuple):
    """A fault: the kind of tests that has to report it, its name, what the report has to say (a
    regular expression; None: nothing is planted, and nothing may be reported), and the tests with
    it."""

    kind: str
    name: str
    told: Optional[str]
    run: Callable[[Scene], Tally]


def is_reported(fault: Fault, scene: Scene) -> Met:
    """Whether the tests report the fault as they should."""
    report, name = io.StringIO(), "%s, %s" % (fault.kind, fault.name)
    try:
        with contextlib.redirect_stdout(report):
            tally = fault.run(scene)
    except Exception:
        return Met(False, name, traceback.format_exc())
    text = report.getvalue()
    if fault.told is None:
        holds = tally.failed == 0 and tally.passed > 0
    else:
        holds = tally.failed > 0 and re.search(fault.told, text, re.MULTILINE) is not None
    found = "%d failed, and told: %s" % (tally.failed, text[-SHOWN:].strip() or "nothing")
    return Met(holds, name, found)


def script_of(name: str) -> Script:
    """The row or example of this name."""
    return next(script for script in rows() + examples() if script.name == name)


def wrapped(scene: Scene, name: str, text: str) -> Program:
    """A program that is the shell script `text`, where `"$program"` is the program as it is. Of a
    pipe the status is the program's."""
    path = os.path.join(scene.folder, re.sub("[^a-z]+", "-", name))
    with open(path, "w") as file:
        file.write("#!/usr/bin/env bash\nset -o pipefail\n")
        file.write("program='%s'\n%s\n" % (scene.program.path, text))
    os.chmod(path, 0o755)
    return Program(path)
