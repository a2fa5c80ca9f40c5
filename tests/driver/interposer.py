"""The library that stands before the C library in a run: it refuses memory and threads, and
makes streams fail."""

import functools
import os
import shlex
import shutil
import struct
import subprocess
import tempfile
import threading
from typing import NamedTuple, Optional

from driver.program import TESTS, Outcome, Program

SOURCE = os.path.join(TESTS, "c", "interpose.c")


class Counts(NamedTuple):
    """How many calls of each kind a run made, and how many of them were refused or failed; and how
    many bytes the allocations asked for that were not."""

    allocations: int
    refused_allocations: int
    threads: int
    refused_threads: int
    reads: int
    failed_reads: int
    writes: int
    failed_writes: int
    bytes: int


LAYOUT = struct.Struct("=%dQ" % len(Counts._fields))


class Interposer:
    """The library, compiled for this machine, and a file of counters for each thread of each
    process."""

    def __init__(self, folder: str, library: str, compiler: list[str]):
        self.library = library
        self.folder = folder
        self.compiler = compiler

    def run(self, program: Program, arguments: list[str], source: bytes, limit: float = 60,
            **wanted: int) -> tuple[Outcome, Counts]:
        """Runs the program with what is wanted of the library, as `allocation=3`; tells what it
        met too."""
        report = os.path.join(self.folder, "counts-%d-%d" % (os.getpid(), threading.get_ident()))
        with open(report, "wb") as file:
            file.write(bytes(LAYOUT.size))
        added = {"INTERPOSE_" + name.upper(): str(number) for name, number in wanted.items()}
        added.update(LD_PRELOAD=self.library, INTERPOSE_REPORT=report)
        outcome = program.run(arguments, source, limit, added)
        with open(report, "rb") as file:
            return outcome, Counts(*LAYOUT.unpack(file.read()))


class Workshop:
    """Compiles the library in a folder of its own, which is gone at the end."""

    def __init__(self):
        self.folder = tempfile.mkdtemp(prefix="l4map-tests-")

    def __enter__(self) -> "Workshop":
        return self

    def __exit__(self, *_) -> None:
        shutil.rmtree(self.folder, ignore_errors=True)

    @functools.cached_property
    def interposer(self) -> Optional[Interposer]:
        """The library, compiled when it is first asked for; None where there is no C compiler."""
        found = [os.environ.get("CC"), *map(shutil.which, ["cc", "gcc", "clang"])]
        compiler = next(filter(None, found), None)
        if compiler is None:
            return None
        library = os.path.join(self.folder, "interpose.so")
        words = shlex.split(compiler)
        flags = "-shared -fPIC -O1 -Wall -Wextra".split()
        subprocess.run([*words, *flags, "-o", library, SOURCE, "-ldl"], check=True)
        return Interposer(self.folder, library, words)
