"""One run of the program, met from outside."""

import itertools
import os
import subprocess
from typing import NamedTuple, Optional

TESTS = os.path.dirname(os.path.dirname(os.path.abspath(__file__)))
TOP = os.path.dirname(TESTS)
BUILT = os.path.join(TOP, "crates", "l4map", "out", "l4map")

NO_MEMORY = b"l4map: out of memory\n"
READ_FAILED = b"l4map: read failed\n"
WRITE_FAILED = b"l4map: write failed\n"


class Outcome(NamedTuple):
    """What a run wrote, and its status: below 0 where a signal ended it, None where it took too
    long."""

    status: Optional[int]
    output: bytes
    errors: bytes


class Program:
    """The program at a path."""

    def __init__(self, path: str = BUILT):
        self.path = os.path.abspath(path)

    def is_there(self) -> bool:
        return os.access(self.path, os.X_OK)

    def run(
        self,
        arguments: list[str],
        source: bytes = b"",
        limit: float = 60,
        added: Optional[dict] = None,
        **streams,
    ) -> Outcome:
        """Runs it with these arguments, standard input, seconds, added variables, and streams in
        place of pipes."""
        options = {"stdout": subprocess.PIPE, "stderr": subprocess.PIPE, **streams}
        if "stdin" not in options:
            options["input"] = source
        try:
            done = subprocess.run(
                [self.path] + arguments,
                timeout=limit,
                env={**os.environ, **(added or {})},
                **options,
            )
        except subprocess.TimeoutExpired as late:
            return Outcome(None, late.stdout or b"", late.stderr or b"")
        return Outcome(done.returncode, done.stdout or b"", done.stderr or b"")


def difference(wanted: Outcome, found: Outcome) -> str:
    """How two outcomes differ: the first line, the status and the errors."""
    parts = [line_difference(wanted.output, found.output)] if wanted.output != found.output else []
    if wanted.status != found.status:
        parts.append("status wanted %s, found %s" % (wanted.status, found.status))
    if wanted.errors != found.errors:
        parts.append("errors wanted %r, found %r" % (wanted.errors, found.errors[:200]))
    return "; ".join(parts)


def line_difference(wanted: bytes, found: bytes) -> str:
    """The first line in which two outputs differ."""
    pairs = itertools.zip_longest(wanted.split(b"\n"), found.split(b"\n"), fillvalue=b"(no more)")
    number, (one, other) = next(pair for pair in enumerate(pairs, 1) if pair[1][0] != pair[1][1])
    return "reply %d: wanted %r, found %r" % (number, one[:200], other[:200])
