"""How many cases passed, and which failed."""

import sys
from typing import Iterable, NamedTuple

TOLD = 20


class Met(NamedTuple):
    """A case that was run: whether it holds, its name, and what was found."""

    holds: bool
    name: str
    found: str


class Tally:
    """Counts the cases of one kind, and tells the first that fail."""

    def __init__(self, kind: str):
        self.kind = kind
        self.passed = 0
        self.failed = 0

    def is_telling(self) -> bool:
        """Whether the next case that fails is told."""
        return self.failed < TOLD

    def check(self, met: Met) -> None:
        """Counts a case; where it fails, tells its name and what was found."""
        if met.holds:
            self.passed += 1
            return
        if self.is_telling():
            print("%s: %s: %s" % (self.kind, met.name, met.found), flush=True)
        self.failed += 1

    def check_all(self, cases: Iterable[Met]) -> None:
        for met in cases:
            self.check(met)

    def skip(self, why: str) -> "Tally":
        """Tells that cases are left out, and why."""
        print("%s: skipped: %s" % (self.kind, why), flush=True)
        return self

    def end(self, what: str) -> "Tally":
        """Tells what was run."""
        print("%s: %s" % (self.kind, what))
        print("%s: %d passed, %d failed" % (self.kind, self.passed, self.failed), flush=True)
        return self


def total(tallies: list[Tally]) -> int:
    """Tells the sum of all kinds as the last line, and gives the status to end with."""
    passed = sum(tally.passed for tally in tallies)
    failed = sum(tally.failed for tally in tallies)
    print("%d passed, %d failed" % (passed, failed))
    sys.stdout.flush()
    return 0 if failed == 0 else 1
