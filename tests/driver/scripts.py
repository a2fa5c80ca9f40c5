"""Stored scripts with their outputs: the rows and the examples."""

import os
from typing import Iterator, NamedTuple

from driver.program import TESTS, TOP, Outcome

ROWS = os.path.join(TESTS, "rows")
EXAMPLES = os.path.join(TOP, "examples")
# Where a script is run many times, once for each call that may fail, longer ones are left out.
LONGEST_SCRIPT = 20000


ERRORS = {
    "journal_full": b"run fault journal-full\n",
    "threaded_exchange_five_processors": b"run fault count\n",
    "threaded_exchange_no_processors": b"run fault count\n",
}


class Script(NamedTuple):
    """A script with its arguments, and with what is to be written and the status."""

    name: str
    arguments: list[str]
    source: bytes
    output: bytes
    status: int

    def outcome(self) -> Outcome:
        """What a run of it is to be."""
        return Outcome(self.status, self.output, ERRORS.get(self.name, b""))


def stored(folder: str) -> Iterator[Script]:
    """The scripts of a folder by name: NAME.l4, NAME.out, and where they are others than `run`
    and 0, .args and .status."""
    for file in sorted(os.listdir(folder)):
        name, ending = os.path.splitext(file)
        if ending == ".l4":
            path = os.path.join(folder, name)
            default = b"threads" if folder == EXAMPLES and name == "threads" else b"run"
            yield Script(
                name,
                content(path + ".args", default).decode().split(),
                content(path + ".l4"),
                content(path + ".out"),
                int(content(path + ".status", b"0")),
            )


def content(path: str, absent: bytes = b"") -> bytes:
    if not os.path.exists(path):
        return absent
    with open(path, "rb") as file:
        return file.read()


def rows() -> list[Script]:
    return list(stored(ROWS))


def examples() -> list[Script]:
    return list(stored(EXAMPLES))
