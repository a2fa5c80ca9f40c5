"""Programs that are wrong beside the library that stands before the C library: what a run of the
program as it is gave is changed before the tests see it."""

from typing import Callable, NamedTuple, Optional

from driver.program import Outcome, Program


class Asked(NamedTuple):
    """What a run was given: arguments, standard input, added variables, and streams."""

    arguments: list[str]
    source: bytes
    added: dict[str, str]
    streams: dict

    def wants(self, name: str) -> bool:
        """Whether the library was asked for this, as `read_fail`."""
        return self.added.get("INTERPOSE_" + name.upper(), "0") != "0"


Change = Callable[[Asked, Outcome], Outcome]


class Changed(Program):
    """The program at a path, with a change to what each run gives."""

    def __init__(self, path: str, change: Change):
        super().__init__(path)
        self.change = change

    def run(self, arguments: list[str], source: bytes = b"", limit: float = 60,
            added: Optional[dict] = None, **streams) -> Outcome:
        found = super().run(arguments, source, limit, added, **streams)
        return self.change(Asked(arguments, source, added or {}, streams), found)


class Bare(Program):
    """The program at a path, before which no library stands."""

    def run(self, arguments: list[str], source: bytes = b"", limit: float = 60,
            added: Optional[dict] = None, **streams) -> Outcome:
        return super().run(arguments, source, limit, None, **streams)


def where(holds: Callable[[Asked, Outcome], bool], **fields) -> Change:
    """Other fields of the outcomes where this holds."""
    return lambda asked, found: found._replace(**fields) if holds(asked, found) else found


def longer(holds: Callable[[Asked, Outcome], bool]) -> Change:
    """One more reply where this holds."""
    return lambda asked, found: (
        found._replace(output=found.output + b"no more\n") if holds(asked, found) else found
    )
