"""Operations, when they are well-formed, and the facts that a list of them says."""

from typing import Iterator, NamedTuple, Optional, Union

from model.places import MEMORY, PAGES, Pages, Place, Space

NUMBERS = 1 << 40
PROCESSORS = 64


class Name(NamedTuple):
    """A record's name, ordered by number and then by processor."""

    number: int
    processor: int


ROOT = Name(0, 0)


class Record(NamedTuple):
    """At `place` in `space` there is what `parent` has from the page `source` on, with these
    rights at most."""

    name: Name
    space: Space
    place: Place
    parent: Name
    source: int
    rights: int

    def source_pages(self) -> Pages:
        return Pages(self.source, self.source + self.place.pages().count())


class Cut(NamedTuple):
    """These rights are revoked from the record `target` at the pages of `place`."""

    target: Name
    place: Place
    rights: int


class End(NamedTuple):
    """The space has ended, for good."""

    space: Space


Operation = Union[Record, Cut, End]


def fault_of(operation: Operation) -> Optional[str]:
    """Why the operation is not well-formed, or None."""
    if isinstance(operation, Record):
        return fault_of_record(operation)
    if isinstance(operation, Cut):
        return fault_of_names([operation.target])
    return "root-space" if operation.space.number == MEMORY.number else None


def fault_of_names(referred: list[Name], own: Optional[Name] = None) -> Optional[str]:
    """The faults of names: one that is referred to may be the root's, a record's own may not."""
    owns = [] if own is None else [own]
    if any(name != ROOT and not is_number(name.number) for name in referred):
        return "bad-number"
    if any(not is_number(name.number) for name in owns):
        return "bad-number"
    if any(name.processor >= PROCESSORS for name in owns + referred):
        return "bad-processor"
    return None


def is_number(number: int) -> bool:
    return 1 <= number < NUMBERS


def fault_of_record(record: Record) -> Optional[str]:
    fault = fault_of_names([record.parent], record.name)
    if fault is not None:
        return fault
    if record.parent.number >= record.name.number:
        return "parent-not-before"
    if record.source % record.place.pages().count() != 0:
        return "source-unaligned"
    if record.space.number == MEMORY.number:
        return "root-space"
    return "page-out-of-space" if record.source >= PAGES else None


class Facts:
    """What operations say: records by name, what is revoked from each name, and the spaces that
    have ended."""

    def __init__(self):
        self.records: dict[Name, Record] = {}
        self.cuts: dict[Name, list[Cut]] = {}
        self.ended: set[Space] = set()

    def add(self, operation: Operation) -> None:
        if isinstance(operation, Record):
            self.records[operation.name] = operation
        elif isinstance(operation, Cut):
            self.cuts.setdefault(operation.target, []).append(operation)
        else:
            self.ended.add(operation.space)

    def is_new(self, operation: Operation) -> bool:
        """Whether the operation has an atom that is not held. A record here is no other than one
        that is held."""
        if isinstance(operation, Record):
            return operation.name not in self.records
        if isinstance(operation, End):
            return operation.space not in self.ended
        starts = [operation.place.first]
        starts += [
            page
            for page in self.cut_bounds(operation.target)
            if operation.place.pages().holds(page)
        ]
        return any(operation.rights & ~self.revoked(operation.target, page) for page in starts)

    def revoked(self, name: Name, page: int) -> int:
        """The rights that are revoked from the record at the page."""
        total = 0
        for cut in self.cuts.get(name, ()):
            total |= cut.rights if cut.place.pages().holds(page) else 0
        return total

    def cut_bounds(self, name: Name) -> set[int]:
        """The pages at which what is revoked from the record may change."""
        pages = [cut.place.pages() for cut in self.cuts.get(name, ())]
        return {run.first for run in pages} | {run.end for run in pages}

    def cut_runs(self, name: Name) -> list[tuple[Pages, int]]:
        """The maximal runs of pages from which the same rights are revoked, and not none, with
        these rights."""
        bounds = sorted(self.cut_bounds(name))
        runs: list[tuple[Pages, int]] = []
        for first, end in zip(bounds, bounds[1:]):
            rights = self.revoked(name, first)
            if runs and runs[-1][0].end == first and runs[-1][1] == rights:
                runs[-1] = (Pages(runs[-1][0].first, end), rights)
            elif rights:
                runs.append((Pages(first, end), rights))
        return runs

    def all_cut_runs(self) -> dict[Name, list[tuple[Pages, int]]]:
        """The runs of each name from which something is revoked, in order of name."""
        runs = ((name, self.cut_runs(name)) for name in sorted(self.cuts))
        return {name: of_name for name, of_name in runs if of_name}

    def is_same(self, other: "Facts") -> bool:
        """Whether both have the same atoms."""
        return (self.records == other.records and self.ended == other.ended
                and self.all_cut_runs() == other.all_cut_runs())

    def operations(self) -> Iterator[Operation]:
        """Operations that say all that is held."""
        yield from self.records.values()
        for cuts in self.cuts.values():
            yield from cuts
        yield from (End(space) for space in self.ended)

    def covers(self, other: "Facts") -> bool:
        """Whether all atoms of the other are held."""
        return not any(
            self.differs(operation) or self.is_new(operation) for operation in other.operations()
        )

    def differs(self, operation: Operation) -> bool:
        """Whether it is a record, and another one of its name is held."""
        return isinstance(operation, Record) and self.records.get(
            operation.name, operation
        ) != operation
