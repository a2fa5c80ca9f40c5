"""One copy: what its commands issue, what it takes, and when it refuses."""

from typing import NamedTuple, Optional

from model.facts import NUMBERS, Cut, End, Facts, Name, Operation, Record, fault_of
from model.places import MEMORY, Item, Pages, Place, Space, spell_space, transfer_of
from model.rights import has_some_right, holders, pages_of

OPERATIONS = 65536


class Refusal(Exception):
    """A command that is refused, with what is told behind `refused`."""


class Piece(NamedTuple):
    """A part of a source that a holder has."""

    holder: Name
    pages: Pages


def place_of(pages: Pages) -> Place:
    """Pages that are common to places are a place."""
    return Place(pages.first, pages.count().bit_length() - 1 + 12)


class Copy:
    """A processor's copy, with its operations in order of arrival."""

    def __init__(self, processor: int):
        self.processor = processor
        self.log: list[Operation] = []
        self.facts = Facts()

    # Commands

    def map(self, sender: Space, item: Item, receiver: Space, window: Optional[Place]) -> list[
        Name
    ]:
        """Issues a record for each piece that the sender holds, and gives their names."""
        self.refuse_ended(sender)
        self.refuse_ended(receiver)
        refuse_root(receiver)
        transfer = transfer_of(item, window)
        if transfer is None:
            return []
        records, number = [], max((name.number for name in self.facts.records), default=0)
        for piece in self.pieces(sender, transfer.source.pages(), item.rights):
            number += 1
            first = transfer.target.first + piece.pages.first - transfer.source.first
            place = Place(first, place_of(piece.pages).order)
            records.append(
                Record(
                    Name(number, self.processor),
                    receiver,
                    place,
                    piece.holder,
                    piece.pages.first,
                    item.rights,
                )
            )
        if records and number >= NUMBERS:
            raise Refusal("numbers-spent")
        self.refuse_more(records)
        self.issue(records)
        return [record.name for record in records]

    def unmap(self, space: Space, place: Optional[Place], rights: int, flush: bool) -> int:
        """Issues revocations, and gives how many were issued."""
        self.refuse_ended(space)
        if place is None or rights == 0:
            return 0
        cuts: list[Cut] = []
        for piece in self.met(space, place.pages()):
            cuts += self.cuts_of_children(piece, rights)
            if flush:
                cuts.append(Cut(piece.holder, place_of(piece.pages), rights))
        self.refuse_more(cuts)
        return self.issue(cuts)

    def end(self, space: Space) -> None:
        """Ends the space."""
        self.refuse_ended(space)
        refuse_root(space)
        self.refuse_more([End(space)])
        self.issue([End(space)])

    def met(self, space: Space, pages: Pages) -> list[Piece]:
        """What each holder of the space has of the pages, with rights or without."""
        met = [
            (name, pages_of(self.facts, name).meet(pages)) for name in holders(self.facts, space)
        ]
        return [Piece(name, common) for name, common in met if common is not None]

    def pieces(self, sender: Space, source: Pages, rights: int) -> list[Piece]:
        """What each holder has of the source, where it has one of the rights on one of the
        pages."""
        return [piece for piece in self.met(sender, source)
                if has_some_right(self.facts, piece.holder, piece.pages, rights)]

    def cuts_of_children(self, piece: Piece, rights: int) -> list[Cut]:
        """One revocation for each child that is held and whose source meets the piece, in order
        of name."""
        cuts = []
        for name in sorted(self.facts.records):
            child = self.facts.records[name]
            common = child.source_pages().meet(piece.pages)
            if child.parent == piece.holder and common is not None:
                part = place_of(common)
                cuts.append(
                    Cut(
                        name,
                        Place(child.place.first + part.first - child.source, part.order),
                        rights,
                    )
                )
        return cuts

    def issue(self, operations: list) -> int:
        """Those that are new at their turn are kept; gives how many."""
        kept = 0
        for operation in operations:
            if self.facts.is_new(operation):
                self.facts.add(operation)
                self.log.append(operation)
                kept += 1
        return kept

    # What others issued

    def take(self, batch: list[Operation]) -> int:
        """Takes a list of operations as a whole, and gives how many were new at their turn."""
        for place, operation in enumerate(batch):
            fault = fault_of(operation)
            if fault is not None:
                raise Refusal("bad %d %s" % (place, fault))
        self.refuse_clash(batch)
        self.refuse_more(batch)
        return self.issue(batch)

    def refuse_clash(self, batch: list[Operation]) -> None:
        """Refuses the least name of two different records, one of them in the batch."""
        records, clashes = dict(self.facts.records), []
        for operation in batch:
            if isinstance(operation, Record) and records.setdefault(
                operation.name, operation
            ) != operation:
                clashes.append(operation.name)
        if clashes:
            raise Refusal("clash %d.%d" % min(clashes))

    def refuse_more(self, operations: list) -> None:
        """Refuses more operations than a copy may hold; those that are new to the copy as it
        stands count."""
        new = sum(1 for operation in operations if self.facts.is_new(operation))
        if len(self.log) + new > OPERATIONS:
            raise Refusal("full")

    def refuse_ended(self, space: Space) -> None:
        if space in self.facts.ended:
            raise Refusal("space-ended " + spell_space(space))

    def free_version(self, number: int) -> int:
        """The least version of the number whose end is not held."""
        version = 0
        while Space(number, version) in self.facts.ended:
            version += 1
        return version


def refuse_root(space: Space) -> None:
    """Nothing is mapped into a version of the first number, and none of them ends."""
    if space.number == MEMORY.number:
        raise Refusal("root-space")
