#!/usr/bin/env python3
"""A toy kernel of two processors, which logs what it does and shows (docs/CHECKING.md).

    toy_kernel.py [--bug]

Each processor has a mapping database of its own, for single pages, and page tables that are filled
when a page is touched. With --bug, a processor that takes a revocation out of a message clears the
page of the record that the message names, and forgets what came from it.
"""

import argparse
from typing import NamedTuple, Optional

Name = tuple[int, int]
ROOT: Name = (0, 0)
R, RW, W = 4, 6, 2


class Record(NamedTuple):
    """A space received a page: its name, where it stands, and the record and page it came from."""

    name: Name
    space: int
    page: int
    parent: Name
    source: int
    rights: int


class Revocation(NamedTuple):
    """Rights that are taken from a record."""

    name: Name
    rights: int


def rights_text(rights: int) -> str:
    return "".join(letter if rights & bit else "-" for letter, bit in zip("rwx", (4, 2, 1)))


class Processor:
    """One processor: what it issued and took, in order, and its page tables."""

    def __init__(self, number: int, has_bug: bool):
        self.number = number
        self.has_bug = has_bug
        self.operations: list = []
        self.records: dict[Name, Record] = {}
        self.revoked: dict[Name, int] = {}
        self.tables: dict[tuple[int, int], str] = {}
        self.sent = 0

    def hold(self, operation) -> bool:
        """Keeps an operation, if it is new."""
        if operation in self.operations:
            return False
        self.operations.append(operation)
        if isinstance(operation, Record):
            self.records[operation.name] = operation
        else:
            self.revoked[operation.name] = self.revoked.get(operation.name, 0) | operation.rights
        return True

    def live(self, name: Name) -> int:
        """The rights of a record: what it names, less what was taken from it or lacks above it."""
        if name == ROOT:
            return 7
        record = self.records.get(name)
        if record is None:
            return 0
        return record.rights & ~self.revoked.get(name, 0) & self.live(record.parent)

    def frame(self, name: Name, page: int) -> int:
        """The page of memory behind a page of a record."""
        if name == ROOT:
            return page
        return self.frame(self.records[name].parent, self.records[name].source)

    def holders(self, space: int, page: int) -> list[Name]:
        """The records of a space at a page, in order of name."""
        if space == 0:
            return [ROOT]
        return sorted(r.name for r in self.records.values() if (r.space, r.page) == (space, page))

    def children(self, name: Name, page: int) -> list[Name]:
        """The records that came from this page of a record, in order of name."""
        return sorted(r.name for r in self.records.values() if (r.parent, r.source) == (name, page))

    def map(self, sender: int, page: int, rights: int, receiver: int, target: int) -> list[Name]:
        """Gives a page of the sender to the receiver."""
        givers = [name for name in self.holders(sender, page) if self.live(name) & rights]
        names = []
        for giver in givers:
            number = 1 + max((name[0] for name in self.records), default=0)
            names.append((number, self.number))
            self.hold(Record(names[-1], receiver, target, giver, page, rights))
        return names

    def flush(self, space: int, page: int, rights: int) -> int:
        """Takes rights from a page of a space, and from all that came from it."""
        losers = [
            loser
            for holder in self.holders(space, page)
            for loser in self.children(holder, page) + [holder]
            if rights & ~self.revoked.get(loser, 0)
        ]
        for loser in losers:
            self.hold(Revocation(loser, rights))
            self.clear(loser, below=True)
        return len(losers)

    def clear(self, name: Name, below: bool) -> None:
        """Takes the page of a record out of the page tables, and the pages that came from it."""
        record = self.records.get(name)
        if record is None:
            return
        self.tables.pop((record.space, record.page), None)
        for child in self.children(name, record.page) if below else []:
            self.clear(child, below)

    def take(self, operations: list) -> int:
        """Takes what another processor sent, and clears the pages that lost a right."""
        new = [operation for operation in operations if self.hold(operation)]
        for operation in new:
            if isinstance(operation, Revocation):
                self.clear(operation.name, below=not self.has_bug)
        return len(new)

    def touch(self, space: int, page: int) -> None:
        """A page fault: fills the page's entry."""
        for name in self.holders(space, page):
            if self.live(name) and (space, page) not in self.tables:
                frame = self.frame(name, page)
                self.tables[space, page] = "%05x:%s" % (frame, rights_text(self.live(name)))


class Kernel:
    """The processors, the messages between them, and the log."""

    def __init__(self, has_bug: bool):
        self.processors = [Processor(number, has_bug) for number in range(2)]
        self.messages: list[list] = []
        self.log("processors 2")

    def log(self, line: str, answer: Optional[str] = None) -> None:
        """Writes what is done or shown, as a line of a script, and the kernel's answer below it."""
        print(line)
        if answer is not None:
            print("#= %s" % answer)

    def map(self, at: int, sender: int, page: int, rights: int, receiver: int, target: int) -> None:
        names = self.processors[at].map(sender, page, rights, receiver, target)
        what = (at, sender, page, rights_text(rights), receiver, target)
        told = " ".join("%d.%d" % name for name in names) or "none"
        self.log("map %d %d %x000/12:%s 0 %d %x000/12" % what, "records " + told)

    def flush(self, at: int, space: int, page: int, rights: int) -> None:
        count = self.processors[at].flush(space, page, rights)
        what = (at, space, page, rights_text(rights))
        self.log("unmap %d %d %x000/12:%s flush" % what, "revocations %d" % count)

    def send(self, at: int) -> None:
        """Sends what the processor holds and has not sent."""
        sender = self.processors[at]
        first, end = sender.sent, len(sender.operations)
        told = "message %d %d" % (len(self.messages), end - first)
        self.log("send %d %d %d" % (at, first, end), told)
        self.messages.append(sender.operations[first:end])
        sender.sent = end

    def deliver(self, message: int, to: int) -> None:
        """Is logged once the processor has taken the message and cleared its pages."""
        count = self.processors[to].take(self.messages[message])
        self.log("deliver %d %d" % (message, to), "taken %d" % count)

    def touch(self, at: int, space: int, page: int) -> None:
        self.processors[at].touch(space, page)
        self.log("# processor %d: space %d touches %x000" % (at, space, page))

    def show(self, at: int, space: int, page: int) -> None:
        """Logs what the processor's page table has."""
        entry = self.processors[at].tables.get((space, page), "none")
        self.log("served %d %d %x000" % (at, space, page), "served " + entry)


def share(kernel: Kernel) -> None:
    """Space 1 gets two pages at processor 0, and shares one of them at processor 1."""
    kernel.map(0, 0, 0x10, RW, 1, 0x40)
    kernel.map(0, 0, 0x11, RW, 1, 0x41)
    kernel.touch(0, 1, 0x40)
    kernel.show(0, 1, 0x40)
    kernel.send(0)
    kernel.deliver(0, 1)
    kernel.show(1, 1, 0x40)
    kernel.map(1, 1, 0x40, RW, 2, 0x80)
    kernel.map(1, 2, 0x80, R, 3, 0xC0)
    kernel.touch(1, 1, 0x40)
    kernel.touch(1, 2, 0x80)
    kernel.touch(1, 3, 0xC0)
    kernel.show(1, 2, 0x80)
    kernel.show(1, 3, 0xC0)


def take_back(kernel: Kernel) -> None:
    """At processor 0 space 1 gives up the right to write, and processor 1 hears of it."""
    kernel.flush(0, 1, 0x40, W)
    kernel.show(0, 1, 0x40)
    kernel.show(1, 2, 0x80)
    kernel.send(0)
    kernel.deliver(1, 1)
    kernel.show(1, 1, 0x40)
    kernel.show(1, 2, 0x80)
    kernel.show(1, 3, 0xC0)
    kernel.touch(1, 2, 0x80)
    kernel.show(1, 2, 0x80)


def hear_back(kernel: Kernel) -> None:
    """Processor 0 hears what processor 1 shared, and space 2 gives up the page there."""
    kernel.send(1)
    kernel.deliver(2, 0)
    kernel.touch(0, 2, 0x80)
    kernel.show(0, 2, 0x80)
    kernel.flush(0, 2, 0x80, RW)
    kernel.send(0)
    kernel.deliver(3, 1)
    kernel.show(1, 2, 0x80)
    kernel.show(1, 3, 0xC0)


def main() -> None:
    parser = argparse.ArgumentParser(description="Writes the log of a kernel of two processors.")
    parser.add_argument("--bug", action="store_true", help="with a fault in it")
    kernel = Kernel(has_bug=parser.parse_args().bug)
    share(kernel)
    take_back(kernel)
    hear_back(kernel)


if __name__ == "__main__":
    main()
