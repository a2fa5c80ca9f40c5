"""The output of a script, line by line."""

from typing import NamedTuple, Optional

from model.copies import Copy, Refusal
from model.facts import Operation
from model.grammar import Line, parse_line
from model.places import Fault, Item, Place, Space, spell_page, spell_rights, spell_space
from model.rights import page_rights, served
from model.snapshot import snapshot_operations, snapshot_text
from model.table import table
from model.tree import NotComparable, Tree

MOST_LINES = 1000000
LONGEST_LINE = 8388608
MOST_PROCESSORS = 64


class Told(NamedTuple):
    """What a program writes, and the status that it ends with."""

    output: bytes
    status: int


def lines_of(text: bytes) -> list[bytes]:
    """The lines without their line feeds, which the last one may lack."""
    lines = text.split(b"\n")
    return lines[:-1] if lines[-1] == b"" else lines


def content(number: int, line: bytes) -> bytes:
    """What counts of a line: a carriage return before its end is dropped. Its length is that
    with it."""
    if number > MOST_LINES:
        raise Fault("too-many-lines")
    if len(line) > LONGEST_LINE:
        raise Fault("too-long")
    return line[:-1] if line.endswith(b"\r") else line


def run_script(text: bytes) -> Told:
    """What `l4map run` writes for a script, and its status."""
    script, replies = Script(), []
    for number, line in enumerate(lines_of(text), 1):
        try:
            replies += script.do_line(content(number, line))
        except Fault as fault:
            replies.append("line %d fault %s" % (number, fault.name))
            return Told(joined(replies), 1)
    return Told(joined(replies), 0)


def joined(replies: list[str]) -> bytes:
    return "".join(reply + "\n" for reply in replies).encode()


def start_of_cluster(line: Line, is_begun: bool) -> Optional[int]:
    """How many processors the line begins with, or None where it is another command; or the
    fault of its place."""
    if line.command == "processors":
        count = line.operands[0]
        if not 1 <= count <= MOST_PROCESSORS:
            raise Fault("processor-count")
        if is_begun:
            raise Fault("processors-again")
        return count
    if not is_begun:
        raise Fault("no-processors")
    return None


class Script:
    """The copies of a script, its messages, and what processor 0 accepted."""

    def __init__(self):
        self.copies: list[Copy] = []
        self.messages: list[list[Operation]] = []
        self.accepted: list[Line] = []
        self.has_taken = False

    def do_line(self, line: bytes) -> list[str]:
        """The reply to a line, as the lines that are written."""
        parsed = parse_line(line)
        if parsed is None:
            return []
        count = start_of_cluster(parsed, bool(self.copies))
        if count is not None:
            self.copies = [Copy(processor) for processor in range(count)]
            return []
        try:
            return getattr(self, "do_" + parsed.command)(*parsed.operands)
        except Refusal as refusal:
            return ["refused %s" % refusal]

    def copy(self, processor: int) -> Copy:
        if processor >= len(self.copies):
            raise Refusal("no-processor")
        return self.copies[processor]

    # Commands

    def accept(self, copy: Copy, command: str, *operands) -> None:
        """Remembers what processor 0 accepted, for the sequential tree."""
        if copy.processor == 0:
            self.accepted.append(Line(command, operands))

    def do_map(
        self, processor: int, sender: Space, item: Item, receiver: Space, window: Optional[Place]
    ) -> list[str]:
        copy = self.copy(processor)
        names = copy.map(sender, item, receiver, window)
        self.accept(copy, "map", sender, item, receiver, window)
        return ["records " + (" ".join("%d.%d" % name for name in names) or "none")]

    def do_unmap(
        self, processor: int, space: Space, send: tuple[Optional[Place], int], flush: bool
    ) -> list[str]:
        copy = self.copy(processor)
        count = copy.unmap(space, *send, flush)
        self.accept(copy, "unmap", space, *send, flush)
        return ["revocations %d" % count]

    def do_end(self, processor: int, space: Space) -> list[str]:
        copy = self.copy(processor)
        copy.end(space)
        self.accept(copy, "end", space)
        return ["ended " + spell_space(space)]

    # Questions

    def do_rights(self, processor: int, space: Space, page: int) -> list[str]:
        shown = page_rights(self.copy(processor).facts, space, page)
        return ["rights " + (" ".join(spell_shown(*pair) for pair in shown.items()) or "none")]

    def do_served(self, processor: int, space: Space, page: int) -> list[str]:
        found = served(self.copy(processor).facts, space, page)
        return ["served " + ("none" if found is None else spell_shown(*found))]

    def do_table(self, processor: int) -> list[str]:
        rows = table(self.copy(processor).facts)
        return ["table %d" % len(rows)] + [row.text() for row in rows]

    def do_version(self, processor: int, number: int) -> list[str]:
        return ["version %d" % self.copy(processor).free_version(number)]

    def do_same(self, processor: int, other: int) -> list[str]:
        return ["same " + yes_or_no(self.copy(processor).facts.is_same(self.copy(other).facts))]

    def do_covers(self, processor: int, other: int) -> list[str]:
        return ["covers " + yes_or_no(self.copy(processor).facts.covers(self.copy(other).facts))]

    def do_save(self, processor: int) -> list[str]:
        return ["snapshot " + snapshot_text(self.copy(processor).facts)]

    def do_tree(self, space: Space, page: int) -> list[str]:
        try:
            found = self.tree().at(space, page)
        except NotComparable:
            return ["tree not comparable"]
        return ["tree " + ("none" if found is None else spell_shown(*found))]

    def tree(self) -> Tree:
        """The tree of the commands that processor 0 accepted."""
        if self.has_taken:
            raise NotComparable
        tree = Tree()
        for command, operands in self.accepted:
            getattr(tree, command)(*operands)
        return tree

    # What is sent and taken

    def do_send(self, processor: int, first: int, end: int) -> list[str]:
        log = self.copy(processor).log
        if first > end or end > len(log):
            raise Refusal("bad-mark")
        self.messages.append(log[first:end])
        return ["message %d %d" % (len(self.messages) - 1, end - first)]

    def do_deliver(self, message: int, processor: int) -> list[str]:
        copy = self.copy(processor)
        if message >= len(self.messages):
            raise Refusal("no-message")
        return self.taken(copy, self.messages[message])

    def do_merge(self, processor: int, other: int) -> list[str]:
        copy = self.copy(processor)
        return self.taken(copy, list(self.copy(other).log))

    def do_load(self, processor: int, text: bytes) -> list[str]:
        copy = self.copy(processor)
        try:
            operations = snapshot_operations(text)
        except Fault as fault:
            raise Refusal("snapshot " + fault.name) from fault
        return self.taken(copy, operations)

    def taken(self, copy: Copy, operations: list[Operation]) -> list[str]:
        """The copy takes the operations; so the tree of processor 0 is not comparable from then
        on."""
        count = copy.take(operations)
        self.has_taken = self.has_taken or copy.processor == 0
        return ["taken %d" % count]


def spell_shown(frame: int, rights: int) -> str:
    return "%s:%s" % (spell_page(frame), spell_rights(rights))


def yes_or_no(holds: bool) -> str:
    return "yes" if holds else "no"
