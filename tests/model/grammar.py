"""What one line says, or its first fault."""

from typing import NamedTuple, Optional

from model import kernel_words, spelling
from model.places import Fault, Item

OPERANDS = {
    b"processors": (spelling.byte_number,),
    b"unmap": (spelling.byte_number, spelling.space, spelling.send, spelling.flush_mode),
    b"end": (spelling.byte_number, spelling.space),
    b"rights": (spelling.byte_number, spelling.space, spelling.page_of_address),
    b"served": (spelling.byte_number, spelling.space, spelling.page_of_address),
    b"tree": (spelling.space, spelling.page_of_address),
    b"version": (spelling.byte_number, spelling.space_number),
    b"send": (spelling.byte_number, spelling.counter, spelling.counter),
    b"deliver": (spelling.counter, spelling.byte_number),
    b"merge": (spelling.byte_number, spelling.byte_number),
    b"same": (spelling.byte_number, spelling.byte_number),
    b"covers": (spelling.byte_number, spelling.byte_number),
    b"save": (spelling.byte_number,),
    b"table": (spelling.byte_number,),
}


class Line(NamedTuple):
    """A command: its first word, and the values of its operands. `words` is a `map`."""

    command: str
    operands: tuple


def parse_line(line: bytes) -> Optional[Line]:
    """What the line says, None where it is skipped. The faults are those of its words."""
    words = [word for word in line.split(b" ") if word]
    if not words or words[0].startswith(b"#"):
        return None
    command, operands = words[0], words[1:]
    if command == b"map":
        return parse_map(operands)
    if command == b"words":
        return parse_words(operands)
    if command == b"load":
        return parse_load(line, operands)
    if command not in OPERANDS:
        raise Fault("unknown")
    readers = OPERANDS[command]
    expect(operands, len(readers))
    return Line(command.decode(), tuple(read(word) for read, word in zip(readers, operands)))


def expect(operands: list[bytes], count: int) -> None:
    if len(operands) != count:
        raise Fault("words")


def parse_map(operands: list[bytes]) -> Line:
    """`map P S SEND BASE R FPAGE`"""
    expect(operands, 6)
    processor, sender = spelling.byte_number(operands[0]), spelling.space(operands[1])
    place, rights = spelling.send(operands[2])
    item = Item(spelling.hexadecimal(operands[3]), place, rights)
    return Line(
        "map", (processor, sender, item, spelling.space(operands[4]), spelling.fpage(operands[5]))
    )


def parse_words(operands: list[bytes]) -> Line:
    """`words P S FIRST SECOND R WINDOW`: the item is looked at where both of its words are
    spelled."""
    expect(operands, 6)
    processor, sender = spelling.byte_number(operands[0]), spelling.space(operands[1])
    first, second = spelling.hexadecimal(operands[2]), spelling.hexadecimal(operands[3])
    item = kernel_words.map_item(first, second)
    receiver, window = spelling.space(operands[4]), spelling.hexadecimal(operands[5])
    return Line("map", (processor, sender, item, receiver, kernel_words.window(window)))


def parse_load(line: bytes, operands: list[bytes]) -> Line:
    """`load P TEXT`: the text is the rest of the line, behind the spaces after P."""
    if len(operands) < 2:
        raise Fault("words")
    behind_command = line.lstrip(b" ").partition(b" ")[2]
    text = behind_command.lstrip(b" ").partition(b" ")[2].lstrip(b" ")
    return Line("load", (spelling.byte_number(operands[0]), text))
