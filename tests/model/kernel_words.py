"""The kernel's words of map items and receive windows."""

from typing import Optional

from model.places import WHOLE, Fault, Item, Place, place_at

UNIT = 1024


def map_item(first: int, second: int) -> Item:
    """What the two words of a map item say, or the first fault."""
    kind = first % 16 // 2
    if kind == 0b101:
        raise Fault("grant")
    if kind != 0b100:
        raise Fault("not-map-item")
    if first // 16 % 64 != 0:
        raise Fault("reserved-bits")
    if second // 8 % 2 != 0:
        raise Fault("reserved-bit")
    return Item(base_of(first), region(second), second % 8)


def window(word: int) -> Optional[Place]:
    """What the word of a receive window says; its lowest four bits are not looked at."""
    return region(word)


def region(word: int) -> Optional[Place]:
    """The place that base and size of a word name, where nil is None."""
    base, size = base_of(word), word // 16 % 64
    if base == 0 and size == 0:
        return None
    if base == 0 and size == 1:
        return WHOLE
    return place_at(base, size)


def base_of(word: int) -> int:
    return word // UNIT * UNIT
