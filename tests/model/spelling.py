"""How the words of a line are spelled."""

from typing import Optional

from model.places import EXECUTE, MEMORY, READ, WHOLE, WRITE, Fault, Place, Space, place_at

DECIMAL = frozenset(b"0123456789")
HEXADECIMAL = frozenset(b"0123456789abcdefABCDEF")
DECIMAL_DIGITS = 20
HEXADECIMAL_DIGITS = 16


def decimal(word: bytes, most: int, fault: str = "number") -> int:
    """1 to 20 decimal digits, and at most `most`."""
    if not 1 <= len(word) <= DECIMAL_DIGITS or not DECIMAL.issuperset(word) or int(word) > most:
        raise Fault(fault)
    return int(word)


def hexadecimal(word: bytes, fault: str = "number") -> int:
    """1 to 16 hexadecimal digits of either case."""
    if not 1 <= len(word) <= HEXADECIMAL_DIGITS or not HEXADECIMAL.issuperset(word):
        raise Fault(fault)
    return int(word, 16)


def byte_number(word: bytes) -> int:
    """N, P and Q."""
    return decimal(word, 255)


def counter(word: bytes) -> int:
    """I, J and M."""
    return decimal(word, 4294967295)


def space_number(word: bytes) -> int:
    return decimal(word, 65535)


def space(word: bytes) -> Space:
    """NUMBER or NUMBER.V."""
    number, dot, version = word.partition(b".")
    return Space(space_number(number), decimal(version, 4294967295) if dot else MEMORY.version)


def page_of_address(word: bytes) -> int:
    """ADDR, as the page that it lies in."""
    address = hexadecimal(word)
    if address >= 1 << 48:
        raise Fault("number")
    return address // 4096


def fpage(word: bytes) -> Optional[Place]:
    """FPAGE, where nil is None."""
    if word == b"nil":
        return None
    if word == b"all":
        return WHOLE
    address, slash, order = word.partition(b"/")
    if not slash:
        raise Fault("page-syntax")
    return place_at(hexadecimal(address, "page-syntax"), decimal(order, 255, "page-syntax"))


def rights(word: bytes) -> int:
    if len(word) != 3:
        raise Fault("rights")
    total = 0
    for byte, letter, bit in zip(word, b"rwx", (READ, WRITE, EXECUTE)):
        if byte not in (letter, ord("-")):
            raise Fault("rights")
        total |= bit if byte == letter else 0
    return total


def send(word: bytes) -> tuple[Optional[Place], int]:
    """SEND: the fpage before the first colon, and the rights behind it."""
    page, colon, named = word.partition(b":")
    if not colon:
        raise Fault("page-syntax")
    return fpage(page), rights(named)


def flush_mode(word: bytes) -> bool:
    """MODE: whether it is `flush`."""
    if word not in (b"keep", b"flush"):
        raise Fault("mode")
    return word == b"flush"
