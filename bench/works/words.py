"""How the words of lines are spelled, for places that are counted in pages."""

from random import Random

PAGE = 12
RIGHTS = ["rwx", "rwx", "rw-", "r-x", "r--"]


def address(page: int) -> str:
    return "%x" % (page << PAGE)


def fpage(page: int, count: int) -> str:
    """`count` pages from a page on; the count is a power of two."""
    return "%x/%d" % (page << PAGE, PAGE + count.bit_length() - 1)


def some_rights(random: Random) -> str:
    return random.choice(RIGHTS)


def aligned(page: int, count: int) -> int:
    """The first page that is not below this one and aligned to the count."""
    return -(-page // count) * count


def query(random: Random, processor: int, space: int, page: int) -> str:
    """A question after a page of a space."""
    word = random.choice(["rights", "served"])
    return "%s %d %d %s" % (word, processor, space, address(page))
