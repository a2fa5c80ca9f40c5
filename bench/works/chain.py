"""A deep chain: sixteen pages are handed on from space to space, and taken away along it."""

from random import Random
from typing import Iterator

from works.words import address, fpage, query

PAGES = 16
FIRST = 16


def chain(size: int, random: Random) -> Iterator[str]:
    depth = size * 15 // 16
    yield "processors 1"
    for space in range(depth):
        part = fpage(FIRST, PAGES)
        yield "map 0 %d %s:rwx 0 %d %s" % (space, part, space + 1, part)
        if space % 32 == 0:
            yield query(random, 0, random.randint(0, space + 1), some_page(random))
    yield from unmaps(size // 24, depth, random)
    yield "unmap 0 %d %s:rwx flush" % (depth // 4, fpage(FIRST, PAGES // 2))
    for _ in range(100):
        yield query(random, 0, random.randint(0, depth), some_page(random))


def unmaps(count: int, depth: int, random: Random) -> Iterator[str]:
    """Rights of single pages are taken, from the far end of the chain to its middle."""
    for step in range(count):
        space = depth - 1 - step * depth // (2 * count)
        rights = random.choice(["--x", "-w-", "-wx"])
        mode = random.choice(["keep", "keep", "keep", "flush"])
        yield "unmap 0 %d %s:%s %s" % (space, fpage(some_page(random), 1), rights, mode)
        if step % 16 == 0:
            yield "rights 0 %d %s" % (random.randint(1, depth), address(some_page(random)))


def some_page(random: Random) -> int:
    return FIRST + random.randrange(PAGES)
