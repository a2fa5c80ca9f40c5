"""Many small maps between many spaces, each with questions behind it, and the sequential tree."""

from random import Random
from typing import Iterator

from works.words import address, aligned, fpage, query, some_rights

SPACES = 300
SIZES = [1, 1, 1, 2, 4, 16]
MEMORY = 1 << 20


def maps(size: int, random: Random) -> Iterator[str]:
    yield "processors 1"
    ends, known = [0] * (SPACES + 1), []
    for _ in range(size * 15 // 16):
        count = random.choice(SIZES)
        if not known or random.random() < 0.3:
            source = (0, random.randrange(MEMORY // count) * count, count)
        else:
            source = random.choice(known)
        target = random.randint(1, SPACES)
        first = aligned(ends[target], source[2])
        ends[target] = first + source[2]
        yield "map 0 %d %s:%s 0 %d %s" % (
            source[0], fpage(*source[1:]), some_rights(random), target, fpage(first, source[2]))
        known.append((target, first, source[2]))
        yield question(known, random)
        yield question(known, random)
    space, first, _ = known[-1]
    yield "tree %d %s" % (space, address(first))


def question(known: list, random: Random) -> str:
    """After a page to which something was mapped, or now and then after any page."""
    space, first, count = random.choice(known)
    if random.random() < 0.1:
        space, first = random.randint(0, SPACES), random.randrange(MEMORY)
    return query(random, 0, space, first + random.randrange(count))
