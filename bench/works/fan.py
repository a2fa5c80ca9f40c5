"""A fan: one record has some 30,000 children, a page each, and regions of it are taken away."""

from random import Random
from typing import Iterator

from works.words import address, fpage, query

SPACES = 500
SIZES = [1, 1, 2, 4, 8, 16, 64, 256]


def fan(size: int, random: Random) -> Iterator[str]:
    pages = 1 << (size.bit_length() - 2)
    children = pages * 15 // 16
    yield "processors 1"
    yield "map 0 0 %s:rwx 0 1 %s" % (fpage(pages, pages), fpage(0, pages))
    places = {}
    for number, page in enumerate(random.sample(range(pages), children)):
        places[page] = (2 + number % SPACES, number // SPACES)
        yield "map 0 1 %s:rwx 0 %d %s" % (
            fpage(page, 1), places[page][0], fpage(places[page][1], 1))
        if number % 8 == 0:
            yield query(random, 0, *places[page])
    yield from regions(size - children - size // 32, pages, places, random)


def regions(most: int, pages: int, places: dict, random: Random) -> Iterator[str]:
    """Unmaps of regions, which issue at most so many operations; each with a question after a page
    of its region."""
    while most > 0:
        count = min(random.choice(SIZES), pages)
        first = random.randrange(pages // count) * count
        hit = [page for page in range(first, first + count) if page in places]
        flush = random.random() < 0.1
        most -= len(hit) + flush
        yield "unmap 0 1 %s:%s %s" % (
            fpage(first, count), random.choice(["-w-", "--x", "rwx"]), "flush" if flush else "keep")
        yield "rights 0 1 %s" % address(first)
        if hit:
            yield query(random, 0, *places[random.choice(hit)])
