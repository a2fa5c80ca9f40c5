"""A server lends pages to clients, who hand them on to guests, and takes them back."""

from random import Random
from typing import Iterator

from works.words import fpage, query

SERVER = 0
CLIENTS = range(1, 5)
GUESTS = range(5, 9)
PAGES = 4


def leases(size: int, random: Random) -> Iterator[str]:
    """Each round is a Map, a second one, a question and an Unmap that keeps: three operations."""
    yield "processors 1"
    for _ in range(size * 31 // 32 // 3):
        page, client, guest = random.randrange(PAGES), random.choice(CLIENTS), random.choice(GUESTS)
        part = fpage(page, 1)
        yield "map 0 %d %s:rwx 0 %d %s" % (SERVER, part, client, part)
        yield "map 0 %d %s:rwx 0 %d %s" % (client, part, guest, part)
        yield query(random, 0, guest, page)
        yield "unmap 0 %d %s:rwx keep" % (SERVER, part)
