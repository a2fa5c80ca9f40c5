"""A copy of which the pages show several frames each: it is tabled, saved, loaded elsewhere, and
compared."""

import json
from random import Random
from typing import Iterator

from works.words import PAGE, fpage, query, some_rights

SPACES = 40
WINDOW = 1 << 12
MEMORY = 1 << 16
SIZES = [1, 2, 4, 4, 8, 16, 64]
BITS = {"r": 4, "w": 2, "x": 1}


def overlaps(size: int, random: Random) -> Iterator[str]:
    """A half is mapped from memory, and the rest is loaded, as children of that."""
    yield "processors 2"
    records, half = [], size * 15 // 32
    for number in range(1, half + 1):
        count, rights = random.choice(SIZES), some_rights(random)
        source, target = block(MEMORY, count, random), block(WINDOW, count, random)
        space = random.randint(1, SPACES)
        records.append(row(number, space, target, count, (0, 0), source, rights))
        yield "map 0 0 %s:%s 0 %d %s" % (
            fpage(source, count), rights, space, fpage(target, count))
        if number % 64 == 0:
            yield question(random)
    children = [child(number, random.choice(records), random)
                for number in range(half + 1, 2 * half + 1)]
    cuts = [cut(random.choice(records), random) for _ in range(size // 20)]
    yield "load 0 " + text(children, cuts)
    yield from ("table 0", "save 0", "covers 0 1", "same 0 1")
    everything = records + children
    random.shuffle(everything)
    yield "load 1 " + text(everything, cuts)
    yield from ("same 0 1", "covers 0 1", "covers 1 0", "table 1", "save 1")
    yield from (question(random) for _ in range(500))


def block(pages: int, count: int, random: Random) -> int:
    """The first page of a block of so many pages."""
    return random.randrange(pages // count) * count


def row(number: int, space: int, page: int, count: int, parent: tuple[int, int], source: int,
        rights: str) -> list[int]:
    """A record as a snapshot has it."""
    order = PAGE + count.bit_length() - 1
    bits = sum(BITS[letter] for letter in rights if letter != "-")
    return [number, 0, space, 0, page, order, *parent, source, bits]


def child(number: int, parent: list[int], random: Random) -> list[int]:
    """A record of a part of another one, in one of the spaces behind those."""
    count = min(random.choice(SIZES), 1 << (parent[5] - PAGE))
    source = parent[4] + block(1 << (parent[5] - PAGE), count, random)
    return row(number, SPACES + random.randint(1, SPACES), block(WINDOW, count, random), count,
               (parent[0], parent[1]), source, some_rights(random))


def cut(record: list[int], random: Random) -> list[int]:
    """Some rights of the first page of a record are taken."""
    return [record[0], record[1], record[4], PAGE, random.choice([1, 2, 3, 7])]


def text(records: list, cuts: list) -> str:
    whole = {"cuts": cuts, "ended": [], "records": records, "version": 3}
    return json.dumps(whole, separators=(",", ":"))


def question(random: Random) -> str:
    return query(random, random.randrange(2), random.randint(1, 2 * SPACES),
                 random.randrange(WINDOW))
