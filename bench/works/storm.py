"""Storms of unmaps over three layers of spaces, with and without flush; what was taken is mapped
again, and taken again."""

from random import Random
from typing import Iterator, Optional

from works.words import fpage, query

LAYERS = [range(1, 9), range(9, 41), range(41, 169)]
MEMORY = 0
BLOCKS = 16
PAGES = 4
UNMAPS = 40
RIGHTS = {"rwx": 7, "-w-": 2, "--x": 1, "rw-": 6}


class Mapping:
    """A block that a space has from another mapping: what was taken of it, and what is left."""

    def __init__(self, parent: Optional["Mapping"]):
        self.parent = parent
        self.taken = 0

    def rights(self) -> int:
        above = self.parent.rights() if self.parent else 7
        return above & ~self.taken

    def take(self, rights: int) -> bool:
        """Whether that takes a right that was not taken."""
        is_new = rights & ~self.taken != 0
        self.taken |= rights
        return is_new


class Layers:
    """Spaces in three layers: each has the same pages, in blocks, from a space above it."""

    def __init__(self, random: Random):
        self.random = random
        self.above = {
            space: random.choice(above)
            for above, layer in zip([[MEMORY], *LAYERS], LAYERS) for space in layer
        }
        self.below: dict[int, list[int]] = {space: [] for space in [MEMORY, *self.above]}
        for space, above in self.above.items():
            self.below[above].append(space)
        self.mappings: dict[tuple[int, int], list[Mapping]] = {
            (space, block): [] for space in self.above for block in range(BLOCKS)
        }

    def rights(self, space: int, block: int) -> int:
        """What is left of the last mapping."""
        if space == MEMORY:
            return 7
        mappings = self.mappings[space, block]
        return mappings[-1].rights() if mappings else 0

    def map_again(self) -> Iterator[str]:
        """Maps each block that a space has lost, and that the space above it has; one operation for
        each line."""
        for (space, block), mappings in self.mappings.items():
            above = self.above[space]
            if self.rights(space, block) == 0 and self.rights(above, block) != 0:
                parent = self.mappings[above, block][-1] if above != MEMORY else None
                mappings.append(Mapping(parent))
                part = fpage(block * PAGES, PAGES)
                yield "map 0 %d %s:rwx 0 %d %s" % (above, part, space, part)

    def unmap(self, space: int, blocks: range, rights: str, flush: bool) -> tuple[str, int]:
        """Takes rights of blocks; tells how many operations that issues."""
        hit = self.below[space] + [space] * flush
        count = sum(
            mapping.take(RIGHTS[rights])
            for other in hit for block in blocks for mapping in self.mappings[other, block]
        )
        part = fpage(blocks[0] * PAGES, len(blocks) * PAGES)
        mode = "flush" if flush else "keep"
        return "unmap 0 %d %s:%s %s" % (space, part, rights, mode), count


def storm(size: int, random: Random) -> Iterator[str]:
    layers, left = Layers(random), size * 31 // 32
    yield "processors 1"
    while left > 0:
        for line in layers.map_again():
            if left > 0:
                left -= 1
                yield line
        for _ in range(UNMAPS):
            line, count = some_unmap(layers, random)
            if count <= left:
                left -= count
                yield line
            yield question(random)


def some_unmap(layers: Layers, random: Random) -> tuple[str, int]:
    """Of a space of the upper layers without flush, or of any with flush."""
    layer, flush = random.choice([(0, False), (1, False), (1, True), (2, True)])
    count = random.choice([1, 1, 2, 4, BLOCKS])
    first = random.randrange(BLOCKS // count) * count
    rights = random.choice(["rwx", "rwx", "-w-", "--x", "rw-"])
    return layers.unmap(
        random.choice(LAYERS[layer]), range(first, first + count), rights, flush)


def question(random: Random) -> str:
    return query(random, 0, random.randint(1, LAYERS[-1][-1]), random.randrange(BLOCKS * PAGES))
