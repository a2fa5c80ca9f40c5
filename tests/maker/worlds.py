"""A world: the few spaces, pages and processors that the lines of one script name, so that they
have to do with each other."""

from random import Random
from typing import NamedTuple

PAGE = 12
WHOLE = 48
TREE_ORDERS = range(PAGE, 21)


class Region(NamedTuple):
    """A place of a space, by its address and order."""

    space: str
    address: int
    order: int

    def fpage(self) -> str:
        return "%x/%d" % (self.address, self.order)


class World:
    """What the lines of one script choose from, and where lines before may have mapped something
    to."""

    def __init__(self, random: Random, wide: bool = False, processors: int = 0, alone: bool = True):
        self.random = random
        self.processors = processors or random.choice(
            [1, 1, 2, 2, 3, 4, 64] if alone else [2, 2, 3, 4]
        )
        self.active = min(self.processors, random.choice([1, 1, 1, 2] if alone else [2, 2, 3]))
        self.spaces = random.sample(
            ["1", "2", "3", "4", "5", "5.1", "5.2", "1.4294967295", "65535"], 4
        )
        self.wide = wide
        self.base = 0x10000 if not wide else random.choice(
            [0, 0, 1 << 32, (1 << WHOLE) - (1 << 34), 1 << 20]
        )
        self.orders = self.choose_orders()
        self.mapped: list[Region] = []
        self.commands = 0
        self.messages = 0

    def choose_orders(self) -> list[int]:
        """The orders of places. In half of the wide worlds they are small, or greater than a tree
        takes."""
        if not self.wide:
            return [12, 12, 12, 13, 13, 14, 15, 16]
        if self.seldom(0.5):
            return self.random.sample(TREE_ORDERS, 5) + [12, 33, WHOLE]
        return self.random.sample(range(PAGE, WHOLE + 1), 5) + [12, 32, 33, WHOLE]

    def seldom(self, chance: float) -> bool:
        return self.random.random() < chance

    def processor(self) -> int:
        """Mostly one that is active; now and then one that is not there."""
        if self.seldom(0.01):
            return self.random.choice([self.processors, 63, 64, 255])
        return self.random.randrange(self.active)

    def space(self) -> str:
        if self.seldom(0.02):
            return self.random.choice(["0.1", "0.0", "7", "00001"])
        return self.random.choice(self.spaces + ["0"])

    def receiver(self) -> str:
        """Mostly one that can receive; now and then a later version of memory's number."""
        if self.seldom(0.01):
            return "0.%d" % self.random.choice([1, 2, 4294967295])
        return self.space() if self.seldom(0.05) else self.random.choice(self.spaces)

    def place(self) -> tuple[int, int]:
        """An address and an order, which name a place."""
        order = self.random.choice(self.orders)
        address = self.base + self.random.randrange(1 << (16 if not self.wide else 34))
        return min(address, (1 << WHOLE) - 1) >> order << order, order

    def known(self) -> Region:
        """Mostly where a line before may have mapped something to: the same place, a part of it,
        or a greater one."""
        if not self.mapped or self.seldom(0.15):
            return Region(self.space(), *self.place())
        space, address, order = self.random.choice(self.mapped)
        other = self.random.choice(
            [order, order, self.random.choice(self.orders), max(self.orders)]
        )
        if other < order:
            address += self.random.randrange(1 << order)
        return Region(space, address >> other << other, other)

    def source(self, of_memory: float = 0.4) -> Region:
        """A place to map from or to take rights from: with this chance of memory."""
        if not self.mapped or self.seldom(of_memory):
            return Region("0", *self.place())
        return self.known()

    def remember(self, receiver: str, source: Region, base: int, window: str) -> None:
        """What a map may bring to the receiver."""
        if "/" not in window:
            return
        address, order = int(window.split("/")[0], 16), int(window.split("/")[1])
        carried = min(order, source.order)
        part = (base >> carried) % (1 << (order - carried))
        self.mapped.append(Region(receiver, address + (part << carried), carried))

    def fpage(self, place: str = "") -> str:
        """The place, or one of this world; now and then another fpage."""
        shot = self.random.random()
        if shot < 0.015:
            return "nil"
        if shot < 0.04:
            return "all"
        return place or "%x/%d" % self.place()

    def rights(self) -> str:
        if self.seldom(0.5):
            return "rwx"
        return "".join(self.random.choice([letter, letter, "-"]) for letter in "rwx")

    def address(self, region: Region) -> int:
        """An address in the region, or beside it; now and then one that is too large."""
        if self.seldom(0.003):
            return 1 << WHOLE
        step = self.random.choice([0, 0, 0x1000, (1 << region.order) - 1, 1 << region.order, -1])
        return max(0, min(region.address + step, (1 << WHOLE) - 1))
