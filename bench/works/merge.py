"""Two copies that issue, send, and deliver in a random order, some of it again, and then merge."""

from random import Random
from typing import Iterator

from works.words import aligned, fpage, query, some_rights

SPACES = 200
SIZES = [1, 1, 2, 8]
MEMORY = 1 << 20
BURST = 200
LONGEST = 150


class Side:
    """A copy: its operations in order of arrival, as numbers, and the places that it mapped."""

    def __init__(self, processor: int, random: Random):
        self.processor = processor
        self.random = random
        self.log: list[int] = []
        self.held: set[int] = set()
        self.sent = 0
        self.ends = [0] * SPACES
        self.places: list[tuple[int, int, int]] = []
        self.parents: set[tuple[int, int, int]] = set()

    def issue(self, operation: int) -> str:
        """A map, or now and then the unmap of a place that nothing was mapped from."""
        self.take([operation])
        if self.places and self.random.random() < 0.1:
            place = self.places[-1]
            if place not in self.parents:
                self.places.pop()
                return "unmap %d %d %s:rwx flush" % (self.processor, place[0], fpage(*place[1:]))
        return self.map_line()

    def map_line(self) -> str:
        source = self.source()
        number = self.random.randrange(SPACES)
        first = aligned(self.ends[number], source[2])
        self.ends[number] = first + source[2]
        target = (1 + self.processor * SPACES + number, first, source[2])
        self.places.append(target)
        return "map %d %d %s:%s 0 %d %s" % (
            self.processor, source[0], fpage(*source[1:]), some_rights(self.random),
            target[0], fpage(*target[1:]),
        )

    def source(self) -> tuple[int, int, int]:
        if not self.places or self.random.random() < 0.2:
            count = self.random.choice(SIZES)
            return 0, self.random.randrange(MEMORY // count) * count, count
        source = self.random.choice(self.places[-500:])
        self.parents.add(source)
        return source

    def send(self) -> Iterator[tuple[str, list[int]]]:
        """Sends what came since the last time, in slices; what others issued too."""
        while self.sent < len(self.log):
            end = min(len(self.log), self.sent + self.random.randint(1, LONGEST))
            line = "send %d %d %d" % (self.processor, self.sent, end)
            yield line, self.log[self.sent:end]
            self.sent = end

    def take(self, operations: list[int]) -> None:
        new = [operation for operation in operations if operation not in self.held]
        self.log += new
        self.held.update(new)

    def question(self) -> str:
        """After a page that this copy mapped, or that the other one did."""
        space, first, count = self.random.choice(self.places or [(0, 0, 1)])
        page = first + self.random.randrange(count)
        return query(self.random, self.random.randrange(2), space, page)


def merge(size: int, random: Random) -> Iterator[str]:
    sides = [Side(processor, random) for processor in range(2)]
    messages: list[tuple[int, list[int]]] = []
    yield "processors 2"
    for begin in range(0, size * 30 // 32, 2 * BURST):
        for step in range(2 * BURST):
            yield sides[step % 2].issue(begin + step)
        for side in sides:
            for line, operations in side.send():
                messages.append((1 - side.processor, operations))
                yield line
        yield from deliveries(sides, messages, random)
    yield from ("%s %s" % (word, pair) for pair in ("0 1", "1 0", "0 1")
                for word in ("merge", "same", "covers"))
    yield from (random.choice(sides).question() for _ in range(500))


def deliveries(sides: list[Side], messages: list, random: Random) -> Iterator[str]:
    """Some of the messages come, in a random order, some of them again; with questions between."""
    for _ in range(2 * BURST // LONGEST + 2):
        number = random.randrange(len(messages)) if random.random() < 0.3 else (
            random.randrange(max(0, len(messages) - 20), len(messages)))
        processor, operations = messages[number]
        sides[processor].take(operations)
        yield "deliver %d %d" % (number, processor)
        yield from (side.question() for side in sides)
    yield random.choice(["covers 0 1", "covers 1 0", "same 0 1"])
