"""Lines that are spelled as the language says, over a world."""

from random import Random

from maker.texts import snapshot
from maker.worlds import Region, World


def map_line(world: World) -> str:
    source, receiver, window = world.source(), world.receiver(), world.fpage()
    base = send_base(world, source)
    world.commands += 1
    world.remember(receiver, source, base, window)
    return "map %d %s %s:%s %x %s %s" % (
        world.processor(),
        source.space,
        world.fpage(source.fpage()),
        world.rights(),
        base,
        receiver,
        window,
    )


def send_base(world: World, source: Region) -> int:
    return world.random.choice(
        [0, world.address(source), world.random.randrange(1 << 20), world.random.randrange(1 << 64)]
    )


def words_line(world: World) -> str:
    source, receiver, (address, order) = world.source(), world.receiver(), world.place()
    base = send_base(world, source) >> 10 << 10
    world.commands += 1
    world.remember(receiver, source, base, "%x/%d" % (address, order))
    first = base | world.random.choice([8, 9])
    second = kernel_word(world, source.address, source.order) | world.random.choice([7, 7, 6, 5, 0])
    if world.seldom(0.06):
        first ^= 1 << world.random.randrange(10)
    if world.seldom(0.03):
        second |= 8
    window = kernel_word(world, address, order) | world.random.randrange(16)
    return "words %d %s %x %x %s %x" % (
        world.processor(), source.space, first, second, receiver, window
    )


def kernel_word(world: World, address: int, order: int) -> int:
    """The word of a place, of nil, or of the complete space; now and then with a base that does
    not fit."""
    shot = world.random.random()
    if shot < 0.03:
        return 0
    if shot < 0.06:
        return world.random.choice([0x10, 0x300])
    if shot < 0.08:
        address += world.random.choice([0x400, 0x1000, 1 << 48])
    return (address | order << 4) % (1 << 64)


def unmap_line(world: World) -> str:
    part = world.source(of_memory=0.15)
    world.commands += 1
    return "unmap %d %s %s:%s %s" % (
        world.processor(),
        part.space,
        world.fpage(part.fpage()),
        world.rights(),
        world.random.choice(["keep", "keep", "flush"]),
    )


def end_line(world: World) -> str:
    world.commands += 1
    return "end %d %s" % (world.processor(), world.receiver())


def rights_line(world: World) -> str:
    region = world.known()
    return "rights %d %s %x" % (world.processor(), region.space, world.address(region))


def served_line(world: World) -> str:
    region = world.known()
    return "served %d %s %x" % (world.processor(), region.space, world.address(region))


def tree_line(world: World) -> str:
    """Asks the tree."""
    region = world.known()
    return "tree %s %x" % (region.space, world.address(region))


def version_line(world: World) -> str:
    return "version %d %s" % (world.processor(), world.space().split(".")[0])


def send_line(world: World) -> str:
    """Marks that mostly stand in the list; now and then behind its end, or the wrong way round."""
    first = world.random.randrange(1 + world.commands // world.active)
    end = world.random.choice(
        [first, first + 1, first + 1, world.random.randrange(1 + world.commands)]
    )
    world.messages += 1 if first <= end else 0
    return "send %d %d %d" % (world.processor(), first, end)


def deliver_line(world: World) -> str:
    """Mostly of a message that was sent."""
    if world.messages == 0 and not world.seldom(0.1):
        return send_line(world)
    return "deliver %d %d" % (world.random.randrange(max(1, world.messages)), world.processor())


def pair_line(world: World) -> str:
    word = world.random.choice(["merge", "merge", "same", "covers"])
    return "%s %d %d" % (word, world.processor(), world.processor())


def save_line(world: World) -> str:
    return "save %d" % world.processor()


def table_line(world: World) -> str:
    return "table %d" % world.processor()


def load_line(world: World) -> str:
    return "load %d %s" % (world.processor(), snapshot(world))


COMMANDS = [
    (map_line, 8),
    (words_line, 1),
    (unmap_line, 4),
    (end_line, 0.5),
    (rights_line, 6),
    (served_line, 3),
    (tree_line, 3),
    (version_line, 1),
    (save_line, 1),
    (table_line, 1),
]
EXCHANGE = COMMANDS + [(send_line, 4), (deliver_line, 6), (pair_line, 4)]
LOADS = COMMANDS + [(load_line, 8), (pair_line, 2), (send_line, 1), (deliver_line, 1)]
WORDS = [(words_line, 8), (rights_line, 6), (served_line, 2), (unmap_line, 1)]


def lines_over(world: World, kinds: list, most: int = 30) -> list[str]:
    """A script over the world, and at its end what all copies show."""
    makers, weights = zip(*kinds)
    count = world.random.randrange(1, most)
    lines = ["processors %d" % world.processors]
    lines += [map_line(world) for _ in range(world.random.choice([0, 1, 2, 3, 4]))]
    lines += [make(world) for make in world.random.choices(makers, weights, k=count)]
    return lines + closing_lines(world)


def closing_lines(world: World) -> list[str]:
    """The tables and snapshots of all active copies, and whether they are the same."""
    if world.random.random() < 0.2:
        return []
    lines = []
    for processor in range(world.active):
        lines += [
            "table %d" % processor,
            "save %d" % processor,
            "same 0 %d" % processor,
            "covers 0 %d" % processor,
        ]
    return lines + [tree_line(world) for _ in range(3)]


def spaced(random: Random, line: str) -> str:
    """The line with more spaces between its words, but for a text; now and then behind a line that
    is skipped."""
    if random.random() < 0.05 and not line.startswith("load"):
        line = " " * random.randrange(3) + line.replace(" ", " " * random.randrange(1, 4)) + " "
    if random.random() < 0.03:
        line = random.choice(["", "  ", "# a comment", "#", "   #rights 0"]) + "\n" + line
    return line
