"""Texts of snapshots: those that are taken, and those with one thing that is wrong."""

import json
import re
from random import Random

from maker.worlds import Region, World

PAGE = 12


def snapshot(world: World) -> str:
    """A text of one of the three versions, over the world's names."""
    version = world.random.choice([3, 3, 3, 2, 1])
    counts = [world.random.choice([0, 1, 1, 2, 3]) for _ in range(3)]
    value = {
        "cuts": [cut(world) for _ in range(counts[0])],
        "ended": [ended(world, version) for _ in range(counts[1] // 2)],
        "records": [record(world, version) for _ in range(counts[2])],
        "version": version,
    }
    if world.random.random() < 0.15:
        spoil(world, value)
    return spelled(world, value)


def spelled(world: World, value: dict) -> str:
    """The value in JSON with some spacing and some order of keys."""
    keys = list(value)
    if world.random.random() < 0.3:
        world.random.shuffle(keys)
    separators = world.random.choice([(",", ":"), (",", ":"), (", ", ": "), (" ,\t", " :\r")])
    return json.dumps({key: value[key] for key in keys}, separators=separators)


def number(world: World) -> int:
    """The number of a record that there may be; now and then one at a limit."""
    if world.random.random() < 0.03:
        return world.random.choice([0, (1 << 40) - 1, 1 << 40, (1 << 64) - 1])
    return world.random.randrange(1, 8)


def processor(world: World) -> int:
    if world.random.random() < 0.02:
        return world.random.choice([63, 64, 255])
    return world.random.randrange(3)


def space(world: World, version: int) -> list[int]:
    name, _, space_version = world.receiver().partition(".")
    return [int(name), int(space_version or 0)] if version == 3 else [int(name)]


def place(world: World) -> list[int]:
    address, order = world.place()
    return [address >> PAGE, order]


def cut(world: World) -> list[int]:
    target = [0, 0] if world.random.random() < 0.2 else [number(world), processor(world)]
    return target + place(world) + [world.random.randrange(8)]


def ended(world: World, version: int):
    found = space(world, version)
    return found if version == 3 else found[0]


def record(world: World, version: int) -> list[int]:
    """A record at a place of this world."""
    own, (address, order) = number(world), world.place()
    to = space(world, version)
    world.mapped.append(Region(".".join(map(str, to)), address, order))
    place, source = [address >> PAGE, order], source_page(world, order)
    rights = world.random.choice([7, 7, world.random.randrange(8)])
    return [own, processor(world), *to, *place, *parent_of(world, own), source, rights]


def parent_of(world: World, own: int) -> list[int]:
    """Mostly a name that comes before the record's number; now and then one that does not."""
    if world.seldom(0.02):
        return [own + world.random.randrange(2), processor(world)]
    if own < 2 or world.seldom(0.4):
        return [0, 0]
    return [world.random.randrange(1, min(own, 8)), processor(world)]


def source_page(world: World, order: int) -> int:
    """Mostly a page that is aligned as a place of this order is; now and then another one."""
    source = world.known().address >> order << order >> PAGE
    return source ^ 1 << world.random.randrange(44) if world.seldom(0.02) else source


def family(world: World, size: int) -> list[list[int]]:
    """A record and its children, in any order; the pages of each child are some of the record's."""
    parent = record(world, 3)
    parent[0] = 1
    children = []
    for own in world.random.sample(range(2, 2 + 2 * size), size):
        child = record(world, 3)
        child[0], child[5], child[6:8] = own, min(child[5], parent[5]), parent[:2]
        parts = 1 << parent[5] - child[5]
        child[8] = parent[4] + (world.random.randrange(parts) << child[5] - PAGE)
        children.append(child)
    return [parent] + children


def nearly(random: Random, text: str) -> str:
    """The text with another number in place of one of its own."""
    found = list(re.finditer("[0-9]+", text))
    if not found:
        return text
    chosen = random.choice(found)
    value = int(chosen[0])
    other = random.choice([value + 1, max(0, value - 1), value ^ 4, *SPELLED])
    return text[:chosen.start()] + str(other) + text[chosen.end():]


def spoil(world: World, value: dict) -> None:
    """One thing of the value is made wrong, or strange."""
    random = world.random
    key = random.choice(["cuts", "ended", "records", "version", "version"])
    if random.random() < 0.2:
        value.pop(key)
    elif random.random() < 0.2:
        value[random.choice(["x", "Cuts", "version ", ""])] = random.choice(STRANGE)
    elif key == "version" or not value[key]:
        value[key] = random.choice(STRANGE)
    else:
        row = random.randrange(len(value[key]))
        spoil_row(world, value[key], row)


def spoil_row(world: World, rows: list, row: int) -> None:
    random = world.random
    if not isinstance(rows[row], list) or random.random() < 0.1:
        rows[row] = random.choice(STRANGE)
        return
    place_in_row = random.randrange(len(rows[row]))
    shot = random.random()
    if shot < 0.1:
        rows[row].pop(place_in_row)
    elif shot < 0.2:
        rows[row].insert(place_in_row, 0)
    else:
        rows[row][place_in_row] = random.choice(STRANGE)


SPELLED = ["-0", "1.0", "1e0", "-1", "01", "true", "null", "[]", "1e400", "18446744073709551616"]
LIMITS = [7, 8, 11, 12, 32, 33, 48, 49, 63, 64, 255, 256, 65535, 65536]
POWERS = [20, 32, 36, 40, 52, 53, 63, 64, 65, 128]
STRANGE = (
    LIMITS
    + [1 << power for power in POWERS]
    + [(1 << power) - 1 for power in POWERS]
    + [
        -1,
        -(1 << 63),
        0,
        1,
        2,
        3,
        4,
        1.0,
        1.5,
        -0.0,
        1e300,
        True,
        False,
        None,
        "",
        "3",
        [],
        [0],
        [[]],
        {},
        {"version": 3},
    ]
)
