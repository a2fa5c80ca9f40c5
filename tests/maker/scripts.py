"""One script for each seed."""

import json
from random import Random
from typing import Callable, NamedTuple

from maker import lines, spoiling, texts
from maker.worlds import World
from model.script import LONGEST_LINE, run_script

MOST_LINES = 400


class Case(NamedTuple):
    """A script, and whether it is for `threads`."""

    kind: str
    command: str
    text: bytes


def case_of(seed: int, may_be_great: bool = True) -> Case:
    """The script of a seed. Without `may_be_great` none has lines at the limit of length, or a
    full copy."""
    random = Random(seed)
    kinds = [kind for kind in KINDS if may_be_great or kind not in GREAT]
    kind = random.choices(kinds, [KINDS[name][1] for name in kinds])[0]
    text = KINDS[kind][0](random)
    return Case(kind, "threads" if kind == "threads" else "run", text)


def joined(random: Random, script: list[str]) -> bytes:
    """The text of lines, the last of which may lack its end; all of them may end with a carriage
    return."""
    ending = "\r\n" if random.random() < 0.03 else "\n"
    text = ending.join(lines.spaced(random, line) for line in script)
    return (text + random.choice([ending, ending, ending, ""])).encode()


def over(kinds: list, wide: bool = False) -> Callable[[Random], bytes]:
    """Scripts of these kinds of lines."""
    return lambda random: joined(
        random, lines.lines_over(World(random, wide, alone=kinds is not lines.EXCHANGE), kinds)
    )


def either_width(random: Random, kinds: list) -> list[str]:
    return lines.lines_over(World(random, random.random() < 0.4), kinds)


def of_many_lines(random: Random) -> bytes:
    """Some hundred lines."""
    kinds = random.choice([lines.COMMANDS, lines.EXCHANGE, lines.LOADS])
    wide = random.random() < 0.3
    world = World(random, wide, alone=kinds is not lines.EXCHANGE)
    return joined(random, lines.lines_over(world, kinds, MOST_LINES))


def hostile_words(random: Random) -> bytes:
    return joined(
        random,
        spoiling.spoil_words(
            random, either_width(random, random.choice([lines.LOADS, lines.EXCHANGE]))
        ),
    )


def hostile_bytes(random: Random) -> bytes:
    return spoiling.spoil_bytes(random, joined(random, either_width(random, lines.LOADS)))


def hostile_json(random: Random) -> bytes:
    """Lines `load` with JSON that is spoiled, and what the copy shows then."""
    world = World(random, random.random() < 0.4)
    script = [b"processors %d" % world.processors]
    for _ in range(random.randrange(1, 8)):
        if random.random() < 0.3:
            text = spoiling.deep_json(random)
        else:
            text = spoiling.spoil_json(random, texts.snapshot(world).encode())
        script.append(b"load 0 " + text.replace(b"\n", b""))
    return b"\n".join(script + [b"save 0", b""])


def nearly_same(random: Random) -> bytes:
    """Two copies take texts that are the same but for one number, and are compared and merged."""
    world = World(random, random.random() < 0.3, processors=2)
    world.active = 2
    text = texts.snapshot(world)
    other = texts.nearly(random, text)
    script = ["processors 2", "load 0 " + text, "load 1 " + other]
    script += random.choices(["save 0", "save 1", "load 0 " + other, "unmap 0 1 all:-w- keep"],
                             k=random.randrange(3))
    script += ["same 0 1", "covers 0 1", "covers 1 0"]
    for pair in random.sample(["0 1", "1 0"], 2):
        script += ["merge " + pair, "same 0 1", "save 0", "save 1"]
    return joined(random, script)


def in_slices(random: Random) -> bytes:
    """A record and its children come in any order; what some unmaps of it issue is sent one by one,
    and some of it comes to another copy."""
    world = World(random, random.random() < 0.2, processors=2)
    records = texts.family(world, random.randrange(2, 7))
    _, _, number, version, page, order, *_ = records[0]
    text = json.dumps({"cuts": [], "ended": [], "records": records, "version": 3})
    script = ["processors 2", "load 0 " + text, "load 1 " + text]
    for _ in range(random.randrange(1, 4)):
        part = random.choice(["all", "%x/%d" % (page << 12, order), world.source().fpage()])
        script.append("unmap 0 %d.%d %s:%s %s" % (
            number, version, part, world.rights(), random.choice(["keep", "flush"])))
    marks = [len(records) + random.randrange(len(records) + 2) for _ in range(6)]
    script += ["send 0 %d %d" % (mark, mark + 1) for mark in marks]
    for message in random.sample(range(6), 3):
        script += ["deliver %d 1" % message, "save 1"]
    return joined(random, script + ["save 0"])


def saved_and_loaded(random: Random) -> bytes:
    """What a script leaves at processor 0 is saved, and loaded into a copy that is empty."""
    world = World(random, random.random() < 0.4, processors=3)
    script = lines.lines_over(world, lines.EXCHANGE) + ["save 0"]
    told = run_script("\n".join(script).encode()).output.decode()
    text = told.splitlines()[-1].partition(" ")[2]
    questions = [lines.rights_line(world), lines.served_line(world), "table 2", "save 2"]
    return joined(random, script + ["load 2 " + text, "same 0 2", "covers 2 0"] + questions)


def long_lines(random: Random) -> bytes:
    """A line of some thousand bytes, which is skipped, read or refused."""
    return with_long_line(random, random.choice([4095, 4096, 4097, 8192, 65536, 300000]))


def longest_lines(random: Random) -> bytes:
    """A line of about as many bytes as a line may have."""
    return with_long_line(random, LONGEST_LINE + random.choice([-1, 0, 1, 2]))


def with_long_line(random: Random, length: int) -> bytes:
    begin, fill = random.choice(
        [
            (b"#", b"x"),
            (b"", b" "),
            (b"rights 0 0 0", b" "),
            (b'load 0 {"x":"', b"x"),
            (b"load 0 ", b"["),
            (b"rights 0 0 ", b"0"),
            (b"", b"\r"),
            (b"#", b"\0"),
        ]
    )
    line = begin + fill * (length - len(begin) - 1) + random.choice([fill, b"\r", b" "])
    script = [b"processors 1", b"map 0 0 10000/12:rwx 0 1 20000/12", line, b"rights 0 1 20000"]
    random.shuffle(script)
    return b"\n".join(script) + random.choice([b"\n", b""])


def nearly_full(random: Random) -> bytes:
    """A copy that holds about as many operations as it may, and commands there."""
    count = 65536 - random.choice([0, 1, 2, 3, 5])
    ended = ",".join("[%d,%d]" % (1000 + index % 60000, index // 60000) for index in range(count))
    world = World(random, processors=2)
    script = lines.lines_over(world, lines.EXCHANGE, 20)[1:]
    load = 'load 0 {"cuts":[],"ended":[%s],"records":[],"version":3}' % ended
    shown = [line for line in script if not line.startswith(("save", "merge"))]
    return joined(random, ["processors 2", load] + shown)


def threaded(random: Random) -> bytes:
    """A script whose processors have no part in each other's commands; now and then it has a
    faulty line."""
    processors = random.choice([1, 2, 2, 3, 3, 4])
    worlds = [World(random, random.random() < 0.2, processors) for _ in range(processors)]
    script = ["processors %d" % processors]
    for _ in range(random.randrange(40)):
        processor = random.randrange(processors)
        script.append(threaded_line(worlds[processor], processor))
    if random.random() < 0.3:
        script.insert(random.randrange(len(script) + 1), random.choice(NOT_THREADED))
    return joined(random, script)


def threaded_line(world: World, processor: int) -> str:
    """A command among the processor's own spaces, and from memory."""
    world.spaces = ["%d" % (10 * processor + 10 + index) for index in range(3)]
    source, receiver, window = world.source(), world.random.choice(world.spaces), world.fpage()
    sender = source.space if source.space in world.spaces else "0"
    shot = world.random.random()
    if shot < 0.6:
        world.remember(receiver, source, 0, window)
        return "map %d %s %s:%s 0 %s %s" % (
            processor, sender, source.fpage(), world.rights(), receiver, window
        )
    if shot < 0.9:
        return "unmap %d %s %s:%s %s" % (processor, receiver, source.fpage(), world.rights(),
                                         world.random.choice(["keep", "flush"]))
    return "end %d %s" % (processor, receiver)


NOT_THREADED = [
    "save 0", "rights 0 0 0", "rights 9 0 0", "end 4 1", "end 64 1", "end 255 1", "end 256 1",
    "map 5 0 nil:rwx 0 1 nil", "processors 2", "processors 5", "processors 0", "version 0 5.1",
    "load 0 [", "load 0", "merge 0 1 2", "threads",
]

KINDS = {
    "commands": (over(lines.COMMANDS), 30),
    "wide commands": (over(lines.COMMANDS, wide=True), 14),
    "exchange": (over(lines.EXCHANGE), 12),
    "wide exchange": (over(lines.EXCHANGE, wide=True), 4),
    "loads": (over(lines.LOADS), 10),
    "wide loads": (over(lines.LOADS, wide=True), 5),
    "saved and loaded": (saved_and_loaded, 4),
    "nearly the same": (nearly_same, 5),
    "in slices": (in_slices, 3),
    "kernel words": (over(lines.WORDS, wide=True), 3),
    "hostile words": (hostile_words, 9),
    "hostile bytes": (hostile_bytes, 5),
    "hostile json": (hostile_json, 4),
    "threads": (threaded, 2),
    "long lines": (long_lines, 0.5),
    "longest lines": (longest_lines, 0.02),
    "nearly full": (nearly_full, 0.05),
    "many lines": (of_many_lines, 1),
}
GREAT = {"longest lines", "nearly full"}
