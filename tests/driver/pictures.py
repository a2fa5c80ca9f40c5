"""Pictures of snapshots, and why their pages show what they show: the program writes what the model
says, byte for byte, and refuses what is no snapshot by its name."""

import re
import shutil
from concurrent.futures import ProcessPoolExecutor
from random import Random
from typing import Iterable, Iterator, NamedTuple, Union

from driver.drawings import drawings, stored_drawing
from driver.program import Outcome, Program, difference
from driver.quick import QuickProgram
from driver.snapshots import (
    children_of_none, faulty_texts, odd_texts, stored_scripts, texts_of_seed, texts_of_stored,
)
from driver.tally import Met, Tally
from driver.words import helps, refused_words
from model.facts import Facts
from model.loading import loaded
from model.picture import explanation, picture
from model.places import MEMORY, PAGES, Fault, Space, spell_space
from model.rights import change_points, holders

AnyProgram = Union[Program, QuickProgram]

LIMIT = 60
SHORT_SEEDS, LONG_SEEDS = 300, 10000
SHORT_PAGES, LONG_PAGES = 6, 40
BATCH = 20
STRANGER = Space(4097, 3)
PAGE = ["1", "41000"]
NODE = re.compile(rb'"([0-9.]+)" \[label=')
CHILDREN = 2000
BYTES_OF_ONE = 150


class Batch(NamedTuple):
    """How many texts were looked at, how many cases passed, and which failed."""

    texts: int
    passed: int
    failed: list[Met]


# What is asked of a text


def spaces_of(facts: Facts) -> list[Space]:
    """The spaces that the facts speak of, physical memory, and one of which nothing is said."""
    records = {record.space for record in facts.records.values()}
    return sorted(records | facts.ended | {MEMORY, STRANGER})


def pages_of(facts: Facts, space: Space) -> list[int]:
    """The pages beside which something may change, on both sides."""
    points = {0}
    for name in holders(facts, space):
        points |= change_points(facts, name)
    return sorted({page for point in points for page in (point - 1, point) if 0 <= page < PAGES})


def asked_of(facts: Facts, random: Random, most: int) -> list[tuple[Space, int]]:
    """Some pages that records of their space have, each with its space, and one that may be any."""
    pages = [(space, page) for space in spaces_of(facts) for page in pages_of(facts, space)]
    held = [(space, page) for space, page in pages if is_held(facts, space, page)]
    return random.sample(held, min(most, len(held))) + [random.choice(pages)]


def is_held(facts: Facts, space: Space, page: int) -> bool:
    return any(record.space == space and record.place.pages().holds(page)
               for record in facts.records.values())


def wanted_of(text: bytes, random: Random, most: int) -> Iterator[tuple[list[str], Outcome]]:
    """Arguments, and what is to be written of the text."""
    try:
        facts = loaded(text)
    except Fault as fault:
        refused = Outcome(1, b"", ("l4map: refused %s\n" % fault.name).encode())
        yield ["picture"], refused
        yield ["explain", *PAGE], refused
        return
    yield ["picture"], Outcome(0, picture(facts).encode(), b"")
    for space, page in asked_of(facts, random, most):
        told = explanation(facts, space, page).encode()
        yield ["explain", *words_of(space, page, random)], Outcome(0, told, b"")


def words_of(space: Space, page: int, random: Random) -> list[str]:
    """The words of a space and of an address in the page."""
    address = page * 4096 + random.choice([0, 1, 4095])
    return [spell_space(space), random.choice(["%x", "%X", "%016x"]) % address]


def look_at(program: AnyProgram, name: str, text: bytes, most: int) -> list[Met]:
    """Asks the program for the picture, and for some pages, of a text."""
    met = []
    for arguments, wanted in wanted_of(text, Random(name), most):
        found = program.run(arguments, text, LIMIT)
        met.append(Met(found == wanted, "%s: %s" % (name, " ".join(arguments)),
                       difference(wanted, found) + shown(text)))
    return met


def shown(text: bytes) -> str:
    return "\n    %s" % text.decode(errors="replace") if len(text) < 1000 else ""


# The texts of scripts


def look_at_all(program: AnyProgram, texts: Iterable[tuple[str, bytes]], most: int) -> Batch:
    """Looks at texts that have names."""
    count, passed, failed = 0, 0, []
    for name, text in texts:
        met = look_at(program, name, text, most)
        count += 1
        passed += sum(one.holds for one in met)
        failed += [one for one in met if not one.holds]
    return Batch(count, passed, failed)


def named(name: str, texts: list[bytes]) -> list[tuple[str, bytes]]:
    return [("%s, text %d" % (name, number), text) for number, text in enumerate(texts, 1)]


def look_at_stored(path: str, most: int) -> Batch:
    """The texts of the stored scripts."""
    texts = [pair for script in stored_scripts()
             for pair in named(script.name, texts_of_stored(script))]
    return look_at_all(QuickProgram(path), texts, most)


def look_at_seeds(path: str, seeds: range, most: int) -> Batch:
    """The texts of the random scripts of these seeds."""
    texts = [pair for seed in seeds for pair in named("seed %d" % seed, texts_of_seed(seed))]
    return look_at_all(QuickProgram(path), texts, most)


def refusals(program: AnyProgram) -> Iterator[Met]:
    """What is no snapshot, or none that a copy can hold, is refused by name."""
    for name, text, fault in faulty_texts():
        wanted = Outcome(1, b"", ("l4map: refused %s\n" % fault).encode())
        for arguments in (["picture"], ["explain", *PAGE]):
            found = program.run(arguments, text, LIMIT)
            yield Met(found == wanted, "%s: %s" % (name, arguments[0]), difference(wanted, found))


def children_case(program: AnyProgram) -> Met:
    """Each name has one node, and each run one line, also where many records have one parent that
    is not held, and of which many runs are revoked: the text grows as the snapshot does."""
    found = program.run(["picture"], children_of_none(CHILDREN), LIMIT)
    nodes, runs = NODE.findall(found.output), found.output.count(b"\\nrevoked ")
    names = [b"%d.0" % number for number in range(CHILDREN + 2)]
    holds = sorted(nodes) == sorted(names) and runs == CHILDREN and found.status == 0
    return Met(holds and len(found.output) <= 2 * CHILDREN * BYTES_OF_ONE,
               "%d records of one parent that is not held" % CHILDREN,
               "%d nodes of %d names, %d runs, %d bytes, status %s" % (
                   len(nodes), len(set(nodes)), runs, len(found.output), found.status))


# All of it


def check_scripts(tally: Tally, path: str, short: bool, jobs: int) -> int:
    """Looks at the texts of stored and random scripts; gives how many texts there were."""
    seeds, most = (SHORT_SEEDS, SHORT_PAGES) if short else (LONG_SEEDS, LONG_PAGES)
    ranges = [range(first, min(first + BATCH, seeds + 1)) for first in range(1, seeds + 1, BATCH)]
    with ProcessPoolExecutor(jobs) as pool:
        waiting = [pool.submit(look_at_stored, path, most)]
        waiting += [pool.submit(look_at_seeds, path, some, most) for some in ranges]
        batches = [one.result() for one in waiting]
    for batch in batches:
        tally.passed += batch.passed
        tally.check_all(batch.failed)
    return sum(batch.texts for batch in batches)


def run_pictures(program: Program, short: bool, jobs: int) -> Tally:
    """The texts of the stored scripts and of some hundred random ones, hostile texts, words and
    help, and whether Graphviz draws what is written."""
    tally, quick = Tally("pictures"), QuickProgram(program.path)
    texts = check_scripts(tally, program.path, short, jobs)
    for name, text in odd_texts():
        tally.check_all(look_at(quick, name, text, SHORT_PAGES))
    tally.check(children_case(quick))
    tally.check_all(refusals(quick))
    tally.check_all(refused_words(program))
    tally.check_all(helps(program))
    tally.check(stored_drawing(program))
    if shutil.which("dot") is None:
        tally.skip("drawing the examples, since there is no dot")
    else:
        tally.check_all(drawings(program))
    return tally.end("%d texts of scripts, %d that are odd and %d that are refused" % (
        texts, len(odd_texts()), len(faulty_texts())))
