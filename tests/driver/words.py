"""Words of the command line that are refused, and those that ask for help or the version."""

import re
from typing import Iterator

from driver.program import TOP, Outcome, Program, difference
from driver.scripts import content
from driver.streams import run_on_folder
from driver.tally import Met

NO_PAGE = """error: SPACE is a decimal number up to 65535, or NUMBER.VERSION with a version up to \
4294967295; ADDRESS is 1 to 16 hexadecimal digits without a prefix, and below 2^48
"""
MISSING = "error: the following required arguments were not provided:\n"
USAGE = {
    "run": "l4map run < SCRIPT",
    "threads": "l4map threads [--capacity N] < SCRIPT",
    "picture": "l4map picture < SNAPSHOT",
    "explain": "l4map explain SPACE ADDRESS < SNAPSHOT",
}
USAGES = "\n\nUsage: %s\n" % "\n       ".join(USAGE.values())
NO_CAPACITY = "error: the capacity of a link is a number from 1 to 1024" + USAGES
# The name is that of the program's file.
WORDLESS = re.compile(b"error: '[^']*' requires a subcommand but one was not provided")
CAPACITIES = ["0", "1025", "x", "+1"]
SPACES = ["", "x", "-", "0x1", "1.", ".1", "1.x", "1.2.3", "65536", "1.4294967296", "1,2", "1e0",
          "1:0", "\u0661", "9" * 21, "#", "all", "1 ", " 1", "1 41000"]
ADDRESSES = ["", "g", "0x41000", "41000h", "41000/12", "1000000000000", "0" * 17, "4_1", "nil",
             "41000 ", " 41000", "41000\r"]


def all_refused() -> list[tuple[list[str], str]]:
    """Arguments that are refused, and how the message begins."""
    return [(["explain", space, "41000"], NO_PAGE) for space in SPACES] + [
        (["explain", "1", address], NO_PAGE) for address in ADDRESSES
    ] + [
        (["explain", "1 41000", ""], NO_PAGE),
        (["explain"], MISSING + "  <space>\n  <address>\n"),
        (["explain", "1"], MISSING + "  <address>\n"),
        (["explain", "1", "41000", "2"], "error: unexpected argument '2' found\n"),
        (["explain", "-1", "41000"], "error: unexpected argument '-1' found\n"),
        (["picture", "1"], "error: unexpected argument '1' found\n"),
        (["picture", "--svg"], "error: unexpected argument '--svg' found\n"),
        (["pictures"], "error: unrecognized subcommand 'pictures'\n"),
        (["walk"], "error: unrecognized subcommand 'walk'\n"),
        (["run", "script"], "error: unexpected argument 'script' found\n"),
        (["threads", "script"], "error: unexpected argument 'script' found\n"),
        (["--fast", "run"], "error: unexpected argument '--fast' found\n"),
        (["threads", "--capacity"], "error: a value is required for '--capacity <N>'"),
    ] + [(["threads", "--capacity", capacity], NO_CAPACITY) for capacity in CAPACITIES]


def refused_words(program: Program) -> Iterator[Met]:
    """Words that are refused, before anything is read: the input would fail."""
    for arguments, begin in all_refused():
        found = run_on_folder(program, arguments)
        holds = (found.status, found.output) == (2, b"") and is_refusal(found.errors, begin)
        yield Met(holds, "words %r" % arguments, str(found))
    found = run_on_folder(program, [])
    holds = (found.status, found.output) == (2, b"") and WORDLESS.match(found.errors) is not None
    yield Met(holds and is_refusal(found.errors, "error: "), "no words", str(found))
    for arguments in (["explain", "1", "\udcff"], ["\udcff"], ["run", "\udcc3"]):
        found = run_on_folder(program, arguments)
        wanted = Outcome(2, b"", b"l4map: the command line is not UTF-8\n")
        yield Met(found == wanted, "words that are no UTF-8", difference(wanted, found))


def is_refusal(errors: bytes, begin: str) -> bool:
    """How the message begins, and that it says how the program is used, or how to learn that."""
    says_more = b"\n\nUsage: l4map " in errors or errors.endswith(b"try '--help'.\n")
    return errors.startswith(begin.encode()) and says_more


# Help and the version


def helps(program: Program) -> Iterator[Met]:
    """The help of the program and of each subcommand, and the version, which that of the library
    and the man page have too, with the kit that README.md names."""
    yield told_as(program, ["--help"], list(USAGE.values()) + list(USAGE))
    for name, usage in USAGE.items():
        begin = "Usage: %s\n" % usage
        for arguments in ([name, "--help"], [name, "-h"], ["help", name]):
            yield told_as(program, arguments, [begin, "Status: 0 done, "])
    lines = ["rights P S ADDR", "words P S FIRST SECOND R WINDOW"]
    for arguments in (["--help"], ["help", "run"], ["run", "-h"]):
        yield told_as(program, arguments, lines)
    version = re.search("^Version: (.*)$", stored_text("mapdb.pc.in"), re.M)[1]
    kit = re.search("`(rattle-kit-[0-9]+)`", stored_text("README.md"))[1]
    for arguments in (["--version"], ["-V"]):
        yield told_as(program, arguments, ["l4map %s (%s)\n" % (version, kit)])
    is_same = '"l4map %s"' % version in stored_text("docs/l4map.1")
    yield Met(is_same, "the man page's version", "docs/l4map.1 has another version than " + version)


def stored_text(path: str) -> str:
    return content("%s/%s" % (TOP, path)).decode()


def told_as(program: Program, arguments: list[str], parts: list[str]) -> Met:
    """What is told on the errors has these parts, and nothing is read."""
    found = run_on_folder(program, arguments)
    holds = (found.status, found.output) == (2, b"") and all(
        part.encode() in found.errors for part in parts)
    return Met(holds, "words %r" % arguments, str(found))
