"""Faults that `hostile` has to report: programs that take what is to be refused, or miss limits."""

from driver import great
from driver.rows import run_all
from driver.scripts import Script
from planted.faults import Fault, script_of, wrapped

LIMIT = 60
CHAIN = 20

# Name, what is told, the script, and the wrong program.
PROGRAMS = [
    ("a line too many is skipped", "lines_one_more: reply 1: .*; status wanted 1, found 0",
     "lines_one_more", 'head -n 1000000 | "$program" "$@"'),
    ("a line too many, and no status", "lines_one_more: status wanted 1, found 0",
     "lines_one_more", '"$program" "$@"; exit 0'),
    ("a line that is too long is cut", "lines_too_long: reply 1: .*; status wanted 1, found 0",
     "lines_too_long", 'head -c 8388608 | "$program" "$@"'),
    ("a line that is as long as it may be is refused", "lines_longest: reply 1: .*found b'line 1",
     "lines_longest", 'sed "s/$/x/" | "$program" "$@"'),
    ("an operation is taken that is not well-formed", "number_0: reply 1: .*found b'taken 1'",
     "hostile_operations_number_0", '"$program" "$@" | sed "s/^refused bad.*/taken 1/"'),
    ("a clash is taken", "hostile_operations_clash: reply [0-9]*: .*found b'taken 1'",
     "hostile_operations_clash", '"$program" "$@" | sed "s/^refused clash.*/taken 1/"'),
    ("a text is taken that is no snapshot", "not_json: reply 1: .*found b'taken 0'",
     "hostile_snapshots_not_json", '"$program" "$@" | sed "s/^refused snapshot.*/taken 0/"'),
    ("an end without a word", "deepest_chain.*: reply 1: .*; status wanted 0, found -9",
     "deepest_chain_one_by_one_%d" % CHAIN, "kill -KILL $$"),
    ("a link that loses a message", "long_threads_2: reply 3: wanted b'same yes', found b'same no'",
     "long_threads_2", '"$program" "$@" | sed "s/same yes/same no/"'),
]


def made_scripts() -> list[Script]:
    """Those of the made scripts that are quick."""
    return great.line_limits() + [great.long_threads(2), great.chain_one_by_one(CHAIN)]


def script_named(name: str) -> Script:
    """The made script of this name, or the stored one."""
    made = [script for script in made_scripts() if script.name == name]
    return made[0] if made else script_of(name)


def hostile_faults() -> list[Fault]:
    names = sorted({name for _, _, name, _ in PROGRAMS})
    as_it_is = Fault("hostile", "as it is", None, lambda scene: run_all(
        "hostile", scene.program, [script_named(name) for name in names], LIMIT))
    return [as_it_is] + [by_program(*row) for row in PROGRAMS] + [
        by_reply("a reply that is wanted otherwise", "deepest_chain_one_by_one_%d" % CHAIN,
                 b"rights 00010:rwx", b"rights 00010:rw-"),
        by_reply("a count that is wanted otherwise", "long_threads_2", b"issued 1500",
                 b"issued 999"),
    ]


def by_program(name: str, told: str, script: str, text: str) -> Fault:
    """A wrong program that runs one script."""
    return Fault("hostile", name, told, lambda scene: run_all(
        "hostile", wrapped(scene, "hostile " + name, text), [script_named(script)], LIMIT))


def by_reply(name: str, script: str, reply: bytes, other: bytes) -> Fault:
    """A script of which another reply is wanted."""
    right = script_named(script)
    wrong = right._replace(output=right.output.replace(reply, other))
    told = "%s: reply [0-9]*: wanted b'.*%s'" % (script, other.decode())
    return Fault("hostile", name, told, lambda scene: run_all(
        "hostile", scene.program, [wrong], LIMIT))
