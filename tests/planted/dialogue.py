"""Faults that `dialogue` has to report: programs that answer late, or something else."""

from driver.dialogue import SECONDS, dialogue
from driver.program import Program
from driver.tally import Tally
from planted.faults import ONE_END, Fault, wrapped

# Name, what is told, how many seconds an answer is waited for, and the wrong program.
PROGRAMS = [
    ("answers that wait for the end of the input", "one_end, the answer to line 2: b''", 1,
     'input=$(cat; echo .); printf %s "${input%.}" | "$program" "$@" 2>/dev/null'),
    ("another answer", "one_end, the answer to line 2: b'ended 2", SECONDS,
     '"$program" "$@" | sed -u "s/^ended 1/ended 2/"'),
    ("a program that ends at once", "one_end, the answer to line 2: b''", SECONDS, "exit 0"),
    ("a program that does not end", "one_end, its status: None", 1,
     '"$program" "$@"; exec sleep 60'),
    ("another status", "one_end, its status: 1", SECONDS, '"$program" "$@"; exit 1'),
]


def dialogue_faults() -> list[Fault]:
    as_it_is = Fault("dialogue", "as it is", None, lambda scene: of_one_end(scene.program, SECONDS))
    return [as_it_is] + [by_program(*row) for row in PROGRAMS]


def by_program(name: str, told: str, seconds: float, text: str) -> Fault:
    """A wrong program that gets the smallest script, line by line."""
    return Fault("dialogue", name, told, lambda scene: of_one_end(
        wrapped(scene, "dialogue " + name, text), seconds))


def of_one_end(program: Program, seconds: float) -> Tally:
    """The dialogue of the smallest script."""
    tally = Tally("dialogue")
    tally.check_all(dialogue(program, ONE_END, seconds))
    return tally
