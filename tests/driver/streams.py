"""Standard input and output that give and take little, or fail."""

import os
from concurrent.futures import ThreadPoolExecutor
from typing import Iterator

from driver.interposer import Interposer
from driver.program import READ_FAILED, WRITE_FAILED, Outcome, Program
from driver.scripts import LONGEST_SCRIPT, Script, examples, rows
from driver.tally import Met, Tally

SHORT = """
    first_path flush_one_page_of_four every_delivery_order faulty_places_too_small threaded_exchange
    empty_script picture_of_nothing explain_memory
""".split()
PIECES = [
    {"read_piece": 1},
    {"write_piece": 1},
    {"read_piece": 1, "write_piece": 1},
    {"read_piece": 7, "write_piece": 3},
]
FAILURES = [
    ("read_fail", {}),
    ("read_fail", {"read_piece": 1}),
    ("read_fail", {"read_piece": 1, "interrupted": 1}),
    ("write_fail", {}),
    ("write_fail", {"interrupted": 1}),
    ("write_fail", {"write_piece": 1}),
    ("write_nothing", {}),
    ("write_nothing", {"write_piece": 1}),
]


def name_of(script: Script, wanted: dict) -> str:
    return "%s, %s" % (script.name, wanted)


def small_pieces(program: Program, interposer: Interposer, script: Script) -> list[Met]:
    """However few bytes a call gives or takes, the output is the same."""
    whole, met = script.outcome(), []
    for wanted in PIECES:
        found, _ = interposer.run(program, script.arguments, script.source, **wanted)
        met.append(Met(found == whole, name_of(script, wanted), str(found)))
    return met


def each_failure(program: Program, interposer: Interposer, script: Script) -> list[Met]:
    """The kth call fails, k from 1 on until a run does not come so far."""
    whole, met = script.outcome(), []
    for kind, pieces in FAILURES:
        number, is_met = 0, True
        while is_met:
            number += 1
            wanted = {kind: number, **pieces}
            found, counts = interposer.run(program, script.arguments, script.source, **wanted)
            is_met = counts.failed_reads + counts.failed_writes > 0
            holds = has_failed(kind, whole, found) if is_met else found == whole
            met.append(Met(holds, name_of(script, wanted), str(found)))
    return met


def has_failed(kind: str, whole: Outcome, found: Outcome) -> bool:
    """Whether the failure is told, and what was written is a beginning of the whole."""
    message = READ_FAILED if kind == "read_fail" else WRITE_FAILED
    return found.status == 3 and found.errors == message and whole.output.startswith(found.output)


def real_failures(program: Program) -> Iterator[Met]:
    """What the system itself refuses: a directory, a full device, and a pipe that nobody reads."""
    script = next(script for script in examples() if script.name == "first-path")
    for command in ("run", "threads", "picture"):
        found = run_on_folder(program, [command])
        name = "%s, a directory as input" % command
        yield Met(found == Outcome(3, b"", READ_FAILED), name, str(found))
    for name, source, wanted in (
        ("a full device", script.source, Outcome(3, b"", WRITE_FAILED)),
        ("a full device, with nothing to tell", b"# nothing\n", Outcome(0, b"", b"")),
    ):
        with open("/dev/full", "wb") as full:
            found = program.run(["run"], source, stdout=full)
        yield Met(found == wanted, name, str(found))
    for arguments, status in ((["walk"], 2), (["help"], 2), (["run"], 3)):
        with open("/dev/full", "wb") as full:
            found = run_on_folder(program, arguments, stderr=full)
        name = "%s, with errors that nobody can be told" % arguments[0]
        yield Met(found == Outcome(status, b"", b""), name, str(found))
    found = run_into_closed_pipe(program, script)
    yield Met(found == Outcome(3, b"", WRITE_FAILED), "a pipe that nobody reads", str(found))


def run_on_folder(program: Program, arguments: list[str], **streams) -> Outcome:
    """A run that fails as soon as it reads."""
    folder = os.open(os.path.dirname(os.path.abspath(__file__)), os.O_RDONLY)
    try:
        return program.run(arguments, stdin=folder, **streams)
    finally:
        os.close(folder)


def run_into_closed_pipe(program: Program, script: Script) -> Outcome:
    reading, writing = os.pipe()
    os.close(reading)
    try:
        return program.run(script.arguments, script.source, stdout=writing)
    finally:
        os.close(writing)


def run_streams(program: Program, interposer: Interposer, short: bool, jobs: int) -> Tally:
    """All rows and examples in small pieces, and with each read and write failing; in the short
    form some of them."""
    scripts = [script for script in rows() + examples() if len(script.source) < LONGEST_SCRIPT]
    failing = [script for script in scripts if not short or script.name in SHORT]
    return stream_all(program, interposer, scripts, failing, jobs)


def stream_all(program: Program, interposer: Interposer, scripts: list[Script],
               failing: list[Script], jobs: int) -> Tally:
    """Runs some scripts in small pieces, others with each read and write failing, and meets the
    system's failures."""
    tally = Tally("streams")
    with ThreadPoolExecutor(jobs) as pool:
        for met in pool.map(lambda script: small_pieces(program, interposer, script), scripts):
            tally.check_all(met)
        for met in pool.map(lambda script: each_failure(program, interposer, script), failing):
            tally.check_all(met)
    tally.check_all(real_failures(program))
    return tally.end(
        "%d scripts in small pieces, %d with each read and write failing, and the system's failures"
        % (len(scripts), len(failing))
    )
