"""Random scripts by seed: the program's output and status are those of the model."""

import time
from collections import deque
from concurrent.futures import Future, ProcessPoolExecutor
from typing import Iterator, NamedTuple, Optional, Union

from driver.program import Outcome, Program, difference
from driver.quick import QuickProgram
from driver.tally import Met, Tally
from maker.scripts import Case, case_of
from model.script import Told, run_script
from model.threads import run_threads

BATCH = 50
RANGE = 50000
# A run at the lowest priority may wait long for a processor.
LIMIT = 300
SHOWN_LINES = 60
SHOWN_BYTES = 1000
ERRORS_OF_COUNT = b"run fault count\n"


AnyProgram = Union[Program, QuickProgram]


class Finding(NamedTuple):
    """A script on which program and model differ."""

    seed: int
    case: Case
    why: str


class Batch(NamedTuple):
    """What was met in the scripts of some seeds: how many lines they have, and where program and
    model differ."""

    lines: int
    findings: list[Finding]


def told_by_model(command: str, text: bytes) -> Told:
    return run_threads(text) if command == "threads" else run_script(text)


def why_different(program: AnyProgram, command: str, text: bytes) -> Optional[str]:
    """How program and model differ on a script, or None."""
    found, wanted = program.run([command], text, LIMIT), told_by_model(command, text)
    errors = ERRORS_OF_COUNT if command == "threads" and wanted == Told(b"", 1) else b""
    outcome = Outcome(wanted.status, wanted.output, errors)
    return None if found == outcome else difference(outcome, found)


def run_batch(path: str, seeds: range, may_be_great: bool) -> Batch:
    """Runs the scripts of these seeds."""
    program, lines, findings = QuickProgram(path), 0, []
    for seed in seeds:
        case = case_of(seed, may_be_great)
        lines += case.text.count(b"\n")
        why = why_different(program, case.command, case.text)
        if why is not None:
            findings.append(Finding(seed, case, why))
    return Batch(lines, findings)


def reduced(program: Program, case: Case) -> bytes:
    """The script without the lines that its difference does not need."""
    lines = case.text.split(b"\n")

    def differs(some: list[bytes]) -> bool:
        return why_different(program, case.command, b"\n".join(some)) is not None

    size = max(1, len(lines) // 2)
    while True:
        kept = without_chunks(lines, size, differs)
        if len(kept) == len(lines) and size == 1:
            return b"\n".join(kept)
        lines, size = kept, max(1, size // 2)


def without_chunks(lines: list[bytes], size: int, differs) -> list[bytes]:
    """Leaves out each chunk of so many lines without which the difference stays."""
    at = 0
    while at < len(lines):
        some = lines[:at] + lines[at + size:]
        if some and differs(some):
            lines = some
        else:
            at += size
    return lines


def batches(seed: int, count: Optional[int], end: Optional[float]) -> Iterator[range]:
    """The seeds from the first one on: so many, or as long as there is time."""
    begin = seed
    while (count is None or begin < seed + count) and (end is None or time.monotonic() < end):
        size = BATCH if count is None else min(BATCH, seed + count - begin)
        yield range(begin, begin + size)
        begin += size


def tell(tally: Tally, program: Program, finding: Finding) -> None:
    """Tells a finding with its seed and the reduced script."""
    case, why, text = finding.case, finding.why, finding.case.text
    if tally.is_telling():
        text = reduced(program, case)
        why = why_different(program, case.command, text) or why
    name = "seed %d (%s, %s)" % (finding.seed, case.command, case.kind)
    tally.check(Met(False, name, "%s\n%s" % (why, shown(text))))


def shown(text: bytes) -> str:
    """The lines of a script, as Python spells their bytes, without the rest of long ones."""
    lines = ["    %r" % line[:SHOWN_BYTES] for line in text.split(b"\n")]
    rest = ["    .. of %d bytes" % len(text)] if len(lines) > SHOWN_LINES else []
    return "\n".join(lines[:SHOWN_LINES] + rest)


def fuzz(
    program: Program,
    count: Optional[int],
    seed: int = 1,
    minutes: Optional[float] = None,
    jobs: int = 1,
    may_be_great: bool = True,
) -> Tally:
    """Runs `count` scripts from a seed on, or as many as there are minutes for."""
    met = Progress(program, seed)
    end = None if minutes is None else met.begun + 60 * minutes
    with ProcessPoolExecutor(jobs) as pool:
        waiting = deque()
        for seeds in batches(seed, count, end):
            waiting.append((seeds, pool.submit(run_batch, program.path, seeds, may_be_great)))
            if len(waiting) >= 2 * jobs:
                met.finish(*waiting.popleft())
        for seeds, batch in waiting:
            met.finish(seeds, batch)
    return met.tally.end("%s with %d processes" % (met.told(), jobs))


class Progress:
    """What was run from a seed on, told after each range of seeds."""

    def __init__(self, program: Program, seed: int):
        self.program = program
        self.first = self.next = seed
        self.lines = 0
        self.begun = time.monotonic()
        self.tally = Tally("fuzz")

    def finish(self, seeds: range, batch: Future) -> None:
        """Counts the scripts of a batch, which comes behind all that were counted."""
        lines, findings = batch.result()
        self.next = seeds.stop
        self.lines += lines
        self.tally.passed += len(seeds) - len(findings)
        for finding in findings:
            tell(self.tally, self.program, finding)
        if (self.next - self.first) % RANGE == 0:
            print("fuzz: %s, %d differ" % (self.told(), self.tally.failed), flush=True)

    def told(self) -> str:
        return "seeds %d to %d: %d scripts of %d lines, in %d seconds" % (
            self.first,
            self.next - 1,
            self.next - self.first,
            self.lines,
            time.monotonic() - self.begun,
        )
