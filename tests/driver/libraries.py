"""Each allocation of calls of the libraries is refused: what stands then is what the call told, and
the same call made again comes to what it would have come to.

The program `crates/mapdb_refusals` makes the calls, case by case, and compares. Each case tells a
line: `whole`; `unmade`, where memory was refused for what the case compares with; `refused K, again
WHAT`, where memory was refused in the call, so many parts of it stand, and the same call made again
was `whole`, `refused K`, or `failed` for good; and where anything else was found, `wrong`. Here
each of its allocations is refused in turn, alone and with all behind it, and each of its threads.
Of the numbers of parts that can stand the least, the greatest and one between have to be met: not
each part asks for memory, since some find room in what is there.
"""

import itertools
import os
import re
from concurrent.futures import ThreadPoolExecutor
from typing import Iterable, NamedTuple, Optional

from driver.interposer import Interposer
from driver.program import TOP, Outcome, Program
from driver.tally import Met, Tally

BUILT = os.path.join(TOP, "crates", "mapdb_refusals", "out", "mapdb_refusals")
MOST_REFUSALS = 100000
CHUNK = 16


class Case(NamedTuple):
    """A case: the numbers of parts that can stand behind a refusal, what the same call comes to
    where there is memory again, what is told where there never is any, whether threads are started,
    and whether it is several commands at a copy."""

    name: str
    parts: range
    again: str = "whole"
    without: str = "unmade"
    in_threads: bool = False
    in_commands: bool = False


# An Unmap of 6 revocations and a batch of 13 operations, whose last ones find room in what is there,
# a Map of 4 records, a command whose record stands without an index, 5 commands at a tree, 10
# events, and 8 commands of which each is an entry, also one that ran out of memory. A table and a
# report are not given in part.
CASES = [
    Case("unmap", range(5)),
    Case("map", range(4)),
    Case("take", range(12)),
    Case("index", range(1, 2)),
    Case("tree", range(5), again="failed", without="refused 0, again failed"),
    Case("cluster", range(10), in_commands=True),
    Case("book", range(9), in_commands=True),
    Case("node", range(9), in_commands=True),
    Case("copy handed back", range(9), in_commands=True),
    Case("table", range(1)),
    Case("table in threads", range(1), in_threads=True),
    Case("exchange", range(1), in_threads=True),
]

TOLD = re.compile(r"(whole|unmade)|refused (\d+), again (whole|failed|refused \d+)")


class Series(NamedTuple):
    """Runs in each of which another allocation or thread is refused."""

    kind: str
    is_onward: bool


SERIES = [Series(kind, is_onward) for kind in ("allocation", "thread")
          for is_onward in (False, True)]


class Run(NamedTuple):
    """A run in which the one of this number was refused, if there was one."""

    series: Series
    number: int
    is_refused: bool
    outcome: Outcome

    def told(self) -> Optional[list[str]]:
        """What is told of each case, or None where the lines are not those of all cases."""
        lines = [line.partition(": ") for line in self.outcome.output.decode().splitlines()]
        names = [name for name, _, _ in lines]
        return [told for _, _, told in lines] if names == [case.name for case in CASES] else None

    def parts(self) -> Iterable[tuple[int, int]]:
        """The place of each case that was refused, and how many parts of it stand."""
        for place, told in enumerate(self.told() or []):
            found = TOLD.fullmatch(told)
            if found is not None and found[2] is not None:
                yield place, int(found[2])


def fault_of(run: Run) -> Optional[str]:
    """What is wrong in a run."""
    told = run.told()
    if told is None or run.outcome.status != 0 or run.outcome.errors:
        return "not all cases are told as right: %s" % (run.outcome,)
    for case, line in zip(CASES, told):
        if not may_be_told(run, case, line):
            return "it is not as the contract says: %s: %s" % (case.name, line)
    others = [place for place, line in enumerate(told) if line != "whole"]
    if not run.series.is_onward and len(others) > 1:
        return "one refusal, and more than one case is told otherwise: %s" % told
    if run.series == Series("allocation", True) and others:
        rest = [case.without for case in CASES[others[0] + 1:]]
        if told[others[0] + 1:] != rest:
            return "there is no memory, and cases are told otherwise: %s" % told
    return None


def may_be_told(run: Run, case: Case, line: str) -> bool:
    """Whether this may be told of a case in such a run."""
    found = TOLD.fullmatch(line)
    if found is None or (line != "whole" and not run.is_refused):
        return False
    if run.series.kind == "thread" and line != "whole" and not case.in_threads:
        return False
    if found[1] is not None:
        return line == "whole" or run.series.kind == "allocation"
    again = found[3].split()[0]
    is_again = again in (case.again, "refused") if run.series.is_onward else again == case.again
    return int(found[2]) in case.parts and is_again


def run_libraries(interposer: Interposer, jobs: int, program: Optional[Program] = None) -> Tally:
    """Refuses each allocation and each thread of the calls, alone and with all behind it."""
    program = program or Program(BUILT)
    if not program.is_there():
        tally = Tally("libraries")
        tally.check(Met(False, "the program", "%s is not there; rt ci builds it" % program.path))
        return tally.end("nothing")
    return judge(list(runs_of(interposer, program, jobs)))


def runs_of(interposer: Interposer, program: Program, jobs: int) -> Iterable[Run]:
    """All runs of all series."""
    with ThreadPoolExecutor(jobs) as pool:
        for series in SERIES:
            yield from run_series(interposer, program, series, pool)


def run_series(
    interposer: Interposer, program: Program, series: Series, pool: ThreadPoolExecutor
) -> Iterable[Run]:
    """Refuses the Nth one, N from 1 on until a run meets no refusal, which is the last run."""
    for first in range(1, MOST_REFUSALS, CHUNK):
        numbers = range(first, first + CHUNK)
        for run in pool.map(lambda number: run_once(interposer, program, series, number), numbers):
            yield run
            if not run.is_refused:
                return
    raise RuntimeError("the calls never end without a refusal")


def run_once(interposer: Interposer, program: Program, series: Series, number: int) -> Run:
    wanted = {series.kind: number, "onward": int(series.is_onward)}
    outcome, counts = interposer.run(program, [], b"", **wanted)
    refused = counts.refused_allocations + counts.refused_threads
    return Run(series, number, refused > 0, outcome)


def judge(runs: list[Run]) -> Tally:
    """Counts what is wrong in each run, and in what they tell together."""
    tally = Tally("libraries")
    for run in runs:
        fault = fault_of(run)
        tally.check(Met(fault is None, "refused %s" % name_of(run), str(fault)))
    for series in SERIES:
        check_order(tally, [run for run in runs if run.series == series])
    check_pairs(tally, runs)
    check_parts(tally, runs)
    refused = sum(run.is_refused for run in runs)
    return tally.end("%d runs with a refusal, of %d cases" % (refused, len(CASES)))


def name_of(run: Run) -> str:
    return "%s %d%s" % (run.series.kind, run.number, " and all behind" * run.series.is_onward)


def first_parts(run: Run) -> list[tuple[int, int]]:
    """The first case that is not whole, if it was refused and its allocations come in one order,
    and its parts."""
    others = [place for place, line in enumerate(run.told() or []) if line != "whole"][:1]
    return [found for found in run.parts() if found[0] in others
            and not CASES[found[0]].in_threads]


def check_order(tally: Tally, runs: list[Run]) -> None:
    """The later the refusal, the more stands. Not so of several commands where all behind is
    refused too: where the refusal costs the copy its index, a command may do without memory that
    takes some beside an index."""
    found = [(parts, run) for run in runs for parts in first_parts(run)
             if not (run.series.is_onward and CASES[parts[0]].in_commands)]
    for (parts, run), (later, other) in itertools.pairwise(found):
        told = "behind %s there is %s, and behind %s %s" % (
            name_of(run), described(parts), name_of(other), described(later))
        tally.check(Met(parts <= later, "parts that stand", told))


def described(parts: tuple[int, int]) -> str:
    return "%s %d" % (CASES[parts[0]].name, parts[1])


def check_pairs(tally: Tally, runs: list[Run]) -> None:
    """A call that is refused leaves the same, whether there is memory later or not."""
    onward = {run.number: run for run in runs if run.series == Series("allocation", True)}
    for run in runs:
        if run.series != Series("allocation", False) or run.number not in onward:
            continue
        for parts in first_parts(run):
            found = first_parts(onward[run.number])
            told = "%s, and with all behind refused too %s" % (
                described(parts), ", ".join(map(described, found)) or "none")
            tally.check(Met(found == [parts], "refused %s" % name_of(run), told))


def check_parts(tally: Tally, runs: list[Run]) -> None:
    """Each case was refused behind the least number of parts that can stand, the greatest, and one
    between."""
    met = {found for run in runs for found in run.parts()}
    for place, case in enumerate(CASES):
        parts = sorted(count for at, count in met if at == place)
        ends = [case.parts[0], case.parts[-1]]
        is_met = len(parts) >= min(3, len(case.parts)) and [parts[0], parts[-1]] == ends
        told = "was refused behind these numbers of parts: %s" % parts
        tally.check(Met(is_met, case.name, told))
