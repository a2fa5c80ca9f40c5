"""Each allocation is refused, and each thread: the program says so, or did not need it."""

from collections import Counter
from concurrent.futures import ThreadPoolExecutor
from typing import NamedTuple, Optional

from driver.interposer import Counts, Interposer
from driver.program import NO_MEMORY, Outcome, Program
from driver.scripts import LONGEST_SCRIPT, Script, examples, rows
from driver.tally import Met, Tally

NAMED = """
    flush_one_page_of_four every_delivery_order occupied_destination numbers_spent remap_after_unmap
    picture_of_all_kinds explain_two_records
""".split()
MOST_REFUSALS = 1000000

FAULTS_OF_THREADS = {
    "allocation": (b"run fault thread\n",),
    "thread": (b"run fault thread\n",),
}


class Series(NamedTuple):
    """Runs of one script, in each of which another allocation or thread is refused."""

    script: Script
    kind: str
    is_onward: bool

    def wanted(self, number: int) -> dict[str, int]:
        return {self.kind: number, "onward": int(self.is_onward)}

    def is_met(self, counts: Counts) -> bool:
        """Whether something was refused."""
        if self.kind == "allocation":
            return counts.refused_allocations > 0
        return counts.refused_threads > 0

    def end_of(self, whole: Outcome, found: Outcome) -> Optional[str]:
        """How a run ended in which something was refused, or None where it may not end so."""
        if found == whole:
            return "whole"
        is_front = whole.output.startswith(found.output)
        may_want = self.kind == "allocation"
        if may_want and found.status == 4 and found.errors == NO_MEMORY and is_front:
            return "out of memory"
        faults = FAULTS_OF_THREADS[self.kind] if self.script.arguments[0] == "threads" else ()
        if found.status == 1 and found.output == b"" and found.errors in faults:
            return found.errors.decode().strip()
        return None


def run_series(program: Program, interposer: Interposer, series: Series) -> list[tuple[str, Met]]:
    """Refuses the Nth one, N from 1 on until a run meets no refusal; tells how each run ended."""
    script, ends, fronts = series.script, [], []
    whole = script.outcome()
    for number in range(1, MOST_REFUSALS):
        wanted = series.wanted(number)
        found, counts = interposer.run(program, script.arguments, script.source, **wanted)
        is_met = series.is_met(counts)
        end = series.end_of(whole, found) if is_met else "nothing refused"
        holds = end is not None and (is_met or found == whole)
        name = "%s, refused %s" % (script.name, wanted)
        ends.append((end or "wrong", Met(holds, name, str(found))))
        if end == "out of memory":
            fronts.append(found.output)
        if not is_met:
            kept = keeps_replies(script, fronts)
            return ends + ([("its replies kept", kept)] if kept else [])
    raise RuntimeError("%s never ends without a refusal" % script.name)


def keeps_replies(script: Script, fronts: list[bytes]) -> Optional[Met]:
    """Whether what was replied before memory ran out was written. It ran out later and later, so
    the fronts of the output are whole lines, none shorter than the one before, and there is one
    before each reply that takes memory. None of a script that may reply more than a line to a line,
    or none."""
    wanted = fronts_before(script)
    if not fronts or wanted is None:
        return None
    lengths = [len(front) for front in fronts]
    ends = {0} | {place + 1 for place, byte in enumerate(script.output) if byte == ord("\n")}
    holds = lengths == sorted(lengths) and wanted <= set(lengths) <= ends
    return Met(holds, "%s, the replies before" % script.name, str(lengths))


def fronts_before(script: Script) -> Optional[set[int]]:
    """How long the output is before each reply that takes memory, where each line but the first is
    replied one line."""
    lines = [line.split()[:1] for line in script.source.splitlines()]
    asked = [words[0] for words in lines if words and not words[0].startswith(b"#")][1:]
    replies = script.output.splitlines(keepends=True)
    if script.arguments != ["run"] or len(asked) != len(replies):
        return None
    fronts, length = set(), 0
    for reply in replies:
        if takes_memory(reply):
            fronts.add(length)
        length += len(reply)
    return fronts


def takes_memory(reply: bytes) -> bool:
    """Whether a line that is replied this asks for memory, whatever came before: for the text of a
    snapshot, or for the list of a page's rights."""
    return reply.startswith((b"snapshot ", b"rights ")) and reply != b"rights none\n"


def all_series(short: bool) -> list[Series]:
    """Of all scripts, in the short form of those that are named and the examples."""
    stored = [script for script in rows() if len(script.source) < LONGEST_SCRIPT]
    scripts = [script for script in stored if not short or script.name in NAMED] + examples()
    threaded = [script for script in stored + examples() if script.arguments[0] == "threads"]
    return [
        Series(script, kind, is_onward)
        for kind, some in (("allocation", scripts), ("thread", threaded))
        for script in some
        for is_onward in (False, True)
    ]


def run_refusals(program: Program, interposer: Interposer, short: bool, jobs: int) -> Tally:
    """Refuses each allocation and each thread, alone and with all behind it."""
    return refuse_all(program, interposer, all_series(short), jobs)


def refuse_all(program: Program, interposer: Interposer, every: list[Series], jobs: int) -> Tally:
    """Runs these series."""
    tally, ends = Tally("refusals"), Counter()
    if not sees_allocations(program, interposer):
        tally.check(Met(False, "counting", "a script was run, and no allocation was counted"))
        return tally.end("nothing")
    with ThreadPoolExecutor(jobs) as pool:
        for found in pool.map(lambda series: run_series(program, interposer, series), every):
            for end, met in found:
                ends[end] += 1
                tally.check(met)
    names = {series.script.name for series in every}
    told = ", ".join("%s %d" % pair for pair in sorted(ends.items()))
    return tally.end("%d scripts, %d series; ends: %s" % (len(names), len(every), told))


def sees_allocations(program: Program, interposer: Interposer) -> bool:
    """Whether the library stands before this program's allocations."""
    _, counts = interposer.run(program, ["run"], b"processors 1\nend 0 1\nsave 0\n")
    return counts.allocations > 0
