"""Faults that `libraries` has to report: what stands behind a refusal is not what the call told,
the same call comes to something else, or no refusal is met where it matters."""

import functools
import re
from typing import Callable, Optional

from driver.interposer import Interposer
from driver.libraries import BUILT, Run, Series, judge, runs_of
from driver.program import Program
from driver.tally import Tally
from planted.changed import Bare
from planted.faults import Fault, Scene

Change = Callable[[Run], Optional[Run]]


ALONE, ONWARD = Series("allocation", False), Series("allocation", True)


def respelled(pattern: str, other: str, *among: Series) -> Change:
    """Another text in place of what the calls tell in runs of these series."""
    def change(run: Run) -> Run:
        if run.series not in among:
            return run
        output = re.sub(pattern.encode(), other.encode(), run.outcome.output, flags=re.MULTILINE)
        return run._replace(outcome=run.outcome._replace(output=output))
    return change


def with_outcome(**fields) -> Change:
    """Other fields of the outcomes of runs with a refusal."""
    return lambda run: (
        run._replace(outcome=run.outcome._replace(**fields)) if run.is_refused else run)


def without(pattern: str) -> Change:
    """No runs that tell this."""
    return lambda run: (
        None if re.search(pattern.encode(), run.outcome.output, re.MULTILINE) else run)


# Name, what is told, and the change.
CHANGES = [
    ("a part that is not what stands", "refused allocation .*contract says: take: wrong",
     respelled("^take: refused 7.*", "take: wrong", ALONE)),
    ("a part more than can stand", "refused allocation .*contract says: map: refused 4,",
     respelled("^map: refused 3,", "map: refused 4,", ALONE)),
    ("a part that is told as a later one", "parts that stand: .* there is unmap 3, .* unmap 2",
     respelled("^unmap: refused 1,", "unmap: refused 3,", ALONE, ONWARD)),
    ("a part that is another where there is memory later", "refused allocation .*: unmap 4, and "
     "with all behind refused too unmap 2",
     respelled("^unmap: refused 2,", "unmap: refused 4,", ALONE)),
    ("a call that is refused again", "refused allocation .*contract says: cluster: .*again refused",
     respelled("^cluster: (.*) again whole", r"cluster: \1 again refused 0", ALONE)),
    ("a tree that goes on", "refused allocation .*contract says: tree: .*again whole",
     respelled("^tree: (.*) again failed", r"tree: \1 again whole", ALONE)),
    ("a second refusal", "refused allocation .*one refusal, and more than one",
     respelled("^book: whole", "book: unmade", ALONE)),
    ("memory where there is none", "and all behind: there is no memory, and cases",
     respelled("^table: unmade", "table: whole", ONWARD)),
    ("a refusal that is not met", "^libraries: node: was refused behind these .* parts: ..$",
     respelled("^node: refused .*", "node: whole", ALONE, ONWARD)),
    ("a number of parts that is not met", "^libraries: take: was refused behind .* 9.$",
     without("^take: refused 11,")),
    ("parts between that are not met", "^libraries: map: was refused behind .*: .0, 3.$",
     without("^map: refused [12],")),
    ("a thread that is refused, and a case without", "refused thread .*says: table: refused",
     respelled("^table: whole", "table: refused 0, again whole", Series("thread", False))),
    ("a case that is not told", "refused allocation 1: not all cases are told",
     respelled("^map: .*\n", "", ALONE)),
    ("a status", "refused allocation 1: not all cases are told as right: Outcome.status=3",
     with_outcome(status=3)),
    ("an end by a signal", "refused allocation 1: not all cases .*status=-6",
     with_outcome(status=-6)),
    ("no end", "refused allocation 1: not all cases .*status=None", with_outcome(status=None)),
    ("an error that is written", "refused allocation 1: not all cases .*errors=b'no",
     with_outcome(errors=b"no memory\n")),
]


def libraries_faults() -> list[Fault]:
    if not Program(BUILT).is_there():
        return []
    return [Fault("libraries", "as it is", None, lambda scene: changed(scene, lambda run: run))] + [
        by_change(*row) for row in CHANGES
    ] + [Fault("libraries", "a library that is not there", "unmap: was refused .*: ..$", bare)]


@functools.cache
def runs_as_they_are(library: str, folder: str) -> list[Run]:
    """All runs, once for all faults."""
    return list(runs_of(Interposer(folder, library, []), Program(BUILT), 1))


def changed(scene: Scene, change: Change) -> Tally:
    """What is reported of all runs, each of them changed."""
    interposer = scene.interposer
    runs = map(change, runs_as_they_are(interposer.library, interposer.folder))
    return judge([run for run in runs if run is not None])


def by_change(name: str, told: str, change: Change) -> Fault:
    return Fault("libraries", name, told, lambda scene: changed(scene, change))


def bare(scene: Scene) -> Tally:
    return judge(list(runs_of(scene.interposer, Bare(BUILT), 1)))
