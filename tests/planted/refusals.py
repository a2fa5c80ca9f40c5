"""Faults that `refusals` has to report: running out of memory that is not told, or is told
otherwise."""

from driver.program import NO_MEMORY, Outcome
from driver.refusals import Series, refuse_all, run_refusals
from driver.tally import Tally
from planted.changed import Asked, Bare, Change, Changed, longer, where
from planted.faults import END_AND_SAVE, ONE_END, ONE_THREAD, Fault, Scene


def is_refused(asked: Asked, found: Outcome) -> bool:
    return found.status == 4


def is_whole(asked: Asked, found: Outcome) -> bool:
    return found.status == 0 and asked.wants("allocation")


def is_run_fault(asked: Asked, found: Outcome) -> bool:
    return found.errors.startswith(b"run fault")


ALLOCATION = Series(ONE_END, "allocation", False)
REPLIES = Series(END_AND_SAVE, "allocation", False)
IN_THREADS = Series(ONE_THREAD, "allocation", False)
THREAD = Series(ONE_THREAD, "thread", False)

# Name, what is told, the series of runs, and the change.
CHANGES = [
    ("running out of memory that is not told", "one_end, refused .*: Outcome.status=0",
     ALLOCATION, where(is_refused, status=0, errors=b"")),
    ("running out of memory, told with another status", "one_end, refused .*: Outcome.status=1",
     ALLOCATION, where(is_refused, status=1)),
    ("running out of memory, told without a message", "one_end, refused .*status=4, .*errors=b''",
     ALLOCATION, where(is_refused, errors=b"")),
    ("memory that ran out with more than its message", "one_end, refused .*status=4, .*more",
     ALLOCATION, where(is_refused, errors=NO_MEMORY + b"more\n")),
    ("an end by a signal", "one_end, refused .*: Outcome.status=-6",
     ALLOCATION, where(is_refused, status=-6)),
    ("no end", "one_end, refused .*: Outcome.status=None",
     ALLOCATION, where(is_refused, status=None)),
    ("an output that is no front of the whole", "one_end, refused .*status=4, .*no more",
     ALLOCATION, longer(is_refused)),
    ("replies that are lost where memory runs out", "end_and_save, the replies before",
     REPLIES, where(is_refused, output=b"")),
    ("a reply that is cut where memory runs out", "end_and_save, the replies before",
     REPLIES, where(is_refused, output=b"e")),
    ("a whole run that is another", "one_end, refused .*status=0, .*no more",
     ALLOCATION, longer(is_whole)),
    ("a fault of threads without threads", "one_end, refused .*run fault thread",
     ALLOCATION, where(is_refused, status=1, output=b"", errors=b"run fault thread\n")),
    ("another fault of threads", "one_thread, refused .*run fault node",
     IN_THREADS, where(is_run_fault, errors=b"run fault node\n")),
    ("a fault of threads with output", "one_thread, refused .*status=1, .*no more",
     IN_THREADS, longer(is_run_fault)),
    ("memory that ran out in threads, told of a link", "one_thread, refused .*run fault link",
     IN_THREADS, where(is_refused, status=1, output=b"", errors=b"run fault link\n")),
    ("a thread that is refused, told of a link", "one_thread, refused .*run fault link",
     THREAD, where(is_run_fault, errors=b"run fault link\n")),
    ("a thread that is refused, with another status", "one_thread, refused .*status=3",
     THREAD, where(is_run_fault, status=3)),
    ("a thread that is refused, and a whole run", "one_thread, refused .*status=0",
     THREAD, where(is_run_fault, status=0, errors=b"")),
]


def refusals_faults() -> list[Fault]:
    return [
        as_it_is(series) for series in (ALLOCATION, REPLIES, IN_THREADS, THREAD)
    ] + [by_change(*row) for row in CHANGES] + [
        Fault("refusals", "a library that is not there", "counting: .*no allocation", without),
    ]


def as_it_is(series: Series) -> Fault:
    name = "as it is: %ss of %s" % (series.kind, series.script.name)
    return Fault("refusals", name, None, lambda scene: refuse_all(
        scene.program, scene.interposer, [series], 1))


def by_change(name: str, told: str, series: Series, change: Change) -> Fault:
    """The runs of one series, each of which is changed."""
    return Fault("refusals", name, told, lambda scene: refuse_all(
        Changed(scene.program.path, change), scene.interposer, [series], 1))


def without(scene: Scene) -> Tally:
    return run_refusals(Bare(scene.program.path), scene.interposer, True, 1)
