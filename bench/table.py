"""What is told of measured runs: a line for each work and scale, and how times grow."""

from typing import Iterator, Optional

from runs import Measured, Run

COLUMNS = "%-9s %5s %8s %8s %8s %8s | %9s %9s %9s %9s | %9s %9s %9s  %s"
# Below so many seconds the start of a process counts for more than its work.
LEAST = 0.005


def head() -> str:
    return COLUMNS % (
        "work", "scale", "lines", "read", "written", "cat", "program", "processor", "peak",
        "lines/s", "beside", "processor", "peak", "ratio",
    )


def line(measured: Measured) -> str:
    """One work at one scale."""
    program, other = measured.program, measured.other
    return COLUMNS % (
        measured.name, measured.scale, measured.lines, bytes_told(measured.read),
        bytes_told(program.size), seconds_told(measured.cat), time_told(program),
        processor_told(program), peak_told(program), rate_told(measured), time_told(other),
        processor_told(other), peak_told(other), ratio_told(measured),
    )


def seconds_told(seconds: float) -> str:
    return "%.0f ms" % (1000 * seconds) if seconds < 1 else "%.1f s" % seconds


def bytes_told(count: int) -> str:
    return "%.0f KB" % (count / 1e3) if count < 1e6 else "%.1f MB" % (count / 1e6)


def time_told(run: Optional[Run]) -> str:
    """The time, with the status where it is not 0."""
    if run is None:
        return "-"
    if run.status is None:
        return "> %.0f s" % run.seconds
    told = seconds_told(run.seconds)
    return told if run.status == 0 else "%s (%d)" % (told, run.status)


def processor_told(run: Optional[Run]) -> str:
    return "-" if run is None else seconds_told(run.processor)


def peak_told(run: Optional[Run]) -> str:
    return "-" if run is None else "%.1f MiB" % (run.peak / 1024)


def rate_told(measured: Measured) -> str:
    if measured.program.status is None:
        return "-"
    return "%.0f" % (measured.lines / measured.program.seconds)


def ratio_told(measured: Measured) -> str:
    """How many times the other one's processor time it takes, where both write the same."""
    if measured.other is None or measured.program.status is None or measured.other.status is None:
        return "-"
    if not measured.is_equal():
        return "outputs differ"
    return "%.1f" % (measured.program.processor / max(LEAST, measured.other.processor))


def growth_lines(all_measured: list[Measured]) -> Iterator[str]:
    """How processor times grow from the first scale of each work to its last one."""
    by_name: dict[str, list[Measured]] = {}
    for measured in all_measured:
        by_name.setdefault(measured.name, []).append(measured)
    for name, some in by_name.items():
        first, last = some[0], some[-1]
        if len(some) > 1:
            told = growth_told(first.program, last.program)
            if last.other is not None:
                told += ", beside: " + growth_told(first.other, last.other)
            yield "%s: from scale %s to %s the time grows by %s" % (
                name, first.scale, last.scale, told)


def growth_told(first: Run, last: Run) -> str:
    if first.status is None or last.status is None:
        return "-"
    return "%.1f" % (last.processor / max(LEAST, first.processor))
