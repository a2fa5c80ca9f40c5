"""What `l4map threads` writes, for scripts whose processors have no part in each other's
commands."""

from model.copies import Copy, Refusal
from model.grammar import Line, parse_line
from model.places import Fault
from model.script import Told, content, joined, lines_of, start_of_cluster

THREADED = {"map", "unmap", "end"}
MOST_THREADED = 4


def run_threads(text: bytes) -> Told:
    """The report, or the first faulty line. A number of processors that can't run has no output
    and status 1."""
    scripts: list[list[Line]] = []
    for number, line in enumerate(lines_of(text), 1):
        try:
            add_line(scripts, content(number, line))
        except Fault as fault:
            return Told(joined(["line %d fault %s" % (number, fault.name)]), 1)
    if not 1 <= len(scripts) <= MOST_THREADED:
        return Told(b"", 1)
    counts = (
        (processor, len(lines), issued_by(processor, lines))
        for processor, lines in enumerate(scripts)
    )
    return Told(
        joined(["processor %d commands %d issued %d" % told for told in counts] + ["same yes"]), 0
    )


def add_line(scripts: list[list[Line]], line: bytes) -> None:
    """Adds the command of a line to those of its processor."""
    parsed = parse_line(line)
    if parsed is None:
        return
    count = start_of_cluster(parsed, bool(scripts))
    if count is not None:
        scripts += [[] for _ in range(count)]
        return
    if parsed.command not in THREADED:
        raise Fault("not-threaded")
    if parsed.operands[0] >= len(scripts):
        raise Fault("no-processor")
    scripts[parsed.operands[0]].append(parsed)


def issued_by(processor: int, lines: list[Line]) -> int:
    """How many operations a processor issues that takes nothing from others."""
    copy = Copy(processor)
    for line in lines:
        try:
            issue(copy, line)
        except Refusal:
            continue
    return len(copy.log)


def issue(copy: Copy, line: Line) -> None:
    _, *operands = line.operands
    if line.command == "unmap":
        space, send, flush = operands
        copy.unmap(space, *send, flush)
    else:
        getattr(copy, line.command)(*operands)
