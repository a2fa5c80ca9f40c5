"""One who waits for each answer before the next line gets it, with nothing else to push it out."""

import contextlib
import select
import subprocess
from typing import Iterator, Optional

from driver.program import Program
from driver.scripts import Script, examples
from driver.tally import Met, Tally
from model.script import run_script

SECONDS = 10


def answers(source: bytes) -> Iterator[tuple[bytes, bytes]]:
    """Each line, and what is told for it."""
    lines, told = source.splitlines(keepends=True), b""
    for number, line in enumerate(lines, 1):
        before, told = told, run_script(b"".join(lines[:number])).output
        yield line, told[len(before):]


def comes(running: subprocess.Popen, wanted: bytes, seconds: float) -> bytes:
    """What comes within these seconds, up to as many bytes as are wanted."""
    found = b""
    while len(found) < len(wanted):
        ready, _, _ = select.select([running.stdout], [], [], seconds)
        more = running.stdout.read1(len(wanted) - len(found)) if ready else b""
        if not more:
            break
        found += more
    return found


def dialogue(program: Program, script: Script, seconds: float = SECONDS) -> Iterator[Met]:
    """Writes the lines of a script one by one into a pipe, and reads the answer to each before the
    next, up to the first that does not come within these seconds; then asks how it ends."""
    command = [program.path] + script.arguments
    with subprocess.Popen(command, stdin=subprocess.PIPE, stdout=subprocess.PIPE) as running:
        for number, (line, wanted) in enumerate(answers(script.source), 1):
            # One that has ended takes no line: then no answer comes.
            with contextlib.suppress(BrokenPipeError):
                running.stdin.write(line)
                running.stdin.flush()
            found = comes(running, wanted, seconds)
            name = "%s, the answer to line %d" % (script.name, number)
            yield Met(found == wanted, name, repr(found))
            if found != wanted:
                break
        status = ended(running, seconds)
        yield Met(status == script.status, "%s, its status" % script.name, str(status))


def ended(running: subprocess.Popen, seconds: float) -> Optional[int]:
    """The status at the end of the input; none of one that does not end within these seconds."""
    with contextlib.suppress(BrokenPipeError):
        running.stdin.close()
    try:
        return running.wait(seconds)
    except subprocess.TimeoutExpired:
        running.kill()
        return None


def run_dialogues(program: Program) -> Tally:
    """All examples for `run`, line by line."""
    tally = Tally("dialogue")
    scripts = [script for script in examples() if script.arguments == ["run"]]
    for script in scripts:
        tally.check_all(dialogue(program, script))
    return tally.end(
        "%d scripts, each line written once the answer to the line before was read" % len(scripts)
    )
