"""Scripts with their outputs, which were made from the definitions and not by this program."""

from typing import Iterable

from driver.faulty import faulty_lines
from driver.program import Program, difference
from driver.scripts import Script, examples, rows
from driver.tally import Met, Tally


def run_script(program: Program, script: Script, limit: float = 60) -> Met:
    """Whether the program writes the script's output, ends with its status, and tells what it
    should on the errors."""
    found = program.run(script.arguments, script.source, limit)
    wanted = script.outcome()
    return Met(found == wanted, script.name, difference(wanted, found))


def run_all(
    kind: str, program: Program, scripts: Iterable[Script], limit: float = 60
) -> Tally:
    """Runs these scripts."""
    tally = Tally(kind)
    tally.check_all(run_script(program, script, limit) for script in scripts)
    return tally


def run_rows(program: Program) -> Tally:
    """Runs all rows, examples and faulty lines."""
    stored_rows, stored_examples, faulty = rows(), examples(), faulty_lines()
    tally = run_all("rows", program, stored_rows + stored_examples + faulty)
    return tally.end(
        "%d rows, %d examples and %d faulty lines"
        % (len(stored_rows), len(stored_examples), len(faulty))
    )
