"""Hostile operations, snapshots and lines, and copies that are as great as they may be."""

from driver import great
from driver.program import Program
from driver.rows import run_all, run_script
from driver.scripts import Script, rows
from driver.tally import Tally

HOSTILE = ("hostile_", "clash_", "snapshot_prefixes", "missing_", "source_outside_parent")
SHORT_LIMIT = 60
LONG_LIMIT = 7200
SHORT_CHAIN = 300


def run_hostile(program: Program, short: bool) -> Tally:
    """The stored rows that are hostile, and those that are made; the slow ones in the long form
    only."""
    scripts = [script for script in rows() if script.name.startswith(HOSTILE)]
    scripts += great.line_limits() + great.last_lines() + great.full_copies()
    scripts += [great.long_threads(count) for count in (2, 4)] + [great.journal_full()]
    scripts.append(great.chain_one_by_one(SHORT_CHAIN))
    scripts += [great.in_threads(script) for script in great.line_limits() if script.status == 1]
    slow = [] if short else slow_scripts()
    tally = run_all("hostile", program, scripts, SHORT_LIMIT)
    tally.check_all(run_script(program, script, LONG_LIMIT) for script in slow)
    return tally.end("%d scripts, and %d slow ones" % (len(scripts), len(slow)))


def slow_scripts() -> list[Script]:
    """Copies that are full, and the deepest chain in its orders."""
    numbers = range(1, great.CHAIN + 1)
    return [great.full_copy(), great.many_spaces(),
            great.deepest_chain("deepest_chain_ascending", numbers),
            great.deepest_chain("deepest_chain_descending", reversed(numbers)),
            great.chain_one_by_one(great.CHAIN)]
