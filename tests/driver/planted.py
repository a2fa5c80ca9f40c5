"""Faults that are planted, one for each sort of comparison: a wrong program, a wrong expectation,
or a model of which one line is another. Each passes only where the tests report it."""

import shutil
from concurrent.futures import ProcessPoolExecutor
from typing import Optional

from driver.interposer import Interposer
from driver.program import Program
from driver.tally import Met, Tally
from planted.dialogue import dialogue_faults
from planted.faults import Fault, Scene, is_reported
from planted.fuzz import fuzz_faults
from planted.hostile import hostile_faults
from planted.libraries import libraries_faults
from planted.links import links_faults
from planted.pictures import pictures_faults
from planted.refusals import refusals_faults
from planted.rows import rows_faults
from planted.streams import streams_faults
from planted.sums import sums_faults

INTERPOSED = ("refusals", "libraries", "links", "streams", "sums")


def all_faults() -> list[Fault]:
    return (rows_faults() + dialogue_faults() + pictures_faults() + refusals_faults()
            + libraries_faults() + links_faults() + streams_faults() + hostile_faults()
            + fuzz_faults() + sums_faults())


def run_planted(
    program: Program, interposer: Optional[Interposer], folder: str, jobs: int
) -> Tally:
    """Plants each fault, and sees that the tests report it."""
    tally, faults = Tally("planted"), all_faults()
    chosen = [
        number for number, fault in enumerate(faults)
        if interposer is not None or fault.kind not in INTERPOSED
    ]
    scene = Scene(program, interposer, folder)
    with ProcessPoolExecutor(jobs) as pool:
        tally.check_all(pool.map(is_nth_reported, chosen, [scene] * len(chosen)))
    told = "%d faults of programs, expectations and models" % len(
        [number for number in chosen if faults[number].told is not None])
    if len(chosen) < len(faults):
        told += "; without a C compiler %d are left out" % (len(faults) - len(chosen))
    if not libraries_faults():
        told += "; without the built mapdb_refusals those of libraries are left out"
    if shutil.which("dot") is None:
        told += "; without Graphviz those of what it draws are left out"
    return tally.end(told)


def is_nth_reported(number: int, scene: Scene) -> Met:
    """Whether the tests report the fault of this number. Faults have functions that are no
    values to send to another process, so their numbers are."""
    return is_reported(all_faults()[number], scene)
