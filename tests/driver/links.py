"""The room of links: a run in threads asks for as much memory as links of its capacity take."""

from driver.interposer import Interposer
from driver.program import Outcome, Program
from driver.tally import Met, Tally

SCRIPT = b"processors 2\n"
TOLD = b"processor 0 commands 0 issued 0\nprocessor 1 commands 0 issued 0\nsame yes\n"
CAPACITIES = (3, 16, 1024)


def bytes_asked(program: Program, interposer: Interposer, capacity: int) -> tuple[Outcome, int]:
    """What a run of two processors without commands comes to, and how many bytes it asks for."""
    arguments = ["threads", "--capacity", str(capacity)]
    outcome, counts = interposer.run(program, arguments, SCRIPT)
    return outcome, counts.bytes


def run_links(program: Program, interposer: Interposer) -> Tally:
    """A message more in each link takes as many bytes more, whatever the capacity."""
    tally = Tally("links")
    first, least = bytes_asked(program, interposer, 1)
    second, more = bytes_asked(program, interposer, 2)
    message = more - least
    ends_well = first == second == Outcome(0, TOLD, b"")
    tally.check(Met(ends_well and message > 0, "a capacity of 2",
                    "%s %s, %d bytes more" % (first, second, message)))
    for capacity in CAPACITIES:
        outcome, found = bytes_asked(program, interposer, capacity)
        wanted = least + (capacity - 1) * message
        tally.check(Met(outcome == first and found == wanted, "a capacity of %d" % capacity,
                        "%s, wanted %d bytes, found %d" % (outcome, wanted, found)))
    return tally.end("runs with links of %d capacities" % (2 + len(CAPACITIES)))
