"""A copy that holds what a snapshot says, or why `l4map picture` and `l4map explain` refuse it."""

from model.copies import Copy, Refusal
from model.facts import Facts
from model.places import Fault
from model.snapshot import snapshot_operations

LONGEST_TEXT = 8388608


def loaded(text: bytes) -> Facts:
    """What a copy that held nothing holds once it took the text, or the fault that is told."""
    if len(text) > LONGEST_TEXT:
        raise Fault("snapshot too-long")
    copy = Copy(0)
    try:
        copy.take(snapshot_operations(text))
    except Fault as fault:
        raise Fault("snapshot " + fault.name) from fault
    except Refusal as refusal:
        raise Fault(without_place(str(refusal))) from refusal
    return copy.facts


def without_place(refusal: str) -> str:
    """`bad NAME` of `bad I NAME`, `clash` of `clash N.P`, and `full`."""
    first, *others = refusal.split()
    return " ".join([first] + others[1:])
