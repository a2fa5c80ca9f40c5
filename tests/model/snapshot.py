"""The text of a copy's snapshot, and what a text says."""

import json
from typing import Any, NamedTuple

from model.facts import Cut, End, Facts, Name, Operation, Record
from model.json_text import Members, NotJson, json_value
from model.places import WHOLE_ORDER, Fault, Place, Space, largest_places, place_at

WRITTEN_VERSION = 3
KEYS = {"cuts", "ended", "records", "version"}


class Bounds(NamedTuple):
    """What the numbers of a version may be, and which place is the complete space."""

    pages: int
    sources: int
    whole_order: int
    space_versions: bool


BOUNDS = {
    1: Bounds(1 << 32, 1 << 20, 32, False),
    2: Bounds(1 << 52, 1 << 52, WHOLE_ORDER, False),
    3: Bounds(1 << 52, 1 << 52, WHOLE_ORDER, True),
}


def snapshot_text(facts: Facts) -> str:
    """The object without spaces; records, names and spaces in order."""
    cuts = [[*name, place.first, place.order, rights]
            for name, runs in facts.all_cut_runs().items()
            for pages, rights in runs
            for place in largest_places(pages)]
    records = [[*name, *record.space, *record.place, *record.parent, record.source, record.rights]
               for name, record in sorted(facts.records.items())]
    ended = [list(space) for space in sorted(facts.ended)]
    whole = {"cuts": cuts, "ended": ended, "records": records, "version": WRITTEN_VERSION}
    return json.dumps(whole, separators=(",", ":"))


def snapshot_operations(text: bytes) -> list[Operation]:
    """The operations of a text, records before cuts before ends, or the first fault."""
    try:
        value = json_value(text)
    except NotJson as error:
        raise Fault("not-json") from error
    shape_unless(isinstance(value, Members) and is_whole(value.get("version")))
    if value["version"] not in BOUNDS:
        raise Fault("version")
    shape_unless(set(value) == KEYS)
    bounds = BOUNDS[value["version"]]
    records = rows(value["records"], record_limits(bounds))
    cuts = rows(value["cuts"], [1 << 64, 256, bounds.pages, 256, 8])
    ended = ended_spaces(value["ended"], bounds)
    return ([record_of(row, bounds) for row in records]
            + [Cut(Name(row[0], row[1]), place_of(row[2], row[3], bounds), row[4]) for row in cuts]
            + [End(space) for space in ended])


def record_limits(bounds: Bounds) -> list[int]:
    """What each number of a record's row has to be below."""
    space = [65536, 1 << 32] if bounds.space_versions else [65536]
    return [1 << 64, 256, *space, bounds.pages, 256, 1 << 64, 256, bounds.sources, 8]


def record_of(row: list[int], bounds: Bounds) -> Record:
    number, processor, space, *others = row
    version = others.pop(0) if bounds.space_versions else 0
    page, order, parent_number, parent_processor, source, rights = others
    return Record(Name(number, processor), Space(space, version), place_of(page, order, bounds),
                  Name(parent_number, parent_processor), source, rights)


def place_of(page: int, order: int, bounds: Bounds) -> Place:
    return place_at(page * 4096, order, bounds.whole_order)


def rows(value: Any, limits: list[int]) -> list[list[int]]:
    """A list of lists of as many numbers as there are limits, each below its own."""
    shape_unless(isinstance(value, list))
    for row in value:
        shape_unless(
            isinstance(row, list)
            and len(row) == len(limits)
            and all(is_whole(number) and number < limit for number, limit in zip(row, limits))
        )
    return value


def ended_spaces(value: Any, bounds: Bounds) -> list[Space]:
    if bounds.space_versions:
        return [Space(*row) for row in rows(value, [65536, 1 << 32])]
    shape_unless(isinstance(value, list))
    return [Space(number, 0) for [number] in rows([[number] for number in value], [65536])]


def is_whole(value: Any) -> bool:
    """Whether it is a whole number from 0 to 2^64 - 1 (true and false are none)."""
    return isinstance(value, int) and not isinstance(value, bool)


def shape_unless(holds: bool) -> None:
    if not holds:
        raise Fault("shape")
