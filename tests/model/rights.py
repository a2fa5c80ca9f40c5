"""Which rights a record has at a page, and what a page of a space shows, by the recursion of the
definition."""

from typing import Optional

from model.facts import ROOT, Facts, Name
from model.places import ALL_RIGHTS, MEMORY, PAGES, Pages, Space


def holders(facts: Facts, space: Space) -> list[Name]:
    """The root first in the first space, then the records of the space by name."""
    names = sorted(record.name for record in facts.records.values() if record.space == space)
    return [ROOT] + names if space == MEMORY else names


def pages_of(facts: Facts, name: Name) -> Pages:
    """All pages for the root, and for a record that is held those of its place."""
    return Pages(0, PAGES) if name == ROOT else facts.records[name].place.pages()


def rights_of(facts: Facts, name: Name, page: int) -> int:
    """The rights of a record at a page: what it names, nothing takes, and its parent has at the
    source page."""
    kept = ALL_RIGHTS & ~facts.revoked(name, page)
    if name == ROOT:
        return kept if page < PAGES else 0
    record = facts.records.get(name)
    if record is None or record.space in facts.ended or not record.place.pages().holds(page):
        return 0
    source = record.source + page - record.place.first
    return kept & record.rights & rights_of(facts, record.parent, source)


def frame_of(facts: Facts, name: Name, page: int) -> int:
    """The page that is reached at the root along source pages, of a record that has a right at
    the page."""
    while name != ROOT:
        record = facts.records[name]
        name, page = record.parent, record.source + page - record.place.first
    return page


def page_rights(facts: Facts, space: Space, page: int) -> dict[int, int]:
    """The rights of a page by frame, ascending by frame, without frames to which there are none."""
    found: dict[int, int] = {}
    for name in holders(facts, space):
        rights = rights_of(facts, name, page)
        if rights:
            frame = frame_of(facts, name, page)
            found[frame] = found.get(frame, 0) | rights
    return dict(sorted(found.items()))


def served(facts: Facts, space: Space, page: int) -> Optional[tuple[int, int]]:
    """The frame of the least record that has any right at the page, and all rights of that frame
    there."""
    for name in holders(facts, space):
        if rights_of(facts, name, page):
            frame = frame_of(facts, name, page)
            return frame, page_rights(facts, space, page)[frame]
    return None


def change_points(facts: Facts, name: Name) -> set[int]:
    """The pages at which the rights of a record may change: its bounds, its revocations', and
    its parent's."""
    if name == ROOT:
        return {0, PAGES} | facts.cut_bounds(ROOT)
    record = facts.records.get(name)
    if record is None:
        return set()
    pages = record.place.pages()
    behind = {point - record.source + pages.first for point in change_points(facts, record.parent)}
    inside = {point for point in behind | facts.cut_bounds(name) if pages.holds(point)}
    return inside | {pages.first, pages.end}


def has_some_right(facts: Facts, name: Name, pages: Pages, rights: int) -> bool:
    """Whether the record has one of the rights on one of the pages."""
    starts = {pages.first} | {point for point in change_points(facts, name) if pages.holds(point)}
    return any(rights_of(facts, name, page) & rights for page in starts)
