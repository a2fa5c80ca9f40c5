"""The translation table of a copy: the maximal runs of pages that are served alike."""

from typing import NamedTuple

from model.facts import Facts
from model.places import MEMORY, Pages, Space, spell_page, spell_rights, spell_space
from model.rights import change_points, holders, served


class Row(NamedTuple):
    """Pages of a space, the frame that the first of them is served from, and the rights of all."""

    space: Space
    pages: Pages
    frame: int
    rights: int

    def goes_on(self, other: "Row") -> bool:
        """Whether the other row continues this one."""
        return (other.space == self.space and other.pages.first == self.pages.end
                and other.frame == self.frame + self.pages.count() and other.rights == self.rights)

    def text(self) -> str:
        return "row %s %s %d %s:%s" % (
            spell_space(self.space),
            spell_page(self.pages.first),
            self.pages.count(),
            spell_page(self.frame),
            spell_rights(self.rights),
        )


def table(facts: Facts) -> list[Row]:
    """All rows, ascending by space and page."""
    spaces = {MEMORY} | {record.space for record in facts.records.values()}
    return [row for space in sorted(spaces) for row in rows_of(facts, space)]


def rows_of(facts: Facts, space: Space) -> list[Row]:
    """The rows of a space: between two changes each page is served as the one before it, one
    frame on."""
    points: set[int] = set()
    for name in holders(facts, space):
        points |= change_points(facts, name)
    bounds, rows = sorted(points), []
    for first, end in zip(bounds, bounds[1:]):
        found = served(facts, space, first)
        if found is None:
            continue
        row = Row(space, Pages(first, end), *found)
        if rows and rows[-1].goes_on(row):
            rows[-1] = rows[-1]._replace(pages=Pages(rows[-1].pages.first, end))
        else:
            rows.append(row)
    return rows
