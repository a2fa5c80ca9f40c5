"""Places, spaces and rights: the values that scripts name."""

from typing import NamedTuple, Optional

PAGE_ORDER = 12
WHOLE_ORDER = 48
PAGES = 1 << (WHOLE_ORDER - PAGE_ORDER)

READ, WRITE, EXECUTE = 4, 2, 1
ALL_RIGHTS = READ | WRITE | EXECUTE


class Fault(Exception):
    """A word or a line that is refused, with the name of what is wrong."""

    def __init__(self, name: str):
        super().__init__(name)
        self.name = name


class Pages(NamedTuple):
    """The pages from `first` on and up to before `end`; there is at least one."""

    first: int
    end: int

    def count(self) -> int:
        return self.end - self.first

    def holds(self, page: int) -> bool:
        return self.first <= page < self.end

    def meet(self, other: "Pages") -> Optional["Pages"]:
        """The common pages, or None."""
        first, end = max(self.first, other.first), min(self.end, other.end)
        return Pages(first, end) if first < end else None


class Place(NamedTuple):
    """The 2^order bytes from the page `first` on."""

    first: int
    order: int

    def pages(self) -> Pages:
        return Pages(self.first, self.first + (1 << (self.order - PAGE_ORDER)))


class Space(NamedTuple):
    """A space: its number and its version."""

    number: int
    version: int


class Item(NamedTuple):
    """What a Map offers: a send base, a place (None is nil), and rights."""

    send_base: int
    place: Optional[Place]
    rights: int


class Transfer(NamedTuple):
    """What goes over: from the pages of `source` to those of `target`."""

    source: Place
    target: Place


MEMORY = Space(0, 0)
WHOLE = Place(0, WHOLE_ORDER)


def place_at(address: int, order: int, whole_order: int = WHOLE_ORDER) -> Place:
    """The place of an address and an order, or the first fault. `whole_order` is that of the
    complete space."""
    if order < PAGE_ORDER:
        raise Fault("too-small")
    if order > whole_order:
        raise Fault("too-large")
    if address >= 1 << whole_order:
        raise Fault("out-of-space")
    if address % (1 << order) != 0:
        raise Fault("unaligned")
    return Place(address >> PAGE_ORDER, order)


def transfer_of(item: Item, window: Optional[Place]) -> Optional[Transfer]:
    """The smaller of both places is carried; in either place the send base picks the part,
    counted round."""
    if item.place is None or window is None:
        return None
    order = min(item.place.order, window.order)
    index = item.send_base >> order
    return Transfer(part_of(item.place, order, index), part_of(window, order, index))


def part_of(place: Place, order: int, index: int) -> Place:
    """The part of this order and index, counted round."""
    parts = 1 << (place.order - order)
    return Place(place.first + (index % parts << (order - PAGE_ORDER)), order)


def spell_rights(rights: int) -> str:
    return "".join(
        letter
        if rights & bit else "-"
        for letter, bit in (("r", READ), ("w", WRITE), ("x", EXECUTE))
    )


def spell_page(page: int) -> str:
    return "%05x" % page


def spell_space(space: Space) -> str:
    return "%d" % space.number if space.version == 0 else "%d.%d" % space


def largest_places(pages: Pages) -> list[Place]:
    """The pages, cut into the largest places from the first page on."""
    places, first = [], pages.first
    while first < pages.end:
        order = PAGE_ORDER
        while order < WHOLE_ORDER and fits(Place(first, order + 1), pages):
            order += 1
        places.append(Place(first, order))
        first = Place(first, order).pages().end
    return places


def fits(place: Place, pages: Pages) -> bool:
    """Whether the place is aligned and ends within the pages."""
    return place.first % place.pages().count() == 0 and place.pages().end <= pages.end
