"""The manual's sequential tree, kept as runs of pages whose frames and parents rise by one."""

from dataclasses import dataclass, replace
from typing import Optional

from model.places import ALL_RIGHTS, MEMORY, PAGES, Item, Pages, Place, Space, transfer_of

WIDEST_ORDER = 32


class NotComparable(Exception):
    """The tree refuses a command."""


@dataclass
class Run:
    """The nodes of the pages of a space from `first` on: frames and the pages that they were
    mapped from rise by one."""

    space: Space
    pages: Pages
    frame: int
    rights: int
    parent: Optional[Space]
    parent_page: int

    def part(self, pages: Pages) -> "Run":
        """The nodes at these pages, which are some of the run's."""
        step = pages.first - self.pages.first
        return replace(
            self, pages=pages, frame=self.frame + step, parent_page=self.parent_page + step
        )

    def source(self) -> Pages:
        """The pages that the nodes were mapped from."""
        return Pages(self.parent_page, self.parent_page + self.pages.count())


class Tree:
    """A page of a space has at most one node: a frame, rights, and the page that it was mapped
    from."""

    def __init__(self):
        self.runs = [Run(MEMORY, Pages(0, PAGES), 0, ALL_RIGHTS, None, 0)]

    def at(self, space: Space, page: int) -> Optional[tuple[int, int]]:
        """Frame and rights of the page's node, or None."""
        for run in self.runs:
            if run.space == space and run.pages.holds(page):
                return run.part(Pages(page, page + 1)).frame, run.rights
        return None

    def map(self, sender: Space, item: Item, receiver: Space, window: Optional[Place]) -> None:
        """Each page of the target gets what the page behind it shares."""
        transfer = transfer_of(item, window)
        if transfer is None:
            return
        if transfer.source.order > WIDEST_ORDER:
            raise NotComparable
        source, moved = transfer.source.pages(), transfer.target.first - transfer.source.first
        brought = []
        for run in self.runs:
            common = run.pages.meet(source) if run.space == sender else None
            if common is not None and run.rights & item.rights:
                target = Pages(common.first + moved, common.end + moved)
                brought.append(
                    Run(
                        receiver,
                        target,
                        run.part(common).frame,
                        run.rights & item.rights,
                        sender,
                        common.first,
                    )
                )
        if any(
            run.space == receiver and run.pages.meet(new.pages)
            for run in self.runs
            for new in brought
        ):
            raise NotComparable
        self.runs += brought

    def unmap(self, space: Space, place: Optional[Place], rights: int, flush: bool) -> None:
        """Takes the rights from all that came from the part, and with a flush from the part."""
        if place is None:
            return
        if place.order > WIDEST_ORDER:
            raise NotComparable
        self.take(space, place.pages(), rights, flush)

    def end(self, space: Space) -> None:
        """Flushes the whole space."""
        self.take(space, Pages(0, PAGES), ALL_RIGHTS, True)

    def take(self, space: Space, pages: Pages, rights: int, flush: bool) -> None:
        below = [(space, pages)]
        for above, part in below:
            below += [(run.space, run.pages) for run in self.split_children(above, part)]
        for hit_space, hit_pages in below if flush else below[1:]:
            for run in self.split(hit_space, hit_pages):
                run.rights &= ~rights
        self.runs = [run for run in self.runs if run.rights]

    def split(self, space: Space, pages: Pages) -> list[Run]:
        """The runs at these pages, once runs that reach beyond them are split."""
        return self.split_by(lambda run: run.pages.meet(pages) if run.space == space else None)

    def split_children(self, parent: Space, pages: Pages) -> list[Run]:
        """The runs that were mapped from these pages, once runs that reach beyond them are
        split."""
        def common(run: Run) -> Optional[Pages]:
            met = run.source().meet(pages) if run.parent == parent else None
            moved = run.pages.first - run.parent_page
            return None if met is None else Pages(met.first + moved, met.end + moved)
        return self.split_by(common)

    def split_by(self, common) -> list[Run]:
        """Splits runs, so that each is wholly among the pages that `common` tells of it or
        wholly beside them."""
        inside, all_runs = [], []
        for run in self.runs:
            met = common(run)
            if met is None:
                all_runs.append(run)
                continue
            cuts = [Pages(run.pages.first, met.first), met, Pages(met.end, run.pages.end)]
            before, middle, behind = [run.part(pages) for pages in cuts]
            all_runs += [part for part in (before, middle, behind) if part.pages.count() > 0]
            inside.append(middle)
        self.runs = all_runs
        return inside
