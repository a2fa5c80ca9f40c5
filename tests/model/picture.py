"""The Graphviz text of what a copy holds, and why a page of a space has what it has."""

from typing import Iterator, Optional

from model.facts import ROOT, Facts, Name, Record
from model.places import (
    ALL_RIGHTS, MEMORY, PAGES, Pages, Place, Space, spell_page, spell_rights, spell_space,
)
from model.rights import rights_of

HEAD = "digraph mapdb {\nrankdir=LR;\nnode [shape=box];\n"


def spell_name(name: Name) -> str:
    return "%d.%d" % name


def spell_place(place: Place) -> str:
    """The byte address, a slash, and the order."""
    return "%s/%d" % (spell_page(place.first << 12), place.order)


def has_page(record: Optional[Record], page: int) -> bool:
    return record is not None and record.place.pages().holds(page)


def source_of(record: Record, page: int) -> int:
    """The parent's page that the page comes from."""
    return record.source + page - record.place.first


def frame_at(facts: Facts, name: Name, page: int) -> Optional[int]:
    """The page that is reached at the root, where each record on the way is held and has it."""
    while name != ROOT:
        record = facts.records.get(name)
        if not has_page(record, page):
            return None
        name, page = record.parent, source_of(record, page)
    return page if page < PAGES else None


def held_at(facts: Facts, name: Name, page: int) -> str:
    """The rights and the frame that the record has at the page."""
    frame = frame_at(facts, name, page)
    reached = "none" if frame is None else spell_page(frame)
    return "rights %s frame %s" % (spell_rights(rights_of(facts, name, page)), reached)


# The picture


def revoked_lines(facts: Facts, name: Name) -> list[str]:
    """A line for each run of pages with equal rights that are revoked."""
    return [
        "revoked %s-%s %s" % (
            spell_page(run.first), spell_page(run.end - 1), spell_rights(rights))
        for run, rights in facts.cut_runs(name)
    ]


def label_of(facts: Facts, name: Name) -> str:
    """What is told of a record, or of the root, or of a name that is not held."""
    record = facts.records.get(name)
    if name == ROOT:
        told = ["all", held_at(facts, ROOT, 0)]
    elif record is None:
        told = ["not held"]
    else:
        told = [
            "%s:%s" % (spell_place(record.place), spell_rights(record.rights)),
            "from %s page %s" % (spell_name(record.parent), spell_page(record.source)),
            held_at(facts, name, record.place.first),
        ]
    return "\\n".join([spell_name(name)] + told + revoked_lines(facts, name))


def is_known(facts: Facts, name: Name) -> bool:
    return name == ROOT or name in facts.records


def style(is_solid: bool) -> str:
    return "solid" if is_solid else "dashed"


def node(facts: Facts, name: Name, is_solid: bool) -> str:
    return '"%s" [label="%s", style=%s];' % (
        spell_name(name), label_of(facts, name), style(is_solid))


def boxed(space: Space, inside: str) -> str:
    return 'subgraph cluster_%d_%d { label="space %s"; %s }\n' % (
        space.number, space.version, spell_space(space), inside)


def record_lines(facts: Facts, record: Record) -> str:
    """The record in its space's box, and the line from its parent."""
    is_solid = is_known(facts, record.parent)
    edge = '"%s" -> "%s" [style=%s];\n' % (
        spell_name(record.parent), spell_name(record.name), style(is_solid))
    return boxed(record.space, node(facts, record.name, is_solid)) + edge


def absent_names(facts: Facts) -> list[Name]:
    """The names that are not held, of parents or with something revoked, in order."""
    parents = {record.parent for record in facts.records.values()}
    return sorted(name for name in parents | set(facts.all_cut_runs())
                  if not is_known(facts, name))


def ended_line(space: Space) -> str:
    mark = 'style=filled; color=grey; "end %s" [label="ended", shape=plain];' % spell_space(space)
    return boxed(space, mark)


def picture(facts: Facts) -> str:
    """The root, the records, the names that are not held, and the spaces that have ended, each in
    order."""
    parts = [HEAD, boxed(MEMORY, node(facts, ROOT, True))]
    parts += [record_lines(facts, record) for _, record in sorted(facts.records.items())]
    parts += [node(facts, name, False) + "\n" for name in absent_names(facts)]
    parts += [ended_line(space) for space in sorted(facts.ended)]
    return "".join(parts) + "}\n"


# The explanation


def chain(facts: Facts, name: Name, page: int) -> Iterator[tuple[Name, int]]:
    """The page, the page that it comes from, and so on up to the root, or up to a name that is
    not held or that does not have the page."""
    yield name, page
    while name != ROOT and has_page(facts.records.get(name), page):
        record = facts.records[name]
        name, page = record.parent, source_of(record, page)
        yield name, page


def spot(facts: Facts, name: Name, space: Space, page: int) -> str:
    ended = " ended" if space in facts.ended else ""
    return "%s space %s%s page %s" % (
        spell_name(name), spell_space(space), ended, spell_page(page))


def step(facts: Facts, name: Name, page: int) -> str:
    """What a record of a chain allows at its page, and where the page comes from."""
    revoked = spell_rights(facts.revoked(name, page) & ALL_RIGHTS)
    record = facts.records.get(name)
    if name == ROOT:
        return "%s revoked %s" % (spot(facts, ROOT, MEMORY, page), revoked)
    if record is None:
        return "%s page %s not held" % (spell_name(name), spell_page(page))
    here = spot(facts, name, record.space, page)
    if not has_page(record, page):
        return "%s outside %s" % (here, spell_place(record.place))
    return "%s names %s revoked %s from %s page %s" % (
        here, spell_rights(record.rights), revoked, spell_name(record.parent),
        spell_page(source_of(record, page)))


def block(facts: Facts, name: Name, page: int) -> str:
    """A record, its chain, and what comes of it."""
    steps = ["  %s\n" % step(facts, *at) for at in chain(facts, name, page)]
    return "record %s\n%s%s\n" % (spell_name(name), "".join(steps), held_at(facts, name, page))


def explanation(facts: Facts, space: Space, page: int) -> str:
    """A block for each record of the space that has the page, the root first in the first."""
    names = [ROOT] if space == MEMORY and Pages(0, PAGES).holds(page) else []
    names += [name for name, record in sorted(facts.records.items())
              if record.space == space and has_page(record, page)]
    return "".join(block(facts, name, page) for name in names) or "nothing\n"
