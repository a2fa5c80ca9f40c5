"""Faults that `pictures` has to report: wrong programs, and models of which one function is
another."""

import shutil
from typing import Callable, Iterable
from unittest import mock

from driver.drawings import drawing, stored_drawing
from driver.pictures import children_case, look_at, refusals
from driver.program import Program
from driver.rows import run_script
from driver.snapshots import GOOD
from driver.tally import Met, Tally
from driver.words import helps, refused_words
from model import picture
from model.loading import loaded
from planted.faults import Fault, Scene, script_of, wrapped

MOST = 60


def all_kinds() -> bytes:
    """A snapshot in which there is some of all that a picture shows."""
    return script_of("picture_of_all_kinds").source


def text_cases(program: Program) -> list[Met]:
    """The picture of all kinds, and all pages beside which something changes."""
    return look_at(program, "all kinds", all_kinds(), MOST)


def good_cases(program: Program) -> list[Met]:
    """A snapshot of one record."""
    return look_at(program, "one record", GOOD, MOST)


def many_case(program: Program) -> list[Met]:
    """Many records of one parent that is not held."""
    return [children_case(program)]


def nothing_case(program: Program) -> list[Met]:
    """A page that no record has."""
    return [run_script(program, script_of("explain_nothing"))]


def drawn_case(program: Program) -> list[Met]:
    """The picture of all kinds, drawn."""
    text = all_kinds()
    return [drawing("all kinds", program.run(["picture"], text).output, loaded(text))]


def stored_case(program: Program) -> list[Met]:
    """The picture of the README."""
    return [stored_drawing(program)]


# Name, what is told, the cases, and the wrong program.
PROGRAMS = [
    ("a line that is solid", "all kinds: picture: reply [0-9]*: wanted .*dashed", text_cases,
     '"$program" "$@" | sed s/dashed/solid/'),
    ("a box that is white", "all kinds: picture: reply [0-9]*: wanted .*filled", text_cases,
     '"$program" "$@" | sed s/grey/white/'),
    ("a record that is left out", "all kinds: picture: reply [0-9]*: ", text_cases,
     '"$program" "$@" | sed "/^.2\\.0. -> .4\\.0/d"'),
    ("a node that is told twice", "2000 records of one parent .*: 2003 nodes of 2002 names, ",
     many_case, """"$program" "$@" | sed '/^"1\\.0" \\[/p'"""),
    ("a page that another one is asked for", "one record: explain 1 [0-9A-Fa-f]*: reply ",
     good_cases, 'if [ "$1" = explain ]; then set -- explain "$2" 40000; fi; "$program" "$@"'),
    ("a chain without its end", "all kinds: explain .*: reply [0-9]*: wanted b'  0.0 space 0",
     text_cases, '"$program" "$@" | sed "/^  0\\.0 /d"'),
    ("nothing, where nothing holds the page", "explain_nothing: reply 1: wanted b'nothing'",
     nothing_case, '"$program" "$@" | sed /^nothing/d'),
    ("another status", "one record: picture: status wanted 0, found 3", good_cases,
     '"$program" "$@"; exit 3'),
    ("something on the errors", "one record: picture: errors wanted b'', found b'drawn", good_cases,
     'echo drawn >&2; exec "$program" "$@"'),
    ("a refusal without its name", "an empty text: picture: errors wanted .*not-json", refusals,
     '"$program" "$@" 2>/dev/null'),
    ("a refusal with status 0", "an empty text: explain: status wanted 1, found 0", refusals,
     '"$program" "$@"; exit 0'),
    ("a refusal with a picture", "an empty text: picture: reply 1: wanted b'', found b'digraph",
     refusals,
     '"$program" "$@" || { status=$?; echo "digraph mapdb {"; exit $status; }'),
    ("a text that is cut where it is too long", "a text that is too long: picture: ", refusals,
     'head -c 8388608 | "$program" "$@"'),
    ("an address with a prefix", "words ..explain., .1., .0x41000.*: Outcome.status=3",
     refused_words,
     'exec "$program" "${@//0x/}"'),
    ("a word too many that is not looked at", "words ..picture., .1.*: Outcome.status=3",
     refused_words,
     '[ "$1" = picture ] && set -- picture; exec "$program" "$@"'),
    ("help on the output", "words ..picture., .--help.*: Outcome.status=2, output=b'", helps,
     'exec "$program" "$@" 2>&1'),
    ("help of another subcommand", "words ..explain., .-h.*: Outcome", helps,
     '[ "$1" = explain ] && set -- picture -h; exec "$program" "$@"'),
    ("another frame than the README's", "docs/picture.svg: wanted ", stored_case,
     '"$program" "$@" | sed "s/frame 00010/frame 00011/"'),
    ("another version", "words ..--version.*: Outcome", helps,
     'exec "$program" "$@" 2> >(sed s/1.0.0/1.0.1/ >&2)'),
]
DRAWN = [
    ("a picture that is none", "all kinds: dot: ", drawn_case,
     '"$program" "$@" | sed "s/^}$//"'),
    ("a line that leads to the parent", "all kinds: what dot reads: ", drawn_case,
     """"$program" "$@" | sed 's/^\\("[0-9.]*"\\) -> \\("[0-9.]*"\\)/\\2 -> \\1/'"""),
    ("a record in the box of another space", "all kinds: what dot reads: ", drawn_case,
     '"$program" "$@" | sed s/cluster_5_1/cluster_2_0/'),
]

# Name, what is told, the function of the model, and another one in its place.
MODELS = [
    ("a record is dashed that is held", "all kinds: picture: ", "style", lambda is_solid: "dashed"),
    ("a name that is held is told as one that is not", "all kinds: picture: ", "is_known",
     lambda facts, name: False),
    ("a parent that is not held has something revoked", "all kinds: picture: ", "absent_names",
     lambda facts: [name for name in facts.all_cut_runs() if not picture.is_known(facts, name)]),
    ("the page behind a run is its last", "all kinds: picture: ", "revoked_lines",
     lambda facts, name: ["revoked %05x-%05x %s" % (*run, picture.spell_rights(rights))
                          for run, rights in facts.cut_runs(name)]),
    ("a page comes from the parent's same page", "all kinds: explain ", "source_of",
     lambda record, page: record.source),
    ("a place has the page behind it", "all kinds: explain ", "has_page",
     lambda record, page: record is not None and page in range(
         record.place.first, record.place.pages().end + 1)),
    ("a chain ends at the first record", "all kinds: explain ", "chain",
     lambda facts, name, page: [(name, page)]),
    ("no frame is reached", "all kinds: explain ", "frame_at", lambda facts, name, page: None),
]


def pictures_faults() -> list[Fault]:
    named = [("all kinds", text_cases), ("one record", good_cases), ("many records", many_case),
             ("nothing", nothing_case), ("README", stored_case), ("refusals", refusals),
             ("words", refused_words), ("help", helps)]
    programs = PROGRAMS + ([] if shutil.which("dot") is None else DRAWN)
    return [
        as_it_is(name, cases) for name, cases in named
    ] + [by_program(*row) for row in programs] + [by_model(*row) for row in MODELS]


Cases = Callable[[Program], Iterable[Met]]


def as_it_is(name: str, cases: Cases) -> Fault:
    return Fault("pictures", "as it is: " + name, None, lambda scene: tally_of(
        cases(scene.program)))


def by_program(name: str, told: str, cases: Cases, text: str) -> Fault:
    """Cases that a wrong program meets."""
    return Fault("pictures", name, told, lambda scene: tally_of(
        cases(wrapped(scene, "pictures " + name, text))))


def by_model(name: str, told: str, function: str, other: Callable) -> Fault:
    """A model of which one function is another."""
    def run(scene: Scene) -> Tally:
        with mock.patch.object(picture, function, other):
            return tally_of(text_cases(scene.program))
    return Fault("pictures", "model: " + name, told, run)


def tally_of(cases: Iterable[Met]) -> Tally:
    tally = Tally("pictures")
    tally.check_all(cases)
    return tally
