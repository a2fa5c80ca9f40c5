"""What Graphviz reads in pictures, and that it draws them."""

import html
import json
import re
import subprocess
from typing import Iterator, NamedTuple

from driver.program import TOP, Program
from driver.scripts import content, examples
from driver.snapshots import texts_of_stored
from driver.tally import Met
from model.facts import ROOT, Facts
from model.loading import loaded
from model.picture import is_known, spell_name, style
from model.places import MEMORY, Fault, spell_space

LIMIT = 60
DRAWN = "every-order"


class Graph(NamedTuple):
    """What a graph has: in each box its nodes, whether it is grey, all nodes, and the lines."""

    boxes: dict[str, tuple[list[str], bool]]
    nodes: list[str]
    lines: list[tuple[str, str, str]]


def graph_of(facts: Facts) -> Graph:
    """Records stand in the boxes of their spaces, and lines lead from their parents to them."""
    inside = {MEMORY: [spell_name(ROOT)]}
    for record in facts.records.values():
        inside.setdefault(record.space, []).append(spell_name(record.name))
    for space in facts.ended:
        inside.setdefault(space, []).append("end " + spell_space(space))
    boxes = {"space " + spell_space(space): (sorted(names), space in facts.ended)
             for space, names in inside.items()}
    parents = {record.parent for record in facts.records.values()}
    absent = {spell_name(name) for name in parents | set(facts.all_cut_runs())}
    lines = [(spell_name(record.parent), spell_name(record.name),
              style(is_known(facts, record.parent))) for record in facts.records.values()]
    return Graph(boxes, sorted(absent.union(*inside.values())), sorted(lines))


def graph_read(text: bytes) -> Graph:
    """What Graphviz reads in a picture."""
    read = json.loads(drawn(text, "json0").stdout)
    found = {one["_gvid"]: one for one in read["objects"]}
    boxes = {}
    for one in found.values():
        if one["name"].startswith("cluster_"):
            names = sorted(found[number]["name"] for number in one["nodes"])
            boxes[one["label"]] = (names, one.get("color") == "grey")
    nodes = [one["name"] for one in found.values() if not one["name"].startswith("cluster_")]
    lines = [(found[line["tail"]]["name"], found[line["head"]]["name"], line["style"])
             for line in read.get("edges", [])]
    return Graph(boxes, sorted(nodes), sorted(lines))


def drawn(text: bytes, form: str) -> subprocess.CompletedProcess:
    return subprocess.run(["dot", "-T" + form], input=text, capture_output=True, timeout=LIMIT)


def drawings(program: Program) -> Iterator[Met]:
    """The pictures of all examples are drawn, and read as they are meant."""
    for script in examples():
        for text in texts_of_stored(script):
            try:
                facts = loaded(text)
            except Fault:
                continue
            yield drawing(script.name, program.run(["picture"], text).output, facts)


def drawing(name: str, text: bytes, facts: Facts) -> Met:
    """The picture becomes an SVG, without a warning, and its boxes, nodes and lines are those of
    the facts."""
    done = drawn(text, "svg")
    if done.returncode != 0 or done.stderr or not done.stdout.rstrip().endswith(b"</svg>"):
        return Met(False, "%s: dot" % name, str(done.stderr or done.returncode))
    wanted, found = graph_of(facts), graph_read(text)
    return Met(found == wanted, "%s: what dot reads" % name,
               "wanted %s, found %s" % (wanted, found))


def stored_drawing(program: Program) -> Met:
    """The words of docs/picture.svg are those of its example's picture."""
    script = next(script for script in examples() if script.name == DRAWN)
    told = program.run(["picture"], texts_of_stored(script)[-1]).output.decode()
    labels = re.findall('label="([^"]*)"', told)
    wanted = sorted(line for label in labels for line in label.split("\\n"))
    drawing = content("%s/docs/picture.svg" % TOP).decode()
    found = sorted(map(html.unescape, re.findall(">([^<>]+)</text>", drawing)))
    return Met(found == wanted, "docs/picture.svg", "wanted %s, found %s" % (wanted, found))
