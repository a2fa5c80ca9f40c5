"""Texts that may be snapshots: what scripts load and save, and texts of somebody who means harm."""

import json
from random import Random
from typing import Iterator

from driver.scripts import LONGEST_SCRIPT, Script, examples, rows
from maker.scripts import case_of
from maker.spoiling import spoil_bytes, spoil_json
from model.grammar import Line, parse_line
from model.loading import LONGEST_TEXT
from model.places import Fault
from model.script import content, lines_of, run_script

PROCESSORS = 4
SAVED = b"snapshot "


def texts_of(source: bytes) -> list[bytes]:
    """What a script loads, and what it saves, each text once."""
    loaded = [line.operands[1] for line in said_by(source) if line.command == "load"]
    replies = run_script(source).output.split(b"\n")
    saved = [reply[len(SAVED):] for reply in replies if reply.startswith(SAVED)]
    return list(dict.fromkeys(loaded + saved))


def said_by(source: bytes) -> Iterator[Line]:
    """The lines of a script that are no faults and are not skipped."""
    for number, line in enumerate(lines_of(source), 1):
        try:
            said = parse_line(content(number, line))
        except Fault:
            continue
        if said is not None:
            yield said


def texts_of_stored(script: Script) -> list[bytes]:
    """The texts of a stored script, with what its copies hold at its end."""
    saves = b"".join(b"save %d\n" % processor for processor in range(PROCESSORS))
    return texts_of(script.source.rstrip(b"\n") + b"\n" + saves)


def stored_scripts() -> list[Script]:
    """The rows and examples for `run` that are not long."""
    return [
        script for script in rows() + examples()
        if script.arguments == ["run"] and len(script.source) < LONGEST_SCRIPT
    ]


def texts_of_seed(seed: int) -> list[bytes]:
    """The texts of the random script of this seed, and the last of them with some other bytes."""
    case, random = case_of(seed, may_be_great=False), Random(seed)
    texts = texts_of(case.text) if case.command == "run" else []
    spoil = random.choice([spoil_bytes, spoil_json])
    return texts + [spoil(random, text) for text in texts[-1:]]


# A record, and what is wrong in a copy of it.

RECORD = [1, 0, 1, 0, 64, 14, 0, 0, 16, 6]


def text_with(**keys) -> bytes:
    """A snapshot of one record, with other keys in place of its own."""
    whole = {"cuts": [], "ended": [], "records": [RECORD], "version": 3, **keys}
    return json.dumps(whole, separators=(",", ":")).encode()


def with_record(**fields: int) -> bytes:
    """A snapshot of a record that has other numbers at these places of its row."""
    row = list(RECORD)
    for name, value in fields.items():
        row[FIELDS.index(name)] = value
    return text_with(records=[row])


def children_of_none(count: int) -> bytes:
    """A snapshot of so many records whose parent, `1.0`, is not held, and of as many runs of pages
    from which rights of that name are revoked."""
    cuts = [[1, 0, 2 * index, 12, 1] for index in range(count)]
    records = [[2 + index, 0, 1, 0, index, 12, 1, 0, index, 7] for index in range(count)]
    return text_with(cuts=cuts, records=records)


FIELDS = """
    number processor space space_version page order parent_number parent_processor source rights
""".split()
GOOD = text_with()


def faulty_texts() -> list[tuple[str, bytes, str]]:
    """Name, text, and the fault that has to be told."""
    return not_json() + of_other_shape() + without_place() + not_taken()


def not_json() -> list[tuple[str, bytes, str]]:
    fault = "snapshot not-json"
    return [
        ("an empty text", b"", fault),
        ("spaces", b" \t\r\n", fault),
        ("a text with the reply's first word", SAVED + GOOD, fault),
        ("a text that is cut short", GOOD[:-1], fault),
        ("two texts", GOOD + b"\n" + GOOD, fault),
        ("a text with a byte order mark", b"\xef\xbb\xbf" + GOOD, fault),
        ("a text that is no UTF-8", GOOD.replace(b"cuts", b"\xff"), fault),
        ("a text with a zero byte", GOOD + b"\0", fault),
        ("lists that are too deep", b"[" * 128 + b"]" * 128, fault),
        ("lists that do not end", b"[" * 100000, fault),
        ("bytes of all values", bytes(range(256)), fault),
        ("a text that is too long", b" " * (LONGEST_TEXT + 1 - len(GOOD)) + GOOD,
         "snapshot too-long"),
        ("spaces that are too many", b" " * (LONGEST_TEXT + 1), "snapshot too-long"),
    ]


def of_other_shape() -> list[tuple[str, bytes, str]]:
    fault = "snapshot shape"
    return [
        ("a list", b"[]", fault),
        ("a number", b"3", fault),
        ("an object without keys", b"{}", fault),
        ("a version that is a text", text_with(version="3"), fault),
        ("a version that is a fraction", GOOD.replace(b":3", b":3.0"), fault),
        ("version 0", text_with(version=0), "snapshot version"),
        ("version 4", text_with(version=4), "snapshot version"),
        ("version 4 with another key", text_with(version=4, more=[]), "snapshot version"),
        ("another key", text_with(more=[]), fault),
        ("a key that is missing", GOOD.replace(b'"cuts":[],', b""), fault),
        ("records that are none", text_with(records={}), fault),
        ("a row that is too short", text_with(records=[RECORD[:-1]]), fault),
        ("a row of an older version", text_with(version=2), fault),
        ("a row that is too long", text_with(cuts=[[1, 0, 65, 12, 2, 0]]), fault),
        ("rights that are too many", with_record(rights=8), fault),
        ("a number below 0", with_record(page=-1), fault),
        ("a space that is too great", with_record(space=65536), fault),
    ]


def without_place() -> list[tuple[str, bytes, str]]:
    return [
        ("a place that is too small", with_record(order=11), "snapshot too-small"),
        ("a place that is too large", with_record(order=49), "snapshot too-large"),
        ("a place behind the space", with_record(page=1 << 36), "snapshot out-of-space"),
        ("a place that is not aligned", with_record(page=65), "snapshot unaligned"),
    ]


def not_taken() -> list[tuple[str, bytes, str]]:
    other = RECORD[:-1] + [7]
    ends = [[1 + index % 65535, index // 65535] for index in range(65537)]
    return [
        ("number 0", with_record(number=0), "bad bad-number"),
        ("a number that is too great", with_record(number=1 << 40), "bad bad-number"),
        ("a processor that is too great", with_record(processor=64), "bad bad-processor"),
        ("a record of its own", with_record(parent_number=1), "bad parent-not-before"),
        ("a source that is not aligned", with_record(source=17), "bad source-unaligned"),
        ("a record of memory's number", with_record(space=0), "bad root-space"),
        ("the end of memory's number", text_with(ended=[[2, 0], [0, 1]]), "bad root-space"),
        ("a source behind the space", with_record(source=1 << 36), "bad page-out-of-space"),
        ("a revocation of no name", text_with(cuts=[[0, 1, 65, 12, 2]]), "bad bad-number"),
        ("two records of one name", text_with(records=[RECORD, other]), "clash"),
        ("more than a copy holds", text_with(ended=ends), "full"),
    ]


def odd_texts() -> list[tuple[str, bytes]]:
    """Texts that are taken although no copy writes them so."""
    first = {"cuts": [[1, 0, 65, 12, 2]], "ended": [2], "version": 2,
             "records": [RECORD[:3] + RECORD[4:]]}
    return [
        ("spaces and line feeds", b"\n" + GOOD.replace(b",", b" ,\r\n\t") + b"\n"),
        ("a text that is as long as it may be", GOOD + b" " * (LONGEST_TEXT - len(GOOD))),
        ("a record that stands twice", text_with(records=[RECORD, RECORD])),
        ("a key that stands twice", b'{"version":1,' + GOOD[1:]),
        ("revocations of no rights", text_with(cuts=[[1, 0, 65, 12, 0], [7, 1, 65, 12, 0]])),
        ("an older version", json.dumps(first).encode()),
        ("the oldest version", json.dumps({**first, "version": 1}).encode()),
        ("as many ends as a copy holds", text_with(
            records=[], ended=[[1 + index % 65535, index // 65535] for index in range(65536)])),
        ("a record that is its space's whole", with_record(page=0, order=48, source=0)),
        ("the last page", with_record(page=(1 << 36) - 1, order=12, source=(1 << 36) - 1)),
        ("the greatest name", with_record(number=(1 << 40) - 1, processor=63)),
        ("the last version of a space", with_record(space=65535, space_version=(1 << 32) - 1)),
        ("a page that was handed on through 60 spaces", text_with(
            cuts=[], ended=[], records=[
                [number, 0, number, 0, 65, 12, number - 1, 0, 65, 7] for number in range(1, 61)])),
        ("a parent of 40 records that is not held", children_of_none(40)),
    ]
