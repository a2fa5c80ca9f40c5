"""Scripts that are too long to be kept as files, made by formulas."""

from typing import Iterable

from driver.scripts import Script
from model.script import LONGEST_LINE, MOST_LINES

CHAIN = 65536
PAGES = 1 << 36


def load(cuts: Iterable = (), ended: Iterable = (), records: Iterable = ()) -> str:
    """A line that loads these rows at processor 0."""
    def text(rows: Iterable) -> str:
        return "[%s]" % ",".join(str(row).replace(" ", "") for row in rows)
    return 'load 0 {"cuts":%s,"ended":%s,"records":%s,"version":1}' % (
        text(cuts), text(ended), text(records)
    )


def script_of(name: str, pairs: list[tuple[str, str]]) -> Script:
    """A script of lines, each with its reply, which may be none or many lines."""
    source = "".join(line + "\n" for line, _ in pairs)
    output = "".join(reply + "\n" for _, reply in pairs if reply)
    return Script(name, ["run"], source.encode(), output.encode(), 0)


def full_copy() -> Script:
    """65,535 ends and one revocation fill a copy; what is not new is still taken."""
    ends = list(range(1, 65536))
    return script_of("full_copy", [
        ("processors 1", ""),
        (load(cuts=[[0, 0, 0, 12, 4]], ended=ends), "taken 65536"),
        (load(cuts=[[0, 0, 1, 12, 4]]), "refused full"),
        ("unmap 0 0 1000/12:r-- flush", "refused full"),
        (load(cuts=[[0, 0, 0, 12, 4]], ended=ends), "taken 0")])


def row(space: int, page: int, count: int, frame: int, rights: str) -> str:
    """A row of a table, as the line `table` replies it."""
    return "row %d %05x %d %05x:%s" % (space, page, count, frame, rights)


def many_spaces() -> Script:
    """A page of memory in 3,000 spaces, and the table of them."""
    pairs = [("processors 1", "")]
    pairs += [
        ("map 0 0 10000/12:rwx 0 %d 20000/12" % space, "records %d.0" % space)
        for space in range(1, 3001)
    ]
    table = ["table 3001", row(0, 0, PAGES, 0, "rwx")]
    table += [row(space, 0x20, 1, 0x10, "rwx") for space in range(1, 3001)]
    pairs.append(("table 0", "\n".join(table)))
    pairs.append(("served 0 3000 20000", "served 00010:rwx"))
    pairs.append(("served 0 3000 21000", "served none"))
    return script_of("many_spaces", pairs)


def chain_record(number: int) -> list[int]:
    """Each record has the page of the one before, and maps it to itself."""
    return [number, 0, 1, 16, 12, number - 1, 0, 16, 7]


CHAIN_END = [
    ("rights 0 1 10000", "rights 00010:rwx"),
    ("unmap 0 0 10000/12:rwx flush", "refused full"),
    ("end 0 9", "refused full"),
]


def deepest_chain(name: str, numbers: Iterable[int]) -> Script:
    """A chain of as many records as a copy holds, in one line."""
    records = [chain_record(number) for number in numbers]
    return script_of(
        name, [("processors 1", ""), (load(records=records), "taken %d" % CHAIN)] + CHAIN_END
    )


def chain_one_by_one(length: int) -> Script:
    """The chain, one record at a time from the last to the first: there are no rights until the
    first has come."""
    pairs = [("processors 1", "")]
    for number in range(length, 0, -1):
        if number in (length, length // 2, 1):
            pairs.append(("rights 0 1 10000", "rights none"))
        pairs.append((load(records=[chain_record(number)]), "taken 1"))
    pairs.append(("rights 0 1 10000", "rights 00010:rwx"))
    return script_of("deepest_chain_one_by_one_%d" % length, pairs)


def wide_load(
    cuts: Iterable[int], ended: Iterable[int], records: Iterable[tuple[int, int, int, int]]
) -> str:
    """A snapshot as it is saved: each cut takes the right to write from one page, the only one of
    the record of this number; a record is its number, space, page and parent, and has its page."""
    rows = {
        "cuts": ["[%d,0,%d,12,2]" % (page, page) for page in cuts],
        "ended": ["[%d,0]" % space for space in ended],
        "records": [
            "[%d,0,%d,0,%d,12,%d,0,%d,7]" % (number, space, page, parent, page)
            for number, space, page, parent in records
        ],
    }
    lists = ",".join('"%s":[%s]' % (key, ",".join(listed)) for key, listed in rows.items())
    return '{%s,"version":3}' % lists


def nearly_full(missing: int) -> str:
    """A snapshot that lacks so many operations to fill a copy: 40,000 pages of space 1, each
    mapped to itself, of which every other of the first 20,000 may not be written, and ends."""
    return wide_load(
        range(2, 20001, 2),
        range(2, 15538 - missing),
        ((page, 1, page, 0) for page in range(1, 40001)),
    )


def full_copy_told() -> Script:
    """A full copy is sent, delivered, merged, compared, asked, saved and loaded again."""
    text = nearly_full(0)
    return script_of("full_copy_told", [
        ("processors 3", ""),
        ("load 0 " + text, "taken 65536"),
        ("send 0 0 65536", "message 0 65536"),
        ("deliver 0 1", "taken 65536"),
        ("deliver 0 1", "taken 0"),
        ("merge 2 1", "taken 65536"),
        ("merge 0 2", "taken 0"),
        ("same 0 2", "same yes"),
        ("covers 1 0", "covers yes"),
        ("end 2 60000", "refused full"),
        ("rights 2 1 4e20000", "rights 04e20:r-x"),
        ("served 2 1 4e21000", "served 04e21:rwx"),
        ("save 2", "snapshot " + text),
        ("load 0 " + text, "taken 0")])


def copy_filled() -> Script:
    """The last three operations that a copy holds; what issues none is still done."""
    return script_of("copy_filled", [
        ("processors 1", ""),
        ("load 0 " + nearly_full(3), "taken 65533"),
        ("map 0 0 0/12:rwx 0 1 0/12", "records 40001.0"),
        ("unmap 0 1 0/12:-w- flush", "revocations 1"),
        ("end 0 60000", "ended 60000"),
        ("end 0 60001", "refused full"),
        ("load 0 " + wide_load([], [60001], []), "refused full"),
        ("map 0 0 0/12:rwx 0 1 0/12", "refused full"),
        ("unmap 0 1 1000/12:rwx flush", "refused full"),
        ("unmap 0 1 0/12:-w- flush", "revocations 0"),
        ("served 0 1 0", "served 00000:r-x")])


def chain_at_the_last_page() -> Script:
    """The deepest chain at the last page, each record in a space of its own but two."""
    page = PAGES - 1
    records = ((parent + 1, parent % 65535 + 1, page, parent) for parent in range(CHAIN))
    return script_of("deepest_chain_at_the_last_page", [
        ("processors 1", ""),
        ("load 0 " + wide_load([], [], records), "taken %d" % CHAIN),
        ("rights 0 1 fffffffff000", "rights fffffffff:rwx"),
        ("served 0 65535 fffffffff000", "served fffffffff:rwx"),
        ("unmap 0 0 fffffffff000/12:rwx flush", "refused full"),
        ("end 0 9", "refused full")])


MANY = 1203


def many_commands() -> Script:
    """Pages that are mapped, each to itself, of which every other one loses the right to write; the
    table and the tree of them; and a Map and an Unmap of all of them."""
    pairs = [("processors 1", "")]
    table = ["table %d" % (MANY + 1), row(0, 0, PAGES, 0, "rwx")]
    for page in range(1, MANY + 1):
        pairs.append(("map 0 0 %x000/12:rwx 0 1 %x000/12" % (page, page), "records %d.0" % page))
        rights = "rwx"
        if page % 2 == 0:
            pairs.append(("unmap 0 1 %x000/12:-w- flush" % page, "revocations 1"))
            rights = "r-x"
        table.append(row(1, page, 1, page, rights))
    return script_of("many_commands", pairs + [
        ("table 0", "\n".join(table)),
        ("tree 1 4b2000", "tree 004b2:r-x"),
        ("tree 1 4b3000", "tree 004b3:rwx"),
        ("tree 1 4b4000", "tree none"),
        ("map 0 0 0/32:rwx 0 2 0/32", "records %d.0" % (MANY + 1)),
        ("tree 2 4b2000", "tree 004b2:rwx"),
        ("unmap 0 0 0/32:-w- keep", "revocations %d" % (MANY // 2 + 2)),
        ("tree 2 fffff000", "tree fffff:r-x")])


def long_way() -> Script:
    """A page that is handed on through 100 spaces, and the tree of it."""
    pairs = [("processors 1", "")]
    pairs += [
        ("map 0 %d 10000/12:rwx 0 %d 10000/12" % (space - 1, space), "records %d.0" % space)
        for space in range(1, 101)
    ]
    return script_of("long_way", pairs + [
        ("tree 100 10000", "tree 00010:rwx"),
        ("unmap 0 1 10000/12:-w- keep", "revocations 1"),
        ("tree 1 10000", "tree 00010:rwx"),
        ("tree 100 10000", "tree 00010:r-x"),
        ("served 0 100 10000", "served 00010:r-x")])


def pages_in_orders(count: int) -> Script:
    """As many pages of memory, a power of 2, lose the right to write one after the other: up, down
    and scattered. They are one run."""
    pairs = [("processors 3", "")]
    orders = [
        range(count), reversed(range(count)), (step * 1013 % count for step in range(count))
    ]
    for processor, pages in enumerate(orders):
        line = "unmap %d 0 %%x000/12:-w- flush" % processor
        pairs += [(line % page, "revocations 1") for page in pages]
    order = 12 + count.bit_length() - 1
    run = wide_load([], [], []).replace('"cuts":[]', '"cuts":[[0,0,0,%d,2]]' % order)
    pairs += [("save %d" % processor, "snapshot " + run) for processor in range(3)]
    return script_of("pages_in_orders", pairs + [
        ("same 0 1", "same yes"), ("same 1 2", "same yes"), ("table 0", "\n".join([
            "table 2", row(0, 0, count, 0, "r-x"),
            row(0, count, PAGES - count, count, "rwx")]))])


def cuts_alone() -> Script:
    """As many revocations as a copy holds, each from a record of its own that is not there."""
    text = wide_load(range(1, CHAIN + 1), [], [])
    return script_of("cuts_alone", [
        ("processors 1", ""),
        ("load 0 " + text, "taken %d" % CHAIN),
        ("save 0", "snapshot " + text)])


def space_each() -> Script:
    """As many records as a copy holds, each in a space of its own, and the table of them."""
    spaces = {number: (number % 65535 or 65535, number // 65536) for number in range(1, CHAIN + 1)}
    records = [
        "[%d,0,%d,%d,32,12,0,0,%d,7]" % (number, *space, number)
        for number, space in spaces.items()
    ]
    table = ["table %d" % (CHAIN + 1), row(0, 0, PAGES, 0, "rwx")]
    for number, (space, version) in sorted(spaces.items(), key=lambda pair: pair[1]):
        spelled = "%d.%d" % (space, version) if version else "%d" % space
        table.append("row %s 00020 1 %05x:rwx" % (spelled, number))
    return script_of("space_each", [
        ("processors 1", ""),
        ('load 0 {"cuts":[],"ended":[],"records":[%s],"version":3}' % ",".join(records),
         "taken %d" % CHAIN),
        ("table 0", "\n".join(table)),
        ("served 0 1.1 20000", "served 10000:rwx")])


def numbers_with_gaps() -> Script:
    """20,000 records with great numbers come first, then 12,000 with small ones from the last to
    the first, and one of the last processor behind all; each snapshot lists them in their order."""
    def records(numbers: Iterable[int]) -> str:
        return wide_load([], [], ((number, 1, number, 0) for number in numbers))

    behind = "[80100,63,1,0,80100,12,0,0,80100,7]"
    all_names = records([*range(1, 12001), *range(60000, 80000)])
    text = all_names.replace('],"version"', ',%s],"version"' % behind)
    return script_of("numbers_with_gaps", [
        ("processors 1", ""),
        ("load 0 " + records(range(60000, 80000)), "taken 20000"),
        ("load 0 " + records(range(12000, 0, -1)), "taken 12000"),
        ('load 0 {"cuts":[],"ended":[],"records":[%s],"version":3}' % behind, "taken 1"),
        ("rights 0 1 11170000", "rights 11170:rwx"),
        *[("save 0", "snapshot " + text)] * 8])


def full_copies() -> list[Script]:
    """Copies that are full, or nearly, and many commands."""
    return [full_copy_told(), copy_filled(), cuts_alone(), space_each(), chain_at_the_last_page(),
            many_commands(), long_way(), pages_in_orders(4096), numbers_with_gaps()]


def long_threads(processors: int) -> Script:
    """So many processors that end 1,500 spaces each, over links that hold one message."""
    lines = ["processors %d" % processors]
    lines += [
        "end %d %d" % (processor, 1500 * processor + step)
        for step in range(1, 1501) for processor in range(processors)
    ]
    told = [
        "processor %d commands 1500 issued 1500\n" % processor for processor in range(processors)
    ]
    output = "".join(told + ["same yes\n"]).encode()
    source = "\n".join(lines).encode()
    name = "long_threads_%d" % processors
    return Script(name, ["threads", "--capacity", "1"], source, output, 0)


def journal_full() -> Script:
    """One processor whose commands, and the operations that are read back to be sent, are more than
    a journal holds: of 990,000 commands 65,535 issue one operation each."""
    lines = ["processors 1"] + ["end 0 %d" % number for number in range(1, 65536)]
    lines += ["end 0 1"] * (990000 - 65535)
    return Script("journal_full", ["threads"], "\n".join(lines).encode(), b"", 1)


def line_limits() -> list[Script]:
    """Lines at the limits of their number and of their length."""
    comment = b"#" + b"x" * (LONGEST_LINE - 1)
    too_many, too_long = b"line 1000001 fault too-many-lines\n", b"line 1 fault too-long\n"

    def script(name: str, source: bytes, output: bytes = b"") -> Script:
        return Script("lines_" + name, ["run"], source, output, 1 if output else 0)
    return [
        script("most", b"\n" * MOST_LINES),
        script("one_more", b"\n" * (MOST_LINES + 1), too_many),
        script("one_more_without_end", b"\n" * MOST_LINES + b"#", too_many),
        script("one_more_too_long", b"\n" * MOST_LINES + comment + b"xx", too_many),
        script("longest", comment + b"\n"),
        script("longest_without_end", comment),
        script("longest_with_carriage_return", comment[:-1] + b"\r\n"),
        script("longest_twice", comment + b"\n" + comment + b"\n"),
        script("too_long", comment + b"x\n", too_long),
        script("too_long_without_end", comment + b"x", too_long),
        script("too_long_with_carriage_return", comment + b"\r\n", too_long),
        script("too_long_spaces", b" " * (LONGEST_LINE + 1), too_long),
        script("end_begins_no_line", b"# one\n"),
    ]


def last_lines() -> list[Script]:
    """The last line that is read is answered, and the one behind it is not."""
    script = b"\n" * (MOST_LINES - 2) + b"processors 1\nsame 0 0\n"
    fault = b"line 1000001 fault too-many-lines\n"
    more = script + b"same 0 0\n"
    return [
        Script("lines_last_is_answered", ["run"], script, b"same yes\n", 0),
        Script("lines_behind_the_last", ["run"], more, b"same yes\n" + fault, 1),
    ]


def in_threads(script: Script) -> Script:
    """The same lines as a script for `threads`, which are read as by `run`."""
    return script._replace(name=script.name + "_in_threads", arguments=["threads"])
