"""Hostile changes of scripts: words at their limits, bytes that are no text, and JSON that is
none."""

from random import Random

NUMBERS = """
    0 1 63 64 65 255 256 65535 65536 4294967295 4294967296 18446744073709551615 18446744073709551616
    00000000000000000001 000000000000000000001 99999999999999999999 -1 +1 1_0 0x10 1. .1 1.0
    5.4294967295 5.4294967296 5.1.1 65536.0 0.1
""".split()
ADDRESSES = """
    ffffffffffff 1000000000000 ffffffffffffffff 10000000000000000 0000000000010000 ABCDEF abcdefg
    8008 800a 800b 8000 8018 100e6 100ee d4 1014 314
""".split()
FPAGES = """
    nil all ALL 0/0 0/1 0/11 0/12 0/48 0/49 0/255 0/256 0/ /12 / 10000/012 1000000000000/12
    fffffffff000/12 1000/13 800/12 100000000/33 10000/12/ 10000/0000000000000000000012
    10000/00000000000000000012 10000/000000000000000000012 0000000000010000/12 00000000000010000/12
    10000/14:rwx nil:rwx all:--- : nil: :rwx 10000/12:rw 10000/12:rwxx 10000/12:RWX 10000/12:xwr
    10000/12:rwx:rwx 10000/11:zzz 10000:rwx
""".split()
COMMANDS = """
    processors map words unmap end rights served tree version send deliver merge same covers save
    load table Map row keep flush #
""".split() + ["rights\t0", "\t", "\r", "\0"]
WORDS = NUMBERS + ADDRESSES + FPAGES + COMMANDS


def alike(word: str) -> list[str]:
    """Words that may stand where this one stands, or nearly."""
    if "/" in word or word in ("nil", "all"):
        return FPAGES
    return NUMBERS + ADDRESSES if word[:1].isdigit() else WORDS


PIECES = [
    b"\0", b"\r", b"\r\n", b"\n", b"\n\n", b" ", b"\t", b"#", b"\x0b", b"\x1a",
    b"\xff", b"\xc3\x28", b"\xef\xbb\xbf", b"\xe2\x80\xa8", b"\xc2\xa0", b"\xed\xa0\x80",
]

JSON_PIECES = [
    b"[", b"]", b"{", b"}", b",", b":", b'"', b"\\", b" ", b"\t", b"/**/",
    b"\\u0000", b'"\\ud800"', b'"\\ud83d\\ude00"', b"\xff", b"\xed\xa0\x80", b"\x01", b"\x7f",
    b"\xef\xbb\xbf", b"-", b"-0", b"0", b"00", b"1.0", b"1e0", b"1E400", b"1e-400",
    b"1e99999999999", b"0e99999999999", b"18446744073709551615", b"18446744073709551616",
    b"9" * 400, b"NaN", b"Infinity", b"null", b"true",
    b'"version":3', b'"version":9,', b'"cuts":[],', b'"x":{},', b'"\\u0076ersion":3',
]


def spoil_words(random: Random, lines: list[str]) -> list[str]:
    """One word of one line, or two, is put in, left out, or exchanged."""
    lines = list(lines)
    for _ in range(random.choice([1, 1, 2])):
        at = random.randrange(len(lines))
        words = lines[at].split(" ")
        place = random.randrange(len(words))
        shot = random.random()
        if shot < 0.8:
            words[place] = random.choice(random.choice([WORDS, alike(words[place])]))
        elif shot < 0.9:
            words.pop(place)
        else:
            words.insert(place, random.choice(WORDS))
        lines[at] = " ".join(words)
    return lines


def spoil_bytes(random: Random, text: bytes) -> bytes:
    """Some bytes of the text are changed, put in, left out or repeated."""
    changed = bytearray(text)
    for _ in range(random.choice([1, 1, 2, 5, 20])):
        at = random.randrange(len(changed) + 1)
        shot = random.random()
        if shot < 0.3 and at < len(changed):
            changed[at] = random.randrange(256)
        elif shot < 0.6:
            changed[at:at] = random.choice(PIECES)
        elif shot < 0.8:
            del changed[at:at + random.choice([1, 1, 2, 10])]
        else:
            changed[at:at] = changed[at:at + random.randrange(60)]
    return bytes(changed)


def spoil_json(random: Random, text: bytes) -> bytes:
    """Pieces of JSON are put in, or stand in place of others."""
    changed = bytearray(text)
    for _ in range(random.choice([1, 1, 1, 2, 3])):
        at = random.randrange(len(changed) + 1)
        end = at + random.choice([0, 0, 0, 1, 2, 5])
        changed[at:end] = random.choice(JSON_PIECES)
    return bytes(changed)


def deep_json(random: Random) -> bytes:
    """Lists and objects within one another, around the depth that is read."""
    depth = random.choice([1, 2, 125, 126, 127, 128, 129, 200, 5000, 100000])
    opening, closing = random.choice(
        [(b"[", b"]"), (b'{"a":', b"}"), (b'{"version":3,"x":', b"}"), (b"[0,", b"]")]
    )
    inner = random.choice([b"0", b"[]", b"{}", b"null", b'"["', b""])
    count = random.choice([depth, depth, depth - 1, 0])
    text = opening * depth + inner + closing * count
    return random.choice([text, b'{"cuts":[],"ended":[],"records":' + text + b',"version":3}'])
