"""Which bytes are JSON, with numbers as a snapshot needs them: whole ones from 0 to 2^64 - 1,
and others."""

import json
import math
from typing import Any

DEEPEST = 127
WHOLE_LIMIT = 1 << 64


class NotJson(Exception):
    """The bytes are no JSON, or are nested too deep."""


class OtherNumber:
    """A number that is no whole number from 0 to 2^64 - 1, or is not spelled as one."""


class Members(dict):
    """An object; of a key that stands twice the last counts."""


def json_value(text: bytes) -> Any:
    """The value that the text says."""
    try:
        characters = text.decode("utf-8")
        refuse_deep(characters)
        value = json.loads(characters, parse_int=whole, parse_float=fraction, parse_constant=refuse,
                           object_pairs_hook=members)
    except (UnicodeDecodeError, json.JSONDecodeError) as error:
        raise NotJson from error
    refuse_surrogates(value)
    return value


def refuse_deep(characters: str) -> None:
    """Refuses a text in which more than 127 lists and objects stand within one another."""
    depth, in_string, escaped = 0, False, False
    for character in characters:
        if in_string:
            in_string = escaped or character != '"'
            escaped = character == "\\" and not escaped
        elif character == '"':
            in_string = True
        elif character in "[{":
            depth += 1
            if depth > DEEPEST:
                raise NotJson
        elif character in "]}":
            depth -= 1


def whole(digits: str) -> Any:
    """A number without fraction and exponent."""
    refuse_endless(digits)
    if digits.startswith("-") or len(digits) > 20 or int(digits) >= WHOLE_LIMIT:
        return OtherNumber()
    return int(digits)


def fraction(digits: str) -> OtherNumber:
    refuse_endless(digits)
    return OtherNumber()


def refuse_endless(digits: str) -> None:
    """Refuses a number that is too large for a float."""
    if math.isinf(float(digits)):
        raise NotJson


def refuse(_: str) -> None:
    """NaN and the infinities, which are no JSON."""
    raise NotJson


def members(pairs: list) -> Members:
    for key, value in pairs:
        refuse_surrogates(key)
        refuse_surrogates(value)
    return Members(pairs)


def refuse_surrogates(value: Any) -> None:
    """Refuses half of a pair of surrogates, which is no character."""
    if isinstance(value, list):
        for member in value:
            refuse_surrogates(member)
    elif isinstance(value, str) and any(0xD800 <= ord(character) <= 0xDFFF for character in value):
        raise NotJson
