"""The bytes that PostgreSQL keeps of a jsonb value, without its length header: made of JSON text or of Python values.

    >>> loads("[1.0]").hex()
    '01000040080000902000000080800100'

It is written from PostgreSQL's src/include/utils/jsonb.h and src/backend/utils/adt/{jsonb_util,numeric}.c, and shares nothing with the
crates. Nothing is proved of it: bindings/test compares it with PostgreSQL.
"""

import json
from decimal import Decimal
from struct import pack

SCALAR, OBJECT, ARRAY = 0x10000000, 0x20000000, 0x40000000
STRING, NUMERIC, FALSE, TRUE, NULL, CONTAINER = 0x00000000, 0x10000000, 0x20000000, 0x30000000, 0x40000000, 0x50000000
HAS_OFFSET = 0x80000000
STRIDE = 32

# the most digits before and behind the point of a number that PostgreSQL holds
MOST_BEFORE, MOST_BEHIND = 131072, 16383


class NotHeld(ValueError):
    """jsonb does not hold the value."""


def loads(text: str) -> bytes:
    """The bytes of a JSON text. Its numbers stay as they are written."""
    return encode(json.loads(text, parse_float=Decimal, parse_int=Decimal, parse_constant=_refuse_constant))


def encode(value) -> bytes:
    """The bytes of a value: None, a truth value, a number, a string, a list, or a dict with strings as keys."""
    if isinstance(value, (list, dict)):
        return _container(value)
    return _container([value], SCALAR)


def _refuse_constant(name):
    raise NotHeld(name)


def _container(value, flags=0):
    if isinstance(value, dict):
        members = sorted((_text(key), item) for key, item in value.items())
        members.sort(key=lambda member: len(member[0]))
        flags, count, items = OBJECT, len(members), [key for key, _ in members] + [item for _, item in members]
    else:
        flags, count, items = flags | ARRAY, len(value), value
    entries, body = b"", b""
    begin = 4 + 4 * len(items)
    for place, item in enumerate(items):
        kind, piece = _item(item, begin + len(body))
        body += piece
        length = len(body) | HAS_OFFSET if place % STRIDE == 0 else len(piece)
        entries += pack("<I", kind | length)
    return pack("<I", flags | count) + entries + body


def _item(item, at):
    """What kind of item it is, and its bytes, which follow `at` others. Numbers and containers begin at multiples of four."""
    if item is None:
        return NULL, b""
    if isinstance(item, bool):
        return (TRUE if item else FALSE), b""
    if isinstance(item, (str, bytes)):
        return STRING, item if isinstance(item, bytes) else _text(item)
    padding = b"\0" * (-at % 4)
    if isinstance(item, (list, dict)):
        return CONTAINER, padding + _container(item)
    return NUMERIC, padding + _numeric(Decimal(repr(item)) if isinstance(item, float) else Decimal(item))


def _text(text):
    if "\0" in text:
        raise NotHeld("a string with U+0000")
    try:
        return text.encode()
    except UnicodeEncodeError:
        raise NotHeld("a string with half of a surrogate pair") from None


def _numeric(number):
    """Groups of four digits, of which the first stands at the weight `weight`, and a scale: the digits behind the point."""
    sign, digits, exponent = number.as_tuple()
    if not isinstance(exponent, int):
        raise NotHeld("no number")
    scale = max(0, -exponent)
    if scale > MOST_BEHIND or len(digits) + exponent > MOST_BEFORE:
        raise NotHeld("a number out of range")
    plain = "".join(map(str, digits)) + "0" * max(0, exponent)
    before, behind = (plain, "") if scale == 0 else (plain.rjust(scale + 1, "0")[:-scale], plain.rjust(scale, "0")[-scale:])
    before = before.rjust(-(-len(before) // 4) * 4, "0")
    behind = behind.ljust(-(-len(behind) // 4) * 4, "0")
    weight = len(before) // 4 - 1
    groups = [int((before + behind)[i:i + 4]) for i in range(0, len(before + behind), 4)]
    while groups and groups[0] == 0:
        groups, weight = groups[1:], weight - 1
    while groups and groups[-1] == 0:
        groups = groups[:-1]
    if not groups:
        sign, weight = 0, 0
    if scale <= 63 and -64 <= weight <= 63:
        head = pack("<H", 0x8000 | (0x2000 if sign else 0) | scale << 7 | (weight & 0x7F))
    else:
        head = pack("<Hh", (0x4000 if sign else 0) | scale, weight)
    body = head + pack(f"<{len(groups)}H", *groups)
    return pack("<I", (4 + len(body)) << 2) + body
