"""The wire grammar of protobuf: bytes as a list of fields, or the place and kind of their break.

A field is a tag (number * 8 + type, a varint) and what its type asks for: 0 a varint, 1 eight bytes, 2 a
length and so many bytes, 5 four bytes; 3 begins a group, which the end of the same number (type 4) closes. A
varint has at most ten bytes; bits past the 64th are dropped.
"""

from dataclasses import dataclass

MOST_GROUPS = 64
VARINT, FIXED64, BYTES, GROUP, GROUP_END, FIXED32 = range(6)


class Broken(Exception):
    """The bytes from a place on begin with no field."""

    def __init__(self, kind):
        super().__init__(kind)
        self.kind = kind


@dataclass
class Field:
    at: int  # where its tag begins
    number: int
    type: int
    value: int = None  # of a varint
    start: int = None  # of bytes: where they begin and end
    end: int = None


def read_varint(data, at, end):
    """The number, and what follows it."""
    number = 0
    for i in range(10):
        if at + i >= end:
            raise Broken("Truncated")
        number |= (data[at + i] & 0x7F) << (7 * i)
        if data[at + i] < 0x80:
            return number % 2**64, at + i + 1
    raise Broken("LongVarint")


def read_tag(data, at, end):
    tag, at = read_varint(data, at, end)
    number, kind = tag >> 3, tag & 7
    if tag >= 2**32 or number == 0 or kind > FIXED32:
        raise Broken("BadTag")
    return number, kind, at


def read_payload(data, at, end, kind):
    """What follows the payload of a field that is no group; and its value, or where its bytes begin."""
    if kind == VARINT:
        value, after = read_varint(data, at, end)
        return after, value
    length, start = (8, at) if kind == FIXED64 else (4, at)
    if kind == BYTES:
        length, start = read_varint(data, at, end)
    if length > end - start:
        raise Broken("Truncated")
    return start + length, start


def read_field(data, at, end):
    """The field that begins at `at`, and what follows it."""
    number, kind, after = read_tag(data, at, end)
    if kind in (GROUP, GROUP_END):
        return Field(at, number, GROUP), skip_group(data, at, end)
    after, value = read_payload(data, after, end, kind)
    if kind == BYTES:
        return Field(at, number, kind, start=value, end=after), after
    return Field(at, number, kind, value=value), after


def skip_group(data, at, end):
    """What follows a group with all that it holds."""
    open_groups = []
    while True:
        number, kind, at = read_tag(data, at, end)
        if kind == GROUP:
            if len(open_groups) == MOST_GROUPS:
                raise Broken("DeepGroup")
            open_groups.append(number)
        elif kind == GROUP_END:
            if not open_groups or open_groups.pop() != number:
                raise Broken("BadGroup")
            if not open_groups:
                return at
        else:
            at, _ = read_payload(data, at, end, kind)


def read_fields(data, start, end):
    """The longest list of fields that the bytes begin with, and the break after it: (place, kind) or None."""
    fields, at = [], start
    while at < end:
        try:
            field, after = read_field(data, at, end)
        except Broken as broken:
            return fields, (at, broken.kind)
        fields.append(field)
        at = after
    return fields, None
