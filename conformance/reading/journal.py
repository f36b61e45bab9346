"""A journal of bodies: what the bytes of its file hold, and what is written to it.

The file is 8 bytes and then records: a gate (one byte), the kind (one byte), the moment in 8 bytes and the body's length
in 4, both with the greatest byte first, and the body. A gate of 0 is closed, and ends the list; any other is open.
"""

from dataclasses import dataclass

from .moments import is_moment
from .requests import MOST_BODY_BYTES

MAGIC = b"GWJRNL01"
CLOSED, OPEN = b"\x00", b"\x01"
EMPTY = MAGIC + CLOSED
BEFORE_BODY = 14  # the gate, the kind, the moment and the length
MOST_BYTES = 1 << 40
KINDS = {1: "/siri/et", 2: "/siri/sx", 3: "/gtfs-rt"}


class JournalFault(Exception):
    """Why a server doesn't begin over a journal."""


class NotJournal(JournalFault):
    """The file begins with other bytes."""

    def __init__(self):
        super().__init__("NotJournal")


class Damaged(JournalFault):
    """At this place a gate isn't in the file, or an open one has no whole record behind it."""

    def __init__(self, at):
        super().__init__(f"Damaged {at}")


class Replay(JournalFault):
    """The body of this number, from 1, would be refused after those before it."""

    def __init__(self, number):
        super().__init__(f"Replay {number}")


@dataclass(frozen=True)
class Kept:
    """A body that was accepted, with its moment in seconds and the target to which it was posted."""

    path: str
    moment: int
    body: bytes


def kept(data):
    """The bodies that a file holds. One of at most 9 bytes may be one that was being made, and holds none."""
    return [] if len(data) <= len(EMPTY) else found(data)[0]


def found(data):
    """The bodies of the open records up to the first closed gate, and the place of that gate."""
    if data[: len(MAGIC)] != MAGIC:
        raise NotJournal
    bodies, at = [], len(MAGIC)
    while True:
        gate = data[at : at + 1]
        if gate == CLOSED:
            return bodies, at
        record = read_record(data, at) if gate else None
        if record is None:
            raise Damaged(at)
        bodies.append(record)
        at += size_of(record)


def read_record(data, at):
    """The record behind an open gate, if it is one that ends inside the file."""
    kind = data[at + 1 : at + 2]
    moment = int.from_bytes(data[at + 2 : at + 10], "big")
    length = int.from_bytes(data[at + 10 : at + 14], "big")
    end = at + BEFORE_BODY + length
    if not kind or kind[0] not in KINDS or not is_moment(moment) or length > MOST_BODY_BYTES or end > len(data):
        return None
    return Kept(KINDS[kind[0]], moment, data[at + BEFORE_BODY : end])


def size_of(record):
    return BEFORE_BODY + len(record.body)


def end_of(bodies):
    """The place of the gate behind these bodies."""
    return len(MAGIC) + sum(size_of(one) for one in bodies)


def is_full(end, length):
    """Whether the journal whose last gate is there has no room for a body of that length."""
    return end + BEFORE_BODY + 1 + length > MOST_BYTES


# What is written.


def opened(data):
    """The file once a journal is opened over it, if it isn't refused: a file of at most 9 bytes is made anew."""
    if len(data) <= len(EMPTY):
        return EMPTY
    found(data)
    return data


def appended(data, record):
    """The file of an open journal once a body is in it. What stood behind its closed gate stays where it is longer."""
    _, at = found(data)
    return opened_gate(behind_gate(data, at, record), at)


def behind_gate(data, at, record):
    """The file once all but the gate is written: the record, and a closed gate behind it."""
    kind = next(number for number, path in KINDS.items() if path == record.path)
    header = bytes([kind]) + record.moment.to_bytes(8, "big") + len(record.body).to_bytes(4, "big")
    return put(data, at + 1, header + record.body + CLOSED)


def opened_gate(data, at):
    return put(data, at, OPEN)


def put(data, at, piece):
    """The file with bytes put at a place of it or at its end."""
    return data[:at] + piece + data[at + len(piece) :]
