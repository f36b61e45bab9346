"""Feeds of GTFS Realtime 2.0: what the bytes mean, or the fault of least place.

A message is a dict from its fields' names to values; a missing field has its default, or None. An embedded
message that isn't repeated is the concatenation of all its bodies.
"""

from dataclasses import dataclass

from .wire import BYTES, VARINT, Broken, read_fields, read_varint

MOST_ENTITY_BYTES = 1_048_576


@dataclass
class Known:
    """A field that is read: what it is, and whether it is required or repeated, or its default."""

    name: str
    kind: str
    required: bool = False
    repeated: bool = False
    default: object = None


FEED = {1: Known("header", "FeedHeader", required=True), 2: Known("entity", "FeedEntity", repeated=True)}
MESSAGES = {
    "FeedMessage": FEED,
    "FeedHeader": {
        1: Known("gtfs_realtime_version", "text", required=True),
        2: Known("incrementality", "enum", default=0),
        3: Known("timestamp", "uint64"),
    },
    "FeedEntity": {
        1: Known("id", "text", required=True),
        2: Known("is_deleted", "bool", default=False),
        3: Known("trip_update", "TripUpdate"),
        5: Known("alert", "Alert"),
    },
    "TripUpdate": {
        1: Known("trip", "TripDescriptor", required=True),
        2: Known("stop_time_update", "StopTimeUpdate", repeated=True),
        4: Known("timestamp", "uint64"),
    },
    "TripDescriptor": {
        1: Known("trip_id", "text"),
        3: Known("start_date", "text"),
        4: Known("schedule_relationship", "enum", default=0),
        5: Known("route_id", "text"),
    },
    "StopTimeUpdate": {
        1: Known("stop_sequence", "uint32"),
        2: Known("arrival", "StopTimeEvent"),
        3: Known("departure", "StopTimeEvent"),
        4: Known("stop_id", "text"),
        5: Known("schedule_relationship", "enum", default=0),
        6: Known("stop_time_properties", "StopTimeProperties"),
    },
    "StopTimeProperties": {1: Known("assigned_stop_id", "text")},
    "StopTimeEvent": {1: Known("delay", "int32"), 2: Known("time", "int64")},
    "Alert": {
        1: Known("active_period", "TimeRange", repeated=True),
        5: Known("informed_entity", "EntitySelector", repeated=True),
        6: Known("cause", "enum", default=1),
        7: Known("effect", "enum", default=8),
        10: Known("header_text", "TranslatedString"),
        11: Known("description_text", "TranslatedString"),
    },
    "TimeRange": {1: Known("start", "uint64"), 2: Known("end", "uint64")},
    "EntitySelector": {
        1: Known("agency_id", "text"),
        2: Known("route_id", "text"),
        4: Known("trip", "TripDescriptor"),
        5: Known("stop_id", "text"),
    },
    "TranslatedString": {1: Known("translation", "Translation", repeated=True)},
    "Translation": {1: Known("text", "text", required=True), 2: Known("language", "text")},
}

# Of faults at one place the first in this order is told.
ENTITY_TOO_LONG, WIRE, NOT_TEXT, MISSING_FIELD = range(4)


class FeedFault(Exception):
    """The fault of least place."""


def signed(number, bits):
    number %= 2**bits
    return number - 2**bits if number >= 2 ** (bits - 1) else number


SCALARS = {
    "enum": lambda value: signed(value, 32),
    "int32": lambda value: signed(value, 32),
    "int64": lambda value: signed(value, 64),
    "uint32": lambda value: value % 2**32,
    "uint64": lambda value: value,
    "bool": lambda value: value != 0,
}


def read_feed(data):
    reader = Reader(data)
    feed = reader.message("FeedMessage", [(len(data), 0, len(data))])
    if reader.faults:
        raise FeedFault(min(reader.faults)[2])
    return feed


class Reader:
    def __init__(self, data):
        self.data = data
        self.faults = []

    def fault(self, place, order, text):
        self.faults.append((place, order, text))

    def message(self, name, bodies):
        """The message of these bodies, each with the place of its tag and its range; faults are kept."""
        fields, is_whole = [], True
        for _, start, end in bodies:
            found, broken = read_fields(self.data, start, end)
            fields += found
            if name == "FeedMessage":
                self.long_entities(found, broken)
            if broken:
                is_whole = False
                self.fault(broken[0], WIRE, f"Wire {broken[0]} {broken[1]}")
        values = {known.name: self.value(known, number, fields) for number, known in MESSAGES[name].items()}
        if is_whole:
            self.required(name, bodies, values)
        return values

    def value(self, known, number, fields):
        """What the fields of that number and of the type of its kind say."""
        wire_type = VARINT if known.kind in SCALARS else BYTES
        fields = [field for field in fields if (field.number, field.type) == (number, wire_type)]
        if known.kind in SCALARS:
            return SCALARS[known.kind](fields[-1].value) if fields else known.default
        if known.kind == "text":
            texts = [self.text(field) for field in fields]
            return texts[-1] if texts else None
        bodies = [(field.at, field.start, field.end) for field in fields]
        if known.repeated:
            return [self.message(known.kind, [body]) for body in bodies]
        return self.message(known.kind, bodies) if bodies else None

    def text(self, field):
        try:
            return self.data[field.start : field.end].decode("utf-8")
        except UnicodeDecodeError:
            self.fault(field.at, NOT_TEXT, f"NotText {field.at}")
            return ""

    def required(self, name, bodies, values):
        """The first tag of the message is the place; for the header and its version the feed's length."""
        for known in MESSAGES[name].values():
            if known.required and values[known.name] is None:
                in_front = name in ("FeedMessage", "FeedHeader")
                place = len(self.data) if in_front else bodies[0][0]
                self.fault(place, MISSING_FIELD, f"MissingField {place} {known.name}")

    def long_entities(self, fields, broken):
        """An entity's stated length over the limit, whether its bytes are there or not."""
        for field in fields:
            if (field.number, field.type) == (2, BYTES) and field.end - field.start > MOST_ENTITY_BYTES:
                self.fault(field.at, ENTITY_TOO_LONG, f"EntityTooLong {field.at}")
        if broken:
            place, end = broken[0], len(self.data)
            try:
                tag, at = read_varint(self.data, place, end)
                length, _ = read_varint(self.data, at, end) if tag == 2 * 8 + BYTES else (0, at)
            except Broken:
                return
            if length > MOST_ENTITY_BYTES:
                self.fault(place, ENTITY_TOO_LONG, f"EntityTooLong {place}")
