"""The feed that deliveries make, in bytes: fields in rising number, varints in their shortest spelling."""

from .moments import NANOS, compact_text
from .readings import ABSENT, CANCELLED, SKIPPED
from .sparse import shortest


def varint(number):
    number %= 2**64
    out = bytearray()
    while number >= 0x80:
        out.append(number & 0x7F | 0x80)
        number >>= 7
    out.append(number)
    return bytes(out)


def number_field(number, value):
    return varint(number * 8) + varint(value)


def bytes_field(number, value):
    return varint(number * 8 + 2) + varint(len(value)) + value


def text_field(number, text):
    return bytes_field(number, text.encode())


def header(moment):
    version_and_time = text_field(1, "2.0") + number_field(2, 0) + number_field(3, moment)
    return bytes_field(1, version_and_time)


def trip_descriptor(trip_id, day, relation):
    return text_field(1, trip_id) + text_field(3, compact_text(day)) + number_field(4, relation)


def event(time, planned):
    return number_field(1, time - planned) + number_field(2, time)


def stop_time_update(stop, reading):
    sequence = number_field(1, stop.sequence)
    if reading == SKIPPED:
        return sequence + number_field(5, 1)
    if reading == ABSENT:
        return sequence + number_field(5, 2)
    arrival = bytes_field(2, event(reading.arrival, stop.arrival))
    departure = bytes_field(3, event(reading.departure, stop.departure))
    return sequence + arrival + departure + assigned(stop, reading.place)


def assigned(stop, place):
    """The stop that is assigned, where it isn't the scheduled one."""
    return b"" if place == stop.id else bytes_field(6, text_field(1, place))


def journey_entity(record, context):
    """The entity of a record; nothing where nothing is known of any stop."""
    trip_id = context.table.trips[record.trip].id
    if record.reading == CANCELLED:
        relation, updates = 3, []
    else:
        relation, updates = 0, shortest(context.planned(record.trip, record.day), record.reading)
        if all(reading == ABSENT for reading in record.reading):
            return b""
    trip_update = bytes_field(1, trip_descriptor(trip_id, record.day, relation))
    for stop, reading in updates:
        trip_update += bytes_field(2, stop_time_update(stop, reading))
    trip_update += number_field(4, record.at // NANOS)
    body = text_field(1, f"{compact_text(record.day)}:{trip_id}") + bytes_field(3, trip_update)
    return bytes_field(2, body)
