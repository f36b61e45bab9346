"""The answers of the second reading, one function for each kind of question."""

from datetime import timedelta

from library_cases.answers import stop_text
from reading.feeds import MESSAGES, SCALARS, FeedFault, Reader, read_feed
from reading.files import CaseFiles
from reading.folder import read_folder
from reading.moments import day_text, is_moment, read_either_day, read_utc
from reading.propagation import readings_of
from reading.readings import CANCELLED, Context
from reading.shown import shown_lines, totals
from reading.wire import read_fields
from reading.written_feed import bytes_field, header, number_field, text_field, varint
from reading.written_siri import written_delivery
from reading.written_situations import situations_of, written_situations
from reading.zones import read_rule

from .words import bytes_of

FOLDER, ZONE, FIRST = "g", "CET-1CEST,M3.5.0,M10.5.0/3", "20240501"
DIFFERENTIAL = 1
MOST_BYTES = 4_096


class Question:
    """A question: its text, the bytes before those that it says, the files of the folder by their names, how many days
    the window has, and the moment behind the kind."""

    def __init__(self, text, front, folder, days, moment):
        self.text, self.front, self.folder, self.days, self.moment = text, front, folder, days, moment

    def bytes(self):
        return self.front + bytes_of(self.text)

    def context(self):
        days = [read_either_day(FIRST) + timedelta(days=number) for number in range(self.days)]
        return Context(read_folder(CaseFiles(self.folder), FOLDER), read_rule(ZONE), days)

    def at(self):
        return read_utc(self.moment)


# Numbers and fields.


def spelled(question):
    return [varint(int(question.text)).hex()]


def header_at(question):
    secs = int(question.text)
    return [header(secs).hex() if is_moment(secs) else "no moment"]


def fields_text(data):
    fields, broken = read_fields(data, 0, len(data))
    return f"fields {len(fields)}" if broken is None else "Wire {} {}".format(*broken)


def fields(question):
    return [fields_text(question.bytes())]


def fields_fronts(question):
    data = question.bytes()
    return changes([[fields_text(data[:end])] for end in range(len(data) + 1)])


def each_byte(question):
    return changes([[fields_text(bytes([byte]))] for byte in question.bytes()])


def changes(answers):
    """The answers that aren't the same as the one before, each with its number."""
    shown, before = [], None
    for number, lines in enumerate(answers):
        if lines != before:
            shown += [f"from {number} {lines[0]}", *lines[1:]]
        before = lines
    return shown


# Feeds.


def feed(question):
    return feed_lines(question.bytes())


def feed_fronts(question):
    data = question.bytes()
    return changes([feed_lines(data[:end]) for end in range(len(data) + 1)])


def feed_lines(data):
    try:
        return said(read_feed(data))
    except FeedFault as fault:
        return [str(fault), *plain_lines(data)]


class PlainReader(Reader):
    """The meaning of bytes, which knows no limit of an entity's length."""

    def long_entities(self, fields, broken):
        pass


def plain_lines(data):
    """What bytes with a fault mean, which is something only where an entity is too long."""
    reader = PlainReader(data)
    found = reader.message("FeedMessage", [(len(data), 0, len(data))])
    return [] if reader.faults else ["plain", *said(found)]


def said(found):
    """The header, and each entity as it is written."""
    head = found["header"]
    timestamp = "-" if head["timestamp"] is None else head["timestamp"]
    front = f"version {head['gtfs_realtime_version']} incrementality {head['incrementality']} timestamp {timestamp}"
    entities = (bytes_field(2, written("FeedEntity", entity)) for entity in found["entity"])
    return [front, *(f"entity {entity.hex()}" for entity in entities)]


# Fields that are left out where they have their default.
LEFT_OUT = {("FeedEntity", "is_deleted"), ("StopTimeUpdate", "schedule_relationship")}


def written(name, values):
    """A message with its fields in rising number."""
    out = b""
    for number, known in MESSAGES[name].items():
        value = values[known.name]
        if value is None or ((name, known.name) in LEFT_OUT and value == known.default):
            continue
        if known.kind == "StopTimeProperties" and value["assigned_stop_id"] is None:
            continue
        for one in value if known.repeated else [value]:
            out += written_field(number, known.kind, one)
    return out


def written_field(number, kind, value):
    if kind in SCALARS:
        return number_field(number, int(value))
    if kind == "text":
        return text_field(number, value)
    return bytes_field(number, written(kind, value))


# What feeds say over the folder.


def over_feed(answer):
    """The answer to a feed; to bytes that are none their fault."""

    def answered(question):
        try:
            found = read_feed(question.bytes())
        except FeedFault as fault:
            return [str(fault)]
        return answer(question, found)

    return answered


def readings(question, found):
    context = question.context()
    result = readings_of(found, context)
    return [journey_line(dated, context) for dated in result.journeys] + reported(
        result.taken, result.passed, result.aside
    )


def journey_line(dated, context):
    recorded = "-" if dated.recorded is None else dated.recorded
    front = f"{context.table.trips[dated.trip].id} {day_text(dated.day)} {recorded}"
    if dated.reading == CANCELLED:
        return f"{front} cancelled"
    stops = context.table.trips[dated.trip].stops
    return " ".join([front, *(stop_text(reading, stop.id, context) for reading, stop in zip(dated.reading, stops))])


def reported(taken, passed, aside):
    return [f"aside {index} {fault}" for index, fault in aside] + [totals(taken, passed, len(aside))]


def show(question, found):
    context = question.context()
    return shown_lines(readings_of(found, context), context).decode().split("\n")[:-1]


def to_siri(question, found):
    if found["header"]["incrementality"] == DIFFERENTIAL:
        return ["Differential"]
    context = question.context()
    result = readings_of(found, context)
    text = written_delivery(result, context, question.at())
    return reported(result.taken, result.passed, result.aside) + [text_line(text)]


def to_siri_sx(question, found):
    if found["header"]["incrementality"] == DIFFERENTIAL:
        return ["Differential"]
    elements, passed, aside = situations_of(found, question.context(), question.at())
    return reported(len(elements), passed, aside) + [text_line(written_situations(elements, question.at()))]


def text_line(text):
    """The line of bytes that are a text; of a long one its length and a sum."""
    if len(text) <= MOST_BYTES:
        return text.decode()
    total = 0
    for byte in text:
        total = (total * 31 + byte) % 2**32
    return f"{len(text)} bytes of sum {total}"


ANSWERS = {
    "varint": spelled,
    "header": header_at,
    "fields": fields,
    "fields-fronts": fields_fronts,
    "each-byte": each_byte,
    "feed": feed,
    "feed-fronts": feed_fronts,
    "readings": over_feed(readings),
    "show": over_feed(show),
    "to-siri": over_feed(to_siri),
    "to-siri-sx": over_feed(to_siri_sx),
}
