"""The answers of the second reading, one function for each kind of question."""

from datetime import timedelta

from reading.deliveries import Aside, Call, NotDelivery, match_call, read_delivery
from reading.files import NotReadable
from reading.folder import FileMissing, FolderFault, read_folder
from reading.json_text import NotJson, read_json
from reading.moments import (
    NANOS,
    compact_text,
    day_number,
    day_start,
    day_text,
    is_moment,
    local_day,
    moment_text,
    read_compact_day,
    read_either_day,
    read_moment,
    read_utc,
)
from reading.propagation import DatedReading, FeedReading, match_update
from reading.readings import ABSENT, CANCELLED, SKIPPED
from reading.situations import read_situations
from reading.written_siri import written_delivery
from reading.zones import ZoneRefused, read_rule, read_zone_file
from top_cases.content import shown

from .given import FOLDER

MOST_TRIPS = 1_000


def text_of(question):
    return question.decode()


def words_of(question):
    return text_of(question).split(" ")


# Deliveries.


def delivery(given, body):
    context = given.context()
    try:
        records = read_delivery(body, context)
    except NotDelivery as fault:
        return [str(fault)]
    lines = [record_line(record, context) for record in records]
    return lines + [f"passed {sum(record.extra_calls for record in records if not isinstance(record, str))}"]


def record_line(record, context):
    if isinstance(record, str):
        return f"aside {record}"
    secs, nanos = divmod(record.at, NANOS)
    front = f"taken {context.table.trips[record.trip].id} {day_text(record.day)} {secs}.{nanos}"
    if record.reading == CANCELLED:
        return f"{front} cancelled"
    stops = context.table.trips[record.trip].stops
    return " ".join([front, *(stop_text(reading, stop.id, context) for reading, stop in zip(record.reading, stops))])


def stop_text(reading, stop, context):
    """How a stop reads; a place that isn't the scheduled stop stands behind its times, by its place in the file."""
    if reading in (ABSENT, SKIPPED):
        return {ABSENT: "-", SKIPPED: "x"}[reading]
    place = "" if reading.place == stop else f"@{list(context.table.stations).index(reading.place)}"
    return f"{reading.arrival}/{reading.departure}{place}"


def written(given, body):
    """The delivery of the last journey that is taken; one recorded in 1970 has no moment of recording."""
    context, moment = given.context(), read_utc(given.of)
    items = read_delivery(body, context)
    last = items[-1] if items else None
    journeys = []
    if last is not None and not isinstance(last, str):
        secs = last.at // NANOS
        journeys = [DatedReading(last.trip, last.day, secs or None, last.reading)]
    return shown(written_delivery(FeedReading(journeys), context, moment))


def situations(given, body):
    context = given.context()
    numbers = {
        "LineRef": ("route", given.numbers("routes.txt", "route_id")),
        "StopPointRef": ("stop", given.numbers("stops.txt", "stop_id")),
    }
    try:
        verdicts = read_situations(body, context)
    except NotDelivery as fault:
        return [str(fault)]
    lines = [line for one in verdicts for line in situation_lines(one, numbers)]
    return lines + [f"passed {sum(one.unknown_references for one in verdicts if not isinstance(one, str))}"]


def situation_lines(one, numbers):
    if isinstance(one, str):
        return [f"aside {one}"]
    lines = [f"taken {one.number} version {one.version} cause {one.cause} effect {one.effect}"]
    if not one.is_served:
        lines.append("not served")
    lines += [f"from {end_text(start)} to {end_text(end)}" for start, end in one.periods]
    lines += [reference_line(reference, numbers) for reference in one.references]
    if one.summary is not None:
        lines.append(f"summary {one.summary}")
    if one.description is not None:
        lines.append(f"description {one.description}")
    return lines


def end_text(end):
    return "-" if end is None else str(end)


def reference_line(reference, numbers):
    if reference.day is not None:
        return f"trip {reference.id} on {day_text(reference.day)}"
    name, number_of = numbers[reference.kind]
    return f"{name} {number_of[reference.id]}"


# JSON.


def json(_, body):
    """The whole number under `a`."""
    try:
        tree = read_json(body)
    except NotJson:
        return ["NotJson"]
    value = tree.get("a") if isinstance(tree, dict) else None
    is_whole = isinstance(value, int) and not isinstance(value, bool) and value >= 0
    return [f"a {value}" if is_whole else "none"]


# The folder.


def folder(given, question):
    if given.of:
        given.by_name[given.of] = question
    files = given.files()
    try:
        table = read_folder(files, FOLDER)
    except FolderFault as fault:
        return [str(fault)]
    except FileMissing as missing:
        return [f"Missing {name_of(str(missing))}"]
    except NotReadable:
        return [f"Failed {name_of(files.last)}"]
    if len(table.trips) > MOST_TRIPS:
        return [f"trips {len(table.trips)}"]
    stops, days = given.numbers("stops.txt", "stop_id"), given.days()
    return [line for number in range(len(table.trips)) for line in trip_lines(table, number, stops, days)]


def name_of(path):
    return path.rpartition("/")[2]


def trip_lines(table, number, stops, days):
    trip = table.trips[number]
    runs = "".join(f" {compact_text(day)}" for day in days if table.runs(number, day))
    return [f"trip {trip.id} of {trip.route}, runs{runs or ' never'}"] + [
        f"{stop.sequence} stop {stops[stop.id]} {stop.arrival} {stop.departure}" for stop in trip.stops
    ]


def find(given, question):
    table = given.table()
    kind, _, name = text_of(question).partition(" ")
    ids = {"stop": table.stop_ids, "route": table.route_ids, "trip": table.trip_numbers}[kind]
    return [name if name in ids else "none"]


def runs(given, question):
    table = given.table()
    trip, day = words_of(question)
    number, day = table.trip_numbers.get(trip), read_compact_day(day)
    if number is None or day is None:
        return ["none"]
    return ["runs" if table.runs(number, day) else "rests"]


# Calls and updates that are matched to the stops of a trip.


def number_or_none(word):
    return None if word == "-" else int(word)


def stops_of(given, trip):
    context = given.context()
    return context.planned(context.table.trip_numbers[trip], given.days()[0])


def call(given, question):
    """TRIP, the place of the call before, STOP, ORDER."""
    trip, after, stop, order = words_of(question)
    after = number_or_none(after)
    one = Call(0, False, stop, number_or_none(order))
    station = given.table().station_of(stop)
    found = match_call(one, stops_of(given, trip), station, -1 if after is None else after)
    return ["none" if found is None else f"place {found}"]


def update(given, question):
    """TRIP, the place of the update before, SEQUENCE, STOP, and maybe the stop that is assigned."""
    trip, after, sequence, stop, *assigned = words_of(question)
    after = number_or_none(after)
    one = {
        "stop_sequence": number_or_none(sequence),
        "stop_id": None if stop == "-" else stop,
        "stop_time_properties": {"assigned_stop_id": assigned[0]} if assigned else None,
    }
    try:
        found = match_update(stops_of(given, trip), 0, one, -1 if after is None else after)
    except Aside as fault:
        return [str(fault).split(" ")[0]]
    return [f"place {found}"]


# Days, moments and zones.


def day(_, question):
    text = text_of(question)
    found, compact = read_either_day(text), read_compact_day(text)
    if found is None:
        return ["no day"]
    form = "dashed" if compact is None else "compact"
    return [f"{form} {day_number(found)} weekday {found.weekday()} {day_text(found)} {compact_text(found)}"]


def later(_, question):
    first, days = words_of(question)
    try:
        return [day_text(read_either_day(first) + timedelta(days=int(days)))]
    except OverflowError:
        return ["no day"]


def seconds(_, question):
    secs = int(text_of(question))
    return [moment_text(secs) if is_moment(secs) else "no moment"]


def utc(_, question):
    secs = read_utc(text_of(question))
    return ["no moment" if secs is None else f"{secs} {moment_text(secs)}"]


def moment(given, question):
    nanos = read_moment(text_of(question), given.zone())
    return ["no moment" if nanos is None else "{}.{}".format(*divmod(nanos, NANOS))]


FIRST_SERVICE_DAY, LAST_SERVICE_DAY = 365, 2_932_166


def start(given, question):
    """When a service day starts in the zone, and in the window."""
    one = read_either_day(text_of(question))
    is_service_day = FIRST_SERVICE_DAY <= day_number(one) <= LAST_SERVICE_DAY
    starts = str(day_start(given.zone(), one)) if is_service_day else "-"
    return [f"{starts} {starts if one in given.days() else '-'}"]


def date(given, question):
    secs = int(text_of(question))
    return [day_text(local_day(given.zone(), secs)) if is_moment(secs) else "no moment"]


def zone(_, question):
    return [is_read(read_rule, text_of(question))]


def zone_file(_, question):
    return [is_read(read_zone_file, question)]


def zone_fronts(_, question):
    """What each front of a zone's file is, and the file."""
    told = [is_read(read_zone_file, question[:end]) for end in range(len(question) + 1)]
    lines = []
    for number, one in enumerate(told):
        if number == 0 or told[number - 1] != one:
            lines.append(f"from {number} {one}")
    return lines


def is_read(read, given):
    try:
        read(given)
    except ZoneRefused:
        return "refused"
    return "read"


ANSWERS = {
    "delivery": delivery,
    "written": written,
    "situations": situations,
    "json": json,
    "folder": folder,
    "find": find,
    "runs": runs,
    "call": call,
    "update": update,
    "day": day,
    "later": later,
    "seconds": seconds,
    "utc": utc,
    "moment": moment,
    "start": start,
    "date": date,
    "zone": zone,
    "zone-file": zone_file,
    "zone-fronts": zone_fronts,
}
