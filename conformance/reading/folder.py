"""A GTFS Schedule folder: its eight files, and the first fault of them."""

import re
from dataclasses import dataclass, field

from .files import TooLong
from .moments import read_compact_day

MOST_BYTES = 268_435_456
MOST_ID_BYTES = 200
MOST_ROWS_OF_A_TRIP = 250

WEEKDAYS = ("monday", "tuesday", "wednesday", "thursday", "friday", "saturday", "sunday")

# The columns that are read of each file, in their order, with their forms; and how many rows there may be.
FILES = {
    "agency.txt": ({"agency_timezone": "any"}, 10_000),
    "stops.txt": ({"stop_id": "id", "parent_station": "parent"}, 100_000),
    "routes.txt": ({"route_id": "id"}, 100_000),
    "trips.txt": ({"trip_id": "id", "route_id": "id", "service_id": "id"}, 200_000),
    "calendar.txt": (
        {"service_id": "id"}
        | {day: "flag" for day in WEEKDAYS}
        | {"start_date": "date", "end_date": "date"},
        200_000,
    ),
    "calendar_dates.txt": (
        {"service_id": "id", "date": "date", "exception_type": "exception"},
        4_000_000,
    ),
    "frequencies.txt": ({"trip_id": "id"}, 200_000),
    "stop_times.txt": (
        {
            "trip_id": "id",
            "stop_sequence": "sequence",
            "stop_id": "id",
            "arrival_time": "time",
            "departure_time": "time",
        },
        4_000_000,
    ),
}
OPTIONAL = ("calendar.txt", "calendar_dates.txt", "frequencies.txt")
OPTIONAL_COLUMNS = (("stops.txt", "parent_station"),)

# Which columns name something of an earlier file.
NAMES_OF = {
    ("trips.txt", "route_id"): "routes.txt",
    ("frequencies.txt", "trip_id"): "trips.txt",
    ("stop_times.txt", "trip_id"): "trips.txt",
    ("stop_times.txt", "stop_id"): "stops.txt",
}

# The columns whose values together may stand only once.
KEYS = {
    "stops.txt": ("stop_id",),
    "routes.txt": ("route_id",),
    "trips.txt": ("trip_id",),
    "calendar.txt": ("service_id",),
    "calendar_dates.txt": ("service_id", "date"),
    "stop_times.txt": ("trip_id", "stop_sequence"),
}


class FolderFault(Exception):
    """The first fault of the folder."""


class FileMissing(Exception):
    """A needed file isn't there; the path that was asked for."""


@dataclass
class StopTime:
    row: int
    id: str
    sequence: int
    arrival: int
    departure: int


@dataclass
class Trip:
    id: str
    route: str
    service: str
    stops: list = field(default_factory=list)


@dataclass
class Timetable:
    """Carried trips in the order of trips.txt, with their stops in rising sequence."""

    trips: list
    stop_ids: set
    stations: dict
    route_ids: set
    calendar: dict
    exceptions: dict

    def __post_init__(self):
        self.trip_numbers = {trip.id: i for i, trip in enumerate(self.trips)}

    def station_of(self, stop):
        """A stop's parent, or else the stop itself; a parent's own parent doesn't matter. None of an unknown id."""
        return self.stations.get(stop)

    def runs(self, trip, day):
        service = self.trips[trip].service
        exception = self.exceptions.get((service, day))
        if exception is not None:
            return exception == 1
        if service not in self.calendar:
            return False
        start, end, weekdays = self.calendar[service]
        return start <= day <= end and weekdays[day.weekday()]


def read_folder(files, folder):
    tables = {}
    for name in FILES:
        path = f"{folder}/{name}"
        try:
            data = files.read(path, MOST_BYTES)
        except TooLong:
            raise FolderFault(f"TooLong {name}") from None
        if data is None:
            if name not in OPTIONAL:
                raise FileMissing(path)
            if name == "calendar_dates.txt" and tables["calendar.txt"] is None:
                raise FileMissing(f"{folder}/calendar.txt")
            tables[name] = None
        else:
            tables[name] = read_table(name, data, tables)
    return timetable(tables)


# Comma separated values, as `csv` reads them.


def records(data):
    """The records: fields with commas, in quotes where they begin with one; CR, LF and CR LF end a record, and
    an empty line is none."""
    if data.startswith(b"\xef\xbb\xbf"):
        data = data[3:]
    fields, value, state = [], bytearray(), "record"
    for byte in data:
        if state == "quoted":
            if byte == 0x22:
                state = "quote"
            else:
                value.append(byte)
        elif state == "quote" and byte == 0x22:
            value.append(byte)
            state = "quoted"
        elif state == "record" and byte in b"\r\n":
            pass
        elif state in ("record", "start") and byte == 0x22:
            state = "quoted"
        elif byte == 0x2C:
            fields.append(bytes(value))
            value, state = bytearray(), "start"
        elif byte in b"\r\n":
            yield fields + [bytes(value)]
            fields, value, state = [], bytearray(), "record"
        else:
            value.append(byte)
            state = "field"
    if state != "record":
        yield fields + [bytes(value)]


def read_table(name, data, tables):
    """The values of the columns that are read, row by row; or the first fault."""
    forms, most_rows = FILES[name]
    rows = records(data)
    header = [column.strip(b" \t") for column in next(rows, [])]
    for column in forms:
        if column.encode() not in header and (name, column) not in OPTIONAL_COLUMNS:
            raise FolderFault(f"NoColumn {name} {column}")
    places = {column: header.index(column.encode()) for column in forms if column.encode() in header}
    table, seen, of_trips = [], set(), {}
    for number, row in enumerate(rows, 1):
        fields = {
            column: row[places[column]].strip(b" \t") if places.get(column, len(row)) < len(row) else b""
            for column in forms
        }
        values = read_row(name, number, fields, forms)
        limit_row(name, number, values, fields, most_rows, of_trips)
        if name == "agency.txt" and table and values != table[0]:
            raise FolderFault(f"Zones {number}")
        for column in forms:
            other = NAMES_OF.get((name, column))
            if other and values[column] not in ids_of(tables[other], other):
                raise FolderFault(f"Unknown {name} {number} {column}")
        if name in KEYS:
            key = tuple(values[column] for column in KEYS[name])
            if key in seen:
                raise FolderFault(f"Duplicate {name} {number}")
            seen.add(key)
        table.append(values)
    if name == "stops.txt":
        look_for_parents(table)
    return Table(table)


def look_for_parents(stops):
    """After all rows: the first whose parent is no stop of the file."""
    ids = {row["stop_id"] for row in stops}
    for number, row in enumerate(stops, 1):
        if row["parent_station"] and row["parent_station"] not in ids:
            raise FolderFault(f"Unknown stops.txt {number} parent_station")


class Table(list):
    """Rows, with the set of their ids once it is asked for."""

    ids = None


def ids_of(table, name):
    if table.ids is None:
        column = KEYS[name][0]
        table.ids = {row[column] for row in table}
    return table.ids


def read_row(name, number, fields, forms):
    texts = {}
    for column, data in fields.items():
        try:
            texts[column] = data.decode("utf-8")
        except UnicodeDecodeError:
            raise FolderFault(f"NotUtf8 {name} {number}") from None
    values = {}
    for column, form in forms.items():
        values[column] = FORMS[form](texts[column])
        if values[column] is None:
            raise FolderFault(f"BadField {name} {number} {column}")
    return values


def limit_row(name, number, values, fields, most_rows, of_trips):
    forms, _ = FILES[name]
    too_long = any(form in ("id", "parent") and len(fields[c]) > MOST_ID_BYTES for c, form in forms.items())
    if name == "stop_times.txt":
        of_trips[values["trip_id"]] = of_trips.get(values["trip_id"], 0) + 1
        too_long = too_long or of_trips[values["trip_id"]] > MOST_ROWS_OF_A_TRIP
    if too_long or number > most_rows:
        raise FolderFault(f"Limit {name} {number}")


# The forms of fields; None for another form.


def read_sequence(text):
    if not re.fullmatch(r"[0-9]{1,10}", text) or int(text) > 4_294_967_295:
        return None
    return int(text)


def read_time(text):
    """Seconds; an empty text is UNTIMED."""
    if text == "":
        return UNTIMED
    found = re.fullmatch(r"([0-9]{1,2}):([0-5][0-9]):([0-5][0-9])", text)
    if not found:
        return None
    hours, minutes, seconds = map(int, found.groups())
    return hours * 3600 + minutes * 60 + seconds


UNTIMED = -1
FORMS = {
    "any": lambda text: text,
    "id": lambda text: text or None,
    "parent": lambda text: text,
    "flag": lambda text: {"0": False, "1": True}.get(text),
    "exception": lambda text: {"1": 1, "2": 2}.get(text),
    "date": read_compact_day,
    "sequence": read_sequence,
    "time": read_time,
}


# What the files mean together.


def timetable(tables):
    not_carried = {row["trip_id"] for row in tables["frequencies.txt"] or []}
    trips = {
        row["trip_id"]: Trip(row["trip_id"], row["route_id"], row["service_id"])
        for row in tables["trips.txt"]
        if row["trip_id"] not in not_carried
    }
    for number, row in enumerate(tables["stop_times.txt"], 1):
        if row["trip_id"] in trips:
            one, other = row["arrival_time"], row["departure_time"]
            arrival = other if one == UNTIMED else one
            departure = one if other == UNTIMED else other
            stop = StopTime(number, row["stop_id"], row["stop_sequence"], arrival, departure)
            trips[row["trip_id"]].stops.append(stop)
    untimed_ends = []
    for trip in trips.values():
        trip.stops.sort(key=lambda stop: stop.sequence)
        ends = [stop for stop in trip.stops[:1] + trip.stops[-1:] if stop.arrival == UNTIMED]
        untimed_ends += [stop.row for stop in ends]
    if untimed_ends:
        raise FolderFault(f"UntimedEnd {min(untimed_ends)}")
    for trip in trips.values():
        fill_times(trip.stops)
    return Timetable(
        trips=list(trips.values()),
        stop_ids=ids_of(tables["stops.txt"], "stops.txt"),
        stations={row["stop_id"]: row["parent_station"] or row["stop_id"] for row in tables["stops.txt"]},
        route_ids=ids_of(tables["routes.txt"], "routes.txt"),
        calendar={
            row["service_id"]: (row["start_date"], row["end_date"], [row[day] for day in WEEKDAYS])
            for row in tables["calendar.txt"] or []
        },
        exceptions={
            (row["service_id"], row["date"]): row["exception_type"]
            for row in tables["calendar_dates.txt"] or []
        },
    )


def fill_times(stops):
    """An untimed stop gets both times from its nearest timed neighbours, in equal steps."""
    timed = [k for k, stop in enumerate(stops) if stop.arrival != UNTIMED]
    for i, j in zip(timed, timed[1:]):
        leaves, comes = stops[i].departure, stops[j].arrival
        for k in range(i + 1, j):
            stops[k].arrival = stops[k].departure = leaves + max(0, comes - leaves) * (k - i) // (j - i)
