"""Folders with a zone and a window: small, odd, most of them without a fault."""

from dataclasses import dataclass, field
from datetime import date, timedelta

from .clocks import random_zone
from .odd import broken_bytes
from .stations import random_stations

STOPS = ["A", "B", "C", "D", "E", "F", "G-1", "\u00d6st", "s p", 'q"q', "c,c", "1", "null"]
STOPS += ["\u0001\u001f\u007f\u0080", "a\\b/\b\f\n\r\tz", "\u2028\U0001f68b", "y" * 200, "\u00e9" * 64]
WEEKDAYS = ["monday", "tuesday", "wednesday", "thursday", "friday", "saturday", "sunday"]


@dataclass
class TripRow:
    id: str
    route: str
    service: str
    stops: list  # of (sequence, stop, arrival, departure), texts of times


@dataclass
class World:
    zone: list
    first: date
    days: int
    files: dict
    trips: list
    carried: list
    routes: list
    stops: list
    folder: str = "g"
    days_text: str = None
    window: list = field(default_factory=list)
    clock_days: list = field(default_factory=list)  # days on which the zone's clock may change
    stations: object = None  # where stops have parents

    def words(self, command, at=None):
        words = [command, "--gtfs", self.folder, *self.zone, "--from", str(self.first)]
        words += ["--days", self.days_text or str(self.days)]
        return words if at is None else words + ["--at", at]


def clock(seconds):
    hours = seconds // 3600
    text = f"{hours:02}:{seconds // 60 % 60:02}:{seconds % 60:02}"
    return text


def random_stops(dice, pool, untimed, count=None):
    """A trip's stops: lines, loops, a stop twice in a row; times that rise, mostly; some of them untimed."""
    count = count or dice.choice((1, 2, 2, 3, 3, 3, 4, 4, 5, 8, 30))
    kind = dice.randrange(4)
    if kind == 0:
        names = [pool[i % len(pool)] for i in range(count)]
    elif kind == 1:
        few = dice.sample(pool, min(2, len(pool)))
        names = [dice.choice(few) for _ in range(count)]
    else:
        names = [dice.choice(pool) for _ in range(count)]
    sequence, seconds = dice.choice((0, 1, 1, 5, 4294967250)), dice.choice((0, 5, 8, 12, 23, 27, 90)) * 3600
    rows = []
    for k, name in enumerate(names):
        arrival = seconds + dice.choice((0, 0, 0, 37))
        departure = arrival + dice.choice((0, 0, 60, 59, 1800, -30))
        texts = [clock(max(0, min(arrival, 359999))), clock(max(0, min(departure, 359999)))]
        if texts[0].startswith("0") and dice.one_in(3):
            texts[0] = texts[0][1:]
        if dice.one_in(5):
            texts[dice.randrange(2)] = ""
        if untimed and 0 < k < len(names) - 1 and dice.one_in(2):
            texts = ["", ""]
        if k in (0, len(names) - 1) and dice.one_in(200):
            texts = ["", ""]
        rows.append((sequence, name, *texts))
        sequence += dice.choice((1, 1, 1, 2, 10)) if sequence < 4294967000 else 1
        seconds += dice.choice((60, 120, 125, 600, 3601, -50, 0))
        seconds = max(0, seconds)
    return rows


def random_world(dice, clock_days=None):
    """A world round days on which its zone's clock may change, or round the days that are given."""
    zone, files, days = random_zone(dice)
    days = clock_days or days
    first = date.fromisoformat(dice.choice(days))
    count = dice.choice((1, 1, 2, 2, 3, 32))
    first -= timedelta(days=dice.choice((0, 0, 0, 1, 1, 2)))
    first = max(date(1971, 1, 1), min(first, date(9997, 12, 31) - timedelta(days=count - 1)))
    pool = dice.sample(STOPS, dice.randint(1, 5))
    stations = random_stations(dice, pool)
    names = list(stations.parents) if stations else pool
    called = pool if stations is None or stations.is_long or dice.one_in(2) else names
    called = pool[:1] if stations and stations.is_long else called
    routes = ["R1", "R2", "\u00e9", 'r"\\\u0003'][: dice.randint(1, 4)]
    services = random_services(dice, first)
    trips = []
    for i in range(dice.choice((1, 1, 2, 3, 4))):
        name = dice.choice(("T", "T", "T", "t", "0", "\u00fc", "\u0002\"\\", "z" * 130)) + str(i)
        service = dice.choice([*services, "S0", "S0"])
        length = dice.randint(21, 30) if stations and stations.is_long else None
        stops = [] if dice.one_in(12) else random_stops(dice, called, dice.one_in(2), length)
        trips.append(TripRow(name, dice.choice(routes), service, stops))
    frequencies = [trip.id for trip in trips if dice.one_in(10)]
    files |= folder_files(dice, trips, names, routes, services, frequencies, stations)
    carried = [trip for trip in trips if trip.id not in frequencies]
    window = [first + timedelta(days=n) for n in range(count)]
    clock_days = [*days, str(first)]
    world = World(zone, first, count, files, trips, carried, routes, names, window=window, clock_days=clock_days,
        stations=stations)
    if dice.one_in(20):
        world.folder = dice.choice(("g/", "./g", "g//", "./g/."))
    if dice.one_in(20):
        world.days_text = dice.choice(("0" * 8, "0")) + str(count)
    return world


def random_services(dice, first):
    """From names to a calendar row (or None) and exceptions; one that runs all the time among them."""
    services = {"S0": (["1"] * 7, date(1971, 1, 1), date(9998, 12, 31), [])}
    for i in range(1, dice.randint(1, 3)):
        flags = [dice.choice("0111") for _ in range(7)]
        start = first + timedelta(days=dice.choice((-40, -1, 0, 0, 1)))
        end = first + timedelta(days=dice.choice((-1, 0, 0, 1, 40)))
        days = [first + timedelta(days=n) for n in dice.sample(range(-1, 3), dice.randint(0, 2))]
        exceptions = [(day, dice.choice("12")) for day in days if day >= date(1971, 1, 1)]
        row = None if dice.one_in(4) else (flags, start, end)
        services[f"S{i}"] = (*(row or (None, None, None)), exceptions)
    return services


def compact(day):
    return f"{day.year:04}{day.month:02}{day.day:02}"


def folder_files(dice, trips, stops, routes, services, frequencies, stations=None):
    calendar, exceptions = [], []
    for name, (flags, start, end, days) in services.items():
        if flags:
            calendar.append([name, *flags, compact(start), compact(end)])
        exceptions += [[name, compact(day), kind] for day, kind in days]
    times = [[trip.id, str(s), stop, a, d] for trip in trips for s, stop, a, d in trip.stops]
    if dice.one_in(3):
        dice.shuffle(times)
    tables = {
        "agency.txt": (["agency_timezone"], [["Europe/Paris"]] * dice.choice((0, 1, 1, 2))),
        "stops.txt": stop_table(dice, stops, stations),
        "routes.txt": (["route_id"], [[route] for route in routes]),
        "trips.txt": (
            ["trip_id", "route_id", "service_id"],
            [[trip.id, trip.route, trip.service] for trip in trips],
        ),
        "calendar.txt": (["service_id", *WEEKDAYS, "start_date", "end_date"], calendar),
        "calendar_dates.txt": (["service_id", "date", "exception_type"], exceptions),
        "frequencies.txt": (["trip_id"], [[trip] for trip in frequencies]),
        "stop_times.txt": (
            ["trip_id", "stop_sequence", "stop_id", "arrival_time", "departure_time"],
            times,
        ),
    }
    files = {}
    for name, (columns, rows) in tables.items():
        if name in ("calendar_dates.txt", "frequencies.txt") and not rows and dice.one_in(2):
            continue
        files[f"g/{name}"] = csv_text(dice, columns, rows)
    return files


def stop_table(dice, stops, stations):
    """The stops, with their parents where they have any; a parent may stand before or after its stops."""
    if stations is None:
        return (["stop_id"], [[stop] for stop in stops]) if not dice.one_in(12) else (
            ["stop_id", "parent_station"], [[stop, ""] for stop in stops])
    rows = [[name, stations.parents[name]] for name in stops]
    if dice.one_in(3):
        dice.shuffle(rows)
    return ["stop_id", "parent_station"], rows


def csv_text(dice, columns, rows):
    """Columns in any order, with others among them; quotes, blanks, CR, LF, blank lines, a mark."""
    plain = not dice.one_in(4)
    order = list(range(len(columns)))
    names = list(columns)
    if not plain or dice.one_in(3):
        dice.shuffle(order)
    extra = None if plain or dice.one_in(2) else dice.randint(0, len(order))
    again = not plain and dice.one_in(4)
    end = "\n" if plain else dice.choice(("\n", "\r\n", "\r", "\n\n", "\r\n\n"))

    def line(fields, filler, repeats):
        out = [cell(dice, fields[i], plain) for i in order]
        if extra is not None:
            out.insert(extra, filler)
        if again:
            out.append(repeats)
        return ",".join(out)

    lines = [line(names, dice.choice(("other", "", '"a\nb"')), columns[0])]
    for row in rows:
        text = line(row, dice.choice(("x", '"x,\ny"', "")), "zzz")
        lines.append(text + dice.choice(("", ",,more")) if not plain and dice.one_in(5) else text)
    text = end.join(lines) + dice.choice((end, end, ""))
    mark = b"" if plain or dice.one_in(2) else b"\xef\xbb\xbf"
    return mark + text.encode()


def cell(dice, text, plain):
    if any(mark in text for mark in '",\n\r') or (not plain and dice.one_in(3)):
        text = '"' + text.replace('"', '""') + '"'
    elif not plain and dice.one_in(4):
        text = dice.choice((" ", "\t", "  ")) + text + dice.choice((" ", "\t", ""))
    return text


# Faults of folders.

ODD_FIELDS = [
    "", " ", "0", "1", "2", "-1", "007", "4294967295", "4294967296", "00000000001", "0000000001", "8:1:00",
    "08:00:60", "8:00:00",
    "123:00:00", "99:59:59", "08:60:00", "08:00", "20240229", "20230229", "00000101", "00010101", "99991231",
    "2024-05-01", "20241301",
    "A", "T0", "R1", "S0", "S1", "nowhere", "x" * 200, "x" * 201, "\u00e9" * 100, "\u00e9" * 100 + "x", '"',
    '""', "a\tb", "+1", "1.0", "\u0661",
]


def faulty_folder(dice, world):
    """One or two things in the folder's files changed, so that mostly there is a fault."""
    for _ in range(dice.choice((1, 1, 2))):
        names = sorted(name for name in world.files if name.startswith("g/"))
        name = dice.choice(names)
        kind = dice.weighted(field=8, gone=1, rows=3, header=2, bytes=3, text=1, folder=0.2, long=0.3)
        if kind == "gone":
            del world.files[name]
        elif kind == "field":
            change_lines(dice, world, name, odd_field)
        elif kind == "rows":
            change_lines(dice, world, name, odd_rows)
        elif kind == "header":
            change_lines(dice, world, name, odd_header)
        elif kind == "bytes":
            world.files[name] = broken_bytes(dice, world.files[name])
        elif kind == "text":
            world.files[name] = dice.choice((b"", b"\n\n", b"\xef\xbb\xbf", b"\xff\n", b'"', b"\r",
                b"a,b\n1,2\n"))
        elif kind == "folder":
            del world.files[name]
            world.files[name + "/x"] = b""
        else:
            long_trip(dice, world)
    return world


TIMES = [
    "", "8:00:00", "08:00:00", "123:00:00", "100:00:00", "99:59:59", "08:60:00", "08:00:60", "8:1:00", "08:00",
    "8:00:0", ":00:00", "-1:00:00",
    "08:00:00.0", "008:00:00", "0:00:00", "24:00:00", "08-00-00", "8 :00:00",
]
DATES = ["20240229", "20230229", "00000101", "00010101", "99991231", "2024-05-01", "20241301", "2024051",
    "202405011", "20240500", ""]
IDS = ["", "x" * 200, "x" * 201, "\u00e9" * 100, "\u00e9" * 100 + "x", "nowhere", "A", "T0", "R1", "S0", '""',
    "a b", "\ta\u00a0"]
FLAGS = ["", "0", "1", "2", "00", "01", "true", "-1"]
BY_COLUMN = {
    "stop_sequence": ["", "0", "7", "007", "0000000007", "00000000007", "4294967295", "4294967296",
    "9999999999", "-1", "+1", "1.0", " 1"],
    "arrival_time": TIMES, "departure_time": TIMES, "date": DATES, "start_date": DATES, "end_date": DATES,
    "exception_type": ["", "0", "1", "2", "3", "01"],
    "agency_timezone": ["", "Europe/Paris", "Europe/Rome", "europe/paris"],
    "trip_id": IDS, "stop_id": IDS, "parent_station": IDS, "route_id": IDS, "service_id": IDS,
}
BY_COLUMN |= {day: FLAGS for day in WEEKDAYS}


def change_lines(dice, world, name, change):
    lines = world.files[name].split(b"\n")
    world.files[name] = b"\n".join(change(dice, lines))


def odd_field(dice, lines):
    if len(lines) > 1:
        i = dice.randrange(1, len(lines))
        fields = lines[i].split(b",")
        place = dice.randrange(len(fields))
        header = lines[0].removeprefix(b"\xef\xbb\xbf").decode(errors="replace")
        columns = [name.strip(' \t"') for name in header.split(",")]
        values = BY_COLUMN.get(columns[place]) if place < len(columns) else None
        odd = dice.choice(values if values and not dice.one_in(4) else ODD_FIELDS).encode()
        if dice.one_in(8):
            odd = dice.choice((b"\xff", b"a\xc3", b"\xed\xa0\x80", b"\xf4\x90\x80\x80", b"\xc0\x80"))
        fields[place] = odd
        lines[i] = b",".join(fields[: dice.choice((len(fields), len(fields), len(fields) - 1))])
    return lines


def odd_rows(dice, lines):
    """A row twice, moved, taken out or cut."""
    i = dice.randrange(len(lines))
    row = lines.pop(i)
    kind = dice.randrange(4)
    if kind == 0:
        lines.insert(i, row)
        lines.insert(dice.randint(min(1, len(lines)), len(lines)), row)
    elif kind == 1:
        lines.insert(dice.randint(0, len(lines)), row)
    elif kind == 2:
        lines.insert(i, b",".join(row.split(b",")[: dice.randint(0, 3)]))
    return lines


def odd_header(dice, lines):
    names = lines[0].split(b",")
    i = dice.randrange(len(names))
    odd = (b"", b"x", names[i].upper(), names[i] + b"\xff", b" " + names[i] + b"\t", b'"' + names[i] + b'"',
        names[0])
    names[i] = dice.choice(odd)
    if dice.one_in(3):
        names.append(names[i])
    lines[0] = b",".join(names)
    return lines


def long_trip(dice, world):
    """A trip of 250 or 251 rows, or one over, in one order or another."""
    count = dice.choice((249, 250, 251, 252))
    rows = [f"{world.trips[0].id},{i},{world.stops[0].replace(',', '')},8:00:00,8:00:00" for i in range(count)]
    if dice.one_in(3):
        rows[dice.randrange(count)] = rows[0]
    header = "trip_id,stop_sequence,stop_id,arrival_time,departure_time"
    world.files["g/stop_times.txt"] = "\n".join([header, *rows]).encode()
