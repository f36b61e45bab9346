"""Cases at the very seconds at which a zone's clock changes: local times that are read, and dates and planned times."""

from datetime import date, timedelta

from reading.moments import moment_text
from reading.written_feed import bytes_field, number_field, text_field
from reading.zones import ZoneRefused, first_nano, read_rule, read_zone_file

from .case import Case
from .clocks import RULES, random_file, random_rule
from .json_cases import json_bytes

NANOS = 1_000_000_000
EARLIEST, LATEST = 86_400 * 400, 253_370_764_799 - 86_400 * 40
FOLDER = {
    "g/agency.txt": b"agency_timezone\n",
    "g/stops.txt": b"stop_id\nA\n",
    "g/routes.txt": b"route_id\nR\n",
    "g/trips.txt": b"trip_id,route_id,service_id\nT0,R,S\nT1,R,S\n",
    "g/calendar.txt": b"service_id,monday,tuesday,wednesday,thursday,friday,saturday,sunday,start_date,end_date\n"
    b"S,1,1,1,1,1,1,1,19700101,99991231\n",
    "g/calendar_dates.txt": b"service_id,date,exception_type\n",
    "g/stop_times.txt": b"trip_id,stop_sequence,stop_id,arrival_time,departure_time\n"
    b"T0,1,A,0:00:00,0:00:00\nT1,1,A,0:00:00,0:00:00\n",
}


def zone_with_edges(dice):
    """Words of a zone, its files, the zone, and seconds at which its clock may change."""
    if dice.one_in(4):
        data, _ = random_file(dice)
        try:
            zone = read_zone_file(data)
        except ZoneRefused:
            return zone_with_edges(dice)
        edges = [row.second for row in zone.rows] + [1_711_846_800]
        rule, year = zone.rule, 2024
        words, files = ["--zone-file", "zone"], {"zone": data}
    else:
        text = dice.choice(RULES)[0] if dice.one_in(2) else random_rule(dice)
        zone = rule = read_rule(text)
        year = dice.choice((1972, 2023, 2024, 2025, 2100, 9996))
        edges = [first_nano(year) // NANOS, first_nano(year + 1) // NANOS]
        words, files = ["--zone-rule", text], {}
    if rule and rule.dst_name:
        edges += [nanos // NANOS for nanos in rule.utc_window(year)]
    return words, files, zone, [edge for edge in edges if EARLIEST < edge < LATEST] or [1_711_846_800]


def edge_case(dice, command):
    words, files, zone, edges = zone_with_edges(dice)
    offsets = sorted({zone.offset_at(edge + step) for edge in edges for step in (-1, 0)})
    if command == "to-gtfsrt":
        return recorded_case(dice, words, files, edges, offsets)
    return feed_case(dice, command, words, files, edges, offsets)


def scope(command, zone, first, days, at):
    words = [command, "--gtfs", "g", *zone, "--from", str(first), "--days", str(days)]
    return words + (["--at", "2024-05-01T06:00:00Z"] if at else [])


def day_before(seconds, days):
    return date(1970, 1, 1) + timedelta(days=seconds // 86_400 - days)


def recorded_case(dice, zone, files, edges, offsets):
    """Cancelled journeys, each recorded at a local time round an edge."""
    steps = (-3601, -3600, -1, 0, 1, 3599, 3600, 7200)
    clocks = sorted({edge + offset + step for edge in edges for offset in offsets for step in steps})
    first = day_before(dice.choice(edges), 1)
    items = []
    for i, seconds in enumerate(dice.sample(clocks, min(64, len(clocks)))):
        day = first + timedelta(days=i % 32)
        named = {"DataFrameRef": str(day), "DatedVehicleJourneyRef": f"T{i // 32}"}
        recorded = moment_text(seconds)[:-1] + dice.choice(("", ".5", ".999999998"))
        items.append({"RecordedAtTime": recorded, "Cancellation": True, "FramedVehicleJourneyRef": named})
    frame = {"EstimatedJourneyVersionFrame": {"EstimatedVehicleJourney": items}}
    body = json_bytes({"ServiceDelivery": {"EstimatedTimetableDelivery": frame}})
    words = scope("to-gtfsrt", zone, first, 32, True) + ["--et", "d.json"]
    return Case([word.encode() for word in words], FOLDER | files | {"d.json": body})


def feed_case(dice, command, zone, files, edges, offsets):
    """A trip without a start date, by a timestamp round an edge or a local midnight; and planned times round it."""
    stamps = [edge + step for edge in edges for step in (-1, 0, 1)]
    for edge in edges:
        for offset in offsets:
            midnight = (edge + offset) // 86_400 * 86_400 - offset
            stamps += [midnight + step for step in (-1, 0, 86_399, 86_400)]
    stamp = dice.choice(stamps)
    first = day_before(stamp, 2)
    trips = [text_field(1, "T0")]
    for n in range(5):
        compact = str(first + timedelta(days=n)).replace("-", "")
        trips.append(text_field(1, "T1") + text_field(3, compact))
    entities = [text_field(1, "e") + bytes_field(3, bytes_field(1, trip)) for trip in trips]
    header = bytes_field(1, text_field(1, "2.0") + number_field(3, stamp))
    feed = header + b"".join(bytes_field(2, entity) for entity in entities)
    words = scope(command, zone, first, 5, command == "to-siri") + ["--feed", "feed.pb"]
    return Case([word.encode() for word in words], FOLDER | files | {"feed.pb": feed})
