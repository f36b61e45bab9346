"""What `make` makes of a seed, a number of trips and a number of stops: a folder, deliveries, and the line of counts on
what becomes of them."""

from datetime import date

from .deliveries import read_delivery
from .feeds import read_feed
from .files import CaseFiles
from .folder import FILES, OPTIONAL_COLUMNS, read_folder
from .moments import day_number, moment_text
from .propagation import readings_of
from .readings import ABSENT, CANCELLED, SKIPPED, Context
from .written_feed import header, journey_entity
from .zones import read_rule

DAY = date(2024, 5, 1)
START = day_number(DAY) * 86_400  # of that day, in the zone UTC0
TRIPS_OF_A_DELIVERY = 100


# The folder.


def made_folder(trips, stops):
    """The six files by name. The first line of each names the columns that have to be there, in their order."""
    rows = {
        "agency.txt": [["UTC"]],
        "stops.txt": [[stop_id(k)] for k in stop_numbers(stops)],
        "routes.txt": [["R"]],
        "trips.txt": [[trip_id(i), "R", "S"] for i in range(trips)],
        "calendar.txt": [["S", *7 * ["1"], "20240101", "20241231"]],
        "stop_times.txt": [
            [trip_id(i), str(k), stop_id(k), *2 * [clock_text(planned(i, k))]]
            for i in range(trips)
            for k in stop_numbers(stops)
        ],
    }
    return {name: table_text([columns_of(name), *lines]) for name, lines in rows.items()}


def columns_of(name):
    return [column for column in FILES[name][0] if (name, column) not in OPTIONAL_COLUMNS]


def table_text(lines):
    return "".join(",".join(fields) + "\n" for fields in lines).encode()


def stop_numbers(stops):
    return range(1, stops + 1)


def trip_id(i):
    return f"G{i}"


def stop_id(k):
    return f"P{k}"


def planned(i, k):
    """When trip i is at stop k, in seconds of the service day: arrival and departure are the same."""
    return 21_600 + i % 600 * 60 + (k - 1) * 120


def clock_text(second):
    return f"{second // 3600:02}:{second // 60 % 60:02}:{second % 60:02}"


# The deliveries.


def draws(seed):
    """The numbers that are drawn one after the other, without an end."""
    x = seed
    while True:
        x = (x * 1_103_515_245 + 12_345) % 2_147_483_648
        yield x // 65_536


def made_deliveries(seed, trips, stops):
    """The bodies, each with the journeys of 100 trips, the last one with those of the rest."""
    numbers = draws(seed)
    journeys = [journey(i, made_calls(i, stops, numbers)) for i in range(trips)]
    return [
        delivery(journeys[first : first + TRIPS_OF_A_DELIVERY])
        for first in range(0, trips, TRIPS_OF_A_DELIVERY)
    ]


def made_calls(i, stops, numbers):
    """The calls of a trip. Each stop takes a number, and a second one where the first sets a new delay."""
    calls, delay = [], 0
    for k in stop_numbers(stops):
        kind = next(numbers) % 16
        if kind == 0:
            calls.append('{"Cancellation":true,' + stop_members(k))
        elif kind > 1:
            if kind < 6:
                delay = next(numbers) % 601 - 60
            time = moment_text(START + planned(i, k) + delay)
            calls.append(
                f'{{"ExpectedArrivalTime":"{time}","ExpectedDepartureTime":"{time}",' + stop_members(k)
            )
    return calls


def stop_members(k):
    return f'"Order":{k},"StopPointRef":"{stop_id(k)}"}}'


def journey(i, calls):
    return (
        '{"EstimatedCalls":{"EstimatedCall":[' + ",".join(calls) + "]},"
        '"FramedVehicleJourneyRef":{"DataFrameRef":"2024-05-01",'
        f'"DatedVehicleJourneyRef":"{trip_id(i)}"}},'
        '"RecordedAtTime":"2024-05-01T00:00:00Z"}'
    )


def delivery(journeys):
    return (
        '{"ServiceDelivery":{"EstimatedTimetableDelivery":[{"EstimatedJourneyVersionFrame":['
        '{"EstimatedVehicleJourney":[' + ",".join(journeys) + "]}]}]}}"
    ).encode()


# The line.


def made_line(seed, trips, stops):
    """How the stops of all trips read by the feed that the deliveries make, with its updates and its bytes."""
    files = {f"made/{name}": data for name, data in made_folder(trips, stops).items()}
    context = Context(read_folder(CaseFiles(files), "made"), read_rule("UTC0"), [DAY])
    data = made_feed(made_deliveries(seed, trips, stops), context)
    feed = read_feed(data)
    skipped, absent, timed = counts(readings_of(feed, context).journeys, trips, stops)
    updates = sum(len(entity["trip_update"]["stop_time_update"]) for entity in feed["entity"])
    return (
        f"trips {trips} stops {stops} skipped {skipped} absent {absent} timed {timed}"
        f" updates {updates} bytes {len(data)}\n"
    ).encode()


def made_feed(bodies, context):
    """No trip comes twice, and no journey is set aside."""
    records = [record for body in bodies for record in read_delivery(body, context)]
    records.sort(key=lambda record: (record.day, record.trip))
    return header(START) + b"".join(journey_entity(record, context) for record in records)


def counts(journeys, trips, stops):
    """How many stops are skipped, read nothing, and have times. A trip that the feed doesn't name reads nothing."""
    told = [
        reading
        for one in journeys
        for reading in (stops * [SKIPPED] if one.reading == CANCELLED else one.reading)
    ]
    skipped, absent = told.count(SKIPPED), told.count(ABSENT)
    return skipped, trips * stops - len(told) + absent, len(told) - skipped - absent
