#!/usr/bin/env python3
"""Makes the inputs of bench/compare and bench/alerts, each in a folder of its own:

    bench/inputs.py FOLDER [NAME..]

| Name | What it holds |
|---|---|
| `rows-500000`, `rows-2000000` | a folder of so many stop times, of each ten trips one with its rows out of order and every fourth row in quotes; a delivery without journeys |
| `cancelled` | a folder of 200,000 trips; a delivery of 16.8 MB with 50,000 cancelled journeys |
| `calls` | a delivery of 13.2 MB with 1,200 journeys of 35 calls, as a producer writes them |
| `feed` | a feed of 15.8 MB with 11,400 journeys, each with an update at each of its 35 stops |
| `alerts` | a feed of 16.8 MB with as many alerts as fit, of one to six routes, stops and dated trips, with two texts in two languages each |
| `bare-alerts` | the same with alerts of one stop and without texts, which are as many as can be |
| `served` | `calls` for the days round today, with the zone UTC0 |

The same names make the same bytes, but for the days of `served`.
"""

import os
import random
import sys
from datetime import date, datetime, timedelta, timezone

DAY = date(2024, 5, 1)
STOPS = 4_000
ROUTES = 97
MOST_BODY = 16_777_216
CALENDAR = 'service_id,monday,tuesday,wednesday,thursday,friday,saturday,sunday,start_date,end_date'


def clock(seconds):
    return '%02d:%02d:%02d' % (seconds // 3600, seconds // 60 % 60, seconds % 60)


def write(folder, name, head, rows):
    with open(os.path.join(folder, name), 'w', encoding='utf-8') as file:
        file.write(head + '\n')
        file.writelines(rows)


def stop_of(trip, k):
    return 'Quay:%05d' % ((trip * 7 + k) % STOPS)


def departs(trip, k):
    """Seconds of the service day at which a trip arrives at its k-th stop; it stays for 20 seconds."""
    return 18_000 + trip % 720 * 60 + k * 120


def stop_rows(rnd, trip, count, is_mixed):
    """The rows of a trip; where they are mixed, of each ten trips one has them out of order, and every fourth is in quotes."""
    rows = []
    for k in range(count):
        at = departs(trip, k)
        row = 'trip:%06d,%s,%s,%s,%d\n'
        if is_mixed and (trip + k) % 4 == 0:
            row = '"trip:%06d",%s,%s,"%s",%d\n'
        rows.append(row % (trip, clock(at), clock(at + 20), stop_of(trip, k), k + 1))
    if is_mixed and trip % 10 == 0:
        rnd.shuffle(rows)
    return rows


def make_folder(place, trips, stops_of_trip, is_mixed=False):
    folder = os.path.join(place, 'gtfs')
    os.makedirs(folder)
    rnd = random.Random(trips)
    services = max(1, trips // 50)
    write(folder, 'agency.txt', 'agency_timezone', ['Europe/Paris\n'])
    write(folder, 'stops.txt', 'stop_id,stop_name', ('Quay:%05d,"Stop %d, east"\n' % (k, k) for k in range(STOPS)))
    write(folder, 'routes.txt', 'route_id', ('R%d\n' % k for k in range(ROUTES)))
    write(folder, 'trips.txt', 'route_id,service_id,trip_id,trip_headsign',
          ('R%d,S%d,trip:%06d,"Station, platform %d"\n' % (i % ROUTES, i % services, i, i % 20) for i in range(trips)))
    write(folder, 'calendar.txt', CALENDAR,
          ('S%d,1,1,1,1,1,1,1,20200101,20991231\n' % k for k in range(services)))
    write(folder, 'calendar_dates.txt', 'service_id,date,exception_type',
          ('S%d,2024%02d%02d,%d\n' % (k, month, day, 1 + (k + day) % 2)
           for k in range(services) for month in (1, 2, 3, 4, 6) for day in range(1, 6)))
    write(folder, 'stop_times.txt', 'trip_id,arrival_time,departure_time,stop_id,stop_sequence',
          (row for trip in range(trips) for row in stop_rows(rnd, trip, stops_of_trip, is_mixed)))


def write_delivery(place, journeys):
    front = '{"Siri":{"ServiceDelivery":{"ResponseTimestamp":"%sT06:00:00Z","EstimatedTimetableDelivery":[{"version":"2.0",' % DAY
    front += '"EstimatedJourneyVersionFrame":[{"EstimatedVehicleJourney":['
    body = front + ','.join(journeys) + ']}]}]}}}'
    if len(body) > MOST_BODY:
        sys.exit(f'a delivery of {len(body)} bytes')
    with open(os.path.join(place, 'delivery.json'), 'w', encoding='ascii') as file:
        file.write(body)


def make_rows(place, stop_times):
    make_folder(place, stop_times // 40, 40, is_mixed=True)
    write_delivery(place, [])


def make_cancelled(place, day=DAY):
    trips, journeys = 200_000, 50_000
    make_folder(place, trips, 0)

    def journey(number, filler):
        return (
            f'{{"Cancellation":true,"FramedVehicleJourneyRef":{{"DataFrameRef":"{day}",'
            f'"DatedVehicleJourneyRef":"trip:{number * 3 % trips:06}"}},'
            f'"RecordedAtTime":"{day}T06:00:00Z","DestinationName":"{"x" * filler}"}}'
        )

    filler = (MOST_BODY - 300) // journeys - len(journey(0, 0)) - 1
    write_delivery(place, [journey(number, filler) for number in range(journeys)])


def call_of(trip, k, day, offset, kind, late):
    """A call as a producer writes it: aimed and expected times, or a cancelled one, or one without a time."""
    def time(name, seconds):
        at = datetime(day.year, day.month, day.day) + timedelta(seconds=seconds)
        return f'"{name}":"{at:%Y-%m-%dT%H:%M:%S}.000{offset}",'
    planned = departs(trip, k)
    call = f'{{"StopPointRef":{{"value":"{stop_of(trip, k)}"}},"Order":{k + 1},'
    call += time('AimedArrivalTime', planned)
    if kind == 'timed':
        call += time('ExpectedArrivalTime', planned + late)
    call += time('AimedDepartureTime', planned + 20)
    if kind == 'timed':
        call += time('ExpectedDepartureTime', planned + 20 + late)
    status = {'timed': 'delayed', 'skipped': 'cancelled', 'untimed': 'noReport'}[kind]
    return call + f'"ArrivalStatus":"{status}","DepartureStatus":"{status}"}}'


def journey_of(rnd, trip, day, offset):
    """A run of 35 calls whose delay changes at some of them."""
    late, calls = 0, []
    for k in range(35):
        draw = rnd.randrange(16)
        if 2 <= draw < 6:
            late = rnd.randrange(-60, 541)
        kind = {0: 'skipped', 1: 'untimed'}.get(draw, 'timed')
        calls.append(call_of(trip, k, day, offset, kind, late))
    return (
        f'{{"LineRef":{{"value":"R{trip % ROUTES}"}},"Monitored":true,"VehicleLocation":{{"Longitude":2.{trip + 1000},'
        f'"Latitude":48.{trip + 2000}}},"FramedVehicleJourneyRef":{{"DataFrameRef":{{"value":"{day}"}},'
        f'"DatedVehicleJourneyRef":"trip:{trip:06}"}},"RecordedAtTime":"{day}T05:00:00.000{offset}",'
        f'"EstimatedCalls":{{"EstimatedCall":[{",".join(calls)}]}}}}'
    )


def make_calls(place, day=DAY, offset='+02:00'):
    journeys = 1_200
    make_folder(place, journeys, 35)
    rnd = random.Random(journeys)
    write_delivery(place, [journey_of(rnd, trip, day, offset) for trip in range(journeys)])


def make_served(place):
    make_calls(place, datetime.now(timezone.utc).date(), 'Z')


def varint(number):
    number %= 1 << 64
    out = bytearray()
    while number > 127:
        out.append(number & 127 | 128)
        number >>= 7
    out.append(number)
    return bytes(out)


def number_field(number, value):
    return varint(number * 8) + varint(value)


def bytes_field(number, body):
    return varint(number * 8 + 2) + varint(len(body)) + body


def make_feed(place, date_of=DAY, start=1_714_514_400):
    """A feed of a day, whose times count from that second."""
    trips, stops = 11_400, 35
    make_folder(place, trips, stops)
    rnd = random.Random(trips)
    day = b'%d%02d%02d' % (date_of.year, date_of.month, date_of.day)
    feed = [bytes_field(1, bytes_field(1, b'2.0') + number_field(2, 0) + number_field(3, start))]
    for trip in range(trips):
        name = b'trip:%06d' % trip
        update = bytes_field(1, bytes_field(1, name) + bytes_field(3, day) + number_field(4, 0))
        for k in range(stops):
            arrival, departure = rnd.randrange(-20, 600), rnd.randrange(0, 600)
            at = start + departs(trip, k)
            events = bytes_field(2, number_field(1, arrival) + number_field(2, at + arrival))
            events += bytes_field(3, number_field(1, departure) + number_field(2, at + 20 + departure))
            stop_id = bytes_field(4, stop_of(trip, k).encode())
            update += bytes_field(2, number_field(1, k + 1) + events + stop_id)
        update += number_field(4, start)
        feed.append(bytes_field(2, bytes_field(1, day + b':' + name) + bytes_field(3, update)))
    write_feed(place, b''.join(feed))


def write_feed(place, body):
    if len(body) > MOST_BODY:
        sys.exit(f'a feed of {len(body)} bytes')
    with open(os.path.join(place, 'feed.pb'), 'wb') as file:
        file.write(body)


def selector_of(rnd, trips):
    """A route, a stop or a trip of the day."""
    kind = rnd.randrange(4)
    if kind == 0:
        return bytes_field(2, b'R%d' % rnd.randrange(ROUTES))
    if kind == 1:
        trip = bytes_field(1, b'trip:%06d' % rnd.randrange(trips)) + bytes_field(3, b'%d%02d%02d' % (DAY.year, DAY.month, DAY.day))
        return bytes_field(4, trip + number_field(4, 0))
    return bytes_field(5, b'Quay:%05d' % rnd.randrange(STOPS))


def translated(words):
    """A text in two languages, of which the first counts."""
    return b''.join(bytes_field(1, bytes_field(1, words) + bytes_field(2, language)) for language in (b'en', b'fr'))


def alert_of(rnd, number, trips):
    start = 1_714_514_400 + rnd.randrange(86_400)
    alert = bytes_field(1, number_field(1, start) + number_field(2, start + 3_600 * rnd.randrange(1, 48)))
    alert += b''.join(bytes_field(5, selector_of(rnd, trips)) for _ in range(rnd.randrange(1, 7)))
    alert += number_field(6, rnd.randrange(1, 13)) + number_field(7, rnd.randrange(1, 9))
    alert += bytes_field(10, translated(b'Line R%d is late, number %d' % (rnd.randrange(ROUTES), number)))
    told = b'"Buses don\'t call here until further notice.\n' * rnd.randrange(1, 3)
    return bytes_field(1, b'alert:%08d' % number) + bytes_field(5, alert + bytes_field(11, translated(told)))


def bare_alert_of(rnd, number, trips):
    return bytes_field(1, b'%d' % number) + bytes_field(5, bytes_field(5, bytes_field(5, b'Quay:%05d' % rnd.randrange(STOPS))))


def make_alerts(place, one_of=alert_of):
    """As many alerts as a feed may have, over a folder of few trips, so that its own time is small."""
    trips = 1_000
    make_folder(place, trips, 2)
    rnd = random.Random(trips)
    feed = bytearray(bytes_field(1, bytes_field(1, b'2.0') + number_field(2, 0) + number_field(3, 1_714_543_200)))
    number, entity = 0, b''
    while len(feed) + len(entity) <= MOST_BODY:
        feed += entity
        entity = bytes_field(2, one_of(rnd, number, trips))
        number += 1
    write_feed(place, bytes(feed))


MAKERS = {
    'rows-500000': lambda place: make_rows(place, 500_000),
    'rows-2000000': lambda place: make_rows(place, 2_000_000),
    'cancelled': make_cancelled,
    'calls': make_calls,
    'feed': make_feed,
    'alerts': make_alerts,
    'bare-alerts': lambda place: make_alerts(place, bare_alert_of),
    'served': make_served,
}


def make(top, name):
    """Makes the inputs of that name below the folder, and gives their folder."""
    place = os.path.join(top, name)
    os.makedirs(place)
    MAKERS[name](place)
    return place


def main():
    if sys.argv[1:2] in (['--help'], ['-h']):
        print(__doc__)
        return
    if len(sys.argv) < 2 or not set(sys.argv[2:]) <= set(MAKERS):
        sys.exit(__doc__)
    for name in sys.argv[2:] or MAKERS:
        print(make(sys.argv[1], name))


if __name__ == '__main__':
    main()
