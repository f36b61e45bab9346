#!/usr/bin/env python3
"""Makes a folder of one trip a journey, each of 250 stops, and a feed with a trip update without stop time updates for each:

    python3 bench/many_calls.py FOLDER JOURNEYS

writes FOLDER/gtfs and FOLDER/feed.pb. `to-siri` writes 250 calls for each journey, and refuses more than 400,000.
"""

import os
import sys

STOPS = 250


def varint(number):
    out = bytearray()
    while number > 127:
        out.append(number & 127 | 128)
        number >>= 7
    out.append(number)
    return bytes(out)


def field(number, body):
    return varint(number * 8 + 2) + varint(len(body)) + body


def main():
    folder, journeys = sys.argv[1], int(sys.argv[2])
    gtfs = os.path.join(folder, 'gtfs')
    os.makedirs(gtfs, exist_ok=True)

    def write(name, lines):
        with open(os.path.join(gtfs, name), 'w') as file:
            file.write('\n'.join(lines) + '\n')

    write('agency.txt', ['agency_timezone', 'Europe/Paris'])
    write('stops.txt', ['stop_id'] + ['S%d' % n for n in range(STOPS)])
    write('routes.txt', ['route_id', 'R'])
    write('trips.txt', ['trip_id,route_id,service_id'] + ['T%d,R,D' % n for n in range(journeys)])
    write('calendar.txt', [
        'service_id,monday,tuesday,wednesday,thursday,friday,saturday,sunday,start_date,end_date',
        'D,1,1,1,1,1,1,1,20240101,20241231',
    ])
    rows = ['trip_id,stop_sequence,stop_id,arrival_time,departure_time']
    for trip in range(journeys):
        for stop in range(STOPS):
            second = 28800 + stop * 60
            clock = '%02d:%02d:%02d' % (second // 3600, second // 60 % 60, second % 60)
            rows.append('T%d,%d,S%d,%s,%s' % (trip, stop + 1, stop, clock, clock))
    write('stop_times.txt', rows)

    header = field(1, b'2.0') + varint(3 * 8) + varint(1714543200)
    with open(os.path.join(folder, 'feed.pb'), 'wb') as file:
        file.write(field(1, header))
        for trip in range(journeys):
            name = b'T%d' % trip
            descriptor = field(1, name) + field(3, b'20240501')
            file.write(field(2, field(1, name) + field(3, field(1, descriptor))))


main()
