#!/usr/bin/env python3
"""Prints the length of a feed beside that of one with an update at each stop of each journey.

    python3 bench/lengths.py GTFS FEED DAY_START

GTFS is the folder, FEED a feed that to-gtfsrt wrote over it for one service day, and DAY_START the second since 1970 at
which that day starts. The feed is read and propagated here, apart from the program.
"""

import csv
import os
import sys


def varint(data, at):
    value = shift = 0
    while True:
        byte = data[at]
        at += 1
        value |= (byte & 127) << shift
        shift += 7
        if byte < 128:
            return value, at


def fields(data):
    at = 0
    while at < len(data):
        tag, at = varint(data, at)
        if tag & 7 == 0:
            value, at = varint(data, at)
        else:
            length, at = varint(data, at)
            value, at = data[at:at + length], at + length
        yield tag >> 3, value


def signed(value):
    return value - (1 << 64) if value >> 63 else value


def size(value):
    """The bytes of a number as a varint; a negative one has ten."""
    return 10 if value < 0 else max(1, -(-value.bit_length() // 7))


def event_size(delay, time):
    return 2 + 2 + size(delay) + size(time)


def update_size(sequence, kind, planned, delays):
    """The bytes of one update as a field of its trip update."""
    body = 1 + size(sequence)
    if kind == 'timed':
        body += sum(event_size(late, time + late) for late, time in zip(delays, planned))
    else:
        body += 2
    return 1 + size(body) + body


def main(gtfs, feed, start):
    trips = {}
    with open(os.path.join(gtfs, 'stop_times.txt'), newline='') as rows:
        for row in csv.DictReader(rows):
            times = [sum(int(part) * unit for part, unit in zip(row[name].split(':'), (3600, 60, 1)))
                     for name in ('arrival_time', 'departure_time')]
            trips.setdefault(row['trip_id'], []).append((int(row['stop_sequence']), times))
    data = open(feed, 'rb').read()
    total = here = journeys = 0
    for number, entity in fields(data):
        if number != 2:
            continue
        update = dict(fields(entity)).get(3)
        parts = list(fields(update))
        trip = dict(fields(parts[0][1]))[1].decode()
        said = {}
        for part, body in parts:
            if part == 2:
                here += 1 + size(len(body)) + len(body)
                values = dict(fields(body))
                kind = {0: 'timed', 1: 'skipped', 2: 'none'}[values.get(5, 0)]
                delays = [signed(dict(fields(values[event]))[1]) for event in (2, 3)] if kind == 'timed' else None
                said[values[1]] = (kind, delays)
        journeys += 1
        supply = None
        for sequence, times in sorted(trips[trip]):
            kind, delays = said.get(sequence, ('timed', [supply, supply]) if supply is not None else ('none', None))
            if kind == 'timed':
                supply = delays[1]
            elif kind == 'none':
                supply = None
            total += update_size(sequence, kind, [start + time for time in times], delays)
    print(f'{journeys} journeys, a feed of {len(data)} bytes; its updates have {here} bytes')
    print(f'with an update at each stop they have {total} bytes, and the feed about {len(data) - here + total}')


if __name__ == '__main__':
    main(sys.argv[1], sys.argv[2], int(sys.argv[3]))
