#!/usr/bin/env python3
"""Writes feeds of 16 MB into the folder that is named: some of usual shape, and some that are hard to read."""
import os
import random
import sys

SIZE = 16_000_000


def varint(number):
    out = bytearray()
    while number >= 128:
        out.append(number % 128 + 128)
        number //= 128
    out.append(number)
    return bytes(out)


def number_field(number, value):
    return varint(number * 8) + varint(value)


def bytes_field(number, body):
    return varint(number * 8 + 2) + varint(len(body)) + body


HEADER = bytes_field(1, bytes_field(1, b"2.0") + number_field(2, 0) + number_field(3, 1714543200))


def journey(index, rand, stops=30, ids=False):
    name = b"trip%d" % index
    trip = bytes_field(1, name) + bytes_field(3, b"20240501") + number_field(4, 0)
    update = bytes_field(1, trip)
    for stop in range(1, stops + 1):
        delay = rand.randrange(-60, 600) % (1 << 64)
        event = number_field(1, delay) + number_field(2, 1714543200 + rand.randrange(9999))
        stop_id = bytes_field(4, b"de:stop:%d" % rand.randrange(90000)) if ids else b""
        update += bytes_field(2, number_field(1, stop) + bytes_field(2, event) + bytes_field(3, event) + stop_id)
    update += number_field(4, 1714543200)
    return bytes_field(2, bytes_field(1, b"20240501:" + name) + bytes_field(3, update))


def sparse(index, rand):
    return journey(index, rand, rand.randrange(1, 6), True)


def stop_selector(rand, stop):
    return bytes_field(5, bytes_field(2, b"route%d" % rand.randrange(500)) + bytes_field(5, b"stop%d" % stop))


def trip_selector(rand, _stop):
    trip = bytes_field(1, b"trip%d" % rand.randrange(90000)) + bytes_field(3, b"20240501") + number_field(4, 0)
    return bytes_field(5, bytes_field(4, trip))


def alert(index, rand, selector=stop_selector):
    selectors = b"".join(selector(rand, stop) for stop in range(10))
    text = bytes_field(1, bytes_field(1, b"The line is late because of works at the bridge.") + bytes_field(2, b"en"))
    body = bytes_field(1, number_field(1, 1714521600)) + selectors + number_field(6, 3) + number_field(7, 3)
    body += bytes_field(10, text) + bytes_field(11, text + text)
    return bytes_field(2, bytes_field(1, b"alert:%d" % index) + bytes_field(5, body))


def trip_alert(index, rand):
    return alert(index, rand, trip_selector)


def filled(entity):
    rand = random.Random(1)
    parts = [HEADER]
    size, index = len(HEADER), 0
    while size < SIZE:
        parts.append(entity(index, rand))
        size += len(parts[-1])
        index += 1
    return b"".join(parts)


def repeated(piece):
    return piece * (SIZE // len(piece))


def main():
    pieces = bytes_field(2, bytes_field(1, b"x") + bytes_field(3, bytes_field(1, b"")) + bytes_field(3, b"") * 500_000)
    journeys = filled(journey)
    feeds = {
        "journeys": journeys,
        "sparse": filled(sparse),
        "alerts": filled(alert),
        "trip_alerts": filled(trip_alert),
        "journeys_cut": journeys[:-1],
        "small_entities": HEADER + repeated(bytes_field(2, bytes_field(1, b""))),
        "empty_entities": HEADER + repeated(bytes_field(2, b"")),
        "header_in_pieces": HEADER + repeated(bytes_field(1, number_field(3, 5))),
        "updates_in_pieces": HEADER + repeated(pieces),
        "updates_in_pieces_cut": HEADER + repeated(pieces) + b"\x0c",
        "unread_field": bytes_field(100, bytes(10_000_000)) + HEADER + journey(0, random.Random(1)),
        "groups": HEADER + repeated(b"\x0b" * 64 + b"\x0c" * 64),
        "groups_open": HEADER + repeated(b"\x0b" * 64 + b"\x0c" * 64) + b"\x0b",
    }
    for name, feed in feeds.items():
        with open(os.path.join(sys.argv[1], name), "wb") as out:
            out.write(feed)


main()
