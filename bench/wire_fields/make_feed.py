#!/usr/bin/env python3
"""Writes 16 MB of nested messages in the shape of a GTFS Realtime feed to the file that is named."""
import random
import sys

if sys.argv[1:2] in (["--help"], ["-h"]):
    print(__doc__)
    sys.exit()


def varint(number):
    out = bytearray()
    while number >= 128:
        out.append(number % 128 + 128)
        number //= 128
    out.append(number)
    return bytes(out)


def number_field(number, value):
    return varint(number * 8) + varint(value)


def bytes_field(number, body):
    return varint(number * 8 + 2) + varint(len(body)) + body


def entity(index, rand):
    name = b"trip%d" % index
    trip = bytes_field(1, name) + bytes_field(3, b"20240501") + number_field(4, 0)
    update = bytes_field(1, trip)
    for stop in range(1, 21):
        event = number_field(1, rand.randrange(600)) + number_field(2, 1714543200 + rand.randrange(9999))
        update += bytes_field(2, number_field(1, stop) + bytes_field(2, event) + bytes_field(3, event))
    update += number_field(4, 1714543200)
    return bytes_field(2, bytes_field(1, b"20240501:" + name) + bytes_field(3, update))


def main():
    rand = random.Random(1)
    header = bytes_field(1, b"2.0") + number_field(2, 0) + number_field(3, 1714543200)
    written = 0
    with open(sys.argv[1], "wb") as out:
        written += out.write(bytes_field(1, header))
        index = 0
        while written < 16 << 20:
            written += out.write(entity(index, rand))
            index += 1


main()
