"""Feeds for cases: trip updates of a world's trips in protobuf, spelled in any way, sound and broken."""

from datetime import timedelta

from .clocks import instant_near
from .odd import broken_bytes
from .siri_cases import day_seconds, seconds_of


def varint(dice, number, long=True):
    """The number, now and then with more bytes than it needs, or with bits past the 64th."""
    number %= 2**64
    out = bytearray()
    while number >= 0x80:
        out.append(number & 0x7F | 0x80)
        number >>= 7
    out.append(number)
    if long and dice.one_in(40):
        while len(out) < dice.choice((2, 3, 9, 10)):
            out[-1] |= 0x80
            out.append(0)
        if len(out) == 10:
            out[-1] |= dice.choice((0, 2, 0x7E))
    return bytes(out)


class Feeds:
    """Makes feeds of a world."""

    def __init__(self, dice, world, oddness):
        self.dice, self.world, self.oddness = dice, world, oddness

    def odd(self, scale=1.0):
        return self.dice.random() < self.oddness * scale

    # Fields.

    def number(self, number, value):
        return varint(self.dice, number * 8) + varint(self.dice, value)

    def bytes(self, number, data):
        return varint(self.dice, number * 8 + 2) + varint(self.dice, len(data)) + data

    def text(self, number, text):
        data = text.encode()
        if self.odd(0.02):
            data = self.dice.choice((b"\xff", data + b"\xc3", b"\xed\xa0\x80", b"\xc0\x80", b""))
        return self.bytes(number, data)

    def unknown(self, depth=0):
        """A field that no message knows, or a known one of another type."""
        dice = self.dice
        number = dice.choice((1, 2, 3, 4, 5, 6, 7, 9, 15, 16, 100, 101, 2047, 536870911))
        kind = dice.randrange(6)
        if kind == 0:
            return self.number(dice.choice((number, 9, 100, 536870911)), dice.choice((0, 1, 2**64 - 1)))
        if kind == 1:
            return varint(dice, number * 8 + 1) + bytes(8)
        if kind == 2:
            return varint(dice, number * 8 + 5) + b"\xff\xff\xff\xff"
        if kind == 3 and depth < 3:
            inner = b"".join(self.unknown(depth + 1) for _ in range(dice.choice((0, 1, 2))))
            return varint(dice, number * 8 + 3) + inner + varint(dice, number * 8 + 4)
        if kind == 4:
            return self.bytes(dice.choice((number, 9, 100, 101)), dice.choice((b"", b"\x08\x01", b"\xff\x00", b"abc")))
        return b"" if depth else self.wrong_type(number)

    def wrong_type(self, number):
        dice = self.dice
        depth = dice.choice((1, 2, 63, 64, 65)) if dice.one_in(6) else 1
        return varint(dice, number * 8 + 3) * depth + varint(dice, number * 8 + 4) * depth

    def message(self, fields):
        """The fields of a message, with others among them; now and then in another order."""
        dice = self.dice
        fields = [field for field in fields if field]
        if self.odd(0.3):
            fields.insert(dice.randint(0, len(fields)), self.unknown())
        if self.odd(0.03) and fields:
            fields.remove(dice.choice(fields))
        if self.odd(0.05):
            dice.shuffle(fields)
        return fields

    def embedded(self, number, fields):
        """A message that isn't repeated: in one field, or split into some."""
        dice = self.dice
        fields = self.message(fields)
        if self.odd(0.25):
            cut = dice.randint(0, len(fields))
            parts = [fields[:cut], fields[cut:]]
            if dice.one_in(4):
                parts.append([])
            between = self.unknown() if dice.one_in(3) else b""
            return between.join(self.bytes(number, b"".join(part)) for part in parts)
        return self.bytes(number, b"".join(fields))

    def again(self, field, other):
        """A field, and before or after it another of the same number."""
        if not self.odd(0.05):
            return field
        return other + field if self.dice.one_in(2) else field + other

    def enum(self, number, value):
        odd = self.dice.choice((0, 1, 2, 3, 4, -1, -(2**31), 2**31, 2**32, 2**32 + 1, 2**63))
        if self.odd(0.06):
            value = odd
        return self.again(self.number(number, value), self.number(number, odd))

    # Messages.

    def event(self, number, planned, delay):
        dice = self.dice
        fields = []
        kind = dice.randrange(8)
        if kind in (0, 1, 2, 3):
            fields.append(self.again(self.number(1, delay), self.number(1, 17)))
        if kind in (3, 4, 5):
            fields.append(self.number(2, planned + delay))
        if self.odd(0.02):
            fields.append(self.number(2,
                dice.choice((0, -1, 2**63 - 1, -(2**63), planned + 604_801, planned - 604_801,
                    planned + 604_800))))
        if self.odd(0.02):
            fields.append(self.number(1,
                dice.choice((604_800, 604_801, -604_800, -604_801, 2**31 - 1, -(2**31), 2**31, 2**40))))
        if kind == 7 and not self.odd():
            fields.append(self.number(1, delay))
        return self.embedded(number, fields)

    def update(self, trip, day, k, delay, place):
        """The update of a stop; a place that isn't the scheduled one is assigned, mostly."""
        dice = self.dice
        sequence, stop, arrival, departure = trip.stops[k]
        assigned = place != stop and not self.odd(0.05) or dice.one_in(12)
        fields = []
        named = dice.weighted(sequence=6, stop=2, both=2, none=0.1)
        if named in ("sequence", "both"):
            if self.odd(0.03):
                sequence = dice.choice((0, 1, sequence + 1, 2**32 - 1, sequence + 2**32))
            fields.append(self.number(1, sequence))
        relation = dice.weighted(**{"0": 8, "1": 2, "2": 2})
        start = day_seconds(day) - dice.choice((0, 3600, 7200, -18000))
        if relation == "0" or dice.one_in(5):
            which = dice.choice(((2, 3), (2,), (3,), (2, 3)))
            if self.odd(0.03):
                which = ()
            for number in which:
                planned = start + seconds_of(arrival if number == 2 else departure)
                fields.append(self.event(number, planned, delay))
        if named in ("stop", "both") or self.odd(0.05):
            if named == "both" and dice.one_in(3):
                stop = place
            if self.world.stations and self.odd(0.15):
                stop = dice.choice(self.world.stations.stops_like(stop))
            if self.odd(0.05):
                stop = dice.choice([*self.world.stops, "NOWHERE", ""])
            fields.append(self.text(4, stop))
        if relation != "0" or dice.one_in(4):
            fields.append(self.enum(5, int(relation)))
        if assigned or self.odd(0.05):
            fields.append(self.properties(place))
        return b"".join(self.message(fields))

    def properties(self, place):
        """The properties of a stop: mostly the id of the stop that is assigned."""
        dice = self.dice
        if self.odd(0.08):
            place = dice.choice((*self.world.stops, "NOWHERE", ""))
        other = dice.choice(("other", "", *self.world.stops))
        fields = [self.again(self.text(1, place), self.text(1, other))] if not self.odd(0.05) else []
        return self.embedded(6, fields)

    def long_update(self, trip, day, k, place):
        """An update, nearly always with a time, that assigns the place."""
        dice = self.dice
        sequence, stop, arrival, departure = trip.stops[k]
        named = self.bytes(6, self.bytes(1, place.encode()))
        kind = dice.randrange(4) if place == stop else 0
        if kind in (1, 2):
            named = self.bytes(6, self.bytes(1, dice.choice(self.world.stops).encode()))
            return self.number(1, sequence) + self.number(5, kind) + named
        event = self.number(1, dice.choice((0, 60)))
        return self.number(1, sequence) + self.bytes(dice.choice((2, 3)), event) + named

    def descriptor(self, trip, day, relation):
        dice = self.dice
        name = trip.id if not self.odd(0.06) else dice.choice(("NOPE", "", trip.id))
        fields = [self.again(self.text(1, name), self.text(1, "other"))] if not self.odd(0.02) else []
        if not dice.one_in(4):
            text = str(day).replace("-", "")
            if self.odd(0.06):
                text = dice.choice(("", "2024-05-01", "20230229", "0", "99991231", "00010101", "202405011"))
            fields.append(self.text(3, text))
        if relation or dice.one_in(2):
            fields.append(self.enum(4, relation))
        if dice.one_in(5):
            fields.append(self.text(5, "R1"))
        return fields

    def trip_update(self):
        dice, world = self.dice, self.world
        trips = world.carried if world.carried and not self.odd(0.2) else world.trips
        trip = dice.choice(trips)
        day = dice.choice(world.window[:3])
        if self.odd(0.15):
            day += timedelta(days=dice.choice((1, 2, 40))) if day.year < 9990 else timedelta()
        relation = 3 if dice.one_in(8) else 0
        fields = [self.embedded(1, self.descriptor(trip, day, relation))]
        delay = dice.choice((0, 60, -30, 300))
        density = dice.choice((0.2, 0.5, 1.0))
        updates, stations = [], world.stations
        places = [stop for _, stop, _, _ in trip.stops]
        if stations and places:
            places = stations.places(dice, places, self.oddness)
        is_long = stations and stations.is_long
        for k in range(len(trip.stops)):
            if is_long:
                updates.append(self.long_update(trip, day, k, places[k]))
            elif dice.random() < density:
                delay = dice.choice((delay, delay, 0, 61, -3600, 86400))
                updates.append(self.update(trip, day, k, delay, places[k]))
        if self.odd(0.08) and updates:
            updates.insert(dice.randint(0, len(updates)), dice.choice(updates))
        if self.odd(0.05):
            dice.shuffle(updates)
        fields += [self.bytes(2, update) for update in updates]
        if dice.one_in(2):
            fields.append(self.number(4,
                dice.choice((0, 1714543200, 253_370_764_799, 253_370_764_800, 2**64 - 1))))
        return fields

    def alert(self):
        dice = self.dice
        text = self.embedded(1, [self.text(1, "x"), self.text(2, "fr")])
        fields = [
            self.bytes(1, self.number(1, 5) + self.number(2, 6)),
            self.bytes(5, self.text(1, "x") + self.text(2, "R1") + self.bytes(4, self.text(1,
            "T0")) + self.text(5, "A")),
            self.enum(6, 3),
            self.enum(7, 2),
            self.embedded(10, [text]),
            self.embedded(11, [self.bytes(1, b"") if self.odd(0.1) else text]),
        ]
        return dice.some(fields, len(fields))

    def entity(self):
        dice = self.dice
        fields = [self.again(self.text(1, f"e{dice.randrange(3)}"), self.text(1, ""))]
        if dice.one_in(12):
            fields.append(self.number(2, dice.choice((0, 1, 2**63))))
        if not dice.one_in(10):
            fields.append(self.embedded(3, self.trip_update()))
        if dice.one_in(8):
            fields.append(self.embedded(5, self.alert()))
        return b"".join(self.message(fields))

    def header(self):
        dice = self.dice
        fields = [self.text(1, dice.choice(("2.0", "2.0", "1.0", "")))]
        if dice.one_in(2):
            fields.append(self.enum(2, 0))
        if not dice.one_in(5):
            near = instant_near(dice, self.world.clock_days)
            stamp = dice.choice((near,) * 6 + (1714543200, 0, 253_370_764_799, 253_370_764_800, 2**64 - 1))
            fields.append(self.number(3, stamp))
        return self.embedded(1, fields)

    def feed(self):
        dice = self.dice
        fields = [self.header()]
        if dice.one_in(6):
            fields += self.clock_entities()
        fields += [self.bytes(2, self.entity()) for _ in range(dice.choice((0, 1, 2, 3, 5, 8, 12)))]
        if self.odd(0.02):
            fields.insert(dice.randint(0, len(fields)), self.long_entity())
        return b"".join(self.message(fields))

    def clock_entities(self):
        """Trip updates without a stop, of many days: all times that are written are the planned ones."""
        world = self.world
        dated = [(trip, day) for trip in world.carried for day in world.window]
        entities = []
        for trip, day in self.dice.sample(dated, min(16, len(dated))):
            trip_update = self.bytes(1, self.text(1, trip.id) + self.text(3, str(day).replace("-", "")))
            entities.append(self.bytes(2, self.text(1, "e") + self.bytes(3, trip_update)))
        return entities

    def long_entity(self):
        """An entity whose stated length is at the limit or over it, mostly without its bytes."""
        dice = self.dice
        length = dice.choice((1_048_575, 1_048_576, 1_048_577, 2**32, 2**63))
        return b"\x12" + varint(dice, length)


def random_feed(dice, world, kind_of_feed=Feeds):
    """The bytes of one feed."""
    maker = kind_of_feed(dice, world, dice.choice((0.0, 0.1, 0.3, 0.3, 1.0, 2.0)))
    data = maker.feed()
    kind = dice.weighted(sound=15, bytes=3, cut=0.7, tail=0.7, other=0.2)
    if kind == "bytes":
        return broken_bytes(dice, data)
    if kind == "cut":
        return data[: dice.randint(0, len(data))]
    if kind == "tail":
        wide = (2**32 + 8, 2**32 + 0x78, 2**35 + 10, 2**64 - 8, 2**29 * 8 - 8, 2**32 - 8)
        tails = (varint(dice, dice.choice(wide)) + b"\0", b"\x80" * 9, b"\x80" * 10, b"\xff" * 11, b"\x0a",
            b"\x0b", b"\x0c", b"\x0e", b"\x00", b"\x12\x80", b"\x83\x01" * 65)
        return data + dice.choice(tails)
    if kind == "other":
        return dice.choice((b"", b"\n", b"{}", b"\x0a\x00", b"\x0a\x05\x0a\x032.0",
            b"\x0a\x07\x0a\x032.0\x10\x01"))
    return data
