"""Deliveries for cases: journeys of a world's trips with their calls, and situations, sound and odd."""

from datetime import date, timedelta

from .clocks import local_moment
from .json_cases import NO_JSON, Members, json_bytes, json_copy, loosened, odd_value, random_place, spoil
from .odd import broken_bytes

AT = ["2024-05-01T06:00:00Z", "1970-01-01T00:00:00Z", "9998-12-31T23:59:59Z", "2024-03-31T01:30:00Z"]
RECORDED = [
    "2024-05-01T06:00:00Z",
    "2024-05-01T06:00:00.0Z",
    "2024-05-01T06:00:00.1Z",
    "2024-05-01T06:00:00.09Z",
    "2024-05-01T06:00:00.000000001Z",
    "2024-05-01T06:00:01Z",
    "2024-05-01T05:59:59.999999999Z",
    "2024-05-01T08:00:00+02:00",
    "2024-05-01T08:00:00",
    "2024-03-31T02:30:00",
    "1970-01-01T00:00:00Z",
    "9998-12-31T23:59:59.999999999Z",
]
ODD_MOMENTS = [
    "2024-05-01T06:00:00z", "2024-05-01t06:00:00Z", "2024-05-01 06:00:00Z", "2024-05-01T06:00Z",
    "2024-05-01T24:00:00Z",
    "2024-05-01T06:60:00Z", "2024-05-01T23:59:60Z", "2024-05-01T06:00:00.Z", "2024-05-01T06:00:00.1234567890Z",
    "2024-02-30T06:00:00Z",
    "2023-02-29T06:00:00", "2024-05-01T06:00:00+14:00", "2024-05-01T06:00:00-14:00",
    "2024-05-01T06:00:00+14:01", "2024-05-01T06:00:00+13:60",
    "2024-05-01T06:00:00-00:00", "2024-05-01T06:00:00+0200", "2024-05-01T06:00:00+02",
    "1969-12-31T23:59:59-01:00", "1970-01-01T00:59:59+01:00",
    "1970-01-01T00:00:00.5+00:01", "9998-12-31T23:59:59-00:01", "9998-12-31T23:59:59.9Z",
    "9999-01-01T00:00:00+01:00", "0000-01-01T00:00:00Z",
    "2024-05-01T06:00:00ZZ", " 2024-05-01T06:00:00Z", "2024-5-1T06:00:00Z", "2024-05-01T06:00:00.5",
    "2024-03-31T02:59:59.999999999",
    "2024-10-27T02:30:00", "1970-01-01T00:00:00", "9998-12-31T23:59:59", "2024-12-31T23:59:59.999999998",
    "2024-05-01T06:00:00,5Z",
    "20240501T060000Z", "2024-05-01T06:00:00+\u0661\u0664:00", "2024-05-01T06:00:00+-1:00",
    "+2024-05-01T06:00:00Z", "2024-05-01",
]


def moment_word(seconds):
    day, rest = divmod(seconds, 86_400)
    text = str(date(1970, 1, 1) + timedelta(days=day))
    return f"{text}T{rest // 3600:02}:{rest // 60 % 60:02}:{rest % 60:02}"


def random_moment(dice, seconds):
    """The moment in one of its forms; now and then no moment."""
    seconds = max(0, min(seconds, 253_370_764_799))
    if dice.one_in(40):
        return dice.choice(ODD_MOMENTS)
    digits = dice.choice(("", "", ".0", ".999999999", ".5", ".000000001"))
    kind = dice.randrange(6)
    if kind == 0:
        hours = dice.choice((2, 14, 1))
        return moment_word(min(seconds + hours * 3600, 253_370_764_799)) + digits + f"+{hours:02}:00"
    if kind == 1:
        return moment_word(max(0, seconds - 16_200)) + digits + "-04:30"
    if kind == 2:
        return moment_word(min(seconds + 3600, 253_370_764_799)) + digits[:9]
    return moment_word(seconds) + digits + "Z"


def seconds_of(text):
    parts = text.split(":")
    return int(parts[0]) * 3600 + int(parts[1]) * 60 + int(parts[2]) if len(parts) == 3 else 0


def day_seconds(day):
    return (day - date(1970, 1, 1)).days * 86_400


class Journeys:
    """Makes journeys of a world."""

    def __init__(self, dice, world, oddness):
        self.dice, self.world, self.oddness = dice, world, oddness
        self.ids = [trip.id for trip in world.trips] + ["NOPE"]

    def odd(self, scale=1.0):
        return self.dice.random() < self.oddness * scale

    def day(self):
        world = self.world
        if self.odd(0.4):
            days = (world.first - timedelta(days=1), world.window[-1] + timedelta(days=1))
            return self.dice.choice([day for day in days if 1900 < day.year])
        return self.dice.choice(world.window[:3])

    def day_word(self, day):
        if self.odd(0.1):
            return self.dice.choice(["2024-5-1", "20230229", "2023-02-29", "0000-01-01", "2024-0501",
                "99991231", "0001-01-01", "today"])
        text = str(day)
        return text.replace("-", "") if self.dice.one_in(4) else text

    def journey(self):
        dice = self.dice
        trips = self.world.carried if self.world.carried and not self.odd(0.3) else self.world.trips
        trip = dice.choice(trips)
        day = self.day()
        item = {}
        if not dice.one_in(4):
            item["RecordedAtTime"] = self.recorded()
        name = "NOPE" if self.odd(0.1) else trip.id
        item["FramedVehicleJourneyRef"] = {"DataFrameRef": self.day_word(day), "DatedVehicleJourneyRef": name}
        if dice.one_in(8):
            item["Cancellation"] = dice.choice((True, True, "true", "1", False, "false", "0"))
        if self.odd(0.1):
            item["ExtraJourney"] = dice.choice((True, False, "1"))
        calls = self.calls(trip, day)
        cut = dice.choice((0, 0, 0, len(calls), dice.randint(0, len(calls))))
        for holder, name, part in (
            ("RecordedCalls", "RecordedCall", calls[:cut]),
            ("EstimatedCalls", "EstimatedCall", calls[cut:]),
        ):
            if part or dice.one_in(6):
                item[holder] = {name: part[0] if len(part) == 1 and dice.one_in(2) else part}
        return item

    def calls(self, trip, day):
        dice, stations = self.dice, self.world.stations
        delay = dice.choice((0, 0, 60, -1, 300, -3700))
        calls = []
        density = dice.choice((0.3, 0.9, 1.0))
        places = [stop for _, stop, _, _ in trip.stops]
        if stations and places:
            places = stations.places(dice, places, self.oddness)
            if stations.is_long:
                return self.long_calls(trip, places, day)
        for k, (_, _, arrival, departure) in enumerate(trip.stops):
            if dice.random() > density:
                continue
            if dice.one_in(5):
                delay = dice.choice((0, 60, -60, 61, 120, -86400, 604800, -604800))
            calls.append(self.call(k, places[k], seconds_of(arrival), seconds_of(departure), day, delay))
        if self.odd(0.5) and calls:
            extra = dict(dice.choice(calls))
            if not dice.one_in(3):
                extra["ExtraCall"] = dice.choice((True, "true", "1"))
            calls.insert(dice.randint(0, len(calls)), extra)
        if self.odd(0.2):
            dice.shuffle(calls)
        return calls

    def long_calls(self, trip, places, day):
        """A call at each stop, nearly all with a time."""
        dice, start, calls = self.dice, day_seconds(day), []
        for k, (place, (_, stop, arrival, departure)) in enumerate(zip(places, trip.stops), 1):
            call = {"StopPointRef": place}
            if dice.one_in(2):
                call["Order"] = k
            kind = dice.randrange(4) if place == stop else 0
            if kind == 1:
                call |= {"StopPointRef": dice.choice(self.world.stops), "Cancellation": True}
            elif kind == 2:
                call["StopPointRef"] = dice.choice(self.world.stops)
            else:
                late = dice.choice((0, 0, 60))
                call["ExpectedArrivalTime"] = moment_word(start + seconds_of(arrival or departure) + late) + "Z"
            calls.append(call)
        return calls

    def call(self, k, stop, arrival, departure, day, delay):
        dice = self.dice
        call = {"StopPointRef": stop}
        if self.odd(0.08):
            call["StopPointRef"] = dice.choice([*self.world.stops, "NOWHERE"])
        if dice.one_in(2):
            order = k + 1 if not self.odd(0.3) else dice.choice((0, k, k + 2, 99, 2**64 - 1))
            call["Order"] = order if dice.one_in(2) else str(order)
        if dice.one_in(12):
            call["Cancellation"] = dice.choice((True, True, False, "1", "0"))
        for status in ("ArrivalStatus", "DepartureStatus"):
            if dice.one_in(8):
                call[status] = dice.choice(("cancelled", "Cancelled", "CANCELLED", "onTime", "delayed",
                    "canceled", "\u017fancelled"))
        if dice.one_in(8):
            return call
        start = day_seconds(day)
        if self.odd(0.04):
            delay += dice.choice((604801, -604801, 700000, 10**9))
        # Times by the day's UTC midnight; how far that is from the day's start doesn't matter to a comparison.
        zone_hours = dice.choice((0, 0, 1, 2, -5))
        for event, planned in (("Arrival", arrival), ("Departure", departure)):
            if dice.one_in(6):
                continue
            time = start + planned + delay - zone_hours * 3600
            kind = dice.randrange(5)
            if kind == 0:
                call[f"Actual{event}Time"] = random_moment(dice, time)
            if kind != 0 or dice.one_in(3):
                call[f"Expected{event}Time"] = random_moment(dice, time + (kind == 1))
            if dice.one_in(5):
                call[f"Aimed{event}Time"] = dice.choice(("x", random_moment(dice, time)))
        return call

    def clock_journeys(self):
        """Cancelled journeys of many days, each recorded at a time of the zone's own clock."""
        world = self.world
        dated = [(trip, day) for trip in world.carried for day in world.window]
        items = []
        for trip, day in self.dice.sample(dated, min(24, len(dated))):
            named = {"DataFrameRef": str(day), "DatedVehicleJourneyRef": trip.id}
            recorded = local_moment(self.dice, world.clock_days)
            items.append({"RecordedAtTime": recorded, "FramedVehicleJourneyRef": named, "Cancellation": True})
        return items

    def delivery(self):
        """A delivery with its frame, and with moments of recording in any of their places."""
        dice = self.dice
        if dice.one_in(6):
            frame = {"EstimatedVehicleJourney": self.clock_journeys()}
            return framed(dice, "EstimatedTimetableDelivery", [{"EstimatedJourneyVersionFrame": [frame]}])
        journeys = [self.journey() for _ in range(dice.choice((0, 1, 2, 3, 5, 8, 12)))]
        frames = []
        while journeys or not frames:
            count = dice.randint(0, len(journeys)) if not dice.one_in(2) else len(journeys)
            part, journeys = journeys[:count], journeys[count:]
            frame = {"EstimatedVehicleJourney": part[0] if len(part) == 1 and dice.one_in(3) else part}
            if not dice.one_in(3):
                frame["RecordedAtTime"] = self.recorded()
            frames.append(frame)
            if dice.one_in(3) and not journeys:
                break
        deliveries = []
        while frames or not deliveries:
            count = dice.randint(0, len(frames)) if dice.one_in(3) else len(frames)
            part, frames = frames[:count], frames[count:]
            delivery = {"EstimatedJourneyVersionFrame": part[0] if len(part) == 1 and dice.one_in(3) else part}
            if dice.one_in(2):
                delivery["ResponseTimestamp"] = dice.choice(RECORDED)
            deliveries.append(delivery)
        return framed(dice, "EstimatedTimetableDelivery", deliveries)

    def recorded(self):
        if self.dice.one_in(3):
            return local_moment(self.dice, self.world.clock_days)
        return self.dice.choice(RECORDED)

    def known(self):
        return [*self.ids, *self.world.stops, *RECORDED, *ODD_MOMENTS, str(self.world.first)]


def framed(dice, name, deliveries):
    service = {name: deliveries[0] if len(deliveries) == 1 and dice.one_in(3) else deliveries}
    if not dice.one_in(3):
        service["ResponseTimestamp"] = dice.choice(RECORDED)
    root = {"ServiceDelivery": service}
    if dice.one_in(2):
        root = {"Siri": root}
    if dice.one_in(40):
        root["Siri" if "Siri" not in root else "ServiceDelivery"] = dice.choice((None, "", [], {}, "x", 5,
            [{}]))
    return root


class Situations(Journeys):
    """Makes situations of a world."""

    def situation(self):
        dice = self.dice
        item = {"SituationNumber": dice.choice(("S1", "S2", "S10", "\u00e9", "~", "S1", "a" * 130))}
        if not dice.one_in(4):
            version = dice.choice((0, 1, 1, 2, 10, 2**64 - 1))
            item["Version"] = version if dice.one_in(2) else str(version)
        if dice.one_in(3):
            item["Progress"] = dice.choice(("closed", "draft", "Closed", "DRAFT", "open", "published",
                "clo\u017fed"))
        if dice.one_in(2):
            periods = []
            for _ in range(dice.choice((0, 1, 1, 2))):
                period = {}
                for end in ("StartTime", "EndTime"):
                    if not dice.one_in(3):
                        near = random_moment(dice, 1714543200 + dice.choice((0, 86400, -86400)))
                        period[end] = local_moment(dice, self.world.clock_days) if dice.one_in(3) else near
                periods.append(period)
            item["ValidityPeriod"] = periods[0] if len(periods) == 1 and dice.one_in(2) else periods
        for name in ("Summary", "Description"):
            if dice.one_in(2):
                item[name] = dice.choice(("Late", "\u00e9t\u00e9 \"x\"\n", "", "x" * 130, "x" * 127))
                if self.odd(0.04):
                    item[name] = "y" * dice.choice((65_536 - dice.randrange(40, 130), 65_536, 70_000))
        for reason in ("EquipmentReason", "EnvironmentReason", "PersonnelReason", "MiscellaneousReason"):
            if dice.one_in(4):
                item[reason] = dice.choice(("signalFailure", "x", None, "", [], {}, 0, False, [None]))
        if not dice.one_in(12):
            item["Affects"] = self.affects()
        if dice.one_in(2):
            words = ("cancelled", "noService", "delayed", "diverted", "additionalService", "altered",
                "disrupted", "Delayed", "x")
            found = [{"Condition": dice.choice(words)} for _ in range(dice.choice((0, 1, 1, 2)))]
            if found and dice.one_in(6):
                found[0] = {}
            item["Consequences"] = {"Consequence": found[0] if len(found) == 1 and dice.one_in(2) else found}
        return item

    def affects(self):
        dice, world = self.dice, self.world
        affects = {}

        def several(make):
            return [make() for _ in range(dice.choice((0, 1, 1, 2, 3)))]

        def line():
            return {} if dice.one_in(6) else {"LineRef": dice.choice([*world.routes,
                "NOPE"] if self.odd() else world.routes)}

        def stop():
            return {} if dice.one_in(6) else {"StopPointRef": dice.choice([*world.stops,
                "NOPE"] if self.odd() else world.stops)}

        def journey():
            if dice.one_in(6):
                return {}
            name = dice.choice(self.ids)
            return {"FramedVehicleJourneyRef": {"DataFrameRef": self.day_word(self.day()),
                "DatedVehicleJourneyRef": name}}

        if dice.one_in(2):
            affects["Networks"] = {"AffectedNetwork": several(lambda: {"AffectedLine": several(line)})}
        if dice.one_in(2):
            affects["StopPoints"] = {"AffectedStopPoint": several(stop)}
        if dice.one_in(2):
            affects["VehicleJourneys"] = {"AffectedVehicleJourney": several(journey)}
        return affects

    def delivery(self):
        dice = self.dice
        deliveries = []
        for _ in range(dice.choice((1, 1, 1, 2, 0))):
            items = [self.situation() for _ in range(dice.choice((0, 1, 1, 2, 4)))]
            group = {"PtSituationElement": items[0] if len(items) == 1 and dice.one_in(3) else items}
            deliveries.append({"Situations": group} if not dice.one_in(10) else {})
        return framed(dice, "SituationExchangeDelivery", deliveries)


def random_body(dice, maker, oddness):
    """The bytes of one delivery: mostly sound, else with odd values in some places, or no JSON at all."""
    tree = json_copy(maker.delivery())
    kind = dice.weighted(sound=8, spoiled=7, no_json=0.5, bytes=0.8, other=0.15)
    tree = loosened(dice, tree, oddness)
    if kind == "spoiled":
        spoil(dice, tree, maker.known(), dice.choice((1, 1, 1, 2, 3)))
    if kind == "no_json":
        put_no_json(dice, tree)
    if kind == "other":
        tree = dice.choice((None, [], {}, "x", 1, [tree], Members([("Siri", tree)]), {"Siri": None},
            odd_value(dice)))
    data = json_bytes(tree, dice if dice.one_in(6) else None)
    if kind == "bytes":
        data = broken_bytes(dice, data)
    if dice.one_in(80):
        data = dice.choice((b"\xef\xbb\xbf" + data, data + b"\n \t\r", data + b"\0", data + b"x", data + b"{}",
            b"", data[:-1], b" " + data))
    return data


def put_no_json(dice, tree):
    """One value of the tree is none of JSON."""
    place = random_place(dice, tree)
    if place:
        holder, i = place
        odd = dice.choice(NO_JSON)
        holder[i] = (holder[i][0], odd) if isinstance(holder, Members) else odd
