"""Members that nobody reads. Which ones are read is seen by letting the second reading read an item that has all."""

import difflib
from collections import Counter
from types import SimpleNamespace

from reading.deliveries import verdict as journey_verdict
from reading.situations import verdict as situation_verdict

from .forms import AnyZone, value_of

CALL = {
    "StopPointRef": "A",
    "Order": 1,
    "ActualArrivalTime": "2024-05-01T06:00:00Z",
}
JOURNEY = {
    "FramedVehicleJourneyRef": {"DataFrameRef": "2024-05-01", "DatedVehicleJourneyRef": "T"},
    "ExtraJourney": True,
    "RecordedCalls": {"RecordedCall": [CALL]},
    "EstimatedCalls": {"EstimatedCall": [CALL]},
}
SITUATION = {
    "SituationNumber": "S",
    "ValidityPeriod": [{}],
    "Affects": {
        "Networks": {"AffectedNetwork": [{"AffectedLine": [{"LineRef": "R"}]}]},
        "StopPoints": {"AffectedStopPoint": [{"StopPointRef": "A"}]},
        "VehicleJourneys": {"AffectedVehicleJourney": [{"FramedVehicleJourneyRef": {
            "DataFrameRef": "2024-05-01", "DatedVehicleJourneyRef": "T"}}]},
    },
    "Consequences": {"Consequence": [{}]},
}
MOMENT = {"ResponseTimestamp": "2024-05-01T06:00:00Z"}
# The ways down to the items, whose members are read by their names.
TOPS = {
    (): {"Siri", "ServiceDelivery"},
    ("Siri",): {"ServiceDelivery"},
    ("ServiceDelivery",): {"EstimatedTimetableDelivery", "SituationExchangeDelivery", "ResponseTimestamp"},
    ("SituationExchangeDelivery",): {"Situations"},
    ("Situations",): {"PtSituationElement"},
}
# Members that say something of the delivery, which --check looks at by itself.
LOOKED_AT = {"Status", "MoreData", "ErrorCondition"}


class Watched(dict):
    """An object that remembers which members were asked for."""

    def __init__(self, members, way, asked):
        super().__init__(members)
        self.way, self.asked = way, asked
        asked.setdefault(way, set())

    def get(self, name, default=None):
        self.asked[self.way].add(name)
        return super().get(name, default)

    def __getitem__(self, name):
        self.asked[self.way].add(name)
        return super().__getitem__(name)


def watched(value, way, asked):
    if isinstance(value, list):
        return [watched(item, way, asked) for item in value]
    if isinstance(value, dict):
        return Watched({key: watched(inner, (*way[-1:], key)[-1:], asked) for key, inner in value.items()}, way, asked)
    return value


def read_members():
    """From an object's name to the names in it that are read."""
    asked = {way: set(names) for way, names in TOPS.items()}
    table = SimpleNamespace(route_ids={"R"}, stop_ids={"A"}, trip_numbers={"T": 0}, trips=[], stations={})
    context = SimpleNamespace(zone=AnyZone(), table=table, window=set())
    frame = watched({"EstimatedVehicleJourney": []}, ("EstimatedJourneyVersionFrame",), asked)
    delivery = watched({"EstimatedJourneyVersionFrame": []}, ("EstimatedTimetableDelivery",), asked)
    service = watched(MOMENT, ("ServiceDelivery",), asked)
    asked[("EstimatedJourneyVersionFrame",)].add("EstimatedVehicleJourney")
    asked[("EstimatedTimetableDelivery",)].add("EstimatedJourneyVersionFrame")
    for extra in (JOURNEY, {**JOURNEY, "EstimatedCalls": {"EstimatedCall": [{"ExtraCall": True}]}}):
        journey_verdict(watched(extra, ("EstimatedVehicleJourney",), asked), [frame, delivery, service], context)
    situation_verdict(watched(SITUATION, ("PtSituationElement",), asked), context)
    return asked


class Unread:
    """How often each member stands there that nobody reads, over any number of deliveries."""

    def __init__(self):
        self.read, self.counts, self.seen = read_members(), Counter(), Counter()

    def look(self, value, way=()):
        if isinstance(value, list):
            for item in value:
                self.look(item, way)
        elif isinstance(value, dict):
            names = self.read[way]
            for name, inner in value.items():
                if inner is None or inner == "" or inner == []:
                    continue
                self.seen[way, name] += 1
                if name not in names:
                    if name not in LOOKED_AT:
                        self.counts[way, name] += 1
                elif (name,) in self.read:
                    self.look(inner, (name,))
                elif isinstance(inner, list) and len(inner) > 1:
                    # Of a text in several languages the first is read.
                    self.counts[way, f"{name}[1..]"] += 1

    def signs(self):
        """Lines on those that are probably read ones under another name."""
        lines = []
        for (way, name), count in self.counts.most_common():
            near = [read for read in self.read[way] if is_near(name, read) and not self.seen[way, read]]
            if near:
                lines.append(f"{count:,} members {'.'.join((*way, name))} are read by nobody; {near[0]} is read there, and stands nowhere")
        return lines

    def lines(self, most):
        rows = [f"{count:,} {'.'.join((*way, name))}" for (way, name), count in self.counts.most_common()]
        return rows[:most] + ([f".. and {len(rows) - most} more names"] if len(rows) > most else [])


def is_near(name, read):
    def plain(text):
        return text.lower().replace("_", "").replace("-", "").removesuffix("s")

    return plain(name) == plain(read) or difflib.SequenceMatcher(None, name, read).ratio() >= 0.88


def truth(holder, name):
    """Whether a flag is true, false, or None where it is missing or has another form."""
    value = holder.get(name)
    value = value_of(holder, name) if not isinstance(value, bool) else value
    return {"true": True, "1": True, "false": False, "0": False}.get(str(value).lower())
