"""Deliveries of estimated timetables: the way down to the journeys, and what each journey says."""

from dataclasses import dataclass

from .json_text import NotJson, read_json
from .members import (
    MISSING,
    BadMember,
    an_object,
    flag,
    member,
    needed,
    needed_text,
    objects,
    read_text,
    repeated,
    text,
    text_in,
    whole,
)
from .moments import NANOS, read_either_day, read_moment
from .readings import ABSENT, CANCELLED, MOST_DELAY, MOST_PLACE_BYTES, SKIPPED, Timed, place_bytes


class NotDelivery(Exception):
    """The first member on the way down that is wrong."""


class Aside(Exception):
    """An item is set aside, with the text of its fault."""


@dataclass
class Record:
    """What one item of a delivery says of a trip on a day, recorded at nanoseconds since 1970."""

    trip: int
    day: object
    at: int
    reading: object
    extra_calls: int


# The way down.


def way_down(body, delivery_name):
    """The service delivery and its deliveries."""
    try:
        root = read_json(body)
    except NotJson:
        raise NotDelivery("NotJson") from None
    if not isinstance(root, dict):
        raise not_delivery("Siri")
    inner = member(root, "Siri")
    if inner is not MISSING:
        if not isinstance(inner, dict):
            raise not_delivery("Siri")
        root = inner
    service = root.get("ServiceDelivery")
    if not isinstance(service, dict):
        raise not_delivery("ServiceDelivery")
    deliveries = service.get(delivery_name)
    if deliveries is None or deliveries == "":
        raise not_delivery(delivery_name)
    return service, items_on_the_way(service, delivery_name)


def not_delivery(name):
    return NotDelivery(f"NotDelivery {name}")


def items_on_the_way(holder, name):
    try:
        return objects(holder, name)
    except BadMember:
        raise not_delivery(name) from None


def journey_items(body):
    """Each item with what it stands in, from the inside: a frame, a delivery, the service delivery."""
    service, deliveries = way_down(body, "EstimatedTimetableDelivery")
    frames = [
        (frame, delivery)
        for delivery in deliveries
        for frame in items_on_the_way(delivery, "EstimatedJourneyVersionFrame")
    ]
    return [
        (item, frame, delivery, service)
        for frame, delivery in frames
        for item in repeated(frame, "EstimatedVehicleJourney")
    ]


# One journey.


def read_delivery(body, context):
    """Each item in document order: a Record, or the text of its fault."""
    return [verdict(item, outer, context) for item, *outer in journey_items(body)]


def verdict(item, outer, context):
    try:
        if not isinstance(item, dict):
            raise BadMember("EstimatedVehicleJourney")
        return read_journey(item, outer, context)
    except BadMember as bad:
        return f"BadField {bad.name}"
    except Aside as aside:
        return str(aside)


def read_journey(item, outer, context):
    at = recorded_at(item, outer, context.zone)
    named = needed(member(item, "FramedVehicleJourneyRef"), "FramedVehicleJourneyRef")
    if not isinstance(named, dict):
        raise BadMember("FramedVehicleJourneyRef")
    day = needed(read_text(named, "DataFrameRef", read_either_day), "DataFrameRef")
    trip_id = needed_text(named, "DatedVehicleJourneyRef")
    cancelled = flag(item, "Cancellation")
    is_added = flag(item, "ExtraJourney")
    calls = [] if cancelled else read_calls(item, context.zone)
    if is_added:
        raise Aside("AddedJourney")
    trip = context.table.trip_numbers.get(trip_id)
    if trip is None:
        raise Aside("UnknownJourney")
    if day not in context.window:
        raise Aside("OutOfWindow")
    if not context.table.runs(trip, day):
        raise Aside("NotRunning")
    if cancelled:
        return Record(trip, day, at, CANCELLED, 0)
    stops = context.planned(trip, day)
    matched = match_calls(calls, stops, context.table)
    reading = [ABSENT] * len(stops)
    for k, call in matched:
        reading[k] = call.reading(stops[k])
    extra = sum(call.is_extra for call in calls)
    return Record(trip, day, at, reading, extra)


def recorded_at(item, outer, zone):
    """The first of the four moments that isn't missing; a wrong one is wrong wherever it stood."""
    frame, delivery, service = outer
    places = (
        (item, "RecordedAtTime"),
        (frame, "RecordedAtTime"),
        (delivery, "ResponseTimestamp"),
        (service, "ResponseTimestamp"),
    )
    for holder, name in places:
        value = member(holder, name)
        if value is MISSING:
            continue
        value = text_in(value, "RecordedAtTime")
        if value is MISSING:
            continue
        moment = read_moment(value, zone)
        if moment is None:
            break
        return moment
    raise BadMember("RecordedAtTime")


# Calls.


@dataclass
class Call:
    number: int
    is_extra: bool
    stop: str = None
    order: int = None
    is_skip: bool = False
    arrival: int = None  # seconds, of an event that has a time
    departure: int = None

    def delays(self, stop):
        """The delays of its events that have a time, arrival before departure."""
        if self.is_skip:
            return []
        pairs = ((self.arrival, stop.arrival), (self.departure, stop.departure))
        return [time - planned for time, planned in pairs if time is not None]

    def reading(self, stop):
        """At the planned times of its stop: one event gives its delay to the other. The stop that it names is the
        place."""
        if self.is_skip:
            return SKIPPED
        delays = self.delays(stop)
        if not delays:
            return ABSENT
        return Timed(stop.arrival + delays[0], stop.departure + delays[-1], self.stop)


def read_calls(item, zone):
    """All calls, the recorded ones first. The forms of the lists come before the members of the calls."""
    recorded = objects(an_object(item, "RecordedCalls"), "RecordedCall")
    estimated = objects(an_object(item, "EstimatedCalls"), "EstimatedCall")
    return [read_call(i, call, zone) for i, call in enumerate(recorded + estimated)]


def read_call(number, call, zone):
    if flag(call, "ExtraCall"):
        return Call(number, True)
    stop = needed_text(call, "StopPointRef")
    order = whole(call, "Order")
    is_cancelled = flag(call, "Cancellation")
    statuses = [text(call, name) for name in ("ArrivalStatus", "DepartureStatus")]
    times = {
        name: read_text(call, name, lambda value: read_moment(value, zone))
        for name in (
            "ActualArrivalTime",
            "ExpectedArrivalTime",
            "ActualDepartureTime",
            "ExpectedDepartureTime",
        )
    }
    off = [status is not MISSING and is_cancelled_word(status) for status in statuses]
    missing = [status is MISSING for status in statuses]
    is_skip = is_cancelled or (off[0] and (off[1] or missing[1])) or (off[1] and missing[0])
    return Call(
        number,
        False,
        stop,
        None if order is MISSING else order,
        is_skip,
        None if off[0] else event_time(times, "Arrival"),
        None if off[1] else event_time(times, "Departure"),
    )


def is_cancelled_word(text):
    """`cancelled`, ASCII case ignored."""
    return text.isascii() and text.lower() == "cancelled"


def event_time(times, event):
    """The actual time, else the expected one, in whole seconds."""
    for kind in ("Actual", "Expected"):
        nanos = times[f"{kind}{event}Time"]
        if nanos is not MISSING:
            return nanos // NANOS
    return None


def match_calls(calls, stops, table):
    """The calls that are read, each with the index of its stop; or the first fault."""
    read = [call for call in calls if not call.is_extra]
    for call in read:
        station = table.station_of(call.stop)
        if station is None or all(stop.station != station for stop in stops):
            raise Aside(f"UnknownStop {call.number}")
    matched, before = [], -1
    for call in read:
        before = match_call(call, stops, table.station_of(call.stop), before)
        if before is None:
            raise Aside(f"OutOfOrder {call.number}")
        matched.append((before, call))
    for k, call in matched:
        for delay in call.delays(stops[k]):
            if abs(delay) > MOST_DELAY:
                raise Aside(f"DelayRange {call.number} {delay}")
    readings = [(k, call.reading(stops[k])) for k, call in matched]
    length = place_bytes(stops, [(k, at.place) for k, at in readings if isinstance(at, Timed)])
    if length > MOST_PLACE_BYTES:
        raise Aside(f"PlacesTooLong {length}")
    return matched


def match_call(call, stops, station, before):
    """After the stop of the call before: the stop of its order where that is of the named stop's station, else the
    first with the named id, else the first of that station."""
    later = range(before + 1, len(stops))
    if call.order is not None and call.order - 1 in later and stops[call.order - 1].station == station:
        return call.order - 1
    same_id = [k for k in later if stops[k].id == call.stop]
    same_station = [k for k in later if stops[k].station == station]
    return (same_id + same_station + [None])[0]
