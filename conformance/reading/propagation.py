"""What the trip updates of a feed say of every stop: matching, and delays carried on to later stops."""

from dataclasses import dataclass, field
from datetime import timedelta

from .deliveries import Aside
from .moments import is_moment, local_day, read_compact_day
from .readings import ABSENT, CANCELLED, MOST_DELAY, MOST_PLACE_BYTES, SKIPPED, Timed, place_bytes

SCHEDULED, CANCELED = 0, 3
STOP_SCHEDULED, STOP_SKIPPED, STOP_NO_DATA = 0, 1, 2


@dataclass
class DatedReading:
    trip: int
    day: object
    recorded: int  # a moment in seconds, or None
    reading: object


@dataclass
class FeedReading:
    journeys: list  # by day and trip number
    taken: int = 0
    passed: int = 0
    aside: list = field(default_factory=list)  # pairs of an entity's index and a fault's text


def readings_of(feed, context):
    result = FeedReading([])
    latest = {}
    header_time = feed["header"]["timestamp"]
    for index, entity in enumerate(feed["entity"]):
        update = entity["trip_update"]
        if entity["is_deleted"] or update is None:
            result.passed += 1
            continue
        try:
            dated = read_update(update, header_time, context)
        except Aside as aside:
            result.aside.append((index, str(aside)))
            continue
        result.taken += 1
        latest[dated.day, dated.trip] = dated
    result.journeys = [latest[key] for key in sorted(latest)]
    return result


def read_update(update, header_time, context):
    trip_descriptor = update["trip"]
    relation = trip_descriptor["schedule_relationship"]
    if relation not in (SCHEDULED, CANCELED):
        raise Aside(f"OtherRelation {relation}")
    trip = context.table.trip_numbers.get(trip_descriptor["trip_id"] or None)
    if trip is None:
        raise Aside("UnknownJourney")
    day = day_of(trip_descriptor, trip, header_time, context)
    if day not in context.window:
        raise Aside("OutOfWindow")
    if not context.table.runs(trip, day):
        raise Aside("NotRunning")
    if relation == CANCELED:
        reading = CANCELLED
    else:
        stops = context.planned(trip, day)
        reading = propagate(stops, match_updates(stops, update["stop_time_update"], context.table))
    times = [time for time in (update["timestamp"], header_time) if is_moment(time)]
    return DatedReading(trip, day, times[0] if times else None, reading)


def day_of(descriptor, trip, header_time, context):
    """The start date; without one the local date of the header's timestamp, or the day before it."""
    if descriptor["start_date"]:
        day = read_compact_day(descriptor["start_date"])
        if day is None:
            raise Aside("NoDate")
        return day
    if is_moment(header_time):
        today = local_day(context.zone, header_time)
        for day in (today, today - timedelta(days=1)):
            if context.table.runs(trip, day):
                return day
    raise Aside("NoDate")


def match_updates(stops, updates, table):
    """Each update with the index of its stop; or the first fault of the first update that has one, and after all
    updates the fault of their places."""
    matched, before = [], -1
    for number, update in enumerate(updates):
        relation = update["schedule_relationship"]
        if relation not in (STOP_SCHEDULED, STOP_SKIPPED, STOP_NO_DATA):
            raise Aside(f"OtherRelation {relation}")
        before = match_update(stops, number, update, before)
        if relation == STOP_SCHEDULED:
            look_at(update, number, stops[before], table)
        matched.append((before, update))
    scheduled = [(k, update) for k, update in matched if update["schedule_relationship"] == STOP_SCHEDULED]
    length = place_bytes(stops, [(k, place_of(update, stops[k])) for k, update in scheduled])
    if length > MOST_PLACE_BYTES:
        raise Aside(f"PlacesTooLong {length}")
    return matched


def look_at(update, number, stop, table):
    """Nothing, or the first fault of a SCHEDULED update at its stop."""
    if table.station_of(place_of(update, stop)) != stop.station:
        raise Aside(f"OtherPlace {number}")
    delays = delays_of(update, stop)
    if not delays:
        raise Aside(f"NoTime {number}")
    for delay in delays:
        if abs(delay) > MOST_DELAY:
            raise Aside(f"DelayRange {number} {delay}")


def match_update(stops, number, update, before):
    sequence, stop_id = update["stop_sequence"], update["stop_id"] or None
    if sequence is None:
        named = [k for k, stop in enumerate(stops) if stop.id == stop_id]
        if not named:
            raise Aside(f"UnknownStop {number}")
        later = [k for k in named if k > before]
        if not later:
            raise Aside(f"OutOfOrder {number}")
        return later[0]
    found = [k for k, stop in enumerate(stops) if stop.sequence == sequence]
    if not found:
        raise Aside(f"UnknownStop {number}")
    k = found[0]
    if stop_id not in (None, stops[k].id, assigned_to(update)):
        raise Aside(f"StopMismatch {number}")
    if k <= before:
        raise Aside(f"OutOfOrder {number}")
    return k


def assigned_to(update):
    """The stop that an update assigns; an empty id is as a missing one."""
    properties = update["stop_time_properties"]
    return properties and properties["assigned_stop_id"] or None


def place_of(update, stop):
    """The stop that an update assigns, else the scheduled one."""
    return assigned_to(update) or stop.id


def delays_of(update, stop):
    """The delays of its events, arrival first. A time counts before a delay; one with neither is missing."""
    delays = []
    for event, planned in ((update["arrival"], stop.arrival), (update["departure"], stop.departure)):
        if event is None:
            continue
        if event["time"] is not None:
            delays.append(event["time"] - planned)
        elif event["delay"] is not None:
            delays.append(event["delay"])
    return delays


def propagate(stops, matched):
    """The reading of every stop."""
    return [reading_at(stops, matched, k) for k in range(len(stops))]


def reading_at(stops, matched, k):
    """By the nearest update at or before the stop that isn't SKIPPED. Only at its own stop it says a place; what is
    carried on has the scheduled one."""
    skipped = {i for i, update in matched if update["schedule_relationship"] == STOP_SKIPPED}
    if k in skipped:
        return SKIPPED
    supplies = [(i, update) for i, update in matched if i <= k and i not in skipped]
    if not supplies:
        return ABSENT
    i, update = supplies[-1]
    if update["schedule_relationship"] == STOP_NO_DATA:
        return ABSENT
    delays = delays_of(update, stops[i])
    if i == k:
        return Timed(stops[k].arrival + delays[0], stops[k].departure + delays[-1], place_of(update, stops[k]))
    return Timed(stops[k].arrival + delays[-1], stops[k].departure + delays[-1], stops[k].id)
