"""The items of deliveries and feeds that were set aside: which they are, and what in them is wrong."""

import difflib

from reading.deliveries import Aside
from reading.members import BadMember, flag
from reading.moments import day_text, read_either_day
from reading.situations import read_references

from .forms import FRAMED, MAY_STAND, calls_of, find_bad, form_of, shown, value_of, what_is_wrong
from .placed import path_of, place_text


class Item:
    """An item that is set aside, with what a person needs to find it."""

    def __init__(self, index, fault, item, body_text, is_situation, outer=()):
        self.index, self.fault, self.item, self.text = index, fault, item, body_text
        self.is_situation, self.outer = is_situation, outer
        self.words = fault.split()

    def name(self):
        if not isinstance(self.item, dict):
            return f"it is {shown(self.item)} and no object"
        if self.is_situation:
            return f"situation {value_of(self.item, 'SituationNumber') or '(without a SituationNumber)'}"
        framed = self.item.get(FRAMED)
        trip, day = value_of(framed, "DatedVehicleJourneyRef"), value_of(framed, "DataFrameRef")
        if trip is None and (direct := value_of(self.item, "DatedVehicleJourneyRef")):
            trip = f"{direct} (directly in the journey)"
        return f"trip {trip or '(none)'}, day {day or '(none)'}, line {value_of(self.item, 'LineRef') or '(none)'}"

    def call_number(self):
        """The number of the call that the fault names, or None."""
        if self.words[0] in ("UnknownStop", "OutOfOrder", "DelayRange") and len(self.words) > 1:
            return int(self.words[1])
        return None

    def lines(self, table=None, context=None):
        """What is wrong, where, and what may stand there."""
        if not isinstance(self.item, dict):
            return ["has to be an object { .. }"]
        if self.words[0] == "BadField":
            return self.bad_field(self.words[1])
        number = self.call_number()
        if number is not None:
            return self.call(number, table, context)
        lines = [self.at(self.item)]
        tell = ABOUT.get(self.words[0])
        if tell:
            lines += tell(self, table, context)
        return lines

    def at(self, holder, *names):
        at = holder.at
        for name in names:
            at = holder.starts.get(name, at)
        return f"{place_text(self.text, at)}: jq '{path_of(holder, *names)}'"

    def bad_field(self, name):
        holder = find_bad(self.item, name, self.is_situation)
        if holder is None and name == "RecordedAtTime":
            return self.bad_recorded()
        if holder is None:
            return [self.at(self.item), f"{name}: {MAY_STAND[form_of(name)]}"]
        lines = []
        calls = [] if self.is_situation else calls_of(self.item)
        number = next((i for i, call in enumerate(calls) if call is holder), None)
        if number is not None:
            lines.append(call_text(number, holder))
        if name not in holder:
            lines += [self.at(holder), f"{name} is missing; it has to be {MAY_STAND[form_of(name)]}"]
            near = difflib.get_close_matches(name, list(holder), 1, 0.75)
            if near:
                lines.append(f"is it the one that is named {near[0]}?")
            if name == FRAMED and "DatedVehicleJourneyRef" in holder:
                lines.append("the id stands directly in the journey: deploy/adapt/framed puts it where it is read")
            return lines
        wrong = what_is_wrong(holder, name)
        lines.append(self.at(holder, name))
        lines.append(f"{name} is {shown(holder[name])}" + (f": {wrong}" if wrong else ""))
        lines.append(f"it has to be {MAY_STAND[form_of(name)]}")
        mends = mended_by(form_of(name), wrong)
        return lines + ([f"{mends} gives it that form"] if mends else [])

    def bad_recorded(self):
        """The moment stands in the journey or in what is around it, or nowhere."""
        places = zip((self.item, *self.outer), ("RecordedAtTime", "RecordedAtTime", "ResponseTimestamp", "ResponseTimestamp"))
        for holder, name in places:
            if holder.get(name) not in (None, "", []):
                wrong = what_is_wrong(holder, name) if name == "RecordedAtTime" else ""
                return [
                    self.at(holder, name),
                    f"{name} is {shown(holder[name])}" + (f": {wrong}" if wrong else ""),
                    f"it has to be {MAY_STAND['moment']}",
                ]
        return [
            self.at(self.item),
            "RecordedAtTime is missing here and in the frame, and ResponseTimestamp in the delivery and around it; "
            f"one of them has to be {MAY_STAND['moment']}",
        ]

    def call(self, number, table, context):
        calls = calls_of(self.item)
        if number >= len(calls):
            return [self.at(self.item), f"call {number}: the delivery isn't the one of this report"]
        call = calls[number]
        lines = [call_text(number, call), self.at(call)]
        if self.words[0] == "UnknownStop" and table is not None:
            lines += station_lines(value_of(call, "StopPointRef"), table)
        if self.words[0] == "DelayRange":
            lines.append(f"its time is {abs(int(self.words[2]))} s {'late' if int(self.words[2]) > 0 else 'early'}")
        stops = self.stops(table)
        if stops:
            lines.append("the trip stops at: " + ", ".join(f"{i} {with_station(stop, table)}" for i, stop in enumerate(stops, 1)))
        return lines

    def stops(self, table):
        trip = table and table.trip_numbers.get(value_of(self.item.get(FRAMED), "DatedVehicleJourneyRef"))
        return [] if trip is None else [stop.id for stop in table.trips[trip].stops]


def mended_by(form, wrong):
    """The converter that gives a member its form, or None."""
    if "wrapped" in wrong or "written small" in wrong or form == "flag" and "number" in wrong:
        return "deploy/adapt/bare"
    if any(part in wrong for part in ("seconds", "offset", "9 digits", "stands a T", "capital")):
        return "deploy/adapt/moments"
    return None


def call_text(number, call):
    """A call as a person finds it: its number counts from 0, its Order as the delivery has it."""
    extra = ", an ExtraCall" if truth(call, "ExtraCall") else ""
    order = call.get("Order")
    order = "without an Order" if order is None else f"Order {shown(order)}"
    return f"call {number} ({order}, stop {value_of(call, 'StopPointRef') or '(none)'}{extra})"


def truth(holder, name):
    try:
        return flag(holder, name)
    except BadMember:
        return False


def about_journey(item, table, _):
    trip = value_of(item.item.get(FRAMED), "DatedVehicleJourneyRef")
    if table is None or trip is None:
        return ["DatedVehicleJourneyRef has to be a trip_id of the folder"]
    return near_ids(trip, table.trip_numbers, "trip")


def near_ids(wanted, known, kind):
    """Ids of the folder that differ by a prefix or by little."""
    longer = [one for one in known if one != wanted and (one.endswith(wanted) or wanted.endswith(one)) and one]
    if longer:
        return [f"the folder has the {kind} {max(longer, key=len)}: the ids differ by a prefix"]
    near = difflib.get_close_matches(wanted, known, 1, 0.8) if len(known) <= 20_000 else []
    return [f"the folder has no such {kind}; the nearest is {near[0]}"] if near else [f"the folder has no such {kind}"]


def about_window(item, _, context):
    day = value_of(item.item.get(FRAMED), "DataFrameRef")
    if context is None:
        return [f"DataFrameRef is {day}"]
    days = sorted(context.window)
    return [f"DataFrameRef is {day}; the window is {day_text(days[0])} to {day_text(days[-1])}"]


def about_running(item, table, _):
    framed = item.item.get(FRAMED)
    day = read_either_day(value_of(framed, "DataFrameRef") or "")
    trip = table and table.trip_numbers.get(value_of(framed, "DatedVehicleJourneyRef"))
    if trip is None or day is None:
        return []
    service = table.trips[trip].service
    lines = [f"the service of the trip is {service}, and {day_text(day)} is a {day:%A}"]
    if (service, day) in table.exceptions:
        lines.append("calendar_dates.txt takes that day out (exception_type 2)")
    elif service in table.calendar:
        start, end, _ = table.calendar[service]
        lines.append(f"calendar.txt has it from {day_text(start)} to {day_text(end)}")
    else:
        lines.append("calendar.txt has no row of it")
    return lines


def with_station(stop, table):
    """A stop, and its station where that is another one."""
    station = table.station_of(stop)
    return stop if station == stop else f"{stop} ({station})"


def station_lines(stop, table):
    """What the folder has of a stop at which a trip doesn't stop."""
    station = table.station_of(stop)
    if station is None:
        return near_ids(stop or "", table.stop_ids, "stop")
    if station == stop:
        return []
    return [f"{stop} is of the station {station}, at no stop of which the trip stops"]


def about_places(item, table, _):
    planned = set(item.stops(table))
    named = [value_of(call, "StopPointRef") for call in calls_of(item.item)]
    others = [stop for stop in named if stop is not None and stop not in planned]
    return [f"{len(others)} calls name a stop that isn't the trip's"] if planned else []


def about_affects(item, *_):
    affects = item.item.get("Affects")
    if not isinstance(affects, dict) or not affects:
        return ["it has no Affects"]
    inside = sorted(name for name, value in affects.items() if value not in (None, "", []))
    return [f"Affects has {', '.join(inside)}: nothing in it is one of the three ways that are read"]


def about_references(item, table, _):
    try:
        references = read_references(item.item.get("Affects") or {})
    except (BadMember, Aside):
        return []
    named = ", ".join(f"{one.kind} {one.id}" for one in references[:10])
    lines = [f"it names {named}"]
    if table and references:
        first = references[0]
        known = {"LineRef": table.route_ids, "StopPointRef": table.stop_ids}.get(first.kind, table.trip_numbers)
        lines += near_ids(first.id, known, {"LineRef": "route", "StopPointRef": "stop"}.get(first.kind, "trip"))
    return lines


ABOUT = {
    "UnknownJourney": about_journey,
    "OutOfWindow": about_window,
    "NotRunning": about_running,
    "PlacesTooLong": about_places,
    "NoAffects": about_affects,
    "UnknownRef": about_references,
}
