"""What `explain --check` makes of what it has seen: zones, delays, ids, stops."""

import os
from collections import Counter

from reading.deliveries import Aside
from reading.members import BadMember
from reading.moments import day_start, day_text
from reading.propagation import assigned_to
from reading.situations import read_references
from reading.zones import ZoneRefused, read_zone_file

from .folders import plain_records

SEPARATORS = ":._-/"
LEAST_DELAYS = 10
# Times that are within so many seconds of a whole hour late count as late by it.
NEAR_AN_HOUR = 900


def running(context):
    """How many journeys there are in the window."""
    return sum(context.table.runs(trip, day) for trip in range(len(context.table.trips)) for day in context.window)


def deliveries_of(root):
    """The service delivery and the deliveries in it."""
    inner = root.get("Siri") if isinstance(root.get("Siri"), dict) else root
    service = inner.get("ServiceDelivery") or {}
    found = [service]
    for name in ("EstimatedTimetableDelivery", "SituationExchangeDelivery"):
        value = service.get(name) or []
        found += [one for one in (value if isinstance(value, list) else [value]) if isinstance(one, dict)]
    return found


def references_of(item):
    try:
        return read_references(item.get("Affects") or {})
    except (BadMember, Aside):
        return []


def has_times(update):
    return any(
        event is not None and (event["time"] is not None or event["delay"] is not None)
        for one in update["stop_time_update"]
        for event in (one["arrival"], one["departure"])
    )


def add_unknown_of_feed(tally, entity, fault):
    words, update = fault.split(), entity["trip_update"]
    if words[0] == "UnknownJourney":
        tally.unknown["trip"].append(update["trip"]["trip_id"] or None)
    elif words[0] in ("UnknownStop", "StopMismatch"):
        stop = update["stop_time_update"][int(words[1])]["stop_id"]
        if stop:
            tally.unknown["stop"].append(stop)
            tally.stops[stop] += 1
    elif words[0] == "OtherPlace":
        stop = assigned_to(update["stop_time_update"][int(words[1])])
        tally.unknown["stop"].append(stop)
        tally.stops[stop] += 1


# The zone.


def agency_zone(folder):
    """The folder's agency_timezone, or None."""
    try:
        with open(os.path.join(folder, "agency.txt"), "rb") as file:
            rows = list(plain_records(file.read()))
    except OSError:
        return None
    header = [field.strip(b" \t") for field in rows[0]] if rows else []
    if len(rows) < 2 or b"agency_timezone" not in header or len(rows[1]) <= header.index(b"agency_timezone"):
        return None
    return rows[1][header.index(b"agency_timezone")].strip(b" \t").decode("utf-8", "replace")


def zones_folder():
    """Where the machine has its zone files; TZDIR names another folder, as for the C library."""
    return os.environ.get("TZDIR") or "/usr/share/zoneinfo"


def zone_signs(work, context):
    """A zone that is given and isn't that of the folder."""
    name = agency_zone(work.gtfs)
    given = work.zone_rule or work.zone_file
    if not name:
        return ["agency.txt has no agency_timezone in its first row"]
    zones = zones_folder()
    path = os.path.normpath(os.path.join(zones, name))
    if not path.startswith(zones + "/") or not os.path.isfile(path):
        return [f"the folder's agency_timezone is {name}, which {zones} doesn't have: compare it with {given} by hand"]
    try:
        with open(path, "rb") as file:
            zone = read_zone_file(file.read())
    except (OSError, ZoneRefused):
        return []
    first = min(context.window)
    days = sorted(context.window) + [first.replace(month=month, day=1) for month in (1, 7)]
    for day in days:
        apart = day_start(context.zone, day) - day_start(zone, day)
        if apart:
            return [f"the zone that is given ({given}) isn't the folder's agency_timezone {name}: on {day_text(day)} they are {abs(apart)} s apart"]
    return []


# Delays.


def hour_signs(delays):
    """Nearly all times late or early by the same whole number of hours."""
    if len(delays) < LEAST_DELAYS:
        return []
    hours = Counter(round(delay / 3600) for delay in delays if abs(delay - 3600 * round(delay / 3600)) <= NEAR_AN_HOUR)
    hour, count = hours.most_common(1)[0] if hours else (0, 0)
    if hour == 0 or 5 * count < 4 * len(delays):
        return []
    kind = "late" if hour > 0 else "early"
    return [f"{count:,} of {len(delays):,} times are {abs(hour)} h {kind}, give or take a quarter: is the zone right, and the offset of the times?"]


# Ids.


def prefix_signs(unknown, context):
    if context is None:
        return []
    table = context.table
    known = {"trip": table.trip_numbers, "route": table.route_ids, "stop": table.stop_ids}
    lines = []
    for kind, ids in unknown.items():
        ids = [one for one in ids if one]
        for how, prefix, count in prefixes(ids, known[kind]):
            if 2 * count >= len(ids):
                what = f"have the prefix {prefix!r} there, and not in the folder" if how == "more" else f"lack the prefix {prefix!r} that the folder has"
                lines.append(f"{count} of {len(ids)} unknown {kind}s {what}: deploy/adapt/prefixes")
    return lines


def prefixes(ids, known):
    """How ids differ from known ones by a prefix up to a separator, and how often."""
    tails = {}
    for one in known:
        for at in cuts(one):
            tails.setdefault(one[at:], one[:at])
    found = Counter()
    for one in ids:
        more = next((one[:at] for at in cuts(one) if one[at:] in known), None)
        if more is not None:
            found["more", more] += 1
        elif one in tails:
            found["less", tails[one]] += 1
    return [(how, prefix, count) for (how, prefix), count in found.most_common(1)]


def cuts(text):
    return [at + 1 for at, letter in enumerate(text) if letter in SEPARATORS and at + 1 < len(text)]


# Stops.


def stop_signs(stops, schedule, context):
    """Stops at which the trips don't stop: those of the folder, with their stations, and others."""
    if context is None or not stops:
        return []
    parents, lines = parents_of(schedule[1]), []
    for stop, count in stops.most_common(5):
        if stop not in context.table.stop_ids:
            lines.append(f"{count} journeys are set aside for the stop {stop}, which the folder doesn't have")
            continue
        near = f", a platform of {parents[stop]}" if parents.get(stop) else ""
        near = ", which is a station" if stop in parents.values() else near
        lines.append(f"{count} journeys are set aside for the stop {stop}{near}: their trips stop elsewhere. Their old predictions stay")
    if len(stops) > 5:
        lines.append(f"{len(stops) - 5} more stops are unknown to their trips")
    return lines


def parents_of(folder):
    """From a stop to its parent_station, as far as stops.txt has that."""
    try:
        with open(os.path.join(folder, "stops.txt"), "rb") as file:
            rows = [[field.strip(b" \t").decode("utf-8", "replace") for field in row] for row in plain_records(file.read())]
    except OSError:
        return {}
    if not rows or "parent_station" not in rows[0] or "stop_id" not in rows[0]:
        return {}
    stop, parent = rows[0].index("stop_id"), rows[0].index("parent_station")
    return {row[stop]: row[parent] for row in rows[1:] if len(row) > max(stop, parent)}

