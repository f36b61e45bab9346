"""`explain --check`: what no report shows of a folder, of deliveries and of feeds."""

import os
import time
from collections import Counter

from reading.deliveries import NotDelivery, recorded_at
from reading.feeds import FeedFault, read_feed
from reading.members import BadMember
from reading.moments import NANOS, moment_text
from reading.outcome import DIFFERENTIAL
from reading.propagation import readings_of
from reading.readings import ABSENT, CANCELLED, SKIPPED, Context

from . import folders, main, seen, telling
from .disk import DiskFiles, why_of
from .forms import AnyZone, calls_of, value_of
from .unread import Unread, truth
from .words import schedule_of

TIMES = ("ActualArrivalTime", "ExpectedArrivalTime", "ActualDepartureTime", "ExpectedDepartureTime")
# How far ahead a clock may be, in seconds.
AHEAD = 300
MOST_BODY = 16_777_216


class Tally:
    """What was seen so far."""

    def __init__(self):
        self.signs, self.refused = [], 0
        self.items, self.taken, self.timed, self.cancelled = Counter(), Counter(), 0, 0
        self.faults, self.unknown, self.stops = Counter(), {"trip": [], "route": [], "stop": []}, Counter()
        self.delays, self.ahead, self.unread = [], [], Unread()

    def sign(self, text):
        if text not in self.signs:
            self.signs.append(text)


def tell_check(said, use):
    """Looks at all that is named. 0 where there is no sign, 1 where there is, 65 and 66 where something is refused."""
    tally, context, work = Tally(), None, None
    now = int(time.time()) if use.at is None else use.at
    if use.schedule:
        work = schedule_of(use.schedule)
        context = main.tell_schedule(said, work, DiskFiles())
        if not isinstance(context, Context):
            return context
        if not use.quiet:
            said.tell(f"{work.gtfs}: taken, {len(context.table.trips)} trips are carried, {seen.running(context)} journeys in the window")
        for line in seen.zone_signs(work, context):
            tally.sign(line)
        if not seen.running(context):
            tally.sign("no trip runs on a day of the window: the folder is over, or not yet begun, or --from is another day")
    for kind, path in use.further:
        files = files_of(path)
        if files is None:
            said.tell(f"{path}: missing, or it can't be read")
            said.tell_all(folders.missing(path))
            return main.NO_FILE
        for file in files:
            look_at_file(said, use, tally, kind, file, context, now)
    finish(said, use, tally, context, now)
    return main.REFUSED if tally.refused else main.SIGNS if tally.signs else main.WELL


def files_of(path):
    """A file, or all files of a folder by their names."""
    if os.path.isdir(path):
        return sorted(one.path for one in os.scandir(path) if one.is_file())
    return [path] if os.path.exists(path) else None


def look_at_file(said, use, tally, kind, path, context, now):
    try:
        with open(path, "rb") as file:
            body = file.read(MOST_BODY + 1)
    except OSError as fault:
        tally.refused += 1
        tally.sign(f"{path} can't be read: {why_of(fault)}")
        return
    if len(body) > MOST_BODY:
        tally.refused += 1
        tally.sign(f"{path}: over {MOST_BODY:,} bytes, which is refused")
        return
    try:
        line = look_at_feed(tally, body, context, now, use) if kind == "feed" else look_at_delivery(tally, body, context, now, kind)
    except (NotDelivery, FeedFault) as fault:
        tally.refused += 1
        tally.sign(f"{path}: refused: {fault}")
        telling.tell_refusal(said, path, body, fault, kind == "feed")
        return
    if not use.quiet:
        said.tell(f"{path}: {line}")


def look_at_delivery(tally, body, context, now, kind):
    """A delivery: its line."""
    is_situation = kind == "sx"
    items = telling.items_of(body, is_situation)
    root = telling.root_of(body)
    tally.unread.look(root)
    for holder in seen.deliveries_of(root):
        look_at_head(tally, holder)
    tally.items[kind] += len(items)
    if not items:
        tally.sign("a delivery has no item: nothing would be taken, and nothing be told as wrong")
    if not is_situation:
        for item, outer in items:
            look_at_journey(tally, item, outer, now, context)
    if context is None:
        return f"{len(items)} items"
    verdicts = telling.verdicts_of(items, context, is_situation)
    taken = 0
    for (item, _), verdict in zip(items, verdicts):
        if isinstance(verdict, str):
            look_at_fault(tally, item, verdict, is_situation)
        else:
            taken += 1
            if not is_situation and verdict.reading is not CANCELLED:
                add_delays(tally, verdict, context)
    tally.taken[kind] += taken
    return f"{len(items)} items, taken {taken} aside {len(items) - taken}"


def look_at_head(tally, holder):
    if truth(holder, "Status") is False:
        tally.sign("Status is false: the producer says that it couldn't answer")
    if truth(holder, "MoreData") is True:
        tally.sign("MoreData is true: the producer has more pages, which have to be asked for too (deploy/adapt/pages)")
    if holder.get("ErrorCondition") not in (None, "", [], {}):
        tally.sign("there is an ErrorCondition: the producer tells a fault")


def look_at_journey(tally, item, outer, now, context):
    if not isinstance(item, dict):
        return
    if truth(item, "Cancellation") is True:
        tally.cancelled += 1
    elif any(value_of(call, name) for call in calls_of(item) for name in TIMES):
        tally.timed += 1
    try:
        at = recorded_at(item, outer, context.zone if context else AnyZone()) // NANOS
    except BadMember:
        return
    if at > now + AHEAD:
        tally.ahead.append(at)


def look_at_fault(tally, item, fault, is_situation):
    tally.faults[telling.group_of(fault)] += 1
    words = fault.split()
    if not isinstance(item, dict):
        return
    framed = item.get("FramedVehicleJourneyRef")
    if words[0] == "UnknownJourney":
        tally.unknown["trip"].append(value_of(framed, "DatedVehicleJourneyRef"))
    elif words[0] == "UnknownStop" and not is_situation:
        calls = calls_of(item)
        stop = value_of(calls[int(words[1])], "StopPointRef")
        tally.unknown["stop"].append(stop)
        tally.stops[stop] += 1
    elif words[0] == "UnknownRef":
        for one in seen.references_of(item):
            kind = {"LineRef": "route", "StopPointRef": "stop"}.get(one.kind, "trip")
            tally.unknown[kind].append(one.id)


def add_delays(tally, record, context):
    for reading, stop in zip(record.reading, context.planned(record.trip, record.day)):
        if reading not in (ABSENT, SKIPPED):
            tally.delays.append(reading.arrival - stop.arrival)


def look_at_feed(tally, body, context, now, use):
    """A feed: its line."""
    feed = read_feed(body)
    if feed["header"]["incrementality"] == DIFFERENTIAL:
        raise FeedFault("Differential")
    updates = [entity["trip_update"] for entity in feed["entity"] if entity["trip_update"] and not entity["is_deleted"]]
    alerts = sum(entity["alert"] is not None for entity in feed["entity"])
    timed = sum(seen.has_times(update) for update in updates)
    canceled = sum(update["trip"]["schedule_relationship"] == 3 for update in updates)
    line = f"{len(body)} bytes, {len(updates)} journeys, {canceled} cancelled, {timed} with times, {alerts} alerts"
    if not feed["entity"]:
        tally.sign("the feed is empty: it was just started, or no sender comes through")
    elif updates and len(updates) > canceled and 2 * timed < len(updates) - canceled:
        tally.sign(f"of {len(updates)} journeys of a feed only {timed} have times")
    stamps = [update["timestamp"] for update in updates if update["timestamp"] is not None]
    if stamps:
        age = now - max(stamps)
        line += f", the newest record is {age} s old"
        if age > use.older:
            tally.sign(f"the newest record of a feed is {age} s old ({moment_text(max(stamps))}): no news for over {use.older} s")
        if age < -AHEAD:
            tally.sign(f"the newest record of a feed is {-age} s ahead of the clock")
    if context is not None:
        reading = readings_of(feed, context)
        line += f", taken {reading.taken} aside {len(reading.aside)}"
        tally.items["feed"] += reading.taken + len(reading.aside)
        tally.taken["feed"] += reading.taken
        for index, fault in reading.aside:
            tally.faults[telling.group_of(fault)] += 1
            seen.add_unknown_of_feed(tally, feed["entity"][index], fault)
        for dated in reading.journeys:
            if dated.reading is not CANCELLED:
                add_delays(tally, dated, context)
    return line


def finish(said, use, tally, context, now):
    """The signs of all bodies together, and what isn't read."""
    journeys = tally.items["et"]
    running = journeys - tally.cancelled
    if running and 2 * tally.timed < running:
        tally.sign(f"of {running} journeys that aren't cancelled only {tally.timed} have a time")
    if tally.ahead:
        tally.sign(f"{len(tally.ahead)} records are of the future, up to {moment_text(max(tally.ahead))}: each holds off later news until then")
    for line in [*tally.unread.signs(), *seen.hour_signs(tally.delays), *seen.prefix_signs(tally.unknown, context)]:
        tally.sign(line)
    for line in seen.stop_signs(tally.stops, use.schedule, context):
        tally.sign(line)
    items, taken = sum(tally.items.values()), sum(tally.taken.values())
    if context is not None and items and 2 * taken < items:
        tally.sign(f"of {items} items only {taken} would be taken")
    if not use.quiet:
        for fault, count in tally.faults.most_common():
            said.tell(f"aside: {count:,} {fault}")
        if tally.unread.counts:
            said.tell("members that nobody reads, by how often:")
            said.tell_all(tally.unread.lines(use.most))
    for sign in tally.signs:
        said.tell(f"sign: {sign}")
    if not tally.signs and not use.quiet:
        said.tell("no sign of anything wrong")
