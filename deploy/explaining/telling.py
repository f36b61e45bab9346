"""Reports told: for each item that is set aside which it is, what in it is wrong, and the rule."""

import json
import re
from collections import Counter

from reading.deliveries import NotDelivery, journey_items
from reading.deliveries import verdict as journey_verdict
from reading.feeds import FeedFault, read_feed
from reading.outcome import DIFFERENTIAL, take_journeys, take_situations
from reading.propagation import assigned_to, readings_of
from reading.situations import situation_items
from reading.situations import verdict as situation_verdict
from reading.written_situations import situations_of

from .bodies import refused_delivery, refused_feed
from .items import Item, with_station
from .placed import read_placed
from .rules import BODY, HTTP, ITEM, STAYS

# So many items of one fault are shown, where no other number is asked for.
MOST = 20


class Said:
    """The lines that are told, in order."""

    def __init__(self, most=MOST):
        self.lines, self.most = [], most

    def tell(self, line, deep=0):
        self.lines.append("  " * deep + line)

    def tell_all(self, lines, deep=1):
        for line in lines:
            self.tell(line, deep)


def items_of(body, is_situation):
    """The items of a delivery, each with what it stands in."""
    if is_situation:
        return [(item, ()) for item in situation_items(body)]
    return [(item, tuple(outer)) for item, *outer in journey_items(body)]


def root_of(body):
    """The object of a delivery that is taken."""
    return read_placed(body)


def verdicts_of(items, context, is_situation):
    if is_situation:
        return [situation_verdict(item, context) for item, _ in items]
    return [journey_verdict(item, outer, context) for item, outer in items]


def tell_delivery(said, name, body, context, is_situation, kept):
    """What becomes of a delivery over a folder; `kept` has what was taken before it. How many items are set aside."""
    items = items_of(body, is_situation)
    verdicts = verdicts_of(items, context, is_situation)
    taken = (take_situations if is_situation else take_journeys)(verdicts, kept)
    aside = [(i, fault) for i, (fault, _) in enumerate(taken) if fault is not None]
    counts = f"taken {len(items) - len(aside)} passed {sum(count for _, count in taken)} aside {len(aside)}"
    said.tell(f"{name}: {counts}")
    tell_items(said, items, aside, body, is_situation, context)
    return len(aside)


def tell_items(said, items, aside, body, is_situation, context=None):
    """The items that are set aside, by fault."""
    text = body.decode("utf-8")
    by_fault = {}
    for index, fault in aside:
        by_fault.setdefault(group_of(fault), []).append((index, fault))
    table = context and context.table
    for group, members in sorted(by_fault.items(), key=lambda pair: -len(pair[1])):
        tell_group(said, group, len(members))
        for index, fault in members[: said.most]:
            if index >= len(items):
                said.tell(f"item {index}: the delivery has only {len(items)} items, so this report is of another one", 1)
                continue
            one = Item(index, fault, items[index][0], text, is_situation, items[index][1])
            said.tell(f"item {index}: {one.name()}" + (f" ({fault})" if fault != group else ""), 1)
            said.tell_all(one.lines(table, context), 2)
        if len(members) > said.most:
            said.tell(f".. and {len(members) - said.most} more (--most N shows more)", 1)
    if aside:
        said.tell(STAYS)


def tell_group(said, group, count):
    said.tell(f"{group}: {count} item{'s' * (count != 1)}")
    rule = ITEM.get(group.split()[0])
    if rule:
        said.tell(rule, 1)


def group_of(fault):
    """A fault without its numbers, by which items are gathered."""
    return " ".join(word for word in fault.split() if not re.fullmatch(r"-?\d+", word))


def tell_feed(said, name, body, context, command, at=0):
    """What becomes of a feed over a folder. How many entities are set aside."""
    feed = read_full_feed(body)
    if command == "to-siri-sx":
        taken, passed, aside = situations_of(feed, context, at)
        taken = len(taken)
    else:
        reading = readings_of(feed, context)
        taken, passed, aside = reading.taken, reading.passed, reading.aside
    said.tell(f"{name}: taken {taken} passed {passed} aside {len(aside)}")
    tell_entities(said, feed, aside, context)
    return len(aside)


def read_full_feed(body):
    feed = read_feed(body)
    if feed["header"]["incrementality"] == DIFFERENTIAL:
        raise FeedFault("Differential")
    return feed


def tell_entities(said, feed, aside, context=None):
    groups = Counter(group_of(fault) for _, fault in aside)
    for group, count in groups.most_common():
        tell_group(said, group, count)
        members = [(index, fault) for index, fault in aside if group_of(fault) == group]
        for index, fault in members[: said.most]:
            if index >= len(feed["entity"]):
                said.tell(f"entity {index}: the feed has only {len(feed['entity'])}, so this report is of another one", 1)
                continue
            said.tell_all(entity_lines(feed["entity"][index], index, fault, group, context))
        if len(members) > said.most:
            said.tell(f".. and {len(members) - said.most} more (--most N shows more)", 1)


def entity_lines(entity, index, fault, group, context):
    """Which entity it is, and its update."""
    update = entity["trip_update"]
    lines = [f"entity {index}, id {entity['id']}" + (f" ({fault})" if fault != group else "")]
    if update is None:
        return lines
    trip = update["trip"]
    lines[0] += f": trip {trip['trip_id'] or '(none)'}, start_date {trip['start_date'] or '(none)'}"
    if trip["route_id"]:
        lines[0] += f", route {trip['route_id']}"
    words = fault.split()
    if words[0] == "NoDate" and trip["start_date"]:
        lines.append(f"  start_date is {trip['start_date']!r}: it has to be YYYYMMDD")
    if words[0] == "PlacesTooLong":
        others = [one for one in update["stop_time_update"] if assigned_to(one)]
        lines.append(f"  {len(others)} updates have an assigned_stop_id")
    if words[0] in ("UnknownStop", "StopMismatch", "OutOfOrder", "OtherPlace", "NoTime", "DelayRange"):
        number = int(words[1])
        one = update["stop_time_update"][number]
        assigned = assigned_to(one)
        lines.append(
            f"  update {number}: stop_sequence {one['stop_sequence']}, stop_id {one['stop_id'] or '(none)'}"
            + (f", assigned_stop_id {assigned}" if assigned else "")
        )
        if words[0] == "OtherPlace" and context:
            station = context.table.station_of(assigned)
            lines.append(f"  {assigned} is " + ("no stop of stops.txt" if station is None else f"of the station {station}"))
        known = context and context.table.trip_numbers.get(trip["trip_id"])
        if known is not None:
            stops = context.table.trips[known].stops
            named = (f"{stop.sequence} {with_station(stop.id, context.table)}" for stop in stops)
            lines.append("  the trip stops at: " + ", ".join(named))
    return lines


def tell_refusal(said, name, body, fault, is_feed):
    """A body that is refused whole, with that text."""
    said.tell(f"{name}: refused: {fault}")
    if str(fault).split()[0] in BODY:
        said.tell(BODY[str(fault).split()[0]], 1)
    said.tell_all(refused_feed(body, fault) if is_feed else refused_delivery(body, fault))


# A report that was kept, with its delivery.


class NoReport(Exception):
    """What should be a report is none."""


ASIDE = re.compile(r"^.* aside (\d+) ([A-Z]\S*(?: -?\S+)*)$")


def read_report(data):
    """Pairs of an index and a fault, or the text of a refusal."""
    text = data.decode("utf-8", "replace").strip()
    if text.startswith("{"):
        try:
            report = json.loads(text)
            return [(item["index"], item["fault"]) for item in report["aside"]]
        except (ValueError, KeyError, TypeError):
            raise NoReport("it is JSON, but no report of the gateway") from None
    pairs = [(int(found[1]), found[2]) for found in map(ASIDE.match, text.splitlines()) if found and not found[2].isdigit()]
    if pairs:
        return pairs
    refused = re.search(r"\bH[45]\d\d ([A-Z].*)", text) or re.search(
        r"\b((?:NotJson|NotDelivery|Wire|NotText|MissingField|EntityTooLong|Differential|TooManyCalls)\b.*)", text)
    if refused:
        return refused[1].strip()
    if re.search(r"\btaken \d+ passed \d+ aside 0\b", text):
        return []
    raise NoReport("it has neither the JSON of an answer, nor lines `FILE aside N FAULT`, nor a refusal")


def kind_of(body):
    """Which body it is: "et", "sx" or "feed"."""
    front = body.lstrip(b"\xef\xbb\xbf \t\r\n")[:1]
    if front not in (b"{", b"["):
        return "et" if front == b"<" or not body else "feed"
    if b'"SituationExchangeDelivery"' in body and b'"EstimatedTimetableDelivery"' not in body:
        return "sx"
    return "et"


def tell_report(said, report, name, body, context=None):
    """A server's report, or what a command said, with the body that it is of."""
    kind = kind_of(body)
    if isinstance(report, str):
        word = report.split()[0]
        if word in HTTP:
            said.tell(f"{report}: {HTTP[word]}")
        else:
            is_feed = word not in ("NotJson", "NotDelivery")
            tell_refusal(said, name, body, report, is_feed)
        return
    said.tell(f"{name}: aside {len(report)}")
    if kind == "feed":
        try:
            tell_entities(said, read_feed(body), report, context)
        except FeedFault as fault:
            tell_refusal(said, name, body, fault, True)
        return
    try:
        items = items_of(body, kind == "sx")
    except NotDelivery as fault:
        tell_refusal(said, name, body, fault, False)
        return
    tell_items(said, items, report, body, kind == "sx", context)
