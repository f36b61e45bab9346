"""The alerts of a feed as situations: which are taken, and the delivery that they make, in JSON."""

from .json_text import json_text
from .moments import LAST_MOMENT, day_text, moment_text, read_compact_day

KEPT_CAUSES = (2, 3, 8)
OTHER_CAUSES = (4, 5, 6, 7, 9, 10, 11, 12)
OTHER_CAUSE, UNKNOWN_CAUSE = 2, 1
REASONS = {2: "MiscellaneousReason", 3: "EquipmentReason", 8: "EnvironmentReason"}
CONDITIONS = {1: "noService", 3: "delayed", 4: "diverted", 5: "additionalService", 6: "altered"}


def situations_of(feed, context, moment):
    """The elements of the alerts that are taken, how many entities and selectors are passed over, and the
    entities that are set aside, each with its number and its fault."""
    elements, passed, aside = [], 0, []
    for index, entity in enumerate(feed["entity"]):
        alert = None if entity["is_deleted"] else entity["alert"]
        if alert is None:
            passed += 1
            continue
        named = [what_is_named(selector, context.table) for selector in alert["informed_entity"]]
        kept = [one for one in named if one is not None]
        passed += len(named) - len(kept)
        fault = fault_of(entity["id"], alert["active_period"], kept)
        if fault is None:
            elements.append(element(entity["id"], alert, kept, moment))
        else:
            aside.append((index, fault))
    return elements, passed, aside


def what_is_named(selector, table):
    """The one route, stop or journey that a selector names and that is known; None for any other selector. An
    empty text is as a missing one, and the agency isn't looked at."""
    route, stop, trip = selector["route_id"] or None, selector["stop_id"] or None, selector["trip"]
    if [route, stop, trip].count(None) != 2:
        return None
    if route is not None:
        return ("route", route) if route in table.route_ids else None
    if stop is not None:
        return ("stop", stop) if stop in table.stop_ids else None
    day = read_compact_day(trip["start_date"] or "")
    if day is None or trip["trip_id"] not in table.trip_numbers:
        return None
    return ("journey", trip["trip_id"], day)


def fault_of(number, periods, kept):
    """The first fault of an alert, or None."""
    if number == "":
        return "BadField SituationNumber"
    for period in periods:
        for end, member in (("start", "StartTime"), ("end", "EndTime")):
            if period[end] is not None and period[end] > LAST_MOMENT:
                return f"BadField {member}"
    return None if kept else "NoAffects"


def element(number, alert, kept, moment):
    """The situation that an alert is; a member stands only where there is something to say."""
    members = {"Affects": affects(kept), "CreationTime": moment_text(moment), "SituationNumber": number}
    condition = CONDITIONS.get(alert["effect"])
    if condition is not None:
        members["Consequences"] = {"Consequence": [{"Condition": condition}]}
    reason = REASONS.get(cause_of(alert["cause"]))
    if reason is not None:
        members[reason] = "unknown"
    for member, name in (("Summary", "header_text"), ("Description", "description_text")):
        text = first_text(alert[name])
        if text:
            members[member] = text
    periods = [period_of(period) for period in alert["active_period"]]
    if periods and all(periods):
        members["ValidityPeriod"] = periods
    return members


def cause_of(cause):
    if cause in KEPT_CAUSES:
        return cause
    return OTHER_CAUSE if cause in OTHER_CAUSES else UNKNOWN_CAUSE


def first_text(translated):
    """The text of the first translation; nothing where there is none, or where that one is empty."""
    translations = [] if translated is None else translated["translation"]
    return translations[0]["text"] if translations else None


def period_of(period):
    """Its ends as moments. An object without members is a period that always holds, and then so does the alert."""
    ends = (("StartTime", period["start"]), ("EndTime", period["end"]))
    return {name: moment_text(seconds) for name, seconds in ends if seconds is not None}


def affects(kept):
    """Lines, stops and journeys, each in their order; all lines are of one network."""
    lines = [{"LineRef": one[1]} for one in kept if one[0] == "route"]
    stops = [{"StopPointRef": one[1]} for one in kept if one[0] == "stop"]
    journeys = [
        {"FramedVehicleJourneyRef": {"DataFrameRef": day_text(one[2]), "DatedVehicleJourneyRef": one[1]}}
        for one in kept
        if one[0] == "journey"
    ]
    members = {}
    if lines:
        members["Networks"] = {"AffectedNetwork": [{"AffectedLine": lines}]}
    if stops:
        members["StopPoints"] = {"AffectedStopPoint": stops}
    if journeys:
        members["VehicleJourneys"] = {"AffectedVehicleJourney": journeys}
    return members


def written_situations(elements, moment):
    stamp = moment_text(moment)
    delivery = {
        "ResponseTimestamp": stamp,
        "Situations": {"PtSituationElement": elements},
        "version": "2.0",
    }
    service = {"ResponseTimestamp": stamp, "SituationExchangeDelivery": [delivery]}
    return json_text({"Siri": {"ServiceDelivery": service}})
