"""Where the members of an item stand, what may stand in them, and what is wrong with what does."""

import json
import re

from reading.members import MISSING, BadMember, flag, member, needed, objects, read_text, text, whole
from reading.moments import read_either_day, read_moment

CALLS = (("RecordedCalls", "RecordedCall"), ("EstimatedCalls", "EstimatedCall"))
LINES = ("Affects", "Networks", "AffectedNetwork", "AffectedLine")
STOPS = ("Affects", "StopPoints", "AffectedStopPoint")
JOURNEYS = ("Affects", "VehicleJourneys", "AffectedVehicleJourney")
FRAMED = "FramedVehicleJourneyRef"

# The ways down from an item to what has the member.
JOURNEY_WAYS = {
    "RecordedAtTime": [()],
    FRAMED: [()],
    "DataFrameRef": [(FRAMED,)],
    "DatedVehicleJourneyRef": [(FRAMED,)],
    "Cancellation": [(), *CALLS],
    "ExtraJourney": [()],
    "RecordedCalls": [()],
    "EstimatedCalls": [()],
    "RecordedCall": [("RecordedCalls",)],
    "EstimatedCall": [("EstimatedCalls",)],
}
SITUATION_WAYS = {
    "StartTime": [("ValidityPeriod",)],
    "EndTime": [("ValidityPeriod",)],
    "Networks": [LINES[:1]],
    "AffectedNetwork": [LINES[:2]],
    "AffectedLine": [LINES[:3]],
    "LineRef": [LINES],
    "StopPoints": [STOPS[:1]],
    "AffectedStopPoint": [STOPS[:2]],
    "StopPointRef": [STOPS],
    "VehicleJourneys": [JOURNEYS[:1]],
    "AffectedVehicleJourney": [JOURNEYS[:2]],
    FRAMED: [JOURNEYS],
    "DataFrameRef": [(*JOURNEYS, FRAMED)],
    "DatedVehicleJourneyRef": [(*JOURNEYS, FRAMED)],
    "Consequence": [("Consequences",)],
    "Condition": [("Consequences", "Consequence")],
}

REQUIRED = {FRAMED, "DataFrameRef", "DatedVehicleJourneyRef", "StopPointRef", "SituationNumber", "RecordedAtTime"}
NOT_REQUIRED_OF_SITUATIONS = {FRAMED, "StopPointRef"}
FORMS = {
    "moment": ("RecordedAtTime", "ActualArrivalTime", "ExpectedArrivalTime", "ActualDepartureTime",
               "ExpectedDepartureTime", "StartTime", "EndTime"),
    "day": ("DataFrameRef",),
    "flag": ("Cancellation", "ExtraJourney", "ExtraCall"),
    "whole": ("Order", "Version"),
    "object": (FRAMED, "RecordedCalls", "EstimatedCalls", "Affects", "Networks", "StopPoints", "VehicleJourneys",
               "Consequences"),
    "objects": ("RecordedCall", "EstimatedCall", "ValidityPeriod", "AffectedNetwork", "AffectedLine",
                "AffectedStopPoint", "AffectedVehicleJourney", "Consequence"),
}
FORM_OF = {name: form for form, names in FORMS.items() for name in names}
MAY_STAND = {
    "moment": 'a text YYYY-MM-DDThh:mm:ss, then at most a dot and 1 to 9 digits, then Z, +hh:mm, -hh:mm or nothing',
    "day": 'a text YYYY-MM-DD or YYYYMMDD',
    "flag": 'true or false, or one of the texts "true", "false", "1", "0"',
    "whole": 'a number of digits alone, or a text of them, below 2^64',
    "object": 'an object { .. }',
    "objects": 'an object { .. }, or an array of objects',
    "text": 'a text, or {"value": a text}, or an array whose first item is one of these',
}


class AnyZone:
    """A zone in which local times are UTC: enough to tell whether a text is a moment."""

    def compatible_offset(self, _):
        return 0


READS = {
    "moment": lambda holder, name: read_text(holder, name, lambda value: read_moment(value, AnyZone())),
    "day": lambda holder, name: read_text(holder, name, read_either_day),
    "flag": flag,
    "whole": whole,
    "text": text,
    "objects": objects,
}


def form_of(name):
    return FORM_OF.get(name, "text")


def is_bad(holder, name, required):
    """Whether a member of that name can't stand so."""
    try:
        if form_of(name) == "object":
            value = member(holder, name)
            if value is not MISSING and not isinstance(value, dict):
                raise BadMember(name)
        else:
            value = READS[form_of(name)](holder, name)
        if required:
            needed(value, name)
    except BadMember:
        return True
    return False


def holders(holder, way):
    """All objects at the end of a way; what has another form on it is passed over."""
    found = [holder]
    for name in way:
        values = [member(one, name) for one in found if isinstance(one, dict)]
        found = []
        for value in values:
            if isinstance(value, list):
                found += value
            elif value is not MISSING:
                found.append(value)
    return [one for one in found if isinstance(one, dict)]


def calls_of(item):
    """The calls in the order in which they are numbered."""
    return holders(item, CALLS[0]) + holders(item, CALLS[1])


def find_bad(item, name, is_situation):
    """The first object in which the member of that name is wrong, or None."""
    ways = SITUATION_WAYS.get(name, [()]) if is_situation else JOURNEY_WAYS.get(name, CALLS)
    required = name in REQUIRED and not (is_situation and name in NOT_REQUIRED_OF_SITUATIONS)
    for way in ways:
        for holder in holders(item, way):
            is_call = way in CALLS
            if is_call and name != "ExtraCall" and is_extra(holder):
                continue
            if is_bad(holder, name, required):
                return holder
    return None


def is_extra(call):
    try:
        return flag(call, "ExtraCall")
    except BadMember:
        return False


def shown(value, most=120):
    """A value as JSON on one line."""
    line = json.dumps(value, ensure_ascii=False, default=lambda _: 0)
    return line if len(line) <= most else line[: most - 3] + "..."


def value_of(holder, name):
    """A member's text, however it is wrapped, or None."""
    try:
        value = text(holder, name) if isinstance(holder, dict) else MISSING
    except BadMember:
        return None
    return None if value is MISSING else value


def what_is_wrong(holder, name):
    """What a person sees in the value, in a few words; empty where nothing comes to mind."""
    form, value = form_of(name), holder.get(name)
    inner = value[0] if isinstance(value, list) and value else value
    inner = inner.get("value") if isinstance(inner, dict) and form in ("moment", "day", "flag", "whole", "text") else inner
    if form == "object":
        return "an array stands where one object is read" if isinstance(value, list) else ""
    if form == "objects":
        return "not each item is an object"
    if inner is not value and isinstance(inner, (int, float)) and form in ("whole", "flag"):
        return "it is wrapped: {\"value\": ..} may hold a text, and a number or a Boolean stands bare"
    return WRONG.get(form, lambda _: "")(inner)


def wrong_moment(value):
    if not isinstance(value, str):
        return "it is a number: a moment is a text" if isinstance(value, int) else ""
    found = re.fullmatch(r"(\d{4}-\d\d-\d\d)([T ]?)(.*)", value)
    if not found or not found[3]:
        return "it has no time of day" if found else "it doesn't begin with YYYY-MM-DD"
    if found[2] != "T":
        return "between the day and the time stands a T"
    clock = re.fullmatch(r"(\d\d:\d\d)(:\d\d)?(\.\d+)?(.*)", found[3])
    if not clock:
        return "its time isn't hh:mm:ss"
    if not clock[2]:
        return "it has no seconds"
    if clock[3] and len(clock[3]) > 10:
        return "it has over 9 digits behind the dot"
    if re.fullmatch(r"[+-]\d\d(\d\d)?", clock[4]):
        return "its offset isn't of the form +hh:mm"
    if clock[4] == "z":
        return "the Z is a capital"
    if clock[4] and not re.fullmatch(r"Z|[+-]\d\d:\d\d", clock[4]):
        return f"behind the time stands {clock[4]!r}"
    return "there is no such day or time, or its year isn't from 1970 to 9998"


def wrong_day(value):
    if isinstance(value, str) and re.fullmatch(r"\d{4}-?\d\d-?\d\dT.*", value):
        return "it has a time too"
    if isinstance(value, str) and re.fullmatch(r"\d{4}-?\d\d-?\d\d", value):
        return "there is no such day"
    return "it is a number: a day is a text" if isinstance(value, int) else ""


def wrong_flag(value):
    if isinstance(value, str) and value.lower() in ("true", "false"):
        return "true and false are written small"
    return "it is a number: only the texts \"1\" and \"0\" are read" if isinstance(value, int) else ""


def wrong_whole(value):
    if isinstance(value, int) and value < 0 or isinstance(value, str) and value.startswith("-"):
        return "it is negative"
    return "it isn't of digits alone" if value is not None else ""


def wrong_text(value):
    if isinstance(value, bool) or isinstance(value, int):
        return "it is no text: it lacks its quotes"
    return ""


WRONG = {"moment": wrong_moment, "day": wrong_day, "flag": wrong_flag, "whole": wrong_whole, "text": wrong_text}
