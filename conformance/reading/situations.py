"""Deliveries of situations: what each one says and affects."""

from dataclasses import dataclass

from .deliveries import Aside, not_delivery, way_down
from .members import (
    MISSING,
    BadMember,
    an_object,
    member,
    needed,
    needed_text,
    objects,
    read_text,
    repeated,
    text,
    whole,
)
from .moments import NANOS, read_either_day, read_moment

CAUSES = {"EquipmentReason": 3, "EnvironmentReason": 8, "PersonnelReason": 2, "MiscellaneousReason": 2}
UNKNOWN_CAUSE = 1
EFFECTS = {
    "cancelled": 1,
    "noService": 1,
    "delayed": 3,
    "diverted": 4,
    "additionalService": 5,
    "altered": 6,
    "disrupted": 6,
}
UNKNOWN_EFFECT = 8


@dataclass
class Reference:
    """A route, a stop or a journey that is affected. `kind` is the member that names it."""

    kind: str
    id: str
    day: object = None


@dataclass
class Situation:
    number: str
    version: int
    is_served: bool
    periods: list  # pairs of seconds, each of them None where it is missing
    references: list
    unknown_references: int
    cause: int
    effect: int
    summary: str
    description: str


def situation_items(body):
    _, deliveries = way_down(body, "SituationExchangeDelivery")
    groups = []
    for delivery in deliveries:
        group = member(delivery, "Situations")
        if group is not MISSING and not isinstance(group, dict):
            raise not_delivery("Situations")
        groups.append({} if group is MISSING else group)
    return [item for group in groups for item in repeated(group, "PtSituationElement")]


def read_situations(body, context):
    """Each item in document order: a Situation, or the text of its fault."""
    return [verdict(item, context) for item in situation_items(body)]


def verdict(item, context):
    try:
        if not isinstance(item, dict):
            raise BadMember("PtSituationElement")
        return read_situation(item, context)
    except BadMember as bad:
        return f"BadField {bad.name}"
    except Aside as aside:
        return str(aside)


def read_situation(item, context):
    """The members in the order in which a wrong one is told."""
    number = needed_text(item, "SituationNumber")
    version = whole(item, "Version")
    progress = text(item, "Progress")
    periods = read_periods(item, context.zone)
    summary = text(item, "Summary")
    description = text(item, "Description")
    references = read_references(an_object(item, "Affects"))
    condition = read_condition(item)
    if not references:
        raise Aside("NoAffects")
    known = [reference for reference in references if is_known(reference, context.table)]
    if not known:
        raise Aside(f"UnknownRef {references[0].kind}")
    return Situation(
        number=number,
        version=0 if version is MISSING else version,
        is_served=not is_hidden(progress),
        periods=periods,
        references=known,
        unknown_references=len(references) - len(known),
        cause=cause_of(item),
        effect=EFFECTS.get(condition, UNKNOWN_EFFECT),
        summary=None if summary is MISSING else summary,
        description=None if description is MISSING else description,
    )


def is_hidden(progress):
    return progress is not MISSING and progress.isascii() and progress.lower() in ("closed", "draft")


def cause_of(item):
    """By the first reason that is there; its value isn't looked at."""
    for name, cause in CAUSES.items():
        if member(item, name) is not MISSING:
            return cause
    return UNKNOWN_CAUSE


def read_periods(item, zone):
    """A period with neither end isn't kept."""
    holders = objects(item, "ValidityPeriod")
    ends = [
        [read_text(holder, name, lambda value: read_moment(value, zone)) for holder in holders]
        for name in ("StartTime", "EndTime")
    ]
    periods = [
        tuple(None if nanos is MISSING else nanos // NANOS for nanos in pair) for pair in zip(*ends)
    ]
    return [period for period in periods if period != (None, None)]


def read_condition(item):
    """The condition of the first consequence."""
    consequences = objects(an_object(item, "Consequences"), "Consequence")
    return text(consequences[0], "Condition") if consequences else MISSING


def inside(holders, name):
    """The objects of that name in all the holders, each repeated."""
    return [item for holder in holders for item in objects(holder, name)]


def read_references(affects):
    networks = inside([an_object(affects, "Networks")], "AffectedNetwork")
    lines = last_members(inside(networks, "AffectedLine"), "LineRef")
    points = inside([an_object(affects, "StopPoints")], "AffectedStopPoint")
    stops = last_members(points, "StopPointRef")
    vehicles = inside([an_object(affects, "VehicleJourneys")], "AffectedVehicleJourney")
    frames = [member(vehicle, "FramedVehicleJourneyRef") for vehicle in vehicles]
    frames = [frame for frame in frames if frame is not MISSING]
    if not all(isinstance(frame, dict) for frame in frames):
        raise BadMember("FramedVehicleJourneyRef")
    days = [needed(read_text(f, "DataFrameRef", read_either_day), "DataFrameRef") for f in frames]
    trips = [needed_text(frame, "DatedVehicleJourneyRef") for frame in frames]
    return (
        [Reference("LineRef", line) for line in lines]
        + [Reference("StopPointRef", stop) for stop in stops]
        + [Reference("DatedVehicleJourneyRef", trip, day) for trip, day in zip(trips, days)]
    )


def last_members(holders, name):
    """The Texts of that name; an item without one is passed over."""
    texts = [text(holder, name) for holder in holders]
    return [found for found in texts if found is not MISSING]


def is_known(reference, table):
    if reference.kind == "LineRef":
        return reference.id in table.route_ids
    if reference.kind == "StopPointRef":
        return reference.id in table.stop_ids
    return reference.id in table.trip_numbers
