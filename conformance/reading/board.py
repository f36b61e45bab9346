"""The board of a stop: which vehicles stop there within some minutes, as a SIRI StopMonitoring delivery."""

from typing import NamedTuple

from .json_text import json_text
from .moments import NANOS, day_text, moment_text
from .readings import CANCELLED, Timed


class Visit(NamedTuple):
    """A vehicle's stop, by its expected times; visits stand in the order of the first five."""

    arrival: int
    departure: int
    day: object
    trip: int
    position: int  # of the stop in its trip, from 0
    recorded: int  # in whole seconds


def visits(records, stop, begin, minutes):
    """Those at the stop that have not left before the begin and have arrived before the end. A record that is cancelled
    has none, nor has a stop that is skipped or of which nothing is known."""
    found = [
        Visit(at.arrival, at.departure, record.day, record.trip, k, record.at // NANOS)
        for record in records
        if record.reading != CANCELLED
        for k, at in enumerate(record.reading)
        if isinstance(at, Timed) and at.place == stop and at.departure >= begin and at.arrival < begin + 60 * minutes
    ]
    return sorted(found)


def written_board(found, context, stop, moment):
    """The delivery of these visits."""
    stamp = moment_text(moment)
    delivery = {
        "MonitoredStopVisit": [written_visit(one, context, stop) for one in found],
        "ResponseTimestamp": stamp,
        "version": "2.0",
    }
    service = {"ResponseTimestamp": stamp, "StopMonitoringDelivery": [delivery]}
    return json_text({"Siri": {"ServiceDelivery": service}})


def written_visit(visit, context, stop):
    trip = context.table.trips[visit.trip]
    planned = context.planned(visit.trip, visit.day)[visit.position]
    call = {
        "AimedArrivalTime": moment_text(planned.arrival),
        "AimedDepartureTime": moment_text(planned.departure),
        "ExpectedArrivalTime": moment_text(visit.arrival),
        "ExpectedDepartureTime": moment_text(visit.departure),
        "Order": visit.position + 1,
        "StopPointRef": stop,
    }
    named = {"DataFrameRef": day_text(visit.day), "DatedVehicleJourneyRef": trip.id}
    journey = {"FramedVehicleJourneyRef": named, "LineRef": trip.route, "MonitoredCall": call}
    return {"MonitoredVehicleJourney": journey, "MonitoringRef": stop, "RecordedAtTime": moment_text(visit.recorded)}
