"""The delivery that a feed makes, in JSON: every call of every journey of it."""

from .json_text import json_text
from .moments import day_text, moment_text
from .readings import ABSENT, CANCELLED, SKIPPED


def written_delivery(reading, context, moment):
    stamp = moment_text(moment)
    frame = {
        "EstimatedVehicleJourney": [journey(dated, context, moment) for dated in reading.journeys],
        "RecordedAtTime": stamp,
    }
    delivery = {
        "EstimatedJourneyVersionFrame": [frame],
        "ResponseTimestamp": stamp,
        "version": "2.0",
    }
    service = {"EstimatedTimetableDelivery": [delivery], "ResponseTimestamp": stamp}
    return json_text({"Siri": {"ServiceDelivery": service}})


def journey(dated, context, moment):
    trip = context.table.trips[dated.trip]
    stops = context.planned(dated.trip, dated.day)
    is_cancelled = dated.reading == CANCELLED
    readings = [SKIPPED] * len(stops) if is_cancelled else dated.reading
    return {
        "Cancellation": is_cancelled,
        "EstimatedCalls": {
            "EstimatedCall": [call(k, stop, readings[k - 1]) for k, stop in enumerate(stops, 1)]
        },
        "FramedVehicleJourneyRef": {
            "DataFrameRef": day_text(dated.day),
            "DatedVehicleJourneyRef": trip.id,
        },
        "IsCompleteStopSequence": True,
        "LineRef": trip.route,
        "RecordedAtTime": moment_text(moment if dated.recorded is None else dated.recorded),
    }


def call(order, stop, reading):
    members = {
        "AimedArrivalTime": moment_text(stop.arrival),
        "AimedDepartureTime": moment_text(stop.departure),
        "Order": order,
        "StopPointRef": stop.id,
    }
    if reading == SKIPPED:
        members["Cancellation"] = True
    elif reading != ABSENT:
        members["ExpectedArrivalTime"] = moment_text(reading.arrival)
        members["ExpectedDepartureTime"] = moment_text(reading.departure)
        members["StopPointRef"] = reading.place
    return members
