"""How stops and journeys read. A stop reads ABSENT (nothing is known), SKIPPED, or Timed. A journey reads
CANCELLED, or as the list of its stops' readings."""

from dataclasses import dataclass
from typing import NamedTuple

from .moments import day_start

ABSENT = "absent"
SKIPPED = "skipped"
CANCELLED = "cancelled"
MOST_DELAY = 604_800
MOST_PLACE_BYTES = 4_096


class Timed(NamedTuple):
    """Arrival and departure in seconds since 1970, and the id of the stop at which the vehicle stops: the
    scheduled one, or another of its station."""

    arrival: int
    departure: int
    place: str


@dataclass
class PlannedStop:
    id: str
    station: str
    sequence: int
    arrival: int
    departure: int


def place_bytes(stops, places):
    """The bytes of the ids of the places that aren't the scheduled stops; each with the index of its stop."""
    return sum(len(place.encode()) for k, place in places if place != stops[k].id)


class Context:
    """A timetable, a zone and the days of a window."""

    def __init__(self, table, zone, days):
        self.table = table
        self.zone = zone
        self.window = set(days)

    def planned(self, trip, day):
        """The trip's stops with their planned times on the day."""
        start = day_start(self.zone, day)
        return [
            PlannedStop(
                stop.id,
                self.table.station_of(stop.id),
                stop.sequence,
                start + stop.arrival,
                start + stop.departure,
            )
            for stop in self.table.trips[trip].stops
        ]
