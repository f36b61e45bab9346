"""The fewest stop time updates that say how the stops of a journey read."""

from .readings import ABSENT, SKIPPED, Timed


def shortest(stops, reading):
    """Updates as pairs of a stop and its reading: where a stop is skipped, or reads otherwise than supplied."""
    return [
        (stop, reading[k])
        for k, stop in enumerate(stops)
        if reading[k] == SKIPPED or reading[k] != supplied(stops, reading, k)
    ]


def supplied(stops, reading, k):
    """What the nearest earlier stop that isn't skipped supplies: nothing, or its departure's delay at the scheduled
    stop."""
    earlier = [i for i in range(k) if reading[i] != SKIPPED]
    if not earlier or reading[earlier[-1]] == ABSENT:
        return ABSENT
    i = earlier[-1]
    delay = reading[i].departure - stops[i].departure
    return Timed(stops[k].arrival + delay, stops[k].departure + delay, stops[k].id)
