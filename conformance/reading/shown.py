"""The lines of `show`, which name the scheduled stop wherever a vehicle stops."""

from .moments import day_text, moment_text
from .readings import ABSENT, CANCELLED, SKIPPED


def shown_lines(reading, context):
    lines = []
    for dated in reading.journeys:
        front = f"{day_text(dated.day)} {context.table.trips[dated.trip].id}"
        if dated.reading == CANCELLED:
            lines.append(f"{front} cancelled")
            continue
        stops = context.planned(dated.trip, dated.day)
        for k, (stop, at_stop) in enumerate(zip(stops, dated.reading), 1):
            if at_stop in (SKIPPED, ABSENT):
                told = at_stop
            else:
                told = f"{moment_text(at_stop.arrival)} {moment_text(at_stop.departure)}"
            lines.append(f"{front} {k} {stop.id} {told}")
    lines += [f"aside {index} {fault}" for index, fault in reading.aside]
    lines.append(totals(reading.taken, reading.passed, len(reading.aside)))
    return "".join(line + "\n" for line in lines).encode()


def totals(taken, passed, aside):
    return f"taken {taken} passed {passed} aside {aside}"


def report(name, taken, passed, aside):
    """What is told of one file on standard error."""
    lines = [f"{name} aside {index} {fault}" for index, fault in aside]
    lines.append(f"{name} {totals(taken, passed, len(aside))}")
    return "".join(line + "\n" for line in lines)
