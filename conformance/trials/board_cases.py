"""Cases of boards: of a stop at which vehicles stop, round the very seconds of their arrivals and departures."""

from reading.deliveries import NotDelivery, read_delivery
from reading.files import CaseFiles, NotReadable
from reading.folder import FileMissing, FolderFault, read_folder
from reading.moments import LAST_MOMENT, moment_text
from reading.outcome import take_journeys
from reading.readings import CANCELLED, Context, Timed
from reading.zones import ZoneRefused, read_rule, read_zone_file

from .json_cases import json_bytes, json_copy
from .place_cases import place_world
from .siri_cases import AT, Journeys, random_body
from .worlds import random_world

MINUTES = (1, 2, 5, 60, 60, 120, 1_439, 1_440)


def board_world(dice):
    """Most of them have stations and no fault."""
    return random_world(dice) if dice.one_in(3) else place_world(dice)


def board_words(dice, world):
    """Words and deliveries of a board. Its stop, its begin and its end are mostly those of some visit."""
    words = world.words("board")
    oddness = dice.choice((0.0, 0.0, 0.05, 0.2, 0.5))
    further, files = [], {}
    for i in range(dice.choice((0, 1, 1, 2, 2, 3, 3))):
        name = f"{i}.json" if not dice.one_in(12) or not files else dice.choice(sorted(files))
        if name not in files:
            maker = Journeys(dice, world, oddness)
            files[name] = random_body(dice, maker, oddness) if dice.one_in(4) else many_journeys(dice, maker)
        further += ["--et", name]
    known = [] if dice.one_in(20) else timed_stops(world, files, further[1::2])
    stop, begin, minutes, most = chosen(dice, world, known)
    begin = dice.choice(AT) if begin is None else moment_text(max(0, min(begin, LAST_MOMENT)))
    words += ["--at", begin, "--stop", stop, "--minutes", str(minutes), "--max", str(most)]
    return words + further, files


def many_journeys(dice, maker):
    """A delivery in which some journeys stand several times, recorded at different moments."""
    frame = {"EstimatedVehicleJourney": [maker.journey() for _ in range(dice.choice((1, 4, 12, 20)))], "RecordedAtTime": AT[0]}
    service = {"EstimatedTimetableDelivery": {"EstimatedJourneyVersionFrame": frame}}
    return json_bytes(json_copy({"ServiceDelivery": service}))


def chosen(dice, world, known):
    """The stop, the begin, the minutes and the number of visits; all four are near the edges of what is known."""
    minutes = dice.choice((*MINUTES, dice.randint(1, 1_440)))
    if not known:
        return dice.choice([*world.stops, *world.stops, "NOPE"]), None, minutes, dice.choice((1, 2, 10, 10_000))
    one = dice.choice(known)
    edge = dice.choice((
        one.departure, one.departure + 1, one.arrival, one.arrival - 60 * minutes, one.arrival - 60 * minutes + 1,
        *(one.arrival - dice.randint(0, 60 * minutes) for _ in range(5)),
    ))
    stop = one.place
    if dice.one_in(12):
        stop = dice.choice([*world.stops, *world.stops, "NOPE", stop + " ", stop.lower()])
    there = sum(at.place == stop and at.departure >= edge and at.arrival < edge + 60 * minutes for at in known)
    most = dice.choice((1, 2, 10, 10_000, 10_000, max(1, there - 1), max(1, there), there + 1))
    return stop, edge, minutes, most


def timed_stops(world, files, names):
    """The readings of the stops that have a time, by the latest records; none where the run is refused before that."""
    kept, files = {}, world.files | files
    try:
        table = read_folder(CaseFiles(files), world.folder)
        zone = read_rule(world.zone[1]) if world.zone[0] == "--zone-rule" else read_zone_file(files[world.zone[1]])
        context = Context(table, zone, world.window)
        for name in names:
            take_journeys(read_delivery(files[name], context), kept)
    except (FolderFault, FileMissing, NotReadable, NotDelivery, ZoneRefused):
        return []
    return [
        at
        for _, record in sorted(kept.items())
        if record.reading != CANCELLED
        for at in record.reading
        if isinstance(at, Timed)
    ]
