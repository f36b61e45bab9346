"""Cases of vehicles that stop at other stops of a station: sound folders, with deliveries and feeds that are nearly so."""

from datetime import date, timedelta

from .case import Case
from .feed_cases import Feeds
from .json_cases import json_bytes, json_copy
from .siri_cases import AT, Journeys
from .stations import random_stations
from .worlds import STOPS, TripRow, World, folder_files, random_stops

FIRST, DAYS = date(2024, 5, 1), 3
ZONES = ("UTC0", "CET-1CEST,M3.5.0,M10.5.0/3")
ALWAYS = {"S0": (["1"] * 7, date(1971, 1, 1), date(9998, 12, 31), [])}


def place_world(dice):
    """Trips that run each day, over stops that have stations."""
    pool = dice.sample(STOPS, dice.randint(1, 5))
    stations = random_stations(dice, pool, dice.weighted(some=5, odd=1, long=2))
    names = list(stations.parents)
    called = pool[:1] if stations.is_long else dice.choice((pool, names))
    trips = []
    for i in range(dice.choice((1, 1, 2, 3))):
        length = dice.randint(21, 30) if stations.is_long else None
        trips.append(TripRow(f"T{i}", "R1", "S0", random_stops(dice, called, dice.one_in(4), length)))
    files = folder_files(dice, trips, names, ["R1"], ALWAYS, [], stations)
    window = [FIRST + timedelta(days=n) for n in range(DAYS)]
    return World(["--zone-rule", dice.choice(ZONES)], FIRST, DAYS, files, trips, trips, ["R1"], names, window=window,
        clock_days=[str(FIRST)], stations=stations)


def place_case(dice, command):
    world, oddness = place_world(dice), dice.choice((0.0, 0.0, 0.1, 0.3))
    if command == "to-gtfsrt":
        words, files = world.words(command, dice.choice(AT)), {}
        for i in range(dice.choice((1, 1, 2))):
            files[f"{i}.json"] = json_bytes(json_copy(Journeys(dice, world, oddness).delivery()))
            words += ["--et", f"{i}.json"]
    else:
        words = world.words(command, None if command == "show" else dice.choice(AT)) + ["--feed", "feed.pb"]
        files = {"feed.pb": Feeds(dice, world, oddness).feed()}
    return Case([word.encode() for word in words], world.files | files)
