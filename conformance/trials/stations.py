"""Stations for cases: which stops have a parent, and where vehicles stop in place of the scheduled stop."""

from dataclasses import dataclass

PLATFORMS = ["B2", "A/2", "pl 3", "\u00c9-2", "1 b", "st-9"]
NAMES = ["station", "\u00e9 station", "st"]
LONG_IDS = ["y" * 200, "\u00e9" * 100]
LAST_IDS = ["z" * length for length in range(94, 99)]
MOST_BYTES = 4_096
LONG_PLACES = MOST_BYTES // 200


@dataclass
class Stations:
    parents: dict  # from each stop of the folder to its parent, or to ""
    is_long: bool = False  # whether there are ids of which a trip's places may have too many bytes

    def station_of(self, stop):
        return self.parents.get(stop) or stop

    def stops_like(self, stop):
        """The stops of the stop's station."""
        station = self.station_of(stop)
        return [name for name in self.parents if self.station_of(name) == station] or [stop]

    def places(self, dice, stops, oddness):
        """For each scheduled stop the one at which a vehicle stops: the same, or another, mostly of its station."""
        if self.is_long:
            return self.long_places(dice, stops)
        changes = dice.choice((0.1, 0.4, 1.0))
        places = []
        for stop in stops:
            place = dice.choice(self.stops_like(stop)) if dice.random() < changes else stop
            if dice.random() < oddness * 0.15:
                place = dice.choice([*self.parents, "NOWHERE"])
            places.append(place)
        return places

    def long_places(self, dice, stops):
        """Places whose ids have as many bytes as they may have, or a few more or less."""
        places = list(stops)
        at = dice.sample(range(len(stops)), min(len(stops), LONG_PLACES + 1))
        for k in at[:-1]:
            places[k] = dice.choice(LONG_IDS)
        places[at[-1]] = dice.choice((*LAST_IDS, *LAST_IDS[2:4], *LAST_IDS[2:4]))
        if dice.one_in(6):
            k = dice.randrange(len(stops))
            places[k] = dice.choice((*self.parents, stops[k]))
        return places


def random_stations(dice, pool, kind=None):
    """None in most cases; else the parents of the stops of the pool and of others."""
    kind = kind or dice.weighted(none=90, some=6, odd=2, long=2)
    if kind == "none":
        return None
    if kind == "odd":
        names = [*pool, *dice.choice(([], [], ["station"], ["\u00e9 station", "y" * 200]))]
        return Stations({name: dice.choice(("", *names)) for name in names})
    if kind == "long":
        few = pool[: dice.randint(1, 2)]
        return Stations({name: "st" for name in (*few, *LONG_IDS, *LAST_IDS)} | {"st": dice.choice(("", "st"))}, True)
    stations = dice.sample([*NAMES, pool[0]], dice.choice((1, 1, 2, 3)))
    names = [*pool, *dice.sample(PLATFORMS, dice.randint(1, 4))]
    parents = {name: dice.choice((*stations, *stations, *stations, "")) for name in names}
    for station in stations:
        parents[station] = dice.choice(("", "", "", station, stations[0]))
    return Stations(parents)
