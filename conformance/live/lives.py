"""What a server of a trial serves: a folder with its zone and window, and the bodies that its senders have."""

import importlib.util
import json
import pathlib
import subprocess
import tempfile
from datetime import date, datetime, timedelta, timezone

from reading.files import CaseFiles, NotReadable
from reading.folder import FileMissing, FolderFault
from reading.moments import moment_text
from reading.outcome import MOST_SITUATIONS, FurtherFault
from reading.server import Setting
from reading.words import BadWord
from reading.zones import ZoneRefused
from trials.feed_cases import random_feed
from trials.siri_cases import Journeys, Situations, random_body
from trials.stations import Stations
from trials.store import files_below
from trials.worlds import TripRow, World, folder_files, random_services, random_stops, random_world

CHECKOUT = pathlib.Path(__file__).resolve().parent.parent.parent
EXAMPLE = CHECKOUT / "examples/riverside"
LONDON = "GMT0BST,M3.5.0/1,M10.5.0"
FAR_DAYS = ["2037-03-29", "2037-06-12", "2037-10-25", "2096-02-29", "2399-12-31", "9997-12-31"]
MOST_ALERT = 65_536
PRINTABLE = "".join(map(chr, range(0x20, 0x7F)))


class Life:
    """The words and files of a server, what its connections mean, and a way to make bodies for it."""

    def __init__(self, kind, world, keep, ready=()):
        self.kind, self.world, self.keep, self.ready, self.sent = kind, world, keep, list(ready), 0
        self.words = [word.encode() for word in [*world.words("serve"), "--keep", str(keep)]]
        listened = [*self.words, b"--listen", b"x:1", b"--connections", b"1"]
        self.setting = Setting(listened, CaseFiles(world.files))
        table = self.setting.table
        carried = [trip for trip in range(len(table.trips)) if table.trips[trip].stops]
        self.dated = [(trip, day) for day in world.window[:6] for trip in carried if table.runs(trip, day)]

    def write(self, folder):
        for name, data in self.world.files.items():
            path = pathlib.Path(folder, name)
            path.parent.mkdir(parents=True, exist_ok=True)
            path.write_bytes(data)

    def body(self, dice):
        """A target and a body for it: one that is at hand, or a random one."""
        if self.ready and dice.one_in(3):
            return dice.choice(self.ready)
        if self.dated and dice.one_in(3):
            return "/siri/et", self.sound_delivery(dice)
        target = dice.choice(("/siri/et", "/siri/et", "/siri/sx", "/gtfs-rt"))
        if target == "/gtfs-rt":
            return target, random_feed(dice, self.world)
        oddness = dice.choice((0.0, 0.0, 0.05, 0.2, 0.5))
        maker = (Journeys if target == "/siri/et" else Situations)(dice, self.world, oddness)
        return target, random_body(dice, maker, oddness)


    def sound_delivery(self, dice):
        """Journeys that run, with calls that are a little late. Behind each four of them the record is a minute later."""
        self.sent += 1
        dated = [dice.choice(self.dated) for _ in range(dice.choice((1, 2, 5, 12)))]
        frame = {"EstimatedVehicleJourney": [self.sound_journey(dice, trip, day) for trip, day in dated]}
        delivery = {"EstimatedTimetableDelivery": [{"EstimatedJourneyVersionFrame": [frame]}]}
        return json.dumps({"Siri": {"ServiceDelivery": delivery}}).encode()

    def sound_journey(self, dice, trip, day):
        named = {"DataFrameRef": str(day), "DatedVehicleJourneyRef": self.setting.table.trips[trip].id}
        seconds = dice.choice(("00", "00", "00", "00.5", "01"))
        recorded = f"2026-06-12T{6 + self.sent // 240:02}:{self.sent // 4 % 60:02}:{seconds}Z"
        item = {"FramedVehicleJourneyRef": named, "RecordedAtTime": recorded}
        if dice.one_in(8):
            return item | {"Cancellation": True}
        late, calls = 0, []
        for order, stop in enumerate(self.setting.context(day).planned(trip, day), 1):
            if dice.one_in(4):
                late = dice.choice((0, 30, 60, 300, -20))
            call = {"StopPointRef": self.place(dice, stop), "Order": order}
            kind = dice.randrange(12)
            if kind == 0:
                call["Cancellation"] = True
            elif kind > 1:
                call["ExpectedArrivalTime"] = moment_text(stop.arrival + late)
                call["ExpectedDepartureTime"] = moment_text(stop.departure + late)
            calls.append(call)
        return item | {"EstimatedCalls": {"EstimatedCall": calls}}

    def place(self, dice, stop):
        """The scheduled stop, or one of its station."""
        if self.world.stations is None or dice.one_in(2):
            return stop.id
        return dice.choice(self.world.stations.stops_like(stop.id))


REFUSED = (BadWord, FileMissing, FolderFault, ZoneRefused, FurtherFault, NotReadable)


def made_life(dice, kind):
    """A life of the kind. Of random folders the first that isn't refused and, mostly, has a journey in its window."""
    while True:
        try:
            life = (LIVES | LARGE)[kind](dice)
        except REFUSED:
            continue
        if life.dated or kind in LARGE or dice.one_in(20):
            return life


def today():
    return datetime.now(timezone.utc).date()


def riverside(dice):
    """The example, with its days in June 2037."""
    with tempfile.TemporaryDirectory() as folder:
        moved = subprocess.run([EXAMPLE / "moved", "2037-06-12", folder], capture_output=True, check=True)
        found = files_below(folder)
    friday = date.fromisoformat(moved.stdout.decode().strip())
    files = {name.replace("gtfs/", "g/"): data for name, data in found.items() if name.startswith("gtfs/")}
    trips = {row["trip_id"]: [] for row in rows_of(files["g/trips.txt"])}
    for row in rows_of(files["g/stop_times.txt"]):
        times = row["arrival_time"], row["departure_time"]
        trips[row["trip_id"]].append((int(row["stop_sequence"]), row["stop_id"], *times))
    carried = [TripRow(name, "", "", sorted(stops)) for name, stops in trips.items() if stops]
    world = World(
        ["--zone-rule", LONDON], friday, 3, files, carried, carried,
        [row["route_id"] for row in rows_of(files["g/routes.txt"])],
        [row["stop_id"] for row in rows_of(files["g/stops.txt"])],
        stations=Stations({row["stop_id"]: row.get("parent_station", "") for row in rows_of(files["g/stops.txt"])}),
    )
    world.window = [friday + timedelta(days=n) for n in range(3)]
    world.clock_days = [str(friday)]
    ready = [("/siri/et", found[name]) for name in ("estimated.json", "estimated-0741.json")]
    return Life("riverside", world, dice.choice((0, 1, 2)), [*ready, ("/siri/sx", found["situations.json"])])


def rows_of(data):
    """The rows of a file without quotes, by the names of its columns."""
    names, *lines = [line.split(",") for line in data.decode().splitlines() if line]
    return [dict(zip(names, line)) for line in lines]


def far(dice):
    """A random folder with its days in years to come, where the window stays where it begins."""
    world = random_world(dice, [dice.choice(FAR_DAYS)])
    return Life("far", world, dice.randrange(min(world.days, 3)))


def near(dice):
    """A random folder whose window begins some days ago: the first body that is taken moves it to the present days."""
    now = today()
    world = random_world(dice, [str(now)])
    world.first = now - timedelta(days=dice.choice((0, 1, 2, 5, 40)))
    world.days = dice.choice((1, 2, 3, 4, 32))
    world.days_text = None
    world.window = [now + timedelta(days=n) for n in dice.sample(range(-2, 4), 6)]
    return Life("near", world, dice.randrange(min(world.days, 4)))


def name_of(first):
    """200 printable letters, beginning with one of them."""
    name = (PRINTABLE[first:] + PRINTABLE[:first]) * 3
    return name[:200] if name[199] != " " else name[:199] + "~"


def letters(dice):
    """Ids of 200 bytes that have every printable letter; now and then all stops are of one station."""
    starts = dice.sample(range(1, len(PRINTABLE)), 10)
    names = [name_of(start) for start in starts]
    stops, routes, ids = names[:5], names[5:6], names[6:]
    first = date(2037, 6, 12)
    services = random_services(dice, first)
    trips = [TripRow(name, routes[0], "S0", random_stops(dice, stops, False)) for name in ids]
    stations = Stations(dict.fromkeys(stops, stops[0])) if dice.one_in(2) else None
    files = folder_files(dice, trips, stops, routes, services, [], stations)
    world = World(["--zone-rule", LONDON], first, 3, files, trips, trips, routes, stops, stations=stations)
    world.window = [first + timedelta(days=n) for n in range(3)]
    world.clock_days = [str(first)]
    return Life("letters", world, 0)


def situation_of(number, length, stop):
    """A situation whose alert's entity has a body of that many bytes, for a number of 6 letters and one stop."""
    item = {"SituationNumber": f"N{number:05}", "Version": 1, "Progress": "open"}
    item["Affects"] = {"StopPoints": {"AffectedStopPoint": {"StopPointRef": stop}}}
    item["Description"] = "d" * (length - 38 - len(stop.encode()))
    return item


def situations_body(items):
    group = {"Situations": {"PtSituationElement": items}}
    return json.dumps({"ServiceDelivery": {"SituationExchangeDelivery": group}}, ensure_ascii=False).encode()


def texts(dice):
    """Situations with texts about as long as an alert's may be, so that the feed has some megabytes."""
    life = riverside(dice)
    life.kind = "texts"
    stop = life.world.stops[0]
    count = dice.choice((60, 100, 160))
    lengths = [MOST_ALERT - dice.choice((0, 1, 20, 60, -10, -100)) for _ in range(count)]
    items = [situation_of(i, length, stop) for i, length in enumerate(lengths)]
    life.ready = [("/siri/sx", situations_body(items))] * 3 + life.ready
    return life


# Lives whose bodies are large. They are posted in their order, and take some minutes.


def situations(dice):
    """As many situations as are kept, each with the longest alert, and one more; the feed has 328 MB."""
    life = riverside(dice)
    life.kind = "situations"
    stop = life.world.stops[0]
    items = [situation_of(i, MOST_ALERT, stop) for i in range(MOST_SITUATIONS + 1)]
    life.ready = [("/siri/sx", situations_body(items[i : i + 250])) for i in range(0, len(items), 250)]
    return life


def of_bench(name, first, make):
    """A life over a folder that bench/inputs.py makes, with the bodies that it makes, from a day on."""
    inputs = load_inputs()
    with tempfile.TemporaryDirectory(prefix="trials-") as folder:
        make(inputs, folder)
        found = files_below(folder)
    files = {file.replace("gtfs/", "g/"): data for file, data in found.items() if file.startswith("gtfs/")}
    world = World(["--zone-rule", "UTC0"], first, 3, files, [], [], [], [])
    bodies = {"delivery.json": "/siri/et", "feed.pb": "/gtfs-rt"}
    return Life(name, world, 1, [(target, found[file]) for file, target in bodies.items() if file in found])


def load_inputs():
    found = importlib.util.spec_from_file_location("inputs", CHECKOUT / "bench" / "inputs.py")
    module = importlib.util.module_from_spec(found)
    found.loader.exec_module(module)
    return module


def journeys(_):
    """A delivery of 13.2 MB with 1,200 journeys of 35 calls."""
    return of_bench("journeys", today(), lambda inputs, folder: inputs.make_calls(folder, today(), "Z"))


def calls(_):
    """A feed of 15.8 MB with 399,000 calls; its SIRI delivery has 90 MB. Its days are in 2037."""
    start = int(datetime(2037, 5, 1, tzinfo=timezone.utc).timestamp())
    day = date(2037, 5, 1)
    return of_bench("calls", day, lambda inputs, folder: inputs.make_feed(folder, day, start))


LIVES = {"riverside": riverside, "far": far, "near": near, "letters": letters, "texts": texts}
LARGE = {"situations": situations, "journeys": journeys, "calls": calls}
