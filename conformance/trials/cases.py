"""A random case of a command, by a seed and a number."""

from .alert_cases import Alerts
from .board_cases import board_words, board_world
from .case import Case
from .edges import edge_case
from .feed_cases import Feeds, random_feed
from .odd import Dice
from .place_cases import place_case
from .siri_cases import AT, Journeys, Situations, random_body
from .worlds import faulty_folder, random_world

COMMANDS = ("to-gtfsrt", "to-siri", "to-siri-sx", "show", "board", "make")
ODD_WORDS = [
    b"", b"\xff", b"to-siri", b"show", b"--et", b"--sx", b"--gtfs", b"--zone-file", b"--zone-rule", b"--feed",
    b"--at", b"--from", b"--days", b"to-siri-sx",
    b"0", b"1", b"32", b"33", b"0000000001", b"00000000001", b"+1", b"1.0", b"x", b"2024-05-01", b"2024-02-30",
    b"1971-01-01", b"1970-12-31",
    b"9997-12-31", b"9998-01-01", b"20240501", b"2024-05-01T06:00:00Z", b"2024-05-01T06:00:00.0Z",
    b"2024-05-01T06:00:00z",
    b"1970-01-01T00:00:00Z", b"1969-12-31T23:59:59Z", b"9998-12-31T23:59:59Z", b"9999-01-01T00:00:00Z",
    b"2024-05-01T24:00:00Z", b"make", b"--seed", b"--trips", b"--stops", b"2147483647", b"2147483648",
    b"2024-05-01T06:00:00+00:00", b"UTC0", b"-h", b"help", b"--version", b"g", b"\xc3\xa9", b"--gtfs=g",
    b"board", b"--stop", b"--minutes", b"--max",
]


EDGES = {
    b"--from": [b"9997-12-31", b"9997-12-30", b"9997-11-30", b"9998-01-01", b"1971-01-01", b"1970-12-31",
    b"2024-02-29", b"2023-02-29"],
    b"--days": [b"1", b"2", b"31", b"32", b"33", b"0", b"00", b"0000000032", b"00000000032"],
    b"--at": [b"1970-01-01T00:00:00Z", b"9998-12-31T23:59:59Z", b"9999-01-01T00:00:00Z",
    b"2024-02-30T00:00:00Z", b"2024-05-01T06:00:00Z"],
    b"--seed": [b"0", b"2147483647", b"2147483648", b"4294967296", b"-1", b"00000000007", b"0000000007"],
    b"--trips": [b"0", b"1", b"20001", b"4294967296", b"9999999999", b"01", b"00000000001"],
    b"--stop": [b"", b"\xff", b"x" * 200, b"x" * 201, b" A", b"--minutes"],
    b"--minutes": [b"0", b"1", b"1440", b"1441", b"0000000060", b"00000000060", b"-1", b"60.0"],
    b"--max": [b"0", b"1", b"10000", b"10001", b"0000000001", b"00000000001", b"+1", b""],
    b"--stops": [b"0", b"1", b"2", b"100", b"101", b"0000000002", b"00000000002", b""],
}


def random_case(seed, command, number, with_situations=True):
    dice = Dice(f"{seed} {command} {number}")
    if command == "make":
        return sample_case(dice, with_situations)
    if command not in ("to-siri-sx", "board") and dice.one_in(15):
        return edge_case(dice, command)
    if command not in ("to-siri-sx", "board") and dice.one_in(12):
        return place_case(dice, command)
    world = board_world(dice) if command == "board" else random_world(dice)
    subject = dice.weighted(inner=22, folder=5, words=1.5, files=0.5)
    if subject == "folder":
        faulty_folder(dice, world)
    if command == "to-gtfsrt":
        words, files = deliveries_of(dice, world, with_situations)
    elif command == "board":
        words, files = board_words(dice, world)
    else:
        words = world.words(command, None if command == "show" else dice.choice(AT))
        maker = Alerts if command == "to-siri-sx" else Feeds
        words, files = [*words, "--feed", "feed.pb"], {"feed.pb": random_feed(dice, world, maker)}
    files = world.files | files
    words = [word.encode() for word in words]
    if subject == "words":
        words = odd_words(dice, words, with_situations)
    if subject == "files":
        odd_files(dice, files)
    return Case(words, files)


def sample_case(dice, with_situations):
    """A sample of few stops in all, since the second reading is slow; among them the edges of each number."""
    seed = dice.choice((0, 1, 7, 2_147_483_646, 2_147_483_647, dice.randrange(2_147_483_648)))
    stops = dice.choice((2, 2, 3, 99, 100, dice.randint(2, 100)))
    trips = dice.choice((1, 2, 99, 100, 101, 200, 201, dice.randint(1, 300)))
    trips = max(1, min(trips, 2_000 // stops))
    width = dice.choice((1, 1, 1, 10))
    words = [b"make"]
    for flag, value in (("--seed", seed), ("--trips", trips), ("--stops", stops)):
        words += [flag.encode(), str(value).zfill(width).encode()]
    return Case(odd_words(dice, words, with_situations) if dice.one_in(3) else words, {})


def deliveries_of(dice, world, with_situations):
    words, files = world.words("to-gtfsrt", dice.choice(AT)), {}
    oddness = dice.choice((0.0, 0.05, 0.2, 0.5, 1.0))
    for i in range(dice.choice((0, 1, 1, 1, 2, 2, 3))):
        is_situation = with_situations and dice.one_in(2)
        maker = (Situations if is_situation else Journeys)(dice, world, oddness)
        name = f"{i}.json" if not dice.one_in(10) or not files else dice.choice(sorted(files))
        if name not in files:
            files[name] = random_body(dice, maker, oddness)
        words += ["--sx" if is_situation else "--et", name]
    return words, files


def odd_words(dice, words, with_situations):
    """One or two words changed, taken out, put in, doubled, or the list cut."""
    odd = [word for word in ODD_WORDS if with_situations or word != b"--sx"]
    for _ in range(dice.choice((1, 1, 2))):
        at = dice.randint(0, len(words))
        kind = dice.randrange(8)
        if kind > 5:
            for flag, values in EDGES.items():
                if flag in words[:-1]:
                    place = words.index(flag) + 1
                    words = words[:place] + [dice.choice(values)] + words[place + 1 :]
        elif kind == 0:
            words = words[:at]
        elif kind == 1:
            words = words[:at] + [dice.choice(odd)] + words[at:]
        elif kind == 2:
            words = words[:at] + words[at + 1 :]
        elif kind == 3:
            words = words[:at] + words[at : at + 2] + words[at:]
        else:
            words = words[:at] + [dice.choice(odd)] + words[at + 1 :]
    return [b"x"] if words in ([b"--version"], [b"--help"]) else words


def odd_files(dice, files):
    """A further file that isn't there, is a folder, or is what another is."""
    further = [name for name in files if not name.startswith("g/")]
    if not further:
        return
    name = dice.choice(further)
    kind = dice.randrange(5)
    data = files.pop(name)
    if kind == 1:
        files[name + "/x"] = data
    elif kind == 2:
        files[name] = files[dice.choice(sorted(files))]
    elif kind == 3:
        files[name] = b""
    elif kind == 4 and data:
        files[name + "x"] = data
