"""Which lists of words are commands, and where a list that is none goes wrong."""

import re
from dataclasses import dataclass, field
from datetime import date, timedelta

from .moments import read_utc

FIRST_DAY = date(1971, 1, 1)
LAST_DAY = date(9997, 12, 31)
MOST_DAYS = 32
MOST_KEPT = 31
MOST_CONNECTIONS = 4_294_967_295
MOST_SEED = 2_147_483_647
MOST_TRIPS = 20_000
FEWEST_STOPS = 2
MOST_STOPS = 100
MOST_MINUTES = 1_440
MOST_VISITS = 10_000
# What any number of deliveries may follow, and of which kinds.
FURTHER = {"to-gtfsrt": ("--et", "--sx"), "board": ("--et",)}


class BadWord(Exception):
    """The list is no command's. `at` words of it are right from the front."""

    def __init__(self, at):
        super().__init__(at)
        self.at = at


@dataclass
class Work:
    """A command with its words."""

    command: str = ""
    gtfs: str = ""
    zone_rule: str = None
    zone_file: str = None
    first: date = None
    days: int = 0
    at: int = None
    feed: str = None
    keep: int = None
    listen: str = None
    connections: int = None
    journal: str = None
    seed: int = None
    trips: int = None
    stops: int = None
    stop: str = None
    minutes: int = None
    most: int = None
    further: list = field(default_factory=list)  # pairs of "--et" or "--sx" and a file


def day_word(text):
    """A first day, as 2024-05-01."""
    if not re.fullmatch(r"[0-9]{4}-[0-9]{2}-[0-9]{2}", text):
        return None
    try:
        day = date.fromisoformat(text)
    except ValueError:
        return None
    return day if FIRST_DAY <= day <= LAST_DAY else None


def number_word(text, least, most):
    """A number in 1 to 10 decimal digits."""
    return int(text) if re.fullmatch(r"[0-9]{1,10}", text) and least <= int(text) <= most else None


def days_word(text, first):
    """A number of days from the first one, all of which may be in a window."""
    days = number_word(text, 1, MOST_DAYS)
    return days if days is not None and (LAST_DAY - first).days >= days - 1 else None


def read_words(raw, keeps=False):
    """The work that a list of words (bytes each) asks for; a word that isn't UTF-8 is as an empty one. With `keeps` a
    server's words may end with a journal."""
    words = [text_word(word) for word in raw]
    place = 0

    def take(accepts):
        nonlocal place
        value = accepts(words[place]) if place < len(words) else None
        if value is None:
            raise BadWord(place)
        place += 1
        return value

    def flag(*names):
        return take(lambda word: word if word in names else None)

    def text():
        return take(lambda word: word or None)

    def number(least, most):
        return take(lambda word: number_word(word, least, most))

    work = Work(command=flag("serve", "to-gtfsrt", "to-siri", "to-siri-sx", "show", "board", "make"))
    if work.command == "make":
        flag("--seed")
        work.seed = number(0, MOST_SEED)
        flag("--trips")
        work.trips = number(1, MOST_TRIPS)
        flag("--stops")
        work.stops = number(FEWEST_STOPS, MOST_STOPS)
        if place < len(words):
            raise BadWord(place)
        return work
    flag("--gtfs")
    work.gtfs = text()
    if flag("--zone-rule", "--zone-file") == "--zone-rule":
        work.zone_rule = text()
    else:
        work.zone_file = text()
    flag("--from")
    work.first = take(day_word)
    flag("--days")
    work.days = take(lambda word: days_word(word, work.first))
    if work.command == "serve":
        flag("--keep")
        work.keep = number(0, min(MOST_KEPT, work.days - 1))
        flag("--listen")
        work.listen = text()
        flag("--connections")
        work.connections = number(1, MOST_CONNECTIONS)
        if keeps and place < len(words):
            flag("--journal")
            work.journal = text()
        if place < len(words):
            raise BadWord(place)
        return work
    if work.command != "show":
        flag("--at")
        work.at = take(read_utc)
    if work.command == "board":
        flag("--stop")
        work.stop = text()
        flag("--minutes")
        work.minutes = number(1, MOST_MINUTES)
        flag("--max")
        work.most = number(1, MOST_VISITS)
    kinds = FURTHER.get(work.command, ())
    if not kinds:
        flag("--feed")
        work.feed = text()
    while kinds and place < len(words):
        kind = flag(*kinds)
        work.further.append((kind, text()))
    if place < len(words):
        raise BadWord(place)
    return work


def text_word(word):
    try:
        return word.decode("utf-8")
    except UnicodeDecodeError:
        return ""


def window_of(work):
    return [work.first + timedelta(days=n) for n in range(work.days)]
