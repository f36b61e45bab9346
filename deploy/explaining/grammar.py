"""What may stand at each place of a command's words, and what is said of one that can't."""

import difflib
from datetime import date

from reading.words import BadWord, read_words

ZONE = ("--zone-rule", "--zone-file")
TEXT, FILE, FOLDER, RULE, DAY, DAYS, MOMENT, KEEP, ADDRESS, COUNT, STOP, MINUTES, VISITS, SEED, TRIPS, STOPS = (
    "TEXT", "FILE", "DIR", "ZONE", "DAY", "DAYS", "MOMENT", "KEEP", "ADDRESS", "COUNT", "STOP", "MINUTES", "VISITS", "SEED", "TRIPS",
    "STOPS",
)

# What a value has to be, and one that is right.
VALUES = {
    FILE: "the name of a file",
    FOLDER: "the name of a GTFS Schedule folder, unpacked",
    RULE: "a POSIX rule (CET-1CEST,M3.5.0,M10.5.0/3) after --zone-rule, a file after --zone-file",
    DAY: "a service day YYYY-MM-DD from 1971-01-01 to 9997-12-31",
    DAYS: "how many service days, from 1 to 32",
    MOMENT: "a moment in UTC, YYYY-MM-DDThh:mm:ssZ",
    KEEP: "how many days before the present one stay: from 0 to 31, and less than --days",
    ADDRESS: "an address or a host, a colon and a port, such as 127.0.0.1:8080",
    COUNT: "how many connections serve answers before it ends, from 1 to 4294967295",
    STOP: "a stop_id of stops.txt",
    MINUTES: "how many minutes the board looks ahead, from 1 to 1440",
    VISITS: "the most visits that the board lists, from 1 to 10000",
    SEED: "a number from 0 to 2147483647",
    TRIPS: "a number from 1 to 20000",
    STOPS: "a number from 2 to 100",
}

SCHEDULE = [("--gtfs",), FOLDER, ZONE, RULE, ("--from",), DAY, ("--days",), DAYS]
COMMANDS = {
    "serve": SCHEDULE + [("--keep",), KEEP, ("--listen",), ADDRESS, ("--connections",), COUNT],
    "to-gtfsrt": SCHEDULE + [("--at",), MOMENT],
    "to-siri": SCHEDULE + [("--at",), MOMENT, ("--feed",), FILE],
    "to-siri-sx": SCHEDULE + [("--at",), MOMENT, ("--feed",), FILE],
    "show": SCHEDULE + [("--feed",), FILE],
    "board": SCHEDULE + [("--at",), MOMENT, ("--stop",), STOP, ("--minutes",), MINUTES, ("--max",), VISITS],
    "make": [("--seed",), SEED, ("--trips",), TRIPS, ("--stops",), STOPS],
}
# Pairs that may follow, once and in this order; and such as may follow any number of times.
ONCE = {"serve": [("--journal",), FILE]}
FURTHER = {"to-gtfsrt": [("--et", "--sx"), FILE], "board": [("--et",), FILE]}
ALONE = ("--help", "--version")
USAGE = {
    "serve": "--gtfs DIR ZONE --from DAY --days N --keep K --listen ADDRESS --connections C [--journal FILE]",
    "to-gtfsrt": "--gtfs DIR ZONE --from DAY --days N --at MOMENT [--et FILE | --sx FILE]...",
    "to-siri": "--gtfs DIR ZONE --from DAY --days N --at MOMENT --feed FILE",
    "to-siri-sx": "--gtfs DIR ZONE --from DAY --days N --at MOMENT --feed FILE",
    "show": "--gtfs DIR ZONE --from DAY --days N --feed FILE",
    "board": "--gtfs DIR ZONE --from DAY --days N --at MOMENT --stop STOP --minutes M --max V [--et FILE]...",
    "make": "--seed X --trips T --stops S",
}
ZONE_LINE = "ZONE is --zone-rule RULE or --zone-file FILE (/usr/share/zoneinfo/Europe/Oslo)"


def wanted_at(words, place):
    """What may stand at a place, where all words before it are right: flags, the name of a form, or None for the end."""
    if place == 0:
        return tuple(COMMANDS)
    slots = COMMANDS[words[0]] + ONCE.get(words[0], [])
    if place <= len(slots):
        return slots[place - 1]
    further = FURTHER.get(words[0])
    return further[(place - 1 - len(slots)) % len(further)] if further else None


def bad_place(raw):
    """The place of the first word that can't stand where it does, or None."""
    try:
        read_words(raw, keeps=True)
    except BadWord as bad:
        return bad.at
    return None


def neighbour(word, names):
    """The name that is nearest to a word, if one is near."""
    plain = word.lower().lstrip("-")
    near = difflib.get_close_matches(plain, [name.lstrip("-") for name in names], 1, 0.6)
    return next((name for name in names if near and name.lstrip("-") == near[0]), None)


def explain_words(words, place):
    """Lines on the word of that place."""
    wanted = wanted_at(words, place)
    named = f"word {place}" + (f", {words[place]!r}" if place < len(words) else " is missing")
    lines = [f"{named}: {may_stand(wanted, place, words)}"]
    if place < len(words):
        lines += hints(words, place, wanted)
    if place == 0:
        lines += ["usage: gateway " + " | ".join([*COMMANDS, *ALONE]), "       gateway --help has all words"]
    else:
        lines += [f"usage: gateway {words[0]} {USAGE[words[0]]}", "       " + shown_place(words, place)]
        if "ZONE" in USAGE[words[0]]:
            lines.append("       " + ZONE_LINE)
    return lines


def shown_place(words, place):
    """The words up to the place, with a mark on it."""
    shown = [word if word.isprintable() and " " not in word else repr(word) for word in words[: place + 1]]
    if place >= len(words):
        return "you gave: " + " ".join([*shown, ">>>here<<<"])
    return "you gave: " + " ".join([*shown[:-1], f">>>{shown[-1]}<<<"])


def may_stand(wanted, place, words):
    if wanted is None:
        return f"{words[0]} takes no more words"
    if isinstance(wanted, tuple):
        return "here stands " + " or ".join(wanted)
    return f"here stands {VALUES[wanted]}"


def hints(words, place, wanted):
    """What was probably meant."""
    word = words[place]
    flag, equals, _ = word.partition("=")
    if word == "":
        return ["an empty word, or one that isn't UTF-8"]
    if place > 0 and word in ("--help", "-h", "help"):
        return ["--help stands alone: gateway --help"]
    if place == 0 and word.lower() in ("help", "-h", "-help", "--h"):
        return ["did you mean --help?"]
    if place == 0 and word.lower() in ("version", "-v", "-version"):
        return ["did you mean --version?"]
    if place == 0:
        near = neighbour(word, [*COMMANDS, *ALONE])
        if word in ALONE:
            return [f"{word} stands alone"]
        return [f"did you mean {near}?"] if near else []
    if isinstance(wanted, tuple):
        return flag_hints(words, word, flag if equals else None, wanted)
    return value_hints(words, place, word, wanted)


def flag_hints(words, word, flag, wanted):
    slots = COMMANDS[words[0]] + ONCE.get(words[0], []) + FURTHER.get(words[0], [])
    known = {name for slot in slots if isinstance(slot, tuple) for name in slot}
    if flag in wanted:
        return [f"a flag and its value are two words: {flag} VALUE"]
    if word in known and word not in wanted:
        return [f"the pairs stand in one order: {word} comes at another place"]
    near = neighbour(word, [*wanted])
    if near:
        return [f"did you mean {near}?"]
    if not word.startswith("-") and any(name in ("--et", "--sx") for name in wanted):
        return ["each file has its own --et or --sx in front (a shell writes *.json out into many words)"]
    return []


def value_hints(words, place, word, wanted):
    if word.startswith("--"):
        return [f"{words[place - 1]} has no value: the next flag stands in its place"]
    if wanted == DAY:
        return day_hints(word)
    if wanted == MOMENT:
        if word.lower() == "now":
            return ["for now: $(date -u +%Y-%m-%dT%H:%M:%SZ)"]
        return ["a moment in UTC ends in Z; another offset is reckoned over into UTC"] if "T" in word else []
    if wanted == KEEP and word.isdigit():
        return [f"--keep must be less than --days, which is {words[8]}"]
    if wanted == DAYS and word.isdigit() and 1 <= int(word) <= 32:
        return ["the last day lies after 9997-12-31"]
    return []


def day_hints(word):
    if word.lower() in ("today", "yesterday", "now"):
        return [f"for {word}: $(date {'-d yesterday ' * (word.lower() == 'yesterday')}+%F)"]
    parts = word.replace("/", "-").split("-")
    if len(parts) == 3 and all(part.isdigit() for part in parts):
        year, month, day = (int(part) for part in parts)
        try:
            return [f"{date(year, month, day).isoformat()} is its form"]
        except ValueError:
            return [f"there is no such day"]
    if len(word) == 8 and word.isdigit():
        return [f"{word[:4]}-{word[4:6]}-{word[6:]} is its form"]
    return []
