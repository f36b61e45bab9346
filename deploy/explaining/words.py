"""The words of `explain` itself."""

import re
from dataclasses import dataclass, field

from reading.moments import read_utc
from reading.words import BadWord, read_words


class Use(Exception):
    """The words are none of explain's."""


KNOWN_USE = (Use,)
FLAGS = ("--gtfs", "--zone-rule", "--zone-file", "--from", "--days")


@dataclass
class Own:
    """What is asked for."""

    kind: str
    words: list = field(default_factory=list)
    most: int = 20
    report: str = None
    body: str = None
    schedule: list = field(default_factory=list)
    at: int = None
    older: int = 3600
    quiet: bool = False
    further: list = field(default_factory=list)


def number(word, flag):
    if not re.fullmatch(r"[0-9]{1,9}", word or ""):
        raise Use(f"{flag} takes a number")
    return int(word)


def read_own(words):
    if not words or words[0] in ("--help", "-h", "help") and len(words) == 1:
        return Own("usage")
    most = 20
    # As a line is copied, with the program's name in front.
    if words[0].rpartition("/")[2] == "gateway" and len(words) > 1:
        words = words[2:] if words[1] == "--unproved" else words[1:]
    if words[0] == "--most" and len(words) > 1:
        most, words = number(words[1], "--most"), words[2:]
    if not words:
        raise Use("--most N stands before --report or a command")
    if words[0] == "--report":
        if len(words) < 3:
            raise Use("--report takes a report and the body that it is of")
        return Own("report", most=most, report=words[1], body=words[2], schedule=schedule_words(words[3:]))
    if words[0] == "--check":
        return read_check(words[1:])
    return Own("command", words, most)


def schedule_words(words):
    if words and (len(words) != 8 or schedule_of(words) is None):
        raise Use("the words of SCHEDULE are --gtfs DIR, --zone-rule RULE or --zone-file FILE, --from DAY, --days N, in this order")
    return words


def schedule_of(words):
    """The work of these words, as of a command that needs nothing more; None where they aren't right."""
    try:
        return read_words([word.encode("utf-8", "surrogateescape") for word in ["show", *words, "--feed", "x"]])
    except BadWord:
        return None


def read_check(words):
    own = Own("check")
    while words:
        flag, value = words[0], words[1] if len(words) > 1 else None
        if flag == "--quiet":
            own.quiet = True
            words = words[1:]
            continue
        if value is None:
            raise Use(f"{flag} takes a value, or is no word of --check")
        if flag in FLAGS:
            own.schedule += [flag, value]
        elif flag in ("--et", "--sx", "--feed"):
            own.further.append((flag[2:], value))
        elif flag == "--older":
            own.older = number(value, flag)
        elif flag == "--at":
            own.at = read_utc(value)
            if own.at is None:
                raise Use("--at takes a moment YYYY-MM-DDThh:mm:ssZ")
        else:
            raise Use(f"{flag} is no word of --check")
        words = words[2:]
    schedule_words(own.schedule)
    if not own.schedule and not own.further:
        raise Use("--check takes a folder, deliveries or feeds")
    return own
