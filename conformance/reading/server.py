"""A server: what it keeps, how its window of service days rolls, and what each connection is answered.

Left out are want of memory (`H503 Memory`) and connections that fail while they are read or written.
"""

from dataclasses import dataclass, replace
from datetime import timedelta

from . import alerts, written_feed
from .deliveries import NotDelivery, read_delivery
from .feeds import FeedFault, read_feed
from .folder import read_folder
from .json_text import json_text
from .moments import local_day
from .outcome import DIFFERENTIAL, MOST_CALLS, Outcome, ended, read_zone, take_journeys, take_situations
from .propagation import FeedReading, readings_of
from .readings import Context
from .requests import Refused, read_request
from .situations import read_situations
from .words import LAST_DAY, read_words
from .written_siri import written_delivery

REASONS = {
    200: "OK",
    400: "Bad Request",
    404: "Not Found",
    405: "Method Not Allowed",
    411: "Length Required",
    413: "Content Too Large",
    431: "Request Header Fields Too Large",
    500: "Internal Server Error",
}
FEED, JSON, TEXT = "application/x-protobuf", "application/json", "text/plain; charset=utf-8"


class Setting:
    """What the words and the files of a server say: the timetable, the zone, its first window, the days that stay, how
    many connections it serves. With `keeps` its words may name a journal."""

    def __init__(self, raw_words, files, keeps=False):
        work = read_words(raw_words, keeps)
        self.table = read_folder(files, work.gtfs)
        self.zone = read_zone(work, files)
        self.first, self.days, self.keep, self.connections = work.first, work.days, work.keep, work.connections
        self.journal = work.journal

    def context(self, first):
        return Context(self.table, self.zone, [first + timedelta(days=n) for n in range(self.days)])


@dataclass(frozen=True)
class State:
    """What a server keeps: the first day of its window, the latest record of each journey in it, the newest situation
    of each number, and of the last feed its moment and what it said of which stops."""

    first: object
    journeys: dict
    situations: dict
    moment: int
    reading: object


def started(setting):
    return State(setting.first, {}, {}, 0, FeedReading([]))


def answers(setting, connections):
    """The answers to connections, one after the other; each is its moment, in seconds, and its whole input."""
    state, given = started(setting), []
    for moment, data in connections:
        answer, state = answered(setting, state, moment, data)
        given.append(answer)
    return given


def answered(setting, state, moment, data):
    """The answer to one connection, and what the server keeps then."""
    try:
        request = read_request(data)
        if request.method == "GET":
            return shown(setting, state, moment, request.path), state
        return TAKES[request.path](setting, state, moment, request.body)
    except Refused as refused:
        return refusal(refused), state
    except (NotDelivery, FeedFault) as fault:
        return refusal(Refused(f"H400 {fault}")), state


# The log of a run.


@dataclass(frozen=True)
class Entry:
    """A connection that was served: how it ended, its moment if the clock gave one, and its answer."""

    mark: str
    moment: int
    answer: bytes


def server_run(raw_words, files, clock, inputs):
    """The run of a server's words over inputs of connections: its outcome and its log. `clock` gives a moment, or None
    where it fails, at each call."""
    log = []

    return ended(lambda: served(Setting(raw_words, files), clock, inputs, log)), log


def served(setting, clock, inputs, log):
    """How a server without a journal ends, whose connections have these inputs; their entries are added to the log."""
    state = started(setting)
    for data in inputs[: setting.connections]:
        entry, state = logged(setting, state, clock(), data)
        log.append(entry)
    return Outcome(0)


def logged(setting, state, moment, data):
    """A connection's entry, and what the server keeps then. Where the clock fails, nothing of the input is read."""
    if moment is None:
        return clock_failed(), state
    answer, state = answered(setting, state, moment, data)
    return entry_of(data, moment, answer), state


def clock_failed():
    return Entry("ClockFault", None, refusal(Refused("H500 Clock")))


def entry_of(data, moment, answer):
    return Entry(mark_of(data, int(answer.split(b" ")[1])), moment, answer)


def mark_of(data, status):
    if status != 200:
        return f"Refused {status}"
    request = read_request(data)
    if request.method == "GET":
        return "Shown"
    return "Fed" if request.path == "/gtfs-rt" else "Taken"


# Answers.


def whole_answer(status, kind, body, allow=()):
    lines = [f"HTTP/1.1 {status} {REASONS[status]}", f"Content-Type: {kind}", f"Content-Length: {len(body)}"]
    if allow:
        lines.append(f"Allow: {', '.join(allow)}")
    return "".join(line + "\r\n" for line in [*lines, "Connection: close", ""]).encode() + body


def refusal(refused):
    return whole_answer(int(refused.line[1:4]), TEXT, f"{refused.line}\n".encode(), refused.allow)


def report(taken, passed, aside):
    items = [{"fault": fault, "index": index} for index, fault in aside]
    return whole_answer(200, JSON, json_text({"aside": items, "passed": passed, "taken": taken}))


def shown(setting, state, moment, path):
    """A GET moves nothing; the SIRI delivery is of the moment of the feed that it says."""
    if path == "/siri/et":
        text = written_delivery(state.reading, setting.context(state.first), state.moment)
        return whole_answer(200, JSON, text)
    return whole_answer(200, FEED, written_feed.header(moment) + entities(setting, state))


def entities(setting, state):
    """The journeys by day and trip number, then the alerts by the bytes of their numbers."""
    context = setting.context(state.first)
    out = [written_feed.journey_entity(state.journeys[key], context) for key in sorted(state.journeys)]
    for number in sorted(state.situations, key=lambda number: number.encode()):
        if state.situations[number].is_served:
            out.append(written_feed.bytes_field(2, alerts.alert_body(state.situations[number])))
    return b"".join(out)


# Bodies that are taken. Each moves the window to its moment before its items are read.


def rolled(setting, state, moment):
    """The state whose window stands where a body of that moment moves it. It goes back never, and its last day is at
    most that of the last window; the journeys of days before it are kept no more."""
    first = max(state.first, local_day(setting.zone, moment) - timedelta(days=setting.keep))
    first = min(first, LAST_DAY - timedelta(days=setting.days - 1))
    journeys = {key: record for key, record in state.journeys.items() if key[0] >= first}
    return replace(state, first=first, journeys=journeys, situations=dict(state.situations))


def told(items):
    aside = [(i, fault) for i, (fault, _) in enumerate(items) if fault is not None]
    return report(len(items) - len(aside), sum(passed for _, passed in items), aside)


def take_estimated(setting, state, moment, body):
    state = rolled(setting, state, moment)
    verdicts = read_delivery(body, setting.context(state.first))
    return told(take_journeys(verdicts, state.journeys)), state


def take_affecting(setting, state, moment, body):
    state = rolled(setting, state, moment)
    verdicts = read_situations(body, setting.context(state.first))
    return told(take_situations(verdicts, state.situations)), state


def take_feed(setting, state, moment, body):
    feed = read_feed(body)
    if feed["header"]["incrementality"] == DIFFERENTIAL:
        raise Refused("H400 Differential")
    state = rolled(setting, state, moment)
    reading = readings_of(feed, setting.context(state.first))
    calls = sum(len(setting.table.trips[dated.trip].stops) for dated in reading.journeys)
    if calls > MOST_CALLS:
        raise Refused(f"H400 TooManyCalls {calls}")
    return report(reading.taken, reading.passed, reading.aside), replace(state, moment=moment, reading=reading)


TAKES = {"/siri/et": take_estimated, "/siri/sx": take_affecting, "/gtfs-rt": take_feed}
