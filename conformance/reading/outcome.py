"""What a run of the program comes to: its status and the bytes of standard output and standard error."""

from dataclasses import dataclass

from . import alerts, written_feed
from .board import visits, written_board
from .deliveries import NotDelivery, read_delivery
from .feeds import FeedFault, read_feed
from .files import NotReadable, TooLong
from .folder import FileMissing, FolderFault, read_folder
from .journal import JournalFault
from .made import made_line
from .propagation import readings_of
from .readings import Context
from .shown import report, shown_lines
from .situations import read_situations
from .words import BadWord, read_words, window_of
from .written_siri import written_delivery
from .written_situations import situations_of, written_situations
from .zones import ZoneRefused, read_rule, read_zone_file

MOST_BODY_BYTES = 16_777_216
MOST_ZONE_BYTES = 1_048_576
MOST_CALLS = 400_000
MOST_JOURNEYS = 50_000
MOST_SITUATIONS = 5_000
DIFFERENTIAL = 1


@dataclass
class Outcome:
    status: int
    out: bytes = b""
    err: bytes = b""


def refused(status, text):
    return Outcome(status, b"", f"gateway: {text}\n".encode())


def outcome(raw_words, files):
    """The run of the words (bytes each) over files."""
    return ended(lambda: run(read_words(raw_words), files))


def ended(work):
    """What work comes to: its outcome, or that of the first fault that ends it."""
    try:
        return work()
    except BadWord as bad:
        return refused(2, f"bad word {bad.at}")
    except FileMissing as missing:
        return refused(66, f"Missing {missing}")
    except FolderFault as fault:
        return refused(65, str(fault))
    except ZoneRefused:
        return refused(65, "zone refused")
    except FurtherFault as fault:
        return refused(65, str(fault))
    except JournalFault as fault:
        return refused(65, str(fault))
    except NotReadable:
        return refused(74, "failed")


class FurtherFault(Exception):
    """A further file is too long, what it holds is refused, or a board's stop isn't in the folder."""


def run(work, files):
    """The folder, the zone, and then each further file with what it says. `make` reads none of them."""
    if work.command == "make":
        return Outcome(0, made_line(work.seed, work.trips, work.stops))
    table = read_folder(files, work.gtfs)
    context = Context(table, read_zone(work, files), window_of(work))
    if work.command == "to-gtfsrt":
        return to_gtfsrt(work, files, context)
    if work.command == "board":
        return board(work, files, context)
    return read_from_feed(work, files, context)


def further_file(files, path, limit):
    try:
        data = files.read(path, limit)
    except TooLong:
        raise FurtherFault(f"TooLong {path}") from None
    if data is None:
        raise FileMissing(path)
    return data


def read_zone(work, files):
    if work.zone_rule is not None:
        return read_rule(work.zone_rule)
    return read_zone_file(further_file(files, work.zone_file, MOST_ZONE_BYTES))


# A feed or a board from deliveries.


def take_deliveries(work, files, context):
    """The journeys, the situations and the reports. Of several records of a journey the one recorded last counts, of
    equal ones the later arrival; of several situations of a number the greatest version, in the same way. A new journey
    is set aside as Full where 50,000 were taken before it, and a situation of a new number where 5,000 numbers were."""
    journeys, situations = {}, {}
    reports = ""
    for kind, path in work.further:
        body = further_file(files, path, MOST_BODY_BYTES)
        try:
            if kind == "--et":
                items = take_journeys(read_delivery(body, context), journeys)
            else:
                items = take_situations(read_situations(body, context), situations)
        except NotDelivery as fault:
            raise FurtherFault(f"{path} {fault}") from None
        aside = [(i, fault) for i, (fault, _) in enumerate(items) if fault is not None]
        passed = sum(count for _, count in items)
        reports += report(path, len(items) - len(aside), passed, aside)
    return journeys, situations, reports.encode()


def to_gtfsrt(work, files, context):
    journeys, situations, reports = take_deliveries(work, files, context)
    out = written_feed.header(work.at)
    for key in sorted(journeys):
        out += written_feed.journey_entity(journeys[key], context)
    for number in sorted(situations, key=lambda number: number.encode()):
        if situations[number].is_served:
            out += written_feed.bytes_field(2, alerts.alert_body(situations[number]))
    return Outcome(0, out, reports)


def board(work, files, context):
    """The first visits at a stop, which is looked for before any delivery is read."""
    if context.table.station_of(work.stop) is None:
        raise FurtherFault(f"UnknownStop {work.stop}")
    journeys, _, reports = take_deliveries(work, files, context)
    found = visits(journeys.values(), work.stop, work.at, work.minutes)
    return Outcome(0, written_board(found[: work.most], context, work.stop, work.at), reports)


def take_journeys(verdicts, journeys):
    """Each item's fault, if it has one, and the extra calls that it passes over."""
    items = []
    for verdict in verdicts:
        if isinstance(verdict, str):
            items.append((verdict, 0))
            continue
        key = verdict.day, verdict.trip
        if key not in journeys and len(journeys) >= MOST_JOURNEYS:
            items.append(("Full", verdict.extra_calls))
            continue
        if key not in journeys or verdict.at >= journeys[key].at:
            journeys[key] = verdict
        items.append((None, verdict.extra_calls))
    return items


def take_situations(verdicts, situations):
    """Each item's fault, if it has one, and the references that it passes over."""
    items = []
    for verdict in verdicts:
        if isinstance(verdict, str):
            items.append((verdict, 0))
            continue
        length = len(alerts.alert_body(verdict))
        if length > alerts.MOST_BYTES:
            items.append((f"EntityTooLong {length}", verdict.unknown_references))
            continue
        kept = situations.get(verdict.number)
        if kept is None and len(situations) >= MOST_SITUATIONS:
            items.append(("Full", verdict.unknown_references))
            continue
        if kept is None or verdict.version >= kept.version:
            situations[verdict.number] = verdict
        items.append((None, verdict.unknown_references))
    return items


# From a feed.


def read_from_feed(work, files, context):
    try:
        feed = read_feed(further_file(files, work.feed, MOST_BODY_BYTES))
    except FeedFault as fault:
        raise FurtherFault(f"{work.feed} {fault}") from None
    if feed["header"]["incrementality"] == DIFFERENTIAL:
        raise FurtherFault(f"{work.feed} Differential")
    if work.command == "to-siri-sx":
        elements, passed, aside = situations_of(feed, context, work.at)
        told = report(work.feed, len(elements), passed, aside)
        return Outcome(0, written_situations(elements, work.at), told.encode())
    reading = readings_of(feed, context)
    if work.command == "show":
        return Outcome(0, shown_lines(reading, context))
    calls = sum(len(context.table.trips[dated.trip].stops) for dated in reading.journeys)
    if calls > MOST_CALLS:
        raise FurtherFault(f"{work.feed} TooManyCalls {calls}")
    told = report(work.feed, reading.taken, reading.passed, reading.aside)
    return Outcome(0, written_delivery(reading, context, work.at), told.encode())
