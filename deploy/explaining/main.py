"""The words of `explain`, and what it does with them."""

import os
import sys

from reading import folder as folder_reading
from reading.files import NotReadable, TooLong
from reading.folder import FileMissing, FolderFault, read_folder
from reading.journal import JournalFault
from reading.outcome import MOST_BODY_BYTES, MOST_ZONE_BYTES, read_zone
from reading.outcome import FurtherFault as LongFile
from reading.readings import Context
from reading.words import BadWord, read_words, window_of
from reading.zones import ZoneRefused

from . import bodies, checking, failed, folders, grammar, seen, telling
from .disk import DiskFiles
from .placed import use_places
from .rules import BODY, FOLDER, JOURNAL
from .words import KNOWN_USE, Use, read_own, schedule_of

USAGE = """\
usage: {name} COMMAND WORDS..
       {name} [--most N] --report REPORT BODY [SCHEDULE]
       {name} --check [SCHEDULE] [--at MOMENT] [--older S] [--quiet]
               [--et PATH | --sx PATH | --feed PATH]..

The first form takes the words of a gateway's command as they were typed, tells
what the gateway says to them, and why, as in
`{name} to-gtfsrt --gtfs DIR .. --et FILE`.
It carries them out by the second reading of the rules, writes no feed, and
tells of each item that is set aside which trip, day and line it is, which call,
where it stands in the file, what the member says, what may stand there, and the
rule; of a body that is refused, the place; of a folder, the line of the file;
of a bad word, what may stand there; of `gateway: failed`, which file or address
(it looks).

The second form takes the answer of a server, or what a command said on standard
error, with the delivery or feed that it is of. REPORT and BODY are files; - is
standard input. With SCHEDULE it says more.

--check looks at a folder, at deliveries and at feeds before they count, and
tells what no report shows: members that nobody reads, journeys without times,
times that are late by whole hours, ids that differ by a prefix, records of the
future, old news. A PATH that is a folder stands for all files in it, such as a
day of bodies. Signs, which a person should look at, begin with `sign:`.

SCHEDULE  --gtfs DIR ZONE --from DAY --days N, in this order
ZONE      --zone-rule RULE or --zone-file FILE
DAY       YYYY-MM-DD
MOMENT    YYYY-MM-DDThh:mm:ssZ, in UTC; the present one where it isn't given
--most N  shows N items of each fault (20)
--older S how many seconds old the newest record of a feed may be (3600)
--quiet   tells the signs alone

Statuses: 0 all well, 1 items are set aside, or there are signs, 2 bad words,
65 refused, 66 a file is missing, 74 a file or an address fails.
"""
WELL, SIGNS, BAD_WORDS, REFUSED, NO_FILE, FAILS = 0, 1, 2, 65, 66, 74


def main(name, words):
    use_places()
    folder_reading.records = folders.plain_records
    said = telling.Said()
    try:
        use = read_own(words)
        said.most = use.most
        status = {"usage": tell_usage, "report": tell_report, "check": checking.tell_check, "command": tell_command}[use.kind](said, use)
    except KNOWN_USE as fault:
        print(f"{name}: {fault}\n{name} --help has all words", file=sys.stderr)
        return BAD_WORDS
    text = "\n".join(said.lines)
    text = text.replace("{name}", name) if use.kind == "usage" else text + "\n" if text else ""
    try:
        sys.stdout.buffer.write(text.encode("utf-8", "backslashreplace"))
        sys.stdout.flush()
    except BrokenPipeError:
        os.dup2(os.open(os.devnull, os.O_WRONLY), sys.stdout.fileno())
    return status


def tell_usage(said, _):
    said.tell(USAGE.rstrip("\n") + "\n")
    return WELL


def tell_command(said, use):
    """What the gateway says to words."""
    try:
        work = read_words([os.fsencode(word) for word in use.words], keeps=True)
    except BadWord as bad:
        if use.words in (["--help"], ["--version"]):
            said.tell(f"{use.words[0]} is answered by the program itself, with status 0")
            return WELL
        said.tell(f"gateway: bad word {bad.at} (status 2)")
        said.tell_all(grammar.explain_words(use.words, bad.at))
        return BAD_WORDS
    files = DiskFiles()
    try:
        return carry_out(said, work, files)
    except NotReadable:
        path, why = files.failed
        said.tell("gateway: failed (status 74)")
        said.tell(f"{path} can't be read: {why}", 1)
        return FAILS


def tell_schedule(said, work, files):
    """The folder and the zone as a context, or the status where one is refused."""
    try:
        table = read_folder(files, work.gtfs)
    except FileMissing as missing:
        said.tell(f"gateway: Missing {missing} (status 66)")
        said.tell_all(folders.missing(str(missing)))
        return NO_FILE
    except FolderFault as fault:
        said.tell(f"gateway: {fault} (status 65)")
        said.tell(FOLDER.get(str(fault).split()[0], ""), 1)
        said.tell_all(folders.explain_fault(work.gtfs, str(fault)))
        return REFUSED
    try:
        zone = read_zone(work, files)
    except FileMissing as missing:
        said.tell(f"gateway: Missing {missing} (status 66)")
        said.tell_all(folders.missing(str(missing)))
        return NO_FILE
    except (ZoneRefused, LongFile) as fault:
        said.tell(f"gateway: {'zone refused' if isinstance(fault, ZoneRefused) else fault} (status 65)")
        said.tell_all(zone_lines(work))
        return REFUSED
    return Context(table, zone, window_of(work))


def zone_lines(work):
    if work.zone_rule is None:
        return [f"{work.zone_file} is no zone of RFC 9636, or it has over {MOST_ZONE_BYTES} bytes",
                "such files stand in /usr/share/zoneinfo (Debian's package tzdata)"]
    lines = [f"{work.zone_rule!r} is no POSIX rule, such as CET-1CEST,M3.5.0,M10.5.0/3"]
    if os.path.isfile(os.path.join(seen.zones_folder(), work.zone_rule)):
        lines.append(f"it is the name of a zone: give --zone-file {os.path.join(seen.zones_folder(), work.zone_rule)}")
    elif "/" in work.zone_rule:
        lines.append("the name of a zone goes with --zone-file, as a file: /usr/share/zoneinfo/Europe/Oslo")
    return lines


def carry_out(said, work, files):
    """The words' work, but for its result. The status."""
    if work.command == "make":
        said.tell("these words are right: make reads no file")
        return WELL
    context = tell_schedule(said, work, files)
    if not isinstance(context, Context):
        return context
    said.tell(f"the folder is taken: {len(context.table.trips)} trips are carried")
    if work.command == "serve":
        return tell_serve(said, work)
    if work.command == "board" and context.table.station_of(work.stop) is None:
        said.tell(f"gateway: UnknownStop {work.stop} (status 65)")
        said.tell_all(unknown_stop(work.stop, context.table))
        return REFUSED
    said.tell_all(platform_lines(work, context.table), 0)
    named = [("feed", work.feed)] if work.feed else [(kind[2:], path) for kind, path in work.further]
    kept, status = {"et": {}, "sx": {}}, WELL
    for kind, path in named:
        ended = tell_body(said, work, files, context, kind, path, kept)
        if ended not in (WELL, SIGNS):
            return ended
        status = max(status, ended)
    if status == WELL:
        said.tell_all(failed.output_lines(), 0)
    return status


def unknown_stop(stop, table):
    """What may have been meant."""
    near = grammar.neighbour(stop, list(table.stations))
    hint = f"; did you mean {near}?" if near else ""
    return [f"no row of stops.txt has the stop_id {stop!r}{hint}"]


def platform_lines(work, table):
    """Of a board of a station, the stops at which its vehicles stop: each has a board of its own."""
    stops = [stop for stop, station in table.stations.items() if station == work.stop != stop]
    if not stops:
        return []
    return [f"{work.stop} is a station; vehicles stop at {', '.join(stops)}, and each of these has a board of its own"]


def tell_body(said, work, files, context, kind, path, kept):
    """Tells of a delivery or a feed. The status where it ends the run, else whether all is taken."""
    try:
        body = files.read(path, MOST_BODY_BYTES)
    except TooLong:
        said.tell(f"gateway: TooLong {path} (status 65)")
        said.tell(BODY["TooLong"], 1)
        return REFUSED
    if body is None:
        said.tell(f"gateway: Missing {path} (status 66)")
        said.tell_all(folders.missing(path))
        return NO_FILE
    try:
        if kind == "feed":
            aside = telling.tell_feed(said, path, body, context, work.command, work.at or 0)
        else:
            aside = telling.tell_delivery(said, path, body, context, kind == "sx", kept[kind])
    except bodies.REFUSED as fault:
        telling.tell_refusal(said, path, body, fault, kind == "feed")
        said.tell("the command writes no result then (status 65), and a server changes nothing (400)", 1)
        return REFUSED
    return SIGNS if aside else WELL


def tell_serve(said, work):
    status = WELL if work.journal is None else tell_journal(said, work.journal)
    if status != WELL:
        return status
    why = failed.address_fails(work.listen)
    if why is None:
        said.tell(f"--listen {work.listen}: the address is free now")
        return WELL
    said.tell("gateway: failed (status 74)")
    said.tell(f"--listen {work.listen}: {why}", 1)
    return FAILS


def tell_journal(said, path):
    """What a server says of its journal before it serves, but for a body that it would refuse."""
    why = failed.journal_fails(path)
    if why is not None:
        said.tell("gateway: failed (status 74)")
        said.tell(f"--journal {path}: {why}", 1)
        return FAILS
    try:
        held = len(failed.journal_of(path))
    except JournalFault as fault:
        said.tell(f"gateway: {fault} (status 65)")
        said.tell(f"--journal {path}: {JOURNAL[str(fault).split()[0]]}", 1)
        return REFUSED
    said.tell(f"--journal {path}: it holds {held} {'body' if held == 1 else 'bodies'}")
    return WELL


def tell_report(said, use):
    """A report with its body."""
    report, body = read_input(use.report), read_input(use.body)
    context = None
    if use.schedule:
        context = tell_schedule(said, schedule_of(use.schedule), DiskFiles())
        if not isinstance(context, Context):
            return context
    try:
        read = telling.read_report(report)
    except telling.NoReport as fault:
        raise Use(f"{use.report} is no report: {fault}") from None
    telling.tell_report(said, read, use.body, body, context)
    return SIGNS if read else WELL


def read_input(path):
    try:
        if path == "-":
            return sys.stdin.buffer.read(MOST_BODY_BYTES + 1)
        with open(path, "rb") as file:
            return file.read(MOST_BODY_BYTES + 1)
    except OSError as fault:
        raise Use(f"{path}: {fault.strerror}") from None
