"""A server with a journal: what it begins with, what each connection is answered, and what the journal's file is then.

The bodies that the file holds come before those of the connections: each is taken again at its own moment. An accepted
body is in the file before it is answered.
"""

from dataclasses import dataclass

from .deliveries import NotDelivery
from .feeds import FeedFault
from .files import NotReadable
from .journal import EMPTY, Kept, Replay, appended, end_of, is_full, kept, opened, size_of
from .outcome import Outcome, ended
from .requests import Refused, read_request
from .server import TAKES, Entry, Setting, State, answered, clock_failed, entry_of, refusal, served, started


class Disk:
    """The file of a journal. The opening (0) or the append of these numbers from 1 fails; what such a failure leaves is
    one of the files that a crash in it may leave, and here the one from before."""

    def __init__(self, data=EMPTY, fails=()):
        self.data, self.fails, self.appends = data, fails, 0

    def open(self):
        if 0 in self.fails:
            raise NotReadable
        self.data = opened(self.data)
        return kept(self.data)

    def append(self, record):
        self.appends += 1
        if self.appends in self.fails:
            raise NotReadable
        self.data = appended(self.data, record)


@dataclass(frozen=True)
class Keeping:
    """What a server keeps in memory, and the place of the journal's last gate."""

    state: State
    end: int


def reopened(setting, bodies):
    """What a server keeps that begins with the bodies that its journal holds."""
    state = started(setting)
    for number, record in enumerate(bodies, 1):
        try:
            _, state = TAKES[record.path](setting, state, record.moment, record.body)
        except (NotDelivery, FeedFault, Refused):
            raise Replay(number) from None
    return Keeping(state, end_of(bodies))


def kept_answered(setting, keeping, disk, moment, data):
    """The entry of one connection, and what the server keeps then."""
    if moment is None:
        return clock_failed(), keeping
    answer, state = answered(setting, keeping.state, moment, data)
    entry = entry_of(data, moment, answer)
    if entry.mark not in ("Taken", "Fed"):
        return entry, Keeping(state, keeping.end)
    request = read_request(data)
    if is_full(keeping.end, len(request.body)):
        return Entry("Refused 500", moment, refusal(Refused("H500 JournalFull"))), keeping
    record = Kept(request.path, moment, request.body)
    try:
        disk.append(record)
    except NotReadable:
        return Entry("Unkept", moment, refusal(Refused("H500 Journal"))), keeping
    return entry, Keeping(state, keeping.end + size_of(record))


def keeping_run(raw_words, files, clock, inputs, disk):
    """The run of a server's words, which may have a journal, as `server_run`; where an append fails, the run ends with it.
    Without a journal the disk isn't called."""
    log = []

    def serve():
        setting = Setting(raw_words, files, keeps=True)
        if setting.journal is None:
            return served(setting, clock, inputs, log)
        keeping = reopened(setting, disk.open())
        for data in inputs[: setting.connections]:
            entry, keeping = kept_answered(setting, keeping, disk, clock(), data)
            log.append(entry)
            if entry.mark == "Unkept":
                raise NotReadable
        return Outcome(0)

    return ended(serve), log
