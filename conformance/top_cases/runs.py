"""Cases read line by line, and what each of their runs leaves by the second reading."""

from dataclasses import dataclass, field

from reading.files import CaseFiles, NotReadable
from reading.keeping import Disk, keeping_run
from reading.moments import moment_text, read_utc
from reading.outcome import outcome

from .content import MARKS, content_of, first_word, shown, shown_answer


class NotCovered(Exception):
    """A run has a device that fails as the second reading doesn't cover it."""


class Files(CaseFiles):
    """Files, of which the reads of these numbers fail."""

    def __init__(self, by_name, fails):
        super().__init__(by_name)
        self.fails, self.reads = fails, 0

    def read(self, path, limit):
        self.reads += 1
        if self.reads in self.fails:
            raise NotReadable
        return super().read(path, limit)


@dataclass
class Given:
    """What a case's runs are given. A number is None where it is that of the round."""

    own: dict = field(default_factory=dict)
    without: set = field(default_factory=set)
    words: list = field(default_factory=list)
    inputs: list = field(default_factory=list)
    moments: list = field(default_factory=list)
    fails: list = field(default_factory=list)
    rooms: dict = field(default_factory=dict)
    rounds: list = field(default_factory=list)
    kept: bytes = b""
    journal: bytes = b""
    runs: int = 0


class Cases:
    """All texts of cases, one after the other; `shown` has the lines of each case by its name."""

    def __init__(self):
        self.common, self.pieces, self.shown = {}, {}, {}
        self.given, self.case, self.moment = Given(), None, 0
        self.target, self.content, self.left_on_disk = None, b"", b""

    def take(self, text):
        self.case = None
        for number, line in enumerate(text.split("\n"), 1):
            try:
                self.take_line(line)
            except (KeyError, ValueError, AttributeError) as fault:
                raise SystemExit(f"line {number} is none of a case: {line} ({fault!r})") from fault
        self.close()

    def take_line(self, line):
        word, rest = first_word(line)
        if word == "do":
            self.close()
            for inner in self.pieces[rest].decode().split("\n"):
                self.take_one(inner)
        else:
            self.take_one(line)

    def take_one(self, line):
        word, rest = first_word(line)
        if not line or line.startswith("#"):
            return
        if word in MARKS:
            self.content += content_of(self.pieces, line, self.content)
            return
        self.close()
        getattr(self, f"take_{word}")(rest)

    def close(self):
        target, content = self.target, self.content
        self.target, self.content = None, b""
        if target is None:
            if content:
                raise ValueError("content without a target")
            return
        kind, name = target
        if kind == "file":
            (self.common if self.case is None else self.given.own)[name] = content
        elif kind == "piece":
            self.pieces[name] = content
        elif kind == "disk":
            self.given.journal = content
        elif kind == "post":
            self.add_input(f"POST {name} HTTP/1.1\r\nContent-Length: {len(content)}\r\n\r\n".encode() + content)
        else:
            self.add_input(content)

    def add_input(self, data):
        self.given.inputs.append(data)
        self.given.moments.append(self.moment)

    # One for each word that a line may begin with.

    def take_case(self, name):
        if name in self.shown:
            raise ValueError("a name twice")
        self.given, self.case = Given(), name
        self.shown[name] = []

    def take_file(self, name):
        self.target = "file", name

    def take_piece(self, name):
        self.target = "piece", name

    def take_post(self, path):
        self.target = "post", path

    def take_input(self, _):
        self.target = "input", ""

    def take_disk(self, _):
        self.target = "disk", ""

    def take_get(self, path):
        self.add_input(f"GET {path} HTTP/1.1\r\n\r\n".encode())

    def take_without(self, name):
        self.given.without.add(name)

    def take_at(self, text):
        moment = read_utc(text)
        if moment is None:
            raise ValueError("no moment")
        self.moment = moment

    def take_fail(self, rest):
        device, number = first_word(rest)
        self.given.fails.append((device, None if number == "#" else int(number)))

    def take_room(self, rest):
        device, number = first_word(rest)
        self.given.rooms[device] = None if number == "#" else int(number)

    def take_front(self, _):
        """What a failed write leaves isn't covered."""

    take_part = take_front

    def take_cut(self, _):
        """However an input is cut, it is answered the same."""

    def take_each(self, rest):
        self.given.rounds = []
        for word in rest.split(" "):
            first, _, last = word.partition("-")
            self.given.rounds += range(int(first), int(last or first) + 1)

    def take_word(self, word):
        self.given.words.append(word.encode())

    def take_words(self, words):
        self.given.words += words.encode().split(b" ")

    def take_keep(self, name):
        self.given.own[name] = self.given.kept

    def take_run(self, words):
        given = self.given
        if words:
            self.take_words(words)
        given.runs += 1
        lines = self.shown[self.case]
        lines.append(f"run {given.runs}")
        if given.rounds:
            lines += self.rounds_shown()
        else:
            lines += self.run_shown(0)
            given.journal = self.left_on_disk
        given.words = []

    def rounds_shown(self):
        """Of rounds after one another that leave the same the first and the last are shown."""
        groups = []
        for number in self.given.rounds:
            left = self.run_shown(number)
            if groups and groups[-1][2] == left:
                groups[-1][1] = number
            else:
                groups.append([number, number, left])
        return [line for first, last, left in groups for line in [f"rounds {first} to {last}", *left]]

    def run_shown(self, number):
        given = self.given
        files = {name: data for name, data in (self.common | given.own).items() if name not in given.without}
        disk = Disk(given.journal)
        if b"serve" in given.words[:1]:
            clock = clock_of(given.moments, self.fails_of("clock", number))
            left, log = keeping_run(given.words, Files(files, self.fails_of("files", number)), clock, given.inputs, disk)
        else:
            left, log = outcome(given.words, Files(files, self.fails_of("files", number))), []
        if self.fails_of("disk", number) and b"--journal" in given.words:
            raise NotCovered
        if self.fails_of("door", number) or self.may_fail("out", left.out, number) or self.may_fail("err", left.err, number):
            raise NotCovered
        given.kept = left.out
        lines = [f"status {left.status}"]
        for name, data in (("out", left.out), ("err", left.err)):
            lines += [name, *shown(data)] if data else []
        for place, entry in enumerate(log, 1):
            at = "" if entry.moment is None else f" at {moment_text(entry.moment)}"
            lines += [f"connection {place} {entry.mark}{at}", *shown_answer(entry.answer)]
        if disk.data != given.journal:
            lines += ["disk", *shown(disk.data)]
        self.left_on_disk = disk.data
        return lines

    def may_fail(self, device, data, number):
        """Whether a write of an output may fail to which that is written."""
        room = self.given.rooms.get(device, len(data))
        room = number if room is None else room
        return bool(data and self.fails_of(device, number)) or room < len(data)

    def fails_of(self, device, number):
        return {number if of is None else of for name, of in self.given.fails if name == device}


def clock_of(moments, fails):
    """A clock that gives these moments in order; a call that fails takes none."""
    left, calls = list(moments), 0

    def now():
        nonlocal calls
        calls += 1
        return left.pop(0) if left and calls not in fails else None

    return now
