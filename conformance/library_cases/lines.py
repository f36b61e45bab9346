"""Cases read line by line, and the transcript of what their questions are answered."""

from dataclasses import dataclass, field

from top_cases.content import MARKS, content_of, first_word, shown

from .answers import ANSWERS
from .given import Given


@dataclass
class Case:
    """What a case is given of its own, where it doesn't have what is common, and what stands round each question."""

    own: dict = field(default_factory=dict)
    without: set = field(default_factory=set)
    fails: set = field(default_factory=set)
    zone: object = None
    window: object = None
    before: bytes = b""
    after: bytes = b""
    kind: str = ""
    of: str = ""


class Cases:
    """All texts of cases, one after the other; `shown` has the lines of the transcript."""

    def __init__(self):
        self.common, self.pieces, self.shown, self.names = {}, {}, [], set()
        self.case, self.in_case = Case(), False
        self.zone, self.window = None, None
        self.target, self.content = None, b""

    def take(self, text):
        self.in_case = False
        for number, line in enumerate(text.split("\n"), 1):
            try:
                self.take_line(line)
            except (KeyError, ValueError, AttributeError) as fault:
                raise SystemExit(f"line {number} is none of a case: {line} ({fault!r})") from fault
        self.close()

    def take_line(self, line):
        word, rest = first_word(line)
        if not line or line.startswith("#"):
            return
        if word in MARKS:
            self.content += content_of(self.pieces, line, self.content)
            return
        self.close()
        if word == "?" and rest:
            self.shown.append(line)
            self.answer(rest.encode())
        elif word == "?":
            self.target = "question", ""
        else:
            getattr(self, f"take_{word.replace('-', '_')}")(rest)

    def close(self):
        target, content = self.target, self.content
        self.target, self.content = None, b""
        if target is None:
            if content:
                raise ValueError("content without a target")
            return
        kind, name = target
        if kind == "file":
            (self.case.own if self.in_case else self.common)[name] = content
        elif kind == "piece":
            self.pieces[name] = content
        elif kind == "zone":
            self.set_own("zone", content)
        elif kind == "before":
            self.case.before = content
        elif kind == "after":
            self.case.after = content
        else:
            self.shown += ["?", *shown(content)]
            self.answer(content)

    def answer(self, question):
        case = self.case
        files = {name: data for name, data in (self.common | case.own).items() if name not in case.without}
        zone, window = case.zone or self.zone, case.window or self.window
        given = Given(files, case.fails, zone, window, case.of)
        self.shown += ANSWERS[case.kind](given, case.before + question + case.after)

    def set_own(self, name, value):
        """Of the case, or before the first one of a text of all cases from there on."""
        setattr(self.case if self.in_case else self, name, value)

    # One for each word that a line may begin with.

    def take_case(self, name):
        if name in self.names:
            raise ValueError("a name twice")
        self.names.add(name)
        self.case, self.in_case = Case(), True
        self.shown += ["", f"case {name}"]

    def take_file(self, name):
        self.target = "file", name

    def take_piece(self, name):
        self.target = "piece", name

    def take_before(self, _):
        self.target = "before", ""

    def take_after(self, _):
        self.target = "after", ""

    def take_without(self, name):
        self.case.without.add(name)

    def take_fail(self, number):
        self.case.fails = {int(number)}

    def take_zone(self, rule):
        self.set_own("zone", rule)

    def take_zone_file(self, _):
        self.target = "zone", ""

    def take_window(self, rest):
        first, days = first_word(rest)
        self.set_own("window", (first, int(days)))

    def take_ask(self, rest):
        self.case.kind, self.case.of = first_word(rest)
        if self.case.kind not in ANSWERS:
            raise ValueError("no such kind")
