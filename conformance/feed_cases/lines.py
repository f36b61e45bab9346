"""Cases read line by line, and the transcript of what their questions are answered."""

from .answers import ANSWERS, Question
from .words import bytes_of


class Cases:
    """All texts of cases, one after the other; `shown` has the lines of the transcript."""

    def __init__(self, folder):
        self.folder, self.shown, self.names = folder, [], set()
        self.front, self.days, self.kind, self.moment = b"", 2, "", ""

    def take(self, text):
        for number, line in enumerate(text.split("\n"), 1):
            if not line or line.startswith("#"):
                continue
            word, _, rest = line.partition(" ")
            try:
                getattr(self, "ask_question" if word == "?" else f"take_{word}")(rest)
            except (KeyError, ValueError, AttributeError, IndexError) as fault:
                raise SystemExit(f"line {number} is none of a case: {line} ({fault!r})") from fault

    def ask_question(self, text):
        self.shown.append(f"? {text}" if text else "?")
        self.shown += ANSWERS[self.kind](Question(text, self.front, self.folder, self.days, self.moment))

    # One for each word that a line may begin with.

    def take_case(self, name):
        if name in self.names:
            raise ValueError("a name twice")
        self.names.add(name)
        self.front, self.days, self.kind, self.moment = b"", 2, "", ""
        self.shown += ["", f"case {name}"]

    def take_front(self, text):
        self.front = bytes_of(text)

    def take_days(self, count):
        self.days = int(count)

    def take_ask(self, rest):
        self.kind, _, self.moment = rest.partition(" ")
        if self.kind not in ANSWERS:
            raise ValueError("no such kind")
