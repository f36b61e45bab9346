"""Texts of JSON (RFC 8259) as `serde_json` takes them, and the compact text that it writes.

What it has no reading for: bytes that aren't UTF-8 (a byte order mark is no blank either), half of a surrogate
pair, a number too large for a float, and more than 127 arrays and objects inside each other. Of two equal
member names in one object the last counts.
"""

import json
import math
import re

MOST_DEPTH = 127
NUMBER = re.compile(r"-?(0|[1-9][0-9]*)(\.[0-9]+)?([eE][+-]?[0-9]+)?")
BLANKS = re.compile(r"[ \t\n\r]*")
PLAIN = re.compile(r'[^"\\\x00-\x1f]*')
ESCAPES = {'"': '"', "\\": "\\", "/": "/", "b": "\b", "f": "\f", "n": "\n", "r": "\r", "t": "\t"}
WORDS = {"null": None, "true": True, "false": False}


class NotJson(Exception):
    """The bytes have no reading."""


class Fraction:
    """A number that isn't written in digits alone, or is beyond 64 bits. Its value is never used."""


FRACTION = Fraction()


def read_json(data):
    """None, a bool, an int, a FRACTION, a str, a list or a dict."""
    try:
        text = data.decode("utf-8")
    except UnicodeDecodeError:
        raise NotJson from None
    reader = Reader(text)
    value = reader.value(0)
    reader.blanks()
    if reader.at != len(text):
        raise NotJson
    return value


class Reader:
    def __init__(self, text):
        self.text = text
        self.at = 0

    def blanks(self):
        self.at = BLANKS.match(self.text, self.at).end()

    def peek(self):
        self.blanks()
        return self.text[self.at : self.at + 1]

    def expect(self, char):
        if self.peek() != char:
            raise NotJson
        self.at += 1

    def value(self, depth):
        char = self.peek()
        if char in ("[", "{") and depth == MOST_DEPTH:
            raise NotJson
        if char == "[":
            return self.array(depth + 1)
        if char == "{":
            return self.object(depth + 1)
        if char == '"':
            return self.string()
        for word, value in WORDS.items():
            if self.text.startswith(word, self.at):
                self.at += len(word)
                return value
        return self.number()

    def array(self, depth):
        self.expect("[")
        items = []
        if self.peek() == "]":
            self.at += 1
            return items
        while True:
            items.append(self.value(depth))
            if self.peek() == "]":
                self.at += 1
                return items
            self.expect(",")

    def object(self, depth):
        self.expect("{")
        members = {}
        if self.peek() == "}":
            self.at += 1
            return members
        while True:
            if self.peek() != '"':
                raise NotJson
            name = self.string()
            self.expect(":")
            members[name] = self.value(depth)
            if self.peek() == "}":
                self.at += 1
                return members
            self.expect(",")

    def number(self):
        found = NUMBER.match(self.text, self.at)
        if not found:
            raise NotJson
        self.at = found.end()
        digits, point, exponent = found.groups()
        whole = point is None and exponent is None
        if whole and found[0][0] != "-" and int_of(digits) < 2**64:
            return int_of(digits)
        if whole and found[0][0] == "-" and 0 < int_of(digits) <= 2**63:
            return -int_of(digits)
        if math.isinf(float(found[0])):
            raise NotJson
        return FRACTION

    def string(self):
        self.at += 1
        pieces = []
        while True:
            plain = PLAIN.match(self.text, self.at)
            pieces.append(plain[0])
            self.at = plain.end()
            char = self.text[self.at : self.at + 1]
            self.at += 1
            if char == '"':
                return "".join(pieces)
            if char != "\\":
                raise NotJson
            pieces.append(self.escape())

    def escape(self):
        char = self.text[self.at : self.at + 1]
        self.at += 1
        if char in ESCAPES:
            return ESCAPES[char]
        if char != "u":
            raise NotJson
        code = self.four_digits()
        if 0xDC00 <= code <= 0xDFFF:
            raise NotJson
        if 0xD800 <= code <= 0xDBFF:
            if self.text[self.at : self.at + 2] != "\\u":
                raise NotJson
            self.at += 2
            low = self.four_digits()
            if not 0xDC00 <= low <= 0xDFFF:
                raise NotJson
            code = 0x10000 + ((code - 0xD800) << 10) + (low - 0xDC00)
        return chr(code)

    def four_digits(self):
        digits = self.text[self.at : self.at + 4]
        if not re.fullmatch(r"[0-9A-Fa-f]{4}", digits):
            raise NotJson
        self.at += 4
        return int(digits, 16)


def int_of(digits):
    """Digits as a number; one of over 4,000 digits as something beyond 64 bits."""
    return int(digits) if len(digits) < 4000 else 2**64


def json_text(value):
    """The compact text, members in the order of their names."""
    return json.dumps(value, ensure_ascii=False, separators=(",", ":"), sort_keys=True).encode()
