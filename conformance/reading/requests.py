"""What the input of a connection asks for: where its head ends, its target, and the length of its body.

The grammar of a head is that of `httparse` with its default settings: a token, a target of visible characters or of
others than ASCII's in UTF-8, `HTTP/1.0` or `HTTP/1.1`, one space between them; lines end in CR LF or LF; a name is a
token with the colon right after it, and a value has no control byte but the tab.
"""

import re
from dataclasses import dataclass

MOST_HEAD_BYTES = 16_384
MOST_HEADER_LINES = 64
MOST_BODY_BYTES = 16_777_216
METHODS = {"/gtfs-rt": ("GET", "POST"), "/siri/et": ("GET", "POST"), "/siri/sx": ("POST",)}

EMPTY_LINES = re.compile(rb"(?:\r?\n)*")
END_OF_HEAD = re.compile(rb"\n\r?\n")
TOKEN = rb"[A-Za-z0-9!#$%&'*+.^_`|~-]+"
REQUEST_LINE = re.compile(rb"(" + TOKEN + rb") ([\x21-\x7e\x80-\xff]+) HTTP/1\.[01]\r?\n")
HEADER_LINE = re.compile(rb"(" + TOKEN + rb"):([\t\x20-\x7e\x80-\xff]*)\r?\n")
EMPTY_LINE = re.compile(rb"\r?\n")


class Refused(Exception):
    """A request is refused with this line of text; `allow` are the methods that its target has."""

    def __init__(self, line, allow=()):
        super().__init__(line)
        self.line, self.allow = line, allow


@dataclass
class Request:
    method: str
    path: str
    body: bytes  # of a GET none


def read_request(data):
    """What the whole input of a connection asks for; what comes after a request is no part of it."""
    blank = EMPTY_LINES.match(data).end()
    end = END_OF_HEAD.search(data, blank, MOST_HEAD_BYTES)
    if end is None:
        raise Refused("H431 TooManyFields" if len(data) >= MOST_HEAD_BYTES else "H400 Head")
    head = data[blank : end.end()]
    if head.count(b"\n") > MOST_HEADER_LINES + 2:
        raise Refused("H431 TooManyFields")
    method, target, fields = read_head(head)
    path = target.split("?")[0]
    if path not in METHODS:
        raise Refused("H404 NotFound")
    if method not in METHODS[path]:
        raise Refused("H405 Method", METHODS[path])
    if method == "GET":
        return Request(method, path, b"")
    length = read_length(fields)
    body = data[end.end() : end.end() + length]
    if len(body) < length:
        raise Refused("H400 Cut")
    return Request(method, path, body)


def read_head(head):
    """The method, the target and the header lines, as pairs of a name in small letters and a value."""
    first = REQUEST_LINE.match(head)
    if not first:
        raise Refused("H400 Head")
    fields, at = [], first.end()
    while not EMPTY_LINE.match(head, at):
        line = HEADER_LINE.match(head, at)
        if not line:
            raise Refused("H400 Head")
        fields.append((line[1].decode().lower(), line[2].strip(b" \t")))
        at = line.end()
    try:
        return first[1].decode(), first[2].decode("utf-8"), fields
    except UnicodeDecodeError:
        raise Refused("H400 Head") from None


def read_length(fields):
    """The length of a body that is posted."""
    lengths = [value for name, value in fields if name == "content-length"]
    if not lengths or any(name == "transfer-encoding" for name, _ in fields):
        raise Refused("H411 NeedLength")
    if len(set(lengths)) > 1 or not re.fullmatch(rb"[0-9]+", lengths[0]):
        raise Refused("H400 Length")
    digits = lengths[0].lstrip(b"0")
    if len(digits) > len(str(MOST_BODY_BYTES)) or int(digits or b"0") > MOST_BODY_BYTES:
        raise Refused("H413 TooLarge")
    return int(digits or b"0")
