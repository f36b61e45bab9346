"""A body that is refused: what it is instead, and where a person finds the place."""

import difflib
import json

from reading.deliveries import NotDelivery
from reading.feeds import FeedFault
from reading.json_text import NotJson
from reading.wire import BYTES, read_fields

from .forms import shown
from .placed import line_and_column, path_of, place_text, read_placed, where_it_breaks

SNIFFED = [
    (b"\x1f\x8b", "this is gzip: gunzip it first, or ask by curl --compressed"),
    (b"PK\x03\x04", "this is a zip file"),
    (b"\xef\xbb\xbf", "a byte order mark stands in front: deploy/adapt/no_mark takes it off"),
    (b"\xff\xfe", "this is UTF-16, and has to be UTF-8"),
    (b"\xfe\xff", "this is UTF-16, and has to be UTF-8"),
    (b"%PDF", "this is a PDF"),
]
WAY = {
    "EstimatedTimetableDelivery": ("ServiceDelivery", "estimated timetables (--et, POST /siri/et)"),
    "SituationExchangeDelivery": ("ServiceDelivery", "situations (--sx, POST /siri/sx)"),
}


def sniff(data):
    """What a body is, where it is something else than JSON; None where it may be JSON."""
    if not data:
        return "it is empty: 0 bytes"
    for mark, what in SNIFFED:
        if data.startswith(mark):
            return what
    front = data[:400].lstrip().lower()
    if front.startswith((b"<!doctype html", b"<html")):
        return "this is HTML, probably an error page"
    if front.startswith(b"<"):
        return "this is XML: deploy/xml_to_json makes JSON of SIRI in XML" if b"siri" in front else "this is XML"
    if data[:1] == b"\n" and b"\n" != front[:1] and b"\x032.0" in data[:20] or data[:2] in (b"\n\r", b"\n\x0b", b"\n\x0d"):
        return "this is a feed in protobuf (--feed, POST /gtfs-rt)"
    return None


def sniff_feed(data):
    """What stands in a feed's place, or None where it may be protobuf."""
    if not data:
        return "it is empty: 0 bytes"
    front = data[:400].lstrip()
    if front.startswith((b"{", b"[")):
        return "this is JSON: a feed is protobuf. A delivery is given by --et or --sx, and posted to /siri/et or /siri/sx"
    if front.startswith((b"header {", b"header{", b"entity {")):
        return "this is protobuf written as text: protoc --encode=transit_realtime.FeedMessage turns it into bytes"
    what = sniff(data)
    return None if what and "protobuf" in what else what


def not_json(data):
    """Lines on a body that is no JSON."""
    what = sniff(data)
    try:
        text = data.decode("utf-8")
    except UnicodeDecodeError as fault:
        if what:
            return [what]
        line = data.count(b"\n", 0, fault.start) + 1
        return [
            f"byte {fault.start} (line {line}) isn't UTF-8: {data[fault.start]:#04x}, after {data[max(0, fault.start - 20):fault.start]!r}",
            "is it Latin-1? iconv -f latin1 -t utf-8 turns it into UTF-8",
        ]
    if what:
        return [what]
    at, whole = where_it_breaks(text)
    line, column = line_and_column(text, at)
    shown_line = text[max(0, at - 40):at] + ">>>here<<<" + text[at:at + 30]
    return [f"it is JSON up to line {line}, column {column}: {shown_line!r}", why_it_breaks(text, at, whole)]


def why_it_breaks(text, at, whole):
    rest = text[at:]
    if whole:
        return "a second text stands behind the first: a body has one"
    if not rest.strip():
        return "it ends in the middle: the download or the file was cut off"
    if rest.startswith(("NaN", "Infinity", "-Infinity")):
        return "JSON has no NaN and no Infinity"
    if rest[0] in "]}":
        return "in front of it stands a comma too many"
    if rest[0] == "'":
        return "texts stand in double quotes"
    if rest.startswith(("True", "False", "None")):
        return "this is Python: JSON has true, false and null"
    if rest[0] in "[{" and text[:at].count("{") + text[:at].count("[") >= 127:
        return "over 127 objects and arrays stand inside each other"
    if rest[0] < " ":
        return "a text has a bare line end or control character in it"
    return "here a value, a comma or a closing bracket is missing"


def not_delivery(data, name):
    """Lines on a body on whose way down a member is wrong."""
    try:
        root, text = read_placed(data), data.decode("utf-8")
    except NotJson:
        return []
    if not isinstance(root, dict):
        return [f"the body is {shown(root, 60)}: it has to be an object {{ .. }}"]
    holder = root
    if isinstance(root.get("Siri"), dict):
        holder = root["Siri"]
    if name == "Siri":
        return [f"Siri is {shown(root.get('Siri'), 60)}: it has to be an object"]
    if name == "ServiceDelivery":
        if "Siri" not in root and isinstance(next(iter(root.values()), None), dict) and len(root) == 1:
            return [f"the body has {next(iter(root))} around it, in place of Siri", *members(holder, text, name)]
        return members(holder, text, name)
    service = holder.get("ServiceDelivery") or {}
    if name in WAY:
        return members(service, text, name) + other_kind(service, name)
    for place, found in wrong_items(service, name):
        return [f"{place_text(text, found[1])}: {place} is {shown(found[0], 60)} and has to be an object, or an array of objects"]
    return []


def members(holder, text, name):
    if not isinstance(holder, dict):
        return [f"what should have {name} is {shown(holder, 60)}"]
    if name in holder:
        return [f"{name} is {shown(holder[name], 60)}: it has to be an object, or an array of objects"]
    lines = [f"{name} is missing at {place_text(text, holder.at)} (jq '{path_of(holder)}'); there stand: " + (", ".join(holder) or "nothing")]
    near = difflib.get_close_matches(name, list(holder), 1, 0.8)
    return lines + ([f"is it the one that is named {near[0]}?"] if near else [])


def other_kind(service, name):
    for other, (_, what) in WAY.items():
        if other != name and isinstance(service, dict) and service.get(other):
            return [f"it is a delivery of {what}"]
    if isinstance(service, dict) and "ErrorCondition" in json.dumps(service, default=str):
        return ["the producer tells an ErrorCondition"]
    others = [key for key in service if key.endswith("Delivery")] if isinstance(service, dict) else []
    return [f"it is a delivery of another service ({', '.join(others)}), which isn't read"] if others else []


def wrong_items(holder, name):
    """Each member of that name below that is neither an object nor an array of objects."""
    if isinstance(holder, dict):
        for key, value in holder.items():
            if key == name and value not in (None, "", []):
                items = value if isinstance(value, list) else [value]
                if not all(isinstance(item, dict) for item in items):
                    yield path_of(holder, key), (value, holder.starts[key])
            yield from wrong_items(value, name)
    elif isinstance(holder, list):
        for value in holder:
            yield from wrong_items(value, name)


def refused_delivery(data, fault):
    """Lines on a delivery that is refused with that text."""
    words = str(fault).split()
    return not_json(data) if words[0] == "NotJson" else not_delivery(data, words[1])


def refused_feed(data, fault):
    """Lines on a feed that is refused with that text."""
    words = str(fault).split()
    what = sniff_feed(data)
    if what:
        return [what]
    if words[0] in ("Differential", "TooManyCalls", "TooLong"):
        return []
    at = int(words[1])
    lines = [f"byte {at} of {len(data)}"]
    if at == len(data) and words[0] == "MissingField":
        return [f"at its end, byte {at}: the feed has no {words[2]}"]
    entity = entity_at(data, at)
    if entity:
        lines.append(entity)
    if words[0] == "Wire" and words[2] == "Truncated":
        lines.append("it ends inside a field: the download was cut off; fetch it again")
    elif words[0] == "Wire" and at < 12:
        lines.append("it breaks at its beginning: it isn't protobuf at all, or it is compressed or encrypted")
    return lines


def entity_at(data, at):
    """Which entity of a feed has that byte, and its id as far as that can be read."""
    fields, _ = read_fields(data, 0, len(data))
    entities = [field for field in fields if (field.number, field.type) == (2, BYTES)]
    for index, field in enumerate(entities):
        if field.at <= at < field.end:
            inner, _ = read_fields(data, field.start, field.end)
            ids = [data[one.start:one.end] for one in inner if (one.number, one.type) == (1, BYTES)]
            return f"in entity {index} (from 0), " + (f"id {ids[-1].decode('utf-8', 'replace')}" if ids else "which has no id")
    return "in the feed's header or between its entities" if fields else None


REFUSED = (NotDelivery, FeedFault)
