"""JSON whose objects and arrays know where they stand in the text, and where a text stops being JSON."""

import functools
import re

from reading import deliveries
from reading.json_text import NotJson, Reader


class PlacedObject(dict):
    """An object with the place of each member's value, what it stands in, and under which name there."""

    __slots__ = ("at", "starts", "up", "key")


class PlacedArray(list):
    """An array with the place of each item, what it stands in, and under which name there."""

    __slots__ = ("at", "starts", "up", "key")


class PlacedReader(Reader):
    """The second reading's reader, which keeps the places."""

    def array(self, depth):
        items = PlacedArray()
        items.at, items.starts, items.up, items.key = self.at, [], None, None
        self.expect("[")
        if self.peek() == "]":
            self.at += 1
            return items
        while True:
            self.blanks()
            items.starts.append(self.at)
            value = self.value(depth)
            adopt(value, items, len(items))
            items.append(value)
            if self.peek() == "]":
                self.at += 1
                return items
            self.expect(",")

    def object(self, depth):
        members = PlacedObject()
        members.at, members.starts, members.up, members.key = self.at, {}, None, None
        self.expect("{")
        if self.peek() == "}":
            self.at += 1
            return members
        while True:
            if self.peek() != '"':
                raise NotJson
            name = self.string()
            self.expect(":")
            self.blanks()
            members.starts[name] = self.at
            value = self.value(depth)
            adopt(value, members, name)
            members[name] = value
            if self.peek() == "}":
                self.at += 1
                return members
            self.expect(",")


def adopt(value, up, key):
    if isinstance(value, (PlacedObject, PlacedArray)):
        value.up, value.key = up, key


@functools.lru_cache(maxsize=1)
def read_placed(data):
    """What `read_json` answers, with places."""
    try:
        text = data.decode("utf-8")
    except UnicodeDecodeError:
        raise NotJson from None
    reader = PlacedReader(text)
    value = reader.value(0)
    reader.blanks()
    if reader.at != len(text):
        raise NotJson
    return value


def use_places():
    """Lets the second reading of deliveries go over values that know their places."""
    deliveries.read_json = read_placed


def where_it_breaks(text):
    """Where a text stops being JSON, and whether a whole value stands before that."""
    reader, whole = PlacedReader(text), False
    try:
        reader.value(0)
        whole = True
        reader.blanks()
    except NotJson:
        pass
    return min(reader.at, len(text)), whole


def path_of(value, *more):
    """The way to a value from the root, as `jq` takes it."""
    steps = list(more)
    while value is not None and value.up is not None:
        steps.insert(0, value.key)
        value = value.up
    return "".join(step_text(step) for step in steps) or "."


def step_text(step):
    if isinstance(step, int):
        return f"[{step}]"
    return f".{step}" if re.fullmatch(r"[A-Za-z_][A-Za-z0-9_]*", step) else f'["{step}"]'


def line_and_column(text, at):
    """Counted from 1, as an editor does."""
    return text.count("\n", 0, at) + 1, at - (text.rfind("\n", 0, at) + 1) + 1


def place_text(text, at):
    line, column = line_and_column(text, at)
    return f"line {line}, column {column}"
