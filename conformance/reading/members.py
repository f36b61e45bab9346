"""The forms that members of SIRI's JSON have."""

import re

MISSING = object()  # nothing is there, or something that counts as nothing


class BadMember(Exception):
    """A member that is read is missing though required, or has another form."""

    def __init__(self, name):
        super().__init__(name)
        self.name = name


def member(holder, name):
    """The member's value; null, an empty text and an empty array count as missing."""
    value = holder.get(name)
    return MISSING if value is None or value == "" or value == [] else value


def text_in(value, name):
    """A string, an object whose `value` is a string, or an array whose first item is one of these."""
    if isinstance(value, list):
        value = value[0]
        if isinstance(value, list):
            raise BadMember(name)
    if isinstance(value, dict):
        value = member(value, "value")
        if value is not MISSING and not isinstance(value, str):
            raise BadMember(name)
    if value is MISSING or value is None or value == "":
        return MISSING
    if not isinstance(value, str):
        raise BadMember(name)
    return value


def text(holder, name):
    value = member(holder, name)
    return MISSING if value is MISSING else text_in(value, name)


def needed_text(holder, name):
    value = text(holder, name)
    if value is MISSING:
        raise BadMember(name)
    return value


def flag(holder, name):
    """True or false; a missing one is false."""
    if isinstance(holder.get(name), bool):
        return holder[name]
    value = text(holder, name)
    if value is MISSING:
        return False
    if value not in ("true", "false", "1", "0"):
        raise BadMember(name)
    return value in ("true", "1")


def whole(holder, name):
    """A number of digits alone below 2^64, or MISSING."""
    value = holder.get(name)
    if isinstance(value, int) and not isinstance(value, bool):
        number = value
    else:
        digits = text(holder, name)
        if digits is MISSING:
            return MISSING
        if not re.fullmatch(r"[0-9]{1,20}", digits):
            raise BadMember(name)
        number = int(digits)
    if not 0 <= number < 2**64:
        raise BadMember(name)
    return number


def read_text(holder, name, reads):
    """What `reads` makes of a Text, or MISSING; None from it means that the form is another."""
    value = text(holder, name)
    if value is MISSING:
        return MISSING
    result = reads(value)
    if result is None:
        raise BadMember(name)
    return result


def needed(value, name):
    if value is MISSING:
        raise BadMember(name)
    return value


def an_object(holder, name):
    """An object; a missing one is an object without members."""
    value = member(holder, name)
    if value is MISSING:
        return {}
    if not isinstance(value, dict):
        raise BadMember(name)
    return value


def repeated(holder, name):
    """The items of an array, or one item; a missing element has none."""
    value = member(holder, name)
    if value is MISSING:
        return []
    return value if isinstance(value, list) else [value]


def objects(holder, name):
    """The items of a repeated element, each an object."""
    items = repeated(holder, name)
    if not all(isinstance(item, dict) for item in items):
        raise BadMember(name)
    return items
