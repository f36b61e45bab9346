"""Texts of JSON for cases: members in any order, some of them twice, and values of wrong forms in any place."""

import json


class Members(list):
    """An object as pairs of a name and a value, so that a name may stand twice."""


class Raw(str):
    """A value as it is to be written."""


def json_bytes(value, dice=None):
    """The text; with dice, blanks stand between its pieces here and there."""
    parts = list(pieces(value))
    if dice:
        parts = [part + dice.choice(("", "", " ", "\n", "\t", "\r", " \n ")) for part in parts]
    return "".join(parts).encode("utf-8", "surrogatepass")


def pieces(value):
    if isinstance(value, Raw):
        yield value
    elif isinstance(value, (Members, dict)):
        yield "{"
        for i, (name, inner) in enumerate(value if isinstance(value, Members) else value.items()):
            yield "," * (i > 0)
            yield json.dumps(name, ensure_ascii=False)
            yield ":"
            yield from pieces(inner)
        yield "}"
    elif isinstance(value, list):
        yield "["
        for i, inner in enumerate(value):
            yield "," * (i > 0)
            yield from pieces(inner)
        yield "]"
    else:
        yield json.dumps(value, ensure_ascii=False)


def read_pairs(data):
    """The value with its members as pairs, or None where Python has no reading."""
    try:
        return json.loads(data, object_pairs_hook=Members)
    except (ValueError, RecursionError):
        return None


ODD_VALUES = [
    None, "", [], {}, True, False, 0, 1, 5, -1, Raw("-0"), Raw("1.0"), Raw("1e2"), Raw("0.5E-3"), [None], [""],
    [{}], [[]], [["x"]],
    [{"value": None}], {"value": None}, {"value": ""}, {"value": []}, {"value": 5}, {"value": True},
    {"value": {}}, {"value": ["A"]},
    {"value": "A"}, ["A", "B"], [{"value": "A"}, 5], [5], [True], "true", "false", "TRUE", "1", "0", "A", "T0",
    "cancelled", "x",
    {"other": 1}, [1, 2], "2024-05-01", "20240501", "2024-05-01T06:00:00Z", "18446744073709551615",
    "18446744073709551616",
    Raw("18446744073709551615"), Raw("18446744073709551616"), "00000000000000000003", "000000000000000000003",
    " 1", "+1", "\u0661",
    Raw("123456789012345678901234567890"), Raw("-9223372036854775808"), Raw("-9223372036854775809"),
    Raw('"\\u0041"'),
    Raw('"\\ud83d\\ude00"'), "\u0000", "\ud7ff", "a\"b\\c\n\u001f\u007f",
]

# Values after which the whole text is no JSON.
NO_JSON = [
    Raw("1e999"), Raw("-1e400"), Raw('"\\ud800"'), Raw('"\\udc00"'), Raw('"\\ud800\\u0041"'), Raw("01"),
    Raw("+1"), Raw(".5"), Raw("1."),
    Raw("1e"), Raw("NaN"), Raw("Infinity"), Raw("nul"), Raw("'a'"), Raw('"\\x"'), Raw('"\\u12g4"'), Raw('"\t"'),
    Raw("[1,]"), Raw("{,}"),
    Raw('{"a":1,}'), Raw("//"), Raw("tru"), Raw("-"), Raw("1" * 400), Raw("[" * 128 + "]" * 128),
    Raw('{"a" 1}'), Raw("{1:2}"), Raw('"\x00"'),
    Raw("TRUE"), Raw("0x10"), Raw("1_0"), Raw('"\\u12"'), Raw("[1 2]"), Raw('"\\ud83d\\ud83d"'), Raw("\ufeff1"),
    Raw("1\u00a0"),
]
DEEP = [Raw("[" * n + "]" * n) for n in (100, 118, 119, 120, 121, 122, 123, 124, 125, 126, 127)]


FLAGS = ["true", "false", "TRUE", "True", "1", "0", "2", "", " true", 1, 0, [True], {"value": True},
    {"value": "1"}, ["0"], {}, "yes"]
WHOLES = [
    0, 1, 2, 3, "0", "1", "2", "01", "3", -1, Raw("-0"), Raw("1.0"), Raw("1e0"), "+1", "-1", "1.0", " 1", "",
    [], {}, [1], ["1"], [{"value": "2"}],
    {"value": 1}, "18446744073709551615", "18446744073709551616", Raw("18446744073709551615"),
    Raw("18446744073709551616"),
    "00000000000000000003", "000000000000000000003", "99999999999999999999", True,
]
MOMENTS = ["", [], {}, 5, "2024-05-01", "2024-05-01T06:00:00", "2024-05-01T06:00:00.5Z", "2024-05-01T25:00:00Z",
    ["2024-05-01T06:00:00Z"], "x"]
HOLDERS = [None, "", [], {}, [{}], [None], [{}, None], "x", 0, False, [[]], {"value": {}}, [{}, {}]]
BY_NAME = {
    "Cancellation": FLAGS, "ExtraJourney": FLAGS, "ExtraCall": FLAGS, "Order": WHOLES, "Version": WHOLES,
    "RecordedAtTime": MOMENTS,
    "ResponseTimestamp": MOMENTS, "StartTime": MOMENTS, "EndTime": MOMENTS,
    "ArrivalStatus": ["cancelled", "CanceLLed", "cancelled ", "", [], {}, 5, True, ["cancelled"],
    {"value": None}, "x"],
    "DataFrameRef": ["2024-05-01", "20240501", "2024-0501", "202405-01", "00000101", "0001-01-01", "9999-12-31",
    "2023-02-29", "", [], 20240501],
}
BY_NAME["DepartureStatus"] = BY_NAME["ArrivalStatus"]


def odd_value_of(dice, name, value, known):
    """An odd value for a member of that name: mostly one of its kind."""
    if name in BY_NAME and not dice.one_in(4):
        return dice.choice(BY_NAME[name])
    if isinstance(value, (Members, list)) and dice.one_in(2):
        return dice.choice(HOLDERS)
    return odd_value(dice, known)


def odd_value(dice, known=()):
    """A value of a wrong form, or of another right one."""
    if known and dice.one_in(3):
        return wrapped(dice, dice.choice(list(known)))
    if dice.one_in(150):
        return dice.choice(DEEP)
    return dice.choice(ODD_VALUES)


def wrapped(dice, value):
    """A Text in one of its forms."""
    if not isinstance(value, str) or isinstance(value, Raw):
        return value
    kind = dice.randrange(12)
    if kind == 0:
        return {"value": value}
    if kind == 1:
        return [value]
    if kind == 2:
        return [{"lang": "fr", "value": value}, 7]
    if kind == 3:
        return [value, "other", None]
    return value


def loosened(dice, value, oddness):
    """The same tree with its Texts in other forms, its members in another order, and others between them."""
    if isinstance(value, (dict, Members)):
        pairs = list(value.items()) if isinstance(value, dict) else list(value)
        pairs = [(name, loosened(dice, inner, oddness)) for name, inner in pairs]
        if dice.random() < oddness:
            dice.shuffle(pairs)
        if dice.random() < oddness:
            extra = dice.choice(["LineRef", "Monitored", "VehicleLocation", "value", "siri", "StopPointref"])
            pairs.insert(dice.randint(0, len(pairs)), (extra, odd_value(dice)))
        if pairs and dice.random() < oddness / 3:
            name = dice.choice(pairs)[0]
            pairs.insert(dice.randint(0, len(pairs)), (name, odd_value(dice)))
        return Members(pairs)
    if isinstance(value, list):
        return [loosened(dice, inner, oddness) for inner in value]
    return wrapped(dice, value)


def places(value, depth=0):
    """All values in the tree, each as its depth, its holder (Members or a list) and its place there."""
    if isinstance(value, (Members, list)):
        for i, inner in enumerate(value):
            yield depth, value, i
            yield from places(inner[1] if isinstance(value, Members) else inner, depth + 1)


def random_place(dice, tree):
    """A holder and a place in it, mostly far inside; None where there is none."""
    found = list(places(tree))
    if not found:
        return None
    few = dice.choices(found, k=dice.choice((1, 2, 4)))
    return max(few, key=lambda place: place[0])[1:]


def spoil(dice, tree, known, count):
    """Values of wrong forms, and missing ones, in so many places of the tree."""
    for _ in range(count):
        place = random_place(dice, tree)
        if place is None:
            return
        holder, i = place
        if isinstance(holder, Members) and dice.one_in(4):
            del holder[i]
            continue
        name, value = holder[i] if isinstance(holder, Members) else (None, holder[i])
        odd = json_copy(odd_value_of(dice, name, value, known))
        if dice.one_in(8):
            odd = [value]
        holder[i] = (name, odd) if isinstance(holder, Members) else odd


def json_copy(value):
    if isinstance(value, Members):
        return Members((name, json_copy(inner)) for name, inner in value)
    if isinstance(value, dict):
        return Members((name, json_copy(inner)) for name, inner in value.items())
    return [json_copy(inner) for inner in value] if isinstance(value, list) else value
