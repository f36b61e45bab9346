"""Zones whose clocks change, as rules and as TZif files, and days round their changes."""

import struct
from datetime import date, timedelta

from .odd import broken_bytes

# Rules with days on which something happens.
RULES = [
    ("CET-1CEST,M3.5.0,M10.5.0/3", ["2024-03-31", "2024-10-27", "2024-05-01"]),
    ("GMT0BST,M3.5.0/1,M10.5.0", ["2024-03-31", "2024-10-27"]),
    ("EST5EDT,M3.2.0,M11.1.0", ["2024-03-10", "2024-11-03"]),
    ("<+1030>-10:30<+11>-11,M10.1.0,M4.1.0", ["2024-04-07", "2024-10-06"]),
    ("IST-1GMT0,M10.5.0,M3.5.0/1", ["2024-03-31", "2024-10-27"]),
    ("<-02>2<-01>,M3.5.0/-1,M10.5.0/0", ["2024-03-30", "2024-10-26"]),
    ("AAA0BBB,J100/12,J300/12", ["2024-04-10", "2024-04-09", "2024-10-27"]),
    ("AAA0BBB-3,J100/10:30,J300/13:15", ["2024-04-09", "2023-04-10", "2024-10-26"]),
    ("AAA-2BBB-1,J60/12,J61/11:59:59", ["2024-03-01", "2023-03-01", "2024-03-02"]),
    ("AAA3BBB,0/0,J365/25", ["2023-12-31", "2024-01-01"]),
    ("AAA3BBB,M1.1.1/-30,365/167", ["2024-01-01", "2023-12-31"]),
    ("XXX-2<+01>-1,0/0,J365/23", ["2024-12-31", "2025-01-01"]),
    ("AAA0BBB0,J10,J20", ["2024-01-10"]),
    ("XXX0YYY,J60,J60", ["2024-02-29", "2024-03-01"]),
    ("UTC0", ["2024-02-29", "1971-01-01", "9997-12-31"]),
    ("<+14>-14", ["2024-12-31", "1971-01-01"]),
    ("AAAA24:59:59", ["1971-01-01", "9997-12-31"]),
    ("AAA-24:59:59BBB,M6.1.0/167:59:59,M6.5.6/-167", ["2024-06-08", "2024-06-23"]),
]

ODD_RULES = [
    "???", "UTC", "UTC+", "UTC25", "UT0", "UTC0:60", "UTC0:5", "UTC0:05:5", "<UTC>0", "<UT>0", "<U+1>-1:30:15",
    "<U_C>0",
    "AAA0BBB", "AAA0BBB,", "AAA0BBB,M3.5.0", "AAA0BBB,M3.5.0,", "AAA0BBB,M13.5.0,M10.5.0",
    "AAA0BBB,M3.6.0,M10.5.0",
    "AAA0BBB,M3.5.7,M10.5.0", "AAA0BBB,M0.5.0,M10.5.0", "AAA0BBB,J0,J10", "AAA0BBB,J366,J10", "AAA0BBB,366,10",
    "AAA0BBB,365,10", "AAA0BBB,M3.5.0/168,M10.5.0", "AAA0BBB,M3.5.0/2:60,M10.5.0",
    "AAA0BBB,M3.5.0/+2,M10.5.0/-2 ",
    "AAA0BBB,M3.5.0,M10.5.0/3x", "AAA0BBB1BBB,J1,J2", "AAAAAAAAAAAAAAAA0", "AAAAAAAAAAAAAAA0", "AAA 0", " AAA0",
    ":UTC0",
    "AAA0bbb-1,J1/0,J2/0", "AAA+0", "AAA-0", "AAA--1", "AAA024", "AAA0<BBB>,M03.1.0,M4.1.0", "A\u00c4A0",
    "AAA0BBB24:59:59,1,2",
    "Europe/Paris", "UTC0\n", "<AAA>0<BBB>-1,J001/000,J365/167:59:59",
    "AAA0BBB,M3.5.0/2:00:00,M10.5.0/3:00:00,", "<>0",
    "<AAA0", "AAA0BBB,,J1", "AAA0BBB-,J1,J2", "AAA1:2", "AAA0BBB,J1000,J2", "AAA0BBB,M3.5.00,J2",
]


def random_rule(dice):
    def offset():
        text = dice.choice(["0", "1", "-1", "5", "-10:30", "-13:45:10", "12", "24", "-24:59:59", "+3"])
        return text

    def time():
        if dice.one_in(3):
            return ""
        return "/" + dice.choice(["0", "1", "3", "12", "11:30", "-1", "24", "25", "-36", "167", "-167:59:59",
            "12:00:01"])

    def day():
        kind = dice.randrange(3)
        if kind == 0:
            return f"J{dice.choice((1, 59, 60, 61, 100, 364, 365))}{time()}"
        if kind == 1:
            return f"{dice.choice((0, 58, 59, 60, 99, 364, 365))}{time()}"
        return f"M{dice.choice((1, 2, 3, 4, 10, 12))}.{dice.randint(1, 5)}.{dice.randrange(7)}{time()}"

    if dice.one_in(5):
        return f"AAA{offset()}"
    return f"AAA{offset()}BBB{dice.choice(('', offset()))},{day()},{day()}"


def random_zone(dice):
    """Words of a zone, its files, and days worth a look."""
    kind = dice.weighted(known=13, random=4, file=4, odd=1)
    if kind == "odd":
        return ["--zone-rule", dice.choice(ODD_RULES)], {}, ["2024-05-01"]
    if kind == "random":
        rule = random_rule(dice)
        return ["--zone-rule", rule], {}, days_of_rule(dice)
    if kind == "file":
        data, days = random_file(dice)
        return ["--zone-file", "zone"], {"zone": data}, days
    rule, days = dice.choice(RULES)
    return ["--zone-rule", rule], {}, days


def days_of_rule(dice):
    day = date(dice.choice((2023, 2024, 2025, 2100)), 1, 1)
    numbers = (0, 1, 30, 58, 59, 60, 90, 99, 100, 300, 362, 363, 364, 365)
    return [str(day + timedelta(days=n)) for n in numbers]


# TZif files.


def header(version, counts):
    ut, std, leap, times, types, chars = counts
    return b"TZif" + version + bytes(15) + struct.pack(">6L", ut, std, leap, times, types, chars)


def block(rows, types, chars, size, std=b"", ut=b"", leaps=()):
    out = b"".join(struct.pack(">l" if size == 4 else ">q", second) for second, _ in rows)
    out += bytes(index for _, index in rows)
    out += b"".join(struct.pack(">lBB", *kind) for kind in types)
    out += chars
    out += b"".join(struct.pack(">ll" if size == 4 else ">ql", *leap) for leap in leaps)
    return out + std + ut


def random_rows(dice, start, types):
    """Rows far enough from each other, mostly."""
    rows, second = [], start
    for _ in range(dice.choice((0, 1, 2, 3, 6))):
        rows.append((second, dice.randrange(types)))
        second += dice.choice((180_000, 200_000, 86400 * 30, 86400 * 2 + 43200, 15_000_000))
        if dice.one_in(20):
            second -= dice.choice((100_000, 179_000, 180_000, 15_000_000))
    return rows


def random_file(dice):
    """A file of a table round days of 2024, mostly with a rule after it that agrees with the last row."""
    offsets = dice.choice(([3600, 7200], [0, 3600], [-18000, -14400], [37800, 39600], [3600, 0], [0, 0],
        [90000, -90000]))
    has_dst = dice.one_in(3)
    if has_dst:
        offsets = [3600, 7200]
    types = [(offsets[0], 0, 0), (offsets[1], 1, 4)]
    chars = b"AAA\0BBB\0"
    if dice.one_in(3):
        types.append((offsets[0] + dice.choice((1800, -1800, 86400)), dice.choice((0, 0, 1, 2)),
            dice.choice((0, 1, 4, 7, 8))))
    start = 1711846800 - 86400 * dice.choice((0, 0, 200, 20000)) + dice.choice((0, 0, 3600, 39600, 82800,
        -3600 - offsets[0]))
    rows = random_rows(dice, start, len(types))
    rule = f"AAA{west(offsets[0])}"
    if has_dst:
        rule += "BBB,M3.5.0,M10.5.0/3"
        last = dice.choice(((1711846800, 1), (1729990800, 0), (1729990799, 1), (1743296400, 1)))
        rows = [row for row in rows if row[0] < last[0] - 86400] + [last]
    elif rows and not dice.one_in(10):
        rows[-1] = (rows[-1][0], 0)
    if dice.one_in(3) or abs(offsets[0]) > 86400:
        rule = ""
    if dice.one_in(10):
        rule = dice.choice(("AAA5", "BBB0", f"AAA{west(offsets[0])}BBB,J1/0,J365/25", "AAA", "\u00e9"))
    if dice.one_in(10):
        types[0] = (types[0][0], dice.choice((1, 2, 255)), 0)
    version = dice.choice((b"2", b"3", b"4", b"\0"))
    flags, ut = b"", b""
    if dice.one_in(3):
        flags = bytes(dice.choice((0, 1, 1)) for _ in types)
        ut = bytes(flag if dice.one_in(2) else 0 for flag in flags)
        if dice.one_in(5):
            flags, ut = dice.choice(((b"\2" * len(types), b""), (b"", bytes(len(types))),
                (b"", b"\1" * len(types)), (bytes(len(types)), b"\1" * len(types))))
    leaps = [(78796800, 1)] if dice.one_in(6) else []
    counts = [len(ut), len(flags), len(leaps), len(rows), len(types), len(chars)]
    if dice.one_in(20):
        counts[dice.randrange(6)] += dice.choice((1, -1, 256, -len(types), 2**31))
        counts = [max(0, count) for count in counts]
    if version == b"\0":
        data = header(version, counts) + block(rows, types, chars, 4, flags, ut, leaps)
    else:
        data = header(version, (0, 0, 0, 0, 1, 1)) + block([], [(0, 0, 0)], b"\0", 4)
        data += header(version, counts) + block(rows, types, chars, 8, flags, ut, leaps)
        data += dice.choice((b"\n",) * 12 + (b"x", b"", b"\n\n")) + rule.encode() + b"\n"
    if dice.one_in(12):
        data += dice.choice((b"x", b"\n"))
    if dice.one_in(16):
        data = broken_bytes(dice, data)
    days = ["2024-03-31", "2024-03-30", "2024-10-27", "2024-05-01"]
    for second, _ in rows[:4]:
        days.append(str(date(1970, 1, 1) + timedelta(days=second // 86400)))
    return data, [day for day in days if day >= "1971-01-02"]


def west(seconds):
    sign = "-" if seconds > 0 else ""
    seconds = abs(seconds)
    text = f"{sign}{seconds // 3600}"
    return text if seconds % 3600 == 0 else f"{text}:{seconds // 60 % 60:02}:{seconds % 60:02}"


def local_moment(dice, days):
    """A time of the zone's own clock, where clocks change. What the last nanosecond of a year is where daylight
    saving time ends past it isn't settled, so no fraction has nine nines."""
    day = dice.choice(days)
    if dice.one_in(3):
        day = str(min(date(9998, 12, 31), date.fromisoformat(day) + timedelta(days=dice.choice((-1, 1)))))
    hour = dice.choice((0, 1, 1, 2, 2, 2, 3, 3, 4, 9, 10, 11, 12, 13, 14, 20, 22, 23))
    rest = dice.choice(("00:00", "00:00", "00:00", "30:00", "59:59", "59:59.999999998", "15:00", "29:59.5",
        "44:50"))
    return f"{day}T{hour:02}:{rest}"


def instant_near(dice, days):
    """An instant, in seconds, in half hours from a day's midnight."""
    day = (date.fromisoformat(dice.choice(days)) - date(1970, 1, 1)).days
    half_hours = dice.choice((dice.randrange(-30, 80), dice.randrange(40, 52)))
    seconds = day * 86400 + half_hours * 1800 + dice.choice((0, 0, 0, -1, 1))
    return max(0, seconds)
