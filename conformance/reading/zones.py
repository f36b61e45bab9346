"""Time zones: POSIX rules (the TZ variable) and TZif files (RFC 9636), as `jiff` takes them.

A zone answers two questions. `offset_at(seconds)`: how many seconds the clock is ahead of UTC at an instant.
`compatible_offset(civil)`: the offset by which a date and time of the clock, in nanoseconds, becomes an
instant; in a gap or fold of the clock that is the offset before it.
"""

import re
import struct
from dataclasses import dataclass

NANOS = 1_000_000_000
DAY = 86_400 * NANOS


class ZoneRefused(Exception):
    """The rule or the file is no zone."""


# Days of years, before 1 as well.


def first_day(year):
    """The day number, since 1970, of 1 January."""
    before = year - 1
    return before * 365 + before // 4 - before // 100 + before // 400 - 719_162


def is_leap(year):
    return year % 4 == 0 and (year % 100 != 0 or year % 400 == 0)


def days_of_months(year):
    return [31, 29 if is_leap(year) else 28, 31, 30, 31, 30, 31, 31, 30, 31, 30, 31]


def year_of_day(day):
    year = 1970 + day * 400 // 146_097
    while first_day(year) > day:
        year -= 1
    while first_day(year + 1) <= day:
        year += 1
    return year


def sunday_number(day):
    """0 on Sunday; 1970-01-01 was a Thursday."""
    return (day + 4) % 7


# POSIX rules.


@dataclass
class Rule:
    """Standard time and, where there is one, daylight saving time with its two moments of the year."""

    name: str
    offset: int
    dst_name: str = None
    dst_offset: int = None
    start: tuple = None  # a day of the year, and seconds from its midnight
    end: tuple = None

    def offset_at(self, seconds):
        return self.dst_offset if self.is_dst_at(seconds) else self.offset

    def is_dst_at(self, seconds):
        if self.dst_name is None:
            return False
        year = year_of_day(seconds // 86_400)
        return in_window(self.utc_window(year), seconds * NANOS)

    def utc_window(self, year):
        """When daylight saving time begins and ends, in UTC. It lasts all year where it begins with the
        year and its end, read in standard time, leaves it."""
        start = moment_of(year, self.start, self.offset)
        end = moment_of(year, self.end, self.dst_offset)
        shown = end + self.offset * NANOS
        if start == first_nano(year) and not first_nano(year) <= shown <= last_nano(year):
            end = last_nano(year)
        return start, end

    def compatible_offset(self, civil):
        if self.dst_name is None or self.dst_offset == self.offset:
            return self.offset
        year = year_of_day(civil // DAY)
        start, end = moment_of(year, self.start, 0), moment_of(year, self.end, 0)
        shift = (self.dst_offset - self.offset) * NANOS
        inside = in_window((start, end), civil)
        if shift > 0:
            if not inside:
                return self.offset
            if start <= civil < start + shift:  # a gap: standard time was before it
                return self.offset
            return self.dst_offset  # a fold at the end too: daylight saving time is before it
        if inside:
            return self.dst_offset
        if start + shift <= civil < start:  # a fold: standard time is before it
            return self.offset
        if end <= civil < end - shift:  # a gap: daylight saving time was before it
            return self.dst_offset
        return self.offset


def in_window(window, at):
    start, end = window
    return start <= at < end if start <= end else not end <= at < start


def first_nano(year):
    return first_day(year) * DAY


def last_nano(year):
    return first_day(year + 1) * DAY - 1


def moment_of(year, when, ahead):
    """A rule's moment in a year, on a clock that is `ahead` seconds behind the rule's; kept in the year."""
    day = day_of_rule(year, when[0])
    if day is None:
        return last_nano(year)
    at = day * DAY + (when[1] - ahead) * NANOS
    return max(first_nano(year), min(last_nano(year), at))


def day_of_rule(year, day):
    kind = day[0]
    if kind == "J":  # 1 to 365; 29 February isn't counted
        return first_day(year) + day[1] - 1 + (1 if is_leap(year) and day[1] >= 60 else 0)
    if kind == "N":  # 0 to 365
        return first_day(year) + day[1] if day[1] < 365 + is_leap(year) else None
    _, month, week, weekday = day
    months = days_of_months(year)
    month_start = first_day(year) + sum(months[: month - 1])
    if week == 5:
        last = month_start + months[month - 1] - 1
        return last - (sunday_number(last) - weekday) % 7
    return month_start + (weekday - sunday_number(month_start)) % 7 + 7 * (week - 1)


class RuleText:
    """Reads a rule from the front."""

    def __init__(self, text):
        self.rest = text

    def match(self, pattern):
        found = re.match(pattern, self.rest, re.ASCII)
        if not found:
            raise ZoneRefused
        self.rest = self.rest[found.end() :]
        return found

    def begins(self, text):
        return self.rest.startswith(text)

    def name(self):
        if self.begins("<"):
            name = self.match(r"<([A-Za-z0-9+-]*)>")[1]
        else:
            name = self.match(r"[A-Za-z]*")[0]
        if not 3 <= len(name) <= 15:
            raise ZoneRefused
        return name

    def time(self, most_digits, most_hours):
        """[+-]h[:mm[:ss]] in seconds, as its sign says."""
        sign = self.match(r"[+-]?")[0]
        hours = int(self.match(r"[0-9]{1,%d}" % most_digits)[0])
        if hours > most_hours:
            raise ZoneRefused
        minutes = seconds = 0
        if self.begins(":"):
            minutes = int(self.match(r":([0-5][0-9])")[1])
            if self.begins(":"):
                seconds = int(self.match(r":([0-5][0-9])")[1])
        total = hours * 3600 + minutes * 60 + seconds
        return -total if sign == "-" else total

    def offset(self):
        return -self.time(2, 24)  # a rule counts to the west

    def day(self):
        if self.begins("M"):
            month, week, weekday = self.match(r"M([0-9]{1,2})\.([0-9])\.([0-9])").groups()
            if not (1 <= int(month) <= 12 and 1 <= int(week) <= 5 and int(weekday) <= 6):
                raise ZoneRefused
            return "M", int(month), int(week), int(weekday)
        if self.begins("J"):
            number = int(self.match(r"J([0-9]{1,3})")[1])
            if not 1 <= number <= 365:
                raise ZoneRefused
            return "J", number
        number = int(self.match(r"[0-9]{1,3}")[0])
        if number > 365:
            raise ZoneRefused
        return "N", number

    def day_time(self):
        day = self.day()
        if not self.begins("/"):
            return day, 7200
        self.match("/")
        return day, self.time(3, 167)


def read_rule(text):
    """The zone of a POSIX rule, as CET-1CEST,M3.5.0,M10.5.0/3."""
    reader = RuleText(text)
    rule = Rule(reader.name(), reader.offset())
    if re.match(r"[A-Za-z<]", reader.rest):
        rule.dst_name = reader.name()
        rule.dst_offset = rule.offset + 3600 if reader.begins(",") else reader.offset()
        reader.match(",")
        rule.start = reader.day_time()
        reader.match(",")
        rule.end = reader.day_time()
    if reader.rest:
        raise ZoneRefused
    return rule


# TZif files.

FIRST_SECOND = -377_705_023_201  # what `jiff` can say as an instant
LAST_SECOND = 253_402_207_200
MOST_OFFSET = 93_599


@dataclass
class LocalType:
    offset: int
    is_dst: bool
    name: bytes


@dataclass
class Row:
    """A transition: when, the offset before it and what holds after it."""

    second: int
    before: int
    after: LocalType

    def civil_start(self):
        return self.second + min(self.before, self.after.offset)

    def civil_end(self):
        return self.second + max(self.before, self.after.offset)


@dataclass
class Table:
    first: LocalType
    rows: list
    rule: Rule

    def offset_at(self, seconds):
        passed = [row for row in self.rows if row.second <= seconds]
        if len(passed) == len(self.rows) and self.rule is not None:
            return self.rule.offset_at(seconds)
        return passed[-1].after.offset if passed else self.first.offset

    def compatible_offset(self, civil):
        second = civil // NANOS
        begun = [row for row in self.rows if row.civil_start() <= second]
        if begun and second < begun[-1].civil_end():
            return begun[-1].before  # in a gap or a fold
        if len(begun) == len(self.rows) and self.rule is not None:
            return self.rule.compatible_offset(civil)
        return begun[-1].after.offset if begun else self.first.offset


def refuse_unless(good):
    if not good:
        raise ZoneRefused


def read_header(data, at):
    """The counts of a header, and where its block begins."""
    refuse_unless(len(data) >= at + 44 and data[at : at + 4] == b"TZif")
    ut, std, leap, times, types, chars = struct.unpack(">6L", data[at + 20 : at + 44])
    refuse_unless(1 <= types <= 256 and chars > 0 and ut in (0, types) and std in (0, types))
    return {"ut": ut, "std": std, "leap": leap, "times": times, "types": types, "chars": chars}, at + 44


def read_block(data, at, counts, size):
    """The parts of a data block, and where it ends."""
    parts = {}
    for name, length in (
        ("times", counts["times"] * size),
        ("indexes", counts["times"]),
        ("types", counts["types"] * 6),
        ("chars", counts["chars"]),
        ("leaps", counts["leap"] * (size + 4)),
        ("std", counts["std"]),
        ("ut", counts["ut"]),
    ):
        refuse_unless(len(data) >= at + length)
        parts[name] = data[at : at + length]
        at += length
    return parts, at


def read_type(parts, i):
    offset, is_dst, place = struct.unpack(">lBB", parts["types"][i * 6 : i * 6 + 6])
    refuse_unless(-MOST_OFFSET <= offset <= MOST_OFFSET)
    chars = parts["chars"]
    refuse_unless(place <= len(chars))
    end = chars.find(b"\0", place)
    refuse_unless(end >= 0 and end - place <= 15)
    name = chars[place:end]
    try:
        name.decode("utf-8")
    except UnicodeDecodeError:
        raise ZoneRefused from None
    return LocalType(offset, is_dst == 1, name)


def read_table(parts, counts, size):
    types = [read_type(parts, i) for i in range(counts["types"])]
    refuse_unless(all(index < len(types) for index in parts["indexes"]))
    rows, before = [], types[0].offset
    for i, index in enumerate(parts["indexes"]):
        (second,) = struct.unpack(">l" if size == 4 else ">q", parts["times"][i * size : i * size + size])
        rows.append(Row(max(FIRST_SECOND, min(LAST_SECOND, second)), before, types[index]))
        before = types[index].offset
    for one, other in zip(rows, rows[1:]):  # the table runs forward
        refuse_unless(one.second <= other.second and one.civil_end() <= other.civil_start())
    std, ut = parts["std"], parts["ut"]
    if not ut:
        refuse_unless(all(flag <= 1 for flag in std))
    elif not std:
        refuse_unless(not any(ut))
    else:
        refuse_unless(all(s <= 1 and u <= s for s, u in zip(std, ut)))
    return types[0], rows


def read_footer(data, at):
    """The rule between two newlines, or None where it is empty."""
    refuse_unless(data[at : at + 1] == b"\n")
    window = data[at + 1 : at + 1 + 1024]
    end = window.find(b"\n")
    refuse_unless(end >= 0)
    if end == 0:
        return None
    try:
        return read_rule(window[:end].decode("ascii"))
    except UnicodeDecodeError:
        raise ZoneRefused from None


def read_zone_file(data):
    """The zone of a TZif file; of a later version the second block counts."""
    counts, at = read_header(data, 0)
    parts, at = read_block(data, at, counts, 4)
    if data[4] == 0:
        first, rows = read_table(parts, counts, 4)
        return Table(first, rows, None)
    counts, at = read_header(data, at)
    parts, at = read_block(data, at, counts, 8)
    first, rows = read_table(parts, counts, 8)
    rule = read_footer(data, at)
    if rule is not None and rows:  # the rule agrees with the last row
        last = rows[-1]
        is_dst = rule.is_dst_at(last.second)
        name = rule.dst_name if is_dst else rule.name
        refuse_unless(rule.offset_at(last.second) == last.after.offset)
        refuse_unless(is_dst == last.after.is_dst and name.encode() == last.after.name)
    return Table(first, rows, rule)
