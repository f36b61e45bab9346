"""Days and moments, as texts and as seconds since 1970."""

import re
from datetime import date

LAST_MOMENT = 253_370_764_799  # the end of the year 9998
NANOS = 1_000_000_000


def day_number(day):
    """Days since 1970-01-01."""
    return day.toordinal() - date(1970, 1, 1).toordinal()


def day_of_number(number):
    return date.fromordinal(number + date(1970, 1, 1).toordinal())


def make_day(year, month, day):
    try:
        return date(int(year), int(month), int(day))
    except ValueError:
        return None


def read_compact_day(text):
    """YYYYMMDD of the years 0001 to 9999."""
    found = re.fullmatch(r"([0-9]{4})([0-9]{2})([0-9]{2})", text)
    return make_day(*found.groups()) if found else None


def read_either_day(text):
    """YYYY-MM-DD or YYYYMMDD."""
    found = re.fullmatch(r"([0-9]{4})-([0-9]{2})-([0-9]{2})", text)
    return make_day(*found.groups()) if found else read_compact_day(text)


def day_text(day):
    return f"{day.year:04}-{day.month:02}-{day.day:02}"


def compact_text(day):
    return f"{day.year:04}{day.month:02}{day.day:02}"


def moment_text(seconds):
    day, rest = divmod(seconds, 86_400)
    return f"{day_text(day_of_number(day))}T{rest // 3600:02}:{rest // 60 % 60:02}:{rest % 60:02}Z"


def is_moment(seconds):
    return seconds is not None and 0 <= seconds <= LAST_MOMENT


MOMENT = re.compile(
    r"([0-9]{4})-([0-9]{2})-([0-9]{2})T([0-9]{2}):([0-9]{2}):([0-9]{2})"
    r"(?:\.([0-9]{1,9}))?(Z|[+-][0-9]{2}:[0-9]{2})?"
)


def read_moment(text, zone):
    """Nanoseconds since 1970, or None where the text is no moment."""
    found = MOMENT.fullmatch(text)
    if not found:
        return None
    year, month, day, hour, minute, second, digits, offset = found.groups()
    date_part = make_day(year, month, day)
    if date_part is None or not 1970 <= int(year) <= 9998:
        return None
    if int(hour) > 23 or int(minute) > 59 or int(second) > 59:
        return None
    clock = day_number(date_part) * 86_400 + int(hour) * 3600 + int(minute) * 60 + int(second)
    civil = clock * NANOS + int((digits or "").ljust(9, "0"))
    if offset is None:
        ahead = zone.compatible_offset(civil)
    elif offset == "Z":
        ahead = 0
    else:
        ahead = read_offset(offset)
        if ahead is None:
            return None
    instant = civil - ahead * NANOS
    return instant if is_moment(instant // NANOS) else None


def read_offset(text):
    """+hh:mm or -hh:mm, at most 14:00, in seconds."""
    hours, minutes = int(text[1:3]), int(text[4:6])
    if minutes > 59 or hours * 60 + minutes > 14 * 60:
        return None
    seconds = hours * 3600 + minutes * 60
    return -seconds if text[0] == "-" else seconds


def read_utc(text):
    """The 20 bytes YYYY-MM-DDThh:mm:ssZ, in seconds."""
    if len(text) != 20 or not text.endswith("Z"):
        return None
    nanos = read_moment(text, None)
    return None if nanos is None else nanos // NANOS


def day_start(zone, day):
    """Local noon minus twelve hours: what a stop's times count from."""
    noon = day_number(day) * 86_400 + 43_200
    return noon - zone.compatible_offset(noon * NANOS) - 43_200


def local_day(zone, seconds):
    return day_of_number((seconds + zone.offset_at(seconds)) // 86_400)
