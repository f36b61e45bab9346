"""A folder that is refused: the line of the file, what stands there, and what may."""

import difflib
import os

from reading.folder import FILES, KEYS, MOST_ID_BYTES, MOST_ROWS_OF_A_TRIP, NAMES_OF, records

from .rules import COLUMN


def placed_records(data):
    """Each record with the number of the line on which it begins, counted from 1."""
    line, at = 1, 3 if data.startswith(b"\xef\xbb\xbf") else 0
    while at < len(data):
        if data[at] in b"\r\n":
            line += data[at] == 0x0A or data[at + 1:at + 2] != b"\n"
            at += 1
            continue
        end = record_end(data, at)
        yield line, data[at:end]
        line += line_ends(data[at:end])
        at = end


def line_ends(piece):
    return piece.replace(b"\r\n", b"\n").replace(b"\r", b"\n").count(b"\n")


def record_end(data, at):
    """Where the record that begins there ends: at a line end outside of quotes."""
    quoted, starts = False, True
    while at < len(data):
        byte = data[at]
        if quoted:
            if byte == 0x22:
                if data[at + 1:at + 2] == b'"':
                    at += 1
                else:
                    quoted = False
        elif byte in b"\r\n":
            return at
        elif byte == 0x22 and starts:
            quoted = True
        starts = not quoted and byte == 0x2C
        at += 1
    return at


def plain_records(data):
    """What `records` answers, quickly where no quote stands."""
    if b'"' in data:
        yield from records(data)
        return
    if data.startswith(b"\xef\xbb\xbf"):
        data = data[3:]
    for line in data.replace(b"\r", b"\n").split(b"\n"):
        if line:
            yield line.split(b",")


def explain_fault(folder, fault):
    """Lines on a fault of the folder, as the program tells it."""
    words = fault.split()
    if words[0] == "NoColumn":
        return no_column(folder, words[1], words[2])
    if words[0] in ("Zones", "UntimedEnd"):
        name = "agency.txt" if words[0] == "Zones" else "stop_times.txt"
        return row(folder, name, int(words[1]), "agency_timezone" if words[0] == "Zones" else None, words[0])
    if words[0] == "TooLong":
        return []
    return row(folder, words[1], int(words[2]), words[3] if len(words) > 3 else None, words[0])


def data_of(folder, name):
    with open(os.path.join(folder, name), "rb") as file:
        return file.read()


def no_column(folder, name, column):
    header = next(plain_records(data_of(folder, name)), [])
    names = [field.strip(b" \t").decode("utf-8", "replace") for field in header]
    lines = [f"{name} line 1 names: {', '.join(names) or 'nothing'}"]
    near = difflib.get_close_matches(column.lower(), [one.lower() for one in names], 1, 0.8)
    return lines + ([f"is it {next(one for one in names if one.lower() == near[0])}? names are compared with case"] if near else [])


def row(folder, name, number, column, kind):
    """The row's line, and what stands in the column."""
    data, header, found = data_of(folder, name), None, None
    for place, (line, raw) in enumerate(placed_records(data)):
        if place == 0:
            header = [field.strip(b" \t").decode("utf-8", "replace") for field in next(records(raw), [])]
        elif place == number:
            found = line, raw
            break
    if found is None:
        return [f"{name} has no row {number} now"]
    line, raw = found
    fields = [field.strip(b" \t").decode("utf-8", "replace") for field in next(records(raw), [])]
    lines = [f"{name} line {line}: {raw[:200].decode('utf-8', 'replace')}"]
    value = value_in(header, fields, column)
    if kind == "Unknown":
        other = NAMES_OF.get((name, column), name)
        lines.append(f"{column} is {value!r}, which {other} doesn't have")
    elif column:
        lines.append(f"{column} is {value!r}" + (f"; it has to be {COLUMN[FILES[name][0][column]]}" if kind == "BadField" else ""))
    if kind == "Duplicate":
        lines += earlier(name, data, header, fields, number)
    if kind == "Limit":
        lines.append(limit_of(name, fields, number))
    if kind == "NotUtf8":
        lines.append("is it Latin-1? iconv -f latin1 -t utf-8 turns it into UTF-8")
    if kind == "BadField" and not "".join(fields).strip():
        lines.append("it is a line of blanks: take it out")
    return lines


def limit_of(name, fields, number):
    """Which of the limits the row is over."""
    most = FILES[name][1]
    if number > most:
        what = name.removesuffix(".txt").replace("_", " ")
        return f"a folder may have at most {most:,} {what}: cut it by operator or by line, and give each part a gateway"
    long = [field for field in fields if len(field.encode()) > MOST_ID_BYTES]
    if long:
        return f"{long[0][:40]!r}.. has {len(long[0].encode())} bytes, and an id at most {MOST_ID_BYTES}"
    return f"its trip has over {MOST_ROWS_OF_A_TRIP} rows"


def value_in(header, fields, column):
    if column not in header:
        return ""
    place = header.index(column)
    return fields[place] if place < len(fields) else ""


def earlier(name, data, header, fields, number):
    """The line on which the same key stood before."""
    key = [value_in(header, fields, column) for column in KEYS[name]]
    shown = ", ".join(f"{column} {value}" for column, value in zip(KEYS[name], key))
    for place, (line, raw) in enumerate(placed_records(data)):
        if 0 < place < number:
            other = [one.strip(b" \t").decode("utf-8", "replace") for one in next(records(raw), [])]
            if same_key(name, [value_in(header, other, column) for column in KEYS[name]], key):
                return [f"{shown} stands on line {line} already"]
    return [f"{shown} stands there already"]


def same_key(name, one, other):
    if name == "stop_times.txt":
        return one[0] == other[0] and one[1].isdigit() and int(one[1]) == int(other[1])
    return one == other


def missing(path):
    """What stands where a file is missing."""
    folder, name = os.path.split(path)
    if not os.path.isdir(folder or "."):
        return [f"there is no folder {folder}", *nearest_folder(folder)]
    inside = sorted(os.listdir(folder or "."))
    lines = [f"{folder or '.'} has: {', '.join(inside[:20]) or 'nothing'}" + (", .." if len(inside) > 20 else "")]
    near = [one for one in inside if one.lower() == name.lower()]
    below = [one for one in inside if os.path.isfile(os.path.join(folder, one, name))]
    if near:
        lines.append(f"names are compared with case: {near[0]}")
    elif below:
        lines.append(f"it stands in a folder below: {os.path.join(folder, below[0])}")
    elif any(one.endswith(".zip") for one in inside):
        lines.append("a zip file is there: unzip it first")
    if name == "calendar.txt":
        lines.append("calendar.txt or calendar_dates.txt has to be there")
    return lines


def nearest_folder(folder):
    """The part of a path that is there."""
    part = folder
    while part and part != "/" and not os.path.exists(part):
        part = os.path.dirname(part)
    if part and os.path.isfile(part):
        return [f"{part} is a file: is it the zipped folder? unzip it first"]
    return [f"of its path {part or '.'} is there"]
