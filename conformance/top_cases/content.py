"""Lines of content, which say what bytes are, and the lines that show bytes in a transcript."""

MARKS = ("|", "/", ">", "x", "_", "+", "*")
MOST, END, WIDTH = 4_096, 64, 40


def first_word(line):
    word, _, rest = line.partition(" ")
    return word, rest


def content_of(pieces, line, so_far):
    """The bytes that a line of content adds to those so far."""
    mark, rest = first_word(line)
    if mark == "*":
        first, rest = first_word(rest)
        last, rest = first_word(rest)
        once = content_of(pieces, rest, b"")
        return b"".join(once.replace(b"#", b"%d" % n) for n in range(int(first), int(last) + 1))
    if mark == "x":
        return bytes.fromhex(rest)
    if mark == "_":
        return b" " * (int(rest) - len(so_far))
    if mark == "+":
        return pieces[rest]
    return rest.encode() + {"|": b"\n", "/": b"\r\n", ">": b""}[mark]


# What is shown.


def shown_answer(answer):
    head, between, body = answer.partition(b"\r\n\r\n")
    return shown(head + between) + shown(body)


def shown(data):
    if len(data) <= MOST:
        return lines_of(data)
    total = 0
    for byte in data:
        total = (total * 31 + byte) % 2**32
    front, end = lines_of(data[:END]), lines_of(data[-END:])
    return [f"{len(data)} bytes of sum {total}, from", *front, "to", *end]


def lines_of(data):
    try:
        text = data.decode("utf-8")
    except UnicodeDecodeError:
        text = None
    if text is None or any(letter < " " and letter != "\n" for letter in text.replace("\r\n", "\n")):
        return [f"x {data[at:at + WIDTH].hex()}" for at in range(0, len(data), WIDTH)]
    lines = text.split("\n")
    shown_lines = [marked("/", line[:-1]) if line.endswith("\r") else marked("|", line) for line in lines[:-1]]
    return shown_lines + ([marked(">", lines[-1])] if lines[-1] else [])


def marked(mark, line):
    return f"{mark} {line}" if line else mark
