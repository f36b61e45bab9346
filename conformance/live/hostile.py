"""Inputs that are no sound request: heads, and bodies that are long, deep or empty."""

from reading.written_feed import bytes_field, number_field, text_field

MOST_BODY = 16_777_216
HEADER = bytes_field(1, text_field(1, "2.0") + number_field(2, 0) + number_field(3, 1_714_543_200))


def get(target, more=""):
    return f"GET {target} HTTP/1.1\r\nHost: gateway\r\n{more}\r\n".encode()


def post(target, body, more=""):
    return f"POST {target} HTTP/1.1\r\nHost: gateway\r\n{more}Content-Length: {len(body)}\r\n\r\n".encode() + body


def with_lines(count):
    return b"GET /gtfs-rt HTTP/1.1\r\n" + b"X: x\r\n" * count + b"\r\n"


FIVE = b"POST /siri/et HTTP/1.1\r\n%s\r\n[[[[["
HEADS = [
    b"",
    b"\n" * 16_384,
    b"\r\n" * 8_192,
    b"\n" * 100 + get("/gtfs-rt"),
    b"\r" + get("/gtfs-rt"),
    b"\0" * 20_000,
    b"\xff" * 300,
    b"\x16\x03\x01\x02\x00\x01\x00\x01\xfc\x03\x03" + b"\x55" * 506,  # a client that speaks TLS
    b"PRI * HTTP/2.0\r\n\r\nSM\r\n\r\n",
    b"GET /gtfs-rt\r\n\r\n",
    b"GET /gtfs-rt HTTP/1.0\n\n",
    b"GET /gtfs-rt HTTP/1.2\r\n\r\n",
    b"GET /gtfs-rt HTTP/1.1\r\nHost: h\n\r\n",
    b"GET  /gtfs-rt HTTP/1.1\r\n\r\n",
    b"GET /gtfs-rt  HTTP/1.1\r\n\r\n",
    b" GET /gtfs-rt HTTP/1.1\r\n\r\n",
    b"get /gtfs-rt HTTP/1.1\r\n\r\n",
    b"GET /GTFS-RT HTTP/1.1\r\n\r\n",
    b"GET http://gateway/gtfs-rt HTTP/1.1\r\n\r\n",
    b"GET /gtfs-rt/ HTTP/1.1\r\n\r\n",
    b"GET /../gtfs-rt HTTP/1.1\r\n\r\n",
    b"GET /gtfs%2Drt HTTP/1.1\r\n\r\n",
    "GET /\u00e9t\u00e9 HTTP/1.1\r\n\r\n".encode(),
    b"GET /\xe9t\xe9 HTTP/1.1\r\n\r\n",
    "GET /gtfs-rt?\u00e9 HTTP/1.1\r\n\r\n".encode(),
    b"GET /gtfs-rt?x=1&y=?? HTTP/1.1\r\n\r\n",
    b"GET /gtfs-rt#x HTTP/1.1\r\n\r\n",
    b"GET ? HTTP/1.1\r\n\r\n",
    b"GET * HTTP/1.1\r\n\r\n",
    b"OPTIONS * HTTP/1.1\r\n\r\n",
    b"CONNECT gateway:80 HTTP/1.1\r\n\r\n",
    b"HEAD /gtfs-rt HTTP/1.1\r\n\r\n",
    b"PUT /siri/sx HTTP/1.1\r\n\r\n",
    b"GET /siri/sx HTTP/1.1\r\n\r\n",
    b"DELETE /siri/et HTTP/1.1\r\n\r\n",
    with_lines(64),
    with_lines(65),
    b"GET /gtfs-rt HTTP/1.1\r\n" + b"\n",
    b"GET /gtfs-rt HTTP/1.1\r\nX : x\r\n\r\n",
    b"GET /gtfs-rt HTTP/1.1\r\n: x\r\n\r\n",
    b"GET /gtfs-rt HTTP/1.1\r\nX\r\n\r\n",
    b"GET /gtfs-rt HTTP/1.1\r\nX:\r\nY: \t \r\n\r\n",
    b"GET /gtfs-rt HTTP/1.1\r\nX: a\r\n folded\r\n\r\n",
    b"GET /gtfs-rt HTTP/1.1\r\nX: a\rb\r\n\r\n",
    b"GET /gtfs-rt HTTP/1.1\r\nX: a\0b\r\n\r\n",
    b"GET /gtfs-rt HTTP/1.1\r\nX: \xff\xfe\r\n\r\n",
    b"GET /gtfs-rt HTTP/1.1\r\nX: \x7f\r\n\r\n",
    b"GET /gtfs-rt HTTP/1.1\r\nX: " + b"x" * 16_300 + b"\r\n\r\n",
    b"GET /gtfs-rt HTTP/1.1\r\nX: " + b"x" * (16_384 - 30) + b"\r\n\r",
    b"GET /gtfs-rt HTTP/1.1\r\nX: " + b"x" * (16_384 - 30) + b"\r\n\r\n",
    b"GET /gtfs-rt HTTP/1.1\r\nX: " + b"x" * (16_384 - 29) + b"\r\n\r\n",
    b"GET /gtfs-rt HTTP/1.1\r\nX: " + b"x" * 70_000 + b"\r\n\r\n",
    b"GET /gtfs-rt HTTP/1.1\r\nContent-Length: 5\r\n\r\nhello",
    b"GET /gtfs-rt HTTP/1.1\r\nTransfer-Encoding: chunked\r\n\r\n0\r\n\r\n",
    b"POST /siri/et HTTP/1.1\r\n\r\n",
    b"POST /x HTTP/1.1\r\nContent-Length: x\r\n\r\n",
    FIVE % b"Content-Length: 5\r\nContent-Length: 5\r\n",
    FIVE % b"Content-Length: 5\r\ncontent-length:5\r\n",
    FIVE % b"Content-Length: 5\r\nContent-Length: 6\r\n",
    FIVE % b"Content-Length: 05\r\nContent-Length: 5\r\n",
    FIVE % b"CONTENT-LENGTH: \t 005 \t\r\n",
    FIVE % b"Content-Length: +5\r\n",
    FIVE % b"Content-Length: -5\r\n",
    FIVE % b"Content-Length: 5, 5\r\n",
    FIVE % b"Content-Length: 0x5\r\n",
    FIVE % b"Content-Length:\r\n",
    FIVE % b"Content-Length: 5.0\r\n",
    FIVE % "Content-Length: \u0665\r\n".encode(),
    FIVE % b"Content-Length: 99999999999999999999999\r\n",
    FIVE % b"Content-Length: 18446744073709551621\r\n",  # 2^64 and 5
    FIVE % b"Content-Length: 16777217\r\n",
    FIVE % b"Content-Length: 16777216\r\n",
    FIVE % (b"Content-Length: " + b"0" * 300 + b"5\r\n"),
    FIVE % b"Transfer-Encoding: chunked\r\nContent-Length: 5\r\n",
    FIVE % b"transfer-encoding:\r\nContent-Length: 5\r\n",
    FIVE % b"Expect: 100-continue\r\nContent-Length: 5\r\n",
    FIVE % b"Content-Encoding: gzip\r\nContent-Length: 5\r\n",
    FIVE % b"Content-Length: 0\r\n",
    post("/siri/sx", b""),
    post("/gtfs-rt", b""),
    b"POST /siri/et HTTP/1.1\r\nContent-Length: 2\r\n\r\n{}xx",
    post("/siri/sx", b"[" * 200 + b"]" * 200),
    post("/siri/et", b"[" * 127 + b"]" * 127),
    post("/gtfs-rt", b"\x0b" * 64),
    post("/gtfs-rt", b"\x0b" * 65),
    post("/gtfs-rt", HEADER + b"\x0b" * 64 + b"\x0c" * 64),
    post("/gtfs-rt", b"\x12\xff\xff\xff\xff\x0f"),
    post("/gtfs-rt", HEADER + b"\x12\x80\x80\x40" + bytes(10)),
    post("/gtfs-rt", b"\x80" * 16),
]


def quoted(text, count):
    return b'"' + text * count + b'"'


def entities(count):
    return HEADER + b"\x12\0" * count


def whole_entity(length):
    """A feed of one entity of that many bytes, most of them in a field that no message knows."""
    entity = text_field(1, "e")
    for room in range(1, 5):
        filler = bytes_field(9, bytes(length - len(entity) - 1 - room))
        if len(entity + filler) == length:
            return HEADER + bytes_field(2, entity + filler)
    raise ValueError(length)


# Bodies that have a length: their target, how they are made of a count, a small count, and that of a long one. A small
# one and a long one have one answer; the second reading says that of the small one.
LONG = [
    ("[", "/siri/et", lambda n: b"[" * n, 200, MOST_BODY),
    ('{"a":', "/siri/sx", lambda n: b'{"a":' * n, 200, MOST_BODY // 5),
    ("digits", "/siri/et", lambda n: b"7" * n, 400, MOST_BODY),
    ("a fraction", "/siri/et", lambda n: b"0." + b"7" * n, 400, MOST_BODY - 2),
    ("\\u0000", "/siri/sx", lambda n: b"\\u0000" * n, 10, MOST_BODY // 6),
    ('"\\u0000"', "/siri/sx", lambda n: quoted(b"\\u0000", n), 10, (MOST_BODY - 2) // 6),
    ("blanks", "/siri/et", lambda n: b" " * n, 10, MOST_BODY),
    ("zeros in an array", "/siri/et", lambda n: b"[" + b"0," * n + b"0]", 10, MOST_BODY // 2 - 2),
    ("empty arrays", "/siri/et", lambda n: b"[" + b"[]," * n + b"0]", 10, MOST_BODY // 3 - 2),
    ("empty members", "/siri/sx", lambda n: b"{" + b'"":0,' * n + b'"":0}', 10, MOST_BODY // 5 - 2),
    ("bytes that are no text", "/siri/et", lambda n: b'"' + b"\xff" * n, 10, MOST_BODY - 1),
    ("empty entities", "/gtfs-rt", entities, 4, 4_000_000),
    ("an entity without an end", "/gtfs-rt", lambda n: HEADER + b"\x12\x80\x80\x40" + bytes(n), 9, 1_048_575),
    ("zeros as a feed", "/gtfs-rt", bytes, 9, MOST_BODY),
    ("groups", "/gtfs-rt", lambda n: b"\x0b" * n, 200, MOST_BODY),
    ("empty groups", "/gtfs-rt", lambda n: HEADER + b"\x7b\x7c" * n, 9, MOST_BODY // 2 - 20),
    ("a whole entity", "/gtfs-rt", whole_entity, 1_000, 1_048_576),
    ("an entity too long", "/gtfs-rt", whole_entity, 1_048_577, 1_048_577),
]
