"""Bytes as the words of a line say them: fields of the protobuf encoding, and bytes in hexadecimal."""

from reading.written_feed import bytes_field, number_field, text_field


def bytes_of(line):
    written, opened = b"", []
    for word in line.split(" "):
        if word == "}":
            number, before = opened.pop()
            written = before + bytes_field(number, written)
        elif ":" in word:
            number, _, text = word.partition(":")
            written += text_field(int(number), text)
        elif "=" in word:
            number, _, value = word.partition("=")
            written += number_field(int(number), int(value))
        elif word.endswith("{"):
            opened.append((int(word[:-1]), written))
            written = b""
        elif "x" in word:
            count, _, digits = word.partition("x")
            written += bytes.fromhex(digits) * int(count)
        else:
            written += bytes.fromhex(word)
    if opened:
        raise ValueError("a field without its end")
    return written
