"""Situations as alerts of the feed."""

from .written_feed import bytes_field, number_field, text_field, trip_descriptor

MOST_BYTES = 65_536


def alert(situation):
    out = b""
    for start, end in situation.periods:
        period = b"" if start is None else number_field(1, start)
        period += b"" if end is None else number_field(2, end)
        out += bytes_field(1, period)
    for reference in situation.references:
        out += bytes_field(5, selector(reference))
    out += number_field(6, situation.cause) + number_field(7, situation.effect)
    for number, text in ((10, situation.summary), (11, situation.description)):
        if text is not None:
            out += bytes_field(number, bytes_field(1, text_field(1, text)))
    return out


def selector(reference):
    if reference.kind == "LineRef":
        return text_field(2, reference.id)
    if reference.kind == "StopPointRef":
        return text_field(5, reference.id)
    return bytes_field(4, trip_descriptor(reference.id, reference.day, 0))


def alert_body(situation):
    """What the entity of the alert holds."""
    return text_field(1, f"alert:{situation.number}") + bytes_field(5, alert(situation))
