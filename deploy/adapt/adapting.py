"""What the converters share: a delivery on standard input, and on standard output."""

import json
import sys


def items_of(value):
    """The items of an array, or one item; nothing has none."""
    if value is None or value == "":
        return []
    return value if isinstance(value, list) else [value]


def text_of(value):
    """A text, however it is wrapped, or None."""
    value = value[0] if isinstance(value, list) and value else value
    value = value.get("value") if isinstance(value, dict) else value
    return value if isinstance(value, str) and value else None


def service_of(root):
    """The service delivery, or an object that is empty."""
    root = root if isinstance(root, dict) else {}
    inner = root.get("Siri")
    service = (inner if isinstance(inner, dict) else root).get("ServiceDelivery")
    return service if isinstance(service, dict) else {}


def below(service, *names):
    """All objects at the end of a way of names, each repeated."""
    found = [service]
    for name in names:
        found = [item for one in found for item in items_of(one.get(name)) if isinstance(item, dict)]
    return found


def journeys_of(root):
    return below(service_of(root), "EstimatedTimetableDelivery", "EstimatedJourneyVersionFrame", "EstimatedVehicleJourney")


def calls_of(journey):
    return below(journey, "RecordedCalls", "RecordedCall") + below(journey, "EstimatedCalls", "EstimatedCall")


def situations_of(root):
    return below(service_of(root), "SituationExchangeDelivery", "Situations", "PtSituationElement")


def each_member(value):
    """Every object of a tree with the name of each of its members."""
    if isinstance(value, list):
        for item in value:
            yield from each_member(item)
    elif isinstance(value, dict):
        for name in list(value):
            yield value, name
            yield from each_member(value[name])


def read_root():
    """The delivery, without a byte order mark. Where it is no JSON this ends with 65."""
    try:
        return json.loads(sys.stdin.buffer.read().decode("utf-8-sig"))
    except (ValueError, RecursionError) as fault:
        print(f"{sys.argv[0].rpartition('/')[2]}: it is no JSON: {fault}", file=sys.stderr)
        sys.exit(65)


def write_root(root):
    sys.stdout.buffer.write(json.dumps(root, ensure_ascii=False, separators=(",", ":")).encode("utf-8", "surrogatepass"))
