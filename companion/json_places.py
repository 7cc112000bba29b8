"""JSON with the places of its values, for lines that point into a file."""
import re
from json.decoder import scanstring

from companion.faults import Refusal

BLANK = re.compile(r"[ \t\n\r]*")
NUMBER = re.compile(r"-?(?:0|[1-9][0-9]*)(?:\.[0-9]+)?(?:[eE][-+]?[0-9]+)?")
WORDS = (("true", True), ("false", False), ("null", None))

# Longer numbers are none of a model, and Python reads them slowly or not at all.
MOST_DIGITS = 1000


class Place:
    """A value with where it begins and ends in the text, and with its parts."""

    def __init__(self, value, start, end, members=None, keys=None):
        self.value = value
        self.start = start
        self.end = end
        # Of an object the places of its values by key, of a list those of its members.
        self.members = members
        # Of an object where each key stands.
        self.keys = keys


def line_of(text, at):
    """The number of the line, from 1, and of the column, from 1, of a place in a text."""
    return text.count("\n", 0, at) + 1, at - (text.rfind("\n", 0, at) + 1) + 1


class Fault(Exception):
    """The text is no JSON from this place on."""

    def __init__(self, at):
        super().__init__(at)
        self.at = at


def value_at(text, at, deep=0):
    """The value that begins at the place, as a Place."""
    if deep > 127 or at >= len(text):
        raise Fault(at)
    sign = text[at]
    if sign == "{":
        return object_at(text, at, deep)
    if sign == "[":
        return list_at(text, at, deep)
    if sign == '"':
        value, end = string_at(text, at)
        return Place(value, at, end)
    for word, value in WORDS:
        if text.startswith(word, at):
            return Place(value, at, at + len(word))
    found = NUMBER.match(text, at)
    if not found:
        raise Fault(at)
    digits = found.group()
    if len(digits) > MOST_DIGITS:
        raise Fault(at)
    whole = digits.lstrip("-").isdigit()
    return Place(int(digits) if whole else float(digits), at, found.end())


def string_at(text, at):
    try:
        return scanstring(text, at + 1, True)
    except ValueError:
        raise Fault(at) from None


def blank(text, at):
    return BLANK.match(text, at).end()


def object_at(text, at, deep):
    start, value, members, keys = at, {}, {}, {}
    at = blank(text, at + 1)
    if text.startswith("}", at):
        return Place(value, start, at + 1, members, keys)
    while True:
        if not text.startswith('"', at):
            raise Fault(at)
        own = at
        key, at = string_at(text, at)
        at = blank(text, at)
        if not text.startswith(":", at):
            raise Fault(at)
        place = value_at(text, blank(text, at + 1), deep + 1)
        # Of a key that stands twice the last value counts, as flame reads it.
        value[key], members[key], keys[key] = place.value, place, own
        at = blank(text, place.end)
        if text.startswith("}", at):
            return Place(value, start, at + 1, members, keys)
        if not text.startswith(",", at):
            raise Fault(at)
        at = blank(text, at + 1)


def list_at(text, at, deep):
    start, value, members = at, [], []
    at = blank(text, at + 1)
    if text.startswith("]", at):
        return Place(value, start, at + 1, members)
    while True:
        place = value_at(text, at, deep + 1)
        value.append(place.value)
        members.append(place)
        at = blank(text, place.end)
        if text.startswith("]", at):
            return Place(value, start, at + 1, members)
        if not text.startswith(",", at):
            raise Fault(at)
        at = blank(text, at + 1)


def read(text, name):
    """The value of a JSON text with its places; refuses what is no JSON with its line and column."""
    try:
        place = value_at(text, blank(text, 0))
        end = blank(text, place.end)
        if end != len(text):
            raise Fault(end)
        return place
    except Fault as fault:
        line, column = line_of(text, fault.at)
        raise Refusal(f"no JSON: {name}: line {line}, column {column}") from None


def found(place, path):
    """The place that a path of flame leads to, as `/xmodel/agents/0/name`, and how much of it leads somewhere: of a key that is
    missing the last place that is there.
    """
    steps = path.split("/")[1:] if path else []
    for number, step in enumerate(steps):
        inner = place.members
        if isinstance(inner, dict) and step in inner:
            place = inner[step]
        elif isinstance(inner, list) and step.isdigit() and int(step) < len(inner):
            place = inner[int(step)]
        else:
            return place, number
    return place, len(steps)
