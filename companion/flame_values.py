"""Values as FLAME writes them in populations: numbers, arrays {1,2,3}, and data types {1,{2,3}}.

A form says what a variable holds: none is a single number, a number the length of an array, a list of names and forms a
data type.
"""
import re

from companion.models import whole

LEAST, MOST = -2147483648, 2147483647
NUMBER = re.compile(r"\s*(-?[0-9]+)\s*")
PIECE = re.compile(r"\s*([{},]|[^{},\s][^{},]*)\s*")
DEEPEST = 30


class Misfit(Exception):
    """A value does not fit its name. Its text says which, why, and what to do."""


def forms_of(variables, types):
    """The names and forms of variables."""
    found = []
    for variable in variables:
        if isinstance(variable, dict) and isinstance(variable.get("name"), str):
            kind = variable.get("type")
            is_typed = isinstance(kind, str) and kind in types
            found.append((variable["name"], types[kind] if is_typed else whole(variable.get("length"))))
    return found


def width_of(form):
    if isinstance(form, list):
        return sum(width_of(inner) for _, inner in form)
    return 1 if form is None else form


def shape(form):
    """How a value of this form is written."""
    if form is None:
        return "a whole number"
    if isinstance(form, int):
        return f"{{..}} with {form} whole numbers"
    return "{" + ", ".join(name for name, _ in form) + "}"


def parsed(text, name):
    """The value that a text is: a text without braces, or a list of values."""
    pieces = PIECE.findall(text)
    value, at = value_at(pieces, 0, name)
    if at != len(pieces):
        raise Misfit(f"{name} goes on behind its last brace: mend the braces")
    return value


def value_at(pieces, at, name, deep=0):
    """The value that begins at a piece, and the place behind it."""
    if at >= len(pieces) or pieces[at] in ("}", ",") or deep > DEEPEST:
        raise Misfit(f"{name} has braces or commas that do not fit: mend them")
    if pieces[at] != "{":
        return pieces[at], at + 1
    members = []
    at += 1
    while pieces[at:at + 1] != ["}"] or members:
        value, at = value_at(pieces, at, name, deep + 1)
        members.append(value)
        if pieces[at:at + 1] == ["}"]:
            break
        if pieces[at:at + 1] != [","]:
            raise Misfit(f"{name} has braces or commas that do not fit: mend them")
        at += 1
    return members, at + 1


def number_of(text, name, least=LEAST):
    """A whole number of int."""
    found = NUMBER.fullmatch(text)
    if not found:
        text = " ".join(text.split())
        if not text:
            raise Misfit(f"{name} is empty: write a whole number")
        raise Misfit(f"{name} is {text[:40]!r}, which is no whole number: count in small units, as thousandths")
    digits = found.group(1)
    if len(digits) > 20 or not least <= int(digits) <= MOST:
        raise Misfit(f"{name} is {digits[:40]}, which is outside {least} to {MOST}: count in larger units")
    return int(digits)


def fill(form, value, numbers, name):
    """Adds the numbers of a value to a list."""
    if form is None:
        if isinstance(value, list):
            raise Misfit(f"{name} has a list of values, and is a single number: write it without braces")
        numbers.append(number_of(value, name))
        return
    inner = form if isinstance(form, list) else [(place, None) for place in range(form)]
    if not isinstance(value, list):
        raise Misfit(f"{name} has a single value: write {shape(form)}")
    if len(value) != len(inner):
        raise Misfit(f"{name} has {len(value)} values in place of {len(inner)}: write {shape(form)}")
    for (own, part), member in zip(inner, value):
        fill(part, member, numbers, f"{name}[{own}]" if isinstance(own, int) else f"{name}.{own}")
