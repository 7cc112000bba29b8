"""The pieces of a C text, with their lines, and where brackets close."""
import bisect
import re
from collections import namedtuple

Token = namedtuple("Token", "kind text line")

PIECE = re.compile(
    r"""
    (?P<comment>/\*.*?\*/|//[^\n]*)
    |(?P<open>/\*)
    |(?P<quoted>"(?:\\.|[^"\\\n])*"?|'(?:\\.|[^'\\\n])*'?)
    |(?P<directive>^[ \t]*\#(?:\\\r?\n|[^\n])*)
    |(?P<number>0[xX][A-Za-z0-9_]*|\.?[0-9](?:(?<=[0-9.])[eE][-+]|[A-Za-z0-9_.])*)
    |(?P<word>[A-Za-z_][A-Za-z0-9_]*)
    |(?P<mark>->|\+\+|--|<<=|>>=|<<|>>|[<>=!]=|&&|\|\||[-+*/%&|^]=|\S)
    |\n|[^\S\n]+
    """,
    re.VERBOSE | re.DOTALL | re.MULTILINE | re.ASCII,
)

OPENERS = {"(": ")", "[": "]", "{": "}"}


def tokens_of(text):
    """The pieces of a text, without blanks and comments."""
    breaks = [found.start() for found in re.finditer("\n", text)]
    tokens = []
    for found in PIECE.finditer(text):
        kind = found.lastgroup
        if kind is not None and kind != "comment":
            tokens.append(Token(kind, found.group(), bisect.bisect_left(breaks, found.start()) + 1))
        if kind == "open":
            break
    return tokens


def partners_of(tokens):
    """Where the bracket is that closes each one, and the end for one that is open."""
    partners, waiting = {}, []
    for place, token in enumerate(tokens):
        if token.kind != "mark":
            continue
        if token.text in OPENERS:
            waiting.append(place)
        elif waiting and token.text == OPENERS[tokens[waiting[-1]].text]:
            partners[waiting.pop()] = place
    partners.update((place, len(tokens)) for place in waiting)
    return partners
