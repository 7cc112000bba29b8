"""The pieces of a function file, as flame cuts it: words, numbers and marks, with their places and lines."""
import re

from companion.files import read_bytes

PIECE = re.compile(
    r"""
    (?P<blank>[ \t\n\r\v\f]+)
    | (?P<comment>/\*.*?\*/ | //[^\n]*)
    | (?P<line>^[ \t]*\#[^\n]*)
    | (?P<word>[A-Za-z_][A-Za-z0-9_]*)
    | (?P<number>[0-9][A-Za-z0-9_]*)
    | (?P<mark>\+\+|--|\+=|-=|\*=|/=|%=|==|!=|<=|>=|&&|\|\||->|[-+*/%=!<>(){},;\[\]])
    | (?P<other>.)
    """,
    re.VERBOSE | re.DOTALL | re.MULTILINE,
)
DEFINE = re.compile(r"[ \t]*#define[ \t]+([A-Za-z_][A-Za-z0-9_]*)[ \t]+(-?[0-9][A-Za-z0-9]*)")
LOOP = re.compile(r"(?:START|FINISH)_(.+)_MESSAGE_LOOP")


class Token:
    """A word, a number or a mark."""

    def __init__(self, kind, text, start, line):
        self.kind = kind
        self.text = text
        self.start = start
        self.line = line


class Source:
    """A function file: its text, a character for each byte, its tokens, and its define lines by word with their lines."""

    def __init__(self, name):
        self.name = name
        self.text = read_bytes(name).decode("latin-1")
        self.tokens = []
        self.defines = {}
        line = 1
        for found in PIECE.finditer(self.text):
            kind, text = found.lastgroup, found.group()
            if kind == "line":
                defined = DEFINE.match(text)
                if defined:
                    self.defines.setdefault(defined.group(1), line)
            elif kind in ("word", "number", "mark", "other"):
                self.tokens.append(Token(kind, text, found.start(), line))
            line += text.count("\n")

    def text_of_line(self, line):
        """A line, without its end."""
        lines = self.text.split("\n")
        return lines[line - 1] if 0 < line <= len(lines) else ""

    def functions(self):
        """The C functions: name, line, and from which token to which."""
        found, place, deep = [], 0, 0
        tokens = self.tokens
        while place < len(tokens):
            text = tokens[place].text
            if text == "{":
                deep += 1
            elif text == "}":
                deep = max(0, deep - 1)
                if deep == 0 and found and found[-1].end is None:
                    found[-1].end = place + 1
            elif deep == 0 and text == "(" and place and tokens[place - 1].kind == "word":
                found.append(CFunction(tokens[place - 1].text, tokens[place - 1].line, place, self.parameters(place)))
            place += 1
        for own in found:
            own.end = len(tokens) if own.end is None else own.end
        return found

    def parameters(self, place):
        """How many parameters stand in the brackets that open here."""
        inner = []
        for token in self.tokens[place + 1:]:
            if token.text == ")":
                break
            inner.append(token.text)
        return 0 if inner in ([], ["void"]) else inner.count(",") + 1


class CFunction:
    """A C function of a file."""

    def __init__(self, name, line, start, parameters):
        self.name = name
        self.line = line
        self.start = start
        self.parameters = parameters
        self.end = None


def written_words(tokens):
    """The words that these tokens set: by an assignment, by ++ or --, or by set_x."""
    found = set()
    for place, token in enumerate(tokens):
        if token.kind != "word":
            continue
        if token.text.startswith("set_"):
            found.add(token.text[len("set_"):].upper())
        after = behind_index(tokens, place + 1)
        following = tokens[after].text if after < len(tokens) else ""
        before = tokens[place - 1].text if place else ""
        if following in ("=", "+=", "-=", "*=", "/=", "%=", "++", "--") or before in ("++", "--"):
            found.add(token.text)
    return found


def read_words(tokens):
    """The words that stand among these tokens at all, get_x as X."""
    found = set()
    for token in tokens:
        if token.kind == "word":
            found.add(token.text[len("get_"):].upper() if token.text.startswith("get_") else token.text)
    return found


def behind_index(tokens, place):
    """The place behind an index in brackets that begins here, or this place."""
    if place >= len(tokens) or tokens[place].text != "[":
        return place
    deep = 0
    while place < len(tokens):
        deep += {"[": 1, "]": -1}.get(tokens[place].text, 0)
        place += 1
        if deep == 0:
            return place
    return place
