"""XML with the line of each element. No external entity is read, and a file that declares entities of its own is refused."""
import sys
from xml.parsers import expat

from companion.faults import Refusal

# A model in JSON nests at most 127 deep, and needs a little more room than its XML.
MOST_DEEP = 110

PIECE = 1 << 18


class Visitor:
    """What is told of a file, in its order."""

    # The parser, which says by CurrentLineNumber how far the file is read.
    parser = None

    def begin(self, name, attributes, line):
        """An element begins in this line."""

    def text(self, text):
        """A piece of the text of the innermost element."""

    def end(self, name):
        """The innermost element ends."""

    def read(self, count):
        """So many bytes were read up to here."""


class Walk:
    """One way through a file, on which a visitor is told what stands there."""

    def __init__(self, name, visitor):
        self.name = name
        self.visitor = visitor
        self.depth = 0
        self.parser = visitor.parser = expat.ParserCreate()
        self.parser.buffer_text = True
        self.parser.StartElementHandler = self.begin
        self.parser.EndElementHandler = self.end
        self.parser.CharacterDataHandler = visitor.text
        self.parser.EntityDeclHandler = self.refuse_entity
        self.parser.SkippedEntityHandler = self.refuse_entity

    def refuse(self, line, why):
        raise Refusal(f"no XML that is read here: {self.name}: line {line}: {why}")

    def begin(self, name, attributes):
        line = self.parser.CurrentLineNumber
        self.depth += 1
        if self.depth > MOST_DEEP:
            self.refuse(line, f"elements stand in one another more than {MOST_DEEP} deep")
        self.visitor.begin(name, attributes, line)

    def end(self, name):
        self.depth -= 1
        self.visitor.end(name)

    def refuse_entity(self, name, *_):
        self.refuse(self.parser.CurrentLineNumber, f"the entity {name}: write out what it stands for")

    def go(self):
        count = 0
        try:
            for piece in pieces(self.name):
                self.parser.Parse(piece, False)
                count += len(piece)
                self.visitor.read(count)
            self.parser.Parse(b"", True)
        except expat.ExpatError as error:
            why = expat.ErrorString(error.code)
            raise Refusal(f"no XML: {self.name}: line {error.lineno}, column {error.offset + 1}: {why}") from None
        except (LookupError, ValueError) as error:
            raise Refusal(f"no XML: {self.name}: {error}") from None


def pieces(name):
    """The bytes of a file, piece by piece; those of standard input for `-`."""
    try:
        if name == "-":
            yield from iter(lambda: sys.stdin.buffer.read(PIECE), b"")
            return
        with open(name, "rb") as file:
            yield from iter(lambda: file.read(PIECE), b"")
    except FileNotFoundError:
        raise Refusal(f"missing: {name}") from None
    except OSError as error:
        raise Refusal(f"cannot be read: {name}: {error.strerror}") from None


def walk(name, visitor):
    """Tells a visitor what a file has; refuses what is no XML with its line and column."""
    Walk(name, visitor).go()


class Element:
    """An element with the line in which it begins, its own text and the elements in it."""

    def __init__(self, name, attributes, line):
        self.name = name
        self.attributes = attributes
        self.line = line
        self.pieces = []
        self.children = []

    @property
    def text(self):
        """Its text, without the blanks around it."""
        return "".join(self.pieces).strip()


class Building(Visitor):
    """Keeps all elements of a file."""

    def __init__(self):
        self.root = None
        self.open = []

    def begin(self, name, attributes, line):
        element = Element(name, attributes, line)
        if self.open:
            self.open[-1].children.append(element)
        else:
            self.root = element
        self.open.append(element)

    def text(self, text):
        self.open[-1].pieces.append(text)

    def end(self, name):
        self.open.pop()


def read(name):
    """The root of a file that is kept whole."""
    building = Building()
    walk(name, building)
    return building.root
