"""A look at the pieces of a function file, for C that flame does not have. What names mean, flame itself tells."""
import re

from companion.c_pieces import partners_of, tokens_of

NUMBER = re.compile(r"0[xX][0-9a-fA-F]+|0|[1-9][0-9]*")
DEFINE = re.compile(rf"[ \t]*#define[ \t]+[A-Za-z_]\w*[ \t]+-?(?:{NUMBER.pattern})(?:\s|//.*|/\*(?:(?!\*/).)*\*/)*", re.ASCII)
INCLUDE = re.compile(r"[ \t]*#include(?![A-Za-z0-9_])")
FRACTION = re.compile(r"(?!0[xX]).*[.eE].*|[0-9]+[fF]")
LOOP = re.compile(r"(START|FINISH)_.+_MESSAGE_LOOP")
ARRAY_CALL = re.compile(r"(init|free|reset|copy)_\w+_array|(add|remove)_(int|double|float|char)")
OLD_LOOP = re.compile(r"get_(first|next)_\w*message")

FRACTIONS = "all numbers are int: count in small units, as thousandths"
WRITE_INT = "all numbers are int: write int"
LEAVE_OUT = "there is no such word: leave it out"
NO_STRUCTURES = "there are no structures: take a data type of the model, or single variables"
NO_POINTERS = "there are no pointers: let a helper return one number, or keep what it changes in memory"
NO_BITS = "there are no operators on bits: take + - * / % && ||"
NO_VALUE = "an assignment has no value: make it a statement of its own"
USE_MEMORY = "take a constant of the model, a variable of the memory, or #define NAME 5"
WORDS = {
    "double": FRACTIONS,
    "float": FRACTIONS,
    "char": "there are no letters and texts: leave it out, or give each a number",
    **dict.fromkeys(("long", "short", "unsigned", "signed", "size_t", "bool", "_Bool"), WRITE_INT),
    **dict.fromkeys(("static", "const", "extern", "register", "volatile", "inline", "auto"), LEAVE_OUT),
    **dict.fromkeys(("struct", "union", "enum", "typedef"), NO_STRUCTURES),
    "switch": "there is no switch: write if and else if",
    "goto": "there is no goto: write a loop or an if",
    "sizeof": "there is no sizeof: write the number",
}
TYPE_WORDS = {"int", "void", "double", "float", "char", "long", "short", "unsigned", "signed", "size_t", "bool", "struct"}

NO_OUTPUT = "there is no output: keep the value in a variable of the memory, which each file has"
DRAW = "there are no random numbers: draw by the helpers of examples/chance.c (docs/MODEL.md, Chance and shares)"
NO_ROOM = "there is no memory to ask for: take an array of the model"
NO_LIBRARY = "there is no C library: write a helper of whole numbers"
NO_TEXTS = "there are no texts: leave it out"
OUTPUTS = "printf fprintf sprintf snprintf puts putchar putc fputs fputc fopen fclose fread fwrite fflush scanf fscanf perror"
CALLS = {
    **dict.fromkeys(OUTPUTS.split(), NO_OUTPUT),
    **dict.fromkeys("rand srand random srandom drand48 srand48 erand48 lrand48 rand_r".split(), DRAW),
    **dict.fromkeys("malloc calloc realloc free memcpy memmove memset".split(), NO_ROOM),
    **dict.fromkeys("strcpy strncpy strcmp strncmp strcat strlen strdup strtol atoi atof toupper tolower".split(), NO_TEXTS),
    **dict.fromkeys("sqrt cbrt pow exp log log2 log10 sin cos tan asin acos atan atan2 sinh cosh tanh hypot".split(), NO_LIBRARY),
    **dict.fromkeys("floor ceil round lround rint trunc fmod fabs abs labs fmin fmax isnan isinf".split(), NO_LIBRARY),
    **dict.fromkeys("exit abort assert time clock getenv system qsort".split(), NO_LIBRARY),
}
KEYWORDS = {"if", "while", "for", "do", "else", "return", "switch", "sizeof", "int", "void"}

LOOPS = {"for", "while", "do", "switch"}
# What stands before a statement.
STARTS = {"", ";", "{", "}", ")", "else", "do", ":"}
ASSIGNMENTS = {"=", "+=", "-=", "*=", "/=", "%="}
MARKS = {
    "?": "write if and else in place of ? :",
    ".": "",
    **dict.fromkeys(("<<", ">>", "<<=", ">>=", "|", "^", "~", "|=", "&=", "^="), NO_BITS),
}
KNOWN_MARKS = set("+ - * / % ++ -- += -= *= /= %= = == != ! < > <= >= && || ( ) { } , ; -> [ ] : &".split())


class Look:
    """A look at one file. What is found is told with its line."""

    def __init__(self, text, types, tell):
        self.tokens = tokens_of(text)
        self.partners = partners_of(self.tokens)
        self.openers = {end: place for place, end in self.partners.items()}
        self.types = types
        self.tell_line = tell
        # Places that what was told before them covers.
        self.covered = set()
        # Places of the names of functions that are defined, and of their parameters.
        self.heads = set()
        self.parameters = set()

    def text(self, place):
        return self.tokens[place].text if 0 <= place < len(self.tokens) else ""

    def is_word(self, place):
        return 0 <= place < len(self.tokens) and self.tokens[place].kind == "word"

    def tell(self, place, text):
        self.tell_line(self.tokens[place].line, text)

    def cover(self, first, end):
        self.covered.update(range(first, end))

    def go(self):
        self.outside()
        by_kind = {
            "open": self.open_comment,
            "quoted": self.quoted,
            "directive": self.directive,
            "number": self.number,
            "word": self.word,
            "mark": self.mark,
        }
        for place, token in enumerate(self.tokens):
            if place not in self.covered:
                by_kind[token.kind](place, token.text)

    # What stands outside of functions.

    def outside(self):
        place = 0
        while place < len(self.tokens):
            if self.tokens[place].kind == "directive" or self.text(place) in (";", "}"):
                place += 1
                continue
            place = self.definition(place)

    def definition(self, first):
        """Looks at what is defined or declared from a place on, and gives the place behind it."""
        place, brackets, has_value = first, None, False
        while place < len(self.tokens) and self.text(place) not in (";", "{"):
            has_value = has_value or self.text(place) == "="
            if self.text(place) == "(" and brackets is None:
                brackets = place
            place = self.partners.get(place, place) + 1
        if place >= len(self.tokens):
            return place
        if self.text(place) == "{" and brackets is not None and not has_value:
            self.head(first, brackets)
            return self.partners[place] + 1
        while place < len(self.tokens) and self.text(place) != ";":
            place = self.partners.get(place, place) + 1
        self.declaration(first, place, brackets is not None and not has_value)
        return place + 1

    def head(self, first, brackets):
        """The head of a function: its type, its name and its parameters."""
        self.heads.add(brackets - 1)
        if self.text(first) == "void" and self.text(first + 1) != "*":
            self.tell(first, "a function returns int: write int, and return 0; at its end")
        self.parameters.update(range(brackets + 1, self.partners[brackets]))

    def declaration(self, first, end, is_prototype):
        self.cover(first, end)
        words = {self.text(place) for place in range(first, end)}
        if not self.is_word(first) or self.text(first) in KEYWORDS - TYPE_WORDS or not self.is_declared(first):
            self.tell(first, f"{self.text(first)} stands outside of functions: see whether a }} is missing or too many before it")
            return
        if words & {"struct", "union", "enum", "typedef"}:
            self.tell(first, NO_STRUCTURES)
        elif is_prototype:
            self.tell(first, f"a prototype of {self.name_before(first, '(')}: leave it out, functions may stand in any order")
        else:
            name = self.name_before(first, "[", "=", ",", ";")
            self.tell(first, f"the variable {name} stands outside of functions: {USE_MEMORY}")

    def is_declared(self, first):
        """Whether what begins at a place looks like a declaration."""
        return self.is_word(first + 1) or self.text(first + 1) == "*" or self.text(first) in WORDS

    def name_before(self, place, *marks):
        while place < len(self.tokens) and self.text(place) not in marks:
            place += 1
        return self.text(place - 1)

    # The single pieces.

    def open_comment(self, place, text):
        self.tell(place, "a comment is open: close it by */")

    def quoted(self, place, text):
        short = text if len(text) <= 40 else text[:37] + ".."
        self.tell(place, f"{short} is a text or letter, of which there are none: leave it out")

    def directive(self, place, text):
        if INCLUDE.match(text):
            return
        if not text.lstrip().startswith("#define"):
            self.tell(place, f"{text.split()[0]} is not read: leave the line out, #include and #define stand alone")
        elif not DEFINE.fullmatch(text):
            self.tell(place, "this #define gives no whole number to a word: write out what it stands for, or make it a helper")

    def number(self, place, text):
        if NUMBER.fullmatch(text):
            if len(text) > 20 or int(text, 0) > 2147483647:
                self.tell(place, f"{text} is above 2147483647: take a smaller number")
        elif FRACTION.fullmatch(text):
            self.tell(place, f"{text} is no whole number: count in small units, as thousandths")
        else:
            self.tell(place, f"{text} is no number as they are read: write no zero before it and no letters behind it")

    def mark(self, place, text):
        if text == ".":
            self.member(place)
        elif text in MARKS:
            self.tell(place, f"{text}: {MARKS[text]}")
        elif text == "->":
            if not re.fullmatch(r"\w+_message", self.text(place - 1)):
                self.tell(place, f"{self.text(place - 1)}->{self.text(place + 1)}: {NO_POINTERS}")
        elif text == "&":
            self.tell(place, NO_BITS if self.is_value_before(place) else f"&{self.text(place + 1)}: {NO_POINTERS}")
        elif text == "*":
            self.star(place)
        elif text == "(":
            self.cast(place)
        elif text == "=":
            self.assignment(place)
        elif text in ("++", "--"):
            self.step(place)
        elif text == "[" and self.text(place - 1) == "]":
            self.tell(place, "there are no arrays of arrays: take one array, and row * width + column for the place")
        elif text not in KNOWN_MARKS:
            self.tell(place, f"{text} is no piece of C that is read here: leave it out")

    def is_value_before(self, place):
        before = self.text(place - 1)
        if self.is_word(place - 1):
            return before not in KEYWORDS
        return before in (")", "]") or (place > 0 and self.tokens[place - 1].kind == "number")

    def member(self, place):
        """A member of a structure, which has a flat name."""
        owner, name = self.text(place - 1), self.text(place + 1)
        if self.text(place - 2) == "->" and self.is_word(place - 1):
            self.tell(place, f"{owner}.{name}: {NO_STRUCTURES.split(':')[0]}: write {self.text(place - 3)}->{owner}_{name}")
        elif self.is_word(place - 1) and name in ("size", "total_size", "array"):
            self.tell(place, f"{owner}.{name}: there are no dynamic arrays: count what is used in a variable of its own")
        elif self.is_word(place - 1):
            self.tell(place, f"{owner}.{name}: there are no structures: write {owner.upper()}_{name.upper()}")
        else:
            self.tell(place, f".{name}: {NO_STRUCTURES}")

    def star(self, place):
        before = self.text(place - 1)
        starts = self.text(place - 2) in (";", "{", "}") and self.is_word(place - 1) and self.is_word(place + 1)
        if before in TYPE_WORDS or before in self.types or starts or not self.is_value_before(place):
            self.tell(place, f"*{self.text(place + 1)}: {NO_POINTERS}")

    def cast(self, place):
        end = self.partners[place]
        inner = [self.text(own) for own in range(place + 1, min(end, len(self.tokens)))]
        types = TYPE_WORDS | set(self.types)
        before = self.text(place - 1)
        if not inner or before == "sizeof" or self.is_word(place - 1) and before not in KEYWORDS:
            return
        if inner[0] in types and all(word in types or word == "*" for word in inner):
            self.tell(place, f"({' '.join(inner)}) before a value: all numbers are int, leave it out")
            self.cover(place + 1, end)

    def assignment(self, place):
        """An assignment in the test of an if or a loop."""
        opener = place - 1
        while opener >= 0 and self.text(opener) not in ("(", ")", ";", "{", "}"):
            opener -= 1
        if self.text(opener) == "(" and self.text(opener - 1) in ("if", "while"):
            self.tell(place, "= within a test: write ==, or put the assignment before it")
        elif any(self.text(own) in ASSIGNMENTS for own in range(self.last_comma(opener, place) + 1, place)):
            self.tell(place, f"= behind another =: {NO_VALUE}")

    def last_comma(self, first, end):
        """The last comma between places, or the first place."""
        return max((own for own in range(first, end) if self.text(own) == ","), default=first)

    def step(self, place):
        """An operator ++ or --, which is a statement with its variable."""
        first = last = place
        if self.is_word(place + 1):
            last = place + 1
            if self.text(last + 1) == "[":
                last = self.partners[last + 1]
        else:
            first = self.openers.get(place - 1, place) - 1
        is_statement = self.text(first - 1) in STARTS or LOOP.fullmatch(self.text(first - 1))
        if not is_statement or self.text(last + 1) not in (";", ")"):
            self.tell(place, f"{self.text(place)} within an expression: {NO_VALUE}")

    # Words.

    def word(self, place, text):
        if text in WORDS:
            self.tell(place, f"{text}: {WORDS[text]}")
        elif text in self.types and (self.is_word(place + 1) or self.text(place + 1) == "*"):
            self.tell(place, f"{text}: {NO_STRUCTURES}")
        elif text.endswith("_array") and self.text(place + 1) != "(":
            self.tell(place, f"{text}: there are no dynamic arrays: take an array of the model with its greatest length")
        if text in TYPE_WORDS and self.is_word(place + 1):
            self.local(place)
        if text in ("if", "while", "for", "else"):
            self.body(place, text)
        elif text == "return" and self.text(place + 1) == ";":
            self.tell(place, "a return has a value: write return 0;")
        elif self.text(place + 1) == "(" and text not in KEYWORDS and place not in self.heads:
            self.call(place, text)

    def local(self, place):
        """A declaration within a function: its arrays."""
        end, names = place + 1, []
        while end < len(self.tokens) and self.text(end) not in (";", ")", "{"):
            if self.text(end) == "[" and self.is_word(end - 1) and (self.text(end - 2) == "," or self.is_word(end - 2)):
                names.append(self.text(end - 1))
            end = self.partners.get(end, end) + 1
        for name in names:
            if place in self.parameters:
                self.tell(place, f"the parameter {name} is an array: give the numbers one by one, or do the work outside")
            else:
                self.tell(place, f"{name} is an array within a function: take an array of the memory, or single variables")

    def body(self, place, text):
        """A body without braces that is an if or a loop."""
        inner = place + 1
        if text != "else":
            if self.text(inner) != "(":
                return
            inner = self.partners[inner] + 1
        if text == "for":
            self.for_parts(place + 1, inner - 1)
        word = self.text(inner)
        if word in LOOPS or LOOP.fullmatch(word) or (word == "if" and text != "else"):
            self.tell(inner, f"{word} is the body of {text}, and has no braces: put {{ }} around it")

    def for_parts(self, opener, end):
        """The parts of a for, each of which is one statement or test."""
        place, is_declaration = opener + 1, self.text(opener + 1) == "int"
        while place < min(end, len(self.tokens)):
            if self.text(place) == "," and not is_declaration:
                self.tell(place, "a comma in a for: put what is behind it before the loop, or at the end of its body")
            is_declaration = is_declaration and self.text(place) != ";"
            place = self.partners.get(place, place) + 1

    def call(self, place, text):
        end = self.partners[place + 1]
        if text in CALLS or text.startswith("gsl_"):
            self.tell(place, f"{text}(): {CALLS.get(text, DRAW if text.startswith('gsl_r') else NO_LIBRARY)}")
            if CALLS.get(text) == NO_OUTPUT:
                self.cover(place + 1, end + 1)
        elif ARRAY_CALL.fullmatch(text) or self.is_of_data_type(text):
            self.tell(place, f"{text}(): there are no dynamic arrays: set and count the numbers of an array of the model")
            self.cover(place + 1, end + 1)
        elif OLD_LOOP.fullmatch(text):
            self.tell(place, f"{text}(): put START_.._MESSAGE_LOOP and FINISH_.._MESSAGE_LOOP around what is done")
        elif end > place + 2 and not self.stands_alone(place, end):
            self.tell(place, f"{text}(..) stands within an expression: put its value into a local before, int n = {text}(..);")

    def is_of_data_type(self, text):
        verb, _, kind = text.partition("_")
        return verb in ("add", "remove", "init", "free", "copy") and kind in self.types

    def stands_alone(self, place, end):
        """Whether a call with arguments is a statement, or a whole right side."""
        before = self.text(place - 1)
        if before in ASSIGNMENTS:
            return self.text(end + 1) in (";", ",")
        return before in STARTS or bool(LOOP.fullmatch(before))


def look(text, types, tell):
    """Tells `tell(line, text)` what of a function file is no C that flame has."""
    Look(text, types, tell).go()
