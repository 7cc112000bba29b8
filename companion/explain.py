"""Shows the place that a line of flame speaks of, and says what to do.

LINE is what flame wrote to standard error, in quotes; - reads it from standard input. The place is shown with its file, line and
column, also of a model of several files, where it is that of the file which declares it. What comes behind is the row of
docs/REFUSALS.md. Names of files are taken from the folder in which flame was started. Without MODEL the files that the line
names are looked at alone.
"""
import json
import os
import re
import sys

from companion import c_source, json_places, models
from companion.faults import Refusal, UsageFault
from companion.files import read_bytes, read_text
from companion.json_places import line_of

HELP = "the place of a refusal or a fault, and what to do"

# So many letters of a line are shown: flame writes a population on one line.
WIDEST = 160


def add_arguments(parser):
    parser.add_argument("line", metavar="LINE")
    parser.add_argument("model", metavar="MODEL", nargs="?")


class Shown:
    """What is known of a line: its kind in REFUSALS, with the words by which its row is found, and the places."""

    def __init__(self, section, kind):
        self.section = section
        self.kind = kind
        self.places = []
        self.said = []

    def show(self, name, text, at, length=1):
        """A place in a text: its line with a mark below."""
        line, column = line_of(text, at)
        self.places.append((name, line, column, own_line(text, line), length))

    def show_line(self, name, text, line):
        own = own_line(text, line)
        column = len(own) - len(own.lstrip()) + 1
        self.places.append((name, line, column, own, len(own.strip()) or 1))

    def say(self, text):
        self.said.append(text)


def own_line(text, line):
    lines = text.split("\n")
    return lines[line - 1] if 0 < line <= len(lines) else ""


# ---- one reader for each kind of line; each gives what is shown


def words(found, model):
    kind = found.group(1)
    shown = Shown("usage", kind)
    if found.group(2):
        shown.say(f"Word {found.group(2)} is counted behind the program's name, from 1.")
    return shown


def missing_word(found, model):
    shown = Shown("usage", "Missing")
    shown.say(f"The word {found.group(1)} is absent.")
    return shown


def whole_file(found, model):
    kind, name = found.group(1), found.group(2)
    shown = Shown("files", kind)
    if kind == "missing":
        shown.say(f"{name} is looked for as {os.path.abspath(name)}.")
        named_in(shown, model, name)
    elif kind == "not JSON":
        text = bytes_as_text(name)
        try:
            json_places.value_at(text, json_places.blank(text, 0))
            shown.say("A part of it is no UTF-8, or it nests more than 127 deep, or more stands behind its value.")
        except json_places.Fault as fault:
            shown.show(name, text, min(fault.at, len(text)))
    return shown


def bytes_as_text(name):
    return read_bytes(name).decode("utf-8", "replace")


def named_in(shown, model, name):
    """Where model files name this file."""
    if model is None:
        return
    for file in known_files(model):
        for place, _ in strings_in(file.place):
            if place.value == name:
                shown.show(file.name, file.text, place.start, place.end - place.start)
                return


def strings_in(place, key=None):
    if isinstance(place.value, str):
        yield place, key
    inner = place.members
    for key, own in inner.items() if isinstance(inner, dict) else enumerate(inner or []):
        yield from strings_in(own, key)


def known_files(name):
    """The model files, as far as they can be read."""
    try:
        return models.read_files(name)[0]
    except Refusal:
        try:
            return [models.read_file(name)]
        except Refusal:
            return []


def shape(found, model):
    name, path, want = found.groups()
    shown = Shown("shape", want)
    show_path(shown, name, path)
    return shown


def show_path(shown, name, path):
    """The place of a path in a JSON file; where it leads to a key that is not there, what it should stand in."""
    text = read_text(name)
    root = json_places.read(text, name)
    place, steps = json_places.found(root, path)
    shown.show(name, text, place.start, one_line(text, place))
    asked = path.split("/")[1:] if path else []
    if steps < len(asked):
        shown.say(f"The key {asked[steps]} is missing in what begins here.")


def show_key(shown, name, path):
    """The place of the key that a path ends with."""
    text = read_text(name)
    root = json_places.read(text, name)
    outer, _, key = path.rpartition("/")
    place, _ = json_places.found(root, outer)
    at = (place.keys or {}).get(key, place.start)
    shown.show(name, text, at, len(json.dumps(key, ensure_ascii=False)) if at != place.start else 1)


def one_line(text, place):
    """How many signs of a value stand on its first line."""
    end = text.find("\n", place.start)
    return max(1, min(place.end, end if end != -1 else place.end) - place.start)


def nest(found, model):
    name, kind, own = found.groups()
    shown = Shown("nest", kind)
    text = read_text(name)
    root = json_places.read(text, name)
    places = [place for place, key in strings_in(root) if key == "name" and place.value == own]
    for place in places[:2] if kind == "TwiceType" else places[-1:] if kind == "Differs" else places[:1]:
        shown.show(name, text, place.start, place.end - place.start)
    if kind == "Differs" and model is not None:
        for file in known_files(model):
            if file.name == name:
                break
            for place, key in strings_in(file.place):
                if key == "name" and place.value == own:
                    shown.show(file.name, file.text, place.start, place.end - place.start)
                    return shown
    return shown


def names(found, model):
    name, path, kind, own = found.groups()
    shown = Shown("name", kind)
    for file, inner in located(model or name, path):
        place, steps = json_places.found(file.place, inner)
        if steps == len(inner.split("/")) - 1:
            shown.show(file.name, file.text, place.start, one_line(file.text, place))
    if not shown.places:
        shown.say(f"The path is that of the flat model: look for {own}.")
    return shown


LISTS = {
    "/xmodel/environment/constants": "constants",
    "/xmodel/environment/functionFiles": "functionFiles",
    "/xmodel/environment/timeUnits": "timeUnits",
    "/xmodel/messages": "messages",
    "/xmodel/agents": "agents",
}


def located(name, path):
    """The file and the path in it of a path in the joined lists of all files."""
    for start in LISTS:
        found = re.fullmatch(re.escape(start) + r"/([0-9]+)(.*)", path)
        if not found:
            continue
        left, rest = int(found.group(1)), found.group(2)
        for file, number in joined(name, start):
            if left == 0:
                yield file, f"{start}/{number}{flat_path(file, start, number, rest)}"
                return
            left -= 1


def joined(name, start):
    """The members of a list of all files, one file after another: the file and the number there of each. A message or function
    file whose name an earlier file has given is passed over.
    """
    is_merged = start in ("/xmodel/messages", "/xmodel/environment/functionFiles")
    given = {}
    for file in known_files(name):
        place, steps = json_places.found(file.place, start)
        is_there = steps == len(start.split("/")) - 1 and isinstance(place.value, list)
        for number, member in enumerate(place.value if is_there else []):
            own = member if isinstance(member, str) else models.entry(member, "name", str, None)
            if not (is_merged and given.setdefault(own, file) is not file):
                yield file, number


def flat_path(file, start, number, rest):
    """The path of a variable, where fields stand in the place of one of a data type: that of the variable."""
    found = re.fullmatch(r"/(memory|variables)/([0-9]+)(.*)", rest)
    if not found:
        return rest
    place, _ = json_places.found(file.place, f"{start}/{number}/{found.group(1)}")
    if not isinstance(place.value, list) or all(models.entry(own, "type", str, "") == "int" for own in place.value):
        return rest
    # Fields of data types are counted in the flat model: the list itself is shown.
    return f"/{found.group(1)}"


def lexeme(found, model):
    name, kind, at = found.group(1), found.group(2), int(found.group(3))
    shown = Shown("lex", kind)
    text = read_bytes(name).decode("latin-1")
    shown.show(name, text, min(at, len(text)))
    return shown


def syntax(found, model):
    name, line, kind, number = found.group(1), int(found.group(2)), found.group(3), int(found.group(4))
    shown = Shown("syntax", kind)
    source = c_source.Source(name)
    if number < len(source.tokens):
        token = source.tokens[number]
        shown.show(name, source.text, token.start, len(token.text))
    else:
        shown.show_line(name, source.text, line)
        shown.say("The file ends too early: something is open.")
    return shown


def check(found, model):
    name, line, kind, own = found.group(1), int(found.group(2)), found.group(3), found.group(4)
    shown = Shown("check", kind)
    source = c_source.Source(name)
    word = re.split(r"[ -]", own)[0]
    for token in source.tokens:
        if token.line == line and word in (token.text, loop_name(token.text)):
            shown.show(name, source.text, token.start, len(token.text))
            return shown
    shown.show_line(name, source.text, line)
    return shown


def loop_name(word):
    found = c_source.LOOP.fullmatch(word)
    return found.group(1) if found else None


def missing_function(found, model):
    shown = Shown("check", "MissingFunction")
    show_function(shown, model, found.group(1))
    return shown


def show_function(shown, model, name):
    """Where the model names a function."""
    for file in known_files(model) if model else []:
        for place, key in strings_in(file.place):
            if key == "name" and place.value == name:
                shown.show(file.name, file.text, place.start, place.end - place.start)


def cycle(found, model):
    shown = Shown("order", "cycle")
    for own in dict.fromkeys(found.group(1).split(" -> ")):
        show_function(shown, model, own.partition(".")[2])
    return shown


def start_states(found, model):
    shown = Shown("order", "states")
    kind, states = found.group(1), found.group(2).split(", ")
    for agent in models.read(model).agents if model else []:
        for function in agent.functions:
            if agent.name == kind and function.current in states:
                place, _ = json_places.found(function.file.place, f"{function.path}/currentState")
                shown.show(function.file.name, function.file.text, place.start, place.end - place.start)
    return shown


def population(found, model):
    name, path, kind = found.groups()
    shown = Shown("population", kind)
    if kind in ("UnknownVariable", "UnknownConstant"):
        show_key(shown, name, path)
    else:
        show_path(shown, name, path)
    return shown


def trace(found, model):
    name, kind, line = found.groups()
    shown = Shown("trace", kind)
    shown.show_line(name, read_text(name), int(line))
    return shown


def fault(found, model):
    iteration, kind, function, cause, line, memory = found.groups()
    shown = Shown("fault", cause)
    shown.say(f"An agent {kind} whose memory was {memory.strip() or 'empty'} when {function} began, in iteration {iteration}.")
    for name in models.read(model).function_files if model else []:
        source = c_source.Source(name)
        bodies = source.functions()
        if any(own.name == function for own in bodies) or holds_helper(source, bodies, model, function, int(line)):
            shown.show_line(name, source.text, int(line))
    return shown


def holds_helper(source, bodies, model, function, line):
    """Whether a helper stands at this line, which the function may have called."""
    own_there = any(
        one.name == function for name in models.read(model).function_files for one in c_source.Source(name).functions()
    )
    return not own_there and any(
        source.tokens[one.start].line <= line <= source.tokens[one.end - 1].line for one in bodies if one.end > one.start
    )


def outside(found, model):
    return Shown("outside", found.group(0).split(":")[0])


NAME = r"(.+?)"
LINES = (
    (r"usage: Missing (\S+)", missing_word),
    (r"usage: (\w+)(?: at word ([0-9]+))?", words),
    (r"(missing|not JSON|too large|too many): (.+)", whole_file),
    (rf"shape: {NAME}: (/\S*|): wanted (\w+)", shape),
    (rf"nest: {NAME}: (\w+): (\w+)", nest),
    (rf"name: {NAME}: (/\S+): (\w+): (\S+)", names),
    (rf"lex: {NAME}: (\w+) at byte ([0-9]+)", lexeme),
    (rf"syntax: {NAME}: line ([0-9]+): (\w+) at token ([0-9]+)", syntax),
    (r"check: MissingFunction: (\w+)", missing_function),
    (rf"check: {NAME}: line ([0-9]+): (\w+): (.+)", check),
    (r"cycle: (.+)", cycle),
    (r"states: (\w+): (.+)", start_states),
    (rf"population: {NAME}: (/\S*|): (\w+)", population),
    (rf"trace: {NAME}: (\w+) at line ([0-9]+)", trace),
    (r"fault: iteration ([0-9]+): (\w+)\.(\w+): (\w+) at line ([0-9]+): memory(.*)", fault),
    (r"no memory|read fault: .+|write fault: .+", outside),
)

# Which section of the page has the rows of a kind: the beginning of its heading.
SECTIONS = {
    "usage": "Words:",
    "files": "Files:",
    "shape": "The form of a model:",
    "nest": "Data types and several files:",
    "name": "The names of a model:",
    "lex": "The pieces of a function file:",
    "syntax": "The grammar of a function file:",
    "check": "The meaning of function files:",
    "order": "The order of functions:",
    "population": "Populations:",
    "trace": "Traces:",
    "fault": "Faults of a run:",
    "outside": "Memory, files and the system:",
}


# What the example of a row ends with that speaks of one place alone: at another place it is left out.
PLACES = ("BadByte at byte 0", "/states/version: Shape", "write fault: output")


def is_elsewhere(cells, line):
    """Whether a row speaks of one place alone, and the line of another one."""
    return any(cell.strip("`").endswith(place) and not line.endswith(place) for cell in cells for place in PLACES)


def rows_of(section, kind, told):
    """What the page says of a kind where this line was told: pairs of where it comes and what to do."""
    page = os.path.join(os.path.dirname(os.path.dirname(os.path.realpath(__file__))), "docs", "REFUSALS.md")
    try:
        text = read_text(page)
    except Refusal:
        return []
    found, is_own = [], False
    for line in text.split("\n"):
        if line.startswith("## "):
            is_own = line[3:].startswith(SECTIONS[section])
        elif is_own and line.startswith("| "):
            cells = cells_of(line)
            kinds = (cells[0], cells[1].strip("`").split(":")[0] if section == "outside" else None)
            if kind in kinds and not is_elsewhere(cells, told):
                found.append((cells[2] if section == "outside" else cells[1], cells[-1]))
    return list(dict.fromkeys(found))


def cells_of(line):
    """The cells of a row of a table, in which code may hold bars."""
    cells = re.split(r"(?<!\\)\|", line.strip().strip("|"))
    return [re.sub(r"\[([^]]*)\]\([^)]*\)", r"\1", cell.strip()) for cell in cells]


def around(text, at):
    """The text of a line, of a long one what is near the place, and how much of it stands before the place."""
    if len(text) <= WIDEST:
        return text, at
    start = max(0, min(at - WIDEST // 3, len(text) - WIDEST))
    left = ".. " if start > 0 else ""
    right = " .." if start + WIDEST < len(text) else ""
    return left + text[start:start + WIDEST] + right, len(left) + at - start


def print_shown(shown, line):
    print(line)
    for name, number, column, text, length in shown.places:
        shown_text, before = around(text.replace("\t", " "), column - 1)
        print(f"\n{name}:{number}:{column}")
        print(f"    {shown_text}")
        print("    " + " " * before + "^" * max(1, min(length, len(shown_text) - before)))
    for text in shown.said:
        print(f"\n{text}")
    for comes, what in rows_of(shown.section, shown.kind, line):
        print(f"\n{shown.kind}: {comes}.\n{what}")


def run(arguments):
    line = sys.stdin.readline() if arguments.line == "-" else arguments.line
    line = line.strip()
    if not line:
        raise UsageFault("LINE is empty")
    for form, show in LINES:
        found = re.fullmatch(form, line)
        if found:
            print_shown(show(found, arguments.model), line)
            return
    raise Refusal(f"this is no line of flame: {line}")
