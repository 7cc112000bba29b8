"""Converts a starting population of FLAME, a 0.xml, to the JSON form, for a model in JSON.

A value is a whole number, {1,2,3} for an array, and for a data type its variables in order, as {1,{2,3}}. What is missing is 0,
in FLAME and here. What has another form, or a name that the model does not have, is listed on standard error, as FILE: line N:
what it is, and what to do; then nothing is written, and the status is 1.

Agents are written as they come, so a file may be of any size; flame reads populations of 67,108,864 bytes at most, for which
--format 2 takes less room: there the agents of a type are rows of numbers.
"""
import json
import os
import shutil
import sys
import tempfile

from companion import json_places, models, xml_places
from companion.faults import Refusal
from companion.files import Progress, written
from companion.findings import Findings, hint
from companion.flame_values import Misfit, fill, forms_of, number_of, parsed, width_of

HELP = "a starting population of FLAME (0.xml) as JSON"

MOST_BYTES = 67108864
# So many numbers a row has at most.
WIDEST = 4096

SECTIONS = ("itno", "environment", "xagent")
OTHERS = {
    "imports": "convert each file that it names, and put their agents into one list; then leave it out",
    "outputs": "flame writes each iteration whole: leave it out",
    "agents": "agents stand in <states> itself: take the elements <xagent> out of it",
}


def add_arguments(parser):
    parser.add_argument("population", metavar="0.xml")
    parser.add_argument("model", metavar="MODEL.json")
    parser.add_argument("-o", dest="output", metavar="FILE", default="-", help="write to this file; standard output without it")
    parser.add_argument("--format", choices=("1", "2"), default="1", help="1, as without it, names variables; 2 has rows")


class Slot:
    """A variable as FLAME has it: its form, and where its numbers begin in a row."""

    def __init__(self, start, form):
        self.start = start
        self.form = form


class Kind:
    """An agent type: its variables as FLAME has them, and how a row of it is written."""

    def __init__(self, agent, types):
        self.name = agent.name
        self.width = agent.row.width
        if self.width > WIDEST:
            raise Refusal(f"no model: {agent.file.name}: {agent.name} has more than {WIDEST} numbers")
        self.slots = {}
        start = 0
        place, _ = json_places.found(agent.file.place, agent.path)
        for name, form in forms_of(models.entry(place.value, "memory", list, []), types):
            self.slots[name] = Slot(start, form)
            start += width_of(form)
        self.named = '{"name":%s,"memory":{%s}}' % (quoted(agent.name), ",".join(map(slot_text, agent.row.variables)))
        self.plain = "[" + ",".join(["%d"] * self.width) + "]"


def quoted(name):
    """A name in JSON, within a text that numbers are put into."""
    return json.dumps(name, ensure_ascii=False).replace("%", "%%")


def slot_text(variable):
    numbers = "%d" if variable.length is None else "[" + ",".join(["%d"] * variable.length) + "]"
    return quoted(variable.name) + ":" + numbers


def kinds_of(model):
    """The agent types of a model by name, and the forms of its data types."""
    types = {}
    for file in model.files:
        environment = models.entry(file.xmodel, "environment", dict, {})
        for value in models.entry(environment, "dataTypes", list, []):
            if isinstance(value, dict) and isinstance(value.get("name"), str):
                types.setdefault(value["name"], forms_of(models.entry(value, "variables", list, []), types))
    return {agent.name: Kind(agent, types) for agent in model.agents}


def put(row, slot, text, name):
    """Puts the numbers of a value into a row."""
    if slot.form is None and "{" not in text:
        row[slot.start] = number_of(text, name)
        return
    numbers = []
    fill(slot.form, parsed(text, name), numbers, name)
    row[slot.start:slot.start + len(numbers)] = numbers


class Spool:
    """Agents that are written as they come, behind one another, into a file that has no name."""

    def __init__(self):
        self.file = tempfile.TemporaryFile("w+", encoding="utf-8", newline="\n")
        self.is_empty = True

    def add(self, text):
        self.file.write(text if self.is_empty else ",\n" + text)
        self.is_empty = False

    def copy_to(self, file):
        self.file.seek(0)
        shutil.copyfileobj(self.file, file, 1 << 20)


class Population(xml_places.Visitor):
    """Takes a 0.xml as it is read."""

    def __init__(self, name, model, form, findings):
        self.name = name
        self.model = model
        self.kinds = kinds_of(model)
        self.is_named = form == "1"
        self.findings = findings
        self.constants = dict.fromkeys(model.constants, 0)
        self.iteration = 0
        self.seen = set()
        self.spools = {own: Spool() for own in ([""] if self.is_named else self.kinds)}
        self.depth = 0
        # The section of <states> that is open, with its line and its values; and the element in it.
        self.section, self.line, self.values = None, 0, []
        self.field, self.field_line, self.pieces = None, 0, []
        self.progress = Progress("megabyte", size_of(name) >> 20)

    def __enter__(self):
        return self

    def __exit__(self, *_):
        self.progress.end()
        for spool in self.spools.values():
            spool.file.close()

    def tell(self, line, text):
        self.findings.add(self.name, line, text)

    def read(self, count):
        self.progress.tell(count >> 20)

    def begin(self, name, attributes, line):
        self.depth += 1
        if self.depth == 3:
            self.field, self.field_line, self.pieces = name, line, []
        elif self.depth == 2:
            self.section, self.line, self.values, self.pieces = name, line, [], []
            if name not in SECTIONS:
                near = OTHERS.get(name) or hint(name, SECTIONS, "<{}>").lstrip(": ") or "leave it out"
                self.tell(line, f"<{name}> has no place in a population: {near}")
        elif self.depth == 1 and name != "states":
            raise Refusal(f"no population of FLAME: {self.name}: line {line}: the root is <{name}> in place of <states>")
        if self.section in SECTIONS and self.depth == (3 if self.section == "itno" else 4):
            self.tell(line, f"<{name}> stands where a value belongs: move it")

    def text(self, text):
        if self.depth == 3 or self.section == "itno":
            self.pieces.append(text)
        elif not text.isspace() and (self.depth == 1 or self.section in SECTIONS and self.depth == 2):
            line = self.parser.CurrentLineNumber - text.lstrip().count("\n")
            self.tell(line, f"the text {text.strip()[:40]!r} stands where elements belong: leave it out")

    def end(self, name):
        if self.depth == 3:
            self.values.append((self.field, self.field_line, "".join(self.pieces)))
        elif self.depth == 2:
            self.take(name)
            self.section = None
        self.depth -= 1

    def take(self, name):
        """Takes a section that is whole."""
        if name == "xagent":
            self.agent()
        elif name == "environment":
            self.environment()
        elif name == "itno":
            self.set_iteration("".join(self.pieces))

    def set_iteration(self, text):
        if "itno" in self.seen:
            self.tell(self.line, "<itno> stands twice: leave one out")
        self.seen.add("itno")
        try:
            self.iteration = number_of(text, "itno", 0)
        except Misfit as fault:
            self.tell(self.line, str(fault))

    def environment(self):
        for name, line, text in self.values:
            if name not in self.constants:
                near = hint(name, self.constants) or ": leave it out, or declare it in the model"
                self.tell(line, f"the model has no constant {name}{near}")
                continue
            if ("constant", name) in self.seen:
                self.tell(line, f"the constant {name} stands twice: leave one out")
            self.seen.add(("constant", name))
            try:
                self.constants[name] = number_of(text, f"the constant {name}")
            except Misfit as fault:
                self.tell(line, str(fault))

    def kind(self):
        """The type of the agent that is read, whose name is the first value of this name; none where it is listed."""
        for place, (name, line, text) in enumerate(self.values):
            if name == "name":
                del self.values[place]
                kind = self.kinds.get(text.strip())
                if kind is None:
                    near = hint(text.strip(), self.kinds) or ": mend the name, or add the type to the model"
                    self.tell(line, f"the model has no agent type {text.strip()[:100]}{near}")
                return kind
        self.tell(self.line, "this <xagent> has no <name>: add that of its type")
        return None

    def agent(self):
        kind = self.kind()
        if kind is None:
            return
        row, given = [0] * kind.width, set()
        for name, line, text in self.values:
            slot = kind.slots.get(name)
            if slot is None:
                near = hint(name, kind.slots) or ": leave it out, or declare it in the model"
                self.tell(line, f"{kind.name} has no variable {name}{near}")
                continue
            if name in given:
                self.tell(line, f"{name} stands twice: leave one out")
            given.add(name)
            try:
                put(row, slot, text, f"{kind.name}.{name}")
            except Misfit as fault:
                self.tell(line, str(fault))
        if self.findings.count == 0:
            text = (kind.named if self.is_named else kind.plain) % tuple(row)
            self.spools["" if self.is_named else kind.name].add(text)

    def write(self, file):
        """Writes the whole population."""
        constants = list(self.constants.values())
        if self.is_named:
            environment = json.dumps(self.constants, ensure_ascii=False, separators=(",", ":"))
            file.write(f'{{"states":{{"itno":{self.iteration},"environment":{environment},"agents":[\n')
            self.spools[""].copy_to(file)
            file.write("\n]}}\n")
            return
        environment = json.dumps(constants, separators=(",", ":"))
        file.write(f'{{"states":{{"version":2,"itno":{self.iteration},"environment":{environment},"agents":[')
        for number, (name, spool) in enumerate(self.spools.items()):
            file.write("," if number else "")
            file.write(f'\n{{"name":{json.dumps(name, ensure_ascii=False)},"rows":[\n')
            spool.copy_to(file)
            file.write("\n]}")
        file.write("\n]}}\n")


def size_of(name):
    """How many bytes a file has; 0 where that is not known."""
    try:
        return 0 if name == "-" else os.path.getsize(name)
    except OSError:
        return 0


def tell_size(name, is_plain):
    """Notes that flame will not read what was written."""
    size = size_of(name)
    if size > MOST_BYTES:
        less = "" if is_plain else ", and with --format 2 there are fewer"
        print(f"flamekit: {name} has {size} bytes, and flame reads {MOST_BYTES} at most{less}", file=sys.stderr)


def read_whole(name, population):
    """Reads a population to its end; refuses one of which something is listed."""
    xml_places.walk(name, population)
    population.progress.end()
    population.findings.tell()
    if population.findings.count:
        raise Refusal(f"{population.findings.said()}, and nothing is written")


def run(arguments):
    model = models.read(arguments.model)
    try:
        inputs = [arguments.population, *(file.name for file in model.files)]
        with Population(arguments.population, model, arguments.format, Findings()) as population:
            read_whole(arguments.population, population)
            with written(arguments.output, inputs) as file:
                population.write(file)
    except OSError as error:
        if isinstance(error, BrokenPipeError):
            raise
        raise Refusal(f"a temporary file cannot be written: {error.strerror}") from None
    tell_size(arguments.output, arguments.format == "2")
