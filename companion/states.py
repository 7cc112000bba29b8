"""Populations and the files of runs, in both formats, read one member at a time."""
import json
import re

from companion.faults import Refusal
from companion.files import read_bytes
from companion.json_places import line_of
from companion.models import whole

DECODER = json.JSONDecoder()
BLANK = re.compile(r"[ \t\n\r]*")


class Again(Exception):
    """The version stands behind what it says how to read."""


class Reader:
    """A file's text, and how far it is read."""

    def __init__(self, name, text):
        self.name = name
        self.text = text
        self.at = 0

    def refuse(self, at=None):
        line, column = line_of(self.text, min(self.at if at is None else at, len(self.text)))
        raise Refusal(f"no population: {self.name}: line {line}, column {column}")

    def blank(self):
        self.at = BLANK.match(self.text, self.at).end()

    def takes(self, sign):
        """Whether the sign comes next, which is passed then."""
        self.blank()
        if self.text.startswith(sign, self.at):
            self.at += 1
            return True
        return False

    def value(self):
        """The next value, whole."""
        self.blank()
        try:
            value, self.at = DECODER.raw_decode(self.text, self.at)
        except json.JSONDecodeError as fault:
            self.refuse(fault.pos)
        except (RecursionError, ValueError):
            # Nested too deep, or a number of thousands of digits.
            self.refuse()
        return value

    def entries(self):
        """The keys of the next object. Whoever takes a key takes its value before the next."""
        if not self.takes("{"):
            self.refuse()
        if self.takes("}"):
            return
        while True:
            key = self.value()
            if not isinstance(key, str) or not self.takes(":"):
                self.refuse()
            yield key
            if self.takes("}"):
                return
            if not self.takes(","):
                self.refuse()

    def members(self):
        """The members of the next list, one by one; of null none."""
        self.blank()
        if self.text.startswith("null", self.at):
            self.at += len("null")
            return
        if not self.takes("["):
            self.refuse()
        if self.takes("]"):
            return
        while True:
            yield self.value()
            if self.takes("]"):
                return
            if not self.takes(","):
                self.refuse()


class Visitor:
    """What is told of a file. Each row is a list of numbers, as wide as the model says."""

    def agent(self, agent, row):
        """An agent of this type."""

    def messages(self, message, count):
        """So many messages of this type more."""


class States:
    """What a file says beside its agents: the number of its iteration, and the constants by name."""

    def __init__(self, iteration, constants):
        self.iteration = iteration
        self.constants = constants


class Reading:
    """One way through a file, for a model and a visitor."""

    def __init__(self, name, text, model, visitor, version):
        self.reader = Reader(name, text)
        self.name = name
        self.types = {agent.name: agent for agent in model.agents}
        self.model = model
        self.visitor = visitor
        self.version = version
        self.used = False
        self.iteration = 0
        self.constants = dict.fromkeys(model.constants, 0)
        self.forms = {}

    def refuse(self, why):
        raise Refusal(f"no population of the model: {self.name}: {why}")

    def number(self, value, what):
        found = whole(value)
        if found is None:
            self.refuse(f"{what} is no whole number")
        return found

    def read(self):
        for key in self.reader.entries():
            if key == "states":
                self.states()
            else:
                self.reader.value()
        self.reader.blank()
        if self.reader.at != len(self.reader.text):
            self.reader.refuse()
        return States(self.iteration, self.constants)

    def states(self):
        for key in self.reader.entries():
            if key == "version":
                self.set_version(self.reader.value())
            elif key == "itno":
                value = self.reader.value()
                self.iteration = 0 if value is None else self.number(value, "itno")
            elif key == "environment":
                self.environment(self.reader.value())
            elif key == "agents":
                self.used = True
                for member in self.reader.members():
                    self.agents(member)
            elif key == "boards":
                self.used = True
                for member in self.reader.members():
                    self.board(member)
            else:
                self.reader.value()

    def set_version(self, value):
        version = 1 if value is None else whole(value)
        if version not in (1, 2):
            self.refuse("its version is neither 1 nor 2")
        if version != self.version:
            if self.used:
                raise Again(version)
            self.version = version

    def environment(self, value):
        if value is None:
            return
        if isinstance(value, list):
            if len(value) != len(self.model.constants):
                self.refuse("its environment has another number of constants")
            value = dict(zip(self.model.constants, value))
        if not isinstance(value, dict):
            self.refuse("its environment is neither an object nor a list")
        for name, number in value.items():
            if name not in self.constants:
                self.refuse(f"the model has no constant {name}")
            if number is not None:
                self.constants[name] = self.number(number, name)

    def agents(self, member):
        name = member.get("name") if isinstance(member, dict) else None
        agent = self.types.get(name)
        if agent is None:
            self.refuse(f"the model has no agent type {name}")
        if self.version == 1:
            self.visitor.agent(agent, self.row(agent, member.get("memory")))
            return
        for row in member.get("rows") or []:
            self.visitor.agent(agent, self.given_row(agent, row))

    def given_row(self, agent, row):
        if not isinstance(row, list) or len(row) != agent.row.width:
            self.refuse(f"a row of {agent.name} has not {agent.row.width} numbers")
        for place, value in enumerate(row):
            if type(value) is not int:
                row[place] = self.number(value, f"a number of {agent.name}")
        return row

    def row(self, agent, memory):
        """The row of a memory whose variables are named; what is not named is 0."""
        if memory is None:
            return [0] * agent.row.width
        if not isinstance(memory, dict):
            self.refuse(f"the memory of an agent {agent.name} is no object")
        row = []
        left = len(memory)
        for variable in agent.row.variables:
            value = memory.get(variable.name)
            if value is None:
                left -= variable.name in memory
                row += [0] * variable.width
                continue
            left -= 1
            if variable.length is None:
                row.append(value if type(value) is int else self.number(value, f"{agent.name}.{variable.name}"))
                continue
            if not isinstance(value, list) or len(value) != variable.length:
                self.refuse(f"{agent.name}.{variable.name} is no list of {variable.length} numbers")
            row += [self.number(own, f"{agent.name}.{variable.name}") for own in value]
        if left:
            unknown = next(name for name in memory if agent.row.variable(name) is None)
            self.refuse(f"{agent.name} has no variable {unknown}")
        return row

    def board(self, member):
        if not isinstance(member, dict):
            return
        message = self.model.message(member.get("name"))
        if message is not None:
            self.visitor.messages(message, len(member.get("messages") or member.get("rows") or []))


def version_behind(name, text, model):
    """The version, where it may stand behind what it says how to read; else 1, until the reading finds it."""
    if text.find('"version"', max(text.find('"agents"'), text.find('"boards"'), 0)) == -1:
        return 1
    try:
        Reading(name, text, model, Visitor(), 1).read()
        return 1
    except Again as again:
        return again.args[0]


def read(name, model, visitor):
    """Tells a visitor what a file has, and gives what else it says."""
    try:
        text = read_bytes(name).decode("utf-8-sig")
    except UnicodeDecodeError as error:
        raise Refusal(f"no UTF-8: {name}: byte {error.start}") from None
    return Reading(name, text, model, visitor, version_behind(name, text, model)).read()
