"""What the files of an XMML model declare for all of them, and the fields that conditions can name."""
import re

from companion.findings import Findings
from companion.xmml_sheet import Sheet

ARRAY = re.compile(r"(.*?)\s*\[(.*)\]")
# So many numbers a row has at most.
WIDEST = 4096


class Field:
    """A number, or an array of them, as conditions name it: its flat name, and whether it is a single number."""

    def __init__(self, flat, is_single):
        self.flat = flat
        self.is_single = is_single


class AnyFields(dict):
    """The fields of what is not declared, which is listed where it is named."""

    def get(self, name):
        return Field(name.replace(".", "_"), True)


class Declared:
    """What the files of a model declare for all of them: data types, messages, time units and functions."""

    def __init__(self):
        self.types = {}
        self.messages = {}
        self.units = ["iteration"]
        self.constants = []
        # By the names of functions the agent types that have them.
        self.functions = {}

    def add(self, sheet):
        """Adds what a file declares; what is wrong with it is listed when it is converted."""
        quiet = Sheet(sheet.name, sheet.root, Findings())
        parts = quiet.parts(quiet.root)
        environment = quiet.one(parts, "environment")
        inner = {} if environment is None else quiet.parts(environment)
        for constant in quiet.members(inner, "constants", "variable"):
            self.constants.append(quiet.text(quiet.parts(constant), "name", constant)[0])
        for unit in quiet.members(inner, "timeUnits", "timeUnit"):
            self.units.append(quiet.text(quiet.parts(unit), "name", unit)[0])
        for element in quiet.members(inner, "dataTypes", "dataType"):
            own = quiet.parts(element)
            self.types.setdefault(quiet.text(own, "name", element)[0], plain_variables(quiet, own, "variables"))
        for element in quiet.members(parts, "messages", "message"):
            own = quiet.parts(element)
            self.messages.setdefault(quiet.text(own, "name", element)[0], plain_variables(quiet, own, "variables"))
        for element in quiet.members(parts, "agents", "xagent"):
            own = quiet.parts(element)
            agent = quiet.text(own, "name", element)[0]
            for function in quiet.members(own, "functions", "function"):
                self.functions.setdefault(quiet.text(quiet.parts(function), "name", function)[0], agent)

    def fields(self, variables, within=()):
        """The fields of a row, by the names that FLAME has for them, as den.x."""
        found = {}
        for kind, name, length in variables:
            inner = None if kind in within or len(found) > WIDEST else self.types.get(kind)
            found[name] = Field(name, kind not in self.types and length is None)
            if inner is None or length is not None:
                continue
            for own, field in self.fields(inner, within + (kind,)).items():
                found[f"{name}.{own}"] = Field(f"{name}_{field.flat}", field.is_single)
        return found

    def message_fields(self, name):
        """The fields of a message; one that is not declared has any."""
        return self.fields(self.messages[name]) if name in self.messages else AnyFields()


def plain_variables(sheet, parts, name):
    """The type, the name and the length of each variable, the length as a text."""
    found = []
    for element in sheet.members(parts, name, "variable"):
        own = sheet.parts(element)
        kind, text = sheet.text(own, "type", element)[0], sheet.text(own, "name", element)[0]
        array = ARRAY.fullmatch(text)
        found.append((kind, *array.groups()) if array else (kind, text, None))
    return found
