"""Models of XMML as the JSON form has them. What has no place there is listed, and stands in the JSON as it stood in the XML, so
that flame refuses it until it is mended.
"""
import posixpath
import re

from companion.findings import Findings, hint
from companion.xmml_conditions import Conditions
from companion.xmml_declared import ARRAY, plain_variables
from companion.xmml_names import Names
from companion.xmml_sheet import NAME, Sheet, shown

LONGEST = 1000

# What to do about a type that the JSON form does not have.
FRACTION = "all numbers are whole: make it int, and count in small units, as thousandths"
TYPES = {
    "double": FRACTION,
    "float": FRACTION,
    "char": "there are no letters: make it int, and give each letter or word a number",
    "char_array": "there are no texts: make it int, and give each text a number",
    "long": "all numbers are int: make it int",
    "unsigned": "all numbers are int: make it int",
    "short": "all numbers are int: make it int",
    "integer": "it is named int here: make it int",
    "bool": "all numbers are int: make it int, 0 or 1",
}
NO_LENGTHS = "a dynamic array: give its greatest length, as in <type>int</type> <name>{}[10]</name>, and count what is used of it"

NO_LOTTERY = (
    "messages come in no random order: leave it out, and they come by their content; for a lottery, send a drawn number "
    "with each message, and sort by it"
)


class Conversion:
    """Makes the JSON value of one file, in the order of its elements' lines."""

    def __init__(self, sheet, declared, taken, base):
        self.sheet = sheet
        self.declared = declared
        # The names that were declared up to here, in this file and in earlier ones; and the messages and data types of this file.
        self.taken = taken
        self.messages = Names()
        self.types = Names(in_capitals=False)
        # The folder in which the names of this file lie, from that of the first file.
        self.base = base
        # The elements that name further files, with the names.
        self.nested = []
        self.function_files = []

    def model(self):
        sheet = self.sheet
        parts = sheet.parts(sheet.root)
        value = {}
        for name in ("name", "version"):
            element = sheet.one(parts, name)
            if element is not None and sheet.plain(element):
                value[name] = " ".join(element.text.split())
        sheet.described(parts, value)
        environment = sheet.one(parts, "environment")
        if environment is not None:
            value["environment"] = self.environment(sheet.parts(environment))
        lists = {
            "messages": [self.message(own) for own in sheet.members(parts, "messages", "message")],
            "agents": [self.agent(own) for own in sheet.members(parts, "agents", "xagent")],
            "models": [self.file(own) for own in sheet.members(parts, "models", "model")],
        }
        value.update((key, own) for key, own in lists.items() if own)
        return {"xmodel": value}

    def environment(self, parts):
        members = self.sheet.members
        lists = {
            "constants": [self.constant(own) for own in members(parts, "constants", "variable")],
            "functionFiles": [self.function_file(own) for own in members(parts, "functionFiles", "file")],
            "timeUnits": [self.unit(own) for own in members(parts, "timeUnits", "timeUnit")],
            "dataTypes": [self.data_type(own) for own in members(parts, "dataTypes", "dataType")],
        }
        return {key: own for key, own in lists.items() if own}

    def placed(self, name):
        """A file's name from the folder of the first file, in which flame is started."""
        return posixpath.normpath(posixpath.join(self.base, name))

    def function_file(self, element):
        name = self.sheet.plain(element)
        if not name:
            self.sheet.tell(element, "<file> is empty: write the name of a function file")
            return name
        self.function_files.append((element, self.placed(name)))
        return self.placed(name)

    def constant(self, element):
        value = self.variable(element, "the constant ", self.taken.constants, True)
        if "length" in value:
            self.sheet.tell(element, f"the constant {value['name']} is an array: a constant is one number, so take as many")
        return value

    def unit(self, element):
        sheet = self.sheet
        parts = sheet.parts(element)
        name, unit = sheet.named(parts, "name", element), sheet.named(parts, "unit", element)
        self.taken.units.take(sheet, element, name)
        if unit and unit not in self.declared.units:
            near = hint(unit, self.declared.units) or ": a unit is iteration or one that is declared before"
            sheet.tell(parts["unit"][0], f"there is no time unit {unit}{near}")
        period = sheet.one(parts, "period", element)
        value = sheet.described(parts, {"name": name})
        value["unit"] = unit
        if period is not None:
            value["period"] = sheet.whole(period, 1)
        return value

    def data_type(self, element):
        parts = self.sheet.parts(element)
        name = self.sheet.named(parts, "name", element)
        value = self.sheet.described(parts, {"name": name})
        value["variables"] = self.variables(parts, "variables", f"{name}.", Names(in_capitals=False))
        self.types.take(self.sheet, element, name)
        self.taken.types.add(name)
        return value

    def variables(self, parts, key, what, names):
        return [self.variable(own, what, names) for own in self.sheet.members(parts, key, "variable")]

    def variable(self, element, what, names, is_constant=False):
        sheet = self.sheet
        parts = sheet.parts(element)
        kind, _ = sheet.text(parts, "type", element)
        text, place = sheet.text(parts, "name", element)
        array = ARRAY.fullmatch(text)
        name = array.group(1) if array else text
        value = {"type": kind, "name": name}
        names.take(sheet, place, name)
        if text and not NAME.fullmatch(name):
            self.tell_name(place, text)
            value["name"] = text
        if array:
            value["length"] = self.length(place, text, array.group(2))
        if kind:
            self.kind(parts["type"][0], what + name, kind, name, array, is_constant)
        return sheet.described(parts, value)

    def tell_name(self, place, text):
        if "[" in text:
            self.sheet.tell(place, f"{text} is an array of arrays: write one array, and row * width + column for the place")
        else:
            self.sheet.tell(place, f"{shown(text)} is no name: take at most 100 letters, digits and _, no digit first, as C does")

    def length(self, place, text, digits):
        if re.fullmatch(r"\s*[0-9]{1,20}\s*", digits, re.ASCII) and 1 <= int(digits) <= LONGEST:
            return int(digits)
        if "[" not in digits:
            self.sheet.tell(place, f"{text}: a length is a number from 1 to {LONGEST}: write it out, or take several arrays")
        else:
            self.tell_name(place, text)
        return digits

    def kind(self, element, what, kind, name, array, is_constant):
        """Lists a type that the JSON form does not have there."""
        declared = self.declared.types
        if kind == "int":
            return
        if is_constant or kind in TYPES:
            why = TYPES.get(kind, "a constant is a whole number: take an int for each number in it")
            self.sheet.tell(element, f"{what} is {kind}: {why}")
        elif kind in self.taken.types:
            if array:
                self.sheet.tell(
                    element, f"{what} is an array of {kind}: give the variables of {kind} the length, or take as many variables"
                )
        elif kind in declared:
            self.sheet.tell(element, f"{what} is {kind}, which is declared behind it: put the data type {kind} before it")
        elif kind.endswith("_array"):
            self.sheet.tell(element, f"{what} is {kind}, {NO_LENGTHS.format(name)}")
        else:
            near = hint(kind, ["int", *declared]) or ": make it int, or declare the data type"
            self.sheet.tell(element, f"{what} is {kind}, which is no type{near}")

    def message(self, element):
        parts = self.sheet.parts(element)
        name = self.sheet.named(parts, "name", element)
        value = self.sheet.described(parts, {"name": name})
        self.messages.take(self.sheet, element, name)
        value["variables"] = self.variables(parts, "variables", f"{name}.", Names(in_capitals=False))
        return value

    def agent(self, element):
        sheet = self.sheet
        parts = sheet.parts(element)
        name = sheet.named(parts, "name", element)
        value = sheet.described(parts, {"name": name})
        self.taken.agents.take(sheet, element, name)
        value["memory"] = self.variables(parts, "memory", f"{name}.", Names(self.declared.constants))
        quiet = Sheet(sheet.name, sheet.root, Findings())
        fields = self.declared.fields(plain_variables(quiet, parts, "memory"))
        value["functions"] = [self.function(own, name, fields) for own in sheet.members(parts, "functions", "function")]
        return value

    def messages_of(self, parts, key, member, read):
        """The inputs or outputs of a function, of each message one."""
        names, found = Names(in_capitals=False), []
        for element in self.sheet.members(parts, key, member):
            found.append(read(element))
            names.take(self.sheet, element, found[-1]["messageName"])
        return found

    def function(self, element, agent, fields):
        sheet = self.sheet
        parts = sheet.parts(element)
        name = sheet.named(parts, "name", element)
        other = self.declared.functions.get(name, agent)
        if name != "idle" and other != agent:
            own = f"{agent.lower()}_{name}"
            sheet.tell(parts["name"][0], f"{other} has a function {name} too: give {agent} one of its own, as {own}")
        value = sheet.described(parts, {"name": name})
        for key in ("currentState", "nextState"):
            value[key] = sheet.text(parts, key, element)[0]
        condition = sheet.one(parts, "condition")
        if condition is not None:
            value["condition"] = Conditions(sheet, fields, self.declared.units).condition(condition)
        inputs = self.messages_of(parts, "inputs", "input", lambda own: self.input(own, fields))
        outputs = self.messages_of(parts, "outputs", "output", self.output)
        value.update((key, own) for key, own in (("inputs", inputs), ("outputs", outputs)) if own)
        return value

    def message_name(self, parts, element):
        name = self.sheet.named(parts, "messageName", element)
        if name and name not in self.declared.messages:
            near = hint(name, self.declared.messages) or ": declare it under <messages>"
            self.sheet.tell(parts["messageName"][0], f"there is no message {name}{near}")
        return name

    def output(self, element):
        return {"messageName": self.message_name(self.sheet.parts(element), element)}

    def input(self, element, fields):
        sheet = self.sheet
        parts = sheet.parts(element)
        value = {"messageName": self.message_name(parts, element)}
        message = self.declared.message_fields(value["messageName"])
        random = sheet.one(parts, "random")
        if random is not None and sheet.truth(random) is not False:
            value["random"] = sheet.plain(random)
            sheet.tell(random, NO_LOTTERY)
        held = sheet.one(parts, "filter")
        if held is not None:
            value["filter"] = Conditions(sheet, fields, self.declared.units, message).condition(held)
        sort = sheet.one(parts, "sort")
        if sort is not None:
            value["sort"] = self.sort(sort, message)
        return value

    def sort(self, element, message):
        sheet = self.sheet
        parts = sheet.parts(element)
        key, place = sheet.text(parts, "key", element)
        order, order_place = sheet.text(parts, "order", element)
        if order and order not in ("ascend", "descend"):
            sheet.tell(order_place, f"<order> is {shown(order)}: write ascend or descend")
        field = message.get(key)
        if key and field is None:
            near = hint(key, message) or ": name a variable of the message, without m."
            sheet.tell(place, f"the message has no variable {key}{near}")
        elif key and not field.is_single:
            sheet.tell(place, f"the key {key} is no single number: sort by a variable that is one")
        return {"key": key if field is None else field.flat, "order": order}

    def file(self, element):
        """A further model file, which is named as it will be converted."""
        sheet = self.sheet
        parts = sheet.parts(element)
        name, place = sheet.text(parts, "file", element)
        enabled = sheet.one(parts, "enabled")
        truth = True if enabled is None else sheet.truth(enabled)
        if name:
            self.nested.append((place, self.placed(name), truth is not False))
        value = {"file": json_name(self.placed(name))}
        if enabled is not None:
            value["enabled"] = truth
        return value


def json_name(name):
    """What the JSON file of an XML file is named."""
    return (name[:-4] if name.lower().endswith(".xml") else name) + ".json" if name else name
