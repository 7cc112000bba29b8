"""An XMML file: which elements stand where, and their texts. What is wrong with them is listed by line."""
import re

from companion import xml_places
from companion.faults import Refusal
from companion.findings import hint

LEAST, MOST = -2147483648, 2147483647
NAME = re.compile(r"[A-Za-z_][A-Za-z0-9_]{0,99}")
WHOLE = re.compile(r"-?[0-9]{1,20}")

CONDITION = ("lhs", "op", "rhs", "not", "time")

# Of each element that holds elements, those that it holds.
FORM = {
    "xmodel": ("name", "version", "description", "desc", "models", "environment", "agents", "messages"),
    "models": ("model",),
    "model": ("file", "enabled"),
    "environment": ("constants", "functionFiles", "timeUnits", "dataTypes"),
    "constants": ("variable",),
    "functionFiles": ("file",),
    "timeUnits": ("timeUnit",),
    "timeUnit": ("name", "description", "desc", "unit", "period"),
    "dataTypes": ("dataType",),
    "dataType": ("name", "description", "desc", "variables"),
    "variables": ("variable",),
    "variable": ("type", "name", "description", "desc"),
    "agents": ("xagent",),
    "xagent": ("name", "description", "desc", "memory", "functions"),
    "memory": ("variable",),
    "functions": ("function",),
    "function": ("name", "description", "desc", "currentState", "nextState", "condition", "inputs", "outputs"),
    "condition": CONDITION,
    "filter": CONDITION,
    "not": CONDITION,
    "lhs": CONDITION + ("value",),
    "rhs": CONDITION + ("value",),
    "time": ("period", "phase", "duration"),
    "inputs": ("input",),
    "input": ("messageName", "filter", "sort", "random"),
    "sort": ("key", "order"),
    "outputs": ("output",),
    "output": ("messageName",),
    "messages": ("message",),
    "message": ("name", "description", "desc", "variables"),
}

HOLDERS = {}
for _holder, _held in FORM.items():
    for _name in _held:
        HOLDERS.setdefault(_name, []).append(_holder)


def belongs(name):
    """Where an element belongs, in words."""
    holders = [f"<{holder}>" for holder in HOLDERS[name]]
    return " or ".join([", ".join(holders[:-1]), holders[-1]] if len(holders) > 1 else holders)


class Sheet:
    """One file: its root, and where what is wrong with it is listed."""

    def __init__(self, name, root, findings):
        self.name = name
        self.root = root
        self.findings = findings

    def tell(self, element, text):
        self.findings.add(self.name, element.line, text)

    def stray(self, child, holder):
        """Lists an element that does not belong where it stands."""
        if child.name in HOLDERS:
            self.tell(child, f"<{child.name}> stands in <{holder.name}>, and belongs into {belongs(child.name)}: move it")
            return
        near = hint(child.name, FORM[holder.name], "<{}>") or hint(child.name, HOLDERS, "<{}>")
        self.tell(child, f"<{child.name}> is no element of XMML{near or ': leave it out'}")

    def attributes(self, element):
        for name in element.attributes:
            self.tell(element, f"the attribute {name} of <{element.name}> has no place: leave it out")

    def parts(self, element):
        """The elements that an element holds, by their names."""
        if element is not self.root:
            self.attributes(element)
        if element.text:
            self.tell(element, f"<{element.name}> holds the text {shown(element.text)}, and elements belong there: leave it out")
        found = {}
        for child in element.children:
            if child.name in FORM[element.name]:
                found.setdefault(child.name, []).append(child)
            else:
                self.stray(child, element)
        return found

    def one(self, parts, name, holder=None):
        """The part of this name, of which there may be one; where it is missing in a holder that wants it, that is listed."""
        found = parts.get(name)
        if not found:
            if holder is not None:
                self.tell(holder, f"<{holder.name}> has no <{name}>: add it")
            return None
        for child in found[1:]:
            self.tell(child, f"<{name}> stands twice: leave one out")
        return found[0]

    def members(self, parts, name, member):
        """The members of the part of this name."""
        held = self.one(parts, name)
        return [] if held is None else self.parts(held).get(member, [])

    def plain(self, element):
        """The text of an element that holds a text alone."""
        self.attributes(element)
        for child in element.children:
            self.tell(child, f"<{child.name}> stands in <{element.name}>, where a text belongs: move it")
        return element.text

    def text(self, parts, name, holder):
        """The text of a part that is wanted, and the element; an empty text where it is missing."""
        element = self.one(parts, name, holder)
        if element is None:
            return "", None
        text = self.plain(element)
        if not text:
            self.tell(element, f"<{name}> is empty: write what belongs there")
        return text, element

    def named(self, parts, name, holder):
        """The same, which has to be a name."""
        text, element = self.text(parts, name, holder)
        if text and not NAME.fullmatch(text):
            self.tell(element, f"{shown(text)} is no name: take at most 100 letters, digits and _, no digit first, as C does")
        return text

    def whole(self, element, low=LEAST, high=MOST):
        """The whole number of an element, or its text, which is listed then."""
        text = self.plain(element)
        if WHOLE.fullmatch(text) and low <= int(text) <= high:
            return int(text)
        self.tell(element, f"<{element.name}> is {shown(text)}: write a whole number from {low} to {high}")
        return text

    def truth(self, element):
        """Whether an element says true."""
        text = self.plain(element)
        if text not in ("true", "false"):
            self.tell(element, f"<{element.name}> is {shown(text)}: write true or false")
            return text
        return text == "true"

    def described(self, parts, value):
        """The value with its description, which flame passes over."""
        for name in ("description", "desc"):
            for element in parts.get(name, []):
                if self.plain(element):
                    value["description"] = " ".join(element.text.split())
        return value


def shown(text):
    """A text in a line, short."""
    text = " ".join(text.split())
    return repr(text if len(text) <= 60 else text[:57] + "...")


def read(name, findings):
    """An XMML file; refuses what is none."""
    root = xml_places.read(name)
    if root.name != "xmodel":
        more = ": a model of FLAME GPU has another form" if ":" in root.name else ""
        raise Refusal(f"no XMML: {name}: line {root.line}: the root is <{root.name}> in place of <xmodel>{more}")
    sheet = Sheet(name, root, findings)
    version = root.attributes.get("version")
    if version != "2":
        said = "no version" if version is None else f"the version {version}"
        sheet.tell(root, f"<xmodel> has {said}: version 2 of XMML is read, write version=\"2\" where it is that")
    return sheet
