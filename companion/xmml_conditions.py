"""Conditions and filters of XMML as the JSON form has them."""
import re

from companion.findings import hint
from companion.xmml_sheet import LEAST, MOST, WHOLE, shown

COMPARISONS = ("EQ", "NEQ", "LT", "GT", "LEQ", "GEQ")
JOINTS = ("AND", "OR")
READ = re.compile(r"([am])\.([A-Za-z_][A-Za-z0-9_]*(?:\.[A-Za-z_][A-Za-z0-9_]*)*)")

# What stands in the JSON where a condition cannot be told; flame refuses it.
UNREADABLE = {"op": "?"}

NO_ARITHMETIC = "a side is a number, a.x or m.x: keep what it comes to in a memory variable that an earlier function sets"


class Conditions:
    """Reads the conditions of a function: with the fields of its agent, the time units, and in a filter those of the message."""

    def __init__(self, sheet, agent, units, message=None):
        self.sheet = sheet
        self.fields = {"a": agent, "m": message}
        self.units = units

    def condition(self, element):
        return self.inner(element, self.sheet.parts(element))

    def inner(self, element, parts):
        """What an element says by its parts: a negation, a time, or a comparison or joint."""
        kinds = [kind for kind in ("not", "time", "op") if kind in parts]
        if len(kinds) > 1 or (kinds and kinds != ["op"] and ("lhs" in parts or "rhs" in parts)):
            self.sheet.tell(element, f"<{element.name}> holds several conditions: join them by <lhs>, <op> and <rhs>")
            self.single(element, parts)
            return UNREADABLE
        return self.single(element, parts)

    def single(self, element, parts):
        """The first condition of an element."""
        if "not" in parts:
            return {"not": self.condition(self.sheet.one(parts, "not"))}
        if "time" in parts:
            return {"time": self.time(self.sheet.one(parts, "time"))}
        return self.compared(element, parts)

    def compared(self, element, parts):
        sign, place = self.sheet.text(parts, "op", element)
        left, right = self.sheet.one(parts, "lhs", element), self.sheet.one(parts, "rhs", element)
        if place is not None and sign and sign not in COMPARISONS + JOINTS:
            self.sheet.tell(place, f"<op> is {shown(sign)}: {self.other_sign(sign)}")
        read = self.joined if sign in JOINTS else self.side
        value = {"op": sign}
        if left is not None:
            value["lhs"] = read(left)
        if right is not None:
            value["rhs"] = read(right)
        return value

    @staticmethod
    def other_sign(sign):
        if sign == "IN":
            return "there is no such test: go over the messages with an if in C, or write EQ with OR"
        return f"take one of {', '.join(COMPARISONS + JOINTS)}"

    def joined(self, element):
        """A side of AND or OR, which is a condition."""
        parts = self.sheet.parts(element)
        if "value" in parts:
            self.sheet.tell(parts["value"][0], "a side of AND and OR is a condition: write one in place of <value>")
            return {"value": self.sheet.plain(parts["value"][0])}
        return self.inner(element, parts)

    def side(self, element):
        """A side of a comparison, which is a value."""
        parts = self.sheet.parts(element)
        if "value" not in parts and parts:
            self.sheet.tell(element, f"<{element.name}> holds a condition, and a comparison wants a <value>: {NO_ARITHMETIC}")
            return self.inner(element, parts)
        value = self.sheet.one(parts, "value", element)
        if len(parts) > 1:
            self.sheet.tell(element, f"<{element.name}> holds more than a <value>: {NO_ARITHMETIC}")
            return {}
        return {} if value is None else {"value": self.operand(value)}

    def operand(self, element):
        """A number, or the name of a variable."""
        text = self.sheet.plain(element)
        if WHOLE.fullmatch(text):
            if not LEAST <= int(text) <= MOST:
                self.sheet.tell(element, f"{text} is outside {LEAST} to {MOST}: count in larger units")
                return text
            return int(text)
        found = READ.fullmatch(text)
        if found:
            return self.variable(element, *found.groups())
        self.sheet.tell(element, f"<{element.name}> is {shown(text)}: {self.other_operand(text)}")
        return text

    @staticmethod
    def other_operand(text):
        if re.fullmatch(r"[-+]?[0-9]*\.[0-9]+([eE][-+]?[0-9]+)?|[-+]?[0-9]+\.?[0-9]*[eE.][-+]?[0-9]*", text):
            return "all numbers are whole, so count in small units, as thousandths"
        if re.fullmatch(r"[A-Za-z_][A-Za-z0-9_]*", text):
            return "write a. before a variable of the agent; of a constant, keep a copy in a memory variable of another name"
        if re.fullmatch(r"[am]->.*", text):
            return f"write {text.replace('->', '.', 1)}"
        return NO_ARITHMETIC

    def variable(self, element, whose, name):
        """A variable that is read, with the flat name of a field of a data type."""
        fields = self.fields[whose]
        text = f"{whose}.{name}"
        if fields is None:
            self.sheet.tell(element, f"{text} reads a message, which a filter alone can: test it in C, within the message loop")
            return text
        field = fields.get(name)
        if field is None:
            what = "the agent" if whose == "a" else "the message"
            near = hint(name, fields, whose + ".{}") or ": declare it, or mend the name"
            self.sheet.tell(element, f"{what} has no variable {name}{near}")
            return text
        if not field.is_single:
            self.sheet.tell(element, f"{text} is no single number: keep the one that is meant in a variable of its own")
        return f"{whose}.{field.flat}"

    def time(self, element):
        parts = self.sheet.parts(element)
        if self.fields["m"] is not None:
            self.sheet.tell(element, "a filter has no time: put it into the condition of the function, or test it in C")
        period = self.sheet.named(parts, "period", element)
        if period and period not in self.units:
            near = hint(period, self.units) or ": declare it under <timeUnits>"
            self.sheet.tell(parts["period"][0], f"there is no time unit {period}{near}")
        value = {"period": period}
        phase, duration = self.sheet.one(parts, "phase"), self.sheet.one(parts, "duration")
        if phase is not None:
            value["phase"] = self.phase(phase)
        if duration is not None:
            value["duration"] = self.sheet.whole(duration, 1)
        return value

    def phase(self, element):
        if element.text.startswith("m."):
            self.sheet.tell(element, "a phase is a number or a variable of the agent: keep it in the memory")
            return self.sheet.plain(element)
        return self.operand(element)
