"""What a table counts: agents of a type, and numbers of their variables."""
import re
from fractions import Fraction

from companion.faults import Refusal, UsageFault

NAME = r"[A-Za-z_][A-Za-z0-9_]*"
NUMBERED = rf"({NAME})(?:\[([0-9]+)\])?"
CHOICE = re.compile(rf"({NAME})(?:\[((?:{NAME}(?:\[[0-9]+\])?(?:=|!=|<=|>=|<|>)-?[0-9]+,?)+)\])?(?:\.{NUMBERED})?")
CONDITION = re.compile(rf"{NUMBERED}(=|!=|<=|>=|<|>)(-?[0-9]+)")
WHERE = re.compile(rf"({NAME})\.({NAME}(?:\[[0-9]+\])?(?:=|!=|<=|>=|<|>)-?[0-9]+)")

COMPARISONS = {
    "=": int.__eq__,
    "!=": int.__ne__,
    "<": int.__lt__,
    "<=": int.__le__,
    ">": int.__gt__,
    ">=": int.__ge__,
}

# How many values a variable may have whose agents are counted by value.
MOST_VALUES = 1000


def type_of(model, name):
    """The agent type of this name; refuses one that the model does not have."""
    agent = model.agent(name)
    if agent is None:
        known = ", ".join(own.name for own in model.agents) or "none"
        raise Refusal(f"the model has no agent type {name}: its types are {known}")
    return agent


def place_of(agent, name, index):
    """The place of a variable's number in the rows of a type; refuses what the type does not have."""
    variable = agent.row.variable(name)
    if variable is None:
        known = ", ".join(own.name for own in agent.row.variables) or "none"
        raise Refusal(f"{agent.name} has no variable {name}: its variables are {known}")
    if variable.length is None and index is not None:
        raise Refusal(f"{agent.name}.{name} is no array")
    if variable.length is not None and index is None:
        raise Refusal(f"{agent.name}.{name} is an array: take one of {name}[0] to {name}[{variable.length - 1}]")
    if index is not None and index >= variable.length:
        raise Refusal(f"{agent.name}.{name} has no place {index}: its length is {variable.length}")
    return agent.row.place(name, index)


class Condition:
    """A comparison of a number of an agent's memory."""

    def __init__(self, agent, text):
        found = CONDITION.fullmatch(text)
        name, index, sign, number = found.groups()
        self.place = place_of(agent, name, None if index is None else int(index))
        self.holds = COMPARISONS[sign]
        self.number = int(number)

    def admits(self, row):
        return self.holds(row[self.place], self.number)


def wheres_of(model, words):
    """The conditions of `--where`, by the names of types."""
    conditions = {}
    for word in words:
        found = WHERE.fullmatch(word)
        if not found:
            raise UsageFault(f"--where {word}: wanted TYPE.VAR=N, or another of = != < <= > >=")
        agent = type_of(model, found.group(1))
        conditions.setdefault(agent.name, []).append(Condition(agent, found.group(2)))
    return conditions


class Choice:
    """What is counted, summed up or compared, of the agents of a type that conditions admit."""

    def __init__(self, model, kind, text, wheres):
        found = CHOICE.fullmatch(text)
        if not found or (kind != "count" and found.group(3) is None):
            wanted = "TYPE or TYPE.VAR" if kind == "count" else "TYPE.VAR"
            raise UsageFault(f"--{kind} {text}: wanted {wanted}, with conditions as TYPE[VAR=N,VAR>N].VAR")
        name, conditions, variable, index = found.groups()
        self.kind = kind
        self.text = text
        self.named = None
        self.agent = type_of(model, name)
        self.conditions = list(wheres.get(name, []))
        if conditions:
            self.conditions += [Condition(self.agent, own) for own in re.split(",", conditions) if own]
        self.place = None
        if variable is not None:
            self.place = place_of(self.agent, variable, None if index is None else int(index))

    def by_value(self):
        return self.kind == "count" and self.place is not None

    def start(self):
        return {} if self.by_value() else None

    def heading(self, value=None):
        """The name of its column, or of that of this value."""
        if self.by_value():
            return f"{self.named or self.text}={value}"
        if self.named:
            return self.named
        return self.text if self.kind == "count" else f"{self.kind}({self.text})"


class Tally:
    """What a choice comes to in one file."""

    def __init__(self, choice):
        self.choice = choice
        self.count = 0
        self.sum = 0
        self.least = None
        self.greatest = None
        self.values = {}

    def add(self, row):
        choice = self.choice
        for condition in choice.conditions:
            if not condition.admits(row):
                return
        self.count += 1
        if choice.place is None:
            return
        value = row[choice.place]
        kind = choice.kind
        if kind == "count":
            self.values[value] = self.values.get(value, 0) + 1
            if len(self.values) > MOST_VALUES:
                raise Refusal(f"--count {choice.text}: more than {MOST_VALUES} values")
        elif kind in ("sum", "mean"):
            self.sum += value
        elif kind == "min":
            self.least = value if self.least is None or value < self.least else self.least
        else:
            self.greatest = value if self.greatest is None or value > self.greatest else self.greatest

    def cell(self, value=None):
        """Its number, as it is printed; of nobody there is no mean, least or greatest number."""
        kind = self.choice.kind
        if self.choice.by_value():
            return str(self.values.get(value, 0))
        if kind == "count":
            return str(self.count)
        if kind == "sum":
            return str(self.sum)
        if kind == "mean":
            return "" if self.count == 0 else decimal(Fraction(self.sum, self.count))
        own = self.least if kind == "min" else self.greatest
        return "" if own is None else str(own)


def decimal(fraction):
    """A fraction with six digits behind the point at most, rounded from the exact quotient, halves to the even digit."""
    scaled = round(fraction * 10**6)
    sign = "-" if scaled < 0 else ""
    digits = f"{abs(scaled):07d}"
    left, right = digits[:-6], digits[-6:].rstrip("0")
    return sign + left + ("." + right if right else "")
