"""Writes a population by a short description in JSON.

{"model": "forest.json", "course": 2025,
 "constants": {"side": 24, "growth": 20},
 "agents": [{"type": "Patch", "count": 576, "memory": {
    "cell": {"number": 0}, "state": {"lot": [[1, 4], [0, 6]]}, "near": {"neighbours": 24}, "seed": {"seed": true}}},
  {"type": "Tower"}]}

"model" is taken from the folder of the description. What is not named is 0. "course" is the number from which all draws come,
by SplitMix64, one after another in the order of agents and of their memory here; another number gives another population. Values:
  7, [1, 2, 3]            the same for all; of an array all its numbers, or one for each
  {"number": F}           F, F + 1, F + 2, ..: a number of its own for each; with "step": S, F, F + S, ..
  {"cycle": [5, 24]}      the values in turn
  {"parts": [[1, 6], [0, 594]]}   the first 6 have 1, the next 594 have 0
  {"column": C}, {"row": C}       where it stands in a grid of C columns, from 0
  {"neighbours": C}       an array of 4: the numbers of the cells above, left, right and below in a grid of C columns; -1 beyond
                          its edge, or with "around": true those of the other edge; with 8 places the corners too
  {"draw": [A, B]}        a number from A to B, each as likely as the others
  {"lot": [[V, W], ..]}   the value V with a chance of W in the sum of all W
  {"seed": true}          a seed: any number of int
"""
import bisect
import itertools
import json
import os
import sys

from companion import files, json_places, models
from companion.choices import type_of
from companion.faults import Refusal
from companion.mixing import Draws

HELP = "a population by a short description in JSON"

LEAST, GREATEST = -(2**31), 2**31 - 1
MOST_AGENTS = 10_000_000


def add_arguments(parser):
    parser.add_argument("description", metavar="POP.json")
    parser.add_argument("-o", dest="output", metavar="start.json", default="-", help="write to this file")
    parser.add_argument("--course", metavar="NUMBER", type=int, help="in place of the course of the description")


def wanted(where, what):
    raise Refusal(f"{where}: wanted {what}")


def int_of(value, where):
    """A whole number of int."""
    if type(value) is not int or not LEAST <= value <= GREATEST:
        wanted(where, "a whole number from -2147483648 to 2147483647")
    return value


def count_of(value, where, least=1):
    if type(value) is not int or not least <= value <= MOST_AGENTS:
        wanted(where, f"a whole number from {least} to {MOST_AGENTS}")
    return value


def pairs_of(value, where):
    """A list of pairs of a value and how many."""
    if not isinstance(value, list) or not value:
        wanted(where, "a list of pairs [VALUE, HOW MANY]")
    pairs = []
    for place, pair in enumerate(value):
        if not isinstance(pair, list) or len(pair) != 2:
            wanted(f"{where}[{place}]", "a pair [VALUE, HOW MANY]")
        pairs.append((int_of(pair[0], f"{where}[{place}]"), count_of(pair[1], f"{where}[{place}]", 0)))
    if sum(many for _, many in pairs) == 0:
        wanted(where, "at least one that is not 0")
    return pairs


def known(value, keys, where):
    """Refuses keys that are not known."""
    for key in value:
        if key not in keys:
            wanted(f"{where}: {key}", f"one of {', '.join(keys)}")


# ---- what gives a value: each takes the number of the agent among those of its description, and the draws


def numbered(value, width, count, where):
    known(value, ("number", "step"), where)
    first, step = int_of(value["number"], where), int_of(value.get("step", 1), where)
    last = first + step * (count - 1)
    if not LEAST <= last <= GREATEST:
        wanted(where, f"numbers of int, and the last agent has {last}")
    return lambda number, draws: first + step * number


def cycled(value, width, count, where):
    known(value, ("cycle",), where)
    own = value["cycle"]
    if not isinstance(own, list) or not own:
        wanted(where, "a list of values")
    own = [int_of(each, where) for each in own]
    return lambda number, draws: own[number % len(own)]


def parted(value, width, count, where):
    known(value, ("parts",), where)
    pairs = pairs_of(value["parts"], where)
    if sum(many for _, many in pairs) != count:
        wanted(where, f"parts that make {count} together")
    ends = list(itertools.accumulate(many for _, many in pairs))
    return lambda number, draws: pairs[bisect.bisect_right(ends, number)][0]


def in_grid(value, width, count, where):
    known(value, ("column", "row"), where)
    if "column" in value:
        columns = count_of(value["column"], where)
        return lambda number, draws: number % columns
    columns = count_of(value["row"], where)
    return lambda number, draws: number // columns


def drawn(value, width, count, where):
    known(value, ("draw",), where)
    own = value["draw"]
    if not isinstance(own, list) or len(own) != 2:
        wanted(where, "[LEAST, GREATEST]")
    low, high = int_of(own[0], where), int_of(own[1], where)
    if low > high:
        wanted(where, "the least number first")
    return lambda number, draws: low + draws.below(high - low + 1)


def by_lot(value, width, count, where):
    known(value, ("lot",), where)
    pairs = pairs_of(value["lot"], where)
    ends = list(itertools.accumulate(many for _, many in pairs))
    return lambda number, draws: pairs[bisect.bisect_right(ends, draws.below(ends[-1]))][0]


def seeded(value, width, count, where):
    known(value, ("seed",), where)
    if value["seed"] is not True:
        wanted(where, "true")
    return lambda number, draws: draws.seed()


def neighbours(value, width, count, where):
    """The cells around one in a grid, row by row."""
    known(value, ("neighbours", "around"), where)
    columns = count_of(value["neighbours"], where)
    if count % columns:
        wanted(where, f"{count} cells in whole rows of {columns}")
    rows = count // columns
    steps = [(-1, 0), (0, -1), (0, 1), (1, 0)]
    if width == 8:
        steps = [(down, right) for down in (-1, 0, 1) for right in (-1, 0, 1) if (down, right) != (0, 0)]
    elif width != 4:
        wanted(where, "an array of 4 or 8 numbers")
    around = value.get("around", False)
    if not isinstance(around, bool):
        wanted(where, "around to be true or false")

    def cell(row, column):
        if around:
            return row % rows * columns + column % columns
        return row * columns + column if 0 <= row < rows and 0 <= column < columns else -1

    return lambda number, draws: [cell(number // columns + down, number % columns + right) for down, right in steps]


WAYS = {
    "number": numbered,
    "cycle": cycled,
    "parts": parted,
    "column": in_grid,
    "row": in_grid,
    "draw": drawn,
    "lot": by_lot,
    "seed": seeded,
    "neighbours": neighbours,
}


def way_of(variable, value, count, where):
    """What gives a variable its value."""
    if isinstance(value, dict):
        name = next((key for key in WAYS if key in value), None)
        if name is None:
            wanted(where, f"a number, a list, or one of {', '.join(WAYS)}")
        give = WAYS[name](value, variable.width, count, where)
        if variable.length is None:
            if name == "neighbours":
                wanted(where, "an array of 4 or 8 numbers")
            return give
        if name == "neighbours":
            return give
        # Each of an array's numbers by itself.
        return lambda number, draws: [give(number, draws) for _ in range(variable.length)]
    if isinstance(value, list):
        if variable.length != len(value):
            wanted(where, "a number" if variable.length is None else f"{variable.length} numbers")
        own = [int_of(each, where) for each in value]
        return lambda number, draws: own
    fixed = int_of(value, where)
    if variable.length is None:
        return lambda number, draws: fixed
    return lambda number, draws: [fixed] * variable.length


class Group:
    """Agents of a type that are described together."""

    def __init__(self, model, value, place):
        where = f"agents[{place}]"
        if not isinstance(value, dict):
            wanted(where, "an object with type, count and memory")
        known(value, ("type", "count", "memory"), where)
        if not isinstance(value.get("type"), str):
            wanted(where, "a type")
        self.agent = type_of(model, value["type"])
        self.count = count_of(value.get("count", 1), f"{where}.count", 0)
        memory = value.get("memory", {})
        if not isinstance(memory, dict):
            wanted(f"{where}.memory", "an object")
        self.ways = []
        for name, own in memory.items():
            variable = self.agent.row.variable(name)
            if variable is None:
                raise Refusal(f"{where}.memory: {self.agent.name} has no variable {name}")
            if self.count:
                self.ways.append((name, way_of(variable, own, self.count, f"{where}.memory.{name}")))

    def memories(self, draws):
        for number in range(self.count):
            yield {name: give(number, draws) for name, give in self.ways}


class Description:
    """A population that is described."""

    def __init__(self, name, value, course=None):
        if not isinstance(value, dict):
            wanted(name, "an object")
        known(value, ("model", "course", "itno", "constants", "agents"), name)
        if not isinstance(value.get("model"), str):
            wanted(f"{name}: model", "the name of a model file")
        self.model_name = os.path.join(os.path.dirname(name), value["model"]) if name != "-" else value["model"]
        self.model = read_model(self.model_name)
        self.course = value.get("course", 0) if course is None else course
        if type(self.course) is not int or self.course < 0:
            wanted(f"{name}: course", "a whole number from 0")
        self.iteration = value.get("itno", 0)
        if type(self.iteration) is not int or not 0 <= self.iteration <= GREATEST:
            wanted(f"{name}: itno", "a whole number from 0 to 2147483647")
        self.constants = value.get("constants", {})
        self.check_constants(name)
        groups = value.get("agents", [])
        if not isinstance(groups, list):
            wanted(f"{name}: agents", "a list")
        self.groups = [Group(self.model, own, place) for place, own in enumerate(groups)]

    def check_constants(self, name):
        if not isinstance(self.constants, dict):
            wanted(f"{name}: constants", "an object")
        for own, number in self.constants.items():
            if own not in self.model.constants:
                raise Refusal(f"{name}: constants: the model has no constant {own}")
            int_of(number, f"{name}: constants.{own}")

    def write(self, file):
        """Writes the population, in format 1, agent by agent."""
        draws = Draws(self.course)
        head = {"itno": self.iteration, "environment": self.constants}
        file.write('{"states": ' + json.dumps(head)[:-1] + ', "agents": [')
        comma = ""
        for group in self.groups:
            for memory in group.memories(draws):
                file.write(comma + json.dumps({"name": group.agent.name, "memory": memory}))
                comma = ", "
        file.write("]}}\n")


def read_model(name):
    """The model, whose further files are named from the folder in which flame is started: that of the model."""
    folder, own = os.path.split(name)
    here = os.getcwd()
    try:
        if folder:
            os.chdir(folder)
        return models.read(own)
    except FileNotFoundError:
        raise Refusal(f"missing: {name}") from None
    finally:
        os.chdir(here)


def read_description(name, course=None):
    """The description of this file."""
    text = files.read_text(name)
    return Description(name, json_places.read(text, name).value, course)


def run(arguments):
    described = read_description(arguments.description, arguments.course)
    with files.written(arguments.output, [arguments.description, described.model_name]) as file:
        described.write(file)
    if arguments.output != "-" and sys.stderr.isatty():
        print(f"{sum(group.count for group in described.groups)} agents", file=sys.stderr)
