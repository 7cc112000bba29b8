"""Grids: agents by two coordinates, coloured by a third number."""
import operator
import re

from companion import states
from companion.choices import NAME, place_of, type_of
from companion.faults import Refusal, UsageFault

COORDINATE = re.compile(rf"({NAME})(?:\[([0-9]+)\])?(?:([%/])([0-9]+|{NAME}))?")
GRID = re.compile(r"([A-Za-z_][A-Za-z0-9_]*)\.([^,]+),([^,]+)(?:,([^,]+))?")


class Coordinate:
    """A variable of a type, or what is left of it or of its quotient by a number or a constant."""

    def __init__(self, agent, text):
        self.text = text.strip()
        found = COORDINATE.fullmatch(self.text)
        if not found:
            raise UsageFault(f"--grid: {self.text}: wanted VAR, VAR%N or VAR/N, N a number or a constant of the model")
        name, index, self.sign, self.by = found.groups()
        self.place = place_of(agent, name, None if index is None else int(index))

    def divisor(self, constants):
        if self.sign is None:
            return 1
        if self.by.isdigit():
            own = int(self.by)
        elif self.by in constants:
            own = constants[self.by]
        else:
            raise Refusal(f"the model has no constant {self.by}")
        if own <= 0:
            raise Refusal(f"{self.by} is not above 0")
        return own

    def numbers(self, taken, constants):
        """What it makes of the numbers of its variable."""
        by = self.divisor(constants)
        if self.sign is None:
            return taken
        if self.sign == "%":
            return [number % by for number in taken]
        return [number // by for number in taken]


class Grid:
    """A layer of a picture: the agents of a type, or how many there are where no colour is told."""

    def __init__(self, model, text):
        found = GRID.fullmatch(text)
        if not found:
            raise UsageFault(f"--grid {text}: wanted TYPE.X,Y or TYPE.X,Y,COLOUR")
        self.text = text
        name, x, y, colour = found.groups()
        self.agent = type_of(model, name)
        self.x = Coordinate(self.agent, x)
        self.y = Coordinate(self.agent, y)
        self.colour = None if colour is None else Coordinate(self.agent, colour)
        self.name = f"agents of {name}" if colour is None else f"{name}.{colour.strip()}"
        self.parts = [part for part in (self.x, self.y, self.colour) if part is not None]


class Cells(states.Visitor):
    """The cells of some layers. Coordinates may ask for constants, which may stand behind the agents: so the numbers of the
    variables are kept until all of a file is read.
    """

    def __init__(self, grids):
        self.grids = grids
        self.taken = [[] for _ in grids]
        self.takers = {}
        for grid, taken in zip(grids, self.taken):
            take = operator.itemgetter(*(part.place for part in grid.parts))
            self.takers.setdefault(grid.agent.name, []).append((taken, take))

    def agent(self, agent, row):
        for taken, take in self.takers.get(agent.name, ()):
            taken.append(take(row))

    def layers(self, constants):
        """The cells of each layer: a list of x, y and colour."""
        return [cells_of(grid, taken, constants) for grid, taken in zip(self.grids, self.taken)]


def cells_of(grid, taken, constants):
    """The cells of a layer, from the numbers that were taken of each agent."""
    columns = zip(*taken) if taken else [()] * len(grid.parts)
    columns = [part.numbers(numbers, constants) for part, numbers in zip(grid.parts, columns)]
    return counted(zip(*columns)) if grid.colour is None else list(zip(*columns))


def counted(places):
    """A cell for each place, with how many agents stand there."""
    found = {}
    for place in places:
        found[place] = found.get(place, 0) + 1
    return [(x, y, count) for (x, y), count in sorted(found.items())]


def read(name, model, grids):
    """The number of the iteration, and the cells of each layer."""
    cells = Cells(grids)
    said = states.read(name, model, cells)
    return said.iteration, cells.layers(said.constants)
