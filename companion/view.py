"""Writes a run as one page for a browser: its agents on a grid and its numbers, with a slider over the iterations.

Each OUT is a file, or what the names of a run's files begin with. --grid TYPE.X,Y,COLOUR shows the agents of a type at two
coordinates, coloured by a third number; without COLOUR by how many agents stand there. A coordinate is VAR, VAR%N or VAR/N, N a
number or a constant. Several --grid are layers, the last on top. Lines and numbers are those of the choices, as in table; without
a choice those of the agents of each type and the messages of each board. The page needs nothing else and asks nothing of the net.
Limits: a grid of 4000000 cells, numbers of 32 bits, and 500000000 characters of packed cells.
"""
import array
import base64
import html
import json
import os
import re
import sys
import zlib

from companion import grids, models, states, svg
from companion.colours import Values, colours_of, legend_of, most_of, palette_of
from companion.faults import Refusal, UsageFault
from companion.files import outputs_named, read_text, refuse_input, written
from companion.table import add_choices, arranged, choices_of, rows_by_iteration, visitor_of

HELP = "a run as one page for a browser, with a slider over the iterations"

MOST_CELLS = 4_000_000
MOST_CHARACTERS = 500_000_000

FOLDER = os.path.dirname(os.path.realpath(__file__))


def add_arguments(parser):
    parser.add_argument("model", metavar="MODEL")
    parser.add_argument("outputs", metavar="OUT", nargs="+")
    parser.add_argument("-o", dest="output", metavar="FILE.html", required=True)
    parser.add_argument("--grid", metavar="TYPE.X,Y,COLOUR", action="append", default=[], help="a layer of the grid")
    parser.add_argument("--down", action="store_true", help="of a grid: Y grows downwards, as rows are counted")
    parser.add_argument("--colours", metavar="#RRGGBB,..", help="the colours, in the order of the values and of the lines")
    add_choices(parser)
    parser.add_argument("--title", metavar="TEXT", help="what stands above; the name of the model without it")


class Several(states.Visitor):
    """Visitors that are told the same."""

    def __init__(self, visitors):
        self.visitors = visitors

    def agent(self, agent, row):
        for visitor in self.visitors:
            visitor.agent(agent, row)

    def messages(self, message, count):
        for visitor in self.visitors:
            visitor.messages(message, count)


def packed_column(numbers):
    """How many bytes each number takes, and the bytes of all, the lowest byte first, filled up to a multiple of four."""
    try:
        column = array.array("h", numbers)
    except OverflowError:
        column = array.array("i", numbers)
    if sys.byteorder == "big":
        column.byteswap()
    packed = column.tobytes()
    return column.itemsize, packed + bytes(-len(packed) % 4)


def packed_frame(layered):
    """The cells of an iteration as text: of each layer how many there are and how many bytes a number of x, y and colour takes,
    each in four bytes; then these columns, layer by layer. All is compressed by zlib and written in base64.
    """
    heads, bodies = array.array("i"), []
    for cells in layered:
        columns = [packed_column(numbers) for numbers in (zip(*cells) if cells else ((), (), ()))]
        heads.extend([len(cells), *(size for size, _ in columns)])
        bodies += [body for _, body in columns]
    if sys.byteorder == "big":
        heads.byteswap()
    return base64.b64encode(zlib.compress(heads.tobytes() + b"".join(bodies), 6)).decode("ascii")


class Frames:
    """The cells of the iterations, each written as it comes. What is kept is where they lie and which numbers they have."""

    def __init__(self, layers, palette, file):
        self.layers = layers
        self.palette = palette
        self.file = file
        self.xs = Values(0)
        self.ys = Values(0)
        self.values = [Values(most_of(palette)) for _ in layers]
        self.most = 0
        self.written = 0

    def add(self, name, iteration, layered):
        """Writes the cells of a file in an element of their own."""
        for grid, cells, values in zip(self.layers, layered, self.values):
            if cells:
                for numbers, kept in zip(zip(*cells), (self.xs, self.ys, values)):
                    refuse_wide(name, grid, numbers)
                    kept.add(numbers)
        self.refuse_large()
        self.most = max(self.most, sum(len(cells) for cells in layered))
        text = packed_frame(layered)
        self.written += len(text)
        if self.written > MOST_CHARACTERS:
            raise Refusal(f"the page has more than {MOST_CHARACTERS} characters of packed cells: name fewer files")
        self.file.write(f'<script type="application/octet-stream" id="frame-{iteration}">{text}</script>\n')

    def refuse_large(self):
        if self.xs.least is None:
            return
        columns, rows = self.xs.greatest - self.xs.least + 1, self.ys.greatest - self.ys.least + 1
        if columns * rows > MOST_CELLS:
            raise Refusal(f"the grid has {columns} columns and {rows} rows: more than {MOST_CELLS} cells")

    def told(self, is_down):
        """What the page has to know of its grid."""
        if self.xs.least is None:
            raise Refusal("no file has an agent of the type: " + ", ".join(grid.agent.name for grid in self.layers))
        colours = colours_of(self.layers, self.values, self.palette)
        return {
            "left": self.xs.least,
            "right": self.xs.greatest,
            "low": self.ys.least,
            "high": self.ys.greatest,
            "isDown": is_down,
            "most": self.most,
            "stops": svg.RAMP,
            "layers": [layer_told(grid, own) for grid, own in zip(self.layers, colours)],
            "legend": legend_of(self.layers, colours),
        }


def layer_told(grid, colours):
    """What the page has to know of a layer."""
    is_each = isinstance(colours, dict)
    return {
        "agent": grid.agent.name,
        "x": grid.x.text,
        "y": grid.y.text,
        "colour": grid.colour and grid.colour.text,
        "each": list(colours.items()) if is_each else None,
        "ramp": None if is_each else colours,
    }


def refuse_wide(name, grid, numbers):
    """Refuses numbers that do not fit in 32 bits."""
    for number in (min(numbers), max(numbers)):
        if not -(2**31) <= number < 2**31:
            raise Refusal(f"beyond 32 bits: {name}: --grid {grid.text} has the number {number}")


def read_run(model, names, choices, frames):
    """Writes the cells of all files, and gives the headings and the rows of the table."""

    def read(name):
        visitor = visitor_of(model, choices)
        if not frames.layers:
            return states.read(name, model, visitor).iteration, visitor
        cells = grids.Cells(frames.layers)
        said = states.read(name, model, Several([visitor, cells]))
        frames.add(name, said.iteration, cells.layers(said.constants))
        return said.iteration, visitor

    return arranged(model, choices, rows_by_iteration(names, read))


def data_of(headings, rows, frames, is_down):
    """What the page has to know beside the cells, as JSON that may stand in an element of a page."""
    data = {
        "word": headings[0],
        "iterations": [int(row[0]) for row in rows],
        "columns": [{"name": name, "cells": [row[place] for row in rows]} for place, name in enumerate(headings) if place],
        "colours": frames.palette,
        "dashes": svg.DASHES,
        "grid": frames.told(is_down) if frames.layers else None,
    }
    return json.dumps(data, separators=(",", ":")).replace("<", "\\u003c")


def part_of_page(name):
    return read_text(os.path.join(FOLDER, name))


def write_page(file, title, write_run):
    """Writes the page from front to back."""
    for part in re.split(r"({{[a-z]+}})", part_of_page("page.html")):
        if part == "{{title}}":
            file.write(html.escape(title))
        elif part == "{{style}}":
            file.write(part_of_page("page.css"))
        elif part == "{{data}}":
            write_run()
        elif part == "{{script}}":
            file.write(part_of_page("page.js"))
        else:
            file.write(part)


def title_of(arguments):
    if arguments.title is not None:
        return arguments.title
    return "run" if arguments.model == "-" else os.path.splitext(os.path.basename(arguments.model))[0]


def run(arguments):
    if arguments.down and not arguments.grid:
        raise UsageFault("--down belongs to --grid")
    palette = palette_of(arguments.colours)
    names = outputs_named(arguments.outputs)
    inputs = [arguments.model, *names]
    refuse_input(arguments.output, inputs)
    model = models.read(arguments.model)
    layers = [grids.Grid(model, text) for text in arguments.grid]
    choices = choices_of(model, arguments.choices, arguments.where)

    with written(arguments.output, inputs) as file:

        def write_run():
            """The cells, file by file; then what is known once all files are read."""
            frames = Frames(layers, palette, file)
            headings, rows = read_run(model, names, choices, frames)
            headings[0] = arguments.first
            data = data_of(headings, rows, frames, arguments.down)
            file.write(f'<script type="application/json" id="data">{data}</script>\n')

        write_page(file, title_of(arguments), write_run)
