"""Draws lines of a table, or a grid of one file, as SVG.

Lines: flamekit plot TABLE.csv -o FILE.svg draws the columns of a table over its first column; an empty cell is a gap.
Grid: flamekit plot --grid TYPE.X,Y,COLOUR MODEL FILE -o FILE.svg draws the agents of a type in a file at two coordinates,
coloured by a third number; without COLOUR by how many agents stand there. A coordinate is VAR, VAR%N or VAR/N, N a number or a
constant. Several --grid are layers, the last on top.
"""
import csv
import io

from companion import grids, models, svg
from companion.colours import Values, colour_in, colours_of, legend_of, most_of, palette_of
from companion.faults import Refusal, UsageFault
from companion.files import read_text, refuse_input, written

HELP = "lines of a table, or a grid of one file, as SVG"


def add_arguments(parser):
    parser.add_argument("inputs", metavar="TABLE.csv | MODEL FILE", nargs="+")
    parser.add_argument("-o", dest="output", metavar="FILE.svg", required=True)
    parser.add_argument("--column", metavar="NAME", action="append", help="draw this column; all that hold numbers without it")
    parser.add_argument("--grid", metavar="TYPE.X,Y,COLOUR", action="append")
    parser.add_argument("--down", action="store_true", help="of a grid: Y grows downwards, as rows are counted")
    parser.add_argument("--colours", metavar="#RRGGBB,..", help="the colours, in the order of the lines or of the values")
    parser.add_argument("--title", metavar="TEXT", default="")
    parser.add_argument("--x", metavar="TEXT", help="what stands at the axis below, with its unit")
    parser.add_argument("--y", metavar="TEXT", default="", help="what stands at the axis on the left, with its unit")
    parser.add_argument("--heights", metavar="LOW:HIGH", help="from where to where the axis on the left goes")


def number_of(text):
    """The number of a cell, or none where it is empty."""
    if text.strip() in ("", "-"):
        return None
    value = float(text)
    if value != value or value in (float("inf"), float("-inf")):
        raise ValueError(text)
    return value


def read_table(name):
    """The headings and the rows of a table."""
    rows = list(csv.reader(io.StringIO(read_text(name), newline="")))
    rows = [row for row in rows if row]
    if len(rows) < 2:
        raise Refusal(f"no table: {name} has no rows below its headings")
    headings = rows[0]
    for place, row in enumerate(rows[1:], 2):
        if len(row) != len(headings):
            raise Refusal(f"no table: {name}: row {place} has {len(row)} cells in place of {len(headings)}")
    return headings, rows[1:]


def column_of(name, heading, rows, place):
    """The numbers of a column."""
    found = []
    for count, row in enumerate(rows, 2):
        try:
            found.append(number_of(row[place]))
        except ValueError:
            raise Refusal(f"no number: {name}: row {count}, column {heading}: {row[place]}") from None
    return found


def holds_numbers(rows, place):
    try:
        return any(number_of(row[place]) is not None for row in rows)
    except ValueError:
        return False


def lines_of(name, wanted):
    """What stands over the first column, and the lines."""
    headings, rows = read_table(name)
    for own in wanted or []:
        if own not in headings:
            raise Refusal(f"{name} has no column {own}: its columns are {', '.join(headings)}")
    xs = column_of(name, headings[0], rows, 0)
    if None in xs:
        raise Refusal(f"no number: {name}: row {xs.index(None) + 2}, column {headings[0]} is empty")
    places = [place for place in range(1, len(headings)) if holds_numbers(rows, place)]
    if wanted:
        places = [headings.index(own) for own in wanted]
    lines = []
    for place in places:
        points = sorted(zip(xs, column_of(name, headings[place], rows, place)), key=lambda point: point[0])
        lines.append(svg.Line(headings[place], points))
    if not any(y is not None for line in lines for _, y in line.points):
        raise Refusal(f"no numbers: {name} has no column of numbers beside {headings[0]}")
    return headings[0], lines


def heights_of(text):
    if text is None:
        return None
    try:
        low, high = (float(part) for part in text.split(":"))
    except ValueError:
        raise UsageFault(f"--heights {text}: wanted LOW:HIGH") from None
    if not low < high:
        raise UsageFault(f"--heights {text}: LOW is below HIGH")
    return low, high


def draw_grid(layers, layered, iteration, title, is_down, palette):
    """A picture of layers of cells."""
    every = [cell for cells in layered for cell in cells]
    if not every:
        raise Refusal("the file has no agent of the type: " + ", ".join(grid.agent.name for grid in layers))
    left, right = min(cell[0] for cell in every), max(cell[0] for cell in every)
    low, high = min(cell[1] for cell in every), max(cell[1] for cell in every)
    columns, rows = right - left + 1, high - low + 1
    if columns * rows > 4_000_000:
        raise Refusal(f"the grid has {columns} columns and {rows} rows: too many for a picture")
    side = max(1.0, min(16.0, 640 / max(columns, rows)))
    top = 40
    values = [Values(most_of(palette), [colour for _, _, colour in cells]) for cells in layered]
    colours = colours_of(layers, values, palette)
    told = legend_of(layers, colours)
    height = max(top + rows * side + 36, top + 24 + 20 * len(told))
    width = 40 + columns * side + 24 + max((svg.text_width(text) for _, text in told), default=0) + 30
    picture = svg.Picture(round(width), round(height), title or f"iteration {iteration}")
    picture.text(40, 24, title or f"iteration {iteration}", size=14, bold=True)
    picture.rectangle(40, top, columns * side, rows * side, "#f4f4f4")
    for cells, own in zip(layered, colours):
        for x, y, colour in cells:
            row = y - low if is_down else high - y
            picture.rectangle(40 + (x - left) * side, top + row * side, side, side, colour_in(own, colour))
    picture.text(40, top + rows * side + 16, str(left), size=11)
    picture.text(40 + columns * side, top + rows * side + 16, str(right), "end", size=11)
    picture.text(34, top + 11, str(low if is_down else high), "end", size=11)
    picture.text(34, top + rows * side, str(high if is_down else low), "end", size=11)
    for place, (colour, text) in enumerate(told):
        at = top + 20 * place
        picture.rectangle(40 + columns * side + 16, at, 14, 14, colour)
        picture.text(40 + columns * side + 36, at + 12, text)
    return picture.whole()


def run(arguments):
    refuse_input(arguments.output, arguments.inputs)
    palette = palette_of(arguments.colours)
    if arguments.grid:
        if len(arguments.inputs) != 2:
            raise UsageFault("--grid wants MODEL and FILE")
        if arguments.column or arguments.heights or arguments.x or arguments.y:
            raise UsageFault("--column, --heights, --x and --y belong to lines")
        model = models.read(arguments.inputs[0])
        layers = [grids.Grid(model, text) for text in arguments.grid]
        iteration, layered = grids.read(arguments.inputs[1], model, layers)
        picture = draw_grid(layers, layered, iteration, arguments.title, arguments.down, palette)
    else:
        if arguments.down:
            raise UsageFault("--down belongs to --grid")
        if len(arguments.inputs) != 1:
            raise UsageFault("lines want one TABLE.csv; a grid wants --grid")
        heights = heights_of(arguments.heights)
        heading, lines = lines_of(arguments.inputs[0], arguments.column)
        label = heading if arguments.x is None else arguments.x
        picture = svg.chart(lines, arguments.title, label, arguments.y, heights, palette)
    with written(arguments.output, arguments.inputs) as file:
        file.write(picture)
