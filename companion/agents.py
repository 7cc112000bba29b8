"""Writes the agents of one file as CSV, a row each, with an array's numbers in columns of their own, as h[0].

For R, pandas and spreadsheets. With one type, by --type or since the model has one, the columns are its variables; else the
first column is the type, and what a type does not have is empty.
"""
import csv

from companion import models, states
from companion.choices import type_of
from companion.files import written

HELP = "the agents of one file as CSV, a row each"


def add_arguments(parser):
    parser.add_argument("model", metavar="MODEL")
    parser.add_argument("file", metavar="FILE")
    parser.add_argument("--csv", metavar="FILE", default="-", help="write to this file; standard output without it")
    parser.add_argument("--type", metavar="TYPE", help="the agents of this type alone")


class Writing(states.Visitor):
    """Writes each agent of some types as it comes."""

    def __init__(self, writer, types, is_typed):
        self.writer = writer
        self.is_typed = is_typed
        columns = []
        for agent in types:
            columns += [column for column in agent.row.columns() if column not in columns]
        self.columns = columns
        self.places = {agent.name: [place_in(agent, column) for column in columns] for agent in types}
        self.is_headed = False

    def head(self):
        """Writes the headings, once the file is known to be read."""
        if not self.is_headed:
            self.is_headed = True
            self.writer.writerow((["agent"] if self.is_typed else []) + self.columns)

    def agent(self, agent, row):
        self.head()
        places = self.places.get(agent.name)
        if places is None:
            return
        cells = ["" if place is None else row[place] for place in places]
        self.writer.writerow(([agent.name] if self.is_typed else []) + cells)


def place_in(agent, column):
    columns = agent.row.columns()
    return columns.index(column) if column in columns else None


def run(arguments):
    model = models.read(arguments.model)
    types = model.agents if arguments.type is None else [type_of(model, arguments.type)]
    inputs = [arguments.model, arguments.file]

    with written(arguments.csv, inputs, newline="") as file:
        writing = Writing(csv.writer(file), types, len(types) != 1)
        states.read(arguments.file, model, writing)
        writing.head()
