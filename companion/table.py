"""Prints a row for each iteration, from the files of a run.

Each OUT is a file of either format, or what the names of a run's files begin with: out_ stands for out_1.json, out_2.json and so
on. Without a choice there is a column for the agents of each type and for the messages of each board. A choice TYPE[VAR=N].X
takes those agents of TYPE alone of which VAR is N; = != < <= > >= compare, commas join. Of an array X[0] is a number. Sums are
exact, of any size; a mean has six digits behind the point.
"""
import argparse
import csv
import sys

from companion import models, states
from companion.choices import MOST_VALUES, Choice, Tally, wheres_of
from companion.faults import Refusal, UsageFault
from companion.files import Progress, outputs_named, refuse_input, written

HELP = "a row for each iteration, from the files of a run"


class AddChoice(argparse.Action):
    """Keeps the choices in the order in which they are given."""

    def __call__(self, parser, namespace, value, option=None):
        namespace.choices = (namespace.choices or []) + [[option.lstrip("-"), value, None]]


class NameChoice(argparse.Action):
    """Names the choice before it, or the first column."""

    def __call__(self, parser, namespace, value, option=None):
        if namespace.choices:
            namespace.choices[-1][2] = value
        else:
            namespace.first = value


def add_arguments(parser):
    parser.add_argument("model", metavar="MODEL")
    parser.add_argument("outputs", metavar="OUT", nargs="+")
    add_choices(parser)
    parser.add_argument("--csv", metavar="FILE", help="write CSV (RFC 4180) to this file, - for standard output")


def add_choices(parser):
    parser.set_defaults(choices=None, first="iteration")
    told = {
        "count": "how many agents of TYPE; with TYPE.VAR, how many for each value of VAR",
        "sum": "the sum of TYPE.VAR",
        "mean": "its mean",
        "min": "its least number",
        "max": "its greatest number",
    }
    for kind, words in told.items():
        parser.add_argument(f"--{kind}", metavar="TYPE.VAR" if kind != "count" else "TYPE[.VAR]", action=AddChoice, help=words)
    parser.add_argument("--as", metavar="NAME", action=NameChoice, help="the name of the column of the choice before it, or of the first")
    parser.add_argument(
        "--where", metavar="TYPE.VAR=N", action="append", default=[], help="in all choices, of TYPE these agents alone"
    )


class Counts(states.Visitor):
    """The agents of each type and the messages of each board."""

    def __init__(self, model):
        self.agents = {agent.name: 0 for agent in model.agents}
        self.boards = {message.name: 0 for message in model.messages}

    def agent(self, agent, row):
        self.agents[agent.name] += 1

    def messages(self, message, count):
        self.boards[message.name] += count

    def row(self):
        return [str(count) for count in self.agents.values()] + [str(count) for count in self.boards.values()]


class Tallies(states.Visitor):
    """What each choice comes to."""

    def __init__(self, choices):
        self.tallies = [Tally(choice) for choice in choices]
        self.by_type = {}
        for tally in self.tallies:
            self.by_type.setdefault(tally.choice.agent.name, []).append(tally)

    def agent(self, agent, row):
        for tally in self.by_type.get(agent.name, ()):
            tally.add(row)


def choices_of(model, given, where):
    """The choices of the command line."""
    wheres = wheres_of(model, where)
    choices = []
    for kind, text, name in given or []:
        choice = Choice(model, kind, text, wheres)
        choice.named = name
        choices.append(choice)
    if wheres and not choices:
        raise UsageFault("--where stands beside a choice, as --count TYPE")
    return choices


def rows_by_iteration(names, read):
    """What `read` gives of each file, by iterations."""
    found = {}
    progress = Progress("file", len(names))
    for number, name in enumerate(names):
        progress.tell(number + 1)
        iteration, row = read(name)
        if iteration in found:
            progress.end()
            raise Refusal(f"{found[iteration][0]} and {name} are both of iteration {iteration}")
        found[iteration] = (name, row)
    progress.end()
    return [(iteration, found[iteration][1]) for iteration in sorted(found)]


def visitor_of(model, choices):
    """What is told of a file, for its row of a table."""
    return Tallies(choices) if choices else Counts(model)


def arranged(model, choices, rows):
    """The headings and the rows of a table, from iterations and the visitors that were told of each."""
    if not choices:
        headings = [agent.name for agent in model.agents] + [f"messages({message.name})" for message in model.messages]
        return ["iteration"] + headings, [[str(iteration)] + counts.row() for iteration, counts in rows]
    columns = []
    for number, choice in enumerate(choices):
        if choice.by_value():
            values = sorted({value for _, own in rows for value in own.tallies[number].values})
            if len(values) > MOST_VALUES:
                raise Refusal(f"--count {choice.text}: more than {MOST_VALUES} values")
            columns += [(number, value) for value in values]
        else:
            columns.append((number, None))
    headings = ["iteration"] + [choices[number].heading(value) for number, value in columns]
    return headings, [
        [str(iteration)] + [own.tallies[number].cell(value) for number, value in columns] for iteration, own in rows
    ]


def table(model, names, choices):
    """The headings and the rows of a table."""

    def told(name):
        visitor = visitor_of(model, choices)
        return states.read(name, model, visitor).iteration, visitor

    return arranged(model, choices, rows_by_iteration(names, told))


def write_csv(name, headings, rows, inputs):
    with written(name, inputs, newline="") as file:
        writer = csv.writer(file)
        writer.writerow(headings)
        writer.writerows(rows)


def print_aligned(headings, rows):
    """Columns that end below one another; an empty cell is a hyphen."""
    widths = [max(len(row[place] or "-") for row in [headings, *rows]) for place in range(len(headings))]
    for row in [headings, *rows]:
        cells = [(cell or "-").rjust(width) for cell, width in zip(row, widths)]
        sys.stdout.write(" ".join(cells) + "\n")


def run(arguments):
    names = outputs_named(arguments.outputs)
    if arguments.csv is not None:
        refuse_input(arguments.csv, [arguments.model, *names])
    model = models.read(arguments.model)
    headings, rows = table(model, names, choices_of(model, arguments.choices, arguments.where))
    headings[0] = arguments.first
    if arguments.csv is None:
        print_aligned(headings, rows)
    else:
        write_csv(arguments.csv, headings, rows, [arguments.model, *names])
