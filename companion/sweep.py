"""Runs a model once for each combination of values, and writes one table of all runs.

{"model": "epidemic.json", "population": "start.json", "iterations": 70, "out": "sweep",
 "constants": {"risk": [2, 4, 6], "illness": {"from": 4, "to": 12, "step": 4}},
 "variables": {"Person.health": [0]},
 "repetitions": 10,
 "table": {"count": ["Person.health"], "where": [], "iterations": "last"},
 "options": {"fuel": 1000000, "workers": 1}}

"population" is a population file, in which constants, variables (for all agents of a type) and seeds are replaced, or the
description of one (flamekit population), whose course is that of each repetition. With a population file each agent's variable
"seed", or that which "seed" names, is drawn anew for each repetition but the first. Each run has a folder of its own in "out",
named by its number, with the population, the files and what flame printed; a run that stands whole is not run again. "table" has
the choices of flamekit table, of the "last" iteration or of "all". The table is OUT/table.csv: the number of the run, its values, its
status and line, and the choices. "model" and "population" are taken from the folder of SWEEP.json.
"""
import concurrent.futures
import contextlib
import csv
import hashlib
import itertools
import json
import os
import subprocess
import threading

from companion import files, json_places, models, states
from companion import table as tables
from companion.choices import place_of, type_of
from companion.faults import Refusal
from companion.mixing import Draws
from companion.population import GREATEST, LEAST, known, read_description, wanted

HELP = "a run for each combination of values, and one table of all"

KEYS = ("model", "population", "iterations", "out", "constants", "variables", "repetitions", "course", "seed", "table", "options")
MOST_RUNS = 1_000_000

# Columns that each table of a sweep has.
TAKEN = ("run", "repetition", "status", "line", "iteration")


def add_arguments(parser):
    parser.add_argument("sweep", metavar="SWEEP.json")
    parser.add_argument("--at-once", metavar="N", type=int, default=os.cpu_count() or 1, help="so many runs at once")
    parser.add_argument("--flame", metavar="PROGRAM", default=os.environ.get("FLAME"), help="the program; without it that which FLAME names, or ./flame beside flamekit")
    parser.add_argument("--list", action="store_true", help="print the runs and their values, and run nothing")


def values_of(value, where):
    """The values of a constant or a variable: a number, a list, or a range with its two ends."""
    if isinstance(value, dict):
        known(value, ("from", "to", "step"), where)
        low, high, step = value.get("from"), value.get("to"), value.get("step", 1)
        if not all(type(own) is int for own in (low, high, step)) or step <= 0 or low > high:
            wanted(where, 'whole numbers "from" and "to", and "step" above 0')
        found = range(low, high + 1, step)
        if len(found) > MOST_RUNS:
            raise Refusal(f"{where}: {len(found)} values are more than {MOST_RUNS}")
        found = list(found)
    else:
        found = value if isinstance(value, list) else [value]
    if not found or not all(type(own) is int and LEAST <= own <= GREATEST for own in found):
        wanted(where, "whole numbers of int: one, a list, or from, to and step")
    return found


class Sweep:
    """What a sweep file says."""

    def __init__(self, name, value):
        if not isinstance(value, dict):
            wanted(name, "an object")
        known(value, KEYS, name)
        self.folder = os.path.dirname(name)
        self.value = value
        self.model_name = self.text("model")
        self.population_name = self.text("population")
        self.iterations = self.count("iterations", 0, 1_000_000)
        self.repetitions = self.count("repetitions", 1, MOST_RUNS, 1)
        self.course = self.count("course", 0, 2**63, 0)
        self.out = self.text("out")
        self.seed = self.text("seed") if "seed" in value else "seed"
        with inside(self.folder):
            self.model = models.read(self.model_name)
            self.described = self.description()
        self.check_seed()
        self.constants = self.axes("constants", self.check_constant)
        self.variables = self.axes("variables", self.check_variable)
        self.options = self.words()
        self.choices, self.is_last = self.table()

    def text(self, key):
        own = self.value.get(key)
        if not isinstance(own, str) or not own:
            wanted(key, "a name")
        return own

    def count(self, key, least, most, missing=None):
        own = self.value.get(key, missing)
        if type(own) is not int or not least <= own <= most:
            wanted(key, f"a whole number from {least} to {most}")
        return own

    def description(self):
        """The description of the population, where it is one."""
        value = json_places.read(files.read_text(self.population_name), self.population_name).value
        if isinstance(value, dict) and "states" in value:
            return None
        return read_description(self.population_name)

    def axes(self, key, check):
        own = self.value.get(key, {})
        if not isinstance(own, dict):
            wanted(key, "an object")
        axes = []
        for name, values in own.items():
            check(name)
            axes.append((name, values_of(values, f"{key}.{name}")))
        return axes

    def check_seed(self):
        """Repetitions differ by their seeds alone."""
        if self.repetitions > 1 and self.described is None and not self.seeded():
            raise Refusal(f"repetitions: no agent type has a single variable {self.seed}, so all would be the same: name the seed by \"seed\"")

    def seeded(self):
        """The agent types that have the seed."""
        found = [(agent, agent.row.variable(self.seed)) for agent in self.model.agents]
        return [agent for agent, variable in found if variable is not None and variable.length is None]

    def check_constant(self, name):
        if name not in self.model.constants:
            raise Refusal(f"constants: the model has no constant {name}")

    def check_variable(self, name):
        kind, point, variable = name.partition(".")
        if not point:
            wanted(f"variables: {name}", "TYPE.VAR")
        place_of(type_of(self.model, kind), variable, None)

    def words(self):
        """The options of each run."""
        own = self.value.get("options", {})
        if not isinstance(own, dict):
            wanted("options", "an object")
        known(own, ("fuel", "workers", "sync", "by", "format"), "options")
        return [word for key, value in own.items() for word in (f"--{key}", str(value))]

    def table(self):
        own = self.value.get("table", {})
        if not isinstance(own, dict):
            wanted("table", "an object")
        known(own, ("count", "sum", "mean", "min", "max", "where", "iterations"), "table")
        if own.get("iterations", "last") not in ("last", "all"):
            wanted("table.iterations", 'one of "last" and "all"')
        given = []
        for kind in ("count", "sum", "mean", "min", "max"):
            named = own.get(kind, [])
            if not isinstance(named, list) or not all(isinstance(text, str) for text in named):
                wanted(f"table.{kind}", "a list of texts")
            given += [(kind, text, None) for text in named]
        return tables.choices_of(self.model, given, own.get("where", [])), own.get("iterations", "last") == "last"

    def runs(self):
        """The values of each run: constants, variables, and which repetition it is."""
        axes = self.constants + self.variables
        count = self.repetitions
        for _, values in axes:
            count *= len(values)
        if count > MOST_RUNS:
            raise Refusal(f"{count} runs are more than {MOST_RUNS}")
        lists = [values for _, values in axes] + [range(1, self.repetitions + 1)]
        return list(itertools.product(*lists))

    def headings(self):
        """The headings of the values of a run. A constant with the name of another column has its own."""
        own = [f"constants.{name}" if name in TAKEN else name for name, _ in self.constants]
        return own + [name for name, _ in self.variables] + ["repetition"]


class inside:
    """The work is done in this folder."""

    def __init__(self, folder):
        self.folder = folder

    def __enter__(self):
        self.here = os.getcwd()
        if self.folder:
            try:
                os.chdir(self.folder)
            except OSError as error:
                raise Refusal(f"cannot be read: {self.folder}: {error.strerror}") from None

    def __exit__(self, *_):
        os.chdir(self.here)


# ---- the population of a run


class Collected(states.Visitor):
    """The agents of a file, by types."""

    def __init__(self, model):
        self.rows = {agent.name: [] for agent in model.agents}

    def agent(self, agent, row):
        self.rows[agent.name].append(row)


def reseeded(sweep, rows, repetition):
    """Seeds drawn anew, for all repetitions but the first."""
    if repetition == 1:
        return
    draws = Draws(sweep.course + repetition - 1)
    for agent in sweep.seeded():
        place = agent.row.place(sweep.seed, None)
        for row in rows[agent.name]:
            row[place] = draws.seed()


def population_of(sweep, values):
    """The text of the population of a run, in format 2."""
    *given, repetition = values
    rows, said = drawn_rows(sweep, repetition) if sweep.described else read_rows(sweep, repetition)
    for (name, _), number in zip(sweep.constants, given):
        said.constants[name] = number
    for (name, _), number in zip(sweep.variables, given[len(sweep.constants):]):
        kind, _, variable = name.partition(".")
        agent = sweep.model.agent(kind)
        place = agent.row.place(variable, None)
        for row in rows[kind]:
            row[place] = number
    own = {
        "version": 2,
        "itno": said.iteration,
        "environment": [said.constants[name] for name in sweep.model.constants],
        "agents": [{"name": name, "rows": rows[name]} for name in rows],
    }
    return json.dumps({"states": own}, separators=(",", ":")) + "\n"


def read_rows(sweep, repetition):
    collected = Collected(sweep.model)
    said = states.read(os.path.join(sweep.folder, sweep.population_name), sweep.model, collected)
    reseeded(sweep, collected.rows, repetition)
    return collected.rows, said


def drawn_rows(sweep, repetition):
    described = sweep.described
    draws = Draws(described.course + repetition - 1)
    rows = {agent.name: [] for agent in sweep.model.agents}
    for group in described.groups:
        for memory in group.memories(draws):
            row = [0] * group.agent.row.width
            for name, value in memory.items():
                start = group.agent.row.starts[name]
                own = value if isinstance(value, list) else [value]
                row[start:start + len(own)] = own
            rows[group.agent.name].append(row)
    constants = dict.fromkeys(sweep.model.constants, 0)
    constants.update(described.constants)
    return rows, states.States(described.iteration, constants)


# ---- a run


def digest_of(sweep, program):
    """What all runs depend on, so far."""
    found = hashlib.sha256(json.dumps([sweep.iterations, sweep.options]).encode())
    for file in sweep.model.files:
        found.update(file.text.encode())
    with inside(sweep.folder):
        for name in sweep.model.function_files:
            found.update(files.read_bytes(name))
    found.update(files.read_bytes(program))
    return found


class Started:
    """The programs that run, so that they end with a sweep that is stopped."""

    def __init__(self):
        self.lock = threading.Lock()
        self.running = set()
        self.is_stopped = False

    def run(self, words, folder, lines):
        """Runs a program to its end, and gives its status and what it wrote to standard error."""
        with self.lock:
            if self.is_stopped:
                raise Refusal("the sweep was stopped")
            process = subprocess.Popen(words, cwd=folder, stdout=lines, stderr=subprocess.PIPE)
            self.running.add(process)
        try:
            _, told = process.communicate()
        finally:
            with self.lock:
                self.running.discard(process)
        return process.returncode, told.decode("utf-8", "replace").strip()

    def stop(self):
        with self.lock:
            self.is_stopped = True
            for process in self.running:
                process.terminate()


@contextlib.contextmanager
def writing(folder):
    """What fails in the folder is told in one line."""
    try:
        yield
    except OSError as error:
        raise Refusal(f"cannot be written: {error.filename or folder}: {error.strerror}") from None


def run_one(sweep, program, common, started, number, values):
    """Runs one combination, unless it stands whole by what all runs depend on and its own population. Gives its folder, its
    status and its line on standard error.
    """
    folder = os.path.abspath(os.path.join(sweep.folder, sweep.out, f"{number:06d}"))
    text = population_of(sweep, values)
    own = common.copy()
    own.update(text.encode())
    digest = own.hexdigest()
    stands = read_whole(folder, digest)
    if stands is not None:
        return folder, stands["status"], stands["line"]
    with writing(folder):
        os.makedirs(folder, exist_ok=True)
        for name in os.listdir(folder):
            os.unlink(os.path.join(folder, name))
        start = os.path.join(folder, "start.json")
        with open(start, "w", encoding="utf-8") as file:
            file.write(text)
        words = [program, "run", sweep.model_name, start, os.path.join(folder, "out_"), str(sweep.iterations), *sweep.options]
        with open(os.path.join(folder, "lines"), "wb") as lines:
            status, line = started.run(words, sweep.folder or ".", lines)
        # Statuses 4 to 7 tell of the machine, not of the run: it does not stand then.
        if status in (0, 1, 2, 3):
            with open(os.path.join(folder, "whole"), "w", encoding="utf-8") as file:
                json.dump({"digest": digest, "status": status, "line": line}, file)
    return folder, status, line


def read_whole(folder, digest):
    """What was kept of a run that stands whole."""
    try:
        with open(os.path.join(folder, "whole"), encoding="utf-8") as file:
            own = json.load(file)
        return own if own.get("digest") == digest else None
    except (OSError, ValueError, AttributeError):
        return None


# ---- the table


def outputs_in(folder, is_last):
    names = files.numbered(os.path.join(folder, "out_"))
    return names[-1:] if is_last else names


def rows_of(sweep, number, values, done):
    """The rows of a run: its values, its status and line, and what its files come to."""
    folder, status, line = done
    names = outputs_in(folder, sweep.is_last)
    head = [str(number), *map(str, values), str(status), line]
    if not names:
        return [], [(head, [])]
    headings, rows = tables.table(sweep.model, names, sweep.choices)
    return headings, [(head, list(zip(headings, row))) for row in rows]


def write_table(sweep, runs, results):
    """The table of all runs. Counts by value may have other columns in each run; what a run has not is 0."""
    headings, rows = [], []
    for number, (values, done) in enumerate(zip(runs, results), 1):
        own, found = rows_of(sweep, number, values, done)
        headings += [heading for heading in own if heading not in headings]
        rows += found
    headings.sort(key=lambda heading: heading != "iteration")
    name = os.path.join(sweep.folder, sweep.out, "table.csv")
    with files.written(name, newline="") as file:
        writer = csv.writer(file)
        writer.writerow(["run", *sweep.headings(), "status", "line", *headings])
        for head, cells in rows:
            told = dict(cells)
            missing = "0" if told else ""
            writer.writerow(head + [told.get(heading, missing if "=" in heading else "") for heading in headings])
    return name


def program_of(named):
    if named is not None:
        return os.path.abspath(named)
    here = os.path.dirname(os.path.dirname(os.path.realpath(__file__)))
    return os.path.join(here, "flame")


def check_model(sweep, program):
    """Refuses a model that flame refuses, before anything is run. So the program is there, and built, when runs begin."""
    try:
        done = subprocess.run(
            [program, "check", sweep.model_name], cwd=sweep.folder or ".", stdout=subprocess.DEVNULL, stderr=subprocess.PIPE, check=False
        )
    except OSError as error:
        raise Refusal(f"cannot be run: {program}: {error.strerror}") from None
    if done.returncode != 0:
        lines = done.stderr.decode("utf-8", "replace").strip().splitlines()
        raise Refusal(f"flame check {sweep.model_name}: {lines[-1] if lines else f'status {done.returncode}'}")


def run_all(sweep, program, runs, at_once):
    """Runs all, so many at once, in their order."""
    progress = files.Progress("run", len(runs))
    common = digest_of(sweep, program)
    results = [None] * len(runs)
    started = Started()
    with concurrent.futures.ThreadPoolExecutor(max_workers=at_once) as pool:
        waiting = {
            pool.submit(run_one, sweep, program, common, started, place + 1, values): place for place, values in enumerate(runs)
        }
        try:
            for done, one in enumerate(concurrent.futures.as_completed(waiting), 1):
                results[waiting[one]] = one.result()
                progress.tell(done)
        except BaseException:
            pool.shutdown(wait=False, cancel_futures=True)
            started.stop()
            raise
        finally:
            progress.end()
    return results


def run(arguments):
    value = json_places.read(files.read_text(arguments.sweep), arguments.sweep).value
    sweep = Sweep(arguments.sweep, value)
    runs = sweep.runs()
    if arguments.list:
        tables.print_aligned(["run", *sweep.headings()], [[str(n), *map(str, own)] for n, own in enumerate(runs, 1)])
        return
    if arguments.at_once < 1:
        raise Refusal("--at-once: wanted a number from 1")
    program = program_of(arguments.flame)
    check_model(sweep, program)
    out = os.path.join(sweep.folder, sweep.out)
    with writing(out):
        os.makedirs(out, exist_ok=True)
    results = run_all(sweep, program, runs, arguments.at_once)
    name = write_table(sweep, runs, results)
    failed = sum(status != 0 for _, status, _ in results)
    print(f"{len(runs)} runs, {failed} with another status than 0: {name}")
    if failed:
        raise Refusal(f"{failed} of {len(runs)} runs have another status than 0: see the columns status and line of {name}")
