"""Tells what a model has that flame accepts and that its writer may not have meant: a warning a line, with file, line and path.

Keys that the form does not have, with the nearest that it has; states that nothing leads to, and where agents stay that stand
beside another end; messages that nobody writes or reads; C functions that no model function names; #define over a name of the
model; variables that nothing sets; an OUT whose files would replace an input. With POP also keys of the population, and variables
that neither the population nor a function sets. The status is 0, also where something is told.
"""
import difflib
import os
import re

from companion import c_source, json_places, models
from companion.files import read_text
from companion.json_places import line_of

HELP = "what flame accepts and a modeller did not mean"

VARIABLE = {"type": None, "name": None, "length": None, "description": None}
MODEL_KEYS = {
    "xmodel": {
        "name": None, "version": None, "author": None, "description": None,
        "environment": {
            "constants": [{"type": None, "name": None, "description": None}],
            "functionFiles": [None],
            "timeUnits": [{"name": None, "unit": None, "period": None, "description": None}],
            "dataTypes": [{"name": None, "description": None, "variables": [VARIABLE]}],
        },
        "messages": [{"name": None, "description": None, "variables": [VARIABLE]}],
        "agents": [{
            "name": None, "description": None, "memory": [VARIABLE],
            "functions": [{
                "name": None, "description": None, "currentState": None, "nextState": None, "condition": "condition",
                "inputs": [{
                    "messageName": None, "random": None, "filter": "condition", "sort": {"key": None, "order": None},
                }],
                "outputs": [{"messageName": None, "description": None}],
            }],
        }],
        "models": [{"file": None, "enabled": None}],
    },
    "$schema": None,
}
CONDITION = {"not": "condition", "time": {"period": None, "phase": None, "duration": None}}
COMPARED = {"op": None, "lhs": "side", "rhs": "side"}
STATES_KEYS = {
    "states": {
        "version": None, "itno": None, "environment": None,
        "agents": [{"name": None, "memory": None, "rows": None}],
        "boards": None,
    },
    "$schema": None,
}


def add_arguments(parser):
    parser.add_argument("model", metavar="MODEL")
    parser.add_argument("population", metavar="POP", nargs="?")
    parser.add_argument("--out", metavar="OUT", help="what the names of the files of a run would begin with")


class Warnings:
    """What is told, each line once, in the order in which it is found."""

    def __init__(self):
        self.lines = []

    def add(self, file, line, text, path=None):
        told = f"{file}:{line}: {text}" if path is None else f"{file}:{line}: {path}: {text}"
        if told not in self.lines:
            self.lines.append(told)

    def at(self, file, path, text):
        """At a path of a model file."""
        self.add(file.name, file.where(path)[0], text, path)


# ---- keys


def check_keys(warnings, name, text, place, form, path=""):
    """Tells keys that the form does not have."""
    if form == "condition":
        form = condition_form(place.value)
    if form == "side":
        form = side_form(place.value)
    if isinstance(form, dict) and isinstance(place.members, dict):
        for key, inner in place.members.items():
            if key in form:
                check_keys(warnings, name, text, inner, form[key], f"{path}/{key}")
            else:
                line = line_of(text, place.keys[key])[0]
                warnings.add(name, line, f"unknown key {key}{nearest(key, form)}", f"{path}/{key}")
    elif isinstance(form, list) and isinstance(place.members, list):
        for number, inner in enumerate(place.members):
            check_keys(warnings, name, text, inner, form[0], f"{path}/{number}")


def condition_form(value):
    """The keys that a condition of this value is read by."""
    if isinstance(value, dict):
        for key in ("not", "time"):
            if key in value:
                return {key: CONDITION[key]}
    return COMPARED


def side_form(value):
    """The keys of a side: of a comparison a value, of AND and OR a condition."""
    if isinstance(value, dict) and any(key in value for key in ("not", "time", "op", "lhs", "rhs")):
        return condition_form(value)
    return {"value": None}


def nearest(word, known):
    found = difflib.get_close_matches(word, [own for own in known if own], 1, 0.6)
    return f": did you mean {found[0]}?" if found else ""


# ---- states, messages, functions


def check_states(warnings, model):
    for agent in model.agents:
        left = {function.current for function in agent.functions}
        entered = {function.following for function in agent.functions}
        starts = left - entered
        reached, waiting = set(), list(starts)
        while waiting:
            state = waiting.pop()
            if state not in reached:
                reached.add(state)
                waiting += [function.following for function in agent.functions if function.current == state]
        for function in agent.functions:
            if function.current not in reached:
                warnings.at(
                    function.file,
                    f"{function.path}/currentState",
                    f"{agent.name}: no agent comes to state {function.current}, which {function.name} leaves"
                    + nearest(function.current, reached),
                )
        ends = sorted(entered - left)
        for function in agent.functions:
            if len(ends) > 1 and function.following in ends:
                others = [end for end in ends if end != function.following]
                near = nearest(function.following, (left | entered) - {function.following, function.current})
                warnings.at(
                    function.file,
                    f"{function.path}/nextState",
                    f"{agent.name}: no function leaves state {function.following}, and none leaves {', '.join(others)} either{near}",
                )


def check_messages(warnings, model):
    written, read = set(), set()
    for agent in model.agents:
        for function in agent.functions:
            written.update(function.outputs)
            read.update(own.get("messageName") for own in function.inputs)
    for message in model.messages:
        if message.name not in written:
            warnings.at(message.file, message.path, f"message {message.name} is written by no function")
        if message.name not in read:
            warnings.at(message.file, message.path, f"message {message.name} is read by no function")


def sources_of(model):
    """The function files that are there."""
    return [c_source.Source(name) for name in model.function_files if os.path.isfile(name)]


def check_sources(warnings, model, sources):
    named = {function.name for agent in model.agents for function in agent.functions}
    taken = capitals_of(model)
    for source in sources:
        for function in source.functions():
            if function.name not in named and function.parameters == 0:
                near = nearest(function.name, named)
                warnings.add(source.name, function.line, f"no function of the model is named {function.name}{near}")
        for word, line in source.defines.items():
            if word in taken:
                warnings.add(source.name, line, f"#define {word} stands over {taken[word]}")


def capitals_of(model):
    """What stands behind words in capitals."""
    taken = {name.upper(): f"the constant {name}" for name in model.constants}
    for agent in model.agents:
        for variable in agent.row.variables:
            taken[variable.name.upper()] = f"the variable {agent.name}.{variable.name}"
    return taken


# ---- variables


def check_variables(warnings, model, sources, given):
    """Variables that no function of their type sets. With a population those alone that it leaves out too."""
    bodies = {}
    for source in sources:
        for function in source.functions():
            bodies.setdefault(function.name, []).extend(source.tokens[function.start:function.end])
    for agent in model.agents:
        tokens = [token for function in agent.functions for token in bodies.get(function.name, [])]
        if not tokens:
            continue
        written, read = c_source.written_words(tokens), c_source.read_words(tokens)
        asked = asked_variables(agent)
        for variable in agent.row.variables:
            word = variable.name.upper()
            if word in written:
                continue
            is_read = word in read or variable.name in asked
            if not is_read:
                told = "is neither read nor set by a function"
            elif given is None:
                told = "is set by no function: it keeps what the population gives"
                told += " or a birth" if is_born(model, bodies, agent) else ""
            elif variable.name not in given.get(agent.name, ()) and not is_born(model, bodies, agent):
                told = "is set by no function, and the population leaves it out: it is always 0"
            else:
                continue
            warnings.at(agent.file, path_of(agent, variable), f"{agent.name}.{variable.name} {told}")


def path_of(agent, variable):
    """Where the variable is declared: itself, or that of a data type whose field it is."""
    place, _ = json_places.found(agent.file.place, f"{agent.path}/memory")
    for number, own in enumerate(place.value if isinstance(place.value, list) else []):
        name = models.entry(own, "name", str, "")
        if name == variable.name or variable.name.startswith(name + "_") and own.get("type") != "int":
            return f"{agent.path}/memory/{number}"
    return agent.path


def asked_variables(agent):
    """The variables of the agent that its conditions, filters and phases ask for."""
    return {name for function in agent.functions for name in re.findall(r"a\.([A-Za-z0-9_]+)", str(function.value))}


def is_born(model, bodies, agent):
    word = f"add_{agent.name}_agent"
    return any(token.text == word for tokens in bodies.values() for token in tokens)


def given_variables(warnings, model, name):
    """The variables that a population gives, by types; keys that it should not have are told."""
    text = read_text(name)
    place = json_places.read(text, name)
    check_keys(warnings, name, text, place, STATES_KEYS)
    own = models.entry(place.value, "states", dict, None)
    if own is None:
        warnings.add(name, 1, "there is no object states: flame reads no population here")
        return None
    is_second = models.whole(own.get("version")) == 2
    given = {}
    for member in models.entry(own, "agents", list, []):
        kind = models.entry(member, "name", str, "")
        found = given.setdefault(kind, set())
        agent = model.agent(kind)
        if is_second and agent is not None:
            found.update(variable.name for variable in agent.row.variables)
        else:
            found.update(models.entry(member, "memory", dict, {}))
    missing = [name for name in model.constants if not is_second and name not in models.entry(own, "environment", dict, {})]
    for constant in missing:
        warnings.add(name, 1, f"the constant {constant} is left out: it is 0", "/states/environment")
    return given


def check_out(warnings, arguments, model):
    """An OUT whose numbered files an input could be."""
    inputs = [file.name for file in model.files] + ([arguments.population] if arguments.population else [])
    folder, start = os.path.split(arguments.out)
    for name in inputs:
        own_folder, own = os.path.split(name)
        same = os.path.realpath(own_folder or ".") == os.path.realpath(folder or ".")
        digits = own[len(start):-len(".json")]
        if same and own.startswith(start) and own.endswith(".json") and digits.isdigit() and str(int(digits)) == digits:
            warnings.add(name, 1, f"a run with OUT {arguments.out} replaces this file in iteration {digits}")
    if folder and not os.path.isdir(folder):
        warnings.add(arguments.out, 1, f"the folder {folder} is not there, and flame makes none")


def warnings_of(arguments):
    warnings = Warnings()
    model = models.read(arguments.model)
    for file in model.files:
        check_keys(warnings, file.name, file.text, file.place, MODEL_KEYS)
    check_states(warnings, model)
    check_messages(warnings, model)
    sources = sources_of(model)
    check_sources(warnings, model, sources)
    given = given_variables(warnings, model, arguments.population) if arguments.population is not None else None
    check_variables(warnings, model, sources, given)
    if arguments.out is not None:
        check_out(warnings, arguments, model)
    return warnings.lines


def run(arguments):
    for line in warnings_of(arguments):
        print(line)
