"""Prints a model's states, functions and messages as a graph in the DOT language, for graphviz.

Each agent type is a box with its states, and its functions between them; a function's condition stands below its name. Messages
stand between the functions that send and read them.
"""
from companion import models
from companion.files import written

HELP = "states, functions and messages as a DOT graph"

SIGNS = {"EQ": "=", "NEQ": "≠", "LT": "<", "GT": ">", "LEQ": "≤", "GEQ": "≥"}


def add_arguments(parser):
    parser.add_argument("model", metavar="MODEL")
    parser.add_argument("-o", dest="output", metavar="FILE", default="-", help="write to this file")


def quoted(text):
    """A text as DOT quotes it."""
    return '"' + text.replace("\\", "\\\\").replace('"', '\\"').replace("\n", "\\n") + '"'


def said(condition):
    """A condition in short."""
    if not isinstance(condition, dict):
        return ""
    if "not" in condition:
        return f"not ({said(condition['not'])})"
    if "time" in condition:
        time = condition["time"] if isinstance(condition["time"], dict) else {}
        return f"{time.get('period')} {time.get('phase', 0)}+{time.get('duration', 1)}"
    sign = condition.get("op")
    left, right = condition.get("lhs"), condition.get("rhs")
    if sign in ("AND", "OR"):
        return f"({said(left)} {sign.lower()} {said(right)})"
    return f"{side(left)} {SIGNS.get(sign, sign)} {side(right)}"


def side(value):
    own = value.get("value") if isinstance(value, dict) else value
    return str(own)[2:] if isinstance(own, str) and own[:2] in ("a.", "m.") else str(own)


def state_node(agent, state):
    return quoted(f"{agent.name}/state/{state}")


def function_node(agent, number):
    return quoted(f"{agent.name}/function/{number}")


def states_of(agent):
    states = []
    for function in agent.functions:
        states += [state for state in (function.current, function.following) if state not in states]
    return states or ["start"]


def agent_lines(agent, number):
    yield f"  subgraph cluster_{number} {{"
    yield f"    label={quoted(agent.name)}; color=gray60; fontname=\"sans-serif\";"
    for state in states_of(agent):
        yield f"    {state_node(agent, state)} [label={quoted(state)}, shape=ellipse];"
    names = [function.name for function in agent.functions]
    for place, function in enumerate(agent.functions):
        label = function.name
        if names.count(function.name) > 1:
            label += f"\n{function.current} → {function.following}"
        if function.value.get("condition") is not None:
            label += "\n" + said(function.value["condition"])
        node = function_node(agent, place)
        yield f"    {node} [label={quoted(label)}, shape=box, style=filled, fillcolor=\"#eaf2f8\"];"
        yield f"    {state_node(agent, function.current)} -> {node};"
        yield f"    {node} -> {state_node(agent, function.following)};"
    yield "  }"


def message_lines(model):
    for message in model.messages:
        node = quoted(f"message/{message.name}")
        yield f"  {node} [label={quoted(message.name)}, shape=note, style=filled, fillcolor=\"#fef5e7\"];"
        for agent in model.agents:
            for place, function in enumerate(agent.functions):
                if message.name in function.outputs:
                    yield f"  {function_node(agent, place)} -> {node} [style=dashed];"
                for own in function.inputs:
                    if own.get("messageName") == message.name:
                        yield f"  {node} -> {function_node(agent, place)} [style=dashed{filtered(own)}];"


def filtered(own):
    condition = own.get("filter")
    return "" if condition is None else f", label={quoted(said(condition))}"


def run(arguments):
    model = models.read(arguments.model)
    with written(arguments.output, [file.name for file in model.files]) as file:
        print("digraph model {", file=file)
        print('  rankdir=TB; node [fontname="sans-serif", fontsize=11]; edge [fontname="sans-serif", fontsize=9];', file=file)
        for number, agent in enumerate(model.agents):
            for line in agent_lines(agent, number):
                print(line, file=file)
        for line in message_lines(model):
            print(line, file=file)
        print("}", file=file)
