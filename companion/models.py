"""Models, as far as the companion looks at them: a flat list of constants, messages and agent types, as flame has them."""
from companion import json_places
from companion.faults import Refusal
from companion.files import read_text


class Variable:
    """A variable of a row: its name, and how many numbers an array has; none for a single number."""

    def __init__(self, name, length):
        self.name = name
        self.length = length

    @property
    def width(self):
        return 1 if self.length is None else self.length

    def columns(self):
        """The names of its numbers."""
        if self.length is None:
            return [self.name]
        return [f"{self.name}[{place}]" for place in range(self.length)]


class Row:
    """The form of a row: its variables, and the place of each."""

    def __init__(self, variables):
        self.variables = variables
        self.starts = {}
        self.width = 0
        for variable in variables:
            self.starts[variable.name] = self.width
            self.width += variable.width

    def variable(self, name):
        """The variable of this name, or none."""
        for variable in self.variables:
            if variable.name == name:
                return variable
        return None

    def columns(self):
        return [column for variable in self.variables for column in variable.columns()]

    def place(self, name, index):
        """The place of a variable's number in a row."""
        return self.starts[name] + (index or 0)


class Function:
    """A transition function of an agent type."""

    def __init__(self, name, current, following, inputs, outputs, value, path, file):
        self.name = name
        self.current = current
        self.following = following
        self.inputs = inputs
        self.outputs = outputs
        # The value in the model file, with the path at which it stands in that file.
        self.value = value
        self.path = path
        self.file = file


class AgentType:
    """A type of agents: its memory and its functions."""

    def __init__(self, name, row, functions, path, file):
        self.name = name
        self.row = row
        self.functions = functions
        self.path = path
        self.file = file


class Message:
    """A type of messages."""

    def __init__(self, name, row, path, file):
        self.name = name
        self.row = row
        self.path = path
        self.file = file


class ModelFile:
    """A model file as it stands: its name, its text, and its value with places."""

    def __init__(self, name, text, place):
        self.name = name
        self.text = text
        self.place = place

    @property
    def xmodel(self):
        return entry(self.place.value, "xmodel", dict, {})

    def where(self, path):
        """The line and column of a path in the file, the last part of it that is there."""
        place, _ = json_places.found(self.place, path)
        return json_places.line_of(self.text, place.start)


class Model:
    """A model of one file or several, flat: data types are replaced by their fields."""

    def __init__(self, files):
        self.files = files
        self.constants = []
        self.units = []
        self.messages = []
        self.agents = []
        self.function_files = []
        # The names of model files that are passed over, as they are not enabled.
        self.disabled = []

    def agent(self, name):
        for agent in self.agents:
            if agent.name == name:
                return agent
        return None

    def message(self, name):
        for message in self.messages:
            if message.name == name:
                return message
        return None


def entry(value, key, kind, default):
    """What an object has at a key: null and what is of another kind count as missing."""
    own = value.get(key) if isinstance(value, dict) else None
    if isinstance(own, bool) and kind is not bool:
        return default
    return own if isinstance(own, kind) else default


def whole(value):
    """A whole number, which may be written as a text, or none."""
    if isinstance(value, bool):
        return None
    if isinstance(value, int):
        return value
    if isinstance(value, str):
        digits = value[1:] if value.startswith("-") else value
        if digits.isascii() and digits.isdigit() and len(digits) <= json_places.MOST_DIGITS:
            return int(value)
    return None


def read_file(name):
    """A model file."""
    text = read_text(name)
    return ModelFile(name, text, json_places.read(text, name))


def is_enabled(value):
    return value.get("enabled") not in (False, "false")


def read_files(name, model=None):
    """The model file and right behind each model file those that it names, each once."""
    files, known, waiting, disabled = [], set(), [name], []
    while waiting:
        own = waiting.pop()
        if own in known:
            continue
        known.add(own)
        file = read_file(own)
        files.append(file)
        named = []
        for nested in entry(file.xmodel, "models", list, []):
            if isinstance(nested, dict) and isinstance(nested.get("file"), str):
                if is_enabled(nested):
                    named.append(nested["file"])
                else:
                    disabled.append(nested["file"])
        waiting += reversed(named)
    return files, disabled


class Flattening:
    """Data types by name, each with its flat variables."""

    def __init__(self):
        self.types = {}

    def variables(self, value):
        flat = []
        for variable in value:
            if not isinstance(variable, dict) or not isinstance(variable.get("name"), str):
                continue
            name, kind = variable["name"], variable.get("type")
            if isinstance(kind, str) and kind in self.types:
                flat += [Variable(f"{name}_{field.name}", field.length) for field in self.types[kind]]
            else:
                flat.append(Variable(name, whole(variable.get("length"))))
        return flat


def functions_of(agent, path, file):
    functions = []
    for number, value in enumerate(entry(agent, "functions", list, [])):
        if not isinstance(value, dict):
            continue
        inputs = [own for own in entry(value, "inputs", list, []) if isinstance(own, dict)]
        outputs = [
            own["messageName"]
            for own in entry(value, "outputs", list, [])
            if isinstance(own, dict) and isinstance(own.get("messageName"), str)
        ]
        functions.append(
            Function(
                entry(value, "name", str, ""),
                entry(value, "currentState", str, ""),
                entry(value, "nextState", str, ""),
                inputs,
                outputs,
                value,
                f"{path}/functions/{number}",
                file,
            )
        )
    return functions


def add_environment(model, flattening, file, environment):
    for value in entry(environment, "constants", list, []):
        if isinstance(value, dict) and isinstance(value.get("name"), str):
            model.constants.append(value["name"])
    for value in entry(environment, "functionFiles", list, []):
        if isinstance(value, str) and value not in model.function_files:
            model.function_files.append(value)
    for value in entry(environment, "timeUnits", list, []):
        if isinstance(value, dict) and isinstance(value.get("name"), str):
            model.units.append((value["name"], value.get("unit"), whole(value.get("period")), file))
    for value in entry(environment, "dataTypes", list, []):
        if isinstance(value, dict) and isinstance(value.get("name"), str):
            flattening.types.setdefault(value["name"], flattening.variables(entry(value, "variables", list, [])))


def read(name):
    """The model of this file and of those that it names. What flame refuses is not looked for here: what has another form than a
    model counts as missing.
    """
    files, disabled = read_files(name)
    model = Model(files)
    model.disabled = disabled
    flattening = Flattening()
    for file in files:
        if not isinstance(file.place.value, dict) or not isinstance(file.place.value.get("xmodel"), dict):
            raise Refusal(f"no model: {file.name} has no object xmodel")
        add_environment(model, flattening, file, entry(file.xmodel, "environment", dict, {}))
    for file in files:
        for number, value in enumerate(entry(file.xmodel, "messages", list, [])):
            own = entry(value, "name", str, None)
            if own is not None and model.message(own) is None:
                row = Row(flattening.variables(entry(value, "variables", list, [])))
                model.messages.append(Message(own, row, f"/xmodel/messages/{number}", file))
        for number, value in enumerate(entry(file.xmodel, "agents", list, [])):
            own = entry(value, "name", str, None)
            if own is not None:
                path = f"/xmodel/agents/{number}"
                row = Row(flattening.variables(entry(value, "memory", list, [])))
                model.agents.append(AgentType(own, row, functions_of(value, path, file), path, file))
    return model
