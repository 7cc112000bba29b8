"""Converts a model of FLAME, version 2 of XMML, to the JSON form.

What the JSON form has no place for is listed on standard error, as FILE: line N: what it is, and what to do; and so is what a
look at the function files finds that is no C of flame's. Where something is listed, the status is 1 and nothing is written. With
--partly the JSON is written all the same: what is listed stands in it as it stood in the XML, so that flame refuses the model
there until it is mended. Left out are elements that have no place at all, and the second of two where one belongs.

Further model files that the model names are converted too, each beside -o under its name with .json in place of .xml; which are
written is printed. Names of files become names from the folder of MODEL.xml, so start flame there. Descriptions are kept; flame
passes them over. Of the C only single pieces are looked at: run flame check on what comes out.
"""
import contextlib
import os
import posixpath

from companion import c_look, json_layout
from companion.faults import Refusal
from companion.files import read_bytes, written
from companion.findings import Findings
from companion.xmml import Conversion, json_name
from companion.xmml_declared import Declared
from companion.xmml_names import Taken
from companion.xmml_sheet import read

HELP = "a model of FLAME (XMML) as JSON, with a list of what has no place there"

MOST_FILES = 64
MOST_BYTES = 4194304


def add_arguments(parser):
    parser.add_argument("model", metavar="MODEL.xml")
    parser.add_argument("-o", dest="output", metavar="MODEL.json", default="-", help="write to this file; else standard output")
    parser.add_argument("--partly", action="store_true", help="write what can be written, also where something is listed")


class Part:
    """A file of a model: where it is read, and its name from the folder of the first file."""

    def __init__(self, file, name, sheet):
        self.file = file
        self.name = name
        self.sheet = sheet
        self.value = None


class Files:
    """The files of a model, each once, right behind each file those that it names."""

    def __init__(self, first, findings):
        self.folder = os.path.dirname(first) if first != "-" else ""
        self.findings = findings
        self.known = set()
        self.parts = []
        self.declared = Declared()
        self.add(first, os.path.basename(first))

    def path(self, name):
        """Where the file of this name lies."""
        return os.path.join(self.folder, name)

    def add(self, file, name):
        waiting = [(file, name)]
        while waiting:
            file, name = waiting.pop()
            if name in self.known:
                continue
            if len(self.parts) == MOST_FILES:
                raise Refusal(f"too many: {file}: a model has {MOST_FILES} files at most")
            self.known.add(name)
            part = Part(file, name, read(file, self.findings))
            self.parts.append(part)
            self.declared.add(part.sheet)
            waiting += reversed(self.nested(part))

    def nested(self, part):
        """The files that a file names and enables, where they are there."""
        found = []
        quiet = Conversion(silent(part.sheet), self.declared, Taken(), posixpath.dirname(part.name))
        quiet.model()
        for element, name, is_enabled in quiet.nested:
            if not is_enabled:
                continue
            if os.path.isfile(self.path(name)):
                found.append((self.path(name), name))
            else:
                self.findings.add(part.file, element.line, f"missing: {self.path(name)}: no model file has this name, so mend it")
        return found

    def convert(self):
        """Makes the JSON value of each file, and gives the function files with the elements that name them."""
        taken, named = Taken(), []
        for part in self.parts:
            conversion = Conversion(part.sheet, self.declared, taken, posixpath.dirname(part.name))
            part.value = conversion.model()
            named += [(part.file, element, name) for element, name in conversion.function_files]
        return named


def silent(sheet):
    """The same sheet, of which nothing is listed."""
    return type(sheet)(sheet.name, sheet.root, Findings())


def look_at(files, named):
    """Looks at the function files that are there, each once."""
    looked = set()
    for file, element, name in named:
        path = files.path(name)
        if path in looked:
            continue
        looked.add(path)
        if not os.path.isfile(path):
            files.findings.add(file, element.line, f"note: {path} is not there, so its C was not looked at", False)
            continue
        data = read_bytes(path)
        if len(data) > MOST_BYTES:
            files.findings.add(path, 1, f"it has more than {MOST_BYTES} bytes: split it")
            continue
        c_look.look(data.decode("latin-1"), files.declared.types, lambda line, text: files.findings.add(path, line, text))


def write(output, parts, inputs):
    """Writes the first file to the output and the others beside it; each takes its name once all are whole."""
    if output == "-" and len(parts) > 1:
        raise Refusal("the model has several files: name the first by -o, and the others are written beside it")
    folder = os.path.dirname(output)
    names = [output] + [os.path.join(folder, json_name(part.name)) for part in parts[1:]]
    if len(set(map(os.path.normpath, names))) != len(names):
        raise Refusal(f"two files would be named alike: {', '.join(names)}")
    with contextlib.ExitStack() as stack:
        for name, part in reversed(list(zip(names, parts))):
            file = stack.enter_context(written(name, inputs))
            file.write(json_layout.laid_out(part.value) + "\n")
    for name, part in list(zip(names, parts))[1:]:
        print(f"{part.file} is written as {name}")


def run(arguments):
    findings = Findings()
    files = Files(arguments.model, findings)
    named = files.convert()
    look_at(files, named)
    inputs = [part.file for part in files.parts] + [files.path(name) for _, _, name in named]
    findings.tell()
    if findings.count and not arguments.partly:
        raise Refusal(f"{findings.said()}, and nothing is written")
    write(arguments.output, files.parts, inputs)
    if findings.count:
        raise Refusal(f"{findings.said()}, and what is written is to be mended there")
