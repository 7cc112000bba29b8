"""Files that are read and written."""
import contextlib
import os
import sys
import tempfile

from companion.faults import Refusal


def read_bytes(name):
    """The bytes of a file; those of standard input for `-`."""
    if name == "-":
        return sys.stdin.buffer.read()
    try:
        with open(name, "rb") as file:
            return file.read()
    except FileNotFoundError:
        raise Refusal(f"missing: {name}") from None
    except OSError as error:
        raise Refusal(f"cannot be read: {name}: {error.strerror}") from None


def read_text(name):
    """The text of a file in UTF-8."""
    try:
        return read_bytes(name).decode("utf-8-sig")
    except UnicodeDecodeError as error:
        raise Refusal(f"no UTF-8: {name}: byte {error.start}") from None


def is_same(one, other):
    """Whether both names are of one file that is there."""
    try:
        return os.path.samefile(one, other)
    except OSError:
        return False


def refuse_input(name, inputs):
    """Refuses to write over an input."""
    for own in inputs:
        if name != "-" and own != "-" and is_same(name, own):
            raise Refusal(f"would write over an input: {name}")


def is_stream(name):
    """Whether the name is of a device, a pipe or an open file, as /dev/null and /dev/stdout: nothing may take its place."""
    if os.path.isdir(name) or not os.path.exists(name):
        return False
    return not os.path.isfile(name) or (os.path.islink(name) and os.path.abspath(name).startswith(("/dev/", "/proc/")))


@contextlib.contextmanager
def stream(name, newline):
    """What is written to a device, a pipe or an open file."""
    try:
        with open(name, "a", encoding="utf-8", newline=newline) as file:
            yield file
    except BrokenPipeError:
        raise
    except OSError as error:
        raise Refusal(f"cannot be written: {name}: {error.strerror}") from None


@contextlib.contextmanager
def written(name, inputs=(), newline="\n"):
    """A text file to be written in UTF-8, which takes its name once it is whole; standard output for `-`. Where the name is of a
    link, the file that it leads to is written.
    """
    if name == "-":
        yield sys.stdout
        return
    refuse_input(name, inputs)
    if is_stream(name):
        with stream(name, newline) as file:
            yield file
        return
    whole = os.path.realpath(name)
    folder = os.path.dirname(whole)
    try:
        handle, part = tempfile.mkstemp(prefix=".flamekit-", dir=folder)
    except OSError as error:
        raise Refusal(f"cannot be written: {name}: {error.strerror}") from None
    try:
        with open(handle, "w", encoding="utf-8", newline=newline) as file:
            yield file
        mask = os.umask(0)
        os.umask(mask)
        os.chmod(part, 0o666 & ~mask)
        os.replace(part, whole)
    except OSError as error:
        with contextlib.suppress(OSError):
            os.unlink(part)
        if isinstance(error, BrokenPipeError):
            raise
        raise Refusal(f"cannot be written: {name}: {error.strerror}") from None
    except BaseException:
        with contextlib.suppress(OSError):
            os.unlink(part)
        raise


def outputs_named(words):
    """The files of a run: each word is the name of a file, or what the names of a run's files begin with, whose files are
    taken by their numbers.
    """
    names = []
    for word in words:
        if word == "-" or os.path.exists(word) and not os.path.isdir(word):
            names.append(word)
            continue
        found = numbered(word)
        if not found:
            raise Refusal(f"missing: {word} is no file, and no file is named {word}NUMBER.json")
        names += found
    return names


def numbered(prefix):
    """The files that are named by the prefix, a number and `.json`, by their numbers."""
    folder, start = os.path.split(prefix)
    found = []
    try:
        entries = os.listdir(folder or ".")
    except OSError:
        return []
    for entry in entries:
        if not (entry.startswith(start) and entry.endswith(".json")):
            continue
        digits = entry[len(start):-len(".json")]
        if digits.isascii() and digits.isdigit() and str(int(digits)) == digits:
            found.append((int(digits), os.path.join(folder, entry)))
    return [name for _, name in sorted(found)]


class Progress:
    """A line on a terminal that tells how far a command is; elsewhere nothing."""

    def __init__(self, what, whole):
        self.what = what
        self.whole = whole
        self.shown = sys.stderr.isatty()

    def tell(self, done, more=""):
        if self.shown:
            print(f"\r{self.what} {done} of {self.whole}{more}\033[K", end="", file=sys.stderr, flush=True)

    def end(self):
        if self.shown:
            print("\r\033[K", end="", file=sys.stderr, flush=True)
