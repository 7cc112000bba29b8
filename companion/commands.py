"""The command line: one module a command."""
import argparse
import importlib
import os
import sys

from companion import VERSION
from companion.faults import Refusal, UsageFault

# In the order in which a study needs them.
COMMANDS = (
    "table",
    "agents",
    "plot",
    "view",
    "sweep",
    "population",
    "lint",
    "explain",
    "dot",
    "from-xmml",
    "from-0xml",
)

STATUSES = """statuses: 0 it was done; 1 something is wrong with an input; 2 the words give no order.
Names of files are taken from the folder in which it is started, those within a description of a
population or of a sweep from the folder of that description; - is standard input or output."""


class Parser(argparse.ArgumentParser):
    """A parser that tells its fault in one line."""

    def error(self, message):
        raise UsageFault(f"{message} (see {self.prog} --help)")


def module_of(command):
    return importlib.import_module("companion." + command.replace("-", "_"))


def parser():
    """The parser of the whole command line."""
    top = Parser(
        prog="flamekit",
        description="The companion of flame: tables, pictures, sweeps, populations and conversions.",
        epilog=STATUSES,
        formatter_class=argparse.RawDescriptionHelpFormatter,
    )
    top.add_argument("--version", action="version", version=f"flamekit {VERSION}")
    choices = top.add_subparsers(dest="command", metavar="COMMAND", parser_class=Parser)
    for command in COMMANDS:
        module = module_of(command)
        own = choices.add_parser(
            command,
            help=module.HELP,
            description=module.__doc__,
            epilog=STATUSES,
            formatter_class=argparse.RawDescriptionHelpFormatter,
        )
        module.add_arguments(own)
        own.set_defaults(run=module.run)
    return top


def end_quietly():
    """What reads the output has ended: nothing more is written to it."""
    os.dup2(os.open(os.devnull, os.O_WRONLY), sys.stdout.fileno())


def main(words):
    """Carries out a command line, and gives its status."""
    try:
        arguments = parser().parse_args(words)
        if arguments.command is None:
            raise UsageFault("a command is missing (see flamekit --help)")
        arguments.run(arguments)
        sys.stdout.flush()
        return 0
    except UsageFault as fault:
        print(f"flamekit: {fault}", file=sys.stderr)
        return 2
    except Refusal as fault:
        print(f"flamekit: {fault}", file=sys.stderr)
        return 1
    except BrokenPipeError:
        end_quietly()
        return 0
    except OSError as error:
        end_quietly()
        print(f"flamekit: {error.filename or 'standard output'}: {error.strerror}", file=sys.stderr)
        return 1
    except KeyboardInterrupt:
        print("flamekit: interrupted", file=sys.stderr)
        return 1
