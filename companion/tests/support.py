"""What tests share: folders of their own, runs of the examples, and calls of the companion."""
import contextlib
import io
import json
import os
import pathlib
import shutil
import subprocess
import sys
import tempfile
import unittest

from companion.commands import main

TOP = pathlib.Path(__file__).resolve().parents[2]


def program():
    """The program that is tried with: FLAME, or the one that is shipped."""
    named = os.environ.get("FLAME")
    return os.path.abspath(named) if named else str(TOP / "dist" / "flame")


def runs():
    """Whether the program can be run here."""
    try:
        return subprocess.run([program()], capture_output=True, check=False).returncode == 2
    except OSError:
        return False


needs_program = unittest.skipUnless(runs(), "the program cannot be run here")


class Told:
    """What a call gave: its status, its output and its lines on standard error."""

    def __init__(self, status, output, errors):
        self.status = status
        self.output = output
        self.errors = errors

    @property
    def lines(self):
        return self.output.splitlines()


class FolderTest(unittest.TestCase):
    """A test in a folder of its own, in which it stands."""

    def setUp(self):
        self.here = os.getcwd()
        self.folder = tempfile.mkdtemp()
        os.chdir(self.folder)

    def tearDown(self):
        os.chdir(self.here)
        shutil.rmtree(self.folder)

    def write(self, name, value):
        """A file: a text, or a value as JSON."""
        os.makedirs(os.path.dirname(name) or ".", exist_ok=True)
        with open(name, "w", encoding="utf-8") as file:
            file.write(value if isinstance(value, str) else json.dumps(value))

    def read(self, name):
        with open(name, encoding="utf-8", newline="") as file:
            return file.read()

    def example(self, name, model, iterations, *options):
        """The files of an example, with a run of it."""
        shutil.copytree(TOP / "examples" / name, ".", dirs_exist_ok=True)
        if os.path.exists("population"):
            subprocess.run(["./population"], check=True)
        elif os.path.exists("population.json"):
            self.good("population", "population.json", "-o", "start.json")
        words = [program(), "run", model, "start.json", "out_", str(iterations), *options]
        subprocess.run(words, check=True, stdout=subprocess.DEVNULL)

    def call(self, *words):
        """The companion, called within this process."""
        output, errors = io.StringIO(), io.StringIO()
        with contextlib.redirect_stdout(output), contextlib.redirect_stderr(errors):
            try:
                status = main([str(word) for word in words])
            except SystemExit as end:
                status = end.code or 0
        return Told(status, output.getvalue(), errors.getvalue())

    def good(self, *words):
        """A call that ends with 0 and tells nothing on standard error."""
        told = self.call(*words)
        self.assertEqual((told.status, told.errors), (0, ""))
        return told

    def refused(self, *words, status=1):
        """The one line of a call that is refused."""
        told = self.call(*words)
        self.assertEqual(told.status, status, told.errors)
        self.assertEqual(told.output, "")
        self.assertEqual(told.errors.count("\n"), 1, told.errors)
        return told.errors.removeprefix("flamekit: ").rstrip("\n")

    def started(self, *words, given=None):
        """The companion, started as a program of its own."""
        return subprocess.run(
            [sys.executable, str(TOP / "flamekit"), *map(str, words)], input=given, capture_output=True, check=False
        )


FOX = {
    "xmodel": {
        "environment": {"constants": [{"type": "int", "name": "cells"}], "functionFiles": ["fox.c"]},
        "messages": [{"name": "howl", "variables": [{"type": "int", "name": "den"}]}],
        "agents": [
            {
                "name": "Fox",
                "memory": [{"type": "int", "name": "den"}, {"type": "int", "name": "seen", "length": 3}],
                "functions": [
                    {"name": "hunt", "currentState": "start", "nextState": "end", "outputs": [{"messageName": "howl"}]}
                ],
            }
        ],
    }
}


def first_format(iteration, foxes, howls=0):
    """A file of format 1: each fox its den and what it has seen."""
    agents = [{"name": "Fox", "memory": {"den": den, "seen": seen}} for den, seen in foxes]
    boards = [{"name": "howl", "messages": [{"den": 0}] * howls}]
    return {"states": {"itno": iteration, "environment": {"cells": 9}, "agents": agents, "boards": boards}}


def second_format(iteration, foxes, howls=0):
    """The same in format 2."""
    agents = [{"name": "Fox", "rows": [[den, *seen] for den, seen in foxes]}]
    boards = [{"name": "howl", "rows": [[0]] * howls}]
    return {"states": {"version": 2, "itno": iteration, "environment": [9], "agents": agents, "boards": boards}}
