"""The command dot, and the command line."""
import os
import shutil
import subprocess
import unittest

from companion.commands import COMMANDS
from companion.tests.support import TOP, FolderTest


class Dot(FolderTest):
    """A graph of each example, and of functions of one name."""

    def test_examples(self):
        for name, model in (("bees", "bees.json"), ("forest", "forest.json"), ("market", "market.json")):
            os.chdir(TOP / "examples" / name)
            graph = self.good("dot", model).output
            self.assertEqual(graph.count("{"), graph.count("}"))
            if shutil.which("dot"):
                subprocess.run(["dot", "-Tsvg"], input=graph.encode(), check=True, capture_output=True)
        os.chdir(self.folder)

    def test_functions_of_one_name(self):
        states = [("start", "a"), ("a", "end")]
        functions = [{"name": "idle", "currentState": one, "nextState": two} for one, two in states]
        functions[0]["condition"] = {"not": {"lhs": {"value": "a.x"}, "op": "LEQ", "rhs": {"value": 3}}}
        functions[0]["outputs"] = [{"messageName": "m"}]
        functions[1]["inputs"] = [{"messageName": "m", "filter": {"lhs": {"value": "m.y"}, "op": "EQ", "rhs": {"value": "a.x"}}}]
        agents = [{"name": "A", "memory": [{"type": "int", "name": "x"}], "functions": functions}]
        messages = [{"name": "m", "variables": [{"type": "int", "name": "y"}]}]
        self.write("m.json", {"xmodel": {"messages": messages, "agents": agents}})
        graph = self.good("dot", "m.json").output
        for part in (
            'label="idle\\nstart → a\\nnot (x ≤ 3)"',
            'label="idle\\na → end"',
            '"A/function/0" -> "message/m" [style=dashed];',
            '"message/m" -> "A/function/1" [style=dashed, label="y = x"];',
            '"A/state/start" -> "A/function/0";',
            '"A/function/0" -> "A/state/a";',
        ):
            self.assertIn(part, graph)

    def test_refusals(self):
        self.assertEqual(self.refused("dot", "no.json"), "missing: no.json")


class CommandLine(FolderTest):
    """What holds of all commands."""

    def test_help_and_version(self):
        for command in COMMANDS:
            told = self.call(command, "--help")
            self.assertEqual((told.status, told.errors), (0, ""), command)
            self.assertIn("statuses: 0", told.output)
        self.assertEqual(self.call("--version").output.split()[0], "flamekit")
        self.assertTrue(all(command in self.call("--help").output for command in COMMANDS))

    def test_wrong_words(self):
        for words in ([], ["tables"], ["dot"], ["dot", "a", "b"], ["dot", "a", "--nothing"]):
            self.refused(*words, status=2)

    def test_a_pipe_that_ends(self):
        self.write("m.json", {"xmodel": {"agents": [{"name": f"A{number}"} for number in range(5000)]}})
        done = subprocess.run(f"{TOP / 'flamekit'} dot m.json | head -n 1", shell=True, capture_output=True, check=True)
        self.assertEqual((done.stdout, done.stderr), (b"digraph model {\n", b""))


if __name__ == "__main__":
    unittest.main()
