"""The command lint."""
import json
import os
import re
import unittest

from companion.tests.support import FOX, TOP, FolderTest

C = """int hunt() {
  DEN = CELLS + 1;
  SEEN[0]++;
  add_howl_message(DEN);
  return 0;
}
"""


class Lint(FolderTest):
    """A warning a line, and nothing where nothing is wrong."""

    def setUp(self):
        super().setUp()
        self.model = json.loads(json.dumps(FOX))
        self.xmodel = self.model["xmodel"]
        self.fox = self.xmodel["agents"][0]
        self.hunt = self.fox["functions"][0]
        self.write("fox.c", C)

    def told(self, *words):
        """The warnings, without those that a fox model has anyway."""
        self.write("m.json", json.dumps(self.model, indent=1))
        lines = self.good("lint", "m.json", *words).lines
        return [line for line in lines if not line.endswith("message howl is read by no function")]

    def texts(self, *words):
        """The warnings without their places."""
        return [re.sub(r"^[^:]+:[0-9]+: (/[^:]*: )?", "", line) for line in self.told(*words)]

    def test_nothing_is_wrong(self):
        self.assertEqual(self.told(), [])

    def test_keys_of_a_model(self):
        self.hunt["conditon"] = {}
        self.xmodel["agent"] = []
        self.hunt["condition"] = {"lhs": {"valeu": 1}, "op": "EQ", "rhs": {"value": 1}}
        self.assertEqual(self.texts(), [
            "unknown key agent: did you mean agents?",
            "unknown key conditon: did you mean condition?",
            "unknown key valeu: did you mean value?",
        ][1:] + ["unknown key agent: did you mean agents?"])

    def test_the_line_of_a_key(self):
        self.write("m.json", '{"xmodel": {\n "agents": [\n  {"name": "Fox", "memroy": []}]}}')
        self.assertEqual(self.good("lint", "m.json").lines, ["m.json:3: /xmodel/agents/0/memroy: unknown key memroy: did you mean memory?"])

    def test_states(self):
        self.fox["functions"].append({"name": "hunt", "currentState": "strat", "nextState": "end"})
        self.hunt["nextState"] = "ende"
        texts = self.texts()
        self.assertIn("Fox: no function leaves state ende, and none leaves end either: did you mean end?", texts)
        self.fox["functions"] = [self.hunt, {"name": "a", "currentState": "x", "nextState": "y"}, {"name": "b", "currentState": "y", "nextState": "x"}]
        self.assertIn("Fox: no agent comes to state x, which a leaves", self.texts())

    def test_messages(self):
        self.xmodel["messages"].append({"name": "bark"})
        self.assertEqual(self.texts(), ["message bark is written by no function", "message bark is read by no function"])

    def test_function_files(self):
        self.write("fox.c", C + "#define DEN 3\nint hnut() { return 0; }\nint twice(int n) { return n + n; }\n")
        self.assertEqual(self.told(), [
            "fox.c:8: no function of the model is named hnut: did you mean hunt?",
            "fox.c:7: #define DEN stands over the variable Fox.den",
        ])

    def test_variables(self):
        self.fox["memory"] += [{"type": "int", "name": "age"}, {"type": "int", "name": "home"}]
        self.write("fox.c", C.replace("return 0", "DEN += HOME; return 0"))
        self.assertEqual(self.texts(), [
            "Fox.age is neither read nor set by a function",
            "Fox.home is set by no function: it keeps what the population gives",
        ])
        self.write("p.json", {"states": {"environment": {"cells": 1}, "agents": [{"name": "Fox", "memory": {"home": 1}}]}})
        self.assertEqual(self.texts("p.json"), ["Fox.age is neither read nor set by a function"])
        self.write("fox.c", C.replace("return 0", "DEN += HOME; add_Fox_agent(DEN, 1, HOME); return 0"))
        self.assertIn("Fox.home is set by no function: it keeps what the population gives or a birth", self.texts())
        self.write("fox.c", C.replace("return 0", "DEN += HOME; return 0"))
        self.write("p.json", {"states": {"environment": {"cells": 1}, "agents": [{"name": "Fox", "memory": {}}]}})
        self.assertIn("Fox.home is set by no function, and the population leaves it out: it is always 0", self.texts("p.json"))

    def test_population_and_out(self):
        self.write("out_7.json", {"states": {"itno": 7, "agnets": [], "agents": [{"name": "Fox", "memry": {}}]}})
        self.assertEqual(self.told("out_7.json", "--out", "out_"), [
            "out_7.json:1: /states/agnets: unknown key agnets: did you mean agents?",
            "out_7.json:1: /states/agents/0/memry: unknown key memry: did you mean memory?",
            "out_7.json:1: /states/environment: the constant cells is left out: it is 0",
            "out_7.json:1: a run with OUT out_ replaces this file in iteration 7",
        ])
        self.assertIn("nowhere/o:1: the folder nowhere is not there, and flame makes none", self.told("out_7.json", "--out", "nowhere/o"))

    def test_what_is_no_population(self):
        line = "there is no object states: flame reads no population here"
        self.assertEqual(self.texts("m.json"), ["unknown key xmodel", line])
        for value in ([], None, {"states": []}, {}):
            self.write("p.json", json.dumps(value))
            self.assertEqual(self.texts("p.json"), [line])
        self.write("p.json", '{"staets": {"agents": []}}')
        self.assertEqual(self.texts("p.json"), ["unknown key staets: did you mean states?", line])
        self.assertEqual(self.refused("lint", "m.json", ""), "missing: ")

    def test_the_examples(self):
        for name, model in (("bees", "bees.json"), ("market", "market.json"), ("epidemic", "epidemic.json"), ("forest", "forest.json")):
            os.chdir(TOP / "examples" / name)
            lines = self.good("lint", model).lines
            self.assertTrue(all("is set by no function: it keeps what the population gives" in line for line in lines), lines)
        os.chdir(self.folder)

    def test_refusals(self):
        self.assertEqual(self.refused("lint", "no.json"), "missing: no.json")
        self.write("m.json", "{")
        self.assertEqual(self.refused("lint", "m.json"), "no JSON: m.json: line 1, column 2")
        self.write("m.json", "[]")
        self.assertEqual(self.refused("lint", "m.json"), "no model: m.json has no object xmodel")


if __name__ == "__main__":
    unittest.main()
