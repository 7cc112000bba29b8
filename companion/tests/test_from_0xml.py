"""Starting populations of FLAME are converted, and what does not fit the model is listed."""
import json
import os
import unittest

from companion import findings
from companion.tests.converting import Case


class Population(Case):
    """Populations of the meadow."""

    def setUp(self):
        super().setUp()
        self.assertEqual(self.call("from-xmml", "meadow.xml", "-o", "meadow.json")[0], 0)

    def test_named(self):
        self.assertEqual(self.call("from-0xml", "0.xml", "meadow.json", "-o", "start.json"), (0, "", ""))
        states = json.loads(self.text("start.json"))["states"]
        self.assertEqual((states["itno"], states["environment"]), (12, {"side": 9, "meal": 2}))
        fox, hare, _, last = states["agents"]
        self.assertEqual(fox, {"name": "Fox", "memory": {
            "id": 1, "at_x": 3, "at_y": 4, "home_low_x": 0, "home_low_y": 0, "home_high_x": 5, "home_high_y": 5,
            "home_walked": [0, 0, 0, 7], "energy": -1, "caught": [0, 0, 0], "sunday": 1,
        }})
        self.assertEqual(hare, {"name": "Hare", "memory": {"id": 10, "at_x": 2, "at_y": 8, "weight": 30}})
        self.assertEqual(last["memory"], {"id": 12, "at_x": 0, "at_y": 0, "weight": 0})

    def test_rows(self):
        status, out, err = self.call("from-0xml", "0.xml", "meadow.json", "--format", "2")
        self.assertEqual((status, err), (0, ""))
        self.assertEqual(json.loads(out), {"states": {"version": 2, "itno": 12, "environment": [9, 2], "agents": [
            {"name": "Fox", "rows": [[1, 3, 4, 0, 0, 5, 5, 0, 0, 0, 7, -1, 0, 0, 0, 1]]},
            {"name": "Hare", "rows": [[10, 2, 8, 30], [11, 7, 1, 5], [12, 0, 0, 0]]},
        ]}})

    def test_formats_agree(self):
        """The program reads both formats as one population."""
        for form in ("1", "2"):
            self.call("from-0xml", "0.xml", "meadow.json", "-o", f"{form}.json", "--format", form)
            self.assertEqual(self.flame("migrate", "meadow.json", f"{form}.json", f"m{form}.json")[0], 0)
        self.assertEqual(self.text("m1.json"), self.text("m2.json"))

    def test_environment_behind_agents(self):
        self.put("a.xml", "<states><xagent><name>Hare</name></xagent><environment><side>4</side></environment></states>")
        states = json.loads(self.call("from-0xml", "a.xml", "meadow.json")[1])["states"]
        self.assertEqual((states["itno"], states["environment"], len(states["agents"])), (0, {"side": 4, "meal": 0}, 1))

    def test_empty(self):
        self.put("a.xml", "<states/>")
        for form in ("1", "2"):
            self.assertEqual(self.call("from-0xml", "a.xml", "meadow.json", "-o", "s.json", "--format", form)[0], 0)
            self.assertEqual(self.flame("run", "meadow.json", "s.json", "o", "1"), (0, "iteration 1 agents 0 messages 0\n", ""))

    def test_listed(self):
        words = ("from-0xml", "listed0.xml", "meadow.json", "-o", "start.json")
        self.assertEqual(self.call(*words), (1, "", self.text("listed0.txt")))
        self.assertFalse(os.path.exists("start.json"))
        self.assertEqual(self.call(*words[:3])[:2], (1, ""))

    def test_long_number(self):
        self.put("a.xml", "<states><xagent><name>Hare</name>\n<id>" + "9" * 5000 + "</id></xagent></states>")
        told = self.call("from-0xml", "a.xml", "meadow.json")[2].splitlines()[0]
        self.assertEqual(
            told,
            "a.xml: line 2: Hare.id is " + "9" * 40 + ", which is outside -2147483648 to 2147483647: count in larger units",
        )

    def test_many_listed(self):
        """Of very many the first are told."""
        self.put("a.xml", "<states>\n" + "<xagent><name>Fix</name></xagent>\n" * 2500 + "</states>")
        status, out, err = self.call("from-0xml", "a.xml", "meadow.json")
        lines = err.splitlines()
        self.assertEqual((status, out, len(lines)), (1, "", findings.MOST_TOLD + 1))
        self.assertEqual(lines[-1], "flamekit: 2500 things are listed, of which the first 1000 are told, and nothing is written")

    def test_many_agents(self):
        """Pieces of a file join, wherever they are cut."""
        agent = "<xagent><name>Hare</name><id>{0}</id><at>{{1,{0}}}</at></xagent>\n"
        self.put("a.xml", "<states>" + "".join(map(agent.format, range(9000))) + "</states>")
        rows = json.loads(self.call("from-0xml", "a.xml", "meadow.json", "--format", "2")[1])["states"]["agents"][1]["rows"]
        self.assertEqual(rows, [[number, 1, number, 0] for number in range(9000)])

    def refused(self, text, line):
        self.put("a.xml", text)
        self.assertEqual(self.call("from-0xml", "a.xml", "meadow.json"), (1, "", f"flamekit: {line}\n"))

    def test_damaged(self):
        self.refused("<states><xagent>", "no XML: a.xml: line 1, column 17: no element found")
        self.refused("<xmodel/>", "no population of FLAME: a.xml: line 1: the root is <xmodel> in place of <states>")
        self.refused(
            '<!DOCTYPE s [<!ENTITY e "1">]><states/>',
            "no XML that is read here: a.xml: line 1: the entity e: write out what it stands for",
        )
        self.put("a.xml", "<states/>")
        self.assertEqual(self.call("from-0xml", "a.xml", "none.json"), (1, "", "flamekit: missing: none.json\n"))
        self.assertEqual(self.call("from-0xml", "none.xml", "meadow.json"), (1, "", "flamekit: missing: none.xml\n"))
        self.assertEqual(
            self.call("from-0xml", "a.xml", "meadow.xml"), (1, "", "flamekit: no JSON: meadow.xml: line 1, column 1\n")
        )
        self.assertEqual(
            self.call("from-0xml", "a.xml", "meadow.json", "-o", "meadow.json"),
            (1, "", "flamekit: would write over an input: meadow.json\n"),
        )
        self.assertEqual(self.call("from-0xml", "a.xml")[0], 2)
        wide = {"type": "int", "name": "x", "length": 99999999999}
        self.put("w.json", json.dumps({"xmodel": {"agents": [{"name": "A", "memory": [wide]}]}}))
        self.assertEqual(
            self.call("from-0xml", "a.xml", "w.json"), (1, "", "flamekit: no model: w.json: A has more than 4096 numbers\n")
        )


if __name__ == "__main__":
    unittest.main()
