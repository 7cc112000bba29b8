"""The command sweep."""
import csv
import json
import os
import signal
import subprocess
import sys
import time
import unittest

from companion.tests.support import TOP, FolderTest, needs_program, program


@needs_program
class Epidemic(FolderTest):
    """The epidemic, with other constants and seeds."""

    def setUp(self):
        super().setUp()
        self.example("epidemic", "epidemic.json", 0)

    def sweep(self, **more):
        own = {
            "model": "epidemic.json", "population": "start.json", "iterations": 6, "out": "sweep",
            "constants": {"risk": [2, 60], "illness": {"from": 4, "to": 8, "step": 4}},
            "table": {"count": ["Person.health"]},
        }
        own.update(more)
        self.write("sweep.json", own)
        told = self.good("sweep", "sweep.json", "--flame", program(), "--at-once", "2")
        with open("sweep/table.csv", newline="") as file:
            return told, list(csv.DictReader(file))

    def test_every_combination(self):
        told, rows = self.sweep()
        self.assertEqual(told.output, "4 runs, 0 with another status than 0: sweep/table.csv\n")
        self.assertEqual([(row["risk"], row["illness"]) for row in rows], [("2", "4"), ("2", "8"), ("60", "4"), ("60", "8")])
        for row in rows:
            self.assertEqual((row["status"], row["line"], row["iteration"]), ("0", "", "6"))
            self.assertEqual(sum(int(row.get(f"Person.health={value}") or 0) for value in range(3)), 600)
        self.assertGreater(int(rows[0]["Person.health=0"]), int(rows[3]["Person.health=0"]))

    def test_a_run_is_what_flame_gives_by_hand(self):
        _, rows = self.sweep(constants={"risk": [60]})
        states = json.loads(self.read("start.json"))
        states["states"]["environment"]["risk"] = 60
        self.write("by_hand.json", states)
        os.system(f"{program()} run epidemic.json by_hand.json hand_ 6 > lines")
        self.assertEqual(self.read("sweep/000001/out_6.json"), self.read("hand_6.json"))
        self.assertEqual(self.read("sweep/000001/lines"), self.read("lines"))

    def test_what_stands_whole_is_not_run_again(self):
        self.sweep()
        before = os.stat("sweep/000002/out_6.json").st_mtime_ns
        os.unlink("sweep/000001/whole")
        os.unlink("sweep/000001/out_6.json")
        self.sweep()
        self.assertEqual(os.stat("sweep/000002/out_6.json").st_mtime_ns, before)
        self.assertTrue(os.path.exists("sweep/000001/out_6.json"))
        self.sweep(iterations=5)
        self.assertFalse(os.path.exists("sweep/000002/out_6.json"))

    def test_repetitions_draw_other_seeds(self):
        _, rows = self.sweep(constants={"risk": [60]}, repetitions=3, table={"count": ["Person.health"], "iterations": "all"})
        self.assertEqual(len(rows), 18)
        one, two, three = (self.read(f"sweep/{number:06d}/start.json") for number in (1, 2, 3))
        self.assertEqual(len({one, two, three}), 3)

    def test_variables_and_faults(self):
        self.write("epidemic.c", self.read("epidemic.c").replace("int ", "int ", 1))
        _, rows = self.sweep(constants={}, variables={"Person.health": [0, 1]})
        self.assertEqual(rows[0]["Person.health=0"], "600")
        self.write("sweep.json", {"model": "epidemic.json", "population": "start.json", "iterations": 1, "out": "bad",
                                  "constants": {"places": [0]}})
        told = self.call("sweep", "sweep.json", "--flame", program())
        self.assertEqual(told.status, 1)
        with open("bad/table.csv", newline="") as file:
            row = next(csv.DictReader(file))
        self.assertEqual(row["status"], "3")
        self.assertIn("DivideByZero", row["line"])

    def test_refusals(self):
        cases = [
            ({"constants": {"grass": [1]}}, "constants: the model has no constant grass"),
            ({"variables": {"Person.health[0]": [1]}}, "Person has no variable health[0]: its variables are health, days, place, seed"),
            ({"constants": {"risk": []}}, "constants.risk: wanted whole numbers of int: one, a list, or from, to and step"),
            ({"iterations": -1}, "iterations: wanted a whole number from 0 to 1000000"),
            ({"table": {"count": ["Hare"]}}, "the model has no agent type Hare: its types are Person"),
            ({"tabel": {}}, "sweep.json: tabel: wanted one of model, population, iterations, out, constants, variables, repetitions, course, seed, table, options"),
            ({"model": "no.json"}, "missing: no.json"),
            ({"constants": {"risk": {"from": 1, "to": 2000000000}}}, "constants.risk: 2000000000 values are more than 1000000"),
            ({"seed": 3}, "seed: wanted a name"),
            ({"seed": "sed", "repetitions": 2}, 'repetitions: no agent type has a single variable sed, so all would be the same: name the seed by "seed"'),
            ({"out": "epidemic.c"}, "cannot be written: epidemic.c: File exists"),
            ({"out": "epidemic.c/sweep"}, "cannot be written: epidemic.c/sweep: Not a directory"),
            ({"out": "taken"}, "cannot be written: TAKEN: Is a directory"),
        ]
        os.makedirs("taken/000001/kept")
        for more, line in cases:
            own = {"model": "epidemic.json", "population": "start.json", "iterations": 1, "out": "sweep", **more}
            self.write("sweep.json", own)
            taken = os.path.abspath("taken/000001/kept")
            self.assertEqual(self.refused("sweep", "sweep.json", "--flame", program()).replace(taken, "TAKEN"), line)

    def test_the_model_is_checked_first(self):
        self.write("epidemic.c", "int meet() {")
        self.write("sweep.json", {"model": "epidemic.json", "population": "start.json", "iterations": 1, "out": "sweep"})
        told = self.refused("sweep", "sweep.json", "--flame", program())
        self.assertTrue(told.startswith("flame check epidemic.json: syntax: epidemic.c: line 1: Syntax"), told)
        self.assertEqual(self.refused("sweep", "sweep.json", "--flame", "nothing").partition(": ")[0], "cannot be run")

    def test_the_runs_are_listed(self):
        self.write("sweep.json", {"model": "epidemic.json", "population": "start.json", "iterations": 1, "out": "sweep",
                                  "constants": {"risk": [1, 2]}, "repetitions": 2})
        told = self.good("sweep", "sweep.json", "--list")
        self.assertEqual([line.split() for line in told.lines], [["run", "risk", "repetition"], ["1", "1", "1"], ["2", "1", "2"], ["3", "2", "1"], ["4", "2", "2"]])
        self.assertFalse(os.path.exists("sweep"))

    def test_a_constant_with_the_name_of_a_column(self):
        model = json.loads(self.read("epidemic.json").replace('"name": "risk"', '"name": "repetition"'))
        self.write("epidemic.json", model)
        self.write("epidemic.c", self.read("epidemic.c").replace("RISK", "REPETITION"))
        self.write("start.json", self.read("start.json").replace('"risk":', '"repetition":'))
        _, rows = self.sweep(constants={"repetition": [5, 7]}, repetitions=2, iterations=1)
        self.assertEqual([(row["constants.repetition"], row["repetition"]) for row in rows], [("5", "1"), ("5", "2"), ("7", "1"), ("7", "2")])
        place = [own["name"] for own in model["xmodel"]["environment"]["constants"]].index("repetition")
        given = [json.loads(self.read(f"sweep/00000{run}/start.json"))["states"]["environment"][place] for run in (1, 2, 3, 4)]
        self.assertEqual(given, [5, 5, 7, 7])

    def test_what_stops_a_sweep_stops_its_runs(self):
        self.write("slow", f"#!/bin/sh\nif [ $1 = run ]; then echo $$ >>started; exec sleep 60; fi\nexec {program()} \"$@\"\n")
        os.chmod("slow", 0o755)
        self.write("sweep.json", {"model": "epidemic.json", "population": "start.json", "iterations": 1, "out": "sweep", "repetitions": 4})
        words = [sys.executable, str(TOP / "flamekit"), "sweep", "sweep.json", "--flame", "./slow", "--at-once", "2"]
        # Tests that a shell has begun behind & ignore SIGINT, and the sweep would ignore it too.
        process = subprocess.Popen(words, stdout=subprocess.PIPE, stderr=subprocess.PIPE, text=True,
                                   preexec_fn=lambda: signal.signal(signal.SIGINT, signal.SIG_DFL))
        until = time.monotonic() + 60
        while not (os.path.exists("started") and len(self.read("started").split()) == 2) and time.monotonic() < until:
            time.sleep(0.05)
        process.send_signal(signal.SIGINT)
        _, errors = process.communicate(timeout=40)
        self.assertEqual((process.returncode, errors), (1, "flamekit: interrupted\n"))
        numbers = self.read("started").split()
        self.assertEqual(len(numbers), 2)
        for number in numbers:
            self.assertRaises(ProcessLookupError, os.kill, int(number), 0)
        self.assertFalse(os.path.exists("sweep/000001/whole"))


if __name__ == "__main__":
    unittest.main()
