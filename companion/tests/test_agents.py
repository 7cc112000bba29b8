"""The command agents."""
import csv
import json
import os
import stat
import subprocess
import sys
import threading
import unittest

from companion.tests.support import FOX, TOP, FolderTest, first_format, needs_program, second_format

FOXES = [(4, [0, 7, 7]), (9, [1, 0, 0])]


class Hand(FolderTest):
    """Answers from hand."""

    def setUp(self):
        super().setUp()
        self.write("m.json", FOX)

    def test_both_formats(self):
        self.write("one.json", first_format(1, FOXES))
        self.write("two.json", second_format(1, FOXES))
        wanted = "den,seen[0],seen[1],seen[2]\r\n4,0,7,7\r\n9,1,0,0\r\n"
        self.good("agents", "m.json", "one.json", "--csv", "t.csv")
        self.assertEqual(self.read("t.csv"), wanted)
        self.assertEqual(self.good("agents", "m.json", "two.json").output, wanted)

    def test_a_pipe_with_a_name_stays_a_pipe(self):
        self.write("one.json", first_format(1, FOXES))
        os.mkfifo("pipe")
        found = []
        reads = threading.Thread(target=lambda: found.append(self.read("pipe")))
        reads.start()
        self.good("agents", "m.json", "one.json", "--csv", "pipe")
        reads.join()
        self.assertEqual(found, ["den,seen[0],seen[1],seen[2]\r\n4,0,7,7\r\n9,1,0,0\r\n"])
        self.assertTrue(stat.S_ISFIFO(os.stat("pipe").st_mode))

    def test_an_output_that_takes_nothing(self):
        self.write("one.json", first_format(1, FOXES))
        with open("/dev/full", "wb") as full:
            for words in (["agents", "m.json", "one.json"], ["table", "m.json", "one.json"], ["dot", "m.json"]):
                done = subprocess.run(
                    [sys.executable, str(TOP / "flamekit"), *words], stdout=full, stderr=subprocess.PIPE, text=True, check=False
                )
                self.assertEqual((done.returncode, done.stderr), (1, "flamekit: standard output: No space left on device\n"))

    def test_a_link_stays_a_link(self):
        self.write("one.json", first_format(1, FOXES))
        os.mkdir("kept")
        for name in ("kept/t.csv", "kept/u.csv"):
            os.symlink(name, "link.csv")
            if name == "kept/t.csv":
                self.write(name, "before")
            self.good("agents", "m.json", "one.json", "--csv", "link.csv")
            self.assertTrue(os.path.islink("link.csv"))
            self.assertTrue(self.read(name).startswith("den,"))
            os.unlink("link.csv")
        self.assertEqual(sorted(os.listdir("kept")), ["t.csv", "u.csv"])

    def test_what_is_named_as_an_open_file_goes_there(self):
        self.write("one.json", first_format(1, FOXES))
        done = self.started("agents", "m.json", "one.json", "--csv", "/proc/self/fd/1")
        self.assertEqual((done.returncode, done.stderr), (0, b""))
        self.assertEqual(done.stdout.splitlines()[1], b"4,0,7,7")
        with open("kept.txt", "w") as kept:
            kept.write("before\n")
            kept.flush()
            words = [sys.executable, str(TOP / "flamekit"), "agents", "m.json", "one.json", "--csv", "/proc/self/fd/1"]
            subprocess.run(words, stdout=kept, check=True)
        self.assertTrue(self.read("kept.txt").startswith("before\nden,"))

    def test_several_types(self):
        model = json.loads(json.dumps(FOX))
        model["xmodel"]["agents"].append({"name": "Den", "memory": [{"type": "int", "name": "den"}, {"type": "int", "name": "warm"}]})
        self.write("m.json", model)
        states = first_format(1, FOXES[:1])
        states["states"]["agents"].append({"name": "Den", "memory": {"warm": 1}})
        self.write("o.json", states)
        told = self.good("agents", "m.json", "o.json")
        self.assertEqual(told.output, "agent,den,seen[0],seen[1],seen[2],warm\r\nFox,4,0,7,7,\r\nDen,0,,,,1\r\n")
        self.assertEqual(self.good("agents", "m.json", "o.json", "--type", "Den").output, "den,warm\r\n0,1\r\n")

    def test_data_types_and_further_files(self):
        self.write("m.json", {"xmodel": {
            "environment": {"dataTypes": [
                {"name": "point", "variables": [{"type": "int", "name": "x"}, {"type": "int", "name": "y"}]},
                {"name": "way", "variables": [{"type": "point", "name": "from"}, {"type": "int", "name": "long", "length": 2}]},
            ]},
            "models": [{"file": "more.json"}, {"file": "late.json", "enabled": "false"}],
        }})
        self.write("more.json", {"xmodel": {"agents": [{"name": "Fox", "memory": [{"type": "way", "name": "walk"}]}]}})
        self.write("o.json", {"states": {"agents": [{"name": "Fox", "memory": {"walk_from_y": 3, "walk_long": [5, 6]}}]}})
        told = self.good("agents", "m.json", "o.json")
        self.assertEqual(told.output, "walk_from_x,walk_from_y,walk_long[0],walk_long[1]\r\n0,3,5,6\r\n")

    def test_nothing_is_left_of_a_refusal(self):
        self.write("o.json", '{"states":{"agents":[{"name":"Fox","memory":{"den":1}},{"name":"Fox","memory":{"age":1}}]}}')
        self.refused("agents", "m.json", "o.json", "--csv", "t.csv")
        self.assertEqual(sorted(os.listdir(".")), ["m.json", "o.json"])

    def test_refusals(self):
        self.write("o.json", first_format(1, FOXES))
        self.assertEqual(self.refused("agents", "m.json", "o.json", "--csv", "m.json"), "would write over an input: m.json")
        self.assertEqual(self.refused("agents", "m.json", "no.json"), "missing: no.json")
        self.assertEqual(self.refused("agents", "m.json", "o.json", "--type", "Hare"), "the model has no agent type Hare: its types are Fox")
        self.refused("agents", "m.json", status=2)


@needs_program
class Examples(FolderTest):
    """An example, beside what json gives."""

    def test_forest(self):
        self.example("forest", "forest.json", 3)
        self.good("agents", "forest.json", "out_3.json", "--type", "Patch", "--csv", "t.csv")
        with open("t.csv", newline="") as file:
            rows = [{key: int(value) for key, value in row.items()} for row in csv.DictReader(file)]
        wanted = []
        for agent in json.loads(self.read("out_3.json"))["states"]["agents"]:
            if agent["name"] == "Patch":
                memory = agent["memory"]
                wanted.append({"cell": memory["cell"], "state": memory["state"], "seed": memory["seed"],
                               **{f"near[{place}]": value for place, value in enumerate(memory["near"])}})
        self.assertEqual(rows, wanted)


if __name__ == "__main__":
    unittest.main()
