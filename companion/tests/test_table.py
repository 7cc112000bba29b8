"""The command table."""
import json
import os
import shutil
import subprocess
import sys
import threading
import unittest

from companion.tests.support import FOX, TOP, FolderTest, first_format, needs_program, second_format

FOXES = [(4, [0, 7, 7]), (9, [1, 0, 0]), (-3, [0, 0, 5])]


class Hand(FolderTest):
    """Answers from hand."""

    def setUp(self):
        super().setUp()
        self.write("m.json", FOX)
        self.write("o1.json", first_format(1, FOXES, 2))
        self.write("o2.json", second_format(2, FOXES + [(9, [0, 0, 0])], 1))
        self.write("o10.json", first_format(10, []))

    def test_agents_and_messages(self):
        told = self.good("table", "m.json", "o10.json", "o1.json", "o2.json")
        self.assertEqual(told.lines, ["iteration Fox messages(howl)", "        1   3              2", "        2   4              1", "       10   0              0"])

    def test_a_prefix_stands_for_all_files(self):
        self.assertEqual(self.good("table", "m.json", "o").output, self.good("table", "m.json", "o1.json", "o2.json", "o10.json").output)

    def test_choices(self):
        words = ("--sum", "Fox.den", "--mean", "Fox.den", "--min", "Fox.den", "--max", "Fox.seen[2]", "--count", "Fox[den>0]", "--csv", "t.csv")
        self.good("table", "m.json", "o", *words)
        self.assertEqual(
            self.read("t.csv"),
            "iteration,sum(Fox.den),mean(Fox.den),min(Fox.den),max(Fox.seen[2]),Fox[den>0]\r\n"
            "1,10,3.333333,-3,7,2\r\n2,19,4.75,-3,7,3\r\n10,0,,,,0\r\n",
        )

    def test_counts_by_value(self):
        told = self.good("table", "m.json", "o1.json", "o2.json", "--count", "Fox.den", "--as", "den", "--csv", "-")
        self.assertEqual(told.output, "iteration,den=-3,den=4,den=9\r\n1,1,1,1\r\n2,1,1,2\r\n")

    def test_the_first_column_is_named(self):
        told = self.good("table", "m.json", "o1.json", "--as", "day", "--count", "Fox", "--as", "foxes", "--csv", "-")
        self.assertEqual(told.output, "day,foxes\r\n1,3\r\n")

    def test_where(self):
        told = self.good("table", "m.json", "o2.json", "--sum", "Fox.seen[0]", "--count", "Fox", "--where", "Fox.den=9", "--csv", "-")
        self.assertEqual(told.output, "iteration,sum(Fox.seen[0]),Fox\r\n2,1,2\r\n")

    def test_sums_are_exact(self):
        self.write("big1.json", first_format(1, [(2147483647, [0, 0, 0])] * 5000 + [(1, [0, 0, 0])]))
        told = self.good("table", "m.json", "big1.json", "--sum", "Fox.den", "--mean", "Fox.den", "--csv", "-")
        self.assertEqual(told.output.splitlines()[1], "1,10737418235001,2147054236.152969")

    def test_headings_in_quotes(self):
        told = self.good("table", "m.json", "o1.json", "--count", "Fox", "--as", 'a "red", fox', "--csv", "-")
        self.assertEqual(told.lines[0], 'iteration,"a ""red"", fox"')

    def test_blanks_and_order_of_keys(self):
        self.write("o3.json", '{ "states" : {"agents":[ {"memory":{"den":"5"},"name":"Fox"} ,{"name":"Fox"}], "itno" : 3 } }')
        told = self.good("table", "m.json", "o3.json", "--sum", "Fox.den", "--count", "Fox", "--csv", "-")
        self.assertEqual(told.lines[1], "3,5,2")

    def test_a_version_behind_its_agents(self):
        self.write("o3.json", '{"states":{"itno":3,"agents":[{"name":"Fox","rows":[[1,2,3,4]]}],"version":2}}')
        self.assertEqual(self.good("table", "m.json", "o3.json", "--sum", "Fox.seen[2]", "--csv", "-").lines[1], "3,4")

    def test_standard_input(self):
        done = self.started("table", "m.json", "-", given=self.read("o1.json").encode())
        self.assertEqual((done.returncode, done.stdout.splitlines()[1].split()), (0, [b"1", b"3", b"2"]))

    def test_a_pipe_with_a_name(self):
        os.mkfifo("pipe")
        filled = threading.Thread(target=self.write, args=("pipe", self.read("o1.json")))
        filled.start()
        done = self.started("table", "m.json", "pipe")
        filled.join()
        self.assertEqual((done.returncode, done.stdout.splitlines()[1].split()), (0, [b"1", b"3", b"2"]))

    def test_refusals(self):
        cases = {
            ("m.json", "nothing"): "missing: nothing is no file, and no file is named nothingNUMBER.json",
            ("no.json", "o1.json"): "missing: no.json",
            ("m.json", "o1.json", "o1.json"): "o1.json and o1.json are both of iteration 1",
            ("m.json", "o1.json", "--count", "Hare"): "the model has no agent type Hare: its types are Fox",
            ("m.json", "o1.json", "--sum", "Fox.age"): "Fox has no variable age: its variables are den, seen",
            ("m.json", "o1.json", "--sum", "Fox.seen"): "Fox.seen is an array: take one of seen[0] to seen[2]",
            ("m.json", "o1.json", "--sum", "Fox.seen[3]"): "Fox.seen has no place 3: its length is 3",
            ("m.json", "o1.json", "--csv", "o1.json"): "would write over an input: o1.json",
            ("m.json", "o1.json", "--csv", "no/t.csv"): "cannot be written: no/t.csv: No such file or directory",
        }
        for words, line in cases.items():
            self.assertEqual(self.refused("table", *words), line)

    def test_wrong_words(self):
        for words in (["m.json"], ["m.json", "o1.json", "--sum", "Fox"], ["m.json", "o1.json", "--where", "Fox.den"]):
            self.refused("table", *words, status=2)

    def test_damaged_files(self):
        damaged = {
            '{"states":{"itno":1,"agents":[{"name":"Fox","memory":{"den":4}}': "no population: d.json: line 1, column 64",
            '{"states":{"agents":[{"name":"Hare"}]}}': "no population of the model: d.json: the model has no agent type Hare",
            '{"states":{"agents":[{"name":"Fox","memory":{"age":1}}]}}': "no population of the model: d.json: Fox has no variable age",
            '{"states":{"agents":[{"name":"Fox","memory":{"den":1.5}}]}}': "no population of the model: d.json: Fox.den is no whole number",
            '{"states":{"version":2,"agents":[{"name":"Fox","rows":[[1,2,3]]}]}}': "no population of the model: d.json: a row of Fox has not 4 numbers",
            '{"states":{"version":3}}': "no population of the model: d.json: its version is neither 1 nor 2",
            "": "no population: d.json: line 1, column 1",
            "[]": "no population: d.json: line 1, column 1",
        }
        for text, line in damaged.items():
            self.write("d.json", text)
            self.assertEqual(self.refused("table", "m.json", "d.json"), line)
        with open("d.json", "wb") as file:
            file.write(b'{"states":{"itno":1}}\xff')
        self.assertEqual(self.refused("table", "m.json", "d.json"), "no UTF-8: d.json: byte 21")

    def test_prefixes_of_a_file(self):
        whole = self.read("o1.json")
        for end in range(0, len(whole), 7):
            self.write("d.json", whole[:end])
            self.refused("table", "m.json", "d.json", "--count", "Fox.den")


@needs_program
class Examples(FolderTest):
    """The examples, beside what jq prints."""

    def jq(self, text, *names):
        if shutil.which("jq") is None:
            self.skipTest("jq is not there")
        return subprocess.run(["jq", "-r", text, *names], check=True, capture_output=True, text=True).stdout

    def test_epidemic(self):
        self.example("epidemic", "epidemic.json", 12)
        names = [f"out_{turn}.json" for turn in range(1, 13)]
        words = [part for value in range(3) for part in ("--count", f"Person[health={value}]")]
        told = self.good("table", "epidemic.json", "out_", *words)
        wanted = self.jq(
            "[.states.itno] + [range(3) as $h | [.states.agents[] | select(.memory.health == $h)] | length] | join(\" \")", *names
        )
        self.assertEqual([line.split() for line in told.lines[1:]], [line.split() for line in wanted.splitlines()])

    def test_both_formats_are_one(self):
        self.example("bees", "bees.json", 12, "--format", "2")
        for turn in (6, 12):
            shutil.copy(f"out_{turn}.json", f"two_{turn}.json")
        self.example("bees", "bees.json", 12)
        words = ("--sum", "Flower.nectar", "--mean", "Bee.load", "--count", "Bee.at_x", "--csv", "-")
        self.assertEqual(self.good("table", "bees.json", "two_", *words).output, self.good("table", "bees.json", "out_6.json", "out_12.json", *words).output)


class Memory(FolderTest):
    """Many files take no more memory than a few."""

    def peak(self, *names):
        code = (
            "import resource, sys; sys.path.insert(0, sys.argv[1]); from companion.commands import main; "
            "main(sys.argv[2:]); print(resource.getrusage(resource.RUSAGE_SELF).ru_maxrss)"
        )
        done = subprocess.run([sys.executable, "-c", code, str(TOP), *names], check=True, capture_output=True, text=True)
        return int(done.stdout.splitlines()[-1])

    def test_a_thousand_files_of_a_megabyte(self):
        self.write("m.json", FOX)
        foxes = [(number, [number % 7, 0, 1]) for number in range(200)]
        forms = [json.dumps(form(0, foxes)).replace('"itno": 0', '"itno": %d') for form in (first_format, second_format)]
        for turn in range(1, 1001):
            text = forms[turn % 2] % turn
            self.write(f"o{turn}.json", text + " " * (1_000_000 - len(text)))
        words = ("table", "m.json", "--mean", "Fox.den", "--csv", "t.csv")
        few, many = self.peak(*words, "o1.json", "o2.json"), self.peak(*words, "o")
        self.assertEqual(self.read("t.csv").count("\n"), 1001)
        self.assertLess(many, few * 1.2)


if __name__ == "__main__":
    unittest.main()
