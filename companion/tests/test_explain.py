"""The command explain, on the lines that the program itself gives, and on every row of the page of refusals."""
import json
import re
import subprocess
import unittest

from companion.tests.support import FOX, TOP, FolderTest, needs_program, program


class Shown(FolderTest):
    """What is shown of a line."""

    def explained(self, line, *more):
        told = self.good("explain", line, *more)
        self.assertEqual(told.lines[0], line)
        return told.output

    def marked(self, output):
        """The places: file, line and column, and the text that is marked."""
        found = []
        lines = output.splitlines()
        for place, line in enumerate(lines):
            if re.fullmatch(r" *\^+", line):
                name = lines[place - 2]
                found.append((name, lines[place - 1][line.index("^"):line.rindex("^") + 1]))
        return found

    def test_shape(self):
        self.write("m.json", '{"xmodel": {\n  "agents": [{"name": "red fox"}]}}')
        output = self.explained("shape: m.json: /xmodel/agents/0/name: wanted Name", "m.json")
        self.assertEqual(self.marked(output), [("m.json:2:23", '"red fox"')])
        self.assertIn("Take a name that C could have", output)

    def test_a_long_line_is_shown_around_the_place(self):
        agents = [{"name": "Fox", "memory": {"den": number}} for number in range(3000)]
        agents[1500]["memory"] = {"dne": 0}
        self.write("p.json", {"states": {"agents": agents}})
        output = self.explained("population: p.json: /states/agents/1500/memory/dne: UnknownVariable")
        self.assertEqual([text for _, text in self.marked(output)], ['"dne"'])
        self.assertIn('{"dne": 0}', output)
        self.assertLess(max(map(len, output.splitlines())), 400)

    def test_a_key_that_is_missing(self):
        self.write("m.json", '{"xmodel": {\n  "agents": [{"memory": []}]}}')
        output = self.explained("shape: m.json: /xmodel/agents/0/name: wanted Name", "m.json")
        self.assertIn("The key name is missing in what begins here.", output)
        self.assertEqual(self.marked(output)[0][0], "m.json:2:14")

    def test_names_of_several_files(self):
        self.write("m.json", {"xmodel": {"messages": [{"name": "a"}], "models": [{"file": "b.json"}]}})
        self.write("b.json", '{"xmodel": {"messages": [\n {"name": "a"},\n {"name": "b"},\n {"name": "b"}]}}')
        output = self.explained("name: m.json: /xmodel/messages/2/name: Duplicate: b", "m.json")
        self.assertEqual(self.marked(output), [("b.json:4:11", '"b"')])

    def test_tokens_bytes_and_words(self):
        self.write("fox.c", "#define N 5\nint hunt() { /* x */\n  ENERGY = ;\n}\n")
        self.assertEqual(self.marked(self.explained("syntax: fox.c: line 3: Syntax at token 7")), [("fox.c:3:12", ";")])
        self.assertEqual(self.marked(self.explained("lex: fox.c: BadByte at byte 14")), [("fox.c:2:3", "t")])
        self.assertEqual(self.marked(self.explained("check: fox.c: line 3: UnknownName: ENERGY")), [("fox.c:3:3", "ENERGY")])

    def test_rows_of_one_place(self):
        self.write("fox.c", "int hunt() { return 1 ? 2 : 3; }\n")
        self.assertNotIn("byte order", self.explained("lex: fox.c: BadByte at byte 22"))
        self.assertIn("byte order", self.explained("lex: fox.c: BadByte at byte 0"))
        self.assertNotIn("printed lines", self.explained("write fault: out/o1.json"))
        self.assertIn("printed lines", self.explained("write fault: output"))

    def test_populations(self):
        self.write("p.json", '{"states": {"agents": [\n {"name": "Fox", "memory": {"den": "much"}}]}}')
        output = self.explained("population: p.json: /states/agents/0/memory/den: Shape")
        self.assertEqual(self.marked(output), [("p.json:2:36", '"much"')])

    def test_traces(self):
        self.write("t", "trace iteration 1 pieces 1 fuel 1000000\nopen 0\nshut 0\n")
        self.assertEqual(self.marked(self.explained("trace: t: Illegal at line 3")), [("t:3:1", "shut 0")])
        told = self.good("explain", "trace: t: Form at line 4")
        self.assertIn("Form: a line lacks its LF, or the end is missing: the line that is missing is told.", told.lines)

    def test_a_name_that_is_not_known(self):
        self.write("p.json", '{"states": {"agents": [\n {"name": "Fox", "memory": {"dne": 4}}]}}')
        output = self.explained("population: p.json: /states/agents/0/memory/dne: UnknownVariable")
        self.assertEqual(self.marked(output), [("p.json:2:29", '"dne"')])

    def test_no_json(self):
        self.write("m.json", '{"a": 1,}')
        self.assertEqual(self.marked(self.explained("not JSON: m.json")), [("m.json:1:9", "}")])

    def test_a_file_that_is_missing(self):
        self.write("m.json", '{"xmodel": {"environment": {\n "functionFiles": ["fox.c"]}}}')
        self.assertEqual(self.marked(self.explained("missing: fox.c", "m.json")), [("m.json:2:20", '"fox.c"')])

    def test_states_and_cycles(self):
        model = json.loads(json.dumps(FOX))
        model["xmodel"]["agents"][0]["functions"].append({"name": "rest", "currentState": "old", "nextState": "end"})
        self.write("m.json", model)
        self.assertEqual([text for _, text in self.marked(self.explained("states: Fox: start, old", "m.json"))], ['"start"', '"old"'])
        self.assertEqual([text for _, text in self.marked(self.explained("cycle: Fox.hunt -> Fox.rest -> Fox.hunt", "m.json"))], ['"hunt"', '"rest"'])

    def test_standard_input(self):
        done = self.started("explain", "-", given=b"usage: NoCommand\n")
        self.assertEqual(done.returncode, 0)
        self.assertIn(b"Begin with a command", done.stdout)

    def test_refusals(self):
        self.assertEqual(self.refused("explain", "hello"), "this is no line of flame: hello")
        self.assertEqual(self.refused("explain", "lex: no.c: BadByte at byte 1"), "missing: no.c")
        self.refused("explain", "", status=2)

    def test_every_row_of_the_page(self):
        """Each line that the page of refusals shows is explained by its own row."""
        page = (TOP / "docs" / "REFUSALS.md").read_text(encoding="utf-8")
        tried = 0
        for row in re.findall(r"^\| .* \|$", page, re.MULTILINE):
            for line in re.findall(r"`((?:usage|missing|not JSON|too large|too many): [^`]+|no memory|read fault: [^`]+|write fault: [^`]+)`", row):
                if line.split(": ")[0] in ("missing", "not JSON", "too large", "too many"):
                    continue
                told = self.good("explain", line)
                self.assertGreater(len(told.lines), 2, line)
                tried += 1
        self.assertGreater(tried, 10)


@needs_program
class Program(FolderTest):
    """Lines that the program gives for damaged files."""

    def test_function_files(self):
        self.write("m.json", FOX)
        for text, wanted in (
            ("int hunt() { DEN = ; }", ";"),
            ("int hunt() { return 1 ? 2 : 3; }", "?"),
            ("int hunt() { den = 1; return 0; }", "den"),
            ("int hunt() { break; return 0; }", "break"),
            ("int hunt() { START_HOWL_MESSAGE_LOOP FINISH_HOWL_MESSAGE_LOOP return 0; }", "START_HOWL_MESSAGE_LOOP"),
        ):
            self.write("fox.c", text)
            done = subprocess.run([program(), "check", "m.json"], capture_output=True, text=True, check=False)
            self.assertEqual(done.returncode, 1, done)
            told = self.good("explain", done.stderr.strip(), "m.json")
            mark = next(line for line in told.lines if re.fullmatch(r" *\^+", line))
            shown = told.lines[told.lines.index(mark) - 1]
            self.assertEqual(shown[mark.index("^"):mark.rindex("^") + 1], wanted)

    def test_a_fault(self):
        self.write("m.json", FOX)
        self.write("fox.c", "int hunt() {\n  DEN = 1 / CELLS;\n  return 0;\n}\n")
        self.write("p.json", {"states": {"agents": [{"name": "Fox", "memory": {"den": 4}}]}})
        done = subprocess.run([program(), "run", "m.json", "p.json", "o", "1"], capture_output=True, text=True, check=False)
        told = self.good("explain", done.stderr.strip(), "m.json")
        self.assertIn("fox.c:2:3", told.lines)
        self.assertIn("An agent Fox whose memory was den=4 seen=[0,0,0] when hunt began, in iteration 1.", told.lines)
        self.assertIn("DivideByZero: a divisor of `/` or `%` is 0.", told.lines)


if __name__ == "__main__":
    unittest.main()
