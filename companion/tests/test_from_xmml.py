"""Models of FLAME are converted, and what has no place is listed."""
import json
import os
import unittest

from companion import c_look, json_layout
from companion.tests.converting import Case

FILES = "<environment><functionFiles><file>f.c</file></functionFiles></environment>"


def model(**parts):
    """A model of XMML with an agent, whose function has a condition or what else is given."""
    own = {"memory": "", "function": "", "more": "", "head": 'version="2"'}
    own.update(parts)
    return (
        f"<xmodel {own['head']}><agents><xagent><name>A</name>\n"
        f"<memory><variable><type>int</type><name>x</name></variable>{own['memory']}</memory>\n"
        "<functions><function><name>f</name><currentState>s</currentState><nextState>e</nextState>\n"
        f"{own['function']}</function></functions></xagent></agents>\n{own['more']}</xmodel>\n"
    )


class Whole(Case):
    """The meadow, of which all has a place."""

    def convert(self):
        self.assertEqual(
            self.call("from-xmml", "meadow.xml", "-o", "meadow.json"),
            (0, "grazers/hares.xml is written as grazers/hares.json\n", ""),
        )
        return json.loads(self.text("meadow.json"))["xmodel"]

    def test_environment(self):
        value = self.convert()
        self.assertEqual(value["description"], "Foxes hunt hares on a meadow, & sleep on Sundays.")
        environment = value["environment"]
        self.assertEqual(environment["functionFiles"], ["fox.c", "helpers.c"])
        self.assertEqual(environment["timeUnits"][1], {"name": "week", "unit": "day", "period": 7})
        self.assertEqual(environment["constants"][1], {"type": "int", "name": "meal"})
        self.assertEqual(environment["dataTypes"][1]["variables"][2], {"type": "int", "name": "walked", "length": 4})
        self.assertEqual(list(value), ["name", "version", "description", "environment", "messages", "agents", "models"])

    def test_conditions(self):
        sleep, hunt, age, idle = self.convert()["agents"][0]["functions"]
        self.assertEqual(sleep["condition"], {
            "op": "AND",
            "lhs": {"time": {"period": "week", "phase": "a.sunday", "duration": 2}},
            "rhs": {"not": {"op": "LT", "lhs": {"value": "a.energy"}, "rhs": {"value": -3}}},
        })
        self.assertEqual(hunt["inputs"], [{
            "messageName": "hare_at",
            "filter": {
                "op": "AND",
                "lhs": {"op": "GEQ", "lhs": {"value": "m.at_x"}, "rhs": {"value": "a.home_low_x"}},
                "rhs": {
                    "op": "OR",
                    "lhs": {"op": "LEQ", "lhs": {"value": "m.at_x"}, "rhs": {"value": "a.home_high_x"}},
                    "rhs": {"not": {"op": "NEQ", "lhs": {"value": "m.weight"}, "rhs": {"value": 5}}},
                },
            },
            "sort": {"key": "at_y", "order": "descend"},
        }])
        self.assertEqual(age["condition"], {"time": {"period": "day"}})
        self.assertEqual(idle, {"name": "idle", "currentState": "fed", "nextState": "end"})

    def test_further_files(self):
        self.assertEqual(
            self.convert()["models"], [{"file": "grazers/hares.json", "enabled": True}, {"file": "birds.json", "enabled": False}]
        )
        hares = json.loads(self.text("grazers/hares.json"))["xmodel"]
        self.assertEqual(hares["environment"], {"functionFiles": ["grazers/hare.c"]})
        status, out, err = self.call("from-xmml", "meadow.xml")
        hint = "name the first by -o, and the others are written beside it"
        self.assertEqual((status, out), (1, ""))
        self.assertEqual(err, f"flamekit: the model has several files: {hint}\n")

    def test_runs(self):
        self.convert()
        self.assertEqual(self.flame("check", "meadow.json"), (0, "accepted agents 2 functions 6 messages 2\n", ""))
        self.assertEqual(self.call("from-0xml", "0.xml", "meadow.json", "-o", "start.json")[0], 0)
        status, out, err = self.flame("run", "meadow.json", "start.json", "out_", "3")
        self.assertEqual((status, err), (0, ""))
        # In iteration 13 the fox catches a hare, that in the highest row. In 15, which is 1 in its week of 14, it sleeps.
        self.assertEqual(out.splitlines(), [
            "iteration 13 agents 3 messages 4", "iteration 14 agents 2 messages 3", "iteration 15 agents 2 messages 1"])
        fox = json.loads(self.text("out_13.json"))["states"]["agents"][0]["memory"]
        self.assertEqual((fox["caught"], fox["at_x"], fox["at_y"], fox["home_walked"]), ([10, 0, 0], 2, 8, [0, 0, 1, 7]))

    def test_output(self):
        self.put("a.xml", model())
        status, out, err = self.call("from-xmml", "a.xml")
        self.assertEqual((status, err), (0, ""))
        self.assertEqual(list(json.loads(out)["xmodel"]["agents"][0]), ["name", "memory", "functions"])
        self.assertEqual(self.call("from-xmml", "a.xml", "-o", "a.xml")[2], "flamekit: would write over an input: a.xml\n")
        self.assertEqual(self.text("a.xml"), model())

    def test_encodings(self):
        with open("a.xml", "wb") as file:
            file.write(b'<?xml version="1.0" encoding="ISO-8859-1"?><xmodel version="2"><name>B\xe4r</name></xmodel>')
        self.assertEqual(json.loads(self.call("from-xmml", "a.xml")[1]), {"xmodel": {"name": "Bär"}})


class Listed(Case):
    """What has no place is listed with its line."""

    def test_all(self):
        self.assertEqual(self.call("from-xmml", "listed.xml", "-o", "listed.json"), (1, "", self.text("listed.txt")))
        self.assertFalse(os.path.exists("listed.json"))

    def test_partly(self):
        status, out, err = self.call("from-xmml", "listed.xml", "-o", "listed.json", "--partly")
        self.assertEqual((status, out), (1, "odd.xml is written as odd.json\n"))
        told = self.text("listed.txt").splitlines()
        self.assertEqual(err.splitlines()[:-1], told[:-1])
        self.assertEqual(err.splitlines()[-1], told[-1].replace("nothing is written", "what is written is to be mended there"))
        # What is listed stands there as it stood, so that it means nothing else.
        value = json.loads(self.text("listed.json"))["xmodel"]
        self.assertEqual(value["environment"]["constants"][0], {"type": "double", "name": "rate"})
        self.assertEqual(value["agents"][0]["functions"][0]["condition"]["rhs"], {"value": "0.5"})
        self.assertEqual(value["agents"][0]["functions"][0]["inputs"][0]["random"], "true")
        self.assertEqual(value["agents"][0]["functions"][2]["condition"], {"op": "?"})
        status, _, err = self.flame("check", "listed.json")
        self.assertEqual((status, err), (1, "shape: listed.json: /xmodel/environment/constants/0/type: wanted Int\n"))

    def listed(self, **parts):
        """The lines that are listed of a small model, without the last."""
        self.put("a.xml", model(**parts))
        status, out, err = self.call("from-xmml", "a.xml")
        self.assertEqual((status, out), (1, "") if err else (0, out))
        return err.splitlines()[:-1]

    def test_small_ones(self):
        self.assertEqual(self.listed(head=""), [
            'a.xml: line 1: <xmodel> has no version: version 2 of XMML is read, write version="2" where it is that'])
        self.assertEqual(self.listed(memory="<variable><type>intarray</type><name>y</name></variable>"), [
            "a.xml: line 2: A.y is intarray, which is no type: make it int, or declare the data type"])
        self.assertEqual(self.listed(more="<Messages/>"), [
            "a.xml: line 5: <Messages> is no element of XMML: perhaps <messages> is meant"])
        self.assertEqual(self.listed(function="<condition/>"), [
            "a.xml: line 4: <condition> has no <op>: add it",
            "a.xml: line 4: <condition> has no <lhs>: add it",
            "a.xml: line 4: <condition> has no <rhs>: add it"])
        self.assertEqual(self.listed(function="<outputs><output><messageName>m</messageName></output></outputs>"), [
            "a.xml: line 4: there is no message m: declare it under <messages>"])
        twice = "<variable><type>int</type><name>{}</name></variable>"
        self.assertEqual(self.listed(memory="\n" + twice.format("x") + "\n" + twice.format("X") + twice.format("SIDE"), more=(
            "<environment><constants><variable><type>int</type><name>side</name></variable></constants></environment>")), [
            "a.xml: line 3: x stands twice: leave one out, or give it another name",
            "a.xml: line 4: X and x are both X in C: give one of them another name",
            "a.xml: line 4: SIDE and the constant side are both SIDE in C: give one of them another name"])
        long = "9" * 200
        self.assertEqual(self.listed(memory=twice.format(f"y[{long}]") + twice.format("z[²]")), [
            f"a.xml: line 2: y[{long}]: a length is a number from 1 to 1000: write it out, or take several arrays",
            "a.xml: line 2: z[²]: a length is a number from 1 to 1000: write it out, or take several arrays"])
        self.put("f.c", "int f() {\nX = " + "9" * 5000 + ";\nreturn 0; }")
        self.assertEqual(self.listed(more=FILES), ["f.c: line 2: " + "9" * 298 + ".."])
        side = "<condition><lhs><value>a->x</value></lhs><op>EQ</op><rhs><value>1</value></rhs></condition>"
        self.assertEqual(self.listed(function=side), ["a.xml: line 4: <value> is 'a->x': write a.x"])

    def test_accepted_c(self):
        """C of the subset, of which nothing is listed."""
        self.put("f.c", (
            "#include <x.h>\n#define A -0x1F // \"a\"\nint h(int a, int b) { return a * b; }\nint f(void) {\n"
            "  int i, j = h(1, 2), k = -1;\n  for (int n = 0; n < 3; n++) { if (!(n == 1)) continue; else break; }\n"
            "  do { i += 2; } while (i < 4 && (j) * k <= 7);\n"
            "  set_x((get_x() + 1) * -k % 3); h(i, j);\n  if (X >= 1) X = h(j, k); else h(i, 1);\n  return (X) * (k - 1); }\n"
        ))
        self.assertEqual(self.listed(more=FILES), [])


class Pieces(unittest.TestCase):
    """What a look at C tells, and what it lets pass."""

    def told(self, text):
        found = []
        c_look.look(text, ["point"], lambda line, own: found.append((line, own)))
        return found

    def test_accepted(self):
        for body in (
            "for (i = 0; i < 3; ++i) H[i]--;",
            "for (int i = 0, j = f(1, 2); i < j; i++) ;",
            "if (a) x++; else --y;",
            "x = (a) * -b;",
            "START_M_MESSAGE_LOOP x++; f(m_message->at_x); FINISH_M_MESSAGE_LOOP",
            "do x++; while (x < 3);",
            "{ ++H[0]; f(H[1]); }",
            "int a = -1, b = f(a);",
            "a = b % 2 == 0 && !c;",
            "x = get_x() * get_y();",
        ):
            self.assertEqual(self.told("int f() { " + body + " return 0; }"), [], body)

    def test_told(self):
        alone = "an assignment has no value: make it a statement of its own"
        for body, what in (
            ("a = b = 1;", f"= behind another =: {alone}"),
            ("H[i++] = 1;", f"++ within an expression: {alone}"),
            ("x = --i;", f"-- within an expression: {alone}"),
            ("x[1][2] = 3;", "there are no arrays of arrays: take one array, and row * width + column for the place"),
            ("for (i = 0, j = 1; ;) ;", "a comma in a for: put what is behind it before the loop, or at the end of its body"),
            ("x = 1e-3;", "1e-3 is no whole number: count in small units, as thousandths"),
            ("point p;", "point: there are no structures: take a data type of the model, or single variables"),
            ("x = a & 1;", "there are no operators on bits: take + - * / % && ||"),
            ("get_next_message(x);", "get_next_message(): put START_.._MESSAGE_LOOP and FINISH_.._MESSAGE_LOOP around what "
             "is done"),
            ("} return 0;", "return stands outside of functions: see whether a } is missing or too many before it"),
        ):
            self.assertEqual(self.told("int f() { \n" + body + " return 0; }")[:1], [(2, what)], body)


class Damaged(Case):
    """Damaged inputs give one line."""

    def refused(self, text, line):
        self.put("a.xml", text)
        self.assertEqual(self.call("from-xmml", "a.xml"), (1, "", f"flamekit: {line}\n"))

    def test_lines(self):
        self.refused("", "no XML: a.xml: line 1, column 1: no element found")
        self.refused("<xmodel>\n<name>\n</xmodel>", "no XML: a.xml: line 3, column 3: mismatched tag")
        self.refused("<xmodel>", "no XML: a.xml: line 1, column 9: no element found")
        self.refused("<states/>", "no XMML: a.xml: line 1: the root is <states> in place of <xmodel>")
        self.refused(
            '<gpu:xmodel xmlns:gpu="g"/>',
            "no XMML: a.xml: line 1: the root is <gpu:xmodel> in place of <xmodel>: a model of FLAME GPU has another form",
        )
        self.refused('<?xml version="1.0" encoding="none"?><xmodel/>', "no XML: a.xml: unknown encoding: none")
        deep = "".join(f"<n{number}>\n" for number in range(200))
        self.refused(deep, "no XML that is read here: a.xml: line 111: elements stand in one another more than 110 deep")
        self.assertEqual(self.call("from-xmml", "none.xml"), (1, "", "flamekit: missing: none.xml\n"))
        self.assertEqual(self.call("from-xmml", "."), (1, "", "flamekit: cannot be read: .: Is a directory\n"))

    def test_entities(self):
        """No file is read and nothing grows by entities."""
        self.put("secret", "secret")
        self.refused(
            '<!DOCTYPE xmodel [\n<!ENTITY e SYSTEM "secret">]><xmodel><name>&e;</name></xmodel>',
            "no XML that is read here: a.xml: line 2: the entity e: write out what it stands for",
        )
        self.refused(
            '<!DOCTYPE xmodel SYSTEM "x.dtd">\n<xmodel><name>&e;</name></xmodel>',
            "no XML that is read here: a.xml: line 2: the entity e: write out what it stands for",
        )


class Layout(unittest.TestCase):
    """What is laid out is read back as what it was, and lines are short."""

    def test_round(self):
        value = {"a": [{"b": 1, "c": [1, 2, {"d": []}]}] * 5, "e": {}, "ü": "x" * 200, "f": [[[[1]]]], "g": None}
        text = json_layout.laid_out(value)
        self.assertEqual(json.loads(text), value)
        self.assertEqual(json_layout.laid_out({"type": "int", "name": "x"}), '{"type": "int", "name": "x"}')


if __name__ == "__main__":
    unittest.main()
