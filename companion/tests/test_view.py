"""The command view. What stands in its page is unpacked here by other means than it was packed by."""
import base64
import csv
import html.parser
import io
import json
import os
import struct
import unittest
import zlib

from companion import svg
from companion.tests.support import FOX, FolderTest, first_format, needs_program, second_format

FOXES = [(4, [0, 7, 7]), (9, [1, 0, 0]), (-3, [0, 0, 5]), (4, [0, 8, 1])]
NUMBERS = {2: "h", 4: "i"}


class Page(html.parser.HTMLParser):
    """A page as a browser takes it: the texts of its elements by their names, and its scripts by their ids."""

    def __init__(self, text):
        super().__init__()
        self.open = None
        self.texts = {}
        self.scripts = {}
        self.attributes = []
        self.feed(text)
        self.close()

    def handle_starttag(self, tag, attributes):
        self.attributes += [name for name, _ in attributes]
        self.open = (tag, dict(attributes).get("id"))
        if tag == "script":
            self.scripts[self.open[1]] = ""

    def handle_endtag(self, tag):
        self.open = None

    def handle_data(self, data):
        if self.open is None:
            return
        tag, name = self.open
        if tag == "script":
            self.scripts[name] += data
        else:
            self.texts.setdefault(tag, []).append(data)

    def data(self):
        return json.loads(self.scripts["data"])

    def frame(self, iteration):
        """The layers of an iteration: of each the cells, and how many bytes a number of x, y and colour takes."""
        packed = zlib.decompress(base64.b64decode(self.scripts[f"frame-{iteration}"], validate=True))
        count = len(self.data()["grid"]["layers"])
        at, layers = 16 * count, []
        for place in range(count):
            length, *widths = struct.unpack_from("<4i", packed, 16 * place)
            columns = []
            for width in widths:
                columns.append(struct.unpack_from(f"<{length}{NUMBERS[width]}", packed, at))
                at += (length * width + 3) // 4 * 4
            layers.append((list(zip(*columns)), widths))
        if at != len(packed):
            raise AssertionError("the frame is longer than its columns")
        return layers


class Viewing(FolderTest):
    """A test that views runs."""

    def view(self, *words):
        self.good("view", *words, "-o", "p.html")
        return Page(self.read("p.html"))

    def refuses(self, *words, status=1):
        """The line of a view that is refused, of which nothing is left."""
        before = sorted(os.listdir("."))
        told = self.refused("view", *words, "-o", "p.html", status=status)
        self.assertEqual(sorted(os.listdir(".")), before)
        return told


class Hand(Viewing):
    """Answers from hand."""

    def setUp(self):
        super().setUp()
        self.write("m.json", FOX)
        self.write("o1.json", first_format(1, FOXES, 2))
        self.write("o2.json", second_format(2, FOXES[:2], 1))
        self.write("o10.json", first_format(10, []))

    def test_the_cells_of_each_file(self):
        page = self.view("m.json", "o", "--grid", "Fox.den,seen[1],seen[2]")
        self.assertEqual(page.frame(1), [([(4, 7, 7), (9, 0, 0), (-3, 0, 5), (4, 8, 1)], [2, 2, 2])])
        self.assertEqual(page.frame(2), [([(4, 7, 7), (9, 0, 0)], [2, 2, 2])])
        self.assertEqual(page.frame(10), [([], [2, 2, 2])])
        grid = page.data()["grid"]
        self.assertEqual([grid[own] for own in ("left", "right", "low", "high", "most", "isDown")], [-3, 9, 0, 8, 4, False])

    def test_layers_and_how_many_stand_in_a_cell(self):
        page = self.view("m.json", "o1.json", "--grid", "Fox.den,seen[0]", "--grid", "Fox.den%cells,den/2,den", "--down")
        (counted, _), (cells, _) = page.frame(1)
        self.assertEqual(counted, [(-3, 0, 1), (4, 0, 2), (9, 1, 1)])
        self.assertEqual(cells, [(4, 2, 4), (0, 4, 9), (6, -2, -3), (4, 2, 4)])
        self.assertTrue(page.data()["grid"]["isDown"])

    def test_numbers_of_more_than_16_bits(self):
        edges = [(32767, [-32768, 2147483647, 0]), (-32768, [-32769, -2147483648, 0])]
        self.write("w3.json", second_format(3, edges))
        page = self.view("m.json", "w3.json", "--grid", "Fox.den,seen[2],seen[1]", "--grid", "Fox.den,seen[2],seen[0]")
        self.assertEqual(
            page.frame(3),
            [
                ([(32767, 0, 2147483647), (-32768, 0, -2147483648)], [2, 2, 4]),
                ([(32767, 0, -32768), (-32768, 0, -32769)], [2, 2, 4]),
            ],
        )

    def test_files_in_any_order(self):
        page = self.view("m.json", "o10.json", "o2.json", "o1.json", "--grid", "Fox.den,den")
        self.assertEqual(page.data()["iterations"], [1, 2, 10])

    def test_numbers_are_those_of_table(self):
        choices = ("--sum", "Fox.den", "--mean", "Fox.den", "--as", "mean den", "--min", "Fox.seen[2]", "--count", "Fox.den")
        for words in ((), choices, (*choices, "--where", "Fox.den>0")):
            rows = list(csv.reader(io.StringIO(self.good("table", "m.json", "o", *words, "--csv", "-").output)))
            data = self.view("m.json", "o", *words).data()
            self.assertEqual([[str(own) for own in data["iterations"]]], [[row[0] for row in rows[1:]]])
            self.assertEqual([column["name"] for column in data["columns"]], rows[0][1:])
            self.assertEqual([column["cells"] for column in data["columns"]], [list(own) for own in zip(*rows[1:])][1:])

    def test_what_an_iteration_is_called(self):
        self.assertEqual(self.view("m.json", "o").data()["word"], "iteration")
        self.assertEqual(self.view("m.json", "o", "--as", "day", "--count", "Fox", "--as", "foxes").data()["word"], "day")

    def test_without_a_grid(self):
        page = self.view("m.json", "o")
        self.assertIsNone(page.data()["grid"])
        self.assertEqual(sorted(name or "" for name in page.scripts), ["", "data"])

    def test_a_file_of_standard_input(self):
        told = self.started("view", "m.json", "-", "-o", "-", "--grid", "Fox.den%cells,den", given=self.read("o1.json").encode())
        self.assertEqual((told.returncode, told.stderr), (0, b""))
        self.assertEqual(Page(told.stdout.decode()).frame(1)[0][0], [(0, 9, 1), (4, 4, 2), (6, -3, 1)])


class Colours(Viewing):
    """Colours are the same in all files of a page."""

    def grid(self, numbers, *words):
        """What the page has to know, where each file has one of these numbers."""
        self.write("m.json", FOX)
        for place, number in enumerate(numbers):
            self.write(f"c{place}.json", first_format(place, [(number, [0, 0, 0])]))
        names = [f"c{place}.json" for place in range(len(numbers))]
        return self.view("m.json", *names, "--grid", "Fox.seen[0],seen[0],den", *words).data()["grid"]

    def test_a_colour_for_each_of_eight_numbers(self):
        grid = self.grid([7, 3, 3, 1, 2, 5, 4, 6, 0])
        self.assertEqual(grid["layers"][0]["each"], [list(own) for own in enumerate(svg.COLOURS)])
        self.assertEqual(grid["legend"][1], [svg.COLOURS[1], "Fox.den=1"])

    def test_a_ramp_for_more(self):
        grid = self.grid([10, 3, 1, 2, 5, 4, 6, 0, 9])
        self.assertEqual((grid["layers"][0]["each"], grid["layers"][0]["ramp"]), (None, [0, 10]))
        self.assertEqual([text for _, text in grid["legend"]], [f"Fox.den {number}" for number in (0, 2, 5, 8, 10)])
        self.assertEqual((grid["legend"][0][0], grid["legend"][-1][0]), ("#440154", "#fde725"))

    def test_no_colour_for_two_numbers(self):
        self.grid([1, 2, 3, 4, 5])
        words = ("c", "--grid", "Fox.seen[0],den,den", "--grid", "Fox.seen[0],den,den")
        first, second = self.view("m.json", *words).data()["grid"]["layers"]
        self.assertEqual(first["each"], [[place + 1, colour] for place, colour in enumerate(svg.COLOURS[:5])])
        self.assertEqual((second["each"], second["ramp"]), (None, [1, 5]))

    def test_colours_of_ones_own(self):
        grid = self.grid([4, 5, 6], "--colours", "#000001,#000002")
        self.assertEqual(grid["layers"][0]["each"], [[4, "#000001"], [5, "#000002"], [6, "#000001"]])

    def test_colours_of_plot(self):
        self.grid([4, 5])
        self.write("both.json", first_format(9, [(4, [0, 0, 0]), (5, [1, 0, 0])]))
        words = ("--grid", "Fox.seen[0],den,den", "--grid", "Fox.seen[0],den")
        legend = self.view("m.json", "both.json", *words).data()["grid"]["legend"]
        self.good("plot", "m.json", "both.json", *words, "-o", "p.svg")
        picture = self.read("p.svg")
        for colour, text in legend:
            self.assertIn(f'fill="{colour}"', picture)
            self.assertIn(f">{text}</text>", picture)


class Safety(Viewing):
    """Whatever texts stand in it, a page stays whole, and asks nothing of the net."""

    def test_names_like_elements(self):
        name = '</script><b title="x">&amp;<!-- '
        model = json.loads(json.dumps(FOX).replace('"howl"', json.dumps(name)))
        self.write("m.json", model)
        self.write("o1.json", first_format(1, FOXES))
        page = self.view("m.json", "o1.json", "--title", name, "--grid", "Fox.den,den")
        self.assertEqual((page.texts["title"], page.texts["h1"]), ([name], [name]))
        self.assertEqual(page.data()["columns"][1]["name"], f"messages({name})")
        self.assertNotIn("b", page.texts)
        self.assertEqual(sorted(own or "" for own in page.scripts), ["", "data", "frame-1"])
        page = self.view("m.json", "o1.json", "--count", "Fox", "--as", name)
        self.assertEqual(page.data()["columns"][0]["name"], name)
        self.assertEqual(page.texts["title"], ["m"])

    def test_it_needs_nothing_else(self):
        self.write("m.json", FOX)
        self.write("o1.json", first_format(1, FOXES))
        page = self.view("m.json", "o1.json", "--grid", "Fox.den,den")
        text = self.read("p.html")
        self.assertEqual({"src", "href"} & set(page.attributes), set())
        for word in ("@import", "url(", "fetch(", "XMLHttpRequest", "import("):
            self.assertNotIn(word, text)
        self.assertIn("default-src 'none'", text)

    def test_it_is_the_same_each_time(self):
        self.write("m.json", FOX)
        self.write("o1.json", first_format(1, FOXES))
        self.view("m.json", "o1.json", "--grid", "Fox.den,den")
        first = self.read("p.html")
        self.view("m.json", "o1.json", "--grid", "Fox.den,den")
        self.assertEqual(self.read("p.html"), first)


class Refusals(Viewing):
    """What is refused leaves no page."""

    def setUp(self):
        super().setUp()
        self.write("m.json", FOX)
        self.write("o1.json", first_format(1, FOXES))
        self.write("o2.json", second_format(2, FOXES))

    def test_damaged_inputs(self):
        whole = self.read("o2.json")
        self.write("o3.json", whole[: len(whole) // 2])
        self.assertIn("no population: o3.json: line 1, column ", self.refuses("m.json", "o", "--grid", "Fox.den,den"))
        self.write("o3.json", whole.replace("[9, 1", "[9, 1.5"))
        self.assertIn("a number of Fox is no whole number", self.refuses("m.json", "o", "--grid", "Fox.den,den"))
        self.write("o3.json", whole.replace("[9, 1", "[9, " + 5000 * "1"))
        self.assertIn("no population", self.refuses("m.json", "o", "--grid", "Fox.den,den"))
        self.write("o3.json", '{"states": {"agents": [{"name": "Hare"}]}}')
        self.assertIn("the model has no agent type Hare", self.refuses("m.json", "o", "--grid", "Fox.den,den"))
        told = self.refuses("m.json", "p", "--grid", "Fox.den,den")
        self.assertEqual(told, "missing: p is no file, and no file is named pNUMBER.json")

    def test_an_iteration_twice(self):
        self.write("p1.json", first_format(2, []))
        self.assertEqual(self.refuses("m.json", "o", "p1.json"), "o2.json and p1.json are both of iteration 2")

    def test_limits(self):
        self.write("o3.json", first_format(3, [(0, [0, 0, 0]), (3_999_999, [0, 0, 0])]))
        self.view("m.json", "o3.json", "--grid", "Fox.den,seen[0]")
        os.unlink("p.html")
        self.write("o4.json", first_format(4, [(4_000_000, [0, 0, 0])]))
        told = self.refuses("m.json", "o3.json", "o4.json", "--grid", "Fox.den,seen[0]")
        self.assertEqual(told, "the grid has 4000001 columns and 1 rows: more than 4000000 cells")
        self.write("o5.json", first_format(5, [(0, [0, 0, 2147483648])]))
        told = self.refuses("m.json", "o5.json", "--grid", "Fox.den,den,seen[2]")
        self.assertEqual(told, "beyond 32 bits: o5.json: --grid Fox.den,den,seen[2] has the number 2147483648")

    def test_nobody_to_show(self):
        self.write("o3.json", first_format(3, []))
        self.assertEqual(self.refuses("m.json", "o3.json", "--grid", "Fox.den,den"), "no file has an agent of the type: Fox")

    def test_words(self):
        self.assertEqual(self.refuses("m.json", "o", "--down", status=2), "--down belongs to --grid")
        self.assertIn("wanted TYPE.X,Y", self.refuses("m.json", "o", "--grid", "Fox", status=2))
        self.assertIn("wanted #RRGGBB", self.refuses("m.json", "o", "--colours", "red", status=2))
        self.assertIn("Fox has no variable lair", self.refuses("m.json", "o", "--grid", "Fox.lair,den"))
        self.assertIn("the model has no constant rows", self.refuses("m.json", "o", "--grid", "Fox.den%rows,den"))

    def test_it_does_not_write_over_an_input(self):
        before = self.read("o1.json")
        self.assertEqual(self.refused("view", "m.json", "o1.json", "-o", "o1.json"), "would write over an input: o1.json")
        self.assertEqual(self.read("o1.json"), before)


@needs_program
class Examples(Viewing):
    """Runs of the examples in both formats."""

    def test_forest(self):
        for form in ("1", "2"):
            self.example("forest", "forest.json", 6, "--format", form)
            words = ("--grid", "Patch.cell%side,cell/side,state", "--down", "--count", "Patch.state")
            page = self.view("forest.json", "out_", *words)
            data = page.data()
            self.assertEqual((data["iterations"], data["grid"]["right"], data["grid"]["high"]), ([1, 2, 3, 4, 5, 6], 23, 23))
            for place, iteration in enumerate(data["iterations"]):
                cells = page.frame(iteration)[0][0]
                self.assertEqual([y * 24 + x for x, y, _ in cells], list(range(576)))
                self.assertEqual([colour for _, _, colour in cells], self.states_of(iteration, form))
                for column in data["columns"]:
                    state = int(column["name"].split("=")[1])
                    self.assertEqual(int(column["cells"][place]), sum(colour == state for _, _, colour in cells))

    def states_of(self, iteration, form):
        """The states of the patches, in the order of the file."""
        agents = json.loads(self.read(f"out_{iteration}.json"))["states"]["agents"]
        if form == "1":
            return [own["memory"]["state"] for own in agents if own["name"] == "Patch"]
        return [row[1] for own in agents if own["name"] == "Patch" for row in own["rows"]]

    def test_segregation(self):
        self.example("segregation", "segregation.json", 5)
        page = self.view(
            "segregation.json", "out_", "--grid", "Household.cell%side,cell/side,kind", "--grid", "Vacancy.cell%side,cell/side"
        )
        for iteration in range(1, 6):
            (households, _), (vacancies, _) = page.frame(iteration)
            self.assertEqual((len(households), len(vacancies)), (327, 73))
            self.assertEqual(len({(x, y) for x, y, _ in households + vacancies}), 400)


if __name__ == "__main__":
    unittest.main()
