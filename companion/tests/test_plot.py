"""The command plot."""
import re
import unittest
import xml.etree.ElementTree as ElementTree

from companion import svg
from companion.tests.support import FOX, FolderTest, first_format, second_format

SVG = "{http://www.w3.org/2000/svg}"


class Lines(FolderTest):
    """Lines of a table."""

    def drawn(self, *words):
        self.good("plot", *words, "-o", "p.svg")
        return ElementTree.fromstring(self.read("p.svg"))

    def texts(self, picture):
        return [text.text for text in picture.iter(SVG + "text")]

    def test_a_line_for_each_column(self):
        self.write("t.csv", "iteration,well,sick,name\r\n0,10,0,a\r\n1,5,5,b\r\n2,0,10,c\r\n")
        picture = self.drawn("t.csv", "--title", "A <day>", "--x", "day", "--y", "people")
        lines = [line.get("points").split() for line in picture.iter(SVG + "polyline")]
        self.assertEqual([len(line) for line in lines], [3, 3])
        heights = [[float(point.split(",")[1]) for point in line] for line in lines]
        self.assertEqual(heights[0], heights[1][::-1])
        # The middle lies in the middle.
        self.assertAlmostEqual(heights[0][1], (heights[0][0] + heights[0][2]) / 2, delta=0.02)
        for text in ("A <day>", "day", "people", "well", "sick", "0", "10"):
            self.assertIn(text, self.texts(picture))

    def test_gaps(self):
        self.write("t.csv", "iteration,a\r\n0,1\r\n1,2\r\n2,\r\n3,4\r\n4,5\r\n5,\r\n6,7\r\n")
        picture = self.drawn("t.csv")
        self.assertEqual([len(line.get("points").split()) for line in picture.iter(SVG + "polyline")], [2, 2])
        self.assertEqual(len(list(picture.iter(SVG + "circle"))), 1)

    def test_great_numbers(self):
        self.write("t.csv", "iteration,a\n1,100000000000000000\n2,100000000000000000\n")
        picture = self.drawn("t.csv")
        self.assertEqual([len(line.get("points").split()) for line in picture.iter(SVG + "polyline")], [2])

    def test_chosen_columns_and_heights(self):
        self.write("t.csv", "iteration,a,b\r\n0,1,100\r\n1,2,200\r\n")
        picture = self.drawn("t.csv", "--column", "b", "--heights", "0:400")
        self.assertEqual(len(list(picture.iter(SVG + "polyline"))), 1)
        self.assertIn("400", self.texts(picture))

    def test_refusals(self):
        self.write("t.csv", "iteration,a\r\n0,1\r\n1,x\r\n")
        self.write("empty.csv", "iteration,a\r\n")
        self.write("ragged.csv", "iteration,a\r\n0,1,2\r\n")
        self.assertEqual(self.refused("plot", "t.csv", "-o", "p.svg", "--column", "a"), "no number: t.csv: row 3, column a: x")
        self.assertEqual(self.refused("plot", "t.csv", "-o", "p.svg", "--column", "b"), "t.csv has no column b: its columns are iteration, a")
        self.assertEqual(self.refused("plot", "empty.csv", "-o", "p.svg"), "no table: empty.csv has no rows below its headings")
        self.assertEqual(self.refused("plot", "ragged.csv", "-o", "p.svg"), "no table: ragged.csv: row 2 has 3 cells in place of 2")
        self.assertEqual(self.refused("plot", "t.csv", "-o", "t.csv"), "would write over an input: t.csv")
        self.refused("plot", "t.csv", status=2)
        self.refused("plot", "t.csv", "-o", "p.svg", "--heights", "4:1", status=2)
        self.refused("plot", "--grid", "Fox.x,y", "t.csv", "-o", "p.svg", status=2)


class Grids(FolderTest):
    """Agents at two coordinates."""

    def setUp(self):
        super().setUp()
        self.write("m.json", FOX)

    def cells(self, *words):
        self.good("plot", *words, "-o", "p.svg")
        picture = ElementTree.fromstring(self.read("p.svg"))
        return [(float(own.get("x", 0)), float(own.get("y", 0)), own.get("fill")) for own in picture.iter(SVG + "rect")]

    def test_colours_by_value(self):
        self.write("o.json", first_format(3, [(0, [1, 0, 0]), (1, [2, 0, 0]), (2, [1, 1, 0])]))
        cells = self.cells("m.json", "o.json", "--grid", "Fox.den,seen[1],seen[0]")[2:5]
        xs, ys, fills = zip(*cells)
        self.assertEqual([round((x - xs[0]) / 16) for x in xs], [0, 1, 2])
        # The greater coordinate stands above.
        self.assertEqual([round((y - ys[0]) / 16) for y in ys], [0, 0, -1])
        self.assertEqual(fills, (svg.COLOURS[0], svg.COLOURS[1], svg.COLOURS[0]))
        down = self.cells("m.json", "o.json", "--grid", "Fox.den,seen[1],seen[0]", "--down")[2:5]
        self.assertEqual([round((y - down[0][1]) / 16) for _, y, _ in down], [0, 0, 1])

    def test_cells_by_a_constant(self):
        self.write("o.json", second_format(3, [(0, [0] * 3), (8, [0] * 3), (9, [0] * 3), (19, [0] * 3)]))
        cells = self.cells("m.json", "o.json", "--grid", "Fox.den%cells,den/cells,den%2", "--down")[2:6]
        places = [(round((x - 40) / 16), round((y - 40) / 16)) for x, y, _ in cells]
        self.assertEqual(places, [(0, 0), (8, 0), (0, 1), (1, 2)])

    def test_how_many_stand_there(self):
        self.write("o.json", first_format(3, [(0, [0] * 3)] * 3 + [(1, [0] * 3)]))
        self.assertEqual([fill for _, _, fill in self.cells("m.json", "o.json", "--grid", "Fox.den,seen[0]")[2:4]], [svg.ramp(1), svg.ramp(0)])

    def test_refusals(self):
        self.write("o.json", first_format(3, [(0, [0] * 3)]))
        self.write("none.json", first_format(3, []))
        grid = ("plot", "m.json", "o.json", "-o", "p.svg", "--grid")
        self.assertEqual(self.refused(*grid, "Hare.x,y"), "the model has no agent type Hare: its types are Fox")
        self.assertEqual(self.refused(*grid, "Fox.den%side,den"), "the model has no constant side")
        self.assertEqual(self.refused("plot", "m.json", "none.json", "-o", "p.svg", "--grid", "Fox.den,den"), "the file has no agent of the type: Fox")
        self.refused(*grid, "Fox.den", status=2)


class Axes(unittest.TestCase):
    """Round numbers at an axis."""

    def test_ticks(self):
        self.assertEqual(svg.ticks(0, 70, 10), [0, 10, 20, 30, 40, 50, 60, 70])
        self.assertEqual(svg.ticks(80, 125, 8), [80, 90, 100, 110, 120])
        self.assertEqual([round(tick, 9) for tick in svg.ticks(0, 1, 8)], [0, 0.2, 0.4, 0.6, 0.8, 1])
        self.assertEqual(svg.ticks(-5, 5, 5), [-4, -2, 0, 2, 4])

    def test_ramp(self):
        self.assertEqual((svg.ramp(0), svg.ramp(1)), ("#440154", "#fde725"))
        self.assertTrue(all(re.fullmatch("#[0-9a-f]{6}", svg.ramp(part / 50)) for part in range(51)))


if __name__ == "__main__":
    unittest.main()
