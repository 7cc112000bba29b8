"""The command population."""
import json
import unittest

from companion.mixing import mixed
from companion.tests.support import FOX, FolderTest, needs_program

GRID = {"type": "int", "name": "near", "length": 4}


class Hand(FolderTest):
    """Answers from hand."""

    def setUp(self):
        super().setUp()
        model = json.loads(json.dumps(FOX))
        model["xmodel"]["agents"][0]["memory"] += [GRID, {"type": "int", "name": "seed"}]
        self.write("m.json", model)

    def memories(self, count, memory, **more):
        self.write("pop.json", {"model": "m.json", "agents": [{"type": "Fox", "count": count, "memory": memory}], **more})
        self.good("population", "pop.json", "-o", "start.json")
        states = json.loads(self.read("start.json"))["states"]
        return [agent["memory"] for agent in states["agents"]]

    def dens(self, count, way, **more):
        return [memory["den"] for memory in self.memories(count, {"den": way}, **more)]

    def test_fixed_values(self):
        self.assertEqual(self.memories(2, {"den": -7, "seen": [1, 2, 3], "near": 5}), [{"den": -7, "seen": [1, 2, 3], "near": [5] * 4}] * 2)

    def test_numbers(self):
        self.assertEqual(self.dens(3, {"number": 10}), [10, 11, 12])
        self.assertEqual(self.dens(3, {"number": 0, "step": -5}), [0, -5, -10])
        self.assertEqual(self.dens(5, {"cycle": [5, 24]}), [5, 24, 5, 24, 5])
        self.assertEqual(self.dens(5, {"parts": [[1, 2], [0, 3]]}), [1, 1, 0, 0, 0])
        self.assertEqual(self.dens(6, {"column": 3}), [0, 1, 2, 0, 1, 2])
        self.assertEqual(self.dens(6, {"row": 3}), [0, 0, 0, 1, 1, 1])

    def test_neighbours(self):
        near = [memory["near"] for memory in self.memories(6, {"near": {"neighbours": 3}})]
        self.assertEqual(near[0], [-1, -1, 1, 3])
        self.assertEqual(near[4], [1, 3, 5, -1])
        around = [memory["near"] for memory in self.memories(6, {"near": {"neighbours": 3, "around": True}})]
        self.assertEqual(around[0], [3, 2, 1, 3])

    def test_draws_are_those_of_the_mixing(self):
        # The first numbers of SplitMix64 from 0, as they are published.
        self.assertEqual([mixed(place) for place in range(3)], [0xE220A8397B1DCDAF, 0x6E789E6AA1B965F4, 0x06C45D188009454F])
        drawn = [mixed(7 * 2**32 + place) for place in range(4)]
        self.assertEqual(self.dens(4, {"draw": [10, 19]}, course=7), [10 + number % 10 for number in drawn])
        self.assertEqual(self.dens(4, {"lot": [[5, 3], [6, 1]]}, course=7), [5 if number % 4 < 3 else 6 for number in drawn])
        seeds = [memory["seed"] for memory in self.memories(4, {"seed": {"seed": True}}, course=7)]
        self.assertEqual(seeds, [number // 2**32 - 2**31 for number in drawn])

    def test_a_course_gives_another_population(self):
        one = self.dens(50, {"draw": [0, 999]}, course=1)
        self.assertEqual(one, self.dens(50, {"draw": [0, 999]}, course=1))
        self.assertNotEqual(one, self.dens(50, {"draw": [0, 999]}, course=2))
        self.write("pop.json", {"model": "m.json", "course": 1, "agents": [{"type": "Fox", "count": 50, "memory": {"den": {"draw": [0, 999]}}}]})
        told = self.good("population", "pop.json", "--course", "2")
        self.assertEqual([own["memory"]["den"] for own in json.loads(told.output)["states"]["agents"]], self.dens(50, {"draw": [0, 999]}, course=2))

    def test_constants_and_number(self):
        self.memories(0, {}, constants={"cells": 9}, itno=4)
        states = json.loads(self.read("start.json"))["states"]
        self.assertEqual((states["environment"], states["itno"], states["agents"]), ({"cells": 9}, 4, []))

    def test_refusals(self):
        cases = [
            ({"model": "m.json", "agents": [{"type": "Hare"}]}, "the model has no agent type Hare: its types are Fox"),
            ({"model": "m.json", "agents": [{"type": "Fox", "memory": {"age": 1}}]}, "agents[0].memory: Fox has no variable age"),
            ({"model": "m.json", "agents": [{"type": "Fox", "memory": {"den": 1.5}}]},
             "agents[0].memory.den: wanted a whole number from -2147483648 to 2147483647"),
            ({"model": "m.json", "agents": [{"type": "Fox", "memory": {"den": {"nubmer": 1}}}]},
             "agents[0].memory.den: wanted a number, a list, or one of number, cycle, parts, column, row, draw, lot, seed, neighbours"),
            ({"model": "m.json", "agents": [{"type": "Fox", "count": 3, "memory": {"den": {"number": 2147483646}}}]},
             "agents[0].memory.den: wanted numbers of int, and the last agent has 2147483648"),
            ({"model": "m.json", "agents": [{"type": "Fox", "count": 3, "memory": {"den": {"parts": [[1, 2]]}}}]},
             "agents[0].memory.den: wanted parts that make 3 together"),
            ({"model": "m.json", "agents": [{"type": "Fox", "count": 5, "memory": {"near": {"neighbours": 3}}}]},
             "agents[0].memory.near: wanted 5 cells in whole rows of 3"),
            ({"model": "m.json", "agents": [{"type": "Fox", "memory": {"seen": [1, 2]}}]}, "agents[0].memory.seen: wanted 3 numbers"),
            ({"model": "m.json", "constants": {"grass": 1}}, "pop.json: constants: the model has no constant grass"),
            ({"model": "m.json", "agent": []}, "pop.json: agent: wanted one of model, course, itno, constants, agents"),
            ({"model": "no.json"}, "missing: no.json"),
            ({}, "pop.json: model: wanted the name of a model file"),
            ([], "pop.json: wanted an object"),
        ]
        for value, line in cases:
            self.write("pop.json", value)
            self.assertEqual(self.refused("population", "pop.json"), line)
        self.write("pop.json", '{"model": "m.json",}')
        self.assertEqual(self.refused("population", "pop.json"), "no JSON: pop.json: line 1, column 20")
        self.write("pop.json", {"model": "m.json"})
        self.assertEqual(self.refused("population", "pop.json", "-o", "m.json"), "would write over an input: m.json")


@needs_program
class Examples(FolderTest):
    """A description of an example gives the population by which its files were stored."""

    def test_forest(self):
        self.example("forest", "forest.json", 1)
        states = json.loads(self.read("start.json"))["states"]
        drawn = [mixed(2025 * 2**32 + place) for place in range(2 * 576)]
        patches = [agent["memory"] for agent in states["agents"] if agent["name"] == "Patch"]
        self.assertEqual([patch["state"] for patch in patches], [1 if number % 10 < 4 else 0 for number in drawn[::2]])
        self.assertEqual([patch["seed"] for patch in patches], [number // 2**32 - 2**31 for number in drawn[1::2]])


if __name__ == "__main__":
    unittest.main()
