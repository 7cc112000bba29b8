"""The meadow of `flame trial`, as a plain loop over lists: python3 meadow.py POPULATION OUT N

Reads a population of format 2 and writes the files that `flame run --format 2` writes. Agents are lists [cell, energy]. Where
agents meet in a cell, how many of the others are there is counted once in a table. bench/peers runs it."""
import json
import sys
from collections import Counter


def iterate(rabbits, foxes, cells, grass):
    """The rabbits and foxes that come after these, in order, and the cells of those that were there, in order."""
    for rabbit in rabbits:
        rabbit[1] += grass
    for fox in foxes:
        fox[1] -= 1
        fox[0] = (fox[0] * 7 + 1) % cells
    rabbit_cells = sorted(rabbit[0] for rabbit in rabbits)
    fox_cells = sorted(fox[0] for fox in foxes)
    rabbits_in, foxes_in = Counter(rabbit_cells), Counter(fox_cells)
    next_rabbits, next_foxes = [], []
    for cell, energy in rabbits:
        if foxes_in[cell] > 0 and energy % 2 == 0:
            continue
        if energy >= 20:
            energy //= 2
            next_rabbits.append([(cell + 1) % cells, energy])
        next_rabbits.append([cell, energy])
    for cell, energy in foxes:
        energy += min(3, rabbits_in[cell])
        if energy <= 0:
            continue
        if energy >= 24:
            energy //= 2
            next_foxes.append([cell, energy])
        next_foxes.append([cell, energy])
    next_rabbits.sort()
    next_foxes.sort()
    return next_rabbits, next_foxes, rabbit_cells, fox_cells


def main():
    population, out, count = sys.argv[1:]
    with open(population) as file:
        states = json.load(file)["states"]
    cells, grass = states["environment"]
    rabbits, foxes = (agents["rows"] for agents in states["agents"])
    for iteration in range(1, int(count) + 1):
        rabbits, foxes, rabbit_cells, fox_cells = iterate(rabbits, foxes, cells, grass)
        with open(f"{out}{iteration}.json", "w") as file:
            file.write(json.dumps({"states": {
                "version": 2, "itno": iteration, "environment": [cells, grass],
                "agents": [{"name": "Rabbit", "rows": rabbits}, {"name": "Fox", "rows": foxes}],
                "boards": [{"name": "rabbit_at", "rows": [[cell] for cell in rabbit_cells]},
                           {"name": "fox_at", "rows": [[cell] for cell in fox_cells]}]}}, separators=(",", ":")) + "\n")
        print("iteration", iteration, "agents", len(rabbits) + len(foxes), "messages", len(rabbit_cells) + len(fox_cells))


main()
