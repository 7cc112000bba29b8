"""Which colours the numbers of a layer have: one for each while they are few, else a ramp from the least to the greatest."""
import re

from companion import svg
from companion.faults import UsageFault


def palette_of(text):
    """The colours of `--colours`; those of all pictures without it."""
    if text is None:
        return svg.COLOURS
    colours = text.split(",")
    for own in colours:
        if not re.fullmatch("#[0-9A-Fa-f]{6}", own):
            raise UsageFault(f"--colours {text}: wanted #RRGGBB with commas between")
    return colours


def most_of(palette):
    """How many numbers have a colour each: as many as there are colours, and eight in any case."""
    return max(len(svg.COLOURS), len(palette))


class Values:
    """Which numbers a layer has: each of them while they are so many at most; the least and the greatest in any case."""

    def __init__(self, most, numbers=()):
        self.most = most
        self.few = set()
        self.least = None
        self.greatest = None
        self.add(numbers)

    def add(self, numbers):
        """Adds a list of numbers."""
        if not numbers:
            return
        least, greatest = min(numbers), max(numbers)
        self.least = least if self.least is None else min(least, self.least)
        self.greatest = greatest if self.greatest is None else max(greatest, self.greatest)
        if self.few is not None:
            self.few.update(numbers)
            if len(self.few) > self.most:
                self.few = None


def is_each(grid, values, used):
    """Whether each number of a layer has a colour of its own, where so many colours are taken."""
    if values.few is None or grid.colour is None:
        return values.least is None
    return used + len(values.few) <= values.most


def colours_of(grids, values, palette=svg.COLOURS):
    """For each layer what colours its numbers have: a colour for each while these suffice for it and the layers before it, else
    from where to where the ramp goes.
    """
    found, used = [], 0
    for grid, own in zip(grids, values):
        if is_each(grid, own, used):
            found.append({value: svg.colour_of(used + place, palette) for place, value in enumerate(sorted(own.few))})
            used += len(own.few)
        else:
            found.append((own.least, own.greatest))
    return found


def colour_in(own, value):
    """The colour of a number, from what `colours_of` gives for its layer."""
    if isinstance(own, dict):
        return own[value]
    low, high = own
    return svg.ramp((value - low) / (high - low) if high > low else 0.5)


def legend_of(grids, colours):
    """What each colour stands for."""
    told = []
    for grid, own in zip(grids, colours):
        if isinstance(own, dict):
            told += [(colour, f"{grid.name}={value}") for value, colour in own.items()]
        else:
            low, high = own
            steps = sorted({low, low + (high - low) // 4, (low + high) // 2, high - (high - low) // 4, high})
            told += [(colour_in(own, value), f"{grid.name} {value}") for value in steps]
    return told
