"""Names that are taken: where one stands twice, or is another one in C, where variables stand in capitals."""


class Names:
    """The names of one kind up to here."""

    def __init__(self, constants=(), in_capitals=True):
        self.names = set()
        self.in_capitals = in_capitals
        # How names stand in C, with what stands for each.
        self.capitals = {name.upper(): f"the constant {name}" for name in constants}

    def take(self, sheet, element, name):
        """Takes a name, and lists it where it is taken already."""
        if not name or element is None:
            return
        other = self.capitals.get(name.upper())
        if name in self.names:
            sheet.tell(element, f"{name} stands twice: leave one out, or give it another name")
        elif self.in_capitals and other is not None:
            sheet.tell(element, f"{name} and {other} are both {name.upper()} in C: give one of them another name")
        self.names.add(name)
        self.capitals.setdefault(name.upper(), name)


class Taken:
    """The names that the files of a model have together, up to here."""

    def __init__(self):
        self.constants = Names()
        self.units = Names(in_capitals=False)
        self.units.names.add("iteration")
        self.agents = Names(in_capitals=False)
        # The data types, of which a variable may be.
        self.types = set()
