"""What a conversion lists of its inputs, by file and line."""
import difflib
import sys

# So many are told; of the others, how many they are.
MOST_TOLD = 1000

# So long a line is.
LONGEST = 300

# How like a name has to be that is told as the nearest one: 1 is the same.
LIKE = 0.8


class Findings:
    """Lines that say what stands where, and what to do. Notes are told with them, and count for nothing."""

    def __init__(self):
        self.files = []
        self.told = set()
        self.lines = []
        self.count = 0

    def add(self, file, line, text, counts=True):
        if file not in self.files:
            self.files.append(file)
        text = text if len(text) <= LONGEST else text[:LONGEST - 2] + ".."
        if len(self.lines) < MOST_TOLD:
            if (file, line, text) in self.told:
                return
            self.told.add((file, line, text))
            self.lines.append((self.files.index(file), line, text))
        self.count += counts

    def tell(self):
        """Prints them to standard error, file by file, in the order of their lines."""
        for number, line, text in sorted(self.lines, key=lambda own: own[:2]):
            print(f"{self.files[number]}: line {line}: {text}", file=sys.stderr)

    def said(self):
        """How many they are, in words."""
        more = f", of which the first {MOST_TOLD} are told" if self.count > MOST_TOLD else ""
        return ("1 thing is listed" if self.count == 1 else f"{self.count} things are listed") + more


def nearest(name, known):
    """The known name that is most like a name, whatever its capitals, or none."""
    by_small = {own.lower(): own for own in known}
    found = difflib.get_close_matches(name.lower(), list(by_small), 1, LIKE)
    return by_small[found[0]] if found else None


def hint(name, known, form="{}"):
    """`, perhaps NAME is meant`, or nothing where no known name is near."""
    found = nearest(name, known)
    return "" if found is None else ": perhaps " + form.format(found) + " is meant"
