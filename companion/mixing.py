"""Numbers that look like chance, by the mixing of SplitMix64 (Steele, Lea and Flood, 2014)."""

MASK = 2**64 - 1


def mixed(number):
    """The number of SplitMix64 at a place: a number from 0 to 2^64 - 1."""
    z = (number + 1) * 0x9E3779B97F4A7C15 & MASK
    z = (z ^ z >> 30) * 0xBF58476D1CE4E5B9 & MASK
    z = (z ^ z >> 27) * 0x94D049BB133111EB & MASK
    return z ^ z >> 31


class Draws:
    """The draws of a course, one after another: the first is that of the place course * 2^32."""

    def __init__(self, course):
        self.place = course * 2**32

    def next(self):
        number = mixed(self.place)
        self.place += 1
        return number

    def below(self, count):
        """A number from 0 to count - 1, by what is left of a mixed number."""
        return self.next() % count

    def seed(self):
        """A number of int, from the upper half of a mixed one."""
        return self.next() // 2**32 - 2**31
