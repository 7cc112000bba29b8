"""Pictures as SVG: axes, lines, grids and legends."""
from xml.sax.saxutils import escape, quoteattr

# Okabe and Ito's colours, which those who do not tell all colours apart tell apart, and a dash for each further round of them.
COLOURS = ("#0072b2", "#d55e00", "#009e73", "#cc79a7", "#e69f00", "#56b4e9", "#000000", "#b8a500")
DASHES = ("", "7 3", "2 3", "9 3 2 3")

# Stops of viridis (van der Walt and Smith), dark for little.
RAMP = ((68, 1, 84), (59, 82, 139), (33, 145, 140), (94, 201, 98), (253, 231, 37))

FONT = "font-family=\"sans-serif\""


def colour_of(number, colours=COLOURS):
    return colours[number % len(colours)]


def dash_of(number, colours=COLOURS):
    return DASHES[number // len(colours) % len(DASHES)]


def ramp(part):
    """A colour between the stops, for a part from 0 to 1."""
    place = min(max(part, 0.0), 1.0) * (len(RAMP) - 1)
    low = min(int(place), len(RAMP) - 2)
    rest = place - low
    mixed = [round(one + (two - one) * rest) for one, two in zip(RAMP[low], RAMP[low + 1])]
    return "#" + "".join(f"{own:02x}" for own in mixed)


def number(value):
    """A coordinate, short."""
    return f"{value:.2f}".rstrip("0").rstrip(".")


def step_for(span, most):
    """The least of 1, 2 and 5 times a power of ten by which a span has at most so many steps."""
    if span <= 0:
        return 1
    power = 1
    while power * most < span:
        power *= 10
    while power > 0 and power / 10 * most >= span:
        power /= 10
    for times in (0.2, 0.5, 1):
        if power * times * most >= span:
            return power * times
    return power


def ticks(low, high, most):
    """Round numbers between two numbers, the two ends included where they are round."""
    step = step_for(high - low, most)
    first = -(-low // step)
    # Great numbers may not differ by a step, so it is counted.
    return [tick for tick in ((first + place) * step for place in range(most + 1)) if tick <= high + step * 1e-9]


def label_of(value):
    """A number at an axis."""
    if value == int(value):
        return f"{int(value)}"
    return f"{value:.6g}"


class Picture:
    """An SVG of a size, with a title for those who hear it."""

    def __init__(self, width, height, title):
        self.parts = [
            f'<svg xmlns="http://www.w3.org/2000/svg" width="{width}" height="{height}" viewBox="0 0 {width} {height}" '
            f'role="img" aria-label={quoteattr(title or "picture")}>',
            f"<title>{escape(title or 'picture')}</title>",
            f'<rect width="{width}" height="{height}" fill="white"/>',
        ]

    def line(self, x1, y1, x2, y2, colour="#444", width=1, dash=""):
        dashes = f' stroke-dasharray="{dash}"' if dash else ""
        self.parts.append(
            f'<line x1="{number(x1)}" y1="{number(y1)}" x2="{number(x2)}" y2="{number(y2)}" stroke="{colour}" '
            f'stroke-width="{width}"{dashes}/>'
        )

    def path(self, points, colour, dash=""):
        dashes = f' stroke-dasharray="{dash}"' if dash else ""
        if len(points) == 1:
            x, y = points[0]
            self.parts.append(f'<circle cx="{number(x)}" cy="{number(y)}" r="2.5" fill="{colour}"/>')
            return
        steps = " ".join(f"{number(x)},{number(y)}" for x, y in points)
        self.parts.append(
            f'<polyline points="{steps}" fill="none" stroke="{colour}" stroke-width="1.8" stroke-linejoin="round"{dashes}/>'
        )

    def rectangle(self, x, y, width, height, colour, told=""):
        inner = f"<title>{escape(told)}</title>" if told else ""
        self.parts.append(
            f'<rect x="{number(x)}" y="{number(y)}" width="{number(width)}" height="{number(height)}" fill="{colour}"'
            + (f">{inner}</rect>" if inner else "/>")
        )

    def text(self, x, y, text, anchor="start", size=12, turned=False, colour="#222", bold=False):
        turn = f' transform="rotate(-90 {number(x)} {number(y)})"' if turned else ""
        weight = ' font-weight="bold"' if bold else ""
        self.parts.append(
            f'<text x="{number(x)}" y="{number(y)}" {FONT} font-size="{size}" text-anchor="{anchor}" '
            f'fill="{colour}"{weight}{turn}>'
            f"{escape(text)}</text>"
        )

    def clip(self, x, y, width, height):
        """What follows is shown within a rectangle alone, until `unclip`."""
        self.parts.append('<clipPath id="inside">')
        self.rectangle(x, y, width, height, "black")
        self.parts.append('</clipPath><g clip-path="url(#inside)">')

    def unclip(self):
        self.parts.append("</g>")

    def whole(self):
        return "\n".join(self.parts) + "\n</svg>\n"


def text_width(text, size=12):
    """About how wide a text is."""
    return 0.6 * size * len(text)


class Line:
    """A line of a chart: points, of which a missing number is a gap."""

    def __init__(self, name, points):
        self.name = name
        self.points = points


def apart(low, high):
    """The same numbers, or such as have them in their middle where they are one."""
    if low != high:
        return low, high
    room = max(1, abs(low) / 1e6)
    return low - room, high + room


def extent(values):
    """From where to where an axis goes."""
    return apart(min(values), max(values))


def value_extent(values):
    """The same for heights: from 0 where nothing is below it and much lies near it; with a little room above."""
    low, high = min(values), max(values)
    if 0 <= low <= high / 2:
        low = 0
    if high <= 0 and low / 2 <= high:
        high = 0
    low, high = apart(low, high)
    return low, high + (high - low) * 0.04 if high != 0 else high


def chart(lines, title="", x_label="", y_label="", heights=None, colours=COLOURS, width=720, height=400):
    """A chart of lines over numbers."""
    legend = max((text_width(line.name) for line in lines), default=0) + 44 if len(lines) > 1 else 16
    xs = [x for line in lines for x, _ in line.points]
    ys = [y for line in lines for _, y in line.points if y is not None]
    x_low, x_high = extent(xs)
    y_low, y_high = heights or value_extent(ys)
    y_ticks = [tick for tick in ticks(y_low, y_high, 8) if y_low <= tick <= y_high * (1 + 1e-12) or tick <= y_high]
    labels = max((text_width(label_of(tick)) for tick in y_ticks), default=10)
    left, top = 16 + labels + (20 if y_label else 0), 36 if title else 16
    bottom = height - (52 if x_label else 34)
    right = width - legend
    picture = Picture(width, height, title or ", ".join(line.name for line in lines))
    if title:
        picture.text(left, 22, title, size=14, bold=True)

    def x_at(x):
        return left + (right - left) * (x - x_low) / (x_high - x_low)

    def y_at(y):
        return bottom - (bottom - top) * (y - y_low) / (y_high - y_low)

    for tick in y_ticks:
        picture.line(left, y_at(tick), right, y_at(tick), "#e3e3e3")
        picture.text(left - 6, y_at(tick) + 4, label_of(tick), "end")
    for tick in ticks(x_low, x_high, 10):
        picture.line(x_at(tick), bottom, x_at(tick), bottom + 5)
        picture.text(x_at(tick), bottom + 18, label_of(tick), "middle")
    picture.line(left, bottom, right, bottom)
    picture.line(left, top, left, bottom)
    if x_label:
        picture.text((left + right) / 2, height - 12, x_label, "middle")
    if y_label:
        picture.text(16, (top + bottom) / 2, y_label, "middle", turned=True)
    picture.clip(left, top - 2, right - left + 2, bottom - top + 4)
    for place, line in enumerate(lines):
        for run in runs_of(line.points):
            picture.path([(x_at(x), y_at(y)) for x, y in run], colour_of(place, colours), dash_of(place, colours))
    picture.unclip()
    for place, line in enumerate(lines):
        if len(lines) > 1:
            at = top + 8 + 18 * place
            picture.line(right + 12, at, right + 34, at, colour_of(place, colours), 2.4, dash_of(place, colours))
            picture.text(right + 40, at + 4, line.name)
    return picture.whole()


def runs_of(points):
    """The points between gaps."""
    run = []
    for x, y in points:
        if y is None:
            if run:
                yield run
            run = []
        else:
            run.append((x, y))
    if run:
        yield run
