"""Curves over time as SVG: panels one below the other, each with its caption above it, and one axis of milliseconds and microframes."""
import math
from xml.sax.saxutils import escape

WIDTH, LEFT, RIGHT = 960, 104, 28
INNER = WIDTH - LEFT - RIGHT
CAPTION, GAP, ROW = 18, 14, 12
GREY, PALE, INK = "#8a8a8a", "#e6e6e6", "#222"
# A lower-case digit of the axis takes about so much of the width; labels keep apart by it.
DIGIT = 6.5


def steps_of(least, most, count=5, is_whole=False):
    """Round numbers from least to most, about so many of them."""
    span = max(most - least, 0.000001)
    power = 10 ** math.floor(math.log10(span / count))
    size = next(power * one for one in (1, 2, 5, 10) if span / (power * one) <= count + 1)
    size = max(size, 1) if is_whole else size
    return [round(at * size, 6) for at in range(math.ceil(least / size - 1e-9), math.floor(most / size + 1e-9) + 1)]


def room(values, least_height, least=None):
    """The least and the greatest of some values with room around, at least so far apart, and not below `least`."""
    values = [value for value in values if value is not None]
    low, high = min(values), max(values)
    space = max((high - low) * 0.08, (least_height - (high - low)) / 2)
    return (low - space if least is None else max(low - space, least)), high + space


def text(x, y, items, anchor="start", size=11, weight="normal"):
    """A line of text, of parts each with its colour: a string, or a pair of a string and a colour."""
    pairs = [(item, INK) if isinstance(item, str) else item for item in ([items] if isinstance(items, str) else items)]
    if len(pairs) == 1:
        inside, colour = escape(pairs[0][0]), pairs[0][1]
    else:
        inside = "".join(f'<tspan fill="{colour}">{escape(words)}</tspan>' for words, colour in pairs)
        colour = INK
    bold = f' font-weight="{weight}"' if weight != "normal" else ""
    return f'<text x="{x}" y="{y}" text-anchor="{anchor}" font-size="{size}" fill="{colour}"{bold} xml:space="preserve">{inside}</text>'


def thin_out(points):
    """The points, of those in one column of the drawing only the first, the highest, the lowest and the last."""
    columns = {}
    for x, y in points:
        columns.setdefault(int(x), []).append((x, y))
    for column in columns.values():
        kept = {column[0], column[-1], min(column, key=lambda point: point[1]), max(column, key=lambda point: point[1])}
        yield from (point for point in dict.fromkeys(column) if point in kept)


class Panel:
    """A part of the drawing: its place, and how microframes and values are laid out in it."""

    def __init__(self, top, height, times, values=(0, 1)):
        self.top, self.height, self.times, self.values = top, height, times, values

    def x(self, at):
        first, last = self.times
        return round(LEFT + (at - first) * INNER / max(last - first, 1), 1)

    def y(self, value):
        least, most = self.values
        return round(self.top + self.height - (value - least) * self.height / max(most - least, 1e-9), 1)

    def frame(self, caption, is_whole=False):
        """The caption above, the numbers on the left, and pale lines at the numbers and at the times of the axis."""
        yield text(LEFT, self.top - 5, caption)
        for at in ticks_of(self.times):
            yield f'<path d="M{self.x(at)} {self.top}v{self.height}" stroke="{PALE}"/>'
        for value in steps_of(*self.values, max(self.height // 28, 2), is_whole):
            yield f'<path d="M{LEFT} {self.y(value)}h{INNER}" stroke="{PALE}"/>'
            yield text(LEFT - 6, round(self.y(value) + 4, 1), f"{value:g}", "end")
        yield f'<rect x="{LEFT}" y="{self.top}" width="{INNER}" height="{self.height}" fill="none" stroke="{GREY}"/>'

    def line(self, points, colour, width=1.4):
        """A line through the points, broken where a value is None."""
        run = []
        for at, value in [*points, (None, None)]:
            if value is not None:
                run.append((self.x(at), self.y(value)))
                continue
            if run:
                places = " ".join(f"{x},{y}" for x, y in thin_out(run))
                yield f'<polyline fill="none" stroke="{colour}" stroke-width="{width}" stroke-linejoin="round" points="{places}"/>'
            run = []

    def dots(self, points, colour):
        """A dot for each point."""
        places = list(thin_out([(self.x(at), self.y(value)) for at, value in points]))
        if places:
            path = "".join(f"M{x} {y}h0" for x, y in places)
            yield f'<path d="{path}" fill="none" stroke="{colour}" stroke-width="3.4" stroke-linecap="round"/>'

    def steps(self, changes, until, colour):
        """A line that keeps each value until the next, and the last until a time: pairs of a time and the value from it on."""
        points, before = [], None
        for at, value in changes:
            points += ([(at, before)] if before is not None else []) + [(at, value)]
            before = value
        yield from self.line(points + ([(until, before)] if before is not None else []), colour)


def ticks_of(times):
    """The microframes at which the axis has numbers: whole steps of milliseconds, as far apart as their labels are wide."""
    first, last = times
    widest = len(str(last)) * DIGIT + 16
    count = max(min(int(INNER / widest), 10), 2)
    return [round(ms * 8, 3) for ms in steps_of(first / 8, last / 8, count)]


def axis(top, times):
    """The times below the last panel: milliseconds, and microframes."""
    panel = Panel(top, 1, times)
    yield text(LEFT - 10, top + 16, "ms", "end")
    yield text(LEFT - 10, top + 30, "microframes", "end")
    for at in ticks_of(times):
        yield text(panel.x(at), top + 16, f"{at / 8:g}", "middle")
        yield text(panel.x(at), top + 30, f"{at:g}", "middle")


def rows_of_marks(top, times, rows):
    """A row for each kind of mark, with a stroke for each microframe: pairs of a name with its colour, and the microframes."""
    panel = Panel(top, ROW * len(rows), times)
    for row, ((name, colour), places) in enumerate(rows):
        y = top + row * ROW
        columns = sorted({panel.x(at) for at in places})
        yield f'<path d="{"".join(f"M{x} {y + 2}v8" for x in columns)}" stroke="{colour}" stroke-width="1.6"/>'
        yield text(LEFT - 6, y + 10, [(name, colour)], "end", 10)


def whole(lines, height):
    """The drawing, of its parts."""
    yield (f'<svg xmlns="http://www.w3.org/2000/svg" width="{WIDTH}" height="{height}" viewBox="0 0 {WIDTH} {height}" '
           'font-family="sans-serif">')
    yield f'<rect width="{WIDTH}" height="{height}" fill="#fff"/>'
    yield from lines
    yield "</svg>"
