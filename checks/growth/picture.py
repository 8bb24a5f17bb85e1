"""A picture of growth: processor time by how many types a table has, both in powers of ten."""
from math import ceil, floor, log10
from xml.sax.saxutils import escape

WIDTH, HEIGHT, LEFT, RIGHT, TOP, BOTTOM = 760, 420, 70, 190, 30, 50
COLORS = ["#1b6ca8", "#c0392b", "#2e8b57", "#8e5ea2", "#b8860b", "#008b8b", "#d2691e", "#556b2f", "#c71585", "#4b5d67"]


def text(x, y, words, anchor="start"):
    """A text."""
    return f'<text x="{x:.1f}" y="{y:.1f}" text-anchor="{anchor}">{escape(words)}</text>'


def segment(start, end, color, width):
    """A line between two points."""
    (x, y), (u, v) = start, end
    return f'<line x1="{x:.1f}" y1="{y:.1f}" x2="{u:.1f}" y2="{v:.1f}" stroke="{color}" stroke-width="{width}"/>'


class Axes:
    """Where a number of types and a number of milliseconds stand."""

    def __init__(self, sizes, times):
        self.first, self.last = log10(sizes[0]), max(log10(sizes[-1]), log10(sizes[0]) + 1)
        self.low, self.high = floor(log10(min(times))), ceil(log10(max(times)))

    def point(self, size, time):
        """The place of a time at a size."""
        across = (log10(size) - self.first) / (self.last - self.first)
        up = (log10(time) - self.low) / (self.high - self.low)
        return LEFT + across * (WIDTH - LEFT - RIGHT), HEIGHT - BOTTOM - up * (HEIGHT - TOP - BOTTOM)

    def drawn(self, sizes):
        """The lines of both axes, with their numbers."""
        for power in range(self.low, self.high + 1):
            start, end = self.point(sizes[0], 10.0 ** power), self.point(10 ** self.last, 10.0 ** power)
            yield segment(start, end, "#ddd", 1)
            yield text(LEFT - 8, start[1] + 4, f"{10.0 ** power:g}", "end")
        for size in sizes:
            start, end = self.point(size, 10.0 ** self.low), self.point(size, 10.0 ** self.high)
            yield segment(start, end, "#ddd", 1)
            yield text(start[0], HEIGHT - BOTTOM + 18, f"{size:,}", "middle")
        yield text(LEFT, TOP - 12, "milliseconds of processor time")
        yield text((LEFT + WIDTH - RIGHT) / 2, HEIGHT - 10, "types in the table", "middle")


def lines_of(rows, sizes):
    """A line for each command on tables like a runtime's, and for the floor: its name, and the milliseconds at each size."""
    chosen = [it for it in rows if it.job.shape == "runtime"]
    for row in chosen:
        yield row.job.name, [1000 * row.seconds(it) for it in sizes if row.seconds(it)]
    yield "the floor", [1000 * chosen[0].seconds(it, "floor") for it in sizes]


def picture_of(rows, sizes):
    """The picture, with the names of its lines at their ends, apart from one another."""
    lines = sorted(lines_of(rows, sizes), key=lambda it: -it[1][-1])
    axes = Axes(sizes, [it for _, times in lines for it in times])
    parts, place = list(axes.drawn(sizes)), TOP
    for at, (name, times) in enumerate(lines):
        color, points = COLORS[at % len(COLORS)], [axes.point(*it) for it in zip(sizes, times)]
        parts += [segment(*it, color, 2) for it in zip(points, points[1:])]
        place = max(place, points[-1][1])
        parts += [segment(points[-1], (WIDTH - RIGHT + 14, place), color, 0.5), text(WIDTH - RIGHT + 18, place + 4, name)]
        place += 15
    title = "<title>Processor time of each command by how many types a table has</title>"
    head = f'<svg xmlns="http://www.w3.org/2000/svg" viewBox="0 0 {WIDTH} {HEIGHT}" font-family="sans-serif" font-size="12" role="img">'
    return "\n".join([head, title, f'<rect width="{WIDTH}" height="{HEIGHT}" fill="white"/>', *parts, "</svg>\n"])
