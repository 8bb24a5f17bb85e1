"""The figures as tables of a page."""
from .jobs import SHAPES


class Row:
    """A job with its figures at each size."""

    def __init__(self, job):
        self.job, self.lengths, self.figures = job, {}, {}

    def add(self, size, length, figures):
        """Notes how many bytes were read at a size, and the figures of each program."""
        self.lengths[size], self.figures[size] = length, figures

    def progress(self):
        """What came of the job, for who waits."""
        last = max(self.figures)
        return f"growth: {self.job.shape}: {self.job.name}: {1000 * self.figures[last]['own'].seconds:.1f} ms for {last}"

    def seconds(self, size, side="own"):
        """The processor seconds of a program at a size; None where it was not measured."""
        return self.figures[size][side].seconds if size in self.figures else None


def number(value):
    """A number with three digits that count, or all before the point; nothing where there is none."""
    if value is None:
        return ""
    return f"{value:,.0f}" if value >= 100 else f"{value:.1f}" if value >= 10 else f"{value:.2f}"


def line(cells):
    """A line of a table."""
    return f"| {' | '.join(cells)} |"


def growth_table(rows, sizes):
    """Milliseconds of each command at each size; at the largest that it has, the time of a type and of a byte, and over a tenth of the size."""
    head = ["Command", *[f"{it:,}" for it in sizes], "ns a type", "ns a byte", "of which the floor", "tenfold", "MB read", "peak MB"]
    lines, shape = [], None
    for row in rows:
        if row.job.shape != shape:
            shape = row.job.shape
            lines += ["", f"**{shape}**: {SHAPES[shape]}", "", line(head), line(["---"] * len(head))]
        last = max(row.figures)
        own, floor, length = row.figures[last]["own"], row.figures[last]["floor"], row.lengths[last]
        times = [it and 1000 * it for it in map(row.seconds, sizes)]
        tenfold = number(own.seconds / row.seconds(last // 10)) if row.seconds(last // 10) else ""
        lines.append(line([
            row.job.name, *map(number, times), number(1e9 * own.seconds / last),
            number(1e9 * own.seconds / length), number(1e9 * floor.seconds / length), tenfold, number(length / (1 << 20)), number(own.peak),
        ]))
    return lines


def comparison_table(rows, sizes):
    """Beside another program: its time over this one's at each size, and the peak memory of both at the largest."""
    head = ["Shape", "Command", *[f"{it:,}" for it in sizes], "peak MB", "peak MB of the other"]
    lines = ["", "Times of the other program over those of this one:", "", line(head), line(["---"] * len(head))]
    for row in rows:
        if "other" not in row.figures[sizes[0]]:
            continue
        ratios = [number(row.seconds(it, "other") / row.seconds(it)) for it in sizes]
        peaks = [number(row.figures[sizes[-1]][it].peak) for it in ("own", "other")]
        lines.append(line([row.job.shape, row.job.name, *ratios, *peaks]))
    return lines


def table_of(rows, sizes, turns, is_compared):
    """All tables, with what their columns are."""
    intro = [
        f"Milliseconds of processor time, the least of {turns} runs, by how many types the table has; then, at the largest size that a command",
        "has here, nanoseconds for each type and for each byte that is read, those of the floor for each byte, the time over that of a tenth of",
        "the size, how much is read, and the peak memory, in MB of 1,048,576 bytes.",
    ]
    return "\n".join([*intro, *growth_table(rows, sizes), *(comparison_table(rows, sizes) if is_compared else [])])
