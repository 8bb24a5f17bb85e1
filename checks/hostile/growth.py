"""Instructions of a case and of one ten times as large, counted by valgrind: linear growth."""
import concurrent.futures
import importlib.machinery
import importlib.util
import tempfile

from .nodes import U8, Table, struct
from .programs import TOP, Case, Runner
from .shapes import SHAPES, cases_of
from .values import long_values, many_lines

# So many times the instructions for ten times the size: where growth is linear; where lines come from a buffer, whose rest is longer at the
# larger size, up to a bound; and where two sizes are multiplied.
LINEAR, BUFFERED, PRODUCT = 12, 20, 120
# The names of the cases of each shape that the short form counts.
SHORT = {
    "chain up": ["json", "prune all", "list", "graph first", "diff with itself"],
    "chain down": ["prune last"],
    "cycle": ["reader prune first"],
    "maps": ["strip", "graph second"],
    "star": ["prune first", "list"],
    "late star": ["graph last"],
    "structs": ["find demo", "diff with one changed", "diff with all changed", "diff with none"],
    "ring": ["diff with itself"],
    "members": ["json"],
    "fields": ["prune first"],
    "named fields": ["json", "list"],
    "variants": ["json", "list"],
    "parameters": ["json", "list"],
    "docs": ["check", "json", "strip", "list"],
    "segments": ["check", "find s"],
    "plain docs": ["check"],
    "quotes path": ["graph first"],
    "controls docs": ["json"],
    "three-byte docs": ["list"],
}


def bench_count():
    """The script bench/count, which has the setting that fixes the C library's choice of routines."""
    loader = importlib.machinery.SourceFileLoader("bench_count", f"{TOP}/bench/count")
    module = importlib.util.module_from_spec(importlib.util.spec_from_loader("bench_count", loader))
    loader.exec_module(module)
    return module


def shape_cases(is_long, count):
    """The cases of shapes that are counted, in this size."""
    for name, make in SHAPES.items():
        for case in cases_of(make, count) if is_long or name in SHORT else ():
            if is_long or case.name in SHORT[name]:
                case.name = f"{name}: {case.name}"
                yield case


def product_cases(count):
    """Cases that take the product of two sizes: each path is looked up among all types, each place of a path, each changed type walks."""
    nodes = [U8] + [struct(at, 0) for at in range(1, count)]
    data, paths = Table(nodes).data, [it.path for it in nodes[1:]]
    listed = "".join(f"// {at} {it.path}\n{it.declared}\n" for at, it in enumerate(nodes[1:], 1)).encode()
    yield Case("a list of all paths", "type_reader", ["list", "-", *paths], data, output=listed)
    yield Case("a diff of all paths", "type_reader", ["diff", "old", "-", *paths], data, {"old": data})
    segments = SHAPES["segments"](count).table.data
    yield Case("a pattern half as long as the path", "type_reader", ["find", "-", "::".join(["s"] * (count // 2) + ["x"])], segments)
    links = [struct(at, at + 1, inner=f"T{at + 1}") for at in range(count - 1)]
    ends = [struct(count - 1, count - 1, name, f"T{count - 1}") for name in "ab"]
    end = f"T{count - 1}: a: T{count - 1}, -> b: T{count - 1},\n"
    lines = "".join(f"~ demo::T{at}: demo::{end}" for at in range(count - 1)) + f"~ demo::T{count - 1}: {end.split(': ', 1)[1]}"
    old, new = (Table([*links, it]).data for it in ends)
    yield Case("a diff of a chain whose end has changed", "type_reader", ["diff", "old", "-"], new, {"old": old}, 1, lines.encode())


def growth_fault(runner, pair, most, setting):
    """Why the larger of two cases takes more than so many times the instructions; None if it does not, and both are right."""
    for case in pair:
        fault = runner.fault(case)
        if fault:
            return fault
    counts = [runner.counted(it, setting) for it in pair]
    if not all(isinstance(it, int) for it in counts):
        return "; ".join(it for it in counts if isinstance(it, str))
    small, large = counts
    return None if large <= most * small else f"{small} instructions, and {large} for ten times the size: {large / small:.1f} times"


def pairs_of(make, count):
    """Each case of this size with that of ten times the size, which has the same place."""
    yield from zip(make(count), make(10 * count))


def pairs(is_long):
    """All pairs that are counted, with how many times the instructions the larger one may take."""
    groups = [
        (lambda count: shape_cases(is_long, count), 1000, LINEAR), (long_values, 1000, LINEAR), (many_lines, 1000, BUFFERED),
        (product_cases, 30, PRODUCT),
    ]
    if is_long:
        groups += [(lambda count: shape_cases(False, count), 10_000, LINEAR), (long_values, 10_000, LINEAR), (many_lines, 50_000, LINEAR)]
    for make, count, most in groups:
        for pair in pairs_of(make, count):
            yield pair, most


def counted(pair, most, setting):
    """The name of a pair and why it is not as wanted, or None; it has a folder of its own."""
    with tempfile.TemporaryDirectory(prefix="hostile-") as folder:
        return pair[0].name, growth_fault(Runner(folder), pair, most, setting)


def looked_at(_, is_long):
    """Each pair with why it is not as wanted, or None; two are counted at a time."""
    bench = bench_count()
    if not bench.has_valgrind():
        yield "valgrind", "it is missing, and could not be installed"
        return
    with concurrent.futures.ThreadPoolExecutor(2) as pool:
        yield from pool.map(lambda it: counted(*it, bench.tunables()), pairs(is_long))
