"""Tables of one shape and any size, with what each command must write of them, worked out from docs/FORMATS.md by hand.

A shape is made of nodes. What some ids reach is given for each shape as it must be found, and not searched for here.
"""
from dataclasses import dataclass, field

from .nodes import (
    LARGEST, U8, U16, Node, Table, compact, link, mapping, members, renumbered, sequence, struct, texts, tree_map, vec,
)
from .programs import Case, refusal


@dataclass
class Shape:
    """A table; by a word for some ids, these, and the types that they reach or the id that dangles; what find and diff must write."""
    table: Table
    reached: dict
    findings: dict = field(default_factory=dict)
    changes: dict = field(default_factory=dict)


def up(count):
    """A chain of which each link refers to the next, and the last type is u8."""
    nodes = [link(sequence, (at + 1,), count - 1 - at, vec, "u8") for at in range(count - 1)] + [U8]
    return Shape(Table(nodes), {"first": ([0], range(count)), "last": ([count - 1],) * 2, "all": (range(count),) * 2})


def down(count):
    """A chain of which each link refers to the one before it, and the first type is u8."""
    nodes = [U8] + [link(sequence, (at - 1,), at, vec, "u8") for at in range(1, count)]
    reached = {"first": ([0], [0]), "last": ([count - 1], range(count - 1, -1, -1)), "all": (range(count), range(count))}
    return Shape(Table(nodes), reached)


def cycle(count):
    """Each type refers to the next, and the last to the first."""
    nodes = [link(sequence, ((at + 1) % count,), count, vec, "") for at in range(count)]
    around = [count - 1, *range(count - 1)]
    return Shape(Table(nodes), {"first": ([0], range(count)), "last": ([count - 1], around), "all": (range(count), range(count))})


def selves(count):
    """Each type refers to itself."""
    nodes = [link(sequence, (at,), count, vec, "") for at in range(count)]
    return Shape(Table(nodes), {"first": ([0], [0]), "last": ([count - 1], [count - 1]), "all": (range(count), range(count))})


def dangling(count):
    """Each type refers to the first id past the end."""
    nodes = [link(sequence, (count,), 1, vec, f"#{count}")] * count
    return Shape(Table(nodes), {"first": ([0], count), "last": ([count - 1], count), "all": (range(count), count)})


def far(count):
    """A chain whose last link refers to the largest id."""
    refs = [*range(1, count), LARGEST]
    nodes = [link(sequence, (it,), count - at, vec, f"#{LARGEST}") for at, it in enumerate(refs)]
    return Shape(Table(nodes), {"first": ([0], LARGEST), "last": ([count - 1], LARGEST)})


def alike(count):
    """Types that all have the largest id for their own."""
    return Shape(Table([U8] * count, LARGEST), {"first": ([0], [0]), "all": (range(count), range(count))})


def maps(count):
    """A chain of maps, each from u8 to the next map, and the last to u8; the first type is u8."""
    nodes = [U8] + [link(mapping, (0, (at + 1) % count), count - at, tree_map, "u8") for at in range(1, count)]
    second = [1, 0, *range(2, count)]
    return Shape(Table(nodes), {"second": ([1], second), "last": ([count - 1], [count - 1, 0]), "all": (range(count), range(count))})


def star(count):
    """A tuple of all other types."""
    name = f"({', '.join(['u8'] * (count - 1))})"
    nodes = [Node(members, tuple(range(1, count)), "", name, name)] + [U8] * (count - 1)
    return Shape(Table(nodes), {"first": ([0], range(count)), "last": ([count - 1], [count - 1])})


def late_star(count):
    """A tuple of all other types, after these."""
    name = f"({', '.join(['u8'] * (count - 1))})"
    nodes = [U8] * (count - 1) + [Node(members, tuple(range(count - 1)), "", name, name)]
    return Shape(Table(nodes), {"first": ([0], [0]), "last": ([count - 1], [count - 1, *range(count - 1)])})


def structs(count):
    """Structs that all have a field of the first type, and tables with one and with all of them changed, and with none."""
    nodes = [U8] + [struct(at, 0) for at in range(1, count)]
    one = Table([*nodes[:-1], struct(count - 1, 0, "b")]).data
    every = Table([U16, *nodes[1:]]).data
    paths = [it.path for it in nodes[1:]]
    changes = {
        "with one changed": (one, f"~ {paths[-1]}: a: u8, -> b: u8,\n"),
        "with all changed": (every, "".join(f"~ {it}: a: u8, -> a: u16,\n" for it in paths)),
        "with none": (b"\0", "".join(f"- {it}\n" for it in paths)),
    }
    findings = {"demo": "".join(f"{at} {it}\n" for at, it in enumerate(paths, 1)), f"T{count - 1}": f"{count - 1} {paths[-1]}\n", "x": ""}
    reached = {"first": ([0], [0]), "last": ([count - 1], [count - 1, 0]), "all": (range(count), range(count))}
    return Shape(Table(nodes), reached, findings, changes)


def ring(count):
    """Structs of which each has a field of the next one, and the last of the first."""
    nodes = [struct(at, (at + 1) % count, inner=f"T{(at + 1) % count}") for at in range(count)]
    return Shape(Table(nodes), {"first": ([0], range(count)), "last": ([count - 1], [count - 1, *range(count - 1)])})


def one_type(build, refs, declared, name, path="", bare=None):
    """The shape of a type that refers to u8, if to any, and u8 after it."""
    nodes = [Node(build, tuple(refs), path, declared, name, bare), U8]
    return Shape(Table(nodes), {"first": ([0], [0, 1] if refs else [0]), "last": ([1], [1])})


def many_members(count):
    """A tuple."""
    name = f"({', '.join(['u8'] * count)})"
    return one_type(members, [1] * count, name, name)


def many_fields(count):
    """A struct of fields without names."""
    def build(refs):
        """The bytes and the JSON text of the type."""
        fields = ",".join(f'{{"type":{it}}}' for it in refs)
        return b"\0\0\0" + compact(count) + b"".join(b"\0" + compact(it) + b"\0\0" for it in refs) + b"\0", \
            f'{{"def":{{"composite":{{"fields":[{fields}]}}}}}}'
    name = f"struct({', '.join(['u8'] * count)})"
    return one_type(build, [1] * count, name + ";", name)


def many_named_fields(count):
    """A struct of fields with names, names of types and docs."""
    def build(refs, docs=(texts(["d"]), '"docs":["d"],')):
        """The bytes and the JSON text of the type, with docs of each field."""
        data = b"".join(b"\1" + texts([f"f{at}"])[1:] + compact(it) + b"\1" + texts(["t"])[1:] + docs[0] for at, it in enumerate(refs))
        fields = ",".join(f'{{{docs[1]}"name":"f{at}","type":{it},"typeName":"t"}}' for at, it in enumerate(refs))
        return b"\0\0\0" + compact(count) + data + b"\0", f'{{"def":{{"composite":{{"fields":[{fields}]}}}}}}'
    lines = "".join(f"    /// d\n    f{at}: u8,\n" for at in range(count))
    name = f"struct {{ {', '.join(f'f{at}: u8' for at in range(count))} }}"
    return one_type(build, [1] * count, f"struct {{\n{lines}}}", name, bare=lambda refs: build(refs, (b"\0", "")))


def many_variants(count):
    """An enum of variants without fields, whose indices come again."""
    def build(_):
        """The bytes and the JSON text of the type."""
        data = b"".join(texts([f"V{at}"])[1:] + bytes([0, at % 256, 0]) for at in range(count))
        variants = ",".join(f'{{"index":{at % 256},"name":"V{at}"}}' for at in range(count))
        return b"\0\0\1" + compact(count) + data + b"\0", f'{{"def":{{"variant":{{"variants":[{variants}]}}}}}}'
    lines = "".join(f"    V{at} = {at % 256},\n" for at in range(count))
    return one_type(build, [], f"enum {{\n{lines}}}", f"enum {{ {' '.join(f'V{at},' for at in range(count))} }}")


def many_params(count):
    """A type with a path and parameters, every second of which has a type."""
    def build(refs):
        """The bytes and the JSON text of the type."""
        ids = [None if at % 2 else refs[at // 2] for at in range(count)]
        data = b"".join(texts([f"P{at}"])[1:] + (b"\0" if it is None else b"\1" + compact(it)) for at, it in enumerate(ids))
        params = ",".join(f'{{"name":"P{at}","type":{"null" if it is None else it}}}' for at, it in enumerate(ids))
        return texts(["P"]) + compact(count) + data + b"\5\3\0", f'{{"def":{{"primitive":"u8"}},"params":[{params}],"path":["P"]}}'
    name = f"P<{', '.join(f'P{at}' if at % 2 else 'u8' for at in range(count))}>"
    return one_type(build, [1] * ((count + 1) // 2), f"type {name} = u8;", name, "P")


def documented(docs, shown):
    """The primitive u8 with these lines of docs, which stand so in JSON."""
    def build(_):
        """The bytes and the JSON text of the type."""
        return b"\0\0\5\3" + texts(docs), f'{{"def":{{"primitive":"u8"}},"docs":[{",".join(shown)}]}}'
    return one_type(build, [], "".join(f"/// {it}\n" for it in docs) + "u8", "u8", bare=U8.build)


def many_docs(count):
    """Many lines of docs."""
    lines = [f"d{at}" for at in range(count)]
    return documented(lines, [f'"{it}"' for it in lines])


def with_path(path, shown):
    """The primitive u8 with this path, whose segments stand so in JSON."""
    def build(_):
        """The bytes and the JSON text of the type."""
        return texts(path) + b"\0\5\3\0", f'{{"def":{{"primitive":"u8"}},"path":[{",".join(shown)}]}}'
    return one_type(build, [], f"type {path[-1]} = u8;", path[-1], "::".join(path))


def many_segments(count):
    """A path of many segments."""
    shape = with_path(["s"] * count, ['"s"'] * count)
    shape.findings = {"s": f"0 {shape.table.nodes[0].path}\n", "s::x": ""}
    return shape


# Characters, and how each stands in JSON.
LETTERS = {"plain": ("a", "a"), "quotes": ('"', '\\"'), "controls": ("\1", "\\u0001"), "three-byte": ("\u20ac", "\u20ac")}


def text_shapes():
    """For each kind of character a long text of it in docs, and in a path."""
    for kind, (letter, shown) in LETTERS.items():
        def docs(count, letter=letter, shown=shown):
            """Docs of so many tens of bytes."""
            length = 10 * count // len(letter.encode())
            return documented([letter * length], [f'"{shown * length}"'])

        def path(count, letter=letter, shown=shown):
            """A path of so many tens of bytes."""
            length = 10 * count // len(letter.encode())
            return with_path([letter * length], [f'"{shown * length}"'])
        yield f"{kind} docs", docs
        yield f"{kind} path", path


SHAPES = {
    "chain up": up, "chain down": down, "cycle": cycle, "self references": selves, "dangling references": dangling,
    "largest reference": far, "largest ids": alike, "maps": maps, "star": star, "late star": late_star, "structs": structs, "ring": ring,
    "members": many_members, "fields": many_fields, "named fields": many_named_fields, "variants": many_variants,
    "parameters": many_params, "docs": many_docs, "segments": many_segments, **dict(text_shapes()),
}
# So many ids fit among the arguments of a process.
MOST_WORDS = 100_000


def pruning_cases(shape):
    """The cases of prune and graph."""
    table, data = shape.table, shape.table.data
    for which, (ids, order) in shape.reached.items():
        words = list(map(str, ids))
        if len(words) > MOST_WORDS:
            continue
        if isinstance(order, int):
            line = f"dangling id {order}"
            yield refusal(f"prune {which}", "type_table", ["prune", *words], line, stdin=data)
            yield refusal(f"reader prune {which}", "type_reader", ["prune", "-", *words], line, stdin=data)
            yield refusal(f"graph {which}", "type_reader", ["graph", "-", *words], line, stdin=data)
            continue
        kept, lines = renumbered(table, order)
        yield Case(f"prune {which}", "type_table", ["prune", *words], data, output=kept)
        yield Case(f"reader prune {which}", "type_reader", ["prune", "-", *words], data, output=kept, errors=lines)
        yield Case(f"graph {which}", "type_reader", ["graph", "-", *words], data, output=table.graph(order))


def cases_of(make, count):
    """All cases of a shape of this size."""
    shape = make(count)
    table, data, note = shape.table, shape.table.data, b"input: a table\n"
    yield Case("check", "type_table", ["check"], data, output=data)
    yield Case("json", "type_table", ["json"], data, output=table.json())
    yield Case("table", "type_reader", ["table", "-"], data, output=data, errors=note)
    yield Case("strip", "type_reader", ["strip", "-"], data, output=table.stripped(), errors=note)
    yield Case("list", "type_reader", ["list", "-"], data, output=table.listed())
    for pattern, found in (shape.findings or {"x": ""}).items():
        yield Case(f"find {pattern}", "type_reader", ["find", "-", pattern], data, output=found.encode())
    yield Case("diff with itself", "type_reader", ["diff", "old", "-"], data, {"old": data})
    for which, (other, lines) in shape.changes.items():
        yield Case(f"diff {which}", "type_reader", ["diff", "old", "-"], other, {"old": data}, status=1, output=lines.encode())
    yield from pruning_cases(shape)


def cases(is_long):
    """The cases of each shape in each size."""
    for count in (10_000, 100_000, *([1_000_000] if is_long else [])):
        for name, make in SHAPES.items():
            for case in cases_of(make, count):
                case.name = f"{name} of {count}: {case.name}"
                yield case
