"""Types and tables of them, as bytes, as JSON, as declarations and as a graph, written by docs/FORMATS.md for shapes of any size."""
from functools import cache
from typing import Callable, NamedTuple

LARGEST = 4294967295
# So many types of a name are written, the named one being the first; the rest is two dots.
NAME_DEPTH = 8


def compact(number):
    """The compact encoding of an integer."""
    if number < 64:
        return bytes([4 * number])
    if number < 16384:
        return (4 * number + 1).to_bytes(2, "little")
    return (4 * number + 2).to_bytes(4, "little") if number < 1 << 30 else b"\3" + number.to_bytes(4, "little")


def texts(all_of):
    """The encoding of a list of texts."""
    return compact(len(all_of)) + b"".join(compact(len(it)) + it for it in (it.encode() for it in all_of))


class Node(NamedTuple):
    """A type: how its bytes and its JSON text are made of its references; these; its path, declaration and name; its form without docs."""
    build: Callable
    refs: tuple
    path: str
    declared: str
    name: str
    bare: Callable = None

    def stripped(self):
        """The type without docs, and without its declaration."""
        return self._replace(build=self.bare or self.build)


def sequence(refs):
    """The bytes and the JSON text of a sequence of a type."""
    return b"\0\0\2" + compact(refs[0]) + b"\0", f'{{"def":{{"sequence":{{"type":{refs[0]}}}}}}}'


def mapping(refs):
    """Those of a map."""
    return b"\0\0\x08" + compact(refs[0]) + compact(refs[1]) + b"\0", f'{{"def":{{"map":{{"key":{refs[0]},"value":{refs[1]}}}}}}}'


def members(refs):
    """Those of a tuple."""
    return b"\0\0\4" + compact(len(refs)) + b"".join(map(compact, refs)) + b"\0", f'{{"def":{{"tuple":[{",".join(map(str, refs))}]}}}}'


def primitive(index, name):
    """A primitive, which has no references."""
    made = b"\0\0\5" + bytes([index, 0]), f'{{"def":{{"primitive":"{name}"}}}}'
    return Node(lambda refs: made, (), "", name, name)


U8, U16 = primitive(3, "u8"), primitive(4, "u16")


@cache
def within(level, form, bottom, most=NAME_DEPTH):
    """The name of a type that nests so many levels of a form above a bottom."""
    if not most:
        return ".."
    return form(within(level - 1, form, bottom, most - 1), most) if level else bottom


def vec(inner, _):
    """The name of a sequence of a type that has this name."""
    return f"Vec<{inner}>"


def tree_map(inner, most):
    """The name of a map from u8, of which so many levels are written."""
    return f"BTreeMap<{'u8' if most > 1 else '..'}, {inner}>"


def link(build, refs, level, form, bottom):
    """A link of a chain, so many levels above its end; more levels than a name has are all alike."""
    level = min(level, NAME_DEPTH + 2)
    declared = form(within(level - 1, form, bottom), NAME_DEPTH + 1)
    return Node(build, refs, "", declared, within(level, form, bottom))


def struct(number, ref, name="a", inner="u8"):
    """A struct of one named field."""
    head = texts(["demo", f"T{number}"]) + b"\0\0\4\1" + texts([name])[1:]

    def build(refs):
        """The bytes and the JSON text of the struct, whose field has this type."""
        data = head + compact(refs[0]) + b"\0\0\0"
        return data, f'{{"def":{{"composite":{{"fields":[{{"name":"{name}","type":{refs[0]}}}]}}}},"path":["demo","T{number}"]}}'
    return Node(build, (ref,), f"demo::T{number}", f"struct T{number} {{\n    {name}: {inner},\n}}", f"T{number}")


class Table:
    """A table of nodes, of which each has its index for its id, if there is no other."""

    def __init__(self, nodes, number=None):
        self.nodes, self.number = nodes, number
        ids = range(len(nodes)) if number is None else [number] * len(nodes)
        self.built = [(one, *it.build(it.refs)) for one, it in zip(ids, nodes)]
        self.data = compact(len(nodes)) + b"".join(compact(one) + data for one, data, _ in self.built)

    def json(self):
        """The JSON text of the table."""
        entries = ",".join(f'{{"id":{one},"type":{text}}}' for one, _, text in self.built)
        return f'{{"types":[{entries}]}}\n'.encode()

    def stripped(self):
        """The bytes of the table without docs."""
        return Table([it.stripped() for it in self.nodes]).data if any(it.bare for it in self.nodes) else self.data

    def pathed(self, index):
        """An index and the path of its type, if there is one."""
        path = self.nodes[index].path
        return f"{index} {path}" if path else str(index)

    def listed(self):
        """What list writes of the table: types with a path before the others."""
        order = sorted(range(len(self.nodes)), key=lambda it: not self.nodes[it].path)
        return "".join(f"// {self.pathed(it)}\n{self.nodes[it].declared}\n" for it in order).encode()

    def graph(self, order):
        """The graph of these types, in the order in which they are found."""
        lines = ["digraph types {"]
        for index in order:
            node = self.nodes[index]
            name = node.name.replace("\\", "\\\\").replace('"', '\\"')
            lines.append(f'    {index} [label="{index} {name}"];')
            lines += [f"    {index} -> {it};" for it in node.refs]
        return "".join(f"{it}\n" for it in [*lines, "}"]).encode()


def renumbered(table, order):
    """The bytes of these types, which refer to no others, and the lines on their new ids."""
    new = {old: at for at, old in enumerate(order)}
    lines = "".join(f"{old} -> {new[old]}\n" for old in sorted(new)).encode()
    if table.number is None and order == range(len(table.nodes)):
        return table.data, lines
    return Table([(it := table.nodes[old])._replace(refs=tuple(new[ref] for ref in it.refs)) for old in order]).data, lines
