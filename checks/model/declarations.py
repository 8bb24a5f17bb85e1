"""Types for people: their names, their declarations, their paths, and the graph of what they reach."""
from .numberings import order_of
from .tables import references
from .values import Unmodelled

NAME_DEPTH, LONGEST_NAME = 8, 20000
GENERIC = {"sequence": "Vec", "compact": "Compact", "bitsequence": "BitSequence", "map": "BTreeMap"}


def listed(texts):
    """Texts with a comma between two."""
    return ", ".join(texts)


def field_name(table, field, within):
    """A field on one line."""
    name = name_of(table, field.ty, within)
    return name if field.name is None else f"{field.name}: {name}"


def fields_name(table, fields, within):
    """Fields on one line."""
    if not fields:
        return ""
    texts = listed(field_name(table, it, within) for it in fields)
    return f" {{ {texts} }}" if any(it.name is not None for it in fields) else f"({texts})"


def written_out(table, definition, within):
    """What a type is, without its path; it mentions types within so many."""
    names = [name_of(table, it, within) for it in definition.types]
    if definition.kind == "composite":
        return "struct" + fields_name(table, definition.fields, within)
    if definition.kind == "variant":
        if not definition.variants:
            raise Unmodelled("the name of an enum without path and variants")
        return "enum {" + "".join(f" {it.name}{fields_name(table, it.fields, within)}," for it in definition.variants) + " }"
    if definition.kind == "primitive":
        return definition.primitive
    if definition.kind == "array":
        return f"[{names[0]}; {definition.length}]"
    if definition.kind == "tuple":
        return f"({names[0]},)" if len(names) == 1 else f"({listed(names)})"
    return f"{GENERIC[definition.kind]}<{listed(names)}>"


def pathed_name(table, ty, within):
    """The last segment of a path with its arguments, which are types within so many."""
    texts = [it.name if it.ty is None else name_of(table, it.ty, within) for it in ty.params]
    return ty.path[-1] + (f"<{listed(texts)}>" if texts else "")


def name_of(table, number, within=NAME_DEPTH):
    """The name of the type with this id, within so many types."""
    if not within:
        return ".."
    if number >= len(table):
        return f"#{number}"
    ty = table[number].ty
    name = pathed_name(table, ty, within - 1) if ty.path else written_out(table, ty.definition, within - 1)
    if len(name) > LONGEST_NAME:
        raise Unmodelled("a name that is too long for a model")
    return name


def title(table, ty):
    """A blank and the name of a type that has a path."""
    return " " + pathed_name(table, ty, NAME_DEPTH) if ty.path else ""


def docs_lines(docs, level):
    """Lines of documentation."""
    return [(level, f"/// {it}") for it in docs]


def fields_lines(table, head, fields, level, end):
    """The lines of a head and its fields, with an end."""
    named = any(it.name is not None for it in fields)
    if not named and not any(it.docs for it in fields):
        return [(level, head + fields_name(table, fields, NAME_DEPTH) + end)]
    lines = [(level, head + (" {" if named else "("))]
    for it in fields:
        lines += docs_lines(it.docs, level + 1) + [(level + 1, field_name(table, it, NAME_DEPTH) + ",")]
    return lines + [(level, ("}" if named else ")") + end)]


def lines_of(table, number):
    """The lines that declare the type with this id, each with its level; None, where there is no such type."""
    if number >= len(table):
        return None
    ty = table[number].ty
    definition, docs = ty.definition, docs_lines(ty.docs, 0)
    if definition.kind == "composite":
        end = "" if any(it.name is not None for it in definition.fields) else ";"
        return docs + fields_lines(table, "struct" + title(table, ty), definition.fields, 0, end)
    if definition.kind == "variant":
        lines = docs + [(0, "enum" + title(table, ty) + " {")]
        for it in definition.variants:
            lines += docs_lines(it.docs, 1) + fields_lines(table, it.name, it.fields, 1, f" = {it.index},")
        return lines + [(0, "}")]
    what = written_out(table, definition, NAME_DEPTH)
    return docs + [(0, f"type{title(table, ty)} = {what};" if ty.path else what)]


def describe(table, number):
    """The declaration of the type with this id; None, where there is no such type."""
    lines = lines_of(table, number)
    return None if lines is None else "\n".join(" " * 4 * level + text for level, text in lines)


def find_by_path(table, path):
    """The ids of the types with a path, which is given as a text."""
    return [index for index, it in enumerate(table) if it.ty.path == path.split("::")]


def stand_in(segments, path):
    """Whether segments stand in a row in a path."""
    return any(path[at:at + len(segments)] == segments for at in range(len(path) - len(segments) + 1))


def find_containing(table, pattern):
    """The ids of the types in whose path the segments of a pattern stand in a row."""
    return [index for index, it in enumerate(table) if stand_in(pattern.split("::"), it.ty.path)]


def graph(table, chosen):
    """The graph of what the chosen ids reach."""
    lines = ["digraph types {"]
    for number in order_of(table, chosen):
        name = name_of(table, number).replace("\\", "\\\\").replace('"', '\\"')
        lines.append(f'    {number} [label="{number} {name}"];')
        lines += [f"    {number} -> {it};" for it in references(table[number].ty)]
    return "".join(f"{it}\n" for it in [*lines, "}"])
