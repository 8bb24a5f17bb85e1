"""Tables as trees of JSON: the tree that is written of a table, and the table that a tree means."""
from .tables import KINDS, PRIMITIVES, Definition, Description, Entry, Field, Parameter, Variant

REFERENCES = {
    "sequence": ["type"],
    "array": ["type"],
    "compact": ["type"],
    "bitsequence": ["bit_store_type", "bit_order_type"],
    "map": ["key", "value"],
}
REQUIRED = object()


class Shape(Exception):
    """The tree means no table."""


def tree_of_rows(**rows):
    """An object of these rows, in the order of their keys; rows of None and of nothing are left out."""
    return {key: rows[key] for key in sorted(rows) if rows[key] is not None and rows[key] != []}


def tree_of_field(it):
    """The tree of a field."""
    return tree_of_rows(docs=it.docs, name=it.name, type=it.ty, typeName=it.type_name)


def tree_of_variant(it):
    """The tree of a variant."""
    return tree_of_rows(docs=it.docs, fields=list(map(tree_of_field, it.fields)), index=it.index, name=it.name)


def tree_of_definition(it):
    """The tree of what a definition has."""
    if it.kind == "composite":
        return tree_of_rows(fields=list(map(tree_of_field, it.fields)))
    if it.kind == "variant":
        return tree_of_rows(variants=list(map(tree_of_variant, it.variants)))
    if it.kind == "tuple":
        return it.types
    if it.kind == "primitive":
        return it.primitive
    rows = dict(zip(REFERENCES[it.kind], it.types))
    return tree_of_rows(**rows, len=it.length) if it.kind == "array" else tree_of_rows(**rows)


def tree_of_description(it):
    """The tree of a description."""
    params = [{"name": param.name, "type": param.ty} for param in it.params]
    definition = {it.definition.kind: tree_of_definition(it.definition)}
    return tree_of_rows(**{"def": definition}, docs=it.docs, params=params, path=it.path)


def tree_of_table(entries):
    """The tree of a table."""
    return {"types": [{"id": it.id, "type": tree_of_description(it.ty)} for it in entries]}


def part(tree, key, meaning, missing=REQUIRED):
    """What a key of an object means; where it is missing, what that means."""
    if not isinstance(tree, dict) or missing is REQUIRED and key not in tree:
        raise Shape
    if key not in tree or missing is None and tree[key] is None:
        return missing
    return meaning(tree[key])


def number(most):
    """The meaning of an integer up to a greatest one."""
    def meaning(tree):
        if not isinstance(tree, int) or isinstance(tree, bool) or not 0 <= tree <= most:
            raise Shape
        return tree

    return meaning


def text(tree):
    """The meaning of a string."""
    if not isinstance(tree, str):
        raise Shape
    return tree


def items(meaning):
    """The meaning of an array."""
    def meaning_of_all(tree):
        if not isinstance(tree, list):
            raise Shape
        return [meaning(it) for it in tree]

    return meaning_of_all


NUMBER, TEXTS = number((1 << 32) - 1), items(text)


def field(tree):
    """The meaning of a field."""
    name, type_name = (part(tree, key, text, None) for key in ("name", "typeName"))
    return Field(name, part(tree, "type", NUMBER), type_name, part(tree, "docs", TEXTS, []))


def variant(tree):
    """The meaning of a variant."""
    fields = part(tree, "fields", items(field), [])
    return Variant(part(tree, "name", text), fields, part(tree, "index", number(255)), part(tree, "docs", TEXTS, []))


def definition(tree):
    """The meaning of a definition: an object of one key, that of its kind."""
    if not isinstance(tree, dict) or len(tree) != 1:
        raise Shape
    [(kind, has)] = tree.items()
    if kind not in KINDS:
        raise Shape
    if kind == "composite":
        return Definition(kind, fields=part(has, "fields", items(field), []))
    if kind == "variant":
        return Definition(kind, variants=part(has, "variants", items(variant), []))
    if kind == "tuple":
        return Definition(kind, types=items(NUMBER)(has))
    if kind == "primitive":
        if not isinstance(has, str) or has not in PRIMITIVES:
            raise Shape
        return Definition(kind, primitive=has)
    types = [part(has, key, NUMBER) for key in REFERENCES[kind]]
    return Definition(kind, types=types, length=part(has, "len", NUMBER) if kind == "array" else 0)


def parameter(tree):
    """The meaning of a parameter."""
    return Parameter(part(tree, "name", text), part(tree, "type", NUMBER, None))


def description(tree):
    """The meaning of a description."""
    path, docs = (part(tree, key, TEXTS, []) for key in ("path", "docs"))
    return Description(path, part(tree, "params", items(parameter), []), part(tree, "def", definition), docs)


def entry(tree):
    """The meaning of an entry."""
    return Entry(part(tree, "id", NUMBER), part(tree, "type", description))


def table_of_tree(tree):
    """The table that a tree means."""
    return part(tree, "types", items(entry))
