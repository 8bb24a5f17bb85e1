"""Values of a program's own types: what a decoded value is as one, and what stands for one by a table.

A type is a tuple: integer with its width, text, list with the type of its items, array with that type and a count, tuple with the types of
its members, or option with a type.
"""
from .values import Unmodelled

U16, U64, BOOL, TEXT = ("integer", 2), ("integer", 8), ("bool",), ("text",)


class NoneOfType(Exception):
    """A value is none of the program's type, or nothing stands for it."""


def of_list(value):
    """The items of a list."""
    if value[0] == "record":
        raise Unmodelled("a struct as a list or a tuple of a program")
    if value[0] != "list":
        raise NoneOfType
    return value[1]


def option_of(ty, value):
    """What a variant is as an option."""
    if value[0] != "variant" or (value[1], len(value[3])) not in (("None", 0), ("Some", 1)):
        raise NoneOfType
    return None if value[1] == "None" else (from_value(ty, value[3][0][1]),)


def from_value(ty, value):
    """What a value is as one of a program's type."""
    kind = ty[0]
    if kind in ("bool", "text"):
        if value[0] != kind:
            raise NoneOfType
        return value[1]
    if kind == "integer":
        if value[0] != "unsigned" or value[1] >> 8 * ty[1]:
            raise NoneOfType
        return value[1]
    if kind == "option":
        return option_of(ty[1], value)
    items = of_list(value)
    types = list(ty[1]) if kind == "tuple" else [ty[1]] * (len(items) if kind == "list" else ty[2])
    if len(types) != len(items):
        raise NoneOfType
    return [from_value(*it) for it in zip(types, items)]


def item_types(table, number, count):
    """The ids of the types of so many items of a list by the type with an id; None for one that is not known."""
    definition = table[number].ty.definition if number is not None and number < len(table) else None
    if definition is None or definition.kind not in ("sequence", "array", "tuple"):
        return [None] * count
    types = definition.types if definition.kind == "tuple" else definition.types * count
    return (types + [None] * count)[:count]


def option_value(ty, it, table, number):
    """What stands for an option by the type with an id."""
    if number is None or number >= len(table):
        raise Unmodelled("what stands for an option where the table has no such type")
    name = "None" if it is None else "Some"
    found = next((variant for variant in table[number].ty.definition.variants if variant.name == name), None)
    if found is None or len(found.fields) != (0 if it is None else 1):
        raise NoneOfType
    return "variant", name, found.index, [] if it is None else [(found.fields[0].name, to_value(ty, it[0], table, found.fields[0].ty))]


def to_value(ty, it, table, number):
    """What stands for a program's value by the type with an id."""
    kind = ty[0]
    if kind in ("bool", "text"):
        return kind, it
    if kind == "integer":
        return "unsigned", it
    if kind == "option":
        return option_value(ty[1], it, table, number)
    types = ty[1] if kind == "tuple" else [ty[1]] * len(it)
    return "list", [to_value(a, b, table, c) for a, b, c in zip(types, it, item_types(table, number, len(it)))]
