"""Values as JSON: the text of a value, and the value that is taken from a tree."""
import re

from .json_trees import quoted
from .values import DEEPEST, SIGNED, UNSIGNED, Failure, Unmodelled, compact_width, definition_at, events_of, has_bytes

LEAST_STRING = 1 << 53


def fields_text(events, fields):
    """The text of the fields of a record or a variant, with its end."""
    texts = []
    for it in fields:
        next(events)
        texts.append((it.name, text_of(events)))
    next(events)
    if any(name is None for name, _ in texts):
        return "[" + ",".join(text for _, text in texts) + "]"
    return "{" + ",".join(f"{quoted(name)}:{text}" for name, text in texts) + "}"


def variant_text(events, variant, choice):
    """The text of a value of an enum."""
    shared = sum(it.name == variant.name for it in choice) > 1
    fields = fields_text(events, variant.fields)
    if shared:
        return "{" + f"{quoted(variant.name)}:[{variant.index}" + (f",{fields}" if variant.fields else "") + "]}"
    return "{" + f"{quoted(variant.name)}:{fields}" + "}" if variant.fields else quoted(variant.name)


def text_of(events):
    """The text of the value of the next events."""
    event = next(events)
    kind = event[0]
    if kind == "truth":
        return "true" if event[1] else "false"
    if kind in ("unsigned", "signed"):
        return str(event[1]) if abs(event[1]) < LEAST_STRING else f'"{event[1]}"'
    if kind == "text":
        return quoted(event[1])
    if kind == "bytes":
        return f'"0x{event[1].hex()}"'
    if kind == "begin list":
        texts = [text_of(events) for _ in range(event[1])]
        next(events)
        return "[" + ",".join(texts) + "]"
    if kind == "begin record":
        return fields_text(events, event[1])
    return variant_text(events, event[1], event[2])


def text(table, number, data):
    """The text of the value that the bytes begin with, and the rest."""
    events, rest = events_of(table, number, data)
    return text_of(iter(events)), rest


def integer(tree, kind, width):
    """The integer of this kind and width in a number or a string of digits."""
    if isinstance(tree, str) and re.fullmatch(r"-?[0-9]+", tree):
        number = int(tree)
    elif isinstance(tree, int) and not isinstance(tree, bool):
        number = tree
    else:
        raise Failure("Mismatch")
    least, most = (0, 1 << 8 * width) if kind == "unsigned" else (-1 << 8 * width - 1, 1 << 8 * width - 1)
    if not least <= number < most:
        raise Failure("Mismatch")
    return kind, number


def primitive(name, tree):
    """The value of a primitive in a tree."""
    if name in UNSIGNED:
        return integer(tree, "unsigned", UNSIGNED[name])
    if name in SIGNED:
        return integer(tree, "signed", SIGNED[name])
    if name not in ("bool", "str"):
        raise Failure("Unsupported")
    if not isinstance(tree, bool if name == "bool" else str):
        raise Failure("Mismatch")
    return ("bool" if name == "bool" else "text"), tree


def parts(table, types, trees, depth):
    """The values of these types in as many trees."""
    if not isinstance(trees, list):
        raise Failure("Mismatch")
    try:
        found = [take(table, ty, depth + 1, it) for ty, it in zip(types, trees)]
    except Failure as failure:
        if len(types) != len(trees) and failure.why != "Mismatch":
            raise Unmodelled("which error comes first where there are other parts than types") from None
        raise
    if len(types) != len(trees):
        raise Failure("Mismatch")
    return found


def byte_list(table, definition, depth, tree):
    """The items of a list of bytes in a string of digits."""
    digits = tree.removeprefix("0x")
    if len(digits) % 2 or not re.fullmatch(r"[0-9a-fA-F]*", digits):
        raise Failure("Mismatch")
    if digits:
        definition_at(table, definition.types[0], depth + 1)
    return [("unsigned", it) for it in bytes.fromhex(digits)]


def listed(table, definition, depth, tree):
    """The value of a sequence, an array or a map in a tree."""
    count = definition.length if definition.kind == "array" else None
    if definition.kind != "map" and has_bytes(table, definition) and isinstance(tree, str):
        items = byte_list(table, definition, depth, tree)
        if count not in (None, len(items)):
            raise Failure("Mismatch")
        return "list", items
    if not isinstance(tree, list):
        raise Failure("Mismatch")
    if definition.kind == "map":
        if tree and depth + 1 > DEEPEST:
            raise Failure("TooDeep")
        return "list", [("list", parts(table, definition.types, it, depth + 1)) for it in tree]
    return "list", parts(table, definition.types * (len(tree) if count is None else min(count, len(tree) + 1)), tree, depth)


def fields(table, all_of, depth, tree):
    """The values of fields in the tree of a record or a variant."""
    names = [it.name for it in all_of]
    if None in names or len(set(names)) < len(names):
        found = parts(table, [it.ty for it in all_of], tree, depth)
        return list(zip(names, found))
    if not isinstance(tree, dict):
        raise Failure("Mismatch")
    both = [it for it in all_of if it.name in tree]
    found = parts(table, [it.ty for it in both], [tree[it.name] for it in both] + [None] * (len(tree) - len(both)), depth)
    if len(both) < len(all_of):
        raise Failure("Mismatch")
    return list(zip(names, found))


def index_and_fields(chosen, has):
    """The variant of a shared name with the index that its tree has, and the tree of its fields, if it has any."""
    if not isinstance(has, list) or not 1 <= len(has) <= 2:
        raise Failure("Mismatch")
    _, index = integer(has[0], "unsigned", 1)
    found = [it for it in chosen if it.index == index]
    if not found or bool(found[0].fields) != (len(has) == 2):
        raise Failure("Mismatch")
    return found[0], has[1] if found[0].fields else None


def variant_and_fields(definition, tree):
    """The variant that a tree names, and the tree of its fields, if it has any."""
    if isinstance(tree, dict) and len(tree) == 1:
        [(name, has)] = tree.items()
    elif isinstance(tree, str):
        name, has = tree, None
    else:
        raise Failure("Mismatch")
    chosen = [it for it in definition.variants if it.name == name]
    if not chosen or isinstance(tree, str) and (len(chosen) > 1 or chosen[0].fields):
        raise Failure("Mismatch")
    if len(chosen) > 1:
        return index_and_fields(chosen, has)
    if not chosen[0].fields and not isinstance(tree, str) and has != []:
        raise Failure("Mismatch")
    return chosen[0], has


def enumerated(table, definition, depth, tree):
    """The value of an enum in a tree."""
    variant, has = variant_and_fields(definition, tree)
    first = next(it for it in definition.variants if it.index == variant.index)
    if first is not variant:
        raise Failure("Mismatch")
    return "variant", variant.name, variant.index, fields(table, variant.fields, depth, has) if variant.fields else []


def take(table, number, depth, tree):
    """The value of the type with this id in a tree."""
    definition = definition_at(table, number, depth)
    kind = definition.kind
    if kind == "primitive":
        return primitive(definition.primitive, tree)
    if kind == "tuple":
        return "list", parts(table, definition.types, tree, depth)
    if kind in ("sequence", "array", "map"):
        return listed(table, definition, depth, tree)
    if kind == "composite":
        return "record", fields(table, definition.fields, depth, tree)
    if kind == "variant":
        return enumerated(table, definition, depth, tree)
    if kind == "compact":
        return integer(tree, "unsigned", compact_width(table, definition.types[0], depth))
    raise Failure("Unsupported")


def from_json(table, number, tree):
    """The value of the type with this id in a tree."""
    return take(table, number, 1, tree)


def fields_come_once(pairs):
    """Whether fields that are written by name have each name once, and so have those in them."""
    names = [name for name, _ in pairs]
    return (None in names or len(set(names)) == len(names)) and all(names_come_once(it) for _, it in pairs)


def names_come_once(value):
    """Whether each name comes once among the fields of each record and variant in a value, as far as these are written by name."""
    if value[0] == "list":
        return all(map(names_come_once, value[1]))
    return value[0] not in ("record", "variant") or fields_come_once(value[-1])
