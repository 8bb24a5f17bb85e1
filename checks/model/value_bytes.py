"""Values by a table: the bytes of a value, or why it has none."""
from .codec import write_compact, write_text
from .values import DEEPEST, SIGNED, UNSIGNED, Failure, compact_width, definition_at


def write_integer(value, kind, width):
    """The bytes of an integer of this kind and width."""
    if value[0] != kind:
        raise Failure("Mismatch")
    try:
        return value[1].to_bytes(width, "little", signed=kind == "signed")
    except OverflowError:
        raise Failure("Mismatch") from None


def write_primitive(name, value):
    """The bytes of a primitive."""
    if name in UNSIGNED:
        return write_integer(value, "unsigned", UNSIGNED[name])
    if name in SIGNED:
        return write_integer(value, "signed", SIGNED[name])
    if name not in ("bool", "str"):
        raise Failure("Unsupported")
    if value[0] != ("bool" if name == "bool" else "text"):
        raise Failure("Mismatch")
    return write_text(value[1]) if name == "str" else bytes([value[1]])


def at_step(step, make, *given):
    """The bytes of a part; a mismatch of it is one of the whole, after this step."""
    try:
        return make(*given)
    except Failure as failure:
        raise Failure(failure.why, [step, *failure.path]) from None


def write_parts(table, types, values, depth):
    """The bytes of items or members, of which there must be as many as types."""
    if values[0] != "list":
        raise Failure("Mismatch")
    pairs = enumerate(zip(types, values[1]))
    data = b"".join(at_step(index, write, table, ty, depth + 1, it) for index, (ty, it) in pairs)
    if len(types) != len(values[1]):
        raise Failure("Mismatch")
    return data


def write_pair(table, types, depth, value):
    """The bytes of an entry of a map."""
    if depth > DEEPEST:
        raise Failure("TooDeep")
    return write_parts(table, types, value, depth)


def write_list(table, definition, depth, value):
    """The bytes of a sequence, an array or a map."""
    if value[0] != "list":
        raise Failure("Mismatch")
    count = len(value[1])
    if definition.kind == "map":
        pairs = [at_step(i, write_pair, table, definition.types, depth + 1, it) for i, it in enumerate(value[1])]
        return write_compact(count) + b"".join(pairs)
    if definition.kind == "sequence":
        return write_compact(count) + write_parts(table, definition.types * count, value, depth)
    looked_for = definition.types * min(definition.length, count + 1)
    return write_parts(table, looked_for, value, depth)


def write_field(table, field, depth, name, value):
    """The bytes of a field."""
    if name != field.name:
        raise Failure("Mismatch")
    return write(table, field.ty, depth, value)


def write_fields(table, fields, depth, values):
    """The bytes of fields, of which there must be as many as values."""
    pairs = enumerate(zip(fields, values))
    steps = [(index if name is None else name, field, name, it) for index, (field, (name, it)) in pairs]
    data = b"".join(at_step(step, write_field, table, field, depth + 1, name, it) for step, field, name, it in steps)
    if len(fields) != len(values):
        raise Failure("Mismatch")
    return data


def write_variant(table, definition, depth, value):
    """The bytes of a value of an enum."""
    found = [it for it in definition.variants if it.index == value[2]] if value[0] == "variant" else []
    if not found or found[0].name != value[1]:
        raise Failure("Mismatch")
    return bytes([value[2]]) + write_fields(table, found[0].fields, depth, value[3])


def write_compact_value(table, definition, depth, value):
    """The bytes of a compact integer."""
    width = compact_width(table, definition.types[0], depth)
    write_integer(value, "unsigned", width)
    return write_compact(value[1])


def write(table, number, depth, value):
    """The bytes of a value by the type with this id."""
    definition = definition_at(table, number, depth)
    kind = definition.kind
    if kind == "primitive":
        return write_primitive(definition.primitive, value)
    if kind == "tuple":
        return write_parts(table, definition.types, value, depth)
    if kind in ("sequence", "array", "map"):
        return write_list(table, definition, depth, value)
    if kind == "composite":
        if value[0] != "record":
            raise Failure("Mismatch")
        return write_fields(table, definition.fields, depth, value[1])
    if kind == "variant":
        return write_variant(table, definition, depth, value)
    if kind == "compact":
        return write_compact_value(table, definition, depth, value)
    raise Failure("Unsupported")


def encode(table, number, value):
    """The bytes of a value by the type with this id."""
    return write(table, number, 1, value)
