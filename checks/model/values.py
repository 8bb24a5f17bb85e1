"""Values by a table: what is read of bytes, as events and as a value.

A value is a tuple: its kind, and what it has. The kinds are bool, unsigned, signed, text, list, record and variant; a field is a pair of
a name, which may be None, and a value. An event is a tuple too.
"""
from .codec import Malformed, Reader, read_compact, read_text

DEEPEST, MOST_EVENTS = 128, 20000
UNSIGNED = {"u8": 1, "u16": 2, "u32": 4, "u64": 8, "u128": 16}
SIGNED = {"i8": 1, "i16": 2, "i32": 4, "i64": 8, "i128": 16}
SCALARS = {"begin list", "begin record", "begin variant", "truth", "unsigned", "signed", "text"}


class Unmodelled(Exception):
    """The pages do not say what comes of this, or it is too large for a model."""


class Failure(Exception):
    """Why there is no value: NoSuchType, Unsupported, TooDeep, Malformed or Mismatch; a mismatch of encoding has a path."""

    def __init__(self, why, path=()):
        super().__init__(why)
        self.why, self.path = why, list(path)


def definition_at(table, number, depth):
    """The definition of the type with this id, for a value at this depth."""
    if depth > DEEPEST:
        raise Failure("TooDeep")
    if number >= len(table):
        raise Failure("NoSuchType")
    return table[number].ty.definition


def compact_width(table, number, depth):
    """How many bytes wide the type of a compact integer is."""
    definition = definition_at(table, number, depth)
    if definition.kind == "composite" and len(definition.fields) == 1:
        return compact_width(table, definition.fields[0].ty, depth + 1)
    if definition.kind != "primitive" or definition.primitive not in UNSIGNED:
        raise Failure("Unsupported")
    return UNSIGNED[definition.primitive]


def has_bytes(table, definition):
    """Whether the items of a sequence or an array are of u8."""
    [item] = definition.types
    return item < len(table) and table[item].ty.definition.primitive == "u8"


def read_primitive(name, reader):
    """The event of a primitive."""
    if name == "bool":
        byte = reader.byte()
        if byte > 1:
            raise Malformed
        yield "truth", bool(byte)
    elif name == "str":
        yield "text", read_text(reader)
    elif name in UNSIGNED:
        yield "unsigned", int.from_bytes(reader.take(UNSIGNED[name]), "little")
    elif name in SIGNED:
        yield "signed", int.from_bytes(reader.take(SIGNED[name]), "little", signed=True)
    else:
        raise Failure("Unsupported")


def read_items(table, definition, count, depth, reader):
    """The events of a sequence or an array."""
    [item] = definition.types
    if count:
        definition_at(table, item, depth + 1)
    if has_bytes(table, definition):
        yield "bytes", reader.take(count)
        return
    yield "begin list", count
    for _ in range(count):
        yield from read(table, item, depth + 1, reader)
    yield ("end list",)


def read_members(table, types, depth, reader):
    """The events of a list of these types, one each."""
    yield "begin list", len(types)
    for it in types:
        yield from read(table, it, depth + 1, reader)
    yield ("end list",)


def read_map(table, definition, depth, reader):
    """The events of a map."""
    count = read_compact(reader)
    yield "begin list", count
    for _ in range(count):
        if depth + 1 > DEEPEST:
            raise Failure("TooDeep")
        yield from read_members(table, definition.types, depth + 1, reader)
    yield ("end list",)


def read_fields(table, fields, depth, reader):
    """The events of fields."""
    for it in fields:
        yield "field", it
        yield from read(table, it.ty, depth + 1, reader)


def read_variant(table, definition, depth, reader):
    """The events of a value of an enum."""
    index = reader.byte()
    found = [it for it in definition.variants if it.index == index]
    if not found:
        raise Malformed
    yield "begin variant", found[0], definition.variants
    yield from read_fields(table, found[0].fields, depth, reader)
    yield ("end variant",)


def read_compact_value(table, definition, depth, reader):
    """The event of a compact integer."""
    width = compact_width(table, definition.types[0], depth)
    number = read_compact(reader, 16)
    if number >> 8 * width:
        raise Malformed
    yield "unsigned", number


def read(table, number, depth, reader):
    """The events of a value of the type with this id."""
    definition = definition_at(table, number, depth)
    kind = definition.kind
    if kind == "primitive":
        yield from read_primitive(definition.primitive, reader)
    elif kind == "sequence":
        yield from read_items(table, definition, read_compact(reader), depth, reader)
    elif kind == "array":
        yield from read_items(table, definition, definition.length, depth, reader)
    elif kind == "tuple":
        yield from read_members(table, definition.types, depth, reader)
    elif kind == "map":
        yield from read_map(table, definition, depth, reader)
    elif kind == "composite":
        yield "begin record", definition.fields
        yield from read_fields(table, definition.fields, depth, reader)
        yield ("end record",)
    elif kind == "variant":
        yield from read_variant(table, definition, depth, reader)
    elif kind == "compact":
        yield from read_compact_value(table, definition, depth, reader)
    else:
        raise Failure("Unsupported")


def shown(table, number, reader):
    """The events of what is read of an input, up to its failure."""
    try:
        yield from read(table, number, 1, reader)
    except Malformed:
        raise Failure("Malformed") from None


def size_of(event):
    """How many values an event begins."""
    return 1 + len(event[1]) if event[0] == "bytes" else int(event[0] in SCALARS)


def events_of(table, number, data):
    """The events of the value that the bytes begin with, and the rest."""
    reader, found = Reader(data), []
    for event in shown(table, number, reader):
        found.append(event)
        if len(found) > MOST_EVENTS:
            raise Unmodelled("a value of too many parts")
    return found, reader.rest()


def visit_within(table, number, data, limit, most_events):
    """The events that a visitor of so many events takes of a value of at most so many values, and then the rest or why it ended."""
    reader, taken, values = Reader(data), [], 0
    try:
        for event in shown(table, number, reader):
            values += size_of(event)
            if values > limit:
                return taken, "TooLarge"
            if len(taken) == most_events:
                return taken, "Stopped(Enough)"
            taken.append(event)
            if len(taken) > MOST_EVENTS:
                raise Unmodelled("a value of too many parts")
    except Failure as failure:
        return taken, f"Failed({failure.why})"
    return taken, reader.rest()


def value_of(events):
    """The value of the next events."""
    event = next(events)
    kind = event[0]
    if kind == "bytes":
        return "list", [("unsigned", it) for it in event[1]]
    if kind == "begin list":
        return "list", [value_of(events) for _ in range(event[1])] + ended(events)
    if kind == "begin record":
        return "record", fields_of(events, event[1])
    if kind == "begin variant":
        return "variant", event[1].name, event[1].index, fields_of(events, event[1].fields)
    return {"truth": "bool"}.get(kind, kind), event[1]


def ended(events):
    """Nothing, after the event that ends a value."""
    next(events)
    return []


def fields_of(events, fields):
    """The fields of a record or a variant, with its end."""
    found = []
    for it in fields:
        next(events)
        found.append((it.name, value_of(events)))
    return found + ended(events)


def decode(table, number, data):
    """The value that the bytes begin with, and the rest."""
    events, rest = events_of(table, number, data)
    return value_of(iter(events)), rest
