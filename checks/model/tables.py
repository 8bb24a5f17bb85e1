"""Tables of type descriptions: what they have, and their bytes."""
import dataclasses
from dataclasses import dataclass, field
from typing import Optional

from .codec import BYTE, COMPACT, PLAIN, TEXT, Codec, Malformed, list_of, option_of, struct_of

KINDS = ("composite", "variant", "sequence", "array", "tuple", "primitive", "compact", "bitsequence", "map")
PRIMITIVES = ("bool", "char", "str", "u8", "u16", "u32", "u64", "u128", "u256", "i8", "i16", "i32", "i64", "i128", "i256")


@dataclass
class Field:
    """A field of a composite or a variant."""
    name: Optional[str]
    ty: object
    type_name: Optional[str] = None
    docs: list = field(default_factory=list)


@dataclass
class Variant:
    """A variant of an enum."""
    name: str
    fields: list
    index: int
    docs: list = field(default_factory=list)


@dataclass
class Parameter:
    """A parameter of a type; a skipped one has no type."""
    name: str
    ty: object


@dataclass
class Definition:
    """A definition: its kind, by its key in JSON, and the parts that this kind has."""
    kind: str
    fields: list = field(default_factory=list)
    variants: list = field(default_factory=list)
    types: list = field(default_factory=list)
    length: int = 0
    primitive: str = ""


@dataclass
class Description:
    """A description of a type."""
    path: list
    params: list
    definition: Definition
    docs: list = field(default_factory=list)


@dataclass
class Entry:
    """An entry of a table."""
    id: int
    ty: Description


FIELD = struct_of(Field, name=option_of(TEXT), ty=COMPACT, type_name=option_of(TEXT), docs=list_of(TEXT))
VARIANT = struct_of(Variant, name=TEXT, fields=list_of(FIELD), index=BYTE, docs=list_of(TEXT))
PARAMETER = struct_of(Parameter, name=TEXT, ty=option_of(COMPACT))


def types_of(count):
    """So many ids, one after another."""
    return Codec(
        lambda reader: [COMPACT.read(reader) for _ in range(count)],
        lambda types: b"".join(map(COMPACT.write, types)),
    )


def read_primitive(reader):
    """The name of a primitive."""
    index = reader.byte()
    if index >= len(PRIMITIVES):
        raise Malformed
    return PRIMITIVES[index]


PRIMITIVE = Codec(read_primitive, lambda name: bytes([PRIMITIVES.index(name)]))
PARTS = {
    "composite": {"fields": list_of(FIELD)},
    "variant": {"variants": list_of(VARIANT)},
    "sequence": {"types": types_of(1)},
    "array": {"length": PLAIN, "types": types_of(1)},
    "tuple": {"types": list_of(COMPACT)},
    "primitive": {"primitive": PRIMITIVE},
    "compact": {"types": types_of(1)},
    "bitsequence": {"types": types_of(2)},
    "map": {"types": types_of(2)},
}


def read_definition(reader):
    """A definition, by its index byte."""
    index = reader.byte()
    if index >= len(KINDS):
        raise Malformed
    kind = KINDS[index]
    return Definition(kind, **{name: part.read(reader) for name, part in PARTS[kind].items()})


def write_definition(definition):
    """The bytes of a definition."""
    parts = [part.write(getattr(definition, name)) for name, part in PARTS[definition.kind].items()]
    return bytes([KINDS.index(definition.kind)]) + b"".join(parts)


DEFINITION = Codec(read_definition, write_definition)
PATH = list_of(TEXT)
DESCRIPTION = struct_of(Description, path=PATH, params=list_of(PARAMETER), definition=DEFINITION, docs=list_of(TEXT))
ENTRY = struct_of(Entry, id=COMPACT, ty=DESCRIPTION)
TABLE = list_of(ENTRY)


def with_types(ty, new):
    """A description with each of its types replaced by what a function makes of it, in order."""
    def fields(all_of):
        return [dataclasses.replace(it, ty=new(it.ty)) for it in all_of]

    params = [dataclasses.replace(it, ty=None if it.ty is None else new(it.ty)) for it in ty.params]
    definition = dataclasses.replace(
        ty.definition,
        fields=fields(ty.definition.fields),
        variants=[dataclasses.replace(it, fields=fields(it.fields)) for it in ty.definition.variants],
        types=[new(it) for it in ty.definition.types],
    )
    return dataclasses.replace(ty, params=params, definition=definition)


def references(ty):
    """The types to which a description refers, in order: of its parameters, and then of its definition."""
    found = []
    with_types(ty, found.append)
    return found


def without_docs(ty):
    """A description without docs."""
    def fields(all_of):
        return [dataclasses.replace(it, docs=[]) for it in all_of]

    definition = dataclasses.replace(
        ty.definition,
        fields=fields(ty.definition.fields),
        variants=[dataclasses.replace(it, docs=[], fields=fields(it.fields)) for it in ty.definition.variants],
    )
    return dataclasses.replace(ty, definition=definition, docs=[])


def stripped(entries):
    """A table without docs."""
    return [Entry(it.id, without_docs(it.ty)) for it in entries]


def is_closed(entries):
    """Whether each id is its index, and each reference that of an entry."""
    return all(it.id == index and all(ty < len(entries) for ty in references(it.ty)) for index, it in enumerate(entries))


def paths_of(entries):
    """The path of each entry, its segments joined."""
    return ["::".join(it.ty.path) for it in entries]


def text_key(text):
    """What a text is ordered by; a missing one comes first."""
    return (0,) if text is None else (1, text.encode())


def order_key(it):
    """What a part of a portable description is ordered by: its fields, in order of declaration."""
    if isinstance(it, Definition):
        parts = [getattr(it, name) for name in PARTS[it.kind]]
        if it.kind == "primitive":
            parts = [PRIMITIVES.index(it.primitive)]
        return KINDS.index(it.kind), order_key(parts)
    if isinstance(it, list):
        return tuple(map(order_key, it))
    if dataclasses.is_dataclass(it):
        return tuple(order_key(getattr(it, one.name)) for one in dataclasses.fields(it))
    return text_key(it) if it is None or isinstance(it, str) else (1, it)
