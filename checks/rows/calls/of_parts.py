"""Rows of parts: paths, identifiers, orders, copies, built values, values of a program's types, and texts of errors."""
from model import paths, typed, value_bytes
from model.codec import COMPACT
from model.standard_types import term
from model.tables import (
    DEFINITION, DESCRIPTION, FIELD, PARAMETER, PATH, VARIANT, Definition, Description, Field, Variant, order_key, with_types,
)
from model.typed import BOOL, NoneOfType, TEXT, U16, U64
from model.values import Failure, Unmodelled

from .inputs import bracketed, hexadecimal, numbers, table_of
from .of_types import converted
from .of_values import Given, other_id, refusal
from .shown import appended, done, failed, some, text, truth, with_rest
from .type_names import description_named

SIGNS = {-1: "Less", 0: "Equal", 1: "Greater"}
TYPES = {
    "u16": U16, "u64": U64, "String": TEXT, "Vec<u16>": ("list", U16), "two of u64": ("array", U64, 2),
    "(u64, bool)": ("tuple", [U64, BOOL]), "Vec<(u16, bool)>": ("list", ("tuple", [U16, BOOL])),
    "Option<(u64, bool)>": ("option", ("tuple", [U64, BOOL])),
}


def texts(all_of):
    """A list of strings in quotes."""
    return "[" + ", ".join(map(text, all_of)) + "]"


def path_text(segments):
    """What a path returns, and its portable form."""
    parts = f"{texts(segments)} {texts(segments[:-1])} {some(segments[-1], text)} {truth(not segments)}"
    return done(f"{parts} {PATH.write(segments).hex()} {'::'.join(segments)}")


def path_made(make):
    """The outcome of a path that is made."""
    try:
        return path_text(make())
    except paths.InvalidIdentifier as error:
        return failed(f"InvalidIdentifier {{ segment: {error.segment} }}")
    except paths.MissingSegments:
        return failed("MissingSegments")


def path_replaced(row):
    """The path of a module and a name, with segments replaced by pairs."""
    module, name, *rest = bracketed(row)
    return path_made(lambda: paths.of_module(module, name, list(zip(rest[::2], rest[1::2]))))


def sign(left, right):
    """How a key compares with another."""
    return (left > right) - (left < right)


def first_ordered(row):
    """How the first description of a table compares with a documented one."""
    left, right = table_of(row)[0].ty, table_of("docs of a type, a variant and a field")[1].ty
    return done(SIGNS[sign(order_key(left), order_key(right))])


def tables_compared(row):
    """A table, compared with itself and with the empty one."""
    return done(f"true {truth(not table_of(row))}")


def term_key(it):
    """What an identity is ordered by: its head, its numbers and its arguments."""
    head, nums, args = it
    return head.encode(), nums, tuple(map(term_key, args))


def term_of_row(row):
    """The identity of a head, numbers and heads of arguments."""
    head, *args = bracketed(row)
    return term(head, *map(term, args), nums=[int(it) for it in row.split(" ") if it.isdigit()])


ORDERED = {
    "fields": FIELD, "variants": VARIANT, "parameters": PARAMETER, "descriptions": DESCRIPTION, "paths": PATH, "definitions": DEFINITION,
    "symbols": COMPACT, "compact_numbers": COMPACT,
}


def all_ordered(row):
    """How each value of a row compares with all."""
    kind, row = row.split(" ", 1)
    if kind in ORDERED:
        decoded = [ORDERED[kind].decode(hexadecimal(it.rpartition(":")[2]))[0] for it in row.split(" | ")]
        keys = list(map(order_key, decoded))
    else:
        keys = [term_key(term_of_row(it)) for it in row.split(" | ")]
    return done("".join("".join("<=>"[sign(left, right) + 1] for right in keys) + " " for left in keys))


def meta_keys(ty):
    """What a description in the form of a program is ordered by: that of its parts, in which each type is its identity."""
    terms = []

    def number(it):
        terms.append(it)
        return len(terms) - 1

    def with_terms(key):
        if isinstance(key, tuple) and key[:1] == (1,) and len(key) == 2 and isinstance(key[1], Place):
            return 1, term_key(terms[key[1]])
        return tuple(map(with_terms, key)) if isinstance(key, tuple) else key

    return with_terms(order_key(with_types(ty, lambda it: Place(number(it)))))


class Place(int):
    """The place of a type among those of a description."""


def descriptions_compared(row):
    """A description, compared with itself and with that of a pair."""
    left, right = (meta_keys(description_named(it)) for it in (row, "(u32, bool)"))
    return done(f"true {SIGNS[sign(left, right)]}")


def copied(row, codec, part):
    """A part of the first description of a table."""
    return done(codec.write(part(table_of(row)[0].ty)).hex())


def value_built(row, built):
    """Whether a value that a program builds is the one that is decoded."""
    return done(truth(Given(row).decoded()[0] == built))


BUILT = {
    "values.record": ("record", [("start", ("unsigned", 3)), ("end", ("unsigned", 5))]),
    "values.unnamed": ("record", [(None, ("unsigned", 1))]),
    "values.variant": ("variant", "B", 3, [("x", ("bool", True))]),
    "values.unnamed_variant": ("variant", "Some", 1, [(None, ("list", [("unsigned", 5), ("bool", True)]))]),
    "values.text": ("text", "hi"),
    "values.bytes": ("list", [("unsigned", 1), ("unsigned", 2), ("unsigned", 3)]),
}


def typed_row(row):
    """The type of the program, and what the row of a value gives."""
    kind, rest = row.split(";", 1)
    return TYPES[kind], Given(rest)


def encoded_as(ty, given, number, it):
    """The bytes of a program's value by the type with this id."""
    return value_bytes.encode(given.table, number, typed.to_value(ty, it, given.table, number))


def decoded_as(row):
    """A value that is decoded as one of a program's type: its encoding by the table, and the rest."""
    ty, given = typed_row(row)
    try:
        value, rest = given.decoded()
        it = typed.from_value(ty, value)
        return done(with_rest(encoded_as(ty, given, int(given.ids), it), rest))
    except Failure as failure:
        return failed(f"Decode({failure.why})")
    except NoneOfType:
        return failed("Mismatch")


def program_value_encoded(row):
    """A value of a program's type, encoded by another type of the table."""
    ty, given = typed_row(row)
    it = typed.from_value(ty, given.decoded()[0])
    try:
        return appended(encoded_as(ty, given, other_id(given.ids), it), done("()"))
    except Failure as failure:
        return appended(b"", failed(f"Encode({refusal(failure)})"))
    except NoneOfType:
        return appended(b"", failed("Mismatch"))


def portable_built(row):
    """A struct of a table, by the names of it and of its fields."""
    name, *names = bracketed(row)
    fields = [Field(it, index) for index, it in enumerate(names)]
    return done(DESCRIPTION.write(Description([name], [], Definition("composite", fields=fields))).hex())


def definition_made(kind, row):
    """A definition of ids."""
    ids = numbers(row)
    fields = [Field(None, it) for it in ids]
    made = {
        "composite": Definition("composite", fields=fields),
        "variant": Definition("variant", variants=[Variant("V", fields, 0)]),
        "tuple": Definition("tuple", types=ids),
    }[kind]
    return done(DEFINITION.write(made).hex())


# The sentences of errors, with what the rows make them hold. Each other one says that memory ran out.
SENTENCES = {
    "PathError::InvalidIdentifier": "segment 1 of the path is no identifier",
    "PathError::MissingSegments": "the path has no segment",
    "InternError::Full": "there are 4294967295 elements already",
    "EncodeError::TooLong": "a list or a text has more than 4294967295 items or bytes",
    "DecodeError::Malformed": "the bytes encode no value",
    "RegisterError::Undescribed": "the type demo::A has no description",
    "RegisterError::Full": "there are more than 4294967295 types",
    "RetainError::Dangling": "dangling id 7",
    "RetainError::TooManyTypes": "the table has more than 4294967295 types",
    "JsonError::Shape": "the JSON is no table",
    "ValueError::NoSuchType": "no such type",
    "ValueError::Unsupported": "values of the type are not decoded",
    "ValueError::TooDeep": "the value is more than 128 deep",
    "ValueError::Malformed": "the bytes are no value of the type",
    "PruneError::Malformed": "the bytes are no table",
    "PruneError::Trailing": "there are bytes after the table",
    "PruneError::NoSuchType": "no such type 7",
    "PruneError::Dangling": "dangling id 7",
    "ExportError::Undescribed": "the type demo::A has no description",
    "ExportError::Full": "there are more than 4294967295 types",
    "ExportError::TooLong": "the table has a list or a text that is too long",
    "InfoError::TooLong": "an array has more than 4294967295 items",
    "CatalogueError::Conflict": "the identity has another description",
    "CatalogueError::TooLong": "an array has more than 4294967295 items",
    "GraphError::Dangling": "dangling id 7",
    "GraphError::TooManyTypes": "the table has more than 4294967295 types",
    "JsonTextError::Syntax": "the text is no JSON",
    "JsonTextError::Shape": "the JSON is no table",
    "MetadataError::Version": "metadata of version 13 is not known",
    "MetadataError::Malformed": "the bytes are no table, and no metadata with one",
    "MetadataError::Trailing": "there are bytes after the table",
    "ValueTextError::Value": "the bytes are no value of the type",
    "ValueTextError::Trailing": "there are bytes after the value",
    "ValueJsonError::NoSuchType": "no such type",
    "ValueJsonError::Unsupported": "values of the type are not taken from JSON",
    "ValueJsonError::TooDeep": "the value is more than 128 deep",
    "ValueJsonError::Mismatch": "the JSON is no value of the type",
    "EncodeValueError::NoSuchType": "no such type",
    "EncodeValueError::Unsupported": "values of the type are not encoded",
    "EncodeValueError::TooDeep": "the value is more than 128 deep",
    "EncodeValueError::Mismatch": "the value does not fit its type at calls.0.dest",
    "Failure::NoSuchType": "no such type",
    "Failure::Unsupported": "values of the type are not decoded",
    "Failure::TooDeep": "the value is more than 128 deep",
    "Failure::Malformed": "the bytes are no value of the type",
    "VisitError::Failed": "the value is more than 128 deep",
    "VisitError::Stopped": "the JSON is no table",
    "WithinError::Failed": "the value is more than 128 deep",
    "WithinError::TooLarge": "the value has more parts than the limit",
    "WithinError::Stopped": "the JSON is no table",
    "ConvertError::Mismatch": "the value is none of the type",
    "DecodeAsError::Decode": "the bytes are no value of the type",
    "DecodeAsError::Mismatch": "the value is none of the type",
    "EncodeAsError::Encode": "the value does not fit its type at calls.0.dest",
    "EncodeAsError::Mismatch": "no value of the type stands for this one",
}


def error_text(row):
    """The text of an error: its sentence."""
    if row not in SENTENCES and not row.endswith("::Memory"):
        raise Unmodelled("an error without a sentence")
    return done(SENTENCES.get(row, "out of memory"))


CALLS = {
    "paths.new": path_replaced,
    "paths.new_with_replace": path_replaced,
    "paths.from_segments": lambda row: path_made(lambda: paths.of_segments(bracketed(row))),
    "paths.from_segments_unchecked": lambda row: done(PATH.write(bracketed(row)).hex()),
    "paths.ident": lambda row: done(some((bracketed(row) or [None])[-1], text)),
    "looks.is_rust_identifier": lambda row: done(truth(paths.is_identifier(row))),
    "tables.compare": tables_compared,
    "tables.order": first_ordered,
    "orders.compare": all_ordered,
    "looks.compare_descriptions": descriptions_compared,
    "copies.description": lambda row: copied(row, DESCRIPTION, lambda ty: ty),
    "copies.definition": lambda row: copied(row, DEFINITION, lambda ty: ty.definition),
    "copies.Type": lambda row: converted(lambda: description_named(row), DESCRIPTION.write),
    "copies.TypeDef": lambda row: converted(
        lambda: Description([], [], description_named(row).definition), lambda ty: DEFINITION.write(ty.definition),
    ),
    **{call: lambda row, built=built: value_built(row, built) for call, built in BUILT.items()},
    "typed.decode_as": decoded_as,
    "typed.encode_as": program_value_encoded,
    "descriptions.portable_struct": portable_built,
    "constructors.TypeDefComposite::new_portable": lambda row: definition_made("composite", row),
    "constructors.TypeDefVariant::new_portable": lambda row: definition_made("variant", row),
    "constructors.TypeDefTuple::new_portable": lambda row: definition_made("tuple", row),
    "errors.display": error_text,
}
