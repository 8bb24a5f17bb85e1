"""Rows of parts that the tests themselves make: what these are as bytes or as a text."""
from model.codec import COMPACT, PLAIN, TEXT, list_of
from model.standard_types import known, term
from model.tables import (
    DEFINITION, DESCRIPTION, ENTRY, FIELD, PARAMETER, PATH, VARIANT, Definition, Description, Entry, Field, Parameter, Variant,
)

from .inputs import bracketed, numbers
from .of_types import converted, debug, description_text, id_text, params_text
from .shown import done, some, text, truth
from .type_names import DEMO_PATH, DOCUMENTED_FIELD, DOCUMENTED_VARIANT, GIVEN_PARAMETER, PARAMETERS, description_named, type_named

TEXTS = list_of(TEXT)
NAMED_FIELD = Field("n", 3, "N", ["d", ""])
TWO_FIELDS = [Field(None, 1), Field(None, 2)]
ONE_VARIANT = Variant("V", TWO_FIELDS, 255, ["v"])
SEQUENCE = Description([], [], Definition("sequence", types=[2]))
DESCRIBED = Description(["p"], [], SEQUENCE.definition, ["d"])
DEFINITIONS = {
    "composite": Definition("composite", fields=[Field(None, 1)]),
    "enum": Definition("variant", variants=[Variant("V", [], 0), Variant("W", [], 1)]),
    "sequence": Definition("sequence", types=[1]),
    "array": Definition("array", types=[2], length=32),
    "tuple": Definition("tuple", types=[2, 2]),
    "primitive": Definition("primitive", primitive="u32"),
    "compact": Definition("compact", types=[3]),
    "bit sequence": Definition("bitsequence", types=[3, 4]),
    "map": Definition("map", types=[4, 5]),
}
SIX = [
    Definition("array", types=[1], length=32), Definition("compact", types=[1]), Definition("map", types=[1, 2]),
    Definition("primitive", primitive="u8"), Definition("sequence", types=[1]), Definition("bitsequence", types=[1, 2]),
]
OF_LISTS = [
    Definition("composite", fields=TWO_FIELDS), Definition("variant", variants=[Variant("W", [Field(None, 1)], 2)]),
    Definition("tuple", types=[3, 0]),
]


def texts(all_of):
    """A list of strings in quotes."""
    return "[" + ", ".join(map(text, all_of)) + "]"


def definition_asked(it):
    """The numbers that a definition holds, or how many parts it has."""
    counted = len(it.fields) + len(it.variants) + (len(it.types) if it.kind == "tuple" else 0)
    held = [it.length, *it.types] if it.kind == "array" else it.types
    first, second = (counted, 0) if it.kind in ("composite", "variant", "tuple") else [*held, 0, 0][:2]
    return f"{first} {second}"


def head_asked(it):
    """The path, the parameters and the docs of a description."""
    return f"{texts(it.path)} {len(it.params)} {texts(it.docs)}"


def description_asked(it):
    """The parts of a description."""
    return f"{head_asked(it)} {definition_asked(it.definition)}"


def field_asked(it):
    """The parts of a field."""
    return f"{some(it.name, text)} {it.ty} {some(it.type_name, text)} {texts(it.docs)}"


def path_asked(path):
    """The parts of a path; how it is printed, whatever width is asked for."""
    return " ".join([texts(path), texts(path[:-1]), truth(not path), *["::".join(path)] * 3])


def part_asked(row):
    """What a part has."""
    kind, _, given = row.partition(" ")
    full = Description(["p", "q"], [Parameter("S", None)], SEQUENCE.definition, ["d", "", "e"])
    return done({
        "field": field_asked(NAMED_FIELD),
        "unnamed_field": field_asked(Field(None, 3)),
        "variant": f"{text(ONE_VARIANT.name)} {len(ONE_VARIANT.fields)} {ONE_VARIANT.index} {texts(ONE_VARIANT.docs)}",
        "path": path_asked(bracketed(given)),
        "parameter": f"{text(given)} Some(7)",
        "skipped_parameter": f"{text(given)} None",
        "entry": f"9: {description_asked(SEQUENCE)}",
        "text": f"{len(given.encode())} {truth(not given)} {given} {text(given)}",
        "description": description_asked(full),
        "definition_alone": description_asked(SEQUENCE),
    }[kind])


def written(codec, *all_of):
    """The bytes of values, with a comma between two."""
    return done(", ".join(codec.write(it).hex() for it in all_of))


def portable_copied(row):
    """A portable part that is copied."""
    codec, it = {
        "field": (FIELD, NAMED_FIELD),
        "variant": (VARIANT, ONE_VARIANT),
        "path": (PATH, ["hello", "world", "Planet"]),
        "given parameter": (PARAMETER, Parameter("T", 7)),
        "skipped parameter": (PARAMETER, Parameter("S", None)),
        "text": (TEXT, "a text"),
        "letter": (TEXT, "Ä"),
        "symbol": (COMPACT, 7),
    }[row]
    return written(codec, it)


def meta_copied(row):
    """A part in the form of a program that is copied."""
    fields, variants = Definition("composite", fields=[DOCUMENTED_FIELD]), Definition("variant", variants=[DOCUMENTED_VARIANT])
    make, shown = {
        "field": (Description([], [], fields), lambda it: FIELD.write(it.definition.fields[0])),
        "variant": (Description([], [], variants), lambda it: VARIANT.write(it.definition.variants[0])),
        "path": (Description(DEMO_PATH, [], fields), lambda it: PATH.write(it.path)),
        "parameter": (Description([], [GIVEN_PARAMETER], fields), lambda it: PARAMETER.write(it.params[0])),
    }[row]
    return converted(lambda: make, shown)


def definition_converted(definition):
    """A definition in the form of a program, without its index byte."""
    return converted(lambda: Description([], [], definition), lambda it: DEFINITION.write(it.definition)[1:])


def unit(path, kind="composite", params=(), docs=()):
    """The bytes of a description of no fields or no variants."""
    return converted(lambda: Description(path, list(params), Definition(kind), list(docs)), DESCRIPTION.write)


def types_text(*names):
    """Types, each after a blank."""
    return done("".join(f" {id_text(known(type_named(it)))}" for it in names))


def parameters_text(**names):
    """Parameters, each after a blank."""
    return done(params_text([Parameter(name, known(type_named(it))) for name, it in names.items()]))


def enum_of(variant):
    """The enum of a builder with one variant."""
    return definition_converted(Definition("variant", variants=[variant]))


def struct_built(row):
    """The generic struct of a type, by builders."""
    ty = known(type_named(row))
    fields = Definition("composite", fields=[Field("data", ty, "T")])
    return done(description_text(Description(["scale_info", "tests", "MyStruct"], [Parameter("T", ty)], fields, ["a struct", ""])))


def enum_built(row):
    """An enum of variants by their names, by builders."""
    known_variants = {
        "A": Variant("A", [Field(None, term("bool"))], 3), "B": Variant("B", [Field("b", term("u8"))], 0),
        "C": Variant("C", [Field(None, term("u16")), Field(None, term("u32"))], 2), "D": Variant("D", [], 3),
    }
    definition = Definition("variant", variants=[known_variants[it] for it in row.split()])
    return done(description_text(Description(["demo", "E"], [], definition)))


def pushed(row):
    """Numbers that are pushed to a list."""
    all_of = numbers(row)
    return done(f"{all_of} {len(all_of)} {truth(not all_of)} {len(all_of)} {sum(all_of)}")


def list_copied(row):
    """A list that is copied."""
    if row == "numbers":
        return written(list_of(PLAIN), [7, 8])
    return written(TEXTS, ["d", "", "e"] if row == "texts" else [])


def form_copied(row):
    """A type or a text that is copied by its form."""
    return {
        "type of the program": done(id_text(known(type_named("Vec<u32>")))),
        "portable type": written(COMPACT, 7),
        "text of the program": done(text("a text")),
        "portable text": written(TEXT, "a text"),
    }[row]


CALLS = {
    "looks.part": part_asked,
    "looks.definition": lambda row: done(definition_asked(DEFINITIONS[row])),
    "looks.description": lambda row: done(head_asked(description_named(row))),
    "copies.portable_part": portable_copied,
    "copies.meta_part": meta_copied,
    "fields.empty": lambda _: done("00 00 00"),
    "fields.portable_named": lambda _: written(list_of(FIELD), [Field("data", 3)]),
    "fields.portable_unnamed": lambda _: written(list_of(FIELD), [Field(None, 3)]),
    "fields.moved": lambda _: written(FIELD, Field("n", 7, "N")),
    "variants.moved": lambda _: written(list_of(FIELD), [Field(None, 3)]),
    "variants.variant": lambda _: enum_of(Variant("Some", [Field(None, known(type_named("Vec<u32>")))], 1)),
    "variants.variant_unit": lambda _: enum_of(Variant("None", [], 0)),
    "descriptions.composite": lambda _: unit(DEMO_PATH, params=PARAMETERS),
    "descriptions.variants": lambda _: unit(DEMO_PATH, "variant"),
    "descriptions.portable_composite": lambda _: unit(["hello", "Planet"]),
    "descriptions.unit_tuple": lambda _: definition_converted(Definition("tuple")),
    "moves.field": lambda _: written(FIELD, Field("n", 3, None, ["d"])),
    "moves.variant": lambda _: written(VARIANT, Variant("V", TWO_FIELDS, 7, ["v"])),
    "moves.parameter": lambda _: written(PARAMETER, Parameter("T", 7)),
    "moves.entry": lambda _: written(ENTRY, Entry(9, SEQUENCE)),
    "moves.definitions": lambda _: written(DEFINITION, *SIX),
    "moves.definitions_of_lists": lambda _: written(DEFINITION, *OF_LISTS),
    "moves.description": lambda _: done(f"{PARAMETER.write(Parameter('T', 7)).hex()} {DESCRIPTION.write(DESCRIBED).hex()}"),
    "moves.lists": lambda _: done("[7, 8] a text"),
    "moves.identity": lambda _: done(debug(term("array", nums=[4]))),
    "moves.empty_parts": lambda _: done("true 0 None"),
    "moves.empty_collections": lambda _: done("0 0 0 0"),
    "macros.tuple_meta_type!": lambda _: types_text("i32", "[u8; 32]", "String", "Vec<u32>"),
    "macros.named_type_params!": lambda _: parameters_text(T="u8", U="u32", V="Vec<u32>"),
    "macros.type_params!": lambda _: parameters_text(T="u8", U="u32", V="Vec<u32>"),
    "macros.with_type": lambda _: types_text("u32", "Vec<u32>"),
    "macros.with_type_param": lambda _: parameters_text(T="u8", U="Vec<u32>"),
    "descriptions.generic_struct": struct_built,
    "descriptions.enum": enum_built,
    "lists.push": pushed,
    "copies.Items": list_copied,
    "copies.Form": form_copied,
    "descriptions.docs": lambda _: unit(DEMO_PATH, docs=["a struct", ""]),
    "constructors.Type::new_portable": lambda _: written(
        DESCRIPTION, Description(["p", "q"], [Parameter("T", 7)], SEQUENCE.definition, ["d", "e"]),
    ),
    "constructors.TypeDefComposite::new": lambda _: definition_converted(Definition("composite", fields=[DOCUMENTED_FIELD])),
    "constructors.TypeDefVariant::new": lambda _: definition_converted(Definition("variant", variants=[DOCUMENTED_VARIANT])),
}
