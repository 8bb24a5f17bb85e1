"""Rows of a program's types: identities, descriptions, catalogues, registrations, and what is written of them."""
from model import numberings
from model.codec import COMPACT
from model.standard_types import Conflict, Registry, TooLong, Undescribed, add, known, term
from model.tables import (
    DEFINITION, DESCRIPTION, FIELD, PARAMETER, PATH, TABLE, VARIANT, Definition, Description, Entry, Field, Parameter, Variant, is_closed,
)

from . import type_names
from .inputs import listed, numbers, split
from .shown import done, failed, lent, map_of, text, truth
from .type_names import CATALOGUE, description_named, own_term, registry_of, type_named, types_named

DEEPEST = 8


def id_text(it, depth=DEEPEST):
    """An identity as rows show it, so many arguments deep."""
    head, nums, args = it
    if not depth:
        return ".."
    if not nums and not args:
        return head
    return "(" + " ".join([head, *map(str, nums), *(id_text(arg, depth - 1) for arg in args)]) + ")"


def debug(it):
    """An identity as it is printed."""
    head, nums, args = it
    return f"TypeId {{ head: {text(head)}, nums: {list(nums)}, args: [{', '.join(map(debug, args))}] }}"


def fields_text(fields):
    """Fields, each after a blank."""
    return "".join(f" {it.name or ''}:{id_text(it.ty)}:{it.type_name or ''}" for it in fields)


def definition_text(it):
    """A definition as rows show it."""
    kinds = {"composite": "struct", "variant": "enum", "bitsequence": "bits", "primitive": it.primitive}
    variants = "".join(f" {v.name} {v.index}{fields_text(v.fields)};" for v in it.variants)
    length = f" {it.length}" if it.kind == "array" else ""
    return kinds.get(it.kind, it.kind) + fields_text(it.fields) + variants + length + "".join(f" {id_text(ty)}" for ty in it.types)


def params_text(params):
    """Parameters, each after a blank."""
    return "".join(f" {it.name}={id_text(it.ty) if it.ty else ''}" for it in params)


def description_text(it):
    """A description as rows show it."""
    return "::".join(it.path) + params_text(it.params) + ": " + definition_text(it.definition) + "".join(f" // {line}" for line in it.docs)


def shown_type(row):
    """The identities and the description of a type."""
    own = type_named(row)
    by = "" if known(own) == own else f" by {id_text(known(own))}"
    try:
        return done(f"{id_text(own)}{by} is {description_text(description_named(row))}")
    except TooLong:
        return failed("TooLong")


def undescribed(error):
    """The outcome of a type without a description."""
    return failed(f"Undescribed({debug(error.term)})")


def in_ids(description):
    """A description by the catalogue of all types, with ids."""
    return Registry().portable(description, CATALOGUE)


def converted(make, shown):
    """A value that is converted by the catalogue of all types."""
    try:
        return done(shown(in_ids(make())).hex())
    except TooLong:
        return failed("TooLong")
    except Undescribed as error:
        return undescribed(error)


def state_of(catalogue, identity):
    """How many descriptions a catalogue has, beside fifteen of others, and that of an identity."""
    found = description_text(catalogue[identity]) if identity in catalogue else "nothing"
    return f"{len(catalogue)} {min(15, sum(it[0] == 'demo::Numbered' for it in catalogue))} {found}"


def fifteen():
    """A catalogue of fifteen descriptions."""
    return {term("demo::Numbered", nums=[it]): description_named("u32") for it in range(15)}


def described_to(catalogue, identity, make):
    """What is returned where a description is added under an identity, and the catalogue before and after."""
    before = state_of(catalogue, identity)
    try:
        answer = done(truth(add(catalogue, identity, make())))
    except (TooLong, Conflict) as error:
        answer = failed(type(error).__name__)
    return lent(before, state_of(catalogue, identity), answer)


def type_added(row):
    """A type that is added after others."""
    before, _, last = row.rpartition(" | ")
    catalogue = {**fifteen(), **type_names.catalogue_of(before)}
    return described_to(catalogue, known(type_named(last)), lambda: description_named(last))


def description_added(row, others=fifteen, before=None):
    """A description that is added under an identity, which may have another one."""
    catalogue, identity = others(), own_term("Missing")
    if before is not None:
        catalogue[identity] = description_named(before)
    return described_to(catalogue, identity, lambda: description_named(row))


def pair_added(_):
    """A pair that is added where its identity has another description."""
    identity = type_named("(u32, bool)")
    return described_to({**fifteen(), identity: description_named("u32")}, identity, lambda: description_named("(u32, bool)"))


def digits(registry):
    """The encodings of the descriptions of a registry."""
    return [DESCRIPTION.write(it).hex() for it in registry.types]


def marked(registry):
    """The descriptions of a registry, and whether it is one of u8 alone."""
    return "".join(it + " " for it in digits(registry)) + ("as made anew" if registry.terms == [term("u8")] else "changed")


def listed_ids(ids):
    """The encoding of a list of ids."""
    return listed(list(map(COMPACT.write, ids))).hex()


def with_registry(registry, shown, call):
    """A call on a registry, which is shown before and after."""
    before = shown(registry)
    try:
        answer = done(call())
    except Undescribed as error:
        answer = undescribed(error)
    return lent(before, shown(registry), answer)


def one_registered(row):
    """A type that is registered after u8."""
    registry = registry_of("u8")
    call = lambda: COMPACT.write(registry.register([known(type_named(row))], CATALOGUE)[0]).hex()  # noqa: E731
    return with_registry(registry, marked, call)


def three_registered(row):
    """Three types that are registered after u8."""
    registry = registry_of("u8")
    types = types_named(f"bool | {row} | String")
    return with_registry(registry, marked, lambda: listed_ids(registry.register(types, CATALOGUE)))


def registered_again(row):
    """A type that is registered where it is known, under a catalogue of nothing."""
    registry = registry_of("u8", row)
    shown = lambda it: "".join(one + " " for one in digits(it))  # noqa: E731
    return with_registry(registry, shown, lambda: COMPACT.write(registry.register([known(type_named(row))], {})[0]).hex())


def table(registry):
    """The entries of the table of a registry."""
    return [Entry(index, it) for index, it in enumerate(registry.types)]


def as_table(registry):
    """The table of a registry, and whether it is closed."""
    return f"{TABLE.write(table(registry)).hex()} {'closed' if is_closed(table(registry)) else 'open'}"


def given(row):
    """The registry, the catalogue and the names of a row."""
    row, _, under = row.partition(" under ")
    names, _, after = row.partition(" after ")
    registry = Registry()
    registry.register(types_named(after), CATALOGUE)
    if under:
        return registry, {} if under == "nothing" else type_names.catalogue_of(under), names
    return registry, CATALOGUE, names


def registered(row):
    """Types that are registered after others under a catalogue."""
    registry, catalogue, names = given(row)
    return with_registry(registry, as_table, lambda: "".join(f"{it} " for it in registry.register(types_named(names), catalogue)))


def nested(_):
    """Twenty-four lists of which each refers to the next."""
    lists = [term("u8")]
    for _ in range(24):
        lists.append(term("Vec", lists[-1]))
    catalogue = {known(it): Description([], [], Definition("sequence", types=[known(inner)])) for inner, it in zip(lists, lists[1:])}
    catalogue[term("u8")] = description_named("u8")
    registry = Registry()
    call = lambda: "".join(f"{it} " for it in registry.register([known(lists[-1])], catalogue))  # noqa: E731
    return with_registry(registry, as_table, call)


def hull(**parts):
    """A description that holds a part alone."""
    path, params = parts.pop("path", []), parts.pop("params", [])
    return Description(path, params, Definition(parts.pop("kind", "composite"), **parts))


FIELD_OF = (FIELD, lambda it: it.definition.fields[0])
VARIANT_OF = (VARIANT, lambda it: it.definition.variants[0])
PARAMETER_OF = (PARAMETER, lambda it: it.params[0])
DEFINITION_OF = (DEFINITION, lambda it: it.definition)
WHOLE = (DESCRIPTION, lambda it: it)


def id_of(it):
    """The id in a description that holds one."""
    return it.definition.types[0]


def fields_of(description):
    """The encoding of the fields of a composite."""
    return listed(list(map(FIELD.write, description.definition.fields)))


def left(value, registry, catalogue, shown, codec, part):
    """A value that is converted, and the registry before and after."""
    return with_registry(registry, shown, lambda: codec.write(part(registry.portable(value, catalogue))).hex())


def definition_parts():
    """The definitions without their index bytes, each of the kind of this name, that into_portable is given."""
    u8, u32, sequence = term("u8"), term("u32"), known(type_named("Vec<u32>"))
    return {
        "composite": hull(fields=[type_names.DOCUMENTED_FIELD]),
        "variants": hull(kind="variant", variants=[type_names.DOCUMENTED_VARIANT]),
        "sequence": hull(kind="sequence", types=[sequence]),
        "array": hull(kind="array", types=[u32], length=32),
        "compact": hull(kind="compact", types=[u32]),
        "tuple": hull(kind="tuple", types=[u8, sequence]),
        "bit sequence": Description([], [], type_names.BITS),
        "map": Description([], [], type_names.MAP),
    }


class AfterIndex:
    """What stands after the index byte of a definition."""

    @staticmethod
    def write(definition):
        """Its bytes."""
        return DEFINITION.write(definition)[1:]


class Texts:
    """A text as bytes."""

    @staticmethod
    def write(it):
        """Its bytes."""
        return PATH.write([it])[1:]


INTO = {
    "path": (hull(path=type_names.DEMO_PATH), PATH, lambda it: it.path),
    "text": (hull(path=["a text"]), Texts, lambda it: it.path[0]),
    "field": (hull(fields=[type_names.DOCUMENTED_FIELD]), *FIELD_OF),
    "variant": (hull(kind="variant", variants=[type_names.DOCUMENTED_VARIANT]), *VARIANT_OF),
    "parameter": (hull(params=[type_names.GIVEN_PARAMETER]), *PARAMETER_OF),
    **{kind: (it, AfterIndex, DEFINITION_OF[1]) for kind, it in definition_parts().items()},
}


def part_left(row, catalogue):
    """A part of a description that is converted after u8."""
    value, codec, part = INTO[row]
    return left(value, registry_of("u8"), catalogue, marked, codec, part)


def type_left(row):
    """A type that is converted after u8."""
    return left(hull(kind="sequence", types=[known(type_named(row))]), registry_of("u8"), CATALOGUE, marked, COMPACT, id_of)


def description_left(row, codec, part):
    """A description that is converted after u8, or its definition."""
    value = description_named(row)
    if codec is DEFINITION:
        value = Description([], [], value.definition)
    return left(value, registry_of("u8"), CATALOGUE, marked, codec, part)


def holding(kind, ty):
    """A value of a kind that holds a type, and how it is shown."""
    u8 = term("u8")
    one = Variant("V", [Field(None, ty)], 3)
    return {
        "a text": (hull(path=["x"]), Texts, lambda it: it.path[0]),
        "a type": (hull(kind="sequence", types=[ty]), COMPACT, id_of),
        "a parameter": (hull(params=[Parameter("T", ty)]), *PARAMETER_OF),
        "a field": (hull(fields=[Field("a", ty, "A")]), *FIELD_OF),
        "a variant": (hull(kind="variant", variants=[one]), *VARIANT_OF),
        "a composite": (hull(fields=[Field("a", ty)]), AfterIndex, DEFINITION_OF[1]),
        "variants": (hull(kind="variant", variants=[one]), AfterIndex, DEFINITION_OF[1]),
        "a definition": (hull(kind="sequence", types=[ty]), *DEFINITION_OF),
        "a sequence": (hull(kind="sequence", types=[ty]), AfterIndex, DEFINITION_OF[1]),
        "an array": (hull(kind="array", types=[ty], length=32), AfterIndex, DEFINITION_OF[1]),
        "a tuple": (hull(kind="tuple", types=[u8, ty]), AfterIndex, DEFINITION_OF[1]),
        "a compact": (hull(kind="compact", types=[ty]), AfterIndex, DEFINITION_OF[1]),
        "a bit sequence": (hull(kind="bitsequence", types=[u8, ty]), AfterIndex, DEFINITION_OF[1]),
        "a map": (hull(kind="map", types=[u8, ty]), AfterIndex, DEFINITION_OF[1]),
    }[kind]


def value_left(row):
    """A value of a kind that holds a type, converted."""
    kind, rest = split(row)
    registry, catalogue, name = given(rest)
    if kind == "a description":
        return left(description_named(name), registry, catalogue, as_table, *WHOLE)
    value, codec, part = holding(kind, known(type_named(name)))
    return left(value, registry, catalogue, as_table, codec, part)


def fields_left(row):
    """Two fields that are converted one after another."""
    second = type_names.DOCUMENTED_FIELD if row == "two fields" else Field(None, own_term("Missing"))
    registry = registry_of("u8")
    value = hull(fields=[type_names.DOCUMENTED_FIELD, second])
    return with_registry(registry, marked, lambda: fields_of(registry.portable(value, CATALOGUE)).hex())


def registry_looked_at(row):
    """The descriptions of a registry by their ids."""
    registry = registry_of("u8", row)
    same = truth(registry.terms == [term("u8")])
    return done(f"{len(registry.types)} {same}" + "".join(f" {index}: {it}" for index, it in enumerate(digits(registry))))


def catalogue_looked_at(row):
    """What the catalogue of all types has of a type."""
    identity = known(type_named(row))
    has = truth(identity in CATALOGUE)
    return done(f"({has}, {has}) " + (description_text(CATALOGUE[identity]) if identity in CATALOGUE else "nothing"))


CYCLE = {"First": 100, "Second": 101, "Third": 102}


def cycle_term(name):
    """The term of a type of the cycle."""
    return term("demo::Own", nums=[CYCLE[name]])


def exported(row):
    """What the chosen ones among the given types reach."""
    catalogue = dict(CATALOGUE)
    for name, following in zip(CYCLE, ("Second", "Third", "First")):
        catalogue[cycle_term(name)] = Description([], [], Definition("sequence", types=[cycle_term(following)]))
    names, colon, chosen = row.partition(":")
    words = [it.strip() for it in names.split(";") if it.strip()] if colon else ["bool", row, "String"]
    types = [cycle_term(it) if it in CYCLE else known(type_named(it)) for it in words]
    registry = Registry()
    try:
        ids = registry.register(types, catalogue)
    except Undescribed as error:
        answer = failed(f"Undescribed({debug(error.term)})")
        return lent("aa", "aa", [("asked", "0"), ("ids", "[]"), *answer])
    asked = list(range(len(registry.types)))
    roots = [it for it in asked if it in (numbers(chosen) if colon else [1])]
    kept, new = numberings.kept(table(registry), numberings.order_of(table(registry), roots))
    answer = done(f"{ids} {map_of(new)}")
    return lent("aa", "aa" + TABLE.write(kept).hex(), [("asked", str(len(asked))), ("ids", str(asked)), *answer])


def made_otherwise(row):
    """A description with a path, parameters, docs and the definition of a type."""
    definition = description_named(row).definition
    return converted(lambda: Description(type_names.DEMO_PATH, type_names.PARAMETERS, definition, ["d"]), DESCRIPTION.write)


def tuple_made(row):
    """The definition of a tuple of types."""
    types = [it for it in types_named(row) if it != known(term("PhantomData", term("tuple")))]
    return done(definition_text(Definition("tuple", types=types)))


def bits_made(row):
    """The definition of a sequence of bits."""
    names = {"of plain types": ("u8", "u32"), "of a box": ("Box<u8>", "bool")}.get(row, ("Vec<u32>", "[u8; 32]"))
    return done(definition_text(Definition("bitsequence", types=[known(type_named(it)) for it in names])))


def field_added(row):
    """The fields of a builder to which one is added, or a field alone."""
    kind, name = row.split(" ", 1)
    ty = known(type_named(name))
    if kind == "built":
        return done("struct" + fields_text([Field("x", ty, "T")]))
    first = Field(None if kind == "unnamed" else "a", term("u8"))
    second = Field(None, ty, "Vec<T>") if kind == "unnamed" else Field("m", ty)
    phantom = ty == known(term("PhantomData", term("tuple")))
    return done("struct" + fields_text([first] if phantom else [first, second]))


CALLS = {
    "identities.describe": shown_type,
    "identities.type_id": lambda row: done(debug(type_named(row))),
    "identities.type_info": lambda row: converted(lambda: description_named(row), DESCRIPTION.write),
    "identities.MetaType::new": lambda row: done(id_text(known(type_named(row)))),
    "identities.meta_type": lambda row: done(id_text(known(type_named(row)))),
    "identities.TypeDefSequence::of": lambda row: done(id_text(known(type_named(row)))),
    "catalogues.add": type_added,
    "catalogues.add_described": description_added,
    "catalogues.add_first_described": lambda row: description_added(row, dict),
    "catalogues.add_described_again": lambda row: description_added(row, before=row),
    "catalogues.add_another_described": lambda row: description_added(row, before="u32"),
    "catalogues.add_described_otherwise": pair_added,
    "catalogues.look": catalogue_looked_at,
    "registries.register_type": one_registered,
    "registries.register_types": three_registered,
    "registries.register_all": three_registered,
    "registries.register_known_type": registered_again,
    "registrations.register_types": registered,
    "registrations.register_all": registered,
    "registrations.register_type": registered,
    "registrations.register_nested": nested,
    "registries.from_registry": lambda row: done(TABLE.write(table(registry_of("u8", row))).hex()),
    "registries.from_finished": lambda row: done(TABLE.write(table(registry_of("u8", row))).hex()),
    "registries.into_types": lambda row: done(listed([bytes.fromhex(it) for it in digits(registry_of("u8", row))]).hex()),
    "registries.look": registry_looked_at,
    "exports.export": exported,
    "registrations.convert": value_left,
    "registries.map_into_portable": fields_left,
    "conversions.part": lambda row: part_left(row, CATALOGUE),
    "conversions.part_undescribed": lambda row: part_left(row, {}),
    "conversions.MetaType": type_left,
    "conversions.Type": lambda row: description_left(row, *WHOLE),
    "conversions.TypeDef": lambda row: description_left(row, *DEFINITION_OF),
    "constructors.Type::new": made_otherwise,
    "constructors.TypeDefTuple::new": tuple_made,
    "constructors.TypeDefBitSequence::new": bits_made,
    "fields.field": field_added,
    "copies.MetaType": lambda row: done(id_text(known(type_named(row)))),
    "copies.TypeId": lambda row: done(debug(known(type_named(row)))),
}
