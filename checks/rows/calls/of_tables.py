"""Rows of tables: their bytes, their views, what ids reach in them, and their JSON."""
from model import changes, declarations, json_tables, json_trees, metadata, numberings
from model.codec import BYTE, COMPACT, PLAIN, TEXT, Codec, Malformed, Reader, list_of, option_of
from model.numberings import Dangling, NoSuchType, Trailing
from model.tables import (
    DEFINITION, DESCRIPTION, ENTRY, FIELD, PARAMETER, PATH, PRIMITIVE, TABLE, VARIANT, is_closed, references, stripped, with_types,
)

from .inputs import bytes_of, encodings, hexadecimal, ids_and_name, listed, numbers, split, table_of
from .shown import Matching, all_bytes, appended, dangling, done, failed, lent, map_of, some, text, truth, with_rest


def errors_of_prune(call):
    """The outcome of a call on one table as bytes, or of its error."""
    try:
        return call()
    except Malformed:
        return failed("Malformed")
    except Trailing:
        return failed("Trailing")
    except NoSuchType as error:
        return failed(f"NoSuchType({error.id})")
    except Dangling as error:
        return failed(f"Dangling({error.id})")


def decoded(row):
    """A table that is decoded and encoded again."""
    try:
        entries, rest = TABLE.decode(bytes_of(row))
    except Malformed:
        return failed("Malformed")
    return done(with_rest(TABLE.write(entries), rest))


def read(row):
    """A table that is read, without what comes after it."""
    try:
        return done(TABLE.write(table_of(row)).hex())
    except Malformed:
        return failed("Malformed")


def described(row):
    """A description that is decoded and encoded again."""
    try:
        ty, rest = DESCRIPTION.decode(bytes_of(row))
    except Malformed:
        return failed("Malformed")
    return done(with_rest(DESCRIPTION.write(ty), rest))


def integer(row):
    """A compact integer that is decoded and encoded again."""
    number, rest = COMPACT.decode(bytes_of(row))
    return done(f"{number} {with_rest(COMPACT.write(number), rest)}")


def numbered(row):
    """What ids reach, and in how many steps."""
    ids, name = ids_and_name(row)
    entries = table_of(name)
    try:
        order = numberings.order_of(entries, ids)
    except Dangling as error:
        return failed(dangling(error))
    return done(f"{order} in {numberings.steps_of(entries, order)} steps")


def retained(row):
    """A table of which some ids are kept."""
    ids, name = ids_and_name(row)
    entries = table_of(name)
    asked, before = list(range(len(entries))), TABLE.write(entries)
    try:
        kept, new = numberings.kept(entries, numberings.order_of(entries, [it for it in asked if it in ids]))
        after, answer = TABLE.write(kept), done(map_of(new))
    except Dangling as error:
        after, answer = before, failed(dangling(error))
    return lent(before.hex(), after.hex(), [("asked", str(len(asked))), ("ids", str(asked)), *answer])


def pruned(row, with_map):
    """A table of what ids reach, appended to the byte aa."""
    ids, name = ids_and_name(row)

    def call():
        kept, new = numberings.pruned(bytes_of(name), ids)
        return appended(TABLE.write(kept), done(map_of(new) if with_map else "()"))

    answer = errors_of_prune(call)
    return answer if len(answer) > 1 else appended(b"", answer)


# The definitions of types whose values are not decoded: char, u256, i256 and sequences of bits.
NOT_DECODED = "(0501|0508|050e|07[0-9a-f]+)"


def loaded(row):
    """The definitions of the types that ids reach; at each other index one of a type whose values are not decoded."""
    ids, name = split(row)
    entries = table_of(name)
    try:
        reached = numberings.order_of(entries, numbers(ids))
    except Dangling as error:
        return failed(dangling(error))
    found = [DEFINITION.write(it.ty.definition).hex() if at in reached else NOT_DECODED for at, it in enumerate(entries)]
    return done(Matching(" ".join(found)))


def looked(row):
    """What a table has: its descriptions, the index of a variant, or its counts."""
    if row.startswith("each of "):
        return done(" ".join([it.hex() for it in encodings(table_of(row[8:]))] + ["none", "none"]))
    if row.startswith("variant "):
        name, rest = row[8:].split(":", 1)
        number, table = split(rest, ";")
        entries, at = table_of(table), int(number)
        variants = entries[at].ty.definition.variants if at < len(entries) else []
        return done(some(next((it.index for it in variants if it.name == name), None)))
    entries = table_of(row)
    has = [len(entries), not entries, is_closed(entries), bool(entries), len(entries), len(entries)]
    return done(" ".join(str(it).lower() for it in has))


def counted(row):
    """The counts of a view, and whether its table is closed."""
    entries = table_of(row)
    return done(f"{len(entries)} {truth(not entries)} {truth(is_closed(entries))}")


def at_index(row, shown):
    """What is shown of the entry at an index of a table; none past its end."""
    index, table = split(row)
    entries = table_of(table)
    return done(shown(entries[int(index)]) if int(index) < len(entries) else "none")


def referred(row):
    """The references of the entry at an index."""
    index, table = split(row)
    entries = table_of(table)
    return done(some(references(entries[int(index)].ty) if int(index) < len(entries) else None))


def first_references(row):
    """The references of the first description of a table."""
    return references(table_of(row)[0].ty)


def stepped(row):
    """The first reference of the first description, and the steps to it."""
    found = first_references(row)
    return done(f"Some({found[0]}) 1" if found else "None 0")


def viewed_path(row):
    """The first entry with the segments that blanks separate."""
    path, table = split(row)
    return done(some(next((index for index, it in enumerate(table_of(table)) if it.ty.path == path.split()), None)))


def distinct(row):
    """The encodings of the descriptions of a table, each once, in order."""
    return list(dict.fromkeys(encodings(table_of(row))))


def built(row):
    """What a builder of a table's descriptions has."""
    if row.startswith("each of "):
        return done(" ".join([it.hex() for it in distinct(row[8:])] + ["none", "none"]))
    all_of = distinct(row)
    return done(f"{len(all_of)} {truth(all_of)}")


def with_ids(all_of):
    """The encoding of a table of encoded descriptions."""
    return listed([COMPACT.write(index) + it for index, it in enumerate(all_of)])


def sequences(end):
    """The encodings of a sequence of each type from 1000 on."""
    return [DESCRIPTION.write(DESCRIPTION.decode(b"\0\0\2" + COMPACT.write(it) + b"\0")[0]) for it in range(1000, end)]


def registered(row, before):
    """A builder to which the last description of a table is added."""
    ty = encodings(table_of(row))[-1]
    after = before if ty in before else [*before, ty]
    return lent(*("".join(it.hex() + " " for it in all_of) for all_of in (before, after)), done(after.index(ty)))


def each_registered(row):
    """Descriptions that are registered one after another, and the table of them."""
    all_of, ids = [], []
    for it in row.split(";"):
        ty = DESCRIPTION.write(DESCRIPTION.decode(hexadecimal(it.rpartition(":")[2]))[0])
        all_of += [] if ty in all_of else [ty]
        ids.append((all_of.index(ty), len(all_of)))
    return done(f"{ids} {with_ids(all_of).hex()}")


def from_text(row, of_text):
    """The table of a text, or of that of a table."""
    source = row[5:] if row.startswith("text ") else json_trees.write(json_tables.tree_of_table(table_of(row)))
    try:
        return done(TABLE.write(json_tables.table_of_tree(json_trees.read(source))).hex())
    except json_trees.Syntax:
        return failed("Syntax" if of_text else "no tree")
    except json_tables.Shape:
        return failed("Shape")


def json_of(row, head=""):
    """The text of a table."""
    try:
        return done(head + json_trees.write(json_tables.tree_of_table(table_of(row))))
    except Malformed:
        return failed("Malformed")


def table_in(row):
    """The table of an input."""
    try:
        version, data = metadata.table_of(bytes_of(row))
    except Malformed:
        return failed("Malformed")
    except Trailing:
        return failed("Trailing")
    except metadata.Version as error:
        return failed(f"Version({error.number})")
    return done(f"({'Table' if version is None else f'Metadata({version})'}, {all_bytes(data)})")


def digits_read(row):
    """The bytes that a text writes."""
    return done(some(metadata.bytes_of_text(row.encode()), all_bytes))


def without_docs(row):
    """A table without docs, appended to the byte aa."""
    try:
        entries, rest = TABLE.decode(bytes_of(row))
    except Malformed:
        return appended(b"", failed("Malformed"))
    return appended(TABLE.write(stripped(entries)), done(all_bytes(rest)))


def same(row):
    """Whether types of two tables are the same."""
    ids, table, others, other = row.split(";")
    given = bytes_of(table), numbers(ids), bytes_of(other), numbers(others)
    return errors_of_prune(lambda: done(truth(numberings.same_types(*given))))


def named(row):
    """The name of a type."""
    number, table = split(row, ";")
    return done(text(declarations.name_of(table_of(table), int(number))))


def declared(row):
    """The declaration of a type."""
    number, table = split(row, ";")
    return done(some(declarations.describe(table_of(table), int(number)), text))


def declared_after(row):
    """The declaration of a type, appended to a text."""
    number, table = split(row, ";")
    found = declarations.describe(table_of(table), int(number))
    return lent(text("// "), text("// " + (found or "")), done(truth(found is not None)))


def found(row, find):
    """The ids of types by a path."""
    path, table = split(row, ";")
    return done(find(table_of(table), path))


def drawn(row):
    """The graph of what ids reach, appended to a text."""
    ids, table = split(row, ";")
    try:
        graph, answer = declarations.graph(table_of(table), numbers(ids)), done("()")
    except Dangling as error:
        graph, answer = "", failed(dangling(error))
    return lent(text("// "), text("// " + graph), answer)


def changed(row, with_docs):
    """What became of the paths of two tables."""
    old, new = map(bytes_of, row.split(";"))

    def call():
        found = changes.changes(old, new, with_docs)
        return done("[" + ", ".join(f"{word}({text(path)})" for word, path in found) + "]")

    return errors_of_prune(call)


def differing(row, find, shown):
    """Where types of two tables differ first."""
    ids, table, others, other = row.split(";")
    given = bytes_of(table), numbers(ids), bytes_of(other), numbers(others)
    return errors_of_prune(lambda: done(some(find(*given), shown)))


def skipped(codec, data):
    """Whether the bytes begin with a value."""
    try:
        codec.read(Reader(data))
    except Malformed:
        return False
    return True


class Id(int):
    """A number that is an id."""


ID = Codec(lambda reader: Id(COMPACT.read(reader)), COMPACT.write)
PASSED = {
    "u8": BYTE, "u32": PLAIN, "compact": COMPACT, "id": ID, "text": TEXT, "primitive": PRIMITIVE, "option": option_of(ID),
    "list": list_of(ID), "path": PATH, "parameter": PARAMETER, "field": FIELD, "variant": VARIANT, "definition": DEFINITION,
    "description": DESCRIPTION, "entry": ENTRY,
    "pair": Codec(lambda reader: [BYTE.read(reader), ID.read(reader)], lambda it: BYTE.write(it[0]) + ID.write(it[1])),
}


def renumbered(kind, value, new):
    """A value with its references replaced by what a function makes of them."""
    hull = {
        "parameter": lambda ty: ty.params, "field": lambda ty: ty.definition.fields, "variant": lambda ty: ty.definition.variants,
    }
    empty = DESCRIPTION.decode(b"\0\0\0\0\0")[0]
    if kind in hull:
        hull[kind](empty).append(value)
        return hull[kind](with_types(empty, new))[0]
    if kind == "definition":
        empty.definition = value
        return with_types(empty, new).definition
    if kind == "description":
        return with_types(value, new)
    if kind == "entry":
        return type(value)(value.id, with_types(value.ty, new))
    if isinstance(value, list):
        return [new(it) if isinstance(it, Id) else it for it in value]
    return new(value) if isinstance(value, Id) else value


def passed(row):
    """A value that is skipped, gathered and renumbered, by new numbers of the ids 0, 1 and 2."""
    name, data = row.split(":", 1)
    kind, data = name.split(";")[0], bytes_of(data)
    value, rest = PASSED[kind].decode(data)
    ids = []

    def new(number):
        ids.append(number)
        return {0: 7, 1: 6, 2: 300}.get(number, number)

    again = PASSED[kind].write(renumbered(kind, value, new))
    count = sum(skipped(PASSED[kind], data[:end]) for end in range(len(data)))
    gathered = bytes(min(it, 255) for it in ids).hex()
    return done(f"references {gathered}, renumbered {with_rest(again, rest)}, {count} of {len(data)} prefixes")


def indexed(row):
    """The index of so many entries: their offsets, their starts, and their references."""
    count, data = split(row)
    data = bytes_of(data)
    reader, offsets, starts, ids = Reader(data), [], [], []
    try:
        for _ in range(int(count)):
            ty = ENTRY.read(Reader(data[reader.at:])).ty
            COMPACT.read(reader)
            offsets.append(reader.at)
            starts.append(len(ids))
            ids += references(ty)
            DESCRIPTION.read(reader)
    except Malformed:
        return done("no entries")
    return done(f"{offsets} {starts} {ids}, {len(reader.rest())} left")


CALLS = {
    "tables.decode": decoded,
    "views.decode": decoded,
    "views.new": read,
    "views.try_to_owned": read,
    "tables.try_clone": read,
    "tables.try_clone_entries": read,
    "borrowed.decode_type": described,
    "tables.encode": lambda row: appended(TABLE.write(table_of(row)), done("()")),
    "tables.decode_compact": integer,
    "walks.number": numbered,
    "walks.number_recursive": numbered,
    "views.number": numbered,
    "views.look": counted,
    "views.resolve": lambda row: at_index(row, lambda it: DESCRIPTION.write(it.ty).hex()),
    "borrowed.owned_type": lambda row: at_index(row, lambda it: DESCRIPTION.write(it.ty).hex()),
    "views.entry": lambda row: at_index(row, lambda it: ENTRY.write(it).hex()),
    "views.references": referred,
    "views.find_by_path": viewed_path,
    "views.entries": lambda row: done(listed(encodings(table_of(row))).hex()),
    "walks.Refs::of": lambda row: done(first_references(row)),
    "walks.Refs::prepend_of": lambda row: lent("[9]", str(first_references(row) + [9]), done("()")),
    "walks.Refs::next": stepped,
    "prunings.retain": retained,
    "prunings.prune": lambda row: pruned(row, True),
    "prunings.append_pruned": lambda row: pruned(row, False),
    "views.load": loaded,
    "borrowed.look_at_table": looked,
    "borrowed.look_at_builder": built,
    "builders.finish": lambda row: done(with_ids(distinct(row)).hex()),
    "builders.register_type": lambda row: registered(row, sequences(1015)),
    "builders.register_seventeenth_type": lambda row: registered(row, sequences(1016)),
    "builders.register_first_type": lambda row: registered(row, []),
    "builders.register_known_type": lambda row: registered(row, distinct(row)),
    "builders.register_each": each_registered,
    "json.from_json": lambda row: from_text(row, False),
    "json.from_json_text": lambda row: from_text(row, True),
    "json.to_json": json_of,
    "json.append_json": lambda row: json_of(row, "aa "),
    "json.append_json_of": lambda row: json_of(row, "aa "),
    "metadata.table_of": table_in,
    "metadata.bytes_of_text": digits_read,
    "metadata.append_without_docs": without_docs,
    "prunings.same_types": same,
    "people.name_of": named,
    "people.describe": declared,
    "people.append_description": declared_after,
    "people.find_by_path": lambda row: found(row, declarations.find_by_path),
    "people.find_containing": lambda row: found(row, declarations.find_containing),
    "people.append_graph": drawn,
    "changes.changes": lambda row: changed(row, False),
    "changes.changes_with_docs": lambda row: changed(row, True),
    "changes.first_difference": lambda row: differing(row, changes.first_difference, lambda pair: f"({pair[0]}, {pair[1]})"),
    "changes.first_declared_change": lambda row: differing(row, changes.first_declared_change, text),
    "changes.declared_change_of": lambda row: differing(row, changes.first_declared_change, text),
    "passes.pass": passed,
    "passes.index_entries": indexed,
}
