"""Calls made by chance, as checks/fuzz makes the programs' inputs, and what the model of the formats says of each.

It needs `checks` and `checks/rows` on the path.
"""

from fuzz.cases import Chance
from fuzz.tables import decoded
from model import changes, declarations, json_tables, json_trees, metadata, numberings, value_bytes, value_json
from model.codec import Malformed
from model.tables import TABLE, stripped
from model.values import Failure, Unmodelled

# The errors of the model that are those of a call by another name, and what they say of a table.
OF_TABLES = {Malformed: "Malformed", numberings.Trailing: "TrailingBytes"}
UNDECLARED = "they differ in what is not declared"


class Refused(Exception):
    """A call is refused: the name of its error, and the number that goes with it."""

    def __init__(self, name, number=0):
        super().__init__(name, number)
        self.told = name, number


def table_of(data):
    """The table that bytes are."""
    try:
        return numberings.only_table(data)
    except tuple(OF_TABLES) as error:
        raise Refused(OF_TABLES[type(error)]) from None


def within(table, number):
    """The id of a type, which is to be an index of the table."""
    if number >= len(table):
        raise Refused("NoSuchType", number)
    return number


def check(data):
    table_of(data)


def prune(data, ids):
    table_of(data)
    try:
        kept, _ = numberings.pruned(data, ids)
    except numberings.NoSuchType as error:
        raise Refused("NoSuchType", error.id) from None
    except numberings.Dangling as error:
        raise Refused("Dangling", error.id) from None
    return TABLE.write(kept)


def json(data):
    return json_trees.write(json_tables.tree_of_table(table_of(data)))


def strip(data):
    return TABLE.write(stripped(table_of(data)))


def table(data):
    try:
        return metadata.table_of(metadata.bytes_of_input(data)[0])[1]
    except metadata.Version as error:
        raise Refused("Version", error.number) from None
    except tuple(OF_TABLES) as error:
        raise Refused(OF_TABLES[type(error)]) from None


def find(data, path):
    return declarations.find_by_path(table_of(data), path)


def describe(data, number):
    entries = table_of(data)
    return declarations.describe(entries, within(entries, number))


def failed(failure, number, malformed):
    """The error of a call for a value that is none."""
    name = malformed if failure.why == "Malformed" else failure.why
    return Refused(name, number if name == "NoSuchType" else 0)


def value(data, number, given):
    entries = table_of(data)
    try:
        text, rest = value_json.text(entries, number, given)
    except Failure as failure:
        raise failed(failure, number, "MalformedValue") from None
    if rest:
        raise Refused("TrailingValue")
    return text


def encode(data, number, text):
    try:
        tree = json_trees.read(text)
    except json_trees.Syntax:
        raise Refused("NoJson") from None
    entries = table_of(data)
    try:
        return value_bytes.encode(entries, number, value_json.from_json(entries, number, tree))
    except Failure as failure:
        raise failed(failure, number, "Mismatch") from None


def difference(first, number, second, other):
    old, new = table_of(first), table_of(second)
    try:
        if numberings.same_types(first, [number], second, [other]):
            return None
    except numberings.NoSuchType as error:
        raise Refused("NoSuchType", error.id) from None
    except numberings.Dangling as error:
        raise Refused("Dangling", error.id) from None
    return changes.declared_change_of(old, [number], new, [other]) or UNDECLARED


def changes_between(first, second):
    old, new = table_of(first), table_of(second)
    marks = {"Removed": "-", "Added": "+", "Changed": "~"}
    return "".join(f"{marks[mark]} {path}\n" for mark, path in changes.changes_of(old, new)).split("\n")[:-1]


MODEL = {
    "check": check, "prune": prune, "json": json, "strip": strip, "table": table, "find": find, "describe": describe, "value": value,
    "encode": encode, "difference": difference, "changes": changes_between,
}  # fmt: skip


class Calls(Chance):
    """Makes calls by chance."""

    def number(self, entries):
        """The id of a type, mostly one of the table."""
        return self.seldom(lambda: self.chance.choice([len(entries), 4294967295]), self.chance.randrange(len(entries) or 1), 0.05)

    def given(self, name):
        """What a call is given."""
        data = self.table_bytes()
        entries = decoded(data) or []
        if name == "prune":
            return data, self.several(lambda: self.number(entries), 4)
        if name == "table":
            return (self.input(data),)
        if name == "find":
            paths = ["::".join(it.ty.path) for it in entries] or ["a"]
            return data, self.seldom(self.text, self.chance.choice(paths))
        if name == "describe":
            return data, self.number(entries)
        if name in ("value", "encode"):
            number = self.chance.randrange(len(entries) or 1)
            made = (self.value_bytes if name == "value" else self.json_text)(entries, number)
            return data, self.seldom(lambda: self.number(entries), number), made
        if name not in ("difference", "changes"):
            return (data,)
        other = data if self.chance.random() < 0.2 else TABLE.write(self.changed(entries)) if entries else self.table_bytes()
        if name == "changes":
            return data, other
        return data, self.number(entries), other, self.number(decoded(other) or [])


def cases(chance, number):
    """So many calls: the name of each, what the model says, and what the call is given. Where the pages leave it open, there is no call."""
    maker = Calls(chance)
    while number:
        name = chance.choice(list(MODEL))
        given = maker.given(name)
        try:
            answer = MODEL[name](*given)
        except Refused as refused:
            answer = refused.told
        except Unmodelled:
            continue
        yield name, answer, given
        number -= 1
