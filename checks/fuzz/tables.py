"""Tables for inputs: worked ones, made ones, and changed ones."""
import copy
import glob

from calls.inputs import NAMED, TOP, chain
from model.codec import Malformed
from model.tables import KINDS, PRIMITIVES, TABLE, Definition, Description, Entry, Field, Parameter, Variant

TEXTS = ["long" * 17, "a", "b", "c", "x", "Foo", "Bar", "None", "Some", "T", "demo", "r#type", "é", "🦀", '"q\\', "", "0", "a b"]
BYTES = [0, 1, 2, 3, 4, 5, 6, 7, 8, 9, 12, 16, 20, 64, 127, 128, 252, 253, 254, 255]


def samples():
    """The files of samples/ that hold bytes."""
    found = []
    for path in sorted(glob.glob(f"{TOP}/samples/*.scale")):
        with open(path, "rb") as it:
            found.append(it.read())
    return found


WORKED = [*NAMED.values(), *samples(), *map(chain, (127, 128, 129, 130))]


def decoded(data):
    """The table that bytes are; None where they are none."""
    try:
        table, rest = TABLE.decode(data)
    except Malformed:
        return None
    return None if rest else table


TABLES = [it for it in map(decoded, WORKED) if it]


class Maker:
    """Makes parts of tables by chance."""

    def __init__(self, chance):
        self.chance, self.count = chance, 1

    def text(self):
        """A text."""
        return self.chance.choice(TEXTS)

    def several(self, make, most):
        """A list of parts, up to so many."""
        return [make() for _ in range(self.chance.randrange(most + 1))]

    def seldom(self, make, otherwise, share=0.2):
        """A part, or more often another one."""
        return make() if self.chance.random() < share else otherwise

    def id(self):
        """An id, which is mostly that of an entry."""
        return self.seldom(lambda: self.chance.choice([self.count, 63, 64, 16384]), self.chance.randrange(self.count), 0.02)

    def docs(self):
        """Lines of documentation, seldom any."""
        return self.seldom(lambda: self.several(self.text, 2), [])

    def field(self, named):
        """A field."""
        return Field(self.text() if named else None, self.id(), self.seldom(self.text, None), self.docs())

    def fields(self):
        """The fields of a composite or of a variant."""
        named = self.chance.random() < 0.5
        fields = self.several(lambda: self.field(named), 3)
        return self.seldom(lambda: self.several(lambda: self.field(self.chance.random() < 0.5), 3), fields, 0.1)

    def variant(self):
        """A variant."""
        return Variant(self.text(), self.fields(), self.chance.randrange(self.chance.choice([3, 256])), self.docs())

    def definition(self):
        """A definition, a primitive half of the time."""
        kind = self.chance.choice([*KINDS, *["primitive"] * 7])
        count = {"sequence": 1, "array": 1, "compact": 1, "bitsequence": 2, "map": 2, "tuple": self.chance.randrange(4)}.get(kind, 0)
        length = self.chance.choice([0, 1, 2, 3, 5, 300, 4294967295]) if kind == "array" else 0
        return Definition(
            kind, self.fields() if kind == "composite" else [], self.several(self.variant, 4) if kind == "variant" else [],
            [self.id() for _ in range(count)], length, self.chance.choice(PRIMITIVES) if kind == "primitive" else "",
        )

    def description(self):
        """A description."""
        path = self.several(self.text, 2)
        params = self.seldom(lambda: self.several(lambda: Parameter(self.text(), self.seldom(lambda: None, self.id())), 2), [])
        return Description(path, params, self.definition(), self.docs())

    def table(self):
        """A table."""
        self.count = self.seldom(lambda: 70, self.chance.randrange(1, 9), 0.03)
        return [Entry(self.seldom(self.id, index, 0.03), self.description()) for index in range(self.count)]

    def changed(self, table):
        """A table with another description, or an entry more or less."""
        table, self.count = copy.deepcopy(table), max(1, len(table))
        at = self.chance.randrange(self.count)
        way = self.chance.randrange(4)
        if way == 0 or not table:
            table.append(Entry(len(table), self.description()))
        elif way == 1:
            table[at].ty = self.description()
        elif way == 2:
            table[at].ty.definition = self.definition()
        else:
            table[at].ty.docs = self.docs()
        return table

    def changed_bytes(self, data):
        """Bytes, some of which are others, gone or new."""
        data = bytearray(data)
        for _ in range(self.chance.randrange(1, 4)):
            at = self.chance.randrange(len(data) + 1)
            way = self.chance.randrange(4)
            if way == 0:
                data[at:at + 1] = bytes([self.chance.choice(BYTES)])
            elif way == 1:
                del data[at:at + self.chance.randrange(1, 4)]
            elif way == 2:
                data[at:at] = bytes(self.chance.choices(BYTES, k=self.chance.randrange(1, 4)))
            else:
                data[at:at] = data[at:at + self.chance.randrange(1, 12)]
        return bytes(data)

    def any_table(self):
        """A table: a worked one, a made one, or a changed one."""
        way = self.chance.randrange(3)
        if way == 0:
            return self.chance.choice(TABLES)
        return self.table() if way == 1 else self.changed(self.chance.choice(TABLES))

    def table_bytes(self):
        """The bytes of a table, seldom changed ones."""
        data = self.chance.choice(WORKED) if self.chance.random() < 0.1 else TABLE.write(self.any_table())
        return self.changed_bytes(data) if self.chance.random() < 0.2 else data
