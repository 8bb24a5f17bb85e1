"""Cases: a program, its arguments, its files and its standard input."""
import json
from dataclasses import dataclass, field

from model import json_trees, value_bytes, value_json, values
from model.codec import write_compact
from model.programs import Written, type_reader, type_table
from model.tables import TABLE
from model.values import Failure, Unmodelled

from .tables import TEXTS, Maker, decoded

TREES = [
    None, True, False, 0, 1, -1, 255, 256, 65536, 1.0, 18446744073709551615, 18446744073709551616, "1", "-1", "0x01ff", "0x", "zz", [], {},
]
WORDS = ["0", "1", "2", "7", "00", "4294967295", "4294967296", "-1", "+1", "", "x", "demo", "demo::Recursive", "Option", "a::b", "::", "é"]


@dataclass
class Case:
    """What a program is given."""
    program: str
    words: list
    files: dict = field(default_factory=dict)
    stdin: bytes = b""

    def command(self):
        """The program and its command."""
        return f"{self.program} {self.words[0] if self.words and self.words[0].isalpha() else '?'}"

    def modelled(self) -> Written:
        """What the model says."""
        if self.program == "type_table":
            return type_table(self.words, self.stdin)
        return type_reader(self.words, self.files, self.stdin)


class Chance(Maker):
    """Makes cases by chance."""

    def hexadecimal(self, data):
        """Bytes as a text of digits."""
        digits = data.hex()
        digits = digits.upper() if self.chance.random() < 0.2 else digits
        before = self.chance.choice(["", "0x", '"0x', " 0x", "\n"])
        after = self.chance.choice(["", "\n", '"\n', " "])
        return self.seldom(lambda: f"0X{digits}0", before + digits + after, 0.05).encode()

    def input(self, data):
        """Bytes of a table as one of the inputs that have it."""
        way = self.chance.randrange(8)
        if way < 3:
            return data
        if way == 3:
            return self.hexadecimal(data)
        version = self.chance.choice([14, 15, 16, 13, 17, 0, 255]) if self.chance.random() < 0.3 else 14
        data = b"meta" + bytes([version]) + data + self.chance.choice([b"", b"\0", b"more"])
        if way == 4:
            return data
        data = write_compact(len(data)) + data
        data = data if way == 5 else b"\1" + data
        data = self.changed_bytes(data) if self.chance.random() < 0.1 else data
        return self.hexadecimal(data) if self.chance.random() < 0.5 else data

    def type_words(self, table, most):
        """Words that give types of a table; no argument of a program has a zero byte."""
        paths = [it for it in ("::".join(it.ty.path) for it in table if it.ty.path) if "\0" not in it] or ["demo"]
        numbers = list(map(str, range(len(table) or 1)))
        found = [self.chance.choice(self.chance.choice([numbers, paths])) for _ in range(self.chance.randrange(1, most + 1))]
        return [self.seldom(lambda: self.chance.choice([*WORDS, str(len(table))]), it, 0.1) for it in found]

    def value(self, table, number, depth=1):
        """A value of a type, by its definition, as far as one is found."""
        definition = values.definition_at(table, number, depth)
        kind, types = definition.kind, definition.types
        if depth > 12:
            raise Failure("TooDeep")
        if kind == "primitive":
            return self.scalar(definition.primitive)
        if kind == "compact":
            return "unsigned", self.integer(values.compact_width(table, types[0], depth))
        if kind == "composite":
            return "record", [(it.name, self.value(table, it.ty, depth + 1)) for it in definition.fields]
        if kind == "variant":
            one = self.chance.choice(definition.variants or [None])
            if one is None:
                raise Failure("Malformed")
            return "variant", one.name, one.index, [(it.name, self.value(table, it.ty, depth + 1)) for it in one.fields]
        if kind == "map":
            return "list", [("list", [self.value(table, it, depth + 2) for it in types]) for _ in range(self.chance.randrange(3))]
        if kind == "tuple":
            return "list", [self.value(table, it, depth + 1) for it in types]
        count = min(definition.length, 300) if kind == "array" else self.chance.randrange(4)
        return "list", [self.value(table, types[0], depth + 1) for _ in range(count)] if kind != "bitsequence" else []

    def integer(self, width):
        """An integer of so many bytes."""
        bits = 8 * width
        edges = [0, 1, 63, 64, 16383, 16384, 1 << 30, (1 << 53) - 1, 1 << 53, (1 << bits) - 1]
        return self.chance.choice([*edges, self.chance.getrandbits(bits)]) & ((1 << bits) - 1)

    def scalar(self, name):
        """A value of a primitive."""
        if name in values.UNSIGNED:
            return "unsigned", self.integer(values.UNSIGNED[name])
        if name in values.SIGNED:
            bits = 8 * values.SIGNED[name]
            return "signed", self.integer(values.SIGNED[name]) - (1 << bits - 1)
        return ("bool", self.chance.random() < 0.5) if name == "bool" else ("text", self.text())

    def value_bytes(self, table, number):
        """Bytes that may be those of a value."""
        try:
            data = value_bytes.encode(table, number, self.value(table, number))
        except Failure:
            some_lists = b"\4" * self.chance.randrange(125, 131) + b"\1"
            data = self.seldom(lambda: some_lists, bytes(self.chance.choices(range(8), k=self.chance.randrange(12))), 0.5)
        return self.changed_bytes(data) if self.chance.random() < 0.3 else data

    def changed_tree(self, tree):
        """A tree with another part."""
        if isinstance(tree, list) and tree and self.chance.random() < 0.7:
            at = self.chance.randrange(len(tree))
            return [*tree[:at], *self.chance.choice([[], [self.changed_tree(tree[at])], [tree[at]] * 2]), *tree[at + 1:]]
        if isinstance(tree, dict) and tree and self.chance.random() < 0.7:
            key = self.chance.choice(list(tree))
            others = {it: part for it, part in tree.items() if it != key}
            return {**others, self.chance.choice([key, *TEXTS]): self.changed_tree(tree[key])}
        return self.chance.choice(TREES)

    def json_text(self, table, number):
        """A text of JSON that may give a value."""
        try:
            text, _ = value_json.text(table, number, self.value_bytes(table, number))
        except (Failure, Unmodelled):
            text = json.dumps(self.chance.choice(TREES))
        if self.chance.random() < 0.4:
            try:
                text = json.dumps(self.changed_tree(json_trees.read(text)), ensure_ascii=self.chance.random() < 0.5)
            except json_trees.Syntax:
                pass
        return self.chance.choice([text, text, text, text + " ", text[:-1]])

    def value_word(self, command, table, number):
        """A value as the command takes it."""
        if command == "encode":
            return self.json_text(table, number)
        return self.hexadecimal(self.value_bytes(table, number)).decode()

    def table_case(self):
        """A case of type_table."""
        data = self.table_bytes()
        table = decoded(data) or []
        ids = self.several(lambda: str(self.chance.randrange(len(table) or 1)), 3)
        ids += self.seldom(lambda: [self.chance.choice([*WORDS, str(len(table))])], [])
        words = self.chance.choice([["check"], ["json"], ["prune", *ids], ["prune", *ids], ["prune", "0", *ids]])
        words = self.seldom(lambda: [self.chance.choice(WORDS), *ids], words, 0.05)
        return Case("type_table", words, {}, self.seldom(lambda: data + b"\0", data, 0.05))

    def reader_case(self):
        """A case of type_reader on one table."""
        data = self.table_bytes()
        table = decoded(data) or []
        command = self.chance.choice(["table", "strip", "list", "find", "prune", "graph", "value", "encode", "value", "encode"])
        words = [] if command in ("table", "strip") else self.type_words(table, 1 if command in ("find", "value", "encode") else 3)
        if command == "list" and self.chance.random() < 0.4:
            words = []
        name, number = self.chance.choice(["-", "table"]), self.chance.randrange(len(table) or 1)
        given = self.input(data)
        files, stdin = ({}, given) if name == "-" else ({"table": given}, b"")
        if command in ("value", "encode"):
            words = [str(number)] if self.chance.random() < 0.8 else words
            several = [self.value_word(command, table, number) for _ in range(self.chance.randrange(1, 4))]
            if name == "table" and self.chance.random() < 0.4:
                stdin = "".join(it.replace("\n", "") + self.chance.choice(["\n", "\n", "\r\n"]) for it in several).encode()
            else:
                words.append(several[0].replace("\0", ""))
        return Case("type_reader", [command, self.seldom(lambda: "missing", name, 0.02), *words], files, stdin)

    def diff_case(self):
        """A case of type_reader on two tables."""
        old = self.any_table()
        new = self.changed(old) if self.chance.random() < 0.7 else self.any_table()
        given = [self.input(TABLE.write(it)) for it in (old, new)]
        names = self.chance.choice([["old", "new"], ["-", "new"], ["old", "-"]])
        files = {name: it for name, it in zip(names, given) if name != "-"}
        stdin = next((it for name, it in zip(names, given) if name == "-"), b"")
        paths = self.seldom(lambda: [it for it in self.type_words(old, 2) if not it.isdigit()], [], 0.3)
        return Case("type_reader", ["diff", *self.seldom(lambda: ["--docs"], []), *names, *paths], files, stdin)

    def case(self):
        """A case."""
        make = self.chance.choice([self.table_case, self.table_case, self.reader_case, self.reader_case, self.reader_case, self.diff_case])
        return make()
