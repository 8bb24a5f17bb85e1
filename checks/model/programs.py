"""What the programs type_table and type_reader write, and their status, for given arguments and inputs."""
import re
from dataclasses import dataclass

from . import changes, declarations, json_tables, json_trees, metadata, numberings, value_bytes, value_json
from .codec import Malformed
from .numberings import Dangling, NoSuchType, Trailing
from .tables import TABLE, paths_of, stripped
from .values import Failure, Unmodelled

TABLE_USAGE = "usage: type_table check | prune ID .. | json"
# What the line on the usage of type_reader begins with; the pages leave out the rest.
READER_USAGE = "usage: type_reader table TABLE | "
WORDS = {
    "NoSuchType": "no such type", "Unsupported": "unsupported", "TooDeep": "too deep", "Malformed": "malformed", "Mismatch": "mismatch",
}


@dataclass
class Written:
    """What a run writes: its status, its output, and its lines for errors."""
    status: int
    output: bytes = b""
    errors: str = ""


class Refused(Exception):
    """A run ends with status 1 and this line."""


class NoValue(Exception):
    """A text gives no value, for this reason."""


def number_of(text):
    """The id that a text writes in decimal digits; None, where it is no id."""
    if not re.fullmatch(r"[0-9]+", text) or int(text) > 4294967295:
        return None
    return int(text)


def explained(call, *given):
    """What a call returns; its errors are those of a program."""
    try:
        return call(*given)
    except Malformed:
        raise Refused("malformed") from None
    except Trailing:
        raise Refused("trailing bytes") from None
    except NoSuchType as error:
        raise Refused(f"no such type {error.id}") from None
    except Dangling as error:
        raise Refused(f"dangling id {error.id}") from None
    except metadata.Version as error:
        raise Refused(f"metadata of version {error.number}") from None


def json_line(table):
    """The text of a table, and a line feed."""
    return json_trees.write(json_tables.tree_of_table(table)).encode() + b"\n"


def type_table(words, data):
    """What type_table does with these arguments and this input, which is None where it can't be read."""
    ids = list(map(number_of, words[1:])) if words[:1] == ["prune"] else []
    if words not in (["check"], ["json"]) and (not ids or None in ids):
        return Written(2, errors=TABLE_USAGE + "\n")
    try:
        if data is None:
            raise Refused("input failed")
        table = explained(numberings.only_table, data)
        if words == ["check"]:
            return Written(0, data)
        if words == ["json"]:
            return Written(0, json_line(table))
        kept, _ = explained(numberings.pruned, data, ids)
        return Written(0, TABLE.write(kept))
    except Refused as error:
        return Written(1, errors=f"type_table: {error}\n")


def table_in(data):
    """The table that an input has, its bytes, and the line that says what the input is."""
    found, is_text = metadata.bytes_of_input(data)
    version, body = explained(metadata.table_of, found)
    what = "a table" if version is None else f"metadata of version {version}"
    return numberings.only_table(body), body, f"input: {what}" + (", in hexadecimal digits" if is_text else "") + "\n"


def type_given(table, word):
    """The ids of the types that are given by an id or a path, and why there are none."""
    number = number_of(word)
    if number is None:
        ids = declarations.find_by_path(table, word)
        return ids, None if ids else f"no such path {word}"
    return [number], None if number < len(table) else f"no such type {number}"


def only_error(faults):
    """Refuses by an error, if there is one; where there are several, the pages do not say which."""
    faults = list(dict.fromkeys(it for it in faults if it))
    if len(faults) > 1:
        raise Unmodelled("which of several errors is reported")
    for it in faults:
        raise Refused(it)


def types_given(table, words):
    """The ids of the types that are given, each by its id or its path."""
    found = [type_given(table, it) for it in words]
    only_error(fault for _, fault in found)
    return [it for ids, _ in found for it in ids]


def one_type(table, word):
    """The id of the one type that is given."""
    ids = types_given(table, [word])
    if len(ids) > 1:
        raise Refused(f"several types with path {word}")
    return ids[0]


def pathed(table, number):
    """An id and the path of its type; of a type without a path the id alone."""
    return f"{number} {paths_of(table)[number]}" if table[number].ty.path else str(number)


def listing(table, words):
    """The declarations of the types that are given, or of all: of those with a path before the others."""
    ids = types_given(table, words) if words else sorted(range(len(table)), key=lambda it: not table[it].ty.path)
    return "".join(f"// {pathed(table, it)}\n{declarations.describe(table, it)}\n" for it in ids).encode()


def findings(table, pattern):
    """A line for each type in whose path the segments stand."""
    return "".join(f"{pathed(table, it)}\n" for it in declarations.find_containing(table, pattern)).encode()


def by_failure(call, *given):
    """What a call on a value returns."""
    try:
        return call(*given)
    except Failure as failure:
        raise NoValue(WORDS[failure.why]) from None


def value_line(table, number, digits):
    """The text of the value that digits write."""
    digits = digits.removeprefix(b"0x")
    if len(digits) % 2 or not re.fullmatch(rb"[0-9a-fA-F]*", digits):
        raise NoValue("no hexadecimal digits")
    text, rest = by_failure(value_json.text, table, number, bytes.fromhex(digits.decode()))
    if rest:
        raise NoValue("trailing bytes")
    return text.encode() + b"\n"


def encoding_line(table, number, text):
    """The digits of the value that a text of JSON gives."""
    try:
        tree = json_trees.read(text.decode("utf-8"))
    except (json_trees.Syntax, UnicodeDecodeError):
        raise NoValue("no JSON") from None
    value = by_failure(value_json.from_json, table, number, tree)
    return b"0x" + by_failure(value_bytes.encode, table, number, value).hex().encode() + b"\n"


# How many arguments come after a command, or how many at least.
EXACTLY, AT_LEAST = {"table": 1, "strip": 1, "find": 2}, {"list": 1, "prune": 2, "graph": 2}
LINES = {"value": value_line, "encode": encoding_line}


def lines_of(data):
    """The lines of an input, without line feeds and the carriage returns before these."""
    *whole, last = data.split(b"\n")
    return [it.removesuffix(b"\r") for it in whole] + ([last] if last else [])


def converted(command, table, word, data):
    """What comes of the lines of the standard input."""
    number, output, errors = one_type(table, word), [], []
    for at, line in enumerate(lines_of(data), 1):
        try:
            output.append(LINES[command](table, number, line))
        except NoValue as why:
            errors.append(f"type_reader: line {at}: no value: {why}\n")
    return Written(1 if errors else 0, b"".join(output), "".join(errors))


def change_line(mark, path, old, new):
    """The line of a change."""
    if mark != "Changed":
        return f"{'-' if mark == 'Removed' else '+'} {path}\n"
    words = changes.declared_change_of(old, changes.ids_by_path(old)[path], new, changes.ids_by_path(new)[path])
    return f"~ {path}" + (f": {words}" if words else "") + "\n"


def both_tables(old, new):
    """The tables that two inputs have."""
    tables, faults = [], []
    for data in (old, new):
        try:
            tables.append(table_in(data)[0])
        except Refused as error:
            faults.append(str(error))
    only_error(faults)
    return tables


def compared(words, old, new):
    """What diff writes of two inputs."""
    with_docs = words[:1] == ["--docs"]
    paths = words[3 if with_docs else 2:]
    tables = both_tables(old, new)
    old, new = tables if with_docs else map(stripped, tables)
    known = {**changes.ids_by_path(old), **changes.ids_by_path(new)}
    only_error(None if path in known else f"no such path {path}" for path in paths)
    found = [it for it in changes.changes_of(old, new) if not paths or it[1] in paths]
    return Written(1 if found else 0, "".join(change_line(*it, old, new) for it in found).encode())


def done_once(command, words, data):
    """What a command does that reads one input."""
    table, body, note = table_in(data)
    if command == "table":
        return Written(0, body, note)
    if command == "strip":
        return Written(0, TABLE.write(stripped(table)), note)
    if command == "list":
        return Written(0, listing(table, words))
    if command == "find":
        return Written(0, findings(table, words[0]))
    if command == "prune":
        kept, new = explained(numberings.pruned, body, types_given(table, words))
        return Written(0, TABLE.write(kept), "".join(f"{it} -> {new[it]}\n" for it in sorted(new)))
    if command == "graph":
        return Written(0, explained(declarations.graph, table, types_given(table, words)).encode())
    number = one_type(table, words[0])
    try:
        return Written(0, LINES[command](table, number, words[1].encode()))
    except NoValue as why:
        raise Refused(f"no value: {why}") from None


def is_command(words):
    """Whether arguments of type_reader name a command."""
    command, count = (words or [""])[0], len(words) - 1
    if command == "diff":
        given = words[2:4] if words[1:2] == ["--docs"] else words[1:3]
        return len(given) == 2 and given != ["-", "-"]
    if command in LINES:
        return count == 3 or count == 2 and words[1] != "-"
    if command in EXACTLY:
        return count == EXACTLY[command]
    return command in AT_LEAST and count >= AT_LEAST[command]


def type_reader(words, files, data):
    """What type_reader does with these arguments, these files by their names, and this standard input."""
    if not is_command(words):
        return Written(2, errors=READER_USAGE)
    command, given = words[0], dict(files)
    given["-"] = data
    try:
        rest = words[2:] if words[1:2] == ["--docs"] and command == "diff" else words[1:]
        names = rest[:2] if command == "diff" else rest[:1]
        if any(it not in given for it in names):
            raise Refused("input failed")
        if command == "diff":
            return compared(words[1:], *(given[it] for it in names))
        if command in LINES and len(rest) == 2:
            return converted(command, table_in(given[names[0]])[0], rest[1], data)
        return done_once(command, rest[1:], given[names[0]])
    except Refused as error:
        return Written(1, errors=f"type_reader: {error}\n")
