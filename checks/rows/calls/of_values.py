"""Rows of values: what is decoded, shown, encoded, written as JSON and taken from it; and runs of the program type_table."""
from model import json_trees, value_bytes, value_json, values
from model.numberings import loaded
from model.programs import type_table
from model.values import Failure

from .inputs import bytes_of, hexadecimal, numbers, parts_of, table_of
from .shown import all_bytes, appended, done, failed, lent, text, truth


class Given:
    """What a row of a value gives."""

    def __init__(self, row):
        ids, table, data = parts_of(row)
        self.ids, self.table, self.data = ids, table_of(table), data

    def decoded(self):
        """The value that is decoded by the first id, and the rest."""
        return values.decode(self.table, int(self.ids.split()[0]), hexadecimal(self.data))

    def events(self):
        """The events of that value, and the rest."""
        return values.events_of(self.table, int(self.ids.split()[0]), hexadecimal(self.data))


def field_text(pair):
    """A field, as the example caller prints it."""
    name, value = pair
    return printed(value) if name is None else f"{name}: {printed(value)}"


def printed(value):
    """A value, as the example caller prints it."""
    kind = value[0]
    if kind == "bool":
        return truth(value[1])
    if kind == "text":
        return text(value[1])
    if kind == "list":
        return "[" + ", ".join(map(printed, value[1])) + "]"
    if kind in ("record", "variant"):
        fields = "{" + ", ".join(map(field_text, value[-1])) + "}"
        return fields if kind == "record" else f"{value[1]} {fields}"
    return str(value[1])


def or_failure(call):
    """The outcome of a call on a value, or of its failure."""
    try:
        return call()
    except Failure as failure:
        return failed(failure.why)


def decoded(row):
    """A value that is decoded and printed."""
    def call():
        value, rest = Given(row).decoded()
        return done(f"{printed(value)}{''.join(f' {it}' for it in rest)} true")

    return or_failure(call)


def borrowed(row):
    """A value that borrows, whose copy is the value that is decoded."""
    return or_failure(lambda: done(f"true {all_bytes(Given(row).decoded()[1])}"))


def borrowed_loaded(row):
    """The same, by what is loaded of the table."""
    def call():
        given = Given(row)
        number, _, ids = given.ids.partition(" by ")
        given.table, given.ids = loaded(given.table, numbers(ids or number)), number
        return done(f"true {all_bytes(given.decoded()[1])}")

    return or_failure(call)


def skipped(row):
    """What is left after a value."""
    return or_failure(lambda: done(all_bytes(Given(row).events()[1])))


def word(event):
    """The word of an event."""
    kind = event[0]
    if kind == "truth":
        return truth(event[1])
    if kind == "text":
        return text(event[1])
    if kind == "bytes":
        return all_bytes(event[1])
    if kind == "begin list":
        return f"list({event[1]}"
    if kind == "begin record":
        return f"record({len(event[1])}"
    if kind == "begin variant":
        return f"{event[1].name}({event[1].index}"
    if kind == "field":
        return f"{'_' if event[1].name is None else event[1].name}:"
    return str(event[1]) if kind in ("unsigned", "signed") else ")"


def words(events):
    """The words of events, each with a blank after it."""
    return "".join(word(it) + " " for it in events)


def visited(row):
    """The events of a value, and what is left."""
    def call():
        events, rest = Given(row).events()
        return done(f"{words(events)}then {all_bytes(rest)}")

    return or_failure(call)


def visited_within(row):
    """The events that are shown up to a limit, and what is left, or why no more are shown."""
    ids, table, data = parts_of(row)
    number, rest = ids.split(" within ")
    limit, _, most = rest.partition(" for ")
    most = int(most) if most else 1 << 64
    events, ended = values.visit_within(table_of(table), int(number), hexadecimal(data), int(limit), most)
    if isinstance(ended, str):
        return failed(f"{words(events)}then {ended}")
    return done(f"{words(events)}then {all_bytes(ended)}")


def step_text(step):
    """A step of a path."""
    return f"Index({step})" if isinstance(step, int) else f"Field({text(step)})"


def refusal(failure):
    """A refusal of encoding."""
    if failure.why != "Mismatch":
        return failure.why
    return f"Mismatch(ValuePath {{ steps: [{', '.join(map(step_text, failure.path))}] }})"


def other_id(ids):
    """The id of the type by which a value is encoded."""
    return int(ids.split(" as ")[-1])


def encoded(row):
    """A value that is decoded by one type and encoded by another, appended to the byte aa."""
    given = Given(row)
    value, _ = given.decoded()
    try:
        return appended(value_bytes.encode(given.table, other_id(given.ids), value), done("()"))
    except Failure as failure:
        return appended(b"", failed(refusal(failure)))


def text_appended(row):
    """The text of a value, appended to the byte aa."""
    given = Given(row)
    try:
        written, rest = value_json.text(given.table, int(given.ids), hexadecimal(given.data))
        return lent("aa ", f"aa {written}", done(all_bytes(rest)))
    except Failure as failure:
        return lent("aa ", "aa ", failed(failure.why))


def whole_text(row):
    """The text of bytes as one value."""
    def call():
        given = Given(row)
        written, rest = value_json.text(given.table, int(given.ids), hexadecimal(given.data))
        return failed("Trailing") if rest else done(written)

    return or_failure(call)


def taken(row):
    """A value that is taken from a tree, and encoded."""
    ids, table, data = parts_of(row)
    entries = table_of(table)

    def call():
        value = value_json.from_json(entries, int(ids), json_trees.read(data))
        try:
            return done(value_bytes.encode(entries, int(ids), value).hex())
        except Failure as failure:
            return done(refusal(failure))

    return or_failure(call)


def run(row):
    """A run of the program type_table: what it writes, and its status or the line of its error."""
    arguments, mark, data = row.partition("<")
    arguments = [{"''": "", "1_": "1 "}.get(it, it) for it in arguments.split()]
    ran = type_table(arguments, bytes_of(data) if mark else None)
    output = ran.output.hex()
    if ran.output.startswith(b"{"):
        output = f"{ran.output[:-1].decode()} {ran.output[-1:].hex()}"
    return lent("", output, failed(f"{ran.status} {ran.errors.rstrip()}") if ran.errors else done(ran.status))


CALLS = {
    "values.decode": decoded,
    "values.decode_borrowed": borrowed,
    "views.decode_borrowed_loaded": borrowed_loaded,
    "values.to_value": lambda row: done(truth(Given(row).decoded())),
    "values.encode": encoded,
    "values.skip": skipped,
    "visits.events": visited,
    "visits.within": visited_within,
    "value_texts.append_value_json": text_appended,
    "value_texts.value_json": whole_text,
    "value_texts.from_json": taken,
    "value_texts.has_own_names": lambda row: done(truth(value_json.names_come_once(Given(row).decoded()[0]))),
    "runs.type_table": run,
}
