"""Counts that announce more than there is, and inputs of one byte again and again."""
from .nodes import LARGEST, compact
from .programs import Case, refusal

# What stands before a count, and how many zero bytes make an item of that list.
PLACES = {
    "entries": ("", 6),
    "segments of a path": ("04 00", 1),
    "bytes of a segment": ("04 00 04", 1),
    "parameters": ("04 00 00", 2),
    "bytes of a parameter's name": ("04 00 00 04", 1),
    "fields": ("04 00 00 00 00", 4),
    "bytes of a field's name": ("04 00 00 00 00 04 01", 1),
    "bytes of a type's name": ("04 00 00 00 00 04 00 00 01", 1),
    "docs of a field": ("04 00 00 00 00 04 00 00 00", 1),
    "variants": ("04 00 00 00 01", 4),
    "fields of a variant": ("04 00 00 00 01 04 00", 4),
    "docs of a variant": ("04 00 00 00 01 04 00 00 00", 1),
    "members of a tuple": ("04 00 00 00 04", 1),
    "docs": ("04 00 00 00 05 03", 1),
}
# An array's length announces nothing: its items are no part of a table.
ARRAY = "04 00 00 00 03"
COUNTS = [LARGEST, (1 << 30) - 1, 1 << 30, 16384]
ZEROES = bytes(1 << 20)
TABLE_COMMANDS = [["check"], ["json"], ["prune", "0"]]
READER_COMMANDS = [
    ["table", "-"], ["strip", "-"], ["list", "-"], ["find", "-", "x"], ["prune", "-", "0"], ["graph", "-", "0"], ["value", "-", "0", "0x"],
    ["diff", "empty", "-"],
]
EMPTY = b"\0"


def refusals(name, data, line):
    """Both programs refuse an input with a line, whatever the command."""
    for words in TABLE_COMMANDS:
        yield refusal(f"{name}: {words[0]}", "type_table", words, line, stdin=data)
    for words in READER_COMMANDS:
        yield refusal(f"{name}: reader {words[0]}", "type_reader", words, line, stdin=data, files={"empty": EMPTY})


def counts(_):
    """Each count at each place, alone and before a megabyte of zeroes, which may be enough for the least one."""
    for place, (before, size) in PLACES.items():
        for count in COUNTS:
            head = bytes.fromhex(before) + compact(count)
            yield from refusals(f"{count} {place}, alone", head, "malformed")
            line = "trailing bytes" if count * size < len(ZEROES) else "malformed"
            yield from refusals(f"{count} {place} before zeroes", head + ZEROES, line)
    for count in COUNTS:
        head = bytes.fromhex(ARRAY) + count.to_bytes(4, "little")
        yield from refusals(f"array of {count}, alone", head, "malformed")
        yield from refusals(f"array of {count} before zeroes", head + ZEROES, "trailing bytes")
        table = head + b"\0\0"
        text = f'{{"types":[{{"id":0,"type":{{"def":{{"array":{{"len":{count},"type":0}}}}}}}}]}}\n'.encode()
        yield Case(f"array of {count}: json", "type_table", ["json"], table, output=text)


# Inputs of one byte, with what the programs report.
FLOODS = {
    0x00: ("trailing bytes", "trailing bytes"),
    0xff: ("malformed", "malformed"),
    0x03: ("malformed", "malformed"),
    0x04: ("malformed", "malformed"),
    0xfe: ("malformed", "malformed"),
    # (the digit 0: type_reader reads a text of zero bytes)
    0x30: ("malformed", "trailing bytes"),
    # (a blank)
    0x20: ("malformed", None),
}


def floods(is_long):
    """Much of one byte, and nothing."""
    yield from refusals("no input", b"", "malformed")
    count = 100_000_000 if is_long else 10_000_000
    for byte, lines in FLOODS.items():
        data = bytes([byte]) * count
        for case in refusals(f"{count} bytes of {byte:02x}", data, ""):
            line = lines[case.program == "type_reader"]
            if line:
                case.errors = f"{case.program}: {line}\n".encode()
                yield case
