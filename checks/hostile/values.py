"""Values and names of type_reader that have no end, counts past the input, depth, and long and many lines."""
from .nodes import LARGEST, compact
from .programs import Case, refusal


def entries(*definitions):
    """A table of these definitions, each in hexadecimal digits."""
    return compact(len(definitions)) + b"".join(
        compact(at) + b"\0\0" + bytes.fromhex(it) + b"\0" for at, it in enumerate(definitions))


ARRAY = f"03 {LARGEST.to_bytes(4, 'little').hex()}"
UNIT, BYTES, SELF = "04 00", "02 04", "02 00"
MOST = compact(LARGEST).hex()
# Tables whose first type has values of no bytes, or of few, that are longer than any memory.
ENDLESS = {
    "array of units": (entries(f"{ARRAY} 04", UNIT), ""),
    "array of arrays of units": (entries(f"{ARRAY} 04", f"{ARRAY} 08", UNIT), ""),
    "tuple of a bool and an array of units": (entries("04 08 04 08", "05 00", f"{ARRAY} 0c", UNIT), "01"),
    "sequence of units": (entries(BYTES, UNIT), MOST),
    "map of units": (entries("08 04 04", UNIT), MOST),
    "array of structs without fields": (entries(f"{ARRAY} 04", "00 00"), ""),
}
# Values that announce more than there is, by the definition of their type.
SHORT = {
    "bytes": (entries(BYTES, "05 03"), MOST + "00" * 1000),
    "integers": (entries(BYTES, "05 07"), MOST + "00" * 1000),
    "truths": (entries(BYTES, "05 00"), compact(1 << 30).hex()),
    "text": (entries("05 02"), MOST + "61" * 1000),
    "lists of bytes": (entries(BYTES, "02 08", "05 03"), MOST + MOST),
    "map of bytes": (entries("08 04 04", "05 03"), MOST + "0000"),
    "array of bytes": (entries(f"{ARRAY} 04", "05 03"), "00" * 1000),
    "array of texts": (entries(f"{ARRAY} 04", "05 02"), "00" * 1000),
    "compact integer": (entries("06 04", "05 07"), "33" + "ff" * 15),
}
# A value of a list of itself is so deep at most.
DEEPEST = 128
NESTED = entries(SELF)
# Tuples of 64 of the next one, whose names are 64 times as long with each level.
WIDE = entries(*(f"04 {compact(64).hex()} {compact(it).hex() * 64}" for it in range(1, 9)), UNIT)
LINE_BYTES, BAD_LINES = 1 << 20, 100_000
# Lists of bytes.
LISTS = entries(BYTES, "05 03")


def endless():
    """Values and names without end, which no memory holds."""
    for name, (table, digits) in ENDLESS.items():
        yield refusal(f"{name}: value", "type_reader", ["value", "-", "0", f"0x{digits}"], "out of memory", stdin=table)
        yield refusal(f"{name}: value of a line", "type_reader", ["value", "table", "0"], "out of memory", stdin=digits.encode() + b"\n",
                      files={"table": table})
        yield refusal(f"{name}: encode", "type_reader", ["encode", "-", "0", "true"], "no value: mismatch", stdin=table)
    for words in (["list", "-"], ["list", "-", "0"], ["graph", "-", "0"]):
        yield refusal(f"wide tuples: {' '.join(words)}", "type_reader", words, "out of memory", stdin=WIDE)
    yield Case("wide tuples: prune", "type_reader", ["prune", "-", "0"], WIDE, output=WIDE,
               errors="".join(f"{it} -> {it}\n" for it in range(9)).encode())


def too_short():
    """Values that announce more than there is."""
    for name, (table, digits) in SHORT.items():
        yield refusal(f"{name} past the input: value", "type_reader", ["value", "-", "0", digits], "no value: malformed", stdin=table)
        yield Case(f"{name} past the input: value of a line", "type_reader", ["value", "table", "0"], digits.encode(), {"table": table}, 1,
                   errors=b"type_reader: line 1: no value: malformed\n")


def deep():
    """Values about the limit of depth, and far below it."""
    def digits(levels):
        """The bytes of a list in so many lists."""
        return "04" * (levels - 1) + "00"

    def text(levels):
        """Its text."""
        return "[" * levels + "]" * levels
    for levels in (DEEPEST - 1, DEEPEST):
        came = text(levels).encode() + b"\n"
        yield Case(f"{levels} deep: value", "type_reader", ["value", "-", "0", digits(levels)], NESTED, output=came)
    for levels in (DEEPEST + 1, 1000, 60_000):
        yield refusal(f"{levels} deep: value", "type_reader", ["value", "-", "0", digits(levels)], "no value: too deep", stdin=NESTED)
    yield Case(f"{DEEPEST - 1} deep: encode", "type_reader", ["encode", "-", "0", text(DEEPEST - 1)], NESTED,
               output=f"0x{digits(DEEPEST - 1)}\n".encode())
    for name, word in (("open", "[" * 130_000), ("and closed", text(65_000)), ("objects", '{"a":' * 20_000)):
        yield refusal(f"brackets {name}: encode", "type_reader", ["encode", "-", "0", word], "no value: no JSON", stdin=NESTED)


def long_lines():
    """Lines of a megabyte, with a line feed at the end and without."""
    data = bytes(range(256)) * (LINE_BYTES // 512)
    digits, text = (compact(len(data)) + data).hex().encode(), b'"0x' + data.hex().encode() + b'"'
    for end, name in ((b"\n", "with a line feed"), (b"", "without")):
        yield Case(f"long lines {name}: value", "type_reader", ["value", "table", "0"], digits + b"\r\n" + digits + end, {"table": LISTS},
                   output=(text + b"\n") * 2)
        yield Case(f"long lines {name}: encode", "type_reader", ["encode", "table", "0"], text + b"\r\n" + text + end, {"table": LISTS},
                   output=(b"0x" + digits + b"\n") * 2)
        for command, why in (("value", "no hexadecimal digits"), ("encode", "no JSON")):
            lines = "".join(f"type_reader: line {it}: no value: {why}\n" for it in (1, 2)).encode()
            yield Case(f"long bad lines {name}: {command}", "type_reader", [command, "table", "0"], b"[" * LINE_BYTES + b"\n" + b"\xff" *
                       LINE_BYTES + end, {"table": LISTS}, 1, errors=lines)


def many_lines(count):
    """So many bad lines, so many empty ones, and so many good ones of which every second is bad."""
    for command, why, good, came in (("value", "no hexadecimal digits", b"0401", b'"0x01"\n'), ("encode", "no JSON", b"[1]", b"0x0401\n")):
        lines = [f"type_reader: line {it}: no value: {why}\n" for it in range(1, count + 1)]
        yield Case(f"bad lines: {command}", "type_reader", [command, "table", "0"], b"x\n" * count, {"table": LISTS}, 1,
                   errors="".join(lines).encode())
        yield Case(f"bad and good lines: {command}", "type_reader", [command, "table", "0"], (b"x\n" + good + b"\n") * (count // 2),
                   {"table": LISTS}, 1, came * (count // 2), "".join(lines[::2]).encode())
        yield Case(f"good lines: {command}", "type_reader", [command, "table", "0"], (good + b"\n") * count, {"table": LISTS},
                   output=came * count)


def long_values(count):
    """A line of so many bytes in both directions, and a list of so many numbers."""
    data = b"\7" * count
    digits, text = (compact(count) + data).hex().encode(), b'"0x' + data.hex().encode() + b'"'
    numbers = b"[" + b",".join([b"7"] * count) + b"]"
    yield Case("a long list: value", "type_reader", ["value", "table", "0"], digits, {"table": LISTS}, output=text + b"\n")
    came = b"0x" + digits + b"\n"
    yield Case("a long list: encode", "type_reader", ["encode", "table", "0"], text, {"table": LISTS}, output=came)
    # (a number of one digit is a part of a tree, and then of a value, for two bytes of text)
    yield Case("a list of numbers: encode", "type_reader", ["encode", "table", "0"], numbers, {"table": LISTS}, output=came, per_input=72)


def cases(_):
    """All of these."""
    yield from endless()
    yield from too_short()
    yield from deep()
    yield from long_lines()
    yield from many_lines(BAD_LINES)
    yield from long_values(BAD_LINES)
