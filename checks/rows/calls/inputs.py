"""What rows give: bytes by their names or digits, ids, and texts."""
import os
import re

from model.codec import write_compact
from model.tables import DESCRIPTION, TABLE, Definition, Description, Entry

TOP = os.path.dirname(os.path.dirname(os.path.dirname(os.path.dirname(os.path.realpath(__file__)))))
# The calls of prune that are refused, as the program has them.
REFUSED = {
    "a byte after the table": ([0], "a table and a byte"),
    "no such type": ([0, 7, 9], "Vec<u32>"),
    "a dangling id": ([1], "reference outside the table"),
}


def named_inputs():
    """The named inputs of test_common and test_memory_common: bytes by their names, and the names of those that are no table."""
    found, malformed = {}, []
    for path in ("test_common/src/rows.rt", "test_memory_common/src/inputs.rt"):
        with open(f"{TOP}/crates/{path}", encoding="utf-8") as it:
            source = it.read()
        for name, text in re.findall(r'const (\w+): &str = "\\\n(.*?)";', source, re.S):
            lines = re.sub(r"\\\n\s*", "", text).split("\n")
            rows = [it.partition(":")[::2] for it in lines if it] if name != "MIXED" else [("each kind", lines[0])]
            found.update((row, hexadecimal(digits)) for row, digits in rows)
            malformed += [row for row, _ in rows] if name == "MALFORMED" else []
    return found, malformed


def hexadecimal(digits):
    """The bytes of digits, between which blanks may stand."""
    return bytes.fromhex("".join(digits.split()))


NAMED, MALFORMED = named_inputs()


def chain(count):
    """The bytes of a table of sequences, each of the next one, and bool at the end."""
    kinds = [Definition("sequence", types=[it + 1]) for it in range(count - 1)] + [Definition("primitive", primitive="bool")]
    return TABLE.write([Entry(index, Description([], [], it)) for index, it in enumerate(kinds)])


def bytes_of(text):
    """The bytes of a name or of digits, and more digits after a '+'."""
    name, _, more = text.partition("+")
    name = name.strip()
    if name in NAMED:
        data = NAMED[name]
    elif name.startswith("chain of "):
        data = chain(int(name[9:]))
    else:
        data = hexadecimal(name)
    return data + hexadecimal(more)


def table_of(text):
    """The entries of the table that the bytes of a name begin with."""
    return TABLE.decode(bytes_of(text))[0]


def numbers(text):
    """The numbers that blanks separate."""
    return [int(it) for it in text.split()]


def ids_and_name(text):
    """The ids and the name of the bytes of a row of walks and prunings."""
    ids, colon, name = text.partition(":")
    if colon:
        return numbers(ids), name.strip()
    if text in REFUSED:
        return REFUSED[text]
    if text in MALFORMED:
        return [0], text
    return list(range(0, len(table_of(text)), 2)), text


def split(text, mark=":"):
    """The text before a mark, and the text after it without blanks around."""
    left, _, right = text.partition(mark)
    return left, right.strip()


def parts_of(text):
    """The ids, the table and the input of a row."""
    ids, table, data = text.split(":", 1)[1].split(";", 2)
    return ids.strip(), table, data.strip()


def encodings(entries):
    """The encoding of each description of a table."""
    return [DESCRIPTION.write(it.ty) for it in entries]


def listed(all_of):
    """The encoding of a list of encoded items."""
    return write_compact(len(all_of)) + b"".join(all_of)


def bracketed(text):
    """The texts between brackets."""
    return re.findall(r"\[([^\]]*)\]", text)
