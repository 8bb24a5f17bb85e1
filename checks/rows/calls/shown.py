"""How outcomes are printed."""
import re


class Matching:
    """A text of which the pages leave a part open: it is equal to each text that a pattern matches."""

    def __init__(self, pattern):
        self.pattern = pattern

    def __eq__(self, other):
        return re.fullmatch(self.pattern, other) is not None

    def __repr__(self):
        return f"what matches {self.pattern}"


def done(text):
    """The outcome of a value that is shown as this text."""
    return [("done", text if isinstance(text, Matching) else str(text))]


def failed(text):
    """The outcome of an error."""
    return [("failed", str(text))]


def lent(before, after, answer):
    """The outcome of a call to which something is lent."""
    return [("before", before), ("after", after), *answer]


def appended(data, answer):
    """The outcome of a call that appends to the byte aa."""
    return lent("aa", "aa" + data.hex(), answer)


def with_rest(data, rest):
    """Digits, and those of what is left after a '+'."""
    return data.hex() + (f" + {rest.hex()}" if rest else "")


def truth(value):
    """A truth value."""
    return "true" if value else "false"


def escaped(char):
    """A character of a string in quotes."""
    known = {"\0": "\\0", "\t": "\\t", "\r": "\\r", "\n": "\\n", '"': '\\"', "\\": "\\\\"}
    return known.get(char) or (char if char.isprintable() else f"\\u{{{ord(char):x}}}")


def text(value):
    """A string in quotes."""
    return '"' + "".join(map(escaped, value)) + '"'


def some(value, shown=str):
    """A value that may be missing."""
    return "None" if value is None else f"Some({shown(value)})"


def map_of(numbers):
    """A map of ids."""
    return "{" + ", ".join(f"{old}: {new}" for old, new in sorted(numbers.items())) + "}"


def dangling(error):
    """A dangling id."""
    return f"Dangling {{ id: {error.id} }}"


def all_bytes(data):
    """Bytes in decimal."""
    return str(list(data))
