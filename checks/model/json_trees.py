"""Trees of JSON: what serde_json reads of a text, and the compact text of a tree.

A tree is None, a truth value, an integer from -2^63 to 2^64 - 1, a float, a string, a list, or a dict.
"""
import json
import math

# How deep serde_json lets arrays and objects nest in a text.
DEEPEST = 127
ESCAPES = {'"': '\\"', "\\": "\\\\", "\b": "\\b", "\t": "\\t", "\n": "\\n", "\f": "\\f", "\r": "\\r"}


class Syntax(Exception):
    """The text is that of no tree."""


def integer(digits):
    """A number without fraction and exponent: a float where it is too large, and where it is -0."""
    number = int(digits)
    if digits == "-0" or not -1 << 63 <= number < 1 << 64:
        return real(digits)
    return number


def real(digits):
    """Another number."""
    number = float(digits)
    if not math.isfinite(number):
        raise Syntax
    return number


def refuse(_):
    """What JSON has no word for."""
    raise Syntax


DECODER = json.JSONDecoder(parse_int=integer, parse_float=real, parse_constant=refuse)


def check(tree):
    """Asks that strings hold whole characters alone."""
    if isinstance(tree, str):
        if any("\ud800" <= it <= "\udfff" for it in tree):
            raise Syntax
    elif isinstance(tree, (list, dict)):
        for part in tree if isinstance(tree, list) else [*tree.keys(), *tree.values()]:
            check(part)


def depth(text):
    """How deep brackets nest in a text of JSON, those in its strings left out."""
    most = now = 0
    quoted = escaped = False
    for it in text:
        if quoted:
            escaped, quoted = it == "\\" and not escaped, it != '"' or escaped
        elif it == '"':
            quoted = True
        elif it in "[{":
            now += 1
            most = max(most, now)
        elif it in "]}":
            now -= 1
    return most


def read(text):
    """The tree of a text."""
    if depth(text) > DEEPEST:
        raise Syntax
    body = text.strip(" \t\n\r")
    try:
        tree, end = DECODER.raw_decode(body)
    except (ValueError, RecursionError):
        raise Syntax from None
    if end != len(body):
        raise Syntax
    check(tree)
    return tree


def quoted(text):
    """A string as JSON."""
    return '"' + "".join(ESCAPES.get(it) or (f"\\u{ord(it):04x}" if it < " " else it) for it in text) + '"'


def write(tree):
    """The compact text of a tree of strings, integers, truth values, lists and dicts."""
    if isinstance(tree, str):
        return quoted(tree)
    if isinstance(tree, list):
        return "[" + ",".join(map(write, tree)) + "]"
    if isinstance(tree, dict):
        return "{" + ",".join(f"{quoted(key)}:{write(part)}" for key, part in tree.items()) + "}"
    return {None: "null", True: "true", False: "false"}[tree] if tree is None or isinstance(tree, bool) else str(tree)
