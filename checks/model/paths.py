"""Paths of a program's types: identifiers, and the segments of a module path and a name."""
import re


class InvalidIdentifier(Exception):
    """A segment is no identifier."""

    def __init__(self, segment):
        super().__init__(segment)
        self.segment = segment


class MissingSegments(Exception):
    """There is no segment."""


def is_identifier(text):
    """Whether a text is an identifier."""
    return re.fullmatch(r"(r#)*[_a-zA-Z][_a-zA-Z0-9]*", text) is not None


def of_segments(segments):
    """The segments, of which there is one at least, and each is an identifier."""
    if not segments:
        raise MissingSegments
    for index, it in enumerate(segments):
        if not is_identifier(it):
            raise InvalidIdentifier(index)
    return segments


def of_module(module, name, pairs=()):
    """The segments of a module path and a name, each replaced by the first of the pairs that has it."""
    replaced = {first: second for first, second in reversed(pairs)}
    return of_segments([replaced.get(it, it) for it in [*module.split("::"), name]])
