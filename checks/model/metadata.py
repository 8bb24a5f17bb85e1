"""The table in a node's metadata, and bytes that are written as hexadecimal text."""
import re

from .codec import Malformed, Reader, read_compact
from .numberings import Trailing
from .tables import TABLE

MAGIC, VERSIONS = b"meta", (14, 15, 16)


class Version(Exception):
    """Metadata of a version that is not known."""

    def __init__(self, number):
        super().__init__(number)
        self.number = number


def byte_string(data):
    """The bytes of the byte string that the input is; None where it is none."""
    reader = Reader(data)
    try:
        count = read_compact(reader)
    except Malformed:
        return None
    return reader.rest() if count == len(reader.rest()) else None


def metadata_in(data):
    """The metadata that the input is, or that is in its byte string or its option of one; None where there is none."""
    forms = [data, byte_string(data), byte_string(data[1:]) if data[:1] == b"\1" else None]
    return next((it for it in forms if it is not None and it.startswith(MAGIC)), None)


def table_of(data):
    """The version of the metadata that the input is, None where it is a table; and the bytes of the table."""
    metadata = metadata_in(data)
    if metadata is None:
        _, rest = TABLE.decode(data)
        if rest:
            raise Trailing
        return None, data
    if len(metadata) <= len(MAGIC):
        raise Malformed
    version, body = metadata[len(MAGIC)], metadata[len(MAGIC) + 1:]
    if version not in VERSIONS:
        raise Version(version)
    _, rest = TABLE.decode(body)
    return version, body[:len(body) - len(rest)]


def bytes_of_text(data):
    """The bytes that a text writes in hexadecimal digits; None where it is no such text."""
    found = re.fullmatch(rb'[ \t\r\n"]*(?:0x)?((?:[0-9a-fA-F]{2})+)[ \t\r\n"]*', data)
    return bytes.fromhex(found[1].decode()) if found else None


def bytes_of_input(data):
    """The bytes that an input has, and whether it has them as a text."""
    found = bytes_of_text(data)
    return (data, False) if found is None else (found, True)
