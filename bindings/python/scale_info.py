"""Tables of types: read, pruned, searched, and values read and written by them.

A table is the SCALE encoding of a list of type descriptions, as a node's metadata holds it. An id of a type is its index in the table,
counted from 0. Each call reads the table anew and keeps nothing. The library that answers is written in Rattle and proved; this module hands
bytes on to it through guards in C, and neither is proved.

    >>> table = bytes.fromhex("08000000020400040000050500")    # of Vec<u32>, and of u32
    >>> check(table)
    >>> prune(table, [1]).hex()
    '04000000050500'
    >>> value(table, 0, bytes.fromhex("080100000002000000"))
    '[1,2]'
    >>> encode(table, 0, "[1,2]").hex()
    '080100000002000000'

The shared library is `libscale_info.so` beside this file, or in `../out`, or what the environment variable `SCALE_INFO_LIBRARY` names.
"""

from __future__ import annotations

import ctypes
import os
from collections.abc import Callable, Iterable, Sequence

__all__ = [
    "BadArgument", "Dangling", "Error", "Malformed", "MalformedValue", "Mismatch", "NoJson", "NoSuchType", "NoText", "OutOfMemory", "TooDeep",
    "TrailingBytes", "TrailingValue", "Unsupported", "Version", "changes", "check", "describe", "difference", "encode", "find", "json", "prune",
    "strip", "table", "value",
]  # fmt: skip


class Error(Exception):
    """Why a call gives nothing. `number` is the id or the version that goes with it; else 0."""

    said = ""

    def __init__(self, number: int) -> None:
        super().__init__(self.said.format(number))
        self.number = number


class Malformed(Error):
    """No prefix of the input is a table."""

    said = "the bytes are no table"


class TrailingBytes(Error):
    """Bytes come after the table."""

    said = "there are bytes after the table"


class NoSuchType(Error):
    """This id was given, and is no index of the table, or values of its type lead to one that is none."""

    said = "no such type {}"


class Dangling(Error):
    """This id is reached from the given ones, and is no index of the table."""

    said = "dangling id {}"


class OutOfMemory(Error):
    """An allocation of the library failed."""

    said = "out of memory"


class Version(Error):
    """The input is metadata of this version, which is none of 14, 15 and 16."""

    said = "metadata of version {} is not known"


class NoText(Error):
    """The path has no encoding as UTF-8."""

    said = "the path is not UTF-8"


class NoJson(Error):
    """The text is no JSON."""

    said = "the text is no JSON"


class Unsupported(Error):
    """Values of a type are neither read nor written: char, u256, i256, bit sequences, and some compact types."""

    said = "values of the type are neither read nor written"


class TooDeep(Error):
    """The value is more than 128 deep."""

    said = "the value is more than 128 deep"


class MalformedValue(Error):
    """No prefix of the bytes is a value of the type."""

    said = "the bytes are no value of the type"


class TrailingValue(Error):
    """Bytes come after the value."""

    said = "there are bytes after the value"


class Mismatch(Error):
    """The JSON is no value of the type."""

    said = "the JSON is no value of the type"


class BadArgument(Error):
    """An argument was not as the library wants it. This module gives none such."""

    said = "bad argument"


_DONE, _NO_ROOM = 0, 6
_ERRORS: dict[int, type[Error]] = {
    1: Malformed,
    2: TrailingBytes,
    3: NoSuchType,
    4: Dangling,
    5: OutOfMemory,
    7: Version,
    8: NoText,
    9: NoJson,
    10: Unsupported,
    11: TooDeep,
    12: MalformedValue,
    13: TrailingValue,
    14: Mismatch,
    255: BadArgument,
}

_BYTES, _SIZE, _ID = ctypes.c_char_p, ctypes.c_size_t, ctypes.c_uint32
_IDS, _COUNT = ctypes.POINTER(ctypes.c_uint32), ctypes.POINTER(ctypes.c_size_t)
_INPUT, _ROOM = [_BYTES, _SIZE], [ctypes.c_void_p, _SIZE, _COUNT]
_PARAMETERS: dict[str, list[type]] = {
    "check": _INPUT,
    "prune": [*_INPUT, _IDS, _SIZE, *_ROOM],
    "json": [*_INPUT, *_ROOM],
    "strip": [*_INPUT, *_ROOM],
    "table": [*_INPUT, *_ROOM],
    "find": [*_INPUT, *_INPUT, *_ROOM],
    "describe": [*_INPUT, _ID, *_ROOM],
    "value": [*_INPUT, _ID, *_INPUT, *_ROOM],
    "encode": [*_INPUT, _ID, *_INPUT, *_ROOM],
    "same": [*_INPUT, _ID, *_INPUT, _ID, *_ROOM],
    "changes": [*_INPUT, *_INPUT, *_ROOM],
}


def _library() -> ctypes.CDLL:
    """The shared library, with the parameters of its functions."""
    here = os.path.dirname(os.path.realpath(__file__))
    places = [os.path.join(here, "libscale_info.so"), os.path.join(here, os.pardir, "out", "libscale_info.so")]
    path = os.environ.get("SCALE_INFO_LIBRARY") or next((it for it in places if os.path.exists(it)), places[0])
    library = ctypes.CDLL(path)
    for name, parameters in _PARAMETERS.items():
        function = getattr(library, f"scale_info_{name}")
        function.argtypes, function.restype = parameters, ctypes.c_uint8
    return library


_LIBRARY = _library()


def _id(number: int) -> int:
    """The number as an id, which is at least 0 and below 2 to the 32."""
    if not 0 <= number < 1 << 32:
        raise NoSuchType(number)
    return number


def _raise(status: int, count: int) -> None:
    """Raises the error of a status, unless it is that of a call that was done."""
    if status != _DONE:
        raise _ERRORS[status](count)


def _with_room(name: str, first: int, *given: object, item: type = ctypes.c_uint8) -> Sequence[int]:
    """Calls with room for so many items, and once more with the room that is wanted."""
    function: Callable[..., int] = getattr(_LIBRARY, f"scale_info_{name}")
    wanted = first
    while True:
        room, count = (item * wanted)(), ctypes.c_size_t()
        status = function(*given, room, wanted, ctypes.byref(count))
        if status != _NO_ROOM:
            _raise(status, count.value)
            return room[: count.value]
        wanted = count.value


def _text(items: Sequence[int]) -> str:
    return bytes(items).decode()


def check(table: bytes) -> None:
    """Finds that the input is one table, with nothing after it.

    Raises Malformed or TrailingBytes, where it is none.
    """
    _raise(_LIBRARY.scale_info_check(table, len(table)), 0)


def prune(table: bytes, ids: Iterable[int]) -> bytes:
    """The table of what these ids reach, in depth-first order of discovery from the ids in ascending order, each once.

    Raises NoSuchType and Dangling, and the errors of a table: Malformed, TrailingBytes and OutOfMemory.
    """
    numbers = [_id(it) for it in ids]
    return bytes(_with_room("prune", len(table), table, len(table), (ctypes.c_uint32 * len(numbers))(*numbers), len(numbers)))


def json(table: bytes) -> str:
    """The table as compact JSON text.

    Raises the errors of a table, as prune.
    """
    return _text(_with_room("json", 2 * len(table), table, len(table)))


def strip(table: bytes) -> bytes:
    """The table without the docs of its types, fields and variants.

    Raises the errors of a table, as prune.
    """
    return bytes(_with_room("strip", len(table), table, len(table)))


def table(metadata: bytes) -> bytes:
    """The table of a node's metadata of version 14, 15 or 16, or of an input that is a table and nothing else; each also as a text of
    hexadecimal digits.

    Raises Version, and the errors of a table, as prune.
    """
    return bytes(_with_room("table", len(metadata), metadata, len(metadata)))


def find(table: bytes, path: str) -> list[int]:
    """The ids, ascending, of the types with this path, as "sp_core::crypto::AccountId32"; none, where no type has it.

    Raises NoText, and the errors of a table, as prune.
    """
    text = path.encode(errors="surrogatepass")
    return list(_with_room("find", 4, table, len(table), text, len(text), item=ctypes.c_uint32))


def describe(table: bytes, id: int) -> str:
    """The type as Rust declares it, with its docs, without a line feed at its end.

    Raises NoSuchType, and the errors of a table, as prune.
    """
    return _text(_with_room("describe", 256, table, len(table), _id(id)))


def value(table: bytes, id: int, data: bytes) -> str:
    """The JSON text of the bytes as one value of the type.

    A table can ask for much text from few bytes: for as many as 4294967295 values that take none.

    Raises NoSuchType, Unsupported, TooDeep, MalformedValue and TrailingValue, and the errors of a table, as prune.
    """
    return _text(_with_room("value", 4 * len(data), table, len(table), _id(id), data, len(data)))


def encode(table: bytes, id: int, text: str) -> bytes:
    """The encoding of the value of the type that the JSON text gives.

    Raises NoSuchType, NoJson, Unsupported, TooDeep and Mismatch, and the errors of a table, as prune.
    """
    given = text.encode(errors="surrogatepass")
    return bytes(_with_room("encode", len(given), table, len(table), _id(id), given, len(given)))


def difference(first: bytes, id: int, second: bytes, other: int) -> str | None:
    """What differs first between a type of one table and one of another; None, where they are the same, whatever ids they have.

    Raises NoSuchType and Dangling, and the errors of a table, as prune, of either.
    """
    text = _text(_with_room("same", 256, first, len(first), _id(id), second, len(second), _id(other)))
    return text or None


def changes(old: bytes, new: bytes) -> list[str]:
    """What changed between two tables, by the paths of their types: a line for each path, `- PATH` where only the old table has it,
    `+ PATH` where only the new one has it, and `~ PATH` where both have it and the types are not the same.

    Docs count: give both tables as strip returns them where they should not.

    Raises Dangling, and the errors of a table, as prune, of either.
    """
    return _text(_with_room("changes", 1024, old, len(old), new, len(new))).split("\n")[:-1]
