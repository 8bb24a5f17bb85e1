"""Values as SCALE bytes: a codec reads the value that bytes begin with, and writes it."""


class Malformed(Exception):
    """The input begins with no value."""


class Reader:
    """Takes bytes from the front of an input."""

    def __init__(self, data):
        self.data, self.at = data, 0

    def take(self, count):
        """The next so many bytes."""
        if self.at + count > len(self.data):
            raise Malformed
        self.at += count
        return self.data[self.at - count:self.at]

    def byte(self):
        """The next byte, as a number."""
        return self.take(1)[0]

    def rest(self):
        """What is left."""
        return self.data[self.at:]


class Codec:
    """How a value is read and written."""

    def __init__(self, read, write):
        self.read, self.write = read, write

    def decode(self, data):
        """The value that the bytes begin with, and the rest."""
        reader = Reader(data)
        value = self.read(reader)
        return value, reader.rest()


def write_compact(number):
    """A compact integer in as few bytes as it needs."""
    for size, bound in ((1, 1 << 6), (2, 1 << 14), (4, 1 << 30)):
        if number < bound:
            return (number << 2 | size >> 1).to_bytes(size, "little")
    size = max(4, (number.bit_length() + 7) // 8)
    return bytes([size - 4 << 2 | 3]) + number.to_bytes(size, "little")


def read_compact(reader, most_bytes=4):
    """A compact integer of which no more than so many bytes follow a first byte of the greatest mode."""
    first = reader.byte()
    mode = first & 3
    if mode < 3:
        data = bytes([first]) + reader.take((0, 1, 3)[mode])
        number = int.from_bytes(data, "little") >> 2
    else:
        size = (first >> 2) + 4
        if size > most_bytes:
            raise Malformed
        data = bytes([first]) + reader.take(size)
        number = int.from_bytes(data[1:], "little")
    if write_compact(number) != data:
        raise Malformed
    return number


def read_text(reader):
    """A string."""
    try:
        return reader.take(read_compact(reader)).decode("utf-8")
    except UnicodeDecodeError:
        raise Malformed from None


def write_text(text):
    """The bytes of a string."""
    data = text.encode("utf-8")
    return write_compact(len(data)) + data


COMPACT = Codec(read_compact, write_compact)
TEXT = Codec(read_text, write_text)
BYTE = Codec(Reader.byte, lambda number: bytes([number]))
PLAIN = Codec(lambda reader: int.from_bytes(reader.take(4), "little"), lambda number: number.to_bytes(4, "little"))


def list_of(part):
    """A list of values."""
    return Codec(
        lambda reader: [part.read(reader) for _ in range(read_compact(reader))],
        lambda items: write_compact(len(items)) + b"".join(map(part.write, items)),
    )


def option_of(part):
    """A value that may be missing."""
    def read(reader):
        flag = reader.byte()
        if flag > 1:
            raise Malformed
        return part.read(reader) if flag else None

    return Codec(read, lambda value: b"\0" if value is None else b"\1" + part.write(value))


def struct_of(make, **parts):
    """A struct: its fields in order, by their names."""
    return Codec(
        lambda reader: make(**{name: part.read(reader) for name, part in parts.items()}),
        lambda value: b"".join(part.write(getattr(value, name)) for name, part in parts.items()),
    )
