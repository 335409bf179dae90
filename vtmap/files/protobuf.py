"""Messages of Protocol Buffers, as tiles are. Needs no package."""
from collections.abc import Iterator
from typing import Any

# The wire types of a field: a varint, and bytes after their length.
NUMBER, BYTES = 0, 2
SHORT = [bytes([value]) for value in range(128)]


def varint(data: bytes, at: int) -> tuple[int, int]:
    """A number of Protocol Buffers or of a directory of PMTiles, and where it ends."""
    value = shift = 0
    while True:
        byte = data[at]
        value |= (byte & 127) << shift
        at, shift = at + 1, shift + 7
        if byte < 128:
            return value, at


def fields(data: bytes) -> Iterator[tuple[int, Any]]:
    """The fields of a message: the number of each and its value, an integer or bytes. Raises `IndexError` if the bytes
    end within one, and `KeyError` for a wire type that there isn't."""
    at = 0
    value: Any
    while at < len(data):
        key, at = varint(data, at)
        if key & 7 == 0:
            value, at = varint(data, at)
        elif key & 7 == 2:
            length, at = varint(data, at)
            value, at = data[at:at + length], at + length
        else:
            size = {1: 8, 5: 4}[key & 7]
            value, at = data[at:at + size], at + size
        if at > len(data):
            raise IndexError("a field of a message ends early")
        yield key >> 3, value


def varint_of(value: int) -> bytes:
    """The bytes of a number, in their shortest form."""
    if value < 128:
        return SHORT[value]
    found = bytearray()
    while value > 127:
        found.append(value & 127 | 128)
        value >>= 7
    found.append(value)
    return bytes(found)


def number_field(number: int, value: int) -> bytes:
    """A field that is a number."""
    return varint_of(number << 3 | NUMBER) + varint_of(value)


def bytes_field(number: int, value: bytes) -> bytes:
    """A field that is bytes: a text, a packed list or a message."""
    return varint_of(number << 3 | BYTES) + varint_of(len(value)) + value
