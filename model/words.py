"""How the scripts of test programs spell bytes, and values in the form of `{:?}`. It shares no code with the programs."""
import functools

from rust_text import mark

COUNTED = 5
LONGEST = 120


class Variant(str):
    """The name of a variant without fields."""


class Tuple:
    """A variant with unnamed fields."""

    def __init__(self, name, *fields):
        self.name, self.fields = name, fields


class Fields:
    """A variant or struct with named fields."""

    def __init__(self, name, **fields):
        self.name, self.fields = name, fields


def ok(value=()):
    return Tuple("Ok", value)


def err(value):
    return Tuple("Err", value)


def some(value):
    return Tuple("Some", value)


def debug(value):
    """A value in the form of `{:?}`."""
    if value is None:
        return "None"
    if isinstance(value, bool):
        return str(value).lower()
    if isinstance(value, Variant) or isinstance(value, int):
        return str(value)
    if isinstance(value, str):
        return f'"{"".join(map(mark, value))}"'
    if isinstance(value, Tuple):
        return f"{value.name}({', '.join(debug(field) for field in value.fields)})"
    if isinstance(value, Fields):
        return named(value.name, value.fields)
    if hasattr(value, "_asdict"):
        return named(type(value).__name__, value._asdict())
    if isinstance(value, tuple):
        return f"({', '.join(debug(item) for item in value)})"
    return f"[{', '.join(debug(item) for item in value)}]"


def named(name, fields):
    shown = ", ".join(f"{key}: {debug(field)}" for key, field in fields.items())
    return f"{name} {{ {shown} }}"


def runs(held):
    """Runs of equal bytes: each byte with its count."""
    found = []
    for byte in held:
        if found and found[-1][0] == byte:
            found[-1][1] += 1
        else:
            found.append([byte, 1])
    return found


def spelled(held):
    """Bytes in hexadecimal; a run of five equal bytes or more is written once, with its count."""
    words = [""]
    for byte, count in runs(held):
        if count < COUNTED:
            words[-1] += f"{byte:02x}" * count
        else:
            words += [f"{byte:02x}*{count}", ""]
    return " ".join(word for word in words if word)


@functools.lru_cache(1024)
def digest(held):
    """The 64-bit FNV-1a hash of bytes."""
    found = 0xCBF29CE484222325
    for byte in held:
        found = (found ^ byte) * 0x100000001B3 % 2**64
    return found


def briefly(held):
    """The spelling of bytes, or their count and hash if it is long."""
    text = spelled(held)
    return text if len(text) <= LONGEST else f"{len(held)} bytes {digest(held):016x}"


def read(text):
    """The bytes that a text spells."""
    return b"".join(word_read(word) for word in text.split())


def word_read(word):
    piece, _, count = word.partition("*")
    if piece.startswith("'"):
        held = piece[1:].encode()
    elif ":" in piece:
        number, width = piece.split(":")
        held = int(number).to_bytes(8, "little")[: int(width)]
    else:
        held = bytes.fromhex(piece)
    return held * (int(count) if count else 1)


def files(lines, answer):
    """The files of a program that answers lines: its input, and its expected output."""
    asked = list(lines)
    return {"stdin": "".join(line + "\n" for line in asked), "stdout": "".join(answer(line) + "\n" for line in asked)}
