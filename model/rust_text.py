"""Values as the programs print them: the `{:?}` of Rust's standard library, for the values that scripts show."""
ESCAPES = {"\0": "\\0", "\t": "\\t", "\n": "\\n", "\r": "\\r", '"': '\\"', "\\": "\\\\"}


def mark(letter):
    """A letter inside a text in quotes."""
    return ESCAPES.get(letter) or (f"\\u{{{ord(letter):x}}}" if ord(letter) < 32 or ord(letter) == 127 else letter)


def debug(value):
    """Of numbers, truth values, texts of ASCII and printed letters, lists, tuples, and `Named` and `Record` values."""
    if value is None:
        return "None"
    if isinstance(value, bool):
        return str(value).lower()
    if isinstance(value, str):
        return f'"{"".join(map(mark, value))}"'
    if isinstance(value, list):
        return "[" + ", ".join(map(debug, value)) + "]"
    if type(value) is tuple:
        return "(" + ", ".join(map(debug, value)) + ")"
    return str(value)


class Named:
    """A variant of this name with its parts, as `Some(7)`."""

    def __init__(self, name, /, *parts):
        self.name, self.parts = name, parts

    def __str__(self):
        return f"{self.name}({', '.join(map(debug, self.parts))})"


class Record:
    """A struct of this name with its fields, as `Pt { x: 0, y: 0 }`."""

    def __init__(self, name, /, **fields):
        self.name, self.fields = name, fields

    def __str__(self):
        return f"{self.name} {{ {', '.join(f'{field}: {debug(value)}' for field, value in self.fields.items())} }}"


def option(value):
    return None if value is None else Named("Some", value)


# The most bytes of an answer that is written whole.
WHOLE = 10_000


def clipped(text):
    """An answer as it is written: a long one by its first bytes, its length, and a number that all its bytes make."""
    data = text.encode()
    if len(data) <= WHOLE:
        return text
    digest = 0
    for byte in data:
        digest = (digest * 31 + byte) % 2**64
    return f"{text[:100]}.. {len(data)} bytes, digest {digest}"
