"""JSON texts (RFC 8259) as their values, within the limits of the parser that the product uses: at most 127 arrays and objects are nested,
a number is within a double, and no text has half of a surrogate pair. It shares no code with the product.
"""
import json
import math

MAX_NESTED = 127
# A number that isn't whole: one with a fraction or an exponent, -0, or one outside of -2^63 to 2^64 - 1.
NOT_WHOLE = object()


def within_a_double(text):
    if math.isinf(float(text)):
        raise ValueError("a number past a double")


def whole_or_not(text):
    within_a_double(text)
    return NOT_WHOLE if text == "-0" or not -(2**63) <= int(text) < 2**64 else int(text)


def fraction(text):
    within_a_double(text)
    return NOT_WHOLE


def refused(word):
    raise ValueError(word)


def nested(text):
    """How deep arrays and objects are nested at most."""
    depth, most, in_a_text, escaped = 0, 0, False, False
    for mark in text:
        if escaped:
            escaped = False
        elif in_a_text:
            in_a_text, escaped = mark != '"', mark == "\\"
        elif mark == '"':
            in_a_text = True
        elif mark in "[{":
            depth += 1
            most = max(most, depth)
        elif mark in "]}":
            depth -= 1
    return most


def texts_of(value):
    """The texts in a value outside of its objects."""
    if isinstance(value, list):
        return [text for inner in value for text in texts_of(inner)]
    return [value] if isinstance(value, str) else []


def members(pairs):
    """An object: of a key that is repeated the last value counts, and each one is read."""
    "".join(text for key, value in pairs for text in [key, *texts_of(value)]).encode()
    return dict(pairs)


def value_of(text):
    """The value of a text, or a ValueError."""
    if nested(text) > MAX_NESTED:
        raise ValueError("nested too deep")
    value = json.loads(text, parse_int=whole_or_not, parse_float=fraction, parse_constant=refused, object_pairs_hook=members)
    "".join(texts_of(value)).encode()
    return value
