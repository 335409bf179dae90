"""The wire format of Protocol Buffers ("Encoding", protobuf.dev), for the scripts that write what other makers may write."""


def varint(n, length=0):
    """Seven bits a byte, lowest first; `length` bytes at least."""
    if n < 128 and length < 2:
        return bytes([n])
    out = []
    while n >= 128 or len(out) + 1 < length:
        out.append(n % 128 + 128)
        n //= 128
    out.append(n)
    return bytes(out)


def zigzag(v):
    return 2 * v if v >= 0 else -2 * v - 1


def unzigzag(n):
    return n // 2 if n % 2 == 0 else -(n // 2) - 1


def number(field, n, length=0):
    return varint(8 * field) + varint(n, length)


def part(field, data, length=0):
    return varint(8 * field + 2) + varint(len(data), length) + data


# ---- reading


class WireFault(Exception):
    """What is wrong with bytes, by its name, and where the key of the field with the fault begins."""

    def __init__(self, kind, at=0):
        super().__init__(kind)
        self.kind, self.at = kind, at


def read_varint(data, at=0):
    """The number that begins at a place, and where it ends: at most ten bytes and 64 bits."""
    n = 0
    for k in range(10):
        if at + k == len(data):
            raise WireFault("Cut")
        byte = data[at + k]
        if k == 9 and byte > 1:
            raise WireFault("Varint")
        n += byte % 128 * 128**k
        if byte < 128:
            return n, at + k + 1
    raise WireFault("Varint")


# The kinds of values, by their wire types.
VARINT, EIGHT, BYTES, FOUR = 0, 1, 2, 5
FIXED = {EIGHT: 8, FOUR: 4}


def read_field(data, at):
    """The field that begins at a place: its number, its wire type, its value, and where it ends."""
    key, end = read_varint(data, at)
    field, kind = key // 8, key % 8
    if not 1 <= field <= 536870911:
        raise WireFault("Number")
    if kind == VARINT:
        value, end = read_varint(data, end)
        return field, kind, value, end
    if kind == BYTES:
        length, end = read_varint(data, end)
    elif kind in FIXED:
        length = FIXED[kind]
    else:
        raise WireFault("WireType")
    if end + length > len(data):
        raise WireFault("Cut")
    return field, kind, data[end : end + length], end + length


def fields_of(data):
    """The fields of a message in the order of its bytes, up to the first fault, which is raised."""
    at = 0
    while at < len(data):
        try:
            field, kind, value, end = read_field(data, at)
        except WireFault as fault:
            raise WireFault(fault.kind, at) from fault
        yield field, kind, value
        at = end
