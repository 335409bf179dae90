"""Tiles as other makers write them (Mapbox Vector Tile 2.1; Protocol Buffers, "Encoding"), with each freedom that the two leave: the
order of fields, longer varints, unpacked lists, fields that the schema lacks, and fields that come again. Nothing here is taken from
the product.
"""
import struct

from wire import number, part, varint, zigzag


def packed(field, numbers):
    return part(field, b"".join(varint(n) for n in numbers))


def one_by_one(field, numbers):
    return b"".join(number(field, n) for n in numbers)


def text(s):
    return part(1, s.encode())


# One point, with a tag whose value is a floating point number; no id, and no version told.
A_FLOAT = part(3, part(1, b"p") + part(2, one_by_one(2, [0, 0]) + number(3, 1) + one_by_one(4, [9, 0, 0]))
               + part(3, b"k") + part(4, varint(8 * 2 + 5) + struct.pack("<f", 1.0)))

# Every kind of value, and the pools before the features that use them. The double is 0.5.
VALUES = part(3, b"".join([
    number(15, 2),
    part(3, b"a"), part(3, b"b"), part(3, b"c"), part(3, b"d"), part(3, b"e"), part(3, b"f"), part(3, b"g"),
    part(4, text("x")),
    part(4, varint(8 * 3 + 1) + struct.pack("<d", 0.5)),
    part(4, number(4, 5)),
    part(4, number(4, 2**64 - 5)),
    part(4, number(5, 2**64 - 1)),
    part(4, number(6, zigzag(-3))),
    part(4, number(7, 1)),
    number(5, 512),
    part(2, packed(2, [0, 0, 1, 1, 2, 2, 3, 3, 4, 4, 5, 5, 6, 6]) + number(1, 7) + packed(4, [9, 50, 34]) + number(3, 1)),
    part(1, b"v"),
]))

# Longer spellings, fields that the schema lacks, and fields of which the last counts.
LOOSE = b"".join([
    number(9, 3),
    part(3, b"".join([
        part(1, b"old"), part(1, b"new", 3),
        number(5, 1), number(5, 256, 4),
        varint(8 * 6 + 1) + bytes(8),
        number(15, 1), number(15, 2, 2),
        part(2, b"".join([
            number(1, 1), number(1, 2, 10),
            number(3, 1), number(3, 2),
            packed(4, [9, 4]), one_by_one(4, [4, 18]), packed(4, []), packed(4, [0, 16, 16, 0]),
            varint(8 * 8 + 5) + bytes(4),
        ])),
    ]), 2),
    part(1, b"none of ours"),
])

# Two layers: one without features, and one with a polygon, a shape of no kind, and one of a kind of the future.
KINDS = b"".join([
    part(3, part(1, b"") + number(15, 1)),
    part(3, b"".join([
        part(1, b"k"),
        part(2, number(3, 3) + packed(4, [9, 6, 12, 18, 10, 12, 24, 44, 15])),
        part(2, packed(4, [1, 2])),
        part(2, number(3, 4)),
    ])),
])

TILES = {"a float": A_FLOAT, "values": VALUES, "loose": LOOSE, "kinds": KINDS}
