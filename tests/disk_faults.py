"""The faulty disks of `disks.py`: the bytes that are changed and what follows, and texts of no change.

The disks are `whole` there, of 256 sectors with 64 places and areas of 94 sectors. Its five records begin in the sectors 65, 66, 5, 6 and 7, the
second goes on in 3 and 4. The other root, of generation 1, has an empty map.
"""
import disk as model


def at(sector, offset):
    return model.SECTOR * sector + offset


def eight(number):
    return model.spelled(number, 8)


NOT, SIZE, ROOT = "NotFormatted", "Damaged(Size)", "Damaged(RootSector)"
SNAPSHOT, JOURNAL, TEXT = "Damaged(Snapshot)", "Damaged(Journal)", "Damaged(Text)"
EMPTY, ALL = "empty", 5
ZEROS = bytes(model.SECTOR)

# What is changed, and what follows: a fault, the empty map of the other root, or a map with so many of the five edits.
FORMATS = [
    ("format: the first byte of the mark", NOT, (0, 1)),
    ("format: the last byte of the mark", NOT, (7, 1)),
    ("format: version 3", SIZE, (8, 1)),
    ("format: version 1, which doesn't have these records", 0, (8, 3)),
    ("format: the last byte of the version", SIZE, (11, 1)),
    ("format: no sectors", SIZE, (12, eight(0))),
    ("format: 63 sectors", SIZE, (12, eight(63))),
    ("format: a sector more than there are", SIZE, (12, eight(257))),
    ("format: 16,777,217 sectors", SIZE, (12, eight(16777217))),
    ("format: the last byte of the sectors", SIZE, (19, 1)),
    ("format: the first byte behind", SIZE, (20, 1)),
    ("format: the last byte", SIZE, (511, 128)),
]
ROOTS = [
    ("root: the first byte of the mark", ROOT, (at(1, 0), 1)),
    ("root: the last byte of the mark", ROOT, (at(1, 7), 3)),
    ("root: an odd generation", ROOT, (at(1, 8), 1)),
    ("root: generation 0, below the other one's", EMPTY, (at(1, 8), 2)),
    ("root: generation 6", ALL, (at(1, 8), 4)),
    ("root: generation 2^63 + 2", ALL, (at(1, 15), 128)),
    ("root: the next place", 0, (at(1, 24), 1)),
    ("root: a place behind the last", ROOT, (at(1, 24), eight(64))),
    ("root: the last byte of the place", ROOT, (at(1, 31), 1)),
    ("root: a snapshot a byte longer than the area", ROOT, (at(1, 32), eight(94 * 512 + 1) + eight(0))),
    ("root: a snapshot of 2^64 - 1 bytes", ROOT, (at(1, 32), eight(2**64 - 1))),
    ("root: an archive a byte longer than the area", ROOT, (at(1, 32), eight(0) + eight(94 * 512 + 1))),
    ("root: an archive of 2^64 - 1 bytes", ROOT, (at(1, 40), eight(2**64 - 1))),
    ("root: both together a sector longer than the area", ROOT, (at(1, 32), eight(1) + eight(93 * 512 + 1))),
    ("root: lengths whose sum is 2^64", ROOT, (at(1, 32), eight(2**63) + eight(2**63))),
    ("root: the first byte behind", ROOT, (at(1, 48), 1)),
    ("root: the last byte", ROOT, (at(1, 511), 128)),
    ("root: zeros, so that the other one counts", EMPTY, (at(1, 0), ZEROS)),
    ("root: zeros in both sectors", ROOT, (at(1, 0), ZEROS), (at(2, 0), ZEROS)),
    ("root: the other one's sector with zeros", ALL, (at(2, 0), ZEROS)),
    ("root: the mark of the other one", ROOT, (at(2, 3), 1)),
    ("root: an even generation of the other one", ROOT, (at(2, 8), 1)),
    ("root: generation 3 of the other one", EMPTY, (at(2, 8), 2)),
    ("root: a place of the other one behind the last", ROOT, (at(2, 24), eight(64))),
    ("root: the last byte of the other one", ROOT, (at(2, 511), 1)),
]
RECORDS = [
    ("head: another kind", 1, (at(66, 0), 1)),
    ("head: the kind of a body", 1, (at(66, 0), 3)),
    ("head: another version", 1, (at(66, 1), 1)),
    ("head: version 1", JOURNAL, (at(66, 1), 3)),
    ("head: no parts", JOURNAL, (at(66, 2), b"\0\0")),
    ("head: a part less", JOURNAL, (at(66, 2), b"\2\0")),
    ("head: a part more", JOURNAL, (at(66, 2), b"\4\0")),
    ("head: 256 parts more", JOURNAL, (at(66, 3), 1)),
    ("head: another number", 1, (at(66, 4), 1)),
    ("head: the last byte of the number", 1, (at(66, 11), 128)),
    ("head: no text", JOURNAL, (at(66, 12), bytes(4))),
    ("head: no text and no parts", JOURNAL, (at(66, 2), bytes(2)), (at(66, 12), bytes(4))),
    ("head: a text of two parts", JOURNAL, (at(66, 12), model.spelled(992, 4))),
    ("head: a text a byte longer", JOURNAL, (at(66, 12), model.spelled(994, 4))),
    ("head: the last byte of the length", JOURNAL, (at(66, 15), 1)),
    ("head: a text of 32,770 bytes", JOURNAL, (at(66, 2), b"\x43\0"), (at(66, 12), model.spelled(32770, 4))),
    *((f"body {part}: {name}", JOURNAL, (at(2 + part, offset), 1)) for part in (1, 2) for name, offset in [
        ("the kind", 0), ("the version", 1), ("which part", 2), ("the last byte of which part", 3), ("the number", 4),
        ("the last byte of the number", 11), ("the length", 12), ("the last byte of the length", 15)]),
    *((f"body {part}: version 1", JOURNAL, (at(2 + part, 1), 3)) for part in (1, 2)),
    ("body: the kind of a head", JOURNAL, (at(3, 0), 3)),
    ("behind the text", ALL, (at(4, 17), 1), (at(4, 511), 128)),
    ("the last record a byte shorter", TEXT, (at(7, 12), model.spelled(495, 4))),
    ("the first record a byte longer", TEXT, (at(65, 12), 1 + 26 ^ 26)),
    ("the last record of two parts", JOURNAL, (at(7, 2), b"\2\0"), (at(7, 12), model.spelled(497, 4))),
    ("the last record of more parts than places left", JOURNAL, (at(7, 2), b"\x3b\0"), (at(7, 12), model.spelled(58 * 496 + 1, 4))),
    ("the count of changes", TEXT, (at(65, 16), 4)),
    ("no changes", TEXT, (at(65, 16), 1)),
    ("the kind of a change", TEXT, (at(65, 17), 4)),
    ("a text and the record behind it", JOURNAL, (at(65, 16), 4), (at(3, 0), 1)),
    ("the mark and all else", NOT, (0, 1), (9, 1), (at(1, 0), 1), (at(65, 16), 4)),
    ("the format, a root and a record", SIZE, (8, 1), (at(1, 0), 1), (at(3, 0), 1)),
    ("a root, a record and a text", ROOT, (at(1, 0), 1), (at(3, 0), 1), (at(65, 16), 4)),
]

# The same of a disk with a snapshot of 75 bytes, an archive of 700 and 1,000 edits before; area 0 begins in sector 67.
AREAS = [
    ("a number of earlier edits that isn't that of the journal", 0, (at(1, 16), 1)),
    ("the last byte of the earlier edits", 0, (at(1, 23), 1)),
    ("a snapshot a byte shorter", SNAPSHOT, (at(1, 32), eight(74))),
    ("a snapshot a byte longer", SNAPSHOT, (at(1, 32), eight(76))),
    ("a snapshot up to the archive's last place", SNAPSHOT, (at(1, 32), eight(92 * 512))),
    ("a snapshot a byte longer than that", ROOT, (at(1, 32), eight(92 * 512 + 1))),
    ("an archive of no bytes", ALL, (at(1, 40), eight(0))),
    ("an archive up to the area's end", ALL, (at(1, 40), eight(93 * 512))),
    ("an archive a byte longer", ROOT, (at(1, 40), eight(93 * 512 + 1))),
    ("a byte of the archive", ALL, (at(68, 0), 255)),
    ("a byte behind the snapshot", ALL, (at(67, 75), 255)),
    ("the kind of a change in the snapshot", SNAPSHOT, (at(67, 25), 2)),
    ("a DELETE in the snapshot", SNAPSHOT, (at(67, 50), 3)),
    ("a number of the snapshot again", SNAPSHOT, (at(67, 26), 2 ^ 4)),
    ("a number of the snapshot below that before it", SNAPSHOT, (at(67, 26), 1 ^ 4)),
    ("a snapshot, a record and a text", SNAPSHOT, (at(67, 0), 4), (at(3, 0), 1), (at(65, 16), 4)),
    ("a root and a snapshot", ROOT, (at(2, 0), 1), (at(67, 0), 4)),
]


# ---- texts of no change


def put_text(number=eight(7), layer=b"\1p", zooms=b"\0\2", geometry=b"\1" + b"\1\0" + bytes(8), tags=b"\0"):
    return b"\1" + number + layer + zooms + geometry + tags


def tags_text(*tags):
    return put_text(tags=bytes([len(tags)]) + b"".join(tags))


def no_texts():
    """Texts of no change."""
    good, two = put_text(), b"\2\0" + bytes(16)
    yield from [("kind 0", b"\0" + good[1:]), ("kind 3", b"\3" + good[1:]), ("number 2^63", put_text(number=eight(2**63)))]
    for layer in [b"\0", b"\x41" + b"l" * 65, b"\1\xff", b"\3\xed\xa0\x80", b"\2\xc0\x80", b"\4\xf4\x90\x80\x80"]:
        yield f"layer {layer[:5].hex()}", put_text(layer=layer)
    yield from [(f"zooms {zooms.hex()}", put_text(zooms=zooms)) for zooms in (b"\3\2", b"\0\x14", b"\x14\x14")]
    kinds = [(b"\0" + two, "kind 0"), (b"\4" + two, "kind 4"), (b"\1\0\0", "no point"), (b"\2\0\0", "no line"), (b"\3\0\0", "no polygon")]
    kinds += [(b"\2\1\0\1\0" + bytes(8), "a line of one point"), (b"\2\1\0\0\0", "a line of none"), (b"\3\1\0\0\0", "no ring")]
    yield from [(f"geometry: {name}", put_text(geometry=geometry)) for geometry, name in kinds]
    yield "a ring of two points", put_text(geometry=b"\3\1\0\1\0" + two)
    yield "65 tags", tags_text(*(b"\2%02d\4" % index for index in range(65)))
    for key in [b"\0", b"\x41" + b"k" * 65, b"\1\x80"]:
        yield f"key {key[:3].hex()}", tags_text(key + b"\4")
    pairs = [(b"\1a", b"\1a"), (b"\1b", b"\1a"), (b"\2ab", b"\1a"), (b"\1a", b"\1Z")]
    yield from [(f"keys {first.hex()} and {second.hex()}", tags_text(first + b"\4", second + b"\5")) for first, second in pairs]
    values = [b"\0", b"\6", b"\1\1\4" + b"v" * 1025, b"\1\1\0\xff", b"\3" + eight(0), b"\3" + eight(2**63 - 1)]
    yield from [(f"value {value[:4].hex()}", tags_text(b"\1a" + value)) for value in values]
    yield "a byte behind a PUT", good + b"\0"
    yield "a byte behind a DELETE", b"\2" + eight(7) + b"\0"
