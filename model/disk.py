#!/usr/bin/env python3
"""A second, independent reader and writer of disks, from docs/FORMATS.md alone. It shares no code with the product.

    python3 model/disk.py DISK       prints the version, the live root, each edit of the journal and the map, or the first fault
"""
import json
import sys
from collections import namedtuple

from limits import MAX_ZOOM

SECTOR = 512
TEXT_OF_PART = 496
LEAST, MOST = 64, 16777216
FORMAT_MARK, ROOT_MARK = b"VTILEDSK", b"VTROOT01"
HEAD, BODY = 1, 2
# The versions of the format of a disk. A record has one of them too: one of version 1 has the text of its only change, one of version 2 a
# count of changes and their texts.
VERSIONS = FIRST_VERSION, LAST_VERSION = 1, 2
PUT, DELETE = 1, 2
MAX_CHANGES = 64
KINDS = {1: "points", 2: "lines", 3: "polygons"}
LAST_NUMBER = 2**64 - 1
LONGEST = 32768
# The longest text of a record, by its version.
LONGEST_OF = {1: LONGEST, 2: LONGEST + 1}

# What a disk's root says; a change gives a number its feature, or takes it away (None); an edit is changes of different numbers, in a record
# of a version; what a disk holds. The records of the journal are in order, the first of them has the number `root.edits` + 1.
Root = namedtuple("Root", "generation edits journal_at snapshot_len archive_len")
Change = namedtuple("Change", "number feature")
Record = namedtuple("Record", "version changes")
Disk = namedtuple("Disk", "version layout root snapshot records used")


class Fault(Exception):
    """What is wrong with a disk, by its name."""


class NoEdit(Exception):
    """Bytes that are the text of no edit."""


# ---- numbers and texts


def spelled(number, size):
    return number.to_bytes(size, "little")


class Reader:
    """Bytes that are taken from the front."""

    def __init__(self, held):
        self.held, self.at = held, 0

    def take(self, size):
        if self.at + size > len(self.held):
            raise NoEdit("cut short")
        self.at += size
        return self.held[self.at - size : self.at]

    def number(self, size, least=0, most=None):
        found = int.from_bytes(self.take(size), "little")
        if found < least or most is not None and found > most:
            raise NoEdit(f"{found} is not from {least} to {most}")
        return found

    def text(self, size, least, most):
        """UTF-8 behind its length, which has `size` bytes."""
        try:
            return self.take(self.number(size, least, most)).decode()
        except UnicodeDecodeError as error:
            raise NoEdit("UTF-8") from error


def listed(reader, least, item):
    return [item(reader) for _ in range(reader.number(2, least))]


def point(reader):
    return [reader.number(4), reader.number(4)]


def line(reader):
    return listed(reader, 2, point)


def ring(reader):
    return listed(reader, 3, point)


def polygon(reader):
    return listed(reader, 1, ring)


ITEMS = {"points": point, "lines": line, "polygons": polygon}


def tag_value(reader):
    kind = reader.number(1, 1, 5)
    if kind == 1:
        return reader.text(2, 0, 1024)
    if kind == 2:
        return reader.number(8)
    if kind == 3:
        return reader.number(8, 2**63) - 2**64
    return kind == 5


def tags(reader):
    found = {}
    last = b""
    for _ in range(reader.number(1, 0, 64)):
        key = reader.text(1, 1, 64)
        if key.encode() <= last:
            raise NoEdit("the order of keys")
        last = key.encode()
        found[key] = tag_value(reader)
    return found


def feature(reader):
    layer = reader.text(1, 1, 64)
    first = reader.number(1, 0, MAX_ZOOM)
    last = reader.number(1, first, MAX_ZOOM)
    kind = KINDS[reader.number(1, 1, 3)]
    geometry = {kind: listed(reader, 1, ITEMS[kind])}
    return {"layer": layer, "minzoom": first, "maxzoom": last, "geometry": geometry, "tags": tags(reader)}


def change(reader, numbers=()):
    """The change whose text the reader's bytes go on with, of none of these numbers."""
    kind = reader.number(1, PUT, DELETE)
    number = reader.number(8, 0, 2**63 - 1)
    if number in numbers:
        raise NoEdit("a number twice")
    return Change(number, feature(reader) if kind == PUT else None)


def changes(reader):
    """The changes of the edit whose text the reader's bytes go on with."""
    found = []
    for _ in range(reader.number(1, 1, MAX_CHANGES)):
        found.append(change(reader, [before.number for before in found]))
    return found


def record_of(version, text):
    """The record of a whole text."""
    reader = Reader(text)
    found = [change(reader)] if version == FIRST_VERSION else changes(reader)
    if reader.at != len(text) or len(text) > LONGEST_OF[version]:
        raise NoEdit("bytes behind its end")
    return Record(version, found)


def listed_text(items, text):
    return spelled(len(items), 2) + b"".join(text(item) for item in items)


def point_text(found):
    return spelled(found[0], 4) + spelled(found[1], 4)


def points_text(found):
    return listed_text(found, point_text)


def polygon_text(found):
    return listed_text(found, points_text)


ITEM_TEXTS = {"points": point_text, "lines": points_text, "polygons": polygon_text}


def value_text(value):
    if isinstance(value, bool):
        return spelled(4 + value, 1)
    if isinstance(value, str):
        return spelled(1, 1) + spelled(len(value.encode()), 2) + value.encode()
    return spelled(2, 1) + spelled(value, 8) if value >= 0 else spelled(3, 1) + spelled(value + 2**64, 8)


def named(name):
    return spelled(len(name.encode()), 1) + name.encode()


def in_order(found):
    """The tags in the order of their keys' bytes."""
    return sorted(found.items(), key=lambda tag: tag[0].encode())


def feature_text(found):
    (kind, items), = found["geometry"].items()
    number = {name: number for number, name in KINDS.items()}[kind]
    text = named(found["layer"]) + spelled(found["minzoom"], 1) + spelled(found["maxzoom"], 1)
    text += spelled(number, 1) + listed_text(items, ITEM_TEXTS[kind])
    return text + spelled(len(found["tags"]), 1) + b"".join(named(key) + value_text(value) for key, value in in_order(found["tags"]))


def text_of(found):
    """The text of a change."""
    start = spelled(DELETE if found.feature is None else PUT, 1) + spelled(found.number, 8)
    return start if found.feature is None else start + feature_text(found.feature)


def edit_text(found):
    """The text of an edit of changes."""
    return spelled(len(found), 1) + b"".join(text_of(made) for made in found)


def record_text(record):
    """The text of a record; one of version 1 has one change."""
    return text_of(record.changes[0]) if record.version == FIRST_VERSION else edit_text(record.changes)


def single(made, version=LAST_VERSION):
    """The record of an edit of one change, as a disk of this version has it."""
    return Record(version, [made])


def line_of(found):
    """A feature as one line of JSON, its members as docs/HTTP.md lists them, its tags in the order of their keys' bytes."""
    members = {name: found[name] for name in ("layer", "minzoom", "maxzoom", "geometry")}
    return json.dumps({**members, "tags": dict(in_order(found["tags"]))}, separators=(",", ":"))


# ---- the sectors


class Layout:
    """How a disk of so many sectors is divided."""

    def __init__(self, sectors):
        self.sectors = sectors
        self.places = sectors // 4
        self.area = (sectors - 3 - self.places) // 2

    def place(self, number):
        """The sector of a place of the ring, counted on past its end."""
        return 3 + number % self.places

    def area_at(self, generation):
        return 3 + self.places + generation % 2 * self.area

    def can_stand(self, root):
        return root.journal_at < self.places and whole_sectors(root.snapshot_len) + whole_sectors(root.archive_len) <= self.area


def whole_sectors(length):
    return (length + SECTOR - 1) // SECTOR


def sector_of(held, number):
    return held[SECTOR * number : SECTOR * (number + 1)]


def version_of(held):
    """The version of the format, as sector 0 has it."""
    return int.from_bytes(sector_of(held, 0)[8:12], "little")


def layout_of(held):
    """How a disk is divided, by its sector 0."""
    first = sector_of(held, 0)
    if len(first) < SECTOR or first[:8] != FORMAT_MARK:
        raise Fault("NotFormatted")
    version, sectors = version_of(held), int.from_bytes(first[12:20], "little")
    if version not in VERSIONS or not LEAST <= sectors <= min(MOST, len(held) // SECTOR) or first != format_sector(sectors, version):
        raise Fault("Damaged(Size)")
    return Layout(sectors)


def format_sector(sectors, version=LAST_VERSION):
    return (FORMAT_MARK + spelled(version, 4) + spelled(sectors, 8)).ljust(SECTOR, b"\0")


def root_sector(root):
    return (ROOT_MARK + b"".join(spelled(number, 8) for number in root)).ljust(SECTOR, b"\0")


def root_in(held, layout, number):
    """The root that sector 1 or 2 has, or None where it has zeros."""
    sector = sector_of(held, number)
    if not any(sector):
        return None
    root = Root(*(int.from_bytes(sector[at : at + 8], "little") for at in range(8, 48, 8)))
    if sector != root_sector(root) or root.generation % 2 != number - 1 or not layout.can_stand(root):
        raise Fault("Damaged(RootSector)")
    return root


def root_of(held, layout):
    """The root that counts."""
    roots = [root for root in [root_in(held, layout, 1), root_in(held, layout, 2)] if root]
    if not roots:
        raise Fault("Damaged(RootSector)")
    return max(roots)


def snapshot_of(text):
    """The map of a snapshot."""
    reader = Reader(text)
    found = {}
    last = -1
    while reader.at < len(text):
        began = reader.at
        put = change(reader)
        if put.feature is None or put.number <= last or reader.at - began > LONGEST:
            raise NoEdit("no snapshot")
        last = put.number
        found[put.number] = put.feature
    return found


def read_snapshot(held, layout, root):
    at = SECTOR * layout.area_at(root.generation)
    try:
        return snapshot_of(held[at : at + root.snapshot_len])
    except NoEdit as error:
        raise Fault("Damaged(Snapshot)") from error


def parts_of(length):
    """How many sectors the record of a text of this length takes."""
    return -(-length // TEXT_OF_PART)


def front(part, number, length, version):
    """The bytes with which the sector of a part of a record begins."""
    kind, count = (BODY, part) if part else (HEAD, parts_of(length))
    return spelled(kind, 1) + spelled(version, 1) + spelled(count, 2) + spelled(number, 8) + spelled(length, 4)


def head_version(sector, number, most):
    """The version of the record of this number, from 1 to `most`, whose head a sector is, whatever it says of parts and length; else None."""
    is_head = sector[0] == HEAD and FIRST_VERSION <= sector[1] <= most and sector[4:12] == spelled(number, 8)
    return sector[1] if is_head else None


def text_at(held, layout, place, left, number, version):
    """The text of the record of a version whose head is at a place, where so many places are left."""
    length = int.from_bytes(sector_of(held, layout.place(place))[12:16], "little")
    if not 1 <= length <= LONGEST_OF.get(version, 0) or parts_of(length) > left:
        raise Fault("Damaged(Journal)")
    text = b""
    for part in range(parts_of(length)):
        sector = sector_of(held, layout.place(place + part))
        if sector[:16] != front(part, number, length, version):
            raise Fault("Damaged(Journal)")
        text += sector[16:]
    return text[:length]


def records_of(held, layout, root, most):
    """The records of the journal, each its version and its text, and how many places they take. Versions up to `most` are expected.

    They end before the first place that isn't the next head, so also before a head of a later number, or of a version above `most`. No writer
    leaves such heads. Opening doesn't look for them: it succeeds, and the next edit replaces what is at that place.
    """
    records = []
    used = 0
    while used < layout.places and root.edits + len(records) < LAST_NUMBER:
        place, number = root.journal_at + used, root.edits + len(records) + 1
        version = head_version(sector_of(held, layout.place(place)), number, most)
        if version is None:
            break
        text = text_at(held, layout, place, layout.places - used, number, version)
        records.append((version, text))
        used += parts_of(len(text))
    return records, used


def read_disk(held):
    """What a disk holds, or its first fault."""
    layout = layout_of(held)
    version, root = version_of(held), root_of(held, layout)
    snapshot = read_snapshot(held, layout, root)
    texts, used = records_of(held, layout, root, version)
    try:
        return Disk(version, layout, root, snapshot, [record_of(*text) for text in texts], used)
    except NoEdit as error:
        raise Fault("Damaged(Text)") from error


def after(found, records):
    """A map after the edits of records."""
    found = dict(found)
    for made in (made for record in records for made in record.changes):
        found.pop(made.number, None)
        if made.feature is not None:
            found[made.number] = made.feature
    return found


def map_of(disk):
    """The map of a disk, from numbers to features."""
    return after(disk.snapshot, disk.records)


# ---- writing


def put_at(disk, sector, held):
    disk[SECTOR * sector : SECTOR * sector + len(held)] = held


def put_records(disk, layout, place, number, texts, padding=bytes):
    """Puts records into the ring, from a place and a number on: their texts, each with its version."""
    for version, text in texts:
        for part in range(parts_of(len(text))):
            piece = text[TEXT_OF_PART * part : TEXT_OF_PART * (part + 1)]
            put_at(disk, layout.place(place + part), front(part, number, len(text), version) + piece + padding(TEXT_OF_PART - len(piece)))
        place += parts_of(len(text))
        number += 1


def versions_and_texts(records):
    return [(record.version, record_text(record)) for record in records]


def snapshot_text(found):
    return b"".join(text_of(Change(number, found[number])) for number in sorted(found))


def write_disk(sectors, generation, snapshot_map, records, archive, journal_at, before=0, padding=bytes, older=None, version=LAST_VERSION):
    """A disk whose root has this generation, the snapshot of a map and an archive, and whose journal has records from a place on.

    `before` edits came before these. What the format leaves free is filled by `padding`, which gives so many bytes. `older` is the
    root in the other sector, if there is one.
    """
    layout, snapshot = Layout(sectors), snapshot_text(snapshot_map)
    root = Root(generation, before, journal_at, len(snapshot), len(archive))
    disk = bytearray(padding(SECTOR * sectors))
    put_at(disk, 0, format_sector(sectors, version))
    put_at(disk, 1 + generation % 2, root_sector(root))
    put_at(disk, 2 - generation % 2, root_sector(older) if older else bytes(SECTOR))
    put_at(disk, layout.area_at(generation), snapshot)
    put_at(disk, layout.area_at(generation) + whole_sectors(len(snapshot)), archive)
    put_records(disk, layout, journal_at, before + 1, versions_and_texts(records), padding)
    return bytes(disk)


def with_records(held, records):
    """The bytes of a disk behind more records, with zeros behind the text of each."""
    found = read_disk(held)
    disk = bytearray(held)
    place, number = found.root.journal_at + found.used, found.root.edits + len(found.records) + 1
    put_records(disk, found.layout, place, number, versions_and_texts(records))
    return bytes(disk)


# ---- the command


def change_line(made):
    return f"{'DELETE' if made.feature is None else 'PUT'} {made.number}"


def lines_of(disk):
    """What a disk holds, line by line."""
    yield f"version: {disk.version}"
    yield f"sectors: {disk.layout.sectors}"
    for name, number in disk.root._asdict().items():
        yield f"{name}: {number}"
    for number, record in enumerate(disk.records, disk.root.edits + 1):
        yield f"edit {number}, record of version {record.version}: {', '.join(map(change_line, record.changes))}"
    yield f"journal: {disk.used} of {disk.layout.places} places"
    for number, found in sorted(map_of(disk).items()):
        yield f"{number}: {line_of(found)}"


def main(path):
    with open(path, "rb") as file:
        held = file.read()
    try:
        for shown in lines_of(read_disk(held)):
            print(shown)
    except Fault as fault:
        print(fault)
        return 1
    return 0


if __name__ == "__main__":
    sys.exit(main(sys.argv[1]))
