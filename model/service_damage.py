"""Blocks of `service_script.py` about disks with one byte changed, or with a sector that ends early: its format sector, its live root, the head and the
body of a record, and the snapshot. Each is exported and opened, or refused for the fault that it has."""
from disk import VERSIONS, LAST_VERSION, SECTOR, Change, Layout, Record, Root, format_sector, put_records, read_disk, root_sector, snapshot_text
from disk import Fault, put_at, versions_and_texts
from service_lines import heading, long_point, looks, write_words

LAYOUT = Layout(64)
ROOT = Root(1, 5, 15, 2 * 25, 0)


def neighbours(byte):
    """The values 0 and 255 and those beside a byte."""
    return sorted({0, 255, (byte + 1) % 256, (byte - 1) % 256} - {byte})


def worked(version):
    """The bytes of a disk with the snapshot of two points and two edits: the first, of two sectors, is in the last place and the first of the ring; on a
    disk of version 2 the second is a batch."""
    held = bytearray(SECTOR * LAYOUT.sectors)
    put_at(held, 0, format_sector(LAYOUT.sectors, version))
    put_at(held, 2, root_sector(ROOT))
    put_at(held, LAYOUT.area_at(1), snapshot_text({7: long_point(0), 9: long_point(0)}))
    last = [Change(9, None)] if version != LAST_VERSION else [Change(9, None), Change(10, long_point(0))]
    put_records(held, LAYOUT, 15, 6, versions_and_texts([Record(version, [Change(8, long_point(480))]), Record(version, last)]))
    return bytes(held)


def opens(held):
    try:
        read_disk(held)
        return True
    except Fault:
        return False


def tried(held, at, sector):
    """Lines that write a sector of a disk, export its archive, open it, and show what it holds."""
    yield from write_words(at, sector.rstrip(b"\0") or b"\0")
    yield from ["export", "open"]
    if opens(held[: SECTOR * at] + sector + held[SECTOR * (at + 1) :]):
        yield from [looks(7, 8, 9, 10), "stop", "resume"]


# Which bytes of which sectors are changed: those that have a meaning, one of the padding behind them, and the last one.
PARTS = [("format sector", 0, 21), ("live root", 2, 49), ("head of a record of two sectors", LAYOUT.place(15), 45),
         ("body of it", LAYOUT.place(16), 45), ("head of the next record", LAYOUT.place(17), 64), ("snapshot", LAYOUT.area_at(1), 51)]


def of_version(version, parts):
    held = worked(version)
    yield f"disk {LAYOUT.sectors}"
    for at in range(LAYOUT.sectors):
        sector = held[SECTOR * at :][:SECTOR].rstrip(b"\0")
        yield from write_words(at, sector)
    for name, at, count in parts:
        sector = held[SECTOR * at :][:SECTOR]
        yield from heading(f"The {name}, on a disk of version {version}.")
        for index in [*range(count), SECTOR - 1]:
            for byte in neighbours(sector[index]):
                yield from tried(held, at, sector[:index] + bytes([byte]) + sector[index + 1 :])
        for size in range(count):
            yield from tried(held, at, sector[:size].ljust(SECTOR, b"\0"))
        yield from tried(held, at, sector)


def damaged_disks():
    yield from heading(
        "A disk of which a byte is changed to 0, to 255 and to its neighbours, or a sector ends behind each byte, with zeros after it: it is opened, or",
        "refused for its fault. What is opened has the features of what it holds; where a head is changed, the edits in front of it.",
    )
    for version in VERSIONS:
        yield from of_version(version, PARTS if version == LAST_VERSION else PARTS[:1] + PARTS[2:5])


BLOCKS = [damaged_disks]
