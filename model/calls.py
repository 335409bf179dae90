"""The calls of the disk that formatting, an edit, a publication and an export make, in order, from docs/FORMATS.md and docs/DECISIONS.md. It
shares no code with the product."""
from crashes import Seen
from disk import FIRST_VERSION, LAST_VERSION, LEAST, MOST, SECTOR, TEXT_OF_PART, Fault, Layout, Root, format_sector, front, layout_of, parts_of
from disk import root_of, root_sector, sector_of, version_of, whole_sectors

PIECE = 65536
ZEROS = bytes(SECTOR)
FIRST_ROOT = Root(0, 0, 0, 0, 0)


def write_and_sync(disk, at, sector):
    disk.write(at, sector)
    disk.sync()


def format_disk(disk, version=LAST_VERSION):
    """Clears the mark, then the root sectors and the journal, then writes the first root, then the mark."""
    if disk.count < LEAST:
        raise Fault("TooSmall")
    if disk.count > MOST:
        raise Fault("Damaged(Size)")
    write_and_sync(disk, 0, ZEROS)
    for at in range(1, 3 + Layout(disk.count).places):
        disk.write(at, ZEROS)
    disk.sync()
    write_and_sync(disk, 1, root_sector(FIRST_ROOT))
    write_and_sync(disk, 0, format_sector(disk.count, version))


def upgrade(disk):
    """Syncs what was written before, reads sector 0, and where it has the format of version 1 writes and syncs that of version 2."""
    disk.sync()
    held = Seen(disk)
    layout = layout_of(held)
    if version_of(held) == FIRST_VERSION:
        write_and_sync(disk, 0, format_sector(layout.sectors, LAST_VERSION))


def install(disk, root):
    """Syncs what was written before, then writes and syncs the root."""
    disk.sync()
    write_and_sync(disk, 1 + root.generation % 2, root_sector(root))


def part_sector(text, part, number, version):
    """The sector of a part of a record, padded with zeros."""
    piece = text[TEXT_OF_PART * part : TEXT_OF_PART * (part + 1)]
    return (front(part, number, len(text), version) + piece).ljust(SECTOR, b"\0")


def append(disk, place_of, place, number, text, version):
    """Writes a record of a version from a place on: its bodies, a sync if there are any, its head, a sync."""
    bodies = range(1, parts_of(len(text)))
    for part in bodies:
        disk.write(place_of(place + part), part_sector(text, part, number, version))
    if bodies:
        disk.sync()
    write_and_sync(disk, place_of(place), part_sector(text, 0, number, version))


def write_area(disk, layout, generation, held, sectors):
    """Writes these sectors of the content of an area."""
    for at in sectors:
        disk.write(layout.area_at(generation) + at, sector_of(held, at).ljust(SECTOR, b"\0"))


def find_archive(disk):
    """The first sector and the length in bytes of the archive that the live root names. It reads the format's sector and the two of roots."""
    held = Seen(disk)
    layout = layout_of(held)
    root = root_of(held, layout)
    return layout.area_at(root.generation) + whole_sectors(root.snapshot_len), root.archive_len


def pieces(disk, first, length):
    """The bytes of consecutive sectors in pieces, each of which is read before it is used."""
    for at in range(0, length, PIECE):
        count = min(PIECE, length - at)
        yield b"".join(disk.read(first + at // SECTOR + sector) for sector in range(whole_sectors(count)))[:count]
