"""The ids of the features in the tiles of an archive of vtserve. Needs no package."""
import struct

from .protobuf import fields, varint


def contents(archive: bytes, at: int, length: int, leaves: int, tiles: int) -> list[tuple[int, int]]:
    """The contents of the tiles of a directory: offset and length of each."""
    data, rows, found = archive[at:at + length], [], []
    count, at = varint(data, 0)
    for _ in range(4):
        row = []
        for _ in range(count):
            value, at = varint(data, at)
            row.append(value)
        rows.append(row)
    _, runs, lengths, offsets = rows
    place = 0
    for run, size, offset in zip(runs, lengths, offsets):
        place = offset - 1 if offset else place
        found += [(tiles + place, size)] if run else contents(archive, leaves + place, size, leaves, tiles)
        place += size
    return found


def ids_in(archive: bytes) -> list[int]:
    """The ids of the features in the tiles of an archive, ascending."""
    if not archive:
        return []
    root, root_length, _, _, leaves, _, tiles = struct.unpack_from("<7Q", archive, 8)
    found = set()
    for at, length in set(contents(archive, root, root_length, leaves, tiles)):
        for number, layer in fields(archive[at:at + length]):
            for part, feature in fields(layer) if number == 3 else ():
                if part == 2:
                    found.add(next(value for name, value in fields(feature) if name == 1))
    return sorted(found)
