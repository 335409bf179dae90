"""Directories of PMTiles 3: their entries as bytes, and the places of tiles by their ids. Needs no package."""
from typing import Iterable, NamedTuple

from ..files.protobuf import varint, varint_of

# The greatest zoom whose tile ids fit into 64 bits, and the numbers that an entry may have.
GREATEST_ZOOM = 31
NUMBER_END, ID_END = 2 ** 32, (4 ** (GREATEST_ZOOM + 1) - 1) // 3


class Entry(NamedTuple):
    """Tiles of consecutive ids with one content; or, with a run length of 0, a leaf directory from an id on."""

    id: int
    run: int
    length: int
    offset: int

    @property
    def end(self) -> int:
        """The id after the last one of its run."""
        return self.id + self.run


class BadDirectory(ValueError):
    """Why bytes are no directory."""


def columns_of(data: bytes) -> list[list[int]]:
    """The four columns of a directory, which are all of its bytes."""
    try:
        count, at = varint(data, 0)
        if 4 * count > len(data) - at:
            raise BadDirectory("it has fewer bytes than entries")
        columns = []
        for _ in range(4):
            column = []
            for _ in range(count):
                value, at = varint(data, at)
                column.append(value)
            columns.append(column)
    except IndexError:
        raise BadDirectory("its bytes end early") from None
    if at != len(data):
        raise BadDirectory("it has bytes after its end")
    return columns


def entries_in(data: bytes) -> list[Entry]:
    """The entries of a directory. Raises `BadDirectory`."""
    found: list[Entry] = []
    for delta, run, length, place in zip(*columns_of(data)):
        before = found[-1] if found else None
        if (before is None and place == 0) or length == 0 or max(run, length) >= NUMBER_END:
            raise BadDirectory("an entry has a number that it can't have")
        if before is not None and delta < max(1, before.run):
            raise BadDirectory("its ids don't ascend")
        offset = before.offset + before.length if before is not None and place == 0 else place - 1
        entry = Entry(delta + (before.id if before else 0), run, length, offset)
        if entry.end > ID_END:
            raise BadDirectory("an id is beyond the last zoom")
        found.append(entry)
    return found


def directory_of(entries: Iterable[Entry]) -> bytes:
    """The bytes of a directory, each number in its shortest form. An offset is 0 if the content follows that of
    the entry before."""
    entries = list(entries)
    numbers, last, end = [len(entries)], 0, None
    for entry in entries:
        numbers.append(entry.id - last)
        last = entry.id
    numbers += [entry.run for entry in entries]
    numbers += [entry.length for entry in entries]
    for entry in entries:
        numbers.append(0 if entry.offset == end else entry.offset + 1)
        end = entry.offset + entry.length
    return b"".join(map(varint_of, numbers))


def zoom_and_place(number: int) -> tuple[int, int]:
    """The zoom of a tile id, and how many tiles of this zoom have lower ids."""
    zoom = 0
    while number >= 4 ** zoom:
        number -= 4 ** zoom
        zoom += 1
    return zoom, number


def tile_of(number: int) -> str:
    """Zoom, column and row of a tile id, as z/x/y: its place on the Hilbert curve of its zoom."""
    zoom, place = zoom_and_place(number)
    x = y = 0
    for level in range(zoom):
        side, right, lower = 1 << level, place >> 1 & 1, (place ^ place >> 1) & 1
        if lower == 0:
            if right:
                x, y = side - 1 - x, side - 1 - y
            x, y = y, x
        x, y, place = x + side * right, y + side * lower, place >> 2
    return f"{zoom}/{x}/{y}"
