"""The map of one moment in a disk file of vtserve, read while a server serves it, by docs/FORMATS.md. Needs no package.

The file is only read. What the live root refers to isn't written to until the next publication has installed another root: so the snapshot
and the journal are those of one moment, if the same root is live after they were read. Otherwise reading begins again.
"""
from __future__ import annotations

import os
import struct
import time
from collections.abc import Callable, Iterator
from typing import NamedTuple

from ..faults import Fault
from ..forms import Feature, Geometry, Value
from ..limits import PART, SECTOR
from ..systems import open_to_read, read_at

FORMAT_MARK, ROOT_MARK = b"VTILEDSK", b"VTROOT01"
LEAST_SECTORS, MOST_SECTORS = 64, 16777216
HEAD, BODY, PUT = 1, 2, 1
KINDS = {1: "points", 2: "lines", 3: "polygons"}
# Sectors of the journal that are read at once, and how often reading is begun, a second apart.
CHUNK, TRIES = 2048, 30


class Root(NamedTuple):
    """What a root sector has."""

    generation: int
    edits: int
    journal_at: int
    snapshot: int
    archive: int


class Moment(NamedTuple):
    """The features by their ids, the last edit in them, and how often a publication passed while they were read."""

    features: dict[int, Feature]
    edit: int
    passed: int


class Damaged(Fault):
    """What of the file isn't as it should be."""


class Text:
    """Bytes that are taken from the front."""

    def __init__(self, held: bytes) -> None:
        self.held, self.at = held, 0

    def take(self, size: int) -> bytes:
        self.at += size
        if self.at > len(self.held):
            raise Damaged("a text ends early")
        return self.held[self.at - size:self.at]

    def number(self, size: int) -> int:
        return int.from_bytes(self.take(size), "little")

    def points(self) -> list[list[int]]:
        flat = struct.unpack(f"<{2 * (count := self.number(2))}I", self.take(8 * count))
        return [list(pair) for pair in zip(flat[::2], flat[1::2])]

    def lists(self, item: Callable[[], list]) -> list:
        return [item() for _ in range(self.number(2))]

    def geometry(self) -> Geometry:
        kind = KINDS.get(self.number(1))
        if kind is None:
            raise Damaged("a geometry of no kind")
        items = {"points": self.points, "lines": lambda: self.lists(self.points), "polygons": lambda: self.lists(lambda: self.lists(self.points))}
        return {kind: items[kind]()}

    def value(self) -> Value:
        kind = self.number(1)
        if kind == 1:
            return self.take(self.number(2)).decode()
        if kind in (2, 3):
            return self.number(8) - (2 ** 64 if kind == 3 else 0)
        return kind == 5

    def change(self) -> tuple[int, Feature | None]:
        """The id of the next change, and its feature or None."""
        kind, number = self.number(1), self.number(8)
        if kind != PUT:
            return number, None
        layer = self.take(self.number(1)).decode()
        first, last = self.number(1), self.number(1)
        geometry = self.geometry()
        tags = {self.take(self.number(1)).decode(): self.value() for _ in range(self.number(1))}
        return number, {"layer": layer, "minzoom": first, "maxzoom": last, "geometry": geometry, "tags": tags}


class Disk:
    """An open disk file."""

    def __init__(self, file: int) -> None:
        self.file = file
        first = self.read(0, 1)
        self.version, sectors = struct.unpack_from("<IQ", first, 8)
        if first[:8] != FORMAT_MARK or self.version not in (1, 2) or not LEAST_SECTORS <= sectors <= MOST_SECTORS:
            raise Damaged("this is no disk file of vtserve, or one of a later version")
        self.slots = sectors // 4
        self.area = (sectors - 3 - self.slots) // 2

    def read(self, sector: int, count: int) -> bytes:
        """So many sectors."""
        return read_at(self.file, SECTOR * count, SECTOR * sector)

    def root(self) -> Root:
        """The live root."""
        found = []
        for number in (1, 2):
            sector = self.read(number, 1)
            if sector[:8] == ROOT_MARK:
                found.append(Root(*struct.unpack_from("<5Q", sector, 8)))
            elif any(sector):
                raise Damaged("a root sector")
        if not found:
            raise Damaged("both root sectors are empty")
        return max(found)

    def snapshot(self, root: Root) -> dict[int, Feature]:
        """The features of the snapshot of a root."""
        at = 3 + self.slots + root.generation % 2 * self.area
        text = Text(self.read(at, -(-root.snapshot // SECTOR))[:root.snapshot])
        features: dict[int, Feature] = {}
        while text.at < root.snapshot:
            number, feature = text.change()
            if feature is None:
                raise Damaged("a deletion in a snapshot")
            features[number] = feature
        return features

    def slots_from(self, slot: int) -> Iterator[bytes]:
        """The sectors of the ring, each once, from a slot on."""
        for first, end in ((slot, self.slots), (0, slot)):
            for at in range(first, end, CHUNK):
                held = self.read(3 + at, min(CHUNK, end - at))
                yield from (held[place:place + SECTOR] for place in range(0, len(held), SECTOR))

    def records(self, root: Root) -> Iterator[tuple[int, bytes]]:
        """The version and the text of each record after the snapshot of a root."""
        ring, number = self.slots_from(root.journal_at), root.edits + 1
        for head in ring:
            if head[0] != HEAD or not 1 <= head[1] <= self.version or head[4:12] != number.to_bytes(8, "little"):
                return
            length, parts = int.from_bytes(head[12:16], "little"), [head]
            while PART * len(parts) < length:
                parts.append(next(ring, b""))
                if parts[-1][:1] != bytes([BODY]) or parts[-1][1:2] + parts[-1][4:16] != head[1:2] + head[4:16]:
                    raise Damaged("a record of the journal")
            yield head[1], b"".join(part[16:] for part in parts)[:length]
            number += 1


def applied(features: dict[int, Feature], version: int, text: bytes) -> None:
    """Makes the edit of a record."""
    held = Text(text)
    for number, feature in [held.change() for _ in range(held.number(1) if version > 1 else 1)]:
        if feature is None:
            features.pop(number, None)
        else:
            features[number] = feature


def moment_of(path: str) -> Moment:
    """The map of one moment. Raises `OSError`, or `Damaged` if the file isn't as docs/FORMATS.md has it."""
    if not os.path.isfile(path):
        raise OSError(f"{path} is no file" if os.path.exists(path) else f"there is no file {path}")
    file, passed = open_to_read(path), 0
    fault: Exception | None = None
    try:
        disk = Disk(file)
        for again in range(TRIES):
            time.sleep(1 if again else 0)
            root = disk.root()
            try:
                features, records = disk.snapshot(root), list(disk.records(root))
                # A record that was being written while it was read is whole by now.
                is_whole = records == list(disk.records(root))[:len(records)]
                for record in records:
                    applied(features, *record)
            except (Damaged, UnicodeDecodeError, struct.error) as found:
                fault, is_whole = found, False
            if disk.root() != root:
                passed += 1
            elif is_whole:
                return Moment(dict(sorted(features.items())), root.edits + len(records), passed)
            elif fault is not None and again > 2:
                raise Damaged(f"{path}: {fault}")
        raise Damaged(f"{path}: publications passed {passed} times while it was read")
    finally:
        os.close(file)
