"""What an import will need of the server's areas: the snapshot exactly, the archive about."""
from __future__ import annotations

import math
from collections.abc import Iterable, Iterator

from ..client.edits import value_bytes
from ..client.refusals import APART
from ..forms import Feature, Status
from ..geometry.shapes import MOST_WORK, Shape, bounds, chains, count, covered, reach
from ..limits import MOST_ENTRIES, PART, SECTOR

# What a tile takes beside its features: the frame of a layer, and its entry in the directory.
TILE_BYTES = 24
FEWER_TILES = f"end features at a smaller --maxzoom, or {APART}"
# Tiles that are told apart while they are counted.
MOST_TILES = 1000000


def area_of(sectors: int) -> int:
    """The sectors of an area of a disk of this size."""
    return (sectors - 3 - sectors // 4) // 2


def disk_for(area: int) -> int:
    """A size for `format` whose areas have so many sectors."""
    sectors = 4096
    while area_of(sectors) < area:
        sectors *= 2
    return sectors


def counted(number: int, name: str) -> str:
    """A count and what is counted."""
    return f"{number:,} {name}{'' if number == 1 else 's'}"


class Sizes:
    """The sums of the features so far."""

    def __init__(self) -> None:
        self.features = self.points = self.snapshot = self.archive = 0
        self.tiles = set()

    def add(self, length: int, body: Feature, shape: Shape, zooms: Iterable[int], is_first: bool) -> None:
        """Adds a feature whose text has so many bytes. Of the pieces of one feature the values of tags are in a tile once: they are counted for the first."""
        self.features += 1
        self.points += count(shape)
        self.snapshot += length
        box, segments = bounds(shape), segments_of(shape)
        tags = sum(3 + (value_bytes(value) + 4 if is_first else 0) for value in body["tags"].values())
        for zoom in zooms:
            (left, right), (top, bottom) = covered(box, zoom)
            self.archive += tile_bytes(shape, segments, zoom, (right - left + 1) * (bottom - top + 1), tags)
            if len(self.tiles) < MOST_TILES:
                self.tiles.update((zoom, column, row) for column in range(left, right + 1) for row in range(top, bottom + 1))

    def area(self) -> int:
        """The sectors of snapshot and archive."""
        return -(-self.snapshot // SECTOR) + -(-(self.archive + TILE_BYTES * len(self.tiles)) // SECTOR)

    def lines(self, journal: int, entries: int = 0, where: str = "") -> Iterator[str]:
        """What a user reads of them, of the sectors of the journal that they need, and of the entries that an archive of the map has, and which one."""
        many = "over 1,000,000" if len(self.tiles) >= MOST_TILES else f"up to {len(self.tiles):,}"
        yield f"to send: {counted(self.features, 'feature')}, {counted(self.points, 'point')}"
        yield f"needed beside what the disk has: {counted(journal, 'sector')} of the journal, about {self.area():,} of an area, {many} tiles"
        if len(self.tiles) + entries > MOST_ENTRIES:
            there = f" The one {where} has {entries:,}" if entries else ""
            yield f"warning: an archive has at most {MOST_ENTRIES:,} entries, and equal neighbours alone share one.{there}: {FEWER_TILES}"


class Room:
    """What the server's disk has room for, and what an import needs of it so far. `status`: what the server tells of itself. `is_new`: whether all
    features of the file are new on the map, whose tiles are counted then. Else only what is known without looking at the map: the features
    themselves have to fit into an area."""

    def __init__(self, status: Status, publishes: bool, is_new: bool) -> None:
        journal, area = status["journal"], status["area"]
        self.area, self.used, self.places = area["sectors"], area["used"], journal["places"]
        self.free = None if publishes else self.places - journal["used"]
        self.is_new, self.sums = is_new, Sizes()

    def add(self, length: int, feature: Feature, zooms: Iterable[int], is_first: bool) -> None:
        """Adds a feature that is read."""
        if self.is_new:
            (shape,) = feature["geometry"].items()
            self.sums.add(length, feature, shape, zooms, is_first)
        else:
            self.sums.snapshot += length

    def lacks(self, area: int, journal: int, share: float = 1.0) -> str | None:
        """What it hasn't room for, None if there is room: so many sectors of an area, and of the journal. `share`: of all that there will be."""
        need = area + self.used
        if need > self.area:
            disk = disk_for(math.ceil(area / share) + self.used)
            return f"about {need:,} would be needed: move the map to a disk of {disk:,} sectors (docs/DEPLOYING.md)"
        if self.free is not None and journal > self.free:
            return f"the journal has {self.free:,} of its {self.places:,} sectors free: give --publish"
        return None

    def lacks_already(self, read: int, total: int | None) -> str | None:
        """What it hasn't room for after so many features, of as many as there are, if that is known."""
        if self.is_new:
            fault = self.lacks(self.sums.area(), self.sums.snapshot // PART, read / total if total else 1)
        else:
            need = self.sums.snapshot // SECTOR
            fault = f"their snapshot alone takes {need:,}: move the map to a larger disk (docs/DEPLOYING.md)" if need > self.area else None
        of = f" of {total:,}" if total else ""
        return f"after {read:,}{of} features, with {self.area:,} sectors of an area: {fault}" if fault else None


def segments_of(shape: Shape) -> list[tuple[float, float, float]]:
    """Width, height and length of each segment of its lines or rings, in units of the world."""
    if shape[0] == "points":
        return []
    pairs = [pair for chain in chains(shape) for pair in zip(chain, chain[1:])]
    return [(abs(a[0] - b[0]), abs(a[1] - b[1]), math.dist(a, b)) for a, b in pairs]


def tile_bytes(shape: Shape, segments: list[tuple[float, float, float]], zoom: int, tiles: int, tags: int) -> int:
    """About how many bytes a shape has in the tiles of a zoom."""
    points, unit, front = count(shape), 1 << (20 - zoom), 12 + tags
    if shape[0] == "points":
        return points * (front + 5)
    path = sum(length for _, _, length in segments)
    kept = min(points, path / unit + 1)
    step = path / kept / unit
    each = 2 if step < 64 else 4 if step < 8192 else 6
    if shape[0] == "polygons":
        return round(tiles * (front + kept * each)) if path / unit > 2 else 0
    # A segment is in each tile of its box.
    side = 4096 * unit
    more = sum((wide / side + 1) * (high / side + 1) - 1 for wide, high, _ in segments)
    return round(min(tiles, more + 1) * (front + 3) + (kept + more) * each)


def is_heavy(shape: Shape, zooms: Iterable[int]) -> bool:
    """Whether a feature alone makes publications slow: its points are in many tiles."""
    return count(shape) * reach(bounds(shape), zooms) > MOST_WORK
