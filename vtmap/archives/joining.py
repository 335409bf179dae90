"""Archives of several maps as one. Needs no package.

The tiles of all are read side by side, by ascending id. Tiles that one archive alone has are copied as they are; those
that several have are merged. Where archives have runs, the part that they have in common is one step.
"""
from __future__ import annotations

import heapq
import json
from typing import Iterator, NamedTuple

from ..faults import Fault
from .directory import Entry, tile_of
from .header import Header
from .merging import BadTile, SharedId, merged
from .reading import Archive
from .writing import Writer

# What the fields of a layer are if two maps have values of different types there.
MIXED = "String"


class Step(NamedTuple):
    """Tiles of consecutive ids, and the entry of each archive that has them."""

    id: int
    run: int
    found: list[tuple[Archive, Entry]]


class Joined(NamedTuple):
    """What was written, and how many of its tiles are merged ones."""

    header: Header
    merged: int


def steps(archives: list[Archive]) -> Iterator[Step]:
    """The tiles of archives, by ascending ids."""
    rows = [archive.entries() for archive in archives]
    heads = [(entry.id, at, entry) for at, row in enumerate(rows) for entry in [next(row, None)] if entry]
    heapq.heapify(heads)
    while heads:
        first, found = heads[0][0], []
        while heads and heads[0][0] == first:
            found.append(heapq.heappop(heads)[1:])
        end = min([entry.end for _, entry in found] + [number for number, _, _ in heads[:1]])
        yield Step(first, end - first, [(archives[at], entry) for at, entry in found])
        for at, entry in found:
            rest: Entry | None = entry._replace(id=end, run=entry.end - end)
            if entry.end <= end:
                rest = next(rows[at], None)
            if rest:
                heapq.heappush(heads, (rest.id, at, rest))


def content_of(step: Step, takes_first: bool) -> bytes:
    """The content of the tiles of a step."""
    tiles = [archive.content(entry) for archive, entry in step.found]
    if len(tiles) == 1:
        return tiles[0]
    place, names = tile_of(step.id), " and ".join(archive.name for archive, _ in step.found)
    try:
        return merged(tiles, takes_first)
    except SharedId as shared:
        told = f"tile {place}, layer {shared.layer}: {names} have the feature {shared.number} each"
        raise Fault(f"{told} (--first takes that of the archive that is named first)") from None
    except BadTile as fault:
        raise Fault(f"tile {place} of {names} can't be merged: {fault}") from None


def joined_layers(archives: list[Archive]) -> bytes:
    """The metadata of all, as vtserve writes them."""
    found: dict[str, dict] = {}
    for layer in (layer for archive in archives for layer in archive.layers):
        one = found.setdefault(layer["id"], {"fields": {}, "id": layer["id"]})
        for name, kind in layer["fields"].items():
            one["fields"][name] = kind if one["fields"].get(name, kind) == kind else MIXED
        for zoom, chosen in (("minzoom", min), ("maxzoom", max)):
            if zoom in layer:
                one[zoom] = chosen(one.get(zoom, layer[zoom]), layer[zoom])
    layers = {"vector_layers": [found[name] for name in sorted(found)]}
    text = json.dumps(layers, ensure_ascii=False, separators=(",", ":"), sort_keys=True)
    return text.encode("utf-8", "surrogatepass")


def joined_bounds(archives: list[Archive]) -> tuple[int, int, int, int]:
    """The bounds of all; the world, if none has a tile."""
    found = [archive.header.bounds for archive in archives if archive.header.tiles] or [Header().bounds]
    west, south, east, north = zip(*found)
    return min(west), min(south), max(east), max(north)


def told(found: Joined) -> str:
    """What was written, as a line says it."""
    header = found.header
    tiles = f"{header.addressed:,} tiles ({found.merged:,} merged), {header.entries:,} entries, "
    return tiles + f"{header.contents:,} contents, {header.tiles_at + header.tiles:,} bytes"


def join(archives: list[Archive], path: str, folder: str, takes_first: bool = False) -> Joined:
    """Writes archives as one into a file. What is needed meanwhile is in a folder. Raises `Fault`, and
    the file is as it was then."""
    writer, count = Writer(folder), 0
    try:
        for step in steps(archives):
            writer.put(step.id, step.run, content_of(step, takes_first))
            count += step.run if len(step.found) > 1 else 0
        return Joined(writer.finish(path, joined_layers(archives), joined_bounds(archives)), count)
    finally:
        writer.close()
