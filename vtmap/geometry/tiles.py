"""What tiles show of features, by docs/FORMATS.md (*What a tile shows of a feature*), as far as drawing needs it. Needs
no package."""
from __future__ import annotations

from collections.abc import Iterable, Iterator
from typing import Any

from ..files.vector_tile import AREAS, EXTENT, LINES, POINTS, TileFeature
from ..limits import GREATEST_ZOOM

# How far the box of a tile reaches beyond it.
MARGIN = 64

Place = tuple[int, int]
Places = list[Place]


def area(ring: Places) -> int:
    """Twice the signed area of a ring: positive for an outer one."""
    return sum(x * to_y - to_x * y for (x, y), (to_x, to_y) in zip(ring, ring[1:] + ring[:1]))


def quantised(places: Iterable[list[int]], zoom: int) -> Places:
    """Points at a zoom, each once in a row."""
    shift, found = GREATEST_ZOOM + 1 - zoom, []
    for x, y in places:
        place = x >> shift, y >> shift
        if not found or found[-1] != place:
            found.append(place)
    return found


def turned(ring: Places, is_outer: bool) -> Places:
    """A ring in its direction; no point if it has no area."""
    ring = ring[:-1] if len(ring) > 1 and ring[0] == ring[-1] else ring
    size = area(ring) if len(ring) > 2 else 0
    if size == 0:
        return []
    return ring if (size > 0) == is_outer else [ring[0], *reversed(ring[1:])]


def lists_of(geometry: dict[str, Any], zoom: int) -> tuple[int, list[list[Places]]]:
    """The type of a geometry and its parts at a zoom, each some lists of points: a polygon has one for each ring."""
    ((name, parts),) = geometry.items()
    if name == "points":
        return POINTS, [[[place]] for place in (quantised([point], zoom)[0] for point in parts)]
    if name == "lines":
        return LINES, [[quantised(line, zoom)] for line in parts]
    rings = [[turned(quantised(ring, zoom), at == 0) for at, ring in enumerate(polygon)] for polygon in parts]
    return AREAS, [[ring for ring in polygon if ring] for polygon in rings if polygon[0]]


def spans(places: Iterable[Place], column: int, row: int) -> bool:
    """Whether the bounding box of points has something of the box of a tile."""
    xs, ys = zip(*places)
    return (
        min(xs) <= EXTENT * (column + 1) + MARGIN
        and max(xs) >= EXTENT * column - MARGIN
        and min(ys) <= EXTENT * (row + 1) + MARGIN
        and max(ys) >= EXTENT * row - MARGIN
    )


def chains(line: Places, column: int, row: int) -> Iterator[Places]:
    """The longest chains of consecutive segments of a line that a tile shows."""
    chain: Places = []
    for segment in zip(line, line[1:]):
        if spans(segment, column, row):
            chain = [*chain, segment[1]] if chain else list(segment)
        elif chain:
            yield chain
            chain = []
    if chain:
        yield chain


def shown_of(kind: int, parts: list[list[Places]], column: int, row: int) -> list[Places]:
    """The lists of points that a tile shows, in its own coordinates."""
    if kind == LINES:
        lists = [chain for line, in parts for chain in chains(line, column, row)]
    else:
        lists = [places for part in parts if spans(part[0], column, row) for places in part]
    return [[(x - EXTENT * column, y - EXTENT * row) for x, y in places] for places in lists]


def shown_in(
    features: Iterable[tuple[int, dict[str, Any]]], zoom: int, columns: range, rows: range
) -> dict[Place, dict[str, list[TileFeature]]]:
    """What tiles of these columns and rows show: the features of each layer, by column and row. `features`: in the
    order of their ids."""
    tiles: dict[Place, dict[str, list[TileFeature]]] = {(column, row): {} for column in columns for row in rows}
    for number, feature in features:
        if not feature["minzoom"] <= zoom <= feature["maxzoom"]:
            continue
        kind, parts = lists_of(feature["geometry"], zoom)
        for column, row in near(parts, columns, rows):
            lists = shown_of(kind, parts, column, row)
            if lists:
                tiles[column, row].setdefault(feature["layer"], []).append(
                    TileFeature(number, kind, lists, feature["tags"])
                )
    return {place: layers for place, layers in tiles.items() if layers}


def near(parts: list[list[Places]], columns: range, rows: range) -> Iterator[Place]:
    """The columns and rows that may show something of these parts."""
    places = [place for part in parts for places in part for place in places]
    if not places:
        return
    xs, ys = zip(*places)
    for column in range(
        max(columns.start, (min(xs) - MARGIN) // EXTENT - 1), min(columns.stop, (max(xs) + MARGIN) // EXTENT + 1)
    ):
        for row in range(
            max(rows.start, (min(ys) - MARGIN) // EXTENT - 1), min(rows.stop, (max(ys) + MARGIN) // EXTENT + 1)
        ):
            yield column, row
