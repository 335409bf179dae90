"""Shapes in the units of the map: their size, the tiles that they cover, and what renderers draw wrong. Needs no
package.

A shape is a pair of its kind and its lists, as in the member `geometry` of a feature: `points` with a list of points,
`lines` with a list of lines, `polygons` with a list of lists of rings. Points are pairs of floats until `rounded` makes
integers of them. The first point of a ring isn't repeated at its end. """
from __future__ import annotations

import math
from collections.abc import Iterable

from ..forms import Geometry
from .wholes import twice_area
from .world import EARTH, WORLD

# Mapbox GL and MapLibre GL clamp coordinates of a tile of 4,096 units to these.
LEAST, GREATEST = -8192, 8191
# A shape of this width, in units of a tile, is safe wherever it is.
SAFE = 4030
# Points of a feature times tiles that it covers: above it the server would take long for each publication.
MOST_WORK = 2**21
# A shape, and west, north, east and south of one.
Shape = tuple[str, list]
Box = tuple[float, float, float, float]


class Unfit(Exception):
    """Why a feature can't be put."""


def chains(shape: Shape) -> list:
    """The lists of points of a shape, whatever its kind."""
    kind, lists = shape
    if kind == "points":
        return [lists]
    return lists if kind == "lines" else [ring for rings in lists for ring in rings]


def points_of(geometry: Geometry) -> list:
    """All points of a geometry."""
    ((kind, lists),) = geometry.items()
    if kind == "points":
        return lists
    return [
        point for line in (lists if kind == "lines" else [ring for rings in lists for ring in rings]) for point in line
    ]


def count(shape: Shape) -> int:
    """How many points a shape has."""
    return sum(len(chain) for chain in chains(shape))


def list_count(shape: Shape) -> int:
    """How many lists a shape has: each takes two bytes of an edit's text."""
    kind, lists = shape
    return (
        1
        + {"points": 0, "lines": 1, "polygons": 1}[kind] * len(lists)
        + (sum(map(len, lists)) if kind == "polygons" else 0)
    )


def bounds(shape: Shape) -> Box:
    """West, north, east and south of a shape."""
    xs = [point[0] for chain in chains(shape) for point in chain]
    ys = [point[1] for chain in chains(shape) for point in chain]
    return min(xs), min(ys), max(xs), max(ys)


def size(shape: Shape) -> tuple[float, float]:
    """Width and height in metres, at the latitude of its middle."""
    west, north, east, south = bounds(shape)
    metres = EARTH / WORLD / math.cosh(math.pi * (1 - (north + south) / WORLD))
    return (east - west) * metres, (south - north) * metres


def met(zoom: int, least: float, greatest: float) -> tuple[int, int]:
    """The first and the last column (or row) of a zoom whose tiles meet something between two coordinates."""
    first = -(-((math.floor(least) >> (20 - zoom)) - 4160) // 4096)
    last = ((math.floor(greatest) >> (20 - zoom)) + 64) // 4096
    return max(first, 0), min(last, 2**zoom - 1)


def covered(box: Box, zoom: int) -> tuple[tuple[int, int], tuple[int, int]]:
    """The columns and rows of a zoom that a bounding box meets."""
    west, north, east, south = box
    return met(zoom, west, east), met(zoom, north, south)


def reach(box: Box, zooms: Iterable[int]) -> int:
    """How many tiles a bounding box covers on all zooms."""
    found = 0
    for zoom in zooms:
        (left, right), (top, bottom) = covered(box, zoom)
        found += (right - left + 1) * (bottom - top + 1)
    return found


def is_safe(box: Box, zoom: int) -> bool:
    """Whether no tile of a zoom has a coordinate of this bounding box that renderers clamp."""
    for least, greatest, (first, last) in zip(box[:2], box[2:], covered(box, zoom)):
        least, greatest = math.floor(least) >> (20 - zoom), math.floor(greatest) >> (20 - zoom)
        if greatest - 4096 * first > GREATEST or least - 4096 * last < LEAST:
            return False
    return True


def boxes(shape: Shape) -> list[Box]:
    """The bounding boxes that are whole in a tile, if it has any of them: of a polygon its own, of a line that of each
    segment."""
    kind, lists = shape
    if kind == "polygons":
        return [bounds((kind, [rings])) for rings in lists]
    if kind == "points":
        return []
    found = []
    for line in lists:
        found += [(min(a[0], b[0]), min(a[1], b[1]), max(a[0], b[0]), max(a[1], b[1])) for a, b in zip(line, line[1:])]
    return found


def wrong_zooms(shape: Shape, zooms: Iterable[int]) -> list[int]:
    """The zooms at which a renderer that clamps coordinates draws a shape wrong."""
    found = boxes(shape)
    widest = max((max(box[2] - box[0], box[3] - box[1]) for box in found), default=0)
    return [
        zoom
        for zoom in zooms
        if zoom > 1 and widest > SAFE << (20 - zoom) and not all(is_safe(box, zoom) for box in found)
    ]


def rounded(shape: Shape) -> Shape | None:
    """The shape with integers in the world, without what has no extent; None if nothing of it has one."""
    kind, lists = shape

    def points(chain: Iterable, ring: bool = False) -> list:
        made = []
        for point in chain:
            # Cutting leaves coordinates of a cut a little beside it.
            near = [round(part) if abs(part - round(part)) < 0.001 else math.floor(part) for part in point]
            place = [min(max(part, 0), WORLD - 1) for part in near]
            if not made or made[-1] != place:
                made.append(place)
        if ring and len(made) > 1 and made[0] == made[-1]:
            made.pop()
        return made

    if kind == "points":
        return kind, [points([point])[0] for point in lists]
    if kind == "lines":
        made = [line for line in map(points, lists) if len(line) > 1]
    else:
        made = []
        for rings in lists:
            rings = [points(ring, True) for ring in rings]
            rings = [rings[0], *(ring for ring in rings[1:] if len(ring) > 2 and twice_area(ring))]
            if len(rings[0]) > 2 and twice_area(rings[0]):
                made.append(rings)
    return (kind, made) if made else None


def is_shown(shape: Shape, zoom: int) -> bool:
    """Whether a shape of integers is shown at a zoom: a line has two places there, a polygon an area."""
    kind, lists = shape
    if kind == "points":
        return True
    step = 20 - zoom
    for part in lists:
        chain = [(x >> step, y >> step) for x, y in (part if kind == "lines" else part[0])]
        if len(set(chain)) > 1 if kind == "lines" else twice_area(chain) != 0:
            return True
    return False
