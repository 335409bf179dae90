"""Cuts shapes in the units of the map into pieces that every renderer draws right. Needs GDAL's Python module."""
from __future__ import annotations

import math
from collections.abc import Sequence
from typing import List, Tuple

from osgeo import ogr

from ..limits import MOST_BODY, MOST_REACH, MOST_TEXT
from .shapes import MOST_WORK, Shape, Unfit, bounds, chains, count, list_count, reach, wrong_zooms
from .wholes import twice_area
from .world import WORLD

MOST_PIECES = 20000
Point = Tuple[float, float]
Polygon = List[List[Point]]
# Bytes of the JSON of a point: `[4294967295,4294967295],`.
POINT_BYTES = 24


def cut_points(points: list[Point], axis: int, at: float) -> tuple[list[Point], list[Point]]:
    """The points before a coordinate, and those from it on."""
    return [point for point in points if point[axis] < at], [point for point in points if point[axis] >= at]


def crossing(one: Point, other: Point, axis: int, at: float) -> Point:
    """Where a segment meets a coordinate."""
    share = (at - one[axis]) / (other[axis] - one[axis])
    place = one[1 - axis] + share * (other[1 - axis] - one[1 - axis])
    return (at, place) if axis == 0 else (place, at)


def one_side(line: list[Point], axis: int, at: float, side: int) -> list[list[Point]]:
    """The parts of a line before a coordinate (side -1) or after it (1). What lies on it is before it."""
    found, run = [], []
    for one, other in zip(line, line[1:]):
        from_here, to_there = ((point[axis] - at) * side for point in (one, other))
        if from_here <= 0 and to_there <= 0:
            if side < 0 and from_here == 0 and to_there == 0:
                run = [*(run or [one]), other]
                continue
            if run:
                found.append(run)
            run = []
            continue
        if not run:
            run = [one if from_here >= 0 else crossing(one, other, axis, at)]
        run.append(other if to_there >= 0 else crossing(one, other, axis, at))
        if to_there < 0:
            found.append(run)
            run = []
    return [*found, run] if run else found


def ogr_of(lists: list[Polygon]) -> ogr.Geometry:
    """Polygons as a geometry of GDAL."""
    made = ogr.Geometry(ogr.wkbMultiPolygon)
    for rings in lists:
        polygon = ogr.Geometry(ogr.wkbPolygon)
        for ring in rings:
            line = ogr.Geometry(ogr.wkbLinearRing)
            for x, y in [*ring, ring[0]]:
                line.AddPoint_2D(x, y)
            polygon.AddGeometry(line)
        made.AddGeometry(polygon)
    return made


def lists_of(geometry: ogr.Geometry | None) -> list[Polygon]:
    """The polygons in a geometry of GDAL: what only touches a cut isn't one."""
    if geometry is None:
        return []
    if geometry.GetGeometryName() == "POLYGON":
        rings = [geometry.GetGeometryRef(at).GetPoints() or [] for at in range(geometry.GetGeometryCount())]
        return [[[point[:2] for point in ring[:-1]] for ring in rings]] if rings and rings[0] else []
    return [polygon for at in range(geometry.GetGeometryCount()) for polygon in lists_of(geometry.GetGeometryRef(at))]


def valid(lists: list[Polygon]) -> list[Polygon]:
    """Polygons that can be cut: GDAL repairs those whose rings cross."""
    geometry = ogr_of(lists)
    if geometry.IsValid():
        return lists
    geometry = geometry.MakeValid()
    if geometry is None:
        raise Unfit("it is no valid polygon, and can't be cut")
    return lists_of(geometry)


def cut_polygons(lists: list[Polygon], axis: int, at: float) -> tuple[list[Polygon], list[Polygon]]:
    """The parts of polygons before and after a coordinate."""
    before, after, across = [], [], []
    for rings in lists:
        parts = [point[axis] for point in rings[0]]
        (before if max(parts) <= at else after if min(parts) >= at else across).append(rings)
    if across:
        box = list(bounds(("polygons", across)))
        geometry = ogr_of(across)
        for found, end in ((before, axis + 2), (after, axis)):
            half = list(box)
            half[end] = at
            west, north, east, south = half
            corners = [[(west, north), (east, north), (east, south), (west, south)]]
            found += lists_of(geometry.Intersection(ogr_of([corners])))
    return before, after


def cut(shape: Shape, axis: int, at: float) -> tuple[Shape | None, Shape | None]:
    """The two parts of a shape on either side of a coordinate: None for one that has nothing."""
    kind, lists = shape
    before: list
    after: list
    if kind == "points":
        before, after = cut_points(lists, axis, at)
    elif kind == "polygons":
        before, after = cut_polygons(lists, axis, at)
    else:
        before, after = ([part for line in lists for part in one_side(line, axis, at, side)] for side in (-1, 1))
    return (kind, before) if before else None, (kind, after) if after else None


def unwrapped(chain: Sequence[Point]) -> list[Point]:
    """The points of a line or ring that crosses the 180th meridian, without the jump from one edge of the world to the
    other."""
    made, turn = [chain[0]], 0
    for (before, _), (x, y) in zip(chain, chain[1:]):
        # An edge along the whole world, as of a polygon of all of it, isn't a jump.
        if WORLD / 2 < abs(x - before) < WORLD * 0.999999:
            turn += WORLD if x < before else -WORLD
        made.append((x + turn, y))
    return made


def on_the_world(shape: Shape) -> tuple[Shape, bool]:
    """The shape cut at the 180th meridian and at the edges of the world, and whether it crossed the meridian."""
    kind, lists = shape
    if kind == "points":
        return shape, False
    if kind == "lines":
        open_lists: list = [unwrapped(line) for line in lists]
    else:
        open_lists = []
        for rings in lists:
            closed = [unwrapped([*ring, ring[0]]) for ring in rings]
            # A ring round a pole doesn't close: it is left as it is.
            if any(abs(ring[0][0] - ring[-1][0]) > 1 for ring in closed):
                closed = [[*ring, ring[0]] for ring in rings]
            middle = closed[0][0][0]
            for at, ring in enumerate(closed[1:], 1):
                away = round((middle - ring[0][0]) / WORLD) * WORLD
                closed[at] = [(x + away, y) for x, y in ring]
            open_lists.append([ring[:-1] for ring in closed])
    unwrapped_shape: Shape = (kind, open_lists)
    west, north, east, south = bounds(unwrapped_shape)
    if west >= -1 and east <= WORLD + 1 and north >= -1 and south <= WORLD + 1:
        return unwrapped_shape, False
    open_shape: Shape | None = (kind, valid(open_lists)) if kind == "polygons" else unwrapped_shape
    for at, side in ((0, 1), (WORLD, 0)):
        if open_shape is not None and not -1 <= bounds(open_shape)[1 + 2 * (1 - side)] <= WORLD + 1:
            open_shape = cut(open_shape, 1, at)[side]
    if open_shape is None:
        raise Unfit("nothing of it is inside of the world (180 degrees east and west, 85.05 north and south)")
    found = []
    for turn in range(math.floor((west + 1) / WORLD), math.ceil((east - 1) / WORLD)):
        part: Shape | None = open_shape
        for at, side in ((turn * WORLD, 1), ((turn + 1) * WORLD, 0)):
            part = part and cut(part, 0, at)[side]
        if part:
            found += moved(part, -turn * WORLD)[1]
    if not found:
        raise Unfit("nothing of it is inside of the world (180 degrees east and west, 85.05 north and south)")
    return (kind, found), west < -1 or east > WORLD + 1


def moved(shape: Shape, east: float) -> Shape:
    """The shape moved along the equator."""
    kind, lists = shape
    if kind == "lines":
        return kind, [[(x + east, y) for x, y in line] for line in lists]
    return kind, [[[(x + east, y) for x, y in ring] for ring in rings] for rings in lists]


class Cutter:
    """Cuts shapes into pieces that every renderer draws right, and that the server takes.

    The cuts run through the middles of the tiles of a zoom, so a cell between them is in four tiles of that zoom, with
    coordinates from -2048 to 6144. The zoom is the greatest one, and no piece is cut further than it has to be, or it
    is the split zoom, and each piece is in one cell."""

    def __init__(self, zooms: Sequence[int], split_zoom: int | None = None) -> None:
        self.zooms = zooms
        self.cuts_cells = split_zoom is not None
        self.side = 2 ** (32 - (zooms[-1] if split_zoom is None else split_zoom))

    def fits(self, shape: Shape, text: int, body: int) -> bool:
        """Whether the server takes a shape with so many bytes of other members, in text and in JSON."""
        points, lists = count(shape), list_count(shape)
        tiles = reach(bounds(shape), self.zooms)
        small = 8 * points + 2 * lists + text <= MOST_TEXT and POINT_BYTES * points + 4 * lists + body <= MOST_BODY
        return small and tiles <= MOST_REACH and points * tiles <= MOST_WORK

    def about(self, shape: Shape, many: int) -> int:
        """About how many pieces a shape is cut into, if that may be as many as `many`: the cells inside of it, and
        those that its edges cross."""
        if shape[0] == "points":
            return 1
        west, north, east, south = bounds(shape)
        cells = ((east - west) / self.side + 1) * ((south - north) / self.side + 1)
        if cells < many or not (self.cuts_cells or wrong_zooms(shape, self.zooms)):
            return 1
        length = sum(math.dist(one, other) for chain in chains(shape) for one, other in zip(chain, chain[1:]))
        area = sum(abs(twice_area(rings[0])) for rings in shape[1]) / 2 if shape[0] == "polygons" else 0
        return math.ceil(min(cells, area / self.side**2 + length / self.side))

    def pieces(self, shape: Shape, text: int, body: int) -> list[Shape]:
        """The pieces of a shape: itself if it needs no cut."""
        if self.is_done(shape, text, body):
            return [shape]
        if shape[0] == "polygons":
            shape = ("polygons", valid(shape[1]))
        found = []
        self.cut_into(found, shape, text, body)
        return found

    def is_done(self, shape: Shape, text: int, body: int) -> bool:
        return self.fits(shape, text, body) and not wrong_zooms(shape, self.zooms)

    def cut_into(self, found: list[Shape], shape: Shape, text: int, body: int) -> None:
        """Adds the pieces of a shape."""
        place = self.best_cut(shape)
        if self.is_done(shape, text, body) and (place is None or not self.cuts_cells):
            found.append(shape)
        else:
            place = place or (None if self.fits(shape, text, body) else middle_cut(shape))
            if place is None:
                found.append(shape)
            else:
                for part in cut(shape, *place):
                    if part:
                        self.cut_into(found, part, text, body)
        if len(found) > MOST_PIECES:
            raise Unfit(f"it would be cut into over {MOST_PIECES:,} pieces: end it at a smaller --maxzoom")

    def best_cut(self, shape: Shape) -> tuple[int, int] | None:
        """The axis and the coordinate of the cut nearest to the middle of a shape, on its longer side; None if it is
        inside of a cell."""
        west, north, east, south = bounds(shape)
        sides = sorted(((east - west, 0, west, east), (south - north, 1, north, south)), reverse=True)
        for _, axis, least, greatest in sides:
            first = math.floor((least - self.side / 2) / self.side) + 1
            last = math.ceil((greatest - self.side / 2) / self.side) - 1
            if first <= last:
                middle = round(((least + greatest) / 2 - self.side / 2) / self.side)
                return axis, min(max(middle, first), last) * self.side + self.side // 2
        return None


def middle_cut(shape: Shape) -> tuple[int, int] | None:
    """The axis and the coordinate of a cut through the middle of a shape that has too many points."""
    west, north, east, south = bounds(shape)
    axis, least, greatest = (0, west, east) if east - west >= south - north else (1, north, south)
    return (axis, math.floor((least + greatest) / 2)) if greatest - least > 4 else None


def outline(shape: Shape) -> Shape:
    """The rings of polygons as lines."""
    return "lines", [[*ring, ring[0]] for rings in shape[1] for ring in rings]
