"""The coordinate systems in which features are read: longitude and latitude, and by GDAL's projections others (OGC API
Features, Part 2). Needs GDAL's Python module for the others alone."""
from __future__ import annotations

import math
import threading
from collections.abc import Iterable, Sequence
from typing import TYPE_CHECKING, Any

from ..faults import Refused
from ..forms import Geometry
from ..geometry.shapes import Box
from ..geometry.world import EARTH, WORLD, degrees, metres, shares
from ..interpreters import has
from .filters import corners

if TYPE_CHECKING:
    from osgeo import osr

CRS84, EPSG = "http://www.opengis.net/def/crs/OGC/1.3/CRS84", "http://www.opengis.net/def/crs/EPSG/0/"
MERCATOR = 3857
# Those that are offered: WGS 84, ETRS89, Web Mercator, ETRS89 in UTM zones of Europe, and its two projections of all of
# Europe.
USUAL = (4326, 4258, MERCATOR, *range(25828, 25838), 3034, 3035)
# Digits of a degree, a hundredth of a square of the map; and of a metre.
DIGITS, DIGITS_OF_METRES = 8, 3


class System:
    """Longitude and latitude. `name`: its URI."""

    name, digits, is_swapped = CRS84, DIGITS, False

    def places(self, points: Iterable[Sequence[float]]) -> list[tuple[float, ...]]:
        """Points of the map in this system, east before north."""
        return [tuple(degrees(point)) for point in points]

    def box(self, parts: Sequence[float]) -> list[Box]:
        """The boxes of the map of one in this system, as west, south, east and north: two if it crosses the 180th
        meridian."""
        west, south, east, north = parts
        if not (abs(west) <= 180 >= abs(east) and -90 <= south <= north <= 90):
            raise Refused(f"bbox has four numbers, west, south, east and north in degrees: {','.join(map(str, parts))}")
        if west > east:
            return [*self.box((west, south, 180, north)), *self.box((-180, south, east, north))]
        (left, top), (right, bottom) = (
            shares(x, min(max(y, -89.99), 89.99)) for x, y in ((west, north), (east, south))
        )
        return [(left * WORLD, top * WORLD, right * WORLD, bottom * WORLD)]

    def geometry(self, geometry: Geometry) -> dict[str, Any]:
        """A geometry of GeoJSON, whose rings have their directions, with its coordinates in this system."""
        ((kind, parts),) = geometry.items()
        lines = (
            [parts]
            if kind == "points"
            else parts
            if kind == "lines"
            else [[*ring, ring[0]] for rings in parts for ring in rings]
        )
        moved = iter(self.written(self.places([point for line in lines for point in line])))
        made = [[next(moved) for _ in line] for line in lines]
        if kind == "points":
            return geojson("Point", made[0])
        if kind == "lines":
            return geojson("LineString", made)
        rings = iter(made)
        return geojson("Polygon", [[next(rings) for _ in one] for one in parts])

    def written(self, places: Iterable[Sequence[float]]) -> list[list[float]]:
        """Places as they are written: rounded, each in its square of the map, and in the order of the system's axes."""
        made = [[round(x, self.digits), round(y, self.digits)] for x, y in places]
        if not all(math.isfinite(part) for place in made for part in place):
            raise Refused(f"{self.name} doesn't reach there")
        return [[y, x] for x, y in made] if self.is_swapped else made


class Projected(System):
    """A system of EPSG, by GDAL. GDAL's transformations are of one thread each."""

    def __init__(self, code: int) -> None:
        from osgeo import osr

        osr.UseExceptions()
        self.name, self.osr, self.own = f"{EPSG}{code}", osr, threading.local()
        self.here, self.other = osr.SpatialReference(), osr.SpatialReference()
        self.here.ImportFromEPSG(MERCATOR)
        self.other.ImportFromEPSG(code)
        self.digits = DIGITS if self.other.IsGeographic() else DIGITS_OF_METRES
        self.is_swapped = bool(self.other.EPSGTreatsAsLatLong() or self.other.EPSGTreatsAsNorthingEasting())
        for system in (self.here, self.other):
            system.SetAxisMappingStrategy(osr.OAMS_TRADITIONAL_GIS_ORDER)

    def transformation(self, is_back: bool = False) -> osr.CoordinateTransformation:
        """The transformation of this thread, to this system or back."""
        name = "back" if is_back else "there"
        if not hasattr(self.own, name):
            setattr(
                self.own,
                name,
                self.osr.CoordinateTransformation(*((self.other, self.here) if is_back else (self.here, self.other))),
            )
        return getattr(self.own, name)

    def places(self, points: Iterable[Sequence[float]]) -> list[tuple[float, ...]]:
        return [place[:2] for place in self.transformation().TransformPoints([metres(point) for point in points])]

    def box(self, parts: Sequence[float]) -> list[Box]:
        # The order of the axes is that of the system.
        west, south, east, north = (parts[1], parts[0], parts[3], parts[2]) if self.is_swapped else parts
        if not (west <= east and south <= north):
            raise Refused(f"bbox has the least of both axes before the greatest: {','.join(map(str, parts))}")
        try:
            box = self.transformation(True).TransformBounds(west, south, east, north, 21)
        except RuntimeError as fault:
            raise Refused(f"bbox isn't of {self.name}: {fault}") from fault
        if not all(math.isfinite(part) for part in box):
            raise Refused(f"bbox isn't of {self.name}: {','.join(map(str, parts))}")
        west, south, east, north = corners(box)
        return [(west, min(south, north), east, max(south, north))]


class Mercator(System):
    """Web Mercator, as the map has it."""

    name, digits = f"{EPSG}{MERCATOR}", DIGITS_OF_METRES

    def places(self, points: Iterable[Sequence[float]]) -> list[tuple[float, ...]]:
        return [metres(point) for point in points]

    def box(self, parts: Sequence[float]) -> list[Box]:
        west, south, east, north = parts
        if not (west <= east and south <= north):
            raise Refused(f"bbox has the least of both axes before the greatest: {','.join(map(str, parts))}")
        box = corners(part if abs(part) <= EARTH else math.copysign(EARTH, part) for part in parts)
        return [(box[0], min(box[1], box[3]), box[2], max(box[1], box[3]))]


def geojson(name: str, parts: list) -> dict[str, Any]:
    """A geometry of GeoJSON of one part, or of several."""
    return (
        {"type": name, "coordinates": parts[0]} if len(parts) == 1 else {"type": f"Multi{name}", "coordinates": parts}
    )


class Systems:
    """The systems by their URIs. `more`: numbers of EPSG beside the usual ones. Without GDAL there are longitude and
    latitude and Web Mercator alone."""

    def __init__(self, more: Iterable[int] = ()) -> None:
        self.codes = list(dict.fromkeys([*USUAL, *more])) if has("osgeo") else [MERCATOR]
        self.names = [CRS84, *(f"{EPSG}{code}" for code in self.codes)]
        self.made: dict[str, System] = {CRS84: System(), Mercator.name: Mercator()}
        self.lock = threading.Lock()

    def of(self, text: str, parameter: str) -> System:
        """The system of a URI, or of the short form of it in brackets."""
        name = text
        if text.startswith("[EPSG:") and text.endswith("]"):
            name = EPSG + text[6:-1]
        elif text == "[OGC:CRS84]":
            name = CRS84
        if name not in self.names:
            raise Refused(f"{parameter} {text} isn't known: /collections lists the coordinate systems")
        with self.lock:
            if name not in self.made:
                self.made[name] = Projected(int(name.removeprefix(EPSG)))
            return self.made[name]
