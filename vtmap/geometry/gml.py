"""Geometries of the map in GML, written as GML 3 and read as GML 2 or 3. Needs no package.

Coordinates are those of `geopackage.py`: EPSG:3857, the middles of the squares of 9 mm that the map distinguishes, in
tenths of a millimetre, so that a vertex that nobody moved comes back as it was. """
from __future__ import annotations

import functools
import re
from collections.abc import Iterable, Sequence
from xml.etree.ElementTree import Element

from ..files.geopackage import MERCATOR, Unreadable, world
from ..forms import Geometry
from ..markup import Frame, Xml, together
from .world import metres

POINT, LINE = Frame("gml:pos"), Frame("gml:posList")
EXTERIOR, INTERIOR = (Frame(name, "gml:LinearRing", "gml:posList") for name in ("gml:exterior", "gml:interior"))
# The names by which clients know EPSG:3857.
SYSTEM = re.compile("(?:^|[:#/])(3857|900913)$")
PARTS = {
    "points": ("gml:Point", "gml:MultiPoint", "gml:pointMember"),
    "lines": ("gml:LineString", "gml:MultiCurve", "gml:curveMember"),
    "polygons": ("gml:Polygon", "gml:MultiSurface", "gml:surfaceMember"),
}
MULTIPLE = {
    "MultiPoint": "points",
    "MultiLineString": "lines",
    "MultiCurve": "lines",
    "MultiPolygon": "polygons",
    "MultiSurface": "polygons",
}


def gml_of(geometry: Geometry, is_several: bool, system: str) -> Xml:
    """A geometry as GML 3: as one of several parts, or as its only part."""
    ((kind, lists),) = geometry.items()
    several, part = frames_of(kind, is_several, system)
    made = [part.of(coordinates_of(kind, one)) for one in lists]
    return several.of(together(made)) if is_several else made[0]


@functools.lru_cache
def frames_of(kind: str, is_several: bool, system: str) -> tuple[Frame, Frame]:
    """The frames of a geometry, and of each of its parts."""
    one, several, member = PARTS[kind]
    named = {"srsName": system}
    return Frame((several, named)), Frame(*([member] if is_several else []), (one, named))


def coordinates_of(kind: str, part: list) -> Xml:
    """The coordinates of a point, a line or a polygon."""
    if kind == "points":
        return POINT.of(places([part]))
    if kind == "lines":
        return LINE.of(places(part))
    return together([(INTERIOR if at else EXTERIOR).of(places([*ring, ring[0]])) for at, ring in enumerate(part)])


def places(points: Iterable[Sequence[float]]) -> str:
    """Points of the map in metres."""
    return " ".join("%.4f %.4f" % metres(point) for point in points)


def local(element: Element) -> str:
    """The name of an element without its namespace."""
    return element.tag.rpartition("}")[2]


def geometry_of(element: Element) -> Geometry:
    """The geometry of the map that an element says."""
    see_system(element)
    kind, parts = parts_of(element)
    if not parts or (kind != "points" and not all(parts)):
        raise Unreadable("it has no geometry")
    return {kind: parts}


def see_system(element: Element) -> None:
    """Refuses coordinates of another system."""
    for part in element.iter():
        name = part.get("srsName")
        if name is not None and not SYSTEM.search(name):
            raise Unreadable(f"its coordinates are those of {name}: EPSG:3857 is needed")


def parts_of(element: Element) -> tuple[str, list]:
    """The kind of a geometry, and its parts."""
    name = local(element)
    if name == "Point":
        return "points", points_in(element)
    if name in ("LineString", "LinearRing", "LineStringSegment"):
        return "lines", [points_in(element)]
    if name == "Curve":
        lines = [points_in(part) for part in element.iter() if local(part) == "LineStringSegment"]
        return "lines", [[point for at, line in enumerate(lines) for point in line[min(at, 1) :]]]
    if name == "Polygon":
        return "polygons", [[ring_in(boundary) for boundary in element]]
    if name not in MULTIPLE:
        raise Unreadable(f"its geometry is a {name}: points, lines and polygons are taken")
    return MULTIPLE[name], [part for member in element for child in member for part in parts_of(child)[1]]


def ring_in(boundary: Element) -> list:
    """The ring of a boundary of a polygon, without the point that closes it."""
    if len(boundary) != 1:
        raise Unreadable("a boundary of its polygon has no ring")
    _, (ring,) = parts_of(boundary[0])
    return ring[:-1] if len(ring) > 1 and ring[0] == ring[-1] else ring


def points_in(element: Element) -> list[list[int]]:
    """The points of an element that has them."""
    try:
        return [world([float(part) for part in place], MERCATOR) for place in coordinates_in(element)]
    except (ValueError, TypeError, IndexError) as fault:
        raise Unreadable(f"its geometry has no such coordinates: {fault}") from fault


def coordinates_in(element: Element) -> list[list[str]]:
    """The coordinates of the points of an element, as texts."""
    found = []
    for child in element:
        text, name = child.text or "", local(child)
        if name in ("pos", "posList"):
            size = int(child.get("srsDimension", element.get("srsDimension", "2")))
            numbers = text.split()
            found += [numbers[at : at + 2] for at in range(0, len(numbers), size)]
        elif name == "coordinates":
            comma, blank = child.get("cs", ","), child.get("ts", " ")
            found += [
                place.split(comma)[:2] for place in (text.split() if blank == " " else text.split(blank)) if place
            ]
        elif name == "coord":
            found.append([part.text or "" for part in child][:2])
        elif name == "pointProperty" and len(child):
            found += coordinates_in(child[0])
    return found
