"""GeoPackage files by Python's own SQLite: tables of features that QGIS and GDAL read and edit. Needs no package.

Coordinates in a table are those of Web Mercator (EPSG:3857), of the middles of the squares of 9 mm that the map distinguishes, so that a
shape that nobody edits comes back as it was. What `vtmap checkin` has to know lies in tables of the same file whose names begin with `gpkg_`,
which GDAL and QGIS don't show.
"""
from __future__ import annotations

import math
import sqlite3
import struct
from collections.abc import Iterable, Iterator, Sequence
from typing import Union

from ..faults import Fault
from ..forms import Geometry
from ..geometry.world import EARTH, at_shares, metres, shares

# What a cell of a table has.
Cell = Union[None, bool, int, float, str, bytes]
MERCATOR, DEGREES = 3857, 4326
KINDS = {"points": 1, "lines": 2, "polygons": 3}
NAMES = ["", "POINT", "LINESTRING", "POLYGON", "MULTIPOINT", "MULTILINESTRING", "MULTIPOLYGON"]
SYSTEMS = [
    ("Undefined Cartesian", -1, "NONE", -1, "undefined"),
    ("Undefined geographic", 0, "NONE", 0, "undefined"),
    ("WGS 84", DEGREES, "EPSG", DEGREES, 'GEOGCS["WGS 84",DATUM["WGS_1984",SPHEROID["WGS 84",6378137,298.257223563]],PRIMEM["Greenwich",0],'
     'UNIT["degree",0.0174532925199433],AUTHORITY["EPSG","4326"]]'),
    ("WGS 84 / Pseudo-Mercator", MERCATOR, "EPSG", MERCATOR, 'PROJCS["WGS 84 / Pseudo-Mercator",GEOGCS["WGS 84",DATUM["WGS_1984",'
     'SPHEROID["WGS 84",6378137,298.257223563]],PRIMEM["Greenwich",0],UNIT["degree",0.0174532925199433],AUTHORITY["EPSG","4326"]],'
     'PROJECTION["Mercator_1SP"],PARAMETER["central_meridian",0],PARAMETER["scale_factor",1],PARAMETER["false_easting",0],'
     'PARAMETER["false_northing",0],UNIT["metre",1],EXTENSION["PROJ4","+proj=merc +a=6378137 +b=6378137 +lat_ts=0 +lon_0=0 +x_0=0 +y_0=0 +k=1 '
     '+units=m +nadgrids=@null +wktext +no_defs"],AUTHORITY["EPSG","3857"]]'),
]
SCHEMA = """
    PRAGMA application_id = 0x47504B47;
    PRAGMA user_version = 10200;
    CREATE TABLE gpkg_spatial_ref_sys (srs_name TEXT NOT NULL, srs_id INTEGER PRIMARY KEY, organization TEXT NOT NULL,
        organization_coordsys_id INTEGER NOT NULL, definition TEXT NOT NULL, description TEXT);
    CREATE TABLE gpkg_contents (table_name TEXT PRIMARY KEY, data_type TEXT NOT NULL, identifier TEXT UNIQUE, description TEXT DEFAULT '',
        last_change DATETIME NOT NULL DEFAULT (strftime('%Y-%m-%dT%H:%M:%fZ','now')), min_x DOUBLE, min_y DOUBLE, max_x DOUBLE, max_y DOUBLE,
        srs_id INTEGER REFERENCES gpkg_spatial_ref_sys(srs_id));
    CREATE TABLE gpkg_geometry_columns (table_name TEXT NOT NULL UNIQUE REFERENCES gpkg_contents(table_name), column_name TEXT NOT NULL,
        geometry_type_name TEXT NOT NULL, srs_id INTEGER NOT NULL REFERENCES gpkg_spatial_ref_sys(srs_id), z TINYINT NOT NULL, m TINYINT NOT NULL,
        PRIMARY KEY (table_name, column_name));
"""


class Unreadable(Fault):
    """Why a file or a feature of it can't be read."""


def quoted(name: str) -> str:
    """A name of SQL."""
    return '"' + name.replace('"', '""') + '"'


def free_name(name: str, taken: set[str]) -> str:
    """The name, or one like it if it is taken: names of SQL differ by more than their case. It is taken then."""
    made, number = name, 1
    while made.lower() in taken or made.lower().startswith(("gpkg_", "sqlite_", "rtree_")):
        number += 1
        made = f"{name}_{number}" if number > 2 or name.lower() in taken else "layer_" + name
        name = name if name.lower() in taken else made
    taken.add(made.lower())
    return made


# ---- coordinates

def world(place: Sequence[float], system: int) -> list[int]:
    """The point of the map of a place in Web Mercator or in degrees."""
    x, y = shares(*place) if system == DEGREES else (place[0] / EARTH + 0.5, 0.5 - place[1] / EARTH)
    if not (math.isfinite(x) and math.isfinite(y) and -0.0000001 <= x <= 1.0000001 and -0.0000001 <= y <= 1.0000001):
        raise Unreadable("a point is outside of the world")
    return at_shares((x, y))


# ---- geometries

def blob_of(geometry: Geometry, is_several: bool) -> bytes:
    """A geometry of the map as a GeoPackage has it."""
    (kind, lists), = geometry.items()
    places = [place for part in lists for place in places_of(kind, part)]
    xs, ys = zip(*places)
    head = b"GP\0" + (b"\x01" if kind == "points" and not is_several else b"\x03") + struct.pack("<i", MERCATOR)
    box = b"" if kind == "points" and not is_several else struct.pack("<4d", min(xs), max(xs), min(ys), max(ys))
    parts = [one_of(kind, part) for part in lists]
    several = struct.pack("<BII", 1, KINDS[kind] + 3, len(parts)) if is_several else b""
    return head + box + several + b"".join(parts)


def places_of(kind: str, part: list) -> Iterator[tuple[float, float]]:
    """The places of a part of a geometry."""
    return map(metres, [part] if kind == "points" else part if kind == "lines" else [point for ring in part for point in ring])


def one_of(kind: str, part: list) -> bytes:
    """A point, a line or a polygon in well-known binary."""
    head = struct.pack("<BI", 1, KINDS[kind])
    if kind == "points":
        return head + struct.pack("<2d", *metres(part))
    if kind == "lines":
        return head + places_in(part)
    return head + struct.pack("<I", len(part)) + b"".join(places_in([*ring, ring[0]]) for ring in part)


def places_in(points: list) -> bytes:
    return struct.pack("<I", len(points)) + b"".join(struct.pack("<2d", *metres(point)) for point in points)


class Binary:
    """Reads well-known binary."""

    def __init__(self, blob: bytes, system: int) -> None:
        self.blob, self.at, self.system, self.order = blob, 0, system, "<"

    def take(self, form: str) -> tuple:
        values = struct.unpack_from(self.order + form, self.blob, self.at)
        self.at += struct.calcsize(self.order + form)
        return values

    def head(self) -> tuple[int, int]:
        """The type of the next geometry, and how many coordinates a point has."""
        self.order = "<" if self.take("B")[0] else ">"
        (code,) = self.take("I")
        return code % 1000, 2 + {0: 0, 1: 1, 2: 1, 3: 2}.get(code // 1000, 0)

    def points(self, size: int, count: int) -> list[list[int]]:
        return [world(self.take(f"{size}d")[:2], self.system) for _ in range(count)]

    def part(self) -> tuple[str, list]:
        """The parts of the next geometry: points, lines or polygons, and their kind."""
        code, size = self.head()
        if code == 1:
            return "points", self.points(size, 1)
        if code == 2:
            return "lines", [self.points(size, *self.take("I"))]
        if code == 3:
            rings = [self.points(size, *self.take("I")) for _ in range(*self.take("I"))]
            return "polygons", [[ring[:-1] if len(ring) > 1 and ring[0] == ring[-1] else ring for ring in rings]]
        if code in (4, 5, 6):
            parts = [self.part()[1] for _ in range(*self.take("I"))]
            return list(KINDS)[code - 4], [one for part in parts for one in part]
        raise Unreadable("its geometry is neither of points nor of lines nor of polygons (curves and collections aren't taken)")


def geometry_of(blob: object) -> Geometry:
    """The geometry of the map of one of a GeoPackage."""
    if not isinstance(blob, bytes) or blob[:2] != b"GP" or len(blob) < 8:
        raise Unreadable("it has no geometry")
    flags = blob[3]
    (system,) = struct.unpack_from("<i" if flags & 1 else ">i", blob, 4)
    if system not in (MERCATOR, DEGREES):
        raise Unreadable(f"its coordinates are those of system {system}: EPSG:3857 is needed")
    length = {0: 0, 1: 32, 2: 48, 3: 48, 4: 64}.get(flags >> 1 & 7)
    if length is None or flags & 16:
        raise Unreadable("it has no geometry")
    try:
        kind, parts = Binary(blob[8 + length:], system).part()
    except struct.error as fault:
        raise Unreadable("its geometry is cut short") from fault
    if not parts:
        raise Unreadable("it has no geometry")
    return {kind: parts}


# ---- files

def create(path: str) -> sqlite3.Connection:
    """A new file without tables."""
    file = sqlite3.connect(path)
    file.executescript(SCHEMA)
    file.executemany("INSERT INTO gpkg_spatial_ref_sys VALUES (?, ?, ?, ?, ?, '')", SYSTEMS)
    return file


def add_table(
    file: sqlite3.Connection,
    name: str,
    kind: str,
    is_several: bool,
    columns: Sequence[tuple[str, str]],
    rows: Iterable[tuple[int, Geometry, Sequence[Cell]]],
) -> None:
    """Adds a table. Columns are pairs of name and type; rows have an id, a geometry and a value for each column."""
    made = "".join(f", {quoted(column)} {form}" for column, form in columns)
    file.execute(f"CREATE TABLE {quoted(name)} (fid INTEGER PRIMARY KEY AUTOINCREMENT NOT NULL, geom BLOB{made})")
    marks = ", ".join("?" * (2 + len(columns)))
    xs, ys = [], []
    for number, geometry, values in rows:
        file.execute(f"INSERT INTO {quoted(name)} VALUES ({marks})", (number, blob_of(geometry, is_several), *values))
        for x, y in (place for part in geometry[kind] for place in places_of(kind, part)):
            xs.append(x)
            ys.append(y)
    form = NAMES[KINDS[kind] + (3 if is_several else 0)]
    box = (min(xs), min(ys), max(xs), max(ys)) if xs else (None,) * 4
    file.execute("INSERT INTO gpkg_contents (table_name, data_type, identifier, min_x, min_y, max_x, max_y, srs_id) VALUES (?, 'features', ?, ?, ?, ?, ?, ?)",
                 (name, name, *box, MERCATOR))
    file.execute("INSERT INTO gpkg_geometry_columns VALUES (?, 'geom', ?, ?, 0, 0)", (name, form, MERCATOR))


def tables(file: sqlite3.Connection) -> list[tuple[str, str]]:
    """The tables of features of a file, each with the name of its column of geometries."""
    return file.execute("SELECT table_name, column_name FROM gpkg_geometry_columns ORDER BY table_name").fetchall()


def plain_tables(file: sqlite3.Connection) -> list[str]:
    """The tables of a file that have no geometry, as far as it lists them."""
    return [name for name, in file.execute("SELECT table_name FROM gpkg_contents WHERE data_type = 'attributes' ORDER BY 1")]


def rows(file: sqlite3.Connection, table: str, geometry: str) -> Iterator[tuple[int, object, dict[str, Cell]]]:
    """The rows of a table: the id of each, its geometry as it is stored, and the values of its other columns with their types by their names."""
    columns = file.execute(f"PRAGMA table_info({quoted(table)})").fetchall()
    key = next((name for _, name, _, _, _, is_key in columns if is_key), "rowid")
    others = [(name, form.upper()) for _, name, form, _, _, is_key in columns if not is_key and name != geometry]
    chosen = ", ".join(quoted(name) for name in [key, geometry, *(name for name, _ in others)])
    for number, blob, *values in file.execute(f"SELECT {chosen} FROM {quoted(table)} ORDER BY 1"):
        yield number, blob, {name: typed(value, form) for (name, form), value in zip(others, values)}


def typed(value: Cell, form: str) -> Cell:
    """The value of a cell: booleans and whole numbers as such."""
    if form == "BOOLEAN" and value in (0, 1):
        return bool(value)
    return int(value) if isinstance(value, float) and value.is_integer() else value
