"""Features as files to download: CSV for tables, and GeoPackage for a desktop GIS. Needs no package."""
from __future__ import annotations

import codecs
import csv
import io
import os
import shutil
import tempfile
import threading
from collections.abc import Iterable
from typing import Any

from ..files import geopackage
from ..files.checkout_file import ZOOMS, cell_of
from ..forms import Value
from ..geometry.wholes import right_handed
from .far_replies import Spool
from .projections import System
from .tables import Table, View

CSV, GEOPACKAGE = "text/csv; charset=utf-8; header=present", "application/geopackage+sqlite3"
WKT = {
    "Point": "POINT",
    "LineString": "LINESTRING",
    "Polygon": "POLYGON",
    "MultiPoint": "MULTIPOINT",
    "MultiLineString": "MULTILINESTRING",
    "MultiPolygon": "MULTIPOLYGON",
}
# One file is made at a time: it may have all features of the map.
TURN = threading.Lock()


def csv_of(table: Table, views: Iterable[View], system: System) -> bytes:
    """A table as CSV: ids, places, tags and zooms. Excel takes it for UTF-8 by its first letter."""
    with TURN:
        file = io.StringIO()
        write_csv(file, table, views, system)
        return ("\ufeff" + file.getvalue()).encode(errors="replace")


def csv_file_of(table: Table, views: Iterable[View], system: System) -> Spool:
    """The same in a file, for a table that may be very large."""
    made = Spool()
    with TURN:
        made.file = tempfile.TemporaryFile()
        writer = codecs.getwriter("utf-8")(made.file, errors="replace")
        writer.write("\ufeff")
        write_csv(writer, table, views, system)
    return made


def write_csv(file: Any, table: Table, views: Iterable[View], system: System) -> None:
    """Writes a table as CSV, but for its first letter."""
    is_point = table.kind == "points" and not table.is_several
    names = (["lon", "lat"] if system.digits == 8 else ["x", "y"]) if is_point else ["wkt"]
    writer = csv.writer(file)
    writer.writerow(["id", *names, *(tag for tag, _ in table.columns.values()), *ZOOMS])
    for view in views:
        geometry = system.geometry(right_handed(view.feature)["geometry"])
        place: list
        if is_point:
            place = in_gis_order(geometry["coordinates"], system)
        else:
            place = [wkt(geometry, system)]
        tags = view.feature["tags"]
        writer.writerow(
            [
                view.number,
                *place,
                *(text_of(tags.get(tag)) for tag, _ in table.columns.values()),
                *(view.feature[zoom] for zoom in ZOOMS),
            ]
        )


def text_of(value: Value | None) -> Value | None:
    """The value of a tag in CSV."""
    return ("true" if value else "false") if isinstance(value, bool) else value


def in_gis_order(place: list[float], system: System) -> list[float]:
    """A place, east before north."""
    return place[::-1] if system.is_swapped else place


def wkt(geometry: dict[str, Any], system: System) -> str:
    """A geometry of GeoJSON as text, east before north."""
    return f"{WKT[geometry['type']]} {wkt_of(geometry['coordinates'], system)}"


def wkt_of(parts: list, system: System) -> str:
    """The text of coordinates."""
    if not isinstance(parts[0], list):
        return f"({' '.join(map(str, in_gis_order(parts, system)))})"
    inner = [wkt_of(part, system) for part in parts]
    return f"({', '.join(part[1:-1] if not isinstance(parts[0][0], list) else part for part in inner)})"


def geopackage_of(table: Table, views: Iterable[View]) -> bytes:
    """A table as a GeoPackage, in Web Mercator."""
    with TURN, tempfile.TemporaryDirectory() as folder:
        with open(geopackage_at(folder, table, views), "rb") as made:
            return made.read()


def geopackage_file_of(table: Table, views: Iterable[View]) -> Spool:
    """The same in a file, for a table that may be very large."""
    found = Spool()
    with TURN, tempfile.TemporaryDirectory() as folder:
        found.file = tempfile.TemporaryFile()
        with open(geopackage_at(folder, table, views), "rb") as made:
            shutil.copyfileobj(made, found.file)
    return found


def geopackage_at(folder: str, table: Table, views: Iterable[View]) -> str:
    """Writes a table as a GeoPackage into a folder. Returns its path."""
    path = os.path.join(folder, "map.gpkg")
    file = geopackage.create(path)
    taken = {"fid", "geom", "rowid", "oid", "_rowid_", *ZOOMS}
    columns = [(geopackage.free_name(tag, taken), tag, form) for tag, form in table.columns.values()]
    rows = (
        (
            view.number,
            view.feature["geometry"],
            [
                *(cell_of(view.feature["tags"].get(tag), form) for _, tag, form in columns),
                *(view.feature[zoom] for zoom in ZOOMS),
            ],
        )
        for view in views
    )
    with file:
        geopackage.add_table(
            file,
            table.name.replace(".", "_"),
            table.kind,
            table.is_several,
            [*((name, form) for name, _, form in columns), *((zoom, "INTEGER") for zoom in ZOOMS)],
            rows,
        )
    file.close()
    return path
