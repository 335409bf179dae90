"""The requests of OGC API Features (Part 1: Core, Part 2: coordinate systems), answered: whatever reads GeoJSON reads
the map of now. Needs no package."""
from __future__ import annotations

import itertools
import json
import math
import re
import time
import urllib.parse
from collections.abc import Callable, Collection, Iterable, Mapping
from typing import TYPE_CHECKING, Dict, List, Tuple, Union

from ..faults import Refused
from ..geometry.shapes import Box
from ..geometry.wholes import right_handed
from . import ogc_texts
from .downloads import CSV, GEOPACKAGE, csv_file_of, csv_of, geopackage_file_of, geopackage_of
from .far_replies import Spool
from .ogc_texts import CRS, FORMAT, GEOJSON, JSON, MOST, OPENAPI, PARAMETERS, USUAL, Document
from .projections import System, Systems
from .tables import FarTable, Table, View, around, meets, text_of

# The formats, and those of a file of features to download.
FORMATS, FILES = ("json", "geojson"), ("csv", "gpkg")
# A time of RFC 3339, or an interval, which may be open.
TIME = r"[0-9]{4}-[0-9]{2}-[0-9]{2}([Tt][0-9]{2}:[0-9]{2}:[0-9]{2}(\.[0-9]+)?([Zz]|[-+][0-9]{2}:[0-9]{2}))?"
TIMES = re.compile(rf"{TIME}|({TIME}|\.\.)?/({TIME}|\.\.)?|\.\.")


if TYPE_CHECKING:
    from .live_map import LiveMap

# The parameters of a request, and further fields of its reply.
Given = Dict[str, str]
Fields = List[Tuple[str, str]]


class Unknown(Refused):
    """Why there is no such path."""


class OgcApi:
    """The OGC API of a live map. `look`: takes what others have changed."""

    def __init__(self, live: LiveMap, look: Callable[[], object], systems: Systems | None = None) -> None:
        self.live, self.look, self.systems = live, look, systems or Systems()

    def answer(self, path: str, given: Given, address: str) -> tuple[str, bytes | Spool, Fields]:
        """The media type, the content and further fields of the reply to a request. `path`: what comes after the
        address."""
        with self.live.lock:
            self.look()
            tables = self.live.tables()
        # Tables and views stay as they are: others go on while the reply is made.
        parts = [urllib.parse.unquote(part) for part in path.strip("/").split("/")] if path.strip("/") else []
        fields: Fields = []
        found: Document | bytes | Spool
        if parts[:1] == ["collections"] and 2 <= len(parts) <= 4:
            kind, found, fields = self.collection(parts[1:], tables, given, address)
        else:
            kind, found = whole(parts, tables.values(), address, self.systems.names)
            see_names(given, ())
        return (
            kind,
            found
            if isinstance(found, (bytes, Spool))
            else json.dumps(found, ensure_ascii=False, separators=(",", ":")).encode(),
            fields,
        )

    def collection(
        self, parts: list[str], tables: Mapping[str, Table], given: Given, address: str
    ) -> tuple[str, Document | bytes | Spool, Fields]:
        """The reply about a collection, its features, or one of them."""
        table = tables.get(parts[0])
        if table is None:
            raise Unknown(f"the map has no collection {parts[0]}")
        if parts[1:2] not in ([], ["items"]):
            raise Unknown("no such path")
        here = ogc_texts.place(address, table)
        if len(parts) == 1:
            see_names(given, ())
            return JSON, ogc_texts.collection(address, table, self.systems.names), []
        system = self.systems.of(given.get("crs", CRS), "crs")
        fields = [("Content-Crs", f"<{system.name}>")]
        if len(parts) == 3:
            see_names(given, ["crs"])
            return GEOJSON, self.item(table, parts[2], here, system), fields
        box_system = self.systems.of(given.get("bbox-crs", CRS), "bbox-crs")
        if given.get("f") in FILES:
            return download(table, given, system, box_system)
        return GEOJSON, items(table, given, here, system, box_system), fields

    def item(self, table: Table, text: str, here: str, system: System) -> Document:
        """One feature."""
        with self.live.lock:
            view = self.live.views.get(int(text)) if re.fullmatch("[0-9]{1,19}", text) else None
        if view is None or view.key != (table.layer, table.kind):
            raise Unknown(f"{table.name} has no feature {text}")
        links = [
            ogc_texts.link("self", GEOJSON, f"{here}/items/{view.number}", "this feature"),
            ogc_texts.link("collection", JSON, here, table.title),
        ]
        return {**geojson(view, system), "links": links}


def whole(parts: list[str], tables: Iterable[Table], address: str, systems: list[str]) -> tuple[str, Document]:
    """The reply about all of it."""
    if not parts:
        return JSON, ogc_texts.landing(address)
    if parts == ["conformance"]:
        return JSON, {"conformsTo": ogc_texts.CLASSES}
    if parts == ["api"]:
        return OPENAPI, ogc_texts.api(address, tables, systems)
    if parts == ["collections"]:
        return JSON, ogc_texts.collections(address, tables, systems)
    raise Unknown("no such path")


def chosen(table: Table, given: Given, box_system: System) -> Iterable[View]:
    """The features that a request asks for, in the order of their ids."""
    see_names(given, [*PARAMETERS, *(tag for tag, _ in table.columns.values())], (*FORMATS, *FILES))
    boxes = boxes_of(given.get("bbox"), box_system)
    if not TIMES.fullmatch(given.get("datetime", "..")):
        raise Refused(f"datetime is no time and no interval: {given['datetime']}")
    if isinstance(table, FarTable):
        after = number_of(given, "after", 0) if "after" in given else -1
        views = table.within(around(boxes), after) if boxes else table.following(after)
        return (view for view in views if is_asked(view, table, boxes, given))
    return [view for view in table.views if is_asked(view, table, boxes, given)]


def download(table: Table, given: Given, system: System, box_system: System) -> tuple[str, bytes | Spool, Fields]:
    """All features that a request asks for, as a file."""
    found, form = chosen(table, given, box_system), given["f"]
    if form == "gpkg" and "crs" in given:
        raise Refused("a GeoPackage is written in Web Mercator: leave crs out")
    fields = [("Content-Disposition", f"attachment; filename*=UTF-8''{urllib.parse.quote(table.name, safe='')}.{form}")]
    if isinstance(table, FarTable):
        return (
            (CSV, csv_file_of(table, found, system), fields)
            if form == "csv"
            else (GEOPACKAGE, geopackage_file_of(table, found), fields)
        )
    return (
        (CSV, csv_of(table, found, system), fields)
        if form == "csv"
        else (GEOPACKAGE, geopackage_of(table, found), fields)
    )


def items(table: Table, given: Given, here: str, system: System, box_system: System) -> Document:
    """A page of features. The next one begins after the last id, so no feature is listed twice while others edit."""
    found = chosen(table, given, box_system)
    after, limit = number_of(given, "after", 0), min(number_of(given, "limit", USUAL), MOST)
    if limit == 0:
        raise Refused("limit is 0")
    if isinstance(table, FarTable):
        # One more than the page has says whether there is another page.
        left = list(itertools.islice(found, limit + 1))
        matched = matched_of(table, given, left, limit)
    else:
        every = list(found)
        left = [view for view in every if view.number > after] if "after" in given else every
        matched = {"numberMatched": len(every)}
    page = left[:limit]
    links = [
        ogc_texts.link("self", GEOJSON, with_query(here, given), "this page"),
        ogc_texts.link("collection", JSON, here, table.title),
    ]
    if len(left) > limit:
        links.append(
            ogc_texts.link("next", GEOJSON, with_query(here, {**given, "after": str(page[-1].number)}), "the next page")
        )
    plain = {name: value for name, value in given.items() if name not in ("limit", "after", "f", "crs")}
    links += [
        ogc_texts.link(
            "alternate", kind.split(";")[0], with_query(here, {**plain, "f": form}), f"all of them as {named}"
        )
        for form, kind, named in (("csv", CSV, "CSV"), ("gpkg", GEOPACKAGE, "GeoPackage"))
    ]
    return {
        "type": "FeatureCollection",
        "features": [geojson(view, system) for view in page],
        "links": links,
        **matched,
        "numberReturned": len(page),
        "timeStamp": time.strftime("%Y-%m-%dT%H:%M:%SZ", time.gmtime()),
    }


def matched_of(table: Table, given: Given, left: list[View], limit: int) -> Document:
    """How many features of a map that isn't held a request asks for, if that is known without reading them all: the
    standard lets it be left out."""
    if not [name for name in given if name not in ("limit", "after", "f", "crs", "datetime", "bbox-crs")]:
        return {"numberMatched": table.count}
    return {"numberMatched": len(left)} if len(left) <= limit and "after" not in given else {}


def is_asked(view: View, table: Table, boxes: list[Box], given: Given) -> bool:
    """Whether a feature is in one of the boxes, if there are any, and has the values that a request asks for."""
    if boxes and not any(meets(view.box, box) for box in boxes):
        return False
    tags = view.feature["tags"]
    return all(
        text_of(tags.get(tag), form) == given[tag]
        for tag, form in table.columns.values()
        if tag in given and tag not in PARAMETERS
    )


def with_query(here: str, given: Given) -> str:
    """The address of features with these parameters."""
    return f"{here}/items" + (f"?{urllib.parse.urlencode(given)}" if given else "")


def see_names(given: Given, names: Collection[str], formats: Collection[str] = FORMATS) -> None:
    """Refuses parameters that a path doesn't have, and formats that there aren't."""
    wrong = [name for name in given if name not in (*names, *FORMAT)]
    if wrong:
        raise Refused(f"there is no parameter {wrong[0]}")
    if given.get("f", FORMATS[0]) not in formats:
        raise Refused(f"there is no format {given['f']}, but {', '.join(formats)}")


def number_of(given: Given, name: str, usual: int) -> int:
    """The number that a parameter has."""
    text = given.get(name, str(usual))
    if not re.fullmatch("[0-9]{1,19}", text):
        raise Refused(f"{name} is no number: {text}")
    return int(text)


def boxes_of(text: str | None, system: System) -> list[Box]:
    """The boxes of the map that the parameter bbox has, in a system."""
    if text is None:
        return []
    try:
        parts = [float(part) for part in text.split(",")]
    except ValueError:
        parts = []
    if len(parts) == 6:
        parts = parts[:2] + parts[3:5]
    if len(parts) != 4 or not all(math.isfinite(part) for part in parts):
        raise Refused(f"bbox has four numbers, those of the least corner before those of the greatest: {text}")
    return system.box(parts)


def geojson(view: View, system: System) -> Document:
    """A feature, its rings in the directions of GeoJSON."""
    feature = right_handed(view.feature)
    rest = {name: feature[name] for name in ("layer", "minzoom", "maxzoom")}
    return {
        "type": "Feature",
        "id": view.number,
        **rest,
        "properties": feature["tags"],
        "geometry": system.geometry(feature["geometry"]),
    }
