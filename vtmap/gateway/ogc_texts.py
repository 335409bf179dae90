"""The documents of OGC API Features that say what there is: landing page, conformance, collections, and the description
of the API. Needs no package."""
from __future__ import annotations

import urllib.parse
from collections.abc import Iterable, Mapping, Sequence
from typing import Any, Dict

from ..geometry.world import WORLD, degrees
from .tables import Table

JSON, GEOJSON, OPENAPI = "application/json", "application/geo+json", "application/vnd.oai.openapi+json;version=3.0"
CLASSES = [
    *(f"http://www.opengis.net/spec/ogcapi-features-1/1.0/conf/{name}" for name in ("core", "oas30", "geojson")),
    "http://www.opengis.net/spec/ogcapi-features-2/1.0/conf/crs",
]
CRS, STORED = "http://www.opengis.net/def/crs/OGC/1.3/CRS84", "http://www.opengis.net/def/crs/EPSG/0/3857"
# A document of JSON.
Document = Dict[str, Any]
ABOUT = "The features of the map as they are now, to be read."
# How many features a page has if the client doesn't say so, and at most.
USUAL, MOST = 1000, 10000
TYPES = {"TEXT": "string", "INTEGER": "integer", "BOOLEAN": "boolean"}
# The parameters of items, beside the properties of a collection.
PARAMETERS: dict[str, Document] = {
    "bbox": {
        "description": "West, south, east and north in degrees.",
        "style": "form",
        "explode": False,
        "schema": {"type": "array", "minItems": 4, "maxItems": 6, "items": {"type": "number"}},
    },
    "limit": {
        "description": "How many features a page has at most.",
        "style": "form",
        "explode": False,
        "schema": {"type": "integer", "minimum": 1, "maximum": MOST, "default": USUAL},
    },
    "datetime": {
        "description": "Features have no time: each of them is returned.",
        "style": "form",
        "explode": False,
        "schema": {"type": "string"},
    },
    "crs": {
        "description": "The coordinate system of the reply: one of those that the collection lists.",
        "schema": {"type": "string", "format": "uri"},
    },
    "bbox-crs": {"description": "The coordinate system of bbox.", "schema": {"type": "string", "format": "uri"}},
    "after": {
        "description": "The id of a feature: those with greater ids are returned. `next` of a page has it.",
        "schema": {"type": "integer", "minimum": 0},
    },
}
# Of each path; of items csv and gpkg too, which have all features that are asked for.
FORMAT: dict[str, Document] = {
    "f": {"description": "The format.", "schema": {"type": "string", "enum": ["json", "geojson"]}}
}
FILE: dict[str, Document] = {
    "file": {
        "name": "f",
        "in": "query",
        "required": False,
        "description": "The format: csv and gpkg are files with all features that are asked for.",
        "schema": {"type": "string", "enum": ["json", "geojson", "csv", "gpkg"]},
    }
}


def link(rel: str, kind: str, href: str, title: str) -> dict[str, str]:
    """A link of a document."""
    return {"rel": rel, "type": kind, "href": href, "title": title}


def landing(address: str) -> Document:
    """The first page."""
    return {
        "title": "vtserve",
        "description": ABOUT,
        "links": [
            link("self", JSON, f"{address}/", "this document"),
            link("service-desc", OPENAPI, f"{address}/api", "the API"),
            link("conformance", JSON, f"{address}/conformance", "what of the standard there is"),
            link("data", JSON, f"{address}/collections", "the collections"),
        ],
    }


def collections(address: str, tables: Iterable[Table], systems: list[str]) -> Document:
    """All collections. Each has all coordinate systems, which are listed once."""
    return {
        "links": [link("self", JSON, f"{address}/collections", "this document")],
        "crs": systems,
        "collections": [collection(address, table, ["#/crs"]) for table in tables],
    }


def place(address: str, table: Table) -> str:
    """The address of a collection."""
    return f"{address}/collections/{urllib.parse.quote(table.name)}"


def collection(address: str, table: Table, systems: list[str]) -> Document:
    """A collection: the features of one kind of one layer."""
    west, north, east, south = table.box or (0, 0, WORLD - 1, WORLD - 1)
    here = place(address, table)
    return {
        "id": table.name,
        "title": table.title,
        "itemType": "feature",
        "crs": systems,
        "storageCrs": STORED,
        "extent": {"spatial": {"bbox": [[*degrees((west, south)), *degrees((east, north))]], "crs": CRS}},
        "links": [
            link("self", JSON, here, table.title),
            link("items", GEOJSON, f"{here}/items", f"the features of {table.title}"),
        ],
    }


def parameter(name: str, about: Mapping[str, object]) -> Document:
    """A parameter of the query."""
    return {"name": name, "in": "query", "required": False, **about}


def api(address: str, tables: Iterable[Table], systems: list[str]) -> Document:
    """The description of the API by OpenAPI 3.0."""
    shared = {**{name: parameter(name, about) for name, about in {**PARAMETERS, **FORMAT}.items()}, **FILE}
    for name in ("crs", "bbox-crs"):
        shared[name] = {**shared[name], "schema": {"type": "string", "format": "uri", "enum": systems, "default": CRS}}
    named, crs = [{"$ref": f"#/components/parameters/{name}"} for name in PARAMETERS], {
        "$ref": "#/components/parameters/crs"
    }
    paths = {
        "/": operation("landing page", JSON),
        "/conformance": operation("conformance", JSON),
        "/collections": operation("collections", JSON),
    }
    for table in tables:
        own = [
            parameter(tag, {"schema": {"type": TYPES[form]}})
            for tag, form in table.columns.values()
            if tag not in shared
        ]
        here = f"/collections/{urllib.parse.quote(table.name)}"
        paths[here] = operation(table.title, JSON)
        paths[f"{here}/items"] = operation(f"features of {table.title}", GEOJSON, [*named, *own], "file")
        number = {"name": "featureId", "in": "path", "required": True, "schema": {"type": "string"}}
        paths[f"{here}/items/{{featureId}}"] = operation(f"a feature of {table.title}", GEOJSON, [number, crs])
    return {
        "openapi": "3.0.3",
        "info": {"title": "vtserve", "description": ABOUT, "version": "1.0.0"},
        "servers": [{"url": address}],
        "paths": paths,
        "components": {"parameters": shared},
    }


def operation(summary: str, kind: str, parameters: Sequence[object] = (), form: str = "f") -> Document:
    """How a path is asked for. `form`: the parameter that names the format."""
    refusals = {
        status: {"description": text, "content": {JSON: {"schema": {"type": "object"}}}}
        for status, text in (("400", "refused"), ("404", "not found"))
    }
    reply = {"description": summary, "content": {kind: {"schema": {"type": "object"}}}}
    return {
        "get": {
            "summary": summary,
            "parameters": [*parameters, {"$ref": f"#/components/parameters/{form}"}],
            "responses": {"200": reply, **refusals},
        }
    }
