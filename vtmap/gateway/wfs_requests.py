"""What a request of WFS asks, by its parameters or by its XML. Needs no package."""
from __future__ import annotations

import itertools
import re
from collections.abc import Collection, Iterable, Mapping
from typing import Any, Dict
from xml.etree.ElementTree import Element

from ..faults import Refused
from ..files.checkout_file import ZOOMS
from ..geometry.gml import local
from .actions import type_in
from .filters import NAMES
from .tables import ID, SHAPE, Table, View
from .wfs_texts import V1, V2, VERSIONS, Version

CAPABILITIES, SCHEMA, FEATURES, VALUES = "getcapabilities", "describefeaturetype", "getfeature", "getpropertyvalue"
LISTED, DESCRIBED = "liststoredqueries", "describestoredqueries"
# The requests that read, and those of WFS 2 alone.
READS, OF_V2 = (CAPABILITIES, SCHEMA, FEATURES, VALUES, LISTED, DESCRIBED), (VALUES, LISTED, DESCRIBED)
# The one stored query, by its names in WFS 2.0.0 and 2.0.2.
BY_ID = "urn:ogc:def:query:OGC-WFS::GetFeatureById"
BY_ID_NAMES = (BY_ID, "http://www.opengis.net/def/query/OGC-WFS/0/GetFeatureById")
# Formats by the versions, without blanks and plus signs, which a query turns into blanks.
FORMATS = {
    V2: (
        "application/gmlxml;version=3.2",
        "text/xml;subtype=gml/3.2",
        "text/xml;subtype=gml/3.2.1",
        "text/xml",
        "gml32",
    ),
    V1: ("text/xml;subtype=gml/3.1.1", "text/xml", "gml3", "gml31", "xmlschema"),
}
# The parameters of a request, or of a query of it: texts, and the filter of XML.
Given = Dict[str, Any]
# The most queries of a request, and the most properties by which features are sorted.
MOST_QUERIES, MOST_SORTS = 50, 10
# The most features of a map that isn't held that are sorted.
MOST_SORTED = 10_000
DOWN = {"A": False, "ASC": False, "D": True, "DESC": True}
# The attributes of a request by XML, and of a query in it, by the names of parameters.
OF_REQUEST = {
    "version": "version",
    "service": "service",
    "outputFormat": "outputformat",
    "count": "count",
    "maxFeatures": "maxfeatures",
    "startIndex": "startindex",
    "resultType": "resulttype",
    "valueReference": "valuereference",
}
OF_QUERY = {"typeName": "typename", "typeNames": "typenames", "srsName": "srsname"}


class Invalid(Refused):
    """Why a request isn't answered: with the code that the standard has for it, and the parameter that it is about."""

    def __init__(self, code: str, locator: str, text: str) -> None:
        super().__init__(text)
        self.code, self.locator = code, locator


def invalid(locator: str, text: str) -> Invalid:
    """A parameter has a value that isn't taken."""
    return Invalid("InvalidParameterValue", locator, text)


# ---- versions


def numbers_of(version: str) -> list[int]:
    """The parts of a version's number."""
    if not re.fullmatch(r"[0-9]{1,3}(\.[0-9]{1,3}){0,2}", version):
        raise invalid("version", f"{version} is no version")
    return [int(part) for part in version.split(".")]


def version_of(given: Given) -> Version:
    """The version of a reply. A client that asks what there is may name several that it takes, the first one first; as
    in WFS 1 one alone stands for the greatest one that isn't above it."""
    request, asked, taken = given.get("request", "").lower(), given.get("version"), given.get("acceptversions")
    if request != CAPABILITIES:
        if asked and asked not in VERSIONS:
            raise invalid("version", f"version {asked} isn't spoken: {' and '.join(VERSIONS)} are")
        return VERSIONS[asked] if asked else V2
    if taken:
        known = [one.strip() for one in taken.split(",") if one.strip() in VERSIONS]
        if not known:
            raise Invalid(
                "VersionNegotiationFailed",
                "AcceptVersions",
                f"none of the versions {taken} is spoken: {' and '.join(VERSIONS)} are",
            )
        return VERSIONS[known[0]]
    if not asked:
        return V2
    below = [name for name in VERSIONS if numbers_of(name) <= numbers_of(asked)]
    return VERSIONS[max(below, key=numbers_of) if below else min(VERSIONS, key=numbers_of)]


def request_of(given: Given, version: Version) -> str:
    """Which request it is, in small letters."""
    request = given.get("request", "")
    if not request:
        raise Invalid("MissingParameterValue", "request", "no such request: it names none")
    if given.get("service", "WFS").upper() != "WFS":
        raise invalid("service", f"there is no service {given['service']}: WFS is the only one")
    if request.lower() not in READS or (version is not V2 and request.lower() in OF_V2):
        raise Invalid("OperationNotSupported", "request", f"no such request: {request}")
    return request.lower()


def see_format(text: str | None, version: Version) -> None:
    """Refuses formats in which nothing is written."""
    if text and re.sub(r"[\s+]", "", text).lower() not in FORMATS[version]:
        raise invalid("outputFormat", f"OUTPUTFORMAT {text} isn't written: {version.format} is")


# ---- XML


def given_in(root: Element) -> tuple[Given, list[Given]]:
    """The parameters that a request by XML has, and those of each of its queries."""
    given, queries = {"request": local(root), **attributes(root, OF_REQUEST)}, []
    lists = {"AcceptVersions": "acceptversions", "TypeName": "typename", "StoredQueryId": "storedquery_id"}
    for name, to in lists.items():
        texts = [
            text
            for part in root
            if local(part) == name
            for text in [part.text, *(child.text for child in part)]
            if text and text.strip()
        ]
        if texts:
            given[to] = ",".join(texts)
    for part in root:
        if local(part) in ("Query", "StoredQuery"):
            queries.append(query_in(part) if local(part) == "Query" else stored_in(part))
        if len(queries) > MOST_QUERIES:
            raise invalid("Query", f"a request has at most {MOST_QUERIES} queries")
    return given, queries


def attributes(element: Element, names: Mapping[str, str]) -> Given:
    """The attributes of an element by the names of parameters."""
    return {to: element.get(of) for of, to in names.items() if element.get(of) is not None}


def query_in(element: Element) -> Given:
    """The parameters of a query."""
    given = attributes(element, OF_QUERY)
    if "typenames" in given:
        given["typenames"] = ",".join(given["typenames"].split())
    parts = {name: [part for part in element if local(part) == name] for name in ("PropertyName", "Filter", "SortBy")}
    if len(element) > sum(map(len, parts.values())) or len(parts["Filter"]) > 1 or len(parts["SortBy"]) > 1:
        raise invalid("Query", "a query has names of properties, and one filter and one sorting at most")
    if parts["PropertyName"]:
        given["propertyname"] = ",".join(part.text or "" for part in parts["PropertyName"])
    if parts["Filter"]:
        given["filter"] = parts["Filter"][0]
    if parts["SortBy"]:
        given["sortby"] = ",".join(sorted_by(child) for child in parts["SortBy"][0])
    return given


def sorted_by(element: Element) -> str:
    """What an element says by which features are sorted, as the parameter says it."""
    said = {local(child): (child.text or "").strip() for child in element}
    return f"{next((said[name] for name in NAMES if name in said), '')} {said.get('SortOrder', 'ASC')}"


def stored_in(element: Element) -> Given:
    """The parameters of a stored query."""
    return {
        "storedquery_id": element.get("id", ""),
        **{child.get("name", "").lower(): child.text or "" for child in element},
    }


# ---- columns


def name_in(text: str) -> str:
    """The name of a column that a text says."""
    return type_in(text.strip().split("/")[-1])


def columns_in(text: str | None, tables: Collection[Table]) -> dict[str, frozenset[str] | None]:
    """The columns that are asked for of each table, by its name: None for all. Of several tables each may have a list
    of its own, in parentheses."""
    lists = re.findall(r"\(([^()]*)\)", text) if text and text.startswith("(") else [text or ""]
    if len(lists) not in (1, len(tables)):
        raise invalid("propertyName", f"PROPERTYNAME has {len(lists)} lists for {len(tables)} layers")
    return {table.name: columns_of(lists[at] if len(lists) > 1 else lists[0], table) for at, table in enumerate(tables)}


def columns_of(text: str, table: Table) -> frozenset[str] | None:
    """The columns of a table that a list names; None for all."""
    names = [name_in(part) for part in text.split(",") if part.strip()]
    if not names or "*" in names:
        return None
    for name in names:
        see_column(name, table, "propertyName")
    return frozenset(names)


def see_column(name: str, table: Table, locator: str) -> None:
    """Refuses a column that a table doesn't have."""
    if name not in (SHAPE, ID, *table.columns, *ZOOMS):
        raise invalid(locator, f"{table.name} has no property {name}")


def in_order(views: Iterable[View], text: str | None, table: Table) -> Iterable[View]:
    """Views of a table, sorted as the parameter SORTBY says: what has no value comes last. Equal ones stay in the order
    of their ids."""
    parts = [part.split() for part in re.split(r"[,()]", text or "") if part.strip()]
    if parts and not isinstance(views, list):
        # Of a map that isn't held.
        views = list(itertools.islice(views, MOST_SORTED + 1))
        if len(views) > MOST_SORTED:
            raise invalid(
                "sortBy",
                f"SORTBY of over {MOST_SORTED:,} features isn't taken of a map of this size: name a box, or a filter",
            )
    if len(parts) > MOST_SORTS:
        raise invalid("sortBy", f"SORTBY has at most {MOST_SORTS} properties")
    for part in reversed(parts):
        name, order = name_in(part[0]), part[1].upper() if len(part) > 1 else "ASC"
        see_column(name, table, "sortBy")
        if name == SHAPE or order not in DOWN or len(part) > 2:
            raise invalid("sortBy", f"SORTBY {' '.join(part)} isn't taken: a property and ASC or DESC are")
        cells: dict[int, Any] = {view.number: table.cell(view, name) for view in views}
        there = sorted(
            (view for view in views if cells[view.number] is not None),
            key=lambda view: cells[view.number],
            reverse=DOWN[order],
        )
        views = there + [view for view in views if cells[view.number] is None]
    return views
