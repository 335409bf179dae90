"""WMTS 1.0.0 (OGC 07-057r7): what is asked for, by pairs of a query or by the parts of a path. Needs no package."""
from __future__ import annotations

import re
import urllib.parse
from typing import NamedTuple

from ..faults import Fault
from .tiles import is_place

VERSION, LAYER, MATRICES, PNG = "1.0.0", "map", "GoogleMapsCompatible", "image/png"
# The styles: with the background of the map, and without.
OPAQUE, TRANSPARENT = "default", "transparent"
STYLES = (OPAQUE, TRANSPARENT)
NUMBER = re.compile("0|[1-9][0-9]{0,8}")
# The path of the capabilities, and those of tiles, below the service's.
CAPABILITIES = f"/{VERSION}/WMTSCapabilities.xml"
TILE = re.compile(rf"/{re.escape(VERSION)}/([^/]+)/([^/]+)/([^/]+)/([^/]+)/([^/]+)/([^/]+)\.png")
# What a request for a tile says, in the order in which it is judged.
WORDS = ("version", "layer", "style", "format", "tilematrixset", "tilematrix", "tilerow", "tilecol")
SPELLED = dict(zip(WORDS, ("version", "Layer", "Style", "Format", "TileMatrixSet", "TileMatrix", "TileRow", "TileCol")))


class Report(Fault):
    """A refusal as the standard has it: its code, what is meant by it, and the status."""

    def __init__(self, code: str, locator: str, text: str, http_status: int = 400) -> None:
        super().__init__(text)
        self.code, self.locator, self.http_status = code, locator, http_status


class Asked(NamedTuple):
    """What is asked for: a tile by zoom, column and row, or the capabilities if there is no place."""

    place: tuple[int, int, int] | None = None
    is_transparent: bool = False


def by_query(query: str) -> Asked:
    """What a query asks for. Raises `Report`."""
    given: dict[str, str] = {}
    for name, value in urllib.parse.parse_qsl(query, keep_blank_values=True, max_num_fields=100):
        if given.setdefault(name.lower(), value) != value:
            raise Report("InvalidParameterValue", name, f"{name} is said twice")
    service = needed(given, "service")
    if service != "WMTS":
        raise Report(
            "InvalidParameterValue", "service", f"this service is WMTS: its capabilities are at wmts{CAPABILITIES}"
        )
    request = needed(given, "request")
    if request == "GetCapabilities":
        versions = given.get("acceptversions", VERSION).split(",")
        if VERSION not in versions:
            raise Report("VersionNegotiationFailed", "acceptversions", f"the version is {VERSION}")
        return Asked()
    if request == "GetTile":
        return tile_of([needed(given, word) for word in WORDS])
    if request == "GetFeatureInfo":
        raise Report("OperationNotSupported", request, "features are read by WFS or OGC API Features (/wfs, /ogc)", 501)
    raise Report("InvalidParameterValue", "request", "request is GetCapabilities or GetTile")


def by_path(path: str) -> Asked | None:
    """What a path below the service's asks for, None if there is nothing. Raises `Report`."""
    if path == CAPABILITIES:
        return Asked()
    found = TILE.fullmatch(path)
    if found is None:
        return None
    layer, style, *rest = found.groups()
    return tile_of([VERSION, layer, style, PNG, *rest])


def needed(given: dict[str, str], word: str) -> str:
    """A value that a request needs."""
    name = SPELLED.get(word, word)
    if not given.get(word):
        raise Report("MissingParameterValue", name, f"{name} is needed")
    return given[word]


def tile_of(values: list[str]) -> Asked:
    """The tile of these values of `WORDS`."""
    known = {"version": (VERSION,), "layer": (LAYER,), "style": STYLES, "format": (PNG,), "tilematrixset": (MATRICES,)}
    said = dict(zip(WORDS, values))
    for word, choices in known.items():
        if said[word] not in choices:
            raise Report("InvalidParameterValue", SPELLED[word], f"{SPELLED[word]} is {' or '.join(choices)}")
    for word in WORDS[len(known) :]:
        if not NUMBER.fullmatch(said[word]):
            raise Report("InvalidParameterValue", SPELLED[word], f"{SPELLED[word]} is a number")
    zoom, row, column = (int(said[word]) for word in WORDS[len(known) :])
    if not is_place(zoom, 0, 0):
        raise Report("InvalidParameterValue", "TileMatrix", "there is no such TileMatrix")
    if not is_place(zoom, 0, row):
        raise Report("TileOutOfRange", "TileRow", f"TileRow is from 0 to {2 ** zoom - 1}")
    if not is_place(zoom, column, row):
        raise Report("TileOutOfRange", "TileCol", f"TileCol is from 0 to {2 ** zoom - 1}")
    return Asked((zoom, column, row), said["style"] == TRANSPARENT)
