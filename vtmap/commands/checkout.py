"""`vtmap checkout`: writes features of the map into a GeoPackage, for a desktop GIS. Needs no package."""
from __future__ import annotations

import argparse
import os
import sqlite3

from ..client.client import Client
from ..ending import regular
from ..faults import Stopped
from ..files.base_file import types_in
from ..files.checkout_file import Unusable, write
from ..forms import Feature, Status
from ..geometry.shapes import points_of
from ..geometry.wholes import Whole, wholes_of
from ..geometry.world import world

ABOUT = {"checkout": """Writes a GeoPackage with a table for each layer of the map, to edit it in QGIS, or what else edits such files.

    vtmap checkout town.gpkg
    (edit town.gpkg in QGIS, and save the edits there)
    vtmap checkin town.gpkg

A layer that has points, lines and areas is several tables. Tags are columns, and so are the zooms that show a feature. A feature that the
import has cut is one feature here. Numbers with a fraction and dates are texts on the map: --base FILE, which `vtmap import` keeps (IDS.base,
or FILE.base beside the imported file), gives their columns the types that they had. --layer and --bbox choose a part of the map: what isn't in
the file isn't touched by `vtmap checkin`. The server needs --admin."""}


def options(parser: argparse.ArgumentParser, _: str) -> None:
    """The words of the command."""
    parser.add_argument("file", help="the GeoPackage (.gpkg) that is written")
    parser.add_argument("--layer", action="append", help="a layer of the map; may be repeated (all)")
    parser.add_argument("--bbox", type=box_of, help="only what meets this box: WEST,SOUTH,EAST,NORTH in degrees")
    parser.add_argument("--base", metavar="FILE", help="what `vtmap import` keeps beside a file or its ids: columns get the types that they had there")
    parser.add_argument("--force", action="store_true", help="replace the file if it is there")


def box_of(text: str) -> list[float]:
    """The box of four numbers."""
    west, south, east, north = map(float, text.split(","))
    if not (-180 <= west < east <= 180 and -85.06 <= south < north <= 85.06):
        raise argparse.ArgumentTypeError("west, south, east and north in degrees are needed, as in 7.4,54.4,7.6,54.6")
    return [west, max(south, -85.0511), east, min(north, 85.0511)]


class Choice:
    """Which features are chosen, by their layers and a box."""

    def __init__(self, layers: list[str] | None, box: list[float] | None) -> None:
        self.layers, self.box = layers, box
        if box:
            west, south, east, north = box
            self.corners = world((west, north)), world((east, south))

    def has(self, whole: Whole) -> bool:
        return self.meets(whole.feature)

    def meets(self, feature: Feature) -> bool:
        if self.layers and feature["layer"] not in self.layers:
            return False
        if not self.box:
            return True
        (west, north), (east, south) = self.corners
        xs, ys = zip(*points_of(feature["geometry"]))
        return min(xs) <= east and max(xs) >= west and min(ys) <= south and max(ys) >= north


def work(words: argparse.Namespace) -> int:
    """Writes the file."""
    if os.path.exists(regular(words.file)) and not words.force:
        raise Unusable(f"{words.file} exists: check it in, and give --force to write it anew")
    client = Client(words.url)
    status = needed(client.status())
    choice = Choice(words.layer, words.bbox)
    wholes = [whole for whole in wholes_of(client.features()) if choice.has(whole)]
    if not wholes:
        raise Unusable("the map has no such features")
    told = {"url": client.address, "edit": status["edits"], "layers": words.layer, "bbox": words.bbox}
    try:
        tables = write(words.file, wholes, told, types_in(words.base) if words.base else {})
    except sqlite3.Error as fault:
        raise Unusable(f"{words.file}: {fault}") from fault
    print(f"{words.file}: {len(wholes):,} features in {tables} tables, of edit {status['edits']}")
    return 0


def needed(status: Status | None) -> Status:
    """The status, which a server without --admin doesn't tell."""
    if status is None:
        raise Stopped("the server doesn't list its features: start it with --admin")
    return status
