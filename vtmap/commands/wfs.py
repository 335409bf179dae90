"""`vtmap wfs`: a gateway by which QGIS edits the live map, and others read it. Needs GDAL's Python module for shapes that are cut alone."""
from __future__ import annotations

import argparse
import re
import signal
import sys
import threading
from typing import Any

from .. import alive
from ..files.checkout_file import KINDS
from ..gateway.far_map import HELD
from ..gateway.listener import listener
from ..gateway.maps import Maps
from ..gateway.one_map import OneMap, OnlyMap
from ..gateway.projections import Systems
from ..interpreters import look_for
from ..machine.machine import Machine

ABOUT = {"wfs": """Lets a desktop GIS edit the map itself, by WFS, and other programs read it, by OGC API Features.

    vtmap wfs --state wfs.state

QGIS adds http://127.0.0.1:8090/wfs as a WFS connection (docs/OFFICE.md). GDAL, Leaflet, OpenLayers and geopandas read GeoJSON below
http://127.0.0.1:8090/ogc/. It listens on 127.0.0.1 alone: on the machine of whoever edits, or beside the server behind nginx.

Each layer of the map is a layer there for each kind of shapes that it has. Tags are attributes, and so are the zooms that show a feature. A feature
that the import has cut is one feature.

What QGIS saves by one Transaction is made by checked edits, all of it or nothing: if somebody else has changed a feature since QGIS got it, nothing
is saved, and QGIS shows which feature that is. What a save needs is noted in the file of --state before it is sent, so that a save that was cut
short is undone by the next start; the file also has what each QGIS has saved, so that a restart isn't noticed. Without it both end with the
process. --log FILE appends who has saved what, for `vtmap log --nginx FILE`. Behind nginx --behind-nginx takes the name or the address of whoever
saves from nginx; without it that is 127.0.0.1. --schema FILE names the layers, fields, choices and zooms that the map is to have: what is saved has
to fit them, and `vtmap schema add` adds to it. --files FOLDER takes photos and files (JPEG, PNG, GIF, WebP, PDF, up to 20 MiB) at /files/,
which tags name as files/HASH.jpg; `vtmap files` lists those that no feature names.

--history FILE names what `vtmap follow --log` writes: by it /wfs/history/ID tells the page what has become of a feature, with the names of who edited
it by the logs of --nginx and --log.

--maps answers for each map of a machine with several (`vtmap maps`), at /NAME/wfs, /NAME/ogc/ and /NAME/files/, or for the map that nginx names in the
field X-Map (--behind-nginx). {map}, {port} and {gateway} in the other words are the name and the ports of each. A map is opened by the first request for
it, and gives up its memory after --idle seconds without one. Maps may be added and removed meanwhile.

    vtmap wfs --maps --url http://127.0.0.1:{port} --state /var/lib/vtserve-wfs/{map}/state

The server needs --admin. Large shapes are cut, for which GDAL's Python module is needed. It ends with 0 at SIGTERM, once a save that is under way
is made. If systemd waits for it (WatchdogSec), it asks itself again and again whether it answers, and says so."""}
FORMS = {"text": "TEXT", "integer": "INTEGER", "boolean": "BOOLEAN"}


# After how many seconds without a request a map gives up its memory, where there are several.
IDLE = 3600


def options(parser: argparse.ArgumentParser, _: str) -> None:
    """The words of the command."""
    parser.add_argument("--port", type=int, default=8090, help="the port of 127.0.0.1 (8090)")
    parser.add_argument("--state", metavar="FILE", help="keep in this file what is being saved, and what each GIS has saved")
    parser.add_argument("--log", metavar="FILE", help="append who has saved what to this file, as `vtmap log --nginx` reads it")
    parser.add_argument("--schema", metavar="FILE", help="the layers and fields that the map is to have (docs/FORMATS.md); read anew when it changes")
    parser.add_argument("--files", metavar="FOLDER", help="keep photos and files of features in this folder")
    parser.add_argument("--history", metavar="FILE", help="the log of edits of `vtmap follow --log`, for the history of a feature in the page")
    parser.add_argument("--nginx", metavar="FILE", action="append", default=[], help="nginx's log of edits, for who is in that history; may be given "
                        "several times")
    parser.add_argument("--layer", type=layer_of, action="append", default=[], metavar="LAYER:KIND[:TAG=FORM,..]",
                        help="a layer that the map doesn't have yet, or further tags of one: KIND is points, lines or areas, FORM text, integer or boolean; "
                        "may be repeated")
    parser.add_argument("--behind-nginx", action="store_true", help="nginx passes requests on, and says by whom they are (docs/nginx.conf)")
    parser.add_argument("--crs", type=code_of, action="append", default=[], metavar="EPSG:N", help="a coordinate system of OGC API Features beside "
                        "the usual ones; may be repeated")
    parser.add_argument("--cors", action="store_true", help="let pages of all origins read what is below /ogc: for a map that everybody may read")
    parser.add_argument("--publish", action="store_true", help="publish when the journal is full")
    parser.add_argument("--held", type=int, default=HELD, metavar="FEATURES", help=f"hold a map of up to so many features in memory; of a larger one read "
                        f"boxes as they are asked for, if the server has them ({HELD:,})")
    parser.add_argument("--maps", action="store_true", help="answer for each map of this machine; {map} and {port} in the other words are its own")
    parser.add_argument("--idle", type=float, default=IDLE, metavar="SECONDS", help=f"--maps: after how long without a request a map gives up its "
                        f"memory ({IDLE})")
    parser.add_argument("--root", metavar="FOLDER", default="/", help="--maps: the folder of /etc, for a try")


def code_of(text: str) -> int:
    """The number of a coordinate system."""
    name, _, number = text.partition(":")
    if name.upper() != "EPSG" or not number.isdecimal() or not 1024 <= int(number) <= 32767:
        raise argparse.ArgumentTypeError("a coordinate system of EPSG is needed, as EPSG:31467")
    return int(number)


def layer_of(text: str) -> tuple[tuple[str, str], dict[str, str]]:
    """The layer and the kind that a word names, and the types of tags by their names."""
    layer, kind, *rest = text.split(":", 2)
    kinds = {said: kind for kind, said in KINDS.items()}
    tags = dict(part.rsplit("=", 1) for part in rest[0].split(",")) if rest else {}
    if not layer or kind not in kinds or not set(tags.values()) <= set(FORMS):
        raise argparse.ArgumentTypeError("LAYER:KIND[:TAG=FORM,..] is needed, as in road:lines:surface=text,lanes=integer")
    return (layer, kinds[kind]), {tag: FORMS[form] for tag, form in tags.items()}


def fault_of(words: argparse.Namespace) -> str | None:
    """What is wrong with the command line."""
    if words.maps and words.layer:
        return "--layer is of one map, and --maps of all: name its layers in a schema"
    if words.maps and not {"{port}", "{map}"} & set(re.findall("{[a-z]+}", words.url)):
        return "--maps needs an --url with the port or the name of each map, as http://127.0.0.1:{port}"
    if not words.idle > 0:
        return "--idle is a number of seconds"
    return None if 0 < words.port < 65536 else "--port is a number from 1 to 65535"


def work(words: argparse.Namespace) -> int:
    """Answers until it is stopped, in an interpreter that has GDAL's module if there is one."""
    look_for("osgeo", words.line)
    known = {"is_behind_nginx": words.behind_nginx, "is_public": words.cors}
    found: Any = Maps(Machine(words.root), words, words.idle) if words.maps else OnlyMap(OneMap(words, Systems(words.crs)))
    server = listener(words.port, found, **known)
    found.begin()
    if words.maps:
        threading.Thread(target=found.keep_looking, daemon=True).start()
    signal.signal(signal.SIGTERM, lambda *_: sys.exit(0))
    # A map that isn't asked for isn't opened for that: with several, whether the process answers is asked by a path of none.
    alive.tell(words.port, *(["/"] if words.maps else []))
    print(f"http://127.0.0.1:{words.port}/{'NAME/' if words.maps else ''}wfs", flush=True)
    try:
        server.serve_forever()
    finally:
        server.saving.wait()
    return 0
