"""`vtmap wmts`: pictures of the map for programs that know no vectors. Needs pycairo."""
from __future__ import annotations

import argparse
import os
import signal
import sys

from .. import alive
from ..interpreters import need
from ..pictures.listener import listener
from ..pictures.painters import Painters
from ..pictures.tiles import StyleFile, Tiles
from ..pictures.wmts_texts import WHOLE_WORLD
from .maps import bounds

ABOUT = {"wmts": """Serves the map as pictures, for programs that know no vectors: by WMTS 1.0.0, and as tiles by their paths.

    vtmap wmts
    vtmap wmts --port 8091 --style /etc/vtserve/style.json

A GIS adds http://127.0.0.1:8091/wmts/1.0.0/WMTSCapabilities.xml, or http://127.0.0.1:8091/xyz/{z}/{x}/{y}.png, and
.. /{y}@2x.png for screens with small dots. Pictures have 256 pixels and are drawn as the page draws, by its style.json;
they are drawn anew once an edit may have changed the tile (the server's --etags).

It draws in processes of their own, whose work is bounded: 20 seconds and 512 MB for a drawing, a tile of 8 MiB. What
needs more is refused, and says so. Those of one client never take all of them. It needs pycairo (Debian: python3-cairo).

It ends with 0 at SIGTERM. If systemd waits for it (WatchdogSec), it asks itself whether it answers, and says so."""}
STYLES = [os.path.join(os.path.dirname(os.path.dirname(os.path.dirname(os.path.abspath(__file__)))), "web", "style.json"), "/etc/vtserve/style.json"]
ASKED = "/wmts/1.0.0/WMTSCapabilities.xml"


def options(parser: argparse.ArgumentParser, _: str) -> None:
    """The words of the command."""
    parser.add_argument("--port", type=int, default=8091, help="the port of 127.0.0.1 (8091)")
    parser.add_argument("--style", metavar="FILE", help="the style.json of the page; read anew when it changes")
    parser.add_argument("--title", default="Map", help="the name of the map (Map)")
    parser.add_argument("--bounds", metavar="W,S,E,N", type=box_or_none, help="the box of its features in degrees, as --bounds=W,S,E,N; clients ask for nothing outside")
    parser.add_argument("--jobs", type=int, default=3, help="how many processes draw (3)")
    parser.add_argument("--behind-nginx", action="store_true", help="nginx passes requests on, and says by whom they are (docs/nginx.conf)")


def box_or_none(text: str) -> tuple[float, ...]:
    """A box of the command line, or an empty one: a unit has a variable there."""
    return bounds(text) if text else ()


def fault_of(words: argparse.Namespace) -> str | None:
    """What is wrong with the command line."""
    if not 0 < words.port < 1 << 16:
        return "--port is a number from 1 to 65535"
    return None if 0 < words.jobs <= 64 else "--jobs is a number from 1 to 64"


def work(words: argparse.Namespace) -> int:
    """Answers until it is stopped, in an interpreter that has pycairo."""
    need("cairo", words.line)
    path = words.style or next(filter(os.path.exists, STYLES), STYLES[0])
    painters = Painters(words.jobs)
    tiles = Tiles(words.url, StyleFile(path), painters)
    server = listener(words.port, tiles, title=words.title, bounds=words.bounds or WHOLE_WORLD, is_behind_nginx=words.behind_nginx)
    signal.signal(signal.SIGTERM, lambda *_: sys.exit(0))
    alive.tell(words.port, ASKED)
    print(f"http://127.0.0.1:{words.port}{ASKED}", flush=True)
    try:
        server.serve_forever()
    finally:
        painters.end()
    return 0
