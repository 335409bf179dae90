"""`vtmap draw`: a client that reads tiles by HTTP, decodes them by itself and draws them; or draws an earlier map. Needs Pillow."""
from __future__ import annotations

import argparse
import json

from ..client.client import Client, word
from ..faults import Stopped
from ..files.vector_tile import BROKEN, TileFeature, decoded
from ..geometry.tiles import Place, shown_in
from ..geometry.world import shares
from ..interpreters import need
from .at import fault_of as fault_of_base
from .at import options_of_base, options_of_log, past_of, when

ABOUT = {"draw": """Draws a part of the map into a PNG file: a client that reads tiles by HTTP and decodes them by itself.

    vtmap draw map.png --zoom 15 --centre 7.5,54.5 --size 768x512
    vtmap draw tuesday.png --at 2026-11-24 --log edits.jsonl

Each tile is 256 pixels wide. Layers are drawn in the order of those of examples/town.py, then all others. It needs Pillow (Debian:
`python3-pil`).

--at TIME draws the map of an earlier time, without a server's tiles; TIME and the words from --log on are as those of `vtmap at`."""}


def options(parser: argparse.ArgumentParser, _: str) -> None:
    """The words of the command."""
    parser.add_argument("file", help="the PNG file that is written")
    parser.add_argument("--zoom", type=int, choices=range(20), default=15, metavar="Z", help="the zoom of the tiles, 0 to 19 (15)")
    parser.add_argument("--centre", type=centre, default="7.5,54.5", help="longitude and latitude of the centre (7.5,54.5)")
    parser.add_argument("--size", type=size, default="768x512", help="pixels (768x512)")
    parser.add_argument("--at", type=when, metavar="TIME", help="draw the map of this time, by the log of edits")
    options_of_log(parser, False)
    options_of_base(parser)


def fault_of(words: argparse.Namespace) -> str | None:
    """What is wrong with the command line."""
    if words.at is None:
        return "--log, --nginx, --save, --of and --disk are for --at" if words.log or words.nginx or words.save or words.disk else fault_of_base(words)
    return fault_of_base(words) if words.log else "--at needs --log"


def centre(text: str) -> tuple[float, float]:
    """Longitude and latitude."""
    longitude, latitude = map(float, text.split(","))
    if not (-180 <= longitude <= 180 and -85.06 <= latitude <= 85.06):
        raise ValueError
    return longitude, latitude


def size(text: str) -> tuple[int, int]:
    """Width and height in pixels."""
    width, height = map(int, text.split("x"))
    if not (0 < width <= 8192 and 0 < height <= 8192):
        raise ValueError
    return width, height


def tiles_within(first: int, count: int, zoom: int) -> range:
    """The columns or rows of tiles of the world that have some of these pixels."""
    return range(max(first // 256, 0), min((first + count - 1) // 256 + 1, 2 ** zoom))


def tiles_of(client: Client, zoom: int, columns: range, rows: range) -> dict[Place, bytes]:
    """The tiles that aren't empty, by column and row."""
    tiles = {}
    for column, row in ((column, row) for column in columns for row in rows):
        status, content = client.ask("GET", f"/map/{zoom}/{column}/{row}.mvt")
        if status not in (200, 204):
            client.stop_at(status, content)
            raise Stopped(f"tile {zoom}/{column}/{row}: {status} {word(content)}")
        if content:
            tiles[column, row] = content
    return tiles


def drawn_now(words: argparse.Namespace, columns: range, rows: range) -> dict[Place, dict[str, list[TileFeature]]]:
    """The tiles of the server, by column and row."""
    client = Client(words.url)
    try:
        return {place: decoded(content) for place, content in tiles_of(client, words.zoom, columns, rows).items()}
    except BROKEN as fault:
        raise Stopped(f"what answers at {client.address} sends no tiles: is --url right?") from fault


def drawn_then(words: argparse.Namespace, columns: range, rows: range) -> dict[Place, dict[str, list[TileFeature]]]:
    """The tiles of an earlier map, by column and row."""
    past = past_of(words, words.at)
    print(past)
    features = ((number, json.loads(feature)) for number, feature in past.features.items())
    return shown_in(features, words.zoom, columns, rows)


def work(words: argparse.Namespace) -> int:
    """Draws, in an interpreter that has Pillow."""
    need("PIL", words.line)
    from .draw_picture import STYLES, Picture, style_of
    (longitude, latitude), (width, height) = words.centre, words.size
    pixels, (east, south) = 256 * 2 ** words.zoom, shares(longitude, latitude)
    left, top = round(east * pixels) - width // 2, round(south * pixels) - height // 2
    columns, rows = tiles_within(left, width, words.zoom), tiles_within(top, height, words.zoom)
    tiles = (drawn_then if words.at else drawn_now)(words, columns, rows)
    names = [*STYLES, *sorted({name for layers in tiles.values() for name in layers} - set(STYLES))]
    picture = Picture(words.zoom, left, top, words.size)
    for name in names:
        for (column, row), layers in tiles.items():
            picture.draw(style_of(name), column, row, layers.get(name, []))
    picture.finished().save(words.file, "PNG", optimize=True)
    print(f"{len(tiles)} tiles, {sum(len(features) for layers in tiles.values() for features in layers.values())} features drawn")
    return 0
