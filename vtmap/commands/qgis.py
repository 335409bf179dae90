"""`vtmap qgis`: writes a QGIS project with the tiles of a running vtserve. Needs no package."""
from __future__ import annotations

import argparse
import os
import time
import urllib.parse
from xml.sax.saxutils import escape

from ..client.client import Client
from ..client.schema import schema_at
from ..ending import regular, replaced
from ..faults import NoAnswer, Refused, Stopped
from ..files.protobuf import varint
from ..geometry.shapes import Box
from ..geometry.world import EARTH, HALF, mercator
from .qgis_forms import in_project
from .qgis_styles import background, page_style, styled

ABOUT = {"qgis": """Writes a QGIS project with the tiles of a vtserve as its only layer, with the colours of the page and a colour for each layer more.

    vtmap qgis map.qgs --url http://127.0.0.1:8000

Open the file with QGIS 3.14 or later. It opens where the published map is, or at --centre. --maxzoom is the greatest zoom that the features
have, which the server tells: QGIS enlarges the tiles of that zoom for greater ones. The colours are those of the page's style.json, which the
server's nginx has; layers that it doesn't name get one each. Pieces of areas that the import cut have no outlines, which would show the cuts:
it has put them as lines of a layer of their own. --outlines draws outlines of the pieces too. --edit adds the layers by which the map is edited
(`vtmap wfs`): by the schema of the map their forms have lists of the choices, labels, calendars, and warn of what is required. With --maxzoom and
--centre the server needn't answer; then all layers look the same. A file that is there is replaced only with --force."""}
PROJECT = """<!DOCTYPE qgis PUBLIC 'http://mrcc.com/qgis.dtd' 'SYSTEM'>
<qgis projectname="{name}" version="3.22.0">
  <title>{name}</title>
  <projectCrs>
    {system}
  </projectCrs>
  <layer-tree-group>{tree}
    <layer-tree-layer id="vtserve_tiles" name="{name}" checked="Qt::Checked" expanded="1" providerKey="" source="{source}"/>
  </layer-tree-group>
  <mapcanvas name="theMapCanvas">
    <units>meters</units>
    <extent><xmin>{west}</xmin><ymin>{south}</ymin><xmax>{east}</xmax><ymax>{north}</ymax></extent>
    <destinationsrs>{system}</destinationsrs>
  </mapcanvas>
  <projectlayers>{editable}
    <maplayer type="vector-tile" hasScaleBasedVisibilityFlag="0">
      <id>vtserve_tiles</id>
      <datasource>{source}</datasource>
      <layername>{name}</layername>
      <srs>{system}</srs>
      <blendMode>0</blendMode>
      <renderer type="basic">
        <styles>{styles}
        </styles>
      </renderer>
    </maplayer>
  </projectlayers>
  <layerorder>{order}<layer id="vtserve_tiles"/></layerorder>
  <properties>
    <SpatialRefSys><ProjectionsEnabled type="int">1</ProjectionsEnabled></SpatialRefSys>
    <Gui>
      <CanvasColorRedPart type="int">{red}</CanvasColorRedPart>
      <CanvasColorGreenPart type="int">{green}</CanvasColorGreenPart>
      <CanvasColorBluePart type="int">{blue}</CanvasColorBluePart>
    </Gui>
  </properties>
</qgis>
"""

# How QGIS names Web Mercator.
SYSTEM = (
    "<spatialrefsys><proj4>+proj=merc +a=6378137 +b=6378137 +lat_ts=0 +lon_0=0 +x_0=0 +y_0=0 +k=1 +units=m +nadgrids=@null +wktext +no_defs</proj4>"
    "<srsid>3857</srsid><srid>3857</srid><authid>EPSG:3857</authid><description>WGS 84 / Pseudo-Mercator</description>"
    "<projectionacronym>merc</projectionacronym><ellipsoidacronym>EPSG:7030</ellipsoidacronym><geographicflag>false</geographicflag></spatialrefsys>"
)


def layers_of(client: Client) -> dict[str, int]:
    """The names of the map's layers, and the greatest zoom that each has. The time keeps nginx from sending an older copy (`?edit=` in
    docs/nginx.conf)."""
    metadata = client.found(f"/map/metadata?edit={int(time.time())}") or {"vector_layers": []}
    return {layer["id"]: layer["maxzoom"] for layer in metadata["vector_layers"]}


def looked_at(client: Client, words: argparse.Namespace) -> tuple[dict[str, int], Box]:
    """The layers with their greatest zooms, and the box of the map, as far as the command line doesn't say them."""
    try:
        layers = layers_of(client)
    except (NoAnswer, Stopped):
        if words.maxzoom is None or words.centre is None:
            raise
        layers = {}
    return layers, box_at(words.centre, words.metres) if words.centre else published(client)


def tile_of(number: int) -> tuple[int, int, int]:
    """Zoom, column and row of a tile of an archive: PMTiles numbers the tiles of each zoom along a Hilbert curve, zoom after zoom."""
    zoom = 0
    while number >= 4 ** zoom:
        number, zoom = number - 4 ** zoom, zoom + 1
    column, row, side = 0, 0, 1
    while side < 2 ** zoom:
        right = number // 2 % 2
        down = (number + right) % 2
        if not down:
            column, row = (side - 1 - row, side - 1 - column) if right else (row, column)
        column, row, side, number = column + side * right, row + side * down, side * 2, number // 4
    return zoom, column, row


def published(client: Client) -> Box:
    """West, south, east and north, in Web Mercator, of the tiles of the greatest zoom in the archive's root directory; the world if there is none."""
    status, content = client.ask("GET", "/map.pmtiles", fields={"Range": "bytes=0-16383"})
    if status not in (200, 206):
        return -HALF, -HALF, HALF, HALF
    # After a header of 127 bytes the directory: the number of its entries, then each one's id as the distance from the one before.
    left, at = varint(content, 127)
    number, tiles = 0, []
    for _ in range(left):
        step, at = varint(content, at)
        number += step
        tiles.append(tile_of(number))
    zoom = tiles[-1][0]
    columns, rows = zip(*(tile[1:] for tile in tiles if tile[0] == zoom))
    side = EARTH / 2 ** zoom
    return min(columns) * side - HALF, HALF - (max(rows) + 1) * side, (max(columns) + 1) * side - HALF, HALF - min(rows) * side


def place(text: str) -> tuple[float, float]:
    """A longitude and latitude."""
    longitude, latitude = map(float, text.split(","))
    if not (-180 <= longitude <= 180 and -85.06 <= latitude <= 85.06):
        raise ValueError
    return longitude, latitude


def box_at(centre: tuple[float, float], metres: float) -> Box:
    """West, south, east and north, in Web Mercator, of a square round a longitude and latitude."""
    east, north = mercator(*centre)
    return east - metres / 2, north - metres / 2, east + metres / 2, north + metres / 2


def options(parser: argparse.ArgumentParser, _: str) -> None:
    """The words of the command."""
    parser.add_argument("file", help="the .qgs file that is written")
    parser.add_argument("--force", action="store_true", help="replace the file if it is there")
    parser.add_argument("--edit", action="store_true", help="add the layers of QGIS's gateway, to be edited, with forms by the schema of the map")
    parser.add_argument("--schema", metavar="FILE", help="--edit: the schema (the server's)")
    parser.add_argument("--name", default="vtserve", help="the name of the layer in QGIS (vtserve)")
    parser.add_argument("--maxzoom", type=int, help="the greatest zoom of the features (as the server tells it)")
    parser.add_argument("--outlines", action="store_true", help="draw outlines of the pieces of areas that the import cut")
    parser.add_argument("--centre", type=place, help="longitude and latitude that the map opens at, as in 7.5,54.5 (where the published map is)")
    parser.add_argument("--metres", type=float, default=5000, help="--centre: how wide and high the map opens, in metres of Web Mercator (5000)")


def work(words: argparse.Namespace) -> int:
    """Writes the project."""
    if os.path.exists(regular(words.file)) and not words.force:
        raise Refused(f"{words.file} exists: give --force to write it anew")
    client = Client(words.url)
    try:
        layers, (west, south, east, north) = looked_at(client, words)
    except (LookupError, TypeError) as fault:
        raise Stopped(f"what answers at {client.address} is no vtserve: is --url right?") from fault
    maxzoom, style = max(layers.values(), default=0) if words.maxzoom is None else words.maxzoom, page_style(client)
    red, green, blue = background(style)
    tree, editable, order = in_project(client, schema_at(client, words.schema), SYSTEM) if words.edit else ("", "", "")
    tiles = urllib.parse.quote(client.address + "/map/", safe=":/") + "{z}/{x}/{y}.mvt"
    source = f"type=xyz&url={tiles}&zmin=0&zmax={maxzoom}"
    replaced(words.file, PROJECT.format(
        name=escape(words.name, {'"': "&quot;"}),
        source=escape(source),
        styles=styled(style, layers, words.outlines),
        system=SYSTEM,
        tree=tree,
        editable=editable,
        order=order,
        west=west,
        east=east,
        south=south,
        north=north,
        red=red,
        green=green,
        blue=blue,
    ))
    print(f"{words.file}: {source}")
    return 0
