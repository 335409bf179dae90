"""The words of `vtmap import` and `vtmap update`."""
from __future__ import annotations

import argparse
import codecs

from ..interpreters import need
from ..limits import GREATEST_ZOOM, NUMBER_END
from .deletions import most

# The last zoom that shows features, if --maxzoom isn't given.
MAXZOOM = 14
COMMON = """
It needs GDAL's Python module (Debian: `python3-gdal`), and a server with --admin. Each layer of the file becomes the layer of its name, or all
become --layer; --layer-field names the attribute that is the layer's name; --source names the one layer of the file to read. --crs names the
coordinate system (`EPSG:4326`) of a layer that names none, and of GeoJSON; --x and --y the columns of the points of a CSV file (`lon` and
`lat`, or `x` and `y`, are found); --encoding the encoding of texts if the file doesn't say it or says a wrong one (`cp1252`).

Files that came short. A zipped Shapefile is read as it is. A file that seems to have lost its end is refused (--not-cut takes it as whole): a table
whose last line has no end, if its first one has one, or fewer fields than its head, and what GDAL says that it can't read to its end. Numbers
beyond 64 bits, polygons whose rings cross, and features without the id that --id names are told with their row, counted from 1 without the head.

Large features. The server doesn't clip, and renderers misdraw what is larger than a tile (docs/HTTP.md, "Large features"). So lines and
polygons that some renderer would draw wrong at a zoom of theirs are cut, along the middles of the tiles of zoom --maxzoom, into as few pieces
as are drawn right; with --split-zoom Z into pieces no larger than a tile of zoom Z. What has too many points or covers too many tiles for
one feature is cut too. If 2,000 pieces or more would be most of what is sent, nothing is sent (--cut-many sends them). Each piece is a feature with
an id, the same tags, and the tag `whole` (--whole) with the id of the first piece. With --id the pieces after the first have its id plus a
multiple of 2^40. A cut polygon's outline is put as lines of the layer LAYER-outline with
the same tags: draw outlines from there, and from the polygons that have no `whole`, and none shows the cuts. --no-split puts features as they
are. What stays too large is reported with its size and the zooms that will be wrong.

Attributes become tags: texts, integers and booleans as they are, whole numbers as integers, other numbers as texts, dates as ISO texts; null
attributes are left out, lists and objects are dropped and reported. --cut-texts cuts texts of over 1,024 bytes, which are refused else. A
feature without geometry isn't put, and is no failure. If the map has a schema (`vtmap schema`), features of its layers have to fit it: texts that
say a number or a boolean of its become these, a feature with another value is refused, and attributes for which it has no field stop the import.

Before it sends, it prints what will be needed of journal and areas, and sends nothing that can't be published (--anyway): of a long file that is
known before all of it is read. It says how far it is every two seconds. With --publish a publication by steps frees the journal whenever it is
full. It stops at the first refusal that all further features would get. Up to 64
features are one request and one edit, which is stored whole or not at all; --no-batches sends them one by one.

It prints a line for each thousand features, one for each refused one with the reason, and at the end the counts, what of the disk is used,
and where the data is. It ends with 1 if a feature was refused, is in conflict, was changed by others meanwhile, or nothing more could be sent.
"""
ABOUT = {
    "import": """Puts the features of a file that GDAL reads (GeoJSON, Shapefile, GeoPackage, CSV, ..) into the map.

    vtmap import examples/survey.geojson --layer survey --minzoom 10

Ids. Features get the ids from --first on in the order of the file; without --first, from the one after the greatest in use. With --id FIELD
the id is an attribute's value plus --first, and stays the same if the file changes: `id` is the id of a feature of GeoJSON, `FID` is GDAL's
own. Texts get their ids in the file that --ids names, which is the map's own: keep it with the map.

Nothing is overwritten. Ids that another layer has are refused before anything is sent (--overwrite replaces its features), and so are ids
of this layer that have another feature: `vtmap update` compares them. What the map has already is not sent again. All are checked edits: a
feature that somebody else changes meanwhile is left as it is, and reported. Without --admin on the server what the map has isn't known: then
--first has to be named, and ids are taken as they come.
""" + COMMON,
    "update": """Sends what has changed in a file since its last import (by `vtmap import` or `vtmap update`), and nothing else.

    vtmap update rivers.gpkg --id code --ids map.ids --delete-missing

What was changed on the map alone stays, and so does what was added there. What both have changed is a conflict: it is named, and not sent.
--file-wins sends what the file has of conflicts, --map-wins leaves what the map has, also at the next time. --delete-missing also deletes what
the file had then and has no more. More than 20 deletions that are more than half of a layer are taken for a mistake: nothing is sent, unless
--delete-many says so. For a job that nobody watches --delete-at-most 10% is a closer bound, or a number (25), for each layer. --replace LAYER is
--delete-missing for one layer. --exactly makes the layers as the file is, whatever the map has.
A feature of the file that is refused keeps its id on the map; if that isn't known, nothing is deleted. --dry-run names what would be sent.

Features have ids that stay: --id FIELD is an attribute with a number (`id` is the id of a feature of GeoJSON, `FID` is GDAL's own), and with
--ids FILE one with a text; else --first is that of the import before. What the file said is kept as a hash of each feature in a file, which
--base names: beside that of --ids (IDS.base), else beside the imported one (FILE.base). Of what isn't in it each difference is a conflict.
--was-at URL says that the map had this address then.
""" + COMMON,
}


def options(parser: argparse.ArgumentParser, name: str) -> None:
    """The words of a command."""
    parser.add_argument("file", help="a GeoJSON, Shapefile or GeoPackage file, or another one that GDAL reads")
    parser.add_argument("--layer", help="the name of their layer in the map (that of the file's layer)")
    parser.add_argument("--layer-field", help="the attribute that holds the name of the layer, instead of --layer")
    parser.add_argument("--minzoom", type=int, help="the first zoom that shows them (0)")
    parser.add_argument("--maxzoom", type=int, help=f"the last zoom that shows them ({MAXZOOM})")
    parser.add_argument("--first", type=int, help="the id of the first feature (the next free one); with --id, what is added to the field (0)")
    parser.add_argument("--id", metavar="FIELD", help="the attribute that holds the id of each feature")
    parser.add_argument("--ids", metavar="FILE", help="the map's file of ids, if --id is an attribute with texts")
    parser.add_argument("--overwrite", action="store_true", help="replace features of other layers that have the same ids")
    parser.add_argument("--source", help="the one layer of the file to read (all)")
    parser.add_argument("--crs", help="the coordinate system of a layer that names none, or of GeoJSON")
    parser.add_argument("--x", metavar="COLUMN", help="the column of a CSV file with the points' x, or longitudes")
    parser.add_argument("--y", metavar="COLUMN", help="the column of a CSV file with the points' y, or latitudes")
    parser.add_argument("--encoding", help="the encoding of texts, if the file doesn't say it or says a wrong one")
    parser.add_argument("--not-cut", action="store_true", help="take a file as whole that seems to have lost its end")
    parser.add_argument("--cut-texts", action="store_true", help="cut texts of over 1,024 bytes")
    parser.add_argument("--split-zoom", type=int, metavar="Z", help="cut large features into the cells of zoom Z (as few as --maxzoom allows)")
    parser.add_argument("--no-split", action="store_true", help="cut no feature")
    parser.add_argument("--cut-many", action="store_true", help="put 2,000 pieces of large features and more, also if they are most of what is sent")
    parser.add_argument("--no-outlines", action="store_true", help="put no outlines of cut polygons")
    parser.add_argument("--whole", default="whole", metavar="NAME", help="the tag of a piece with the id of the first piece (whole)")
    parser.add_argument("--publish", action="store_true", help="publish by steps when the journal is full")
    parser.add_argument("--anyway", action="store_true", help="send what can't be published, or doesn't fit into the journal, anyway")
    parser.add_argument("--no-batches", action="store_true", help="send each feature in a request of its own")
    parser.add_argument("--base", metavar="FILE", help="where to keep what the file said (the file of --ids, or else the imported one, and .base)")
    parser.add_argument("--schema", metavar="FILE", help="the fields that features have to fit (the server's, if it has a schema: docs/FORMATS.md)")
    parser.add_argument("--new-fields", action="store_true", help="put attributes for which the schema has no field, too")
    parser.add_argument("--dry-run", action="store_true", help="say what would be sent, and send nothing")
    if name == "update":
        options_of_update(parser)
    else:
        parser.set_defaults(delete_missing=False, replace=None, file_wins=False, map_wins=False, exactly=False, delete_many=False, delete_at_most=None, was_at=None)


def options_of_update(parser: argparse.ArgumentParser) -> None:
    """The words of `vtmap update` alone."""
    parser.add_argument("--delete-missing", action="store_true", help="delete what the file had at its last import, and has no more")
    parser.add_argument("--replace", metavar="LAYER", help="--delete-missing for this layer")
    wins = parser.add_mutually_exclusive_group()
    wins.add_argument("--file-wins", action="store_true", help="send the file's version of what both the file and the map have changed")
    wins.add_argument("--map-wins", action="store_true", help="leave the map's version of it")
    wins.add_argument("--exactly", action="store_true", help="--delete-missing, also of what was changed or added on the map alone")
    many = parser.add_mutually_exclusive_group()
    many.add_argument("--delete-many", action="store_true", help="--delete-missing: delete more than 20 features that are more than half of a layer")
    many.add_argument("--delete-at-most", type=most, metavar="N", help="--delete-missing: send nothing if more of a layer would be deleted (10%% or 25)")
    parser.add_argument("--was-at", metavar="URL", help="the address that the map had at the last import")


def has_ids(words: argparse.Namespace) -> bool:
    """Whether a feature of the file gets the same id at each import."""
    return words.id is not None or words.first is not None


def fault_of(words: argparse.Namespace) -> str | None:
    """What is wrong with the command line. Completes it."""
    words.update = words.command == "update"
    words.says_minzoom, words.says_maxzoom = words.minzoom is not None, words.maxzoom is not None
    words.minzoom = words.minzoom if words.says_minzoom else 0
    words.maxzoom = words.maxzoom if words.says_maxzoom else MAXZOOM
    words.delete_missing = words.delete_missing or words.replace is not None or words.exactly
    if words.layer is not None and words.layer_field is not None:
        return "give one of --layer and --layer-field"
    if words.replace is not None and words.layer not in (None, words.replace):
        return "--replace and --layer name two layers"
    if words.update and not has_ids(words):
        return "update needs ids that stay: give --id FIELD, or the --first of the import before"
    if words.delete_at_most and not words.delete_missing:
        return "--delete-at-most is about what --delete-missing, --replace or --exactly delete: give one of them"
    if words.base is not None and not has_ids(words):
        return "--base needs ids that stay: give --id FIELD, or --first"
    if words.ids is not None and words.id is None:
        return "--ids needs --id: the attribute with the texts"
    if (words.x is None) != (words.y is None):
        return "give both of --x and --y"
    if not 0 <= words.minzoom <= words.maxzoom <= GREATEST_ZOOM:
        return f"--minzoom and --maxzoom are zooms from 0 to {GREATEST_ZOOM}, --minzoom not above --maxzoom"
    if words.split_zoom is not None and not 0 <= words.split_zoom <= 20:
        return "--split-zoom takes a zoom from 0 to 20"
    if words.first is not None and not 0 <= words.first < NUMBER_END:
        return "--first takes an id from 0 to 2^63 - 1"
    try:
        codecs.lookup(words.encoding or "utf-8")
    except LookupError:
        return f"--encoding: no encoding {words.encoding} is known"
    return None


def work(words: argparse.Namespace) -> int:
    """Runs the command, in an interpreter that has GDAL's module."""
    need("osgeo", words.line)
    from .import_file import imported
    return imported(words)
