"""`vtmap join`: archives of several maps as one. Needs no package."""
import argparse
import os

from ..archives.fetching import opened
from ..archives.joining import join, told
from ..ending import regular
from ..faults import Refused

ABOUT = {"join": """Joins archives of maps to one archive: a country's of its regions', for instance.

    vtmap join north.pmtiles south.pmtiles http://maps.example.org:8000 country.pmtiles

Each is a file, or the address of a map, whose published archive is downloaded, or that of an archive. A tile that one
archive has is copied; of one that several have the layers are merged, features by ascending id. Archives of vtserve
become the archive that one map of all their features would publish, byte for byte, but without its limit of 131,072
entries.

Maps that are joined need ids of their own, by `vtmap import --first` for instance. If two have a feature of one id in
one layer of a tile, nothing is written; with --first the one of the archive that is named first is taken there.

Archives of other makers are joined if they are uncompressed PMTiles 3 with Mapbox vector tiles, whose features have
ids where tiles are merged. Of their metadata `vector_layers` is kept. OUT is written whole or not at all, and replaces
no file without --replace."""}


def options(parser: argparse.ArgumentParser, _: str) -> None:
    """The words of the command."""
    parser.add_argument("archives", nargs="+", metavar="ARCHIVE", help="an archive: a file, or the address of a map")
    parser.add_argument("out", metavar="OUT", help="the file that is written")
    parser.add_argument("--first", action="store_true", help="of an id that several have, take the first one's feature")
    parser.add_argument("--replace", action="store_true", help="replace OUT if it exists")


def work(words: argparse.Namespace) -> int:
    """Joins, and says what is written."""
    if os.path.exists(regular(words.out)) and not words.replace:
        raise Refused(f"{words.out} exists: is it one of the archives, and OUT is missing? --replace replaces it")
    folder = os.path.dirname(words.out) or "."
    if not os.path.isdir(folder):
        raise Refused(f"there is no folder {folder}")
    with opened(words.archives, folder) as archives:
        found = join(archives, words.out, folder, words.first)
    print(f"{len(words.archives)} archives joined: {told(found)}")
    return 0
