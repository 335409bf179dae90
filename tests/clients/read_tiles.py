#!/usr/bin/python3
"""What GDAL reads of all tiles in the archive of a file: prints as JSON how many contents it has and the least and
greatest coordinate.

    /usr/bin/python3 tests/clients/read_tiles.py map.pmtiles

Coordinates are those of the tile, of extent 4096 with y down.
"""
import json
import os
import sys

from osgeo import gdal

sys.path.append(os.path.join(os.path.dirname(os.path.abspath(__file__)), "..", ".."))
from vtmap.files.archive_ids import contents  # noqa: E402


def extent(content):
    """The least and the greatest coordinate of the features of a tile."""
    gdal.FileFromMemBuffer("/vsimem/tile.mvt", content)
    file = gdal.OpenEx("/vsimem/tile.mvt", gdal.OF_VECTOR, allowed_drivers=["MVT"], open_options=["CLIP=NO"])
    found = []
    for at in range(file.GetLayerCount()):
        for feature in file.GetLayer(at):
            west, east, south, north = feature.GetGeometryRef().GetEnvelope()
            found += [west, east, 4096 - south, 4096 - north]
    return min(found), max(found)


def main():
    gdal.UseExceptions()
    with open(sys.argv[1], "rb") as file:
        archive = file.read()
    root, root_length, _, _, leaves, _, tiles = (int.from_bytes(archive[at:at + 8], "little") for at in range(8, 64, 8))
    places = sorted(set(contents(archive, root, root_length, leaves, tiles)))
    extents = [extent(archive[at : at + length]) for at, length in places]
    print(
        json.dumps(
            {
                "contents": len(places),
                "least": min(one for one, _ in extents),
                "greatest": max(one for _, one in extents),
            }
        )
    )


if __name__ == "__main__":
    main()
