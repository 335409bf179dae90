#!/usr/bin/env python3
"""Makes the archive of the example `read_archive`, and what the example must print of it.

    python3 tests/archives/harbour.py [--check]

The tiles are written by GDAL (`ogr2ogr`, Debian's gdal-bin) from the features below, and put into an archive by the model's writer,
with sections out of order and a leaf directory. The wanted output is what the model reads of the archive and GDAL of one tile. No
code of the product takes part. With --check the files that are kept aren't written: what GDAL and the model read of the archive that
is kept must be the output that is kept, whichever version of GDAL wrote it.
"""
import json
import subprocess
import sys
import tempfile
from pathlib import Path

ROOT = Path(__file__).resolve().parents[2]
sys.path.append(str(ROOT / "model"))
from archives import Maker, content_of, header_of, judged, listed, section
from ids import id_of, tile_of

CRATE = ROOT / "crates" / "read_archive"
ARCHIVE = CRATE / "data" / "harbour.pmtiles"
WANTED = CRATE / "stdout"
SHOWN = (7, 67, 40)
EXTENT = 4096

LAYERS = {
    "marks": [
        ({"name": "Kiel", "kind": "town", "people": 246000}, "Point", [10.1356, 54.3213]),
        ({"name": "Eckernförde", "kind": "town", "people": 22000}, "Point", [9.8374, 54.4713]),
        ({"name": "Laboe", "kind": "beacon", "height": 85}, "Point", [10.2303, 54.4122]),
    ],
    "ways": [
        ({"name": "fairway", "depth": -11}, "LineString", [[10.15, 54.33], [10.18, 54.39], [10.22, 54.43], [10.4, 54.6]]),
        ({"name": "ferry"}, "LineString", [[10.2303, 54.4122], [10.1356, 54.3213]]),
    ],
    "waters": [
        ({"name": "anchorage", "open": True}, "Polygon", [
            [[10.2, 54.45], [10.5, 54.45], [10.5, 54.7], [10.2, 54.7], [10.2, 54.45]],
            [[10.3, 54.5], [10.3, 54.6], [10.4, 54.6], [10.4, 54.5], [10.3, 54.5]],
        ]),
    ],
}


def collection(features):
    return {"type": "FeatureCollection", "features": [
        {"type": "Feature", "properties": tags, "geometry": {"type": kind, "coordinates": points}} for tags, kind, points in features]}


def tiles_of_gdal(folder):
    """The tiles that GDAL writes, by zoom, column and row, and their metadata."""
    for name, features in LAYERS.items():
        (folder / f"{name}.geojson").write_text(json.dumps(collection(features)))
        subprocess.run(["ogr2ogr", "-update", "-append", "-f", "GPKG", folder / "all.gpkg", folder / f"{name}.geojson", "-nln", name],
                       check=True, stderr=subprocess.DEVNULL)
    subprocess.run(["ogr2ogr", "-f", "MVT", folder / "tiles", folder / "all.gpkg", "-dsco", "FORMAT=DIRECTORY", "-dsco", "COMPRESS=NO",
                    "-dsco", "MINZOOM=0", "-dsco", f"MAXZOOM={SHOWN[0]}"], check=True)
    tiles = {tuple(int(part) for part in path.with_suffix("").relative_to(folder / "tiles").parts): path.read_bytes()
             for path in (folder / "tiles").rglob("*.pbf")}
    metadata = json.loads((folder / "tiles" / "metadata.json").read_text())
    return tiles, {"name": "harbour", "vector_layers": json.loads(metadata["json"])["vector_layers"]}


def archive_of(tiles, metadata):
    """The archive of the tiles: those from zoom 4 on are in a leaf directory."""
    maker = Maker()
    contents = sorted((id_of(*at), content) for at, content in tiles.items())
    entries = [maker.tile(tile_id, 1, content) for tile_id, content in contents]
    above = [e for e in entries if tile_of(e.id)[0] < 4]
    below = maker.leaf(id_of(4, 0, 0), entries[len(above):])
    return maker.archive([*above, below], order=["metadata", "root", "tiles", "leaves"], metadata=json.dumps(metadata, separators=(",", ":")).encode(),
                         addressed=len(entries), entries=len(entries), contents=len(entries), clustered=1, max_zoom=SHOWN[0])


def point_text(point):
    """A point as the example prints it. GDAL's rows begin at the lower edge."""
    return f"Pt {{ x: {int(point[0])}, y: {EXTENT - int(point[1])} }}"


def points_text(points):
    return "[" + ", ".join(point_text(p) for p in points) + "]"


def shape_text(geometry):
    """A geometry in GDAL's words as a shape in those of the example, rings without the point that closes them."""
    kind, points = geometry["type"], geometry["coordinates"]
    if kind == "Point":
        return f"Points({points_text([points])})"
    if kind == "LineString":
        return f"Lines([{points_text(points)}])"
    if kind == "MultiPolygon":
        return "Rings([" + ", ".join(points_text(ring[:-1]) for polygon in points for ring in polygon) + "])"
    sys.exit(f"{kind}: not expected")


def value_text(value):
    return {True: "true", False: "false"}[value] if isinstance(value, bool) else str(value)


def layer_lines(name, features):
    yield f"{name}: extent {EXTENT}, {len(features)} features"
    for feature in features:
        tags = "".join(f" {key}={value_text(value)}" for key, value in feature["properties"].items() if key != "mvt_id" and value is not None)
        yield f"  {shape_text(feature['geometry'])}{tags}"


def tile_lines(content, folder):
    """What GDAL reads of a tile. Its layers are in the order of the tile's bytes, and a file of no place has points in the tile's units."""
    path = folder / "tile.pbf"
    path.write_bytes(content)
    told = subprocess.run(["ogrinfo", "-q", path], check=True, capture_output=True, text=True).stdout
    for line in told.splitlines():
        name = line.split(" ")[1]
        read = subprocess.run(["ogr2ogr", "-f", "GeoJSON", "/vsistdout/", path, name], check=True, capture_output=True, text=True).stdout
        yield from layer_lines(name, json.loads(read)["features"])


def wanted_of(archive, folder):
    """What the example prints of an archive and of the tile that is shown."""
    said = header_of(archive)
    yield f"zooms {said['min_zoom']} to {said['max_zoom']}: {judged(archive).removeprefix('ok: ')}"
    yield f"metadata: {section(archive, said, 'metadata').decode()}"
    entries = listed(archive)
    for e in entries:
        z, x, y = tile_of(e.id)
        yield f"tile {z}/{x}/{y}: id {e.id}, run {e.run}, {e.length} bytes"
    shown = next(e for e in entries if e.id == id_of(*SHOWN))
    yield from tile_lines(content_of(archive, said, shown), folder)


def main():
    with tempfile.TemporaryDirectory() as scratch:
        folder = Path(scratch)
        if "--check" not in sys.argv:
            ARCHIVE.parent.mkdir(parents=True, exist_ok=True)
            ARCHIVE.write_bytes(archive_of(*tiles_of_gdal(folder)))
            (CRATE / "args").write_text(f"{ARCHIVE.name}\n{id_of(*SHOWN)}\n")
        wanted = "".join(f"{line}\n" for line in wanted_of(ARCHIVE.read_bytes(), folder))
        if "--check" not in sys.argv:
            WANTED.write_text(wanted)
        elif WANTED.read_text() != wanted:
            sys.exit(f"{WANTED}: GDAL and the model read otherwise")


if __name__ == "__main__":
    main()
