"""The part `round-trips` of run.py: what the map does to data, from a GeoPackage of an office into the map and out
again (OFFICE.md says it in a table).

The file has points in UTM with decimals and dates, lines, curves and heights, and a table without geometry. GDAL
writes and reads it.
"""
import json
import os
import re
import shutil
import sqlite3
import statistics
import subprocess

from .checkins import gis
from .import_stand import has_gdal, imported
from .stand import SYSTEM_PYTHON, Cases, Server
from .updates import listed

# Writes the file, or prints what is to be compared: for each well the distance in metres between two files, and the
# types of a layer.
WRITE = """
import random, sys
from osgeo import gdal, ogr, osr
gdal.UseExceptions()
utm = osr.SpatialReference(); utm.ImportFromEPSG(25832)
file = ogr.GetDriverByName("GPKG").CreateDataSource(sys.argv[1])
def layer(name, kind, fields):
    made = file.CreateLayer(name, utm if kind != ogr.wkbNone else None, kind)
    for field, form in fields: made.CreateField(ogr.FieldDefn(field, form))
    return made
def add(layer, wkt, **values):
    one = ogr.Feature(layer.GetLayerDefn())
    for name, value in values.items(): one.SetField(name, value)
    if wkt: one.SetGeometry(ogr.CreateGeometryFromWkt(wkt))
    layer.CreateFeature(one)
chance = random.Random(5)
fields = [("nr", ogr.OFTInteger), ("depth", ogr.OFTReal), ("built", ogr.OFTDate), ("seen", ogr.OFTDateTime), ("code", ogr.OFTString)]
wells = layer("well", ogr.wkbPoint, fields)
for nr in range(1, 1001):
    add(wells, f"POINT({400000 + chance.random() * 20000} {6030000 + chance.random() * 20000})", nr=nr, depth=nr / 8, built=f"20{nr % 25:02}-01-31",
        seen="2024/01/31 12:30:05+00", code=f"{nr:05}")
add(layer("pipe", ogr.wkbLineString, [("nr", ogr.OFTInteger)]), "LINESTRING(400000 6030000,400100 6030050)", nr=2001)
add(layer("bend", ogr.wkbCircularString, [("nr", ogr.OFTInteger)]), "CIRCULARSTRING(400000 6030000,400050 6030050,400100 6030000)", nr=2002)
add(layer("mast", ogr.wkbPoint25D, [("nr", ogr.OFTInteger)]), "POINT Z(400000 6030000 77)", nr=2003)
add(layer("owner", ogr.wkbNone, [("nr", ogr.OFTInteger)]), None, nr=2004)
"""
READ = """
import json, math, sys
from osgeo import gdal, ogr, osr
gdal.UseExceptions()
utm = osr.SpatialReference(); utm.ImportFromEPSG(25832); utm.SetAxisMappingStrategy(osr.OAMS_TRADITIONAL_GIS_ORDER)
def places(path):
    layer = (file := ogr.Open(path)).GetLayerByName("well")
    here = layer.GetSpatialRef().Clone(); here.SetAxisMappingStrategy(osr.OAMS_TRADITIONAL_GIS_ORDER)
    way, found = osr.CoordinateTransformation(here, utm), {}
    for one in layer: found[one.GetField("nr")] = way.TransformPoint(*one.GetGeometryRef().GetPoint_2D(0))
    return found
before, after = map(places, sys.argv[1:])
file = ogr.Open(sys.argv[2])
fields = file.GetLayerByName("well").GetLayerDefn()
print(json.dumps([[math.dist(before[nr][:2], after[nr][:2]) for nr in before],
    {fields.GetFieldDefn(at).GetName(): fields.GetFieldDefn(at).GetTypeName() for at in range(fields.GetFieldCount())},
    ogr.GeometryTypeToName(file.GetLayerByName("pipe").GetGeomType())]))
"""


def python(script, *words):
    """What the system's Python prints, which has GDAL's module."""
    return subprocess.run([SYSTEM_PYTHON, "-c", script, *words], check=True, capture_output=True, text=True).stdout


def sql(path, *statement):
    """Runs a statement on a GeoPackage."""
    with sqlite3.connect(path) as file:
        found = file.execute(*statement).fetchall()
    file.close()
    return found


def there_and_back(cases: Cases, folder: str) -> None:
    """A GeoPackage is imported, checked out, edited and checked in."""
    path, out = os.path.join(folder, "office.gpkg"), os.path.join(folder, "out.gpkg")
    python(WRITE, path)
    with Server(folder, "round_trips", 65536) as server:
        code, lines = imported(path, server.url, "--id", "nr", "--minzoom", "10")
        notes = sorted(line for line in lines if line.startswith("note: "))
        wanted = [
            "note: curves are made lines of short segments: 1 feature",
            "note: heights (Z) are dropped: 1 feature",
            "note: the layer owner of the file is a table without geometry, and isn't read",
        ]
        cases.show(
            "round trips: a GeoPackage, and what is told of it",
            (code, lines[-1], notes),
            (0, "1003 taken, 0 refused", wanted),
        )
        cases.show(
            "round trips: decimals and dates are texts on the map",
            listed(server)[3]["tags"],
            {"nr": 3, "depth": "0.375", "built": "2003-01-31", "seen": "2024-01-31T12:30:05Z", "code": "00003"},
        )
        cases.show(
            "round trips: a curve is a line of many points",
            len(listed(server)[2002]["geometry"]["lines"][0]) > 20,
            True,
        )
        gis("checkout", out, "--base", path + ".base", "--url", server.url)
        moved, types, pipe = json.loads(python(READ, path, out))
        cases.show(
            "round trips: a point of UTM comes back within 4 mm",
            (max(moved) < 0.004, statistics.median(moved) < 0.0025),
            (True, True),
        )
        cases.say(
            f"moved by {1000 * statistics.median(moved):.1f} mm in the median, {1000 * max(moved):.1f} mm at most"
        )
        cases.show(
            "round trips: columns have the types of the file",
            {name: types[name] for name in ("nr", "depth", "built", "seen", "code")},
            {"nr": "Integer64", "depth": "Real", "built": "Date", "seen": "DateTime", "code": "String"},
        )
        cases.show("round trips: a LineString is a MultiLineString", pipe, "Multi Line String")
        quiet = "0 new, 0 changed, 0 deleted, 0 conflicts, 0 refused"
        cases.show("round trips: nothing of it is sent", gis("checkin", out), (0, [quiet]))
        sql(out, "UPDATE well SET depth = 2.75, built = '2024-02-29' WHERE fid = 3")
        sql(out, "CREATE TABLE note (fid INTEGER PRIMARY KEY)")
        sql(out, "INSERT INTO gpkg_contents (table_name, data_type, identifier) VALUES ('note', 'attributes', 'note')")
        sql(out, "INSERT INTO well (geom, code, minzoom, maxzoom) SELECT geom, 'new', 10, 14 FROM well WHERE fid = 3")
        code, lines = gis("checkin", out)
        said = "sending: well 3: built: '2003-01-31' -> '2024-02-29', depth: '0.375' -> '2.75'"
        cases.show(
            "round trips: what is edited is a text again",
            (code, said in lines, listed(server)[3]["tags"]["depth"]),
            (0, True, "2.75"),
        )
        new = [line for line in lines if re.fullmatch(r"sending: well 2004 \(row \d+ of well\): new", line)]
        cases.show("round trips: a new row is told with its id", len(new), 1)
        cases.show(
            "round trips: a table without geometry isn't sent, which is told",
            "note: the table note has no geometry, and isn't sent" in lines,
            True,
        )
        code, lines = gis("checkout", os.path.join(folder, "plain.gpkg"), "--url", server.url)
        found = {name: form for _, name, form, *_ in sql(os.path.join(folder, "plain.gpkg"), "PRAGMA table_info(well)")}
        cases.show(
            "round trips: without the file's types they are texts",
            (code, found["depth"], found["built"]),
            (0, "TEXT", "TEXT"),
        )


def tables(cases: Cases, folder: str) -> None:
    """Files of tables alone."""
    alone = os.path.join(folder, "alone.gpkg")
    source = os.path.join(folder, "rows.csv")
    with open(source, "w", encoding="utf-8") as file:
        file.write("name,lon,lat\na,7.5,54.5\n")
    subprocess.run(["ogr2ogr", "-f", "GPKG", alone, source, "-nln", "rows"], check=True, capture_output=True)
    with Server(folder, "tables_alone") as server:
        code, lines = imported(alone, server.url)
        cases.show("round trips: points of a table of a GeoPackage", (code, lines[-1]), (0, "1 taken, 0 refused"))
        with open(source, "w", encoding="utf-8") as file:
            file.write("name,owner\na,b\n")
        code, lines = imported(source, server.url)
        said = (
            f"{source} has no geometry: name the columns of its points by --x and --y (it has name, owner): nothing was"
            " sent"
        )
        cases.show("round trips: a table without a place", (code, lines[-1]), (1, said))
        subprocess.run(
            ["ogr2ogr", "-f", "GPKG", "-update", alone, source, "-nln", "owners"], check=True, capture_output=True
        )
        code, lines = imported(alone, server.url)
        cases.show("round trips: two tables alone", (code, "name one by --source" in lines[-1]), (1, True))
        code, lines = imported(alone, server.url, "--source", "rows")
        cases.show("round trips: one of them by --source", (code, lines[-1]), (0, "1 taken, 0 refused"))


def round_trips(cases: Cases, folder: str) -> None:
    """Data of an office, in and out."""
    if not has_gdal(cases):
        return
    place = os.path.join(folder, "round_trips")
    os.mkdir(place)
    there_and_back(cases, place)
    tables(cases, place)
    shutil.rmtree(place)
