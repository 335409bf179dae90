"""The part `short-files` of run.py: files that have lost their end, files of which less is left than people think, and
files that are more than the map has room for. Nothing of them is sent, and what is odd about a file is told with its
row."""
import itertools
import json
import os
import re
import shutil
import subprocess
import zipfile

from .between import Between
from .import_stand import has_gdal, imported, is_near, row, shown, square, world, written
from .stand import Cases, Server, archive, curl, feature
from .updates import listed, status

HEAD, LAST = "nr,name,lon,lat\n", "9003,Pump,7.505,54.502\n"
# Files of 300 points that GDAL writes, and which of them is cut. Cut in the middle GDAL reads a part of each, and most
# without a fault.
CUT = [
    ("GeoJSON", "f.json", "f.json"),
    ("GeoJSONSeq", "f.geojsonl", "f.geojsonl"),
    ("ESRI Shapefile", "f.shp", "f.shp"),
    ("ESRI Shapefile", "f.shp", "f.dbf"),
    ("GPKG", "f.gpkg", "f.gpkg"),
    ("FlatGeobuf", "f.fgb", "f.fgb"),
    ("GML", "f.gml", "f.gml"),
    ("KML", "f.kml", "f.kml"),
    ("MapInfo File", "f.tab", "f.dat"),
    ("MapInfo File", "f.mif", "f.mif"),
    ("MapInfo File", "f.mif", "f.mid"),
    ("GPX", "f.gpx", "f.gpx"),
]


def text(folder, name, content, encoding="utf-8"):
    """The path of a text file."""
    path = os.path.join(folder, name)
    with open(path, "w", encoding=encoding, newline="") as file:
        file.write(content)
    return path


def tables(cases: Cases, folder: str) -> None:
    """Tables whose last line was cut: its place would be on the equator, or nowhere."""
    whole = HEAD + "".join(f"900{at},Well {at},7.49{at},54.50{at}\n" for at in range(3)) + LAST
    with Server(folder, "tables") as server:

        def told(name, content, *words, **more):
            code, lines = imported(
                text(folder, name, content, **more), server.url, "--layer", "w", "--id", "nr", *words
            )
            return code, lines[-1].partition(" seems to be cut: ")[2].partition(". Get all")[0], status(server)["edits"]

        no_end = "its last line has no end, and its first one has one "
        cut = whole[:-5]
        cases.show(
            "short files: a table whose last number was cut",
            told("w.csv", cut),
            (1, no_end + "('9003,Pump,7.505,54')", 0),
        )
        fields = "its last line has 3 of the 4 fields of its head ('9003,Pump,7.505')"
        cases.show(
            "short files: a last line with fewer fields than the head", told("w.csv", whole[:-8] + "\n"), (1, fields, 0)
        )
        excel = whole[:-8].replace(",", ";").replace("\n", "\r\n") + "\r\n"
        cases.show(
            "short files: as Excel writes it",
            told("w.csv", excel),
            (1, fields.replace("3,P", "3;P").replace("p,7", "p;7"), 0),
        )
        cases.show(
            "short files: in UTF-16", told("w.txt", cut, encoding="utf-16"), (1, no_end + "('9003,Pump,7.505,54')", 0)
        )
        quoted = HEAD + '9000,"Well\nof two lines",7.49,54.5\n9003,"Pump\n'
        cases.show(
            "short files: cut within a text of two lines",
            told("w.csv", quoted),
            (1, "its last field has no end ('9003,\"Pump')", 0),
        )
        cases.show("short files: --not-cut takes it", told("w.csv", whole[:-1], "--not-cut"), (0, "", 1))
        quoted = HEAD + '9005,"Well\nof two lines",7.49,54.5\n9006,"Pump\n",7.5,54.5\n'
        cases.show("short files: a text of two lines that is whole", told("w.csv", quoted), (0, "", 2))
        found = shown(server, 9003) or {"geometry": {"points": [(0, 0)]}}
        cases.show(
            "short files: the last row is where it is",
            is_near(found["geometry"]["points"], [world(7.505, 54.502)]),
            True,
        )


def other_formats(cases: Cases, folder: str) -> None:
    """Files of other formats, cut in the middle."""
    path = written(
        folder, "source.geojson", [row("Point", [7 + at / 1000, 54], nr=at, name=f"point {at}") for at in range(1, 301)]
    )
    with Server(folder, "formats") as server:
        for kind, name, part in CUT:
            place = os.path.join(folder, "cut")
            os.mkdir(place)
            more = ["-dsco", "GPX_USE_EXTENSIONS=YES"] if kind == "GPX" else []
            made = os.path.join(place, name)
            child = subprocess.run(["ogr2ogr", "-f", kind, *more, made, path], capture_output=True, text=True)
            if child.returncode != 0:
                cases.say(f"GDAL makes no {kind} here: {child.stderr.strip()[:100]}")
            else:
                os.truncate(os.path.join(place, part), os.path.getsize(os.path.join(place, part)) * 6 // 10)
                code, lines = imported(made, server.url, "--layer", "p", "--crs", "EPSG:4326")
                cases.show(
                    f"short files: {part} cut in the middle",
                    (code, lines[-1].endswith("nothing was sent"), status(server)["edits"]),
                    (1, True, 0),
                )
            shutil.rmtree(place)


def fewer_rows(cases: Cases, folder: str) -> None:
    """A file that ends between two rows: only how much would be deleted can be judged."""

    def rows(layers):
        names = itertools.chain(*([name] * many for name, many in layers))
        return [row("Point", [at / 100, 1], nr=at, of=name) for at, name in enumerate(names, 1)]

    with Server(folder, "fewer", 65536) as server:
        words = ["--layer-field", "of", "--id", "nr", "--update", "--base", os.path.join(folder, "fewer.base")]
        all_rows = rows([("road", 100), ("well", 40)])
        imported(written(folder, "fewer.geojson", all_rows), server.url, *words)

        def told(left, *more):
            code, lines = imported(written(folder, "fewer.geojson", left), server.url, *words, *more)
            return code, lines[-2] if code else lines[-1], len(listed(server))

        most = ["--delete-missing", "--delete-at-most"]
        said = "11 of 100 features of road would be deleted, and --delete-at-most 10% allows fewer: is the file whole?"
        cases.show("short files: --delete-at-most 10%, 11 of 100", told(all_rows[11:], *most, "10%"), (1, said, 140))
        cases.show(
            "short files: --delete-at-most 10, 11 of 100",
            told(all_rows[11:], *most, "10"),
            (1, said.replace("10%", "10"), 140),
        )
        cases.show(
            "short files: --delete-at-most 10%, 10 of 100",
            told(all_rows[10:], *most, "10%"),
            (0, "0 new, 0 changed, 10 deleted, 130 unchanged", 130),
        )
        said = "21 of 40 features of well would be deleted: is the file whole? --delete-many deletes them"
        cases.show(
            "short files: each layer is judged by itself", told(all_rows[10:119], "--delete-missing"), (1, said, 130)
        )
        code, lines = imported(
            written(folder, "fewer.geojson", all_rows), server.url, *words, "--delete-at-most", "10%"
        )
        cases.show(
            "short files: --delete-at-most without what deletes", (code, "give one of them" in lines[-1]), (2, True)
        )
        code, lines = imported(written(folder, "fewer.geojson", all_rows), server.url, *words, *most, "a tenth")
        cases.show(
            "short files: --delete-at-most with neither",
            (code, "neither a number of features (25) nor a share of a layer (10%)" in lines[-1]),
            (2, True),
        )


def without_room(cases: Cases, folder: str) -> None:
    """A long file for which the disk has no room: that is said before all of it is read, and its size says which disk
    has."""
    path = text(
        folder,
        "long.csv",
        "nr,name,lon,lat\n" + "".join(f"{at},{at} {'x' * 900},{at / 1000},50\n" for at in range(5000)),
    )
    with Server(folder, "no_room", 4096) as server:
        # Each takes some 940 bytes of the snapshot and as many of one tile, and an area has 1,534 sectors: room for 256
        # of them, and not for 512.
        code, lines = imported(path, server.url, "--layer", "w", "--minzoom", "14", "--publish")
        said = lines[-1].startswith("after 512 of 5,000 features, with 1,534 sectors of an area: about 1,8")
        cases.show(
            "short files: no room for a long file",
            (code, said, "to a disk of 65,536 sectors" in lines[-1]),
            (1, True, True),
        )
        code, lines = imported(path, server.url, "--layer", "w", "--minzoom", "14", "--publish", "--id", "nr")
        said = lines[-1].startswith(
            "after 1,024 of 5,000 features, with 1,534 sectors of an area: their snapshot alone takes 1,8"
        )
        cases.show("short files: what is on the map already isn't counted", (code, said), (1, True))
        # Names of tags are in a tile once, and in the journal with each feature: 19 of 60 bytes take 1,259 bytes there,
        # and 207 in a tile.
        head = ",".join(f"{at:02}{'x' * 58}" for at in range(19))
        path = text(
            folder, "names.csv", f"{head},lon,lat\n" + "".join("1," * 19 + f"{at / 1000},50\n" for at in range(600))
        )
        code, lines = imported(path, server.url, "--layer", "w", "--minzoom", "14")
        said = (
            "after 512 of 600 features, with 1,534 sectors of an area: the journal has 1,024 of its 1,024 sectors free"
        )
        said += ": give --publish: nothing was sent"
        cases.show("short files: no room in the journal", (code, lines[-1]), (1, said))
        cases.show("short files: nothing of it was sent", status(server)["edits"], 0)


def near_the_end_of_an_archive(cases: Cases, folder: str) -> None:
    """An archive has at most 131,072 entries: those that are published count. Byte 80 of an archive says how many these
    are."""
    header = bytearray(archive()[:127])
    path = written(folder, "ten.geojson", [row("Point", [at, at]) for at in range(1, 11)])
    with Server(folder, "nearly", 4096) as server:
        curl(server.url + "/features/1", "-X", "PUT", body=feature())
        curl(server.url + "/publish", "-X", "POST")
        for there, warns in ((131062, False), (131063, True)):
            header[80:88] = there.to_bytes(8, "little")
            part = 206, bytes(header)
            with Between(
                server, instead=lambda _, path, part=part: part if path == "/map.pmtiles" else None
            ) as between:
                code, lines = imported(path, between.url, "--layer", "p", "--minzoom", "14", "--dry-run")
            found = [line for line in lines if line.startswith("warning: an archive has at most 131,072 entries")]
            said = [f"The one that was published last has {there:,}: " in line for line in found]
            cases.show(f"short files: ten tiles beside {there:,} entries", (code, said), (0, [True] if warns else []))
        told = status(server)
        for there, warns in ((131062, False), (131063, True)):
            drafting = {"entries": there, "made": there, "places": 1}
            part = 200, json.dumps({**told, "drafting": drafting}).encode()
            with Between(
                server, instead=lambda _, path, part=part: part if path == "/admin/status" else None
            ) as between:
                code, lines = imported(path, between.url, "--layer", "p", "--minzoom", "14", "--dry-run")
            found = [line for line in lines if line.startswith("warning: an archive has at most 131,072 entries")]
            said = [f"The one in the making has {there:,}: " in line for line in found]
            cases.show(f"short files: beside {there:,} in the making", (code, said), (0, [True] if warns else []))


def zipped(cases: Cases, folder: str) -> None:
    """Shapefiles as offices send them."""
    path = written(folder, "town.geojson", [row("Point", [7, 54], name="Straße"), row("Point", [7.1, 54], name="two")])
    for name in ("town", "lake"):
        subprocess.run(
            ["ogr2ogr", "-f", "ESRI Shapefile", "-lco", "ENCODING=UTF-8", os.path.join(folder, name + ".shp"), path],
            check=True,
            capture_output=True,
        )

    def made(zipped_as, *names, inside="data of 2026/"):
        place = os.path.join(folder, zipped_as)
        with zipfile.ZipFile(place, "w", zipfile.ZIP_DEFLATED) as file:
            for name in names:
                file.write(os.path.join(folder, name), inside + name)
            file.writestr("__MACOSX/" + inside + "._" + names[0], b"")
        return place

    parts = [f"town.{end}" for end in ("shp", "shx", "dbf", "prj", "cpg")]
    lake = [name.replace("town", "lake") for name in parts]
    with Server(folder, "zipped", 65536) as server:
        code, lines = imported(made("town.zip", *parts), server.url, "--first", "1")
        cases.show(
            "short files: a zipped Shapefile",
            (code, lines[-1], (shown(server, 1) or {}).get("tags")),
            (0, "2 taken, 0 refused", {"name": "Straße"}),
        )
        code, lines = imported(made("two.zip", *parts, *lake, inside=""), server.url)
        layers = {one["layer"] for one in listed(server).values()}
        cases.show(
            "short files: two in one zip file", (code, lines[-1], layers), (0, "4 taken, 0 refused", {"town", "lake"})
        )
        place = made("cut.zip", *parts)
        os.truncate(place, os.path.getsize(place) // 2)
        code, lines = imported(place, server.url)
        cases.show("short files: a zip file that was cut", (code, "is no whole zip file" in lines[-1]), (1, True))
        code, lines = imported(made("mixed.zip", *parts, "town.geojson"), server.url)
        said = "has several files: unpack it, and name one (it has data of 2026/town.shp, data of 2026/town.geojson)"
        said += ": nothing was sent"
        cases.show("short files: a zip file of several", (code, lines[-1].endswith(said)), (1, True))
        code, lines = imported(made("none.zip", "town.prj"), server.url)
        cases.show(
            "short files: a zip file of none",
            (code, "has no file that is read (it has data of 2026/town.prj)" in lines[-1]),
            (1, True),
        )
        text(folder, "w.csv", HEAD + LAST[:-5])
        code, lines = imported(made("csv.zip", "w.csv"), server.url)
        cases.show(
            "short files: a table in a zip file that was cut before",
            (code, "seems to be cut" in lines[-1], status(server)["features"]),
            (1, True, 6),
        )


def by_row(cases: Cases, folder: str) -> None:
    """What is odd about a feature is told with its row: numbers beyond 64 bits, rings that cross, no id."""
    numbers = [7, 2**64 - 1, -(2**63) - 1, 2**64, 2**63 - 1]
    with Server(folder, "by_row", 65536) as server:
        path = written(
            folder, "numbers.geojson", [row("Point", [at, 1], n=number) for at, number in enumerate(numbers, 1)]
        )
        code, lines = imported(path, server.url, "--layer", "n", "--first", "1")
        refused = [line for line in lines if "refused: not sent" in line]
        why = "refused: not sent: its n is {}: numbers go from -2^63 to 2^64 - 1"
        wanted = [f"feature {at} (row {at}) {why.format(numbers[at - 1])}" for at in (3, 4)]
        cases.show("short files: numbers beyond 64 bits", (code, refused), (1, wanted))
        found = [(shown(server, at) or {"tags": {}})["tags"].get("n") for at in (1, 2, 5)]
        cases.show("short files: those that a tag takes have all digits", found, [7, 2**64 - 1, 2**63 - 1])
        lines_of_json = "".join(
            json.dumps(row("Point", [at, 1], n=number)) + "\n" for at, number in enumerate((7, 2**64), 1)
        )
        code, lines = imported(text(folder, "numbers.geojsonl", lines_of_json), server.url, "--layer", "lines")
        said = (
            f"note: the field n may have had a number beyond 64 bits, which GDAL makes {2 ** 63 - 1}: 1 feature: row 2"
        )
        cases.show("short files: where GDAL doesn't tell all digits", (code, said in lines), (0, True))
        path = written(
            folder, "reals.geojson", [row("Point", [at, 1], n=number) for at, number in enumerate((0.5, 2.0**60), 1)]
        )
        code, lines = imported(path, server.url, "--layer", "reals")
        said = "note: the field n has numbers beyond 53 bits, of which GDAL may have lost digits: 1 feature: row 2"
        cases.show("short files: whole numbers in a column of fractions", (code, said in lines), (0, True))
        cross = [[7, 54], [7.02, 54.02], [7.02, 54], [7, 54.01], [7, 54]]
        # The edges from (0, 0) to (2, 2) and from (2, 0) to (0, 1), in hundredths, meet at 2/3.
        path = written(
            folder,
            "cross.geojson",
            [row("Polygon", [square(7, 54, 0.01)]), row("Polygon", [cross]), row("Polygon", [square(8, 54, 0.01)])],
        )
        code, lines = imported(path, server.url, "--layer", "cross")
        said = "note: their rings cross: 1 feature: row 2 at 7.00666667 54.0066667"
        cases.show(
            "short files: rings that cross",
            (code, [line for line in lines if line.startswith("note: their")]),
            (0, [said]),
        )
        path = written(
            folder, "no_id.geojson", [row("Point", [at, 1], **({"nr": at} if at != 2 else {})) for at in (1, 2, 3)]
        )
        code, lines = imported(path, server.url, "--layer", "no_id", "--id", "nr", "--first", "9000")
        cases.show(
            "short files: a feature without an id", (code, lines[0]), (1, "row 2 refused: not sent: it has no nr")
        )


def many_pieces(cases: Cases, folder: str) -> None:
    """A feature that would become thousands of features."""
    # 40 degrees of longitude are 1,820.4 tiles of zoom 14, 50 are 2,275.6: a line along the equator is cut once a tile.
    with Server(folder, "pieces_of_one", 65536) as server:
        for degrees, about in ((40, None), (50, 2276)):
            path = written(folder, "line.geojson", [row("LineString", [[0.001, 1], [0.001 + degrees, 1]])])
            code, lines = imported(
                path, server.url, "--layer", f"line{degrees}", "--minzoom", "14", "--first", "1", "--dry-run"
            )
            said = [line for line in lines if "will be cut" in line]
            fewer = "a smaller --maxzoom makes fewer of them, --no-split none"
            wanted = [f"feature 1 will be cut into about {about:,} pieces: {fewer}"] if about else []
            cases.show(f"short files: a line of {degrees} degrees", (code, said), (1 if about else 0, wanted))
        told = re.fullmatch(
            "1 feature would be ([0-9,]+) pieces, each with an id of its own: (.*), --cut-many puts them", lines[-2]
        )
        pieces = int(told[1].replace(",", "")) if told else 0
        # A cell at either end may be a part of its neighbour.
        cases.show(
            "short files: it isn't cut unless that is wanted",
            (2268 <= pieces <= 2277, told and told[2], lines[-1]),
            (True, fewer, "nothing was sent"),
        )
        code, lines = imported(path, server.url, "--layer", "line50", "--minzoom", "14", "--cut-many")
        cases.show("short files: --cut-many", (code, lines[-1]), (0, f"{pieces} taken, 0 refused"))


def short_files(cases: Cases, folder: str) -> None:
    """Files that came short."""
    if not has_gdal(cases):
        return
    place = os.path.join(folder, "short_files")
    for part in (
        tables,
        other_formats,
        fewer_rows,
        without_room,
        near_the_end_of_an_archive,
        zipped,
        by_row,
        many_pieces,
    ):
        os.mkdir(place)
        part(cases, place)
        shutil.rmtree(place)
