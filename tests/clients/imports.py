"""The part `import` of run.py: `vtmap import` of file formats, kinds of features and numbers, through nginx, and how
it stops."""
import http.server
import os
import re
import shutil
import signal
import subprocess
import threading
import time

from .import_stand import (
    WORLD,
    features_between,
    has_gdal,
    import_of,
    imported,
    is_near,
    point_rows,
    row,
    shown,
    square,
    world,
    written,
)
from .stand import Cases, Nginx, Server, curl, feature

FORMATS = [
    ("GeoJSON", "p.json", []),
    ("GeoJSONSeq", "p.geojsonl", []),
    ("ESRI Shapefile", "p.shp", ["-lco", "ENCODING=UTF-8"]),
    ("GPKG", "p.gpkg", []),
    ("FlatGeobuf", "p.fgb", []),
    ("GML", "p.gml", []),
    ("MapInfo File", "p.tab", ["-lco", "ENCODING=UTF-8"]),
    ("KML", "p.kml", []),
    ("CSV", "p.csv", ["-lco", "GEOMETRY=AS_WKT"]),
]


def formats(cases, folder, server):
    """Two points in each format."""
    path = written(folder, "points.geojson", point_rows())
    for at, (kind, name, words) in enumerate(FORMATS):
        made = os.path.join(folder, name)
        child = subprocess.run(["ogr2ogr", "-f", kind, *words, made, path, "-nln", "p"], capture_output=True, text=True)
        if child.returncode != 0 or not os.path.exists(made):
            cases.say(f"GDAL makes no {kind} here: {child.stderr.strip()[:100]}")
            continue
        first = 1000 + 10 * at
        status, lines = imported(
            made, server.url, "--layer", "p", "--first", str(first), *(["--crs", "EPSG:4326"] if kind == "CSV" else [])
        )
        cases.show(f"import: {kind}", (status, lines[-1]), (0, "2 taken, 0 refused"))
        for number, given in zip((first, first + 1), point_rows()):
            found = shown(server, number) or {"geometry": {"points": []}, "tags": {}}
            cases.show(
                f"import: {kind}, its place",
                is_near(found["geometry"]["points"], [world(*given["geometry"]["coordinates"])], 2),
                True,
            )
            tags = {key.lower(): value for key, value in found["tags"].items()}
            wanted = {
                **given["properties"],
                "height": int(given["properties"]["height"]),
                "width": str(given["properties"]["width"]),
            }
            if kind == "FlatGeobuf":
                # It has no dates without a time.
                wanted["built"] += "T00:00:00"
            if kind in ("CSV", "KML"):
                # These formats have texts alone, or more fields of their own.
                cases.show(f"import: {kind}, its name", tags.get("name"), wanted["name"])
            else:
                cases.show(f"import: {kind}, its tags", {key: tags.get(key) for key in wanted}, wanted)


def encodings(cases, folder, server):
    """A Shapefile in Latin-1 that doesn't say so."""
    path = written(folder, "latin.geojson", [row("Point", [10, 50], name="Straße Süd")])
    made = os.path.join(folder, "latin.shp")
    subprocess.run(
        ["ogr2ogr", "-f", "ESRI Shapefile", "-lco", "ENCODING=ISO-8859-1", made, path], check=True, capture_output=True
    )
    os.remove(made[:-4] + ".cpg")
    with open(made[:-4] + ".dbf", "r+b") as file:
        file.seek(29)
        file.write(b"\0")
    given = [([], "Straße Süd"), (["--encoding", "latin-1"], "Straße Süd"), (["--encoding", "cp437"], "Stra▀e Sⁿd")]
    for number, (words, wanted) in enumerate(given, 1200):
        status, lines = imported(made, server.url, "--layer", "p", "--first", str(number), *words)
        found = (shown(server, number) or {"tags": {}})["tags"].get("name")
        cases.show(
            f"import: a Shapefile in Latin-1 that doesn't say it, {words[-1] if words else 'no encoding given'}",
            (status, found),
            (0, wanted),
        )
        told = any("aren't UTF-8 and are read as cp1252" in line for line in lines)
        cases.show("import: it says which encoding it took", told, not words)
    status, lines = imported(made, server.url, "--layer", "p", "--encoding", "klingon")
    cases.show(
        "import: an encoding that nobody knows",
        (status, lines[-1].endswith("--encoding: no encoding klingon is known")),
        (2, True),
    )


def kinds(cases, folder, server):
    """What a feature can't have, and what is never shown."""
    rows = [
        row(
            "Point",
            [10, 50, 300],
            seen="2024-01-31T12:30:05Z",
            at="2024-01-31T12:30:05.250+02:00",
            list=["a", "b"],
            object={"a": 1},
            nothing=None,
            yes=True,
        ),
        row("LineString", [[179, 10], [-179, 11]], name="over the meridian"),
        row("Polygon", [[[177, -17], [-178, -17], [-178, -19], [177, -19], [177, -17]]], name="over it too"),
        row("Polygon", [[[1, 1], [1, 2], [1, 3], [1, 1]]], name="no area"),
        row("LineString", [[1, 1], [1, 1]], name="one place"),
        row("Polygon", [[[1, 1], [1.00001, 1], [1.00001, 1.00001], [1, 1]]], name="a small one"),
        row("Point", [1, 1], text="ä" * 600),
    ]
    path = written(folder, "kinds.geojson", rows)
    status, lines = imported(path, server.url, "--layer", "k", "--maxzoom", "4", "--first", "1301")
    never = "not sent: it has no extent and is never shown: its area is 0, or all points of its line are one place"
    long = (
        "feature 1307 refused: E7 Value (a text of a tag has over 1,024 bytes, or a number is outside of -2^63 to 2^64"
        " - 1)"
    )
    refused = [f"feature 1304 (row 4) refused: {never}", f"feature 1305 (row 5) refused: {never}", long]
    cases.show(
        "import: what is never shown, and what is too long",
        (status, [line for line in lines if " refused: " in line]),
        (1, refused),
    )
    notes = [
        "note: the field list is dropped: a list is no value of a tag: 1 feature",
        "note: the field object is dropped: a list or an object is no value of a tag: 1 feature",
        "note: heights (Z) are dropped: 1 feature",
        "note: cut at the 180th meridian, which they cross: 2 features",
        "note: no zoom shows them: they are smaller than a unit of a tile of zoom 4: 1 feature",
    ]
    cases.show("import: what is dropped is said", [line for line in lines if line.startswith("note: ")], notes)
    wanted = {"seen": "2024-01-31T12:30:05Z", "at": "2024-01-31T12:30:05.250+02:00", "yes": True}
    cases.show("import: dates as ISO texts", (shown(server, 1301) or {}).get("tags"), wanted)
    lines = (shown(server, 1302) or {"geometry": {"lines": []}})["geometry"]["lines"]
    middle = (world(0, 10)[1] + world(0, 11)[1]) / 2
    wanted = [[world(179, 10), (WORLD - 1, middle)], [(0, middle), world(-179, 11)]]
    cases.show(
        "import: a line over the 180th meridian is two",
        len(lines) == 2 and all(is_near(*pair) for pair in zip(lines, wanted)),
        True,
    )
    polygons = (shown(server, 1303) or {"geometry": {"polygons": []}})["geometry"]["polygons"]
    boxes = [[min(x for x, _ in rings[0]), max(x for x, _ in rings[0])] for rings in polygons]
    wanted = [[world(177, 0)[0], WORLD - 1], [0, world(-178, 0)[0]]]
    cases.show("import: a polygon over it is two", is_near(sorted(boxes, reverse=True), wanted), True)
    status, lines = imported(path, server.url, "--layer", "k", "--maxzoom", "4", "--first", "1301", "--cut-texts")
    found = (shown(server, 1307) or {"tags": {}})["tags"].get("text")
    cases.show("import: --cut-texts", (lines[-1], found), ("1 taken, 2 refused, 4 unchanged", "ä" * 512))


def numbers(cases, folder, server):
    """Numbers from a field, and a second import without ghosts."""
    rows = [row("Point", [at, at], nr=at, name=str(at)) for at in (11, 12, 13)]
    curl(server.url + "/features/99", "-X", "PUT", body=feature("other", 0, 14))
    status, lines = imported(written(folder, "three.geojson", rows), server.url, "--layer", "n", "--id", "nr")
    cases.show(
        "import: --id",
        (status, [(shown(server, at) or {"tags": {}})["tags"].get("name") for at in (11, 12, 13)]),
        (0, ["11", "12", "13"]),
    )
    rows = [row("Point", [5, 5], nr=13, name="moved"), row("Point", [6, 6], nr=11, name="11")]
    status, lines = imported(
        written(folder, "three.geojson", rows), server.url, "--layer", "n", "--id", "nr", "--replace", "n"
    )
    found = [(shown(server, at) or {"tags": {}})["tags"].get("name") for at in (11, 12, 13)]
    wanted = (0, "0 new, 2 changed, 1 deleted, 0 unchanged", ["11", None, "moved"])
    cases.show("import: --replace deletes what the file no longer has", (status, lines[-1], found), wanted)
    cases.show("import: and nothing else", (shown(server, 99) or {}).get("layer"), "other")
    rows = [row("Point", [5, 5], nr=99)]
    status, lines = imported(
        written(folder, "taken.geojson", rows), server.url, "--layer", "n", "--id", "nr", "--replace", "n"
    )
    said = (
        "1 of the ids are taken by other layers: 1 of other. Give another --first, or --overwrite to replace these"
        " features"
    )
    cases.show("import: a number of another layer isn't taken", (status, lines[-2:]), (1, [said, "nothing was sent"]))
    rows = [row("Point", [5, 5], nr=value) for value in (-1, "x", 7, 7, None, [1])]
    status, lines = imported(written(folder, "odd.geojson", rows), server.url, "--layer", "n", "--id", "nr")
    cases.show("import: numbers that are none, or taken twice", (status, lines[-1]), (1, "1 taken, 5 refused"))


def pieces(cases, folder, server):
    """A large square with a number of its own, cut; then a newer file in which it is small, and one in which it
    can't be put."""
    piece = 2**40
    words = [
        "--layer",
        "s",
        "--minzoom",
        "12",
        "--id",
        "nr",
        "--base",
        os.path.join(folder, "square.base"),
        "--replace",
        "s",
    ]
    path = written(
        folder, "square.geojson", [row("Polygon", [square(20, 50, 0.05)], nr=21), row("Point", [20, 50], nr=22)]
    )
    status, lines = imported(path, server.url, *words)
    made = re.match(r"feature 21 is cut into (\d+) pieces and (\d+) of its outline$", lines[0])
    cases.show("import: --id, a feature that is cut", (status, made is not None), (0, True))
    last = sum(map(int, made.groups())) - 1 if made else 1
    found = [shown(server, 21 + at * piece) or {"layer": None, "tags": {}} for at in (0, 1, last, last + 1)]
    wanted = [("s", 21), ("s", 21), ("s-outline", 21), (None, None)]
    cases.show(
        "import: the numbers and layers of its pieces",
        [(one["layer"], one["tags"].get("whole")) for one in found],
        wanted,
    )
    finer = imported(path, server.url, "--layer", "finer", *words[2:-2], "--split-zoom", "15", "--first", "2000")
    more = re.match(r"feature 2021 is cut into (\d+) pieces", finer[1][0])
    cases.show(
        "import: --split-zoom cuts finer", made is not None and more is not None and int(more[1]) > int(made[1]), True
    )
    other = written(
        folder, "unfit.geojson", [row("Polygon", [square(20, 50, 0.05)], nr=21, whole=1), row("Point", [20, 50], nr=22)]
    )
    status, lines = imported(other, server.url, *words)
    there = shown(server, 21 + piece) is not None
    wanted = (1, "0 new, 0 changed, 0 deleted, 1 unchanged, 1 refused", True)
    cases.show("import: --replace leaves the pieces of what is refused", (status, lines[-1], there), wanted)
    path = written(
        folder, "small.geojson", [row("Polygon", [square(20, 50, 0.005)], nr=21), row("Point", [20, 50], nr=22)]
    )
    status, lines = imported(path, server.url, *words)
    left = [at for at in range(1, 40) if shown(server, 21 + at * piece)]
    whole = (shown(server, 21) or {"tags": {"whole": 0}})["tags"]
    cases.show("import: --replace deletes the pieces of what is small now", (status, whole, left), (0, {"nr": 21}, []))
    status, lines = imported(path, server.url, "--layer", "t", "--replace", "s")
    cases.show("import: --replace and --layer of two names", status, 2)


def through_nginx(cases, folder, server):
    """A proxy that takes smaller bodies, and one that lets nobody edit."""
    nginx = shutil.which("nginx", path=os.environ.get("PATH", "") + ":/usr/sbin")
    if not nginx:
        cases.say("no nginx: no import through it")
        return
    path = written(folder, "long.geojson", [row("LineString", [[at / 1000, 50] for at in range(500)])])
    with Nginx(nginx, folder, server, [("client_max_body_size 65536", "client_max_body_size 4096")]) as front:
        status, lines = imported(path, front.url, "--layer", "l", "--first", "1400")
        said = re.fullmatch(
            r"feature 1400 refused: 413 \(a proxy in front of the server takes no body of [\d,]+ bytes: .*\)", lines[-2]
        )
        cases.show(
            "import: a 413 of nginx is told with its cause",
            (status, said is not None, lines[-1]),
            (1, True, "0 taken, 1 refused"),
        )
    shutil.rmtree(front.folder)
    with Nginx(nginx, folder, server, [("allow 127.0.0.1;", "deny 127.0.0.1;")]) as front:
        status, lines = imported(path, front.url, "--layer", "l", "--first", "1400")
        said = re.fullmatch(r"403 \(.* `allow` in docs/nginx.conf.*\): nothing was sent", lines[-1])
        cases.show("import: a 403 of nginx ends it", (status, said is not None), (1, True))
    shutil.rmtree(front.folder)
    path = written(folder, "further.geojson", [row("Point", [1, 1])])
    note = "note: they are shown up to zoom 14: give --maxzoom 16 to show them as far in as /map.json says"
    with Nginx(nginx, folder, server) as front:
        ways = [
            imported(path, url, "--layer", "further", *words)[1]
            for url, words in ((front.url, []), (front.url, ["--maxzoom", "14"]), (server.url, []))
        ]
        cases.show(
            "import: features that end before the zooms of TileJSON",
            [note in lines for lines in ways],
            [True, False, False],
        )
    shutil.rmtree(front.folder)


def imports(cases: Cases, folder: str) -> None:
    """Each file format and each case of an import, on one server; then full journals, full areas and an
    interruption."""
    if not has_gdal(cases):
        return
    with Server(folder, "imports", 65536) as server:
        for part in (formats, encodings, kinds, numbers, pieces, through_nginx):
            part(cases, folder, server)
    stops(cases, folder)
    too_many(cases, folder)
    interrupted(cases, folder)


def stops(cases: Cases, folder: str) -> None:
    """A map that its disk can't publish: the import stops at once."""
    rows = [row("Point", [at / 10, at / 10], name=f"{at} " + "x" * 900) for at in range(200)]
    path = written(folder, "stops.geojson", rows)
    with Server(folder, "stops", 64) as server:
        status, lines = imported(path, server.url, "--layer", "p", "--maxzoom", "2", "--publish")
        cases.show("import: what its disk can't publish isn't begun", (status, lines[-1]), (1, "nothing was sent"))
        status, lines = imported(path, server.url, "--layer", "p", "--maxzoom", "2", "--publish", "--anyway")
        stopped = re.fullmatch(r"stopped at feature (\d+): AreaFull need \d+ free 22 \(.*\)", lines[-2])
        taken = re.fullmatch(r"(\d+) taken, 0 refused: run the same command again with --first 1", lines[-1])
        cases.show(
            "import: --publish stops at AreaFull", (status, stopped is not None, taken is not None), (1, True, True)
        )
        if stopped and taken:
            cases.show("import: and told the feature behind the last one taken", int(stopped[1]), int(taken[1]) + 1)


class Refuses(http.server.BaseHTTPRequestHandler):
    """A server whose journal is full, and whose map has too many tiles for an archive."""

    def reply(self, status, content):
        self.rfile.read(int(self.headers.get("content-length", 0)))
        self.send_response(status)
        self.send_header("content-length", str(len(content)))
        self.end_headers()
        self.wfile.write(content)
        self.server.asked.append(f"{self.command} {self.path}")

    def do_GET(self):
        self.reply(404, b"NotFound\n")

    def do_PUT(self):
        self.reply(507, b"JournalFull need 1 free 0\n")

    def do_POST(self):
        self.reply(507, b"JournalFull need 1 free 0\n" if self.path == "/edits" else b"TooManyTiles\n")

    def log_message(self, *_):
        pass


def too_many(cases: Cases, folder: str) -> None:
    """A stand-in for a server that has too many tiles: 131,072 entries would take minutes to make."""
    path = written(folder, "many.geojson", [row("Point", [at, at]) for at in range(9)])
    with http.server.HTTPServer(("127.0.0.1", 0), Refuses) as server:
        server.asked = []
        threading.Thread(target=server.serve_forever, daemon=True).start()
        status, lines = imported(
            path, f"http://127.0.0.1:{server.server_port}", "--layer", "p", "--publish", "--first", "1"
        )
        server.shutdown()
        stopped = lines[-2].startswith("stopped at feature 1: TooManyTiles (")
        asked = [line for line in server.asked if not line.startswith("GET ")]
        cases.show(
            "import: --publish stops at TooManyTiles",
            (status, stopped, asked),
            (1, True, ["POST /edits", "POST /publish/begin"]),
        )


def interrupted(cases: Cases, folder: str) -> None:
    """An import that is interrupted, and run again, beside one that isn't."""
    corners = [(0, 0), (0.02, 0), (0.02, 0.02), (0, 0.02), (0, 0)]
    rows = [
        row("Polygon", [[[at % 400 / 5 + x, 10 + at // 400 + y] for x, y in corners]], name=str(at))
        for at in range(1200)
    ]
    path = written(folder, "interrupted.geojson", rows)
    words = ["--layer", "p", "--minzoom", "12", "--publish", "--first", "1"]
    with Server(folder, "whole_import", 16384) as whole, Server(folder, "cut_import", 16384) as server:
        status, lines = imported(path, whole.url, *words)
        total = int(lines[-1].split()[0])
        child = subprocess.Popen(import_of(path, server.url, *words, "--no-batches"), stdout=subprocess.PIPE, text=True)
        while shown(server, 1) is None and child.poll() is None:
            time.sleep(0.01)
        child.send_signal(signal.SIGINT)
        last = child.communicate(timeout=60)[0].splitlines()[-1]
        some = re.fullmatch(r"(\d+) taken, 0 refused, then it was interrupted: run the same command again", last)
        cases.show(
            "import: interrupted", (child.returncode, some is not None and 0 < int(some[1]) < total), (130, True)
        )
        again = imported(path, server.url, *words)
        found = [features_between(one, folder, 1, total + 20) for one in (whole, server)]
        cases.show(
            "import: interrupted and run again: the same map",
            (again[0], len(found[0]), found[0] == found[1]),
            (0, total, True),
        )


# ---- a full file system
