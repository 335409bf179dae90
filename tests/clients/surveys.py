"""The part `gdal` of run.py: a survey that is imported, and its tiles as GDAL reads them."""
import json
import math
import os
import re
import shutil
import subprocess

from .stand import EXAMPLES, HALF, SYSTEM_PYTHON, VTMAP, Cases, Server, curl, status_of


def world(longitude, latitude):
    """The point of the world of a place on earth, by the formula of Web Mercator."""
    down = 0.5 - math.asinh(math.tan(math.radians(latitude))) / (2 * math.pi)
    return (longitude + 180) / 360 * 2 ** 32, down * 2 ** 32


def near(found, sought, most):
    """Whether lists of lists of numbers have one shape, with numbers that differ by so much at most."""
    if isinstance(found, list) and isinstance(sought, (list, tuple)):
        return len(found) == len(sought) and all(near(one, other, most) for one, other in zip(found, sought))
    return isinstance(found, (int, float)) and isinstance(sought, (int, float)) and abs(found - sought) <= most


def surveyed():
    """The features of survey.geojson as vtserve is to have them: kind, points, tags; none for the one with the long
    text."""
    with open(os.path.join(EXAMPLES, "survey.geojson"), encoding="utf-8") as file:
        rows = json.load(file)["features"]
    made = []
    for row in rows:
        kind, points = row["geometry"]["type"], row["geometry"]["coordinates"]
        tags = {
            name: str(value) if isinstance(value, float) else value
            for name, value in row["properties"].items()
            if value is not None
        }
        if any(isinstance(value, str) and len(value.encode()) > 1024 for value in tags.values()):
            made.append(None)
        elif kind.endswith("Point"):
            made.append(("points", [world(*point) for point in (points if kind == "MultiPoint" else [points])], tags))
        elif kind == "LineString":
            made.append(("lines", [[world(*point) for point in points]], tags))
        else:
            made.append(("polygons", [[[world(*point) for point in ring[:-1]] for ring in points]], tags))
    return made


def said(line):
    """Whether a line of the import is about a feature or the end, not about what is to be sent."""
    return not line.startswith(
        ("to send: ", "needed beside ", "what was published ", "used: ", "look at it: ", "its edits: ")
    )


def gdal(cases: Cases, folder: str) -> None:
    """A file of a survey put into the map by the example, and its tiles read by GDAL."""
    if not shutil.which("ogr2ogr"):
        cases.say("no ogr2ogr: no tile is read by GDAL")
        return
    if subprocess.run([SYSTEM_PYTHON, "-c", "import osgeo.ogr"], capture_output=True).returncode != 0:
        cases.say("no GDAL in the system's Python: no file is put into the map")
        return
    with Server(folder, "survey") as server:
        tool = [*VTMAP, "import"]
        words = ["--layer", "survey", "--minzoom", "10", "--maxzoom", "16", "--first", "101", "--url", server.url]
        survey = shutil.copy(os.path.join(EXAMPLES, "survey.geojson"), folder)
        told = subprocess.run([*tool, survey, *words], capture_output=True, text=True)
        refused = "feature 106 refused: E7 Value"
        lines = [
            line[: len(refused)] if line.startswith(refused) else line
            for line in told.stdout.splitlines()
            if said(line)
        ]
        cases.show("import of survey.geojson", (told.returncode, lines), (1, [refused, "5 taken, 1 refused"]))
        for number, made in enumerate(surveyed(), 101):
            reply = curl(f"{server.url}/features/{number}")
            if made is None:
                cases.show(f"feature {number}, refused", status_of(reply), 404)
                continue
            shown = json.loads(reply[2]) if status_of(reply) == 200 else {"geometry": {}, "tags": None}
            kind, points, tags = made
            cases.show(f"feature {number}: its tags", shown["tags"], tags)
            cases.show(
                f"feature {number}: its {kind} to a unit of the world",
                near(shown["geometry"].get(kind), points, 1),
                True,
            )
        place = {"type": "Point", "coordinates": [1, 1]}
        unlike = {"type": "FeatureCollection", "features": [
            {"type": "Feature", "properties": {}, "geometry": None},
            {"type": "Feature", "properties": {}, "geometry": {"type": "GeometryCollection", "geometries": [place]}},
            {"type": "Feature", "properties": {}, "geometry": {"type": "Point", "coordinates": [0, 89]}},
            {"type": "Feature", "properties": {"a": 1}, "geometry": place},
        ]}
        path = os.path.join(folder, "unlike.geojson")
        with open(path, "w", encoding="utf-8") as file:
            json.dump(unlike, file)
        told = subprocess.run(
            [*tool, path, "--layer", "more", "--first", "201", "--url", server.url], capture_output=True, text=True
        )
        lines = [line.split(":")[0] for line in told.stdout.splitlines() if said(line)]
        wanted_lines = ["feature 202 (row 2) refused", "feature 203 (row 3) refused", "note", "1 taken, 2 refused"]
        cases.show("import of what can't be put", (told.returncode, lines), (1, wanted_lines))
        for number, kind, name in [(301, "ESRI Shapefile", "lines.shp"), (302, "GPKG", "lines.gpkg")]:
            path = os.path.join(folder, name)
            made = [
                "ogr2ogr",
                "-f",
                kind,
                "-t_srs",
                "EPSG:25832",
                path,
                survey,
                "-where",
                "name = 'a path'",
                "-nln",
                "lines",
            ]
            subprocess.run(made, check=True, capture_output=True)
            told = subprocess.run(
                [*tool, path, "--layer", "again", "--first", str(number), "--url", server.url],
                capture_output=True,
                text=True,
            )
            cases.show(
                f"import of {name}, in UTM",
                (told.returncode, told.stdout.splitlines()[-1:]),
                (0, ["1 taken, 0 refused"]),
            )
            shown = json.loads(curl(f"{server.url}/features/{number}")[2] or b"{}")
            cases.show(
                "its points to ten units of the world, 9 cm",
                near(shown.get("geometry", {}).get("lines"), surveyed()[3][1], 10),
                True,
            )
        read_by_gdal(cases, folder, server, "survey", 14, 101)
        read_by_gdal(cases, folder, server, "survey", 16, 101)
    import_to_a_full_journal(cases, folder, tool)


def import_to_a_full_journal(cases, folder, tool):
    """Forty points for a journal of 16 sectors, one by one; and a server that isn't there."""
    path = os.path.join(folder, "forty.geojson")
    points = [
        {"type": "Feature", "properties": {}, "geometry": {"type": "Point", "coordinates": [at, at]}}
        for at in range(40)
    ]
    with open(path, "w", encoding="utf-8") as file:
        json.dump({"type": "FeatureCollection", "features": points}, file)
    words = [*tool, path, "--layer", "p", "--maxzoom", "2", "--no-batches", "--first", "1"]
    with Server(folder, "narrow", 64) as server:
        told = subprocess.run([*words, "--url", server.url], capture_output=True, text=True)
        lines = [line for line in told.stdout.splitlines() if said(line)]
        room = ["the journal has 16 of its 16 sectors free: give --publish", "nothing was sent"]
        cases.show("import of forty points for sixteen places", (told.returncode, lines), (1, room))
        told = subprocess.run([*words, "--url", server.url, "--anyway"], capture_output=True, text=True)
        lines = [line for line in told.stdout.splitlines() if said(line)][1:]
        why = (
            "no room for edits until the map is published: publish, and run the same command again, or give it"
            " --publish"
        )
        full = f"stopped at feature 17: JournalFull need 1 free 0 ({why})"
        cases.show(
            "the same with --anyway",
            (told.returncode, lines),
            (1, [full, "16 taken, 0 refused: run the same command again"]),
        )
        told = subprocess.run([*words, "--url", server.url, "--publish"], capture_output=True, text=True)
        published = told.stdout.count("the journal is full: a publication")
        cases.show(
            "the same with --publish",
            (told.returncode, told.stdout.splitlines()[-1:], published),
            (0, ["24 taken, 0 refused, 16 unchanged"], 2),
        )
        cases.show("the last of them", status_of(curl(server.url + "/features/40")), 200)
        gone = server.url
    told = subprocess.run([*words, "--url", gone], capture_output=True, text=True)
    ends = told.stdout.endswith(": nothing was sent\n")
    cases.show("import where no server is", (told.returncode, ends), (3, True))


def read_by_gdal(cases, folder, server, layer, zoom, first):
    """The tile with the first point of the survey, as ogr2ogr reads it: numbers, tags, and the point to one step of
    the tile."""
    kind, points, tags = surveyed()[0]
    column, row = (int(part) >> (32 - zoom) for part in points[0])
    path = os.path.join(folder, f"{zoom}.mvt")
    subprocess.run(["curl", "--silent", "--output", path, f"{server.url}/map/{zoom}/{column}/{row}.mvt"], check=True)
    place = ["-oo", f"X={column}", "-oo", f"Y={row}", "-oo", f"Z={zoom}"]
    listed = subprocess.run(["ogrinfo", "-ro", "-q", path, *place], capture_output=True, text=True)
    named = re.search(rf"^\d+: {layer}\b", listed.stdout, re.M) is not None
    cases.show(f"ogrinfo of tile {zoom}/{column}/{row} names the layer", (listed.returncode, named), (0, True))
    child = subprocess.run(
        ["ogr2ogr", "-f", "GeoJSON", "/vsistdout/", path, layer, *place], capture_output=True, text=True
    )
    found = (
        {row["properties"]["mvt_id"]: row for row in json.loads(child.stdout)["features"]}
        if child.returncode == 0
        else {}
    )
    seen = found.get(first, {"properties": {}, "geometry": {"coordinates": None}})
    cases.show("ogr2ogr: the tags of the first point", {name: seen["properties"].get(name) for name in tags}, tags)
    step = 2 * HALF / 2 ** (12 + zoom)
    metres = [points[0][0] / 2 ** 32 * 2 * HALF - HALF, HALF - points[0][1] / 2 ** 32 * 2 * HALF]
    place = seen["geometry"]["coordinates"]
    place = place[0] if place and isinstance(place[0], list) else place
    cases.show(f"ogr2ogr: the point to a step of zoom {zoom}, {step:.2f} m", near(place, metres, step), True)
    if zoom == 14:
        kinds = {number: row["geometry"]["type"].removeprefix("Multi") for number, row in found.items()}
        cases.show(
            "ogr2ogr: what is in the tile", kinds, {101: "Point", 103: "Point", 104: "LineString", 105: "Polygon"}
        )
        rings = found.get(105, {"geometry": {"coordinates": []}})["geometry"]["coordinates"]
        rings = rings[0] if rings and isinstance(rings[0][0][0], list) else rings
        cases.show("ogr2ogr: the polygon has its hole", [len(ring) for ring in rings], [5, 5])
