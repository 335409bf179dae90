"""What the parts of run.py about `vtmap import` share.

Files are written here as GeoJSON and made into other formats by ogr2ogr. Wanted coordinates are computed from the
formula of Web Mercator.
"""
import json
import math
import os
import re
import shutil
import subprocess
from collections.abc import Iterable, Sequence
from typing import Any

from .stand import SYSTEM_PYTHON, VTMAP, Cases, curl, status_of

WORLD = 2**32
# A feature of GeoJSON; a point of the world.
Row = dict[str, Any]
Place = tuple[float, float]


def world(longitude: float, latitude: float) -> Place:
    """The point of the world of a place on earth, by the formula of Web Mercator."""
    down = 0.5 - math.asinh(math.tan(math.radians(latitude))) / (2 * math.pi)
    return (longitude + 180) / 360 * WORLD, down * WORLD


def is_near(found: Sequence, sought: Sequence, most: float = 1) -> bool:
    """Whether two lists of points are the same up to so many units."""
    return len(found) == len(sought) and all(
        abs(a - b) <= most for one, other in zip(found, sought) for a, b in zip(one, other)
    )


def row(kind: str, coordinates: list, **properties: object) -> Row:
    """A feature of GeoJSON."""
    return {"type": "Feature", "properties": properties, "geometry": {"type": kind, "coordinates": coordinates}}


def written(folder: str, name: str, rows: Iterable[Row]) -> str:
    """The path of a file of GeoJSON with these features."""
    path = os.path.join(folder, name)
    with open(path, "w", encoding="utf-8") as file:
        json.dump({"type": "FeatureCollection", "features": list(rows)}, file, ensure_ascii=False)
    return path


def import_of(path: str, url: str, *words: str) -> list[str]:
    """The command that imports a file. `--update` stands for the command of that name, and so does `--replace`."""
    name = "update" if {"--update", "--replace"} & set(words) else "import"
    return [*VTMAP, name, path, "--url", url, *(word for word in words if word != "--update")]


def imported(path: str, url: str, *words: str) -> tuple[int, list[str]]:
    """The status and the lines of an import, without those that say where the data is and what of the disk is used."""
    child = subprocess.run(import_of(path, url, *words), capture_output=True, text=True)
    lines = (child.stdout + child.stderr).splitlines()
    return child.returncode, [line for line in lines if not line.startswith(("used: ", "look at it: "))]


def shown(server: Any, number: int) -> Any:
    """A feature of the map; None if there is none."""
    reply = curl(f"{server.url}/features/{number}")
    return json.loads(reply[2]) if status_of(reply) == 200 else None


def has_gdal(cases: Cases) -> bool:
    """Whether the import can run here."""
    if (
        shutil.which("ogr2ogr")
        and subprocess.run([SYSTEM_PYTHON, "-c", "import osgeo.ogr"], capture_output=True).returncode == 0
    ):
        return True
    cases.say("no ogr2ogr, or no GDAL in the system's Python: no file is put into the map")
    return False


# ---- large features


def round_ring(longitude: float, latitude: float, metres: float, points: int, lobes: float = 0.2) -> list:
    """A ring of a width of about so many metres."""
    found = []
    for at in range(points):
        turn, far = 2 * math.pi * at / points, metres / 2 * (
            1 + lobes * math.sin(10 * math.pi * at / points) + 0.01 * math.sin(at)
        )
        found.append(
            [
                longitude + far * math.cos(turn) / (111320 * math.cos(math.radians(latitude))),
                latitude + far * math.sin(turn) / 111320,
            ]
        )
    return [*found, found[0]]


def area_of(rings: Sequence) -> float:
    """Twice the area of a polygon: the outer ring less the inner ones."""
    areas = [abs(sum(a[0] * b[1] - b[0] * a[1] for a, b in zip(ring, [*ring[1:], ring[0]]))) for ring in rings]
    return areas[0] - sum(areas[1:])


def features_between(server: Any, folder: str, first: int, last: int) -> dict[int, Row]:
    """The features of these numbers, as vtmap saves them: as the body of a PUT each."""
    path = os.path.join(folder, "saved.geojson")
    subprocess.run(
        [*VTMAP, "save", path, "--numbers", f"{first}-{last}", "--url", server.url], check=True, capture_output=True
    )
    with open(path, encoding="utf-8") as file:
        return {row["id"]: row for row in json.load(file)["features"]}


def lists_of(row: Row, depth: int) -> list:
    """The lines or polygons of a saved feature, in units of the world."""
    def placed(value: list) -> Any:
        return world(*value) if isinstance(value[0], float) else [placed(inner) for inner in value]

    lists = placed(row["geometry"]["coordinates"])
    return lists if row["geometry"]["type"].startswith("Multi") else [lists]


def estimated(cases: Cases, server: Any, name: str, lines: list[str]) -> None:
    """Shows whether the import's estimate of an area is between a half and the double of what a publication takes."""
    said = next(
        int(found[1].replace(",", "")) for line in lines if (found := re.search(r"about ([\d,]+) of an area", line))
    )
    taken = json.loads(curl(server.url + "/publish/begin", "-X", "POST")[2])["left"] - 1
    curl(server.url + "/publish/cancel", "-X", "POST")
    cases.show(f"large: the estimate of an area, {name}", taken / 2 <= said <= taken * 2, True)
    cases.say(f"{said} sectors were estimated, {taken} are taken")


def square(longitude: float, latitude: float, degrees: float) -> list:
    """The ring of a square."""
    return [[longitude + x * degrees, latitude + y * degrees] for x, y in [(0, 0), (1, 0), (1, 1), (0, 1), (0, 0)]]


def point_rows() -> list[Row]:
    """Features whose tags are as each format has them."""
    return [
        row("Point", [10.1356, 54.3213], name="Straße Süd", height=26.0, width=2.5, built="2024-01-31", floors=3),
        row("Point", [-70.5, -33.25], name="two", height=-1.0, width=0.125, built="1999-12-31", floors=-1),
    ]
