"""The part `large` of run.py: large features, which `vtmap import` cuts, and what it says that they need."""
import json
import math
import os
import re
import subprocess

from .import_stand import (
    area_of,
    estimated,
    features_between,
    has_gdal,
    imported,
    lists_of,
    round_ring,
    row,
    world,
    written,
)
from .stand import HERE, SYSTEM_PYTHON, Cases, Server, curl


def large(cases: Cases, folder: str) -> None:
    """A parish of 3 km, a county of 50 km with a lake, a line of 300 km with two points, a river of 6,001: cut, and
    right in each tile."""
    if not has_gdal(cases):
        return
    lake = round_ring(11, 50, 12000, 300)
    rows = [
        row("Polygon", [round_ring(10, 50, 3000, 60)], name="parish"),
        row("Polygon", [round_ring(11, 50, 50000, 2350), lake], name="county"),
        row("LineString", [[8, 49], [12, 50]], name="line"),
        row("Polygon", [[[10, 49], [10.001, 49], [10.001, 49.001], [10, 49]]], name="garden"),
        row(
            "LineString",
            [[8 + at / 1500, 49 + at / 6000 + 0.05 * math.sin(at / 40)] for at in range(6001)],
            name="river",
        ),
    ]
    path = written(folder, "large.geojson", rows)
    with Server(folder, "large", 65536) as server:
        status, lines = imported(path, server.url, "--layer", "area", "--minzoom", "6", "--first", "101")
        made = [
            re.match(r"feature (\d+) is cut into ([\d,]+) pieces(?: and ([\d,]+) of its outline)?$", line)
            for line in lines[:4]
        ]
        cases.show(
            "large: parish, county, line and river are cut",
            (status, all(made), lines[-1].endswith(" taken, 0 refused")),
            (0, True, True),
        )
        if not all(made):
            cases.say(str(lines))
            return
        total = int(lines[-1].split()[0])
        cases.show(
            "large: so many pieces, and the garden as it is",
            total,
            sum(int(n.replace(",", "")) for m in made for n in m.groups()[1:] if n) + 1,
        )
        estimated(cases, server, "large", lines)
        curl(server.url + "/publish", "-X", "POST")
        archive = os.path.join(folder, "large.pmtiles")
        subprocess.run(["curl", "--silent", "--output", archive, server.url + "/map.pmtiles"], check=True)
        read = json.loads(
            subprocess.run(
                [SYSTEM_PYTHON, os.path.join(HERE, "read_tiles.py"), archive], capture_output=True, text=True
            ).stdout
        )
        cases.show(
            "large: GDAL reads no coordinate outside of -8192..8191",
            (read["least"] >= -8192, read["greatest"] <= 8191),
            (True, True),
        )
        cases.say(
            f"{total} features, {read['contents']} contents, coordinates from {read['least']:.0f} to"
            f" {read['greatest']:.0f}"
        )
        cases.show("large: the archive has less than 2 MB", os.path.getsize(archive) < 2000000, True)
        saved = features_between(server, folder, 101, 100 + total)
        names = {"parish": 0, "county": 1, "line": 2, "garden": 3, "river": 4}
        for name, at in names.items():
            mine = [piece for piece in saved.values() if piece["properties"]["name"] == name]
            wholes = {piece["properties"].get("whole") for piece in mine}
            first = min(number for number, piece in saved.items() if piece["properties"]["name"] == name)
            cases.show(f"large: the pieces of the {name} name the whole", wholes, {None if name == "garden" else first})
            areas = [piece for piece in mine if piece["layer"] == "area"]
            given = [
                [world(*place) for place in ring]
                for ring in (rows[at]["geometry"]["coordinates"] if name not in ("line", "river") else [])
            ]
            if name in ("line", "river"):
                found = sum(
                    math.dist(a, b) for piece in areas for line in lists_of(piece, 1) for a, b in zip(line, line[1:])
                )
                places = [world(*place) for place in rows[at]["geometry"]["coordinates"]]
                wanted = sum(math.dist(a, b) for a, b in zip(places, places[1:]))
            else:
                found, wanted = sum(area_of(rings) for piece in areas for rings in lists_of(piece, 2)), area_of(
                    [ring[:-1] for ring in given]
                )
            cases.show(
                f"large: the pieces of the {name} are together the whole",
                abs(found / wanted - 1) < (1e-3 if name == "garden" else 1e-5),
                True,
            )
            if name in ("parish", "county"):
                outlines = [piece for piece in mine if piece["layer"] == "area-outline"]
                found = sum(
                    math.dist(a, b) for piece in outlines for line in lists_of(piece, 1) for a, b in zip(line, line[1:])
                )
                wanted = sum(math.dist(a, b) for ring in given for a, b in zip(ring, ring[1:]))
                cases.show(
                    f"large: the outline of the {name} has its length, no cut in it",
                    abs(found / wanted - 1) < 1e-4,
                    True,
                )
        again = imported(path, server.url, "--layer", "area", "--minzoom", "6", "--first", "101")
        cases.show(
            "large: the same command again: the same features",
            (again[0], features_between(server, folder, 101, 110 + total)),
            (0, saved),
        )
    with Server(folder, "whole", 65536) as server:
        status, lines = imported(
            written(folder, "parish.geojson", rows[:1]), server.url, "--layer", "area", "--minzoom", "6", "--no-split"
        )
        wanted = r"warning: feature 1 is 3\.\d km wide and 3\.\d km high: wrong in some renderers at zooms 13 to 14"
        found = [line for line in lines if line.startswith("warning")]
        right = bool(found) and re.fullmatch(wanted, found[0]) is not None
        cases.show(
            "large: --no-split tells what will be wrong", (status, right, lines[-1]), (0, True, "1 taken, 0 refused")
        )
        status, lines = imported(
            written(folder, "line.geojson", rows[2:3]),
            server.url,
            "--layer",
            "area",
            "--minzoom",
            "6",
            "--no-split",
            "--first",
            "2",
        )
        estimated(cases, server, "a line that isn't cut", lines)
    with Server(folder, "narrow_area", 4096) as server:
        words = ["--layer", "area", "--minzoom", "6", "--maxzoom", "16", "--publish", "--cut-many"]
        status, lines = imported(path, server.url, *words)
        said = [
            lines[-1],
            "which has 1,534" in lines[-3],
            re.match(r"about [\d,]+ would be needed: ", lines[-2]) is not None,
        ]
        cases.show("large: what can't be published isn't begun", (status, said), (1, ["nothing was sent", True, True]))
    a_second_time(cases, folder)


def a_second_time(cases: Cases, folder: str) -> None:
    """A file that fits on its disk once: what was published last is counted."""
    rows = [row("Point", [at / 10, at / 10], name=f"{at} " + "x" * 1000) for at in range(250)]
    path = written(folder, "second.geojson", rows)
    words = ["--layer", "p", "--maxzoom", "0", "--publish"]
    with Server(folder, "second", 4096) as server:
        status, lines = imported(path, server.url, *words)
        said = ["what was published last takes 0 sectors of an area, which has 1,534", "250 taken, 0 refused"]
        cases.show("large: what fits", (status, [lines[-3], lines[-1]]), (0, said))
        curl(server.url + "/publish", "-X", "POST")
        status, lines = imported(path, server.url, *words, "--first", "1001")
        taken = json.loads(curl(server.url + "/admin/status")[2])["area"]["used"]
        said = f"what was published last takes {taken:,} sectors of an area, which has 1,534"
        cases.show("large: what doesn't fit beside it", (status, lines[-3], lines[-1]), (1, said, "nothing was sent"))


# ---- files
