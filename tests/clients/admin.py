"""The part `admin` of run.py: the paths under `/admin/`, with `--admin` and without, and the scripts that stand on
them."""
import json
import os
import random
import subprocess

from .stand import JSON, PROGRAM, SHOWN, VTMAP, Cases, Server, curl, feature, refusal, same, status_of, wanted

STATUS = "/admin/status"
FROM = "/admin/features/from/"
BOX = "/admin/features/box/"
MANY = 200
# A box with so many features isn't asked of the index: then a page looks at so many of the map's features.
INDEXED, LOOKS = 16384, 1024


def status(**changes):
    """The status of a fresh disk of 4,096 sectors, by HTTP.md, with changes."""
    first = {
        "archive": 0,
        "area": {"sectors": 1534, "used": 0},
        "broken": False,
        "cells": 1024,
        "digest": "0" * 16,
        "drafting": None,
        "edits": 0,
        "features": 0,
        "generation": 0,
        "journal": {"forgotten": 0, "places": 1024, "used": 0},
        "last": None,
        "left": None,
        "published": 0,
        "sectors": 4096,
        "stale": 0,
        "version": 2,
    }
    return wanted(200, JSON, json.dumps({**first, **changes}, separators=(",", ":")))


def script(name, *words):
    """What a command of vtmap ends with, and prints."""
    child = subprocess.run([*VTMAP, name, *words], capture_output=True, text=True, check=False)
    return child.returncode, (child.stdout + child.stderr).splitlines()


def admin(cases: Cases, folder: str) -> None:
    without(cases, folder)
    with Server(folder, "admin", more=["--admin"]) as server:
        statuses(cases, server)
        listing(cases, server)
        watched(cases, server)
        saved(cases, folder, server)
    with Server(folder, "boxes", 65536, more=["--admin"]) as server:
        boxes(cases, server)
    piped(cases, folder)


def without(cases: Cases, folder: str) -> None:
    with Server(folder, "public", more=()) as server:
        for path in (STATUS, FROM + "0"):
            for method in ("GET", "POST", "DELETE"):
                same(
                    cases,
                    f"without --admin: {method} {path}",
                    curl(server.url + path, "-X", method),
                    refusal(404, "NotFound"),
                )
        lines = script("save", os.path.join(folder, "none.geojson"), "--url", server.url)
        cases.show(
            "without --admin: a back-up says what is missing",
            lines,
            (
                1,
                ["the server doesn't list its features: start it with --admin, or give --disk, --numbers or --archive"],
            ),
        )
        cases.show(
            "without --admin: vtmap watch",
            script("watch", "--url", server.url),
            (3, [f"{server.url}: 404: is the server started with --admin?"]),
        )


def statuses(cases, server):
    url = server.url
    same(cases, "status: a fresh disk", curl(url + STATUS), status())
    curl(url + "/features/7", "-X", "PUT", body=feature())
    one = {
        # FNV-1a of 01 0700000000000000 01 70 00 02 01 0100 00000000 00000000 00, by FORMATS.md.
        "digest": "164ec7bd7bb02f5a",
        "edits": 1,
        "features": 1,
        "journal": {"forgotten": 0, "places": 1024, "used": 1},
        "last": 7,
        "stale": 1,
    }
    same(cases, "status: an edit", curl(url + STATUS), status(**one))
    curl(url + "/publish/begin", "-X", "POST")
    same(cases, "status: a publication under way", curl(url + STATUS), status(**one, left=3))
    curl(url + "/publish/step", "-X", "POST")
    done = {
        **one,
        "archive": 223,
        "area": {"sectors": 1534, "used": 2},
        "generation": 1,
        "published": 1,
        "journal": {"forgotten": 0, "places": 1024, "used": 0},
        "stale": 0,
    }
    same(cases, "status: it is installed", curl(url + STATUS), status(**done))
    curl(url + "/features/7", "-X", "DELETE")
    used = {"forgotten": 0, "places": 1024, "used": 1}
    empty = {**done, "digest": "0" * 16, "edits": 2, "features": 0, "journal": used, "last": None, "stale": 1}
    same(cases, "status: nothing is left of the map", curl(url + STATUS), status(**empty))
    same(
        cases,
        "status: another method",
        curl(url + STATUS, "-X", "PUT", body="{}"),
        refusal(405, "Method", more=[("allow", "GET, HEAD")]),
    )


def listing(cases, server):
    url = server.url
    same(cases, "list: an empty map", curl(url + FROM + "0"), refusal(404, "NotFound"))
    numbers = [5 * number + 2 for number in range(MANY)]
    for start in range(0, MANY, 64):
        changes = [{"put": number, "feature": json.loads(feature())} for number in numbers[start : start + 64]]
        curl(url + "/edits", "-X", "POST", body=json.dumps({"changes": changes}))
    same(cases, "list: from the first", curl(url + FROM + "0"), wanted(200, JSON, f'{{"feature":{SHOWN},"id":2}}'))
    found, number = [], 0
    while status_of(reply := curl(f"{url}{FROM}{number}")) == 200:
        found.append(json.loads(reply[2])["id"])
        number = found[-1] + 1
    cases.show("list: each feature once, ascending", found, numbers)
    for number in ("00", "x", "", str(2**63)):
        same(cases, f"list: no number {number!r}", curl(url + FROM + number), refusal(404, "NotFound"))


def pages_of(url, box, number=0):
    """The ids of each page of a box, and the id that each page names as the next one."""
    found, following = [], []
    while number is not None:
        page = json.loads(curl(f"{url}{BOX}{','.join(map(str, box))}/from/{number}")[2])
        found.append([entry["id"] for entry in page["features"]])
        number = page["next"]
        following.append(number)
    return found, following


def boxes(cases, server):
    """A map of more features than are asked of the index at once: the pages of any box have those in it, each once."""
    chance = random.Random(11)
    count = INDEXED + 5 * LOOKS
    points = {3 * n + 1: (chance.randrange(1000), chance.randrange(1000)) for n in range(count)}
    ids = list(points)
    for start in range(0, count, 64):
        changes = [
            {"put": id, "feature": json.loads(feature(geometry={"points": [points[id]]}))}
            for id in ids[start : start + 64]
        ]
        curl(server.url + "/edits", "-X", "POST", body=json.dumps({"changes": changes}))
    cases.show("boxes: the map", json.loads(curl(server.url + STATUS)[2])["features"], count)
    wide, narrow = (0, 0, 999, 999), (500, 500, 519, 999)
    asked = [(wide, 0), (narrow, 0), (narrow, ids[count // 2]), ((500, 0, 500, 999), 0)]
    asked.append(((0, 0, 998, 998), ids[-3 * LOOKS]))
    for box, first in asked:
        found, following = pages_of(server.url, box, first)
        left, top, right, bottom = box
        inside = [id for id, (x, y) in points.items() if id >= first and left <= x <= right and top <= y <= bottom]
        cases.show(f"boxes: each feature in {box} from {first}, once", sum(found, []), inside)
        # What a page lists is below its next id, and not below that of the page before.
        for page, low, high in zip(found, [first, *following], following):
            if not all(low <= id and (high is None or id < high) for id in page):
                cases.show(f"boxes: a page of {box} within its ids", page, f"{low} to {high}")
        strange = [id for id in following if id not in points]
        cases.show(f"boxes: ids that the map hasn't, as the next of pages of {box}", strange, [None])
    found, _ = pages_of(server.url, (1000, 1000, 2000, 2000))
    cases.show("boxes: a box beside all of them is one page", found, [[]])
    found, following = pages_of(server.url, (0, 0, 0, 999))
    cases.show("boxes: a column of one unit is asked of the index", len(found), 1)


def watched(cases, server):
    cases.show(
        "vtmap watch: nothing to do",
        script("watch", "--url", server.url),
        (0, [f"{MANY} features, edit 6, generation 1: nothing to do"]),
    )
    code, lines = script("watch", "--url", server.url, "--at", "1")
    # A batch of 64 points has 1,600 bytes, which take four sectors; the last batch and the deletion take one each.
    cases.show(
        "vtmap watch: the journal",
        (code, lines),
        (1, ["14 of the 1,024 sectors of the journal are used: publish (`vtmap publish`)"]),
    )


def saved(cases, folder, server):
    """Back-ups in both forms, put into another disk, which then has the same features."""
    files = [os.path.join(folder, "saved" + ending) for ending in (".geojson", ".jsonl")]
    for file in files:
        name = os.path.basename(file)
        cases.show(f"back-up: {name}", script("save", file, "--url", server.url), (0, [f"{MANY} features saved"]))
        with Server(folder, name + ".disk", more=["--admin"]) as other:
            cases.show(
                f"back-up: {name} put back", script("load", file, "--url", other.url), (0, [f"{MANY} features put"])
            )
            again = file + ".again" + os.path.splitext(file)[1]
            script("save", again, "--url", other.url)
            cases.show(f"back-up: {name} is the same again", open(again, "rb").read() == open(file, "rb").read(), True)
    with open(files[1], encoding="utf-8") as lines:
        cases.show("back-up: a line is the server's own reply", lines.readline(), f'{{"feature":{SHOWN},"id":2}}\n')


def piped(cases: Cases, folder: str) -> None:
    """`pipe` and `demo` have the option too."""
    sent = f"GET {STATUS} HTTP/1.0\r\n\r\n".encode()
    small = {"area": {"sectors": 22, "used": 0}, "journal": {"forgotten": 0, "places": 16, "used": 0}, "sectors": 64}
    _, _, content = status(**small)
    disk = os.path.join(folder, "piped")
    subprocess.run([PROGRAM, "format", disk, "--sectors", "64"], check=True, stdout=subprocess.DEVNULL)
    for words in (["demo", "64"], ["pipe", disk]):
        told = subprocess.run(
            [PROGRAM, *words, "--admin"], input=sent, capture_output=True, check=False
        ).stdout.partition(b"\r\n\r\n")[2]
        cases.show(f"{words[0]} --admin", told, content)
        told = subprocess.run([PROGRAM, *words], input=sent, capture_output=True, check=False).stdout.partition(
            b"\r\n\r\n"
        )[2]
        cases.show(f"{words[0]} without it", told, b"NotFound\n")
