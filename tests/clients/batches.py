"""The part `batches` of tests/clients/run.py: `POST /edits` by curl and through nginx, and the commands of vtmap that
send batches.

How many edits a script made is what a publication says: its `edits` is the number of the last one.
"""
import http.server
import json
import os
import shutil
import signal
import subprocess
import threading

from .import_stand import has_gdal, imported, row, shown, written
from .stand import JSON, PROGRAM, TEXT, VTMAP, Cases, Nginx, Server, curl, feature, refusal, same, status_of, wanted

DELETE_LAYER = [*VTMAP, "delete-layer"]
FULL = "no room for edits until the map is published: publish, and run the same command again, or give it --publish"
# Tile 0/0/0 with the points 7 and 8 of layer `p`, by the standard of vector tiles.
TWO = "1a1e0a0170120908071801220309000012090808180122030900002880207802"
OF_JSON = ("-H", "Content-Type: application/json")


def put(number, **parts):
    """A change that puts a feature."""
    return {"put": number, "feature": json.loads(feature(**parts))}


def delete(number):
    """A change that deletes one."""
    return {"delete": number}


def batch(*changes):
    """The body of a batch."""
    return json.dumps({"changes": changes}, separators=(",", ":"))


def sent(server, body, *words):
    """The reply to a batch."""
    return curl(server.url + "/edits", "-X", "POST", *OF_JSON, *words, body=body)


def edit_count(server):
    """How many edits the map has had."""
    return json.loads(curl(server.url + "/publish", "-X", "POST")[2])["edits"]


def tool(words, url):
    """The status and the lines of a script."""
    child = subprocess.run([*words, "--url", url], capture_output=True, text=True)
    return child.returncode, (child.stdout + child.stderr).splitlines()


# ---- the route

def accepted(cases: Cases, folder: str) -> None:
    """Batches are one edit each, with all of their changes, and are there after kill -9."""
    with Server(folder, "batched", 4096) as server:
        same(cases, "batches: two features", sent(server, batch(put(7), put(8))), wanted(200, JSON, '{"edit":1}'))
        same(cases, "batches: the tile with both", curl(server.url + "/map/0/0/0.hex"), wanted(200, TEXT, TWO))
        same(
            cases,
            "batches: one that deletes what isn't there",
            sent(server, batch(put(9), delete(10))),
            refusal(404, "NotFound"),
        )
        same(cases, "batches: nothing of it is done", curl(server.url + "/features/9"), refusal(404, "NotFound"))
        same(
            cases,
            "batches: a put and a delete",
            sent(server, batch(put(9, layer="q"), delete(7))),
            wanted(200, JSON, '{"edit":2}'),
        )
        cases.show(
            "batches: both are done",
            [status_of(curl(f"{server.url}/features/{number}")) for number in (7, 8, 9)],
            [404, 200, 200],
        )
        many = [put(number) for number in range(100, 164)]
        same(cases, "batches: 64 changes", sent(server, batch(*many)), wanted(200, JSON, '{"edit":3}'))
        # 4,091 points and twice a name of four bytes: texts of 32,768 bytes.
        long = [
            put(number, layer="long", geometry={"points": [[0, 0]] * points})
            for number, points in ((1, 2000), (2, 2091))
        ]
        same(cases, "batches: texts of 32,768 bytes", sent(server, batch(*long)), wanted(200, JSON, '{"edit":4}'))
        server.end(signal.SIGKILL)
    with Server(folder, "batched", 4096) as server:
        found = [status_of(curl(f"{server.url}/features/{number}")) for number in (1, 2, 7, 8, 9, 100, 163)]
        cases.show("batches: after kill -9 all is there", found, [200, 200, 404, 200, 200, 200, 200])
        same(cases, "batches: the next edit", sent(server, batch(delete(8))), wanted(200, JSON, '{"edit":5}'))


def refused(cases: Cases, folder: str) -> None:
    """Each word of a batch that isn't taken."""
    whole = json.loads(feature())
    long = [put(number, geometry={"points": [[0, 0]] * 2100}) for number in (1, 2)]
    rows = [
        ("no JSON", "Json", "{"),
        ("a list", "E1 Member", "[]"),
        ("a member unknown", "E1 Member", json.dumps({"changes": [delete(1)], "more": 1})),
        ("changes that are no list", "E1 Member", '{"changes":5}'),
        ("a put without a feature", "E1 Member", '{"changes":[{"put":1}]}'),
        ("a delete with a feature", "E1 Member", batch({"delete": 1, "feature": whole})),
        ("a put and a delete in one", "E1 Member", batch({"put": 1, "delete": 1, "feature": whole})),
        ("a number below 0", "E1 Member", batch(delete(-1))),
        ("a number with a fraction", "E1 Member", '{"changes":[{"delete":1.0}]}'),
        (
            "a feature without tags",
            "E1 Member",
            batch(put(1, layer=""), {"put": 2, "feature": {key: whole[key] for key in whole if key != "tags"}}),
        ),
        ("no change", "E10 Batch", batch()),
        ("65 changes", "E10 Batch", batch(*[delete(number) for number in range(65)])),
        ("one number twice", "E11 Twice", batch(put(7), delete(7))),
        ("a number of 2^63", "E2 Number", batch(put(1), delete(2**63))),
        ("a name of no byte", "E3 Layer", batch(put(1), put(2, layer=""))),
        ("zooms to 20", "E4 Zoom", batch(put(1, last=20), put(2, layer=""))),
        ("a line of one point", "E5 Geometry", batch(put(1, geometry={"lines": [[[0, 0]]]}))),
        ("a key of no byte", "E6 Tags", batch(put(1, tags={"": 1}))),
        ("a fraction", "E7 Value", batch(put(1, tags={"k": 0.5}))),
        ("two features with too long texts together", "E8 Long", batch(*long)),
    ]
    with Server(folder, "refused_batches", 65536) as server:
        for name, word, body in rows:
            same(cases, f"batches, {name}", sent(server, body), refusal(400, word))
        same(cases, "batches: a body of 65,537 bytes", sent(server, "x" * 65537), refusal(413, "Body", closes=True))
        same(cases, "batches: GET", curl(server.url + "/edits"), refusal(405, "Method", more=[("allow", "POST")]))
        cases.show(
            "batches: nothing of them is done",
            [status_of(curl(f"{server.url}/features/{number}")) for number in (1, 2, 7)],
            [404] * 3,
        )


# ---- the scripts

def points(count, **tags):
    """Points with names."""
    return [row("Point", [at / 100, at / 100], name=f"point {at}", **tags) for at in range(count)]


def imports_in_batches(cases: Cases, folder: str) -> None:
    """An import is as many edits as it has batches; a feature that is refused doesn't keep the others from the map."""
    path = written(folder, "batched.geojson", points(150))
    words = ["--layer", "p", "--maxzoom", "0"]
    with Server(folder, "in_batches", 4096) as server:
        status, lines = imported(path, server.url, *words)
        cases.show(
            "batches: an import of 150 points", (status, lines[-1], edit_count(server)), (0, "150 taken, 0 refused", 3)
        )
        need = "needed beside what the disk has: "
        said = [line.removeprefix(need).split(" of ")[0] for line in lines if line.startswith(need)]
        # A point takes 25 bytes and its tag 15 to 17, so the batches have texts of 2,615, 2,653 and 925 bytes: 6, 6 and
        # 2 sectors.
        cases.show("batches: the sectors of the journal", said, ["14 sectors"])
        status, lines = imported(path, server.url, *words, "--no-batches")
        cases.show(
            "batches: the same with --no-batches",
            (status, lines[-1], edit_count(server)),
            (0, "150 taken, 0 refused", 153),
        )
        rows = points(130)
        rows[70]["properties"]["name"] = "x" * 1025
        path = written(folder, "one_long.geojson", rows)
        status, lines = imported(path, server.url, *words, "--first", "1001")
        said = [line.split(" (")[0] for line in lines[-3:]]
        wanted = ["feature 1071 refused: E7 Value", "its edits: 154-218", "129 taken, 1 refused"]
        cases.show("batches: an import with a text that is too long", (status, said), (1, wanted))
        cases.show("batches: of it, 64 points are one edit, 63 one each, two one", edit_count(server), 153 + 1 + 63 + 1)
        saved = os.path.join(folder, "batched_backup.geojson")
        subprocess.run(
            [*VTMAP, "save", saved, "--numbers", "1-150", "--url", server.url], check=True, capture_output=True
        )
    with Server(folder, "loaded", 4096) as server:
        cases.show("batches: load", tool([*VTMAP, "load", saved], server.url), (0, ["150 features put"]))
        cases.show("batches: load, its edits", edit_count(server), 3)
        with open(saved, encoding="utf-8") as file:
            rows = json.load(file)["features"][:2]
        twice = written(folder, "twice.geojson", [rows[0], rows[1], {**rows[0], "layer": "later"}])
        refused = (1, ["1 of these features are others in the map: nothing was put (--overwrite replaces them)"])
        cases.show("batches: load replaces nothing", tool([*VTMAP, "load", twice], server.url), refused)
        cases.show(
            "batches: load --overwrite",
            tool([*VTMAP, "load", twice, "--overwrite"], server.url),
            (0, ["1 features put, 1 were there already"]),
        )
        found = ((shown(server, 1) or {}).get("layer"), edit_count(server))
        cases.show("batches: load of an id that is there twice: the later one", found, ("later", 3 + 1))
    with Server(folder, "loaded_twice", 4096) as server:
        tool([*VTMAP, "load", twice], server.url)
        found = ((shown(server, 1) or {}).get("layer"), edit_count(server))
        cases.show("batches: load into an empty map of an id that is there twice", found, ("later", 1))


def limits(cases: Cases, folder: str) -> None:
    """Batches are as large as a request may be, and no larger: a refused one would be an edit for each feature."""
    long = points(70, text="x" * 950)
    wide = [row("MultiPoint", [[10 + at / 1000 + near / 1000000, 50] for near in range(280)]) for at in range(20)]
    with Server(folder, "limited_batches", 65536) as server:
        # A text of 25 + 15 or 16 + 958 bytes: 32 of them have fewer than 32,768.
        for name, rows, count in (
            ("texts of 998 and 999 bytes: 32 each", long, 3),
            ("features with 6,800 bytes of JSON: 9 each", wide, 3),
        ):
            before = edit_count(server)
            status, lines = imported(
                written(folder, "limits.geojson", rows), server.url, "--layer", "p", "--maxzoom", "0"
            )
            cases.show(
                f"batches: {name}",
                (status, lines[-1], edit_count(server) - before),
                (0, f"{len(rows)} taken, 0 refused", count),
            )


def full_journals(cases: Cases, folder: str) -> None:
    """A journal of 64 sectors, for batches of 17 (128 or 129 bytes a point): it is filled one by one, or published."""
    path = written(folder, "full_journal.geojson", points(64, text="x" * 80))
    words = ["--layer", "p", "--maxzoom", "0"]
    with Server(folder, "full_of_batches", 256) as server:
        ends = [imported(path, server.url, *words) for _ in range(3)]
        cases.show(
            "batches: three of 17 sectors",
            [(status, lines[-1]) for status, lines in ends],
            [(0, "64 taken, 0 refused")] * 3,
        )
        status, lines = imported(path, server.url, *words)
        room = "the journal has 13 of its 64 sectors free: give --publish"
        cases.show("batches: the fourth, without --publish", (status, lines[-2:]), (1, [room, "nothing was sent"]))
        status, lines = imported(path, server.url, *words, "--anyway")
        full = f"stopped at feature 206: JournalFull need 1 free 0 ({FULL})"
        cases.show(
            "batches: with --anyway",
            (status, lines[-2:]),
            (1, [full, "13 taken, 0 refused: run the same command again with --first 193"]),
        )
        status, lines = imported(path, server.url, *words, "--publish")
        wanted = [
            "        the journal is full: a publication",
            "its edits: 17 (`vtmap undo` takes them back)",
            "64 taken, 0 refused",
        ]
        cases.show("batches: the fourth, with --publish", (status, lines[-3:]), (0, wanted))
        cases.show("batches: which is one edit", edit_count(server), 3 + 13 + 1)
    path = written(folder, "wide.geojson", points(31, text="x" * 960))
    with Server(folder, "narrow_batches", 128) as server:
        status, lines = imported(path, server.url, *words, "--anyway")
        full = f"stopped at feature 11: JournalFull need 3 free 2 ({FULL})"
        left = "10 taken, 0 refused: run the same command again with --first 1"
        cases.show("batches: one that no journal of 32 sectors takes", (status, lines[-2:]), (1, [full, left]))


class WithoutBatches(http.server.BaseHTTPRequestHandler):
    """A server from before there were batches."""

    def answer(self):
        self.rfile.read(int(self.headers.get("content-length", 0)))
        is_known = self.path.startswith("/features/")
        content = b'{"edit":1}' if is_known else b"NotFound\n"
        self.send_response(200 if is_known else 404)
        self.send_header("content-length", str(len(content)))
        self.end_headers()
        self.wfile.write(content)
        self.server.asked.append(f"{self.command} {self.path}")

    do_GET = do_PUT = do_POST = do_DELETE = answer

    def log_message(self, *_):
        pass


def without_batches(cases: Cases, folder: str) -> None:
    """A server that knows no batches: the import says so once, and puts one by one. A disk of version 1 takes
    neither batches nor checked edits."""
    path = written(folder, "seventy.geojson", points(70))
    words = ["--layer", "p", "--maxzoom", "0", "--first", "1"]
    with http.server.HTTPServer(("127.0.0.1", 0), WithoutBatches) as server:
        server.asked = []
        threading.Thread(target=server.serve_forever, daemon=True).start()
        status, lines = imported(path, f"http://127.0.0.1:{server.server_port}", *words)
        server.shutdown()
        notes = sum(line.startswith("note: the server, or a proxy in front of it, has no /edits") for line in lines)
        cases.show("batches: an older server", (status, notes, lines[-1]), (0, 1, "70 taken, 0 refused"))
        asked = [
            "GET /admin/status",
            "GET /pages/schema.json",
            "GET /admin/status",
            "POST /edits",
            "POST /edits",
            *[f"PUT /features/{number}" for number in range(1, 71)],
        ]
        asked += ["GET /admin/status", "GET /pages/"]
        cases.show("batches: what it was asked", server.asked, asked)
    disk = os.path.join(folder, "version_1")
    subprocess.run([PROGRAM, "format", disk, "--sectors", "4096"], check=True, capture_output=True)
    with open(disk, "r+b") as file:
        file.seek(8)
        file.write(b"\1")
    with Server(folder, "version_1") as server:
        same(cases, "batches: a disk of version 1", sent(server, batch(put(7), put(8))), refusal(409, "NeedsUpgrade"))
        status, lines = imported(path, server.url, *words)
        stopped = lines[-2].startswith(
            "stopped at feature 1: the disk of the server has version 1, which takes no checked edits: "
        )
        cases.show("batches: an import into it", (status, stopped), (1, True))
    with Server(folder, "version_1", more=()) as server:
        status, lines = imported(path, server.url, *words)
        notes = sum(line.startswith("note: the disk of the server has version 1") for line in lines)
        cases.show(
            "batches: an import into it without --admin",
            (status, notes, lines[-1], edit_count(server)),
            (0, 1, "70 taken, 0 refused", 70),
        )
    upgraded = subprocess.run([PROGRAM, "upgrade", disk], capture_output=True, text=True)
    cases.show("batches: vtserve upgrade", (upgraded.returncode, upgraded.stdout), (0, "version 2\n"))
    with Server(folder, "version_1") as server:
        same(
            cases,
            "batches: a disk that is upgraded",
            sent(server, batch(put(1001), put(1002))),
            wanted(200, JSON, '{"edit":71}'),
        )


class Forgets(http.server.BaseHTTPRequestHandler):
    """A server whose features are deleted by somebody else between two requests."""

    def answer(self):
        body = self.rfile.read(int(self.headers.get("content-length", 0)))
        status, content = 404, b"NotFound\n"
        if self.command == "GET" and self.path != "/admin/status":
            status, content = 200, feature(layer="a").encode()
        if self.path == "/edits" and body == b'{"changes":[]}':
            status, content = 400, b"E10 Batch\n"
        self.send_response(status)
        self.send_header("content-length", str(len(content)))
        self.end_headers()
        self.wfile.write(content)
        self.server.asked.append(self.command)

    do_GET = do_POST = do_DELETE = answer

    def log_message(self, *_):
        pass


def deleted_by_others(cases: Cases) -> None:
    """A batch that deletes what isn't there any more is done one by one, and nothing is refused."""
    with http.server.HTTPServer(("127.0.0.1", 0), Forgets) as server:
        server.asked = []
        threading.Thread(target=server.serve_forever, daemon=True).start()
        there = tool([*DELETE_LAYER, "a", "--numbers", "1-3"], f"http://127.0.0.1:{server.server_port}")
        server.shutdown()
        cases.show("batches: features that others delete meanwhile", there, (0, ["3 features of a deleted"]))
        cases.show("batches: what was asked for it", server.asked, ["GET"] * 4 + ["POST"] * 2 + ["DELETE"] * 3)


def deleted(cases: Cases, folder: str) -> None:
    """Whole layers are deleted, by the list of the server or by their ids: 55 by an edit."""
    with Server(folder, "deleted_layers", 4096) as server:
        for layer, first in (("a", 0), ("b", 64), ("a", 128)):
            sent(server, batch(*[put(number, layer=layer) for number in range(first, first + 64)]))
        said = (0, ["128 features of a deleted", "0 features of c deleted"])
        cases.show("batches: vtmap delete-layer", tool([*DELETE_LAYER, "a", "c"], server.url), said)
        left = [number for number in range(192) if shown(server, number)]
        cases.show("batches: the other layer is left", (left, edit_count(server)), ([*range(64, 128)], 6))
        there = tool([*DELETE_LAYER, "b", "--numbers", "60-69,127,5000"], server.url)
        cases.show("batches: vtmap delete-layer --numbers", there, (0, ["7 features of b deleted"]))
        gone = tool([*DELETE_LAYER, "b", "--no-batches"], server.url)
        cases.show(
            "batches: vtmap delete-layer --no-batches",
            (gone, edit_count(server)),
            ((0, ["57 features of b deleted"]), 6 + 1 + 57),
        )


def behind_nginx(cases: Cases, folder: str) -> None:
    """nginx in front takes batches from this machine, and as JSON only."""
    nginx = shutil.which("nginx", path=os.environ.get("PATH", "") + ":/usr/sbin")
    if not nginx:
        cases.say("no nginx: no batch is sent through it")
        return
    with Server(folder, "batches_behind") as server, Nginx(nginx, folder, server) as front:
        rows = [
            (200, "application/json"),
            (200, "Application/JSON; charset=utf-8"),
            (415, "text/plain"),
            (415, "text/plain; a=application/json"),
            (415, "application/x-www-form-urlencoded"),
            (415, "multipart/form-data; boundary=a"),
            (415, "application/jsonp"),
            (415, ""),
        ]
        for status, kind in rows:
            reply = curl(
                front.url + "/edits", "-X", "POST", "-H", f"Content-Type: {kind}".strip(), body=batch(put(7), put(8))
            )
            cases.show(f"nginx: a batch as {kind or 'nothing'}", status_of(reply), status)
        for kind, word in (("application/json", b"Next 3\n"), ("text/plain", None)):
            reply = curl(
                front.url + "/admin/edits/at/9", "-X", "POST", "-H", f"Content-Type: {kind}", body=batch(put(7))
            )
            found = status_of(reply), reply[2] if word else None
            cases.show(f"nginx: an edit under a number as {kind}", found, (409 if word else 415, word))
        asked = [
            "-H",
            "Origin: http://other.example",
            "-H",
            "Access-Control-Request-Method: POST",
            "-H",
            "Access-Control-Request-Headers: content-type",
        ]
        reply = curl(front.url + "/edits", "-X", "OPTIONS", *asked)
        fields = [name for name, _ in reply[1] if name.lower().startswith("access-control")]
        cases.show("nginx: a page of another origin may not send JSON", (status_of(reply), fields), (415, []))
        cases.show(
            "nginx: a batch from another address",
            status_of(sent(front, batch(put(9)), "--interface", "127.0.0.2")),
            403,
        )
        cases.show(
            "nginx: a batch by another name", status_of(sent(front, batch(put(9)), "-H", "Host: other.example")), 421
        )
        cases.show("nginx: a batch keeps its word", sent(front, batch())[2], b"E10 Batch\n")
        cases.show("nginx: a body of 65,537 bytes", status_of(sent(front, "x" * 65537)), 413)
        cases.show("nginx: what isn't sent isn't there", status_of(curl(front.url + "/features/9")), 404)
        if has_gdal(cases):
            before = edit_count(server)
            status, lines = imported(
                written(folder, "behind.geojson", points(70)),
                front.url,
                "--layer",
                "p",
                "--maxzoom",
                "0",
                "--first",
                "101",
            )
            cases.show(
                "nginx: an import in batches",
                (status, lines[-1], edit_count(server) - before),
                (0, "70 taken, 0 refused", 2),
            )
    shutil.rmtree(front.folder)


def batches(cases: Cases, folder: str) -> None:
    """Batches, by hand and by the scripts."""
    accepted(cases, folder)
    refused(cases, folder)
    deleted(cases, folder)
    deleted_by_others(cases)
    behind_nginx(cases, folder)
    if has_gdal(cases):
        imports_in_batches(cases, folder)
        limits(cases, folder)
        full_journals(cases, folder)
        without_batches(cases, folder)
