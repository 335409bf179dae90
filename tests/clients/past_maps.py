"""The part `serve-at` of run.py: the maps of earlier times behind one port and behind nginx. Tiles, features and the
archive are those that the map's own server had then, byte for byte; nothing can be changed, outsiders get none of it,
and nothing is left."""
import glob
import json
import os
import shutil
import signal
import subprocess
import tempfile
from datetime import datetime

from .outsiders import nginx_of
from .past import History, point, stamp
from .stand import PROGRAM, VTMAP, Cases, Nginx, Server, curl, field, free_port, status_of

TILES = ["/map/0/0/0.mvt", "/map/5/0/16.mvt", "/map/metadata", "/features/1", "/features/2"]


class ServeAt:
    """A process of `vtmap serve-at`."""

    def __init__(self, history, *more, port=None):
        self.port, self.folder = port or free_port(), tempfile.mkdtemp(dir=history.folder)
        self.url = f"http://127.0.0.1:{self.port}"
        words = [*VTMAP, "serve-at", *history.words, "--port", str(self.port), "--program", PROGRAM, *more]
        self.child = subprocess.Popen(
            words,
            stdout=subprocess.PIPE,
            stderr=subprocess.STDOUT,
            text=True,
            env={**os.environ, "TMPDIR": self.folder},
        )
        self.told = self.child.stdout.readline().strip()

    def about(self, when):
        """What is told of the map of a time; the status and the reason where it is refused."""
        reply = curl(f"{self.url}/at/{when}/about")
        return json.loads(reply[2]) if status_of(reply) == 200 else (status_of(reply), reply[2].decode().strip())

    def disks(self):
        """How many maps it has."""
        return len(glob.glob(os.path.join(self.folder, "vtmap-at-*")))

    def end(self, by=signal.SIGTERM):
        """Ends it. Returns its status and what is left."""
        self.child.send_signal(by)
        status = self.child.wait(60)
        self.child.stdout.close()
        return status, os.listdir(self.folder)


def contents(url):
    """The contents of some paths."""
    return [(status_of(reply), reply[2]) for reply in (curl(url + path) for path in TILES)]


def past_maps(cases: Cases, folder: str) -> None:
    """The maps of earlier times."""
    place = os.path.join(folder, "past_maps_part")
    os.mkdir(place)
    with Server(place, "live", 65536, more=("--admin", "--etags")) as server:
        history = History(place, server)
        history.begin()
        seen = {}
        for name in ("one", "two", "three"):
            edit = history.edit({"put": 1, "feature": point(name)}, {"put": len(seen) + 2, "feature": point(name, 9)})
            seen[edit] = contents(server.url)
        middle = datetime.now()
        history.edit({"delete": 1}, {"delete": 2})
        history.see()
        one = ServeAt(history, "--most", "2")
        served(cases, server, one, seen, middle)
        unchanged(cases, one)
        behind_nginx(cases, place, server, one, seen)
        cases.show("serve-at: it ends, and leaves nothing", one.end(), (0, []))
        wrong(cases, history, one)
        history.pause()
    shutil.rmtree(place)


def served(cases, server, one, seen, middle):
    """Each map is what the server had then."""
    cases.show("serve-at: its first line", one.told, f"{one.url}/pages/?at=")
    found = one.about(stamp(middle))
    cases.show(
        "serve-at: the map of a time", (found["edit"], found["features"], found["time"] is not None), (3, 4, True)
    )
    differs = [edit for edit, wanted in seen.items() if contents(f"{one.url}/at/{edit}") != wanted]
    cases.show("serve-at: tiles, layers and features are those of then", differs, [])
    cases.show(
        "serve-at: after the last edit it is that of now",
        contents(f"{one.url}/at/{max(seen) + 1}") == contents(server.url),
        True,
    )
    cases.show("serve-at: of more maps than it keeps the oldest is ended", one.disks(), 2)
    cases.show("serve-at: and made again", contents(f"{one.url}/at/1") == seen[1], True)
    reply = curl(f"{one.url}/at/1/map.pmtiles", "-H", "Range: bytes=0-6")
    cases.show("serve-at: the archive, and a part of it", (status_of(reply), reply[2]), (206, b"PMTiles"))
    tag = field(curl(f"{one.url}/at/1/map/0/0/0.mvt"), "etag")
    cases.show(
        "serve-at: a tile that is known isn't sent again",
        status_of(curl(f"{one.url}/at/1/map/0/0/0.mvt", "-H", f"If-None-Match: {tag}")),
        304,
    )
    found = [one.about(when) for when in ("99", "2001-01-01", "x")]
    reasons = [
        (400, "the log hasn't got the edits 5 to 99"),
        (400, "the log begins with edit 1, seen at"),
        (400, "'x' is no time such as"),
    ]
    cases.show(
        "serve-at: times without a map, and why",
        [(status, text.startswith(reason)) for (status, text), (_, reason) in zip(found, reasons)],
        [(status, True) for status, _ in reasons],
    )


def unchanged(cases, one):
    """Nothing of an earlier map is changed, and it tells nothing of the server."""
    body, kind = json.dumps(point("x")), ["-H", "Content-Type: application/json"]
    asked = [
        ("PUT", "/features/1"),
        ("DELETE", "/features/1"),
        ("POST", "/edits"),
        ("POST", "/publish"),
        ("POST", "/admin/edits"),
        ("PATCH", "/x"),
    ]
    cases.show(
        "serve-at: it is only read",
        [status_of(curl(f"{one.url}/at/1{path}", *kind, "-X", method, body=body)) for method, path in asked],
        [405] * len(asked),
    )
    paths = [
        "/at/1/admin/status",
        "/at/1/publish",
        "/at/1/edits",
        "/at/1",
        "/at/",
        "/at/2026-11-24/map/0/0/0.mvt",
        "/features/1",
        "/at/1/../admin/status",
    ]
    cases.show(
        "serve-at: other paths", [status_of(curl(one.url + path, "--path-as-is")) for path in paths], [404] * len(paths)
    )
    cases.show("serve-at: by another name", status_of(curl(f"{one.url}/at/1/about", "-H", "Host: evil.example")), 421)
    cases.show("serve-at: the page", status_of(curl(f"{one.url}/pages/?at=1")), 200)


def behind_nginx(cases, folder, server, one, seen):
    """The same behind nginx, for those who edit alone."""
    nginx = nginx_of(cases)
    if not nginx:
        return
    with Nginx(nginx, folder, server, [("127.0.0.1:8092", f"127.0.0.1:{one.port}")]) as front:
        cases.show("serve-at: behind nginx", contents(f"{front.url}/at/2") == seen[2], True)
        paths = ["/at/2/map/0/0/0.mvt", "/at/2/about", "/at/2/features/1"]
        cases.show(
            "serve-at: outsiders get none of it",
            [status_of(curl(front.url + path, "--interface", "127.0.0.2")) for path in paths],
            [403] * 3,
        )
        reply = curl(f"{front.url}/at/2/map.pmtiles", "-H", "Range: bytes=0-6")
        cases.show("serve-at: a part of the archive, behind nginx", (status_of(reply), reply[2]), (206, b"PMTiles"))
    shutil.rmtree(front.folder)


def wrong(cases, history, one):
    """Wrong words; a port that is taken; a server that has gone."""
    with Server(history.folder, "other") as other:
        child = subprocess.run(
            [*VTMAP, "serve-at", *history.words, "--port", str(other.port), "--program", PROGRAM],
            capture_output=True,
            text=True,
            check=False,
        )
        cases.show(
            "serve-at: a port that is taken",
            (child.returncode, child.stderr),
            (1, f"port {other.port} of 127.0.0.1 can't be opened: Address already in use\n"),
        )
    child = subprocess.run(
        [*VTMAP, "serve-at", *history.words, "--most", "0"], capture_output=True, text=True, check=False
    )
    cases.show("serve-at: no map at all", child.returncode, 2)
    again = ServeAt(history)
    again.about("1")
    for path in glob.glob("/proc/[0-9]*/cmdline"):
        try:
            with open(path, "rb") as file:
                words = file.read().split(b"\0")
        except OSError:
            continue
        if b"serve" in words and any(word.startswith(again.folder.encode()) for word in words):
            os.kill(int(path.split("/")[2]), signal.SIGKILL)
    cases.show(
        "serve-at: a map whose server was killed is made again", status_of(curl(f"{again.url}/at/1/map/0/0/0.mvt")), 200
    )
    cases.show("serve-at: Ctrl+C ends it", again.end(signal.SIGINT), (0, []))
