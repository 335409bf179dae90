"""The part `try` of run.py: `vtmap try` makes a map with all that is around it, refuses what docs/nginx.conf
refuses, and leaves nothing running."""
import json
import os
import re
import shutil
import signal
import socket
import subprocess
import time

from .gateways import Gateway
from .import_stand import has_gdal
from .pictures import has_cairo
from .stand import PROGRAM, TOP, VTMAP, Cases, Nginx, Server, curl, feature, field, free_port, status_of

JSON, TEXT = "Content-Type: application/json", "Content-Type: text/plain;charset=json"
FEATURE, BATCH = feature(), '{"changes":[]}'
CHECKED = '{"changes":[{"put":8,"feature":%s,"was":null}]}' % feature()
CAPABILITIES = "/wfs?SERVICE=WFS&REQUEST=GetCapabilities"
INSERT = """<wfs:Transaction xmlns:wfs="http://www.opengis.net/wfs" xmlns:gml="http://www.opengis.net/gml" xmlns:v="urn:vtserve" service="WFS" version="1.1.0">
<wfs:Insert><v:p.points><v:geom><gml:Point srsName="urn:ogc:def:crs:EPSG::3857"><gml:pos>9 9</gml:pos></gml:Point></v:geom></v:p.points></wfs:Insert>
</wfs:Transaction>"""
XML = "Content-Type: text/xml"
# The processes of a try, by a word of their commands.
NAMES = {"wfs": "wfs", "wmts": "wmts", "serve": "map", "follow": "log"}
# What both fronts are asked, in this order: curl's words, the path, the body. OWN stands for the front's own origin.
ASKED = [
    ((), "/", None),
    ((), "/pages", None),
    ((), "/pages/", None),
    ((), "/pages/page.js", None),
    ((), "/pages/page.css", None),
    ((), "/pages/style.json", None),
    ((), "/pages/none.js", None),
    (("-I",), "/pages/", None),
    (("-X", "PUT", "-H", JSON), "/features/7", FEATURE),
    (("-X", "PUT"), "/features/7", FEATURE),
    ((), "/features/7", None),
    ((), "/features/9", None),
    ((), "/map/0/0/0.mvt", None),
    (("-I",), "/map/0/0/0.mvt", None),
    ((), "/map/0/0/0.hex", None),
    ((), "/map/metadata", None),
    ((), "/map.json", None),
    (("-X", "POST"), "/publish", None),
    ((), "/map.pmtiles", None),
    (("-r", "0-9"), "/map.pmtiles", None),
    ((), "/admin/status", None),
    ((), "/admin/features/from/0", None),
    (("-X", "POST", "-H", JSON), "/edits", BATCH),
    (("-X", "POST", "-H", JSON + "; charset=utf-8"), "/admin/edits", CHECKED),
    ((), CAPABILITIES, None),
    (("-X", "POST", "-H", XML), "/wfs", INSERT),
    ((), "/ogc/collections", None),
    (("-X", "DELETE"), "/features/8", None),
    ((), "/nothing", None),
    ((), "/.git/config", None),
    (("-X", "OPTIONS"), "/map/0/0/0.mvt", None),
    (("-X", "OPTIONS"), "/map.pmtiles", None),
    ((), "/files/none.jpg", None),
    # What is refused.
    (("-X", "POST", "-H", "Origin: http://other.example"), "/files/", FEATURE),
    (("-X", "PUT", "-H", "Origin: http://other.example"), "/files/put/a.jpg", FEATURE),
    (("-X", "POST", "-H", TEXT), "/edits", BATCH),
    (("-X", "POST", "-H", TEXT), "/admin/edits", CHECKED),
    (("-X", "POST", "-H", TEXT), "/admin/edits/at/9", CHECKED),
    (("-X", "POST", "-H", TEXT), "/wfs", INSERT),
    (("-X", "POST", "-H", JSON), "/edits", " " * 70000),
    (("-X", "PUT", "-H", "Origin: http://other.example"), "/features/7", FEATURE),
    (("-X", "PUT", "-H", "Origin: null"), "/features/7", FEATURE),
    (("-X", "PUT", "-H", "Origin: http://127.0.0.1:1"), "/features/7", FEATURE),
    (("-X", "PUT", "-H", "Origin: OWN"), "/features/7", FEATURE),
    (("-X", "DELETE", "-H", "Origin: http://other.example"), "/features/7", None),
    (("-X", "POST", "-H", "Origin: http://other.example"), "/publish", None),
    (("-X", "POST", "-H", "Origin: http://other.example", "-H", XML), "/wfs", INSERT),
    (("-H", "Origin: http://other.example"), "/map/0/0/0.mvt", None),
    (("-X", "OPTIONS", "-H", "Origin: http://other.example"), "/features/7", None),
    (("-H", "Host: other.example"), "/map/metadata", None),
    (("-X", "PUT", "-H", "Host: other.example:8000"), "/features/7", FEATURE),
    (("-H", "Host: localhost"), "/map/metadata", None),
]


class Tried:
    """A `vtmap try` that runs. `lines`: what it has said by then."""

    def __init__(self, folder, *words, under=()):
        env = {name: value for name, value in os.environ.items() if name not in ("DISPLAY", "WAYLAND_DISPLAY")}
        line = [*under, *VTMAP, "try", *words]
        self.child = subprocess.Popen(
            line, cwd=folder, env=env, stdout=subprocess.PIPE, stderr=subprocess.STDOUT, text=True
        )
        self.lines = []
        for line in self.child.stdout:
            self.lines.append(line.rstrip())
            if line.startswith("Ctrl+C"):
                break
        found = re.match(r"QGIS: +(http://127\.0\.0\.1:[0-9]+)/wfs", self.lines[1]) if len(self.lines) > 1 else None
        self.url = found and found[1]

    def children(self):
        """The processes that it has started, by name."""
        found = {}
        for number in filter(str.isdecimal, os.listdir("/proc")):
            if state_of(number)[1:2] == [str(self.child.pid)]:
                with open(f"/proc/{number}/cmdline", "rb") as file:
                    words = file.read().decode().split("\0")
                found[next((NAMES[word] for word in words if word in NAMES), words[0])] = int(number)
        return found

    def end(self, by=signal.SIGINT):
        """Ends it. Returns its status, and the rest of what it says."""
        self.child.send_signal(by)
        rest = self.child.communicate(timeout=60)[0]
        return self.child.returncode, rest.splitlines()

    def __enter__(self):
        return self

    def __exit__(self, *fault):
        if self.child.poll() is None:
            self.end()
        self.child.stdout.close()


def state_of(number):
    """The state and the parent of a process."""
    try:
        with open(f"/proc/{number}/stat", encoding="utf-8", errors="replace") as file:
            return file.read().rpartition(")")[2].split()[:2]
    except OSError:
        return []


def run_yet(numbers):
    """Which of these processes run, in ten seconds at the most once none does."""
    end = time.monotonic() + 10
    while time.monotonic() < end:
        left = [number for number in numbers if state_of(number)[:1] not in ([], ["Z"])]
        if not left:
            break
        time.sleep(0.1)
    return left


def refused(cases, name, folder, words, said):
    """Shows that it ends with 1, and says why in one line."""
    child = subprocess.run(
        [*VTMAP, "try", *words], cwd=folder, capture_output=True, text=True, timeout=100, check=False
    )
    lines = [line for line in (child.stdout + child.stderr).splitlines() if line != "all of it has ended"]
    cases.show(
        f"try: {name}",
        (child.returncode, len(lines), re.search(said, "\n".join(lines)) is not None or lines),
        (1, 1, True),
    )


def tries(cases: Cases, folder: str) -> None:
    """The whole of it."""
    folder = os.path.join(folder, "try")
    os.mkdir(folder)
    refusals(cases, folder)
    if has_gdal(cases):
        town(cases, folder)
    fronts(cases, folder)
    remembered(cases, folder)
    endings(cases, folder)


def refusals(cases: Cases, folder: str) -> None:
    """What it doesn't begin with."""
    program = ["--program", PROGRAM, "--no-browser", "--empty"]
    os.mkdir(os.path.join(folder, "full"))
    with open(os.path.join(folder, "full", "file"), "w", encoding="utf-8") as file:
        file.write("kept")
    refused(
        cases,
        "a folder with something else",
        folder,
        ["full", *program],
        "full is there, and not empty: name another folder",
    )
    cases.show("try: which is as it was", os.listdir(os.path.join(folder, "full")), ["file"])
    refused(cases, "a file in place of a folder", folder, ["full/file", *program], "is there, and not empty")
    refused(cases, "--again without a map", folder, ["none", "--again", *program], "none has no map of `vtmap try`")
    refused(cases, "no program", folder, ["none", "--program", "nowhere"], "nowhere can't be run: No such file")
    refused(cases, "another program", folder, ["none", "--program", "/bin/true"], "/bin/true isn't the program vtserve")
    env = {**os.environ, "PATH": "/nowhere"}
    shutil.copytree(os.path.join(TOP, "vtmap"), os.path.join(folder, "bare", "vtmap"))
    line = [VTMAP[0], "-m", "vtmap", "try", "none", "--empty"]
    child = subprocess.run(line, cwd=os.path.join(folder, "bare"), env=env, capture_output=True, text=True, check=False)
    told = "there is no program vtserve: build it (README.md), install the package, or name it by --program\n"
    cases.show("try: no program anywhere", (child.returncode, child.stderr), (1, told))
    cases.show("try: nothing of these was made", os.path.exists(os.path.join(folder, "none")), False)
    with socket.create_server(("127.0.0.1", 0)) as listener:
        port = listener.getsockname()[1]
        refused(
            cases,
            "a port that somebody has",
            folder,
            ["taken", "--port", f"{port}", *program],
            f"port {port} of 127.0.0.1 can't be opened",
        )


def town(cases: Cases, folder: str) -> None:
    """The town, once more with another port, and the map of before."""
    with Tried(folder, "--program", PROGRAM) as tried:
        cases.show(
            "try: it says where the page is",
            re.sub(r":\d+/", ":PORT/", tried.lines[0]),
            "the map: http://127.0.0.1:PORT/pages/#13/54.50001/7.50052",
        )
        status = json.loads(curl(tried.url + "/admin/status")[2])
        cases.show(
            "try: the town is there, and published",
            (status["features"], status["generation"], status["edits"] == status["published"]),
            (355, 1, True),
        )
        names = re.findall(rb"<wfs:Title>([^<]+)", curl(tried.url + CAPABILITIES)[2])
        wanted = [b"building (areas)", b"land (areas)", b"park (areas)", b"place (points)", b"road (lines)"]
        cases.show("try: QGIS's layers", names, wanted)
        curl(tried.url + "/features/999", "-X", "PUT", body=feature())
        cases.show("try: Ctrl+C", tried.end(), (0, ["all of it has ended"]))
    refused(
        cases,
        "a folder with a map",
        folder,
        ["--program", PROGRAM],
        "vtmap-try has a map already: --again goes on with it",
    )
    port = free_port()
    with Tried(folder, "--again", "--port", f"{port}", "--program", PROGRAM) as tried:
        reply = curl(f"http://127.0.0.1:{port}/features/999")
        cases.show(
            "try: --again has the map as it was",
            (tried.lines[0], status_of(reply)),
            (f"the map: http://127.0.0.1:{port}/pages/", 200),
        )


def replies_of(url):
    """What a front replies to what it is asked: the status, and what of the fields a client depends on."""
    found = []
    for words, path, body in ASKED:
        reply = curl(url + path, "--path-as-is", *(word.replace("OWN", url) for word in words), body=body)
        kind = (field(reply, "content-type") or "").partition(";")[0] if status_of(reply) == 200 else None
        found.append(
            (
                status_of(reply),
                kind,
                field(reply, "location"),
                field(reply, "access-control-allow-origin") if status_of(reply) < 400 else None,
            )
        )
    return found


def fronts(cases: Cases, folder: str) -> None:
    """The same requests to this front and to nginx with docs/nginx.conf."""
    program = shutil.which("nginx", path=os.environ.get("PATH", "") + ":/usr/sbin")
    if program is None:
        cases.say("no nginx: what `vtmap try` refuses isn't compared with docs/nginx.conf")
        return
    with Server(folder, "behind.disk", more=("--admin", "--etags")) as server, Gateway(folder, server.url) as gateway:
        with Nginx(program, folder, server, [("127.0.0.1:8090;", f"127.0.0.1:{gateway.port};")]) as front:
            shutil.copytree(os.path.join(TOP, "web"), os.path.join(front.folder, "pages"))
            wanted = replies_of(front.url)
    with Tried(folder, "same", "--empty", "--program", PROGRAM, "--no-browser") as tried:
        found = replies_of(tried.url)
        for (words, path, _), one, other in zip(ASKED, found, wanted):
            cases.show(f"try: as nginx: {path} {' '.join(words)}", one, other)
        tag = field(curl(tried.url + "/map/0/0/0.mvt"), "etag")
        again = curl(tried.url + "/map/0/0/0.mvt", "-H", f"If-None-Match: {tag}")
        cases.show("try: a tile that a client has already", (tag is not None, status_of(again)), (True, 304))
        if has_cairo(cases):
            picture, document = (
                curl(tried.url + "/xyz/0/0/0.png"),
                curl(tried.url + "/wmts/1.0.0/WMTSCapabilities.xml")[2].decode(),
            )
            cases.show(
                "try: pictures",
                (status_of(picture), field(picture, "content-type"), f'"{tried.url}/wmts?"' in document),
                (200, "image/png", True),
            )
            again = curl(tried.url + "/xyz/0/0/0.png", "-H", f"If-None-Match: {field(picture, 'etag')}")
            cases.show("try: one that a client has already", status_of(again), 304)
        chunked = curl(tried.url + "/features/7", "-X", "PUT", "-H", "Transfer-Encoding: chunked", body=FEATURE)
        cases.show("try: a body without a length", status_of(chunked), 411)
        cases.show(
            "try: a file beside the page", status_of(curl(tried.url + "/pages/..%2fREADME.md", "--path-as-is")), 404
        )
        cases.show(
            "try: a file above the page", status_of(curl(tried.url + "/pages/../README.md", "--path-as-is")), 404
        )


def remembered(cases: Cases, folder: str) -> None:
    """The history of a feature, for the page."""
    with Tried(folder, "history", "--empty", "--no-browser", "--program", PROGRAM) as tried:
        curl(tried.url + "/features/7", "-X", "PUT", "-H", JSON, body=FEATURE)
        end, found = time.monotonic() + 60, []
        while not found and time.monotonic() < end:
            found = json.loads(curl(tried.url + "/wfs/history/7")[2])["changes"]
        cases.show("try: the history of a feature", [(row["edit"], row["was"]) for row in found], [(1, None)])


def endings(cases: Cases, folder: str) -> None:
    """However it ends, nothing is left running."""
    words = ["--empty", "--no-browser", "--program", PROGRAM]
    started = ["log", "map", "wfs"] + ["wmts"] * has_cairo(cases)
    for by, status in ((signal.SIGINT, 0), (signal.SIGTERM, 0), (signal.SIGHUP, 0), (signal.SIGKILL, -9)):
        with Tried(folder, f"ends-{by}", *words) as tried:
            numbers = tried.children()
            code, lines = tried.end(by)
            cases.show(
                f"try: {signal.Signals(by).name} leaves nothing",
                (sorted(numbers), code, run_yet(numbers.values())),
                (started, status, []),
            )
    for name in started:
        with Tried(folder, f"lost-{name}", *words) as tried:
            numbers = tried.children()
            os.kill(numbers[name], signal.SIGKILL)
            rest = tried.child.communicate(timeout=60)[0]
            told = (tried.child.returncode, rest.startswith(f"{name} has ended with -9: "), run_yet(numbers.values()))
            cases.show(f"try: it ends if {name} does", told, (1, True, []))
