"""The part `screens` of run.py: a browser and QGIS, straight to the server's port, and what they draw of a town.

Chromium fetches forty tiles at once, and draws the map with Mapbox GL JS 1.10.1, which Debian has within plotly.js
(`python3-plotly`). QGIS draws the project of `vtmap qgis`. Each picture is compared with the one of `vtmap draw`, a
reader of its own, by the share of pixels of which one is water and the other isn't: the rest has styles of its own.
They are kept in the folder that PICTURES names, if it does.
"""
import base64
import http.server
import json
import math
import os
import re
import shutil
import subprocess
import sys
import time

from .stand import EXAMPLES, HALF, SYSTEM_PYTHON, VTMAP, Cases, Server, curl, feature

PLOTLY = "/usr/share/python3-plotly/plotly.js"
WIDE, HIGH = 768, 512
WORLD = 2**32 - 1
TILES = [f"/map/3/{column}/{row}.mvt" for row in range(5) for column in range(8)]

FETCHED = """<!DOCTYPE html><meta charset="utf-8"><body>waits<script>
const paths = %s;
const began = performance.now();
Promise.all(paths.map(path => fetch("%s" + path).then(reply => reply.arrayBuffer()))).then(
    tiles => fetch("%s", {method: "POST", body: JSON.stringify([performance.now() - began, tiles.map(tile => tile.byteLength)])}));
</script></body>
"""

DRAWN = """<!DOCTYPE html><meta charset="utf-8"><style>html, body, #map { height: 100%%; margin: 0; }</style>
<body><div id="map"></div><script src="file://%s"></script><script>
const size = {width: %d, height: %d};
Plotly.newPlot("map", [{type: "scattermapbox", lat: [], lon: []}], {
    ...size, margin: {l: 0, r: 0, t: 0, b: 0}, showlegend: false,
    mapbox: {center: {lon: 7.5, lat: 54.5}, zoom: 14, style: %s},
}).then(map => Plotly.toImage(map, {...size, format: "png"})).then(image => fetch("%s", {method: "POST", body: image}));
</script></body>
"""

QGIS = """import os, sys, time
os.environ["QT_QPA_PLATFORM"] = "offscreen"
from qgis.core import QgsApplication, QgsMapRendererParallelJob, QgsMapSettings, QgsProject, QgsRectangle
from qgis.PyQt.QtCore import QSize
from qgis.PyQt.QtGui import QColor
app = QgsApplication([], False)
app.initQgis()
project = QgsProject.instance()
assert project.read(sys.argv[1])
settings = QgsMapSettings()
settings.setLayers(list(project.mapLayers().values()))
settings.setBackgroundColor(QColor("#a9cfe3"))
settings.setDestinationCrs(project.crs())
settings.setOutputSize(QSize(%d, %d))
settings.setExtent(QgsRectangle(*map(float, sys.argv[3:])))
began = time.monotonic()
job = QgsMapRendererParallelJob(settings)
job.start()
job.waitForFinished()
print(f"{time.monotonic() - began:.3f} seconds, {len(job.errors())} errors")
job.renderedImage().save(sys.argv[2])
""" % (WIDE, HIGH)


def words_of(folder, html):
    """The command that has Chromium open a page, without a window."""
    page = os.path.join(folder, "page.html")
    with open(page, "w", encoding="utf-8") as file:
        file.write(html)
    shared = [
        "--headless=new",
        "--no-sandbox",
        "--disable-web-security",
        f"--user-data-dir={folder}/profile",
        f"--window-size={WIDE},{HIGH}",
    ]
    drawing = ["--use-gl=angle", "--use-angle=swiftshader", "--enable-unsafe-swiftshader", "--hide-scrollbars"]
    return ["chromium", *shared, *drawing, "file://" + page]


class Told(http.server.BaseHTTPRequestHandler):
    """Takes what a page tells."""

    def do_POST(self):
        self.server.told = self.rfile.read(int(self.headers["content-length"])).decode()
        self.send_response(204)
        self.end_headers()

    def log_message(self, *words):
        pass


def told_by(folder, page):
    """What a page tells, within a minute. It is made of the address that it is to be told to."""
    with http.server.HTTPServer(("127.0.0.1", 0), Told) as listener:
        listener.told, listener.timeout = "", 60
        words = words_of(folder, page(f"http://127.0.0.1:{listener.server_port}/"))
        child = subprocess.Popen(words, stdout=subprocess.DEVNULL, stderr=subprocess.DEVNULL)
        listener.handle_request()
        child.terminate()
        child.wait(60)
        return listener.told


def styled(url, layers):
    """A style for Mapbox GL with an area, a line and a point layer for each layer of the tiles."""
    colours = {"land": "#f3efe2", "park": "#c3dfb0", "road": "#e0b95b", "building": "#cdbfae", "place": "#b03a2e"}
    made = [{"id": "water", "type": "background", "paint": {"background-color": "#a9cfe3"}}]
    order = list(colours)
    for layer in sorted(layers, key=lambda layer: order.index(layer) if layer in order else len(order)):
        shared = {"source": "map", "source-layer": layer}
        colour = colours.get(layer, "#a89782")
        made += [
            {
                **shared,
                "id": layer + "-area",
                "type": "fill",
                "filter": ["==", "$type", "Polygon"],
                "paint": {"fill-color": colour, "fill-antialias": False},
            },
            {
                **shared,
                "id": layer + "-line",
                "type": "line",
                "filter": ["==", "$type", "LineString"],
                "paint": {"line-color": colour, "line-width": 3},
            },
            {
                **shared,
                "id": layer + "-point",
                "type": "circle",
                "filter": ["==", "$type", "Point"],
                "paint": {"circle-color": colour},
            },
        ]
    tiles = {"type": "vector", "tiles": [url + "/map/{z}/{x}/{y}.mvt"], "minzoom": 0, "maxzoom": 16}
    return {"version": 8, "sources": {"map": tiles}, "layers": made}


def water_differs(one, other):
    """Of what share of the pixels of two pictures one is water and the other isn't. Water has the same colour in all
    three."""
    program = (
        "import sys\nfrom PIL import Image\n"
        "a, b = (Image.open(p).convert('RGB') for p in sys.argv[1:])\n"
        "assert a.size == b.size, (a.size, b.size)\n"
        "water = lambda c: max(abs(c[0] - 169), abs(c[1] - 207), abs(c[2] - 227)) < 12\n"
        "print(sum(water(x) != water(y) for x, y in zip(a.getdata(), b.getdata())) / (a.size[0] * a.size[1]))\n"
    )
    told = subprocess.run([SYSTEM_PYTHON, "-c", program, one, other], capture_output=True, text=True)
    return float(told.stdout) if told.returncode == 0 else told.stderr


def forty_tiles(cases: Cases, folder: str) -> None:
    """Forty tiles that Chromium asks for at once, beside a curl."""
    with Server(folder, "forty") as server:
        corners = [[0, 0], [WORLD, 0], [WORLD, WORLD], [0, WORLD]]
        curl(f"{server.url}/features/1", "-X", "PUT", body=feature(last=3, geometry={"polygons": [[corners]]}))
        sizes = [len(curl(server.url + path)[2]) for path in TILES]
        milliseconds, lengths = json.loads(
            told_by(folder, lambda where: FETCHED % (json.dumps(TILES), server.url, where)) or "[null, null]"
        )
        cases.show("screens: Chromium gets forty tiles", lengths, sizes)
        cases.show(
            "screens: in less than a second", milliseconds is not None and milliseconds < 1000 or milliseconds, True
        )
        cases.say(
            f"screens: Chromium's forty tiles took {milliseconds:.0f} ms"
            if milliseconds
            else "screens: Chromium got none"
        )


def drawn_town(cases, folder, kept):
    """A town as three programs draw it."""
    town = os.path.join(folder, "town.geojson")
    with open(town, "wb") as file:
        subprocess.run([sys.executable, os.path.join(EXAMPLES, "town.py")], stdout=file, check=True)
    with Server(folder, "town") as server:
        words = ["--layer-field", "layer", "--minzoom", "10", "--maxzoom", "16", "--first", "101", "--url", server.url]
        told = subprocess.run([*VTMAP, "import", town, *words], capture_output=True, text=True)
        cases.show("screens: the town is imported", told.stdout.splitlines()[-1:], ["355 taken, 0 refused"])
        truth, browser, qgis = (os.path.join(folder, name) for name in ("drawn.png", "mapbox.png", "qgis.png"))
        size = ["--url", server.url, "--zoom", "15", "--centre", "7.5,54.5", "--size", f"{WIDE}x{HIGH}"]
        subprocess.run([*VTMAP, "draw", truth, *size], check=True, capture_output=True)
        layers = [layer["id"] for layer in json.loads(curl(server.url + "/map/metadata")[2])["vector_layers"]]
        image = told_by(
            folder, lambda where: DRAWN % (PLOTLY, WIDE, HIGH, json.dumps(styled(server.url, layers)), where)
        )
        with open(browser, "wb") as file:
            file.write(base64.b64decode(image.partition("base64,")[2]))
        cases.show(
            "screens: Mapbox GL draws land where the reader of examples does, but for 2 % of the pixels",
            water_differs(truth, browser),
            Share(0.02),
        )
        project, script = os.path.join(folder, "map.qgs"), os.path.join(folder, "draw.py")
        east, north = 7.5 / 180 * HALF, math.asinh(math.tan(math.radians(54.5))) / math.pi * HALF
        half = HALF / 2**15 / 256
        extent = [str(at) for at in (east - half * WIDE, north - half * HIGH, east + half * WIDE, north + half * HIGH)]
        opened = ["--url", server.url, "--maxzoom", "16", "--centre", "7.5,54.5"]
        subprocess.run([*VTMAP, "qgis", project, *opened], check=True, capture_output=True)
        with open(script, "w", encoding="utf-8") as file:
            file.write(QGIS)
        began = time.monotonic()
        told = subprocess.run(
            [SYSTEM_PYTHON, script, project, qgis, *extent], capture_output=True, text=True, timeout=200
        )
        seconds = re.match(r"([0-9.]+) seconds, 0 errors", told.stdout.splitlines()[-1] if told.stdout else "")
        cases.show(
            "screens: QGIS draws the town in less than three seconds",
            seconds is not None and float(seconds[1]) < 3 or told.stdout + told.stderr,
            True,
        )
        cases.show(
            "screens: with land where the reader of examples draws it, but for 2 % of the pixels",
            water_differs(truth, qgis),
            Share(0.02),
        )
        cases.say(
            f"screens: QGIS took {seconds[1] if seconds else '?'} s, {time.monotonic() - began:.1f} s with its start"
        )
        ends = {line.rpartition(", ")[2] for line in server.lines()}
        cases.show("screens: no connection ended in the middle of a request", ends <= {"closed", "asked"} or ends, True)
        if kept:
            for path in (truth, browser, qgis):
                shutil.copy(path, kept)


class Share:
    """Equal to every share up to this one."""

    def __init__(self, most):
        self.most = most

    def __eq__(self, other):
        return isinstance(other, float) and other <= self.most

    def __repr__(self):
        return f"at most {self.most}"


def screens(cases: Cases, folder: str) -> None:
    if not shutil.which("chromium") or not os.path.exists(PLOTLY):
        cases.say("no chromium or no plotly.js: no browser is tried")
        return
    if subprocess.run([SYSTEM_PYTHON, "-c", "import qgis.core, PIL"], capture_output=True).returncode != 0:
        cases.say("no QGIS or no Pillow in the system's Python: nothing is drawn")
        return
    forty_tiles(cases, folder)
    drawn_town(cases, folder, os.environ.get("PICTURES"))
