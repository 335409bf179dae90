"""Of the part `page` of run.py: what map.html gives MapLibre, and how Mapbox GL JS 1.10.1 draws it, which Debian has
within plotly.js."""
import json
import os
import subprocess
import time

from .browser import HIGH, WIDE, Browser
from .screens import PLOTLY, Share, water_differs
from .stand import VTMAP

# A stand-in for MapLibre: it keeps what it is given.
STAND_IN = """
globalThis.maplibregl = {setWorkerUrl: url => globalThis.worker = url, NavigationControl: class {}, Popup: class {},
    Map: class { constructor(words) { globalThis.given = words; } addControl() {} on() {} }};
"""
DRAWN = """<!DOCTYPE html><meta charset="utf-8"><style>html, body { margin: 0; }</style><body><div id="map"></div><script src="file://%s"></script><script>
Plotly.newPlot("map", [{type: "scattermapbox", lat: [], lon: []}], {
    width: %d, height: %d, margin: {l: 0, r: 0, t: 0, b: 0}, mapbox: {center: {lon: 7.5, lat: 54.5}, zoom: 14, style: %s},
}, {displayModeBar: false}).then(() => setTimeout(() => document.title = "drawn", 1000));
</script></body>"""


def maplibre(cases, folder, front):
    """What map.html gives MapLibre, and how Mapbox GL draws it."""
    # Until then nginx has the metadata of the map before the import.
    time.sleep(11)
    pages = os.path.join(front.folder, "pages")
    for name, text in [("maplibre-gl-csp.js", STAND_IN), ("maplibre-gl.css", "")]:
        with open(os.path.join(pages, name), "w", encoding="utf-8") as file:
            file.write(text)
    subprocess.run([*VTMAP, "publish", "--url", front.url], check=True, capture_output=True)
    drawing = ["--use-gl=angle", "--use-angle=swiftshader", "--enable-unsafe-swiftshader"]
    with Browser(os.path.join(folder, "maplibre"), WIDE, HIGH, drawing) as browser:
        made = browser.open(f"{front.url}/pages/map.html")
        given = made.wait("globalThis.given", 10) or {
            "style": {"sources": {}, "layers": []},
            "bounds": [[0, 0], [0, 0]],
        }
        (west, south), (east, north) = given["bounds"]
        cases.show(
            "page: map.html opens where the published map is",
            7.4 < west < 7.49 and 7.51 < east < 7.6 and 54.4 < south < 54.5 < north < 54.6,
            True,
        )
        tiles = {"type": "vector", "tiles": [f"{front.url}/map/{{z}}/{{x}}/{{y}}.mvt"], "minzoom": 0, "maxzoom": 16}
        cases.show("page: with the map's tiles and its greatest zoom", given["style"]["sources"].get("map"), tiles)
        cases.show("page: and the browser refuses nothing", made.faults(), [])
        if not os.path.exists(PLOTLY):
            cases.say("no plotly.js: the style of map.html isn't drawn")
            return
        with open(os.path.join(folder, "drawn.html"), "w", encoding="utf-8") as file:
            file.write(DRAWN % (PLOTLY, WIDE, HIGH, json.dumps(given["style"])))
        made = browser.open("file://" + os.path.join(folder, "drawn.html"))
        made.wait("document.title === 'drawn'", 60)
        truth, drawn = os.path.join(folder, "truth-map.png"), os.path.join(folder, "mapbox.png")
        made.picture(drawn)
        draw_truth(front.url, truth)
        cases.show(
            "page: Mapbox GL takes its style, and draws land where the reader of examples does",
            water_differs(truth, drawn),
            Share(0.02),
        )


def draw_truth(url, path):
    """The picture of a reader of tiles that shares no code with the page."""
    words = ["--url", url, "--zoom", "15", "--centre", "7.5,54.5", "--size", f"{WIDE}x{HIGH}"]
    subprocess.run([*VTMAP, "draw", path, *words], check=True, capture_output=True)
