#!/usr/bin/env python3
"""How long the frames of a drag take in the page, with 100,000 polygons in view: Chromium shows the page of web/ behind nginx, and a mouse drags the map.

    python3 bench/speed/page_drag.py [PROGRAM [WEB [POLYGONS]]]    PROGRAM is crates/vtserve/out/vtserve, WEB a folder with another version of the page

The polygons are parcels of 4 by 3.6 pixels with a name each, in a layer that the style doesn't name, on a screen of 1,600 by 900. A frame is the time
from one callback of requestAnimationFrame to the next: it has all that the page's thread does, and the drawing of its canvases where no graphics card
does that. Two drags are measured: over 300 pixels and back, where the map is drawn already, and on over 1,200 pixels, where tiles come into view that
the page hasn't asked for. Needs nginx and Chromium.
"""
import http.client
import json
import math
import os
import shutil
import statistics
import sys
import tempfile
import time

HERE = os.path.dirname(os.path.abspath(__file__))
TOP = os.path.join(HERE, "..", "..")
sys.path[:0] = [os.path.join(TOP, "tests"), TOP]
WEB = sys.argv[2] if len(sys.argv) > 2 else os.path.join(TOP, "web")
POLYGONS = int(sys.argv[3]) if len(sys.argv) > 3 else 100000
from clients.browser import Browser  # noqa: E402
from clients.stand import Nginx, Server  # noqa: E402

NGINX = shutil.which("nginx", path=os.environ.get("PATH", "") + ":/usr/sbin")
WIDE, HIGH, ZOOM = 1600, 900, 15
# Units of the world of a pixel; the middle of the map; columns of the parcels in view, and those further to the east.
PIXEL, MIDDLE = 2 ** 32 // 512 // 2 ** ZOOM, (2 ** 31 + 12345678, 2 ** 30 + 87654321)
COLUMNS, FURTHER, STEP = 400, 300, (4, 3.6)
CHANGES = 64
RECORD = """(() => { const frames = window.frames_seen = []; let last = performance.now();
    const step = () => { const now = performance.now(); frames.push(now - last); last = now; window.recorder = requestAnimationFrame(step); };
    cancelAnimationFrame(window.recorder); window.recorder = requestAnimationFrame(step); })()"""


def parcel(number):
    """A parcel: those in view come first, row by row."""
    rows = POLYGONS // COLUMNS
    row, column = divmod(number, COLUMNS) if number < POLYGONS else divmod(number - POLYGONS, FURTHER)
    column += COLUMNS if number >= POLYGONS else 0
    west = int(MIDDLE[0] + (column - COLUMNS / 2) * STEP[0] * PIXEL)
    north = int(MIDDLE[1] + (row - rows / 2) * STEP[1] * PIXEL)
    east, south = int(west + (STEP[0] - 0.5) * PIXEL), int(north + (STEP[1] - 0.5) * PIXEL)
    ring = [[west, north], [east, north], [east, south], [(west + east) // 2, south - PIXEL // 4], [west, south]]
    return {"layer": "parcel", "minzoom": ZOOM, "maxzoom": ZOOM, "geometry": {"polygons": [[ring]]}, "tags": {"name": str(number)}}


def fill(server):
    """Puts the parcels into an empty map."""
    connection, count = http.client.HTTPConnection("127.0.0.1", server.port), POLYGONS + FURTHER * (POLYGONS // COLUMNS)
    for first in range(0, count, CHANGES):
        changes = [{"put": number, "feature": parcel(number)} for number in range(first, min(first + CHANGES, count))]
        connection.request("POST", "/edits", json.dumps({"changes": changes}), {"Content-Type": "application/json"})
        reply = connection.getresponse()
        content = reply.read()
        assert reply.status == 200, content
    return count


def opened_at():
    """Where the page is opened, as its address has it."""
    x, y = (part / 2 ** 32 for part in MIDDLE)
    return f"#{ZOOM}/{math.degrees(math.atan(math.sinh(math.pi * (1 - 2 * y))))}/{x * 360 - 180}"


def at_rest(page):
    """Waits until the page has drawn all: until the screen is the same twice, three seconds apart."""
    shown, before = page.ask("Page.captureScreenshot", format="png")["data"], None
    while shown != before:
        time.sleep(3)
        shown, before = page.ask("Page.captureScreenshot", format="png")["data"], shown


def drag(page, name, moves):
    """Drags the map by some moves of the mouse, and prints how long its frames took."""
    x, y = WIDE // 2, HIGH // 2
    page.mouse("mousePressed", x, y)
    page.mouse("mouseMoved", x + 6, y)
    page.value(RECORD)
    for by in moves:
        x += by
        page.mouse("mouseMoved", x, y)
        time.sleep(0.012)
    frames = sorted(page.value("window.frames_seen.slice(1)"))
    page.mouse("mouseReleased", x, y)
    far = frames[min(int(len(frames) * 0.95), len(frames) - 1)]
    print(f"{name}: {len(frames)} frames, median {statistics.median(frames):.0f} ms, 95 of 100 within {far:.0f} ms, longest {frames[-1]:.0f} ms", flush=True)


def main():
    with tempfile.TemporaryDirectory() as folder, Server(folder, "parcels", 524288, more=("--admin", "--etags")) as server:
        os.chmod(folder, 0o755)
        print(f"{fill(server):,} polygons, of which {POLYGONS:,} are in view; load of the machine {os.getloadavg()[0]:.1f}", flush=True)
        with Nginx(NGINX, folder, server) as front:
            shutil.copytree(WEB, os.path.join(front.folder, "pages"))
            with Browser(os.path.join(folder, "profile"), WIDE, HIGH) as browser:
                began = time.monotonic()
                page = browser.open(f"{front.url}/pages/{opened_at()}")
                page.wait("document.getElementById('told').textContent")
                at_rest(page)
                print(f"opened and drawn within {time.monotonic() - began:.1f} s, of which three are waited", flush=True)
                if os.environ.get("PICTURES"):
                    page.picture(os.path.join(os.environ["PICTURES"], "page-drag.png"))
                drag(page, "a drag over what is drawn", [-10] * 30 + [10] * 30)
                drag(page, "a drag to what isn't loaded", [-10] * 120)
                at_rest(page)


if __name__ == "__main__":
    main()
