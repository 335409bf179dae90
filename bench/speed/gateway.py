#!/usr/bin/env python3
"""The gateway of a large map: its memory, and what a GIS waits that asks for views as QGIS does.

    python3 bench/speed/gateway.py [--program PROGRAM] [--folder FOLDER] [--features N] [--views N]

A map of points (`capacity.py`), `vtserve serve` and `vtmap wfs` on this machine. A GIS asks for the capabilities, for the layer's fields, and then for
views one after the other, each moved by half of its side: GetFeature of WFS 2.0.0 with a BBOX in EPSG:3857 and no COUNT, as QGIS does for a layer that
requests only what the view shows. Sides are 1, 4 and 16 km, last one of 48 km. Meanwhile somebody else edits a feature after each view, and every tenth
view the GIS saves one. It prints lines of JSON: the time of the start and the memory then; views, features and waits for each side; the most memory of
all. Memory is PSS, and at most VmHWM. bench/README.md has what came out.
"""
import argparse
import json
import math
import os
import random
import re
import subprocess
import sys
import tempfile
import time
import urllib.parse
import urllib.request

HERE = os.path.dirname(os.path.abspath(__file__))
TOP = os.path.join(HERE, "..", "..")
sys.path.insert(0, HERE)
from capacity import DENSITY, METRE, MIDDLE, Server, feature, fill  # noqa: E402
from country import at_rank, formatted, own_memory  # noqa: E402

PORT, GATEWAY = 18801, 18802
WORLD = 40075016.685578488
# The sides of views in km of ground at latitude 50, and how many of each are asked for in a row before the next one.
SIDES, LARGEST = (1, 4, 16), 48
LAYER = "asset.points"
SAVE = """<Transaction xmlns="http://www.opengis.net/wfs" xmlns:ogc="http://www.opengis.net/ogc" version="1.0.0" service="WFS"><Update typeName="v:{layer}">\
<Property><Name>name</Name><Value>{value}</Value></Property><ogc:Filter><ogc:FeatureId fid="{fid}"/></ogc:Filter></Update></Transaction>"""


class Gateway:
    """A process of `vtmap wfs`, until it listens."""

    def __init__(self, url):
        began = time.monotonic()
        words = [sys.executable, os.path.join(TOP, "bin", "vtmap"), "wfs", "--port", str(GATEWAY), "--url", url]
        self.child = subprocess.Popen(words, stdout=subprocess.PIPE, stderr=subprocess.DEVNULL, text=True)
        for line in self.child.stdout:
            if line.startswith("http://127.0.0.1"):
                break
        self.opened, self.url = time.monotonic() - began, f"http://127.0.0.1:{GATEWAY}/wfs"

    def most(self):
        """The most memory that it has had, in MB."""
        with open(f"/proc/{self.child.pid}/status", encoding="ascii") as file:
            return int(re.search(r"VmHWM:\s+([0-9]+)", file.read())[1]) * 1024 / 1e6

    def ask(self, body=None, **given):
        """The content of a reply."""
        query = "?" + urllib.parse.urlencode({"SERVICE": "WFS", "VERSION": "2.0.0", **given}) if given else ""
        asked = urllib.request.Request(self.url + query, body, {"Content-Type": "text/xml"} if body else {})
        with urllib.request.urlopen(asked, timeout=600) as reply:
            return reply.read()

    def end(self):
        """Ends it."""
        self.child.kill()
        self.child.wait()


def metres(units, is_north):
    """A coordinate of the map in metres of EPSG:3857."""
    share = units / 2 ** 32 - 0.5
    return (-share if is_north else share) * WORLD


class Views:
    """Views of a side, moved by half of it each time, and what was waited for them."""

    def __init__(self, gateway, server, features, chance):
        self.gateway, self.server, self.features, self.chance = gateway, server, features, chance
        self.side = 1000 * math.sqrt(features / DENSITY["point"])
        self.saved = 0

    def one(self, wide, x, y):
        """How long a view takes, and its features."""
        left, right = (metres(x + sign * wide * 1000 * METRE / 2, False) for sign in (-1, 1))
        low, high = (metres(y + sign * wide * 1000 * METRE / 2, True) for sign in (1, -1))
        box = f"{left:.3f},{low:.3f},{right:.3f},{high:.3f},urn:ogc:def:crs:EPSG::3857"
        began = time.monotonic()
        found = self.gateway.ask(REQUEST="GetFeature", TYPENAMES=f"v:{LAYER}", SRSNAME="urn:ogc:def:crs:EPSG::3857", BBOX=box)
        return time.monotonic() - began, re.findall(rb'gml:id="([^"]+)"><', found)

    def run(self, wide, count):
        """Waits and features of views of a side, beginning anywhere."""
        reach = max(self.side - wide * 1000, 0) * METRE
        x, y = (middle + (self.chance.random() - 0.5) * reach for middle in MIDDLE)
        waits, seen, longest = [], [], 0
        for at in range(count):
            wait, fids = self.one(wide, x, y)
            waits.append(wait)
            seen.append(len(fids))
            number = self.chance.randrange(1, self.features + 1)
            row = {"put": number, "feature": feature("point", self.chance, self.side)}
            # The server may have ended a connection on which nothing came for a minute.
            self.server.connection.close()
            self.server.ask("POST", "/edits", json.dumps({"changes": [row]}).encode())
            if at % 10 == 9 and fids:
                self.save(fids[len(fids) // 2].decode())
            x, y = x + (self.chance.random() - 0.5) * wide * 1000 * METRE, y + (self.chance.random() - 0.5) * wide * 1000 * METRE
            longest = max(longest, own_memory(self.gateway))
        return {"side km": wide, "views": count, "features of a view": round(sum(seen) / count), "p50 ms": at_rank(waits, 0.5),
                "p99 ms": at_rank(waits, 0.99), "MB at most after a view": round(longest, 1)}

    def save(self, fid):
        """Saves a feature, which nobody else has changed."""
        said = self.gateway.ask(SAVE.format(layer=LAYER, value="as seen", fid=fid).encode())
        self.saved += b"SUCCESS" in said


def main():
    parser = argparse.ArgumentParser(description="The gateway of a large map.")
    parser.add_argument("--program", default=os.path.join(TOP, "crates", "vtserve", "out", "vtserve"))
    parser.add_argument("--folder", default="/dev/shm")
    parser.add_argument("--features", type=int, default=1_000_000)
    parser.add_argument("--views", type=int, default=50)
    words = parser.parse_args()
    with tempfile.TemporaryDirectory(dir=words.folder) as folder:
        server = Server(words.program, formatted(words.program, folder, "large.disk", 4194304), PORT)
        gateway = None
        try:
            fill(server, "point", words.features)
            gateway = Gateway(f"http://127.0.0.1:{PORT}")
            print(json.dumps({"features": words.features, "start s": round(gateway.opened, 1), "MB at rest": round(own_memory(gateway), 1),
                              "MB at most": round(gateway.most(), 1)}), flush=True)
            views = Views(gateway, server, words.features, random.Random(3))
            gateway.ask(REQUEST="GetCapabilities")
            gateway.ask(REQUEST="DescribeFeatureType", TYPENAMES=f"v:{LAYER}")
            for wide in SIDES:
                print(json.dumps(views.run(wide, words.views)), flush=True)
            print(json.dumps(views.run(LARGEST, 1)), flush=True)
            print(json.dumps({"saves": views.saved, "MB at the end": round(own_memory(gateway), 1), "MB at most": round(gateway.most(), 1),
                              "server MB": round(own_memory(server), 1)}), flush=True)
        finally:
            for one in (gateway, server):
                if one:
                    one.end()


if __name__ == "__main__":
    main()
