#!/usr/bin/env python3
"""What following a map costs: the feed of edits, lists of features by pages, an open map at rest with tags of tiles.

    python3 bench/speed/feed.py [PROGRAM]    PROGRAM is crates/vtserve/out/vtserve, which `rt run` leaves there

Rows have the time that passed, and the time of a processor that the server took, which other work on the machine doesn't change. The map is 40,449
features: the city of city_features.py, and points with three tags. Needs nothing but the program.
"""
import http.client
import json
import os
import sys
import tempfile
import time

HERE = os.path.dirname(os.path.abspath(__file__))
TOP = os.path.join(HERE, "..", "..")
sys.path[:0] = [HERE, os.path.join(TOP, "tests"), TOP]
import city_features  # noqa: E402
from clients.stand import Server  # noqa: E402
from vtmap.client.client import FROM, PAGE, Client  # noqa: E402
from vtmap.command_line import collect_rarely  # noqa: E402

FEATURES, POINTS_FROM = 40449, city_features.FEATURES
TICK = os.sysconf("SC_CLK_TCK")
HOUR = 3600
# The tiles of a screen of 1,600 by 900 pixels, each of them 256 wide, at a zoom where the city has most in them; how often a viewer asks for them.
ZOOM, COLUMNS, ROWS, EVERY = 14, 8, 5, 10
# How many zooms above the tiles are whose tags the page looks at, and how often (web/view.js, page.js).
TAGS_UP, EVERY_LOOK = 2, 30


class Counting(Client):
    """vtmap's client, which counts its requests and measures how long it waits for a reply."""

    requests, longest = 0, 0

    def once(self, *request):
        since = time.monotonic()
        reply = super().once(*request)
        self.requests, self.longest = self.requests + 1, max(self.longest, time.monotonic() - since)
        return reply


class Kept:
    """A connection that is kept, and the bytes that went over it."""

    def __init__(self, server):
        self.server, self.connection, self.bytes = server, http.client.HTTPConnection("127.0.0.1", server.port), 0

    def ask(self, method, path, body=None, fields=None):
        """Status, tag and content of a reply."""
        self.connection.request(method, path, body, fields or {})
        reply = self.connection.getresponse()
        content = reply.read()
        head = sum(len(name) + len(value) + 4 for name, value in reply.getheaders()) + len(f"HTTP/1.1 {reply.status} {reply.reason}\r\n\r\n")
        asked = len(f"{method} {path} HTTP/1.1\r\nHost: 127.0.0.1:{self.server.port}\r\nAccept-Encoding: identity\r\n\r\n")
        self.bytes += head + len(content) + asked + sum(len(name) + len(value) + 4 for name, value in (fields or {}).items())
        return reply.status, reply.getheader("etag"), content


def feature(number):
    """A feature of the map."""
    if number < POINTS_FROM:
        return city_features.city_feature(number)
    place = city_features.corner_of(number - POINTS_FROM)
    tags = {"name": f"tree {number}", "kind": "oak", "height": number % 30}
    return {"layer": "tree", "minzoom": 10, "maxzoom": 16, "geometry": {"points": [[place[0] + 99, place[1] + 77]]}, "tags": tags}


def fill(kept):
    """Puts the features into an empty map."""
    for first in range(0, FEATURES, 32):
        changes = [{"put": number, "feature": feature(number)} for number in range(first, min(first + 32, FEATURES))]
        status, _, content = kept.ask("POST", "/edits", json.dumps({"changes": changes}))
        assert status == 200, content


def processor(server):
    """The seconds of a processor that a server has taken."""
    with open(f"/proc/{server.child.pid}/stat", encoding="utf-8") as file:
        return sum(map(int, file.read().rpartition(")")[2].split()[11:13])) / TICK


def timed(name, server, times, act):
    """Prints what an action takes, of several."""
    before, began = processor(server), time.monotonic()
    for _ in range(times):
        act()
    took, used = time.monotonic() - began, processor(server) - before
    print(f"{name:66} {took / times * 1e6:10,.0f} us, {used / times * 1e6:8,.0f} us of a processor", flush=True)


def feed(server, kept):
    """The feed: nothing new, and a reply that is full."""
    last = json.loads(kept.ask("GET", "/admin/status")[2])["edits"]
    timed("the feed, nothing new", server, 5000, lambda: kept.ask("GET", f"/admin/edits/from/{last + 1}"))
    timed("the status", server, 5000, lambda: kept.ask("GET", "/admin/status"))
    edits = json.loads(kept.ask("GET", "/admin/edits/from/1")[2])["edits"]
    timed(f"the feed, a full reply: {len(edits)} edits of 32 features", server, 500, lambda: kept.ask("GET", "/admin/edits/from/1"))
    for number in range(200):
        kept.ask("PUT", f"/features/{10**6 + number}", json.dumps(feature(POINTS_FROM + number)))
    edits = json.loads(kept.ask("GET", f"/admin/edits/from/{last + 1}")[2])["edits"]
    timed(f"the feed, a full reply: {len(edits)} edits of one point", server, 500, lambda: kept.ask("GET", f"/admin/edits/from/{last + 1}"))
    for number in range(200):
        kept.ask("DELETE", f"/features/{10**6 + number}")


def listed(server, by_pages):
    """Lists the map by vtmap's client, page by page or feature by feature. Prints what that takes; returns the features."""
    client = Counting(server.url)
    client.has_pages = by_pages
    before, mine, began = processor(server), time.process_time(), time.monotonic()
    found = list(client.features())
    took, used, mine = time.monotonic() - began, processor(server) - before, time.process_time() - mine
    print(f"{len(found):,} features by {PAGE if by_pages else FROM}: {took:.2f} s, {used:.2f} s of a processor by the server and {mine:.2f} s by vtmap's "
          f"client, {client.requests:,} requests, the longest wait {client.longest * 1000:.0f} ms", flush=True)
    client.close()
    return found


def at_rest(kept):
    """Bytes of an hour in which nothing changes, of a viewer that asks for the tiles in view every ten seconds: without tags, with them; by the feed."""
    corner = city_features.tiles_at(ZOOM)[0]
    paths = [f"/map/{ZOOM}/{corner[0] + column}/{corner[1] + line}.mvt" for column in range(COLUMNS) for line in range(ROWS)]
    rounds = HOUR // EVERY

    def hour(name, requests, times, method="GET"):
        kept.bytes = 0
        statuses = {kept.ask(method, path, None, fields)[0] for path, fields in requests}
        print(f"an hour at rest, {name}: {kept.bytes * times / 1e6:.2f} MB (replies {sorted(statuses)})", flush=True)

    tags = {path: kept.ask("GET", path)[1] for path in paths}
    hour(f"{len(paths)} tiles every {EVERY} s without tags", [(path, {}) for path in paths], rounds)
    hour(f"{len(paths)} tiles every {EVERY} s with If-None-Match", [(path, {"If-None-Match": tags[path]}) for path in paths], rounds)
    places = {(corner[0] + column >> TAGS_UP, corner[1] + line >> TAGS_UP) for column in range(COLUMNS) for line in range(ROWS)}
    above = [f"/map/{ZOOM - TAGS_UP}/{column}/{line}.mvt" for column, line in sorted(places)]
    known = [(path, {"If-None-Match": kept.ask("HEAD", path)[1]}) for path in above]
    hour(f"the tags of the {len(above)} tiles above them every {EVERY_LOOK} s, as the page of who only looks", known, HOUR // EVERY_LOOK, "HEAD")
    last = json.loads(kept.ask("GET", "/admin/status")[2])["edits"]
    hour("the feed every second, and tiles only if it has an edit", [(f"/admin/edits/from/{last + 1}", {})], HOUR)
    hour(f"the status every {EVERY} s", [("/admin/status", {})], rounds)
    return paths, tags


def main():
    with tempfile.TemporaryDirectory() as folder, Server(folder, "followed", 262144, more=("--admin", "--etags")) as server:
        collect_rarely()
        kept = Kept(server)
        fill(kept)
        print(f"{FEATURES:,} features, load {os.getloadavg()[0]:.0f} on {os.cpu_count()} processors")
        feed(server, kept)
        same = listed(server, True) == listed(server, False)
        print(f"the lists are {'equal' if same else 'NOT EQUAL'}")
        paths, tags = at_rest(kept)
        path = max(paths, key=lambda one: len(kept.ask("GET", one)[2]))
        for _ in range(3):
            timed(f"a cached tile of {len(kept.ask('GET', path)[2]):,} bytes", server, 5000, lambda: kept.ask("GET", path))
            timed("a 304 of it", server, 5000, lambda: kept.ask("GET", path, None, {"If-None-Match": tags[path]}))


if __name__ == "__main__":
    main()
