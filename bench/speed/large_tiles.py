#!/usr/bin/env python3
"""How long others wait while a tile of 100,000 points is made, and how long that takes.

    python3 bench/speed/large_tiles.py PROGRAM [DISK]    DISK has the map of an earlier run, or gets it

The map is that of beginnings.py, with 20 tiles of zoom 12 and 320 of zoom 14. The tile of zoom 0 is asked for beside three readers, with 1 ms
between two requests: of a feature, of a tile of zoom 14 that is cached, and of those that aren't. Then beside an editor, who changes a point
every 10 ms, and a reader of a feature; and beside three other clients, which ask for the tiles of zooms 1 to 3 at the same time. Five rounds
each, of a server that was just started.
"""
import http.client
import json
import os
import shutil
import subprocess
import sys
import tempfile
import threading
import time

from beginnings import PROGRAM, ended, in_ms, point_feature, put_all, started

ROUNDS, POINTS = 5, 100_000
WORLD = "/map/0/0/0.mvt"
SMALL = [f"/map/14/{x}/{y}.mvt" for x in range(8000, 8020) for y in range(5200, 5216)]
OTHERS = ["/map/1/0/0.mvt", "/map/2/1/1.mvt", "/map/3/3/2.mvt"]


def got(connection, path, method="GET", body=None):
    """The status of a reply, the length of its content, and how long it took."""
    since = time.monotonic()
    connection.request(method, path, body)
    reply = connection.getresponse()
    return reply.status, len(reply.read()), time.monotonic() - since


class Asker(threading.Thread):
    """A client that makes requests one after the other, with pauses: the longest that it waited, and the statuses that it got."""

    def __init__(self, port, requests, pause=0.001):
        super().__init__(daemon=True)
        self.connection, self.requests, self.pause = http.client.HTTPConnection("127.0.0.1", port), requests, pause
        self.longest, self.statuses, self.is_over = 0, {}, False

    def run(self):
        for request in self.requests:
            if self.is_over:
                break
            status, _, took = got(self.connection, *request)
            self.longest, self.statuses[status] = max(self.longest, took), self.statuses.get(status, 0) + 1
            time.sleep(self.pause)

    def __enter__(self):
        self.start()
        time.sleep(0.05)
        return self

    def __exit__(self, *fault):
        self.is_over = True
        self.join()


def again(path):
    while True:
        yield (path,)


def edits():
    for number in range(10**9):
        yield "/features/7", "PUT", json.dumps(point_feature(number % POINTS))


def beside(port, *askers):
    """How long the tile of zoom 0 takes beside others, and how long each of them waited at most."""
    connection = http.client.HTTPConnection("127.0.0.1", port)
    connection.connect()
    for asker in askers:
        asker.__enter__()
    status, size, took = got(connection, WORLD)
    for asker in askers:
        asker.__exit__()
    assert status == 200 and all(set(asker.statuses) <= {200, 204} for asker in askers), [asker.statuses for asker in askers]
    return took, size, [asker.longest for asker in askers]


def row(name, disk, askers_of):
    rounds = []
    for _ in range(ROUNDS):
        server, port, _ = started(disk)
        rounds.append(beside(port, *askers_of(port)))
        ended(server)
    waits = "; ".join(in_ms(one[2][place] for one in rounds) for place in range(len(rounds[0][2])))
    print(f"{name}: the tile of {rounds[0][1]} bytes takes {in_ms(one[0] for one in rounds)} ms; others wait at most {waits} ms", flush=True)


def made(disk):
    subprocess.run([PROGRAM, "format", disk, "--sectors", "524288"], check=True, stdout=subprocess.DEVNULL)
    server, port, _ = started(disk)
    connection = http.client.HTTPConnection("127.0.0.1", port)
    put_all(connection, point_feature, POINTS)
    ended(server)


def main():
    folder = tempfile.mkdtemp()
    disk = sys.argv[2] if len(sys.argv) > 2 else os.path.join(folder, "points")
    try:
        if not os.path.exists(disk):
            made(disk)
        row("alone", disk, lambda port: [])
        row("a feature; a cached tile of zoom 14; others of zoom 14", disk,
            lambda port: [Asker(port, again("/features/1")), Asker(port, again(SMALL[0])), Asker(port, ((path,) for path in SMALL[1:]))])
        row("an editor; a feature", disk, lambda port: [Asker(port, edits(), 0.01), Asker(port, again("/features/1"))])
        row("tiles of zooms 1, 2 and 3, a feature", disk,
            lambda port: [Asker(port, ((path,),)) for path in OTHERS] + [Asker(port, again("/features/1"))])
    finally:
        shutil.rmtree(folder)


if __name__ == "__main__":
    main()
