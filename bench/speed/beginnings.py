#!/usr/bin/env python3
"""How long the beginning of a publication takes and how long others wait meanwhile, its peak of memory beside the archive, and a start after it.

    python3 bench/speed/beginnings.py [PROGRAM]    PROGRAM is crates/vtserve/out/vtserve, which `rt ci` leaves there

Two maps, put by batches over HTTP: the city of city_features.py, and 100,000 points with five tags, at random in 5 by 4 tiles of zoom 12. Each
is published three times by steps and three times at once, beside a reader that asks for a feature again and again, and three times each beside
nobody, and the server started five times; all are printed.
"""
import http.client
import json
import os
import random
import shutil
import socket
import subprocess
import sys
import tempfile
import threading
import time

HERE = os.path.dirname(os.path.abspath(__file__))
sys.path.insert(0, HERE)
from city_features import FEATURES, city_feature  # noqa: E402

PROGRAM = os.path.abspath(sys.argv[1] if len(sys.argv) > 1 else os.path.join(HERE, "..", "..", "crates", "vtserve", "out", "vtserve"))
BATCH = 32


def point_feature(number):
    chance = random.Random(number)
    place = [2000 * 2**20 + chance.randrange(5 * 2**20), 1300 * 2**20 + chance.randrange(4 * 2**20)]
    tags = {"class": "shop", "count": number % 100, "name": f"feature {number}", "open": bool(number % 2), "street": f"street {number % 500}"}
    return {"layer": "poi", "minzoom": 0, "maxzoom": 14, "geometry": {"points": [place]}, "tags": tags}


def memory_of(server, key):
    """A line of the process's status, in KB."""
    with open(f"/proc/{server.pid}/status", encoding="ascii") as status:
        return next(int(line.split()[1]) for line in status if line.startswith(key))


def started(disk):
    """A server of the disk, its port, and how long it took to be there."""
    with socket.socket() as probe:
        probe.bind(("127.0.0.1", 0))
        port = probe.getsockname()[1]
    since = time.monotonic()
    words = [PROGRAM, "serve", disk, "--port", str(port), "--connections", "4294967295"]
    server = subprocess.Popen(words, stdout=subprocess.PIPE, stderr=subprocess.DEVNULL)
    server.stdout.readline()
    return server, port, time.monotonic() - since


def ended(server):
    server.terminate()
    server.wait()


def posted(connection, path, body=b""):
    """The reply to a POST that has to be taken, and how long it took."""
    since = time.monotonic()
    connection.request("POST", path, body)
    reply = connection.getresponse()
    told = reply.read()
    assert reply.status == 200, (path, reply.status, told)
    return json.loads(told), time.monotonic() - since


def put_all(connection, feature, count):
    for first in range(0, count, BATCH):
        changes = [{"put": number, "feature": feature(number)} for number in range(first, min(first + BATCH, count))]
        posted(connection, "/edits", json.dumps({"changes": changes}, separators=(",", ":")))


class Reader(threading.Thread):
    """A reader that asks for a feature again and again: the longest that it waited for a reply."""

    def __init__(self, port):
        super().__init__(daemon=True)
        self.connection, self.longest, self.is_over = http.client.HTTPConnection("127.0.0.1", port), 0, False

    def run(self):
        while not self.is_over:
            since = time.monotonic()
            self.connection.request("GET", "/features/1")
            self.connection.getresponse().read()
            self.longest = max(self.longest, time.monotonic() - since)
            time.sleep(0.001)

    def __enter__(self):
        self.start()
        return self

    def __exit__(self, *fault):
        self.is_over = True
        self.join()


def published(connection, port):
    """A publication by steps: how long its beginning took, how long a reader waited meanwhile at most, and the bytes of the archive."""
    with Reader(port) as reader:
        _, begin = posted(connection, "/publish/begin")
    while posted(connection, "/publish/step")[0]["left"]:
        pass
    connection.request("HEAD", "/map.pmtiles")
    reply = connection.getresponse()
    reply.read()
    return begin, reader.longest, int(reply.getheader("content-length"))


def alone(connection):
    """How long a beginning takes beside nobody. It is cancelled."""
    _, begin = posted(connection, "/publish/begin")
    connection.request("POST", "/publish/cancel")
    connection.getresponse().read()
    return begin


def whole_beside(connection, port):
    """How long a whole publication takes beside a reader, and how long that waited at most."""
    with Reader(port) as reader:
        _, took = posted(connection, "/publish")
    return took, reader.longest


def in_ms(times):
    return ", ".join(f"{took * 1000:.0f}" for took in times)


def measured(name, feature, count, sectors, folder):
    disk = os.path.join(folder, name)
    subprocess.run([PROGRAM, "format", disk, "--sectors", str(sectors)], check=True, stdout=subprocess.DEVNULL)
    server, port, _ = started(disk)
    connection = http.client.HTTPConnection("127.0.0.1", port)
    put_all(connection, feature, count)
    rest = memory_of(server, "VmRSS")
    first = published(connection, port)
    peak, archive = memory_of(server, "VmHWM"), first[2]
    each = [first] + [published(connection, port) for _ in range(2)]
    lone = [alone(connection) for _ in range(3)]
    whole = [posted(connection, "/publish")[1] for _ in range(3)]
    beside = [whole_beside(connection, port) for _ in range(3)]
    ended(server)
    print(f"{name}: beginnings of {in_ms(one[0] for one in each)} ms beside a reader, who waits {in_ms(one[1] for one in each)} ms at most; "
          f"of {in_ms(lone)} ms beside nobody; whole publications of {in_ms(whole)} ms")
    print(f"{name}: whole publications of {in_ms(one[0] for one in beside)} ms beside a reader, who waits {in_ms(one[1] for one in beside)} ms at most")
    print(f"{name}: at rest {rest} KB, at the first peak {peak} KB: above rest {(peak - rest) * 1024 / archive:.2f} times the archive of {archive} bytes")
    starts = []
    for _ in range(5):
        server, _, took = started(disk)
        ended(server)
        starts.append(took)
    print(f"{name}: starts of {in_ms(starts)} ms")


def main():
    folder = tempfile.mkdtemp()
    try:
        measured("city", city_feature, FEATURES, 262144, folder)
        measured("points", point_feature, 100000, 524288, folder)
    finally:
        shutil.rmtree(folder)


if __name__ == "__main__":
    main()
