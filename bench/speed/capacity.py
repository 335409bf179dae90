#!/usr/bin/env python3
"""What maps need by their number of features: memory, journal, area, and the times of a publication and of a start.

    python3 bench/speed/capacity.py [--program PROGRAM] [--folder FOLDER] [--port PORT] KIND:N ..

KIND is `point`, with three short tags, on zooms 10 to 14 at 25 in a square kilometre, or `building`, of eight corners
and five tags, on zooms 13 to 16 at 625. Features come in batches of 64. Memory is VmRSS at rest, and VmHWM of the
publication. It prints a line of JSON for each. docs/DEPLOYING.md has the table.
"""
import argparse
import http.client
import json
import math
import os
import random
import re
import subprocess
import time

TOP = os.path.join(os.path.dirname(os.path.abspath(__file__)), "..", "..")
MIDDLE = int(190 / 360 * 2 ** 32), int((0.5 - math.asinh(math.tan(math.radians(50))) / (2 * math.pi)) * 2 ** 32)
# Units of the map for a metre of ground at latitude 50.
METRE = 2 ** 32 / 40075016.685578488 / math.cos(math.radians(50))
KINDS = ["oak", "lime", "ash", "bench", "lamp", "hydrant", "sign", "well"]
CORNERS = [(0, 0), (1, 0), (1, 0.5), (1.3, 0.5), (1.3, 1), (0.5, 1), (0.5, 0.8), (0, 0.8)]
DENSITY = {"point": 25, "building": 625}
MALLOC = {"MALLOC_MMAP_THRESHOLD_": "33554432", "MALLOC_TRIM_THRESHOLD_": "1048576"}


def feature(kind: str, chance: random.Random, side: float) -> dict:
    """A feature in a square of this side, in metres."""
    x, y = (int(middle + (chance.random() - 0.5) * side * METRE) for middle in MIDDLE)
    if kind == "point":
        year = chance.randrange(1950, 2026)
        tags = {"kind": chance.choice(KINDS), "name": f"No. {chance.randrange(10 ** 6)}", "year": year}
        return {"layer": "asset", "minzoom": 10, "maxzoom": 14, "geometry": {"points": [[x, y]]}, "tags": tags}
    wide, high = (chance.uniform(8, 20) * METRE for _ in range(2))
    ring = [[x + int(wide * a), y + int(high * b)] for a, b in CORNERS]
    tags = {"floors": chance.randrange(1, 9), "kind": "house", "number": str(chance.randrange(200)),
            "ref": f"HY-{chance.randrange(10 ** 7)}", "street": f"Street {chance.randrange(2000)}"}
    return {"layer": "building", "minzoom": 13, "maxzoom": 16, "geometry": {"polygons": [[ring]]}, "tags": tags}


class Server:
    """A process of `serve` on a disk file."""

    def __init__(self, program: str, disk: str, port: int) -> None:
        began = time.monotonic()
        words = [program, "serve", disk, "--port", str(port), "--connections", "4294967295", "--admin", "--etags"]
        silent = {"stdout": subprocess.PIPE, "stderr": subprocess.DEVNULL}
        self.child = subprocess.Popen(words, env={**os.environ, **MALLOC}, **silent)
        if b"serving" not in self.child.stdout.readline():
            raise SystemExit(f"{disk} can't be served on port {port}")
        self.opened = time.monotonic() - began
        self.connection = http.client.HTTPConnection("127.0.0.1", port, timeout=3600)

    def ask(self, method: str, path: str, body: bytes = b"") -> dict:
        """The JSON of a reply."""
        self.connection.request(method, path, body, {"Content-Type": "application/json"} if body else {})
        reply = self.connection.getresponse()
        content = reply.read()
        if reply.status != 200:
            raise SystemExit(f"{method} {path}: {reply.status} {content[:200]}")
        return json.loads(content)

    def memory(self, name: str) -> float:
        """A line of its status, in MB."""
        with open(f"/proc/{self.child.pid}/status", encoding="ascii") as file:
            return int(re.search(name + r":\s+(\d+)", file.read())[1]) * 1024 / 1e6

    def end(self) -> None:
        """Ends it."""
        self.connection.close()
        self.child.kill()
        self.child.wait()


def fill(server: Server, kind: str, count: int) -> None:
    """Puts features, 64 in a batch."""
    chance, side = random.Random(7), 1000 * math.sqrt(count / DENSITY[kind])
    for first in range(1, count + 1, 64):
        numbers = range(first, min(first + 64, count + 1))
        rows = [{"put": number, "feature": feature(kind, chance, side)} for number in numbers]
        server.ask("POST", "/edits", json.dumps({"changes": rows}, separators=(",", ":")).encode())


def publish(server: Server) -> float:
    """Publishes by steps, and gives the seconds."""
    began, left = time.monotonic(), server.ask("POST", "/publish/begin")["left"]
    while left:
        left = server.ask("POST", "/publish/step")["left"]
    return time.monotonic() - began


def measured(program: str, folder: str, port: int, kind: str, count: int) -> dict:
    """What a map of this many features needs."""
    disk = os.path.join(folder, f"capacity-{kind}-{count}.disk")
    sectors = min(16777216, max(4096, 1 << (count * (8 if kind == "point" else 24) // 2).bit_length()))
    subprocess.run([program, "format", disk, "--sectors", str(sectors)], check=True, stdout=subprocess.DEVNULL)
    server = Server(program, disk, port)
    try:
        empty = server.memory("VmRSS")
        fill(server, kind, count)
        rest, journal = server.memory("VmRSS"), server.ask("GET", "/admin/status")["journal"]["used"]
        with open(f"/proc/{server.child.pid}/clear_refs", "w", encoding="ascii") as file:
            file.write("5")
        seconds = publish(server)
        peak, status = server.memory("VmHWM"), server.ask("GET", "/admin/status")
        server.end()
        server = Server(program, disk, port)
        area, archive = 512 * status["area"]["used"], status["archive"]
        return {
            "kind": kind,
            "features": count,
            "memory a feature": round((rest - empty) * 1e6 / count),
            "journal a feature": round(512 * journal / count),
            "snapshot a feature": round((area - archive) / count),
            "archive a feature": round(archive / count),
            "area MB": round(area / 1e6, 1),
            "rest MB": round(rest, 1),
            "peak MB": round(peak, 1),
            "publication s": round(seconds, 2),
            "start s": round(server.opened, 2),
        }
    finally:
        server.end()
        os.unlink(disk)


def main() -> None:
    parser = argparse.ArgumentParser(description="What maps need by their number of features.")
    parser.add_argument("maps", nargs="+", metavar="KIND:N")
    parser.add_argument("--program", default=os.path.join(TOP, "crates", "vtserve", "out", "vtserve"))
    parser.add_argument("--folder", default="/dev/shm", help="where disks are (/dev/shm)")
    parser.add_argument("--port", type=int, default=18600)
    words = parser.parse_args()
    for one in words.maps:
        kind, _, count = one.partition(":")
        print(json.dumps(measured(words.program, words.folder, words.port, kind, int(count))), flush=True)


if __name__ == "__main__":
    main()
