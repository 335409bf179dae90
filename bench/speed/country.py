#!/usr/bin/env python3
"""A country on one machine: many maps, each with a process, under load at once; and the archives of regions, joined to one.

    python3 bench/speed/country.py [--program PROGRAM] [--folder FOLDER] [--maps N] [--features N] [--regions N] [--seconds N]

Each map has half points and half buildings (`capacity.py`). First all maps are open: what each takes at rest (the share of memory that is its own, PSS),
the time of a start, and of a processor in five seconds in which nobody asks. Then an editor for each map edits once a second on average, and sixteen
readers ask for tiles of all maps by chance: an edit's and a tile's waits, and tiles a second. Last, regions of that many features, side by side, are
published and joined by `vtmap join`: time, memory, what `vtserve verify` and the judge of model/ say of it, and how many contents GDAL reads (by the
system's Python). It prints a line of JSON for each. DEPLOYING has what came out.
"""
import argparse
import http.client
import json
import os
import random
import re
import resource
import subprocess
import sys
import tempfile
import threading
import time

HERE = os.path.dirname(os.path.abspath(__file__))
TOP = os.path.join(HERE, "..", "..")
sys.path[:0] = [HERE, os.path.join(TOP, "model")]
from archives import judged  # noqa: E402
from capacity import METRE, MIDDLE, Server, feature, publish  # noqa: E402

PORT, READERS, ZOOMS = 18700, 16, (12, 13, 14)
# The side of a district with its features, in metres.
SIDE = 15_000


def shifted(row, shift):
    """A feature that lies so many units to the east."""
    (kind, lists), = row["geometry"].items()

    def moved(value):
        return [value[0] + shift, value[1]] if isinstance(value[0], int) else [moved(each) for each in value]

    return {**row, "geometry": {kind: moved(lists)}}


def fill(server, count, number=0):
    """Puts features of a district, that of this number to the east of the first."""
    chance, shift = random.Random(number), int(number * SIDE * METRE)
    for first in range(1, count + 1, 64):
        rows = []
        for each in range(first, min(first + 64, count + 1)):
            row = feature("building" if each % 2 else "point", chance, SIDE)
            rows.append({"put": number * 10_000_000 + each, "feature": shifted(row, shift)})
        server.ask("POST", "/edits", json.dumps({"changes": rows}, separators=(",", ":")).encode())


def own_memory(server):
    """The share of memory that is a process's own, in MB."""
    with open(f"/proc/{server.child.pid}/smaps_rollup", encoding="ascii") as file:
        return int(re.search(r"(?m)^Pss:\s+([0-9]+)", file.read())[1]) * 1024 / 1e6


def processor(server):
    """The seconds of a processor that it has taken."""
    with open(f"/proc/{server.child.pid}/schedstat", encoding="ascii") as file:
        return int(file.read().split()[0]) / 1e9


def at_rank(values, share):
    """The value below which so many of all are, in ms."""
    return round(sorted(values)[int(len(values) * share)] * 1000, 2) if values else None


class Load:
    """Editors and readers of all maps, for some seconds."""

    def __init__(self, servers, seconds):
        self.servers, self.end = servers, time.monotonic() + seconds
        self.edits, self.tiles = [], []

    def run(self):
        """Runs them to their end."""
        threads = [threading.Thread(target=self.edit, args=(number,)) for number in range(len(self.servers))]
        threads += [threading.Thread(target=self.read, args=(number,)) for number in range(READERS)]
        for thread in threads:
            thread.start()
        for thread in threads:
            thread.join()

    def edit(self, number):
        """Edits a map, once a second on average."""
        chance = random.Random(number)
        while (pause := chance.expovariate(1)) < self.end - time.monotonic():
            time.sleep(pause)
            body = json.dumps({"changes": [{"put": chance.randrange(1, 1000), "feature": feature("point", chance, SIDE)}]}).encode()
            began = time.monotonic()
            self.servers[number].ask("POST", "/edits", body)
            self.edits.append(time.monotonic() - began)

    def read(self, number):
        """Asks for tiles of all maps."""
        chance, open_to = random.Random(1000 + number), {}
        while time.monotonic() < self.end:
            at, zoom = chance.randrange(len(self.servers)), chance.choice(ZOOMS)
            if at not in open_to:
                open_to[at] = http.client.HTTPConnection("127.0.0.1", self.servers[at].connection.port)
            x, y = (int(middle + (chance.random() - 0.5) * SIDE * METRE) >> 32 - zoom for middle in MIDDLE)
            began = time.monotonic()
            open_to[at].request("GET", f"/map/{zoom}/{x}/{y}.mvt")
            open_to[at].getresponse().read()
            self.tiles.append(time.monotonic() - began)
        for connection in open_to.values():
            connection.close()


def formatted(program, folder, name, sectors=262144):
    """A new disk."""
    disk = os.path.join(folder, name)
    subprocess.run([program, "format", disk, "--sectors", str(sectors)], check=True, stdout=subprocess.DEVNULL)
    return disk


def many(words, folder):
    """Many maps, each a copy of one."""
    first = formatted(words.program, folder, "0.disk")
    server = Server(words.program, first, PORT)
    fill(server, words.features)
    publish(server)
    server.end()
    disks = [first] + [os.path.join(folder, f"{number}.disk") for number in range(1, words.maps)]
    for disk in disks[1:]:
        subprocess.run(["cp", "--sparse=always", first, disk], check=True)
    servers = [Server(words.program, disk, PORT + number) for number, disk in enumerate(disks)]
    try:
        rest, before = sum(map(own_memory, servers)), sum(map(processor, servers))
        time.sleep(5)
        idle, before = sum(map(processor, servers)) - before, sum(map(processor, servers))
        load = Load(servers, words.seconds)
        load.run()
        return {
            "maps": words.maps, "features of each": words.features, "start of each s": round(sum(each.opened for each in servers) / words.maps, 3),
            "MB of each at rest": round(rest / words.maps, 2), "processor ms in 5 idle s": round(idle * 1000, 1),
            "edits a second": round(len(load.edits) / words.seconds), "edit p50 ms": at_rank(load.edits, 0.5), "edit p99 ms": at_rank(load.edits, 0.99),
            "tiles a second": round(len(load.tiles) / words.seconds), "tile p50 ms": at_rank(load.tiles, 0.5), "tile p99 ms": at_rank(load.tiles, 0.99),
            "processors used": round((sum(map(processor, servers)) - before) / words.seconds, 2),
            "MB of each then": round(sum(map(own_memory, servers)) / words.maps, 2),
        }
    finally:
        for each in servers:
            each.end()
        for disk in disks:
            os.unlink(disk)


def joined(words, folder):
    """Regions, published and joined."""
    archives = []
    for number in range(words.regions):
        disk = formatted(words.program, folder, "region.disk")
        server = Server(words.program, disk, PORT)
        fill(server, words.features, number)
        publish(server)
        server.end()
        archives.append(os.path.join(folder, f"{number}.pmtiles"))
        subprocess.run([words.program, "export", disk, archives[-1]], check=True, stdout=subprocess.DEVNULL)
        os.unlink(disk)
    country, began = os.path.join(folder, "country.pmtiles"), time.monotonic()
    child = subprocess.Popen([sys.executable, os.path.join(TOP, "bin", "vtmap"), "join", *archives, country], stdout=subprocess.DEVNULL)
    _, status, used = os.wait4(child.pid, 0)
    seconds = time.monotonic() - began
    verdict = subprocess.run([words.program, "verify", country], capture_output=True, text=True)
    return {
        "regions": words.regions, "features of each": words.features, "MB of all": round(sum(map(os.path.getsize, archives)) / 1e6, 1),
        "join ended with": status, "join s": round(seconds, 1), "join processor s": round(used.ru_utime + used.ru_stime, 1),
        "join MB": round(used.ru_maxrss * 1024 / 1e6, 1), "country MB": round(os.path.getsize(country) / 1e6, 1),
        "vtserve verify": (verdict.stdout + verdict.stderr).split("\n")[0], **read_by_others(country),
    }


def read_by_others(country):
    """What other readers say of an archive."""
    gdal = subprocess.run(["/usr/bin/python3", os.path.join(TOP, "tests", "clients", "read_tiles.py"), country], capture_output=True, text=True)
    with open(country, "rb") as file:
        verdict = judged(file.read())
    return {"model's judge": verdict, "contents read by GDAL": json.loads(gdal.stdout)["contents"] if gdal.returncode == 0 else None}


def main():
    parser = argparse.ArgumentParser(description="A country's maps on one machine, and their archives joined.")
    parser.add_argument("--program", default=os.path.join(TOP, "crates", "vtserve", "out", "vtserve"))
    parser.add_argument("--folder", default="/dev/shm", help="where disks and archives are (/dev/shm)")
    parser.add_argument("--maps", type=int, default=60)
    parser.add_argument("--regions", type=int, default=16)
    parser.add_argument("--features", type=int, default=25_000, help="of each map, and of each region (25,000)")
    parser.add_argument("--seconds", type=float, default=20, help="how long the load lasts (20)")
    words = parser.parse_args()
    soft, hard = resource.getrlimit(resource.RLIMIT_NOFILE)
    resource.setrlimit(resource.RLIMIT_NOFILE, (min(hard, max(soft, 8192)), hard))
    with tempfile.TemporaryDirectory(prefix="country-", dir=words.folder) as folder:
        print(json.dumps(many(words, folder)), flush=True)
        print(json.dumps(joined(words, folder)), flush=True)


if __name__ == "__main__":
    main()
