#!/usr/bin/env python3
"""How many instructions the program takes for a hot tile, a cold one, an edit, an opening, `verify` and `export`, counted by valgrind's
callgrind. The counts don't move with the machine's load, so a change of the program shows in them.

    python3 bench/speed/counts/run.py [PROGRAM [REVISION]]    PROGRAM is crates/vtserve/out/vtserve, which `rt run` leaves there

A count is that of one unit: two runs of different length are counted, and the difference is divided by that of their units, so that the
start of the program isn't in it. Work of the kernel isn't counted either. Each count is compared with that of speed/results/counts.txt as it is
in the REVISION, HEAD if none is given. It ends with 1 if a count rose by more than 5 %. Needs valgrind; takes three minutes.
"""
import json
import os
import re
import subprocess
import sys
import tempfile

HERE = os.path.dirname(os.path.abspath(__file__))
TOP = os.path.join(HERE, "..", "..", "..")
sys.path[:0] = [os.path.join(HERE, ".."), os.path.join(HERE, "..", "..", "..", "model")]

import city_features  # noqa: E402
import map_archive  # noqa: E402
from browser_head import browser_fields  # noqa: E402

PROGRAM = os.path.abspath(sys.argv[1] if len(sys.argv) > 1 else os.path.join(TOP, "crates", "vtserve", "out", "vtserve"))
REVISION = sys.argv[2] if len(sys.argv) > 2 else "HEAD"
COUNTS = "bench/speed/results/counts.txt"
RISE = 1.05
MEMORY_FOLDER = "/dev/shm" if os.path.isdir("/dev/shm") else None


def request(method, path, body="", fields="host: x\r\n"):
    length = f"content-length: {len(body)}\r\n" if body else ""
    return f"{method} {path} HTTP/1.1\r\n{fields}{length}\r\n{body}".encode()


def get(path, fields="host: x\r\n"):
    return request("GET", path, fields=fields)


def put(number, feature):
    return request("PUT", f"/features/{number}", json.dumps(feature, separators=(",", ":")))


def point(x, y, number, zooms=(0, 16)):
    """A point with three tags, whose text has 78 bytes."""
    tags = {"class": "garden", "count": number % 100, "name": f"feature {10000 + number % 90000}"}
    return {"layer": "poi", "minzoom": zooms[0], "maxzoom": zooms[1], "geometry": {"points": [[x, y]]}, "tags": tags}


def plain_point(number):
    """One of sixteen in each tile of zoom 8, one tile after the other."""
    tile, cell = number // 16, number % 16
    return point(tile % 256 * 2**24 + cell % 4 * 2**22 + 2**21, tile // 256 * 2**24 + cell // 4 * 2**22 + 2**21, number)


def run(words, stream=b""):
    """What a command prints."""
    done = subprocess.run([PROGRAM, *words], input=stream, stdout=subprocess.PIPE, stderr=subprocess.PIPE, check=False)
    if done.returncode != 0:
        sys.exit(f"{words}: {done.stderr.decode()}")
    return done.stdout


def counted(words, stream=b""):
    """The instructions of a command, and what it prints."""
    command = ["valgrind", "--tool=callgrind", "--callgrind-out-file=/dev/null", PROGRAM, *words]
    done = subprocess.run(command, input=stream, stdout=subprocess.PIPE, stderr=subprocess.PIPE, check=False)
    found = re.search(rb"Collected : (\d+)", done.stderr)
    if done.returncode != 0 or not found:
        sys.exit(f"{words}: {done.stderr.decode()}")
    return int(found[1]), done.stdout


def difference(few, many):
    """The instructions of a unit, by two counts and their units."""
    return (many[0] - few[0]) / (many[1] - few[1])


class Disks:
    """Disk files in a folder."""

    def __init__(self, folder):
        self.folder = folder
        self.made = 0

    def disk(self, sectors, *streams):
        """A new disk, after these requests."""
        self.made += 1
        path = os.path.join(self.folder, f"disk{self.made}")
        run(["format", path, "--sectors", str(sectors)])
        stream = b"".join(streams)
        if stream and run(["pipe", path], stream).count(b"HTTP/1.1 200 OK") != stream.count(b" HTTP/1.1\r\n"):
            sys.exit("a request of the preparation is refused")
        return path

    def requests(self, path, streams):
        """The instructions of each request, by two streams over a disk."""
        counts = []
        for stream in streams:
            count, printed = counted(["pipe", path], b"".join(stream))
            if printed.count(b"HTTP/1.1 200 OK") != len(stream):
                sys.exit("a request is refused")
            counts.append((count, len(stream)))
        return difference(*counts)


def tiles(disks):
    """Hot tiles, with a short head and with a browser's, and cold ones."""
    for count, kind in [(14, "of 0.8 KB"), (420, "of 24 KB")]:
        rows = [put(number, point(2**21 + number * 2**12, 2**21 + number * 7919 % 2**23, number)) for number in range(count)]
        path = disks.disk(65536, *rows)
        ask = get("/map/8/0/0.mvt")
        yield f"a hot tile {kind}", "request", disks.requests(path, ([ask] * 500, [ask] * 1500))
        if count == 14:
            ask = get("/map/8/0/0.mvt", browser_fields(8080))
            yield f"a hot tile {kind}, a head of {len(ask)} bytes", "request", disks.requests(path, ([ask] * 500, [ask] * 1500))
    path = disks.disk(65536, *[put(number, plain_point(number)) for number in range(4096)])
    asks = [get(f"/map/8/{tile}/0.mvt") for tile in range(256)]
    yield "a cold tile of 16 features, of a map of 4,096", "tile", disks.requests(path, (asks[:20], asks[20:240]))


def edits(disks):
    """Edits, and the opening of a disk that has them in its journal."""
    rows = [put(number, plain_point(number)) for number in range(10000)]
    counts = []
    for count in (100, 1100):
        path = disks.disk(65536)
        counts.append((counted(["pipe", path], b"".join(rows[:count]))[0], count))
    yield "an edit of one sector", "edit", difference(*counts)
    counts = [(counted(["pipe", disks.disk(65536, *rows[:count])])[0], count) for count in (0, 10000)]
    yield "an opening of 10,000 edits", "edit", difference(*counts)


def archives(disks):
    """`verify` of the model's archives of two cities, and `export` of the program's own."""
    verified, exported = [], []
    for count in (300, 1500):
        found = {number: city_features.city_feature(number) for number in range(count)}
        path = os.path.join(disks.folder, f"{count}.pmtiles")
        with open(path, "wb") as file:
            file.write(map_archive.archive_of(found))
        verified.append((counted(["verify", path])[0], os.path.getsize(path) / 1024))
        disk = disks.disk(65536, *[put(number, feature) for number, feature in found.items()], request("POST", "/publish"))
        goal = os.path.join(disks.folder, "exported")
        count, _ = counted(["export", disk, goal])
        exported.append((count, os.path.getsize(goal) / 1024))
        os.remove(goal)
    yield f"verify of the archive of a city of 1,500 features, {verified[1][1]:.0f} KB", "KB", difference(*verified)
    yield f"export of an archive of {exported[1][1]:.0f} KB", "KB", difference(*exported)


def before():
    """The counts of the revision, by name."""
    shown = subprocess.run(["git", "-C", TOP, "show", f"{REVISION}:{COUNTS}"], stdout=subprocess.PIPE, stderr=subprocess.DEVNULL, text=True, check=False)
    return {name: int(count) for name, count in re.findall(r"^(.*): (\d+) instructions ", shown.stdout, re.M)}


def main():
    old, rose = before(), []
    with tempfile.TemporaryDirectory(dir=MEMORY_FOLDER) as folder:
        disks = Disks(folder)
        for part in (tiles, edits, archives):
            for name, unit, count in part(disks):
                line = f"{name}: {count:.0f} instructions for each {unit}"
                if name in old:
                    line += f"; {old[name]} at {REVISION}, {count / old[name]:.3f} times as many"
                    rose += [name] * (count > RISE * old[name])
                print(line, flush=True)
    for name in rose:
        print(f"ROSE by more than 5 %: {name}")
    return 1 if rose else 0


if __name__ == "__main__":
    sys.exit(main())
