#!/usr/bin/env python3
"""What the beginning of a publication takes of a map that its disk has no room for: time, memory, and whether the map serves on.

    python3 tests/hostile/beginnings.py [--program PROGRAM] [--rows 1,2,6,40] [--memory MB] [--seconds S] [--sectors N]

PROGRAM is crates/vtserve/out/vtserve. Each row is a `serve` of its own, whose address space is limited to 512 MB (`ulimit -v`), on a disk with
areas of 20 MB, with so many polygons of 2,600 points (61 KB of JSON) at zoom 8, each a third of the world wide: each is whole in 22,016 tiles,
which take 290 MB. POST /publish/begin is sent twice; then a tile, a feature and an edit are asked for. Memory is the process's resident set
(/proc): before the first beginning, the greatest during both, and after each. A build with a sanitizer, as `rt try` makes it, reserves
addresses: for such a one give --memory 0, a smaller disk (--sectors 11000: areas of 2 MB, up to 65 polygons) and `ASAN_OPTIONS=quarantine_size_mb=1`.

Wanted: each beginning is answered within S seconds for each polygon (10: `need` is that of all tiles, so each is made), as `{"left":N}`,
`AreaFull need N free M` with N above M, `TooManyTiles` or `Memory`, and the map serves on. Anything else ends the script with 1.
"""
import argparse
import http.client
import json
import os
import pathlib
import re
import resource
import socket
import subprocess
import sys
import tempfile
import time

TOP = pathlib.Path(__file__).resolve().parents[2]
POINTS, WORLD = 2600, 2**32
ANSWERS = re.compile(r'200 \{"left":\d+\}|507 AreaFull need (\d+) free (\d+)|507 TooManyTiles|503 Memory')


def polygon(number):
    """A comb of 2,600 points, from the top of the world to its bottom, as JSON; each number has a place and a shape of its own."""
    left, step = 1000000000 + number * 4000037 % 1800000000, WORLD // POINTS
    ring = [[left + at % 2 * (WORLD // 3) + at * (number + 1) % 1009, 1000 + at * step + number] for at in range(POINTS - 1)]
    return json.dumps({"layer": "p", "minzoom": 8, "maxzoom": 8, "geometry": {"polygons": [[[*ring, [left, WORLD - 1000]]]]}, "tags": {}},
                      separators=(",", ":"))


class Served:
    """A process of `serve` within a limit of memory, and a connection to it."""

    def __init__(self, words, folder, seconds):
        disk = os.path.join(folder, "disk")
        subprocess.run([words.program, "format", disk, "--sectors", str(words.sectors)], check=True, stdout=subprocess.DEVNULL)
        with socket.socket() as probe:
            probe.bind(("127.0.0.1", 0))
            port = probe.getsockname()[1]
        command = [words.program, "serve", disk, "--port", str(port), "--connections", "100", "--admin"]
        limited = words.memory and (lambda: resource.setrlimit(resource.RLIMIT_AS, (words.memory << 20,) * 2))
        self.child = subprocess.Popen(command, stdout=subprocess.PIPE, stderr=subprocess.DEVNULL, preexec_fn=limited or None)
        if not self.child.stdout.readline():
            sys.exit(f"the program doesn't start within {words.memory} MB: has it a sanitizer (--memory 0)?")
        self.connection = http.client.HTTPConnection("127.0.0.1", port, timeout=seconds * 10)

    def ask(self, method, path, body=None):
        """Status and content of a reply, as text, and the seconds that it took."""
        began = time.monotonic()
        try:
            self.connection.request(method, path, body)
            reply = self.connection.getresponse()
            said = f"{reply.status} {reply.read().decode('latin-1').strip()}"
        except (OSError, http.client.HTTPException) as fault:
            self.connection.close()
            said = f"no reply: {fault or type(fault).__name__}"
        return said, time.monotonic() - began

    def memory(self, name):
        """MB of a row of /proc/PID/status, or None if the process has ended."""
        try:
            found = re.search(name + r":\s+(\d+) kB", pathlib.Path(f"/proc/{self.child.pid}/status").read_text())
        except FileNotFoundError:
            found = None
        return int(found[1]) / 1024 if found else None

    def begin_peak(self):
        """Has the greatest resident set begin anew."""
        pathlib.Path(f"/proc/{self.child.pid}/clear_refs").write_text("5")

    def end(self):
        self.child.kill()
        self.child.wait()
        self.child.stdout.close()


def is_wanted(said, seconds, most):
    """Whether a beginning was answered as it may be, in time."""
    found = ANSWERS.fullmatch(said)
    return found is not None and seconds <= most and (found[1] is None or int(found[1]) > int(found[2]))


def serves_on(served, count):
    """What differs of a tile, a feature and an edit."""
    feature, _ = served.ask("GET", "/features/0")
    tile, _ = served.ask("GET", "/map/8/100/100.mvt")
    point = '{"layer":"q","minzoom":0,"maxzoom":2,"geometry":{"points":[[0,0]]},"tags":{}}'
    edit, _ = served.ask("PUT", f"/features/{count}", point)
    small, _ = served.ask("GET", "/map/0/0/0.hex")
    wanted = polygon(0)
    return [name for name, is_right in [
        ("feature", feature.startswith("200 {") and json.loads(feature[4:]) == json.loads(wanted)),
        ("tile", tile.startswith("200 ") and len(tile) > POINTS),
        ("edit", edit == f'200 {{"edit":{count + 1}}}'),
        ("tile of the edit", small.startswith("200 1a")),
    ] if not is_right]


def row(words, count):
    """Prints a row. Returns whether it is as wanted."""
    with tempfile.TemporaryDirectory() as folder:
        most = words.seconds * count
        served = Served(words, folder, most)
        try:
            for number in range(count):
                said, _ = served.ask("PUT", f"/features/{number}", polygon(number))
                if not said.startswith('200 {"edit":'):
                    sys.exit(f"polygon {number}: {said}")
            before, good, cells = served.memory("VmRSS"), True, []
            served.begin_peak()
            for _ in range(2):
                said, seconds = served.ask("POST", "/publish/begin")
                after = served.memory("VmRSS")
                good &= is_wanted(said, seconds, most)
                cells += [said, f"{seconds:.1f} s", f"{after:.0f} MB" if after else "ended"]
                served.ask("POST", "/publish/cancel")
            peak = served.memory("VmHWM")
            differs = serves_on(served, count)
        finally:
            served.end()
    first, second = cells[:3], cells[3:]
    memory = f"{before:.0f} MB | {f'{peak:.0f} MB' if peak else 'ended'} | {first[2]}, {second[2]}"
    print(f"| {count} | {first[0]} | {first[1]} | {second[0]} | {second[1]} | {memory} | {', '.join(differs) + ' differs' if differs else 'yes'} |", flush=True)
    return good and not differs


def options():
    parser = argparse.ArgumentParser(description="Publications that don't fit, begun under a limit of memory.")
    parser.add_argument("--program", default=str(TOP / "crates" / "vtserve" / "out" / "vtserve"))
    parser.add_argument("--rows", type=lambda text: [int(part) for part in text.split(",")], default=[1, 2, 6, 40])
    parser.add_argument("--memory", type=int, default=512, metavar="MB", help="the limit of the address space (512); 0: none")
    parser.add_argument("--seconds", type=float, default=10, metavar="S")
    parser.add_argument("--sectors", type=int, default=110000, metavar="N", help="those of the disk (110,000)")
    return parser.parse_args()


def main():
    words = options()
    print("| Polygons | Reply | Time | Again | Time | Memory before | Peak | After each | Serves on |\n|---|---|---|---|---|---|---|---|---|", flush=True)
    return 0 if all([row(words, count) for count in words.rows]) else 1


if __name__ == "__main__":
    sys.exit(main())
