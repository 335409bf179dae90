#!/usr/bin/env python3
"""How many changes of the map `vtserve serve` makes durable in a second, one by one and in batches of 64; how long a batch takes beside bare
writes and syncs of its sectors; and how long an import of 3,000 points takes, in batches and one by one.

    python3 bench/speed/batches/run.py [PROGRAM [FOLDER]]    PROGRAM is crates/vtserve/out/vtserve, which `rt run` leaves there

Disk files are in FOLDER, or in a scratch folder of this clone: on a file system that syncs, not on tmpfs. Requests are sent on one kept
connection, by turns with bare writes into files that were formatted as the disk was, at the same sectors. The server has one processor, the
client another one. Rounds are repeated: a figure is the median of the rounds' medians, with the least and the greatest, and a ratio the
median of the rounds' ratios, the other time divided by vtserve's. Of the time of a request some 20 us are the client's and the connection's. The imports, by
`vtmap import`, need GDAL for /usr/bin/python3, and are left out without it.

It ends with 1 if a ratio isn't as wanted. Run it while the machine has no other work.
"""
import json
import os
import re
import shutil
import socket
import statistics
import subprocess
import sys
import tempfile
import time

HERE = os.path.dirname(os.path.abspath(__file__))
TOP = os.path.dirname(os.path.dirname(os.path.dirname(HERE)))
sys.path.insert(0, TOP)

from vtmap.client import edits  # noqa: E402

PROGRAM = os.path.abspath(sys.argv[1] if len(sys.argv) > 1 else os.path.join(TOP, "crates", "vtserve", "out", "vtserve"))
SYSTEM_PYTHON = "/usr/bin/python3"
SERVERS, CLIENT, ALLOWED = 1, 2, os.sched_getaffinity(0)
SECTOR, DISK = 512, 65536
# The first sector of the journal.
JOURNAL = 3
ROUNDS, TURNS = 9, 40
MIN_CHANGES, MIN_RATIO = 20, 0.3
IMPORTS, POINTS = 3, 3000


def on_processor(number):
    """Has this process run on one processor, if it may."""
    if number in ALLOWED:
        os.sched_setaffinity(0, {number})


def formatted(path):
    """A disk file that was formatted and allocated as docs/DEPLOYING.md says, open for writing."""
    subprocess.run([PROGRAM, "format", path, "--sectors", str(DISK)], check=True, stdout=subprocess.DEVNULL)
    file = os.open(path, os.O_RDWR)
    os.posix_fallocate(file, 0, SECTOR * DISK)
    os.fsync(file)
    return file


class Server:
    """A process of `serve` on a new disk."""

    def __init__(self, folder, name):
        self.disk = os.path.join(folder, name)
        os.close(formatted(self.disk))
        with socket.socket() as probe:
            probe.bind(("127.0.0.1", 0))
            self.port = probe.getsockname()[1]
        words = [PROGRAM, "serve", self.disk, "--port", str(self.port), "--connections", "1000000"]
        self.child = subprocess.Popen(words, stdout=subprocess.PIPE, stderr=subprocess.DEVNULL, preexec_fn=lambda: on_processor(SERVERS))
        if not self.child.stdout.readline().startswith(b"serving on "):
            sys.exit(f"{PROGRAM} doesn't serve {self.disk}")
        self.url = f"http://127.0.0.1:{self.port}"

    def __enter__(self):
        return self

    def __exit__(self, *fault):
        self.child.kill()
        self.child.wait()
        self.child.stdout.close()
        os.remove(self.disk)


class Peer:
    """A kept connection."""

    def __init__(self, port):
        self.socket = socket.create_connection(("127.0.0.1", port), timeout=60)
        self.socket.setsockopt(socket.IPPROTO_TCP, socket.TCP_NODELAY, 1)

    def ask(self, request):
        """The seconds from a request to the last byte of its reply, which is to be 200."""
        began = time.perf_counter()
        self.socket.sendall(request)
        reply = b""
        while True:
            piece = self.socket.recv(65536)
            reply += piece
            head, end, content = reply.partition(b"\r\n\r\n")
            if not piece or (end and len(content) >= int(re.search(rb"content-length: (\d+)", head)[1])):
                break
        took = time.perf_counter() - began
        if not reply.startswith(b"HTTP/1.1 200 "):
            sys.exit(f"{request[:40]!r}: {reply!r}")
        return took


def request(method, path, body):
    """The bytes of a request."""
    return b"%s %s HTTP/1.1\r\nhost: localhost\r\ncontent-type: application/json\r\ncontent-length: %d\r\n\r\n%s" % (method, path, len(body), body)


def point(number, turn):
    """The change that puts a point, at another place in each turn."""
    place = [number * 7919 * 64 % 2 ** 32, turn * 104729 * 64 % 2 ** 32]
    tags = {"name": f"town number {number}", "people": number * 17}
    return edits.put(number, {"layer": "towns", "minzoom": 3, "maxzoom": 3, "geometry": {"points": [place]}, "tags": tags})


class Bare:
    """A file that is written and synced as the journal of a disk is, or with one write and one sync."""

    def __init__(self, folder, name, at_once=False):
        self.file, self.at_once = formatted(os.path.join(folder, name)), at_once

    def write(self, slot, count):
        """The seconds of a record of so many sectors from a slot of the journal on: the bodies, a sync, the head, a sync."""
        at, text = SECTOR * (JOURNAL + slot), os.urandom(SECTOR * count)
        began = time.perf_counter()
        if count > 1 and not self.at_once:
            os.pwrite(self.file, text[SECTOR:], at + SECTOR)
            os.fdatasync(self.file)
            text = text[:SECTOR]
        os.pwrite(self.file, text, at)
        os.fdatasync(self.file)
        return time.perf_counter() - began


def told(values):
    """The median in microseconds, with the least and the greatest."""
    return f"{1e6 * statistics.median(values):,.1f} us ({1e6 * min(values):,.1f} to {1e6 * max(values):,.1f})"


def ratio(values, others):
    """The ratios of rounds: their median, and how it is printed."""
    found = [one / other for one, other in zip(values, others)]
    return statistics.median(found), f"{statistics.median(found):.2f} ({min(found):.2f} to {max(found):.2f})"


def measured(folder):
    """For each kind of turn the medians of the rounds, and the sectors of a batch."""
    ordered, at_once = Bare(folder, "ordered.disk"), Bare(folder, "at_once.disk", True)
    slot, rounds = 0, {name: [] for name in ("alone", "bare", "batch", "ordered", "at once")}
    with Server(folder, "served.disk") as server:
        peer = Peer(server.port)
        for at in range(ROUNDS):
            times = {name: [] for name in rounds}
            for turn in range(at * TURNS, (at + 1) * TURNS):
                alone, group = point(1, turn), [point(number, turn) for number in range(101, 101 + edits.MOST_CHANGES)]
                count = edits.sectors(group)
                times["alone"].append(peer.ask(request(b"PUT", b"/features/1", alone.body)))
                times["bare"].append(ordered.write(slot, 1))
                times["batch"].append(peer.ask(request(b"POST", b"/edits", edits.FRAME % b",".join(map(edits.json_of, group)))))
                times["ordered"].append(ordered.write(slot + 1, count))
                times["at once"].append(at_once.write(slot + 1, count))
                slot += 1 + count
            for name, values in times.items():
                rounds[name].append(statistics.median(values))
    return rounds, count


def edits_a_second(folder):
    """Prints the times of changes alone and in batches. Returns whether the ratios are as wanted."""
    rounds, count = measured(folder)
    rate, times = 1 / statistics.median(rounds["alone"]), edits.MOST_CHANGES
    print(f"a change alone: {told(rounds['alone'])}, {rate:,.0f} a second; a write and a sync of its sector {told(rounds['bare'])}; "
        f"ratio {ratio(rounds['bare'], rounds['alone'])[1]}", flush=True)
    rate = times / statistics.median(rounds["batch"])
    beside, said = ratio(rounds["ordered"], rounds["batch"])
    print(f"a batch of {times} changes: {told(rounds['batch'])}, {rate:,.0f} changes a second; bare writes and syncs of its {count} sectors, "
        f"two of each, {told(rounds['ordered'])}; ratio {said}", flush=True)
    print(f"the same beside one write and one sync of them: {told(rounds['at once'])}; ratio {ratio(rounds['at once'], rounds['batch'])[1]}", flush=True)
    more, more_said = ratio([times * took for took in rounds["alone"]], rounds["batch"])
    print(f"changes a second in batches, relative to those alone: {more_said}")
    rows = [
        (more >= MIN_CHANGES, f"at least {MIN_CHANGES} times the changes a second"),
        (beside >= MIN_RATIO, f"the bare writes and syncs at least {MIN_RATIO} of a batch's time"),
    ]
    for is_met, wanted in rows:
        print(f"wanted: {wanted}: {'met' if is_met else 'MISSED'}", flush=True)
    return all(is_met for is_met, _ in rows)


def town(folder):
    """A file with 3,000 points of three tags in one town."""
    rows = []
    for at in range(POINTS):
        place = [7.5 + at * 7919 % POINTS / 30000, 54.5 + at * 104729 % POINTS / 30000]
        tags = {"name": f"house number {at}", "floors": at % 7, "street": f"street {at % 90}"}
        rows.append({"type": "Feature", "properties": tags, "geometry": {"type": "Point", "coordinates": place}})
    path = os.path.join(folder, "town.geojson")
    with open(path, "w", encoding="utf-8") as file:
        json.dump({"type": "FeatureCollection", "features": rows}, file)
    return path


def imports(folder):
    """Prints how long an import takes, of the whole script, in batches and one by one."""
    if subprocess.run([SYSTEM_PYTHON, "-c", "import osgeo.ogr"], capture_output=True).returncode != 0:
        print("no GDAL for /usr/bin/python3: no import is measured")
        return
    path, times = town(folder), {"in batches": [], "one by one": []}
    for _ in range(IMPORTS):
        for name, words in (("in batches", []), ("one by one", ["--no-batches"])):
            with Server(folder, "imported.disk") as server:
                tool = [sys.executable, os.path.join(TOP, "bin", "vtmap"), "import", path, "--layer", "houses", "--first", "1", "--url", server.url, *words]
                began = time.perf_counter()
                child = subprocess.run(tool, capture_output=True, text=True)
                times[name].append(time.perf_counter() - began)
                if child.returncode != 0 or "one by one" in child.stdout:
                    sys.exit(f"import {name}:\n{child.stdout}{child.stderr}")
    for name, values in times.items():
        print(f"an import of {POINTS:,} points {name}: {statistics.median(values):.2f} s ({min(values):.2f} to {max(values):.2f})")
    print(f"the second divided by the first: {ratio(times['one by one'], times['in batches'])[1]}", flush=True)


def file_system(folder):
    """The type of a folder's file system."""
    return subprocess.run(["stat", "--file-system", "--format", "%T", folder], check=True, capture_output=True, text=True).stdout.strip()


def main():
    if not os.access(PROGRAM, os.X_OK):
        sys.exit(f"no program at {PROGRAM}: nothing is measured. Build it by `rt run` in crates/vtserve, or give its path: bench/speed/batches/run.py PROGRAM")
    folder = tempfile.mkdtemp(prefix="batches-", dir=sys.argv[2] if len(sys.argv) > 2 else HERE)
    try:
        kind = file_system(folder)
        print(f"{PROGRAM}; disk files on {kind}, load of the machine {os.getloadavg()[0]:.1f}", flush=True)
        if kind == "tmpfs":
            sys.exit("tmpfs syncs nothing: give a FOLDER on another file system")
        on_processor(CLIENT)
        is_met = edits_a_second(folder)
        imports(folder)
    finally:
        shutil.rmtree(folder)
    return 0 if is_met else 1


if __name__ == "__main__":
    sys.exit(main())
