#!/usr/bin/env python3
"""User instructions of one request over a kept connection of `serve`, for a hot tile, a range of the archive and an edit, by callgrind: the
difference of two runs.

    python3 bench/speed/counts_on_a_port.py PROGRAM FOLDER [PORT]

PROGRAM is crates/vtserve/out/vtserve or what tools/unproved.py makes. It needs valgrind. The profiles stay in FOLDER, for
`callgrind_annotate --inclusive=yes`. `counts` measures `pipe`, which has no turns, no wait and no output of its own.
"""
import itertools
import json
import os
import re
import shutil
import socket
import subprocess
import sys
import time

from browser_head import browser_fields

PROGRAM, FOLDER = (os.path.abspath(word) for word in sys.argv[1:3])
PORT = int(sys.argv[3]) if len(sys.argv) > 3 else 18671


def point(number):
    tags = {"class": "garden", "count": number % 100, "name": f"feature {10000 + number % 90000}"}
    place = [2**21 + number * 2**12, 2**21 + number * 7919 % 2**23]
    return {"layer": "poi", "minzoom": 0, "maxzoom": 16, "geometry": {"points": [place]}, "tags": tags}


def made_disk(count, ending=""):
    path = os.path.join(FOLDER, f"disk{count}")
    subprocess.run([PROGRAM, "format", path, "--sectors", "65536"], check=True)
    bodies = [json.dumps(point(number), separators=(",", ":")) for number in range(count)]
    stream = "".join(f"PUT /features/{n} HTTP/1.1\r\nhost: x\r\ncontent-length: {len(b)}\r\n\r\n{b}" for n, b in enumerate(bodies))
    said = subprocess.run([PROGRAM, "pipe", path], input=(stream + ending).encode(), stdout=subprocess.PIPE, check=True)
    return path, said.stdout


def ranges(size, total):
    """Requests for one range after the other."""
    at = 0
    while True:
        yield f"GET /map.pmtiles HTTP/1.1\r\n{SHORT}range: bytes={at}-{at + size - 1}\r\n\r\n".encode()
        at = (at + size) % (total - size)


def counted(disk, asks, times, name):
    global PORT
    PORT += 1
    out, used = os.path.join(FOLDER, name), os.path.join(FOLDER, "used")
    # Each run begins with the same disk, whatever the one before has edited.
    shutil.copyfile(disk, used)
    command = ["valgrind", "--tool=callgrind", f"--callgrind-out-file={out}", PROGRAM, "serve", "--port", str(PORT), "--connections", "1", used]
    server = subprocess.Popen(command, stdout=subprocess.PIPE, stderr=subprocess.PIPE)
    for _ in range(2400):
        try:
            peer = socket.create_connection(("127.0.0.1", PORT))
            break
        except OSError:
            time.sleep(0.05)
    replies = peer.makefile("rb")
    for ask in itertools.islice(asks, times):
        peer.sendall(ask)
        size = 0
        while (line := replies.readline()) != b"\r\n":
            if line.startswith(b"content-length"):
                size = int(line.split(b":")[1])
        replies.read(size)
    peer.shutdown(socket.SHUT_WR)
    replies.read()
    said = server.communicate(timeout=100)[1]
    return int(re.search(rb"Collected : (\d+)", said)[1])


SHORT, BODY = "host: x\r\n", json.dumps(point(7), separators=(",", ":"))
PUT = f"PUT /features/7 HTTP/1.1\r\n{SHORT}content-length: {len(BODY)}\r\n\r\n{BODY}".encode()
small, large, larger = made_disk(14)[0], made_disk(420)[0], made_disk(4400)[0]
archive, said = made_disk(2000, f"POST /publish HTTP/1.1\r\n{SHORT}\r\nHEAD /map.pmtiles HTTP/1.1\r\n{SHORT}\r\n")
total = int(re.findall(rb"content-length: (\d+)", said)[-1])
ROWS = [
    ("0.8 KB, short head", small, SHORT),
    ("0.8 KB, a browser's head", small, browser_fields(8080)),
    ("24 KB", large, SHORT),
    ("250 KB", larger, SHORT),
]


def difference(disk, asks, few, name):
    """The instructions of one request: this many and a thousand more are asked for."""
    return (counted(disk, asks(), few + 1000, "many_" + name) - counted(disk, asks(), few, "few_" + name)) / 1000


for name, disk, fields in ROWS:
    ask = f"GET /map/8/0/0.mvt HTTP/1.1\r\n{fields}\r\n".encode()
    count = difference(disk, lambda: itertools.repeat(ask), 300, f"{os.path.basename(disk)}_{len(ask)}")
    print(f"a hot tile of {name} ({len(ask)} bytes): {count:.0f} instructions for each request", flush=True)
for size in (4096, 65536):
    count = difference(archive, lambda: ranges(size, total), 300, f"range_{size}")
    print(f"a range of {size} bytes of an archive of {total}: {count:.0f} instructions for each request", flush=True)
count = difference(small, lambda: itertools.repeat(PUT), 300, "edit")
print(f"an edit of one sector ({len(PUT)} bytes): {count:.0f} instructions for each request", flush=True)
