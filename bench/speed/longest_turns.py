#!/usr/bin/env python3
"""The longest turns of a server, in processor time, while a map is published, while its tile of zoom 0 is made, read from the archive or sent as hex
text, and while its metadata are asked for after an edit.

    python3 bench/speed/longest_turns.py PROGRAM DISK [ROUNDS]    DISK has a map, as editors.py or beginnings.py put one

A turn is what the server does between two waits for its connections (turns.c, by `gcc`). Each thing is done beside a reader that asks for a feature
again and again, ROUNDS times (3), by a copy of the disk: first with the two settings of glibc that the unit has, then with glibc's defaults. Of each
the four longest turns and the fifteenth are printed, and the longest that the reader waited.
"""
import http.client
import os
import shutil
import struct
import subprocess
import sys
import tempfile
import time

from beginnings import Reader, ended, posted
from editors import PLACES, Turns, loads, started

SETTINGS = {"MALLOC_MMAP_THRESHOLD_": "33554432", "MALLOC_TRIM_THRESHOLD_": "1048576"}
WORLD = "/map/0/0/0.mvt"


def longest(turns):
    """The four longest turns and the fifteenth, in ms."""
    with open(turns.file, "rb") as file:
        found = sorted(struct.unpack(f"{2 * PLACES}Q", file.read())[:PLACES], reverse=True)
    return ", ".join(f"{took / 1e6:.1f}" for took in [*found[:4], found[14]])


def measured(name, turns, port, act):
    """Prints what an act takes beside a reader."""
    turns.forget()
    with Reader(port) as reader:
        outcome = act()
    print(f"  {name}: {outcome}; turns of {longest(turns)} ms; the reader waits {reader.longest * 1000:.1f} ms at most", flush=True)


def tile(connection):
    connection.request("GET", WORLD)
    return f"{len(connection.getresponse().read())} bytes"


def hex_text(connection):
    """The tile, which is cached, as hex text."""
    connection.request("GET", "/map/0/0/0.hex")
    return f"{len(connection.getresponse().read())} bytes"


def metadata(connection):
    """The metadata after an edit, which drops what the server has of them."""
    connection.request("GET", "/features/1")
    feature = connection.getresponse().read()
    connection.request("PUT", "/features/1", feature)
    connection.getresponse().read()
    since = time.monotonic()
    connection.request("GET", "/map/metadata")
    return f"{len(connection.getresponse().read())} bytes in {(time.monotonic() - since) * 1000:.0f} ms"


def begun(connection):
    return f"{posted(connection, '/publish/begin')[1]:.2f} s"


def published(connection):
    return f"{posted(connection, '/publish')[1]:.2f} s"


def steps(connection):
    while posted(connection, "/publish/step")[0]["left"]:
        pass
    return "written"


def measure(program, disk, turns, rounds):
    """Everything, by the disk of a server, which is left with an archive."""
    server, port = started(program, disk, turns)
    connection = http.client.HTTPConnection("127.0.0.1", port)
    measured("the tile is made", turns, port, lambda: tile(connection))
    for _ in range(rounds):
        measured("it is sent as hex text", turns, port, lambda: hex_text(connection))
    for _ in range(rounds):
        measured("the metadata are made", turns, port, lambda: metadata(connection))
    for _ in range(rounds):
        measured("a beginning", turns, port, lambda: begun(connection))
        measured("its steps", turns, port, lambda: steps(connection))
    for _ in range(rounds):
        measured("a whole publication", turns, port, lambda: published(connection))
    ended(server)
    for _ in range(rounds):
        server, port = started(program, disk, turns)
        connection = http.client.HTTPConnection("127.0.0.1", port)
        connection.request("GET", "/features/1")
        connection.getresponse().read()
        measured("the tile is read", turns, port, lambda: tile(connection))
        ended(server)


def main(program, disk, rounds=3):
    folder = tempfile.mkdtemp()
    try:
        turns = Turns(folder)
        for name, settings in (("the unit's settings", SETTINGS), ("defaults", {})):
            for key in SETTINGS:
                os.environ.pop(key, None)
            os.environ.update(settings)
            copy = os.path.join(folder, "disk")
            subprocess.run(["cp", "--sparse=always", disk, copy], check=True)
            print(f"{os.path.basename(disk)}, {name} ({loads()})", flush=True)
            measure(os.path.abspath(program), copy, turns, int(rounds))
            os.remove(copy)
    finally:
        shutil.rmtree(folder)


if __name__ == "__main__":
    main(*sys.argv[1:])
