#!/usr/bin/env python3
"""From which size on a feature may have coordinates that MapLibre and Mapbox GL clamp: the table of docs/HTTP.md, computed and measured.

    python3 tests/large_features.py [PROGRAM]    PROGRAM is crates/vtserve/out/vtserve

These renderers clamp coordinates of a tile of extent 4096 to -8192..8191. A feature is in each tile whose box, from -64 to 4160, it
meets. So one that just meets a tile at 4160 has coordinates up to 4160 and its width, which is safe to a width of 4031; on the left
-64 less its width, which is safe to 8128. The table has for each zoom the width of 4031 units of that zoom's tiles.

Measured: for each zoom a square of that width that just meets a tile from the right, and one that is a unit wider, are put into a map
of `vtserve demo`, and the greatest coordinate of each in that tile is printed; for zooms 0 and 1, where the world ends before, those
of a square of the whole world. The last line says whether each is as computed. At last a line of two segments of which one is long.
"""
import json
import math
import os
import subprocess
import sys

HERE = os.path.dirname(os.path.abspath(__file__))
PROGRAM = os.path.abspath(sys.argv[1] if len(sys.argv) > 1 else os.path.join(HERE, "..", "crates", "vtserve", "out", "vtserve"))
EARTH = 40075016.685578488
MAX_ZOOM = 19
SAFE, REACH, LEAST, GREATEST = 4031, 4160, -8192, 8191


def request(method, path, body=""):
    return f"{method} {path} HTTP/1.1\r\nhost: x\r\ncontent-length: {len(body)}\r\n\r\n{body}".encode()


def put(number, zoom, geometry):
    return request("PUT", f"/features/{number}", json.dumps({"layer": "p", "minzoom": zoom, "maxzoom": zoom, "geometry": geometry, "tags": {}}))


def replies(sent):
    """The status and the content of each reply of one connection to `demo`."""
    read = subprocess.run([PROGRAM, "demo", "65536"], input=sent, capture_output=True, check=True).stdout
    found = []
    while read:
        head, _, read = read.partition(b"\r\n\r\n")
        first, *fields = head.decode().split("\r\n")
        length = next((int(field.split(": ")[1]) for field in fields if field.startswith("content-length")), 0)
        found.append((int(first.split()[1]), read[:length]))
        read = read[length:]
    return found


def varint(data, at):
    value = shift = 0
    while True:
        byte = data[at]
        value |= (byte & 127) << shift
        at, shift = at + 1, shift + 7
        if byte < 128:
            return value, at


def fields(data):
    at = 0
    while at < len(data):
        key, at = varint(data, at)
        value, at = varint(data, at)
        if key & 7 == 2:
            value, at = data[at:at + value], at + value
        yield key >> 3, value


def coordinates(tile):
    """All coordinates of the features of a tile."""
    found = []
    for _, layer in fields(tile):
        for part, feature in fields(layer):
            commands = next((value for name, value in fields(feature) if name == 4), b"") if part == 2 else b""
            at, place = 0, [0, 0]
            while at < len(commands):
                command, at = varint(commands, at)
                for number in range(2 * (command >> 3) if command & 7 != 7 else 0):
                    step, at = varint(commands, at)
                    place[number % 2] += (step >> 1) ^ -(step & 1)
                    found.append(place[number % 2])
    return found


def square(zoom, left, top, width, height):
    """A rectangle in units of the tiles of a zoom."""
    unit = 1 << (20 - zoom)
    corners = [(left, top), (left + width, top), (left + width, top + height), (left, top + height)]
    return {"polygons": [[[[min(part * unit, 2 ** 32 - 1) for part in corner] for corner in corners]]]}


def main():
    sent, cases = b"", []
    for zoom in range(MAX_ZOOM + 1):
        for width in (SAFE, SAFE + 1):
            shape = square(zoom, 0, 0, 4096 << zoom, 4096 << zoom) if zoom < 2 else square(zoom, REACH, 100, width, 100)
            sent += put(1, zoom, shape) + request("GET", f"/map/{zoom}/0/0.mvt")
            cases.append((zoom, width))
    found, measured, right = replies(sent), {}, True
    for (zoom, width), (status, _), (_, tile) in zip(cases, found[::2], found[1::2]):
        numbers = coordinates(tile)
        measured[zoom, width] = max(numbers)
        right &= status == 200 and max(numbers) == ((4096 << zoom) - 1 if zoom < 2 else REACH + width)
    print("| Zoom | Units of the world | Metres at the equator | at 50° | Greatest coordinate at this width | one unit of the tile wider |")
    print("|---|---|---|---|---|---|")
    for zoom in range(MAX_ZOOM + 1):
        units = SAFE << (20 - zoom)
        metres = units * EARTH / 2 ** 32
        widths = [f"{number:,}" for number in (units, round(metres), round(metres * math.cos(math.radians(50))))] if zoom > 1 else ["any"] * 3
        print(f"| {zoom} | {' | '.join(widths)} | {measured[zoom, SAFE]} | {measured[zoom, SAFE + 1] if zoom > 1 else '-'} |")
    right &= all((measured[zoom, width] > GREATEST) == (zoom > 1 and width > SAFE) for zoom, width in cases)
    unit = 1 << 10
    long = {"lines": [[[0, 0], [100 * unit, 100 * unit], [60000 * unit, 100 * unit], [60000 * unit, 0]]]}
    numbers = coordinates(replies(put(1, 10, long) + request("GET", "/map/10/0/0.mvt"))[1][1])
    print(f"a line with a segment of 59,900 units from a tile's inside: coordinates to {max(numbers)}")
    print("as computed" if right and max(numbers) == 60000 else "NOT as computed")
    return 0 if right and max(numbers) == 60000 else 1


if __name__ == "__main__":
    sys.exit(main())
