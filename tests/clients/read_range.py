#!/usr/bin/env python3
"""Prints a tile of an archive at a URL as hexadecimal text: by requests of byte ranges, as a browser's reader of
PMTiles makes them.

    python3 read_range.py http://HOST/map.pmtiles 7/1/0

Written from the standard of PMTiles 3, for archives without compression.
"""
import sys
import urllib.request


def part(url, at, length):
    """Bytes of the archive."""
    asked = urllib.request.Request(url, headers={"Range": f"bytes={at}-{at + length - 1}"})
    with urllib.request.urlopen(asked, timeout=60) as reply:
        if reply.status != 206:
            raise SystemExit(f"{url}: {reply.status} for a range")
        return reply.read()


def tile_id(zoom, column, row):
    """The id of a tile: along Hilbert's curve, after all tiles of smaller zooms."""
    found, side = (4 ** zoom - 1) // 3, 2 ** (zoom - 1) if zoom else 0
    while side:
        right, down = int(bool(column & side)), int(bool(row & side))
        found += side * side * ((3 * right) ^ down)
        if down == 0:
            if right:
                column, row = side - 1 - column, side - 1 - row
            column, row = row, column
        side //= 2
    return found


def entries(data):
    """The entries of a directory: id, run, length, offset."""
    numbers, at = [], 0
    while at < len(data):
        value = shift = 0
        while True:
            byte = data[at]
            value |= (byte & 127) << shift
            at, shift = at + 1, shift + 7
            if byte < 128:
                break
        numbers.append(value)
    count, rows = numbers[0], [numbers[1 + k * numbers[0]:1 + (k + 1) * numbers[0]] for k in range(4)]
    found, number, after = [], 0, 0
    for delta, run, length, offset in zip(*rows):
        number += delta
        after = offset - 1 if offset else after
        found.append((number, run, length, after))
        after += length
    return found if len(found) == count else []


def tile(url, wanted):
    """The bytes of a tile."""
    head = part(url, 0, 127)
    root, length, _, _, leaves, _, tiles = (int.from_bytes(head[at:at + 8], "little") for at in range(8, 64, 8))
    for _ in range(4):
        before = [entry for entry in entries(part(url, root, length)) if entry[0] <= wanted]
        if not before:
            return b""
        number, run, length, offset = before[-1]
        if run:
            return part(url, tiles + offset, length) if wanted < number + run else b""
        root = leaves + offset
    return b""


if __name__ == "__main__":
    print(tile(sys.argv[1], tile_id(*map(int, sys.argv[2].split("/")))).hex())
