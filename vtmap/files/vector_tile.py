"""Tiles as they are decoded: the Mapbox Vector Tile specification 2.1. Needs no package."""
from __future__ import annotations

import struct
from typing import Any, NamedTuple

from .protobuf import fields, varint

# The units of a side of a tile.
EXTENT = 4096
POINTS, LINES, AREAS = 1, 2, 3
# What a tile that isn't one ends its decoding with.
BROKEN = (LookupError, ValueError, TypeError, struct.error)


class TileFeature(NamedTuple):
    """A feature of a tile: its id, its kind (`POINTS`, `LINES`, `AREAS`), its lists of points and its tags."""

    number: int | None
    kind: int
    lists: list[list[tuple[int, int]]]
    tags: dict[str, Any]


def packed(data: bytes) -> list[int]:
    """The numbers of a packed field."""
    numbers, at = [], 0
    while at < len(data):
        number, at = varint(data, at)
        numbers.append(number)
    return numbers


def signed(number: int) -> int:
    """A number from its zigzag form."""
    return (number >> 1) ^ -(number & 1)


def value_of(data: bytes) -> Any:
    """The value of a tag."""
    for number, value in fields(data):
        if number == 1:
            return value.decode()
        if number == 2:
            return struct.unpack("<f", value)[0]
        if number == 3:
            return struct.unpack("<d", value)[0]
        if number == 6:
            return signed(value)
        if number == 7:
            return value != 0
        return value
    return None


def paths(commands: list[int]) -> list[list[tuple[int, int]]]:
    """The lists of points of a geometry: MoveTo begins one (or gives single points), LineTo goes on, ClosePath ends a ring."""
    lists: list[list[tuple[int, int]]] = []
    at = x = y = 0
    while at < len(commands):
        command, count = commands[at] & 7, commands[at] >> 3
        at += 1
        if command == 7:
            continue
        for _ in range(count):
            x, y = x + signed(commands[at]), y + signed(commands[at + 1])
            at += 2
            if command == 1:
                lists.append([])
            lists[-1].append((x, y))
    return lists


def decoded(data: bytes) -> dict[str, list[TileFeature]]:
    """The features of the layers of a tile, by their names. Raises one of `BROKEN` for what is no tile."""
    layers = {}
    for number, layer in fields(data):
        if number != 3:
            continue
        name, rows, keys, values = "", [], [], []
        for part, value in fields(layer):
            if part == 1:
                name = value.decode()
            elif part == 2:
                rows.append(value)
            elif part == 3:
                keys.append(value.decode())
            elif part == 4:
                values.append(value_of(value))
        layers[name] = [feature_of(row, keys, values) for row in rows]
    return layers


def feature_of(data: bytes, keys: list[str], values: list[Any]) -> TileFeature:
    """A feature of a layer."""
    number, kind, lists, tags = None, 0, [], {}
    for part, value in fields(data):
        if part == 1:
            number = value
        elif part == 2:
            numbers = packed(value)
            tags = {keys[key]: values[at] for key, at in zip(numbers[::2], numbers[1::2])}
        elif part == 3:
            kind = value
        elif part == 4:
            lists = paths(packed(value))
    return TileFeature(number, kind, lists, tags)
