#!/usr/bin/env python3
"""A second, independent model of the cut and of the tile writer, from the public rules alone.

It shares no code with the product. Its answers are the expected values of tests:
    python3 model/tiles.py          prints each example with the tile that it stands for
"""
import json

from ids import id_of, tile_of
from limits import MAX_ZOOM
from wire import number, part, varint, zigzag

LIMIT = 4294967296


def quantised(z, points, ring=False):
    out = []
    for x, y in points:
        p = (x >> (20 - z), y >> (20 - z))
        if not out or out[-1] != p:
            out.append(p)
    if ring and len(out) > 1 and out[-1] == out[0]:
        out.pop()
    return out


def placed(points, c, r):
    return [(x - 4096 * c, y - 4096 * r) for x, y in points]


def meets(points):
    xs = [p[0] for p in points]
    ys = [p[1] for p in points]
    return min(xs) <= 4160 and max(xs) >= -64 and min(ys) <= 4160 and max(ys) >= -64


def twice_area(ring):
    return sum(a[0] * b[1] - b[0] * a[1] for a, b in zip(ring, ring[1:] + ring[:1]))


def turn(ring, positive):
    a = twice_area(ring)
    if (a > 0) == positive:
        return ring
    return ring[:1] + ring[:0:-1]


def cut(feature, z, c, r):
    """The kind and the lists of points that tile z/c/r shows of a feature, or None."""
    if not feature["minzoom"] <= z <= feature["maxzoom"]:
        return None
    (kind, lists), = feature["geometry"].items()
    if kind == "points":
        shown = [p for p in placed(quantised(z, lists), c, r) if meets([p])]
        return ("points", shown) if shown else None
    if kind == "lines":
        chains = []
        for line in lists:
            points = placed(quantised(z, line), c, r)
            chain = []
            for a, b in zip(points, points[1:]):
                if meets([a, b]):
                    chain = chain + [b] if chain else [a, b]
                elif chain:
                    chains.append(chain)
                    chain = []
            if chain:
                chains.append(chain)
        return ("lines", chains) if chains else None
    rings = []
    for polygon in lists:
        all_rings = [placed(quantised(z, ring, True), c, r) for ring in polygon]
        good = [len(ring) >= 3 and twice_area(ring) != 0 for ring in all_rings]
        if not good[0] or not meets(all_rings[0]):
            continue
        rings.append(turn(all_rings[0], True))
        rings += [turn(ring, False) for ring, ok in list(zip(all_rings, good))[1:] if ok]
    return ("rings", rings) if rings else None


def integers(shape):
    kind, lists = shape
    out = []
    cursor = (0, 0)

    def go(point):
        nonlocal cursor
        out.extend([zigzag(point[0] - cursor[0]), zigzag(point[1] - cursor[1])])
        cursor = point

    if kind == "points":
        out.append(1 + 8 * len(lists))
        for p in lists:
            go(p)
        return out
    for points in lists:
        out.append(1 + 8)
        go(points[0])
        out.append(2 + 8 * (len(points) - 1))
        for p in points[1:]:
            go(p)
        if kind == "rings":
            out.append(7 + 8)
    return out


def value(v):
    if isinstance(v, bool):
        return number(7, int(v))
    if isinstance(v, str):
        return part(1, v.encode())
    return number(5, v) if v >= 0 else number(6, zigzag(v))


def tile(features, z, c, r):
    """The bytes of a tile of a map from numbers to features; no bytes where it shows nothing."""
    out = b""
    for name in sorted({f["layer"].encode() for f in features.values()}):
        keys, values, shown = [], [], b""
        for id in sorted(features):
            feature = features[id]
            shape = cut(feature, z, c, r) if feature["layer"].encode() == name else None
            if not shape:
                continue
            indices = b""
            for key, v in sorted(feature["tags"].items(), key=lambda t: t[0].encode()):
                if key not in keys:
                    keys.append(key)
                if value(v) not in values:
                    values.append(value(v))
                indices += varint(keys.index(key)) + varint(values.index(value(v)))
            kind = {"points": 1, "lines": 2, "rings": 3}[shape[0]]
            body = number(1, id) + (part(2, indices) if indices else b"") + number(3, kind)
            body += part(4, b"".join(varint(n) for n in integers(shape)))
            shown += part(2, body)
        if shown:
            layer = part(1, name) + shown
            layer += b"".join(part(3, key.encode()) for key in keys)
            layer += b"".join(part(4, v) for v in values)
            out += part(3, layer + number(5, 4096) + number(15, 2))
    return out


def layers(features, z, c, r):
    """The layers of a tile in the order of their names' bytes, each with the ascending numbers of its features."""
    shown = {}
    if z > MAX_ZOOM:
        return shown
    for id in sorted(features):
        if cut(features[id], z, c, r):
            shown.setdefault(features[id]["layer"], []).append(id)
    return dict(sorted(shown.items(), key=lambda layer: layer[0].encode()))


def points_of(lists):
    """All points of lists of any depth."""
    if lists and isinstance(lists[0], int):
        return [lists]
    return [point for inner in lists for point in points_of(inner)]


def corners(feature):
    """The least and the greatest column and row of a feature's points."""
    (lists,) = feature["geometry"].values()
    xs, ys = zip(*points_of(lists))
    return (min(xs), max(xs)), (min(ys), max(ys))


def met(z, least, greatest):
    """The first and the last column, or row, of a zoom whose box reaches something from one coordinate of the world to another."""
    first = -(-((least >> (20 - z)) - 4160) // 4096)
    last = ((greatest >> (20 - z)) + 64) // 4096
    return max(first, 0), min(last, 2**z - 1)


def covered(feature, z):
    """The columns and the rows of a zoom whose boxes the bounding box of a feature meets: first and last of each."""
    across, down = corners(feature)
    return met(z, *across), met(z, *down)


def reach(feature):
    """How many tiles a feature covers at all its zooms together."""
    count = 0
    for z in range(feature["minzoom"], feature["maxzoom"] + 1):
        (x0, x1), (y0, y1) = covered(feature, z)
        count += (x1 - x0 + 1) * (y1 - y0 + 1)
    return count


def pairs(id, feature):
    """The ids of the tiles that a feature covers, zoom by zoom and row by row, each beside the feature's number."""
    for z in range(feature["minzoom"], feature["maxzoom"] + 1):
        (x0, x1), (y0, y1) = covered(feature, z)
        yield from ((id_of(z, x, y), id) for y in range(y0, y1 + 1) for x in range(x0, x1 + 1))


def all_pairs(features):
    return sorted(pair for id, feature in features.items() for pair in pairs(id, feature))


def all_tiles(features):
    """Each tile that shows something, after its id, in the order of ids."""
    for tile_id in sorted({pair[0] for pair in all_pairs(features)}):
        content = tile(features, *tile_of(tile_id))
        if content:
            yield tile_id, content


def feature(geometry, minzoom=0, maxzoom=2, layer="p", tags=None):
    return {"layer": layer, "minzoom": minzoom, "maxzoom": maxzoom, "geometry": geometry, "tags": tags or {}}


def examples():
    one = feature({"points": [[0, 0]]})
    yield "one point", {7: one}, (0, 0, 0)
    edge = feature({"points": [[2181038080, 0], [2181562368, 0]]})
    yield "points at the edge, left tile", {7: edge}, (1, 0, 0)
    yield "points at the edge, right tile", {7: edge}, (1, 1, 0)
    road = [[52428800, 52428800], [2621440000, 52428800], [2621440000, 104857600], [52428800, 104857600]]
    line = feature({"lines": [road]})
    yield "line in two chains", {7: line}, (1, 0, 0)
    yield "line in one chain", {7: line}, (1, 1, 0)
    tagged = feature({"points": [[0, 0]]}, tags={"a": "x", "b": -2, "c": 3, "d": True})
    yield "four tags", {7: tagged}, (0, 0, 0)
    short = feature({"lines": [[[0, 0], [16384, 0]]]}, maxzoom=8, layer="l")
    yield "short line", {7: short}, (6, 0, 0)
    k = 1 << 20
    ring = feature({"polygons": [[[[3 * k, 6 * k], [20 * k, 34 * k], [8 * k, 12 * k]]]]})
    yield "turned polygon", {7: ring}, (0, 0, 0)
    last = LIMIT - 1
    yield "last point", {7: feature({"points": [[last, last]]})}, (2, 3, 3)
    other = feature({"points": [[0, 0]]}, layer="a")
    yield "two layers, three features", {9: one, 2: one, 5: other}, (0, 0, 0)
    for z in (1, 5, 16, MAX_ZOOM):
        side = 1 << (20 - z)
        for u in (-65, -64, 4160, 4161):
            column = 1 if u < 0 or z > 1 else 0
            row = 0 if z == 1 else 1
            point = [(4096 * column + u) * side, (4096 * row + 2048) * side]
            yield f"point at u {u}, zoom {z}", {1: feature({"points": [point]}, maxzoom=MAX_ZOOM)}, (z, column, row)
            yield f"point at v {u}, zoom {z}", {1: feature({"points": [point[::-1]]}, maxzoom=MAX_ZOOM)}, (z, row, column)


if __name__ == "__main__":
    for name, features, (z, c, r) in examples():
        print(f"{name}: {z}/{c}/{r} {tile(features, z, c, r).hex() or '(nothing)'}")
        for id, f in features.items():
            print(f"    {id}: {json.dumps(f, separators=(',', ':'))}")
