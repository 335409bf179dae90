"""Blocks of `map_script.py` about maps: features by number and in tiles, snapshots, metadata, and what an area has of a map."""
import sys

import archives
import features
from chance import Chance
from disk import Change, edit_text, text_of
from ids import tile_of
from map_json import object_with
from map_lines import LAST, drawn, put
from map_stand import POINT
from map_texts import LINE, POLYGONS


# ---- a map


def corner(layer, minzoom=0):
    return POINT | {"layer": layer, "minzoom": minzoom}


def map_lines():
    yield "# A map keeps features by number: the last one that a number got."
    yield from ["map 0", put(7, corner("b")), put(3, corner("a")), put(9, corner("a"))]
    yield put(3, corner("c")), "edit 4: 3 features"
    yield from ["look 3", "look 7", ("look 8", "none"), "look 9"]
    yield from [("delete 7", "edit 5: 2 features, was there true"), ("delete 7", "edit 6: 2 features, was there false"), ("look 7", "none")]
    yield from ["look 3", "look 9", "snapshot"]
    yield "# Copies of lines with tags of all kinds, and of polygons."
    yield from [put(258, LINE), ("look 258", features.compact(LINE)), put(1, POLYGONS), ("look 1", features.compact(POLYGONS)), "delete 1", "delete 258"]
    yield "# What JSON can't say of a number, and a feature whose text is too long: nothing changes."
    yield put(2**63, POINT), "E2 Number"
    yield f'put 7 {object_with(geometry="{" + chr(34) + "points" + chr(34) + ":[[0,0]<4093:,[0,0]>]}")}', "E8 Long"
    yield f"put 7 {object_with(layer=chr(34) * 2)}", "E3 Layer"
    yield "snapshot"
    yield "# Layers stand in the order of their names' bytes, features in that of their numbers."
    yield from ["map 0", *(put(number, corner(layer)) for number, layer in [(9, "b"), (7, "b"), (5, "a"), (8, "B")]), put(6, corner("c", 1))]
    yield "layers 0 0 0", '[("B", 2, 4096, [8]), ("a", 2, 4096, [5]), ("b", 2, 4096, [7, 9])]'
    yield from ["tile 0 0 0", "anew 0 0 0", ("layers 1 1 1", "[]"), ("anew 1 1 1", ""), "layers 1 0 0"]
    yield "# All tiles of a point: the worked tile, three times."
    tile = "1a130a017012090807180122030900002880207802"
    yield from ["map 0", put(7, POINT)]
    yield "tiles", f'[(0, "{tile}"), (1, "{tile}"), (5, "{tile}")]'
    yield from ["map 0", ("tiles", "[]"), "tile 0 0 0"]
    yield "# A line from corner to corner is in each tile of the zooms that show it."
    yield from ["map 0", put(7, drawn("lines", [[[0, 0], [LAST, LAST]]], 1, 3)), "tiles"]
    yield "# A feature moves from tile to tile."
    yield from ["map 0", put(7, POINT), put(8, POINT), ("layers 2 0 0", '[("p", 2, 4096, [7, 8])]'), ("layers 2 3 3", "[]")]
    yield from [put(7, drawn("points", [[LAST, LAST]], 0, 2)), ("layers 2 0 0", '[("p", 2, 4096, [8])]'),
                ("layers 2 3 3", '[("l", 2, 4096, [7])]')]
    yield from ["delete 7", ("layers 2 0 0", '[("p", 2, 4096, [8])]'), ("layers 2 3 3", "[]")]


# Where a point of the first row stands, and which of the four columns of zoom 2 show it. There a tile has 2^30 coordinates of the
# world, and its margin 2^24; 2^18 make one of the tile's.
MARGINS = [
    (0, [0]), (2**30 - 2**24 - 1, [0]), (2**30 - 2**24, [0, 1]), (2**30, [0, 1]), (2**30 + 2**24 + 2**18 - 1, [0, 1]),
    (2**30 + 2**24 + 2**18, [1]), (LAST, [3])]


def margin_lines():
    yield "# Points at margins and at the edges of the world, by the columns of zoom 2 that show them."
    for x, columns in MARGINS:
        yield from ["map 0", put(7, drawn("points", [[x, 0]], 0, 2))]
        for column in range(4):
            yield f"layers 2 {column} 0", '[("l", 2, 4096, [7])]' if column in columns else "[]"
            yield f"layers 2 {column} 3", "[]"


def coordinate(chance):
    """Close to the corner of a tile of zoom 2, or any."""
    near = 2**30 * chance.below(4)
    return [near, (near - chance.below(2**25)) % 2**32, 2 * chance.below(2**31)][chance.below(3)]


def any_feature(chance):
    """Two points, or a line of two, that some zooms to 3 show."""
    both = [[coordinate(chance), coordinate(chance)] for _ in range(2)]
    minzoom = chance.below(4)
    maxzoom = max(minzoom, chance.below(4))
    return drawn("points", both, minzoom, maxzoom) if chance.below(2) else drawn("lines", [both], minzoom, maxzoom)


def any_map_lines():
    for seed in (1, 2026, 88172645463325252):
        chance = Chance(seed)
        yield f"# A map that changes: what a tile shows behind each edit. Seed {seed}."
        yield "map 0"
        for _ in range(300):
            number = chance.below(20)
            yield f"delete {number}" if chance.below(4) == 0 else put(number, any_feature(chance))
            yield "layers {} {} {}".format(*tile_of(chance.below(85)))
        yield "# All its tiles, with few features."
        yield "map 0"
        for turn in range(12):
            yield put(chance.below(4), any_feature(chance))
            if turn % 4 == 3:
                yield "tiles"


def batch_lines():
    texts = [edit_text([Change(7, POINT), Change(9, drawn("points", [[LAST, LAST]], 0, 2))]), edit_text([Change(7, None), Change(8, POINT)])]
    yield "# Edits of several changes, by their texts: each is one edit, and its changes are made together."
    yield from ["map 5", "tile 0 0 0", f"make {texts[0].hex()}", "layers 0 0 0", "newest 0 0 0", f"make {texts[1].hex()}", "layers 0 0 0",
                "look 7", "newest 2 3 3", "newest 2 0 0"]
    yield from [(f"make {texts[0][:-1].hex()}", "Cut"), ("make 00", "Bad"), (f"make {edit_text([Change(5, None)] * 2).hex()}", "Bad")]


# ---- snapshots, metadata, areas


THIRD, SEVENTH = corner("a"), corner("b") | {"tags": {"k": True}}
TEXTS = {"third": text_of(Change(3, THIRD)), "seventh": text_of(Change(7, SEVENTH)), "last": text_of(Change(258, THIRD)),
         "delete": text_of(Change(3, None))}


def snapshot_lines():
    yield "# The snapshot of three features, and the map of a snapshot."
    whole = TEXTS["third"] + TEXTS["seventh"] + TEXTS["last"]
    yield from ["map 0", put(258, THIRD), put(3, THIRD), put(7, SEVENTH), ("snapshot", whole.hex()), "map 9",
                (f"restore {whole.hex()}", "3 features"), ("snapshot", whole.hex()), "look 3", "look 7", "look 258", put(1, POINT)]
    yield "# The empty map has no text, and no text is the empty map's."
    yield from ["map 0", ("snapshot", ""), ("restore ", "0 features"), ("snapshot", "")]
    yield "# The snapshot of no map: cut texts, numbers that don't ascend, an edit that takes a feature away, a byte too many."
    third, seventh, last, delete = TEXTS.values()
    for text in [third[:-1], (third + seventh)[:-1], seventh + third, last + seventh, third + third, delete, third + delete, third + b"\1"]:
        yield f"restore {text.hex()}", "the snapshot of no map"
    yield "snapshot"


def layered(*corners):
    """A map of features at the world's corner, numbered from 1 on."""
    yield "map 0"
    for number, (layer, minzoom, maxzoom, tags) in enumerate(corners, 1):
        yield put(number, POINT | {"layer": layer, "minzoom": minzoom, "maxzoom": maxzoom, "tags": tags})


def described(fields, name="p", maxzoom=2, minzoom=0):
    kinds = ",".join(f'"{key}":"{kind}"' for key, kind in fields.items())
    return f'{{"fields":{{{kinds}}},"id":"{name}","maxzoom":{maxzoom},"minzoom":{minzoom}}}'


def metadata_lines():
    yield "# Metadata: the layers in the order of their names, each with its zooms and the kinds of its tags' values. Of a point: 66 bytes."
    for corners, layers in [
            ([("p", 0, 2, {})], [described({})]), ([], []),
            ([("b", 0, 2, {}), ("a", 1, 3, {}), ("b", 0, 2, {})], [described({}, "a", 3, 1), described({}, "b")]),
            ([("p", 3, 5, {}), ("p", 1, 4, {}), ("p", 4, 9, {}), ("p", 2, 7, {})], [described({}, "p", 9, 1)]),
            ([("p", 0, 2, {"k": 7}), ("p", 0, 2, {"k": -2})], [described({"k": "Number"})]),
            ([("p", 0, 2, {"k": 7}), ("p", 0, 2, {"k": "x"})], [described({"k": "String"})]),
            ([("p", 0, 2, {"k": "x"}), ("p", 0, 2, {"k": 7})], [described({"k": "String"})]),
            ([("p", 0, 2, {"k": True}), ("p", 0, 2, {"k": 7}), ("p", 0, 2, {"k": 7})], [described({"k": "String"})]),
            ([("p", 0, 2, {}), ("p", 0, 2, {"k": True}), ("p", 0, 2, {"a": False, "z": False})],
             [described({"a": "Boolean", "k": "Boolean", "z": "Boolean"})]),
            ([("q", 0, 2, {"k": True}), ("p", 5, 6, {"k": "x"})], [described({"k": "String"}, "p", 6, 5), described({"k": "Boolean"}, "q")])]:
        yield from layered(*corners)
        yield "metadata", f'{{"vector_layers":[{",".join(layers)}]}}'


def area_lines():
    yield "# What a publication of a point writes: how long snapshot and archive are, how many sectors they take, and these."
    archive = archives.built([(id, bytes.fromhex("1a130a017012090807180122030900002880207802")) for id in (0, 1, 5)],
                             features.metadata({7: POINT}).encode())
    sectors = text_of(Change(7, POINT)).ljust(512, b"\0") + archive.ljust(512, b"\0")
    yield from ["map 0", put(7, POINT), ("area 100", f"25 223 2 {sectors.hex()}"), ("area 2", f"25 223 2 {sectors.hex()}")]
    yield from [("area 1", "an area has 1 sectors, and 2 are needed"), ("area 0", "an area has 0 sectors, and 2 are needed")]
    yield "# The empty map has no sectors."
    yield from ["map 0", ("area 0", "0 0 0 ")]
    yield "# Snapshots of one whole sector, and of one byte more and less."
    for length in (511, 512, 513):
        tagged = POINT | {"tags": {"k": "x" * (length - len(text_of(Change(7, POINT | {"tags": {"k": ""}}))))}}
        if len(text_of(Change(7, tagged))) != length:
            sys.exit(f"a text of {length} bytes")
        yield from ["map 0", put(7, tagged), "area 5"]
    yield "map 0"
    yield "# The texts of 42 points take two sectors and 26 bytes of a third."
    yield f"restore {b''.join(text_of(Change(number, POINT)) for number in range(1, 43)).hex()}", "42 features"
    yield from ["area 100", "area 3"]
    yield "# An archive of more sectors than the snapshot: an area that is too small by one sector, and one of a single sector."
    yield from ["map 0", put(7, drawn("lines", [[[0, 0], [LAST, LAST]]], 0, 2)), "area 3", "area 2", "area 1"]
    yield "# Tiles of several sectors, for areas of each size: what is needed is that of all tiles, also where the first of them no longer fits."
    yield from ["map 0", *[put(k, drawn("lines", [[[0, k << 28], [LAST, LAST - (k << 24)]]], 0, 2)) for k in range(15)]]
    yield from [f"area {free}" for free in (0, 1, 2, 3, 5, 8, 9, 10, 11, 12, 13, 14, 15)]
    yield "# Contents that are repeated, before the first tile that no longer fits and after it, in runs and in none."
    for seed in range(1, 9):
        yield from repeated(Chance(seed * 88172645463325252))


def repeated(chance):
    """A map of points in the middle of tiles of one zoom, whose contents are those of a few features, and areas of each size for it."""
    zoom, count = chance.one_of([2, 3, 4]), chance.below(4) + 2
    side = 1 << 32 - zoom
    points = [[] for _ in range(count)]
    for column in range(2**zoom):
        for row in range(2**zoom):
            for held in points[: chance.below(3)] if chance.below(4) == 0 else [chance.one_of(points)]:
                held.append([column * side + side // 2, row * side + side // 2])
    yield "map 0"
    for number, held in enumerate(points):
        if held:
            yield put(number, drawn("points", held, zoom, zoom) | {"tags": {"t": "x" * (chance.below(1000) + 1)}})
    yield from [f"area {free}" for free in range(0, 14, 1 + chance.below(2))]
