"""Blocks of `map_script.py` about the cut: the integers of tiles, tags, and how many tiles a feature reaches."""
import sys

import tiles
from limits import MAX_TILES, MAX_ZOOM
from map_lines import K, LAST, drawn, put, said
from map_stand import POINT


# ---- cut and tiles


def integers(feature, place):
    shape = tiles.cut(feature, *place)
    return tiles.integers(shape) if shape else []


def shows(feature, place, wanted):
    """The tile of a map that has a feature alone, whose integers are these by hand."""
    if integers(feature, place) != wanted:
        sys.exit(f"{said(feature)} at {place}: {wanted} by hand, {integers(feature, place)} by the model")
    yield "map 0"
    yield put(7, feature)
    yield "tile {} {} {}".format(*place)


def cases(title, feature, wanted):
    yield f"# {title}"
    for place, numbers in wanted.items():
        yield from shows(feature, place, numbers)


TURNED = [9, 6, 12, 18, 10, 12, 24, 44, 15]
SQUARE = [[0, 0], [100 * K, 0], [100 * K, 100 * K], [0, 100 * K]]
TRIANGLE = [[10 * K, 10 * K], [20 * K, 10 * K], [20 * K, 20 * K]]
FLAT = [[10 * K, 10 * K], [20 * K, 20 * K], [30 * K, 30 * K]]
# (100,100), (5000,100), (5000,200), (100,200) at zoom 1.
ROUND_AN_EDGE = drawn("lines", [[[52428800, 52428800], [2621440000, 52428800], [2621440000, 104857600], [52428800, 104857600]]])
SQUARE_SHOWN = [9, 0, 0, 26, 200, 0, 0, 200, 199, 0, 15]


def at_zoom_0(lists):
    """Places of a tile as those of the world that zoom 0 shows there."""
    return [w * K for w in lists] if isinstance(lists[0], int) else [at_zoom_0(inner) for inner in lists]


# The examples of Mapbox Vector Tile 2.1, 4.3.5, with their integers.
STANDARD = [
    ("Point", "points", [[25, 17]], [9, 50, 34]),
    ("Multi Point", "points", [[5, 7], [3, 2]], [17, 10, 14, 3, 9]),
    ("Linestring", "lines", [[[2, 2], [2, 10], [10, 10]]], [9, 4, 4, 18, 0, 16, 16, 0]),
    ("Multi Linestring", "lines", [[[2, 2], [2, 10], [10, 10]], [[1, 1], [3, 5]]], [9, 4, 4, 18, 0, 16, 16, 0, 9, 17, 17, 10, 4, 8]),
    ("Polygon", "polygons", [[[[3, 6], [8, 12], [20, 34]]]], TURNED),
    ("Multi Polygon", "polygons",
     [[[[0, 0], [10, 0], [10, 10], [0, 10]]],
      [[[11, 11], [20, 11], [20, 20], [11, 20]], [[13, 13], [13, 17], [17, 17], [17, 13]]]],
     [9, 0, 0, 26, 20, 0, 0, 20, 19, 0, 15, 9, 22, 2, 26, 18, 0, 0, 18, 17, 0, 15, 9, 4, 13, 26, 0, 8, 8, 0, 0, 7, 15]),
]


def cut_lines():
    yield "# The examples of shapes of the standard of tiles, at zoom 0."
    for name, kind, lists, wanted in STANDARD:
        yield from cases(f"Example {name}", drawn(kind, at_zoom_0(lists)), {(0, 0, 0): wanted})
    two = drawn("points", [[2181038080, 0], [2181562368, 0]])
    yield from cases("Points at 4160 and 4161 of the left tile, 64 and 65 of the right one.", two,
                     {(1, 0, 0): [9, 8320, 0], (1, 1, 0): [17, 128, 0, 2, 0]})
    yield from cases("At zoom 3, column 2: -65, -64, 4160 and 4161, each by its first coordinate of the world.",
                     drawn("points", [[1065222144, 0], [1065353216, 0], [1619001344, 0], [1619132416, 0]]), {(3, 2, 0): [17, 127, 0, 8448, 0]})
    yield from cases("At zoom 16, row 40000: the same by their last coordinates.",
                     drawn("points", [[0, 2621438975], [0, 2621438991], [0, 2621506575], [0, 2621506591]]),
                     {(16, 0, 40000): [17, 0, 127, 0, 8448]})
    yield from cases("At zoom 19, row 400000: the same by their last coordinates.",
                     drawn("points", [[0, 3276799871], [0, 3276799873], [0, 3276808321], [0, 3276808323]], 0, 19),
                     {(19, 0, 400000): [17, 0, 127, 0, 8448]})
    yield from across_lines()
    yield from cases("A line that leaves a tile is two chains there, of which neither has the segment outside.", ROUND_AN_EDGE,
                     {(1, 0, 0): [9, 200, 200, 10, 9800, 0, 9, 0, 200, 10, 9799, 0], (1, 1, 0): [9, 7991, 200, 26, 9800, 0, 0, 200, 9799, 0],
                      (1, 0, 1): []})
    short = {(z, 0, 0): [9, 0, 0, 10, 2, 0] if z == 6 else [] for z in range(7)}
    yield from cases("A line whose points are one up to zoom 5.", drawn("lines", [[[0, 0], [16384, 0]]]), short)
    yield from cases("A ring of negative area is turned, and keeps its first point.",
                     drawn("polygons", at_zoom_0([[[[3, 6], [20, 34], [8, 12]]]])), {(0, 0, 0): TURNED})
    yield from cases("A last point that is the first again, and a point twice, change nothing.",
                     drawn("polygons", [[[[3145728, 6291456], [20971520, 35651584], [20971521, 35651585], [8388608, 12582912],
                                          [3145729, 6291457]]]]), {(0, 0, 0): TURNED})
    yield from cases("An inner ring without an area goes.", drawn("polygons", [[SQUARE, FLAT]]), {(0, 0, 0): SQUARE_SHOWN})
    yield from cases("An inner ring behind it stays, turned.", drawn("polygons", [[SQUARE, FLAT, TRIANGLE]]),
                     {(0, 0, 0): SQUARE_SHOWN + [9, 20, 179, 18, 20, 20, 0, 19, 15]})
    yield from cases("With an outer ring without an area the polygon goes.", drawn("polygons", [[FLAT, SQUARE]]), {(0, 0, 0): []})
    yield from cases("The second polygon stays where the first one goes.", drawn("polygons", [[FLAT, SQUARE], [SQUARE]]),
                     {(0, 0, 0): SQUARE_SHOWN})
    yield from cases("Nothing of a polygon is in reach.", drawn("polygons", [[SQUARE, TRIANGLE]]), {(1, 1, 1): []})
    yield "# Points on the edges of boxes, at three zooms and in both directions."
    for z in (1, 5, 16, MAX_ZOOM):
        yield from edge_lines(z)


# A ring of the world, of which twice the area is 2^63 - 2^33 + 2 at zoom 19.
WORLD_RING = [[0, 0], [LAST, 0], [LAST, LAST], [0, LAST]]
ROUND_THE_WORLD = [26, 4294967294, 0, 0, 4294967294, 4294967293, 0, 15]


def across_lines():
    yield "# Lines and rings across the world: at zoom 19 it is 2^31 coordinates of tiles wide, and 4294967294 is the greatest difference."
    yield from cases("At zoom 18, a line along the upper edge: the widest that a feature of this zoom may be.", drawn("lines", [[[0, 0], [LAST, 0]]], 18, 18),
                     {(18, 0, 0): [9, 0, 0, 10, 2147483646, 0], (18, 262143, 0): [9, 2147475455, 0, 10, 2147483646, 0]})
    yield from cases("At zoom 19, from the first corner to the last one.", drawn("lines", [[[0, 0], [LAST, LAST]]], 19, 19),
                     {(19, 0, 0): [9, 0, 0, 10, 4294967294, 4294967294],
                      (19, 524287, 524287): [9, 4294959103, 4294959103, 10, 4294967294, 4294967294]})
    yield from cases("The same line from its other end.", drawn("lines", [[[LAST, LAST], [0, 0]]], 19, 19),
                     {(19, 0, 0): [9, 4294967294, 4294967294, 10, 4294967293, 4294967293],
                      (19, 524287, 524287): [9, 8190, 8190, 10, 4294967293, 4294967293]})
    yield from cases("There and back, in a tile in the middle of the upper edge.", drawn("lines", [[[0, 0], [LAST, 0], [0, 0]]], 19, 19),
                     {(19, 262144, 0): [9, 2147483647, 0, 18, 4294967294, 0, 4294967293, 0]})
    yield from cases("The whole world as a polygon, and the same ring from the other side.", drawn("polygons", [[WORLD_RING]], 19, 19),
                     {(19, 0, 0): [9, 0, 0, *ROUND_THE_WORLD]})
    yield from cases("Turned, with its first point.", drawn("polygons", [[WORLD_RING[:1] + WORLD_RING[:0:-1]]], 19, 19),
                     {(19, 0, 0): [9, 0, 0, *ROUND_THE_WORLD]})
    yield from cases("A ring twice round the world has twice its area, which takes more than 64 bits.", drawn("polygons", [[WORLD_RING * 2]], 19, 19),
                     {(19, 0, 0): [9, 0, 0, 58, *ROUND_THE_WORLD[1:-1], 0, 4294967293, *ROUND_THE_WORLD[1:]]})


def edge_lines(z):
    side = 2 ** (20 - z)
    for u in (-65, -64, 4160, 4161):
        column, row = 1 if u < 0 or z > 1 else 0, 0 if z == 1 else 1
        point = [(4096 * column + u) * side, (4096 * row + 2048) * side]
        yield from [f"# {u}, zoom {z}", "map 0", put(1, drawn("points", [point], 0, MAX_ZOOM)), f"tile {z} {column} {row}"]
        yield from ["map 0", put(1, drawn("points", [point[::-1]], 0, MAX_ZOOM)), f"tile {z} {row} {column}"]


def tag_lines():
    tagged = POINT | {"minzoom": 1, "tags": {"a": "x", "b": -2, "c": 3, "d": True}}
    yield "# Zooms that show a feature, and tags of all kinds; at zoom 1 the tile of the worked example."
    yield from ["map 0", put(7, tagged)]
    yield "tile 0 0 0", "nothing"
    yield "tile 1 0 0", ("made 1a3a0a01701213080712080000010102020303180122030900001a01611a01621a01631a01642203" "0a01782202300322022803"
                         "2202380128802078" "02")
    yield "tile 2 0 0"
    yield "tile 3 0 0", "nothing"
    yield "# Two features with one key and one value have them once."
    one = POINT | {"tags": {"a": "x"}}
    yield from ["map 0", put(7, one), put(8, one)]
    yield "tile 0 0 0", "made 1a2e0a0170120d08071202000018012203090000120d080812020000180122030900001a0161220" "30a017828802078" "02"
    yield "# Pools in the order of their first use, and values that look alike and differ."
    yield from ["map 0", put(3, POINT | {"tags": {"k": "1", "m": 1, "z": True}}), put(2, POINT | {"tags": {"m": True, "z": "1", "é": -1}})]
    yield "tile 0 0 0"
    yield "# Two points without tags, and a tile at each end of the world's numbers."
    yield from ["map 0", put(7, POINT), put(8, POINT)]
    yield "tile 0 0 0", "made 1a1e0a0170120908071801220309000012090808180122030900002880207802"
    yield from [put(9223372036854775807, drawn("points", [[LAST, LAST]], 2, 2)), "tile 2 3 3", "tile 2 0 0"]
    yield "# What is no tile."
    yield from [(f"tile {place}", "no tile") for place in ["2 4 0", "2 0 4", "32 0 0", "0 1 0"]]
    yield "# Above the greatest zoom no tile shows anything."
    yield from ["map 0", put(1, drawn("points", [[0, 0]], layer="a")), "tile 0 0 0", "tile 16 0 0", ("tile 17 0 0", "nothing"), ("layers 17 0 0", "[]")]
    yield put(1, drawn("points", [[0, 0]], 0, 19, "a"))
    yield from ["tile 16 0 0", "tile 17 0 0", "tile 19 0 0", ("layers 19 0 0", '[("a", 2, 4096, [1])]'), ("tile 20 0 0", "nothing"),
                ("tile 31 0 0", "nothing"), ("layers 20 0 0", "[]"), ("layers 31 0 0", "[]")]
    yield "# The last tile of the greatest zoom."
    yield from ["map 0", put(7, drawn("points", [[LAST, LAST]], 0, 19, "p")), ("tile 19 524287 524287", "made 1a150a0170120b08071801220509fe3ffe3f2880207802")]
    yield from [("tile 19 524286 524287", "nothing"), ("tile 19 524287 0", "nothing"), ("tile 19 524288 0", "no tile"), ("tile 20 1048575 1048575", "nothing")]


# ---- reach


WORLD = {"polygons": [[WORLD_RING]]}


def box_end(columns, rows):
    """The coordinate from which the last of so many columns and rows of zoom 19 begin, counted from the first ones."""
    return [4096 * 2 * (columns - 1), 4096 * 2 * (rows - 1)]


def reach_lines():
    world = {"layer": "w", "minzoom": 0, "geometry": WORLD, "tags": {}}
    yield "# How many tiles the world covers up to a zoom, and the most that a feature may."
    yield f"reach {said(world | {'maxzoom': 7})}", "21845"
    yield f"reach {said(world | {'maxzoom': 8})}", "87381"
    yield f"reach {said(world | {'maxzoom': 9})}", "349525: E9 Reach"
    yield f"reach {said(world | {'maxzoom': 19})}", "366503875925: E9 Reach"
    yield f"reach {said(world | {'minzoom': 8, 'maxzoom': 8})}", "65536"
    yield f"reach {said(world | {'minzoom': 9, 'maxzoom': 9})}", "262144"
    yield f"reach {said(drawn('points', [[LAST, LAST]], 0, 19))}", "20"
    yield "# The tiles of zoom 9 are the most, and one more is too many."
    yield f"reach {said(drawn('points', [[0, 0], [LAST, LAST]], 8, 8))}", "65536"
    yield f"reach {said(drawn('points', [[0, 0], [LAST, LAST]], 9, 9))}", "262144"
    yield f"reach {said(drawn('lines', [[[0, 0], [LAST, LAST]]], 8, 9))}", "327680: E9 Reach"
    yield f"reach {said(drawn('points', [[0, 0], [2**31, 2**31]], 8, 9))}"
    yield f"reach {said(drawn('points', [[0, 0], [2**31, 2**31]], 9, 10))}", f"{257**2 + 513**2}: E9 Reach"
    yield "# A line along the upper edge: so many tiles as a zoom has columns."
    for first, last, told in [(16, 16, "65536"), (17, 17, "131072"), (18, 18, "262144"), (17, 18, "393216: E9 Reach"), (19, 19, "524288: E9 Reach")]:
        yield f"reach {said(drawn('lines', [[[0, 0], [LAST, 0]]], first, last))}", told
    yield "# Boxes of zoom 19 with the most tiles, and with more: columns and rows."
    for columns, rows in [(MAX_TILES, 1), (1, MAX_TILES), (512, 512), (65536, 4)]:
        yield f"reach {said(drawn('points', [[0, 0], box_end(columns, rows)], 19, 19))}", "262144"
    for columns, rows in [(MAX_TILES + 1, 1), (1, MAX_TILES + 1), (52429, 5), (5, 52429)]:
        yield f"reach {said(drawn('points', [[0, 0], box_end(columns, rows)], 19, 19))}", "262145: E9 Reach"
    yield "# The last coordinate of the world that 262,144 columns of zoom 19 reach, and the next one, which the margin of one more column has."
    yield f"reach {said(drawn('lines', [[[0, 9], [2147483519, 9]]], 19, 19))}", "262144"
    yield f"reach {said(drawn('lines', [[[0, 9], [2147483520, 9]]], 19, 19))}", "262145: E9 Reach"
    yield "# Columns and rows of zooms. At zoom 1 a point at 4160 stands in the boxes of both columns, at 4161 in one."
    yield f"covers 1 {said(drawn('points', [[2181038080, 0]]))}", "0 to 1, 0 to 0"
    yield f"covers 1 {said(drawn('points', [[2181562368, 0]]))}", "1 to 1, 0 to 0"
    yield f"covers 16 {said(drawn('points', [[LAST, LAST]]))}", "65535 to 65535, 65535 to 65535"
    yield f"covers 17 {said(drawn('points', [[LAST, LAST]], 0, 17))}", "131071 to 131071, 131071 to 131071"
    yield f"covers 19 {said(drawn('points', [[LAST, LAST]], 0, 19))}", "524287 to 524287, 524287 to 524287"
    yield f"covers 19 {said(drawn('lines', [[[0, 2147483519], [LAST, 2147483520]]], 0, 19))}", "0 to 524287, 262143 to 262144"
    yield f"covers 20 {said(drawn('points', [[LAST, LAST]], 0, 19))}", "E4 Zoom"
    yield f"covers 4 {said(drawn('lines', [[[2**30, 2**28], [2**29, 2**31]]]))}"
