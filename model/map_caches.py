"""Blocks of `map_script.py` about tiles that are kept: how long, after which edits, and in how many places."""
from chance import Chance
from map_lines import LAST, drawn, put
from map_stand import POINT


def kept_lines():
    yield "# Tiles are kept until an edit touched a cell of the world that they reach."
    first, last = "1a130a017012090807180122030900002880207802", "1a150a0170120b0807180122050" "9fe3ffe3f2880207802"
    end = drawn("points", [[LAST, LAST]], 0, 2, "p")
    yield from ["map 5", ("newest 0 0 0", "0"), ("tile 1 0 0", "nothing"), (put(7, POINT), "edit 6: 1 features"), ("newest 10 0 0", "6"),
                ("newest 10 1023 1023", "0"), ("newest 19 0 0", "6"), ("newest 19 524287 524287", "0"),
                ("newest 20 1048575 1048575", "6"), ("tile 1 0 0", f"made {first}"), ("tile 1 0 0", f"kept {first}"), ("tile 1 1 1", "nothing")]
    yield "# From one corner of the world to the other."
    yield from [(put(7, end), "edit 7: 1 features"), ("newest 10 0 0", "7"), ("newest 10 1023 1023", "7"), ("tile 1 0 0", "nothing"),
                ("tile 1 1 1", f"made {last}"), ("tile 0 0 0", f"made {last}")]
    yield "# An edit that doesn't reach a tile."
    yield from [put(9, drawn("points", [[LAST, 0]], 0, 2, "p")), ("tile 1 1 1", f"kept {last}"), "delete 9", ("tile 0 0 0", f"made {last}"),
                "delete 7", ("tile 1 1 1", "nothing"), "delete 7", ("tile 3 0 0", "nothing")]
    chance = Chance(2026)
    yield "# Edits anywhere, of one of eight numbers, and tiles of zoom 2."
    yield "map 0"
    for _ in range(400):
        if chance.below(3) == 0:
            number = chance.below(8)
            point = [chance.below(2**32), chance.below(2**32)]
            yield f"delete {number}" if chance.below(4) == 0 else put(number, drawn("points", [point], 0, 2, "p"))
        place = f"2 {chance.below(4)} {chance.below(4)}"
        yield from [f"tile {place}", f"anew {place}"]


SECOND = 2**27
REACHES = [
    # Inside.
    (SECOND, SECOND, 0, 0, True), (SECOND, SECOND, 5, 1, True), (SECOND, SECOND, 6, 2, True), (SECOND, SECOND, 16, 2048, True),
    (SECOND, SECOND, 19, 16384, True),
    # The margin on the right of a tile, and the tile before it.
    (SECOND, SECOND, 5, 0, True), (SECOND, SECOND, 6, 1, True), (SECOND, SECOND, 6, 0, False), (SECOND, SECOND, 16, 2047, True),
    (SECOND, SECOND, 16, 2046, False), (SECOND, SECOND, 19, 16383, True), (SECOND, SECOND, 19, 16382, False),
    # The margin on the left of a tile, and the tile behind it.
    (SECOND - 1, SECOND - 1, 5, 1, True), (SECOND - 1, SECOND - 1, 5, 2, False), (SECOND - 1, SECOND - 1, 6, 2, True),
    (SECOND - 1, SECOND - 1, 6, 3, False), (SECOND - 1, SECOND - 1, 16, 2048, True), (SECOND - 1, SECOND - 1, 16, 2049, False),
    (SECOND - 1, SECOND - 1, 19, 16384, True), (SECOND - 1, SECOND - 1, 19, 16385, False),
    # The whole world, and its last column.
    (0, LAST, 0, 0, True), (0, LAST, 16, 40000, True), (LAST, LAST, 5, 31, True), (LAST, LAST, 5, 29, False), (LAST, LAST, 16, 65535, True),
    (LAST, LAST, 16, 0, False), (LAST, LAST, 17, 0, False), (0, LAST, 19, 400000, True), (LAST, LAST, 19, 524287, True), (LAST, LAST, 19, 0, False),
    # Corners the wrong way round, within a cell and over several.
    (1, 0, 0, 0, False), (LAST, 0, 5, 1, False),
    # At a zoom of which no tile is cut every mark counts.
    (LAST, LAST, 20, 0, True), (LAST, LAST, 31, 0, True),
]
# A zoom, and a column or row of a tile in line with the point at 2^31 + 2^16, which is in the cells 16, 512 and 16,384. The last ones of
# zoom 12 and 8 are 32 cells from it at one level, and with their margin in its cell at the one before.
FINE = [
    (15, 16384, 5), (15, 16383, 5), (15, 16385, 5), (15, 16382, 0), (15, 16386, 0), (19, 262144, 5), (19, 262160, 5), (19, 262161, 0),
    (12, 2048, 5), (12, 2047, 5), (12, 2046, 0), (12, 2050, 0), (12, 2053, 0), (12, 2052, 5),
    (8, 128, 5), (8, 127, 5), (8, 126, 0), (8, 130, 0), (8, 137, 0), (8, 136, 5), (5, 16, 5), (5, 18, 0), (0, 0, 5),
]
# The same of the grid of wide maps. At zoom 12 the column 2052 is 32 of the finest cells from the point, which the wide level tells apart, and 2080
# is 256 of them from it, which the second level does; 2176 is 1,024 of them from it, which no level does that is repeated, and with its margin in
# the point's cell of the first one. A tile of zoom 10 touches 34 columns of the wide level, and one of zoom 9 too many.
WIDE = [*((zoom, at, newest) for zoom, at, newest in FINE if (zoom, at) != (12, 2052)),
        (12, 2052, 0), (12, 2080, 0), (12, 2176, 5), (12, 2177, 0), (10, 512, 5), (10, 511, 5), (10, 510, 0), (10, 513, 0), (9, 256, 5), (9, 255, 5)]


def grid_lines():
    yield "# The newest edit that can reach a tile: columns, or rows, that an edit touched, and a tile's column, or row."
    for first, last, z, at, is_reached in REACHES:
        newest = "7" if is_reached else "0"
        yield from ["caches", f"mark {first} {last} 0 {LAST} 7", (f"touched {z} {at} 0", newest), (f"wide {z} {at} 0", newest)]
        yield from ["caches", f"mark 0 {LAST} {first} {last} 7", (f"touched {z} 0 {at}", newest), (f"wide {z} 0 {at}", newest)]
    yield "# The greatest number stays."
    yield "caches"
    for across, number, place, newest in [
            ("0 0", 5, "5 0 31", 5), ("0 0", 3, "5 0 31", 5), ("0 0", 9, "5 0 31", 9), (f"{SECOND} {LAST}", 20, "16 0 0", 9),
            (f"{SECOND} {LAST}", 20, "5 0 31", 20)]:
        yield from [f"mark {across} 0 {LAST} {number}", (f"touched {place}", str(newest))]
    yield "# A point in one cell of each level: tiles beside it are reached by their margins, others aren't, at each zoom by the finest level that it fits."
    point = 2**31 + 2**16
    yield from ["caches", f"mark {point} {point} {point} {point} 5"]
    for word, tiles in [("touched", FINE), ("wide", WIDE)]:
        for zoom, at, newest in tiles:
            for place in [f"{zoom} {at} {point >> 32 - zoom}", f"{zoom} {point >> 32 - zoom} {at}"]:
                yield f"{word} {place}", str(newest)
    yield "# A box as wide as the world touches each cell."
    yield from [f"mark 0 {LAST} 0 {LAST} 7", ("touched 15 0 0", "7"), ("touched 19 524287 9", "7"), ("touched 8 137 3", "7"), ("wide 15 0 0", "7"),
                ("wide 19 524287 9", "7"), ("wide 10 3 700", "7"), ("wide 8 137 3", "7")]
    yield "# Without a mark the number is 0."
    yield from ["caches", ("touched 0 0 0", "0"), ("touched 16 65535 65535", "0"), ("touched 19 524287 524287", "0"), ("touched 20 0 0", "0"),
                ("touched 2 4 0", "no tile"), ("wide 0 0 0", "0"), ("wide 16 65535 65535", "0"), ("wide 20 0 0", "0"), ("wide 2 4 0", "no tile")]


def cache_lines():
    yield "# Tiles as new as the edits: a place, a number, and a first byte that is held there; what is held as new as a number."
    yield from ["caches", ("held 3 1 2 0", "none"), "hold 3 1 2 5 8", "hold 3 2 1 6 9", ("held 3 1 2 5", "080102"), ("held 3 1 2 6", "none"),
                ("held 3 2 1 6", "090102"), ("held 4 1 2 0", "none"), ("held 3 1 1 0", "none"), ("held 3 2 2 0", "none"), "hold 3 1 2 7 4",
                ("held 3 1 2 6", "040102"), ("held 3 1 2 8", "none")]
    yield "# 256 tiles are held: the one asked for longest ago gives way. A look that finds one too old counts too."
    yield from ["caches", *(f"hold 16 {column} 9 1 {column}" for column in range(256))]
    yield from [("held 16 0 9 2", "none"), "hold 16 256 9 1 0", ("held 16 1 9 0", "none"), ("held 16 0 9 1", "000102"),
                ("held 16 256 9 1", "000102"), ("held 16 2 9 1", "020102"), ("held 16 255 9 1", "ff0102"), "hold 16 257 9 1 7",
                ("held 16 3 9 1", "none"), ("held 16 2 9 1", "020102"), ("held 16 4 9 1", "040102")]
