"""Edits of a map that look random, as the lines `random` of `map_runs` make them, and the block of `map_script.py` with these lines.

`crates/map_runs/src/maps/random.rt` draws the same numbers in the same order.
"""
from chance import Chance
from disk import Change

LAST = 2**32 - 1
# How far the points of a line or a ring are apart, at most: of a feature whose first zoom is below 6, and of another one.
FAR, NEAR = 2**26, 2**16
VALUES = {0: True, 1: -5, 2: "x"}


# ---- an edit


def coordinate(chance):
    """A column or row: one in four is anywhere, the others are close to one of eight."""
    if chance.below(4) == 0:
        return chance.below(2**32)
    return chance.below(8) * 2**29 + chance.below(2**18)


def beside(chance, first, apart):
    """A point to the right of another one and below it, or at the end of the world."""
    return [min(start + chance.below(apart), LAST) for start in first]


def any_geometry(chance, apart):
    """Mostly one point, else a line or a ring of three."""
    first = [coordinate(chance), coordinate(chance)]
    kind = chance.below(32)
    if kind > 2:
        return {"points": [first]}
    points = [first, beside(chance, first, apart), beside(chance, first, apart)]
    return {"lines": [points]} if kind > 0 else {"polygons": [[points]]}


def value(number):
    return VALUES.get(number, number)


def any_feature(chance):
    """A feature with up to three tags."""
    layer = "ab"[chance.below(2)]
    minzoom = chance.below(15)
    maxzoom = minzoom + chance.below(6)
    shape = any_geometry(chance, FAR if minzoom < 6 else NEAR)
    tags = {key: value(chance.below(12)) for key in "abc" if chance.below(4) == 0}
    return {"layer": layer, "minzoom": minzoom, "maxzoom": maxzoom, "geometry": shape, "tags": tags}


def any_edit(chance, ids, one_in):
    """A change of an id below `ids`. One in `one_in` is a deletion."""
    number = chance.below(ids)
    return Change(number, None if chance.below(one_in) == 0 else any_feature(chance))


# ---- lines


def any_place(chance, zoom):
    """A column and a row of a zoom, mostly where features are close together."""
    return coordinate(chance) >> 32 - zoom, coordinate(chance) >> 32 - zoom


def square_lines(chance):
    """Of each zoom 36 tiles that lie together, or all that it has."""
    for zoom in range(20):
        column, row = (max(at - 3, 0) for at in any_place(chance, zoom))
        yield f"square {zoom} {column} {row} {min(2**zoom, 6)}"


def tile_lines(chance, zooms):
    """Of each of these zooms a tile, with its features."""
    for zoom in zooms:
        column, row = any_place(chance, zoom)
        yield from [f"newest {zoom} {column} {row}", f"tile {zoom} {column} {row}", f"layers {zoom} {column} {row}"]


def turn_lines(chance):
    """Some edits and then some tiles, which are cached or made, in turns."""
    places = [(zoom, *any_place(chance, zoom)) for zoom in range(4, 20)]
    for seed in range(1, 41):
        yield f"random 5 75000 {seed} 8"
        for _ in range(4):
            zoom, column, row = chance.one_of(places)
            yield from [f"newest {zoom} {column} {row}", f"square {zoom} {column} {row} 2"]


def random_lines():
    yield "# Edits that look random: few of them, and all that the map holds then."
    yield from ["map 0", ("random 0 9 1 4", "edit 0: 0 features, 0 taken, digest 0"), "random 60 40 12345678901234567 4"]
    yield from [*(f"look {number}" for number in range(40)), "snapshot", "metadata", "tiles", "area 4000"]
    yield "# 20,000 edits of 500 ids: most replace a feature by one elsewhere."
    yield from ["map 0", "random 20000 500 88172645463325252 5", "snapshot", "metadata", *square_lines(Chance(500))]
    yield "# 100,000 edits of 75,000 ids in no order: new features, features that move, deletions."
    yield from ["map 0", "random 100000 75000 2026 8", "snapshot", "metadata", *tile_lines(Chance(75), range(20)), *square_lines(Chance(75000))]
    yield "# Some more edits, and tiles after each five of them."
    yield from [*turn_lines(Chance(5)), "snapshot"]
    yield "# Most features are deleted, and others take their places."
    for edits in ("150000 75000 7 1", "30000 75000 8 8"):
        yield from [f"random {edits}", "snapshot", "metadata", *tile_lines(Chance(7), range(4, 20, 5)), *square_lines(Chance(70))]
    yield "map 0"
