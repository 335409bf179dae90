"""Features that the import cut, put together again. Needs no package.

The pieces of a cut feature have its tags and the tag `whole` with the id of the first piece; the outline of a polygon
is in lines of the layer LAYER-outline with the same tags. `wholes_of` makes one feature of them: the union of its
pieces, without the edges of the cuts. Pieces whose tags, layer or zooms have become different since are different
features for people, and stay apart. """
from __future__ import annotations

import json
import math
from collections import defaultdict
from collections.abc import Iterable, Iterator, Sequence
from typing import NamedTuple

from ..forms import Feature, Tags

WHOLE, OUTLINE = "whole", "-outline"
# Ids of features are below it, where pieces get ids of their own: piece k of the feature of id n has the id n + k *
# PIECE.
PIECE = 2**40


class Whole(NamedTuple):
    """A feature as people see it: the id (of a cut one that of its first piece), the feature without the tag `whole`,
    and the features of the map that it is, by their ids."""

    number: int
    feature: Feature
    pieces: dict[int, Feature]


def wholes_of(features: Iterable[tuple[int, Feature]], name: str = WHOLE) -> list[Whole]:
    """The features of a map, given as pairs of id and feature, as wholes in ascending order of their ids."""
    groups, made = defaultdict(dict), []
    for number, feature in features:
        key = group_of(feature, name)
        if key is None:
            made.append(Whole(number, feature, {number: feature}))
        else:
            groups[key][number] = feature
    for (number, *_), pieces in groups.items():
        if number in pieces:
            made.append(joined(number, pieces, name))
        else:
            made += [Whole(piece, feature, {piece: feature}) for piece, feature in pieces.items()]
    return sorted(made)


def whole_in(tags: Tags, name: str = WHOLE) -> int | None:
    """The id of the whole that the tags of a piece name; None if they name none."""
    number = tags.get(name)
    return None if isinstance(number, bool) or not isinstance(number, int) else number


def group_of(feature: Feature, name: str) -> tuple | None:
    """What the pieces of one feature have in common, first the id of the whole; None for a feature that is no piece."""
    number = whole_in(feature["tags"], name)
    if number is None:
        return None
    tags = json.dumps(feature["tags"], sort_keys=True)
    return number, feature["layer"].removesuffix(OUTLINE), feature["minzoom"], feature["maxzoom"], tags


def joined(number: int, pieces: dict[int, Feature], name: str) -> Whole:
    """The whole of these pieces."""
    first = pieces[number]
    ((kind, _),) = first["geometry"].items()
    parts = [piece["geometry"][kind] for piece in pieces.values() if kind in piece["geometry"]]
    lists = {"points": joined_points, "lines": joined_lines, "polygons": joined_polygons}[kind](parts)
    tags = {key: value for key, value in first["tags"].items() if key != name}
    return Whole(number, {**first, "geometry": {kind: lists}, "tags": tags}, pieces)


def joined_points(parts: Iterable[list]) -> list:
    """The points of all pieces."""
    return [point for part in parts for point in part]


# ---- lines


def joined_lines(parts: Iterable[list]) -> list:
    """The lines of all pieces: two of different pieces are one where the end of one alone is the start of the other
    alone."""
    lines = [(at, [tuple(point) for point in line]) for at, part in enumerate(parts) for line in part]
    starts, ends = defaultdict(list), defaultdict(list)
    for at, (piece, line) in enumerate(lines):
        starts[line[0]].append(at)
        ends[line[-1]].append(at)
    after = {}
    for place, (at, *more) in ends.items():
        if not more and len(starts[place]) == 1 and lines[starts[place][0]][0] != lines[at][0]:
            after[at] = starts[place][0]
    heads = [at for at in range(len(lines)) if at not in set(after.values())]
    made, used = [], set()
    for at in [*heads, *range(len(lines))]:
        if at in used:
            continue
        line, joints = list(lines[at][1]), set()
        used.add(at)
        while at in after and after[at] not in used:
            at = after[at]
            used.add(at)
            joints.add(len(line) - 1)
            line += lines[at][1][1:]
        made.append(
            [
                list(point)
                for place, point in enumerate(line)
                if place not in joints or not is_between(line[place - 1], point, line[place + 1])
            ]
        )
    return made


# ---- polygons


def joined_polygons(parts: Iterable[list]) -> list:
    """The union of the polygons of all pieces. Cuts run along columns and rows of the world, where the edges of two
    pieces cancel out."""
    kept, straight = [], (defaultdict(list), defaultdict(list))
    for rings in (rings for part in parts for rings in part):
        for at, ring in enumerate(rings):
            ring = oriented([tuple(point) for point in ring], at == 0)
            for one, other in zip(ring, ring[1:] + ring[:1]):
                axis = next((axis for axis in (0, 1) if one[axis] == other[axis]), None)
                if axis is None:
                    kept.append((one, other))
                else:
                    straight[axis][one[axis]].append((one[1 - axis], other[1 - axis]))
    cuts = (set(), set())
    for axis in (0, 1):
        for at, edges in straight[axis].items():
            left, is_cut = uncancelled(edges)
            kept += [((at, one), (at, other)) if axis == 0 else ((one, at), (other, at)) for one, other in left]
            if is_cut:
                cuts[axis].add(at)
    rings = [
        ring for loop in loops(kept) for ring in [without_joints(loop, cuts)] if len(ring) > 2 and twice_area(ring)
    ]
    return polygons_of(rings)


def twice_area(ring: list) -> float:
    """Twice the signed area of a ring."""
    return sum(a[0] * b[1] - b[0] * a[1] for a, b in zip(ring, ring[1:] + ring[:1]))


def oriented(ring: list, is_outer: bool) -> list:
    """The ring with the inside on its left."""
    return ring if (twice_area(ring) > 0) == is_outer else ring[::-1]


def right_handed(feature: Feature) -> Feature:
    """The feature with its rings as GeoJSON has them (RFC 7946, 3.1.6): outer ones counterclockwise in longitude and
    latitude, inner ones clockwise. In the map, whose rows go down, that is the other way round."""
    polygons = feature["geometry"].get("polygons")
    if polygons is None:
        return feature
    return {
        **feature,
        "geometry": {"polygons": [[oriented(ring, at > 0) for at, ring in enumerate(rings)] for rings in polygons]},
    }


def uncancelled(edges: Iterable[tuple]) -> tuple[list, bool]:
    """What is left of edges on one column or row, each from one place to another, and whether some cancelled out."""
    places = sorted({place for edge in edges for place in edge})
    index = {place: at for at, place in enumerate(places)}
    there, back = [0] * len(places), [0] * len(places)
    for one, other in edges:
        counts = there if one < other else back
        counts[index[min(one, other)]] += 1
        counts[index[max(one, other)]] -= 1
    left, is_cut, ups, downs = [], False, 0, 0
    for at, (low, high) in enumerate(zip(places, places[1:])):
        ups, downs = ups + there[at], downs + back[at]
        is_cut = is_cut or (ups > 0 and downs > 0)
        left += [(low, high)] * (ups - downs) + [(high, low)] * (downs - ups)
    return left, is_cut


def loops(edges: Iterable[tuple]) -> Iterator[list]:
    """The rings that edges make, none of which visits a place twice."""
    onward = defaultdict(list)
    for one, other in edges:
        onward[one].append(other)
    for start in list(onward):
        while onward[start]:
            path = [start, onward[start].pop()]
            seen = {start: 0}
            while len(path) > 1:
                before, here = path[-2:]
                if here in seen:
                    yield path[seen[here] : -1]
                    for place in path[seen[here] + 1 : -1]:
                        del seen[place]
                    path = path[: seen[here] + 1]
                else:
                    seen[here] = len(path) - 1
                # Edges that don't close are of nothing that the import makes.
                if len(path) == 1 or not onward[here]:
                    break
                path.append(next_of(before, here, onward[here]))


def next_of(before: tuple, here: tuple, choices: list[tuple]) -> tuple:
    """Takes the next place out of several: the first one clockwise of where the path came from, which is round the same
    inside."""
    if len(choices) == 1:
        return choices.pop()
    back = math.atan2(before[1] - here[1], before[0] - here[0])
    turns = [(back - math.atan2(place[1] - here[1], place[0] - here[0])) % (2 * math.pi) for place in choices]
    return choices.pop(turns.index(min(turns)))


def is_between(one: Sequence, place: Sequence, other: Sequence) -> bool:
    """Whether a place is on the line between two others, to what rounding moves it: one and a half units of the world,
    of 9 mm each."""
    wide, high = other[0] - one[0], other[1] - one[1]
    away = abs(wide * (place[1] - one[1]) - high * (place[0] - one[0]))
    return away <= 1.5 * math.hypot(wide, high) and (place[0] - one[0]) * wide + (place[1] - one[1]) * high >= 0


def without_joints(ring: Sequence, cuts: tuple[set, set]) -> list:
    """The ring without the places that cuts put on its edges."""
    made = list(ring)
    at = 0
    while at < len(made) and len(made) > 3:
        place = made[at]
        if (place[0] in cuts[0] or place[1] in cuts[1]) and is_between(made[at - 1], place, made[(at + 1) % len(made)]):
            del made[at]
        else:
            at += 1
    return made


def polygons_of(rings: list) -> list:
    """Polygons of rings: each inner ring is in the smallest outer one round it."""
    outer = sorted((ring for ring in rings if twice_area(ring) > 0), key=twice_area)
    made = [[ring] for ring in outer]
    for ring in rings:
        if twice_area(ring) < 0:
            middle = [(a + b) / 2 for a, b in zip(ring[0], ring[1])]
            at = next((at for at, around in enumerate(outer) if is_inside(middle, around)), len(outer) - 1)
            made[at].append(ring)
    return [[[list(point) for point in ring] for ring in polygon] for polygon in reversed(made)]


def is_inside(place: Sequence, ring: list) -> bool:
    """Whether a place is inside of a ring."""
    inside = False
    for (x, y), (u, v) in zip(ring, ring[1:] + ring[:1]):
        if (y > place[1]) != (v > place[1]) and place[0] < x + (place[1] - y) / (v - y) * (u - x):
            inside = not inside
    return inside
