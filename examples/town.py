#!/usr/bin/env python3
"""Writes a made-up island town as GeoJSON to standard output: land, parks, roads, buildings and places.

    python3 examples/town.py > town.geojson

The property `layer` of each feature names its layer in the map (`vtmap import --layer-field layer`). The same town is written
each time. Needs no package.
"""
import json
import math
import os
import random
import sys

LONGITUDE, LATITUDE = 7.5, 54.5
METRES = 111320.0
CHANCE = random.Random(9)


def degrees(point):
    """Longitude and latitude of a point in metres east and north of the town's centre."""
    east, north = point
    return [round(LONGITUDE + east / (METRES * math.cos(math.radians(LATITUDE))), 7), round(LATITUDE + north / METRES, 7)]


def coast():
    """The shore of the island, with a bay in the south."""
    points = []
    for at in range(120):
        turn = 2 * math.pi * at / 120
        far = 1 + 0.07 * math.sin(3 * turn + 1) + 0.05 * math.sin(5 * turn) + 0.02 * math.sin(11 * turn + 2)
        bay = math.exp(-((turn - 1.58 * math.pi) / 0.16) ** 2)
        points.append((far * (1 - 0.42 * bay) * 930 * math.cos(turn), far * (1 - 0.42 * bay) * 590 * math.sin(turn)))
    return points


def inside(point, ring):
    """Whether a point lies in a ring."""
    found = False
    for (x, y), (to_x, to_y) in zip(ring, ring[1:] + ring[:1]):
        if (y > point[1]) != (to_y > point[1]) and point[0] < x + (point[1] - y) / (to_y - y) * (to_x - x):
            found = not found
    return found


def distance(point, line):
    """The distance of a point from a line."""
    least = math.inf
    for (x, y), (to_x, to_y) in zip(line, line[1:]):
        square = (to_x - x) ** 2 + (to_y - y) ** 2
        share = max(0, min(1, ((point[0] - x) * (to_x - x) + (point[1] - y) * (to_y - y)) / square))
        least = min(least, math.hypot(point[0] - x - share * (to_x - x), point[1] - y - share * (to_y - y)))
    return least


def oval(wide, high, first=0.0, last=2 * math.pi):
    """Points of an oval round the centre."""
    turns = [first + (last - first) * at / 48 for at in range(49)]
    return [(wide * math.cos(turn), high * math.sin(turn)) for turn in turns]


def roads():
    """The roads, each with its name and kind."""
    made = [
        ("Ring Road", "main", oval(640, 380, -0.30 * math.pi, 1.44 * math.pi)),
        ("Market Street", "main", [(-640, 0), (-420, -30), (-200, 10), (0, 0), (240, 20), (450, -20), (640, 0)]),
        ("Harbour Street", "main", [(0, 380), (20, 250), (-10, 120), (0, 0), (60, -110), (100, -230)]),
        ("Quay", "street", [(-95, -310), (-40, -225), (100, -230), (230, -205), (290, -280), (376, -307)]),
        ("North Row", "street", [(-520, 221), (-300, 190), (-120, 175), (-10, 120), (170, 180), (360, 190), (530, 213)]),
        ("South Row", "street", [(-560, -184), (-380, -160), (-190, -150), (-40, -225)]),
        ("Mill Lane", "street", [(-420, 286), (-420, -30), (-380, -160), (-330, -326)]),
        ("Church Lane", "street", [(-200, 361), (-205, 180), (-200, 10), (-190, -150)]),
        ("School Lane", "street", [(240, 352), (250, 182), (240, 20), (230, -205)]),
        ("Dike Lane", "street", [(450, 270), (440, 198), (450, -20), (430, -180), (376, -307)]),
        ("Light Path", "path", [(640, 0), (740, 30), (830, 60)]),
        ("Shore Path", "path", [(0, 380), (-40, 450), (-160, 470), (-330, 430)]),
    ]
    return made


def buildings(streets, land, kept_free):
    """Rectangles along the streets that meet neither a street nor one another."""
    made, centres = [], []
    for name, kind, line in streets:
        if kind == "path":
            continue
        for (x, y), (to_x, to_y) in zip(line, line[1:]):
            length = math.hypot(to_x - x, to_y - y)
            along, across = ((to_x - x) / length, (to_y - y) / length), (-(to_y - y) / length, (to_x - x) / length)
            at = 14.0
            while at < length - 8:
                wide, deep = CHANCE.uniform(14, 26), CHANCE.uniform(11, 17)
                for side in (-1, 1):
                    middle = [here + at * step + side * (14 + deep / 2) * out for here, step, out in zip((x, y), along, across)]
                    clear = all(distance(middle, other) > 9 + deep / 2 + 4 for _, _, other in streets)
                    near = any(math.hypot(middle[0] - a, middle[1] - b) < (wide + size) / 2 + 6 for a, b, size in centres)
                    if not clear or near or not inside(middle, land) or any(inside(middle, ring) for ring in kept_free) or CHANCE.random() < 0.12:
                        continue
                    corners = [(-wide / 2, -deep / 2), (wide / 2, -deep / 2), (wide / 2, deep / 2), (-wide / 2, deep / 2)]
                    made.append([[here + a * step + b * out for here, step, out in zip(middle, along, across)] for a, b in corners])
                    centres.append((*middle, max(wide, deep)))
                at += wide + CHANCE.uniform(5, 16)
    return made


def feature(layer, shape, coordinates, **properties):
    """A feature of GeoJSON."""
    return {"type": "Feature", "properties": {"layer": layer, **properties}, "geometry": {"type": shape, "coordinates": coordinates}}


def closed(ring):
    """The ring of a GeoJSON polygon."""
    return [degrees(point) for point in [*ring, ring[0]]]


def town():
    """All features."""
    land, streets = coast(), roads()
    park = [(-180, 30), (-30, 22), (-28, 108), (-110, 150), (-188, 155)]
    pond = [(-120, 70), (-80, 62), (-62, 85), (-95, 104), (-126, 95)]
    meadow = [(275, 45), (420, 15), (416, 170), (285, 160)]
    dunes = [(-620, 140), (-575, 130), (-500, 235), (-430, 320), (-300, 395), (-330, 440), (-480, 400), (-610, 290), (-680, 200)]
    yield feature("land", "Polygon", [closed(land)], name="Nordwerth")
    yield feature("park", "Polygon", [closed(park), closed(pond)], name="Town Park")
    yield feature("park", "Polygon", [closed(meadow)], name="Meadow")
    yield feature("park", "Polygon", [closed(dunes)], name="Dunes")
    for name, kind, line in streets:
        yield feature("road", "LineString", [degrees(point) for point in line], name=name, kind=kind)
    for number, ring in enumerate(buildings(streets, land, [park, meadow, dunes]), 1):
        yield feature("building", "Polygon", [closed(ring)], house=number, floors=CHANCE.randint(1, 3))
    for name, point in [("Town Hall", (28, 28)), ("Church", (-160, -25)), ("School", (270, -60)), ("Harbour", (95, -260)), ("Lighthouse", (835, 62))]:
        yield feature("place", "Point", degrees(point), name=name)


def main():
    lines = [json.dumps(row) for row in town()]
    try:
        print('{"type":"FeatureCollection","features":[\n' + ",\n".join(lines) + "\n]}", flush=True)
    except OSError as fault:
        sys.stderr.write(f"standard output: {fault}\n")
        # What wasn't written would be tried again at the end.
        os.dup2(os.open(os.devnull, os.O_WRONLY), sys.stdout.fileno())
        return 1
    return 0


if __name__ == "__main__":
    sys.exit(main())
