"""Tests of vtmap/geometry/world.py, shapes.py and geojson.py. Wanted places are those of Web Mercator (EPSG:3857): the
equator and the prime meridian meet in the middle, the map ends at 180 degrees and at 85.0511287798 degrees, where it is
as high as it is wide."""
import math
import unittest

import stand
from vtmap.geometry.geojson import feature_of, geojson_of
from vtmap.geometry.shapes import (
    bounds,
    count,
    covered,
    is_safe,
    is_shown,
    list_count,
    met,
    points_of,
    reach,
    rounded,
    size,
    wrong_zooms,
)
from vtmap.geometry.world import EARTH, HALF, WORLD, degrees, mercator, metres, world

# The latitude at which Web Mercator is a square: atan(sinh(pi)).
EDGE = 85.05112877980659
# EPSG's worked example of "Popular Visualisation Pseudo Mercator" (Guidance Note 7-2, 3.2.1.2): a place and its
# easting and northing.
PLACE, EAST, NORTH = (-(100 + 20 / 60), 24 + 22 / 60 + 54.433 / 3600), -11169055.58, 2800000.00
RING = [[0, 0], [100, 0], [100, 100], [0, 100]]
HOLE = [[10, 10], [10, 20], [20, 20], [20, 10]]


class World(unittest.TestCase):
    def test_middle(self):
        self.assertEqual(world((0, 0)), [2**31, 2**31])

    def test_corners(self):
        self.assertEqual(world((-180, EDGE)), [0, 0])
        self.assertEqual(world((180, -EDGE)), [2**32 - 1, 2**32 - 1])

    def test_beyond_the_edges_is_the_edge(self):
        self.assertEqual(world((-200, 89)), [0, 0])
        self.assertEqual(world((200, -89)), [2**32 - 1, 2**32 - 1])

    def test_a_quarter_of_the_way(self):
        self.assertEqual(world((-90, 0)), [2**30, 2**31])
        self.assertEqual(world((90, 0))[0], 3 * 2**30)

    def test_y_goes_down(self):
        # Half of the way up is where sinh(pi / 2) is the tangent: 66.51326044311186 degrees.
        self.assertAlmostEqual(world((0, 66.51326044311186))[1], 2**30, delta=1)
        self.assertAlmostEqual(world((0, -66.51326044311186))[1], 3 * 2**30, delta=1)

    def test_degrees_of_a_square_are_its_middle(self):
        half = 360 / 2**33
        self.assertAlmostEqual(degrees((2**31, 2**31))[0], half, places=12)
        self.assertAlmostEqual(degrees((0, 2**31))[0], -180 + half, places=12)

    def test_degrees_and_back(self):
        for point in ([0, 0], [1, 2**32 - 1], [123456789, 4000000000], [2**31, 2**31 - 1]):
            self.assertEqual(world(degrees(point)), point)

    def test_metres(self):
        self.assertEqual(HALF, 20037508.342789244)
        half = EARTH / 2**33
        self.assertAlmostEqual(metres((2**31, 2**31))[0], half, places=6)
        self.assertAlmostEqual(metres((2**31, 2**31))[1], -half, places=6)
        self.assertAlmostEqual(metres((0, 0))[0], -20037508.342789244 + half, places=6)
        self.assertAlmostEqual(metres((0, 0))[1], 20037508.342789244 - half, places=6)

    def test_mercator_by_the_example_of_epsg(self):
        east, north = mercator(*PLACE)
        self.assertAlmostEqual(east, EAST, delta=0.01)
        self.assertAlmostEqual(north, NORTH, delta=0.01)


class Shapes(unittest.TestCase):
    def test_counts(self):
        for shape, points, lists in [
            (("points", [[1, 1], [2, 2]]), 2, 1),
            (("lines", [[[0, 0], [1, 1]], [[2, 2], [3, 3], [4, 4]]]), 5, 3),
            (("polygons", [[RING, HOLE], [RING]]), 12, 6),
        ]:
            self.assertEqual((count(shape), list_count(shape)), (points, lists))

    def test_points_of(self):
        self.assertEqual(points_of({"polygons": [[RING, HOLE]]}), RING + HOLE)
        self.assertEqual(points_of({"points": [[7, 8]]}), [[7, 8]])

    def test_bounds(self):
        self.assertEqual(bounds(("lines", [[[5, 9], [2, 3]], [[7, 1], [4, 4]]])), (2, 1, 7, 9))

    def test_size_at_the_equator(self):
        wide, high = size(("lines", [[[2**31 - 2**20, 2**31 - 2**20], [2**31 + 2**20, 2**31 + 2**20]]]))
        self.assertAlmostEqual(wide, EARTH / 2**11, places=3)
        self.assertAlmostEqual(high, EARTH / 2**11, places=3)

    def test_size_shrinks_by_the_cosine_of_the_latitude(self):
        y = world((0, 60))[1]
        self.assertAlmostEqual(
            size(("lines", [[[0, y], [2**20, y]]]))[0], EARTH / 2**12 * math.cos(math.radians(60)), places=3
        )

    def test_met(self):
        # Tiles have 64 units of 4,096 more on each side (docs/HTTP.md); at zoom 1 a unit is 2^19.
        self.assertEqual(met(0, 0, 2**32 - 1), (0, 0))
        self.assertEqual(met(1, 0, 2**31 - 65 * 2**19), (0, 0))
        self.assertEqual(met(1, 0, 2**31 - 64 * 2**19), (0, 1))
        self.assertEqual(met(1, 2**31 + 64 * 2**19, 2**32 - 1), (0, 1))
        self.assertEqual(met(1, 2**31 + 65 * 2**19, 2**32 - 1), (1, 1))

    def test_covered(self):
        middle = (2**31, 2**31, 2**31, 2**31)
        self.assertEqual(covered(middle, 1), ((0, 1), (0, 1)))
        self.assertEqual(covered(middle, 19), ((2**18 - 1, 2**18), (2**18 - 1, 2**18)))

    def test_reach(self):
        # One tile of zoom 0, four of zoom 1, and of zoom 2 the four round the middle.
        self.assertEqual(reach((2**31, 2**31, 2**31, 2**31), range(3)), 9)
        self.assertEqual(reach((0, 0, WORLD - 1, WORLD - 1), range(10)), sum(4**zoom for zoom in range(10)))

    def test_is_safe(self):
        # Of tile 0 coordinates end at 8,191, at zoom 2 in units of 2^18.
        self.assertTrue(is_safe((0, 0, 8191 << 18, 1), 2))
        self.assertFalse(is_safe((0, 0, 8192 << 18, 1), 2))

    def test_wrong_zooms(self):
        self.assertEqual(wrong_zooms(("lines", [[[0, 0], [WORLD - 1, 0]]]), range(5)), [2, 3, 4])
        self.assertEqual(wrong_zooms(("points", [[0, 0], [WORLD - 1, 0]]), range(5)), [])
        self.assertEqual(wrong_zooms(("lines", [[[0, 0], [2**20, 0]]]), range(13)), [])

    def test_rounded(self):
        self.assertEqual(rounded(("points", [(1.5, 2.9995), (-3, WORLD + 7)])), ("points", [[1, 3], [0, WORLD - 1]]))
        self.assertEqual(
            rounded(("lines", [[(1.2, 1.2), (1.4, 1.9), (5, 5)], [(3.1, 3.1), (3.2, 3.2)]])),
            ("lines", [[[1, 1], [5, 5]]]),
        )

    def test_rounded_drops_what_has_no_area(self):
        flat = [(0, 0), (5, 5), (10, 10)]
        self.assertIsNone(rounded(("polygons", [[flat]])))
        self.assertEqual(rounded(("polygons", [[RING, flat]])), ("polygons", [[RING]]))
        self.assertEqual(rounded(("polygons", [[[*RING, RING[0]]]])), ("polygons", [[RING]]))

    def test_is_shown(self):
        # At zoom 0 a unit of a tile is 2^20.
        self.assertFalse(is_shown(("lines", [[[0, 0], [2**20 - 1, 0]]]), 0))
        self.assertTrue(is_shown(("lines", [[[0, 0], [2**20, 0]]]), 0))
        self.assertFalse(is_shown(("polygons", [[RING]]), 13))
        self.assertTrue(is_shown(("polygons", [[RING]]), 14))
        self.assertTrue(is_shown(("points", [[0, 0]]), 0))


class GeoJson(unittest.TestCase):
    def test_one_part_and_several(self):
        for geometry, kind, depth in [
            ({"points": [[1, 2]]}, "Point", 1),
            ({"points": [[1, 2], [3, 4]]}, "MultiPoint", 2),
            ({"lines": [[[1, 2], [3, 4]]]}, "LineString", 2),
            ({"lines": [[[1, 2], [3, 4]]] * 2}, "MultiLineString", 3),
            ({"polygons": [[RING]]}, "Polygon", 3),
            ({"polygons": [[RING]] * 2}, "MultiPolygon", 4),
        ]:
            made = geojson_of(7, stand.feature(geometry))["geometry"]
            self.assertEqual(made["type"], kind)
            places = made["coordinates"]
            for _ in range(depth):
                places = places[0]
            self.assertIsInstance(places, float)

    def test_rings_are_closed(self):
        ring = geojson_of(7, stand.feature({"polygons": [[RING]]}))["geometry"]["coordinates"][0]
        self.assertEqual((len(ring), ring[0]), (5, ring[-1]))

    def test_members(self):
        made = geojson_of(7, stand.feature(name="x"))
        self.assertEqual(
            {key: made[key] for key in made if key != "geometry"},
            {"type": "Feature", "id": 7, "layer": "p", "minzoom": 0, "maxzoom": 2, "properties": {"name": "x"}},
        )

    def test_there_and_back(self):
        for geometry in (
            {"points": [[1, 2]]},
            {"points": [[1, 2], [3, 4]]},
            {"lines": [[[1, 2], [2**32 - 1, 4]]]},
            {"polygons": [[RING, HOLE], [RING]]},
        ):
            self.assertEqual(feature_of(geojson_of(7, stand.feature(geometry, n=1))), stand.feature(geometry, n=1))


if __name__ == "__main__":
    unittest.main()
