"""Tests of vtmap/geometry/wholes.py, pieces.py and cutting.py: cut features put together again, by squares whose pieces
are drawn by hand."""
import importlib.util
import unittest
from collections import namedtuple

import stand
from vtmap.geometry.pieces import pieces_of
from vtmap.geometry.shapes import Unfit
from vtmap.geometry.wholes import (
    PIECE,
    Whole,
    is_between,
    is_inside,
    joined_lines,
    joined_polygons,
    oriented,
    right_handed,
    twice_area,
    uncancelled,
    whole_in,
    wholes_of,
)
from vtmap.geometry.world import WORLD

HAS_GDAL = importlib.util.find_spec("osgeo") is not None
NO_GDAL = "no osgeo in this interpreter: nothing is cut"
# In rows that go down this square goes round clockwise as people see it, which is an outer ring of a tile.
SQUARE = [[0, 0], [4, 0], [4, 4], [0, 4]]
HOLE = [[1, 1], [1, 3], [3, 3], [3, 1]]
Row = namedtuple("Row", "number feature base seen", defaults=(None, {}))


def same_ring(test, found, wanted):
    """Whether a ring has these places in this order, wherever it begins."""
    at = found.index(wanted[0])
    test.assertEqual(found[at:] + found[:at], wanted)


class Rings(unittest.TestCase):
    def test_area(self):
        self.assertEqual((twice_area(SQUARE), twice_area(SQUARE[::-1]), twice_area(HOLE)), (32, -32, -8))

    def test_oriented(self):
        self.assertEqual((oriented(SQUARE, True), oriented(SQUARE, False)), (SQUARE, SQUARE[::-1]))

    def test_right_handed_as_rfc_7946_has_rings(self):
        # There, where y goes up, an outer ring goes round counterclockwise: its area is negative with y down.
        made = right_handed(stand.feature({"polygons": [[SQUARE, HOLE]]}))["geometry"]["polygons"][0]
        self.assertLess(twice_area(made[0]), 0)
        self.assertGreater(twice_area(made[1]), 0)

    def test_lines_have_no_hands(self):
        line = stand.feature({"lines": [[[0, 0], [1, 1]]]})
        self.assertEqual(right_handed(line), line)

    def test_inside(self):
        self.assertTrue(is_inside((2, 2), SQUARE))
        self.assertFalse(is_inside((5, 2), SQUARE))
        self.assertFalse(is_inside((2, -1), SQUARE))

    def test_between(self):
        self.assertTrue(is_between((0, 0), (5, 1), (10, 0)))
        self.assertFalse(is_between((0, 0), (5, 2), (10, 0)))
        self.assertFalse(is_between((0, 0), (-5, 0), (10, 0)))

    def test_uncancelled(self):
        self.assertEqual(uncancelled([(0, 10), (10, 0)]), ([], True))
        self.assertEqual(uncancelled([(0, 10), (6, 4)]), ([(0, 4), (6, 10)], True))
        self.assertEqual(uncancelled([(0, 10)]), ([(0, 10)], False))


class Joined(unittest.TestCase):
    def test_two_halves_of_a_square(self):
        left, right = [[0, 0], [2, 0], [2, 4], [0, 4]], [[2, 0], [4, 0], [4, 4], [2, 4]]
        ((ring,),) = joined_polygons([[[left]], [[right]]])
        same_ring(self, ring, SQUARE)

    def test_halves_round_a_hole(self):
        left = [[0, 0], [2, 0], [2, 1], [1, 1], [1, 3], [2, 3], [2, 4], [0, 4]]
        right = [[2, 0], [4, 0], [4, 4], [2, 4], [2, 3], [3, 3], [3, 1], [2, 1]]
        ((outer, inner),) = joined_polygons([[[left]], [[right]]])
        same_ring(self, outer, SQUARE)
        same_ring(self, inner, HOLE)

    def test_squares_apart(self):
        other = [[x + 10, y] for x, y in SQUARE]
        made = joined_polygons([[[SQUARE]], [[other]]])
        self.assertEqual(sorted(sorted(ring) for (ring,) in made), [sorted(SQUARE), sorted(other)])

    def test_lines(self):
        self.assertEqual(joined_lines([[[[0, 0], [5, 0]]], [[[5, 0], [9, 0]]]]), [[[0, 0], [9, 0]]])
        self.assertEqual(joined_lines([[[[0, 0], [5, 0]]], [[[5, 0], [5, 9]]]]), [[[0, 0], [5, 0], [5, 9]]])

    def test_lines_of_one_piece_stay_apart(self):
        lines = [[[0, 0], [5, 0]], [[5, 0], [9, 0]]]
        self.assertEqual(joined_lines([lines]), lines)


class Wholes(unittest.TestCase):
    def setUp(self):
        self.left = stand.feature({"lines": [[[0, 0], [5, 0]]]}, name="x", whole=7)
        self.right = stand.feature({"lines": [[[5, 0], [9, 0]]]}, name="x", whole=7)

    def test_pieces_are_one(self):
        pieces = {7: self.left, 7 + PIECE: self.right}
        self.assertEqual(
            wholes_of(pieces.items()), [Whole(7, stand.feature({"lines": [[[0, 0], [9, 0]]]}, name="x"), pieces)]
        )

    def test_a_piece_with_another_tag_stays_apart(self):
        pieces = {7: self.left, 9: {**self.right, "tags": {"name": "y", "whole": 7}}}
        self.assertEqual([whole.number for whole in wholes_of(pieces.items())], [7, 9])

    def test_pieces_without_the_first_stay_apart(self):
        found = wholes_of([(8, self.left), (9, self.right)])
        self.assertEqual([(whole.number, whole.feature) for whole in found], [(8, self.left), (9, self.right)])

    def test_the_outline_is_no_part_of_the_shape(self):
        area = stand.feature({"polygons": [[SQUARE]]}, whole=7)
        edge = stand.feature({"lines": [[[0, 0], [4, 0]]]}, layer="p-outline", whole=7)
        (found,) = wholes_of([(7, area), (8, edge)])
        self.assertEqual(
            (found.feature["layer"], found.feature["geometry"].keys(), set(found.pieces)), ("p", {"polygons"}, {7, 8})
        )

    def test_whole_in(self):
        self.assertEqual(
            [whole_in({"whole": value}) for value in (7, True, "7")] + [whole_in({})], [7, None, None, None]
        )


class Pieces(unittest.TestCase):
    def test_deleted(self):
        self.assertEqual(pieces_of(Row(7, None), {}), {})

    def test_a_small_feature_is_itself(self):
        for geometry in ({"points": [[1, 1]]}, {"lines": [[[0, 0], [2**20, 0]]]}):
            self.assertEqual(
                pieces_of(Row(7, stand.feature(geometry, last=0)), {}), {7: stand.feature(geometry, last=0)}
            )

    def test_tags_of_a_cut_feature_go_to_all_pieces(self):
        pieces = {
            7: stand.feature({"lines": [[[0, 0], [5, 0]]]}, whole=7),
            9: stand.feature({"lines": [[[5, 0], [9, 0]]]}, whole=7),
        }
        shape = {"lines": [[[0, 0], [9, 0]]]}
        made = pieces_of(Row(7, stand.feature(shape, name="new"), Whole(7, stand.feature(shape), pieces)), {})
        self.assertEqual(
            {number: (piece["geometry"], piece["tags"]) for number, piece in made.items()},
            {number: (piece["geometry"], {"name": "new", "whole": 7}) for number, piece in pieces.items()},
        )

    @unittest.skipUnless(HAS_GDAL, NO_GDAL)
    def test_pieces_of_a_new_feature_take_no_id_of_others(self):
        # (a segment of more than half of the world would be one across the 180th meridian)
        line = stand.feature({"lines": [[[at * 2**30, 2**31] for at in range(4)]]}, last=3)
        made = pieces_of(Row(7, line), {7 + PIECE: stand.feature()})
        self.assertGreater(len(made), 1)
        self.assertEqual(min(made), 7)
        self.assertNotIn(7 + PIECE, made)


@unittest.skipUnless(HAS_GDAL, NO_GDAL)
class Cutting(unittest.TestCase):
    def test_a_polygon(self):
        from vtmap.geometry.cutting import cut

        before, after = cut(("polygons", [[[(0, 0), (4, 0), (4, 4), (0, 4)]]]), 0, 1)
        self.assertEqual([abs(twice_area(part[1][0][0])) for part in (before, after)], [8, 24])

    def test_a_line(self):
        from vtmap.geometry.cutting import cut

        before, after = cut(("lines", [[(0, 0), (4, 8)]]), 0, 1)
        self.assertEqual((before, after), (("lines", [[(0, 0), (1, 2)]]), ("lines", [[(1, 2), (4, 8)]])))

    def test_points(self):
        from vtmap.geometry.cutting import cut

        self.assertEqual(cut(("points", [(0, 0), (4, 8)]), 1, 9), (("points", [(0, 0), (4, 8)]), None))

    def test_the_180th_meridian(self):
        from vtmap.geometry.cutting import on_the_world

        (kind, lines), crosses = on_the_world(("lines", [[(WORLD - 10000, 5), (10000, 5)]]))
        self.assertEqual((kind, crosses), ("lines", True))
        self.assertEqual(sorted(lines), [[(0, 5), (10000, 5)], [(WORLD - 10000, 5), (WORLD, 5)]])

    def test_outside_of_the_world(self):
        from vtmap.geometry.cutting import on_the_world

        with self.assertRaises(Unfit):
            on_the_world(("lines", [[(0, -50), (10, -20)]]))

    def test_pieces_are_drawn_right_and_lose_nothing(self):
        from vtmap.geometry.cutting import Cutter
        from vtmap.geometry.shapes import wrong_zooms

        line = ("lines", [[(0, 2**31), (WORLD, 2**31)]])
        pieces = Cutter(range(0, 4)).pieces(line, 100, 100)
        self.assertEqual([wrong_zooms(piece, range(0, 4)) for piece in pieces], [[]] * len(pieces))
        ends = sorted((chain[0][0], chain[-1][0]) for _, lines in pieces for chain in lines)
        self.assertEqual(
            (ends[0][0], ends[-1][1], [end for _, end in ends[:-1]]), (0, WORLD, [start for start, _ in ends[1:]])
        )


if __name__ == "__main__":
    unittest.main()
