"""Tests of what vtmap prints of names, ids, differences and sizes, and of what it takes for a mistake."""
import unittest

from stand import feature
from vtmap.commands import deletions, differences, ids, sizes
from vtmap.shown import shown, shown_json, shown_lines


class Names(unittest.TestCase):
    def test_control_characters_are_shown_in_quotes(self):
        for name, wanted in [
            ("Straße Süd", "Straße Süd"),
            ("it's", "it's"),
            ("a\nb", r"'a\nb'"),
            ("\x1b[31mred", r"'\x1b[31mred'"),
            ("a\u2028b", r"'a\u2028b'"),
            (7, "7"),
            ("", ""),
        ]:
            self.assertEqual(shown(name), wanted)

    def test_line_feeds_of_a_text_end_its_lines(self):
        self.assertEqual(shown_lines("one\ntwo\r\n\x1b[0m"), "one\ntwo\\r\n\\x1b[0m")

    def test_json_is_one_line(self):
        self.assertEqual(shown_json({"a": "\n\x7f\u2028ß"}), '{"a":"\\n\\u007f\\u2028ß"}')
        self.assertEqual(shown_json("ß", is_ascii=True), '"\\u00df"')


class Ids(unittest.TestCase):
    def test_ranges_both_ways(self):
        self.assertEqual(ids.ranges("1-3000,5000"), [range(1, 3001), range(5000, 5001)])
        self.assertEqual(ids.told_ranges([1, 2, 3, 7, 9, 10]), "1-3,7,9-10")
        self.assertEqual(ids.told_ranges([]), "")

    def test_words_that_are_none(self):
        for text in ("", "x", "1-2-3", "1,,2"):
            self.assertRaises(ValueError, ids.ranges, text)


class Deletions(unittest.TestCase):
    def test_more_than_20_that_are_more_than_half_are_many(self):
        for gone, known, wanted in [(20, 20, False), (21, 21, True), (21, 41, True), (21, 42, False), (22, 42, True)]:
            self.assertEqual(deletions.are_many(gone, known), wanted, (gone, known))


class Differences(unittest.TestCase):
    def test_what_a_change_is(self):
        before = feature(name="Gate", height=26)
        for after, wanted in [
            (before, "nothing"),
            (None, "deleted"),
            (feature(name="Gate", height=27), "height: 26 -> 27"),
            (feature(name="Gate", height=26, open=True), "open: None -> True"),
            (feature({"points": [[1, 0]]}, name="Gate", height=26), "its shape"),
            (feature(last=3, layer="q", name="Gate", height=26), "(layer): 'p' -> 'q', (maxzoom): 2 -> 3"),
        ]:
            self.assertEqual(differences.told_change(before, after), wanted)
        self.assertEqual(differences.told_change(None, before), "put anew")

    def test_what_the_map_has_and_the_file(self):
        one, other = feature(name="Gate"), feature(name="Gate\n")
        self.assertEqual(differences.told_difference(one, other), r"name: 'Gate' on the map, 'Gate\n' in the file")
        self.assertEqual(differences.told_difference(None, one), "it isn't on the map")
        self.assertEqual(differences.told_difference(one, None), "it isn't in the file")
        self.assertEqual(differences.told_difference(one, one), "the shapes of its pieces")

    def test_what_a_feature_is_called(self):
        self.assertEqual(differences.named(7, feature(name="Gate")), "p 7 ('Gate')")
        self.assertEqual(differences.named(7, feature(name="Gate"), "A-7"), "p 7 ('A-7', 'Gate')")
        self.assertEqual(differences.named(7, feature(name="A-7"), "A-7"), "p 7 ('A-7')")
        self.assertEqual(differences.named(7, feature(layer="a\nb", name=7)), r"'a\nb' 7")


class Sizes(unittest.TestCase):
    def test_areas_are_those_of_a_disk(self):
        # docs/HTTP.md has the status of a disk of 4,096 sectors: 1,024 places of the journal, areas of 1,534.
        self.assertEqual(sizes.area_of(4096), 1534)
        self.assertEqual(sizes.area_of(64), (64 - 3 - 16) // 2)
        for area, sectors in [(0, 4096), (1534, 4096), (1535, 8192), (3070, 8192), (3071, 16384)]:
            self.assertEqual(sizes.disk_for(area), sectors, area)

    def test_counts(self):
        found = [sizes.counted(number, "sector") for number in (0, 1, 2, 1000)]
        self.assertEqual(found, ["0 sectors", "1 sector", "2 sectors", "1,000 sectors"])


if __name__ == "__main__":
    unittest.main()
