"""Tests of vtmap/machine/ without a machine: the file of a map, and what nginx includes of maps."""
import unittest

import stand  # noqa: F401
from vtmap.faults import Refused, Wrong
from vtmap.machine import map_file, nginx_files
from vtmap.machine.map_file import MapHere

NORTH = MapHere("north", 8100, 8101, ("north.example.org",), (7.2, 54.3, 7.9, 54.8))
SOUTH = MapHere("south-2", 8102, 8103)


class MapFiles(unittest.TestCase):
    def test_a_map_is_what_its_file_says(self):
        for one in (NORTH, SOUTH):
            self.assertEqual(map_file.map_of(one.name, one.text), one)
        self.assertIn('PORT=8100\nGATEWAY=8101\nHOSTS="north.example.org"\nBOUNDS=7.2,54.3,7.9,54.8\n', NORTH.text)
        self.assertNotIn("BOUNDS", SOUTH.text)

    def test_other_variables_and_notes_stay_of_no_account(self):
        text = "; a note\n# PORT=1\nVTSERVE_PAUSE=5\nPORT=8100\nGATEWAY=8101\nHOSTS=a.example b.example\n"
        self.assertEqual(map_file.map_of("a", text), MapHere("a", 8100, 8101, ("a.example", "b.example")))

    def test_a_file_without_numbers(self):
        for text in ("", "PORT=8100\n", "PORT=x\nGATEWAY=8101\n"):
            self.assertRaises(Refused, map_file.map_of, "a", text)

    def test_boxes(self):
        self.assertEqual(map_file.box("-180,-85.06,180,85.06"), (-180, -85.06, 180, 85.06))
        for text in ("1,2,3", "a,b,c,d", "7,54,7,55", "8,54,7,55", "7,55,8,54", "7,54,181,55", "7,-90,8,55"):
            self.assertRaises(Wrong, map_file.box, text)

    def test_a_new_map_takes_ports_and_names_that_are_free(self):
        self.assertEqual(
            map_file.new_map("west", None, [], (), [NORTH, SOUTH]), MapHere("west", 8104, 8105, pictures=18104)
        )
        self.assertEqual(map_file.new_map("west", None, [], (), [SOUTH]), MapHere("west", 8100, 8101, pictures=18100))
        for other in (MapHere("x", 8100, 9000), MapHere("x", 9000, 8101)):
            self.assertEqual(map_file.new_map("west", None, [], (), [other]).port, 8102)
        self.assertEqual(map_file.new_map("west", 9000, ["w.example"], (), [NORTH]).gateway, 9001)
        for port in (8099, 8100, 8101, 0, 65535):
            self.assertRaises(Refused, map_file.new_map, "west", port, [], (), [NORTH])
        self.assertRaises(Refused, map_file.new_map, "west", None, ["north.example.org"], (), [NORTH])

    def test_the_port_of_pictures_is_free(self):
        for port, others, wanted in (
            (8100, [], 18100),
            (60000, [], 50000),
            (8100, [MapHere("x", 18100, 18101)], 18102),
            (60000, [MapHere("x", 50000, 1)], 49999),
        ):
            self.assertEqual(map_file.new_map("west", port, [], (), others).pictures, wanted)
        self.assertRaises(Refused, map_file.new_map, "west", 18100, [], (), [MapHere("x", 8100, 8101, pictures=18100)])
        old = MapHere("old", 8100, 8101)
        self.assertNotIn("PICTURES", old.text)
        self.assertEqual(map_file.map_of("old", old._replace(pictures=7).text).pictures, 7)

    def test_names_that_a_map_cannot_have(self):
        for name in ("", "North", "1st", "a" * 32, "a_b", "a/b", *map_file.PATHS):
            self.assertRaises(Wrong, map_file.new_map, name, None, [], (), [])
        for host in ("", "-a.example", "a example", "A.example", "a.example;"):
            self.assertRaises(Wrong, map_file.new_map, "a", None, [host], (), [])


class NginxFiles(unittest.TestCase):
    def test_each_file_has_its_lines(self):
        files = {
            name: text.removeprefix(nginx_files.ABOUT) for name, text in nginx_files.files_of([NORTH, SOUTH]).items()
        }
        self.assertEqual(files["hosts.conf"], "north.example.org north;\n")
        self.assertEqual(files["names.conf"], "server_name north.example.org;\n")
        self.assertEqual(files["paths.conf"], '"~^/north(/|\\?|$)" north;\n"~^/south-2(/|\\?|$)" south-2;\n')
        self.assertEqual(files["upstreams.conf"].count("127.0.0.1:810"), 4)
        self.assertIn("$is_edit_of_south_2", files["upstreams.conf"])
        self.assertNotIn("drawer", files["upstreams.conf"])
        drawn = nginx_files.files_of([SOUTH._replace(pictures=18102)])["upstreams.conf"]
        self.assertIn("upstream drawer-south-2 {\n    server 127.0.0.1:18102;\n}\n", drawn)
        self.assertIn("rewrite ^/south-2(?:/(.*))?$ /$1;", files["rewrites.conf"])

    def test_tilejson_of_a_map_with_a_box(self):
        # 0.7 degrees are wider than a tile of zoom 10 (0.35), and not than one of zoom 9.
        wanted = """north ',"bounds":[7.2,54.3,7.9,54.8],"center":[7.55,54.55,9]';\n"""
        self.assertEqual(nginx_files.files_of([NORTH, SOUTH])["bounds.conf"], nginx_files.ABOUT + wanted)

    def test_no_maps(self):
        self.assertEqual(set(nginx_files.files_of([]).values()), {nginx_files.ABOUT})


if __name__ == "__main__":
    unittest.main()
