"""Tests of vtmap/pictures/ without a server: rules as web/style.js explains them, what is drawn anew, and how the work of drawings is bounded."""
import importlib.util
import json
import os
import sys
import threading
import time
import unittest
from unittest import mock

import stand
from vtmap.faults import Refused
from vtmap.files.protobuf import bytes_field, number_field, varint_of
from vtmap.files.vector_tile import AREAS, BROKEN, decoded
from vtmap.pictures import painters
from vtmap.pictures.messages import message, read
from vtmap.pictures.painters import Busy, Painter, Painters, TooLarge
from vtmap.pictures.style import Style, checked, colour_of, own_rule, width
from vtmap.pictures.tiles import StyleFile, Tiles

STYLE = os.path.join(stand.TOP, "web", "style.json")
HAS_CAIRO = importlib.util.find_spec("cairo") is not None
# The worked tile of docs/FORMATS.md: a point of layer p.
WORKED = bytes.fromhex("1a130a017012090807180122030900002880207802")
DRAWING = {"style": json.load(open(STYLE, encoding="utf-8")), "layers": ["p"], "zoom": 0, "part": [0, 0, 4096, 512], "pieces": 2, "scale": 1,
           "transparent": False}


def zigzag(number):
    """A number as a tile has it."""
    return number << 1 if number >= 0 else -number * 2 - 1


def area_tile(count):
    """A tile of as many large triangles."""
    ring = [9, zigzag(0), zigzag(0), 2 | 2 << 3, zigzag(4096), zigzag(0), zigzag(0), zigzag(4096), 15]
    row = bytes_field(2, number_field(3, AREAS) + bytes_field(4, b"".join(map(varint_of, ring))))
    return bytes_field(3, number_field(15, 2) + bytes_field(1, b"a") + row * count + number_field(5, 4096))


class Rules(unittest.TestCase):
    def setUp(self):
        with open(STYLE, encoding="utf-8") as file:
            self.given = json.load(file)

    def test_colours(self):
        self.assertEqual(colour_of("#fff"), (1, 1, 1, 1))
        self.assertEqual(colour_of("#ff000080"), (1, 0, 0, 128 / 255))
        self.assertEqual(colour_of("rgba(255, 0, 51, 0.5)"), (1, 0, 0.2, 0.5))
        for text in ("red", "#12", "url(x)", "rgba(1,2)", "#12345g", ""):
            with self.assertRaises(ValueError, msg=text):
                colour_of(text)

    def test_a_feature_has_the_first_rule_that_is_of_it(self):
        style = Style(self.given, ["road", "land", "well"])
        at = [rule.layer for rule in style.rules].index("road")
        found = [style.place_of("road", tags) for tags in ({"kind": "path"}, {"kind": "street"}, {"kind": "x"}, {})]
        self.assertEqual(found, [at, at + 1, at + 2, at + 2])
        self.assertEqual(style.place_of("land-outline", {}), style.place_of("land", {}))
        self.assertIsNone(Style({**self.given, "rules": []}, ["x"]).place_of("x", {}))

    def test_true_is_not_1(self):
        style = Style({"background": "#fff", "rules": [{"layer": "x", "when": {"a": 1}}]}, [])
        self.assertEqual([style.place_of("x", {"a": value}) for value in (1, True, "1")], [0, None, None])

    def test_other_layers_have_colours_in_the_order_of_their_names(self):
        style, colours = Style(self.given, ["well", "pump-outline", "land", "pump"]), self.given["rules"][-1]["colours"]
        own = [rule for rule in style.rules if rule.is_own]
        self.assertEqual([(rule.layer, rule.line) for rule in own], [("pump", colour_of(colours[0])), ("well", colour_of(colours[1]))])
        self.assertEqual(own[0].area[3], 0.43)
        self.assertEqual(own_rule(self.given["rules"][-1], "x", 10).line, colour_of(colours[0]))

    def test_of_other_layers_all_areas_are_below_all_lines(self):
        style = Style({"background": "#fff", "rules": [{"layer": "a"}, {"layer": "*", "colours": ["#111111", "#222222"]}]}, ["x", "y"])
        parts = [(1, ("areas",)), (2, ("areas",)), (1, ("lines",)), (2, ("lines",)), (1, ("points",)), (2, ("points",))]
        self.assertEqual(style.order, [(0, ("areas", "lines", "points")), *parts])

    def test_widths(self):
        rule = Style(self.given, []).rules[3]
        self.assertEqual([width(rule, 15), width(rule, 16), width(rule, 0)], [6, 9, 0.7])

    def test_a_style_that_cant_be_drawn_by(self):
        for text in ("", "[]", "{}", '{"background":"#fff","rules":[{}]}', '{"background":"#fff","rules":[{"layer":"*","colours":[]}]}',
                     '{"background":7,"rules":[]}', '{"background":"#fff","rules":[{"layer":"x","width":"wide"}]}'):
            with self.assertRaises(Refused, msg=text):
                checked(text)


class Decoding(unittest.TestCase):
    def test_the_worked_tile(self):
        self.assertEqual(decoded(WORKED), {"p": [(7, 1, [[(0, 0)]], {})]})

    def test_what_is_no_tile(self):
        for at in range(1, len(WORKED)):
            try:
                decoded(WORKED[:at])
            except BROKEN:
                pass


class Messages(unittest.TestCase):
    def test_what_is_written_is_read(self):
        text = message({"a": [1, "ö"]}, b"\0\1") + message({})
        at = iter([])

        def take(length):
            nonlocal text
            part, text = text[:length], text[length:]
            return part

        self.assertEqual([read(take), read(take), read(take), list(at)], [({"a": [1, "ö"]}, b"\0\1"), ({}, b""), None, []])


class Sleeper(Painter):
    """A process that answers nothing."""

    def start(self):
        if self.child is None:
            words = [sys.executable, "-c", "import time; time.sleep(100)"]
            self.child = painters.subprocess.Popen(words, stdin=painters.subprocess.PIPE, stdout=painters.subprocess.PIPE)


class Bounds(unittest.TestCase):
    def test_a_drawing_that_takes_too_long_ends_with_its_process(self):
        sleeper = Sleeper()
        with mock.patch.object(painters, "LONGEST", 0.3), self.assertRaisesRegex(TooLarge, "more than 0.3 seconds"):
            sleeper.paint({}, b"")
        self.assertIsNone(sleeper.child)

    @unittest.skipUnless(HAS_CAIRO, "no python3-cairo: nothing is drawn")
    def test_a_drawing_that_takes_too_much_memory(self):
        pool = Painters(1)
        self.addCleanup(pool.end)
        self.assertEqual(len(pool.paint("a", DRAWING, WORKED)), 4)
        with self.assertRaisesRegex(TooLarge, "512 MB"):
            # 12,288 x 12,288 dots of four bytes are 604 MB.
            pool.paint("a", {**DRAWING, "scale": 24}, area_tile(1))
        self.assertEqual(len(pool.paint("a", DRAWING, WORKED)), 4)

    @unittest.skipUnless(HAS_CAIRO, "no python3-cairo: nothing is drawn")
    def test_what_is_no_tile_is_refused_and_the_process_goes_on(self):
        pool = Painters(1)
        self.addCleanup(pool.end)
        with self.assertRaisesRegex(Refused, "no tile"):
            pool.paint("a", DRAWING, b"\xff\xff")
        child = pool.all[0].child
        pool.paint("a", DRAWING, b"")
        self.assertIs(pool.all[0].child, child)

    @unittest.skipUnless(HAS_CAIRO, "no python3-cairo: nothing is drawn")
    def test_a_process_that_was_killed_is_started_again(self):
        pool = Painters(1)
        self.addCleanup(pool.end)
        pool.paint("a", DRAWING, WORKED)
        pool.all[0].child.kill()
        pool.all[0].child.wait()
        self.assertEqual(len(pool.paint("a", DRAWING, WORKED)), 4)


class Stuck(Painter):
    """Draws once it may."""

    go = threading.Event()

    def paint(self, words, content):
        if words["slow"]:
            self.go.wait(20)
        return [b""]


class Shares(unittest.TestCase):
    def setUp(self):
        self.pool = Painters(2)
        self.pool.free = self.pool.all = [Stuck(), Stuck()]
        Stuck.go.clear()
        self.threads = []
        self.addCleanup(self.end)

    def end(self):
        Stuck.go.set()
        for thread in self.threads:
            thread.join(20)

    def begin(self, client):
        """A client has something drawn that takes long."""
        self.threads.append(threading.Thread(target=self.pool.paint, args=(client, {"slow": True}, b""), daemon=True))
        self.threads[-1].start()

    def waits(self, count):
        """Waits until so many drawings wait."""
        end = time.monotonic() + 20
        while sum(self.pool.waiting.values()) != count and time.monotonic() < end:
            time.sleep(0.01)

    def test_one_clients_slow_drawings_hold_up_nobody_else(self):
        for _ in range(5):
            self.begin("slow")
        self.waits(4)
        self.assertEqual(self.pool.paint("other", {"slow": False}, b""), [b""])
        self.assertEqual(sum(self.pool.waiting.values()), 4)

    def test_only_so_many_wait(self):
        with mock.patch.object(painters, "MOST_OF_ONE", 3), mock.patch.object(painters, "MOST_WAITING", 5):
            for _ in range(4):
                self.begin("slow")
            self.waits(3)
            with self.assertRaises(Busy):
                self.pool.paint("slow", {"slow": False}, b"")
            self.assertEqual(self.pool.paint("other", {"slow": False}, b""), [b""])

    def test_nobody_waits_for_ever(self):
        self.begin("slow")
        with mock.patch.object(painters, "WAIT", 0.1), self.assertRaises(Busy):
            while not self.pool.drawing["slow"]:
                time.sleep(0.01)
            self.pool.paint("slow", {"slow": False}, b"")


class Server:
    """Stands for the server: a tile whose tag changes, and how often it was sent."""

    def __init__(self):
        self.url = mock.Mock(netloc="here")
        self.tag, self.sent, self.has_tags, self.content = 'W/"1"', 0, True, WORKED

    def ask(self, path, fields):
        if path == "/map/metadata":
            return 200, None, b'{"vector_layers":[{"fields":{},"id":"p","maxzoom":2,"minzoom":0}]}'
        if self.has_tags and fields.get("If-None-Match") == self.tag:
            return 304, self.tag, b""
        self.sent += 1
        return 200, self.tag if self.has_tags else None, self.content


class Counting:
    """Stands for the processes that draw."""

    def __init__(self):
        self.drawn = []

    def paint(self, client, words, content):
        self.drawn.append((words["zoom"], words["part"], words["scale"], words["transparent"]))
        if content == b"large":
            raise TooLarge("it is too large")
        return [b"%d" % at for at in range(words["pieces"] ** 2)]


class Anew(stand.InFolder):
    def setUp(self):
        super().setUp()
        with open(STYLE, encoding="utf-8") as file:
            self.style = self.path("style.json", file.read())
        self.tiles = Tiles("http://127.0.0.1:1", StyleFile(self.style), Counting())
        self.server = self.tiles.source = Server()
        self.drawn = self.tiles.painters.drawn

    def of(self, *place):
        return self.tiles.picture("me", place, 1, False)

    def test_four_pictures_are_drawn_at_once_and_once(self):
        found = [self.of(2, column, row) for row in (2, 3) for column in (0, 1)] * 2
        self.assertEqual([one.data for one in found], [b"0", b"1", b"2", b"3"] * 2)
        self.assertEqual((self.drawn, self.server.sent, len({one.tag for one in found})), ([(1, (0, 0, 4096, 512), 1, False)], 1, 4))

    def test_after_an_edit_of_the_tile(self):
        first = self.of(1, 0, 0)
        self.server.tag = 'W/"2"'
        second = self.of(1, 0, 0)
        self.assertEqual((len(self.drawn), first.tag == second.tag), (2, False))

    def test_a_server_without_tags(self):
        self.server.has_tags = False
        first, second = self.of(1, 0, 0), self.of(1, 0, 0)
        self.server.content = b""
        third = self.of(1, 0, 0)
        self.assertEqual((len(self.drawn), first.tag == second.tag, first.tag == third.tag), (2, True, False))

    def test_after_a_change_of_the_style(self):
        first = self.of(1, 0, 0)
        with open(self.style, encoding="utf-8") as file:
            text = file.read()
        os.replace(self.path("new", text.replace("#a9cfe3", "#000000")), self.style)
        self.assertEqual((self.of(1, 0, 0).tag == first.tag, len(self.drawn)), (False, 2))

    def test_parts_of_the_last_tiles(self):
        self.of(0, 0, 0)
        self.of(5, 3, 30)
        # Tile 4/1/15 lies in 2/0/3: its second column and last row of four.
        self.assertEqual(self.drawn, [(-1, (0, 0, 4096, 256), 1, False), (4, (1024, 3072, 1024, 512), 1, False)])
        with self.assertRaisesRegex(TooLarge, "zoom 2"):
            self.of(16, 0, 0)

    def test_what_is_too_large_is_tried_once(self):
        self.server.content = b"large"
        for _ in range(3):
            with self.assertRaisesRegex(TooLarge, "it is too large"):
                self.of(1, 0, 0)
        self.assertEqual(len(self.drawn), 1)
        now = time.monotonic()
        with mock.patch("vtmap.pictures.tiles.time.monotonic", return_value=now + 1000):
            self.server.content = WORKED
            self.assertEqual(self.of(1, 0, 0).data, b"0")

    def test_those_that_nobody_asks_for_go_first(self):
        with mock.patch("vtmap.pictures.tiles.MOST_KEPT", 3 * 504):
            for column in (0, 2, 0, 4, 6, 0, 2):
                self.of(4, column, 0)
        self.assertEqual(len(self.drawn), 5)

    def test_who_wants_the_same_waits_for_it(self):
        threads = [threading.Thread(target=self.of, args=(2, at % 2, at // 2 % 2)) for at in range(16)]
        for thread in threads:
            thread.start()
        for thread in threads:
            thread.join(20)
        self.assertEqual((len(self.drawn), self.server.sent), (1, 1))


if __name__ == "__main__":
    unittest.main()
