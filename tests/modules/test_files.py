"""Tests of vtmap/files/ without GDAL. Wanted bytes are the examples of docs/FORMATS.md, of the specifications of
Protocol Buffers and PMTiles 3, of OGC 12-128 (GeoPackage) and of well-known binary."""
import gzip
import json
import sqlite3
import struct
import unittest

import stand
from vtmap.ending import replaced
from vtmap.faults import Refused
from vtmap.files import checkout_file, disk_file, edit_log, geopackage, proxy_log, save_log, texts
from vtmap.files.archive_ids import ids_in
from vtmap.files.base_file import Base, hash_of, types_in
from vtmap.files.id_file import IdFile
from vtmap.files.line_file import LineFile
from vtmap.files.protobuf import fields, varint
from vtmap.client.edits import delete, put
from vtmap.geometry.wholes import Whole

TILE = bytes.fromhex("1a130a017012090807180122030900002880207802")
ROOT = bytes.fromhex("020005020115150101")
EXAMPLE = bytes.fromhex("0107000000000000000170000201010000000000000000" "0000")
HEAD = bytes.fromhex("01020100" "0100000000000000" "1a000000" "01") + EXAMPLE


def archive():
    """The archive of docs/FORMATS.md: three tiles of one content."""
    metadata = b'{"vector_layers":[{"fields":{},"id":"p","maxzoom":2,"minzoom":0}]}'
    at = [127, 127 + len(ROOT), 127 + len(ROOT) + len(metadata)]
    places = [at[0], len(ROOT), at[1], len(metadata), at[2], 0, at[2], len(TILE)]
    return (
        b"PMTiles\x03"
        + struct.pack("<11Q6B4iB2i", *places, 3, 2, 1, 1, 1, 1, 1, 0, 2, 0, 0, 0, 0, 0, 0, 0)
        + ROOT
        + metadata
        + TILE
    )


class Protobuf(unittest.TestCase):
    def test_the_examples_of_the_specification(self):
        self.assertEqual(varint(bytes.fromhex("9601"), 0), (150, 2))
        self.assertEqual(list(fields(bytes.fromhex("089601"))), [(1, 150)])
        self.assertEqual(list(fields(bytes.fromhex("120774657374696e67"))), [(2, b"testing")])

    def test_the_greatest_number(self):
        self.assertEqual(varint(b"\xff" * 9 + b"\x01", 0), (2**64 - 1, 10))

    def test_fields_of_fixed_width(self):
        self.assertEqual(
            list(fields(b"\x0d\x01\x02\x03\x04\x11" + b"x" * 8 + b"\x18\x05")),
            [(1, b"\x01\x02\x03\x04"), (2, b"x" * 8), (3, 5)],
        )

    def test_ids_in_an_archive(self):
        self.assertEqual(ids_in(archive()), [7])
        self.assertEqual(ids_in(b""), [])


class Disks(stand.InFolder):
    def disk(self, sectors, **held):
        """A disk file of so many sectors: empty but for some, which are named `at` and their number."""
        path = self.path("disk")
        with open(path, "wb") as file:
            for number in range(sectors):
                file.write(held.get(f"at{number}", b"").ljust(512, b"\0"))
        return path

    def formatted(self, **held):
        form = b"VTILEDSK" + struct.pack("<IQ", 2, 256)
        root = b"VTROOT01" + struct.pack("<5Q", 0, 0, 0, 0, 0)
        return self.disk(256, **{"at0": form, "at1": root, **held})

    def test_an_empty_disk(self):
        self.assertEqual(disk_file.moment_of(self.formatted()), ({}, 0, 0))

    def test_one_edit(self):
        self.assertEqual(disk_file.moment_of(self.formatted(at3=HEAD)), ({7: stand.feature()}, 1, 0))

    def test_the_head_of_a_later_edit_ends_the_journal(self):
        later = HEAD[:4] + struct.pack("<Q", 2) + HEAD[12:]
        self.assertEqual(disk_file.moment_of(self.formatted(at3=later)), ({}, 0, 0))

    def test_a_snapshot(self):
        # Generation 1: its root is in sector 2, its area begins at sector 161, and its journal in slot 1.
        root = b"VTROOT01" + struct.pack("<5Q", 1, 1, 1, 25, 223)
        removal = bytes.fromhex("01020100" "0200000000000000" "0a000000" "01" "020700000000000000")
        path = self.formatted(at2=root, at161=EXAMPLE, at3=HEAD)
        self.assertEqual(disk_file.moment_of(path), ({7: stand.feature()}, 1, 0))
        self.assertEqual(
            disk_file.moment_of(self.formatted(at2=root, at161=EXAMPLE, at3=HEAD, at4=removal)), ({}, 2, 0)
        )

    def test_a_deletion_in_a_snapshot(self):
        root = b"VTROOT01" + struct.pack("<5Q", 1, 1, 1, 9, 0)
        path = self.formatted(at2=root, at161=bytes.fromhex("020700000000000000"))
        with open(path, "rb") as file:
            disk = disk_file.Disk(file.fileno())
            self.assertRaises(disk_file.Damaged, disk.snapshot, disk.root())

    def test_the_tags_of_the_example(self):
        tags = bytes.fromhex("04" "016101010078" "016203feffffffffffffff" "0163020300000000000000" "016405")
        self.assertEqual(disk_file.Text(EXAMPLE[:-1] + tags).change(), (7, stand.feature(a="x", b=-2, c=3, d=True)))

    def test_an_edit_of_two_changes(self):
        features = {9: stand.feature()}
        disk_file.applied(features, 2, b"\2" + EXAMPLE + bytes.fromhex("020900000000000000"))
        self.assertEqual(features, {7: stand.feature()})

    def test_a_text_that_ends_early(self):
        self.assertRaises(disk_file.Damaged, disk_file.Text(EXAMPLE[:-1]).change)

    def test_what_is_no_disk(self):
        self.assertRaises(disk_file.Damaged, disk_file.moment_of, self.disk(64))
        self.assertRaises(OSError, disk_file.moment_of, self.path("none"))


class GeoPackages(stand.InFolder):
    SHAPES = [
        ({"points": [[1, 2]]}, False),
        ({"points": [[1, 2], [3, 4]]}, True),
        ({"lines": [[[0, 0], [2**32 - 1, 5]]]}, False),
        ({"polygons": [[[[0, 0], [9, 0], [9, 9]], [[1, 1], [2, 1], [2, 2]]], [[[20, 20], [29, 20], [29, 29]]]]}, True),
    ]

    def test_there_and_back(self):
        for geometry, is_several in self.SHAPES:
            self.assertEqual(geopackage.geometry_of(geopackage.blob_of(geometry, is_several)), geometry)

    def test_the_head_of_a_blob(self):
        # OGC 12-128, 2.1.3: GP, version 0, flags (little-endian, without a box), the system; then well-known binary
        # of a point.
        blob = geopackage.blob_of({"points": [[2**31, 2**31]]}, False)
        self.assertEqual(blob[:13], b"GP\0\1" + struct.pack("<iBI", 3857, 1, 1))
        self.assertEqual(len(blob), 8 + 21)

    def test_the_box_of_a_line(self):
        blob = geopackage.blob_of({"lines": [[[0, 2**31], [2**31, 0]]]}, False)
        west, east, south, north = struct.unpack_from("<4d", blob, 8)
        self.assertEqual(blob[3], 3)
        self.assertTrue(west < east < 0.01 and -0.01 < south < north)

    def test_a_point_in_degrees_of_another_byte_order_with_a_height(self):
        blob = b"GP\0\0" + struct.pack(">iBI3d", 4326, 0, 1001, 90.0, 0.0, 5.0)
        self.assertEqual(geopackage.geometry_of(blob), {"points": [[3 * 2**30, 2**31]]})

    def test_what_isnt_taken(self):
        point = struct.pack("<BI2d", 1, 1, 0, 0)
        for blob in (
            None,
            b"GP",
            b"GP\0\x11" + struct.pack("<i", 3857),
            b"GP\0\1" + struct.pack("<i", 25832) + point,
            b"GP\0\1" + struct.pack("<i", 3857) + point[:-1],
            b"GP\0\1" + struct.pack("<iBI2d", 3857, 1, 1, 3e7, 0),
            b"GP\0\1" + struct.pack("<iBII", 3857, 1, 7, 0),
        ):
            self.assertRaises(geopackage.Unreadable, geopackage.geometry_of, blob)

    def test_names(self):
        taken = {"fid"}
        self.assertEqual(
            [geopackage.free_name(name, taken) for name in ("a", "A", "fid", "gpkg_x")],
            ["a", "A_2", "fid_2", "layer_gpkg_x"],
        )
        self.assertEqual(geopackage.quoted('a"b'), '"a""b"')

    def test_a_table(self):
        file = geopackage.create(self.path("x.gpkg"))
        geopackage.add_table(
            file, "p", "points", False, [("name", "TEXT"), ("is", "BOOLEAN")], [(7, {"points": [[1, 2]]}, ["x", True])]
        )
        self.assertEqual(geopackage.tables(file), [("p", "geom")])
        self.assertEqual(
            [
                (number, geopackage.geometry_of(blob), cells)
                for number, blob, cells in geopackage.rows(file, "p", "geom")
            ],
            [(7, {"points": [[1, 2]]}, {"name": "x", "is": True})],
        )
        self.assertEqual(
            file.execute("SELECT geometry_type_name, srs_id FROM gpkg_geometry_columns").fetchall(), [("POINT", 3857)]
        )
        # OGC 12-128, requirement 2: the file says that it is a GeoPackage.
        self.assertEqual(file.execute("PRAGMA application_id").fetchone()[0], int.from_bytes(b"GPKG", "big"))
        file.close()


class Checkouts(stand.InFolder):
    def test_forms(self):
        form = checkout_file.form_of
        self.assertEqual(
            [form([True, False]), form([1, -2]), form([1, True]), form(["x"]), form([2**63])],
            ["BOOLEAN", "INTEGER", "TEXT", "TEXT", "TEXT"],
        )
        self.assertEqual(
            [form(["1.5", 2], "REAL"), form(["1.50"], "REAL"), form(["2026-11-30"], "DATE"), form(["2026"], "DATE")],
            ["REAL", "TEXT", "DATE", "TEXT"],
        )

    def test_cells_and_tags(self):
        for value, form, cell in [
            ("1.5", "REAL", 1.5),
            (7, "INTEGER", 7),
            (7, "TEXT", "7"),
            (True, "TEXT", "true"),
            (True, "BOOLEAN", True),
            ("x", "TEXT", "x"),
        ]:
            self.assertEqual(checkout_file.cell_of(value, form), cell)
            self.assertEqual(checkout_file.tag_of(cell, value), value)
        self.assertEqual(checkout_file.tag_of("x", 7), "x")

    def test_rings_begin_anywhere_and_go_either_way(self):
        normal = checkout_file.normal
        self.assertEqual(
            normal({"polygons": [[[[0, 0], [9, 0], [9, 9]]]]}), normal({"polygons": [[[[9, 9], [9, 0], [0, 0]]]]})
        )
        self.assertNotEqual(normal({"lines": [[[0, 0], [9, 0]]]}), normal({"lines": [[[9, 0], [0, 0]]]}))

    def test_a_three_way_merge(self):
        before = stand.feature(a=1, b=1, c=1)
        mine = {**before, "minzoom": 1, "tags": {"a": 2, "b": 1}}
        theirs = {**before, "maxzoom": 5, "tags": {"a": 1, "b": 3, "c": 1, "d": 4}}
        self.assertEqual(
            checkout_file.merged(before, mine, theirs),
            {**before, "minzoom": 1, "maxzoom": 5, "tags": {"a": 2, "b": 3, "d": 4}},
        )
        self.assertIsNone(checkout_file.merged(before, None, theirs))

    def test_an_edited_file(self):
        path, one = self.path("c.gpkg"), stand.feature(name="x", n=1)
        wholes = [Whole(7, one, {7: one}), Whole(8, stand.feature(name="y"), {8: stand.feature(name="y")})]
        self.assertEqual(checkout_file.write(path, wholes, {"url": "u"}, {}), 1)
        self.assertEqual(list(checkout_file.Checkout(path).rows()), [])
        with sqlite3.connect(path) as file:
            file.execute("UPDATE p SET name = 'z' WHERE fid = 7")
            file.execute("DELETE FROM p WHERE fid = 8")
            file.execute("INSERT INTO p (geom, name) SELECT geom, 'new' FROM p WHERE fid = 7")
        file.close()
        edited = checkout_file.Checkout(path)
        found = {row.fid: (row.number, row.feature) for row in edited.rows()}
        edited.file.close()
        self.assertEqual(
            found, {7: (7, stand.feature(name="z", n=1)), 8: (8, None), 9: (None, stand.feature(name="new"))}
        )

    def test_another_file(self):
        geopackage.create(self.path("x.gpkg")).close()
        for name in ("x.gpkg", "none.gpkg"):
            self.assertRaises(checkout_file.Unusable, checkout_file.Checkout, self.path(name))


class Lines(stand.InFolder):
    def test_a_line_that_isnt_whole_is_cut_off(self):
        path = self.path("x", '["a",1]\n["b"')
        file = LineFile(path, ['["'], "ids")
        self.assertEqual(file.rows, [["a", 1]])
        file.add([["c", 2]])
        file.file.close()
        with open(path, encoding="utf-8") as made:
            self.assertEqual(made.read(), '["a",1]\n["c",2]\n')

    def test_another_file_is_left_as_it_is(self):
        path = self.path("x", "my letter\n")
        self.assertRaises(OSError, LineFile, path, ['["'], "ids")
        with open(path, encoding="utf-8") as made:
            self.assertEqual(made.read(), "my letter\n")

    def test_nobody_else_uses_it(self):
        path = self.path("x")
        file = LineFile(path, ['["'], "ids")
        self.assertRaises(OSError, LineFile, path, ['["'], "ids")
        file.file.close()

    def test_ids(self):
        path = self.path("ids")
        ids = IdFile(path)
        ids.begin_at(100)
        self.assertEqual(
            [ids.number("r", "a"), ids.number("r", "b"), ids.number("r", "a"), ids.number("s", "a")],
            [100, 101, 100, 102],
        )
        ids.save()
        ids.file.file.close()
        again = IdFile(path)
        again.begin_at(5)
        self.assertEqual(
            (again.number("s", "a"), again.number("s", "c"), again.is_known("s"), again.is_known("t")),
            (102, 103, True, False),
        )
        again.file.file.close()

    def test_what_was_imported(self):
        path, found = self.path("base"), hash_of({7: b"{}"})
        base = Base(path, "http://a")
        base.keep("r", 7, found)
        base.keep("r", 8, hash_of({8: b"{}"}))
        base.save(12)
        base.keep("r", 8, None)
        base.keep_types({"r": {"width": "REAL"}})
        base.end(13)
        base.file.file.close()
        again = Base(path, "http://a")
        self.assertEqual(
            (again.edits, again.hash(7), again.is_known(8), again.gone({"r"}), again.types),
            (13, found, False, [7], {"r": {"width": "REAL"}}),
        )
        again.file.file.close()
        self.assertEqual(types_in(path), {"r": {"width": "REAL"}})
        other = Base(path, "http://b")
        self.assertEqual((other.edits, other.features), (0, {}))
        other.file.file.close()

    def test_the_hash_of_pieces_knows_no_order(self):
        self.assertEqual(hash_of({7: b"a", 8: b"b"}), hash_of({8: b"b", 7: b"a"}))
        self.assertNotEqual(hash_of({7: b"a", 8: b"b"}), hash_of({7: b"b", 8: b"a"}))


class Logs(stand.InFolder):
    def test_a_file_is_replaced_at_once(self):
        path = self.path("x", "old")
        replaced(path, "new")
        with open(path, encoding="utf-8") as file:
            self.assertEqual(file.read(), "new")
        self.assertRaises(OSError, replaced, "/dev/null", "new")

    def test_lines_of_a_log(self):
        whole, cut = self.path("a.jsonl", '{"edit":1}\n{"edit":2}\n{"ed'), self.path("b.jsonl.gz")
        with gzip.open(cut, "wb") as file:
            file.write(b'{"edit":1}\n')
        self.assertEqual(
            (list(edit_log.lines_of(whole)), list(edit_log.lines_of(cut))),
            ([b'{"edit":1}\n', b'{"edit":2}\n'], [b'{"edit":1}\n']),
        )

    def test_the_last_edit_of_a_log(self):
        for text, wanted in [
            ('{"edit":1}\n{"edit":2}\n{"ed', 2),
            ('{"missed":[3,9]}\n', 9),
            ("", None),
            ('{"edit":5,"x":"%s"}\n' % ("x" * 300_000), 5),
        ]:
            path = self.path("log", text)
            last = edit_log.EditLog(path).last_row()
            self.assertEqual(last and edit_log.last_of(last), wanted)
            with open(path, encoding="utf-8") as file:
                self.assertEqual(file.read(), text[: text.rfind("\n") + 1])

    def test_who_sent_an_edit(self):
        senders = proxy_log.Senders()
        for at, person, request, body in [
            (10, "anna", "PUT /features/9?x=1", '{"n": 1.0}'),
            (11, "", "DELETE /features/9", ""),
            (12, "bert", "POST /edits", '{"changes":[{"delete":9}]}'),
        ]:
            senders.add(
                json.dumps({"time": at, "person": person, "address": "192.0.2.7", "request": request, "body": body})
            )
        senders.add("no JSON")
        senders.end()
        self.assertEqual(senders.unread, 1)
        self.assertEqual(senders.of([{"put": 9, "feature": {"n": 1}}], 10).person, "anna")
        self.assertEqual([senders.of([{"delete": 9}], 12.5).person for _ in range(2)], ["192.0.2.7", "bert"])
        self.assertIsNone(senders.of([{"delete": 9}], 13))

    def test_nobody_has_sent_an_edit_before_it_was_sent(self):
        senders = proxy_log.Senders()
        senders.add(
            json.dumps({"time": 10, "person": "anna", "address": "", "request": "DELETE /features/9", "body": ""})
        )
        senders.end()
        self.assertIsNone(senders.of([{"delete": 9}], 8))

    def test_a_save_that_was_cut_short(self):
        path = self.path("saves")
        log = save_log.SaveLog(path)
        log.shorten(0)
        first, second = log.begin([[put(7, stand.feature())], [delete(8)]]), log.begin([[delete(9)]])
        log.made(first)
        log.finish(second, "s", notes=[])
        log.file.close()
        log.lock.close()
        again = save_log.SaveLog(path)
        self.assertEqual(
            (again.begun, again.sent[first], [row["saved"] for row in again.done]),
            ({first: [[put(7, stand.feature())], [delete(8)]]}, 1, [second]),
        )
        self.assertRaises(Refused, save_log.SaveLog, path)
        again.shorten(2**40)
        again.undo(first)
        again.file.close()
        again.lock.close()
        last = save_log.SaveLog(path)
        self.assertEqual((last.begun, last.done), ({}, []))
        last.lock.close()


class Texts(unittest.TestCase):
    def test_what_a_text_says_of_its_encoding(self):
        for text, width, wanted in [
            ("plain", 0, texts.PLAIN),
            ("ß", 0, texts.UTF8),
            (b"\xc3\x9f", 0, texts.UTF8),
            (b"a\xc3", 2, texts.CUT),
            (b"a\xc3", 9, texts.OTHER),
            (b"\xc3\x9f\xc3", 3, texts.CUT_UTF8),
            (b"\xdf", 0, texts.OTHER),
            ("a\udcc3", 2, texts.CUT),
        ]:
            self.assertEqual(texts.judged(text, width), wanted)

    def test_bytes_that_gdal_didnt_decode(self):
        self.assertEqual(
            (texts.raw_of("\udcdf"), texts.is_decoded("\udcdf"), texts.is_decoded("ß")), (b"\xdf", False, True)
        )

    def test_controls_of_latin_1(self):
        # Windows-1252 has the euro at 80 and the dash at 96.
        self.assertEqual("\x80\x96".translate(texts.CONTROLS), "€–")


if __name__ == "__main__":
    unittest.main()
