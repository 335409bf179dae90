"""Tests of what `vtmap import` and `update` look for in files that came short, without GDAL and without a server."""
import argparse
import io
import tempfile
import unittest
from unittest import mock

import stand  # noqa: F401
from vtmap import progress
from vtmap.commands import deletions
from vtmap.faults import Fault
from vtmap.files.cut_text import fault_of
from vtmap.interpreters import has

TABLE = b'nr,name,lon,lat\n1,Well,7.495,54.501\n2,"Pump, old",7.505,54.502\n'


class CutText(unittest.TestCase):
    def test_a_table_cut_anywhere_in_its_last_row_is_found(self):
        start = TABLE.rindex(b"\n", 0, -1) + 1
        self.assertIsNone(fault_of(io.BytesIO(TABLE), 4))
        self.assertIsNone(fault_of(io.BytesIO(TABLE[:start]), 4))
        for end in range(start + 1, len(TABLE)):
            self.assertIsNotNone(fault_of(io.BytesIO(TABLE[:end]), 4), TABLE[:end])

    def test_a_line_with_fewer_fields(self):
        for separator in (b",", b";", b"\t", b"|"):
            table = b"a,b,c\r\n1,2,3\r\n4,5\r\n".replace(b",", separator)
            self.assertIn("2 of the 3 fields", fault_of(io.BytesIO(table), 3) or "")

    def test_fields_of_several_lines_are_no_ends(self):
        for table in (
            b'a,b\n1,"x\ny"\n',
            b'a,b\n1,"x\ny,z"\n',
            b'a,b\n1,"x\n\n"\n',
            b'\xef\xbb\xbf"a","b"\r\n1,"x\r\ny"\r\n',
        ):
            self.assertIsNone(fault_of(io.BytesIO(table), 2), table)

    def test_what_says_nothing_of_its_end(self):
        for table, columns in ((b"", 2), (b"a,b", 2), (b"a,b\r1,2\r3\r", 2), (b"a\n1\n", 1), (b"a b c\n1\n", 3)):
            self.assertIsNone(fault_of(io.BytesIO(table), columns), table)


class Deletions(unittest.TestCase):
    def test_a_number_and_a_share(self):
        for text, known, most in (
            ("25", 1000, 25),
            ("0", 9, 0),
            ("10%", 200, 20),
            ("10%", 9, 0),
            ("12.5%", 8, 1),
            ("100%", 7, 7),
        ):
            allowed = [gone for gone in range(known + 1) if deletions.most(text).allows(gone, known)]
            self.assertEqual(max(allowed), most, text)

    def test_what_is_neither(self):
        for text in ("", "ten", "-1", "110%", "10 %", "1e3"):
            self.assertRaises(argparse.ArgumentTypeError, deletions.most, text)


@unittest.skipUnless(has("osgeo"), "no GDAL for this Python")
class GdalFile(unittest.TestCase):
    def read(self, is_whole):
        """What is read of a layer of which GDAL raises, as newer ones do, after its first feature."""
        from vtmap.files.gdal_file import Reader

        reader = Reader.__new__(Reader)
        reader.path, reader.is_whole = "f.gml", is_whole
        layer = mock.Mock(GetNextFeature=mock.Mock(side_effect=["a feature", RuntimeError("unclosed token")]))
        return list(reader.features_of(layer))

    def test_a_cut_file_of_which_gdal_raises(self):
        with self.assertRaisesRegex(Fault, "seems to be cut: after row 1 GDAL says 'unclosed token'. Get all of it"):
            self.read(False)
        self.assertEqual(self.read(True), ["a feature"])


class Counted(unittest.TestCase):
    def lines(self, count, seconds, total=None):
        """What is printed of so many rows, one of which takes so many seconds."""
        clock = iter(at * seconds for at in range(count + 1))
        with mock.patch.object(progress.time, "monotonic", lambda: next(clock)), mock.patch(
            "builtins.print"
        ) as printed:
            self.assertEqual(list(progress.counted(range(count), "rows read", total)), list(range(count)))
        return [call.args[0].strip() for call in printed.call_args_list]

    def test_many_rows_are_told_every_two_seconds(self):
        self.assertEqual(self.lines(5000, 0.001), ["2,000 rows read", "4,000 rows read"])
        self.assertEqual(self.lines(2500, 0.001, 2500), ["2,000 of 2,500 rows read"])

    def test_a_large_file_is_told_before_it_is_opened(self):
        with tempfile.NamedTemporaryFile() as file, mock.patch("builtins.print") as printed:
            file.truncate(32 * 2**20 - 1)
            progress.tell_large(file.name)
            self.assertFalse(printed.called)
            file.truncate(512 * 2**20)
            progress.tell_large(file.name)
        self.assertEqual(printed.call_args.args, (f"        {file.name} is opened: 512 MiB",))

    def test_few_rows_are_told_only_if_they_take_long(self):
        self.assertEqual(self.lines(999, 0.009), [])
        self.assertEqual(self.lines(30, 0.5), [f"{at} rows read" for at in (20, 24, 28)])


if __name__ == "__main__":
    unittest.main()
