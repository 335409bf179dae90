"""Tests of vtmap/systems.py and of the files that it is for: what Windows does differently, as far as Linux can be made to look like it. The part
`windows` of tests/clients/run.py runs whole commands so."""
import ast
import errno
import glob
import io
import os
import signal
import re
import subprocess
import sys
import unittest
from unittest import mock

import stand
import vtmap
from vtmap import systems
from vtmap.files.id_file import IdFile


class Locks(stand.InFolder):
    def test_a_file_is_locked_once(self):
        path = self.path("locked")
        with open(path, "ab") as one, open(path, "ab") as other:
            self.assertTrue(systems.lock(one))
            self.assertFalse(systems.lock(other))
        with open(path, "ab") as again:
            self.assertTrue(systems.lock(again))

    def test_on_windows_a_byte_far_behind_the_end_is_locked(self):
        calls = mock.Mock(LK_NBLCK=2)
        modules = {"fcntl": None, "msvcrt": calls}
        with open(self.path("locked", "text"), "r+b") as file:
            file.seek(3)
            places = []
            calls.locking = lambda number, mode, length: places.append((os.lseek(number, 0, os.SEEK_CUR), mode, length))
            with mock.patch.object(systems, "module", modules.get):
                self.assertTrue(systems.lock(file))
            self.assertEqual((places, file.read()), ([(2**30, 2, 1)], b"t"))
            calls.locking = mock.Mock(side_effect=PermissionError(errno.EACCES, "Permission denied"))
            with mock.patch.object(systems, "module", modules.get):
                self.assertFalse(systems.lock(file))


class Files(stand.InFolder):
    def test_ids_that_an_editor_of_windows_has_saved_stay_whole(self):
        text = '["well","B-1",1]\r\n["well","B-2",2]\r\n'
        path = self.path("map.ids")
        with open(path, "w", encoding="utf-8", newline="") as file:
            file.write(text)
        ids = IdFile(path)
        self.assertEqual([ids.number("well", name) for name in ("B-1", "B-2", "B-3")], [1, 2, 3])
        ids.save()
        with open(path, encoding="utf-8", newline="") as file:
            self.assertEqual(file.read(), text + '["well","B-3",3]\n')

    def test_a_file_that_another_program_has_open_for_a_moment_is_replaced(self):
        part, path, real, refusals = self.path("part", "new"), self.path("file", "old"), os.replace, [True, True]

        def replace(*paths):
            if refusals:
                refusals.pop()
                raise PermissionError(errno.EACCES, "used by another process", paths[1])
            real(*paths)

        with mock.patch("os.name", "nt"), mock.patch("os.replace", replace), mock.patch("time.sleep"):
            systems.put_in_place(part, path)
        with open(path, encoding="utf-8") as file:
            self.assertEqual((file.read(), refusals), ("new", []))

    def test_a_file_that_stays_open_is_named(self):
        fault = PermissionError(errno.EACCES, "used by another process")
        with mock.patch("os.name", "nt"), mock.patch("os.replace", side_effect=fault), mock.patch("time.sleep") as sleep:
            with self.assertRaisesRegex(OSError, "close it there.*town.gpkg"):
                systems.put_in_place("town.gpkg.part", "town.gpkg")
        self.assertEqual(sleep.call_count, systems.TRIES - 1)

    def test_elsewhere_it_is_tried_once(self):
        with mock.patch("os.replace", side_effect=PermissionError(errno.EACCES, "no")) as replace:
            self.assertRaises(PermissionError, systems.put_in_place, "part", "file")
        self.assertEqual(replace.call_count, 1)

    def test_bytes_are_read_without_pread(self):
        number = systems.open_to_read(self.path("bytes", "0123456789"))
        try:
            self.assertEqual(systems.read_at(number, 3, 4), b"456")
            with mock.patch("os.pread", create=True):
                del os.pread
                self.assertEqual((systems.read_at(number, 3, 4), systems.read_at(number, 5, 8)), (b"456", b"89"))
        finally:
            os.close(number)

    def test_separators_at_the_end_of_a_path(self):
        self.assertEqual([systems.without_end(path) for path in ("folder/", "file", "odd\\")], ["folder", "file", "odd\\"])
        with mock.patch("os.name", "nt"):
            self.assertEqual([systems.without_end(path) for path in ("C:\\maps\\", "C:/maps/", "C:\\a.gpkg")], ["C:\\maps", "C:/maps", "C:\\a.gpkg"])


class Consoles(unittest.TestCase):
    def test_letters_that_a_console_lacks_are_written_as_python_does(self):
        stream = io.TextIOWrapper(io.BytesIO(), encoding="cp1252")
        systems.prepare_consoles([stream, None])
        stream.write("Brücke Łódź")
        stream.flush()
        self.assertEqual(stream.buffer.getvalue(), b"Br\xfccke \\u0141\xf3d\\u017a")

    def test_which_streams_take_each_letter(self):
        kinds = {"utf-8": True, "UTF8": True, "utf-16": True, "cp1252": False, "ascii": False}
        self.assertEqual({name: systems.is_unicode(io.TextIOWrapper(io.BytesIO(), encoding=name)) for name in kinds}, kinds)
        self.assertFalse(systems.is_unicode(None))


class OldPythons(unittest.TestCase):
    """What mypy doesn't see of what the oldest Python lacks: syntax, methods of values without a type, and times with a `Z`."""

    LACKS = {r"\.total\(\)": (), r"datetime\.fromisoformat\(": ("edit_log.py",), r"except TimeoutError": (), r"zip\([^\n]*strict=": ()}

    def test_sources(self):
        paths = glob.glob(os.path.join(stand.TOP, "vtmap", "**", "*.py"), recursive=True)
        self.assertGreater(len(paths), 90)
        for path in paths:
            with open(path, encoding="utf-8") as file:
                text = file.read()
            ast.parse(text, path, feature_version=vtmap.OLDEST)
            for lack, places in self.LACKS.items():
                self.assertTrue(os.path.basename(path) in places or not re.search(lack, text), f"{path}: {lack}")


class Processes(unittest.TestCase):
    def test_only_signals_that_there_are(self):
        self.assertIn(signal.SIGHUP, systems.signals_to_end())
        with mock.patch.object(systems, "signal", mock.Mock(spec=["Signals", "SIGINT", "SIGTERM"], Signals=signal.Signals)):
            self.assertEqual(systems.signals_to_end(), [signal.SIGINT, signal.SIGTERM])

    def test_on_windows_another_program_is_awaited(self):
        text = "import os, sys; sys.path.insert(0, '.'); from vtmap import systems; os.name = 'nt'; systems.become([sys.executable, '-c', %r], os.environ)"
        child = [sys.executable, "-c", text % "import sys, time; time.sleep(0.2); print('done'); sys.exit(7)"]
        found = subprocess.run(child, cwd=stand.TOP, capture_output=True, text=True, check=False)
        self.assertEqual((found.returncode, found.stdout), (7, "done\n"))


if __name__ == "__main__":
    unittest.main()
