"""Tests of vtmap/files/attachments.py and vtmap/gateway/file_paths.py without a server. Beginnings of files are those of their standards (JFIF, PNG,
GIF 89a, WebP, PDF 1.7)."""
import hashlib
import os
import threading
import unittest
from unittest import mock

import stand
from vtmap.files.attachments import Attachments, Full, Taken, Use, Wrong, kind_of, name_of, saved, write
from vtmap.gateway.file_paths import by_addresses, by_paths

JPEG, PNG = b"\xff\xd8\xff\xe1" + b"a" * 20, b"\x89PNG\r\n\x1a\n" + b"b" * 20
HASH = hashlib.sha256(JPEG).hexdigest()


class Kinds(unittest.TestCase):
    def test_by_the_first_bytes(self):
        beginnings = [(JPEG, "jpg"), (PNG, "png"), (b"GIF87a", "gif"), (b"GIF89a", "gif"), (b"RIFF\x01\x02\x03\x04WEBP", "webp"), (b"%PDF-1.7", "pdf")]
        for content, wanted in beginnings:
            self.assertEqual(kind_of(content), wanted)
            self.assertIsNone(kind_of(b" " + content), wanted)
            self.assertIsNone(kind_of(content[:2]), wanted)

    def test_what_a_browser_runs(self):
        for content in (b"<svg/>", b"<html>", b"\xef\xbb\xbf<svg/>", b"", b"GIF88a", b"RIFF\x01\x02\x03\x04WAVE", b"PK\x03\x04"):
            with self.assertRaises(Wrong, msg=content):
                name_of(content)

    def test_the_name_is_the_hash(self):
        self.assertEqual(name_of(JPEG), HASH + ".jpg")


class Folder(stand.InFolder):
    def setUp(self):
        super().setUp()
        self.files = Attachments(self.path("files"))

    def test_a_file_is_never_replaced(self):
        path = self.path("kept", "as it was")
        write(path, b"other")
        with open(path, "rb") as file:
            self.assertEqual(file.read(), b"as it was")
        self.assertEqual(os.listdir(self.scratch.name), ["kept"])

    def test_of_two_that_choose_one_name_the_first_has_it(self):
        self.files.put_as("a.jpg", JPEG)
        self.assertEqual(self.files.put_as("a.jpg", JPEG), HASH + ".jpg")
        with self.assertRaises(Taken):
            self.files.put_as("a.jpg", PNG)
        self.assertEqual(self.files.given("a.jpg"), HASH + ".jpg")

    def test_many_at_once(self):
        threads = [threading.Thread(target=self.files.put, args=(JPEG,)) for _ in range(20)]
        for thread in threads:
            thread.start()
        for thread in threads:
            thread.join(20)
        self.assertEqual(os.listdir(self.files.folder), [HASH + ".jpg"])
        self.assertTrue(self.files.is_whole(HASH + ".jpg"))

    def test_a_full_disk(self):
        self.files.put(PNG)
        with mock.patch("vtmap.files.attachments.shutil.disk_usage", return_value=mock.Mock(free=100)):
            with self.assertRaises(Full):
                self.files.put(JPEG)
            self.files.put(PNG)
        self.assertEqual(len(list(self.files.names())), 1)

    def test_a_disk_that_fails_leaves_nothing(self):
        os.mkdir(self.files.folder)
        with mock.patch("vtmap.files.attachments.os.fsync", side_effect=OSError(28, "No space left on device")), self.assertRaises(OSError):
            self.files.put(JPEG)
        self.assertEqual(os.listdir(self.files.folder), [])

    def test_copies_have_what_their_names_say(self):
        other = Attachments(self.path("other"))
        names = [self.files.put(content) for content in (JPEG, PNG)]
        with open(self.files.path(names[0]), "ab") as file:
            file.write(b"!")
        self.assertEqual(saved(self.files, other), (1, 0, [names[0]]))
        self.assertEqual((list(other.names()), saved(self.files, other)), ([names[1]], (0, 1, [names[0]])))

    def test_others_in_the_folder_are_none(self):
        os.mkdir(self.files.folder)
        for name in ("x.jpg", HASH, HASH + ".svg", HASH + ".jpg.part"):
            self.path(os.path.join("files", name), "x")
        self.assertEqual(list(self.files.names()), [])


class Names(stand.InFolder):
    def test_which_features_name_files(self):
        path = f"files/{HASH}.jpg"
        values = {1: path, 2: f"see http://a.example/{path}, and x", 3: f"x{path}", 4: path + "x", 5: path.upper(), 6: 7, 7: f"/{path} {path}"}
        use = Use.of((number, stand.feature(photo=value)) for number, value in values.items())
        self.assertEqual(use.named, {HASH + ".jpg": [(number, "photo") for number in (1, 2, 7, 7)]})

    def test_addresses_and_paths(self):
        files = Attachments(self.path("files"))
        name = files.put_as("one.jpg", JPEG)
        for text, wanted in (
            (f"<v>http://h/files/{name}</v>", f"<v>files/{name}</v>"),
            (f"<v> https://h:1/north/files/{name}\n</v>", f"<v>files/{name}</v>"),
            ("<v>http://h/files/put/one.jpg</v>", f"<v>files/{name}</v>"),
            ("<v>http://h/files/put/two.jpg</v>", None),
            ("<v>http://h/files/put/../one.jpg</v>", None),
            (f"<v>see http://h/files/{name}</v>", None),
            (f"<v>ftp://h/files/{name}</v>", None),
            (f'<v a="http://h/files/{name}"/>', None),
            (f"<v>http://h/files/{'0' * 64}.jpg</v>", None),
        ):
            self.assertEqual(by_paths(text.encode(), files).decode(), wanted or text)
        self.assertEqual(by_addresses(f"<v>files/{name}</v><w>x files/{name}</w>", "http://h/"), f"<v>http://h/files/{name}</v><w>x files/{name}</w>")


if __name__ == "__main__":
    unittest.main()
