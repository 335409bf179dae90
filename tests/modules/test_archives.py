"""Tests of vtmap/archives/, which joins archives. Wanted bytes and ids are the examples of docs/FORMATS.md and of the
specifications of PMTiles 3 and Mapbox Vector Tile 2.1, or are spelled here byte by byte as these have it."""
import struct
import unittest

import stand
from vtmap.archives import directory, header, merging
from vtmap.archives.directory import Entry
from vtmap.archives.reading import Archive, BadArchive
from vtmap.archives.writing import Writer

TILE = bytes.fromhex("1a130a017012090807180122030900002880207802")
ROOT = bytes.fromhex("020005020115150101")
METADATA = b'{"vector_layers":[{"fields":{},"id":"p","maxzoom":2,"minzoom":0}]}'
WORLD = (-1800000000, -850511287, 1800000000, 850511287)


def example():
    """The archive of docs/FORMATS.md: three tiles of one content."""
    at = [127, 127 + len(ROOT), 127 + len(ROOT) + len(METADATA)]
    places = [at[0], len(ROOT), at[1], len(METADATA), at[2], 0, at[2], len(TILE)]
    numbers = [*places, 3, 2, 1, 1, 1, 1, 1, 0, 2, *WORLD, 0, 0, 0]
    return b"PMTiles\x03" + struct.pack("<11Q6B4iB2i", *numbers) + ROOT + METADATA + TILE


def changed(at, *values):
    """The example with other bytes from a place on."""
    data = example()
    return data[:at] + bytes(values) + data[at + len(values) :]


class Directories(unittest.TestCase):
    def test_the_example_both_ways(self):
        entries = [Entry(0, 2, 21, 0), Entry(5, 1, 21, 0)]
        self.assertEqual(directory.entries_in(ROOT), entries)
        self.assertEqual(directory.directory_of(entries), ROOT)

    def test_a_content_that_follows_the_one_before_has_the_offset_0(self):
        data = bytes.fromhex("02" "0001" "0101" "0304" "0100")
        self.assertEqual(directory.entries_in(data), [Entry(0, 1, 3, 0), Entry(1, 1, 4, 3)])
        self.assertEqual(directory.directory_of(directory.entries_in(data)), data)

    def test_a_leaf_has_a_run_of_0(self):
        self.assertEqual(directory.entries_in(bytes.fromhex("01" "05" "00" "0c" "01")), [Entry(5, 0, 12, 0)])

    def test_bytes_that_are_none(self):
        for data, why in [
            ("", "its bytes end early"),
            ("05", "it has fewer bytes than entries"),
            ("ffffffff0f00", "it has fewer bytes than entries"),
            ("01000115", "it has fewer bytes than entries"),
            ("0180808080", "its bytes end early"),
            ("020005020115150101" "00", "it has bytes after its end"),
            ("02" "0000" "0101" "1515" "0101", "its ids don't ascend"),
            ("02" "0001" "0201" "1515" "0101", "its ids don't ascend"),
            ("01" "00" "01" "00" "01", "an entry has a number that it can't have"),
            ("01" "00" "01" "15" "00", "an entry has a number that it can't have"),
            ("01" "00" "8080808010" "15" "01", "an entry has a number that it can't have"),
        ]:
            with self.assertRaises(directory.BadDirectory, msg=data) as fault:
                directory.entries_in(bytes.fromhex(data))
            self.assertEqual(str(fault.exception), why, data)

    def test_tiles_by_the_ids_of_the_specification(self):
        for number, tile in [
            (0, "0/0/0"),
            (1, "1/0/0"),
            (2, "1/0/1"),
            (3, "1/1/1"),
            (4, "1/1/0"),
            (5, "2/0/0"),
            (19078479, "12/3423/1763"),
        ]:
            self.assertEqual(directory.tile_of(number), tile)


class Headers(unittest.TestCase):
    def test_the_example_both_ways(self):
        data = example()[:127]
        found = header.header_of(data)
        self.assertEqual((found.root_at, found.root, found.addressed, found.entries, found.contents), (127, 9, 3, 2, 1))
        self.assertEqual((found.least_zoom, found.greatest_zoom, found.bounds), (0, 2, WORLD))
        self.assertEqual(found.packed(), data)

    def test_files_that_are_not_joined(self):
        size = len(example())
        self.assertIsNone(header.fault_of(example(), size))
        for data, length, why in [
            (example()[:126], 126, "it has 126 bytes, fewer than a header"),
            (changed(0, ord("p")), size, "it is no PMTiles archive"),
            (changed(7, 2), size, "it is PMTiles version 2: version 3 is read"),
            (
                example(),
                size - 1,
                f"it is truncated: its section `tiles` ends after the file, which has {size - 1} bytes",
            ),
            (changed(16, 0xFF, 0x3F), 65536, "its root directory isn't within the first 16,384 bytes"),
            (changed(97, 2), size, "its directories have the compression gzip: only uncompressed ones are read"),
            (changed(98, 9), size, "its tiles have the compression 9: only uncompressed ones are read"),
            (changed(99, 2), size, "its tiles have the type 2: only Mapbox vector tiles (type 1) are joined"),
        ]:
            self.assertEqual((header.fault_of(data, length) or "")[: len(why)], why)


class Files(stand.InFolder):
    def test_the_example_is_written(self):
        writer = Writer(self.scratch.name)
        for number in (0, 1, 5):
            writer.put(number, 1, TILE)
        writer.finish(self.path("made"), METADATA, WORLD)
        writer.close()
        with open(self.path("made"), "rb") as file:
            self.assertEqual(file.read(), example())

    def test_the_example_is_read(self):
        with Archive(self.kept(example())) as archive:
            entries = list(archive.entries())
            self.assertEqual(entries, [Entry(0, 2, 21, 0), Entry(5, 1, 21, 0)])
            self.assertEqual([archive.content(entry) for entry in entries], [TILE, TILE])
            self.assertEqual([layer["id"] for layer in archive.layers], ["p"])

    def test_more_than_512_entries_are_in_leaves(self):
        writer = Writer(self.scratch.name)
        for number in range(1200):
            writer.put(2 * number, 1, b"%d" % number)
        found = writer.finish(self.path("made"), METADATA, WORLD)
        writer.close()
        self.assertEqual((found.entries, found.contents, found.addressed), (1200, 1200, 1200))
        with Archive(self.path("made")) as archive:
            root = archive.directory(found.root_at, found.root)
            self.assertEqual([(entry.id, entry.run) for entry in root], [(0, 0), (1024, 0), (2048, 0)])
            entries = list(archive.entries())
            self.assertEqual([entry.id for entry in entries], list(range(0, 2400, 2)))
            self.assertEqual([archive.content(entry) for entry in entries[::300]], [b"0", b"300", b"600", b"900"])

    def test_files_that_are_none(self):
        for data, why in [
            (changed(127, 9), "the directory at byte 127 can't be read"),
            (changed(127 + 5, 0x16), "the content of tile 0/0/0 isn't in the section of tiles"),
            (changed(127 + 9, ord("[")), "its metadata have no list of layers"),
        ]:
            with self.assertRaises(BadArchive) as fault:
                with Archive(self.kept(data), "here") as archive:
                    list(archive.entries())
            self.assertEqual(str(fault.exception)[: len(why) + 6], f"here: {why}")

    def kept(self, data):
        """The path of a file with these bytes."""
        with open(self.path("kept"), "wb") as file:
            file.write(data)
        return self.path("kept")


def layer_of(*parts):
    """A tile of one layer with the name p, of these parts in hexadecimal, and with the extent and version of the
    example."""
    data = bytes.fromhex("0a0170" + "".join(parts) + "288020" + "7802")
    return bytes([0x1A, len(data)]) + data


class Tiles(unittest.TestCase):
    def test_a_layer_that_one_tile_has_stays_as_it_is(self):
        other = bytes.fromhex("1a07" "0a016f" "1200" "7802")
        self.assertEqual(merging.merged([TILE]), TILE)
        # Layers are in the order of their names: o before p.
        self.assertEqual(merging.merged([TILE, other]), other + TILE)

    def test_features_ascend(self):
        three, seven = "1209" "0803" "1801" "2203090202", "1209" "0807" "1801" "2203090000"
        self.assertEqual(merging.merged([TILE, layer_of(three)]), layer_of(three, seven))
        self.assertEqual(merging.merged([layer_of(three), TILE]), layer_of(three, seven))

    def test_keys_and_values_are_in_order_of_first_use(self):
        # a=1 of the feature 2 in one tile; b=2 and a=1 of the feature 1 in the other, whose pools begin with what it
        # doesn't use.
        one = layer_of("120b" "0802" "12020000" "1801" "2201" "09", "1a0161", "2202" "2801")
        two = layer_of(
            "120d" "0801" "1204" "02010100" "1801" "2201" "09",
            "1a0178",
            "1a0161",
            "1a0162",
            "2202" "2801",
            "2202" "2802",
        )
        wanted = layer_of(
            "120d" "0801" "1204" "00000101" "1801" "2201" "09",
            "120b" "0802" "1202" "0101" "1801" "2201" "09",
            "1a0162",
            "1a0161",
            "2202" "2802",
            "2202" "2801",
        )
        self.assertEqual(merging.merged([one, two]).hex(), wanted.hex())

    def test_a_value_of_two_keys_is_once(self):
        one, two = "120b" "0801" "12020000" "1801" "2201" "09", "120b" "0802" "12020000" "1801" "2201" "09"
        found = merging.merged([layer_of(one, "1a0162", "2202" "2801"), layer_of(two, "1a0161", "2202" "2801")])
        again = "120b" "0802" "12020100" "1801" "2201" "09"
        self.assertEqual(found.hex(), layer_of(one, again, "1a0162", "1a0161", "2202" "2801").hex())

    def test_two_values_of_a_key_are_two(self):
        one, two = "120b" "0801" "12020000" "1801" "2201" "09", "120b" "0802" "12020000" "1801" "2201" "09"
        found = merging.merged([layer_of(one, "1a0162", "2202" "2801"), layer_of(two, "1a0162", "2202" "2802")])
        again = "120b" "0802" "12020001" "1801" "2201" "09"
        self.assertEqual(found.hex(), layer_of(one, again, "1a0162", "2202" "2801", "2202" "2802").hex())

    def test_an_id_that_two_have(self):
        other = layer_of("1209" "0807" "1801" "2203090202")
        with self.assertRaises(merging.SharedId) as fault:
            merging.merged([TILE, other])
        self.assertEqual((fault.exception.layer, fault.exception.number), ("'p'", 7))
        self.assertEqual(merging.merged([TILE, other], takes_first=True), TILE)
        self.assertEqual(merging.merged([other, TILE], takes_first=True), other)

    def test_tiles_that_cannot_be_merged(self):
        no_id, short = layer_of("1207" "1801" "2203090202"), bytes.fromhex("1a130a0170")
        finer = bytes.fromhex("1a13" "0a0170" "1209" "0808" "1801" "2203090000" "288040" "7802")
        for tiles, why in [
            ([TILE, no_id], "layer 'p' has a feature without an id: another archive may have the same one"),
            ([TILE, finer], "layer 'p' has another extent or version than that of the other archive"),
            ([short], "it isn't a vector tile: a field of a message ends early"),
            ([TILE + TILE], "a layer has no name of its own"),
            (
                [TILE, layer_of("120b" "0803" "1202" "0000" "1801" "2201" "09")],
                "layer 'p' has a tag without a key or a value",
            ),
        ]:
            with self.assertRaises(merging.BadTile) as fault:
                merging.merged(tiles)
            self.assertEqual(str(fault.exception), why)


if __name__ == "__main__":
    unittest.main()
