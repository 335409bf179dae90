"""Blocks of `service_script.py` about disks that are opened, whole or damaged, and about their archives and tiles."""
from disk import VERSIONS, Change, Layout, Root, snapshot_text, text_of
from service_lines import LAST, WORLD_END, crashed, fresh, heading, image, long_point, looks, opened, opens, put, record_words, stops, with_snapshot
from service_lines import write_words


# ---- openings


def openings():
    yield from heading("Disks of other sizes are neither formatted nor opened.")
    for sectors in (0, 63, 64, 16777217):
        yield from [f"disk {sectors}", "format", "open"]
    yield from ["disk 64", "open"]
    yield from heading("A damaged format sector or root sector.")
    for words in ("write 0 = 00", "write 0 = 'VTILEDSK", "write 1 = 00", "write 2 = 'VTROOT01", "write 2 = 'VTROOT01 1:8 0:8 16:8", "write 1 = 'VTROOT01 1:8"):
        yield from [*fresh(), words, "open"]
    yield from heading("Heads with a length of 0, past the limit, or of other parts; texts that are none, cut short, or have bytes after their end.")
    texts = ["0:4", "497:4", "32769:4", "1:4 03", "24:4 01 7:8 1:1 'p 0:1 2:1 1:1 1:2 0:8", "26:4 01 7:8 1:1 'p 0:1 2:1 1:1 1:2 0:8 00 00"]
    for text, parts in [*((text, 1) for text in texts), ("497:4", 2), ("7937:4", 17)]:
        yield from [*fresh(), f"write 3 = 1:1 1:1 {parts}:2 1:8 {text}", "open"]
    yield from heading("A head of another version, number, place or kind is no edit; the last one here of each version is.")
    for version, length, count in ((1, 25, ""), (2, 26, "01 ")):
        for at, front in ((3, "1:1 0:1 1:2 1:8"), (3, "1:1 3:1 1:2 1:8"), (3, "1:1 {}:1 1:2 2:8"), (4, "1:1 {}:1 1:2 1:8"), (3, "2:1 {}:1 1:2 1:8"),
                          (3, "1:1 {}:1 1:2 1:8")):
            yield from [*fresh(), f"write {at} = {front.format(version)} {length}:4 {count}01 7:8 1:1 'p 0:1 2:1 1:1 1:2 0:8 00", "open", put(8)]
    yield from heading("Records of a point at zooms 0 to 16, as earlier versions wrote them, at the zooms that they refused, and past the last zoom.")
    for zooms in ("0:1 16:1", "16:1 16:1", "0:1 17:1", "19:1 19:1", "0:1 20:1", "20:1 20:1"):
        yield from [*fresh(), f"write 3 = 1:1 1:1 1:2 1:8 25:4 01 7:8 1:1 'p {zooms} 1:1 1:2 {LAST}:8 00", "open"]
        yield from ["look 7", "tile 16 65535 65535", "tile 19 524287 524287"] if "20" not in zooms else []
    yield from heading("A record without its body, and with it.")
    for version in VERSIONS:
        words = list(record_words(Layout(64), 0, 1, Change(7, long_point(467)), version=version))
        yield from [*fresh(), *words[:1], "open", *fresh(), *words, "open", "look 7"]
    yield from heading("Roots of generation 0: with an invalid snapshot; with an archive, which opening doesn't read; with earlier edits.")
    for root in ("0:8 0:8 0:8 1:8 0:8", "0:8 0:8 0:8 0:8 1:8", "0:8 5:8 0:8 0:8 0:8"):
        yield from [*fresh(), f"write 1 = 'VTROOT01 {root}", "open", put(8)]
    yield from heading("Each call of opening a disk with a snapshot and edits fails in turn. The disk is handed back, and opens.")
    for stop in stops(1, 10):
        yield from [*with_edits(), stop, "open"]
        if not opens(stop, 9):
            yield from ["open", looks(7)]
        yield from ["stop", "resume", "open"]


# Features whose texts have 25 and 630 bytes.
SNAPSHOT = {7: long_point(0), 9: long_point(600)}
SHORT_TEXT = text_of(Change(7, long_point(0)))


def with_edits():
    """Lines that make a disk with the snapshot and two edits: edit 6, in the last place of the journal, puts 7, and edit 7, in the first, deletes 9."""
    yield from with_snapshot(snapshot_text(SNAPSHOT), numbers=(5, 15))
    yield from record_words(Layout(64), 15, 6, Change(7, long_point(2)))
    yield from record_words(Layout(64), 0, 7, Change(9, None))


def snapshots():
    whole = snapshot_text(SNAPSHOT)
    yield from heading("A snapshot after five edits, and an empty journal.")
    yield from [*with_snapshot(whole), "open", looks(7, 8, 9), put(8), "stop", *crashed(), looks(8, 9)]
    yield from heading("Edits after the snapshot, across the end of the ring.")
    yield from [*with_edits(), "open", looks(7, 9), put(9, 1), "look 9", "stop", *crashed(), "look 9"]
    yield from heading("Snapshots with a changed byte: none, an unknown kind, a deletion, invalid UTF-8.")
    for at, byte in ((0, 1), (25, 3), (25, 2), (654, 255)):
        yield from [*with_snapshot(whole[:at] + bytes([byte]) + whole[at + 1 :]), "open"]
    yield from heading("Snapshots of a point at zooms 0 to 16, to 19, and past the last zoom.")
    for last in (16, 19, 20):
        yield from [*with_snapshot(text_of(Change(7, {**long_point(0), "maxzoom": last}))), "open"]
        # The disk has no archive, so a tile is one of the map only once an edit touches it.
        yield from ["look 7", put(8), "tile 16 0 0", "tile 19 0 0"] if last < 20 else []
    yield from heading("Snapshots of other lengths: a byte too few, a byte too many, one feature, none.")
    for length in (654, 656, 25, 0):
        yield from [*with_snapshot(whole, length), "open", looks(7, 9)]
    yield from heading("Snapshots whose numbers descend, repeat, and ascend.")
    for numbers in ((9, 7), (7, 7), (7, 9)):
        yield from [*with_snapshot(b"".join(text_of(Change(number, long_point(0))) for number in numbers)), "open"]
    yield from heading("Of several faults the first in the order of reading is reported: snapshot, records, texts.")
    for kind in (1, 3):
        for length in (1, 0):
            yield from [*with_snapshot(bytes([kind]) + SHORT_TEXT[1:]), f"write 3 = 1:1 1:1 1:2 6:8 {length}:4 03", "open"]
    yield from [*with_snapshot(SHORT_TEXT), "write 3 = 1:1 1:1 1:2 6:8 1:4 03", "write 4 = 1:1 1:1 1:2 7:8 0:4", "open"]
    yield from heading("Of two roots the one of greater generation is live, with its area.")
    for generation in (0, 2):
        yield from with_snapshot(SHORT_TEXT, older=Root(generation, 5, 0, 25, 0))
        yield from [*write_words(19, text_of(Change(8, long_point(0)))), "open", looks(7, 8)]
    yield from heading("An archive that ends with its area, and one that is a byte longer.")
    for archive_len in (10240, 10241):
        yield from [*with_snapshot(whole, archive_len=archive_len), "write 43 = ff*512", "open", looks(9)]


# The disk of 64 sectors that commit d5301f5 of the product wrote: 7 and 8 were put, a publication begun, 9 put, the publication finished, and 7
# deleted. The bytes are literal, so that neither the model nor the product decides them.
EARLIER = {
    0: "'VTILEDSK 01 00 00 00 '@",
    1: "'VTROOT01",
    2: "'VTROOT01 01 00*7 02 00*7 02 00*7 '2 00*7 ea",
    3: "01 01 01 00 01 00*7 19 00*3 01 07 00*7 01 'p 00 02 01 01",
    4: "01 01 01 00 02 00*7 19 00*3 01 08 00*7 01 'p 00 02 01 01",
    5: "01 01 01 00 03 00*7 19 00*3 01 09 00*7 01 'p 00 02 01 01",
    6: "01 01 01 00 04 00*7 09 00*3 02 07",
    41: "01 07 00*7 01 'p 00 02 01 01 00*10 01 08 00*7 01 'p 00 02 01 01",
    42: "'PMTiles 03 7f 00*7 09 00*7 88 00*7 'B 00*7 ca 00*15 ca 00*7 20 00*7 03 00*7 02 00*7 01 00*7 01 01 01 01 00 02 "
    "002eb694493a4ecd00d2496bb7c5b132 00*9 02 00 05 02 01 2020 01 01 "
    "'{\"vector_layers\":[{\"fields\":{},\"id\":\"p\",\"maxzoom\":2,\"minzoom\":0}]} "
    "1a1e0a 01 'p 12 09 08 07 18 01 22 03 09 00 00 12 09 08 08 18 01 22 03 09 00 00 28 80 20 78 02",
}


def earlier():
    yield from heading("A disk that an earlier version wrote.")
    yield from ["disk 64", *(f"write {at} = {words}" for at, words in EARLIER.items()), "export", "open", looks(7, 8, 9), "archive", "tile 0 0 0", put(7)]


# ---- archives and tiles

ANY = bytes(number % 251 for number in range(1100))
PARTS = [(0, 1100), (0, 0), (0, 1), (0, 512), (0, 513), (1, 1023), (500, 600), (511, 1), (511, 2), (512, 512), (513, 511), (1023, 2), (1099, 1), (1100, 0)]


def with_any():
    """Lines that make a disk with a snapshot of 21 points (525 bytes) and 1,100 bytes in place of an archive."""
    text = snapshot_text({number: long_point(0) for number in range(1, 22)})
    return list(image(Layout(64), Root(1, 5, 0, len(text), len(ANY)), text, ANY, Root(0, 0, 0, 0, 0)))


def archives():
    yield from heading("Parts of an archive, which begins after the two sectors of the snapshot.")
    yield from [*with_any(), "open", *(f"archive {at} {count}" for at, count in PARTS), "archive 1100 1", "archive 1101 0"]
    yield from heading("Edits leave it unchanged.")
    yield from [put(7, 467), "delete 8", "archive", "stop", "resume", "export"]
    yield from heading("Each sector is read once. Opening takes 7 calls.")
    for part in ("", "archive 0 1100", "archive 511 2", "archive 512 512", "archive 1100 0"):
        yield from [*with_any(), "open", *filter(None, [part]), "stop"]
    yield from heading("A failed read is reported, and the service continues.")
    for stop in [stop for stop in stops(8, 10) if "from" not in stop]:
        yield from [*with_any(), stop, "open", "archive", put(30), "archive"]
    yield from heading("No archive, and an archive. The metadata of two maps.")
    yield from [*opened(), "archive", "archive 0 0", put(7), "publish", "archive", "metadata", "delete 7", "metadata"]


def published_tiles():
    yield from heading(
        "Calls of tiles that are read from the archive: one for the first, whose sector has header, directory and content; one for the content of",
        "another; none for a tile that was read before or is not in the directory. Opening takes 6 calls.",
    )
    for tiles in ([], ["0 0 0"], ["0 0 0"] * 2, ["0 0 0", "1 0 0"], ["0 0 0", "1 0 0"] * 2, ["1 1 1"], ["1 1 1", "1 0 1", "16 9 9"], ["17 0 0", "0 0 0"],
                  ["19 9 9", "0 0 0"], ["20 0 0", "0 0 0"]):
        yield from [*opened(), put(7), "publish", "stop", "resume", "open", *(f"tile {place}" for place in tiles), "stop"]
    yield from heading("A tile that was cut before the publication stays cached; a tile is cut if an edit since touched its cells, and read otherwise.")
    yield from [*opened(), put(7), "tile 0 0 0", "publish", "tile 0 0 0", "stop", "resume", "open", f"put 8 p 0 2 points {WORLD_END - 1},{WORLD_END - 1}"]
    yield from ["tile 2 0 0", "tile 2 3 3", "tile 0 0 0", "tile 2 0 0", "stop"]
    yield from heading("A tile is cut if reading it fails, after a publication and after an opening. The service isn't broken by that.")
    yield from [*fresh(), "fail_from 13", "open", put(7), "publish", "tile 0 0 0", "tile 0 0 0", put(8), "tile 0 0 0"]
    yield from [*opened(), put(7), "publish", "stop", "resume", "fail_from 7", "open", "tile 0 0 0", "tile 0 0 0", put(8), "tile 0 0 0"]
    yield from [*opened(), put(7), "publish", "stop", "resume", "fail_not_made 7", "open", "tile 0 0 0", "tile 1 0 0", put(8), "stop"]
    yield from heading("A point moves across the world, with a publication before, after, both or neither.")
    for before in ([], ["publish"]):
        for behind in ([], ["publish"]):
            yield from [*opened(), put(7), *before, "tile 2 0 0; tile 2 3 3", f"put 7 p 0 2 points {WORLD_END - 1},{WORLD_END - 1}", *behind]
            yield from ["tile 2 0 0; tile 2 3 3"]
    yield from heading("Leaf directories: a line with 601 tiles.")
    yield from [*opened(4096), f"put 1 l 12 12 lines 0,524288 {600 << 20},524288 {600 << 20},900000", "publish", "archive", "verify"]
    yield from ["tile 12 0 0", "tile 12 299 0", "tile 12 600 0", "tile 12 601 0", "stop", "resume", "open", "tile 12 0 0", "tile 12 299 0"]
    yield from ["tile 12 600 0", "tile 12 601 0", "archive"]


BLOCKS = [openings, snapshots, earlier, archives, published_tiles]
