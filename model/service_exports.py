"""Blocks of `service_script.py` about exports: the archive of a closed disk, whatever the rest of the disk has."""
from calls import PIECE
from disk import SECTOR, VERSIONS, Change, Layout, Root, snapshot_text
from service_lines import LAST, crashed, fresh, heading, image, long_point, opened, put, record_words, stops, with_snapshot
from service_openings import with_any

AREA = Layout(64).area_at(1)
ROOMS = (224, 223, 222, 1, 0)


def published(version=VERSIONS[-1]):
    """Lines that make a closed disk with the documented archive of 223 bytes."""
    return [*opened(64, version), put(7), "publish", "stop", "resume"]


def exports():
    yield from heading("Not formatted; nothing published, which is no fault; an open disk isn't exported.")
    yield from ["disk 0", "export", "disk 1", "export", "disk 64", "export", *fresh(), "export", "export 0", "open", "export", "export 1"]
    yield from heading("The documented archive, of disks of both versions, and to writers with enough room and with too little.")
    for version in reversed(VERSIONS):
        yield from [*published(version), "export", *(f"export {room}" for room in ROOMS), "sectors"]
    yield from heading("Edits behind the publication leave it unchanged, and so does a publication under way. The next one is in the other area.")
    yield from [*published(), "open", put(8, 467), "delete 7", "stop", "resume", "export", "open", "begin", "stop", "resume", "export"]
    yield from ["open", "publish", put(9), "stop", "resume", "export", "open", "publish", "stop", *crashed()[:1], "export"]
    yield from heading("A map without features and one without tiles have no archive, though the one before them had.")
    for event in ("delete 7", "put 7 l 0 5 lines 0,0 16384,0"):
        yield from [*published(), "open", event, "publish", "stop", "resume", "export"]
    yield from heading("A crash that leaves the old root, and one that leaves the new one: call 13, the last of the publication, is to sync it.")
    yield from [*published(), "fail_from 13", "open", put(8), "publish", "stop"]
    for choice in ("0", "1"):
        yield from [f"crash {choice}", "export"]
    yield from heading("Of two roots the one of greater generation is live, up to the last generation.")
    for generations in ((1, 0), (1, 2), (LAST, LAST - 1), (LAST - 2, LAST - 1)):
        roots = [Root(generation, 5, 0, 25, 3) for generation in generations]
        yield from [*image(Layout(64), roots[0], snapshot_text({7: long_point(0)}), b"one", roots[1]), "export"]
    yield from heading("Nothing is written or synced: a write before is still lost by a crash, and one that a crash kept is read.")
    yield from [*published(), "write 63 = 01", "export", "stop", "crash 0", "sector 63", "export", "write 63 = 01", "export", "stop", "crash 1", "sector 63"]


# What damages a disk with a published snapshot and an edit since: the snapshot, in two ways, a record of which a part is missing, and one that is no edit.
BROKEN = (f"write {AREA} = ff*512", f"write {AREA} = 00", "write 5 = 1:1 2:1 2:2 3:8 26:4", "write 5 = 1:1 2:1 1:2 3:8 1:4 03")


def damaged():
    yield from heading("A damaged snapshot, a damaged record and a record that is no edit: the disk isn't opened, and its archive is saved.")
    for words in BROKEN:
        yield from [*opened(), put(7), "publish", put(8), "stop", "resume", words, "open", "export"]
    yield from heading("A snapshot that isn't one, and a record without its body.")
    yield from [*with_snapshot(b"none", archive_len=600), f"write {AREA + 1} = 'PM", "open", "export"]
    yield from [*published(), *list(record_words(Layout(64), 1, 2, Change(7, long_point(467))))[:1], "open", "export"]
    yield from heading("A damaged archive is copied as it is.")
    yield from [*published(), f"write {AREA + 1} = 01 02*200", "export", "export 3"]
    yield from heading("A damaged format sector, and damaged root sectors: each ends the reading.")
    for words in ("write 0 = 00", "write 0 = 'VTILEDSK", "write 0 = 'VTILEDSK 3:4 64:8", "write 0 = 'VTILEDSK 2:4 65:8", "write 1 = 01", "write 2 = 'VTROOT01",
                  "write 1 = 'VTROOT01 1:8", "write 2 = 'VTROOT01 1:8 1:8 16:8", "write 2 = 00"):
        yield from [*published(), words, "export", "open"]
    yield from [*published(), "write 1 = 00", "write 2 = 00", "export"]
    yield from heading("A root of generation 0 with an archive; an archive that ends with its area, and one that is a byte longer.")
    yield from [*fresh(), "write 1 = 'VTROOT01 0:8 0:8 0:8 0:8 1:8", "export"]
    for archive_len in (10240, 10241):
        yield from [*with_snapshot(snapshot_text({7: long_point(600)}), archive_len=archive_len), "write 62 = ff*512", "export"]


# An archive of three pieces, the last of two sectors, each of its 258 sectors unlike the others.
PIECES = b"".join(bytes([1 + sector % 250]) * 500 + bytes([1 + sector // 250]) * 12 for sector in range(258))[: 2 * PIECE + 700]


def with_pieces():
    return list(image(Layout(1024), Root(1, 0, 0, 25, len(PIECES)), snapshot_text({7: long_point(0)}), PIECES, Root(0, 0, 0, 0, 0)))


def calls():
    yield from heading("Each of the six calls of an export fails in turn: three of finding 1,100 bytes, three of copying them. The next one succeeds.")
    for stop in stops(1, 7):
        yield from [*with_any(), stop, "export", "export"]
    yield from heading("A piece is read whole before it is written: a read fails, and the writer has room for a part.")
    for stop in ("fail_not_made 6", "fail_not_made 7"):
        yield from [*with_any(), stop, "export 600"]
    yield from heading("Three pieces. A read fails in each, and the pieces before it are written.")
    yield from with_pieces()
    for call in (3, 4, 131, 132, 259, 260, 261, 262):
        for stop in stops(call, call):
            yield from [stop, "export"]
    yield from heading("The writer has no more room in each piece.")
    for room in (1, PIECE - 1, PIECE, PIECE + 1, 2 * PIECE - SECTOR, 2 * PIECE, len(PIECES) - 1, len(PIECES)):
        yield f"export {room}"
    yield from ["open", "archive"]


BLOCKS = [exports, damaged, calls]
