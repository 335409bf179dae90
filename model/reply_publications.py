"""Blocks of `reply_script.py` about the journal, publications and the archive, and about disks and writers that fail."""
import connections
import tiles
from disk import SECTOR
from reply_stand import A, BEGIN, BODY, CANCEL, GET_ARCHIVE, PUBLISH, STEP, WORLD, large_put, long_body, put, put_parts, request, tagged, with_point


# ---- the journal, publications, the archive


def fill_journal(script, letters):
    """Fifteen edits, one of two sectors, and one that fits."""
    for number in range(1, 16):
        script.ask(put(number))
    script.ask(*tagged(letters + 1, 16))
    script.ask(request("GET", "/features/16"))
    script.ask(*tagged(letters, 16))
    script.ask(put(17), request("DELETE", "/features/1"), request("DELETE", "/features/17"))
    script.note("A publication frees it; the next record goes round its end.")
    script.ask(PUBLISH)
    script.ask(put(17), request("DELETE", "/features/1"), request("GET", "/map/0/0/0.hex"))


def full_journal(script):
    script.say("A disk of 64 sectors: sixteen for the journal, two areas of 22. Fifteen edits, then one of two sectors, and one that just fits.")
    script.disk(64)
    fill_journal(script, 465)
    script.note("The same on a disk of version 1, whose records have a byte less.")
    script.first(64)
    fill_journal(script, 466)
    script.note("The same, with the edit of two sectors behind the publication.")
    script.disk(64)
    script.ask(*(put(number) for number in range(1, 16)), PUBLISH)
    script.ask(*tagged(467, 16))
    script.ask(request("GET", "/features/16"), GET_ARCHIVE)
    script.note("Snapshot and archive over 22 sectors; no publication is under way then.")
    script.disk(64)
    for number in (1, 2, 3, 4, 4):
        script.ask(*tagged(1000, number), b"", sizes="512")
    script.ask(put(9), put(9))
    script.ask(PUBLISH)
    for number in (5, 6):
        script.ask(*tagged(1001, number))
        script.ask(*tagged(1000 + number, number))
    script.ask(PUBLISH, BEGIN, STEP, CANCEL)
    script.note("A feature less, and it fits.")
    script.ask(request("DELETE", "/features/4"), request("DELETE", "/features/3"), PUBLISH)


def publications(script):
    script.say("Publications by steps, with edits between them, given up, and whole.")
    script.disk(256)
    script.ask(GET_ARCHIVE, request("HEAD", "/map.pmtiles"), request("GET", "/map.pmtiles", b"", "range: bytes=0-0"))
    script.note("Without tiles there is no archive, also behind a publication; its step takes no sector but the root.")
    script.ask(PUBLISH, GET_ARCHIVE, BEGIN, STEP, GET_ARCHIVE)
    script.disk(256)
    script.ask(STEP, CANCEL)
    script.ask(put(7), BEGIN, put(8), STEP, request("GET", "/map/0/0/0.hex"), GET_ARCHIVE)
    script.ask(BEGIN, BEGIN, PUBLISH, CANCEL, STEP, CANCEL)
    script.note("What is opened again: no publication is under way, the archive and the edits stand.")
    script.ask(BEGIN)
    script.again()
    script.ask(STEP, request("GET", "/map/0/0/0.hex"), GET_ARCHIVE)
    script.note("The body of a POST may be any.")
    script.disk(256)
    script.ask(put(7), request("POST", "/publish", b"{"), put(7), request("POST", "/publish", BODY))
    script.note("A map of more than 64 sectors takes several steps; the edits between them aren't in it.")
    script.disk(1024)
    for number in range(1, 4):
        script.ask(*large_put(number))
    script.ask(BEGIN, put(9), STEP, request("DELETE", "/features/2"), STEP, STEP, STEP, STEP, STEP, STEP)
    script.ask(GET_ARCHIVE, request("GET", "/features/2"), PUBLISH, GET_ARCHIVE, sizes="4096,1")


RANGES = [
    "bytes=0-0",
    "bytes=0-126",
    "bytes=5-300",
    "bytes=007-0010",
    "bytes=00-000",
    "bytes=222-222",
    "bytes=220-300",
    "bytes=0-999999999999999999",
    "bytes=000000000000000001-1",
    " \tbytes=1-2\t ",
    "bytes=223-300",
    "bytes=999999999999999999-999999999999999999",
]
NO_RANGES = [
    "",
    "bytes",
    "bytes=",
    "bytes=-",
    "bytes=5",
    "bytes=5-",
    "bytes=223-",
    "bytes=-5",
    "bytes=5-3",
    "bytes=0-1000000000000000000",
    "bytes=0000000000000000000-1",
    "bytes=0-1,3-4",
    "bytes=0-1-2",
    "bytes= 0-1",
    "bytes=0 -1",
    "bytes=0- 1",
    "bytes =0-1",
    "bytes = 0-1",
    "Bytes=0-1",
    "BYTES=0-1",
    "bytes:0-1",
    "byte=0-1",
    "items=0-1",
    "bytes=+0-1",
    "bytes=0-+1",
    "bytes=0x0-0x1",
    "bytes=a-b",
    "bytes=0\u20131",
    "bytes=0-\u00b2",
    "0-1",
]


def ranges(script):
    script.say("Parts of an archive of 223 bytes. A HEAD looks at no range.")
    with_point(script)
    script.ask(PUBLISH)
    for value in RANGES:
        field = f"range: {value}"
        script.ask(request("GET", "/map.pmtiles", b"", field), request("HEAD", "/map.pmtiles", b"", field))
    script.note("Values that are no range are as none, and so are two; other paths have no parts.")
    for value in NO_RANGES:
        script.ask(request("GET", "/map.pmtiles", b"", f"range: {value}"))
    script.ask(b"GET /map.pmtiles HTTP/1.1\r\nhost: x\r\nrange: bytes=0-\xb2\r\n\r\n")
    script.ask(request("GET", "/map.pmtiles", b"", "range: bytes=0-1", "Range: bytes=0-1"))
    script.ask(request("GET", "/map.pmtiles", b"", "range-x: bytes=0-1"), request("GET", "/map/0/0/0.hex", b"", "range: bytes=0-1"))
    script.ask(request("GET", "/map/metadata", b"", "RANGE: bytes=0-1"), request("GET", "/features/7", b"", "range: bytes=500-600"))


# ---- disks and writers that fail


def large_map(script, sectors=1024):
    """A map whose archive has more than 81,920 bytes: those of the first 32 sectors, a part of 65,536, and a rest."""
    script.disk(sectors)
    for number in range(1, 4):
        script.ask(*large_put(number))
    script.ask(PUBLISH)


def downloads(script):
    script.say("A download whose reads of the disk fail: the first one is told, a later one ends the connection. Then a part of the archive.")
    large_map(script)
    script.ask(GET_ARCHIVE, GET_ARCHIVE, sizes="4096,7")
    sectors = -(-script.stand.service.root.archive_len // SECTOR)
    for number in (1, 2, 32, 33, 34, 160, 161, 162, sectors, sectors + 1, sectors + 2, 2 * sectors, 2 * sectors + 1):
        script.again("lost", number)
        script.ask(GET_ARCHIVE, GET_ARCHIVE)
    script.note("A HEAD reads nothing, nor does a range that is none of the archive's.")
    script.again("from", 1)
    behind = request("GET", "/map.pmtiles", b"", "range: bytes=999999-999999")
    script.ask(request("HEAD", "/map.pmtiles"), behind, GET_ARCHIVE, request("HEAD", "/map.pmtiles"))
    for first, last, number in [(500, 600, 1), (500, 600, 2), (500, 600, 3), (700, 70000, 2), (700, 70000, 32), (700, 70000, 33)]:
        script.again("lost", number)
        script.ask(request("GET", "/map.pmtiles", b"", f"range: bytes={first}-{last}"), request("HEAD", "/map.pmtiles"))


def devices(script):
    script.say("Edits and publications of which a call of the disk fails: Device, then Broken; reads go on. Then what the next process finds.")
    shows = [request("GET", "/map/0/0/0.hex"), request("GET", "/map.pmtiles", b"", "range: bytes=0-0")]
    edits = [put(8, tiles.feature({"points": [[WORLD, 0]]})), put(9), request("DELETE", "/features/7")]
    for kind, number in [("lost", 1), ("made", 1), ("lost", 2), ("made", 2), ("from", 1), ("from", 2), ("lost", 3)]:
        with_point(script)
        script.ask(PUBLISH)
        script.again(kind, number)
        script.ask(*edits, *shows, BEGIN, STEP, CANCEL, PUBLISH)
        script.again()
        script.ask(*shows, request("GET", "/features/8"), put(9))
    script.note("A tile that is read in the archive: where a read fails, it is cut from the map.")
    for number in range(1, 5):
        with_point(script)
        script.ask(PUBLISH)
        script.again("lost", number)
        script.ask(A, A, request("GET", "/map/1/0/0.hex"), request("GET", "/map/2/3/0.mvt"), *shows)
    script.note("Faults of the body come in front of Broken, those of its length and its reach behind it; paths and methods come first.")
    script.disk(64)
    script.again("from", 1)
    script.ask(put(7), request("PUT", "/features/7", b"{"), request("PUT", "/features/7", b"[]"), request("POST", "/features/7"))
    script.ask(*put_parts(7, long_body(4094)), request("DELETE", "/features/7"), request("GET", "/features/7"), request("PUT", "/features/07", BODY))
    script.note("A DELETE of what isn't there makes no call of the disk, nor does what is refused for its length or the journal's room.")
    script.disk(64)
    script.again("from", 1)
    script.ask(request("DELETE", "/features/9"), *put_parts(7, long_body(4094)))
    script.ask(*put_parts(7, long_body(4093)), request("GET", "/map/metadata"), BEGIN, CANCEL)
    script.note("A record of two sectors: a body, a sync, a head, a sync.")
    for kind, number in [("lost", 1), ("lost", 2), ("made", 3), ("lost", 3), ("lost", 4), ("made", 4)]:
        script.disk(64)
        script.again(kind, number)
        script.ask(*tagged(467))
        script.again()
        script.ask(request("HEAD", "/features/7"), put(8))
    script.note("A step of two sectors: both, a sync, the root, a sync.")
    for kind, number in [("lost", 1), ("lost", 2), ("lost", 3), ("lost", 4), ("made", 4), ("lost", 5), ("made", 5), ("from", 4), ("from", 5), ("lost", 6)]:
        with_point(script, 64)
        script.again(kind, number)
        script.ask(BEGIN, STEP, STEP, *shows)
        script.again()
        script.ask(*shows, PUBLISH)


def writers(script):
    script.say("A writer that takes a few bytes a call.")
    for size in (1, 3, 64):
        with_point(script)
        script.ask(PUBLISH)
        script.writer(size, 10**9)
        script.ask(A, request("HEAD", "/map/0/0/0.mvt"), request("GET", "/map/2/2/2.mvt"), GET_ARCHIVE, A, b"\r\n", sizes="4096,1")
        script.writer()
    script.note("One that fails, or takes nothing, behind so many bytes: what was written is a beginning of the replies.")
    with_point(script)
    whole = connections.outcome(script.stand.service, A + b"\r\n", 4096).written
    first = connections.outcome(script.stand.service, A, 4096).written
    for end in ("fails", "full"):
        for room in (0, 1, 17, len(first) - 43, len(first) - 42, len(first) - 1, len(first), len(first) + 1, len(whole) - 1, len(whole)):
            script.writer(10**9, room, end)
            script.ask(A, b"\r\n", sizes="4096,1")
    script.note("An edit whose reply can't be written is made all the same; what is asked behind it isn't looked at.")
    script.writer(10**9, 10)
    script.ask(put(8), put(9))
    script.writer()
    script.ask(request("GET", "/features/8"), request("GET", "/features/9"))
    script.note("A download that can't be written whole, in its first part, in its second, and in its last.")
    large_map(script)
    front = len(connections.outcome(script.stand.service, request("HEAD", "/map.pmtiles"), 4096).written)
    for room in (front, front + 1, front + 512, front + 16384, front + 17000, front + 81920, front + 81921):
        script.writer(10**9, room)
        script.ask(GET_ARCHIVE, A)
    script.writer()


def too_many_tiles(script):
    script.say("A feature of 262,144 tiles, more than an archive takes: no publication begins, and none goes on.")
    script.disk(24000)
    wide = tiles.feature({"lines": [[[0, 0], [WORLD, 0]]]}, 18, 18)
    script.ask(put(7, wide), PUBLISH, BEGIN, STEP, CANCEL, GET_ARCHIVE)
    script.note("It is deleted, and the map is published.")
    script.ask(request("DELETE", "/features/7"), PUBLISH)


BLOCKS = [full_journal, publications, ranges, downloads, devices, writers, too_many_tiles]
