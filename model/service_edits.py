"""Blocks of `service_script.py` about edits and their limits, and about edits that a crash stops."""
from service_lines import ALL_CHOICES, LAST, POINT, WORLD_END, crashed, fresh, heading, looks, opened, opens, put, put_each, stops, words_of


def tiles_and_answers():
    yield from heading("The documented example: the tile of a point, tiles that don't show it, and zooms past the last.")
    yield from [*opened(), put(7), "tile 0 0 0", "tile 2 0 0", "tile 2 3 3", "tile 3 0 0", "tile 16 0 0", "tile 17 0 0", "tile 19 0 0"]
    yield from ["tile 20 0 0", "tile 31 0 0", "look 7", "look 8"]
    yield from heading("A run of no events, and one of several: a refused event has an answer too.")
    yield from ["nothing", f"tile 0 0 0; {put(7)}; tile 0 0 0; look 7; look 8; delete 8; delete 7; look 7; tile 0 0 0"]
    yield from heading("The other documented tiles: a reversed ring, a line in two chains, points at the edge of a tile, each kind of tag; and two layers.")
    ring = f"{3 << 20},{6 << 20} {20 << 20},{34 << 20} {8 << 20},{12 << 20}"
    line = "52428800,52428800 2621440000,52428800 2621440000,104857600 52428800,104857600"
    yield from [*opened(), f"put 1 p 0 2 polygons {ring}", "tile 0 0 0", f"put 1 p 0 2 lines {line}", "tile 1 0 0", "tile 1 1 0"]
    yield from ["put 1 p 0 2 points 2181038080,0 2181562368,0", "tile 1 0 0", "tile 1 1 0", "put 1 p 0 2 points 0,0 a='x b=-2 c=3 d=true", "tile 0 0 0"]
    yield from ["put 1 l 0 8 lines 0,0 16384,0", "tile 5 0 0", "tile 6 0 0", put(2), "put 3 a 0 2 points 0,0", "tile 2 0 0", looks(1, 2, 3), "metadata"]


def limits():
    yield from heading("Each limit of an edit, at its bound and past it. A refused edit takes no number.")
    world = f"0,0 {WORLD_END - 1},0 {WORLD_END - 1},{WORLD_END - 1} 0,{WORLD_END - 1}"
    yield from [*opened(1024), f"put {2**63} {POINT}", f"put {2**63 - 1} {POINT}"]
    yield from [f"put 1 {'l' * 65} 0 2 points 0,0", f"put 1 {'l' * 64} 0 2 points 0,0"]
    yield from ["put 1 p 3 2 points 0,0", "put 1 p 0 20 points 0,0", "put 1 p 20 20 points 0,0", "put 1 p 2 2 points 0,0", "put 1 p 16 16 points 0,0"]
    yield from ["put 1 p 0 17 points 0,0", "put 1 p 19 19 points 0,0"]
    yield from ["put 1 p 0 2 lines 0,0", "put 1 p 0 2 polygons 0,0 1,1", "put 1 p 0 2 polygons 0,0 9,9 9,0 / 1,1", "put 1 p 0 2 lines 0,0 1,1 / 2,2"]
    yield from [f"put 1 p 0 2 points 0,0 {words}" for words in ("b=1 a=1", "a=1 b=2", f"{'k' * 65}=1", f"{'k' * 64}=1")]
    keys = sorted(f"k{number}" for number in range(65))
    yield from [f"put 1 p 0 2 points 0,0 {' '.join(f'{key}=1' for key in keys[:count])}" for count in (65, 64)]
    yield from [put(1, 1025), put(1, 1024), "put 1 p 0 2 points 0,0 t=-0", f"put 1 p 0 2 points 0,0 t=-{2**63}", f"put 1 p 0 2 points 0,0 t={LAST}"]
    yield from heading("A text of at most 32,768 bytes, and one of more; a polygon with a reach within the limit, and one past it.")
    tags = " ".join(f"t{number:02}='x*1000" for number in range(31))
    for points in (191, 192):
        yield f"put 1 p 0 0 points {' '.join(['5,5'] * points)} {tags}"
    yield from [f"put 1 p 0 9 polygons {world}", f"put 1 p 0 8 polygons {world}", "tile 7 99 99", "tile 8 0 0", "tile 9 0 0"]
    yield from [f"put 1 p 0 7 polygons {world}", "tile 7 99 99", "tile 8 0 0", f"put 1 p 9 9 polygons {world}", "tile 9 511 0"]
    yield from heading("Of two broken limits the first is reported.")
    yield from [f"put {2**63} p 0 20 points 0,0", "put 1 p 0 20 lines 0,0", "put 1 p 0 2 lines 0,0 b=1 a=1", f"put 1 p 0 9 polygons {world} b=1 a=1"]


def greatest_zoom():
    edge = f"{WORLD_END - 1},{WORLD_END - 1}"
    yield from heading("A point at the last corner of the world on all 20 zooms, in its last tiles, after a crash, and in an archive.")
    yield from [*opened(), f"put 7 p 0 19 points {edge}", "tile 0 0 0", "tile 16 65535 65535", "tile 19 524287 524287", "tile 19 524286 524287", "tile 19 0 0"]
    yield from ["tile 20 1048575 1048575", "stop", *crashed(), "look 7", "tile 19 524287 524287", "publish", "archive", "verify", "metadata"]
    yield from ["stop", "resume", "export", "open", "tile 19 524287 524287", "tile 19 524287 524286", "tile 18 262143 262143", "tile 20 1048575 1048575"]
    yield from heading("Features with the most tiles, 262,144, and with more: a line along the edge of the world, and boxes of zoom 19.")
    yield from [*opened(), f"put 1 l 18 18 lines 0,0 {WORLD_END - 1},0", "tile 18 0 0", "tile 18 262143 0", "tile 18 262143 1", "tile 17 0 0"]
    yield from [f"put 1 l 17 18 lines 0,0 {WORLD_END - 1},0", f"put 1 l 19 19 lines 0,0 {WORLD_END - 1},0", "tile 18 262143 0"]
    yield from ["put 2 b 19 19 points 0,0 2147475456,0", "put 3 b 19 19 points 0,0 2147483648,0", "tile 19 262143 0", "tile 19 262144 0"]
    yield from ["put 2 b 19 19 polygons 0,0 536862720,0 536862720,24576", "put 3 b 19 19 polygons 0,0 429490176,0 429490176,32768", "tile 19 65535 3"]
    yield from ["look 3", "stop", *crashed(), looks(1, 2, 3), "tile 18 131072 0", "tile 19 65535 0"]


def edits():
    yield from heading("Edits survive a crash. Deleting a number without a feature is refused.")
    yield from [*opened(), put(7), put(8, 467), "delete 9", "delete 8", "delete 8", "stop", *crashed(), looks(7, 8), "tile 0 0 0", put(8)]
    yield from heading(
        "The journal has 16 places: an edit that needs more than are free is refused, and the last place is used. The text of a record of version 2 has",
        "a byte more than that of version 1.",
    )
    for version, letters in ((2, 465), (1, 466)):
        yield from [*opened(64, version), *put_each(1, 15), put(16, letters + 1), "look 16", put(16, letters), put(17), "delete 1", "look 1"]
        yield from ["stop", *crashed(), looks(16, 17)]
    yield from heading(
        "Calls of the disk for records with texts of 25 or 26, 496, 497 and 993 bytes: a write and a sync for one part, else bodies, sync, head, sync.",
        "Opening takes 5.",
    )
    for version, count in ((2, 1), (1, 0)):
        for letters in (None, 0, 466 - count, 467 - count, 963 - count):
            yield from [*opened(64, version), *([] if letters is None else [put(1, letters)]), "stop"]
    yield from heading("The last edit number: Limit and NotFound are reported before NumbersSpent.")
    yield from [*fresh(), f"write 1 = 'VTROOT01 0:8 {LAST - 1}:8", "open", put(1), put(2), "delete 1", "delete 2", put(2, 1025), "stop", *crashed(), "look 1"]


def edit_stops():
    yield from heading(
        "Four edits: of one sector, of two, a deletion, of one sector. Opening makes calls 1 to 5, the edits 6 to 15, and each call fails in turn.",
        "After a crash, the acknowledged edits are there, and at most the failed one besides; the next edit has the next number.",
    )
    edits_made = [put(1), put(2, 467), "delete 1", put(3)]
    for stop in stops(1, 16):
        yield from [*fresh(), stop, "open", *([*edits_made, looks(1, 2, 3)] if opens(stop, 5) else []), "stop"]
        for choice in ([], [1, 1, 1], [0, 1, 1], [1]):
            yield from [*crashed(choice), f"{looks(1, 2, 3)}; {put(9)}"]
    yield from heading("Only the write of the head fails: without a crash the edit is there exactly if the write was done.")
    for stop in ("fail_not_made 6", "fail_made 6"):
        yield from [*fresh(), stop, "open", put(1), "stop", "resume", "open", looks(1), put(2)]


def bodies_alone():
    yield from heading(
        "An edit of three sectors stops after one of its bodies, and a crash leaves that or not. A second one of the same number stops before its",
        "second body, their sync, or its head. No crash leaves either edit, and a third one is there whole.",
    )
    for first in ([0], [1]):
        for call in (7, 8, 9):
            for second in ALL_CHOICES[2]:
                yield from [*fresh(), "fail_from 7", "open", put(1, 963), "stop", f"crash{words_of(first)}"]
                yield from [f"fail_from {call}", "open", put(2, 963, "y"), "stop", f"crash{words_of(second)}"]
                yield from ["open", looks(1, 2, 3), put(3, 963, "z"), "stop", *crashed(), looks(1, 2, 3)]


BLOCKS = [tiles_and_answers, limits, greatest_zoom, edits, edit_stops, bodies_alone]
