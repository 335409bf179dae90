#!/usr/bin/env python3
"""Disks in files, read and written a second time: what `vtserve pipe` leaves, and what it makes of another maker's disks.

    python3 tests/disks.py [PROGRAM]       PROGRAM is crates/vtserve/out/vtserve, which `rt run` leaves there

`model/disk.py` reads and writes disks from docs/FORMATS.md alone, and `model/tiles.py` makes tiles: nothing here is taken from the
product. After each process the file is, byte for byte, what the model makes of the edits that were answered, and the model reads
their map from it. Of a broken disk the model names the fault, as far as the program tells it, and the file is left as it is.
It prints a line for each case, and ends with 1 if one differs from what is wanted. Cases with a snapshot, an archive or a number of
earlier edits have [area] in front: programs that can't open such disks differ there.
"""
import json
import os
import random
import sys
import tempfile
from collections import Counter
from pathlib import Path

from command_cases import Cases, refusal, vtserve

sys.path.append(str(Path(__file__).resolve().parents[1] / "model"))
import disk as model
from disk import Change, Root
from disk_faults import AREAS, EMPTY, FORMATS, JOURNAL, RECORDS, ROOTS, SNAPSHOT, TEXT, at, no_texts
from map_archive import archive_of
from tiles import feature, tile

WORLD = 2**32
POINT = feature({"points": [[0, 0]]})
LATER = feature({"lines": [[[0, 0], [WORLD - 1, 5], [7, WORLD - 1]]]}, layer="later", tags={"name": "z" * 900})
other_bytes = random.Random(5).randbytes


# ---- requests and replies


def request(method, path, body=b""):
    return b"%s %s HTTP/1.1\r\nhost: x\r\ncontent-length: %d\r\n\r\n%s" % (method.encode(), path.encode(), len(body), body)


def json_of(value):
    return json.dumps(value, separators=(",", ":")).encode()


def change_json(made):
    return {"delete": made.number} if made.feature is None else {"put": made.number, "feature": made.feature}


def edit_request(made):
    """The request of a change alone, or of a list of changes."""
    if isinstance(made, list):
        return request("POST", "/edits", json_of({"changes": [*map(change_json, made)]}))
    if made.feature is None:
        return request("DELETE", f"/features/{made.number}")
    return request("PUT", f"/features/{made.number}", json_of(made.feature))


def tile_request(place):
    return request("GET", "/map/{}/{}/{}.hex".format(*place))


def replies(written):
    """The status and the content of each reply."""
    found = []
    while written:
        head, _, rest = written.partition(b"\r\n\r\n")
        fields = dict(field.split(b": ", 1) for field in head.split(b"\r\n")[1:])
        length = int(fields.get(b"content-length", b"0"))
        found.append((int(head.split(b" ")[1]), rest[:length].decode()))
        written = rest[length:]
    return found


def shown(found, place):
    """The reply that tells a tile of a map."""
    held = tile(found, *place)
    return (200, held.hex()) if held else (204, "")


def tiles_near(found):
    """Some tiles at the first points of the features of a map, and one of the whole world."""
    places = {(0, 0, 0)}
    for item in found.values():
        (_, lists), = item["geometry"].items()
        while isinstance(lists[0], list):
            lists = lists[0]
        for zoom in {item["minzoom"], item["maxzoom"]}:
            column, row = lists[0] >> (32 - zoom), lists[1] >> (32 - zoom)
            places |= {(zoom, column, row), (zoom, max(column - 1, 0), row)}
    return random.Random(1).sample(sorted(places), min(len(places), 40))


class Machine:
    """What a service over a disk has, and what it answers."""

    def __init__(self, found, last, free, version=model.LAST_VERSION):
        self.map, self.last, self.free, self.version, self.made = dict(found), last, free, version, []

    def edit(self, made):
        if isinstance(made, list) and self.version == model.FIRST_VERSION:
            return 409, "NeedsUpgrade\n"
        record = model.Record(self.version, made if isinstance(made, list) else [made])
        need = model.parts_of(len(model.record_text(record)))
        if any(change.feature is None and change.number not in self.map for change in record.changes):
            return 404, "NotFound\n"
        if self.last == model.LAST_NUMBER:
            return 500, "NumbersSpent\n"
        if need > self.free:
            return 507, f"JournalFull need {need} free {self.free}\n"
        self.map = model.after(self.map, [record])
        self.last, self.free, self.made = self.last + 1, self.free - need, [*self.made, record]
        return 200, '{"edit":%d}' % self.last


def map_lines(found):
    return [f"{number}: {model.line_of(found[number])}" for number in sorted(found)]


def outcome(held):
    """What the model reads of a disk: its first fault, or the number of the last edit, the places left, and the map."""
    try:
        disk = model.read_disk(held)
    except model.Fault as fault:
        return [str(fault)]
    return [disk.root.edits + len(disk.records), disk.layout.places - disk.used, *map_lines(model.map_of(disk))]


def different(rows):
    """What differs of rows of a name, what was found and what is wanted: each with the first items that do."""
    told = []
    for name, found, wanted in rows:
        if found != wanted:
            pairs = list(zip([*found, "(the end)"], [*wanted, "(the end)"]))
            index, pair = next((index, pair) for index, pair in enumerate(pairs) if pair[0] != pair[1])
            told.append(f"{name}, item {index}: " + ", wanted ".join(repr(item)[:200] for item in pair))
    return told


def written_to(path, held):
    with open(path, "wb") as file:
        file.write(held)


def serve(cases, name, path, machine, edits):
    """One process that makes edits and shows tiles, and the file that it leaves."""
    before = Path(path).read_bytes()
    machine.made = []
    wanted = [machine.edit(made) for made in edits]
    places = tiles_near(machine.map)
    status, written, told = vtserve(["pipe", path], b"".join([*map(edit_request, edits), *map(tile_request, places)]))
    rows = [("the process", [status, told], [0, b""])]
    rows.append(("replies", replies(written), wanted + [shown(machine.map, place) for place in places]))
    left = Path(path).read_bytes()
    rows.append(("bytes", left, model.with_records(before, machine.made)))
    rows.append(("the map", outcome(left), [machine.last, machine.free, *map_lines(machine.map)]))
    cases.show(f"{name}: {len(machine.made)} edits, a map of {len(machine.map)}, {machine.free} places left", different(rows), [])


# ---- features


def of_length(length):
    """A feature whose PUT has a text of this length, from 32 to 2,000 bytes."""
    short = len(model.text_of(Change(1, feature({"points": [[1, 2]]}, tags={"t": "", "u": ""}))))
    first = (length - short) // 2
    return feature({"points": [[1, 2]]}, tags={"t": "t" * first, "u": "u" * (length - short - first)})


def of_record(length):
    """A feature whose PUT on a disk of version 2 has a record with a text of this length, a byte more than that of the change."""
    return of_length(length - 1)


def square(x, y, side):
    return [[x, y], [x + side, y], [x + side, y + side], [x, y + side]]


def chosen():
    """Features at the bounds of what a text holds."""
    yield feature({"points": [[0, 0], [WORLD - 1, WORLD - 1], [WORLD - 1, 0]]})
    yield feature({"points": [[WORLD - 1, WORLD - 1]]}, minzoom=16, maxzoom=16)
    yield feature({"points": [[WORLD - 1, WORLD - 1]]}, minzoom=19, maxzoom=19)
    yield feature({"lines": [[[0, 0], [2**20, 2**21]], [[5, 5], [6, 7], [8, 9]]]}, layer="l" * 64, minzoom=3, maxzoom=3)
    yield feature({"polygons": [[square(2**30, 2**30, 2**24), square(2**30 + 99999, 2**30 + 99999, 2**20)], [square(9, 9, 2**28)]]})
    values = ["", "ü\U0001f5fa\0\"\\", "v" * 1024, 0, 2**64 - 1, -1, -(2**63), 2**63, False, True]
    yield feature({"points": [[2**31, 2**31]]}, layer="ж" * 32, tags={f"key {index}": value for index, value in enumerate(values)})
    yield feature({"points": [[2**31, 2**31]]}, tags={f"{index:02}" + "k" * 62: "v" * 200 for index in range(64)})
    yield feature({"points": [[2**31, 2**31]]}, tags={"\uffff": 1, "\U00010000": 2, "a": 3, "\0": 4, "a\0": 5})
    for length in (496, 497, 992, 993):
        yield of_record(length)
    yield feature({"points": [[index, index] for index in range(4093)]}, maxzoom=1, tags={"t": "uu"})


def any_value(source):
    return source.choice([source.randrange(2**64), -source.randrange(1, 2**63), source.random() < 0.5, "w" * source.randrange(300), "ö"])


def any_feature(source):
    """A feature of any kind, of one to some parts, that covers few tiles."""
    spread = 2 ** source.randrange(4, 24)
    centre = [source.randrange(spread, WORLD - spread) for _ in range(2)]

    def points(least):
        return [[at + source.randrange(-spread, spread) for at in centre] for _ in range(source.randrange(least, least + 20))]

    geometry = source.choice([
        {"points": points(1)},
        {"lines": [points(2) for _ in range(source.randrange(1, 4))]},
        {"polygons": [[points(3) for _ in range(source.randrange(1, 3))] for _ in range(source.randrange(1, 4))]},
    ])
    tags = {f"k{source.randrange(9)}": any_value(source) for _ in range(source.randrange(6))}
    first = source.randrange(15)
    return feature(geometry, first, source.randrange(first, 15), source.choice(["p", "roads", "ж"]), tags)


NUMBERS = [*range(12), *(2**63 - 1 - number for number in range(4))]


def any_edit(source):
    return Change(source.choice(NUMBERS), any_feature(source) if source.random() < 0.7 else None)


def any_batch(source):
    """Changes of different numbers; few are deletions, which are refused where a feature is gone."""
    numbers = source.sample(NUMBERS, source.randrange(1, 9))
    return [Change(number, any_feature(source) if source.random() < 0.9 else None) for number in numbers]


# ---- what the program leaves


def fresh(path, sectors):
    """A disk that the program formats, and what serves it."""
    vtserve(["format", path, "--sectors", str(sectors)])
    return Machine({}, 0, sectors // 4)


def leaves(cases, folder):
    """Runs of edits over disks that the program formatted, each of some processes."""
    path = os.path.join(folder, "chosen")
    machine = fresh(path, 1024)
    cases.show("format", different([("bytes", Path(path).read_bytes(), model.write_disk(1024, 0, {}, [], b"", 0))]), [])
    for number, item in enumerate(chosen()):
        serve(cases, f"a text of {len(model.text_of(Change(number, item)))} bytes", path, machine, [Change(number, item)])
    serve(cases, "each of them goes", path, machine, [Change(number, None) for number in machine.map])
    path = os.path.join(folder, "random")
    machine, source = fresh(path, 4096), random.Random(7)
    for process in range(12):
        serve(cases, f"edits at random, process {process + 1}", path, machine, [any_edit(source) for _ in range(25)])
    path = os.path.join(folder, "batches")
    machine, source = fresh(path, 4096), random.Random(8)
    for process in range(8):
        made = [any_batch(source) if source.random() < 0.6 else any_edit(source) for _ in range(20)]
        serve(cases, f"batches at random, process {process + 1}", path, machine, made)
    serve(cases, "64 changes", path, machine, [[Change(number, POINT) for number in range(100, 164)], [Change(number, None) for number in range(100, 164)]])


def fills(cases, folder):
    """A ring that has no place left, or too few."""
    path = os.path.join(folder, "full")
    machine = fresh(path, 67)
    serve(cases, "a ring of 16 places", path, machine, [Change(number, POINT) for number in range(13)])
    serve(cases, "4 parts for 3 places", path, machine, [Change(20, of_record(1489)), Change(21, of_record(496)), Change(22, of_record(993))])
    serve(cases, "2 parts for 2 places", path, machine, [Change(23, of_record(992))])
    serve(cases, "no place", path, machine, [Change(24, POINT), Change(1, POINT), Change(1, None), Change(99, None), [Change(1, POINT), Change(2, POINT)]])


def refused(cases, folder):
    """Requests that are refused leave the file as it is."""
    path = os.path.join(folder, "refused")
    machine = fresh(path, 1024)
    serve(cases, "one edit", path, machine, [Change(1, POINT)])
    before = Path(path).read_bytes()
    wide = feature({"polygons": [[square(0, 0, WORLD - 1)]]}, maxzoom=19)
    many = feature({"points": [[index, index] for index in range(4094)]})
    edits = [(many, "E8 Long"), (wide, "E9 Reach"), (feature({"points": [[0, 0]]}, layer=""), "E3 Layer")]
    requests = b"".join(edit_request(Change(2, item)) for item, _ in edits) + edit_request(Change(2**63, POINT))
    wanted = [(400, f"{word}\n") for _, word in edits] + [(404, "NotFound\n")]
    rows = [("replies", replies(vtserve(["pipe", path], requests)[1]), wanted), ("bytes", Path(path).read_bytes(), before)]
    cases.show("requests that are refused leave the file as it is", different(rows), [])


# ---- another maker's disks


def one_of_each():
    """A map of features of all kinds."""
    source = random.Random(3)
    return {**{number: any_feature(source) for number in range(100, 112)}, 2**63 - 1: POINT, 7: next(chosen())}


def small_edits(count):
    return [Change(number, feature({"points": [[number << 28, 1 << 30]]})) for number in range(count)]


def across():
    """Edits whose records take 7 places, of which the second has 3."""
    return [Change(1, POINT), Change(2, of_record(993)), Change(3, POINT), Change(1, None), Change(4, of_record(496))]


def records_of(edits, versions=(2,)):
    """The records of edits of one change, of these versions in turn."""
    return [model.single(made, versions[index % len(versions)]) for index, made in enumerate(edits)]


def journals():
    """Disks whose root has neither snapshot nor archive, and no edits before the journal."""
    for sectors in (64, 65, 66, 67, 68, 257, 258, 259):
        places = sectors // 4
        yield f"{sectors} sectors, across the ring's end", sectors, 1, {}, across(), b"", places - 2, 0, Root(0, 0, 0, 0, 0)
    yield "all places, from the first on", 64, 2, {}, small_edits(16), b"", 0, 0, Root(1, 9, 15, 512, 512)
    yield "all places, from the middle on", 64, 2, {}, small_edits(16), b"", 7, 0, Root(1, 9, 15, 512, 512)
    yield "all places but one, up to place 2", 64, 3, {}, small_edits(15), b"", 4, 0, None
    yield "the greatest generation", 256, 2**64 - 1, {}, across(), b"", 60, 0, Root(2**64 - 2, 2**64 - 1, 63, 94 * 512, 0)
    yield "the greatest even generation", 256, 2**64 - 2, {}, across(), b"", 63, 0, Root(3, 2, 1, 0, 94 * 512)
    wide = feature({"polygons": [[square(0, 0, WORLD - 1)]]}, maxzoom=19)
    yield "a feature of a greater reach than a PUT may have", 256, 4, {}, [Change(9, wide)], b"", 5, 0, None
    yield "a DELETE of a number without a feature", 256, 4, {}, [Change(9, None), *across()], b"", 5, 0, None


def areas():
    """Disks with a snapshot, an archive, or edits before the journal."""
    many = one_of_each()
    archive = other_bytes(700)
    edits = [*across(), Change(7, None), Change(100, POINT), Change(5, None)]
    for sectors in (512, 513, 514, 515, 516, 517, 518, 519):
        for generation in (1, 2):
            yield f"{sectors} sectors, generation {generation}", sectors, generation, many, edits, archive, sectors // 4 - 2, 1000, None
    yield "an archive without a snapshot", 64, 1, {}, across(), archive, 14, 5, Root(0, 0, 0, 0, 0)
    yield "a snapshot alone", 64, 1, {3: POINT}, [], b"", 15, 2**32, Root(0, 0, 0, 0, 0)
    yield "an area of 22 sectors, full of its archive", 64, 2, {3: POINT}, across(), other_bytes(21 * 512), 15, 77, Root(1, 9, 15, 512, 512)
    full = {number: of_length(512) for number in range(5, 27)}
    yield "an area of 22 sectors, full of its snapshot", 64, 3, full, across(), b"", 15, 77, Root(2, 9, 15, 512, 512)
    long = {5: POINT, 6: list(chosen())[-1], 8: LATER}
    yield "a text of 32,768 bytes in the snapshot", 256, 3, long, across(), archive, 61, 77, Root(2, 9, 15, 512, 512)
    yield "a number left", 256, 3, long, across()[:1], archive, 61, model.LAST_NUMBER - 2, None
    yield "the last number", 256, 3, long, across()[:1], archive, 61, model.LAST_NUMBER - 1, None
    yield "no number left", 256, 3, long, [], archive, 61, model.LAST_NUMBER, None


def strewn(held):
    """The disk with sectors in free places that no reader takes for its own: heads of the numbers so far, bodies of the next."""
    found = model.read_disk(held)
    disk = bytearray(held)
    last, end = found.root.edits + len(found.records), found.root.journal_at + found.used
    for offset in range(found.layout.places - found.used):
        version = 1 + offset // 2 % 2
        begun = model.front(offset, (last + 1) % 2**64, 32768, version) if offset % 2 else model.front(0, max(last - offset, 0), 25, version)
        model.put_at(disk, found.layout.place(end + offset), begun + other_bytes(496))
    return bytes(disk)


def serves(cases, folder, mark, rows, version=2, versions=(2,)):
    """Disks of another maker, of a version and with records of these versions: their tiles, edits on top, by two processes each."""
    path = os.path.join(folder, "foreign")
    for name, sectors, generation, snapshot, edits, archive, journal_at, before, older in rows:
        records = records_of(edits, versions)
        held = model.write_disk(sectors, generation, snapshot, records, archive, journal_at, before, other_bytes, older, version)
        disk = model.read_disk(held)
        found = model.after(snapshot, records)
        rows = [("the map", map_lines(model.map_of(disk)), map_lines(found)), ("records", disk.records, records)]
        cases.show(f"{mark}{name}: the model reads what it wrote", different(rows), [])
        for filled, more in [("", b""), (", other heads and bodies, a longer file", other_bytes(1333))]:
            written_to(path, (strewn(held) if more else held) + more)
            machine = Machine(found, before + len(edits), disk.layout.places - disk.used, version)
            serve(cases, f"{mark}{name}{filled}", path, machine, [Change(900, LATER), Change(2, None), Change(1, of_record(497))])
            made = [Change(900, None), Change(3, POINT), Change(4, POINT), [Change(5, POINT), Change(3, LATER)], Change(4, None)]
            serve(cases, f"{mark}{name}{filled}, again", path, machine, made)


def upgrades(cases, folder):
    """Disks of version 1 that are upgraded, twice: only sector 0 changes, and the next edits are of version 2."""
    path = os.path.join(folder, "upgraded")
    for name, sectors, generation, snapshot, edits, archive, journal_at, before, older in journals():
        records = records_of(edits, (1,))
        held = model.write_disk(sectors, generation, snapshot, records, archive, journal_at, before, other_bytes, older, 1)
        written_to(path, held)
        outcomes = [vtserve(["upgrade", path]) for _ in range(2)]
        upgraded = model.format_sector(sectors) + held[model.SECTOR :]
        rows = [("upgrade", outcomes, [(0, b"version 2\n", b"")] * 2), ("bytes", Path(path).read_bytes(), upgraded)]
        cases.show(f"[upgraded] {name}: the upgrade", different(rows), [])
        disk = model.read_disk(upgraded)
        machine = Machine(model.map_of(disk), before + len(edits), disk.layout.places - disk.used)
        serve(cases, f"[upgraded] {name}", path, machine, [[Change(900, LATER), Change(901, POINT)], Change(2, None), [Change(901, None)]])
    faults = [("zeros", bytes(64 * model.SECTOR), b"NotFormatted"), ("no bytes", b"", b"NotFormatted"), ("version 3", changed(whole(), [(8, 1)]), b"Damaged")]
    for name, held, fault in [*faults, ("a sector less than it says", whole()[: -model.SECTOR], b"Damaged")]:
        written_to(path, held)
        rows = [("upgrade", vtserve(["upgrade", path]), refusal(fault)), ("bytes", Path(path).read_bytes(), held)]
        cases.show(f"[upgraded] {name}", different(rows), [])
    cases.show("[upgraded] no file", different([("upgrade", vtserve(["upgrade", os.path.join(folder, "none")]), refusal(b"File"))]), [])


# ---- broken disks


def changed(held, changes):
    """The bytes with others from an offset on, or with the bits of one byte turned."""
    held = bytearray(held)
    for at, change in changes:
        new = bytes([held[at] ^ change]) if isinstance(change, int) else change
        held[at : at + len(new)] = new
    return bytes(held)


def opened(path, held, places):
    """What the program makes of a disk: status, what it tells, whether the file is as it was, and the replies for tiles."""
    written_to(path, held)
    status, written, told = vtserve(["pipe", path], b"".join(map(tile_request, places)))
    return [status, told, Path(path).read_bytes() == held, *replies(written)]


def told_of(fault):
    """What the program tells of a fault."""
    return [1, f"vtserve: {fault.partition('(')[0]}\n".encode(), True]


def judged(path, held, wanted):
    """What differs where the model and the program read a disk that has this fault, or this map."""
    if isinstance(wanted, str):
        return different([("the model", outcome(held), [wanted]), ("the program", opened(path, held, [(0, 0, 0)]), told_of(wanted))])
    places = tiles_near(wanted)
    replied = [0, b"", True, *(shown(wanted, place) for place in places)]
    return different([("the model", outcome(held)[2:], map_lines(wanted)), ("the program", opened(path, held, places), replied)])


# A disk of 256 sectors with 64 places and areas of 94 sectors. Its five records begin in the sectors 65, 66, 5, 6 and 7, the second
# goes on in 3 and 4. The other root, of generation 1, has an empty map.
def whole(snapshot=(), archive=b"", before=0):
    return model.write_disk(256, 2, dict(snapshot), records_of(across()), archive, 62, before, other_bytes, Root(1, before, 5, 0, 0))


def breaks(cases, folder, mark, held, snapshot, rows):
    """A field changed at a time."""
    path = os.path.join(folder, "broken")
    cases.show(f"{mark}the whole disk", judged(path, held, model.after(snapshot, records_of(across()))), [])
    for name, wanted, *changes in rows:
        if wanted == EMPTY:
            wanted = {}
        elif isinstance(wanted, int):
            wanted = model.after(snapshot, records_of(across())[:wanted])
        cases.show(f"{mark}{name}", judged(path, changed(held, changes), wanted), [])


# ---- texts of no change


def in_journal(text, version=1):
    """A disk whose journal is the record of a text."""
    disk = bytearray(model.write_disk(512, 2, {}, [], b"", 126, 0, other_bytes))
    model.put_records(disk, model.Layout(512), 126, 1, [(version, text)], other_bytes)
    return bytes(disk)


def in_batch(text):
    """A disk whose journal is the record of a batch of one change with this text."""
    return in_journal(b"\1" + text, 2)


def in_snapshot(text, archive=b""):
    """A disk whose snapshot is a text, with an archive behind it."""
    disk = bytearray(model.write_disk(256, 2, {}, [], b"", 62, 0, other_bytes))
    model.put_at(disk, 1, model.root_sector(Root(2, 0, 62, len(text), len(archive))))
    area = model.Layout(256).area_at(2)
    model.put_at(disk, area, text)
    model.put_at(disk, area + -(-len(text) // model.SECTOR), archive)
    return bytes(disk)


def misspelled(cases, folder, mark, disk_of, fault):
    """Texts of no change, in the journal or in the snapshot."""
    path = os.path.join(folder, "misspelled")
    tags = {"a": "text", "b": -1, "c": 1, "d": True}
    good = Change(7, feature({"polygons": [[square(5, 6, 2**30)]]}, tags=tags))
    text = model.text_of(good)
    whole_map = {7: good.feature}
    held = in_snapshot(text, archive_of(whole_map)) if disk_of == in_snapshot else disk_of(text)
    cases.show(f"{mark}a text", judged(path, held, whole_map), [])
    for name, other in no_texts():
        cases.show(f"{mark}{name}", judged(path, disk_of(other), fault), [])
    cut = [told for size in range(1, len(text)) for told in judged(path, disk_of(text[:size]), fault)]
    cases.show(f"{mark}a text cut short, at each of its {len(text)} bytes", cut, [])
    more = model.text_of(Change(8, feature({"points": [[index, index] for index in range(4094)]})))
    cases.show(f"{mark}a text of {len(more)} bytes", judged(path, disk_of(more), fault if disk_of == in_snapshot else JOURNAL), [])


# ---- bytes at random


def any_changes(source, sectors, kept):
    """One to three bytes changed, mostly in front of a sector, at no offset of a root that is kept."""
    for _ in range(source.randrange(1, 4)):
        sector, offset = source.choice(sectors), source.randrange(source.choice([16, 48, 80, 512]))
        if sector not in (1, 2) or offset not in kept:
            yield at(sector, offset), source.choice([1, 2, 3, 4, 128, source.randrange(256)])


def at_random(cases, folder, mark, held, sectors, kept):
    """Bytes changed at random: what the model reads is what the program serves."""
    path = os.path.join(folder, "random changes")
    source, told, seen = random.Random(11), [], Counter()
    for _ in range(600):
        broken = changed(held, any_changes(source, sectors, kept))
        found = outcome(broken)
        seen[found[0] if len(found) == 1 else "a map"] += 1
        told += judged(path, broken, found[0] if len(found) == 1 else model.map_of(model.read_disk(broken)))
    cases.show(f"{mark}bytes changed at random: " + ", ".join(f"{name} {count}" for name, count in sorted(seen.items())), told[:3], [])


def broken(cases, folder):
    """Disks of which a part isn't as it was written, without an area, and with one."""
    held, snapshot = whole(), {2: POINT, 4: POINT, 6: POINT}
    breaks(cases, folder, "", held, {}, FORMATS + ROOTS + RECORDS)
    misspelled(cases, folder, "in the journal: ", in_journal, TEXT)
    misspelled(cases, folder, "in a batch: ", in_batch, TEXT)
    records = [0, 1, 2, 3, 4, 5, 6, 7, 65, 66]
    at_random(cases, folder, "", held, records, [*range(16, 24), *range(32, 48)])
    held = whole(snapshot, other_bytes(700), 1000)
    breaks(cases, folder, "[area] ", held, snapshot, FORMATS + ROOTS + RECORDS + AREAS)
    misspelled(cases, folder, "[area] in the snapshot: ", in_snapshot, SNAPSHOT)
    at_random(cases, folder, "[area] ", held, [*records, 67, 67], [])


def main():
    cases = Cases()
    with tempfile.TemporaryDirectory() as folder:
        leaves(cases, folder)
        fills(cases, folder)
        refused(cases, folder)
        serves(cases, folder, "", journals())
        serves(cases, folder, "[area] ", areas())
        serves(cases, folder, "[version 1] ", journals(), 1, (1,))
        serves(cases, folder, "[records of both versions] ", journals(), 2, (1, 2))
        upgrades(cases, folder)
        broken(cases, folder)
    return 1 if cases.differ else 0


if __name__ == "__main__":
    sys.exit(main())
