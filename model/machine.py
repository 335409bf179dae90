"""A model of a service on a disk: the answer to each call and the calls of the disk that it makes, from docs/FORMATS.md, docs/HTTP.md and
docs/DECISIONS.md. It shares no code with the product."""
import functools
import json
from collections import namedtuple

from calls import append, install, write_area
from crashes import Failed, Seen
from disk import FIRST_VERSION, LAST_NUMBER, LONGEST, MAX_CHANGES, SECTOR, Change, Record, Root, after, in_order, parts_of, read_disk
from disk import record_text, snapshot_text, text_of, whole_sectors
from limits import MAX_ZOOM, MAX_TILES
from map_archive import archive_of, id_of, metadata, points_of, reach, runs_of, steps_of_tiles
from tiles import tile

NUMBER_END = 2**63
MAX_ELEMENTS = 65535
STEP_SECTORS = 64
# Where published records have to go for a new one, this part of the journal's ring is freed at least.
FREED_PART = 64
# After how many sectors what the steps of a publication wrote is synced.
SYNC_SECTORS = 512
BEGUN = object()
# How many features a step of a draft reads, and how many are in a part of a tile.
READ_AT_ONCE, FEATURES_OF_A_PART = 256, 32


@functools.lru_cache(1 << 16)
def hash_of(text):
    """FNV-1a with 64 bits, as published."""
    held = 0xCBF29CE484222325
    for byte in text:
        held = (held ^ byte) * 0x100000001B3 % 2**64
    return held


def digest_of(found):
    """The digest of a map in hex: the sum of the hashes of the texts that put its features."""
    return "%016x" % (sum(hash_of(text_of(Change(number, feature))) for number, feature in found.items()) % 2**64)


class Refused(Exception):
    """A refused event: the name of its fault, and the details."""

    def __init__(self, name, *numbers):
        super().__init__(name)
        self.name, self.numbers = name, numbers


# ---- the limits of an edit


def is_list(items, least=1):
    return least <= len(items) <= MAX_ELEMENTS


def fits_geometry(geometry):
    (kind, lists), = geometry.items()
    if kind == "points":
        return is_list(lists)
    if kind == "lines":
        return is_list(lists) and all(is_list(line, 2) for line in lists)
    return is_list(lists) and all(is_list(rings) and all(is_list(ring, 3) for ring in rings) for rings in lists)


def fits_name(name):
    return 1 <= len(name.encode()) <= 64


# The value `Negative(0)`, which no integer stands for.
NO_NEGATIVE = -0.0


def fits_value(value):
    if value is NO_NEGATIVE:
        return False
    if isinstance(value, bool):
        return True
    if isinstance(value, str):
        return len(value.encode()) <= 1024
    return -NUMBER_END <= value < 2**64


def first_limit(change):
    """The first limit that a change breaks by itself, up to that of its tags' values, or None."""
    if change.number >= NUMBER_END:
        return "Number"
    feature = change.feature
    if feature is None:
        return None
    keys = [key.encode() for key in feature["tags"]]
    rows = [
        ("Layer", fits_name(feature["layer"])),
        ("Zoom", feature["minzoom"] <= feature["maxzoom"] <= MAX_ZOOM),
        ("Geometry", fits_geometry(feature["geometry"])),
        ("Tags", len(keys) <= 64 and all(fits_name(key) for key in feature["tags"]) and all(a < b for a, b in zip(keys, keys[1:]))),
        ("Value", all(fits_value(value) for value in feature["tags"].values())),
    ]
    return next((name for name, holds in rows if not holds), None)


def limit(changes):
    """The first limit that the changes of an edit break, or None."""
    numbers = [change.number for change in changes]
    if not 1 <= len(changes) <= MAX_CHANGES:
        return "Batch"
    if len(set(numbers)) < len(numbers):
        return "Twice"
    broken = next(filter(None, map(first_limit, changes)), None)
    if broken:
        return broken
    if sum(len(text_of(change)) for change in changes) > LONGEST:
        return "Long"
    return "Reach" if any(change.feature and reach(change.feature) > MAX_TILES for change in changes) else None


def as_stored(change):
    """The change with the tags of its feature in the order of their keys."""
    if change.feature is None:
        return change
    return Change(change.number, {**change.feature, "tags": dict(in_order(change.feature["tags"]))})


def is_same(one, other):
    """Whether two features have the same members: points in the same order, and the same value for each tag. Or there is neither."""
    return json.dumps(one, sort_keys=True) == json.dumps(other, sort_keys=True)


# ---- the service


# What a publication fixes as it is asked for: the map, the number of the last edit, the next place of the journal, and how many are in use.
Moment = namedtuple("Moment", "map edits place used")


class Publication:
    """A publication of the map of a moment: the content of its area, which has so many sectors."""

    def __init__(self, moment, area):
        snapshot, archive = snapshot_text(moment.map), archive_of(moment.map)
        if archive is None:
            raise Refused("TooManyTiles")
        self.lengths = len(snapshot), len(archive)
        self.sectors = whole_sectors(len(snapshot)) + whole_sectors(len(archive))
        if self.sectors > area:
            raise Refused("AreaFull", self.sectors, area)
        self.held = snapshot.ljust(SECTOR * whole_sectors(len(snapshot)), b"\0") + archive
        self.map, self.edits, self.place, self.used = moment
        self.written = 0


class Draft:
    """A publication in the making: its moment, and the tiles of its map that are made. First its features are read, so many at a step; then its tiles
    are made zoom by zoom, and after the last one comes a step that finds none."""

    def __init__(self, moment, area):
        self.moment, self.tiles, self.left = moment, [], self.steps(area)

    def steps(self, area):
        """The tile that each step adds, or None, for an area of so many sectors."""
        for _ in range(len(self.moment.map) // READ_AT_ONCE + 1):
            yield None
        left = area - whole_sectors(len(snapshot_text(self.moment.map)))
        yield from steps_of_tiles(self.moment.map, FEATURES_OF_A_PART, left)

    def advance(self):
        """Makes the next step. Whether there was one."""
        for made in self.left:
            self.tiles += [made] if made else []
            return True
        return False

    def told(self):
        """What is told of it: the entries that an archive of the tiles so far has, how many they are, and the places that were in use."""
        return {"entries": len(runs_of(self.tiles)), "made": len(self.tiles), "places": self.moment.used}


class Service:
    """A map on a disk. Opening it may raise `Fault` or `Failed`."""

    def __init__(self, disk):
        disk.sync()
        found = read_disk(Seen(disk))
        self.disk, self.version, self.layout, self.root, self.used = disk, found.version, found.layout, found.root, found.used
        self.publication, self.draft, self.broken, self.attempted = None, None, False, []
        # What became of the whole publication that is prepared, once that is known: BEGUN, or the fault for which it was refused.
        self.whole = None
        self.snapshot, self.map, self.last, self.cells, self.boxes = found.snapshot, dict(found.snapshot), found.root.edits, {}, []
        self.kept, self.directories = {}, None
        # The edits that the journal's ring has, published ones before those in use; the place of the first, how many places they have, and
        # the number of the last one that it doesn't have.
        self.recorded, self.recorded_at, self.taken, self.forgotten = list(found.records), found.root.journal_at, found.used, found.root.edits
        for record in found.records:
            self.apply(record.changes)

    def places_of(self, records):
        return sum(parts_of(len(record_text(record))) for record in records)

    def read_place(self, offset):
        """Reads the place that is so many places behind that of the first record that the ring has."""
        self.disk.read(self.layout.place(self.recorded_at + offset))

    def find_record(self, offset):
        """Reads the places by which the record behind so many places is found: all that the ring's records have are halved."""
        low, high = 0, self.taken
        while low < high:
            middle = low + (high - low) // 2
            self.read_place(middle)
            low, high = (middle + 1, high) if middle < offset else (low, middle)

    def make_room(self, need):
        """Forgets published records whose places the next one takes: a 64th of the ring, or what is short, up to the end of a record."""
        short = need - (self.layout.places - self.taken)
        if short <= 0:
            return
        least = min(max(short, self.layout.places // FREED_PART), self.taken - self.used)
        count = offset = 0
        while offset < least:
            offset += self.places_of(self.recorded[count : count + 1])
            count += 1
        self.read_place(least - 1)
        self.find_record(offset)
        self.recorded, self.forgotten = self.recorded[count:], self.forgotten + count
        self.recorded_at, self.taken = (self.recorded_at + offset) % self.layout.places, self.taken - offset

    def next_place(self):
        return (self.root.journal_at + self.used) % self.layout.places

    def changed(self, call):
        """Makes calls that write. If one fails, the service is broken and its publication is dropped."""
        try:
            return call()
        except Failed as failed:
            self.broken, self.publication = True, None
            raise Refused("Device") from failed

    def check(self):
        """Asks the disk to keep what was written."""
        if self.broken:
            raise Refused("Broken")
        self.changed(self.disk.sync)

    # ---- edits

    def apply(self, changes):
        """Applies the next edit to the map, and records its number in the cells of each feature that it removes or adds, and beside its box."""
        self.last += 1
        for change in changes:
            before = self.map.pop(change.number, None)
            if change.feature is not None:
                self.map[change.number] = change.feature
            for feature in filter(None, (before, change.feature)):
                self.cells.update({cell: self.last for cell in cells_of_feature(feature)})
                self.boxes.append((self.last, box_of(feature)))

    def edit(self, changes):
        if self.last == LAST_NUMBER:
            raise Refused("NumbersSpent")
        text = record_text(Record(self.version, changes))
        need, free = parts_of(len(text)), self.layout.places - self.used
        if need > free:
            raise Refused("JournalFull", need, free)
        self.changed(lambda: self.make_room(need))
        self.attempted = changes
        self.changed(lambda: append(self.disk, self.layout.place, self.next_place(), self.last + 1, text, self.version))
        self.used, self.taken = self.used + need, self.taken + need
        self.recorded.append(Record(self.version, changes))
        self.apply(changes)
        return self.last

    def left_by_a_crash(self):
        """The maps of which a crash leaves one: with the acknowledged edits, or with the one that was attempted last as well."""
        return self.map, after(self.map, [Record(self.version, self.attempted)])

    def within_limits(self, changes):
        broken = limit(changes)
        if broken:
            raise Refused("Limit", broken)
        return [as_stored(change) for change in changes]

    def put(self, number, feature):
        if self.broken:
            raise Refused("Broken")
        return self.edit(self.within_limits([Change(number, feature)]))

    def delete(self, number):
        if self.broken:
            raise Refused("Broken")
        if number not in self.map:
            raise Refused("NotFound")
        return self.edit([Change(number, None)])

    def batch(self, changes):
        if self.broken:
            raise Refused("Broken")
        if self.version == FIRST_VERSION:
            raise Refused("NeedsUpgrade")
        changes = self.within_limits(changes)
        if any(change.feature is None and change.number not in self.map for change in changes):
            raise Refused("NotFound")
        return self.edit(changes)

    def first_changed(self, seen):
        """The first of these numbers that doesn't have the feature beside it, or None."""
        return next((number for number, feature in seen if not is_same(self.map.get(number), feature)), None)

    # ---- publications

    def begin(self):
        if self.broken:
            raise Refused("Broken")
        if self.publication:
            raise Refused("Busy")
        if self.root.generation == LAST_NUMBER:
            raise Refused("NumbersSpent")
        return self.publishes(self.moment())

    def moment(self):
        return Moment(dict(self.map), self.last, self.next_place(), self.used)

    def publishes(self, moment):
        """Begins the publication of the map of a moment."""
        self.publication = Publication(moment, self.layout.area)
        return self.publication.sectors + 1

    def prepare(self):
        """The first call fixes the map, each later one makes a tile of it. Whether tiles may be left."""
        if self.broken:
            self.draft = None
            raise Refused("Broken")
        if self.draft:
            return self.draft.advance()
        if self.publication:
            raise Refused("Busy")
        if self.root.generation == LAST_NUMBER:
            raise Refused("NumbersSpent")
        self.draft = Draft(self.moment(), self.layout.area)
        return True

    def drafted(self):
        """Begins the publication of the map that was fixed."""
        draft, self.draft = self.draft, None
        if self.broken:
            raise Refused("Broken")
        if self.publication:
            raise Refused("Busy")
        if not draft:
            raise Refused("Idle")
        return self.publishes(draft.moment)

    def drop(self):
        self.draft = None

    def going(self):
        if self.broken:
            raise Refused("Broken")
        if not self.publication:
            raise Refused("Idle")
        return self.publication

    def step(self, pauses=True):
        going = self.going()
        left = going.sectors - going.written
        self.changed(lambda: self.advance(going, min(left, STEP_SECTORS), pauses))
        return left - STEP_SECTORS + 1 if left > STEP_SECTORS else 0

    def advance(self, going, more, pauses):
        """Writes the next `more` sectors, and syncs at each `SYNC_SECTORS` if an edit may come before the next; after the last one it installs the
        root, and reclaims the places of its edits."""
        generation = self.root.generation + 1
        write_area(self.disk, self.layout, generation, going.held, range(going.written, going.written + more))
        going.written += more
        if going.written < going.sectors:
            if pauses and going.written % SYNC_SECTORS == 0:
                self.disk.sync()
            return
        root = Root(generation, going.edits, going.place, *going.lengths)
        install(self.disk, root)
        self.root, self.snapshot, self.used = root, going.map, self.used - going.used
        self.publication, self.draft, self.directories = None, None, None

    def cancel(self):
        self.going()
        self.publication = None

    def prepare_whole(self):
        """Makes a step of a whole publication: one of its draft, its beginning with the last one, or one that writes, but not the last. Whether
        there was one."""
        if self.whole is None:
            return self.prepare_to_begin()
        going = self.publication
        if self.whole is not BEGUN or not going or going.sectors - going.written <= STEP_SECTORS:
            return False
        try:
            self.step()
        except Refused:
            self.whole = None
        return self.whole is BEGUN

    def prepare_to_begin(self):
        """Makes a step of its draft, and begins once none is left; its map may be refused."""
        try:
            if self.prepare():
                return True
        except Refused:
            return False
        try:
            self.drafted()
            self.whole = BEGUN
        except Refused as refused:
            self.whole = refused
        return True

    def give_up(self):
        """The whole publication that is prepared is cancelled if it has begun."""
        if self.whole is BEGUN and self.publication:
            self.cancel()
        self.whole = None

    def finish_whole(self):
        """Continues the whole publication whose map was fixed to its end."""
        whole, self.whole = self.whole, None
        if whole is None:
            self.drafted()
        elif whole is not BEGUN:
            raise whole
        left = True
        while left:
            left = self.step(pauses=False)
        return self.root.generation, self.root.edits, self.root.archive_len

    def publish(self):
        left = self.begin()
        edits = self.publication.edits
        while left:
            left = self.step(pauses=False)
        return self.root.generation, edits, self.root.archive_len

    # ---- what it shows

    def archive_at(self):
        return self.layout.area_at(self.root.generation) + whole_sectors(self.root.snapshot_len)

    def read(self, at, count):
        """Bytes of the archive. Each sector is read once."""
        first, end = at // SECTOR, whole_sectors(at + count)
        try:
            held = b"".join(self.disk.read(self.archive_at() + sector) for sector in range(first, end if count else first))
        except Failed as failed:
            raise Refused("Device") from failed
        return held[at - SECTOR * first :][:count]

    def newest(self, place):
        """The number of the newest edit in the cells of a tile."""
        return max((self.cells.get(cell, 0) for cell in cells_of_tile(*place)), default=0)

    def tile(self, *place):
        """The bytes of a tile: cached if no edit touched its cells since the one as of which they are right; read from the archive if none
        touched them since it was published; cut otherwise, and if it can't be read. If the service is broken, what was read doesn't count."""
        newest = self.newest(place)
        origin, number, held = self.kept.get(place, ("cut", -1, b""))
        if number >= newest and (origin == "cut" or not self.broken):
            return held
        held = tile(self.map, *place) if place[0] <= MAX_ZOOM else b""
        if newest <= self.root.edits and not self.broken and self.is_looked_up(place):
            origin, number = "read", self.root.edits
        else:
            origin, number = "cut", self.last
        if held:
            self.kept[place] = (origin, number, held)
        return held

    def is_looked_up(self, place):
        """Looks a tile up in the archive, and returns whether that succeeded. Directories are cached."""
        if not self.root.archive_len:
            return True
        sectors = Consecutive(self.disk, self.archive_at())
        try:
            if not self.directories:
                self.directories = Directories(sectors)
            at = self.directories.find(sectors, id_of(*place))
            if at:
                sectors.read(*at)
        except Failed:
            return False
        return True

    def metadata(self):
        return metadata(self.map)

    def first_from(self, number):
        """The first number from this one on that has a feature, or None."""
        return min((other for other in self.map if other >= number), default=None)

    def stale(self):
        """In how many squares, of the 1,024 that the squares of the world share, edits came that aren't in the archive."""
        self.boxes = [(number, box) for number, box in self.boxes if number > self.root.edits]
        return len(set().union(*(squares_of(box) for _, box in self.boxes)))

    def digest(self):
        return digest_of(self.map)

    def status(self):
        """What the service tells of itself."""
        layout, root, going = self.layout, self.root, self.publication
        return {
            "archive": root.archive_len,
            "area": {"sectors": layout.area, "used": whole_sectors(root.snapshot_len) + whole_sectors(root.archive_len)},
            "broken": self.broken,
            "cells": SQUARES**2,
            "digest": self.digest(),
            "drafting": self.draft.told() if self.draft else None,
            "edits": self.last,
            "features": len(self.map),
            "generation": root.generation,
            "journal": {"forgotten": self.forgotten, "places": layout.places, "used": self.used},
            "last": max(self.map, default=None),
            "left": going.sectors - going.written + 1 if going else None,
            "published": root.edits,
            "sectors": layout.sectors,
            "stale": self.stale(),
            "version": self.version,
        }


# ---- cells: the world is 32 of them wide and high
CELL_BITS = 27
WORLD_END = 2**32


def cells_between(xs, ys):
    """The cells of a box of the world."""
    columns, rows = ([max(0, min(WORLD_END - 1, number)) >> CELL_BITS for number in (min(span), max(span))] for span in (xs, ys))
    return [(x, y) for x in range(columns[0], columns[1] + 1) for y in range(rows[0], rows[1] + 1)]


def cells_of_feature(feature):
    points = points_of(feature["geometry"])
    return cells_between([x for x, _ in points], [y for _, y in points])


def cells_of_tile(zoom, x, y):
    """The cells of a tile with its margin; all cells for a zoom that no feature is shown on."""
    if zoom > MAX_ZOOM:
        return cells_between([0, WORLD_END], [0, WORLD_END])
    spans = [[(4096 * number - 64) << (20 - zoom), ((4096 * number + 4161) << (20 - zoom)) - 1] for number in (x, y)]
    return cells_between(*spans)


# ---- squares: the world is 32,768 of them wide and high, and those that are 32 columns or rows apart count as one
SQUARE, SQUARES = WORLD_END // 32768, 32


def box_of(feature):
    """The least and the greatest coordinate of a feature's points, across and down."""
    return [(min(numbers), max(numbers)) for numbers in zip(*points_of(feature["geometry"]))]


def squares_of(box):
    """The squares that a box touches, each by the remainders of its column and of its row."""
    across, down = ({number % SQUARES for number in range(first // SQUARE, last // SQUARE + 1)} for first, last in box)
    return {(column, row) for column in across for row in down}


# ---- tiles in an archive


class Consecutive:
    """Bytes of consecutive sectors. The sector that was read last is cached."""

    def __init__(self, disk, first):
        self.disk, self.first, self.last, self.held = disk, first, None, b""

    def sector(self, at):
        if at != self.last:
            self.last = None
            self.held = self.disk.read(self.first + at)
            self.last = at
        return self.held

    def read(self, at, count):
        held = b"".join(self.sector(sector) for sector in range(at // SECTOR, whole_sectors(at + count)))
        return held[at % SECTOR :][:count]


def varints(held):
    numbers, number, shift = [], 0, 0
    for byte in held:
        number |= (byte & 127) << shift
        shift = shift + 7 if byte & 128 else 0
        if not byte & 128:
            numbers.append(number)
            number = 0
    return numbers


def entries_of(held):
    """The entries of a directory: id, run, length and offset."""
    numbers = varints(held)
    count = numbers[0]
    columns = [numbers[1 + count * column : 1 + count * (column + 1)] for column in range(4)]
    entries, number, end = [], 0, 0
    for delta, run, length, offset in zip(*columns):
        number += delta
        at = end if offset == 0 else offset - 1
        entries.append((number, run, length, at))
        end = at + length
    return entries


def find(entries, number):
    """The entry of an id: a tile entry, or that of the leaf directory with it."""
    before = [entry for entry in entries if entry[0] <= number]
    return before[-1] if before and (before[-1][1] == 0 or number < before[-1][0] + before[-1][1]) else None


class Directories:
    """The cached directories of an archive: the root, and the leaf that was read last."""

    def __init__(self, sectors):
        header = sectors.read(0, 127)
        root_at, root_len, _, _, self.leaves_at, _, self.contents_at = (int.from_bytes(header[at : at + 8], "little") for at in range(8, 64, 8))
        self.root, self.leaf_at, self.leaf = entries_of(sectors.read(root_at, root_len)), None, []

    def find(self, sectors, number):
        """The offset and length of the content of a tile id, or None."""
        entry = find(self.root, number)
        if entry and entry[1] == 0:
            if entry[3] != self.leaf_at:
                self.leaf_at, self.leaf = entry[3], entries_of(sectors.read(self.leaves_at + entry[3], entry[2]))
            entry = find(self.leaf, number)
        return (self.contents_at + entry[3], entry[2]) if entry else None
