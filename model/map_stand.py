"""What `map_runs` has to answer to a line of the part `maps`: a second implementation of a map, its tiles, texts and metadata, from the documents alone.

It shares no code with the product. `crates/map_runs/src/main.rt` says what each command does.
"""
import re
from collections import OrderedDict, defaultdict

import archives
import features
import map_random
import texts
import tiles
from chance import Chance
from disk import Change, NoEdit, Record, edit_text, record_text, snapshot_of, snapshot_text, text_of, whole_sectors
from ids import is_tile
from limits import MAX_ZOOM
from rust_text import clipped, debug, option
from words import digest

LAST = 2**32 - 1
SECTOR = 512
POINT = {"layer": "p", "minzoom": 0, "maxzoom": 2, "geometry": {"points": [[0, 0]]}, "tags": {}}


def expanded(text):
    """`<COUNT:TEXT>` stands for the text so many times."""
    return re.sub(r"<(\d+):([^<>]*)>", lambda found: found[2] * int(found[1]), text)


def numbers_in(rest):
    words = [int(word) if word.isdigit() else 0 for word in rest.split()]
    return (words + [0] * 8)[:8]


def shown(number, feature):
    features.check(number, feature)
    return features.compact(feature)


# ---- one feature


def json(rest):
    return shown(0, features.feature_of(expanded(rest)))


def numbered(rest):
    word, _, text = rest.partition(" ")
    return int(word), features.feature_of(expanded(text))


def text(rest):
    number, feature = numbered(rest)
    features.check(number, feature)
    return text_of(Change(number, feature)).hex()


def reach(rest):
    feature = features.feature_of(expanded(rest))
    count = tiles.reach(feature)
    try:
        features.check_reach(feature)
    except features.Fault as fault:
        return f"{count}: {fault}"
    return str(count)


def covers(rest):
    zoom, feature = numbered(rest)
    if zoom > MAX_ZOOM:
        raise features.Fault("E4 Zoom")
    features.check(0, feature)
    (x0, x1), (y0, y1) = tiles.covered(feature, zoom)
    return f"{x0} to {x1}, {y0} to {y1}"


# ---- texts of edits


def deleted(rest):
    number = int(rest)
    if number >= 2**63:
        raise features.Fault("E2 Number")
    made = Change(number, None)
    return f"{text_of(made).hex()} {edit_text([made]).hex()}"


def changes(rest):
    return edit_text(features.changes_of(expanded(rest))).hex()


def seen_text(number, feature):
    if feature is None:
        return "null"
    try:
        features.check(number, feature)
    except features.Fault as fault:
        return str(fault)
    return features.compact(feature)


def checked_changes(rest):
    made, seen = features.checked_of(expanded(rest))
    try:
        features.check_batch(made)
        told = edit_text(made).hex()
    except features.Fault as fault:
        told = str(fault)
    return " ".join([told, *(seen_text(change.number, feature) for change, feature in zip(made, seen))])


def record(rest):
    version, _, text = rest.partition(" ")
    found = texts.read_record(int(version), bytes.fromhex(expanded(text)))
    if isinstance(found, str):
        return found
    return f"{record_text(Record(int(version), found)).hex()} {edit_text(found).hex()}"


ALONE = {
    "json": json, "text": text, "reach": reach, "covers": covers, "deleted": deleted, "changes": changes, "checked": checked_changes,
    "record": record}


# ---- the newest edits of the world's cells, and tiles that are kept


# Of each level the bits of a coordinate that a cell has, after how many columns or rows cells share a number, and how many of them
# the box of a tile touches at most, or the level isn't asked: the first one always is.
LEVELS = ((27, 32, 32), (22, 32, 32), (17, 32, 32))
WIDE_LEVELS = (*LEVELS, (17, 256, 40))


def axis_shown(z, at):
    """The first and the last coordinate of the box of a tile's column, or row."""
    if z > MAX_ZOOM:
        return 0, LAST
    side = 2 ** (20 - z)
    first, behind = (4096 * at - 64) * side, (4096 * at + 4161) * side
    return min(max(first, 0), LAST), min(behind - 1, LAST)


class Grid:
    """The number of the newest edit of each of 32 by 32 cells of the world, and of each of finer cells."""

    def __init__(self, levels):
        self.levels, self.cells = levels, {}

    def places(self, level, across, down):
        """The places of the cells that a box touches, each once."""
        bits, side, _ = level
        columns, rows = ({cell % side for cell in range(first >> bits, min(last >> bits, (first >> bits) + side - 1) + 1)}
                         for first, last in (across, down))
        return {(level, column, row) for column in columns for row in rows}

    def mark(self, across, down, number):
        if across[0] <= across[1] and down[0] <= down[1]:
            for level in self.levels:
                for place in self.places(level, across, down):
                    self.cells[place] = max(number, self.cells.get(place, 0))

    def newest(self, z, x, y):
        """The least of what the levels say: of the first one, and of each of whose cells the tile touches few."""
        box = axis_shown(z, x), axis_shown(z, y)
        looked = [(bits, side, most) for bits, side, most in self.levels
                  if bits == 27 or all((last >> bits) - (first >> bits) < most for first, last in box)]
        return min(max(self.cells.get(place, 0) for place in self.places(level, *box)) for level in looked)


class Cache:
    """The 256 tiles that were asked for last, each with the number of the last edit when it was made."""

    def __init__(self):
        self.held = OrderedDict()

    def hold(self, place, number, content):
        self.held[place] = number, content
        self.held.move_to_end(place)
        if len(self.held) > 256:
            self.held.popitem(last=False)

    def get(self, place, newest):
        if place not in self.held:
            return None
        self.held.move_to_end(place)
        number, content = self.held[place]
        return content if number >= newest else None


# ---- the map


def squares(across, down):
    """The squares that a box touches, of 64 by 64 that the world has."""
    columns, rows = (range(first >> 26, (last >> 26) + 1) for first, last in (across, down))
    return [(column, row) for column in columns for row in rows]


class Map:
    def __init__(self, last, held=None):
        self.last, self.held = last, held or {}
        self.grid, self.cache = Grid(WIDE_LEVELS), Cache()
        # The numbers of the features whose bounding box touches a square.
        self.numbers = defaultdict(set)
        for number, feature in self.held.items():
            for square in squares(*tiles.corners(feature)):
                self.numbers[square].add(number)

    def change(self, made):
        for feature, step in [(self.held.pop(made.number, None), set.remove), (made.feature, set.add)]:
            if feature:
                box = tiles.corners(feature)
                self.grid.mark(*box, self.last)
                for square in squares(*box):
                    step(self.numbers[square], made.number)
        if made.feature:
            self.held[made.number] = made.feature

    def near(self, z, x, y):
        """The features that touch a square which the box of a tile touches. The tile shows nothing of others."""
        found = set().union(*(self.numbers[square] for square in squares(axis_shown(z, x), axis_shown(z, y))))
        return {number: self.held[number] for number in found}

    def edited(self):
        return f"edit {self.last}: {len(self.held)} features"

    def put(self, rest):
        number, feature = numbered(rest)
        features.check(number, feature)
        self.last += 1
        self.change(Change(number, feature))
        return self.edited()

    def delete(self, rest):
        number = int(rest)
        found = number in self.held
        self.last += 1
        self.change(Change(number, None))
        return f"{self.edited()}, was there {debug(found)}"

    def make(self, rest):
        found = texts.read_edit(bytes.fromhex(rest))
        if isinstance(found, str):
            return found
        self.last += 1
        for made in found[0]:
            self.change(made)
        return self.edited()

    def random(self, rest):
        count, ids, seed, one_in, *_ = numbers_in(rest)
        chance, taken, counts = Chance(seed), 0, 0
        for _ in range(count):
            made = map_random.any_edit(chance, ids, one_in)
            taken += made.feature is None and made.number in self.held
            self.last += 1
            self.change(made)
            counts = (counts * 31 + len(self.held)) % 2**64
        return f"{self.edited()}, {taken} taken, digest {counts}"

    def restore(self, rest):
        try:
            self.__init__(self.last, snapshot_of(bytes.fromhex(rest)))
        except NoEdit:
            return "the snapshot of no map"
        return f"{len(self.held)} features"

    def tile(self, place):
        content = self.cache.get(place, self.grid.newest(*place))
        if content:
            return f"kept {content.hex()}"
        content = tiles.tile(self.near(*place), *place) if place[0] <= MAX_ZOOM else b""
        if not content:
            return "nothing"
        self.cache.hold(place, self.last, content)
        return f"made {content.hex()}"

    def square(self, rest):
        zoom, column, row, side, *_ = numbers_in(rest)
        cached, found = 0, 0
        for place in ((zoom, x, y) for x in range(column, column + side) for y in range(row, row + side)):
            answer = self.tile(place) if is_tile(*place) else "no tile"
            cached += answer.startswith("kept")
            found = (found * 31 + digest(answer.encode())) % 2**64
        return f"{cached} cached, digest {found}"

    def anew(self, place):
        return tiles.tile(self.near(*place), *place).hex() if place[0] <= MAX_ZOOM else ""

    def layers(self, place):
        return debug([(name, 2, 4096, numbers) for name, numbers in tiles.layers(self.near(*place), *place).items()])

    def newest(self, place):
        return str(self.grid.newest(*place))

    def look(self, rest):
        number = int(rest)
        return shown(number, self.held[number]) if number in self.held else "none"

    def tiles(self, _):
        return debug([(tile_id, content.hex()) for tile_id, content in tiles.all_tiles(self.held)])

    def snapshot(self, _):
        return snapshot_text(self.held).hex()

    def metadata(self, _):
        return features.metadata(self.held)

    def area(self, rest):
        free = int(rest)
        snapshot = snapshot_text(self.held)
        said = features.metadata(self.held).encode()
        shown_tiles = [*tiles.all_tiles(self.held)]
        archive = archives.built(shown_tiles, said) if shown_tiles else b""
        if archive is None:
            return "the tiles need more than 131,072 entries"
        need = whole_sectors(len(snapshot)) + whole_sectors(len(archive))
        if need > free:
            return f"an area has {free} sectors, and {need} are needed"
        held = b"".join(part.ljust(SECTOR * whole_sectors(len(part)), b"\0") for part in (snapshot, archive))
        return f"{len(snapshot)} {len(archive)} {need} {held.hex()}"

    PLACES = {"tile": tile, "anew": anew, "layers": layers, "newest": newest}
    LINES = {
        "put": put, "delete": delete, "make": make, "random": random, "restore": restore, "look": look, "tiles": tiles,
        "snapshot": snapshot, "metadata": metadata, "area": area, "square": square}


# ---- numbers with values


class Numbers:
    def __init__(self):
        self.held = {}

    def set(self, number, value, *_):
        before = self.held.get(number)
        self.held[number] = value
        return debug(option(before))

    def unset(self, number, *_):
        return debug(option(self.held.pop(number, None)))

    def get(self, number, *_):
        return debug(option(self.held.get(number)))

    def fill(self, count, step, *_):
        self.held |= {(index * step) % 2**64: index for index in range(count)}
        return "filled"

    def thin(self, count, step, one_in, *_):
        taken = [self.held.pop(index * step, None) for index in range(count) if one_in == 0 or index % one_in != 1]
        return f"{sum(value is not None for value in taken)} taken"

    def serve(self, number, *_):
        was_there = self.held.pop(number, None) is not None
        return f"{debug(was_there)} None Some(1) Some(1)"

    def first_from(self, number, *_):
        found = min((other for other in self.held if other >= number), default=None)
        return "None" if found is None else f"Some(({found}, {self.held[found]}))"

    def entries(self, *_):
        digest = 0
        for number in sorted(self.held):
            digest = (digest * 31 + number * 7 + self.held[number]) % 2**64
        count = len(self.held)
        return f"{count} entries, {count} by count, empty {debug(count == 0)}, each found, digest {digest}"

    def blocks(self, most, *_):
        return f"at most {most} blocks"

    LINES = {
        "set": set, "unset": unset, "get": get, "from": first_from, "fillup": fill, "filldown": fill, "thin": thin, "serve": serve,
        "entries": entries, "blocks": blocks}


# ---- boxes


def meets(a, b):
    return a[0] <= b[1] and b[0] <= a[1] and a[2] <= b[3] and b[2] <= a[3]


def nth(index, across, down):
    x, y = index * across % 2**32, index * down % 2**32
    return index, x, min(x + 2, LAST), y, min(y + 2, LAST), 3, 7


class Boxes:
    def __init__(self):
        self.held = []

    def add(self, *numbers):
        self.held.append(numbers[:7])
        return "added"

    def take(self, *numbers):
        if numbers[:7] not in self.held:
            return "not there"
        self.held.remove(numbers[:7])
        return "taken"

    def query(self, *numbers):
        zoom = numbers[4]
        return debug(sorted(e[0] for e in self.held if e[5] <= zoom <= e[6] and meets(e[1:5], numbers[:4])))

    def scatter(self, count, across, down, *_):
        self.held += [nth(index, across, down) for index in range(count)]
        return "added"

    def gather(self, count, across, down, one_in, *_):
        due = {nth(index, across, down) for index in range(count) if one_in == 0 or index % one_in != 0}
        left = [entry for entry in self.held if entry not in due]
        taken = len(self.held) - len(left)
        self.held = left
        return f"{taken} taken"

    def blocks(self, most, *_):
        return f"at most {most} blocks"

    LINES = {
        "add": add, "take": take, "query": query, "scatter": scatter, "gather": gather, "boxblocks": blocks}


# ---- a grid and a cache by themselves


class Caches:
    def __init__(self):
        self.grid, self.wide_grid, self.cache = Grid(LEVELS), Grid(WIDE_LEVELS), Cache()

    def mark(self, x0, x1, y0, y1, number, *_):
        for grid in (self.grid, self.wide_grid):
            grid.mark((x0, x1), (y0, y1), number)
        return "marked"

    def hold(self, z, x, y, number, first, *_):
        self.cache.hold((z, x, y), number, bytes([first, 1, 2]))
        return "held"

    def held(self, z, x, y, newest, *_):
        content = self.cache.get((z, x, y), newest)
        return content.hex() if content else "none"

    def touched(self, z, x, y, *_):
        return str(self.grid.newest(z, x, y))

    def wide(self, z, x, y, *_):
        return str(self.wide_grid.newest(z, x, y))

    LINES = {"mark": mark, "hold": hold, "held": held, "touched": touched, "wide": wide}


class Stand:
    """What lines work on."""

    def __init__(self):
        self.map, self.numbers, self.boxes, self.caches = Map(0), Numbers(), Boxes(), Caches()

    def begin(self, word, rest):
        if word == "map":
            self.map = Map(int(rest))
        elif word == "numbers":
            self.numbers = Numbers()
        elif word == "boxes":
            self.boxes = Boxes()
        elif word == "caches":
            self.caches = Caches()
        else:
            return None
        return "new"

    def command(self, word, rest):
        if word in ALONE:
            return ALONE[word](rest)
        if word in Map.LINES:
            return Map.LINES[word](self.map, rest)
        numbers = numbers_in(rest)
        if word in Map.PLACES or word in ("hold", "held", "touched", "wide"):
            if not is_tile(*numbers[:3]):
                return "no tile"
        if word in Map.PLACES:
            return Map.PLACES[word](self.map, tuple(numbers[:3]))
        for part in (self.numbers, self.boxes, self.caches):
            if word in part.LINES:
                return part.LINES[word](part, *numbers)
        return self.begin(word, rest)

    def answer(self, line):
        """What is printed of a line."""
        if not line or line.startswith("#"):
            return line
        word, _, rest = line.partition(" ")
        try:
            told = self.command(word, rest)
            return f"? {line}" if told is None else clipped(told)
        except features.Fault as fault:
            return str(fault)
