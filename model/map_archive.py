"""An independent writer of the archive of a map (PMTiles 3), from docs/FORMATS.md. It shares no code with the product."""
import json

from limits import MAX_ZOOM
from tiles import tile, varint

LEAF_ENTRIES = 512
MAX_ENTRIES = 131072
LONGEST_RUN = 2**32 - 1
# How many bytes a tile has at least that isn't added by the step that makes its last part, and how many of them a step copies before it is added.
LARGE_TILE, AHEAD = 65536, 262144
SECTOR = 512
WORLD = [-1800000000, -850511287, 1800000000, 850511287]


def place_on_curve(zoom, x, y):
    """The place of a column and row on the curve of a zoom, which is four copies of the curve before it, the first and the last mirrored."""
    if zoom == 0:
        return 0
    half, quarter = 2 ** (zoom - 1), 4 ** (zoom - 1)
    if x < half and y < half:
        return place_on_curve(zoom - 1, y, x)
    if x < half:
        return quarter + place_on_curve(zoom - 1, x, y - half)
    if y >= half:
        return 2 * quarter + place_on_curve(zoom - 1, x - half, y - half)
    return 3 * quarter + place_on_curve(zoom - 1, half - 1 - y, 2 * half - 1 - x)


def id_of(zoom, x, y):
    return (4**zoom - 1) // 3 + place_on_curve(zoom, x, y)


def points_of(geometry):
    """All points of a geometry."""
    (kind, lists), = geometry.items()
    if kind == "points":
        return lists
    if kind == "lines":
        return [point for line in lists for point in line]
    return [point for polygon in lists for ring in polygon for point in ring]


def span(zoom, numbers):
    """The columns or rows of a zoom whose tiles the coordinates can reach."""
    least, greatest = min(numbers) >> (20 - zoom), max(numbers) >> (20 - zoom)
    return range(max(0, -((4160 - least) // 4096)), min(2**zoom - 1, (greatest + 64) // 4096) + 1)


def spans(feature, zoom):
    """The columns and the rows of a zoom that a feature covers."""
    points = points_of(feature["geometry"])
    return span(zoom, [x for x, _ in points]), span(zoom, [y for _, y in points])


def covered(feature, zoom):
    """The places of a zoom that a feature covers."""
    columns, rows = spans(feature, zoom)
    return {(x, y) for x in columns for y in rows}


def reach(feature):
    """The reach of a feature: the number of tiles that it covers on its zooms."""
    covers = [spans(feature, zoom) for zoom in range(feature["minzoom"], feature["maxzoom"] + 1)]
    return sum(len(columns) * len(rows) for columns, rows in covers)


def near_tiles_of(found, zoom):
    """Yields the tiles of a zoom that may show something of a map, in ascending id: the id, the place, and the features that may be shown."""
    shown = [(number, feature, covered(feature, zoom)) for number, feature in found.items() if feature["minzoom"] <= zoom <= feature["maxzoom"]]
    for number, place in sorted((id_of(zoom, *place), place) for place in set().union(*(places for _, _, places in shown))):
        yield number, (zoom, *place), {feature: found[feature] for feature, _, places in shown if place in places}


def near_tiles(found):
    """Yields the same of all zooms."""
    for zoom in range(MAX_ZOOM + 1):
        yield from near_tiles_of(found, zoom)


def tiles_of(found):
    """Yields the tiles of a map in ascending id."""
    for number, place, near in near_tiles(found):
        held = tile(near, *place)
        if held:
            yield number, held


class Kept:
    """The contents of an archive in the making. They are kept as long as header, metadata and contents fit in so many sectors."""

    def __init__(self, found, sectors):
        self.length, self.sectors, self.different, self.fits = 127 + len(metadata(found)), sectors, set(), True

    def add(self, held):
        self.length += 0 if held in self.different else len(held)
        self.different.add(held)
        self.fits = self.fits and -(-self.length // SECTOR) <= self.sectors


def steps_of_tiles(found, features, sectors):
    """Yields the tile that each step adds, by its id, or None. One reads which tiles the features of a zoom cover. Then each tile that may show something is made in
    parts, of so many features each: a tile that shows something is there with its last part. If it is large, the steps after it add it: while contents
    are kept, each copies a part of it, as long as a whole one is left, and then one adds it. The archive may have so many sectors. This is so of maps
    of some hundred features, of which no more need be looked at to find the next tile than a step may."""
    kept = Kept(found, sectors)
    for zoom in range(MAX_ZOOM + 1):
        yield None
        for number, place, near in near_tiles_of(found, zoom):
            yield from [None] * (-(-len(near) // features) - 1)
            made = tile(near, *place)
            if made and len(made) >= LARGE_TILE:
                yield from [None] * (1 + (len(made) // AHEAD if kept.fits else 0))
            yield (number, made) if made else None
            if made:
                kept.add(made)


def runs_of(tiles):
    """Runs of consecutive tiles with equal bytes: the first id, the count, the bytes. None if there are too many for an archive."""
    entries = []
    for number, held in tiles:
        if entries and entries[-1][2] == held and entries[-1][0] + entries[-1][1] == number and entries[-1][1] < LONGEST_RUN:
            entries[-1][1] += 1
        elif len(entries) == MAX_ENTRIES:
            return None
        else:
            entries.append([number, 1, held])
    return entries


def directory(entries):
    """The bytes of a directory: ids as differences, runs, lengths, and offsets, 0 if an entry follows the one before."""
    columns = [varint(len(entries))]
    last, end = 0, None
    ids, offsets = [], []
    for number, _, length, offset in entries:
        ids.append(varint(number - last))
        offsets.append(varint(0 if offset == end else offset + 1))
        last, end = number, offset + length
    columns += ids + [varint(run) for _, run, _, _ in entries] + [varint(length) for _, _, length, _ in entries] + offsets
    return b"".join(columns)


def directories(entries):
    """The root directory and the leaf directories."""
    if len(entries) <= LEAF_ENTRIES:
        return directory(entries), b""
    leaves, pointers = b"", []
    for first in range(0, len(entries), LEAF_ENTRIES):
        leaf = directory(entries[first : first + LEAF_ENTRIES])
        pointers.append((entries[first][0], 0, len(leaf), len(leaves)))
        leaves += leaf
    return directory(pointers), leaves


def kind_of(value):
    if isinstance(value, bool):
        return "Boolean"
    return "String" if isinstance(value, str) else "Number"


def metadata(found):
    """The metadata of a map: compact JSON, members in byte order."""
    layers = {}
    for feature in found.values():
        layer = layers.setdefault(feature["layer"], {"fields": {}, "id": feature["layer"], "maxzoom": 0, "minzoom": MAX_ZOOM})
        layer["maxzoom"] = max(layer["maxzoom"], feature["maxzoom"])
        layer["minzoom"] = min(layer["minzoom"], feature["minzoom"])
        for key, value in feature["tags"].items():
            layer["fields"][key] = "String" if layer["fields"].get(key, kind_of(value)) != kind_of(value) else kind_of(value)
    listed = [layers[name] for name in sorted(layers, key=str.encode)]
    return json.dumps({"vector_layers": listed}, separators=(",", ":"), sort_keys=True, ensure_ascii=False).encode()


def zoom_of(number):
    return next(zoom for zoom in range(32) if number < (4 ** (zoom + 1) - 1) // 3)


def header(sections, counts, ends):
    """The first 127 bytes. `sections` are the lengths of root, metadata, leaves and contents, in this order without gaps; `ends` the first and the
    last tile id."""
    held, at = b"PMTiles\x03", 127
    for length in sections:
        held += at.to_bytes(8, "little") + length.to_bytes(8, "little")
        at += length
    held += b"".join(count.to_bytes(8, "little") for count in counts) + bytes([1, 1, 1, 1])
    first, last = map(zoom_of, ends)
    held += bytes([first, last]) + b"".join(number.to_bytes(4, "little", signed=True) for number in WORLD)
    return held + bytes([first]) + bytes(8)


def archive_of(found):
    """The archive of a map: no bytes if it has no tile, None if it needs too many entries."""
    runs = runs_of(tiles_of(found))
    if runs is None:
        return None
    if not runs:
        return b""
    places, contents = {}, b""
    entries = []
    for number, run, held in runs:
        if held not in places:
            places[held] = len(contents)
            contents += held
        entries.append((number, run, len(held), places[held]))
    (root, leaves), said = directories(entries), metadata(found)
    counts = [sum(run for _, run, _ in runs), len(entries), len(places)]
    ends = runs[0][0], runs[-1][0] + runs[-1][1] - 1
    return header([len(root), len(said), len(leaves), len(contents)], counts, ends) + root + said + leaves + contents
