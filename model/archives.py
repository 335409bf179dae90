"""Tile archives of any maker (PMTiles 3): a writer that takes each freedom of the format, a second reader, and the archive of a map
as docs/FORMATS.md says that it is written. It shares no code with the product.
"""

import struct
from collections import namedtuple

import json_text
from ids import ALL_IDS, tile_of
from tile_reading import TileFault, read_tile
from wire import WireFault, part, read_varint, varint

# ---- the format

HEADER = struct.Struct("<7sB8Q3Q6B4iB2i")
FIELDS = ("magic version root_at root metadata_at metadata leaves_at leaves tiles_at tiles addressed entries contents "
          "clustered internal compression kind min_zoom max_zoom west south east north centre_zoom centre_lon "
          "centre_lat").split()
SECTIONS = ["root", "metadata", "leaves", "tiles"]

# A run of 0 makes the entry one of a leaf directory.
DirectoryEntry = namedtuple("DirectoryEntry", "id run length offset")


def directory(entries, longer=0, each_offset=False):
    """The bytes of a directory: how many entries, then ids, runs, lengths and offsets, each as one column.

    With `each_offset` an offset stands there also where 0 would say that the content follows the one before.
    """
    numbers = [len(entries)]
    numbers += [e.id - before for e, before in zip(entries, [0] + [e.id for e in entries])]
    numbers += [e.run for e in entries]
    numbers += [e.length for e in entries]
    end = None
    for e in entries:
        numbers.append(0 if e.offset == end and not each_offset else e.offset + 1)
        end = e.offset + e.length
    return b"".join(varint(n, longer) for n in numbers)


class Maker:
    """Contents and leaf directories, as they are put one behind the other."""

    def __init__(self):
        self.tiles = b""
        self.leaves = b""

    def tile(self, first, run, content):
        """An entry with a content of its own."""
        self.tiles += content
        return DirectoryEntry(first, run, len(content), len(self.tiles) - len(content))

    def leaf(self, first, entries, longer=0):
        data = entries if isinstance(entries, bytes) else directory(entries, longer)
        self.leaves += data
        return DirectoryEntry(first, 0, len(data), len(self.leaves) - len(data))

    def archive(self, root, order=SECTIONS, gaps={}, metadata=b"{}", **fields):
        """The archive with its sections in this order, and in front of each as many bytes of no section as `gaps` says."""
        data = {"root": root if isinstance(root, bytes) else directory(root), "metadata": metadata,
                "leaves": self.leaves, "tiles": self.tiles}
        body = b""
        said = dict.fromkeys(FIELDS, 0) | {"magic": b"PMTiles", "version": 3, "internal": 1, "compression": 1, "kind": 1}
        for name in order:
            body += b"\xee" * gaps.get(name, 0)
            said |= {name + "_at": 127 + len(body), name: len(data[name])}
            body += data[name]
        said |= fields
        return HEADER.pack(*(said[name] for name in FIELDS)) + body


def changed(archive, **fields):
    """The archive with other fields in its header."""
    said = dict(zip(FIELDS, HEADER.unpack(archive[:127]))) | fields
    return HEADER.pack(*(said[name] for name in FIELDS)) + archive[127:]


# ---- tiles: one layer of this name with one point (Mapbox Vector Tile 2.1)


def vector_tile(name, version=2):
    feature = varint(8 * 3) + varint(1) + part(4, bytes([9, 2, 4]))
    return part(3, varint(8 * 15) + varint(version) + part(2, feature) + part(1, name.encode()))


A, B, C, D = (vector_tile(name) for name in ["a", "bb", "ccc", "dddd"])
# There is no version 3.
BAD = vector_tile("bad", version=3)
IMAGE = b"\x89PNG\r\n\x1a\n and no more"


# ---- directories, as they are read


class DirectoryFault(Exception):
    """Why bytes are no directory, by its name."""


def numbers_of(data):
    """How many entries there are, and the numbers of their columns, which the bytes spell and nothing behind them."""
    count, at = read_varint(data)
    if 4 * count > len(data) - at:
        raise DirectoryFault("Cut")
    numbers = []
    for _ in range(4 * count):
        number, at = read_varint(data, at)
        numbers.append(number)
    if at < len(data):
        raise DirectoryFault("Rest")
    return count, numbers


def behind(before, delta, run, length, place):
    """The entry of a number of each column, behind the one before it."""
    first = before.id + delta if before else delta
    if before and delta < max(1, before.run):
        raise DirectoryFault("Order")
    if first >= 2**64 or run >= 2**32 or first + run > ALL_IDS:
        raise DirectoryFault("Range")
    if length == 0:
        raise DirectoryFault("Length")
    if length >= 2**32:
        raise DirectoryFault("Range")
    if place == 0 and not before:
        raise DirectoryFault("Offset")
    offset = place - 1 if place else before.offset + before.length
    if offset >= 2**64:
        raise DirectoryFault("Range")
    return DirectoryEntry(first, run, length, offset)


def read_directory(data):
    """The entries of a directory, or the first fault that is met."""
    try:
        count, numbers = numbers_of(data)
    except WireFault as fault:
        raise DirectoryFault(fault.kind) from fault
    entries = []
    for row in zip(*(numbers[k * count : (k + 1) * count] for k in range(4))):
        entries.append(behind(entries[-1] if entries else None, *row))
    return entries


def entries_of(data):
    """The entries of a directory, or None where the bytes are no directory."""
    try:
        return read_directory(data)
    except DirectoryFault:
        return None


def found(entries, tile_id):
    """The entry that leads to a tile: the last one up to its id, where that is a leaf's or its run has the tile."""
    up_to = [e for e in entries if e.id <= tile_id]
    if up_to and (up_to[-1].run == 0 or tile_id < up_to[-1].id + up_to[-1].run):
        return up_to[-1]
    return None


# ---- archives, as they are read


class Fault(Exception):
    """What is wrong with an archive, as the line that `verify` prints of it."""


def header_of(archive):
    """The fields of a header."""
    if len(archive) < 127:
        raise Fault("short header")
    if archive[:7] != b"PMTiles":
        raise Fault("bad magic")
    if archive[7] != 3:
        raise Fault(f"version: {archive[7]}")
    return dict(zip(FIELDS, HEADER.unpack(archive[:127])))


def section(archive, said, name):
    return archive[said[name + "_at"] : said[name + "_at"] + said[name]]


def opened(archive):
    """The header and the root directory of an archive."""
    said = header_of(archive)
    for name in SECTIONS:
        if said[name + "_at"] + said[name] > (min(16384, len(archive)) if name == "root" else len(archive)):
            raise Fault(f"section: {name}")
    if said["internal"] >= 2:
        raise Fault(f"compressed directories: {said['internal']}")
    root = entries_of(section(archive, said, "root"))
    if root is None:
        raise Fault(f"bad directory at: {said['root_at']}")
    return said, root


def is_object(metadata):
    """Whether bytes are the JSON text of an object."""
    try:
        return isinstance(json_text.value_of(metadata.decode("utf-8")), dict)
    except ValueError:
        return False


def leaf_of(archive, said, entry, depth):
    """The entries of the leaf directory that an entry names."""
    if depth == 3:
        raise Fault("leaf depth")
    if entry.offset + entry.length > said["leaves"]:
        raise Fault(f"place: {entry.id}")
    place = said["leaves_at"] + entry.offset
    inner = entries_of(archive[place : place + entry.length])
    if inner is None:
        raise Fault(f"bad directory at: {place}")
    return inner


def check_place(said, entry):
    if entry.offset + entry.length > said["tiles"]:
        raise Fault(f"place: {entry.id}")


def tiles_below(archive, said, entries, bound=ALL_IDS, depth=0):
    """The tile entries in order, or the first fault. Ids have to be below the bound."""
    for k, e in enumerate(entries):
        up_to = entries[k + 1].id if k + 1 < len(entries) else bound
        if e.run > 0:
            check_place(said, e)
            yield e
            continue
        inner = leaf_of(archive, said, e, depth)
        for f in inner:
            if f.id < e.id:
                raise Fault(f"order: {f.id}")
            if f.id + max(1, f.run) > up_to:
                raise Fault(f"order: {max(f.id, up_to)}")
        yield from tiles_below(archive, said, inner, up_to, depth + 1)


def listed(archive):
    """The tile entries of an archive."""
    said, root = opened(archive)
    return [*tiles_below(archive, said, root)]


def looked_up(archive, tile_id):
    """The content of a tile, or None."""
    said, entries = opened(archive)
    entry = found(entries, tile_id)
    depth = 0
    while entry and entry.run == 0:
        entry = found(leaf_of(archive, said, entry, depth), tile_id)
        depth += 1
    if entry is None:
        return None
    check_place(said, entry)
    return content_of(archive, said, entry)


def content_of(archive, said, entry):
    return section(archive, said, "tiles")[entry.offset : entry.offset + entry.length]


def is_vector_tile(content):
    try:
        read_tile(content)
    except TileFault:
        return False
    return True


def counts_of(tiles):
    return {"addressed": sum(e.run for e in tiles), "entries": len(tiles), "contents": len({(e.offset, e.length) for e in tiles})}


def report(archive):
    """How many tiles, entries and contents there are, or the first fault."""
    said, root = opened(archive)
    if not is_object(section(archive, said, "metadata")):
        raise Fault("bad metadata")
    tiles = [*tiles_below(archive, said, root)]
    counts = counts_of(tiles)
    for name, count in counts.items():
        if said[name] not in (0, count):
            raise Fault(f"count: {name}")
    if said["kind"] == 1 and said["compression"] == 1:
        for e in tiles:
            if not is_vector_tile(content_of(archive, said, e)):
                raise Fault(f"bad tile: {e.id}")
    return counts


def judged(archive):
    """The line that `verify` prints."""
    try:
        counts = report(archive)
    except Fault as fault:
        return str(fault)
    return f"ok: {counts['addressed']} tiles, {counts['entries']} entries, {counts['contents']} contents"


# ---- what `show` prints


def header_lines(said, metadata):
    return [
        f"version: {said['version']}", f"tile type: {said['kind']}", f"tile compression: {said['compression']}",
        f"internal compression: {said['internal']}", f"clustered: {said['clustered']}",
        f"zooms: {said['min_zoom']} to {said['max_zoom']}", f"addressed tiles: {said['addressed']}",
        f"tile entries: {said['entries']}", f"tile contents: {said['contents']}", f"metadata: {metadata}",
    ]


def metadata_shown(archive, said):
    if said["internal"] >= 2:
        return f"compressed {said['internal']}"
    if said["metadata_at"] + said["metadata"] > len(archive):
        return "unreadable"
    try:
        return section(archive, said, "metadata").decode("utf-8")
    except UnicodeDecodeError:
        return "unreadable"


def shown(archive):
    """The lines that `show` prints of bytes that begin with a header."""
    said = header_of(archive)
    return header_lines(said, metadata_shown(archive, said))


# ---- the archive of a map


def runs_of(tiles):
    """Ids and contents as runs: the first id, how many ids, and the content."""
    runs = []
    for tile_id, content in tiles:
        if runs and runs[-1][0] + runs[-1][1] == tile_id and runs[-1][2] == content and runs[-1][1] < 2**32 - 1:
            first, run, _ = runs.pop()
            runs.append((first, run + 1, content))
        else:
            runs.append((tile_id, 1, content))
    return runs


def zoom_of(tile_id):
    return tile_of(tile_id)[0]


def built(tiles, metadata):
    """The archive of tiles in ascending order of their ids, or None where they need too many entries."""
    places, entries, contents = {}, [], b""
    for first, run, content in runs_of(tiles):
        if content not in places:
            places[content] = len(contents)
            contents += content
        entries.append(DirectoryEntry(first, run, len(content), places[content]))
    if len(entries) > 131072:
        return None
    root, leaves = entries, b""
    if len(entries) > 512:
        root = []
        for k in range(0, len(entries), 512):
            data = directory(entries[k : k + 512])
            root.append(DirectoryEntry(entries[k].id, 0, len(data), len(leaves)))
            leaves += data
    ends = [zoom_of(tiles[0][0]), zoom_of(tiles[-1][0])]
    m = Maker()
    m.tiles, m.leaves = contents, leaves
    return m.archive(
        root, ["root", "metadata", "leaves", "tiles"], metadata=metadata, addressed=len(tiles), entries=len(entries), contents=len(places),
        clustered=1, min_zoom=ends[0], max_zoom=ends[1], west=-1800000000, south=-850511287, east=1800000000, north=850511287,
        centre_zoom=ends[0])
