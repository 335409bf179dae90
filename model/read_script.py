"""The part `reads` of the script of `crates/map_runs`: its lines, each with its answer by `read_stand.py`.

A line may stand beside the answer that a worked example, a standard or a table gives it: where the model has another one, no script is
written.
"""
import sys
from pathlib import Path

import archives
import foreign_tiles
import read_hostile
from archives import ALL_IDS, DirectoryEntry, Maker, directory
from disk import Change, edit_text, text_of
from map_stand import POINT
from map_texts import LINE, POLYGONS
from read_stand import METADATA, Stand
from wire import number, part, varint

sys.path.append(str(Path(__file__).resolve().parents[1] / "tests" / "archives"))
import foreign_archives

CRATE, PART = "map_runs", "reads"
LAST = 2**64 - 1
TILE = "1a130a017012090807180122030900002880207802"


def hexed(*numbers):
    return bytes(numbers).hex()


# ---- protobuf


# 150 and 86942 are examples of the page "Encoding"; the others are at a spelling's bounds.
SPELLED = [(0, "00"), (127, "7f"), (128, "8001"), (150, "9601"), (86942, "9ea705"), (2**63, "80" * 9 + "01"), (LAST, "ff" * 9 + "01")]
# The rows of the page "Encoding", and the ends of 64 bits.
SIGNED = [(0, 0), (-1, 1), (1, 2), (-2, 3), (0x7FFFFFFF, 0xFFFFFFFE), (-0x80000000, 0xFFFFFFFF), (2**63 - 1, LAST - 1), (-(2**63), LAST)]


def fault(kind, at=0):
    return f"Err(WireFault {{ at: {at}, kind: {kind} }})"


def wire_lines():
    yield "# Numbers of seven bits a byte: as they are spelled, and read from there."
    for n, spelling in SPELLED:
        yield f"spell {n}", spelling
        yield f"varint {spelling}", f"Ok(({n}, {len(spelling) // 2}))"
    yield "# One behind the other, longer spellings, and bytes that follow."
    yield from [("spell 150 1", "960101"), ("varint 8100", "Ok((1, 2))"), ("varint 960107", "Ok((150, 2))")]
    yield "# No number: the bytes end, or it is longer than 64 bits."
    yield from [("varint -", fault("Cut")), ("varint 96", fault("Cut")), (f"varint {'80' * 9}02", fault("Varint")),
                (f"varint {'80' * 10}01", fault("Varint")), (f"varint {'ff' * 9}", fault("Cut"))]
    yield "# Signed numbers as unsigned ones, both ways."
    for v, n in SIGNED:
        yield from [(f"zigzag {v}", str(n)), (f"unzigzag {n}", str(v))]
    yield "# The fields of a message: a number, a text, eight bytes and four."
    told_ = [(1, "Varint(150)"), (2, "Bytes([116, 101, 115, 116, 105, 110, 103])"), (3, "Eight([1, 0, 0, 0, 0, 0, 0, 128])"), (4, "Four([2, 0, 0, 0])")]
    yield ("fields 0896011207" "74657374696e67" "190100000000000080" "2502000000",
           ", ".join(f"Ok(Field {{ number: {number_}, value: {value} }})" for number_, value in told_))
    yield "# The first fault of a message ends it."
    for bytes_, kind in [
            ("80", "Cut"), ("80" * 9 + "02", "Varint"), ("0001", "Number"), ("808080801001", "Number"), ("07", "Number"), ("0b", "WireType"),
            ("0f", "WireType"), ("0c", "WireType"), ("0e", "WireType"), ("08", "Cut"), ("09" + "01" * 7, "Cut"), ("120207", "Cut"),
            ("0d010203", "Cut")]:
        yield f"fields {bytes_}", fault(kind)
    yield "fields 0896018001" + "81", "Ok(Field { number: 1, value: Varint(150) }), " + fault("Cut", 3)
    yield "fields -", ""


# ---- shapes


FAULTS = [
    ("points 9 50", "Cut"), ("points 1", "Count"), ("points 10 50 34", "Command"), ("points 9 50 34 9", "Command"), ("lines 9 4 4", "Cut"),
    ("lines 17 4 4 0 0", "Count"), ("lines 9 4 4 2", "Count"), ("lines 9 4 4 10 2 2 15", "Command"), ("polygons 9 0 0 10 2 2", "Count"),
    ("polygons 9 0 0 18 2 2 4 4", "Cut"), ("polygons 9 0 0 18 2 2 4 4 23", "Count")]
# A command that is done 2^29 - 1 times, the most that it can say, with fewer points behind it.
MOVES, DRAWS = 0xFFFFFFF9, 0xFFFFFFFA


def shape_lines():
    yield "# The examples of shapes of the standard of tiles."
    yield "shape points 9 50 34", "Points([Pt { x: 25, y: 17 }])"
    yield "shape points 17 10 14 3 9", "Points([Pt { x: 5, y: 7 }, Pt { x: 3, y: 2 }])"
    yield "shape lines 9 4 4 18 0 16 16 0", "Lines([[Pt { x: 2, y: 2 }, Pt { x: 2, y: 10 }, Pt { x: 10, y: 10 }]])"
    yield "shape lines 9 4 4 18 0 16 16 0 9 17 17 10 4 8"
    yield "shape polygons 9 6 12 18 10 12 24 44 15", "Rings([[Pt { x: 3, y: 6 }, Pt { x: 8, y: 12 }, Pt { x: 20, y: 34 }]])"
    yield "shape polygons 9 0 0 26 20 0 0 20 19 0 15 9 22 2 26 18 0 0 18 17 0 15 9 4 13 26 0 8 8 0 0 7 15"
    yield "# No integers are an empty shape of their kind, and integers of no kind are kept."
    yield from [("shape points", "Points([])"), ("shape lines", "Lines([])"), ("shape polygons", "Rings([])"), ("shape unknown", "Raw([])"),
                ("shape unknown 5 0 7", "Raw([5, 0, 7])")]
    yield "# The standard's examples of points, of a line and of a ring, each encoded by itself."
    yield from [("example points", "[17, 10, 14, 3, 9]"), ("example line", "[9, 4, 4, 18, 0, 16, 16, 0]"),
                ("example ring", "[9, 6, 12, 18, 10, 12, 24, 44, 15]")]
    yield "# No lines and no rings are no integers."
    yield "nothing", "[] []"
    yield "# Rings of any way and of no area, and points that stand still, are read."
    yield from ["shape polygons 9 0 0 18 0 0 0 0 15", "shape polygons 9 0 0 26 0 20 20 0 0 19 15", "shape lines 9 0 0 10 0 0", "shape points 17 2 2 0 0"]
    yield "# Integers that are no shape of their kind, and the first fault that they have."
    yield from ((f"shape {integers}", name) for integers, name in FAULTS)
    yield "# Points that a command claims and that aren't there."
    yield from [(f"shape points {MOVES} 2 2 2 2 2", "Cut"), (f"shape points {MOVES}", "Cut"), (f"shape lines 9 0 0 {DRAWS} 2 2", "Cut"),
                (f"shape polygons 9 0 0 {DRAWS} 2 2", "Cut")]


# ---- tiles


def layer(*parts, name=b"p"):
    return part(3, part(1, name) + b"".join(parts))


TILE_FAULTS = [
    ("1a", "Wire"), (TILE[:-2], "Wire"), ("1800", "Kind"), ("1a00", "Name"), ("1a030a01ff", "Utf8"), ("1a050a01707803", "Version"),
    ("1a050a01702800", "Extent"), ("1a030a01701a030a0170", "LayerTwice"), ("1a090a0170288080808010", "Range"),
    ("1a090a0170120412020000", "Tag"), ("1a070a017012021000", "Tag"), ("1a050a01702200", "Value"), ("1a090a01701204180120" + "00", "Geometry"),
]
KEY, VALUE = part(3, b"k"), part(4, number(5, 1))
# Each fault of a tile in each place of it.
PLACES_OF_FAULTS = [
    ("a name of another type", part(3, number(1, 1)), "Kind"), ("a name that is no text", layer(name=b"\xff"), "Utf8"),
    ("features of another type", layer(number(2, 1)), "Kind"), ("a key of another type", layer(number(3, 1)), "Kind"),
    ("a value of another type", layer(number(4, 1)), "Kind"), ("an extent of another type", layer(part(5, b"")), "Kind"),
    ("a version of another type", layer(part(15, b"")), "Kind"), ("an extent of 2^32", layer(number(5, 2**32)), "Range"),
    ("a version of 2^32", layer(number(15, 2**32)), "Range"), ("version 0", layer(number(15, 0)), "Version"),
    ("a key that is no text", layer(part(3, b"\xff")), "Utf8"), ("a text that is none", layer(part(4, part(1, b"\xff"))), "Utf8"),
    ("a value of two kinds", layer(part(4, number(4, 1) + number(5, 1))), "Value"),
    ("a value of no known kind", layer(part(4, number(8, 1))), "Value"), ("a text of another type", layer(part(4, number(1, 1))), "Kind"),
    ("a number of another type", layer(part(4, part(5, b""))), "Kind"), ("a float of eight bytes", layer(part(4, varint(17) + bytes(8))), "Kind"),
    ("bytes that are no value", layer(part(4, b"\x28")), "Wire"), ("bytes that are no feature", layer(part(2, b"\x08")), "Wire"),
    ("an id of another type", layer(part(2, part(1, b""))), "Kind"), ("a type of another type", layer(part(2, part(3, b""))), "Kind"),
    ("tags of another type", layer(part(2, varint(17) + bytes(8))), "Kind"), ("geometry of another type", layer(part(2, varint(37) + bytes(4))), "Kind"),
    ("an index of 2^32", layer(part(2, number(2, 2**32))), "Range"), ("an integer of 2^32", layer(part(2, number(4, 2**32))), "Range"),
    ("a packed integer of 2^32", layer(part(2, part(4, varint(2**32)))), "Range"), ("packed integers cut short", layer(part(2, part(4, b"\x80"))), "Wire"),
    ("one index alone", layer(KEY, VALUE, part(2, part(2, b"\0"))), "Tag"), ("an index behind the keys", layer(KEY, VALUE, part(2, part(2, b"\1\0"))), "Tag"),
    ("an index behind the values", layer(KEY, VALUE, part(2, part(2, b"\0\1"))), "Tag"),
    ("one key index twice", layer(KEY, VALUE, part(2, part(2, b"\0\0\0\0"))), "Tag"),
    ("a line of one point", layer(part(2, number(3, 2) + part(4, b"\x09\0\0"))), "Geometry"),
    ("a layer twice, the second of other bytes", layer() + layer(number(15, 2)), "LayerTwice"),
]
NO_FAULTS = [
    ("one key of two indices", layer(KEY, KEY, VALUE, part(2, part(2, b"\0\0\1\0")))),
    ("a type of 2^32", layer(part(2, number(3, 2**32)))), ("a name that comes twice", layer(part(1, b"q"))),
    ("a field that the schema lacks", layer(number(6, 1)) + number(1, 1)), ("two layers", layer() + layer(name=b"q")),
    ("a value that is told twice", layer(KEY, part(4, number(5, 1) + number(5, 2)), part(2, part(2, b"\0\0")))),
    ("a truth value of 7", layer(KEY, part(4, number(7, 7)), part(2, part(2, b"\0\0")))),
]


# One layer with one feature: name, version, extent, id, tags, shape.
ONE_LAYER = '[Layer {{ name: "{}", version: {}, extent: {}, features: [TileFeature {{ id: {}, tags: [{}], shape: {} }}] }}]'
# The tiles of other makers, as the layers that they stand for.
FOREIGN = {
    "a float": ONE_LAYER.format("p", 1, 4096, "None", '("k", Float([0, 0, 128, 63]))', "Points([Pt { x: 0, y: 0 }])"),
    "values": ONE_LAYER.format(
        "v", 2, 512, "Some(7)", '("a", Text("x")), ("b", Double([0, 0, 0, 0, 0, 0, 224, 63])), ("c", Natural(5)), ("d", Negative(-5)), '
        '("e", Natural(18446744073709551615)), ("f", Negative(-3)), ("g", Truth(true))', "Points([Pt { x: 25, y: 17 }])"),
    "loose": ONE_LAYER.format("new", 2, 256, "Some(2)", "", "Lines([[Pt { x: 2, y: 2 }, Pt { x: 2, y: 10 }, Pt { x: 10, y: 10 }]])"),
    "kinds": '[Layer { name: "", version: 1, extent: 4096, features: [] }, Layer { name: "k", version: 1, extent: 4096, features: ['
             "TileFeature { id: None, tags: [], shape: Rings([[Pt { x: 3, y: 6 }, Pt { x: 8, y: 12 }, Pt { x: 20, y: 34 }]]) }, "
             "TileFeature { id: None, tags: [], shape: Raw([1, 2]) }, TileFeature { id: None, tags: [], shape: Raw([]) }] }]",
}


def tile_lines():
    yield "# No bytes are no layers. The worked example: feature 7 with a point at the corner."
    yield "tile -", "[]"
    yield f"tile {TILE}", ('[Layer { name: "p", version: 2, extent: 4096, features: '
                           "[TileFeature { id: Some(7), tags: [], shape: Points([Pt { x: 0, y: 0 }]) }] }]")
    yield "# A value in each of the fields that the writer uses."
    yield ("tile 1a3a0a01701213080712080000010102020303180122030900001a01611a01621a01631a0164" "22030a017822023003220228032202380128802078" "02",
           ONE_LAYER.format("p", 2, 4096, "Some(7)", '("a", Text("x")), ("b", Negative(-2)), ("c", Natural(3)), ("d", Truth(true))',
                            "Points([Pt { x: 0, y: 0 }])"))
    yield "# Tiles of other makers: each kind of value, pools in front, longer spellings, fields that come again, shapes of no kind."
    yield from ((f"tile {foreign_tiles.TILES[name].hex()}", layers) for name, layers in FOREIGN.items())
    yield "# 17 tags: more than the key indices that are looked through one by one. Then with the first key index again."
    keys = b"".join(part(3, bytes([letter])) for letter in range(97, 114))
    for indices in [range(17), [*range(16), 0]]:
        pairs = part(2, b"".join(varint(k) + b"\0" for k in indices))
        feature = part(2, pairs + number(3, 1) + part(4, bytes([9, 0, 0])))
        # With the pools in front of the feature, and behind it.
        yield from [f"tile {layer(keys, VALUE, feature).hex()}", f"tile {layer(feature, keys, VALUE).hex()}"]
    yield "# What is no tile."
    yield from ((f"tile {tile}", name) for tile, name in TILE_FAULTS)
    yield "# Each fault where it may stand."
    for what, tile, name in PLACES_OF_FAULTS:
        yield from [f"# {what}", (f"tile {tile.hex()}", name)]
    yield "# And what looks like one and is none."
    for what, tile in NO_FAULTS:
        yield from [f"# {what}", f"tile {tile.hex()}"]


# ---- edits


CHANGES = [
    (0, 0, "Bad"), (0, 3, "Bad"), (8, 127, None), (8, 128, "Bad"), (9, 0, "Bad"), (9, 65, "Bad"), (9, 64, "Cut"), (10, 255, "Bad"),
    (11, 20, "Bad"), (11, 3, "Bad"), (12, 16, None), (12, 17, None), (12, 19, None), (12, 20, "Bad"), (13, 0, "Bad"), (13, 2, "Bad"), (13, 3, "Bad"),
    (13, 4, "Bad"),
    (14, 0, "Bad"), (14, 2, "Cut"), (15, 255, "Cut"), (23, 255, None), (24, 64, "Cut"), (24, 65, "Bad")]
# Bytes in place of the count of tags.
TAGS = [
    ("01016104", None), ("0100", "Bad"), ("0141", "Bad"), ("0101", "Cut"), ("0101ff", "Bad"), ("0102ff", "Cut"), ("010161", "Cut"),
    ("01016100", "Bad"), ("01016106", "Bad"), ("010161010000", None), ("010161010004", "Cut"), ("010161010104", "Bad"),
    ("010161010100ff", "Bad"), ("010161010200ff", "Cut"), ("01016102" + "00" * 7, "Cut"), ("01016103" + "00" * 7 + "80", None),
    ("01016103" + "ff" * 7 + "7f", "Bad"), ("01016103" + "00" * 7, "Cut"), ("02016104016204", None), ("0201610401", "Cut"),
    ("020161040161", "Bad"), ("020162040161", "Bad"), ("020162040261", "Cut")]


def told(found):
    """A line, beside its answer where one is known."""
    line, answer = found
    return line if answer is None else (line, answer)


def edit_lines():
    point = text_of(Change(7, POINT))
    yield "# The texts of changes: a point (the worked example of docs/FORMATS.md), a line with tags of all kinds, polygons."
    for name, number_, feature in [("point", 7, POINT), ("line", 258, LINE), ("polygons", 2**63 - 1, POLYGONS)]:
        text = text_of(Change(number_, feature))
        yield from [f"keep {name} {text.hex()}", f"change @{name}"]
    yield "# What follows is no part of it."
    yield "change 0209010000000000000203", "9 bytes: Delete { id: 265 }"
    yield "change @point +0102"
    yield "# A text that is cut anywhere is told to be."
    for name, length in [("point", 25), ("line", 71), ("polygons", 102)]:
        yield from ((f"change @{name} ..{at}", "Cut") for at in range(length))
    yield "# One byte changed."
    yield from (told((f"change @point {at}={byte:02x}", name)) for at, byte, name in CHANGES)
    yield "# A point at zoom 16, as every version of the program reads it, and at zooms 17 to 19, which earlier versions refused."
    for zooms, told_zooms in [("1010", "minzoom: 16, maxzoom: 16"), ("0010", "minzoom: 0, maxzoom: 16"), ("1113", "minzoom: 17, maxzoom: 19")]:
        yield ("change 010700000000000000" "0170" + zooms + "01" "0100" "ffffffff" "ffffffff" "00",
               '25 bytes: Put { id: 7, feature: Feature { layer: "p", ' + told_zooms + ", "
               "geometry: Points([World { x: 4294967295, y: 4294967295 }]), tags: [] } }")
    yield "# Tags in place of none."
    yield from (told((f"change @point ..24 +{tags}", name)) for tags, name in TAGS)
    yield "# The longest text has 32,761 bytes where all is points; one point more is too many, however many of its bytes there are."
    assert len(point) == 25
    yield from ["change @point ..14 +fd0f<4093:0000000000000000>00", ("change @point ..14 +fd0f<4093:0000000000000000>", "Cut")]
    yield "keep longer " + point[:14].hex() + "fe0f<4094:0000000000000000>00", "32769 bytes"
    yield from [("change @longer", "Bad"), ("change @longer ..32768", "Bad"), ("change @longer ..32767", "Cut")]
    yield "# The texts of edits: a count of changes, and each of them."
    both = edit_text([Change(7, POINT), Change(9, None)])
    yield from [f"keep both {both.hex()}", "edit @both", "edit @both +00"]
    yield from ((f"edit @both ..{at}", "Cut") for at in range(len(both)))
    yield "# No change, too many, and a number that stands twice: bad as soon as it is whole."
    twice = "02" "020900000000000000" "010900000000000000"
    yield from [("edit 00", "Bad"), ("edit 41", "Bad"), ("edit 40", "Cut"), (f"edit {twice} ..18", "Cut"), (f"edit {twice}", "Bad")]
    yield "# 64 changes, and texts that are too long together: each is within its own limit."
    yield f"edit {edit_text([Change(number_, None) for number_ in range(64)]).hex()}"
    half = point[:14].hex() + "0008<2048:0000000000000000>00"
    other = half.replace("0107", "0108", 1)
    yield f"keep halves 02{half}{other}"
    yield from [("edit @halves", "Bad"), ("edit @halves ..32769", "Bad"), ("edit @halves ..32768", "Cut")]


# ---- headers and directories


# The header of an archive of three tiles with one content, as its bytes stand in the file.
HEADER = bytes.fromhex(
    "504d54696c6573" "03" "7f00000000000000" "0900000000000000" "8800000000000000" "4200000000000000" "ca00000000000000" "0000000000000000"
    "ca00000000000000" "1500000000000000" "0300000000000000" "0200000000000000" "0100000000000000" "01010101" "0002"
    "002eb694" "493a4ecd" "00d2496b" "b7c5b132" "00" "00000000" "00000000")
HEADER_TOLD = (
    "Header { root: SectionSpan { offset: 127, length: 9 }, metadata: SectionSpan { offset: 136, length: 66 }, leaves: SectionSpan { offset: 202, length: 0 }, "
    "tiles: SectionSpan { offset: 202, length: 21 }, addressed: 3, entries: 2, contents: 1, clustered: 1, internal: 1, compression: 1, kind: 1, "
    "min_zoom: 0, max_zoom: 2, min_lon: -1800000000, min_lat: -850511287, max_lon: 1800000000, max_lat: 850511287, centre_zoom: 0, "
    "centre_lon: 0, centre_lat: 0 }, written the same")
DIRECTORIES = {"tiles": "020005020115150101", "root": "0200800800008210070100", "leaf": "01800801158154", "none": "00"}
DIRECTORY_FAULTS = [
    ("ffffffff0f", "Cut"), ("8080808080808080" "10" "000105", "Cut"), ("01000105", "Cut"), ("80" * 9 + "02", "Varint"), ("0000", "Rest"),
    ("020000010101010101", "Order"), ("020001020101010100", "Order"), ("0100010001", "Length"), ("0100010500", "Offset"),
    ("01000180808080" "1001", "Range")]
# What they list, and which of these leads to an id, if one does.
LISTED = {
    "tiles": ["DirectoryEntry { id: 0, run: 2, length: 21, offset: 0 }", "DirectoryEntry { id: 5, run: 1, length: 21, offset: 0 }"],
    "root": ["DirectoryEntry { id: 0, run: 0, length: 2050, offset: 0 }", "DirectoryEntry { id: 1024, run: 0, length: 7, offset: 2050 }"],
    "leaf": ["DirectoryEntry { id: 1024, run: 1, length: 21, offset: 10752 }"], "none": []}
FOUND = [("tiles", [(0, 0), (1, 0), (2, None), (4, None), (5, 1), (6, None), (LAST, None)]), ("root", [(0, 0), (1023, 0), (1024, 1), (5000, 1)]),
         ("leaf", [(1023, None), (1024, 0), (1025, None)]), ("none", [(0, None)])]


def header_lines():
    yield "# Fields stand at their offsets, and a header is written as it was read."
    yield f"keep header {HEADER.hex()}", "127 bytes"
    yield "header @header", HEADER_TOLD
    yield from ["header @header +ff", f"header @header 8={bytes(range(1, 120)).hex()}"]
    yield "# Bytes that begin with no header."
    yield from [("header @header ..126", "Short"), ("header -", "Short"), ("header @header 7=02", "Version(2)"), ("header @header 7=02 0=70", "Magic"),
                ("header @header 6=53", "Magic")]


def directory_lines():
    yield "# Directories: two entries of one content, a root that names two leaves, the second of these, and one without entries."
    for name, data in DIRECTORIES.items():
        yield from [f"keep {name} {data}", (f"directory @{name}", f"[{', '.join(LISTED[name])}]")]
    yield "# Bytes that are no directory. The second has a count of 2^60, and three bytes behind it."
    yield from ((f"directory {data}", name) for data, name in DIRECTORY_FAULTS)
    yield "# Ids and runs up to the last id, numbers of ten bytes, and what passes 32 or 64 bits."
    for entries in [[DirectoryEntry(ALL_IDS - 1, 1, 1, 0)], [DirectoryEntry(ALL_IDS - 2, 2, 1, 0)], [DirectoryEntry(5, 2**32 - 1, 2**32 - 1, LAST - 1)],
                    [DirectoryEntry(ALL_IDS - 1, 2, 1, 0)], [DirectoryEntry(ALL_IDS, 1, 1, 0)], [DirectoryEntry(ALL_IDS, 0, 1, 0)],
                    [DirectoryEntry(0, 2**32, 1, 0)],
                    [DirectoryEntry(3, 1, 2, 9), DirectoryEntry(4, 1, 2, 11)]]:
        yield f"directory {directory(entries).hex()}"
        yield f"directory {directory(entries, 10).hex()}"
    yield f"directory {directory([DirectoryEntry(0, 1, 1, 0)], 11).hex()}", "Varint"
    yield f"directory {b''.join(map(varint, [2, 7, LAST, 1, 1, 1, 1, 1, 1])).hex()}", "Range"
    yield f"directory {b''.join(map(varint, [2, 0, 1, 1, 1, 2, 1, LAST, 0])).hex()}", "Range"
    yield "# The entry that leads to an id."
    for name, rows in FOUND:
        yield from ((f"find {n} @{name}", "None" if k is None else f"Some({LISTED[name][k]})") for n, k in rows)
    yield "find 0 0000", "Rest"


# ---- archives


SOUND = archives.built([(tile_id, bytes.fromhex(TILE)) for tile_id in (0, 1, 5)], METADATA)


def leaves_archive():
    """Six contents of one byte in two leaf directories below the root, and one of two bytes in a leaf of a leaf."""
    m = Maker()
    first = m.leaf(0, [m.tile(0, 1, b"a"), m.tile(2, 1, b"b")])
    second = m.leaf(3, [m.tile(3, 2, b"c"), m.tile(9, 1, b"d")])
    inner = m.leaf(12, [m.tile(12, 1, b"ef")])
    return m.archive([first, second, m.leaf(12, [inner])], kind=0)


def circle_archive():
    """A leaf directory that names itself."""
    m = Maker()
    itself = DirectoryEntry(0, 0, 5, 0)
    m.leaf(0, [itself])
    return m.archive([itself], ["root", "metadata", "leaves", "tiles"])


def sound_lines():
    """Lines about the archive of three tiles with one content, whose header ends at byte 127, its root directory at 136, its metadata
    at 202."""
    yield "# The archive of three tiles with one content: judged, with counts that aren't known, and as another kind of tiles."
    yield f"keep sound {SOUND.hex()}", "223 bytes"
    yield "header @sound", HEADER_TOLD
    whole = "0 ok: 3 tiles, 2 entries, 1 contents"
    yield from [("verify @sound", whole), ("verify @sound 72=00 80=00 88=00", whole), ("verify @sound 98=02", whole)]
    yield "# And with a fault."
    yield from [("verify @sound 72=04", "1 count: addressed"), ("verify @sound 80=03", "1 count: entries"), ("verify @sound 88=02", "1 count: contents"),
                ("verify @sound 88=02 80=03", "1 count: entries"), ("verify @sound 88=02 80=03 72=04", "1 count: addressed"),
                ("verify @sound 222=03", "1 bad tile: 0"), ("verify @sound 202=00", "1 bad tile: 0"), ("verify @sound ..222", "1 section: tiles"),
                ("verify @sound ..126", "1 short header"), ("verify @sound 97=02", "1 compressed directories: 2"), ("verify @sound 0=00", "1 bad magic"),
                ("verify @sound 7=02", "1 version: 2"), ("verify @sound 136=00", "1 bad metadata"), ("verify @sound 132=16", "1 place: 0"),
                ("verify @sound 133=16", "1 place: 5"), ("verify @sound 8=ff", "1 section: root"), ("verify @sound 31=ff", "1 section: metadata"),
                ("verify @sound 40=e0", "1 section: leaves"), ("verify @sound 127=03", "1 bad directory at: 127")]
    yield "# What it lists, and the contents of ids, by the archive and by a look-up that is kept."
    yield "list @sound", "[DirectoryEntry { id: 0, run: 2, length: 21, offset: 0 }, DirectoryEntry { id: 5, run: 1, length: 21, offset: 0 }]"
    yield from [("list @sound 97=02", "compressed directories: 2"), ("list @sound ..222", "section: tiles"), ("list @sound ..126", "short header")]
    for word in ("contents", "looks"):
        yield f"{word} 1,5,2,0 @sound", f'["{TILE}", "{TILE}", "none", "{TILE}"]'
        yield from [(f"{word} 0,5,1 @sound 132=16", f'["place: 0", "{TILE}", "place: 0"]'), (f"{word} 0 @sound 97=02", "compressed directories: 2"),
                    (f"{word} 0 @sound 0=00", "bad magic")]
    yield "list @sound 132=16", "place: 0"


def leaf_lines():
    yield "# A leaf directory that names itself, one that is cut, and one that begins below the entry that names it."
    yield f"keep circle {circle_archive().hex()}"
    at = 127 + 5 + 2
    for change, fault_ in [("", "leaf depth"), (f" {at}=02", f"bad directory at: {at}"), (" 128=05", "order: 0")]:
        yield from [(f"verify @circle{change}", f"1 {fault_}"), (f"list @circle{change}", fault_)]
    for word in ("contents", "looks"):
        yield from [(f"{word} 7,0 @circle", '["leaf depth", "leaf depth"]'), (f"{word} 7 @circle {at}=02", f'["bad directory at: {at}"]'),
                    (f"{word} 4,0 @circle 128=05", '["none", "none"]')]
    yield "# Contents in leaves, each leaf again behind another one; one in a leaf of a leaf."
    leaves = leaves_archive()
    yield f"keep leaves {leaves.hex()}"
    yield from ["verify @leaves", "list @leaves"]
    for word in ("contents", "looks"):
        yield f"{word} 0,1,2,3,4,5,9,2,12,13,12,0 @leaves", \
            '["61", "none", "62", "63", "63", "none", "64", "62", "6566", "none", "6566", "61"]'
    yield "# The second leaf is none: the others are told as they are."
    second = leaves.index(bytes.fromhex("020306"))
    for word in ("contents", "looks"):
        yield f"{word} 0,3,2,9,12 @leaves {second}=03", f'["61", "bad directory at: {second}", "62", "bad directory at: {second}", "6566"]'


def judged_lines():
    m = Maker()
    runs = [DirectoryEntry(0, 2, 21, 0), DirectoryEntry(5, 1, 21, 0), DirectoryEntry(7, 3, 9, 21)]
    m.tiles = bytes(30)
    yield "# What is counted of two runs of one content, and another content behind it; each count of the header that is another one."
    yield f"keep counted {m.archive(runs, kind=2).hex()}"
    yield from [("verify @counted", "0 ok: 6 tiles, 3 entries, 2 contents"), ("verify @counted 72=06 80=03 88=02", "0 ok: 6 tiles, 3 entries, 2 contents"),
                ("verify @counted 88=03", "1 count: contents"), ("verify @counted 88=03 80=02", "1 count: entries"),
                ("verify @counted 88=03 80=02 72=03", "1 count: addressed")]
    yield "# Each tile is read: no layer at all, a layer of version 2, one without a name; and tiles of an archive over such bytes."
    good, bad = bytes.fromhex("1a050a01707802"), bytes.fromhex("1a027802")
    yield from [("tile -", "[]"), f"tile {good.hex()}", (f"tile {bad.hex()}", "Name")]
    for tiles, line in [([(0, 7, 0), (1, 7, 0)], "0 ok: 2 tiles, 2 entries, 1 contents"),
                        ([(0, 7, 0), (1, 7, 0), (2, 3, 0), (3, 7, 0)], "1 bad tile: 2"), ([(0, 7, 0), (4, 4, 7)], "1 bad tile: 4"),
                        ([(5, 5, 7)], "1 place: 5")]:
        m = Maker()
        m.tiles = good + bad
        yield f"verify {m.archive([DirectoryEntry(number_, 1, length, offset) for number_, length, offset in tiles]).hex()}", line


def metadata_lines():
    yield "# Metadata are the JSON text of an object."
    for text, is_metadata in [(b"{}", True), (b' {"name": "x", "fields": []} ', True), (b"[]", False), (b"", False), (b"{", False), (b'{"\xff":1}', False),
                              (b"{}{}", False), (b'{"a":1,}', False), (b'{"a":NaN}', False), (b"5", False)]:
        yield f"metadata {text.hex() or '-'}", str(is_metadata).lower()


def show_lines():
    shown = ("version: 3\\ntile type: 1\\ntile compression: 1\\ninternal compression: 1\\nclustered: 1\\nzooms: 0 to 2\\naddressed tiles: 3\\n"
             "tile entries: 2\\ntile contents: 1\\nmetadata: ")
    yield "# What is shown of the archive of three tiles: its header and metadata, which are no text, end behind the file, or at no number."
    metadata = METADATA.decode().replace('"', '\\"')
    for change, told_ in [("", metadata), (" 136=ff", "unreadable"), (" 32=58", "unreadable"), (" 39=ff 31=ff", "unreadable")]:
        yield f"show @sound{change}", f'"{shown}{told_}\\n"'
    yield "show @sound 97=02"
    yield "# Bytes that begin with no header."
    yield from [("show @sound 0=00 ..126", "Short, 0 bytes written"), ("show @sound 0=00", "Magic, 0 bytes written"),
                ("show @sound 7=02", "Version, 0 bytes written")]
    yield "# Archives of other makers."
    for name, archive, _ in foreign_archives.shown():
        yield from [f"# {name}", f"show {archive.hex()}"]


def foreign_lines():
    yield "# Archives of other makers, sound ones first, then one or more for each fault: each with the line that is written beside it by hand."
    for name, archive, line in [*foreign_archives.good_archives(), *foreign_archives.bad_archives()]:
        yield f"# {name}"
        yield f"verify {archive.hex() or '-'}", f"{0 if line.startswith('ok: ') else 1} {line}"
    yield "# Two of them as they are listed."
    for name, archive, _ in foreign_archives.good_archives():
        if name in ("leaves three deep", "one content for many"):
            yield from [f"# {name}", f"list {archive.hex()}", f"contents 0,3,9,10,19,20,29,30,31,50 {archive.hex()}"]


# ---- archives that are built


def build_lines():
    content = bytes(range(1, 22)).hex()
    yield "# Three tiles of one content: one run of two, and the content once. The worked root directory of docs/FORMATS.md."
    header = HEADER.hex()
    yield f"build 0:{content} 1:{content} 5:{content}", header + "020005020115150101" + METADATA.hex() + content
    yield f"build 0:{TILE} 1:{TILE} 5:{TILE}", SOUND.hex()
    yield "# Runs end at another content, and a content that comes again stands where it stood."
    yield "build 3:0707 4:0808 5:0707"
    yield from ["build 20:01", "build 6148914691236517204:01", "build 0:01 1:01 2:02 3:01 21:0101"]
    yield "# What is no list of tiles: no tile, no content, an id twice or past the last."
    yield from [("build ", "no tiles"), ("build 0:", "no tiles"), ("build 0:01 0:02", "no tiles"), ("build 1:01 0:02", "no tiles"),
                (f"build {ALL_IDS}:01", "no tiles")]
    yield "# 512 entries stand in the root directory, more in leaf directories of 512."
    first_leaf = "8004" "00" + "02" * 511 + "01" * 512 + "01" * 512 + "01" + "01" * 511
    sections = "".join(n.to_bytes(8, "little").hex() for n in [127, 11, 138, 66, 204, 2056, 2260, 1, 513, 513, 1])
    many = archives.built([(2 * k, b"\x07") for k in range(513)], METADATA).hex()
    wanted = [sections, "0200800800008210060100", METADATA.hex(), "01800801010107"]
    if many[16:16 + 22 * 8] != sections or not all(part_ in many for part_ in wanted) or many[408:408 + 4100] != first_leaf:
        sys.exit("513 entries: another archive than by hand")
    yield from ["even 512 07", "even 513 07", "even 1025 0708"]
    yield "# 513 contents of 21 bytes: the root that names two leaves, and the second of these, as they stand among the directories above."
    tiles = [(2 * k, k.to_bytes(8, "little").ljust(21, b"\0")) for k in range(513)]
    if not all(archives.built(tiles, METADATA).count(bytes.fromhex(DIRECTORIES[name])) == 1 for name in ("root", "leaf")):
        sys.exit("513 contents: other directories than by hand")
    yield from ["apart 513 21", "apart 3 5"]
    yield "# As many entries as there may be, and one more."
    yield f"evenjudged 131072 {TILE}", "ok: 131072 tiles, 131072 entries, 1 contents"
    yield f"evenjudged 131073 {TILE}", "the tiles need more than 131,072 entries"


# ---- ids, ranges, digits


IDS = [(0, 0, 0, 0), (1, 0, 0, 1), (1, 0, 1, 2), (1, 1, 1, 3), (1, 1, 0, 4), (2, 0, 0, 5), (2, 3, 0, 20), (3, 0, 0, 21), (12, 3423, 1763, 19078479),
       (31, 2147483647, 0, 6148914691236517204)]


def id_lines():
    yield "# Ids that other programs give for these tiles, both ways."
    for z, x, y, number_ in IDS:
        yield from [(f"id {z} {x} {y}", str(number_)), (f"place {number_}", f"{z}/{x}/{y}")]
    yield "# The last id, and what is no tile."
    yield from [("place 6148914691236517205", "no tile"), (f"place {LAST}", "no tile"), ("id 32 0 0", "no tile"), ("id 2 4 0", "no tile"),
                ("id 2 0 4", "no tile")]
    yield "# The tiles of zoom 3 in the order of the curve, and some of the zooms below it."
    yield from (f"place {number_}" for number_ in range(21, 85))
    yield from (f"id {z} {2**z * 2 // 3} {2**z // 3}" for z in range(4, 32))


RANGES = [("bytes=0-0", "0 to 0"), ("bytes=0-126", "0 to 126"), ("bytes=5-300", "5 to 300"), ("bytes=007-0010", "7 to 10"),
          ("bytes=0-999999999999999999", "0 to 999999999999999999"), ("bytes=000000000000000001-1", "1 to 1")]
NO_RANGES = [
    "", "bytes", "bytes=", "bytes=-", "bytes=5", "bytes=5-", "bytes=-5", "bytes=5-3", "bytes=0-1000000000000000000", "bytes=0000000000000000000-1",
    "bytes=0-1,3-4", "bytes=0-1-2", "bytes= 0-1", "bytes=0 -1", "bytes=0- 1", "bytes=0-1 ", " bytes=0-1", "bytes =0-1", "Bytes=0-1", "BYTES=0-1",
    "bytes:0-1", "byte=0-1", "items=0-1", "bytes=+0-1", "bytes=0-+1", "bytes=0x0-0x1", "bytes=a-b", "bytes=0\u20131", "0-1"]


def number_lines():
    yield "# The one form of range that is taken."
    yield from ((f"range {value}", told_) for value, told_ in RANGES)
    yield "# Any other value is as none."
    yield from ((f"range {value}", "none") for value in NO_RANGES)
    yield f"rangeof {(b'bytes=0-' + bytes([0xb2])).hex()}", "none"
    yield "# Numbers in decimal digits."
    yield from [("digits 0", "0"), ("digits 7", "7"), ("digits 007", "7"), ("digits 65536", "65536"), (f"digits {LAST}", str(LAST)),
                (f"digits {LAST + 1}", "too great"), ("digits 99999999999999999999999999", "too great")]
    yield from ((f"digits {other}", "no digits") for other in ["-1", "+1", " 1", "1 ", "0x1", "1e3", "1_000", ""])
    yield from [("written 0 7", "of 0, 7."), (f"written 65536 {LAST}", f"of 65536, {LAST}.")]


BLOCKS = [wire_lines, shape_lines, tile_lines, edit_lines, header_lines, directory_lines, sound_lines, leaf_lines, judged_lines, metadata_lines, show_lines,
         foreign_lines, build_lines, id_lines, number_lines, read_hostile.lines]


def files():
    """Standard input, and what must be written."""
    stand, asked, answers = Stand(), [], []
    for line in (line for block in BLOCKS for line in block()):
        line, wanted = (line, None) if isinstance(line, str) else line
        answer = stand.answer(line)
        if wanted is not None and answer != wanted:
            sys.exit(f"{line}: {wanted!r} is wanted, and the model says {answer!r}")
        asked.append(line)
        answers.append(answer)
    return {"stdin": "\n".join(asked) + "\n", "stdout": "\n".join(answers) + "\n"}
