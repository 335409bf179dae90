"""Lines of `read_script.py` about bytes that are cut short, damaged or made to do harm: each answer is by the models, and a line about the
worst of them has beside it what the formats say.
"""
import archives
from archives import ALL_IDS, DirectoryEntry, Maker, changed, directory
from disk import Change, edit_text, text_of
from limits import MAX_ZOOM
from map_stand import POINT
from tile_reading import LINE, MOVE
from wire import number, part, varint

FAR = 2**63
LAST = 2**64 - 1
ENDS_OF_ZOOMS = (0, 16, 17, 19, 20, 255)
TILE = bytes.fromhex("1a130a017012090807180122030900002880207802")


def cut(words, data):
    """A line for each place at which bytes may be cut short."""
    for at in range(len(data)):
        yield from (f"{word} ..{at}" for word in words)


def damaged(words, data):
    """A line for each byte with each of the values 0 and 255 and its neighbours."""
    for at, byte in enumerate(data):
        for other in sorted({0, 255, (byte + 1) % 256, (byte - 1) % 256} - {byte}):
            yield from (f"{word} {at}={other:02x}" for word in words)


def each_byte(words, data):
    yield from cut(words, data)
    yield from damaged(words, data)


# ---- the worked examples, cut and damaged


def small_leaves():
    """Tiles in two leaf directories below the root, and one in a leaf of a leaf; each has a layer of one letter."""
    m = Maker()
    content = part(3, part(1, b"a"))
    first = m.leaf(0, [m.tile(0, 1, content)])
    inner = m.leaf(12, [m.tile(12, 2, content)])
    return m.archive([first, m.leaf(12, [inner])], addressed=3, entries=2, contents=2, max_zoom=2)


def example_lines():
    yield "# The worked tile, cut behind each byte, and with each byte changed to 0, 255 and its neighbours."
    yield f"keep hostile {TILE.hex()}"
    yield from each_byte(["tile @hostile"], TILE)
    yield "# The same of the text of the worked change (its cuts are above), and of an edit that gives a point and takes a feature away."
    change = text_of(Change(7, POINT))
    edit = edit_text([Change(7, POINT), Change(9, None)])
    yield f"keep hostile {change.hex()}"
    yield from damaged(["change @hostile"], change)
    yield f"keep hostile {edit.hex()}"
    yield from damaged(["edit @hostile"], edit)
    yield "# The same of directories: of tiles, of leaves, of one entry with longer numbers."
    entries = [DirectoryEntry(3, 2, 300, 0), DirectoryEntry(5, 1, 9, 300), DirectoryEntry(7, 0, 5, 2)]
    for data in [directory(entries), directory([DirectoryEntry(300, 1, 200, 5)], 3)]:
        yield f"keep hostile {data.hex()}"
        yield from each_byte(["directory @hostile"], data)
    yield "# The archive of three tiles, judged, and one with leaf directories, judged and read."
    sound = archives.built([(tile_id, TILE) for tile_id in (0, 1, 5)], b'{"vector_layers":[{"fields":{},"id":"p","maxzoom":2,"minzoom":0}]}')
    yield f"keep hostile {sound.hex()}"
    yield from each_byte(["verify @hostile"], sound)
    yield from cut(["show @hostile"], sound)
    leaves = small_leaves()
    yield f"keep hostile {leaves.hex()}"
    yield from each_byte(["verify @hostile", "contents 0,13 @hostile", "looks 13,0 @hostile"], leaves)


# ---- archives


def mutual():
    """Two leaf directories that name each other, of five bytes each."""
    m = Maker()
    one, two = DirectoryEntry(0, 0, 5, 0), DirectoryEntry(0, 0, 5, 5)
    m.leaf(0, [two])
    m.leaf(0, [one])
    return m.archive([one])


def ring():
    """Three leaf directories, each of which names the next."""
    m = Maker()
    leaves = [DirectoryEntry(0, 0, 5, 5 * k) for k in range(3)]
    for k in range(3):
        m.leaf(0, [leaves[(k + 1) % 3]])
    return m.archive([leaves[0]])


def shared_leaf(count):
    """A root directory of so many entries that all name one leaf directory, which has no entries."""
    m = Maker()
    empty = m.leaf(0, [])
    return m.archive([empty._replace(id=k) for k in range(count)])


def overlapping_contents(size):
    """Half of the file is a content of fields that no tile has, the other half entries that name all that is behind each of its fields."""
    m = Maker()
    half = size // 2
    content = number(1, 0) * (half // 2)
    m.tile(0, 1, content)
    count = half // 8
    entries = [DirectoryEntry(k, 1, len(content) - 2 * k, 2 * k) for k in range(count)]
    return m.archive([m.leaf(0, directory(entries))])


def shared_bytes(size):
    """Leaf directories that end together, each four numbers longer than the next. No two may have an id in common, and the ids of a longer one
    pass over all those of the shorter ones, so each takes half of the ids that are left: 35 to 40 of them."""
    count = size // 4
    leaves = 61 - (64 * count).bit_length()
    firsts = [2**61 >> k for k in range(leaves)]
    data, entries, m = b"", [], Maker()
    for k, first in enumerate(firsts):
        entries.append((first, len(data)))
        data += varint(count + leaves - 1 - k) + varint(first) + b"\1\1"
    data += b"\1" * (4 * count - 3)
    m.tile(0, 1, b"a")
    m.leaves = data
    return m.archive([DirectoryEntry(first, 0, len(data) - at, at) for first, at in reversed(entries)], kind=0)


def overlapping():
    """Archives of one tile whose sections have bytes in common: all of them the file's first bytes, or each one another's."""
    m = Maker()
    one = m.archive([m.tile(0, 1, TILE)])
    root = directory([DirectoryEntry(0, 1, 21, 0)])
    yield "the tiles begin with the header", changed(one, tiles_at=0, tiles=len(one))
    yield "metadata, leaves and tiles are one section", changed(one, metadata_at=132, metadata=2, leaves_at=132, leaves=2, tiles_at=132, tiles=23)
    yield "the root directory is the leaf section too", changed(one, leaves_at=127, leaves=len(root))
    yield "the header is the root directory", changed(one, root_at=0, root=127)
    yield "each section is the whole file", changed(one, root_at=0, root=len(one), metadata_at=0, metadata=len(one), leaves_at=0, leaves=len(one),
                                                  tiles_at=0, tiles=len(one))
    # The root names a leaf, whose bytes are the root's own.
    itself = directory([DirectoryEntry(0, 0, 5, 0)])
    yield "a root directory that names itself", changed(m.archive(itself), leaves_at=127, leaves=5)


def far_sections():
    m = Maker()
    one = m.archive([m.tile(0, 1, TILE)])
    for name in archives.SECTIONS:
        for at, length in [(FAR, 0), (FAR, 1), (FAR, FAR), (FAR - 1, FAR), (LAST, 0), (LAST, 1), (0, FAR), (0, LAST), (len(one), 0), (len(one) + 1, 0)]:
            yield changed(one, **{name + "_at": at, name: length})


def last_runs():
    """Directories whose runs end at the last id, or past it."""
    for first, run in [(ALL_IDS - 1, 1), (ALL_IDS - 2, 2), (ALL_IDS - 2, 3), (ALL_IDS - 1, 2), (ALL_IDS, 0), (ALL_IDS, 1), (ALL_IDS + 1, 0),
                       (ALL_IDS - 2**32 + 1, 2**32 - 1), (ALL_IDS - 2**32 + 2, 2**32 - 1), (LAST, 0), (LAST, 1), (LAST, 2**32 - 1), (FAR, 1)]:
        yield [DirectoryEntry(first, run, len(TILE), 0)]
    yield [DirectoryEntry(5, 2**32 - 1, len(TILE), 0), DirectoryEntry(2**32 + 4, 1, len(TILE), 0)]
    yield [DirectoryEntry(5, 2**32 - 1, len(TILE), 0), DirectoryEntry(2**32 + 3, 1, len(TILE), 0)]


def archive_lines():
    yield "# Leaf directories that name each other: two, and three in a ring."
    for archive in (mutual(), ring()):
        yield f"keep hostile {archive.hex()}"
        yield from [("verify @hostile", "1 leaf depth"), ("list @hostile", "leaf depth")]
        yield from ((f"{word} 0,7 @hostile", '["leaf depth", "leaf depth"]') for word in ("contents", "looks"))
    yield "# A leaf directory without entries that 3,000 entries of the root name, and one more of a deeper one."
    yield f"keep hostile {shared_leaf(3000).hex()}"
    yield from [("verify @hostile", "0 ok: 0 tiles, 0 entries, 0 contents"), ("contents 0,2999,3000 @hostile", '["none", "none", "none"]')]
    yield "# Contents that begin inside each other, and leaf directories over the same bytes, which each have half of the ids that are left."
    for archive in (overlapping_contents(1024), shared_bytes(1024)):
        yield from [f"keep hostile {archive.hex()}", "verify @hostile", "list @hostile", "contents 0,1,63,64,65 @hostile",
                    f"looks {2**60},{2**60 + 1},5 @hostile"]
    yield "# A root directory of no entries, with counts that say so or not."
    empty = Maker().archive([])
    yield f"keep hostile {empty.hex()}"
    yield from [("verify @hostile", "0 ok: 0 tiles, 0 entries, 0 contents"), ("verify @hostile 72=01", "1 count: addressed"),
                ("list @hostile", "[]"), ("contents 0 @hostile", '["none"]'), ("looks 0,5 @hostile", '["none", "none"]'),
                ("verify @hostile 16=00", "1 bad directory at: 127")]
    yield "# Sections that have bytes in common."
    for what, archive in overlapping():
        yield from [f"# {what}", f"keep hostile {archive.hex()}", "verify @hostile", "list @hostile", "contents 0,1 @hostile", "show @hostile"]
    yield "# Sections at 2^63 and 2^64 - 1, and at the end of the file, with and without bytes."
    for archive in far_sections():
        yield from [f"keep hostile {archive.hex()}", "verify @hostile", "contents 0 @hostile"]
    yield "# Runs up to the last id, and past it."
    for entries in last_runs():
        m = Maker()
        m.tiles = TILE
        yield from [f"keep hostile {m.archive(directory(entries)).hex()}", "verify @hostile",
                    f"contents {entries[0].id},{ALL_IDS - 1},{LAST} @hostile"]
    yield "# Contents and leaf directories that end past their sections, at 64 bits, and at the section's last byte."
    for run in (0, 1):
        for length, offset in [(5, 0), (6, 0), (1, 4), (1, 5), (2**32 - 1, 0), (1, LAST - 1), (2**32 - 1, LAST - 1), (1, FAR)]:
            m = Maker()
            m.leaves = m.tiles = directory([DirectoryEntry(0, 1, 1, 0)])
            yield from [f"keep hostile {m.archive([DirectoryEntry(0, run, length, offset)], kind=2).hex()}", "verify @hostile", "contents 0 @hostile"]
    yield "# Counts of a directory that its bytes can't hold, at each length of the count."
    for count in [1, 2, 2**7, 2**14, 2**28, 2**31, 2**32, 2**56, 2**60, 2**62, FAR, LAST]:
        yield f"directory {varint(count).hex()} +000105", "Cut"
        yield f"directory {varint(count, 10).hex()} +000105", "Cut"


def text_of_metadata():
    """JSON texts, and whether each is an object."""
    deep = [b'{"a":' * n + b"0" + b"}" * n for n in (126, 127, 128, 129)]
    yield from zip(deep, [True, True, False, False])
    yield from [(b'{"a":' + b"[" * 126 + b"]" * 126 + b"}", True), (b'{"a":' + b"[" * 127 + b"]" * 127 + b"}", False)]
    yield from [(b"[" * 127 + b"]" * 127, False), (b'{"a":"' + b"[" * 200 + b'"}', True)]
    yield from [(b'{"a":"' + b"\\" * 2 + b'[{"}', True), (b'{"a":"\\""}', True), (b'{"a":"\\"}', False)]
    yield from [(b'{"a":"\\ud83c\\udf0d"}', True), (b'{"a":"\\ud800"}', False), (b'{"a":"\\udc00"}', False), (b'{"a":"\\ud800\\ud800"}', False),
                (b'{"a":"\\ud800x"}', False), (b'{"\\udfff":1}', False), (b'{"a":"\\ud800","a":1}', False), (b'{"a":["\\udbff"],"a":1}', False)]
    yield from [(b"\xef\xbb\xbf{}", False), (b"{}\xef\xbb\xbf", False), (b"\xfe\xff\0{\0}", False), (b"{}\0", False), (b"\0{}", False),
                (b'{"a":"\0"}', False), (b'{"a":"\\u0000"}', True), (b'{"\\u0000":0}', True), (b'{"a":"\x1f"}', False), (b'{"a":"\x7f"}', True)]
    yield from [(b'{"a":1,"a":2}', True), (b'{"":0,"":1}', True), (b'{"a":1e308}', True), (b'{"a":1e309}', False), (b'{"a":1e-400}', True),
                (b'{"a":-0}', True), (b'{"a":-1e400}', False), (b'{"a":01}', False), (b'{"a":.5}', False), (b'{"a":5.}', False), (b'{"a":+1}', False),
                (b'{"a":1e}', False), (b'{"a":Infinity}', False), (b"{a:1}", False), (b"{'a':1}", False), (b"{}/**/", False), (b'{"a":1 "b":2}', False),
                (b"{,}", False), (b'{"a"}', False), (b'{"a":}', False), (b'{"a":\\u0031}', False), (b'{"a":"\\x41"}', False), (b'{"a":"\\u12"}', False)]
    yield from [(b'{"a":"\xc0\x80"}', False), (b'{"a":"\xed\xa0\x80"}', False), (b'{"a":"\xf4\x90\x80\x80"}', False), (b'{"a":"\xf0\x9f\x8c\x8d"}', True),
                (b'{"a":"\xe2\x82"}', False), (b'{"a":"\xff"}', False), (b"{\xc2\xa0}", False), (b"{\x0b}", False), (b"{\x0c}", False), (b"{ \t\r\n}", True)]


def metadata_lines():
    yield "# Metadata: JSON as deep as it may be and deeper, halves of surrogate pairs, byte order marks, NUL, keys that are repeated, numbers."
    for text, is_object in text_of_metadata():
        yield f"metadata {text.hex()}", str(is_object).lower()
    yield "# Numbers of 60,000 digits: whole, behind a point, and in front of an exponent."
    for before, digit, behind, is_object in [(b'{"a":', "39", b"}", False), (b'{"a":0.', "30", b"1}", True), (b'{"a":0.', "39", b"}", True),
                                             (b'{"a":1', "30", b"e-60000}", True), (b'{"a":1e-', "39", b"}", True), (b'{"a":1e', "39", b"}", False),
                                             (b'{"a":1e', "30", b"1}", True), (b'{"a":0e', "39", b"}", True)]:
        yield f"metadata {before.hex()}<60000:{digit}>{behind.hex()}", str(is_object).lower()
    yield "# Brackets that never end, 60,000 of them."
    yield from ((f"metadata <60000:{text.hex()}>", "false") for text in (b"[", b'{"a":', b"[{", b"]", b'"', b'{"a":"'))


# ---- tiles


def layer(*parts, name=b"p"):
    return part(3, part(1, name) + b"".join(parts))


def pool(count, item, *parts):
    """The words of a tile of one layer with so many times an item, and then parts."""
    name, rest = part(1, b"p"), b"".join(parts)
    front = b"\x1a" + varint(len(name) + count * len(item) + len(rest)) + name
    return f"{front.hex()}<{count}:{item.hex()}>{rest.hex()}"


def feature(tags=b"", geometry=b"\x09\0\0", kind=1):
    return part(2, part(2, tags) + number(3, kind) + part(4, geometry))


def claims():
    """Features whose commands claim more points than there are."""
    most = 2**29 - 1
    for kind, geometry in [(1, [8 * most + MOVE]), (1, [8 * most + MOVE, 2, 2]), (2, [9, 0, 0, 8 * most + LINE]), (2, [9, 0, 0, 8 * most + LINE, 2, 2]),
                           (3, [9, 0, 0, 8 * most + LINE, 2, 2]), (1, [8 * 2**28 + MOVE, 0, 0]), (2, [9, 0, 0, 8 * 2**28 + LINE, 2, 2]), (1, [MOVE]),
                           (1, [8 * most + 7]), (3, [9, 0, 0, 18, 2, 2, 2, 2, 8 * most + 7]), (1, [2**32 - 1]), (2, [9, 2**32 - 1, 2**32 - 1, 10, 1, 1])]:
        yield feature(geometry=b"".join(map(varint, geometry)), kind=kind)


KEY, VALUE = part(3, b"k"), part(4, number(5, 1))


def tile_lines():
    yield "# Points that a command claims and that aren't there, 2^29 - 1 at most, in a tile."
    yield from (f"tile {layer(found).hex()}" for found in claims())
    yield "# Lengths that end behind the tile, up to 2^64 - 1: of a layer, of a name, of a feature, of tags."
    for length in [22, 2**7, 2**31, 2**32, 2**53, FAR, LAST]:
        yield f"tile 1a{(varint(length) + TILE[2:]).hex()}", "Wire"
        yield from ((f"tile {part(3, found + varint(length)).hex()}", "Wire") for found in [b"\x0a", part(1, b"p") + b"\x12", part(1, b"p") + b"\x1a"])
        tags = part(2, b"\x12" + varint(length))
        yield f"tile {layer(tags).hex()}", "Wire"
    yield "# Indices of tags at the last of the keys and values and behind it, up to 2^32 - 1, and above."
    for index in [0, 1, 2, 2**31, 2**32 - 1]:
        for pair in ([index, 0], [0, index]):
            yield f"tile {layer(KEY, VALUE, feature(b''.join(map(varint, pair)))).hex()}", None if index == 0 else "Tag"
    yield f"tile {layer(feature(bytes([0, 0]))).hex()}", "Tag"
    yield from ((f"tile {layer(KEY, VALUE, feature(varint(index) + bytes(1))).hex()}", "Range") for index in (2**32, LAST))
    yield "# Pools of 16,384 keys and of 16,384 values, all the same, with a feature of the last ones, and of one behind these."
    for item, other, pairs in [(KEY, VALUE, [(16383, 0), (16384, 0)]), (VALUE, KEY, [(0, 16383), (0, 16384)])]:
        for pair, wanted in zip(pairs, [None, "Tag"]):
            yield f"tile {pool(16384, item, other, feature(b''.join(map(varint, pair))))}", wanted
    yield "# 1,000,000 keys without letters, and no feature."
    yield f"tile {pool(10**6, part(3, bytes()))}", '[Layer { name: "p", version: 1, extent: 4096, features: [] }]'
    yield "# 20,000 features without fields; one with 20,000 tags of one key; 20,000 points in one place; as many pairs of integers of no kind."
    yield f"tile {pool(20000, part(2, bytes()))}"
    name = part(1, b"p")
    for kind, tags, geometry, wanted in [(1, (20000, b"\0\0"), b"", "Tag"), (1, None, (20000, b"\0\0"), None), (0, None, (20000, b"\0\0"), None)]:
        count, item = tags or geometry
        front = varint(8 * 20000 + MOVE) if kind == 1 and geometry else b""
        packed = number(3, kind) + bytes([0x12 if tags else 0x22]) + varint(len(front) + count * len(item)) + front
        found = b"\x12" + varint(len(packed) + count * len(item)) + packed
        rest = KEY + VALUE
        front = b"\x1a" + varint(len(name) + len(found) + count * len(item) + len(rest)) + name + found
        yield f"tile {front.hex()}<{count}:{item.hex()}>{rest.hex()}", wanted
    yield "# Layers of one name behind each other, and a thousand layers with names of their own."
    yield f"tile <300:{layer().hex()}>", "LayerTwice"
    yield f"tile {b''.join(layer(name=str(k).encode()) for k in range(300)).hex()}"


# ---- the texts of edits


def counted(size, count, item, behind=b""):
    return count.to_bytes(size, "little") + item * count + behind


def texts_at_counts():
    """Texts of changes at both ends of each count, and one beyond, as far as there are so many of them: the part that is changed and its fault."""
    put_ = b"\x01" + (7).to_bytes(8, "little")
    layer_, zooms, points, no_tags = b"\x01p", b"\x00\x02", b"\x01\x01\x00" + bytes(8), b"\0"
    for count in (0, 1, 64, 65, 255):
        yield put_ + counted(1, count, b"p") + zooms + points + no_tags, None if 1 <= count <= 64 else "Bad"
    for first, last in [(0, 0), (0, 16), (16, 16), (0, 17), (17, 17), (0, 19), (19, 19), (0, 20), (1, 0), (19, 18), (20, 20), (255, 255), (0, 255)]:
        yield put_ + layer_ + bytes([first, last]) + points + no_tags, None if first <= last <= MAX_ZOOM else "Bad"
    for kind in (0, 4, 255):
        yield put_ + layer_ + zooms + bytes([kind]) + points[1:] + no_tags, "Bad"
    for count in (0, 1, 4093):
        yield put_ + layer_ + zooms + b"\x01" + counted(2, count, bytes(8)) + no_tags, None if count else "Bad"
    line, ring_ = counted(2, 2, bytes(8)), counted(2, 3, bytes(8))
    for count in (0, 1, 1819):
        yield put_ + layer_ + zooms + b"\x02" + counted(2, count, line) + no_tags, None if count else "Bad"
    for count in (0, 1, 2, 4092):
        yield put_ + layer_ + zooms + b"\x02\x01\x00" + counted(2, count, bytes(8)) + no_tags, None if count > 1 else "Bad"
    for count in (0, 1, 1169):
        yield put_ + layer_ + zooms + b"\x03" + counted(2, count, b"\x01\x00" + ring_) + no_tags, None if count else "Bad"
    for count in (0, 1, 1259):
        yield put_ + layer_ + zooms + b"\x03\x01\x00" + counted(2, count, ring_) + no_tags, None if count else "Bad"
    for count in (0, 2, 3, 4092):
        yield put_ + layer_ + zooms + b"\x03\x01\x00\x01\x00" + counted(2, count, bytes(8)) + no_tags, None if count > 2 else "Bad"
    front = put_ + layer_ + zooms + points
    for count in (0, 64, 65, 255):
        yield front + bytes([count]) + b"".join(bytes([1, k, 4]) for k in range(1, min(count, 127) + 1)), None if count <= 64 else "Bad"
    for count in (0, 1, 64, 65, 255):
        yield front + b"\x01" + counted(1, count, b"k") + b"\x04", None if 1 <= count <= 64 else "Bad"
    for count in (0, 1, 1024, 1025):
        yield front + b"\x01\x01k\x01" + counted(2, count, b"v"), None if count <= 1024 else "Bad"
    for kind, held in [(2, 0), (2, LAST), (3, FAR), (3, LAST), (3, FAR - 1), (3, 0)]:
        yield front + b"\x01\x01k" + bytes([kind]) + held.to_bytes(8, "little"), "Bad" if kind == 3 and held < FAR else None
    for number_ in (0, FAR - 1, FAR, LAST):
        yield b"\x02" + number_.to_bytes(8, "little"), None if number_ < FAR else "Bad"


def edits_at_counts():
    """Texts of edits at both ends of the count of changes and beyond, with claims that no bytes follow, with one id twice, and at the longest: the text
    and its fault."""
    delete = [b"\x02" + k.to_bytes(8, "little") for k in range(256)]
    for count in (0, 1, 2, 63, 64, 65, 255):
        yield bytes([count]) + b"".join(delete[:count]), None if 1 <= count <= 64 else "Bad"
    for count, there in [(1, 0), (2, 1), (64, 0), (64, 63)]:
        yield bytes([count]) + b"".join(delete[:there]), "Cut"
        yield bytes([count]) + b"".join(delete[:there]) + b"\x02\x09", "Cut"
        yield bytes([count]) + b"".join(delete[:there]) + b"\x03", "Bad"
    for count in (0, 65, 128, 255):
        yield bytes([count]), "Bad"
    for first, second in [(0, 1), (0, 63), (62, 63), (31, 33)]:
        changes = delete[:64]
        changes[second] = changes[first]
        yield b"\x40" + b"".join(changes), "Bad"
        # The second one is a put, of which no more bytes are there.
        yield b"\x40" + b"".join(changes[:second]) + b"\x01" + changes[first][1:], "Bad"
    # Two points, one in 4,083 places, of 32,769 bytes where the other's layer has a name of 63 bytes.
    many = b"\x01" + bytes(8) + b"\x01p\x00\x02\x01" + counted(2, 4083, bytes(8)) + b"\0"
    for size in (62, 63, 64):
        yield b"\x02" + many + b"\x01\x01" + bytes(7) + counted(1, size, b"p") + b"\x00\x02\x01\x01\x00" + bytes(9), "Bad" if size == 64 else None


def folded(data):
    """Bytes in hexadecimal, a run of equal pieces of 1, 8, 18, 26, 28 bytes once with its count."""
    words, at = [], 0
    while at < len(data):
        for size in (1, 8, 18, 26, 28):
            item, count = data[at : at + size], 1
            while len(item) == size and data.startswith(item, at + count * size):
                count += 1
            if count * size > 200:
                words.append(f"<{count}:{item.hex()}>")
                at += count * size
                break
        else:
            words.append(data[at : at + 1].hex())
            at += 1
    return "".join(words)


def text_lines():
    yield "# The texts of changes at both ends of each count, and beyond."
    for data, wanted in texts_at_counts():
        yield f"change {folded(data)}", wanted
    front = "01" + "07" + "00" * 7 + "0170"
    yield "# A text that ends behind its first zoom: cut if a zoom may follow, and bad if none may."
    yield from ((f"change {front}{zoom:02x}", "Cut" if zoom <= MAX_ZOOM else "Bad") for zoom in ENDS_OF_ZOOMS)
    yield from ((f"edit 01{front}{zoom:02x}", "Cut" if zoom <= MAX_ZOOM else "Bad") for zoom in ENDS_OF_ZOOMS)
    yield "# The texts of edits at both ends of the count of changes, with fewer changes than they claim, with one id twice, near the longest."
    for data, wanted in edits_at_counts():
        yield f"edit {folded(data)}", wanted
    yield "# Counts of 65,535 that the bytes behind them can't fill."
    for geometry in ["01ffff", "02ffff", "020100ffff", "03ffff", "030100ffff", "0301000100ffff"]:
        yield f"change {front}0002{geometry}", "Cut"
        yield f"change {front}0002{geometry}<33000:02>"


PARTS = [example_lines, archive_lines, metadata_lines, tile_lines, text_lines]


def lines():
    """Each line; one with an answer that is wanted is beside it."""
    for found in (line for part_ in PARTS for line in part_()):
        yield found[0] if isinstance(found, tuple) and found[1] is None else found
