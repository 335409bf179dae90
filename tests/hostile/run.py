#!/usr/bin/env python3
"""Measures the worst inputs that are known for each decoder: processor seconds and peak memory as the input doubles.

    python3 tests/hostile/run.py [--program PROGRAM] [--only WORD] [--limit SECONDS] [--sizes KB,KB,..]

PROGRAM is crates/vtserve/out/vtserve, which `rt run` leaves there. It needs `time` (Debian: time). Each row is an input of a kind in
four sizes, of 1, 2, 4 and 8 MB if the row has no smaller ones of its own or counts something else. A process that takes longer than the
limit is stopped, and the larger sizes of its row are left out. The last column is the factor between the last two sizes: 2 for work in proportion to the input,
4 for its square. What a process must answer is written beside each row; another answer ends the script with 1.
"""
import argparse
import pathlib
import random
import subprocess
import sys
import tempfile

HERE = pathlib.Path(__file__).resolve().parent
sys.path.append(str(HERE.parents[1] / "model"))
import disk as disks
from archives import Maker, directory
from read_hostile import MOVE, overlapping_contents, shared_bytes
from reply_stand import request
from wire import number, part, varint

SIZES = [1024, 2048, 4096, 8192]
KEY, VALUE = part(3, b"k"), part(4, number(5, 1))


# ---- archives and their directories


def archive_of_tile(tile):
    m = Maker()
    return m.archive([m.tile(0, 1, tile)])


def leaf_of_entries(size):
    """A leaf directory of entries of four bytes that all name one content, an empty layer."""
    m = Maker()
    content = part(3, part(1, b"p"))
    m.tile(0, 1, content)
    count = size // 4
    numbers = varint(count) + b"\0" + b"\1" * (count - 1) + b"\1" * count + bytes([len(content)]) * count + b"\1" * count
    return m.archive([m.leaf(0, numbers)])


def one_content_often(size):
    """Half of the file is a content of such fields, the other half entries of four bytes and more that all name it."""
    m = Maker()
    content = number(1, 0) * (size // 4)
    whole = m.tile(0, 1, content)
    return m.archive([m.leaf(0, directory([whole._replace(id=2 * k) for k in range(size // 2 // 7)]))])


def empty_leaf_often(size):
    """A leaf directory whose entries all name one leaf directory without entries."""
    m = Maker()
    m.leaf(0, [])
    count = size // 4
    return m.archive([m.leaf(0, varint(count) + b"\0" + b"\1" * (count - 1) + bytes(count) + b"\1" * (2 * count))])


def last_number_cut(size):
    """A leaf directory whose last number is cut: each number before it is read."""
    m = Maker()
    count = size // 4
    return m.archive([m.leaf(0, varint(count) + b"\0" + b"\1" * (4 * count - 2) + b"\x80")])


def metadata_of(text):
    return Maker().archive([], metadata=text)


def deep_metadata(size):
    piece = b"[" * 125 + b"]" * 125
    return metadata_of(b'{"a":[' + b",".join([piece] * (size // 251)) + b"]}")


def keys_of_metadata(keys):
    return metadata_of(b"{" + b",".join(b'"%08x":0' % key for key in keys) + b"}")


def shuffled_keys(size):
    keys = [*range(size // 13)]
    random.Random(1).shuffle(keys)
    return keys_of_metadata(keys)


def digits_of_metadata(size):
    return metadata_of(b'{"a":0.' + b"9" * size + b"}")


def escapes_of_metadata(size):
    return metadata_of(b'{"a":"' + b"\\ud83c\\udf0d" * (size // 12) + b'"}')


# ---- tiles


def layer(*parts):
    return part(3, part(1, b"p") + b"".join(parts))


def feature(kind, geometry, tags=b""):
    return part(2, part(2, tags) + number(3, kind) + part(4, geometry))


def layers(size):
    return b"".join(part(3, part(1, b"%05x" % k)) for k in range(size // 9))


def keys_and_tags(size):
    """Keys of no letters, and a feature whose tags have each of them once."""
    count = size // 6
    return layer(part(3, b"") * count, VALUE, feature(1, b"\x09\0\0", b"".join(varint(k) + b"\0" for k in range(count))))


def strided_tags(size):
    """The same, with the keys in the order of large steps, which have most low bits in common."""
    count = size // 6
    order = sorted(range(count), key=lambda k: (k % 4096, k))
    return layer(part(3, b"") * count, VALUE, feature(1, b"\x09\0\0", b"".join(varint(k) + b"\0" for k in order)))


def last_tag_twice(size):
    count = size // 6
    indices = [*range(count), count - 1]
    return layer(part(3, b"") * count, VALUE, feature(1, b"\x09\0\0", b"".join(varint(k) + b"\0" for k in indices)))


def features_of_sixteen_tags(size):
    tags = b"".join(bytes([k, 0]) for k in range(16))
    one = feature(1, b"\x09\0\0", tags)
    return layer(*[part(3, bytes([97 + k])) for k in range(16)], VALUE, one * (size // len(one)))


def long_keys(size):
    """A key of half the size, which each of some features has as a tag: the answer copies it."""
    one = feature(1, b"\x09\0\0", b"\0\0")
    return layer(part(3, b"k" * (size // 2)), VALUE, one * (size // 2 // len(one)))


def points(size):
    return layer(feature(1, varint(8 * (size // 2) + MOVE) + b"\2\1" * (size // 2)))


def claimed_points(size):
    """Features that claim 2^29 - 1 points each: the first one is the fault."""
    return layer(feature(1, varint(8 * (2**29 - 1) + MOVE) + b"\2\1" * (size // 2)))


def short_lines(size):
    one = b"\x09\0\0\x0a\2\2"
    return layer(feature(2, one * (size // len(one))))


def small_rings(size):
    one = b"\x09\0\0\x12\2\0\0\2\x0f"
    return layer(feature(3, one * (size // len(one))))


def empty_features(size):
    return layer(part(2, b"") * (size // 2))


def texts(size):
    one = part(4, part(1, "\u00e9".encode() * 8))
    return layer(one * (size // len(one)))


def numbers_of_ten_bytes(size):
    return layer(feature(0, b"".join([varint(7, 10)] * (size // 10))))


# ---- requests


def repeated(one, size):
    return one * max(1, size // len(one))


def heads(size):
    """Heads of 8,190 bytes with 32 fields."""
    fields = "".join(f"x{k}: {'y' * 240}\r\n" for k in range(31))
    front = f"GET /map/0/0/0.hex HTTP/1.1\r\nhost: a\r\n{fields}"
    return repeated((front[:8180] + "\r\n\r\n").encode(), size)


def small_heads(size):
    return repeated(b"GET /map/0/0/0.hex HTTP/1.1\nhost:\n\n", size)


def bodies(text):
    return lambda size: repeated(request("PUT", "/features/7", text), size)


FRONT, BACK = b'{"layer":"p","minzoom":0,"maxzoom":2,"geometry":{"points":[[0,0]]},"tags":{', b"}}"
DEEP = FRONT + b'"a":[' + b",".join([b"[" * 120 + b"]" * 120] * 250) + b"]" + BACK
KEYS = FRONT + b",".join(b'"%05x":0' % key for key in range(5900)) + BACK
SAME_KEY = FRONT + b",".join([b'"a":0'] * 10000) + BACK
POINTS = b'{"layer":"p","minzoom":0,"maxzoom":2,"tags":{},"geometry":{"points":[' + b",".join([b"[0,0]"] * 10900) + b"]}}"
DIGITS = FRONT + b'"a":0.' + b"9" * 65000 + BACK


# ---- edits of several changes

POINT = b'{"layer":"p","minzoom":0,"maxzoom":2,"geometry":{"points":[[0,0]]},"tags":{}}'
# The most tiles that a feature may cover, and one that covers more.
WIDEST = b'{"layer":"p","minzoom":9,"maxzoom":9,"geometry":{"lines":[[[0,0],[4294967295,4294967295]]]},"tags":{}}'
TOO_WIDE = WIDEST.replace(b'"minzoom":9', b'"minzoom":8')


def sets(number_, feature=POINT):
    return b'{"put":%d,"feature":%s}' % (number_, feature)


def deletes(number_):
    return b'{"delete":%d}' % number_


def batch(*changes):
    return b'{"changes":[%s]}' % b",".join(changes)


def batches(text):
    return lambda size: repeated(request("POST", "/edits", text), size)


def widest(last):
    """64 changes of the widest reach, the last of them with another feature."""
    return batch(*(sets(number_, WIDEST) for number_ in range(63)), sets(63, last))


def points_of(count):
    return POINT.replace(b"[[0,0]]", b"[[0,0]" + b",[0,0]" * (count - 1) + b"]")


MANY_DELETES = batch(*map(deletes, range(4000)))
MANY_SETS = batch(*map(sets, range(600)))
TWICE = batch(*map(deletes, range(63)), deletes(0))
LAST_TWICE = batch(*map(deletes, range(2**62, 2**62 + 62)), *[deletes(2**62 + 61)] * 2)
LONGEST = batch(sets(1, points_of(2044)), sets(2, points_of(2044)))
DEEP_CHANGES = b'{"changes":[' + b",".join([b"[" * 124 + b"]" * 124] * 250) + b"]}"
KEYED_CHANGES = batch(*(b'{"delete":1,%s}' % b",".join(b'"%04x":0' % key for key in range(90)) for _ in range(64)))


def wide_batch(size):
    """For each MB a batch of eight changes of the widest reach, as one batch, and a publication. An archive has fewer entries than these tiles."""
    changes = [sets(number_, WIDEST) for number_ in range(8 * size // 2**20)]
    return request("POST", "/edits", batch(*changes)) + request("POST", "/publish")


def wide_polygon(size):
    """For each MB 30 points of one polygon, which is whole in each of 262,144 tiles; and a publication."""
    places = b",".join(b"[%d,%d]" % (number_ % 2 * 4294967295, number_ * 10**7) for number_ in range(30 * size // 2**20 - 1))
    polygon = b'{"layer":"p","minzoom":9,"maxzoom":9,"geometry":{"polygons":[[[%s,[0,4294967295]]]]},"tags":{}}' % places
    return request("PUT", "/features/1", polygon) + request("POST", "/publish")


def wide_features(size):
    """For each MB a feature of 65,536 tiles, the same ones, and a publication. More tiles than 131,072 aren't published."""
    line = b'{"layer":"p","minzoom":16,"maxzoom":16,"geometry":{"lines":[[[0,0],[4294967295,0]]]},"tags":{}}'
    asked = [request("PUT", f"/features/{k}", line) for k in range(size // 2**20)]
    return b"".join([*asked, request("POST", "/publish")])


# ---- disks


def snapshot_disk(text):
    """A disk whose snapshot is a text."""
    sectors = max(64, 4 * (-(-len(text) // 512)))
    held = bytearray(512 * sectors)
    root = disks.Root(1, 10**9, 0, len(text), 0)
    held[:512] = disks.format_sector(sectors)
    held[1024:1536] = disks.root_sector(root)
    at = 512 * disks.layout_of(bytes(held)).area_at(1)
    held[at : at + len(text)] = text
    return bytes(held)


def change_text(number_, points_=1, tags=b"\0"):
    return b"\1" + number_.to_bytes(8, "little") + b"\1p\0\2\1" + points_.to_bytes(2, "little") + bytes(8 * points_) + tags


def journal_disk(text, count):
    """A disk whose journal has so many records of version 2 with this text, and places of zeros after them."""
    parts = disks.parts_of(len(text))
    sectors = max(64, 4 * (parts * count + 1))
    held = bytearray(disks.write_disk(sectors, 0, {}, [], b"", 0))
    disks.put_records(held, disks.Layout(sectors), 0, 1, [(2, text)] * count)
    return bytes(held)


def records_of(changes):
    """Disks of a size with records of these changes."""
    text = bytes([len(changes)]) + b"".join(changes)
    return lambda size: journal_disk(text, max(1, size // (512 * disks.parts_of(len(text)))))


def zeros_of_a_snapshot(size):
    """A disk whose root claims a snapshot of this length, where it has zeros."""
    return snapshot_disk(bytes(size))


def small_features(size):
    return snapshot_disk(b"".join(change_text(k) for k in range(size // 25)))


def tagged_features(size):
    tags = b"\x40" + b"".join(bytes([1, 33 + k, 4]) for k in range(64))
    return snapshot_disk(b"".join(change_text(k, 1, tags) for k in range(size // 217)))


def descending_last(size):
    """The same as small features, with a last number that doesn't ascend: nothing of it is opened."""
    return snapshot_disk(b"".join(change_text(k) for k in range(size // 25)) + change_text(0))


# What is measured: a word, the command, the input by its size in bytes, the first bytes of the answer (and the last ones), and sizes in KB
# where they are smaller than those of the others.
ROWS = [
    ("leaf directory: entries of one small content", "verify", leaf_of_entries, b"ok: "),
    ("leaf directory: its last number is cut", "verify", last_number_cut, b"bad directory at: "),
    ("leaf directory: each entry names one empty leaf directory", "verify", empty_leaf_often, b"ok: 0 "),
    ("leaf directories: as many as the ids allow, all over the same bytes", "verify", shared_bytes, b"ok: ", [64, 128, 256, 512]),
    ("contents: one large content, named by many entries", "verify", one_content_often, b"ok: "),
    ("contents: each begins inside the one before", "verify", overlapping_contents, b"ok: ", [32, 64, 128, 256]),
    ("metadata: lists nested 126 deep", "verify", deep_metadata, b"ok: 0 "),
    ("metadata: keys in order", "verify", lambda size: keys_of_metadata(range(size // 13)), b"ok: 0 "),
    ("metadata: keys in reverse", "verify", lambda size: keys_of_metadata(range(size // 13, 0, -1)), b"ok: 0 "),
    ("metadata: keys in any order", "verify", shuffled_keys, b"ok: 0 "),
    ("metadata: a number of as many digits", "verify", digits_of_metadata, b"ok: 0 "),
    ("metadata: escapes of surrogate pairs", "verify", escapes_of_metadata, b"ok: 0 "),
    ("metadata, shown: escapes", "show", escapes_of_metadata, b"version: 3"),
    ("tile: layers with names of their own", "verify", lambda size: archive_of_tile(layers(size)), b"ok: 1 "),
    ("tile: a feature with a tag of each of its keys", "verify", lambda size: archive_of_tile(keys_and_tags(size)), b"ok: 1 "),
    ("tile: the same in steps of 4,096", "verify", lambda size: archive_of_tile(strided_tags(size)), b"ok: 1 "),
    ("tile: the same, the last key twice", "verify", lambda size: archive_of_tile(last_tag_twice(size)), b"bad tile: 0"),
    ("tile: features of 16 tags", "verify", lambda size: archive_of_tile(features_of_sixteen_tags(size)), b"ok: 1 "),
    ("tile: a key of half its size in many features", "verify", lambda size: archive_of_tile(long_keys(size)), b"ok: 1 "),
    ("tile: points of one feature", "verify", lambda size: archive_of_tile(points(size)), b"ok: 1 "),
    ("tile: 2^29 - 1 points claimed", "verify", lambda size: archive_of_tile(claimed_points(size)), b"bad tile: 0"),
    ("tile: lines of two points", "verify", lambda size: archive_of_tile(short_lines(size)), b"ok: 1 "),
    ("tile: rings of three points", "verify", lambda size: archive_of_tile(small_rings(size)), b"ok: 1 "),
    ("tile: features without fields", "verify", lambda size: archive_of_tile(empty_features(size)), b"ok: 1 "),
    ("tile: values of 16 bytes", "verify", lambda size: archive_of_tile(texts(size)), b"ok: 1 "),
    ("tile: integers of ten bytes", "verify", lambda size: archive_of_tile(numbers_of_ten_bytes(size)), b"ok: 1 "),
    ("requests: heads of 8,184 bytes and 32 fields", "demo", heads, b"HTTP/1.1 204"),
    ("requests: heads of 36 bytes", "demo", small_heads, b"HTTP/1.1 204"),
    ("requests: bodies of lists nested 124 deep", "demo", bodies(DEEP), b"HTTP/1.1 400"),
    ("requests: bodies of 5,900 keys", "demo", bodies(KEYS), b"HTTP/1.1 400"),
    ("requests: bodies of one key 10,000 times", "demo", bodies(SAME_KEY), b"HTTP/1.1 200"),
    ("requests: bodies of 10,900 points", "demo", bodies(POINTS), b"HTTP/1.1 400"),
    ("requests: bodies of 65,000 digits", "demo", bodies(DIGITS), b"HTTP/1.1 400"),
    ("batches: 64 changes of the widest reach", "demo 131072", batches(widest(WIDEST)), b"HTTP/1.1 200"),
    ("batches: the same, the last one too wide", "demo", batches(widest(TOO_WIDE)), (b"HTTP/1.1 400", b"E9 Reach\n")),
    ("batches: 64 deletions, the first and the last of one id", "demo", batches(TWICE), (b"HTTP/1.1 400", b"E11 Twice\n")),
    ("batches: 64 deletions, the last two of one id", "demo", batches(LAST_TWICE), (b"HTTP/1.1 400", b"E11 Twice\n")),
    ("batches: 4,000 deletions", "demo", batches(MANY_DELETES), (b"HTTP/1.1 400", b"E10 Batch\n")),
    ("batches: 600 features", "demo", batches(MANY_SETS), (b"HTTP/1.1 400", b"E10 Batch\n")),
    ("batches: 32,768 bytes of points", "demo 131072", batches(LONGEST), b"HTTP/1.1 200"),
    ("batches: 64 changes of 91 members", "demo", batches(KEYED_CHANGES), (b"HTTP/1.1 400", b"E1 Member\n")),
    ("batches: lists nested 125 deep", "demo", batches(DEEP_CHANGES), (b"HTTP/1.1 400", b"E1 Member\n")),
    ("publication: 1, 2, 4, 8 features of 65,536 tiles each", "demo", wide_features, b"HTTP/1.1 200"),
    ("publication: a batch of 8, 16, 32, 64 changes of 262,144 tiles each", "demo", wide_batch, (b"HTTP/1.1 200", b"TooManyTiles\n")),
    ("publication: a polygon of 30, 60, 120, 240 points in 262,144 tiles", "demo", wide_polygon, (b"HTTP/1.1 200", b"TooManyTiles\n")),
    ("snapshot: points", "pipe", small_features, b""),
    ("snapshot: points with 64 tags", "pipe", tagged_features, b""),
    ("snapshot: points, the last of a number that was there", "pipe", descending_last, b""),
    ("snapshot: zeros", "pipe", zeros_of_a_snapshot, b""),
    ("journal: batches of 64 points", "pipe", records_of([change_text(k) for k in range(64)]), b""),
    ("journal: batches of 64 deletions of what isn't there", "pipe", records_of([b"\2" + k.to_bytes(8, "little") for k in range(64)]), b""),
    ("journal: batches of 64 changes, the last two of one id", "pipe", records_of([b"\2" + min(k, 62).to_bytes(8, "little") for k in range(64)]), b""),
]


# ---- runs


def measured(program, command, held, folder, limit):
    """Processor seconds, peak MB and standard output of a process, or None where it is stopped."""
    path, told = pathlib.Path(folder) / "input", pathlib.Path(folder) / "time"
    path.write_bytes(held)
    is_demo = command.startswith("demo")
    words = ["/usr/bin/time", "-o", str(told), "-f", "%U %S %M", "timeout", str(limit), program]
    words += (command if " " in command else f"{command} 1024").split() if is_demo else [command, str(path)]
    with open(path if is_demo else "/dev/null", "rb") as asked:
        done = subprocess.run(words, stdin=asked, capture_output=True)
    if done.returncode == 124:
        return None
    if done.returncode not in (0, 1):
        sys.exit(f"status {done.returncode}: {done.stderr[:300]}")
    user, system, memory = told.read_text().split()[-3:]
    return float(user) + float(system), int(memory) / 1024, done.stdout


def is_wanted(written, wanted):
    """Whether an answer has these first bytes, and these last ones."""
    front, back = wanted if isinstance(wanted, tuple) else (wanted, b"")
    return written.startswith(front) and written.endswith(back)


def cells_of(options, row, folder):
    """The cells of a row, and whether all answers were those that are wanted."""
    what, command, make, wanted, sizes = row if len(row) == 5 else (*row, SIZES)
    cells, last, good = [], [], True
    for size in options.sizes or sizes:
        held = make(1024 * size)
        found = measured(options.program, command, held, folder, options.limit)
        if found is None:
            cells.append(f"over {options.limit} s")
            break
        seconds, memory, written = found
        good &= is_wanted(written, wanted)
        last.append(seconds)
        cells.append(f"{seconds:.2f} s, {memory:.0f} MB")
    factor = f"{last[-1] / last[-2]:.1f}" if len(last) > 1 and last[-2] >= 0.02 else ""
    name = f"{what} ({', '.join(map(str, sizes))} KB)" if sizes is not SIZES else what
    return [name, f"`{command}`", *cells, *[""] * (4 - len(cells)), factor], good


def options_of(words):
    parser = argparse.ArgumentParser()
    parser.add_argument("--program", default=str(HERE.parents[1] / "crates" / "vtserve" / "out" / "vtserve"))
    parser.add_argument("--only", default="")
    parser.add_argument("--limit", type=int, default=20)
    parser.add_argument("--sizes", type=lambda text: [int(word) for word in text.split(",")])
    return parser.parse_args(words)


def main(options):
    print("| Input | Command | 1 MB | 2 MB | 4 MB | 8 MB | Factor |\n|---|---|---|---|---|---|---|", flush=True)
    all_good = True
    with tempfile.TemporaryDirectory() as folder:
        for row in ROWS:
            if options.only in row[0]:
                cells, good = cells_of(options, row, folder)
                print(f"| {' | '.join(cells)} |" + ("" if good else " another answer than is wanted"), flush=True)
                all_good &= good
    return 0 if all_good else 1


if __name__ == "__main__":
    sys.exit(main(options_of(sys.argv[1:])))
