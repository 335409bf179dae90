#!/usr/bin/env python3
"""Tile archives as other makers write them, and what `vtserve` has to say of each.

    python3 tests/archives/foreign_archives.py crates/vtserve/out/vtserve

Nothing here is taken from the product. The writer follows the PMTiles specification, version 3, and takes the freedom
that it leaves: sections in any order with gaps between them, contents in any order, leaf directories below leaf
directories, numbers longer than need be. What is expected comes from the same page, twice: it is written beside each
archive, and `judged` (`model/archives.py`, as the writer) reads it from the archive's bytes. Where the two differ,
the script stops before it runs anything.

A last part changes bytes of headers and directories at random, with a fixed seed, and compares what `judged` reads
with what the program prints.
"""

import gzip
import random
import subprocess
import sys
import tempfile
from pathlib import Path

sys.path.append(str(Path(__file__).resolve().parents[2] / "model"))
from archives import FIELDS, HEADER, IMAGE, SECTIONS, A, B, BAD, C, D, DirectoryEntry, Maker, changed, directory, header_lines, header_of, judged
from ids import ALL_IDS
from wire import varint

# ---- archives without a fault


def good_archives():
    m = Maker()
    late, early = m.tile(9, 3, C), m.tile(4, 1, A)
    root = [early, m.tile(5, 1, B), late, m.tile(12, 1, A)]
    plain = m.archive(root, addressed=6, entries=4, contents=4, max_zoom=2)
    yield "not clustered", plain, "ok: 6 tiles, 4 entries, 4 contents"
    yield "counts that aren't known", changed(plain, addressed=0, entries=0, contents=0), "ok: 6 tiles, 4 entries, 4 contents"
    yield "directories of unknown compression", changed(plain, internal=0), "ok: 6 tiles, 4 entries, 4 contents"
    yield "each offset by itself", m.archive(directory(root, each_offset=True)), "ok: 6 tiles, 4 entries, 4 contents"
    yield "numbers of ten bytes", m.archive(directory(root, longer=10)), "ok: 6 tiles, 4 entries, 4 contents"
    for turn in range(1, 4):
        order = SECTIONS[turn:] + SECTIONS[:turn]
        yield f"sections from {order[0]} on, with gaps", m.archive(root, order[::-1], dict.fromkeys(SECTIONS, 29)), "ok: 6 tiles, 4 entries, 4 contents"
    yield "metadata with spaces and letters", m.archive(root, metadata=' \r\n\t{"näme":[1,-2.5e3,{"":null}]} \n'.encode()), \
        "ok: 6 tiles, 4 entries, 4 contents"

    m = Maker()
    shared = m.tile(0, 1, A)
    root = [shared, shared._replace(id=2, run=4), m.tile(6, 2, B), shared._replace(id=9)]
    yield "one content for many", m.archive(root, addressed=8, entries=4, contents=2), "ok: 8 tiles, 4 entries, 2 contents"
    root = [DirectoryEntry(0, 1, len(A), 0), DirectoryEntry(1, 1, len(A + B), 0), DirectoryEntry(2, 1, len(B), len(A))]
    yield "contents inside a content", m.archive(root, contents=3, kind=2), "ok: 3 tiles, 3 entries, 3 contents"

    # Three leaf directories, one below the other; each leaf's ids reach to its bounds, and tiles stand between leaves.
    m = Maker()
    third = m.leaf(20, [m.tile(20, 1, A), m.tile(21, 9, B)])
    second = m.leaf(10, [m.tile(10, 10, C), third, m.tile(30, 1, A)], longer=3)
    first = m.leaf(10, [second, m.tile(31, 4, D)])
    last = m.leaf(41, [m.tile(50, 1, B)])
    root = [m.tile(3, 7, D), first, m.tile(35, 6, C), last]
    deep = m.archive(root, SECTIONS[::-1], {"leaves": 5}, addressed=39, entries=8, contents=8)
    yield "leaves three deep", deep, "ok: 39 tiles, 8 entries, 8 contents"

    m = Maker()
    end = m.leaf(ALL_IDS - 2, [m.tile(ALL_IDS - 2, 2, A)])
    yield "the last ids of zoom 31, in a leaf", m.archive([m.tile(0, 1, B), end], max_zoom=31), "ok: 3 tiles, 2 entries, 2 contents"
    m = Maker()
    empty = m.leaf(7, [])
    yield "a leaf without entries", m.archive([m.tile(0, 1, A), empty]), "ok: 1 tiles, 1 entries, 1 contents"
    yield "no tiles", Maker().archive([]), "ok: 0 tiles, 0 entries, 0 contents"
    m = Maker()
    yield "the longest run", m.archive([m.tile(5, 2**32 - 1, A)]), "ok: 4294967295 tiles, 1 entries, 1 contents"

    m = Maker()
    root = [m.tile(0, 1, IMAGE), m.tile(1, 1, BAD)]
    yield "images", m.archive(root, kind=2), "ok: 2 tiles, 2 entries, 2 contents"
    yield "tiles of unknown kind", m.archive(root, kind=0), "ok: 2 tiles, 2 entries, 2 contents"
    m = Maker()
    root = [m.tile(0, 1, gzip.compress(A, mtime=0)), m.tile(1, 1, gzip.compress(B, mtime=0))]
    yield "tiles in gzip", m.archive(root, compression=2), "ok: 2 tiles, 2 entries, 2 contents"

    # A root directory that ends with byte 16,384, and the same tiles in leaf directories of ten.
    m = Maker()
    root = [m.tile(2 * k, 1, (A, B, C)[k % 3]) for k in range(1000)]
    late = ["metadata", "root", "tiles", "leaves"]
    up_to = {"root": 16384 - 127 - len(b"{}") - len(directory(root))}
    yield "a root directory up to byte 16,384", m.archive(root, late, up_to, entries=1000), "ok: 1000 tiles, 1000 entries, 1000 contents"
    leaves = [m.leaf(root[k].id, root[k:k + 10]) for k in range(0, 1000, 10)]
    yield "a hundred leaves", m.archive(leaves, contents=1000), "ok: 1000 tiles, 1000 entries, 1000 contents"


# ---- archives with a fault, and of several faults the one that comes first


def bad_archives():
    m = Maker()
    root = [m.tile(4, 1, A), m.tile(5, 2, B), m.tile(9, 1, A)]
    good = m.archive(root, addressed=4, entries=3, contents=3)
    far = 2**64 - 1

    # The opening.
    yield "no bytes", b"", "short header"
    yield "126 bytes", good[:126], "short header"
    yield "another magic", changed(good, magic=b"PMTilez"), "bad magic"
    yield "another magic and version", changed(good, magic=b"pmtiles", version=4), "bad magic"
    yield "version 2", changed(good, version=2), "version: 2"
    yield "the header alone", good[:127], "section: root"
    yield "a root behind the file", changed(good, root_at=len(good), root=1), "section: root"
    yield "a root whose end passes 64 bits", changed(good, root_at=far, root=2), "section: root"
    late = ["metadata", "root", "tiles", "leaves"]
    past = {"root": 16385 - 127 - len(b"{}") - len(directory(root))}
    yield "a root up to byte 16,385", m.archive(root, late, past), "section: root"
    yield "metadata behind the file", changed(good, metadata_at=len(good) - 1, metadata=2, leaves_at=far), "section: metadata"
    yield "metadata whose end passes 64 bits", changed(good, metadata_at=far, metadata=far), "section: metadata"
    yield "leaves behind the file", changed(good, leaves_at=len(good) + 1, tiles=far), "section: leaves"
    yield "tiles behind the file", changed(good, tiles=len(A + B + A) + 1), "section: tiles"
    yield "a byte too few", good[:-1], "section: tiles"
    packed = m.archive(gzip.compress(directory(root), mtime=0), metadata=gzip.compress(b"{}", mtime=0), internal=2)
    yield "an archive in gzip", packed, "compressed directories: 2"
    yield "an archive in brotli", changed(good, internal=3), "compressed directories: 3"
    yield "a compression of no name", changed(good, internal=255), "compressed directories: 255"

    # Directories.
    for name, data in [
        ("no bytes at all", b""),
        ("a byte too many", directory(root) + b"\0"),
        ("a byte too few", directory(root)[:-1]),
        ("a number that doesn't end", b"\x80"),
        ("a number of eleven bytes", directory(root, longer=11)),
        ("a number past 64 bits", directory([DirectoryEntry(2**64, 1, 1, 0)])),
        ("more entries than bytes", varint(2**63) + b"\0" * 8),
        ("an id that comes again", directory([root[0], root[0]])),
        ("an id in the run before it", directory([root[1], root[0]._replace(id=6)])),
        ("a content of no bytes", directory([DirectoryEntry(0, 1, 0, 0)])),
        ("an offset that follows no entry", varint(1) + varint(0) + varint(1) + varint(1) + varint(0)),
        ("an id past zoom 31", directory([DirectoryEntry(ALL_IDS, 1, 1, 0)])),
        ("a run past zoom 31", directory([DirectoryEntry(ALL_IDS - 1, 2, 1, 0)])),
    ]:
        yield f"a root directory with {name}", m.archive(data), "bad directory at: 127"
        n = Maker()
        inner = n.leaf(3, data or b"\x80")
        outer = n.leaf(3, [inner])
        where = 127 + len(directory([outer])) + len(b"{}")
        yield f"a leaf directory with {name}", n.archive([outer]), f"bad directory at: {where}"

    # Metadata.
    for name, data in [
        ("no bytes", b""), ("a list", b"[{}]"), ("two objects", b"{}{}"), ("a byte that is no text", b'{"\xff":0}'),
        ("a comma too many", b'{"a":1,}'), ("no end", b'{"a":1'), ("a word of no value", b'{"a":NaN}'),
    ]:
        yield f"metadata with {name}", m.archive(root, metadata=data, entries=9), "bad metadata"
    yield "metadata in front of leaves", m.archive([m.leaf(0, b"\x80")], metadata=b"0"), "bad metadata"

    # Ids of leaf directories.
    m = Maker()
    below = m.leaf(4, [m.tile(3, 1, A), m.tile(4, 1, A)])
    yield "an id below its leaf", m.archive([below]), "order: 3"
    m = Maker()
    over = m.leaf(4, [m.tile(4, 1, A), m.tile(5, 5, A), m.tile(12, 1, B)])
    yield "a run into the next entry's ids", m.archive([over, m.tile(9, 1, A)]), "order: 9"
    yield "an id behind the next entry's", m.archive([over, m.tile(5, 1, A)]), "order: 5"
    inner = m.leaf(8, [m.tile(8, 1, A)])
    outer = m.leaf(4, [inner])
    yield "a leaf in a leaf of too many ids", m.archive([outer, m.tile(8, 1, A)]), "order: 8"
    one = m.leaf(4, [m.tile(4, 1, A), m.tile(8, 1, A)])
    two = m.leaf(4, [one])
    yield "a bound that comes from above", m.archive([two, m.tile(7, 1, A)]), "order: 8"
    empty = m.leaf(9, [m.leaf(9, [])])
    yield "a leaf with an id of the next entry", m.archive([m.leaf(8, [empty]), m.tile(9, 1, A)]), "order: 9"

    # Depth and places.
    m = Maker()
    leaf = m.leaf(0, [m.tile(0, 1, A)])
    for _ in range(3):
        leaf = m.leaf(0, [leaf])
    yield "leaves four deep", m.archive([leaf]), "leaf depth"
    itself = DirectoryEntry(0, 0, 5, 0)
    m = Maker()
    m.leaf(0, [itself])
    yield "a leaf that names itself", m.archive([itself]), "leaf depth"
    m = Maker()
    root = [m.tile(4, 1, A), m.tile(5, 2, B)]
    yield "a tile behind its section", m.archive(root + [DirectoryEntry(9, 1, 1, len(A + B))]), "place: 9"
    yield "a tile far away", m.archive([DirectoryEntry(2, 1, 2**32 - 1, 2**64 - 2)] + root), "place: 2"
    yield "a content cut", changed(m.archive(root), tiles=len(A + B) - 1), "place: 5"
    leaf = m.leaf(9, [m.tile(9, 1, A)])
    yield "a leaf behind its section", m.archive(root + [leaf._replace(length=leaf.length + 1)]), "place: 9"

    # The directories are gone through in order, each leaf where it is named.
    bad = m.leaf(20, b"\x80")
    outside = DirectoryEntry(30, 1, 1, 2**40)
    where = 127 + len(directory([bad, outside])) + len(b"{}") + bad.offset
    yield "a bad leaf in front of a bad place", m.archive([bad, outside]), f"bad directory at: {where}"
    yield "a bad place in front of a bad leaf", m.archive([outside._replace(id=10), bad]), "place: 10"
    stray = m.leaf(20, [DirectoryEntry(20, 1, 1, 2**40), DirectoryEntry(31, 1, 1, 0)])
    yield "an id out of order in front of a bad place", m.archive([stray, outside]), "order: 31"
    inner = m.leaf(20, [m.leaf(20, b"\x80"), DirectoryEntry(24, 1, 1, 2**40)])
    bad_inner = 127 + len(directory([inner, outside])) + len(b"{}") + len(m.leaves) - inner.length - 1
    yield "the first fault in a leaf", m.archive([inner, outside]), f"bad directory at: {bad_inner}"

    # Counts, and then tiles.
    for name, told in [("addressed", 5), ("entries", 4), ("contents", 2)]:
        yield f"another count: {name}", changed(good, **{name: told}), f"count: {name}"
    yield "three other counts", changed(good, addressed=1, entries=1, contents=1), "count: addressed"
    yield "two other counts", changed(good, addressed=0, entries=1, contents=1), "count: entries"
    m = Maker()
    late, early = m.tile(7, 2, BAD), m.tile(3, 2, BAD)
    yield "two bad tiles", m.archive([m.tile(1, 1, A), early, late]), "bad tile: 3"
    yield "a bad tile and a bad count", m.archive([early, late], entries=1), "count: entries"
    m = Maker()
    leaf = m.leaf(2, [m.tile(2, 1, A), m.tile(4, 4, B[:-1])])
    yield "a bad tile in a leaf", m.archive([m.tile(0, 1, C), leaf]), "bad tile: 4"
    m = Maker()
    yield "tiles in gzip that aren't told so", m.archive([m.tile(6, 1, gzip.compress(A, mtime=0))]), "bad tile: 6"


# ---- what `show` prints


def shown():
    m = Maker()
    text = '{"name":"Überall","vector_layers":[]}'
    archive = m.archive([m.tile(0, 1, A)], ["tiles", "metadata", "root", "leaves"], {"metadata": 7}, text.encode(),
                        addressed=2**64 - 1, entries=1, clustered=1, kind=255, compression=0, min_zoom=3, max_zoom=31)
    yield "metadata in the middle", archive, text
    yield "a bad root directory", changed(archive, root_at=0, root=1), text
    yield "gzip", changed(archive, internal=2), "compressed 2"
    yield "zstd", changed(archive, internal=4), "compressed 4"
    yield "unknown compression", changed(archive, internal=0), text
    yield "no metadata", changed(archive, metadata=0), ""
    # Behind the metadata stand the five bytes of the root directory.
    yield "metadata up to the end", archive[:-5], text
    yield "metadata without their last byte", archive[:-6], "unreadable"
    yield "metadata behind the file", changed(archive, metadata_at=len(archive)), "unreadable"
    yield "metadata whose end passes 64 bits", changed(archive, metadata_at=2**64 - 1), "unreadable"
    yield "metadata that are no text", archive.replace("Ü".encode(), b"\xff\xff"), "unreadable"
    yield "half a letter", changed(archive, metadata=len('{"name":"') + 1), "unreadable"


# ---- archives changed at random


def random_changes(count):
    """Archives of images with a few bytes of the header, the directories or the length changed."""
    chance = random.Random(3)
    m = Maker()
    third = m.leaf(20, [m.tile(20, 1, A), m.tile(21, 9, B)])
    second = m.leaf(10, [m.tile(10, 10, C), third, m.tile(30, 1, A)])
    first = m.leaf(10, [second, m.tile(31, 4, D)])
    root = [m.tile(3, 7, D), first, m.tile(35, 6, C), m.leaf(41, [m.tile(50, 1, B)])]
    flat = Maker()
    line = [flat.tile(k * k, 1 + k, (A, B, C, D)[k % 4]) for k in range(1, 12)]
    bases = [m.archive(root, addressed=39, entries=8, contents=8, kind=2),
             m.archive(root, SECTIONS[::-1], kind=2), flat.archive(line, entries=11, kind=2)]
    for _ in range(count):
        base = chance.choice(bases)
        said = dict(zip(FIELDS, HEADER.unpack(base[:127])))
        spans = [(8, 97)] + [(said[s + "_at"], said[s + "_at"] + said[s]) for s in ["root", "leaves"] if said[s]] * 3
        archive = bytearray(base)
        for _ in range(chance.choice([1, 1, 1, 2, 3])):
            at = chance.randrange(*chance.choice(spans))
            archive[at] = chance.choice([0, 1, archive[at] ^ 1, archive[at] ^ 128, (archive[at] + 1) % 256,
                                         (archive[at] - 1) % 256, chance.randrange(256)])
        yield bytes(archive[:len(archive) - chance.choice([0] * 9 + [1])])


# ---- the program

# So many that didn't agree are printed of each part.
MAX_PRINTED = 20


class Runs:
    def __init__(self, program, folder):
        self.program, self.file = program, Path(folder) / "archive.pmtiles"
        self.agreed = self.all = 0

    def run(self, name, words, status, out, err=""):
        done = subprocess.run([self.program, *words], capture_output=True, timeout=60)
        told = (done.returncode, done.stdout.decode("utf-8", "replace"), done.stderr.decode("utf-8", "replace"))
        self.all += 1
        if told == (status, out, err):
            self.agreed += 1
        elif self.all - self.agreed <= MAX_PRINTED:
            print(f"{name}: {words[0]} is to give {(status, out, err)} and gave {told}")

    def over(self, name, command, archive, status, out, err=""):
        self.file.write_bytes(archive)
        self.run(name, [command, str(self.file)], status, out, err)

    def verify(self, name, archive, line):
        self.over(name, "verify", archive, 0 if line.startswith("ok: ") else 1, line + "\n")

    def told(self, what):
        print(f"{what}: {self.agreed} of {self.all} agreed")
        whole = self.agreed == self.all
        self.agreed = self.all = 0
        return whole


def main():
    if len(sys.argv) != 2:
        sys.exit("usage: foreign_archives.py PROGRAM")
    archives = [*good_archives(), *bad_archives()]
    for name, archive, line in archives:
        if judged(archive) != line:
            sys.exit(f"{name}: written beside it is {line!r}, and read from it {judged(archive)!r}")
    with tempfile.TemporaryDirectory() as folder:
        runs = Runs(sys.argv[1], folder)
        for name, archive, line in archives:
            runs.verify(name, archive, line)
        whole = runs.told("archives of other makers, verify")

        for name, archive, metadata in shown():
            lines = header_lines(header_of(archive), metadata)
            runs.over(name, "show", archive, 0, "".join(line + "\n" for line in lines))
        plain = Maker().archive([])
        for name, archive in [("Short", plain[:126]), ("Magic", b"Q" + plain[1:]), ("Version", changed(plain, version=1))]:
            runs.over(name, "show", archive, 1, "", f"vtserve: {name}\n")
        for command in ["show", "verify"]:
            runs.run("no file", [command, str(Path(folder) / "none")], 1, "", "vtserve: File\n")
            runs.run("a folder", [command, folder], 1, "", "vtserve: File\n")
        whole &= runs.told("show, and files that aren't there")

        lines = []
        for k, archive in enumerate(random_changes(500)):
            lines.append(judged(archive))
            runs.verify(f"change {k}", archive, lines[-1])
        whole &= runs.told(f"changes at random ({len(set(lines))} different lines)")
    sys.exit(not whole)


if __name__ == "__main__":
    main()
