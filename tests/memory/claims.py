"""Counts that are only claimed: inputs whose counts ask for much more memory than there are bytes after them, with large allocations refused.

A count mustn't be the size of an allocation before its bytes are known to be there. So each fault here is reported as with memory for everything.
"""
import os
import subprocess
import sys
from pathlib import Path

sys.path.append(str(Path(__file__).resolve().parents[2] / "model"))
import disk
from archives import DirectoryEntry, Maker, changed, directory, judged
from wire import part, varint

MOST = 262144
# The one block of a service that is larger: the numbers of the cells of its map, 8 bytes each, 3 levels of 32 by 32 and one of 256 by 256.
GRID = 8 * (3 * 32**2 + 256**2)
MAX_ENTRIES = b"\xff\xff\xff\xff\x0f"
FAR = 2**63 - 1
# A point's geometry that claims 2^29 - 1 moves, a layer, a key and a list of tags that claim 2^63 - 1 bytes.
TILES = {
    "geometry": bytes.fromhex("1a150a0170120b080718012205f9ffffff0f2880207802"),
    "layer": b"\x1a" + varint(FAR),
    "key": part(3, part(1, b"p") + b"\x1a" + varint(FAR)),
    "tags": part(3, part(1, b"p") + part(2, b"\x12" + varint(FAR))),
}


def archives():
    maker = Maker()
    yield "a root directory", maker.archive(MAX_ENTRIES)
    maker = Maker()
    leaf = maker.leaf(0, MAX_ENTRIES)
    yield "a leaf directory", maker.archive([leaf], addressed=0, entries=0, contents=0)
    for what, tile in TILES.items():
        maker = Maker()
        yield f"a tile's {what}", maker.archive([maker.tile(0, 1, tile)], addressed=1, entries=1, contents=1)
    maker = Maker()
    entry = maker.tile(0, 1, part(3, part(1, b"p")))
    sound = maker.archive([entry], addressed=1, entries=1, contents=1)
    for section in ("root", "metadata", "leaves", "tiles"):
        yield f"the section {section}", changed(sound, **{section: FAR})
    yield "a content", maker.archive(directory([DirectoryEntry(0, 1, 2**32 - 1, 0)]), addressed=1, entries=1, contents=1)


def texts():
    """Texts of records whose counts have no bytes after them, each with its version: of points, lines and polygons, and of changes."""
    for kind, name in disk.KINDS.items():
        claim = b"\x01" + disk.spelled(7, 8) + b"\x01p\x00\x02" + bytes([kind]) + b"\xff\xff"
        yield name, 1, claim
        yield f"{name} of the last of 64 changes", 2, b"\x40" + b"".join(b"\x02" + disk.spelled(number, 8) for number in range(8, 71)) + claim
    yield "changes", 2, b"\x40"
    yield "changes behind the first", 2, b"\x40\x02" + disk.spelled(7, 8)


def disks():
    """A disk with a record in its journal, or a snapshot, whose text claims what it has no bytes for; and one that claims more sectors than it has."""
    for name, version, text in texts():
        held = bytearray(disk.write_disk(64, 0, {}, [], b"", 0))
        disk.put_records(held, disk.Layout(64), 0, 1, [(version, text)])
        yield f"{name} in the journal", bytes(held)
        if version == 1:
            held = bytearray(disk.write_disk(64, 1, {}, [], b"", 0))
            disk.put_at(held, 2, disk.root_sector(disk.Root(1, 0, 0, len(text), 0)))
            disk.put_at(held, disk.Layout(64).area_at(1), text)
            yield f"{name} in the snapshot", bytes(held)
    held = bytearray(disk.write_disk(64, 0, {}, [], b"", 0))
    disk.put_at(held, 0, disk.format_sector(disk.MOST))
    yield "sectors", bytes(held)
    held = bytearray(disk.write_disk(64, 0, {}, [], b"", 0))
    disk.put_records(held, disk.Layout(64), 0, 1, [(2, b"\x01\x02" + disk.spelled(7, 8))])
    disk.put_at(held, disk.Layout(64).place(0), disk.front(0, 1, disk.LONGEST_OF[2], 2))
    yield "bytes of a record", bytes(held)


def cases():
    """The name, the command, its file and what it must print."""
    for name, archive in archives():
        yield name, "verify", archive, (1, judged(archive).encode() + b"\n", b"")
    for name, held in disks():
        yield name, "pipe", held, (1, b"", b"vtserve: Damaged\n")


def tried(program, shim, folder):
    """Runs each case, and returns the number of cases and of bad outcomes."""
    path, bad, count = os.path.join(folder, "claims"), 0, 0
    for name, command, held, expected in cases():
        with open(path, "wb") as file:
            file.write(held)
        for more in ({}, {"LD_PRELOAD": shim, "FAIL_OVER": str(MOST), "FAIL_BUT": str(GRID)}):
            done = subprocess.run([program, command, path], input=b"", capture_output=True, timeout=60, env=more)
            outcome = done.returncode, done.stdout, done.stderr
            count += 1
            if outcome != expected:
                bad += 1
                print(f"claims, {name}: BAD: {outcome}, not {expected}")
    print(f"claims: {count} runs, {bad} bad")
    return count, bad
