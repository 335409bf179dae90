"""Cases of `commands.py` about `verify` and `show`: lengths around whole sectors, reads that fail, and files larger than the memory."""
import os
import resource
import shutil

from command_cases import failing, refusal, vtserve, write

# The model of archives; command_cases has put its folder on the path.
from archives import SECTIONS, DirectoryEntry, Maker, changed, header_of, judged, shown, vector_tile

SECTOR = 512
# More than the 64 sectors that one call of a file reads.
CONTENTS = 300
MEGABYTE = 2**20
GIGABYTE = 2**30


def archive_of(contents):
    """An archive of these contents, one for each of the first ids: a leaf directory for each hundred of them."""
    maker, tiles = Maker(), []
    for number, content in enumerate(contents):
        tiles.append(DirectoryEntry(number, 1, len(content), tiles[-1].offset + tiles[-1].length if tiles else 0))
    maker.tiles = b"".join(contents)
    return maker.archive([maker.leaf(first, tiles[first : first + 100]) for first in range(0, len(tiles), 100)])


def padded(archive, rest):
    """The archive with zeros after it, until its last sector has so many bytes."""
    return archive + bytes((rest - len(archive)) % SECTOR)


def lengths(cases, folder):
    """Archives of some hundred sectors: the last sector is whole, or has one byte, or lacks one, or the last content lacks one."""
    path = os.path.join(folder, "lengths.pmtiles")
    archive = archive_of([vector_tile("x" * number) for number in range(1, CONTENTS)])
    for rest in [0, 1, SECTOR - 1]:
        held = padded(archive, rest)
        write(path, held)
        cases.show(f"verify of {len(held)} bytes", vtserve(["verify", path]), (0, judged(archive).encode() + b"\n", b""))
    for held in [archive[:-1], archive[: 100 * SECTOR], archive[:126], archive[:127], b""]:
        write(path, held)
        cases.show(f"verify of its first {len(held)} bytes", vtserve(["verify", path]), (1, judged(held).encode() + b"\n", b""))
    bad = archive_of([vector_tile("x" * number) for number in range(1, CONTENTS)] + [vector_tile("bad", version=3)])
    write(path, bad)
    cases.show("verify where the last tile is bad", vtserve(["verify", path]), (1, judged(bad).encode() + b"\n", b""))


def reads_that_fail(cases, folder):
    """A read of the file that fails is the file's fault, wherever it comes."""
    if not shutil.which("strace"):
        print("        no strace: no read of an archive is made to fail")
        return
    path = os.path.join(folder, "failing.pmtiles")
    write(path, archive_of([vector_tile("x" * number) for number in range(1, CONTENTS)]))
    for number in ["1+", "2+", "4+"]:
        cases.show(f"verify where reads fail from number {number[:-1]} on", failing("pread64", path, number, ["verify", path]), refusal(b"File"))
    told = refusal(b"File: " + path.encode() + b": Input/output error (os error 5)")
    cases.show("verify -v where each read fails", failing("pread64", path, "1+", ["verify", path, "-v"]), told)


def lines_of(archive):
    """What `show` prints of bytes that begin with a header, and its status."""
    return 0, "\n".join(shown(archive)).encode() + b"\n", b""


def large_files(cases, folder):
    """The memory that `verify` takes goes by directories and metadata and by the largest tile, and that of `show` by where the metadata end, not by
    the file."""
    path = os.path.join(folder, "large.pmtiles")
    write(path, archive_of([vector_tile(f"{number:04x}" * 2000) for number in range(2000)]))

    def limit():
        resource.setrlimit(resource.RLIMIT_DATA, (4 * MEGABYTE, 4 * MEGABYTE))

    told = (0, b"ok: 2000 tiles, 2000 entries, 2000 contents\n", b"")
    cases.show(f"verify of {os.path.getsize(path) // MEGABYTE} MB by a process that may have 4 MB", vtserve(["verify", path], preexec_fn=limit), told)
    archive = archive_of([vector_tile("x")])
    write(path, archive)
    os.truncate(path, 4 * GIGABYTE)
    cases.show("show of 4 GB by a process that may have 4 MB", vtserve(["show", path], preexec_fn=limit), lines_of(archive))
    for name, fields in [("metadata are compressed", {"internal": 2, "metadata": 3 * GIGABYTE}), ("metadata end after it", {"metadata": 4 * GIGABYTE})]:
        bad = changed(archive, **fields)
        write(path, bad)
        os.truncate(path, 4 * GIGABYTE)
        cases.show(f"show of 4 GB whose {name}", vtserve(["show", path], preexec_fn=limit), lines_of(bad))
    os.remove(path)


def shows(cases, folder):
    """`show` prints of the first bytes of a file what it would print of all."""
    path = os.path.join(folder, "shown.pmtiles")
    maker = Maker()
    root = [maker.tile(0, 1, vector_tile("x"))]
    for order in [SECTIONS, ["metadata", "tiles", "leaves", "root"], ["root", "leaves", "tiles", "metadata"]]:
        whole = maker.archive(root, order=order, metadata=b'{"a":"b"}', gaps={"metadata": 100})
        end = 127 + whole[127:].index(b'{"a":"b"}') + 9
        rows = [whole, whole[:end], whole[: end - 1], whole[:128], whole[:127], changed(whole, internal=0), changed(whole, internal=3)]
        size = len(whole)
        places = [(0, 7), (100, 27), (0, 0), (end, 0), (size, 0), (size + 1, 0), (0, size + 1), (2**64 - 1, 1), (2**64 - 1, 2**64 - 1), (126, 2)]
        rows += [changed(whole, metadata_at=at, metadata=length) for at, length in places]
        for held in rows:
            write(path, held)
            said = header_of(held)
            name = f"{len(held)} bytes with {said['metadata']} of metadata at {said['metadata_at']}, compression {said['internal']}"
            cases.show(f"show of {name}", vtserve(["show", path]), lines_of(held))
    faulty = [(b"x" + whole[1:], b"Magic"), (whole[:7] + b"\x02" + whole[8:], b"Version")]
    for held, fault in [(whole[:126], b"Short"), (b"", b"Short"), (b"x", b"Short"), *faulty]:
        write(path, held)
        cases.show(f"show of {len(held)} bytes that begin with {held[:8]!r}", vtserve(["show", path]), refusal(fault))
