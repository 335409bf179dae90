"""An archive as docs/FORMATS.md has it, which is written tile by tile. Needs no package.

In memory are the entries (28 bytes each), and a digest of each content (some 200 bytes). The contents are in a file
without a name until the directories before them are known.
"""
import hashlib
import os
import shutil
import tempfile
from array import array
from typing import IO, Iterator

from ..faults import Refused
from ..systems import close_to_move, lock, put_in_place
from .directory import NUMBER_END, Entry, directory_of, zoom_and_place
from .header import LENGTH, ROOT_END, Header

# The most entries of the root directory, and those of a leaf. If the root would be too long, leaves have twice as many,
# or four times, ..
ROOT_ENTRIES = LEAF_ENTRIES = 512
CHUNK = 1 << 22
# The file that is renamed once all of the archive is in it.
ENDING = ".part"


class Writer:
    """The contents and the entries of an archive, by ascending tile ids."""

    def __init__(self, folder: str) -> None:
        self.contents: IO[bytes] = tempfile.TemporaryFile(dir=folder)
        self.size = self.addressed = 0
        # The columns of the entries, and where each content is, by its digest.
        self.ids, self.runs, self.lengths, self.offsets = array("Q"), array("Q"), array("I"), array("Q")
        self.places: dict[bytes, int] = {}

    def close(self) -> None:
        """Lets the contents go."""
        self.contents.close()

    def put(self, number: int, run: int, content: bytes) -> None:
        """Adds tiles of consecutive ids with one content. Equal contents are stored once."""
        offset = self.places.setdefault(hashlib.blake2b(content, digest_size=16).digest(), self.size)
        if offset == self.size:
            self.contents.write(content)
            self.size += len(content)
        self.addressed += run
        follows = self.ids and self.offsets[-1] == offset and self.ids[-1] + self.runs[-1] == number
        if follows and self.runs[-1] + run < NUMBER_END:
            self.runs[-1] += run
            return
        self.ids.append(number)
        self.runs.append(run)
        self.lengths.append(len(content))
        self.offsets.append(offset)

    def entries(self, first: int, end: int) -> Iterator[Entry]:
        """The entries from one to before another one."""
        return map(Entry, self.ids[first:end], self.runs[first:end], self.lengths[first:end], self.offsets[first:end])

    def directories(self) -> tuple[bytes, bytes]:
        """The root directory and the leaf directories."""
        count, most = len(self.ids), LEAF_ENTRIES
        if count <= ROOT_ENTRIES:
            return directory_of(self.entries(0, count)), b""
        while True:
            leaves = [(self.ids[at], directory_of(self.entries(at, at + most))) for at in range(0, count, most)]
            root, offset = [], 0
            for number, leaf in leaves:
                root.append(Entry(number, 0, len(leaf), offset))
                offset += len(leaf)
            data = directory_of(root)
            if LENGTH + len(data) <= ROOT_END:
                return data, b"".join(leaf for _, leaf in leaves)
            most *= 2

    def header(self, root: bytes, metadata: bytes, leaves: bytes, bounds: tuple[int, int, int, int]) -> Header:
        """The header of an archive with these sections."""
        at = [LENGTH + len(root), LENGTH + len(root) + len(metadata), LENGTH + len(root) + len(metadata) + len(leaves)]
        ends = [self.ids[0], self.ids[-1] + self.runs[-1] - 1] if self.ids else [0, 0]
        zooms = [zoom_and_place(number)[0] for number in ends]
        west, south, east, north = bounds
        return Header(
            root=len(root),
            metadata_at=at[0],
            metadata=len(metadata),
            leaves_at=at[1],
            leaves=len(leaves),
            tiles_at=at[2],
            tiles=self.size,
            addressed=self.addressed,
            entries=len(self.ids),
            contents=len(self.places),
            least_zoom=zooms[0],
            greatest_zoom=zooms[1],
            west=west,
            south=south,
            east=east,
            north=north,
            centre_zoom=zooms[0],
            centre_longitude=(west + east) // 2,
            centre_latitude=(south + north) // 2,
        )

    def finish(self, path: str, metadata: bytes, bounds: tuple[int, int, int, int]) -> Header:
        """Writes the archive into a file, which has what it had until all of it is on the disk. Returns the header."""
        root, leaves = self.directories()
        header = self.header(root, metadata, leaves, bounds)
        with open(path + ENDING, "ab") as file:
            if not lock(file):
                raise Refused(f"{path}: another process writes it")
            try:
                # What a process that was killed has left.
                file.truncate(0)
                file.write(header.packed() + root + metadata + leaves)
                self.contents.seek(0)
                shutil.copyfileobj(self.contents, file, CHUNK)
                file.flush()
                os.fsync(file.fileno())
                close_to_move(file)
                put_in_place(file.name, path)
            except BaseException:
                close_to_move(file)
                os.unlink(file.name)
                raise
        return header
