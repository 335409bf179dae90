"""An archive of uncompressed vector tiles, read entry by entry: one directory of each level is in memory."""
from __future__ import annotations

import json
import os
from typing import Iterator

from ..faults import Fault
from ..systems import open_to_read, read_at
from .directory import BadDirectory, Entry, entries_in, tile_of
from .header import LENGTH, fault_of, header_of

# The levels of leaf directories below the root that are read.
LEVELS = 3


class BadArchive(Fault):
    """Why a file is no archive that can be joined."""


class Archive:
    """An open archive. `name` is what messages call it."""

    def __init__(self, path: str, name: str | None = None) -> None:
        self.name = name or path
        if os.path.exists(path) and not os.path.isfile(path):
            raise self.fault("it is no regular file")
        self.file = open_to_read(path)
        try:
            data, size = read_at(self.file, LENGTH, 0), os.fstat(self.file).st_size
            fault = fault_of(data, size)
            if fault:
                raise self.fault(fault)
            self.header = header_of(data)
            self.layers = self.layers_of(self.at(self.header.metadata_at, self.header.metadata))
        except BaseException:
            self.close()
            raise

    def __enter__(self) -> Archive:
        return self

    def __exit__(self, *_: object) -> None:
        self.close()

    def close(self) -> None:
        """Closes the file."""
        os.close(self.file)

    def fault(self, text: str) -> BadArchive:
        """A fault that names the archive."""
        return BadArchive(f"{self.name}: {text}")

    def at(self, place: int, length: int) -> bytes:
        """The bytes at a place of the file."""
        data = b""
        while len(data) < length:
            part = read_at(self.file, length - len(data), place + len(data))
            if not part:
                raise self.fault("it was truncated while it was read")
            data += part
        return data

    def layers_of(self, metadata: bytes) -> list[dict]:
        """The `vector_layers` of metadata."""
        try:
            found = json.loads(metadata)["vector_layers"]
            named = [(layer["id"], layer["fields"].items()) for layer in found]
        except (ValueError, LookupError, TypeError, AttributeError):
            named = [(None, None)]
        if not all(isinstance(name, str) for name, _ in named):
            raise self.fault("its metadata have no list of layers (`vector_layers`, each with `id` and `fields`)")
        return found

    def directory(self, place: int, length: int) -> list[Entry]:
        """The entries of a directory."""
        try:
            return entries_in(self.at(place, length))
        except BadDirectory as fault:
            raise self.fault(f"the directory at byte {place:,} can't be read: {fault}") from None

    def entries(self) -> Iterator[Entry]:
        """The entries of tiles, by ascending ids."""
        end = 0
        for entry in self.below(self.directory(self.header.root_at, self.header.root), 0):
            if entry.id < end:
                raise self.fault(f"tile {tile_of(entry.id)} is in two directories")
            if entry.offset + entry.length > self.header.tiles:
                raise self.fault(f"the content of tile {tile_of(entry.id)} isn't in the section of tiles")
            end = entry.end
            yield entry

    def below(self, entries: list[Entry], level: int) -> Iterator[Entry]:
        """The entries of tiles of a directory and of the leaf directories below it."""
        for entry in entries:
            if entry.run:
                yield entry
                continue
            if level == LEVELS or entry.offset + entry.length > self.header.leaves:
                raise self.fault(f"the leaf directory from tile {tile_of(entry.id)} on can't be read")
            yield from self.below(self.directory(self.header.leaves_at + entry.offset, entry.length), level + 1)

    def content(self, entry: Entry) -> bytes:
        """The content of the tiles of an entry."""
        return self.at(self.header.tiles_at + entry.offset, entry.length)
