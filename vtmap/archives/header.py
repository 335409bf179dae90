"""The header of PMTiles 3. Needs no package."""
from __future__ import annotations

import struct
from typing import NamedTuple

MAGIC, VERSION, LENGTH = b"PMTiles", 3, 127
# The root directory is within the first bytes of an archive.
ROOT_END = 16384
UNCOMPRESSED, VECTOR_TILES = 1, 1
COMPRESSIONS = {0: "unknown", 1: "none", 2: "gzip", 3: "brotli", 4: "zstd"}
FORM = struct.Struct("<7sB11Q6B4iB2i")


class Header(NamedTuple):
    """The fields of a header, in their order. Positions are in 10^-7 degrees."""

    magic: bytes = MAGIC
    version: int = VERSION
    root_at: int = LENGTH
    root: int = 0
    metadata_at: int = 0
    metadata: int = 0
    leaves_at: int = 0
    leaves: int = 0
    tiles_at: int = 0
    tiles: int = 0
    addressed: int = 0
    entries: int = 0
    contents: int = 0
    clustered: int = 1
    internal: int = UNCOMPRESSED
    compression: int = UNCOMPRESSED
    kind: int = VECTOR_TILES
    least_zoom: int = 0
    greatest_zoom: int = 0
    west: int = -1800000000
    south: int = -850511287
    east: int = 1800000000
    north: int = 850511287
    centre_zoom: int = 0
    centre_longitude: int = 0
    centre_latitude: int = 0

    def packed(self) -> bytes:
        """Its bytes."""
        return FORM.pack(*self)

    @property
    def bounds(self) -> tuple[int, int, int, int]:
        """West, south, east and north."""
        return self.west, self.south, self.east, self.north


def header_of(data: bytes) -> Header:
    """The header that bytes begin with."""
    return Header(*FORM.unpack(data[:LENGTH]))


def fault_of(data: bytes, size: int) -> str | None:
    """Why the first bytes of a file of this size are no header of an archive that can be joined."""
    if len(data) < LENGTH:
        return f"it has {len(data)} bytes, fewer than a header"
    header = header_of(data)
    if header.magic != MAGIC:
        return "it is no PMTiles archive"
    if header.version != VERSION:
        return f"it is PMTiles version {header.version}: version {VERSION} is read"
    for name in ("root", "metadata", "leaves", "tiles"):
        if getattr(header, name + "_at") + getattr(header, name) > size:
            return f"it is truncated: its section `{name}` ends after the file, which has {size:,} bytes"
    if header.root_at + header.root > ROOT_END:
        return f"its root directory isn't within the first {ROOT_END:,} bytes"
    for what, number in (("directories", header.internal), ("tiles", header.compression)):
        if number != UNCOMPRESSED:
            said = COMPRESSIONS.get(number, number)
            return f"its {what} have the compression {said}: only uncompressed ones are read, as vtserve writes them"
    if header.kind != VECTOR_TILES:
        return f"its tiles have the type {header.kind}: only Mapbox vector tiles (type {VECTOR_TILES}) are joined"
    return None
