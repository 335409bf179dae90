"""Tiles as pictures: drawn once for each version of the tile, which the server tells by its tag (`--etags`). Needs no
package."""
from __future__ import annotations

import hashlib
import http.client
import json
import math
import os
import queue
import threading
import time
from collections import OrderedDict
from typing import Any, NamedTuple

from ..client.address import address
from ..faults import NoAnswer, Refused, Stopped
from ..files.vector_tile import EXTENT
from .painters import Painters, TooLarge
from .style import checked

# The greatest zoom of pictures, the pixels of a side of one, and the zooms by which the last tiles of a map are
# enlarged at the most.
LAST_ZOOM, SIDE, MOST_ENLARGED = 22, 256, 12
# The most bytes of a tile that is drawn, of pictures that are kept, the seconds for which layers and zooms of the map
# are, those that a reply of the server may take, and how many replies are waited for at a time.
MOST_TILE, MOST_KEPT, METADATA, LONGEST, AT_ONCE = 8 << 20, 128 << 20, 10, 60, 8
# The seconds for which what was too large isn't tried again: on a machine that did much else it may only have been
# late.
REST = 600
# What pictures of before are told apart by from those of another version of this program.
DRAWING = "1"


class Picture(NamedTuple):
    """A picture as a PNG file, and its entity tag."""

    data: bytes
    tag: str


class Wanted(NamedTuple):
    """Pictures that are drawn together: those of a square of 2 x 2 of them, whose tile has the zoom `zoom` and may be
    an enlarged part of one above."""

    zoom: int
    column: int
    row: int
    scale: int
    is_transparent: bool


class Kept(NamedTuple):
    """Pictures that are kept, with the look and the tag of the tile that they are of; or why there are none, and until
    when that counts."""

    look: str
    tag: str
    pictures: tuple[bytes, ...]
    fault: str | None = None
    until: float = math.inf


class Source:
    """The server that has the tiles. Raises `NoAnswer`, or `Stopped` if it answers as none does."""

    def __init__(self, url: str) -> None:
        self.url, self.person = address(url)
        self.free: queue.LifoQueue[http.client.HTTPConnection] = queue.LifoQueue()
        self.replies = threading.BoundedSemaphore(AT_ONCE)

    def ask(self, path: str, fields: dict[str, str]) -> tuple[int, str | None, bytes]:
        """The status, the tag and the content of a reply. Raises `TooLarge` if it is too long."""
        with self.replies:
            try:
                connection, is_kept = self.free.get_nowait(), True
            except queue.Empty:
                connection, is_kept = self.connection(), False
            try:
                return self.asked(connection, path, fields)
            except (OSError, http.client.HTTPException) as fault:
                connection.close()
                if not is_kept:
                    raise NoAnswer(f"no reply of {self.url.netloc}: {fault}") from fault
            # The server may have ended a connection that was kept.
            try:
                return self.asked(self.connection(), path, fields)
            except (OSError, http.client.HTTPException) as fault:
                raise NoAnswer(f"no reply of {self.url.netloc}: {fault}") from fault

    def connection(self) -> http.client.HTTPConnection:
        """A new connection."""
        kind = http.client.HTTPSConnection if self.url.scheme == "https" else http.client.HTTPConnection
        return kind(self.url.netloc, timeout=LONGEST)

    def asked(
        self, connection: http.client.HTTPConnection, path: str, fields: dict[str, str]
    ) -> tuple[int, str | None, bytes]:
        """The same, on a connection, which is kept then."""
        connection.request("GET", self.url.path.rstrip("/") + path, headers={**self.person, **fields})
        reply = connection.getresponse()
        if (reply.length or 0) > MOST_TILE:
            connection.close()
            raise TooLarge(f"the tile has {reply.length:,} bytes, and up to {MOST_TILE:,} are drawn")
        data = reply.read(MOST_TILE + 1)
        if reply.isclosed():
            self.free.put(connection)
        else:
            connection.close()
        return reply.status, reply.headers.get("etag"), data


class Metadata(NamedTuple):
    """What the map says of itself: the names of its layers, and the zoom of its last tiles."""

    layers: tuple[str, ...]
    last: int


class StyleFile:
    """A style.json, which is read anew when it changes. One that can't be read then changes nothing, and is reported
    once."""

    def __init__(self, path: str) -> None:
        self.path, self.lock = path, threading.Lock()
        self.seen = self.stamp()
        self.given = self.read()

    def stamp(self) -> tuple[int, int, int] | None:
        """What changes with the file."""
        try:
            about = os.stat(self.path)
        except OSError:
            return None
        return about.st_mtime_ns, about.st_size, about.st_ino

    def read(self) -> dict[str, Any]:
        """The style of now. Raises `Refused`."""
        try:
            with open(self.path, encoding="utf-8") as file:
                return checked(file.read())
        except (OSError, UnicodeDecodeError) as fault:
            raise Refused(f"{self.path}: {fault}") from fault
        except Refused as fault:
            raise Refused(f"{self.path}: {fault}") from fault

    def now(self) -> dict[str, Any]:
        """The style of now, or the last one that could be read."""
        with self.lock:
            stamp = self.stamp()
            if stamp != self.seen:
                self.seen = stamp
                try:
                    self.given = self.read()
                except Refused as fault:
                    print(f"{fault}: pictures are drawn as before", flush=True)
            return self.given


class Tiles:
    """The pictures of a map."""

    def __init__(self, url: str, style: StyleFile, painters: Painters) -> None:
        self.source, self.style, self.painters = Source(url), style, painters
        self.kept: OrderedDict[Wanted, Kept] = OrderedDict()
        self.bytes, self.lock = 0, threading.Lock()
        # Squares that are being drawn, each with what those wait for who want the same.
        self.under_way: dict[Wanted, threading.Event] = {}
        self.known: tuple[float, Metadata] | None = None

    def metadata(self) -> Metadata:
        """What the map says of itself, at most some seconds ago."""
        known, now = self.known, time.monotonic()
        if known is None or now > known[0] + METADATA:
            status, _, data = self.source.ask("/map/metadata", {})
            try:
                layers = json.loads(data)["vector_layers"]
                found = Metadata(
                    tuple(sorted(layer["id"] for layer in layers)),
                    max((int(layer["maxzoom"]) for layer in layers), default=0),
                )
            except (ValueError, LookupError, TypeError) as fault:
                raise Stopped(f"{self.source.url.netloc} has no map: {status}") from fault
            known = self.known = now, found
        return known[1]

    def picture(self, client: str, place: tuple[int, int, int], scale: int, is_transparent: bool) -> Picture:
        """The picture of a tile of 256 pixels: its zoom, column and row. Raises `Refused`."""
        zoom, column, row = place
        metadata, given = self.metadata(), self.style.now()
        look = hashlib.sha256(json.dumps([DRAWING, given, metadata], sort_keys=True).encode()).hexdigest()[:16]
        wanted = (
            Wanted(max(zoom - 1, 0), column // 2, row // 2, scale, is_transparent)
            if zoom
            else Wanted(-1, 0, 0, scale, is_transparent)
        )
        if wanted.zoom - metadata.last > MOST_ENLARGED:
            raise TooLarge(
                f"the last tiles of the map have zoom {metadata.last}, and aren't enlarged more than "
                f"{2 ** MOST_ENLARGED} times"
            )
        kept = self.current(client, wanted, look, metadata, given)
        if kept.fault:
            raise TooLarge(kept.fault)
        tag = hashlib.sha256(f"{look} {kept.tag} {place} {scale} {is_transparent}".encode()).hexdigest()[:24]
        return Picture(kept.pictures[row % 2 * 2 + column % 2 if zoom else 0], f'W/"{tag}"')

    def current(self, client: str, wanted: Wanted, look: str, metadata: Metadata, given: dict[str, Any]) -> Kept:
        """The pictures of a square as the map is now. Who wants the same while they are drawn waits for that."""
        while True:
            with self.lock:
                event = self.under_way.get(wanted)
                if event is None:
                    self.under_way[wanted] = threading.Event()
                    before = self.kept.get(wanted)
                    break
            event.wait()
        try:
            before = before if before and before.look == look and time.monotonic() < before.until else None
            found = self.made(client, wanted, before, look, metadata, given)
            if found is not before:
                self.keep(wanted, found)
            return found
        finally:
            with self.lock:
                self.under_way.pop(wanted).set()

    def keep(self, wanted: Wanted, found: Kept) -> None:
        """Keeps pictures, in place of those that nobody has asked for longest."""
        with self.lock:
            old = self.kept.pop(wanted, None)
            self.kept[wanted] = found
            self.bytes += size_of(found) - (size_of(old) if old else 0)
            while self.bytes > MOST_KEPT:
                self.bytes -= size_of(self.kept.popitem(last=False)[1])

    def made(
        self, client: str, wanted: Wanted, before: Kept | None, look: str, metadata: Metadata, given: dict[str, Any]
    ) -> Kept:
        """The pictures of a square: those of before if the tile is as it was then."""
        up = max(wanted.zoom - metadata.last, 0)
        zoom, column, row = max(wanted.zoom, 0) - up, wanted.column >> up, wanted.row >> up
        try:
            status, tag, content = self.source.ask(
                f"/map/{zoom}/{column}/{row}.mvt", {"If-None-Match": before.tag} if before and before.tag else {}
            )
        except TooLarge as fault:
            return Kept(look, "", (), str(fault), time.monotonic() + REST)
        tag = tag or hashlib.sha256(content).hexdigest()
        if before and (status == 304 or tag == before.tag):
            with self.lock:
                if wanted in self.kept:
                    self.kept.move_to_end(wanted)
            return before
        if status not in (200, 204):
            raise Stopped(f"tile {zoom}/{column}/{row}: {status}")
        side = EXTENT / 2**up
        parts = 1 if wanted.zoom < 0 else 2
        part = (wanted.column % 2**up * side, wanted.row % 2**up * side, side, SIDE * parts)
        words = {
            "style": given,
            "layers": metadata.layers,
            "zoom": wanted.zoom,
            "part": part,
            "pieces": parts,
            "scale": wanted.scale,
            "transparent": wanted.is_transparent,
        }
        try:
            return Kept(look, tag, tuple(self.painters.paint(client, words, content)))
        except TooLarge as fault:
            return Kept(look, tag, (), str(fault), time.monotonic() + REST)


def size_of(kept: Kept) -> int:
    """The bytes that pictures take, with those of their place."""
    return sum(map(len, kept.pictures)) + 500


def is_place(zoom: int, column: int, row: int) -> bool:
    """Whether there is such a tile."""
    return 0 <= zoom <= LAST_ZOOM and 0 <= column < 2**zoom and 0 <= row < 2**zoom
