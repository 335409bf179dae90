"""Replies of WFS about a map that isn't held: features are written to a file as they are read, and then sent. Needs no
package."""
from __future__ import annotations

import gzip
import shutil
import tempfile
from collections.abc import Callable, Iterable, Iterator
from typing import Any

from . import wfs_texts
from .sessions import MOST_FAR
from .wfs_texts import V2

# The bytes of a reply from which on it is in a file.
IN_MEMORY = 4 * 2**20
UNKNOWN = "unknown"


class Spool:
    """What is to be sent, as it is written."""

    def __init__(self) -> None:
        self.file: Any = tempfile.SpooledTemporaryFile(IN_MEMORY)

    def write(self, text: str) -> None:
        """Writes a text."""
        self.file.write(text.encode())

    def length(self) -> int:
        """The bytes that were written, from the first of which it is read then."""
        length = self.file.tell()
        self.file.seek(0)
        return length

    def close(self) -> None:
        """Removes it."""
        self.file.close()


class Spooled:
    """A reply: what comes first, elements in a file, one in a line, and what comes last."""

    def __init__(self, head: str, body: Spool, tail: str) -> None:
        self.head, self.body, self.tail = head, body, tail

    def packed(self, changed: Callable[[str], str], is_zipped: bool) -> tuple[Spool, int]:
        """The whole reply and its length: each line changed, and compressed if that is wanted."""
        made = Spool()
        try:
            with made_of(made, is_zipped) as to:
                to.write(self.head.encode())
                self.body.length()
                for line in self.body.file:
                    to.write(changed(line.decode()).encode())
                to.write(self.tail.encode())
        finally:
            self.body.close()
        return made, made.length()


class Plain:
    """What is written as it is."""

    def __init__(self, to: Spool) -> None:
        self.write = to.file.write

    def __enter__(self) -> Plain:
        return self

    def __exit__(self, *_: object) -> None:
        pass


def made_of(to: Spool, is_zipped: bool) -> Any:
    """Where a reply is written."""
    return gzip.GzipFile(fileobj=to.file, mode="wb", compresslevel=1) if is_zipped else Plain(to)


def zipped(file: Any) -> tuple[Spool, int]:
    """A file, compressed, and the length of that."""
    made = Spool()
    with made_of(made, True) as to:
        shutil.copyfileobj(file, to)
    file.close()
    return made, made.length()


class FarReply:
    """The reply to a GetFeature or a GetPropertyValue. `wfs`: the service. `chosen`: of each query the tables with
    their views, whether it names nothing but a box, and that."""

    def __init__(self, wfs: Any, version: Any, name: str, given: dict[str, Any], chosen: list[Any]) -> None:
        self.wfs, self.version, self.name, self.given, self.chosen = wfs, version, name, given, chosen
        self.live, self.matched, self.returned = wfs.live, 0, 0

    def made(self, is_value: bool, wanted: dict[str, Any]) -> Any:
        """The reply: a text, or one in a file."""
        from .wfs import is_counted, number_in  # pylint: disable=import-outside-toplevel

        if is_counted(self.given):
            self.matched = sum(self.count(views) for tables, _, _ in self.chosen for _, views in tables)
            return wfs_texts.features(self.version, [], [], self.matched) if not is_value else self.values(iter(()))
        first = number_in(self.given, ("startindex",), 0)
        found = self.found(first, number_in(self.given, ("count", "maxfeatures"), 10**17))
        return self.values(found) if is_value else self.features(found, wanted)

    @staticmethod
    def count(views: Any) -> int:
        """How many features there are."""
        known = len(views) if isinstance(views, list) else views.count
        return sum(1 for _ in views) if known is None else known

    def known(self) -> int | None:
        """How many features there are in all, None if that isn't known without reading them."""
        counts = [
            len(views) if isinstance(views, list) else views.count
            for tables, _, _ in self.chosen
            for _, views in tables
        ]
        return None if None in counts else sum(counts)

    def found(self, first: int, most: int) -> Iterator[tuple[Any, Any, str]]:
        """The features that are returned: the table, the view and the id of each."""
        session = self.wfs.sessions.get(self.name)
        for tables, is_plain, box in self.chosen:
            for table, views in tables:
                pinned = session.pinned(table, box, views, self.live.pack, MOST_FAR) if is_plain else views
                for view in pinned:
                    if self.matched >= first + most:
                        # Those that are left aren't read to be counted.
                        self.matched = -1
                        self.keep(session)
                        return
                    self.matched += 1
                    if self.matched > first:
                        self.returned += 1
                        yield table, view, self.give(session, table, view)
        self.keep(session)

    def give(self, session: Any, table: Any, view: Any) -> str:
        """Notes that a GIS gets a feature. Returns its id."""
        with self.live.lock:
            self.live.remember(view)
            session.give([(table, view)])
            return session.fid(table, view.number, view.version)

    def keep(self, session: Any) -> None:
        """Keeps the session."""
        with self.live.lock:
            self.wfs.sessions.most = MOST_FAR
            self.wfs.sessions.keep(self.name, session)

    def told(self) -> Any:
        """How many features there are with those that aren't returned, as WFS 2 says it."""
        known = self.known()
        return self.matched if self.matched >= 0 else UNKNOWN if known is None else known

    def features(self, found: Iterable[tuple[Any, Any, str]], wanted: dict[str, Any]) -> Spooled:
        """Features in a file."""
        body, rows = Spool(), dict[str, wfs_texts.Rows]()
        try:
            for table, view, fid in found:
                if table.name not in rows:
                    rows[table.name] = wfs_texts.Rows(self.version, table, wanted.get(table.name))
                body.write(rows[table.name].member(view, fid) + "\n")
        except BaseException:
            body.close()
            raise
        frame = wfs_texts.frame_of(self.version, self.told(), self.returned)
        return Spooled(frame.begun, body, frame.tail)

    def values(self, found: Iterable[tuple[Any, Any, str]]) -> Spooled:
        """Values of a property in a file."""
        from .wfs import value_in  # pylint: disable=import-outside-toplevel

        body, count, seen = Spool(), 0, set[str]()
        try:
            name = value_in(self.given.get("valuereference"), [])
            for table, view, fid in found:
                if table.name not in seen:
                    value_in(name, [table])
                    seen.add(table.name)
                for part in wfs_texts.parts_of(table, view, fid, name):
                    body.write(wfs_texts.element("wfs:member", part) + "\n")
                    count += 1
        except BaseException:
            body.close()
            raise
        frame = wfs_texts.frame_of_values(self.told() if self.version is V2 else self.matched, count)
        return Spooled(frame.begun, body, frame.tail)
