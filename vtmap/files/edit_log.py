"""The log of a map's edits: a file with a line for each (docs/FORMATS.md). Needs no package.

    {"time":"2026-11-29T12:00:00.000Z","begins":7}
    {"time":"2026-11-29T12:45:10.123Z","edit":7,"changes":[{"put":9,"feature":{..},"was":{..}},{"delete":8,"was":{..}}]}
    {"time":"2026-11-29T13:00:00.500Z","missed":[8,12]}
    {"time":"2026-11-29T14:00:00.000Z","since":"2026-11-29T13:20:00.000Z","edit":13,"changes":[..]}

A new log begins with the number of the next edit. A change is as the feed lists it, and `was` is what the map had of the feature before, `null` if nothing: as a checked edit has it. It is left
out where that isn't known. `time` is when the edit was seen. If the server hadn't been asked for more than a second before, `since` is when it was
asked last: the edit was made between the two. For `was` the features of the map are kept in a second file (SQLite, FILE.map), which is made anew from
the list of features where it is missing or too old. FILE.at has the number of the last edit, for a publication that waits for the log.
"""
from __future__ import annotations

import gzip
import itertools
import json
import os
import sqlite3
from collections.abc import Iterable, Iterator, Mapping
from contextlib import contextmanager
from datetime import datetime, timezone
from typing import TYPE_CHECKING, Any

from ..client.edits import encoded
from ..client.followers import NUMBER
from ..ending import replaced
from ..faults import Stopped
from ..forms import ListedChange, ListedEdit, LogRow, id_of

if TYPE_CHECKING:
    from ..client.feed import Leader

SCHEMA = """
    PRAGMA journal_mode = WAL;
    PRAGMA synchronous = NORMAL;
    PRAGMA locking_mode = EXCLUSIVE;
    CREATE TABLE IF NOT EXISTS known (name TEXT PRIMARY KEY, number INTEGER NOT NULL);
    CREATE TABLE IF NOT EXISTS feature (id INTEGER PRIMARY KEY, json BLOB NOT NULL);
"""
PIECE = 1 << 16
# So many seconds after the server was asked an edit is seen that has just been made. How often it is kept when the server was asked.
SOON, KEPT = 1, 10


class KeptMap:
    """The features of the map after edit `at`, None if nothing is kept. What edits up to `sure` replace isn't known: the list of the features was
    read while they were made."""

    def __init__(self, path: str) -> None:
        self.path = path
        self.at: int | None = None
        self.sure = 0
        with self.told():
            self.file = sqlite3.connect(path, timeout=1, isolation_level=None)
            self.file.executescript(SCHEMA)
            known = dict(self.file.execute("SELECT name, number FROM known"))
        self.at, self.sure, looked = known.get("at"), known.get("sure", 0), known.get("looked")
        # When it was known last that the server had no later edit.
        self.looked = datetime.fromtimestamp(looked / 1000, timezone.utc) if looked else None

    @contextmanager
    def told(self) -> Iterator[None]:
        """Stops at a fault of the file, with its path."""
        try:
            yield
        except sqlite3.Error as fault:
            other = ": another `vtmap follow` writes this log" if "locked" in str(fault) else ""
            raise Stopped(f"{self.path}: {fault}{other}") from fault

    @contextmanager
    def changed(self) -> Iterator[sqlite3.Connection]:
        """Changes the features, and of which edit they are: all of it, or nothing."""
        before = self.at, self.sure
        with self.told():
            self.file.execute("BEGIN")
            try:
                yield self.file
                looked = [("looked", int(self.looked.timestamp() * 1000))] if self.looked else []
                self.file.executemany("INSERT OR REPLACE INTO known VALUES (?, ?)", [("at", self.at), ("sure", self.sure), *looked])
                self.file.execute("COMMIT")
            except BaseException:
                self.at, self.sure = before
                if self.file.in_transaction:
                    self.file.execute("ROLLBACK")
                raise

    def list(self, source: Leader, at: int | None = None) -> None:
        """Keeps the features that a server lists, as of an edit that it still lists the ones after, or of now."""
        before = source.known()["edits"]
        if at is not None and at > before:
            raise Stopped(f"{source.address} has edits up to {before:,}, and the log up to {at:,}: it is another map, or was put back from a copy")
        with self.changed() as file:
            file.execute("DELETE FROM feature")
            file.executemany("INSERT INTO feature VALUES (?, ?)", ((number, encoded(feature)) for number, feature in source.features()))
            self.at, self.sure = before if at is None else at, source.known()["edits"]

    def with_was(self, number: int, change: ListedChange) -> ListedChange:
        """A change of an edit with what it replaces; makes it."""
        name = id_of(change)
        found = self.file.execute("SELECT json FROM feature WHERE id = ?", [name]).fetchone()
        if "put" in change:
            self.file.execute("INSERT OR REPLACE INTO feature VALUES (?, ?)", [name, encoded(change["feature"])])
        else:
            self.file.execute("DELETE FROM feature WHERE id = ?", [name])
        if number <= self.sure:
            return change
        made = change.copy()
        made["was"] = json.loads(found[0]) if found else None
        return made

    def last(self) -> int:
        """The edit after which it is."""
        if self.at is None:
            raise Stopped(f"{self.path} isn't the map of an edit yet")
        return self.at


class EditLog:
    """A log that is written. `at` is the number of the last edit that its map has, and `logged` that of its last line. `looked`: when the server was
    asked last for edits, as far as is known."""

    def __init__(self, path: str) -> None:
        self.path = self.address = path
        self.at: int | None = None
        self.logged: int | None = None
        self.map: KeptMap | None = None
        self.looked: datetime | None = None
        # When it was kept last that the server had no later edit.
        self.kept: datetime | None = None

    def begin(self, source: Leader) -> None:
        """Finds out where the log and its map are. A new log begins with the next edit."""
        asked = datetime.now(timezone.utc)
        if self.map is None:
            self.map = KeptMap(self.path + ".map")
            last = self.last_row()
            self.logged = last_of(last) if last else None
            self.looked = max(filter(None, [self.map.looked, time_of(last) if last else None]), default=asked)
        if self.map.at is None:
            self.map.list(source, self.logged)
        if self.logged is None:
            self.write([{"begins": self.map.last() + 1}])
            self.logged = self.map.at
        self.keep_number()

    def reached(self) -> int:
        """`at`, which `begin` finds out."""
        if self.at is None:
            raise Stopped(f"{self.path} isn't begun")
        return self.at

    def begun(self) -> tuple[KeptMap, int]:
        """The map and the number of the last line, which `begin` finds out."""
        if self.map is None or self.logged is None:
            raise Stopped(f"{self.path} isn't begun")
        return self.map, self.logged

    def last_row(self) -> LogRow | None:
        """The last line, None if there is none. What a crash left of a line behind it is cut off."""
        if not os.path.exists(self.path):
            return None
        with open(self.path, "r+b") as file:
            end = file.seek(0, os.SEEK_END)
            size = PIECE
            while True:
                begin = max(0, end - size)
                file.seek(begin)
                text = file.read(end - begin)
                cut = text.rfind(b"\n") + 1
                if begin == 0 or text.rfind(b"\n", 0, max(cut - 1, 0)) >= 0:
                    break
                size *= 4
            file.truncate(begin + cut)
        line = text[:cut].rstrip(b"\n").rpartition(b"\n")[2]
        return json.loads(line) if line else None

    def look(self, time: datetime) -> None:
        """Notes that the server had no later edit at a time."""
        self.looked = time
        if self.kept is None or (time - self.kept).total_seconds() >= KEPT:
            kept_map, _ = self.begun()
            self.kept = kept_map.looked = time
            with kept_map.changed():
                pass

    def take(self, edits: list[ListedEdit]) -> None:
        """Appends edits, the first of which is the one after the last."""
        kept_map, logged = self.begun()
        since: LogRow = {}
        if self.looked is not None and (datetime.now(timezone.utc) - self.looked).total_seconds() > SOON:
            since["since"] = text_of(self.looked)
        with kept_map.changed():
            rows = []
            for edit in edits:
                row = since.copy()
                row["edit"] = edit["edit"]
                row["changes"] = [kept_map.with_was(edit["edit"], change) for change in edit["changes"]]
                rows.append(row)
            self.write([row for row in rows if row["edit"] > logged])
            kept_map.at = edits[-1]["edit"]
        self.logged = max(logged, kept_map.at)
        self.keep_number()

    def miss(self, source: Leader, published: int) -> None:
        """Says which edits have left the list before they were read, and keeps the map of now."""
        kept_map, logged = self.begun()
        if logged < published:
            self.write([{"missed": [logged + 1, published]}])
            print(f"{self.path}: the edits {logged + 1:,} to {published:,} were published before they were read, and "
                  "are missing (`vtmap publish --pause` waits for who follows)", flush=True)
            self.logged = published
        kept_map.list(source, published)
        self.keep_number()

    def keep_number(self) -> None:
        """Keeps the number of the last edit that the log and its map have, once they have it: the server may forget it from then on."""
        kept_map, _ = self.begun()
        self.at = kept_map.at
        replaced(self.path + NUMBER, f"{self.at}\n")

    def write(self, rows: list[LogRow]) -> None:
        """Appends lines, and has them outlive a crash. The file may have been renamed since, as logrotate does: then another one begins."""
        if not rows:
            return
        now = text_of(datetime.now(timezone.utc))
        with open(self.path, "ab") as file:
            file.write(b"".join(json.dumps({"time": now, **row}, ensure_ascii=False, separators=(",", ":")).encode() + b"\n" for row in rows))
            file.flush()
            os.fsync(file.fileno())


def text_of(time: datetime) -> str:
    """A time as a line has it."""
    return time.isoformat(timespec="milliseconds").replace("+00:00", "Z")


def read_time(text: str) -> datetime:
    """A time as a line, or a person, writes it. Python before 3.11 reads no `Z`."""
    return datetime.fromisoformat(text.replace("Z", "+00:00"))


def time_of(row: Mapping[str, Any], name: str = "time") -> datetime:
    """When the edit of a line was seen."""
    return read_time(row[name])


def last_of(row: LogRow) -> int:
    """The last edit that a line speaks of."""
    return row["edit"] if "edit" in row else row["missed"][1] if "missed" in row else row["begins"] - 1


def rotated(path: str) -> Iterator[str]:
    """The files of a log that there are, as logrotate leaves them, the newest first. While nothing was written since, there is none of that name."""
    if os.path.exists(path):
        yield path
    for number in itertools.count(1):
        names = [name for name in (f"{path}.{number}", f"{path}.{number}.gz") if os.path.exists(name)]
        if not names:
            return
        yield names[0]


def lines_in(paths: Iterable[str]) -> Iterator[bytes]:
    """The lines of several logs."""
    for path in paths:
        yield from lines_of(path)


def lines_of(path: str) -> Iterator[bytes]:
    """The lines of a log, which may be compressed by gzip; a last one that isn't whole is left out."""
    with gzip.open(path, "rb") if path.endswith(".gz") else open(path, "rb") as file:
        for line in file:
            if line.endswith(b"\n"):
                yield line
