"""The file of `vtmap wfs --state`: what was to be saved before it is sent, and what a GIS has since it was. Needs no package.

Each line is JSON. `{"begun": ID, "session": NAME, "groups": ..}` is on the disk before the first edit of a save is sent; then come `{"sent": ID}` for
each edit that was made, and `{"saved": ID, ..}` or `{"undone": ID}`. A save that is only begun was cut short. `{"emptied": [LAYER, KIND], ..}` has what
a table had that lost its last feature.
"""
from __future__ import annotations

import json
import os
import time
from collections import Counter
from collections.abc import Mapping
from typing import IO, TYPE_CHECKING, Any, List

from ..client.edits import Change
from ..ending import regular, replaced
from ..faults import Refused
from ..systems import lock


if TYPE_CHECKING:
    from ..gateway.tables import Past

# The changes of a save, in groups each of which is one edit.
Groups = List[List[Change]]


class Unwritable(Refused):
    """Why the log can't be written."""


class SaveLog:
    """The log at a path; None: nothing outlives the process. What can't be written isn't noted."""

    def __init__(self, path: str | None) -> None:
        self.path, self.next = path, 1
        self.file: Any = None
        # What comes before the next line: a line feed, if a part of a line may have been written.
        self.before = ""
        # The saves that were cut short: their groups of changes, and how many of them were made, by their ids. The lines of those that were done.
        self.begun: dict[int, Groups] = {}
        self.sent = Counter[int]()
        self.done: list[dict[str, Any]] = []
        # By layer and kind: what tables had that lost their last feature. The lines of it.
        self.emptied: dict[tuple[str, str], tuple[dict[str, str], tuple[int, ...], bool]] = {}
        self.emptied_rows: dict[tuple[str, str], dict[str, Any]] = {}
        if path:
            self.lock = locked(path + ".lock")
            self.read()

    def read(self) -> None:
        """Reads the log. A crash may have left a part of a line at its end."""
        if self.path and os.path.exists(regular(self.path)):
            with open(self.path, encoding="utf-8", errors="replace") as file:
                for line in file:
                    try:
                        self.take(json.loads(line))
                    except ValueError:
                        continue

    def take(self, row: dict[str, Any]) -> None:
        """Takes a line."""
        if "begun" in row:
            self.begun[row["begun"]] = groups_of(row["groups"])
            self.next = max(self.next, row["begun"] + 1)
        elif "sent" in row:
            self.sent[row["sent"]] += 1
        elif "emptied" in row:
            self.take_emptied(row)
        else:
            self.begun.pop(row.get("saved", row.get("undone")), None)
            if "saved" in row:
                self.done.append(row)

    def take_emptied(self, row: dict[str, Any]) -> None:
        """Takes a line about a table that lost its last feature."""
        layer, kind = row["emptied"]
        self.emptied.pop((layer, kind), None)
        self.emptied[layer, kind] = row["forms"], tuple(row["zooms"]), row["is_several"]
        self.emptied_rows[layer, kind] = row

    def shorten(self, oldest: float) -> None:
        """Writes the log anew, without what was saved, or emptied, before a time."""
        if self.path:
            self.done = [row for row in self.done if row["time"] >= oldest]
            for key in [key for key, row in self.emptied_rows.items() if row["time"] < oldest]:
                del self.emptied[key], self.emptied_rows[key]
            rows = [*self.emptied_rows.values(), *self.done, *(begun_row(number, groups) for number, groups in self.begun.items())]
            rows += [{"sent": number} for number in self.begun for _ in range(self.sent[number])]
            replaced(self.path, "".join(json.dumps(row) + "\n" for row in rows))
            self.file = open(self.path, "ab", buffering=0)

    def close(self) -> None:
        """Lets another process have the file."""
        if self.path:
            self.file.close()
            self.lock.close()

    def begin(self, groups: Groups) -> int:
        """Notes what is to be sent. Returns the id of the save."""
        number, self.next = self.next, self.next + 1
        self.write(begun_row(number, groups), True)
        self.begun[number] = groups
        return number

    def made(self, number: int) -> None:
        """Notes that the next group of a save was made."""
        self.sent[number] += 1
        self.write({"sent": number})

    def finish(self, number: int, session: str | None, **told: object) -> None:
        """Notes that a save was done, and what the GIS has since."""
        self.write({"saved": number, "session": session, "time": int(time.time()), **told}, True)
        del self.begun[number]

    def undo(self, number: int) -> None:
        """Notes that nothing of a save is left."""
        self.write({"undone": number}, True)
        del self.begun[number]

    def empty(self, key: tuple[str, str], past: Past) -> None:
        """Notes what a table had that has lost its last feature."""
        self.write({"emptied": key, "time": int(time.time()), **past._asdict()})

    def write(self, row: Mapping[str, object], is_kept: bool = False) -> None:
        """Appends a line. One that is kept outlives a crash of the machine."""
        if self.path is None:
            return
        left = f"{self.before}{json.dumps(row)}\n".encode()
        try:
            while left:
                left = left[self.file.write(left):]
            if is_kept:
                os.fsync(self.file.fileno())
            self.before = ""
        except OSError as fault:
            self.before = "\n"
            raise Unwritable(f"{self.path} can't be written: {fault.strerror}") from fault


def locked(path: str) -> IO[bytes]:
    """A file that nobody else can lock meanwhile."""
    file = open(path, "ab")
    if not lock(file):
        raise Refused(f"another `vtmap wfs` uses {path.removesuffix('.lock')}")
    return file


def begun_row(number: int, groups: Groups) -> dict[str, object]:
    """The line of a save that is begun."""
    return {"begun": number, "groups": [[[change.number, text(change.body), change.text, text(change.was)] for change in group] for group in groups]}


def groups_of(rows: list) -> Groups:
    """The groups of changes of such a line."""
    return [[Change(number, body and body.encode(), size, was and was.encode()) for number, body, size, was in group] for group in rows]


def text(body: bytes | None) -> str | None:
    """The JSON of a feature as a text."""
    return None if body is None else body.decode()
