"""`vtmap follow --run`: tells a command of each edit that the log gets, or of those of a box and of layers. Needs no
package."""
from __future__ import annotations

import gzip
import json
import os
import subprocess
import tempfile
import threading
import time
from collections.abc import Callable, Iterable
from typing import Any, List, NamedTuple, Optional, Tuple

from ..client.followers import Log
from ..ending import replaced
from ..faults import Stopped
from ..files.edit_log import EditLog, last_of, rotated
from ..forms import ListedChange, LogRow
from .at import When, needed
from .checkout import Choice

# The file beside a log that has the number of the last edit that a command was told of.
TOLD = ".run"
# The most edits that are told at once, and the bytes of their lines from which on no more are added; the seconds that a
# command may take; and the seconds until it is tried again, at first and at most.
MOST, MOST_BYTES, LONGEST, PAUSE, LONGEST_PAUSE = 500, 1 << 20, 600, 10, 600
# How often the files of a log are looked at until an edit that they lack is missing, and the seconds between two looks:
# whoever renames them does it file by file.
LOOKS, LOOK = 4, 0.5


class Part(NamedTuple):
    """Rows of a file, the place behind them, and whether there are no more."""

    rows: list[LogRow]
    place: tuple[int, int]
    is_all: bool


# Rows, and the place behind them: the file at the path, by its number on the disk, and the byte; None: not known.
Place = Optional[Tuple[int, int]]
Rows = Tuple[List[LogRow], Place]


class Tail:
    """The rows of a log that is written meanwhile, and renamed."""

    def __init__(self, path: str) -> None:
        self.path = path
        # Behind which row the next one is.
        self.place: Place = None

    def after(self, number: int) -> Rows:
        """Some rows after an edit, and the place behind them. Edits that the log lacks are missing, unless it is just
        being renamed."""
        rows: list[LogRow] = []
        place: Place = None
        for at in range(LOOKS):
            if at:
                time.sleep(LOOK)
            found = self.look(number)
            if found is not None:
                rows, place = found
                if with_missed(rows, number) == rows:
                    break
        return with_missed(rows, number), place

    def look(self, number: int) -> Rows | None:
        """Some rows after an edit, and the place behind them; None if files were renamed meanwhile."""
        try:
            before = files_of(self.path)
            found = self.from_place() or self.from_files(number)
            return found if files_of(self.path) == before else None
        except FileNotFoundError:
            return None

    def from_files(self, number: int) -> Rows:
        """Some rows after an edit, of the files that there are."""
        rows: list[LogRow] = []
        for name in needed(rotated(self.path), When("", edit=number), None):
            part = read(name, 0, MOST - len(rows), number)
            rows += part.rows
            if not part.is_all or name == self.path:
                return rows, part.place if name == self.path else None
        return rows, None

    def from_place(self) -> Rows | None:
        """Some rows behind the place; None if that isn't known, or the log isn't the file any more that it was."""
        if self.place is None or not os.path.exists(self.path):
            return None
        file, begin = self.place
        about = os.stat(self.path)
        if about.st_ino != file or about.st_size < begin:
            return None
        part = read(self.path, begin, MOST, -1)
        return part.rows, part.place


def files_of(path: str) -> list[tuple[str, int]]:
    """The files of a log by their names, with their numbers on the disk."""
    return [(name, os.stat(name).st_ino) for name in rotated(path)]


def with_missed(rows: Iterable[LogRow], number: int) -> list[LogRow]:
    """Rows after an edit, with a row for the edits that they lack: a file of the log was taken away before it was
    told."""
    made: list[LogRow] = []
    for row in rows:
        if first_of(row) > number + 1:
            made.append({"time": row["time"], "missed": [number + 1, first_of(row) - 1]})
        made.append(row)
        number = max(number, last_of(row))
    return made


def first_of(row: LogRow) -> int:
    """The first edit that a row speaks of, or that comes after it."""
    return row["edit"] if "edit" in row else row["missed"][0] if "missed" in row else row["begins"]


def read(path: str, begin: int, most: int, number: int) -> Part:
    """Rows after an edit from a place of a file on."""
    opened: Any = gzip.open if path.endswith(".gz") else open
    rows: list[LogRow] = []
    size, is_all = 0, False
    with opened(path, "rb") as file:
        file.seek(begin)
        while len(rows) < most and size < MOST_BYTES:
            line = file.readline()
            if not line.endswith(b"\n"):
                is_all = True
                break
            begin += len(line)
            row = json.loads(line)
            if last_of(row) > number:
                rows.append(row)
                size += len(line)
        return Part(rows, (os.fstat(file.fileno()).st_ino, begin), is_all)


class Teller:
    """Tells a command of the edits of a log. `say` prints a line."""

    def __init__(self, path: str, command: str, choice: Choice, say: Callable[[str], None]) -> None:
        self.path, self.command, self.choice, self.say = path, command, choice, say
        self.tail, self.is_over, self.pause = Tail(path), threading.Event(), PAUSE
        self.number = self.first_number()

    def first_number(self) -> int | None:
        """The last edit that the command was told of; the last one of the log if it was told of none, None if there is
        no log yet."""
        try:
            with open(self.path + TOLD, encoding="ascii") as file:
                return int(file.read())
        except FileNotFoundError:
            row = EditLog(self.path).last_row()
            return None if row is None else last_of(row)
        except ValueError as fault:
            raise Stopped(f"{self.path}{TOLD} has no number of an edit") from fault

    def run(self, every: float) -> None:
        """Tells of each edit, until it is over. A log that can't be read is tried again, as a command that fails is."""
        while not self.is_over.wait(every):
            try:
                is_done = not self.has_more() or self.tell()
            except (OSError, ValueError) as fault:
                self.say(f"--run: {self.path} can't be read ({fault}), and is tried again in {self.pause} s")
                is_done = False
            if not is_done:
                self.is_over.wait(self.pause)
                self.pause = min(2 * self.pause, LONGEST_PAUSE)

    def has_more(self) -> bool:
        """Whether the log has edits of which the command wasn't told."""
        status = Log(self.path).status()
        if status is None:
            return False
        if self.number is None:
            try:
                rows = read(self.path, 0, 1, -1).rows
            except FileNotFoundError:
                # It is just being renamed.
                return False
            self.keep(last_of(rows[0]) if rows else status["edits"])
        return self.number is not None and status["edits"] > self.number

    def end(self) -> int:
        """Tells of what is left, once, when nothing more is logged. Returns the status of the command line."""
        self.is_over.set()
        while self.has_more():
            before = self.number
            if not self.tell():
                return 1
            if self.number == before:
                break
        return 0

    def tell(self) -> bool:
        """Tells of some edits. Returns whether that is done."""
        assert self.number is not None
        rows, place = self.tail.after(self.number)
        lines = [
            json.dumps(row, ensure_ascii=False, separators=(",", ":")).encode() + b"\n"
            for row in map(self.chosen, rows)
            if row
        ]
        if lines and not self.runs(b"".join(lines)):
            return False
        self.tail.place = place
        if rows:
            self.keep(last_of(rows[-1]))
        self.pause = PAUSE
        return True

    def chosen(self, row: LogRow) -> LogRow | None:
        """What of a row is told, None if nothing."""
        if "changes" not in row:
            return row if "missed" in row else None
        changes = [change for change in row["changes"] if self.is_chosen(change)]
        made = row.copy()
        made["changes"] = changes
        return made if changes else None

    def is_chosen(self, change: ListedChange) -> bool:
        """Whether a feature is, or was, in the box and the layers. What it was may not be known."""
        return "was" not in change or any(
            self.choice.meets(feature) for feature in (change.get("feature"), change["was"]) if feature
        )

    def runs(self, lines: bytes) -> bool:
        """Runs the command. Returns whether it ends well."""
        try:
            # (from a file: of a pipe the command would get a part of a line, if this process is killed)
            with tempfile.TemporaryFile() as file:
                file.write(lines)
                file.seek(0)
                child = subprocess.run(self.command, shell=True, stdin=file, timeout=LONGEST, check=False)
        except subprocess.TimeoutExpired:
            self.say(f"--run: it hasn't ended after {LONGEST} s, and is told again in {self.pause} s")
            return False
        if child.returncode:
            self.say(f"--run: it ended with {child.returncode}, and is told again in {self.pause} s")
        return child.returncode == 0

    def keep(self, number: int) -> None:
        """Notes the last edit that the command was told of."""
        self.number = number
        replaced(self.path + TOLD, f"{number}\n")
