"""What has become of one feature, for the page: by the log of edits, and the logs of who has sent them. Needs no
package."""
from __future__ import annotations

import gzip
import json
import threading
from collections.abc import Iterator
from datetime import datetime, timezone
from typing import Any, NamedTuple

from ..files.edit_log import lines_of, rotated, text_of, time_of
from ..files.proxy_log import SLACK, Senders

# The most changes that are told, and the bytes of a log that are searched at once.
MOST, PART = 50, 1 << 22


class Found(NamedTuple):
    """A row of the log that is about a feature, or says what is missing: the edit, and its change of the feature."""

    row: dict[str, Any]
    change: dict[str, Any] | None


def id_of(change: dict[str, Any]) -> Any:
    """The id of the feature of a change."""
    return change.get("put", change.get("delete"))


class History:
    """The log of edits at a path, with those that logrotate has renamed, and the logs of nginx and of the gateway.
    None: there is no log."""

    def __init__(self, path: str | None, senders: list[str]) -> None:
        self.path, self.senders, self.told, self.turn = path, senders, set(), threading.Lock()

    def of(self, number: int) -> dict[str, Any] | None:
        """The changes of a feature, the newest first: when, by whom, what it was and what it is since; of several
        thousand the newest alone. None if no log is kept."""
        with self.turn:
            if self.path is None or not any(rotated(self.path)):
                return None
            found, has_more = self.rows(number)
            senders = self.senders_of(number, found)
        changes = [self.told_row(one, senders) for one in found]
        return {"id": number, "changes": changes[::-1], "more": has_more}

    def rows(self, number: int) -> tuple[list[Found], bool]:
        """The rows about a feature, the oldest first, and whether there are older ones. What is missing before all of
        them doesn't count."""
        assert self.path is not None
        found: list[Found] = []
        for path in rotated(self.path):
            found = [*rows_in(path, number), *found]
            if sum(one.change is not None for one in found) > MOST:
                break
        first = next((at for at, one in enumerate(found) if one.change is not None), len(found))
        return found[first:][-MOST:], len(found) - first > MOST

    # ---- who

    def senders_of(self, number: int, found: list[Found]) -> Senders:
        """Who has sent what is about a feature since the first of these rows was made."""
        senders = Senders()
        if found:
            oldest = time_of(found[0].row, "since" if "since" in found[0].row else "time").timestamp() - SLACK
            for path in self.senders:
                try:
                    for line in lines_since(path, oldest, str(number).encode()):
                        senders.add(line)
                except OSError as fault:
                    self.tell(path, fault)
        senders.end()
        return senders

    def tell(self, path: str, fault: OSError) -> None:
        """Says once that a log can't be read."""
        if path not in self.told:
            self.told.add(path)
            print(
                f"note: {path} can't be read ({fault.strerror}): the history doesn't say who has sent what is in it",
                flush=True,
            )

    @staticmethod
    def told_row(one: Found, senders: Senders) -> dict[str, Any]:
        """A row as the page reads it. Rows are told in their order, the oldest first."""
        row, change = one
        if change is None:
            return {"missed": row["missed"], "time": row["time"]}
        sent = senders.of(row["changes"], time_of(row).timestamp())
        times = (
            {"time": text_of(datetime.fromtimestamp(sent.time, timezone.utc))}
            if sent
            else {name: row[name] for name in ("time", "since") if name in row}
        )
        was = {"was": change["was"]} if "was" in change else {}
        return {
            **times,
            "edit": row["edit"],
            "person": sent.person if sent else "",
            "feature": change.get("feature"),
            **was,
        }


def lines_with(path: str, names: tuple[bytes, ...]) -> Iterator[bytes]:
    """The lines of a log that have one of these texts. Most of a long one hasn't: it is searched by large parts."""
    opened: Any = gzip.open if path.endswith(".gz") else open
    rest = b""
    with opened(path, "rb") as file:
        while part := file.read(PART):
            whole, line_feed, end = part.rpartition(b"\n")
            if line_feed:
                yield from found_in(rest + whole + line_feed, names)
            rest = end if line_feed else rest + part


def found_in(part: bytes, names: tuple[bytes, ...]) -> Iterator[bytes]:
    """The lines of whole lines that have one of these texts."""
    places = {part.rfind(b"\n", 0, at) + 1 for name in names for at in places_of(part, name)}
    for begin in sorted(places):
        yield part[begin : part.index(b"\n", begin) + 1]


def places_of(part: bytes, name: bytes) -> Iterator[int]:
    """Where a text is."""
    at = part.find(name)
    while at >= 0:
        yield at
        at = part.find(name, at + 1)


def rows_in(path: str, number: int) -> Iterator[Found]:
    """The rows of a file that are about a feature, or say what is missing. Most lines are about others, and aren't
    parsed."""
    for line in lines_with(path, (b'":%d,' % number, b'":%d}' % number, b'"missed":')):
        try:
            row = json.loads(line)
            change = next((one for one in row.get("changes", ()) if id_of(one) == number), None)
            if change is not None or "missed" in row:
                yield Found(row, change)
        except (ValueError, AttributeError, TypeError):
            continue


def lines_since(path: str, oldest: float, text: bytes) -> Iterator[bytes]:
    """The lines of a log of senders, and of those that logrotate has renamed, that have a text, from the file on in
    which a time is."""
    for name in rotated(path):
        yield from lines_with(name, (text,))
        first = next(lines_of(name), None)
        if first and begins(first) < oldest:
            return


def begins(line: bytes) -> float:
    """The time of a line; that of the end of the world if it has none."""
    try:
        return float(json.loads(line)["time"])
    except (ValueError, LookupError, TypeError):
        return float("inf")
