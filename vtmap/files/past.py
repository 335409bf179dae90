"""The map of an earlier time: the map of one edit, and the lines of the log between that edit and the wanted one. Needs
no package.

    number, is_last = last_by(lines(), time, base)
    features = moved(base, lines(), number)

Nothing is guessed. Each edit between the two has to be in the log, once and in the order of the numbers; what a line
says that it replaced, or made, has to be what the map had. Otherwise it is refused, with the numbers of the edits. It
goes forward from an older map, and back from a newer one.
"""
from __future__ import annotations

import hashlib
import json
import os
from collections.abc import Iterable, Iterator
from datetime import datetime
from typing import Any, NamedTuple

from ..client.edits import encoded
from ..ending import replaced
from ..faults import Refused
from .edit_log import read_time, text_of, time_of

# The file beside a save that says of which edit it is.
NUMBER = ".at"
PIECE = 1 << 20
# What isn't known of a feature.
UNKNOWN = b""


class Base(NamedTuple):
    """The map of an edit: the features as JSON by their ids, and what it is called. Edits up to this one were made `by`
    a time, and later ones `after` a time; None: that isn't known."""

    features: dict[int, bytes]
    edit: int
    name: str
    by: datetime | None = None
    after: datetime | None = None


class Line(NamedTuple):
    """What a line of the log has: the number of an edit, twice, or of the first and the last one that are missing
    (`changes` is None then). Where a log begins these are none: the first one of them is the next edit. It was seen at
    a time, and made after `since`; None: just before."""

    first: int
    last: int
    changes: list[dict[str, Any]] | None
    person: str
    since: datetime | None
    seen: datetime

    @property
    def begins(self) -> bool:
        """Whether a log begins here."""
        return self.first > self.last


def lines_of(edits: Iterable[Any], nobody: str) -> Iterator[Line]:
    """The lines of a log, by its edits as `vtmap log` has them, in the order of their numbers. What is missing between
    two of them is a line too. The time of an edit whose sender is known is that of the sending."""
    last: int | None = None
    before: datetime | None = None
    for edit in edits:
        is_gap = isinstance(edit, dict)
        row = edit if is_gap else edit.row
        first, end = (
            (row["begins"], row["begins"] - 1)
            if "begins" in row
            else row["missed"]
            if is_gap
            else (edit.number, edit.number)
        )
        seen = time_of(row) if is_gap or edit.person == nobody else edit.time
        if last is not None and first <= last:
            raise Refused(
                f"the log has edit {first:,} after edit {last:,}: name its files with the oldest first, each once"
            )
        if last is not None and first > last + 1:
            yield Line(last + 1, first - 1, None, nobody, before, seen)
        late = time_of(row, "since") if "since" in row else None
        since = before if is_gap else late if edit.person == nobody else None
        yield Line(first, end, None if is_gap else edit.changes, nobody if is_gap else edit.person, since, seen)
        last, before = end, seen


# ---- which edit was the last one at a time


def shown_time(time: datetime) -> str:
    """A time as people of this machine's time zone read it."""
    return time.astimezone().strftime("%Y-%m-%d %H:%M:%S")


def numbers(first: int, last: int) -> str:
    """How a range of edits is told."""
    return f"edit {first:,}" if first == last else f"the edits {first:,} to {last:,}"


def last_by(lines: Iterable[Line], time: datetime, base: Base | None) -> tuple[int, bool]:
    """The number of the last edit that was made by a time, and whether the log ends with it: then later edits may be
    missing at its end. `base`: a map of which it is known when it was."""
    found = base.edit if base and base.by and base.by <= time else None
    limit = base.edit if base and base.after and base.after >= time else None
    begins: Line | None = None
    unclear: Line | None = None
    is_last = True
    for line in lines:
        begins = begins or line
        if found is not None and line.last <= found:
            continue
        if found is not None and begins is line and line.first > found + 1:
            raise Refused(
                f"the log begins with edit {line.first:,}: {numbers(found + 1, line.first - 1)} before it aren't in it"
            )
        if line.seen <= time:
            found, unclear = line.last, None
        elif limit is not None and line.first > limit or not is_unclear(line, time):
            is_last = False
            break
        elif not line.begins:
            unclear = unclear or line
    if unclear:
        after = f"after {shown_time(unclear.since)} and " if unclear.since else ""
        raise Refused(
            f"{numbers(unclear.first, unclear.last)}: made {after}by {shown_time(unclear.seen)}, the log doesn't say "
            "when. Give the number of an edit in place of the time, or another time; --nginx may know it"
        )
    return known_number(found, begins, time), is_last and not (limit is not None and found == limit)


def is_unclear(line: Line, time: datetime) -> bool:
    """Whether the edit of a line that was seen after a time may have been made before it."""
    return line.since <= time if line.since else line.changes is None


def known_number(found: int | None, begins: Line | None, time: datetime) -> int:
    """The number that was found."""
    if found is not None:
        return found
    if begins is None:
        raise Refused("the log has no edit")
    raise Refused(
        f"the log begins with edit {begins.first:,}, seen at {shown_time(begins.seen)}: which edit was the last one at "
        f"{shown_time(time)} isn't known"
    )


# ---- from one edit to another


class Span:
    """What the edits after one number, up to another, have made: of each feature that they change what it was `before`
    them, and `after`, as JSON, None if it wasn't there; and the lines of its changes."""

    def __init__(self, lines: Iterable[Line], first: int, last: int) -> None:
        self.before: dict[int, bytes | None] = {}
        self.after: dict[int, bytes | None] = {}
        self.lines: dict[int, list[Line]] = {}
        self.at = first
        for line in lines:
            if line.last <= first:
                continue
            if self.at >= last:
                break
            self.see(line, last)
            for change in line.changes or ():
                self.take(line, change)
            self.at = line.last
        if self.at < last:
            raise Refused(
                f"the log hasn't got {numbers(self.at + 1, last)}"
                + (f": it ends with edit {self.at:,}" if self.at > first else "")
            )

    def see(self, line: Line, last: int) -> None:
        """Refuses what isn't the next edit."""
        if line.changes is None and not line.begins:
            raise Refused(
                f"the log misses {numbers(max(line.first, self.at + 1), min(line.last, last))}, seen at "
                f"{shown_time(line.seen)}: nothing is guessed. A map of an edit on the other side of them may help "
                "(--save)"
            )
        if line.first != self.at + 1:
            raise Refused(
                f"the log begins with edit {line.first:,}: {numbers(self.at + 1, line.first - 1)} before it aren't in "
                "it"
            )

    def take(self, line: Line, change: dict[str, Any]) -> None:
        """Makes a change of the next edit. What it says that it replaced has to be what was there."""
        number = change.get("put", change.get("delete"))
        assert isinstance(number, int)
        was = bytes_of(change["was"]) if "was" in change else self.after.get(number, UNKNOWN)
        if self.after.get(number, was) != was:
            raise Refused(
                f"edit {line.first:,} has replaced another feature {number:,} than the edits before it have made: the "
                "log isn't of one map, or was changed"
            )
        self.before.setdefault(number, was)
        self.after[number] = bytes_of(change.get("feature"))
        self.lines.setdefault(number, []).append(line)


def bytes_of(feature: dict[str, Any] | None) -> bytes | None:
    """A feature as JSON; None if there is none."""
    return None if feature is None else encoded(feature)


def moved(base: Base, lines: Iterable[Line], number: int) -> dict[int, bytes]:
    """The map of another edit than that of a base, as the features by their ids."""
    span = Span(lines, *sorted((base.edit, number)))
    here, there = (span.before, span.after) if number >= base.edit else (span.after, span.before)
    for one, feature in here.items():
        if feature != UNKNOWN and base.features.get(one) != feature:
            is_on = number >= base.edit
            line, what = span.lines[one][0 if is_on else -1], "before edit" if is_on else "after edit"
            raise Refused(
                f"feature {one:,} of {base.name} isn't as the log has it {what} {line.first:,}: "
                f"they aren't of one map, or {base.name} isn't the map of edit {base.edit:,}"
            )
    features = dict(base.features)
    for one, feature in there.items():
        if feature == UNKNOWN:
            raise Refused(
                f"what feature {one:,} was before edit {span.lines[one][0].first:,} isn't known: a map from before "
                "that edit is needed (--save)"
            )
        if feature is None:
            features.pop(one, None)
        else:
            features[one] = feature
    return dict(sorted(features.items()))


# ---- the number of a save


def hash_of(path: str) -> str:
    """The SHA-256 of a file."""
    found = hashlib.sha256()
    with open(path, "rb") as file:
        while part := file.read(PIECE):
            found.update(part)
    return found.hexdigest()


def keep_number(path: str, edit: int, by: datetime | None = None, after: datetime | None = None) -> None:
    """Says beside a file of features of which edit they are, `by` when that was made, and `after` when the next one. If
    the file is changed, that no longer counts."""
    times = {name: text_of(time) for name, time in (("by", by), ("after", after)) if time}
    replaced(path + NUMBER, json.dumps({"edit": edit, **times, "sha256": hash_of(path)}) + "\n")


def drop_number(path: str) -> None:
    """Removes what is said of a file that is written anew."""
    if os.path.exists(path + NUMBER):
        os.remove(path + NUMBER)


def number_of(path: str) -> tuple[int, datetime | None, datetime | None]:
    """The edit of a save, by when it was made, and after when the next one, if that is known."""
    try:
        with open(path + NUMBER, encoding="utf-8") as file:
            said = json.load(file)
        edit, known = said["edit"], said["sha256"]
        by, after = (read_time(said[name]) if name in said else None for name in ("by", "after"))
    except FileNotFoundError as fault:
        raise Refused(
            f"{path}{NUMBER} is missing, which says of which edit {path} is: give the number by --of"
        ) from fault
    except (ValueError, LookupError, TypeError) as fault:
        raise Refused(f"{path}{NUMBER} doesn't say of which edit {path} is: {fault}") from fault
    if known != hash_of(path):
        raise Refused(
            f"{path} isn't the file any more of which {path}{NUMBER} says that it is of edit {edit:,}: give the number "
            "by --of"
        )
    return edit, by, after
