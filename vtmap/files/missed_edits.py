"""What a log of edits misses, taken from nginx's log of edits and from the gateway's. Needs no package.

Edits that left the feed before `vtmap follow --log` read them are missing in its log, and of some it isn't known what they replaced. Who passed
them on has their bodies, and for a checked edit what it replaced. The gateway's lines have the numbers of the edits; nginx's don't. What was sent in
the time of a gap, and is no other edit of the log, is what is missing, in the order of the times, if there are as many requests as numbers. A gap
isn't filled if a later edit of the log says of a feature that it was something else.
"""
from __future__ import annotations

import json
from collections import defaultdict
from collections.abc import Callable, Iterable, Iterator
from datetime import datetime, timezone
from typing import List, NamedTuple

from ..client.edits import encoded
from ..forms import Feature, ListedChange, LogRow, id_of
from .edit_log import time_of
from .proxy_log import SLACK, changes_of, key_of, number_in, parsed


class Gap(NamedTuple):
    """The numbers of a gap, and the times between which its edits were sent."""

    first: int
    last: int
    begins: float
    ends: float


class Request:
    """What somebody sent: when, the number of the edit if that is known, and the changes if they may be needed."""

    def __init__(self, time: float, number: int | None, changes: list[ListedChange] | None) -> None:
        self.time, self.number, self.changes, self.is_used = time, number, changes, False


def seen_at(row: LogRow) -> float:
    """When the edit of a row was seen, in seconds since 1970."""
    return time_of(row).timestamp()


def is_same(one: object, other: object) -> bool:
    """Whether two features, or nothing, are equal."""
    return encoded(one) == encoded(other)


def with_was(change: ListedChange, was: Feature | None) -> ListedChange:
    """A change with what it replaces."""
    made = change.copy()
    made["was"] = was
    return made


class Known:
    """What features are after an edit, as far as that is known, and in which gap they were changed last. `ids`: of which features it is kept."""

    def __init__(self, ids: set[int]) -> None:
        self.ids = ids
        self.features: dict[int, Feature | None] = {}
        self.gaps: dict[int, int | None] = {}

    def allows(self, change: ListedChange) -> bool:
        """Whether a change can have replaced what it says."""
        number = id_of(change)
        return "was" not in change or number not in self.features or is_same(self.features[number], change["was"])

    def take(self, change: ListedChange, gap: int | None) -> ListedChange:
        """Makes a change, of a gap or of none. Returns it with what it replaces, if that is known."""
        number = id_of(change)
        if number not in self.ids:
            return change
        made = change if "was" in change or number not in self.features else with_was(change, self.features[number])
        self.features[number], self.gaps[number] = change.get("feature"), gap
        return made


class Missed:
    """What a log misses. `read`: gives its rows, each time anew. `lines`: those of nginx's logs and of the gateway's."""

    def __init__(self, read: Callable[[], Iterable[LogRow]], lines: Iterable[bytes]) -> None:
        self.read = read
        self.gaps: list[Gap] = []
        self.unsure: set[bytes] = set()
        # The requests by the hash of what they change, the rows of each gap that is filled, and the features of which it is asked what they were.
        self.requests = defaultdict[bytes, List[Request]](list)
        self.filled: dict[int, list[LogRow]] = {}
        self.ids: set[int] = set()
        self.see()
        if self.gaps or self.unsure:
            self.take(lines)
            self.match()
            self.fill()
            while wrong := [first for first in self.contradicted() if first in self.filled]:
                for first in wrong:
                    del self.filled[first]

    # ---- the log

    def see(self) -> None:
        """Finds the gaps, and the edits of which it isn't known what they replaced."""
        begins = 0.0
        for row in self.read():
            if "missed" in row:
                first, last = row["missed"]
                self.gaps.append(Gap(first, last, begins - SLACK, seen_at(row) + SLACK))
            elif any("was" not in change for change in row["changes"]):
                self.unsure.add(key_of(row["changes"]))
                self.ids.update(id_of(change) for change in row["changes"] if "was" not in change)
            begins = seen_at(row)

    # ---- the requests

    def take(self, lines: Iterable[bytes]) -> None:
        """Takes the lines. Changes are kept of those that may be needed."""
        for line in lines:
            try:
                row = parsed(line)
                changes, time = changes_of(row["request"], row["body"]), float(row["time"])
                key, number = key_of(changes), number_in(row)
            except (ValueError, LookupError, TypeError):
                continue
            is_needed = key in self.unsure or any(gap.begins <= time <= gap.ends or gap.first <= (number or 0) <= gap.last for gap in self.gaps)
            self.requests[key].append(Request(time, number, changes if is_needed else None))
        for found in self.requests.values():
            found.sort(key=lambda request: request.time)

    def match(self) -> None:
        """Finds the request of each edit of the log."""
        for row in self.read():
            if "edit" in row and (found := self.requests.get(key_of(row["changes"]))):
                request = request_of(found, row["edit"], seen_at(row))
                if request:
                    request.is_used = True
                    if request.number is None:
                        request.number = row["edit"]

    def fill(self) -> None:
        """Gives what was sent in the time of each gap its numbers, if that is possible."""
        for gap in self.gaps:
            numbers = range(gap.first, gap.last + 1)
            left = [one for found in self.requests.values() for one in found if not one.is_used]
            known = {one.number: one for one in left if one.number in numbers}
            # The same request by the gateway and by nginx, which it passed, is one.
            twice = {key_of(one.changes or ()) for one in known.values()}
            others = [one for one in left if one.number is None and one.changes is not None and gap.begins <= one.time <= gap.ends
                      and key_of(one.changes) not in twice]
            free = [number for number in numbers if number not in known]
            if len(others) == len(free):
                known.update(zip(free, sorted(others, key=lambda one: one.time)))
                self.filled[gap.first] = [row_of(number, known[number]) for number in numbers]
                self.ids.update(id_of(change) for row in self.filled[gap.first] for change in row["changes"])

    # ---- the log with what it missed

    def rows(self, contradicted: set[int] | None = None) -> Iterator[LogRow]:
        """The rows, with those of the gaps that are filled, and with what changes replaced as far as that is known. `contradicted`: gets the first
        numbers of the gaps that aren't as the edits around them say."""
        known = Known(self.ids)
        for row in self.read():
            if "missed" not in row:
                yield self.completed(row, known, None, contradicted)
            elif row["missed"][0] in self.filled:
                for made in self.filled[row["missed"][0]]:
                    yield self.completed(made, known, row["missed"][0], contradicted)
            else:
                known = Known(self.ids)
                yield row

    def completed(self, row: LogRow, known: Known, gap: int | None, contradicted: set[int] | None) -> LogRow:
        """A row of an edit, with what its changes replaced. `gap`: the first number of that which it is in."""
        changes, sent = [], self.replaced_by(row)
        for change in row["changes"]:
            number = id_of(change)
            guilty = known.gaps.get(number) if gap is None else gap
            if contradicted is not None and guilty is not None and not known.allows(change):
                contradicted.add(guilty)
            changes.append(known.take(with_was(change, sent[number]) if number in sent else change, gap))
        made = row.copy()
        made["changes"] = changes
        return made

    def replaced_by(self, row: LogRow) -> dict[int, Feature | None]:
        """What an edit of which that isn't known replaced, by the checked edit that was sent."""
        if all("was" in change for change in row["changes"]):
            return {}
        sent = next((one for one in self.requests.get(key_of(row["changes"]), ()) if one.number == row["edit"] and one.changes), None)
        return {id_of(change): change["was"] for change in sent.changes or () if "was" in change} if sent else {}

    def contradicted(self) -> set[int]:
        """The first numbers of the gaps of which a later edit of the log says something else."""
        found = set()
        for _ in self.rows(found):
            pass
        return found

    def left(self) -> list[tuple[int, int]]:
        """The numbers of the gaps that aren't filled."""
        return [(gap.first, gap.last) for gap in self.gaps if gap.first not in self.filled]


def request_of(found: list[Request], number: int, seen: float) -> Request | None:
    """Which of several equal requests, in the order of their times, is an edit of a number, which was seen at a time: the last one before it."""
    if named := [one for one in found if one.number == number]:
        return named[0]
    free = [one for one in found if not one.is_used and one.number is None and one.time <= seen + SLACK]
    before = [one for one in free if one.time <= seen]
    return before[-1] if before else free[0] if free else None


def row_of(number: int, request: Request) -> LogRow:
    """The row of an edit that was sent."""
    time = datetime.fromtimestamp(request.time, timezone.utc).isoformat(timespec="milliseconds").replace("+00:00", "Z")
    return {"time": time, "edit": number, "changes": [change_of(change) for change in request.changes or ()]}


def change_of(change: ListedChange) -> ListedChange:
    """A change as the log has it."""
    kept: ListedChange
    if "put" in change:
        kept = {"put": change["put"], "feature": change["feature"]}
    else:
        kept = {"delete": change["delete"]}
    return with_was(kept, change["was"]) if "was" in change else kept
