"""nginx's log of edits (`log_format edits` in docs/nginx.conf): who sent which edit. Needs no package.

A line is `{"time":1764420310.123,"person":"anna","address":"192.168.1.7","request":"PUT /features/9","body":"{..}"}`. The reply, which has the number of
the edit, isn't in it: an edit is found by its content and its time. Lines that the gateway writes have the number as `edit`, if it got a reply.
"""
from __future__ import annotations

import hashlib
import json
import re
import time
from collections import defaultdict, deque
from collections.abc import Iterable, Mapping
from typing import Any, NamedTuple

from ..client.edits import encoded
from ..forms import ListedChange


class Sent(NamedTuple):
    """Who sent an edit: a name, else an address; and the time in seconds since 1970."""

    person: str
    time: float


FEATURE = re.compile(r"(PUT|DELETE) (?:/admin)?/features/([0-9]+)(?:/at/[0-9]+)?(?:\?.*)?")
NUMBERED = re.compile(r"(?:POST /admin/edits|PUT /admin/features/[0-9]+)/at/([0-9]+)")
# How many seconds nginx may write a line after the edit was seen, and lines may be in another order than edits.
SLACK = 1


def number_of(text: str) -> float:
    """A number with a fraction or an exponent: an integer, where it is one."""
    found = float(text)
    return int(found) if found.is_integer() else found


def parsed(text: str | bytes) -> Any:
    """JSON whose numbers are compared by their values."""
    return json.loads(text, parse_float=number_of)


def key_of(changes: Iterable[ListedChange]) -> bytes:
    """What is equal for equal changes: a hash of what is put, by id, and of what is deleted."""
    rows = [(change["put"], change["feature"]) if "put" in change else (change["delete"], None) for change in changes]
    return hashlib.sha256(encoded(sorted(rows, key=lambda row: row[0]))).digest()[:16]


def changes_of(request: str, body: str) -> list[ListedChange]:
    """The changes of a request."""
    found = FEATURE.fullmatch(request)
    if found is None:
        return parsed(body)["changes"]
    return [{"put": int(found[2]), "feature": parsed(body)}] if found[1] == "PUT" else [{"delete": int(found[2])}]


def number_in(row: Mapping[str, Any]) -> int | None:
    """The number of the edit that a line is of; None where it doesn't say it."""
    found = NUMBERED.fullmatch(row["request"])
    return int(found[1]) if found else row.get("edit")


def line_of(person: str, body: bytes, edit: int | None = None) -> str:
    """The line of a batch that somebody has sent just now, who isn't known by nginx but by what passed it on. `edit`: its number, if that is known."""
    number = {} if edit is None else {"edit": edit}
    said = {"time": round(time.time(), 3), "person": person, "address": "", "request": "POST /admin/edits", **number, "body": body.decode()}
    return json.dumps(said) + "\n"


class Senders:
    """Who sent which edit, by lines of nginx's log."""

    def __init__(self) -> None:
        self.sent: dict[bytes, deque[Sent]] = defaultdict(deque)
        self.unread, self.last = 0, 0.0

    def add(self, line: str | bytes) -> None:
        """Takes a line. One that isn't of an edit, or that nginx has cut, is counted."""
        try:
            row = parsed(line)
            self.sent[key_of(changes_of(row["request"], row["body"]))].append(Sent(row["person"] or row["address"], row["time"]))
        except (ValueError, LookupError, TypeError):
            self.unread += 1

    def end(self) -> None:
        """Puts what was taken into the order of time."""
        self.sent = {key: deque(sorted(rows, key=lambda row: row.time)) for key, rows in self.sent.items()}

    def of(self, changes: Iterable[ListedChange], seen: float) -> Sent | None:
        """Who sent an edit that was seen at a time: the first one that sent these changes by then, and not before who sent an earlier edit. None if
        nobody did. Edits are asked for in their order, each once."""
        rows = self.sent.get(key_of(changes)) or deque[Sent]()
        while rows and rows[0].time < self.last - SLACK:
            rows.popleft()
        if not rows or rows[0].time > seen + SLACK:
            return None
        self.last = max(self.last, rows[0].time)
        return rows.popleft()
