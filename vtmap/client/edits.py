"""Changes of features, grouped into requests, Needs no package.

A change puts or deletes one feature. A checked one is made only if the map still has what its author saw of the feature (`was`). Up to 64
changes are one request and one edit: all of them are made or none. `batches` groups changes, in their order, into as few requests as
their limits allow; `client.py` sends them.
"""
from __future__ import annotations

import json
from collections.abc import Iterable, Iterator
from typing import Any, NamedTuple

from ..forms import Feature, Value
from ..limits import MOST_BODY, MOST_CHANGES, MOST_TEXT, PART

# The bytes of a deletion in an edit's text.
DELETE_BYTES = 9
# Deletions that fit into one sector: more of them in an edit would take two.
DELETES_OF_A_SECTOR = (PART - 1) // DELETE_BYTES
FRAME = b'{"changes":[%s]}'
# The bytes of a batch beside its changes, if each has a comma.
FRAME_BYTES = len(FRAME % b"") - 1
NOTHING = b"null"


class Change(NamedTuple):
    """The id of a feature, its JSON (None if it is deleted), the bytes of the change's text (docs/FORMATS.md,
    "The edit text"), and the JSON of what its author saw of the feature (`null` for none), or None if that isn't to be
    looked at."""

    number: int
    body: bytes | None
    text: int
    was: bytes | None = None


def encoded(value: Any) -> bytes:
    """A value as JSON, its names in order: equal values have equal bytes."""
    return json.dumps(value, ensure_ascii=False, separators=(",", ":"), sort_keys=True).encode()


def text_bytes(feature: Feature) -> int:
    """The bytes of a feature in the journal and in the snapshot."""
    (kind, lists), = feature["geometry"].items()
    chains = [lists] if kind == "points" else lists if kind == "lines" else [ring for rings in lists for ring in rings]
    counts = 1 + {"points": 0, "lines": len(chains), "polygons": len(lists) + len(chains)}[kind]
    tags = sum(2 + len(key.encode()) + value_bytes(value) for key, value in feature["tags"].items())
    return 14 + len(feature["layer"].encode()) + 2 * counts + 8 * sum(map(len, chains)) + tags


def value_bytes(value: Value) -> int:
    """The bytes of a tag's value, without its kind."""
    if isinstance(value, bool):
        return 0
    return 2 + len(value.encode()) if isinstance(value, str) else 8


def put(number: int, feature: Feature) -> Change:
    """The change that puts a feature."""
    return Change(number, encoded(feature), text_bytes(feature))


def delete(number: int) -> Change:
    """The change that deletes a feature."""
    return Change(number, None, DELETE_BYTES)


def checked(change: Change, was: Feature | None) -> Change:
    """The change, to be made only if the map still has this feature, or none if it is None."""
    return change._replace(was=encoded(was))


def json_of(change: Change) -> bytes:
    """A change as a request has it."""
    was = b"" if change.was is None else b',"was":' + change.was
    if change.body is None:
        return b'{"delete":%d%s}' % (change.number, was)
    return b'{"put":%d,"feature":%s%s}' % (change.number, change.body, was)


def body_of(group: Iterable[Change]) -> bytes:
    """The body of a request that makes changes."""
    return FRAME % b",".join(map(json_of, group))


def fits(change: Change) -> bool:
    """Whether a change alone fits into a request."""
    return FRAME_BYTES + len(json_of(change)) + 1 <= MOST_BODY


def batches(changes: Iterable[Change], most: int = MOST_CHANGES) -> Iterator[list[Change]]:
    """Changes in groups of different ids, each as large as a request takes, and checked or not. What is too large for any is alone."""
    group, numbers, body, text = [], set(), FRAME_BYTES, 0
    for change in changes:
        length = len(json_of(change)) + 1
        has_room = len(group) < most and body + length <= MOST_BODY and text + change.text <= MOST_TEXT
        if group and (not has_room or change.number in numbers or (change.was is None) != (group[0].was is None)):
            yield group
            group, numbers, body, text = [], set(), FRAME_BYTES, 0
        group.append(change)
        numbers.add(change.number)
        body += length
        text += change.text
    if group:
        yield group


def sectors(group: Iterable[Change]) -> int:
    """The sectors of the journal that an edit of these changes takes."""
    return -(-(1 + sum(change.text for change in group)) // PART)
