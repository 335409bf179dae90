"""What a gateway knows of each feature of a map that it doesn't hold: its id and its table, 12 bytes, and of pieces of
cut features what they are pieces of. Of each table it knows how many features it has; columns, zooms and the box of it
only grow until the map is listed anew. Needs no package."""
from __future__ import annotations

import hashlib
from array import array
from bisect import bisect_left
from collections import Counter
from collections.abc import Iterator
from typing import NamedTuple

from ..files.checkout_file import ZOOMS, form_of
from ..forms import Feature
from ..geometry.shapes import Box, bounds
from ..geometry.wholes import PIECE, WHOLE, Whole, group_of, joined
from .tables import Key, around

# The number of no table: that of a piece which is shown as a part of its whole.
PART = 0


class Piece(NamedTuple):
    """What is known of a piece: its table, if it were alone, and its box."""

    key: Key
    box: Box


class Summary:
    """What is known of a table."""

    def __init__(self, number: int) -> None:
        self.number, self.count = number, 0
        self.forms: dict[str, str] = {}
        self.zooms: Counter[tuple[int, ...]] = Counter()
        self.is_several = False
        self.box: Box | None = None

    def see(self, feature: Feature, kind: str) -> None:
        """Sees a feature of it."""
        for tag, value in feature["tags"].items():
            if tag != WHOLE:
                form = form_of([value])
                self.forms[tag] = form if self.forms.get(tag, form) == form else "TEXT"
        self.zooms[tuple(feature[zoom] for zoom in ZOOMS)] += 1
        lists = feature["geometry"][kind]
        self.is_several = self.is_several or len(lists) > 1
        box = bounds((kind, lists))
        self.box = box if self.box is None else around([self.box, box])


class Index:
    """The features of a map, by their ids in ascending order."""

    def __init__(self) -> None:
        self.ids, self.of = array("Q"), array("I")
        self.summaries: dict[Key, Summary] = {}
        self.keys: list[Key | None] = [None]
        # By what the pieces of a whole have in common: the pieces by their ids. And that, by the id of each piece.
        self.groups: dict[tuple[int, bytes], dict[int, Piece]] = {}
        self.pieces: dict[int, tuple[int, bytes]] = {}

    def __len__(self) -> int:
        return len(self.ids)

    def __contains__(self, number: object) -> bool:
        if not isinstance(number, int):
            return False
        at = bisect_left(self.ids, number)
        return at < len(self.ids) and self.ids[at] == number

    def take(self, number: int, feature: Feature | None) -> None:
        """Takes a feature, None for one that is gone."""
        before = self.pieces.pop(number, None)
        if before is not None:
            del self.groups[before][number]
        if feature is None:
            self.put(number, None)
        else:
            (kind,) = feature["geometry"]
            key, group = (feature["layer"], kind), group_of(feature, WHOLE)
            self.summary(key).see(feature, kind)
            self.put(number, key)
            if group is not None:
                named = group[0], hashlib.blake2b(repr(group).encode(errors="replace"), digest_size=8).digest()
                self.pieces[number] = named
                self.groups.setdefault(named, {})[number] = Piece(key, bounds((kind, feature["geometry"][kind])))
                self.see(named)
        if before is not None:
            self.see(before)

    def see(self, named: tuple[int, bytes]) -> None:
        """Sees which pieces of a group are shown: the first one as the whole, or each of them if there is no first
        one."""
        group = self.groups[named]
        for number, piece in group.items():
            if named[0] not in group:
                # It is shown as a feature of its own, with this tag too.
                self.summary(piece.key).forms.setdefault(WHOLE, "INTEGER")
            self.put(number, piece.key if number == named[0] or named[0] not in group else None, PART)
        if not group:
            del self.groups[named]

    def summary(self, key: Key) -> Summary:
        """What is known of a table."""
        if key not in self.summaries:
            self.summaries[key] = Summary(len(self.keys))
            self.keys.append(key)
        return self.summaries[key]

    def put(self, number: int, key: Key | None, otherwise: int | None = None) -> None:
        """Sets the table of a feature. Without one it is removed, or gets another number."""
        at = bisect_left(self.ids, number)
        is_there = at < len(self.ids) and self.ids[at] == number
        if is_there and (before := self.keys[self.of[at]]) is not None:
            self.summaries[before].count -= 1
        place = otherwise if key is None else self.summary(key).number
        if key is not None:
            self.summary(key).count += 1
        if place is None:
            if is_there:
                del self.ids[at], self.of[at]
        elif is_there:
            self.of[at] = place
        else:
            self.ids.insert(at, number)
            self.of.insert(at, place)

    # ---- what is asked

    def group(self, number: int) -> dict[int, Piece]:
        """The pieces of the whole that is shown by an id; none if it is no whole."""
        named = self.pieces.get(number)
        return self.groups[named] if named is not None and named[0] == number else {}

    def is_part(self, number: int) -> bool:
        """Whether an id is that of a piece which a whole shows, the first one too."""
        named = self.pieces.get(number)
        return named is not None and named[0] in self.groups[named]

    def wholes(self, key: Key) -> list[tuple[int, Box]]:
        """The wholes of a table with their boxes, in the order of their ids."""
        found = [
            (number, around([piece.box for piece in group.values()]))
            for (number, _), group in self.groups.items()
            if number in group and group[number].key == key
        ]
        return sorted(found)

    def ids_of(self, key: Key, first: int) -> Iterator[int]:
        """The ids of a table from one on, while others may come and go."""
        summary = self.summaries.get(key)
        while summary is not None:
            at = bisect_left(self.ids, first)
            while at < len(self.ids) and self.of[at] != summary.number:
                at += 1
            if at >= len(self.ids):
                return
            first = self.ids[at] + 1
            yield first - 1

    def greatest(self) -> int:
        """The greatest id of a feature, or 0: pieces have greater ones."""
        at = bisect_left(self.ids, PIECE)
        return self.ids[at - 1] if at else 0


def whole_of(number: int, pieces: dict[int, Feature]) -> Whole:
    """The whole of pieces, of which the first one has the number."""
    return joined(number, pieces, WHOLE)
