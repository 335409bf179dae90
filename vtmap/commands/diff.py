"""`vtmap diff`: what two times of the map differ in. Needs no package."""
from __future__ import annotations

import argparse
import json
import os
from collections import Counter
from collections.abc import Iterator
from typing import Any, NamedTuple

from ..ending import regular
from ..faults import Refused
from ..files.past import UNKNOWN, Line, Span
from ..geometry.geojson import geojson_of
from ..shown import shown
from ..systems import put_in_place
from .at import Trail, options_of_log, when
from .differences import named, told_change
from .ids import ranges, told_ranges
from .log import CHANGED, DELETED, NEW

ABOUT = {
    "diff": """Tells what two times of the map differ in.

    vtmap diff 2026-11-24 2026-11-25 --log edits.jsonl --nginx edits.log
    vtmap diff yesterday now --log edits.jsonl --geojson yesterday.geojson
    vtmap diff 1041 1078 --log edits.jsonl --count layer

Times are as those of `vtmap at`: a day is its beginning, so the first line is about the day of 24 November. It takes
only the log of edits, and the map itself isn't read. A feature that was changed and changed back doesn't differ. Edits
that the log misses are named, and then nothing is told.

It prints a line for each feature that differs: what became of it, and by which edits of whom. --layer, --feature and
--person show a part: features that were in a layer before or after, or that this person has changed. --count prints how
many differ in place of that. --geojson FILE writes them too: each as it was before and as it is after, with `_version`
(before or after), `_id`, `_layer`, `_change`, `_what`, `_edits` and `_persons` beside its tags, which QGIS shows as
columns."""
}
COUNTS = ("feature", "layer", "person")
START, END = '{"type":"FeatureCollection","features":[', "\n]}\n"


class Differing(NamedTuple):
    """A feature that differs: its id, what it was and is (None: nothing), and the lines of its changes."""

    number: int
    before: dict[str, Any] | None
    after: dict[str, Any] | None
    lines: list[Line]

    @property
    def kind(self) -> str:
        """What became of it."""
        return NEW if self.before is None else DELETED if self.after is None else CHANGED

    @property
    def feature(self) -> dict[str, Any]:
        """The feature as it is, or as it was."""
        return self.after or self.before or {}

    @property
    def persons(self) -> list[str]:
        """Who has changed it, the first one first."""
        return list(dict.fromkeys(line.person for line in self.lines))

    @property
    def edits(self) -> str:
        """The numbers of its edits."""
        return told_ranges(dict.fromkeys(line.first for line in self.lines))

    @property
    def what(self) -> str:
        """What is changed in it."""
        return told_change(self.before, self.after) if self.kind == CHANGED else ""

    def layers(self) -> list[str]:
        """Its layers before and after."""
        return [feature["layer"] for feature in (self.after, self.before) if feature]


def options(parser: argparse.ArgumentParser, _: str) -> None:
    """The words of the command."""
    parser.add_argument(
        "first", type=when, metavar="TIME", help="a time, as 2026-11-24T14:30, a day, or the number of an edit"
    )
    parser.add_argument("second", type=when, metavar="TIME", help="a later one; `now` is the last edit")
    options_of_log(parser)
    parser.add_argument("--feature", type=ranges, metavar="IDS", help="only these features, as in 7 or 1-3000,5000")
    parser.add_argument("--layer", help="only features of this layer")
    parser.add_argument("--person", help="only features that this person has changed")
    parser.add_argument("--count", choices=COUNTS, help="count the features that differ by this")
    parser.add_argument("--geojson", metavar="FILE", help="write the features that differ into this file")


def differing(span: Span) -> Iterator[Differing]:
    """The features that differ, by their ids."""
    for number in sorted(span.after):
        before, after, lines = span.before[number], span.after[number], span.lines[number]
        if before == UNKNOWN:
            raise Refused(
                f"what feature {number:,} was before edit {lines[0].first:,} isn't known: the log began, or began "
                "anew, while it was edited"
            )
        if before != after:
            yield Differing(number, json.loads(before) if before else None, json.loads(after) if after else None, lines)


def is_wanted(words: argparse.Namespace, one: Differing) -> bool:
    """Whether a feature is asked for."""
    return (
        (words.feature is None or any(one.number in numbers for numbers in words.feature))
        and (words.layer is None or words.layer in one.layers())
        and (words.person is None or words.person in one.persons)
    )


def line_of(one: Differing) -> str:
    """The line of a feature."""
    what = f": {one.what}" if one.what else ""
    edits = "edit" if one.edits.isdecimal() else "edits"
    people = ", ".join(map(shown, one.persons))
    return f"{one.kind} {named(one.number, one.feature)}{what} ({edits} {one.edits} by {people})"


def kinds_of(counts: Counter[str]) -> str:
    """How many features there are of each kind."""
    return ", ".join(f"{counts[kind]:,} {kind}" for kind in (NEW, CHANGED, DELETED))


def counted(name: str, found: list[Differing]) -> Iterator[str]:
    """How many features differ, by a name."""
    counts: dict[str, Counter[str]] = {}
    for one in found:
        names = {
            "feature": [named(one.number, one.feature)],
            "layer": [shown(one.layers()[0])],
            "person": [shown(person) for person in one.persons],
        }
        for key in names[name]:
            counts.setdefault(key, Counter())[one.kind] += 1
    for key, kinds in sorted(counts.items()):
        yield f"{key}: {kinds_of(kinds)}"


def row_of(one: Differing, version: str, feature: dict[str, Any]) -> dict[str, Any]:
    """A version of a feature as GeoJSON, what is told of it beside its tags."""
    row = geojson_of(one.number, feature)
    said = {
        "_version": version,
        "_id": one.number,
        "_layer": feature["layer"],
        "_change": one.kind,
        "_what": one.what,
        "_edits": one.edits,
        "_persons": ", ".join(one.persons),
    }
    return {"type": "Feature", "properties": {**row["properties"], **said}, "geometry": row["geometry"]}


def write(path: str, found: list[Differing]) -> None:
    """Writes the file, which has what it had until all of it is there."""
    rows = [
        row_of(one, version, feature)
        for one in found
        for version, feature in (("before", one.before), ("after", one.after))
        if feature
    ]
    with open(regular(path) + ".part", "w", encoding="utf-8", newline="\n") as file:
        file.write(START + ",".join("\n" + json.dumps(row, ensure_ascii=False) for row in rows) + END)
        file.flush()
        os.fsync(file.fileno())
    put_in_place(path + ".part", path)


def work(words: argparse.Namespace) -> int:
    """Prints, and writes, what is asked for."""
    trail = Trail(words, words.first)
    first, second = trail.number(words.first), trail.number(words.second)
    if first > second:
        raise Refused(f"the first time is the later one: edit {first:,} after edit {second:,}")
    found = [one for one in differing(Span(trail.lines(), first, second)) if is_wanted(words, one)]
    if words.geojson:
        write(words.geojson, found)
    for line in counted(words.count, found) if words.count else map(line_of, found):
        print(line)
    print(f"{kinds_of(Counter(one.kind for one in found))}, between edit {first:,} and edit {second:,}")
    return 0


def interrupted(words: argparse.Namespace) -> str:
    """What to do after an interruption."""
    return f"{words.geojson} is as it was" if words.geojson else ""
