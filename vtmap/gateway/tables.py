"""The features of the map as a GIS sees them: a table for each kind of shapes that a layer has, with a column for each
tag. Needs no package."""
from __future__ import annotations

import hashlib
import secrets
from collections import Counter, defaultdict
from collections.abc import Iterable, Mapping
from typing import TYPE_CHECKING, List, NamedTuple, Protocol, Tuple

from ..client.edits import encoded
from ..files.checkout_file import KINDS, ZOOMS, cell_of, form_of
from ..files.map_schema import Layer
from ..forms import Feature, Value
from ..geometry.shapes import Box, bounds
from ..geometry.wholes import Whole
from .names import xml_name

if TYPE_CHECKING:
    from .far_map import FarMap
    from .index import Summary

# A layer and a kind of shapes: a table.
Key = Tuple[str, str]
# Columns that aren't tags.
SHAPE, ID = "geom", "feature_id"
OWN = (SHAPE, ID, *ZOOMS)
# The digits of a version, and the bytes of its signature. A feature of a table that has none yet is shown at these
# zooms.
DIGITS, SIGNATURE, NEW_ZOOMS = 16, 4, (0, 14)


class Past(NamedTuple):
    """What a table had that has lost its last feature: the types of its tags, the zooms of new features, and whether
    its points are several."""

    forms: dict[str, str]
    zooms: tuple[int, ...]
    is_several: bool


NO_PAST = Past({}, NEW_ZOOMS, False)


class View:
    """A feature as people see it, the version that it is, and the box of its shape."""

    def __init__(self, whole: Whole) -> None:
        self.whole = whole
        self.number, self.feature, self.layer = whole.number, whole.feature, whole.feature["layer"]
        (self.kind,) = whole.feature["geometry"]
        self.version = version_of(whole.pieces)
        self.box = bounds((self.kind, whole.feature["geometry"][self.kind]))
        # How it was written last: what that depends on, and the text.
        self.written: tuple[object, str] = None, ""

    @property
    def key(self) -> Key:
        """The table that it is in."""
        return self.layer, self.kind

    def view(self) -> View:
        """The feature, as a map that is held keeps it for a GIS."""
        return self


class Kept(Protocol):
    """A feature as it is kept for a GIS that shows it: its id, its version, and the feature."""

    number: int
    version: str

    def view(self) -> View:
        """The feature."""


class Table:
    """The features of one kind of one layer. `columns`: the tag and the type of each, by its name. `further`: types of
    tags that a feature may get. `past`: what it had, if it has no feature any more. `rules`: the layer as the schema
    has it, or None."""

    def __init__(
        self,
        key: Key,
        views: Iterable[View],
        further: Mapping[str, str],
        past: Past = NO_PAST,
        rules: Layer | None = None,
    ) -> None:
        self.layer, self.kind = key
        self.rules, title = rules, rules.title if rules else None
        self.name, self.title = table_name(*key), f"{title or self.layer} ({KINDS[self.kind]})"
        self.held = sorted(views, key=lambda view: view.number)
        values = defaultdict[str, List[Value]](list)
        for view in self.held:
            for tag, value in view.feature["tags"].items():
                values[tag].append(value)
        self.columns = named_columns(
            {
                **past.forms,
                **(rules.forms() if rules else {}),
                **further,
                **{tag: form_of(values[tag]) for tag in values},
            }
        )
        self.is_several = (
            self.kind != "points"
            or past.is_several
            or any(len(view.feature["geometry"][self.kind]) > 1 for view in self.held)
        )
        zooms = Counter(tuple(view.feature[zoom] for zoom in ZOOMS) for view in self.held)
        shown_at = zooms.most_common(1)[0][0] if zooms else past.zooms
        self.zooms: tuple[int, ...] = rules.zooms if rules and rules.zooms else shown_at
        self.box = around([view.box for view in self.held]) if self.held else None
        self.form = self.is_several, tuple(self.columns.items())

    @property
    def views(self) -> Iterable[View]:
        """All of its features, in the order of their ids."""
        return self.held

    @property
    def count(self) -> int:
        """How many features it has."""
        return len(self.held)

    def past(self) -> Past:
        """What is kept of it once it has no feature."""
        return Past(dict(self.columns.values()), self.zooms, self.is_several)

    def meeting(self, box: Box | None) -> Iterable[View]:
        """Its features in a box, all if that is None."""
        return [view for view in self.held if box is None or meets(view.box, box)]

    def following(self, number: int) -> Iterable[View]:
        """Its features after an id, in the order of their ids."""
        return [view for view in self.held if view.number > number]

    def cell(self, view: View, name: str) -> int | str | None:
        """The value of a feature in a column: a number, a text or None."""
        if name == ID:
            return view.number
        if name in ZOOMS:
            return view.feature[name]
        tag, form = self.columns.get(name, (None, "TEXT"))
        value = view.feature["tags"].get(tag)
        return value if form == "INTEGER" else text_of(value, form)


class FarTable(Table):
    """A table of a map that isn't held: its features are read as they are asked for. `live`: a `FarMap`. `summary`:
    what is known of them, None if it has none."""

    def __init__(
        self,
        live: FarMap,
        key: Key,
        summary: Summary | None,
        further: Mapping[str, str],
        past: Past = NO_PAST,
        rules: Layer | None = None,
    ) -> None:
        self.live, self.layer, self.kind = live, *key
        self.rules, title = rules, rules.title if rules else None
        self.name, self.title = table_name(*key), f"{title or self.layer} ({KINDS[self.kind]})"
        forms = summary.forms if summary else {}
        self.columns = named_columns({**past.forms, **(rules.forms() if rules else {}), **further, **forms})
        self.is_several = self.kind != "points" or past.is_several or bool(summary and summary.is_several)
        shown_at = summary.zooms.most_common(1)[0][0] if summary else past.zooms
        self.zooms = rules.zooms if rules and rules.zooms else shown_at
        self.box, self.features = (summary.box, summary.count) if summary else (None, 0)
        self.form = self.is_several, tuple(self.columns.items())

    @property
    def count(self) -> int:
        return self.features

    @property
    def views(self) -> Iterable[View]:
        """All of its features, as they are read."""
        return self.live.stream((self.layer, self.kind), None)

    def meeting(self, box: Box | None) -> Iterable[View]:
        return self.live.stream((self.layer, self.kind), box)

    def following(self, number: int) -> Iterable[View]:
        return self.live.stream((self.layer, self.kind), None, number + 1)

    def within(self, box: Box, number: int) -> Iterable[View]:
        """Its features in a box after an id."""
        return self.live.stream((self.layer, self.kind), box, number + 1)


def key_of_machine() -> bytes:
    """What versions are signed with: the same after a restart, and no web page knows it."""
    try:
        with open("/etc/machine-id", "rb") as file:
            text = file.read().strip()
    except OSError:
        text = b""
    return hashlib.sha256(b"vtmap wfs " + text).digest() if text else secrets.token_bytes(32)


KEY = key_of_machine()


def signed(digits: str) -> str:
    """A version: its digits, and that the gateway has given it."""
    return digits + hashlib.blake2b(digits.encode(), key=KEY, digest_size=SIGNATURE).hexdigest()


def version_of(pieces: Mapping[int, Feature]) -> str:
    """The version of a feature that is these features of the map, by their ids."""
    return signed(
        hashlib.sha256(encoded({str(number): feature for number, feature in pieces.items()})).hexdigest()[:DIGITS]
    )


def table_name(layer: str, kind: str) -> str:
    """The name of a table. It always has the kind, so a project still finds its layer once the map's layer has a second
    kind."""
    return f"{xml_name(layer)}.{KINDS[kind]}"


def named_columns(forms: Mapping[str, str]) -> dict[str, tuple[str, str]]:
    """Tags and their types by names of columns. `forms`: the types by the tags."""
    columns, taken = {}, set(OWN)
    for tag in sorted(forms):
        name = xml_name(tag, taken)
        columns[name] = tag, forms[tag]
        taken.add(name.lower())
    return columns


def text_of(value: Value | None, form: str | None) -> str | None:
    """The text that shows a tag in a column; None if there is no value."""
    cell = cell_of(value, form)
    return None if cell is None else ("true" if cell else "false") if isinstance(cell, bool) else str(cell)


def around(boxes: Iterable[Box]) -> Box:
    """The box around boxes of west, north, east and south."""
    wests, norths, easts, souths = zip(*boxes)
    return min(wests), min(norths), max(easts), max(souths)


def meets(one: Box, other: Box) -> bool:
    """Whether two boxes meet."""
    return one[0] <= other[2] and one[2] >= other[0] and one[1] <= other[3] and one[3] >= other[1]


def is_within(one: Box, other: Box) -> bool:
    """Whether a box is inside of another."""
    return other[0] <= one[0] and other[1] <= one[1] and one[2] <= other[2] and one[3] <= other[3]
