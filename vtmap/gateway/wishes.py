"""What a Transaction makes of a feature: its values read, and what the server wouldn't take named. Needs no package."""
from __future__ import annotations

import re

from ..client.edits import text_bytes
from ..client.refusals import WORDS
from ..faults import Refused
from ..files.checkout_file import KINDS, ZOOMS, normal, tag_of
from ..files.map_schema import TYPES, missing
from ..forms import Feature, Geometry, Tags, Value
from ..geometry.shapes import bounds, reach
from ..geometry.wholes import Whole
from ..limits import GREATEST_ZOOM, MOST_NAME, MOST_REACH, MOST_TAG, MOST_TAGS, MOST_TEXT
from ..markup import sayable
from .actions import Action, Said
from .names import map_name
from .tables import ID, OWN, SHAPE, Table, text_of

TRUE, FALSE = ("true", "1", "t"), ("false", "0", "f")


class Wish:
    """A feature as a Transaction wants it (None: deleted), and the whole of the map that it is made of, if it isn't
    new. `pieces_of` reads it."""

    def __init__(self, table: Table, fid: str | None, number: int, base: Whole | None, feature: Feature | None) -> None:
        self.table, self.fid, self.number, self.base, self.feature = table, fid, number, base, feature
        self.seen: dict[int, Feature] = {}
        self.wanted: dict[int, Feature] = {}

    def __str__(self) -> str:
        return f"{self.table.layer} {self.number}" if self.base else f"a new feature of {self.table.layer}"


def new_feature(table: Table) -> Feature:
    """A feature that a table gets, before its values are set."""
    return {"layer": table.layer, **dict(zip(ZOOMS, table.zooms)), "geometry": None, "tags": {}}


def changed(feature: Feature, action: Action, table: Table, number: int | None = None) -> Feature:
    """The feature with the values of an action. `number`: that of a feature which isn't new."""
    made: Feature = {**feature, "tags": dict(feature["tags"])}
    name = f"a new feature of {table.layer}" if number is None else f"{table.layer} {number}"
    for key, value in action.values.items():
        if key == SHAPE:
            made["geometry"] = shape(value, made["geometry"], table, name)
        elif key == ID:
            if number is not None and value != str(number):
                raise Refused(f"{name}: the server gives {ID}, it can't be changed")
        elif key in ZOOMS:
            made[key] = zoom(value, dict(zip(ZOOMS, table.zooms))[key], f"{name}: {key}")
        elif key not in OWN and isinstance(value, (str, type(None))):
            set_tag(made["tags"], key, value, table, name)
    fault = fault_of(made) or fault_by_schema(table, None if number is None else feature["tags"], made["tags"])
    if fault:
        raise Refused(f"{name}: {fault}")
    return made


def shape(value: Said, before: Geometry | None, table: Table, name: str) -> Geometry:
    """The shape that a value says. One of which no point was moved is the one from before."""
    if not isinstance(value, dict) or table.kind not in value:
        raise Refused(f"{name} has no shape of {KINDS[table.kind]}")
    return value if before is None or normal(value) != normal(before) else before


def zoom(text: Said, usual: int, name: str) -> int:
    """The zoom that a text says."""
    if text is None:
        return usual
    if not isinstance(text, str) or not re.fullmatch(r"\s*[0-9]{1,2}\s*", text):
        raise Refused(f"{name} is no zoom: {text}")
    return int(text)


def set_tag(tags: Tags, column: str, text: str | None, table: Table, name: str) -> None:
    """Sets the tag of a column; without a text it is removed."""
    tag, form = table.columns.get(column, (map_name(column), "TEXT"))
    field = table.rules.fields.get(tag) if table.rules else None
    value = tag_value(text, TYPES[field.type] if field else form, tags.get(tag), f"{name}: {tag}")
    value = field.fitted(value) if field and value is not None and value != tags.get(tag) else value
    tags.pop(tag, None)
    if value is not None:
        tags[tag] = value


def tag_value(text: str | None, form: str, before: Value | None, name: str) -> Value | None:
    """The value of a tag that a text says. A text that shows the value from before is that value."""
    if text is None:
        return None
    word = text.strip().lower()
    if before is not None and text == sayable(text_of(before, form) or ""):
        return before
    if form == "BOOLEAN" and word in (*TRUE, *FALSE):
        return word in TRUE
    if form == "INTEGER" and re.fullmatch(r"-?[0-9]{1,20}", word):
        return int(word)
    if form != "TEXT":
        raise Refused(f"{name} is {'no whole number' if form == 'INTEGER' else 'neither true nor false'}: {text}")
    return tag_of(text, before)


def fault_by_schema(table: Table, before: Tags | None, after: Tags) -> str | None:
    """Why the schema doesn't allow these tags in place of those before (None: of a new feature), or None."""
    if table.rules is None:
        return None
    known = {tag for tag, _ in table.columns.values()} | set(before or ())
    unknown = [tag for tag in table.rules.unknown(after) if tag not in known]
    return missing(table.layer, unknown[0]) if unknown else table.rules.fault(before, after)


# ---- what the server wouldn't take: it says so too, but not of which feature


def fault_of(feature: Feature) -> str | None:
    """Why the server wouldn't take a feature, or None."""
    tags = feature["tags"]
    if feature["geometry"] is None:
        return "it has no shape"
    if not 0 <= feature["minzoom"] <= feature["maxzoom"] <= GREATEST_ZOOM:
        return WORDS["E4 Zoom"].why
    if len(tags) > MOST_TAGS or any(not 0 < len(tag.encode()) <= MOST_NAME for tag in tags):
        return WORDS["E6 Tags"].why
    far = next((tag for tag, value in tags.items() if not is_value(value)), None)
    return None if far is None else f"{far}: {WORDS['E7 Value'].why}"


def is_value(value: Value) -> bool:
    """Whether the server takes a value of a tag."""
    return len(value.encode()) <= MOST_TAG if isinstance(value, str) else -(2**63) <= value < 2**64


def fault_of_piece(feature: Feature) -> str | None:
    """Why the server wouldn't take a feature that nothing cuts further, or None."""
    ((kind, lists),) = feature["geometry"].items()
    if text_bytes(feature) > MOST_TEXT:
        return f"{WORDS['E8 Long'].why}: {WORDS['E8 Long'].then}"
    if reach(bounds((kind, lists)), range(feature["minzoom"], feature["maxzoom"] + 1)) > MOST_REACH:
        return f"{WORDS['E9 Reach'].why}: {WORDS['E9 Reach'].then}"
    return None
