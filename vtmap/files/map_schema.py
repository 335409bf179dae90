"""The schema of a map, `schema.json`: which layers and fields it is to have (docs/FORMATS.md, "The schema"). Needs no package.

    {"layers":{"building":{"title":"Buildings","kinds":["areas"],"minzoom":14,"maxzoom":16,"label":"house","fields":{
        "floors":{"type":"integer","label":"Floors","required":true},"use":{"type":"text","choices":["home","shop"]}}}}}

A value that a feature has already is never refused by it, nor is a layer that it doesn't name.
"""
from __future__ import annotations

import json
import os
import re
from collections import Counter
from collections.abc import Iterable, Mapping
from datetime import date
from typing import Any, NamedTuple

from ..ending import regular, replaced
from ..faults import Refused
from ..forms import Feature, Tags, Value
from ..geometry.wholes import WHOLE
from ..limits import GREATEST_ZOOM, MOST_NAME, MOST_TAG, MOST_TAGS, NUMBER_END
from ..shown import shown
from .checkout_file import KINDS, form_of

# The types of fields with the types of columns that show them. Numbers with a fraction and dates are texts on the map.
TYPES = {"text": "TEXT", "integer": "INTEGER", "number": "TEXT", "boolean": "BOOLEAN", "date": "TEXT"}
TYPES_OF_FORMS = {"TEXT": "text", "INTEGER": "integer", "BOOLEAN": "boolean"}
NUMBER = re.compile(r"-?[0-9]+(\.[0-9]+)?([eE][-+]?[0-9]+)?")
WHOLE_NUMBER = re.compile(r"-?[0-9]{1,19}")
TRUTHS = {"true": True, "false": False}
# The most bytes of a schema, layers, and choices of a field; and how many choices are named in a refusal.
MOST_BYTES, MOST_LAYERS, MOST_CHOICES, MOST_NAMED = 2 ** 20, 1000, 1000, 12
LAYER_NAMES, FIELD_NAMES = ("title", "kinds", "minzoom", "maxzoom", "label", "fields"), ("type", "label", "choices", "required")


class WrongSchema(Refused):
    """Why a text is no schema, or one can't be changed so."""


class Field(NamedTuple):
    """A field: its type, what it is called (None: as its tag), the values that it may have (None: any), and whether each feature has one."""

    type: str
    label: str | None
    choices: list[Value] | None
    required: bool

    def fitted(self, value: Value) -> Value:
        """A value of another type that says one of this, as that one; otherwise the value."""
        if self.type in ("text", "number", "date") and isinstance(value, int) and not isinstance(value, bool):
            return str(value) if self.type == "text" else value
        if self.type == "integer" and isinstance(value, str) and WHOLE_NUMBER.fullmatch(value.strip()):
            return int(value)
        return TRUTHS.get(value.strip().lower(), value) if self.type == "boolean" and isinstance(value, str) else value

    def fault(self, value: object) -> str | None:
        """Why it can't have a value, or None."""
        if not is_of_type(self.type, value):
            return f"is {value!r}, no {self.type}"
        if self.choices is not None and value not in self.choices:
            named = ", ".join(map(repr, self.choices[:MOST_NAMED]))
            return f"is {value!r}: {'one of ' if len(self.choices) > 1 else ''}{named}{', ..' if len(self.choices) > MOST_NAMED else ''} is needed"
        return None

    def row(self) -> dict[str, object]:
        """The field as the file has it."""
        made = {"type": self.type, "label": self.label, "choices": self.choices, "required": self.required or None}
        return {name: value for name, value in made.items() if value is not None}


class Layer(NamedTuple):
    """A layer: its title, the kinds of shapes that it is shown with although it has none, the zooms of a new feature (None: those of most), the field
    that names a feature, and the fields by their tags."""

    title: str | None
    kinds: tuple[str, ...]
    zooms: tuple[int, int] | None
    label: str | None
    fields: dict[str, Field]

    def forms(self) -> dict[str, str]:
        """The types of columns by the tags."""
        return {tag: TYPES[field.type] for tag, field in self.fields.items()}

    def fitted(self, tags: Tags, before: Tags | None = None) -> Tags:
        """Tags whose values have the types of their fields, where they say such a value. Values from before stay as they are."""
        old = before or {}
        return {tag: self.fields[tag].fitted(value) if tag in self.fields and old.get(tag) != value else value for tag, value in tags.items()}

    def unknown(self, tags: Iterable[str]) -> list[str]:
        """The tags for which there is no field."""
        return [tag for tag in tags if tag not in self.fields and tag != WHOLE]

    def fault(self, before: Tags | None, after: Tags) -> str | None:
        """Why a feature can't have these tags, or None. `before`: those that it had, None if it is new. What it had already is no fault."""
        old = before or {}
        for tag, value in after.items():
            if tag in self.fields and (tag not in old or old[tag] != value or type(old[tag]) is not type(value)):
                fault = self.fields[tag].fault(value)
                if fault:
                    return f"{shown(tag)} {fault}"
        for tag, field in self.fields.items():
            if field.required and tag not in after and (before is None or tag in old):
                return f"{shown(tag)} is required"
        return None

    def row(self) -> dict[str, object]:
        """The layer as the file has it."""
        first, last = self.zooms or (None, None)
        made = {"title": self.title, "kinds": list(self.kinds) or None, "minzoom": first, "maxzoom": last, "label": self.label}
        return {**{name: value for name, value in made.items() if value is not None}, "fields": {tag: field.row() for tag, field in self.fields.items()}}


class Schema:
    """The layers by their names."""

    def __init__(self, layers: dict[str, Layer] | None = None) -> None:
        self.layers = layers or {}

    def text(self) -> str:
        """The text of the file."""
        return json.dumps({"layers": {name: layer.row() for name, layer in self.layers.items()}}, ensure_ascii=False, indent=2) + "\n"

    def tables(self) -> set[tuple[str, str]]:
        """The layers and kinds of shapes that are shown although they have no feature."""
        kinds = {told: kind for kind, told in KINDS.items()}
        return {(name, kinds[kind]) for name, layer in self.layers.items() for kind in layer.kinds}

    def added(self, more: Schema) -> Schema:
        """The schema with what another one has more: layers, fields, and choices of fields. What both have has to be alike."""
        made = dict(self.layers)
        for name, layer in more.layers.items():
            made[name] = with_more(name, made[name], layer) if name in made else layer
        return parsed(Schema(made).text())


def missing(layer: str, *tags: str) -> str:
    """What to do for fields that a layer doesn't have."""
    named, typed = " and ".join(repr(shown(tag)) for tag in tags), " ".join(map(words, (layer, *tags)))
    if any(name.startswith("-") for name in (layer, *tags)):
        # The command would take such a name for an option.
        return f"{shown(layer)} has no field {named}: its schema.json may get it"
    return f"{shown(layer)} has no field {named}: `vtmap schema add {typed}` makes {'it' if len(tags) == 1 else 'them'}"


def words(text: str) -> str:
    """A name as the word of a command."""
    return text if re.fullmatch(r"[\w.:-]+", text) else "'" + shown(text).replace("'", "'\\''") + "'"


def with_more(name: str, layer: Layer, more: Layer) -> Layer:
    """A layer with the fields, kinds and choices that another one has more, and the title and zooms that it says."""
    fields = dict(layer.fields)
    for tag, field in more.fields.items():
        here = fields.get(tag)
        if here is not None and here.type != field.type:
            raise WrongSchema(f"{shown(name)} has a field {shown(tag)!r} of the type {here.type} already")
        if here is not None and field.choices and not here.choices:
            raise WrongSchema(f"the field {shown(tag)!r} of {shown(name)} takes any {here.type} already")
        fields[tag] = field if here is None else here._replace(choices=here.choices and [*dict.fromkeys([*here.choices, *(field.choices or [])])])
    kinds = tuple(dict.fromkeys([*layer.kinds, *more.kinds]))
    return Layer(more.title or layer.title, kinds, more.zooms or layer.zooms, more.label or layer.label, fields)


def is_of_type(kind: str, value: object) -> bool:
    """Whether a value is of a type."""
    if kind in ("boolean", "integer"):
        return isinstance(value, bool) if kind == "boolean" else isinstance(value, int) and not isinstance(value, bool)
    if kind == "number" and isinstance(value, int):
        return not isinstance(value, bool)
    if not isinstance(value, str):
        return False
    return kind == "text" or (NUMBER.fullmatch(value) is not None if kind == "number" else is_date(value))


def is_date(text: str) -> bool:
    """Whether a text is a day, as 2026-11-29."""
    try:
        return len(text) == 10 and date.fromisoformat(text).isoformat() == text
    except ValueError:
        return False


# ---- reading

def parsed(text: str) -> Schema:
    """The schema that a text has."""
    if length_of(text) > MOST_BYTES:
        raise WrongSchema(f"the schema has over {MOST_BYTES:,} bytes")
    try:
        found = json.loads(text, object_pairs_hook=once)
    except (ValueError, RecursionError) as fault:
        raise WrongSchema(f"the schema is no JSON: {fault}") from fault
    layers = member(found, ("layers",), "the schema").get("layers", {})
    if not isinstance(layers, dict) or len(layers) > MOST_LAYERS:
        raise WrongSchema(f"the schema: layers is an object of at most {MOST_LAYERS:,} layers")
    return Schema({name: layer_of(name, row) for name, row in layers.items()})


def once(pairs: list[tuple[str, Any]]) -> dict[str, Any]:
    """The object of names and values, each name once."""
    found = dict(pairs)
    if len(found) < len(pairs):
        raise ValueError(f"a name is there twice: {next(name for name, count in Counter(name for name, _ in pairs).items() if count > 1)}")
    return found


def member(row: object, names: tuple[str, ...], place: str) -> dict[str, Any]:
    """An object that has none but these names."""
    if not isinstance(row, dict):
        raise WrongSchema(f"{place} is no object")
    wrong = [name for name in row if name not in names]
    if wrong:
        raise WrongSchema(f"{place}: there is no {shown(wrong[0])!r}, but {', '.join(names)}")
    return row


def length_of(text: str) -> int:
    """The bytes of a text; too many if it isn't one that can be written."""
    try:
        return len(text.encode())
    except UnicodeEncodeError:
        return MOST_BYTES


def see_name(name: str, place: str) -> None:
    """Refuses a name that no layer and no tag can have."""
    if not 0 < length_of(name) <= MOST_NAME:
        raise WrongSchema(f"{place}: a name has 1 to {MOST_NAME} bytes")


def layer_of(name: str, row: object) -> Layer:
    """The layer that the file has under a name."""
    place = f"layer {shown(name)}"
    see_name(name, place)
    row = member(row, LAYER_NAMES, place)
    kinds, fields = row.get("kinds", []), row.get("fields", {})
    if not isinstance(kinds, list) or any(kind not in KINDS.values() for kind in kinds):
        raise WrongSchema(f"{place}: kinds is a list of {', '.join(KINDS.values())}")
    if not isinstance(fields, dict) or len(fields) > MOST_TAGS:
        raise WrongSchema(f"{place}: fields is an object of at most {MOST_TAGS} fields")
    made = {tag: field_of(tag, field, place) for tag, field in fields.items()}
    label = text_in(row, "label", place)
    if label is not None and label not in made:
        raise WrongSchema(f"{place}: label is the name of a field: there is no field {shown(label)!r}")
    return Layer(text_in(row, "title", place), tuple(kinds), zooms_of(row, place), label, made)


def text_in(row: Mapping[str, Any], name: str, place: str) -> str | None:
    """A text that an object may have, at most as long as a tag's, None if it has none."""
    text = row.get(name)
    if text is not None and (not isinstance(text, str) or not 0 < length_of(text) <= MOST_TAG):
        raise WrongSchema(f"{place}: {name} is a text of at most {MOST_TAG:,} bytes")
    return text


def zooms_of(row: Mapping[str, Any], place: str) -> tuple[int, int] | None:
    """The zooms of a layer, None if it says none."""
    if "minzoom" not in row and "maxzoom" not in row:
        return None
    zooms: list[Any] = [row.get("minzoom"), row.get("maxzoom")]
    first, last = zooms
    if not all(is_of_type("integer", zoom) for zoom in zooms) or not 0 <= first <= last <= GREATEST_ZOOM:
        raise WrongSchema(f"{place}: minzoom and maxzoom are zooms from 0 to {GREATEST_ZOOM}, minzoom not above maxzoom")
    return first, last


def field_of(tag: str, row: object, place: str) -> Field:
    """The field that the file has for a tag."""
    place = f"{place}, field {shown(tag)}"
    see_name(tag, place)
    row = member(row, FIELD_NAMES, place)
    kind, choices, required = row.get("type", "text"), row.get("choices"), row.get("required", False)
    if kind not in TYPES:
        raise WrongSchema(f"{place}: type is one of {', '.join(TYPES)}")
    if not isinstance(required, bool):
        raise WrongSchema(f"{place}: required is true or false")
    if choices is not None:
        if not isinstance(choices, list) or not 0 < len(choices) <= MOST_CHOICES:
            raise WrongSchema(f"{place}: choices is a list of 1 to {MOST_CHOICES:,} values")
        wrong = [value for value in choices if not is_of_type(kind, value) or not is_short(value)]
        if wrong:
            raise WrongSchema(f"{place}: the choice {wrong[0]!r} is no {kind}{'' if is_short(wrong[0]) else ' that a tag can have'}")
    return Field(kind, text_in(row, "label", place), choices, required)


def is_short(value: object) -> bool:
    """Whether a tag can have a value."""
    return length_of(value) <= MOST_TAG if isinstance(value, str) else not isinstance(value, int) or -NUMBER_END <= value < 2 * NUMBER_END


# ---- of a map

def schema_of(features: Iterable[Feature]) -> Schema:
    """The schema that features have: their layers, with the kinds of their shapes, the zooms of most, and the types of their tags."""
    found = {}
    for feature in features:
        kinds, zooms, values = found.setdefault(feature["layer"], (set(), Counter(), {}))
        kinds.add(KINDS[next(iter(feature["geometry"]))])
        zooms[feature["minzoom"], feature["maxzoom"]] += 1
        for tag, value in feature["tags"].items():
            if tag != WHOLE:
                values.setdefault(tag, set()).add(form_of([value]))
    return Schema({name: layer_from(*found[name]) for name in sorted(found)})


def layer_from(kinds: set[str], zooms: Counter[tuple[int, int]], values: Mapping[str, set[str]]) -> Layer:
    """A layer of these kinds, zooms with how many have them, and types of columns by the tags."""
    fields = {tag: Field(TYPES_OF_FORMS[next(iter(forms))] if len(forms) == 1 else "text", None, None, False) for tag, forms in sorted(values.items())}
    return Layer(None, tuple(kind for kind in KINDS.values() if kind in kinds), zooms.most_common(1)[0][0], None, dict(list(fields.items())[:MOST_TAGS]))


# ---- the file

class SchemaFile:
    """The schema in a file, which is read anew when the file changes. Without a path, or a file, it has no layers. What is wrong in it is printed
    once, and what it had before goes on."""

    def __init__(self, path: str | None = None) -> None:
        self.path, self.now = path, Schema()
        self.seen: tuple[int, int, int] | None = None
        self.look()

    def look(self) -> bool:
        """Reads the file if it has changed. Returns whether the schema is another one."""
        seen = self.stamp()
        if seen == self.seen:
            return False
        self.seen = seen
        try:
            made = self.read()
        except (WrongSchema, OSError, UnicodeDecodeError) as fault:
            print(f"{self.path}: {shown(fault)}: what it had before goes on", flush=True)
            return False
        is_other, self.now = made.text() != self.now.text(), made
        return is_other

    def stamp(self) -> tuple[int, int, int] | None:
        """What changes with the file; None if there is none."""
        try:
            found = os.stat(self.path) if self.path else None
        except OSError:
            return None
        return found and (found.st_mtime_ns, found.st_size, found.st_ino)

    def read(self) -> Schema:
        """The schema in the file."""
        if not self.path or not os.path.exists(self.path):
            return Schema()
        with open(self.path, "rb") as file:
            return parsed(file.read(MOST_BYTES + 1).decode())

    def add(self, more: Schema) -> Schema:
        """Adds what another schema has more, to the file as it is now."""
        if not self.path:
            raise Refused("there is no file that has the schema")
        made = self.read().added(more)
        replaced(regular(self.path), made.text())
        return made
