"""`vtmap schema`: which layers and fields a map is to have. Needs no package."""
from __future__ import annotations

import argparse
import os

from ..client.client import Client
from ..client.schema import added_at, schema_at
from ..faults import Refused
from ..files.checkout_file import KINDS
from ..files.map_schema import TYPES, Field, Layer, Schema, SchemaFile, missing, parsed, schema_of
from ..geometry.wholes import wholes_of
from ..limits import GREATEST_ZOOM
from ..shown import shown

ABOUT = {"schema": """Shows, changes and checks which layers and fields the map is to have: its schema (docs/FORMATS.md).

    vtmap schema
    vtmap schema add building roof --choices flat,gable,hip
    vtmap schema add tree --kind points --minzoom 14 --maxzoom 16
    vtmap schema make schema.json
    vtmap schema check

Without more words it prints the schema that the map has. `add` adds fields to a layer, each a text or of the --type, or choices to a field that has
some; or a layer that the map doesn't have yet, which QGIS shows then without features. A layer that the schema doesn't name yet gets the fields that
it has on the map, too. QGIS's gateway (`vtmap wfs --schema`) keeps the schema and takes what is added from whoever may edit; --file changes a file
in place of it. `make` writes the schema that the map has as it is. `check` names the features that aren't as the schema says, and ends with 1 if
there are any: they stay, since the schema refuses only what is changed."""}
MOST_TOLD = 20
ACTIONS = ("show", "add", "make", "check")


def options(parser: argparse.ArgumentParser, _: str) -> None:
    """The words of the command."""
    parser.add_argument("action", nargs="?", choices=ACTIONS, default="show", help="what to do (show)")
    parser.add_argument("names", nargs="*", metavar="NAME", help="add: the layer and its new fields; make: the file")
    parser.add_argument("--type", choices=list(TYPES), help="add: the type of the fields (text, or as --choices are)")
    parser.add_argument("--choices", type=lambda text: text.split(","), metavar="A,B,..", help="add: the values that the field may have")
    parser.add_argument("--required", action="store_true", help="add: each new feature has to have the fields")
    parser.add_argument("--label", help="add: what people read in place of the name of the field")
    parser.add_argument("--title", help="add: what people read in place of the name of the layer")
    parser.add_argument("--kind", action="append", choices=list(KINDS.values()), default=[], help="add: show the layer with this kind of shapes although "
                        "it has none; may be repeated")
    parser.add_argument("--minzoom", type=int, help="add: the first zoom that shows new features of the layer")
    parser.add_argument("--maxzoom", type=int, help="add: the last one")
    parser.add_argument("--file", help="the file of the schema, in place of the server's")


def fault_of(words: argparse.Namespace) -> str | None:
    """What is wrong with the command line."""
    if words.action == "add":
        if not words.names:
            return "add needs the name of a layer"
        if len(words.names) != 2 and (words.choices or words.label):
            return "--choices and --label are of one field: name it after the layer"
        if (words.minzoom is None) != (words.maxzoom is None):
            return "give both of --minzoom and --maxzoom"
        if words.minzoom is not None and not 0 <= words.minzoom <= words.maxzoom <= GREATEST_ZOOM:
            return f"--minzoom and --maxzoom are zooms from 0 to {GREATEST_ZOOM}, --minzoom not above --maxzoom"
    elif len(words.names) > (words.action == "make"):
        return f"{words.action} takes no name" if words.action != "make" else "make takes one file"
    return None


def work(words: argparse.Namespace) -> int:
    """Runs the command."""
    return {"show": show, "add": add, "make": make, "check": check}[words.action](words)


def show(words: argparse.Namespace) -> int:
    """Prints the schema."""
    schema = schema_at(Client(words.url), words.file)
    if not schema.layers:
        print("the map has no schema")
    for name, layer in schema.layers.items():
        zooms = f", zooms {layer.zooms[0]} to {layer.zooms[1]}" if layer.zooms else ""
        print(f"{shown(name)}{f' ({shown(layer.title)})' if layer.title else ''}{': ' if layer.kinds else ''}{', '.join(layer.kinds)}{zooms}")
        for tag, field in layer.fields.items():
            print(f"  {shown(tag)}: {told(field)}")
    return 0


def told(field: Field) -> str:
    """A field, as people read it."""
    choices = f": {', '.join(shown(value) for value in field.choices)}" if field.choices else ""
    return f"{field.type}{', required' if field.required else ''}{f' ({shown(field.label)})' if field.label else ''}{choices}"


def add(words: argparse.Namespace) -> int:
    """Adds fields, or a layer."""
    layer, *tags = words.names
    zooms = None if words.minzoom is None else (words.minzoom, words.maxzoom)
    # It is read as the file is, so that what no schema can have is refused.
    more = parsed(Schema({layer: Layer(words.title, tuple(words.kind), zooms, None, dict.fromkeys(tags, field_of(words)))}).text())
    made = added_to_file(words, more, layer) if words.file else added_at(Client(words.url), more)
    print(f"{shown(layer)}: {', '.join(shown(tag) for tag in made.layers[layer].fields) or 'no fields'}")
    return 0


def field_of(words: argparse.Namespace) -> Field:
    """The field that the words say."""
    kind = words.type or "text"
    choices = words.choices and [Field(kind, None, None, False).fitted(value) for value in words.choices]
    return Field(kind, words.label, choices, words.required)


def added_to_file(words: argparse.Namespace, more: Schema, layer: str) -> Schema:
    """Adds to a file, and to a layer that it doesn't name what the map has of that one."""
    file = SchemaFile(words.file)
    if layer in file.read().layers:
        return file.add(more)
    there = schema_of(whole.feature for whole in wholes_of(Client(words.url).features()) if whole.feature["layer"] == layer)
    return file.add(there.added(more))


def make(words: argparse.Namespace) -> int:
    """Writes, or prints, the schema that the map has."""
    text = schema_of(whole.feature for whole in wholes_of(Client(words.url).features())).text()
    if not words.names:
        print(text, end="")
        return 0
    try:
        with open(words.names[0], "x", encoding="utf-8") as file:
            file.write(text)
    except FileExistsError:
        raise Refused(f"{words.names[0]} exists: remove it, or name another file") from None
    print(f"{os.path.basename(words.names[0])}: {len(parsed(text).layers):,} layers")
    return 0


def check(words: argparse.Namespace) -> int:
    """Names the features that aren't as the schema says."""
    client = Client(words.url)
    schema, count = schema_at(client, words.file), 0
    for whole in wholes_of(client.features()):
        layer, tags = whole.feature["layer"], whole.feature["tags"]
        rules = schema.layers.get(layer)
        unknown = rules.unknown(tags) if rules else []
        fault = missing(layer, unknown[0]) if unknown else rules.fault(None, tags) if rules else None
        if fault:
            count += 1
            if count <= MOST_TOLD:
                print(f"{shown(layer)} {whole.number}: {fault}")
    if count > MOST_TOLD:
        print(f"and {count - MOST_TOLD:,} more")
    print(f"{count:,} features aren't as the schema says")
    return 1 if count else 0
