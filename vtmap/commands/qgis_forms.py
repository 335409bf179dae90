"""The layers of QGIS's gateway in a QGIS project, to be edited there, with forms by the schema of the map. Needs no package."""
from __future__ import annotations

import re
from collections.abc import Mapping
from typing import Dict, Tuple
from xml.etree.ElementTree import Element

from ..client.client import Client
from ..faults import Stopped
from ..files.checkout_file import KINDS
from ..files.map_schema import Field, Layer, Schema
from ..gateway.actions import parsed
from ..gateway.names import map_name
from ..gateway.tables import ID
from ..geometry.gml import local
from ..markup import Xml, element

# By the kinds of shapes: what QGIS calls them.
GEOMETRIES = {"points": "Point", "lines": "Line", "areas": "Polygon"}
# What QGIS takes for no value in a list of values. A constraint that a value is needed, which warns: what a feature hasn't had isn't asked for.
NO_VALUE, NOT_NULL, WARNS = "{2839923C-8B7D-419E-B84B-CA2FE9B80EC7}", 1, 2
DAY = {"allow_null": True, "calendar_popup": True, "display_format": "yyyy-MM-dd", "field_format": "yyyy-MM-dd", "field_iso_format": False}
TRUTHS: dict[str, object] = {"CheckedState": "true", "UncheckedState": "false"}
# The tags that the page gives to photos and files. QGIS sends a file as soon as it is chosen, to an address that no other file has.
ATTACHED = re.compile(r"(photo|document)( [0-9]+)?")
STORED_AT = "'{}/files/put/' || uuid('WithoutBraces') || '.' || file_suffix(@selected_file_path)"
# What QGIS shows below the name of a file, how high in pixels, and how it keeps an expression in place of a value.
NOTHING, PICTURE, HIGH, EXPRESSION = 0, 1, 240, 3


# How QGIS edits a field: its name of that, and the options.
Widget = Tuple[str, Dict[str, object]]


class Editable:
    """A layer of the gateway: its name and title there, the layer of the map, the kind of its shapes, and its columns."""

    def __init__(self, name: str, title: str, columns: list[str]) -> None:
        self.name, self.title, self.columns = name, title, columns
        layer, _, self.kind = name.rpartition(".")
        self.layer, self.id = map_name(layer), "vtserve_" + re.sub(r"\W", "_", name)


def editable_layers(client: Client) -> list[Editable]:
    """The layers of the gateway."""
    known = {local(child): child for child in parsed(asked(client, "GetCapabilities"))}
    titles = {}
    for row in known.get("FeatureTypeList", ()):
        said = {local(child): child.text or "" for child in row}
        if "Name" in said:
            titles[said["Name"].rpartition(":")[2]] = said.get("Title", said["Name"])
    columns = columns_in(parsed(asked(client, "DescribeFeatureType")))
    return [Editable(name, title, columns.get(name, [])) for name, title in titles.items() if name.rpartition(".")[2] in KINDS.values()]


def asked(client: Client, request: str) -> bytes:
    """The reply of the gateway to a request."""
    status, content = client.ask("GET", f"/wfs?SERVICE=WFS&VERSION=1.1.0&REQUEST={request}")
    if status != 200:
        client.stop_at(status, content)
        raise Stopped(f"{client.address} has no gateway for QGIS ({status}): start `vtmap wfs`, or leave --edit out")
    return content


def columns_in(root: Element) -> dict[str, list[str]]:
    """The names of the columns of each layer, but for its shape."""
    found = {}
    for kind in (child for child in root if local(child) == "complexType"):
        parts = (part for part in kind.iter() if local(part) == "element")
        names = [part.get("name", "") for part in parts if part.get("type", "").startswith("xsd:")]
        found[kind.get("name", "").removesuffix("Type")] = names
    return found


def option(name: str | None, value: object) -> Xml:
    """An option of QGIS: a text, a number, a truth, others by their names, or a list of pairs of what people read and a value."""
    named = {"name": name} if name else {}
    if isinstance(value, dict):
        return element("Option", *[option(key, one) for key, one in value.items()], type="Map", **named)
    if isinstance(value, list):
        return element("Option", *[element("Option", option(told, one), type="Map") for told, one in value], type="List", **named)
    if isinstance(value, bool):
        return element("Option", type="bool", value=str(value).lower(), **named)
    if isinstance(value, int):
        return element("Option", type="int", value=value, **named)
    return element("Option", type="QString", value=value, **named)


def widget_of(field: Field) -> Widget:
    """How QGIS edits a field: its name of that, and the options."""
    if field.choices is not None:
        none = [] if field.required else [("", NO_VALUE)]
        return "ValueMap", {"map": none + [(str(value), str(value)) for value in field.choices]}
    if field.type == "boolean":
        return "CheckBox", TRUTHS
    return ("DateTime", DAY) if field.type == "date" else ("TextEdit", {})


def attachment(tag: str, address: str) -> Widget:
    """How QGIS edits a tag with the path of a photo or a file: by its attachment widget, which sends files to the gateway."""
    stored = {"active": True, "expression": STORED_AT.format(address.replace("'", "%27")), "type": EXPRESSION}
    return "ExternalResource", {
        "StorageType": "WebDAV", "PropertyCollection": {"name": "", "properties": {"storageUrl": stored}, "type": "collection"}, "StorageMode": 0,
        "RelativeStorage": 0, "FileWidget": True, "FileWidgetButton": True, "DocumentViewer": PICTURE if tag.startswith("photo") else NOTHING,
        "DocumentViewerHeight": HIGH, "DocumentViewerWidth": 0, "UseLink": False, "FullUrl": True,
    }


def widgets_of(layer: Editable, known: Mapping[str, Field], address: str) -> list[Xml]:
    """How QGIS edits the columns of a layer that the schema knows, and those with photos and files."""
    widgets = {column: widget_of(field) for column, field in known.items()}
    for column in layer.columns:
        if ATTACHED.fullmatch(map_name(column)) and widgets.get(column, ("TextEdit", {}))[0] == "TextEdit":
            widgets[column] = attachment(map_name(column), address)
    return [element("field", element("editWidget", element("config", option(None, options)), type=name), name=column)
            for column, (name, options) in widgets.items()]


def form_of(layer: Editable, rules: Layer | None, address: str) -> list[Xml]:
    """The forms of a layer by the schema's rules for it, or None."""
    fields = {column: rules.fields.get(map_name(column)) for column in layer.columns} if rules else {}
    known = {column: field for column, field in fields.items() if field}
    aliases, constraints = [], []
    for column, field in known.items():
        if field.label:
            aliases.append(element("alias", field=column, index=layer.columns.index(column), name=field.label))
        if field.required:
            constraints.append(element("constraint", field=column, constraints=NOT_NULL, notnull_strength=WARNS, unique_strength=0, exp_strength=0))
    editable = [element("field", name=column, editable=int(column != ID)) for column in layer.columns]
    label = next((column for column in known if rules and rules.label == map_name(column)), None)
    shown = [element("previewExpression", f'"{label}"')] if label else []
    return [element("fieldConfiguration", *widgets_of(layer, known, address)), element("aliases", *aliases), element("constraints", *constraints),
            element("editable", *editable), *shown]


def layer_xml(layer: Editable, address: str, system: str, rules: Layer | None) -> tuple[str, Xml]:
    """A layer of a project."""
    source = (f" pagingEnabled='true' preferCoordinatesForWfsT11='false' restrictToRequestBBOX='1' srsname='EPSG:3857' typename='v:{layer.name}' "
              f"url='{address}/wfs' version='auto'")
    return source, element("maplayer", element("id", layer.id), element("datasource", source), element("layername", layer.title),
                           element("srs", Xml(system)), element("provider", "WFS", encoding="UTF-8"), *form_of(layer, rules, address),
                           type="vector", geometry=GEOMETRIES[layer.kind], hasScaleBasedVisibilityFlag="0")


def in_project(client: Client, schema: Schema, system: str) -> tuple[str, str, str]:
    """The parts of a project that show the gateway's layers, points above lines above areas: of its tree, of its layers, and of their order."""
    layers = sorted(editable_layers(client), key=lambda layer: (list(GEOMETRIES).index(layer.kind), layer.name))
    tree, made = [], []
    for layer in layers:
        source, xml = layer_xml(layer, client.address, system, schema.layers.get(layer.layer))
        made.append(xml)
        tree.append(element("layer-tree-layer", id=layer.id, name=layer.title, checked="Qt::Checked", expanded="0", providerKey="WFS", source=source))
    return "".join(tree), "".join(made), "".join(element("layer", id=layer.id) for layer in layers)
