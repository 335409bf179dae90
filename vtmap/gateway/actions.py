"""What a Transaction of WFS asks: its XML, read. Needs no package."""
from __future__ import annotations

import re
import xml.etree.ElementTree as tree
from dataclasses import dataclass, field
from typing import Dict, List, NoReturn, Optional, Union
from xml.parsers import expat

from ..files.geopackage import Unreadable
from ..forms import Geometry
from ..geometry.gml import geometry_of, local
from .tables import signed

# Elements of a filter that names features by their ids, and the attributes that have these.
OF_IDS = ("FeatureId", "GmlObjectId", "ResourceId")
ID_NAMES = ("fid", "id", "rid")
# The most elements and attributes of a request, and how deep elements are inside of each other. A new point with ten
# attributes is some twenty of them.
MOST_ELEMENTS, MOST_DEPTH = 1_000_000, 500
# The id of a feature: table, number, version, its signature, and which one of several it is. Earlier ones have no
# signature.
ID = re.compile(r"""[^\s<>&"']+\.([0-9]{1,19})\.([0-9a-f]{16})([0-9a-f]{8})?(-[0-9]+)?""")


# What is said of a property: a text, nothing, or a geometry.
Said = Union[str, Geometry, None]


@dataclass
class Action:
    """What one element of a Transaction asks: `Insert`, `Update` or `Delete` of features of a type. `values` by the
    names of XML: a text, None or a geometry."""

    name: str
    type: str
    fids: List[str] = field(default_factory=list)
    values: Dict[str, Said] = field(default_factory=dict)


class Builder:
    """The elements of an XML text, as they are parsed. A document type, which may have entities of its own, is refused;
    so is too much, before it is in memory. A name keeps its prefix in place of the namespace: a long namespace would be
    in memory once for each name."""

    def __init__(self) -> None:
        self.root: Optional[tree.Element] = None
        self.open: List[tree.Element] = []
        self.last: Optional[tree.Element] = None
        self.count = 0
        self.parser = expat.ParserCreate()
        # A long text in few parts: each is added to those before it.
        self.parser.buffer_size, self.parser.buffer_text = 2**20, True
        self.parser.StartDoctypeDeclHandler = self.refuse
        self.parser.StartElementHandler, self.parser.EndElementHandler = self.begin, self.end
        self.parser.CharacterDataHandler = self.text

    @staticmethod
    def refuse(*_: object) -> NoReturn:
        """Refuses a document type."""
        raise Unreadable("the request has a document type")

    def begin(self, name: str, attributes: dict[str, str]) -> None:
        """Begins an element."""
        self.count += 1 + len(attributes)
        if self.count > MOST_ELEMENTS:
            raise Unreadable(f"the request has over {MOST_ELEMENTS:,} elements: save fewer features at once")
        if len(self.open) == MOST_DEPTH:
            raise Unreadable(f"the request is nested too deep: over {MOST_DEPTH} elements are inside of each other")
        made = tree.Element(
            named(name), {named(key): value for key, value in attributes.items() if not key.startswith("xmlns")}
        )
        if self.open:
            self.open[-1].append(made)
        else:
            self.root = made
        self.open.append(made)
        self.last = None

    def end(self, _: str) -> None:
        """Ends an element."""
        self.last = self.open.pop()

    def text(self, data: str) -> None:
        """Takes the text of an element, or what comes after one."""
        if self.last is not None:
            self.last.tail = (self.last.tail or "") + data
        else:
            self.open[-1].text = (self.open[-1].text or "") + data


def named(name: str) -> str:
    """A name with its prefix, as `local` reads it."""
    prefix, colon, own = name.partition(":")
    return f"{{{prefix}}}{own}" if colon else name


def parsed(body: bytes) -> tree.Element:
    """The root of an XML text."""
    builder = Builder()
    try:
        builder.parser.Parse(body, True)
    except (expat.ExpatError, ValueError, LookupError) as fault:
        # An encoding that isn't known is a LookupError.
        raise Unreadable(f"the request is no XML: {fault}") from fault
    if builder.root is None:
        raise Unreadable("the request has no element")
    return builder.root


def actions_of(root: tree.Element) -> list[Action]:
    """The actions of a Transaction, in their order."""
    made = []
    for element in root:
        name = local(element)
        if name == "Insert":
            made += [inserted(feature) for feature in element]
        elif name in ("Update", "Delete"):
            values = dict(value_named(part) for part in element if local(part) == "Property")
            made.append(Action(name, type_in(element.get("typeName", "")), fids_of(element), values))
        elif name in ("Native", "Replace"):
            raise Unreadable(f"{name} isn't taken")
    return made


def type_in(text: str) -> str:
    """The name of a type without its namespace."""
    return text.strip().rpartition(":")[2]


def inserted(feature: tree.Element) -> Action:
    """The action that adds a feature."""
    if len(feature) == 0 or local(feature) == "FeatureCollection":
        raise Unreadable("a feature to insert has no properties")
    return Action("Insert", local(feature), [], {local(child): value_of(child) for child in feature})


def value_named(element: tree.Element) -> tuple[str, Said]:
    """The name and the value of a property that an Update changes."""
    parts = {local(part): part for part in element}
    name = next((parts[one].text or "" for one in ("Name", "ValueReference") if one in parts), "")
    name = type_in(name.split("/")[-1])
    if not name:
        raise Unreadable("an Update doesn't say of which property")
    return name, value_of(parts["Value"]) if "Value" in parts else None


def value_of(element: tree.Element) -> Said:
    """The value of a property: a text, None if it has none, or a geometry."""
    if len(element):
        return geometry_of(element[0])
    if any(key.rpartition("}")[2] == "nil" and value in ("true", "1") for key, value in element.attrib.items()):
        return None
    return element.text


def fids_of(element: tree.Element) -> list[str]:
    """The ids of features that the filter of an action names. An edit says which features it changes: no other filter
    is taken."""
    found = []
    for part in (part for child in element if local(child) == "Filter" for part in child.iter()):
        if local(part) not in ("Filter", "Or", *OF_IDS):
            raise Unreadable(f"a filter with {local(part)} isn't taken: ids of features are needed")
        found += fids_in(part)
    if not found:
        raise Unreadable("an action names no feature")
    return found


def fids_in(element: tree.Element) -> list[str]:
    """The ids of features that an element of a filter has as its attributes."""
    return [value for key, value in element.attrib.items() if key.rpartition("}")[2] in ID_NAMES]


def number_and_version(fid: str) -> tuple[int, str] | None:
    """The number of a feature and the version of it that an id names; None if it is no id of the gateway."""
    found = ID.fullmatch(fid)
    return (int(found[1]), signed(found[2])) if found else None


def is_given(fid: str) -> bool:
    """Whether the gateway has given an id: by its signature."""
    found = ID.fullmatch(fid)
    return found is not None and found[3] is not None and signed(found[2]) == found[2] + found[3]
