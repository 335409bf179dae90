"""By which rules pictures are drawn: those of the page's style.json, which web/style.js explains. Needs no package."""
from __future__ import annotations

import json
import re
from collections.abc import Iterable
from typing import Any, NamedTuple

from ..faults import Refused
from ..geometry.wholes import OUTLINE

RGBA = re.compile(r"rgba?\(\s*(\d{1,3})\s*,\s*(\d{1,3})\s*,\s*(\d{1,3})\s*(?:,\s*([0-9.]+)\s*)?\)")
HEX = re.compile("#([0-9a-fA-F]{3}|[0-9a-fA-F]{6}|[0-9a-fA-F]{8})")
# The opacity of areas in a colour of their layer's own; what a rule draws, in the order in which it is drawn.
OPACITY = 0.43
AREAS, LINES, POINTS = "areas", "lines", "points"
PARTS = (AREAS, LINES, POINTS)

Colour = tuple[float, float, float, float]


class Rule(NamedTuple):
    """A rule. `when`: the tags of the features that it is of. `width`: that of lines in pixels at zoom 15. `name`: the
    tag that is written, from the zoom `first` on. `is_own`: whether the colour is that of the layer alone."""

    layer: str
    when: dict[str, Any]
    area: Colour | None
    edge: Colour | None
    line: Colour | None
    casing: Colour | None
    point: Colour | None
    width: float
    name: str | None
    first: float
    is_own: bool = False


def colour_of(text: str) -> Colour:
    """Red, green, blue and opacity, each from 0 to 1. Raises `ValueError`."""
    found = HEX.fullmatch(text)
    if found:
        digits = found[1] if len(found[1]) > 3 else "".join(digit * 2 for digit in found[1])
        red, green, blue, *rest = (int(digits[at : at + 2], 16) / 255 for at in range(0, len(digits), 2))
        return red, green, blue, rest[0] if rest else 1.0
    found = RGBA.fullmatch(text)
    if found is None:
        raise ValueError(f"{text!r} is no colour such as #a9cfe3 or rgba(85, 119, 170, 0.4)")
    red, green, blue = (min(int(part), 255) / 255 for part in found.groups()[:3])
    return red, green, blue, min(float(found[4] or 1), 1.0)


def plain(layer: str) -> str:
    """The layer that people know a layer of a tile by."""
    return layer.removesuffix(OUTLINE) if layer.endswith(OUTLINE) else layer


def rule_of(given: dict[str, Any]) -> Rule:
    """A rule of style.json."""
    area, edge, line, casing, point = (
        colour_of(given[part]) if given.get(part) else None for part in ("area", "edge", "line", "casing", "point")
    )
    return Rule(
        str(given["layer"]),
        dict(given.get("when") or {}),
        area,
        edge,
        line,
        casing,
        point,
        float(given.get("width", 2)),
        given.get("name"),
        float(given.get("from", 0)),
    )


def own_rule(given: dict[str, Any], layer: str, at: int) -> Rule:
    """The rule of one of the layers of "*": the one at this place."""
    colour = colour_of(given["colours"][at % len(given["colours"])])
    rest = rule_of({key: value for key, value in given.items() if key != "colours"})
    return rest._replace(layer=layer, area=(*colour[:3], OPACITY), edge=colour, line=colour, point=colour, is_own=True)


def is_same(one: Any, other: Any) -> bool:
    """Whether two values of tags are equal: true isn't 1."""
    return one == other and isinstance(one, bool) == isinstance(other, bool)


def checked(text: str) -> dict[str, Any]:
    """The style of a file. Raises `Refused` for one that can't be drawn by."""
    try:
        given = json.loads(text)
        Style(given, ["x"])
    except (ValueError, TypeError, LookupError, AttributeError, ZeroDivisionError) as fault:
        raise Refused(f"the style can't be read: {fault}") from fault
    return given


class Style:
    """The rules for a map of these layers. `order`: places of rules, each with what is drawn of it then; of layers with
    a colour of their own all areas are below all lines, and these below all points."""

    def __init__(self, given: dict[str, Any], layers: Iterable[str]) -> None:
        self.background = colour_of(given["background"])
        named = {rule["layer"] for rule in given["rules"]}
        others = sorted({plain(layer) for layer in layers} - named)
        self.rules: list[Rule] = []
        for rule in given["rules"]:
            self.rules += (
                [own_rule(rule, layer, at) for at, layer in enumerate(others)] if "colours" in rule else [rule_of(rule)]
            )
        own = [at for at, rule in enumerate(self.rules) if rule.is_own]
        self.order: list[tuple[int, tuple[str, ...]]] = []
        for at, rule in enumerate(self.rules):
            if not rule.is_own:
                self.order.append((at, PARTS))
            elif at == own[0]:
                self.order += [(place, (part,)) for part in PARTS for place in own]
        self.known: dict[str, list[int]] = {}

    def places_of(self, layer: str) -> list[int]:
        """The places of the rules of a layer."""
        if layer not in self.known:
            own = [at for at, rule in enumerate(self.rules) if rule.layer == plain(layer)]
            self.known[layer] = own or [at for at, rule in enumerate(self.rules) if rule.layer == "*"]
        return self.known[layer]

    def place_of(self, layer: str, tags: dict[str, Any]) -> int | None:
        """The place of a feature's rule, None if it isn't drawn."""
        for at in self.places_of(layer):
            if all(key in tags and is_same(tags[key], value) for key, value in self.rules[at].when.items()):
                return at
        return None


def width(rule: Rule, zoom: float) -> float:
    """The width of a rule's lines in pixels."""
    return max(rule.width * 1.5 ** (zoom - 15), 0.7)
