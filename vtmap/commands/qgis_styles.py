"""How a QGIS project draws the layers of a map: by the rules of the page's style.json, and in a colour of its own each layer that they don't name.
"""
from __future__ import annotations

import json
import os
import re
from collections.abc import Collection
from typing import Any, Dict, Tuple
from xml.sax.saxutils import quoteattr

from ..client.client import Client
from ..faults import NoAnswer
from ..forms import Tags, Value
from ..geometry.wholes import OUTLINE

# The style of the page in a clone, for a server whose nginx has no page.
PAGE = os.path.join(os.path.dirname(os.path.abspath(__file__)), "..", "..", "web", "style.json")
NO_STYLE = {"background": "#a9cfe3", "rules": []}
WHOLE = '"whole" IS NULL'
# Colours of the layers that no rule names, if the page's style doesn't say them. An area lets what is below it show.
COLOURS = ["#2f5f8f", "#b3262b", "#2e7031", "#9a4a00", "#7a3b8c", "#6b4a33", "#0d6b6b", "#735a00", "#a02c66", "#4a4a4a"]
SEEN_THROUGH = 110

STYLE = """
          <style name={name} geometry="{geometry}" layer={layer} enabled="1" min-zoom="-1" max-zoom="-1" expression={expression}>
            <symbols>
              <symbol type="{symbol}" name="0" alpha="1" clip_to_extent="1" force_rhr="0">
                <layer class="{drawn}" enabled="1" pass="0" locked="0">
                  <Option type="Map">{options}
                  </Option>
                </layer>
              </symbol>
            </symbols>
          </style>"""
# A style as the page has it, a rule of it; and of each kind: QGIS's number and name of the geometry, the symbol, and
# what draws it.
Style = Dict[str, Any]
Rule = Dict[str, Any]
Kind = Tuple[int, str, str, str]
AREA, LINE, POINT = (2, "Polygon", "fill", "SimpleFill"), (1, "Line", "line", "SimpleLine"), (0, "Point", "marker", "SimpleMarker")


def page_style(client: Client) -> Style:
    """The style of the page at the server, or else that of a clone, or one without rules."""
    try:
        status, content = client.ask("GET", "/pages/style.json")
        if status == 200:
            return {**NO_STYLE, **json.loads(content)}
    except (NoAnswer, ValueError, TypeError):
        pass
    try:
        with open(PAGE, encoding="utf-8") as file:
            return json.load(file)
    except OSError:
        return NO_STYLE


def numbers(colour: str) -> list[int]:
    """Red, green, blue and opacity of `#a9cfe3` or `rgba(85, 119, 170, 0.4)`, each 0 to 255."""
    if colour.startswith("#"):
        return [int(colour[at:at + 2], 16) for at in (1, 3, 5)] + [255]
    found = re.fullmatch(r"rgba\((\d+), *(\d+), *(\d+), *([0-9.]+)\)", colour)
    if found is None:
        raise ValueError(f"{colour} is no colour")
    red, green, blue, opacity = found.groups()
    return [int(red), int(green), int(blue), round(255 * float(opacity))]


def background(style: Style) -> list[int]:
    """Red, green and blue of what is below everything."""
    return numbers(style["background"])[:3]


def comma(colour: str) -> str:
    """A colour as QGIS writes it."""
    return ",".join(map(str, numbers(colour)))


def literal(value: Value) -> str:
    """A tag's value in an expression of QGIS."""
    return "'" + value.replace("'", "''") + "'" if isinstance(value, str) else str(value)


def condition(tags: Tags) -> str:
    """The expression that a feature has these tags."""
    return " AND ".join(f'coalesce("{key}" = {literal(value)}, false)' for key, value in tags.items())


class Styles:
    """The styles of a project, as XML, the first one undermost."""

    def __init__(self, outlines: bool) -> None:
        self.outlines, self.made = outlines, []

    def add(self, layer: str, kind: Kind, conditions: list[str], **values: str) -> None:
        """Adds a style of the features of a layer (of all layers if it is empty) that have a geometry of this kind and meet the conditions."""
        geometry, name, symbol, drawn = kind
        options = "".join(f'\n                    <Option type="QString" name="{key}" value="{value}"/>' for key, value in values.items())
        self.made.append(STYLE.format(
            name=quoteattr(f"{layer} {name}".strip()),
            geometry=geometry,
            layer=quoteattr(layer),
            expression=quoteattr(" AND ".join([f"geometry_type($geometry) = '{name}'", *conditions])),
            symbol=symbol,
            drawn=drawn,
            options=options,
        ))

    def areas(self, layer: str, rule: Rule, conditions: list[str]) -> None:
        colour = comma(rule["area"])
        # A thin line of the same colour hides where pieces meet; of a colour that one sees through it would show it.
        line = {"outline_color": colour, "outline_width": "0.7", "outline_width_unit": "Pixel"} if colour.endswith(",255") else {"outline_style": "no"}
        self.add(layer, AREA, conditions, color=colour, **line)
        if "edge" in rule:
            seen = conditions if self.outlines else [*conditions, WHOLE]
            self.add(layer, AREA, seen, style="no", outline_color=comma(rule["edge"]), outline_width="1", outline_width_unit="Pixel")

    def lines(self, layer: str, colour: str, width: float, conditions: list[str]) -> None:
        shape = {"capstyle": "round", "joinstyle": "round", "line_width_unit": "Pixel"}
        self.add(layer, LINE, conditions, line_color=comma(colour), line_width=f"{width:g}", **shape)

    def points(self, layer: str, rule: Rule, conditions: list[str]) -> None:
        self.add(layer, POINT, conditions, name="circle", color=comma(rule["point"]), outline_color="255,255,255,255", size="2.5")

    def draw(self, layer: str, rule: Rule, conditions: list[str]) -> None:
        """Adds what a rule draws of a layer."""
        if "area" in rule:
            self.areas(layer, rule, conditions)
        width = 0.6 * rule.get("width", 2)
        if "casing" in rule:
            self.lines(layer, rule["casing"], width + 2, conditions)
        if "line" in rule:
            self.lines(layer, rule["line"], width, conditions)
        if "point" in rule:
            self.points(layer, rule, conditions)


def own_rule(place: int, colours: list[str]) -> Rule:
    """The rule of a layer that the page's rules don't name: the colour of its place among these."""
    colour = colours[place % len(colours)]
    red, green, blue, _ = numbers(colour)
    return {"area": f"rgba({red}, {green}, {blue}, {SEEN_THROUGH / 255:.2f})", "edge": colour, "line": colour, "point": colour, "width": 3.5}


def styled(style: Style, layers: Collection[str], outlines: bool) -> str:
    """The styles of these layers, as XML, by the page's style; of no layers, one for all."""
    styles, rules = Styles(outlines), [rule for rule in style["rules"] if rule["layer"] != "*"]
    plain = {layer.removesuffix(OUTLINE) for layer in layers}
    colours = next((rule["colours"] for rule in style["rules"] if "colours" in rule), COLOURS)
    others = {layer: own_rule(place, colours) for place, layer in enumerate(sorted(plain - {rule["layer"] for rule in rules}))}
    for place, rule in enumerate(rules):
        if rule["layer"] in plain:
            before = [f"NOT ({condition(other['when'])})" for other in rules[:place] if other["layer"] == rule["layer"] and "when" in other]
            styles.draw(rule["layer"], rule, [*([condition(rule["when"])] if "when" in rule else []), *before])
            if "edge" in rule:
                styles.lines(rule["layer"] + OUTLINE, rule["edge"], 1, [])
    # Of the others all areas are below all lines, and these below all points.
    for part in (["area", "edge"], ["line", "width"], ["point"]):
        for layer, rule in others.items() if plain else [("", own_rule(0, colours))]:
            styles.draw(layer, {key: rule[key] for key in part}, [])
            if part[0] == "line" and layer:
                styles.lines(layer + OUTLINE, rule["line"], 1, [])
    return "".join(styles.made)
