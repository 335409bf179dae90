"""Draws tiles as the page draws them (web/draw.js). Needs pycairo."""
from __future__ import annotations

import io
import math
from collections.abc import Iterable
from typing import Any, NamedTuple

import cairo

from ..files.vector_tile import AREAS as AREAS_OF_TILE
from ..files.vector_tile import TileFeature
from ..files.vector_tile import LINES as LINES_OF_TILE
from ..geometry.wholes import OUTLINE, WHOLE
from ..markup import sayable
from .style import AREAS, LINES, POINTS, Colour, Style, width

# Points that are drawn at once: of see-through areas that overlap and are in two parts, the second lets the first show.
POINTS_AT_ONCE = 2000
# Pixels of the radius of a point, of its white edge, of a font and of the white around its letters; letters of a name
# that are looked at; and the most names that a place is sought for.
DOT, EDGE, FONT, HALO, MOST_LETTERS, MOST_NAMES = 5, 1.5, 12, 3, 100, 2000
FACE = "DejaVu Sans"
# What a rule draws: areas and their edges, lines that are the edges of areas which the import cut, lines, and points.
DRAWN = ("area", "edge", "outline", "line", "point")
WHITE, INK, AROUND = (1, 1, 1, 1), (0x22 / 255, 0x22 / 255, 0x22 / 255, 1), (1, 1, 1, 0xD0 / 255)

Chain = list[tuple[int, int]]
Box = tuple[float, float, float, float]


class Part(NamedTuple):
    """The part of a tile that a picture shows: where it begins and how long its sides are, in units of the tile; and
    the pixels of a side."""

    left: float
    top: float
    side: float
    pixels: int

    @property
    def unit(self) -> float:
        """The units of a pixel."""
        return self.side / self.pixels


class Name(NamedTuple):
    """A name, where it is written, in units of the tile, and how far it is turned. `length`: that of the line along
    which it is."""

    key: Any
    text: str
    x: float
    y: float
    turn: float = 0
    length: float = math.inf
    is_point: bool = False


class Prepared:
    """What is drawn of a tile: for each rule lists of chains of at most some points each, and the names."""

    def __init__(self, rules: int) -> None:
        self.drawn: list[dict[str, list[list[Chain]]]] = [{what: [] for what in DRAWN} for _ in range(rules)]
        self.counts: dict[tuple[int, str], int] = {}
        self.names: list[Name] = []

    def add(self, at: int, what: str, chains: list[Chain]) -> None:
        """Adds a feature's lists of points to what is drawn at once, or begins the next such part."""
        parts = self.drawn[at][what]
        if not parts or self.counts[at, what] > POINTS_AT_ONCE:
            parts.append([])
            self.counts[at, what] = 0
        parts[-1] += chains
        self.counts[at, what] += sum(map(len, chains))


def box_of(chain: Iterable[tuple[float, float]]) -> Box:
    """The box of points."""
    xs, ys = zip(*chain)
    return min(xs), min(ys), max(xs), max(ys)


def is_seen(chains: list[Chain], part: Part, reach: float) -> bool:
    """Whether the box of a feature meets a part of the tile."""
    boxes = [box_of(chain) for chain in chains if chain]
    if not boxes:
        return False
    west, north, east, south = (of(box[at] for box in boxes) for at, of in enumerate((min, min, max, max)))
    is_beside = west > part.left + part.side + reach or east < part.left - reach
    return not (is_beside or north > part.top + part.side + reach or south < part.top - reach)


def prepared(layers: dict[str, list[TileFeature]], style: Style, zoom: float, part: Part) -> Prepared:
    """What is drawn of a tile in a part of it."""
    made = Prepared(len(style.rules))
    reach = (max([width(rule, zoom) for rule in style.rules], default=0) + 12) * part.unit
    for layer, features in layers.items():
        is_outline = layer.endswith(OUTLINE)
        for number, kind, lists, tags in features:
            at = style.place_of(layer, tags)
            if at is None or not is_seen(lists, part, reach):
                continue
            if kind == AREAS_OF_TILE:
                made.add(at, "area", lists)
                if WHOLE not in tags:
                    made.add(at, "edge", lists)
            elif kind == LINES_OF_TILE:
                made.add(at, "outline" if is_outline else "line", lists)
            else:
                made.add(at, "point", lists)
            rule = style.rules[at]
            if rule.name in tags and not is_outline and rule.first <= zoom:
                text = str(tags[rule.name]).lower() if isinstance(tags[rule.name], bool) else str(tags[rule.name])
                made.names.append(name_of(tags.get(WHOLE, number), text, kind, lists))
    return made


def name_of(key: Any, text: str, kind: int, lists: list[Chain]) -> Name:
    """Where a feature's name is written: at its point, in the middle of its box, or along the longest segment of its
    lines."""
    if kind != LINES_OF_TILE:
        west, north, east, south = box_of(lists[0])
        return Name(key, text, (west + east) / 2, (north + south) / 2, is_point=kind != AREAS_OF_TILE)
    segments = [(one, other) for chain in lists for one, other in zip(chain, chain[1:])] or [(lists[0][0], lists[0][0])]
    (x, y), (to_x, to_y) = max(segments, key=lambda ends: math.dist(*ends))
    return Name(
        key,
        text,
        (x + to_x) / 2,
        (y + to_y) / 2,
        math.atan((to_y - y) / (to_x - x or 1e-9)),
        math.hypot(to_x - x, to_y - y),
    )


# ---- shapes


def trace(board: Any, chains: list[Chain], is_closed: bool) -> None:
    """Adds lists of points to the path: rings if they are closed."""
    for chain in chains:
        board.move_to(*chain[0])
        for point in chain[1:]:
            board.line_to(*point)
        if is_closed:
            board.close_path()


def fill(board: Any, parts: list[list[Chain]], colour: Colour | None) -> None:
    """Draws areas, if they have a colour."""
    for chains in parts if colour else ():
        trace(board, chains, True)
        board.set_source_rgba(*(colour or WHITE))
        board.fill()


def lines(board: Any, parts: list[list[Chain]], is_closed: bool, colour: Colour | None, wide: float) -> None:
    """Draws lines of a width in units of the tile, if they have a colour."""
    for chains in parts if colour else ():
        trace(board, chains, is_closed)
        board.set_source_rgba(*(colour or WHITE))
        board.set_line_width(wide)
        board.stroke()


def dots(board: Any, chains: list[Chain], colour: Colour, unit: float) -> None:
    """Draws points, each above those before."""
    for x, y in (point for chain in chains for point in chain):
        board.arc(x, y, DOT * unit, 0, 2 * math.pi)
        board.set_source_rgba(*colour)
        board.fill_preserve()
        board.set_source_rgba(*WHITE)
        board.set_line_width(EDGE * unit)
        board.stroke()


def draw_shapes(board: Any, made: Prepared, style: Style, zoom: float, unit: float) -> None:
    """Draws the shapes of a tile, in its units."""
    board.set_line_join(cairo.LINE_JOIN_ROUND)
    board.set_line_cap(cairo.LINE_CAP_ROUND)
    for at, kinds in style.order:
        rule, drawn, pixels = style.rules[at], made.drawn[at], width(style.rules[at], zoom)
        if AREAS in kinds:
            fill(board, drawn["area"], rule.area)
            lines(board, drawn["edge"], True, rule.edge, unit)
            lines(board, drawn["outline"], False, rule.edge, unit)
        if LINES in kinds:
            lines(board, drawn["line"], False, rule.casing, (pixels + 1.5) * unit)
            lines(board, drawn["line"], False, rule.line, pixels * unit)
        if POINTS in kinds and rule.point:
            for chains in drawn["point"]:
                dots(board, chains, rule.point, unit)


# ---- names


class Taken:
    """Boxes of a picture, none of which may lie over another, nor beyond its edge."""

    def __init__(self, side: float) -> None:
        self.side = side
        self.boxes: list[Box] = []

    def take(self, box: Box) -> bool:
        """Takes a box. Returns whether it was free."""
        west, north, east, south = box
        if west < 0 or north < 0 or east > self.side or south > self.side:
            return False
        if any(
            west <= other[2] and east >= other[0] and north <= other[3] and south >= other[1] for other in self.boxes
        ):
            return False
        self.boxes.append(box)
        return True


def lefts(name: Name, wide: float) -> list[tuple[float, float]]:
    """Where the text of a name may begin, from its place: beside a point, and above or below it where its sides are
    taken."""
    if not name.is_point:
        return [(-wide / 2, 0)]
    return [(9, 0), (-9 - wide, 0), (-wide / 2, -14), (-wide / 2, 14)]


def write_names(board: Any, made: Prepared, part: Part) -> None:
    """Writes the names, in pixels: each feature's once, none over another or over the edge of the picture, and those of
    points first."""
    taken, written = Taken(part.pixels), set()
    board.select_font_face(FACE, cairo.FONT_SLANT_NORMAL, cairo.FONT_WEIGHT_NORMAL)
    board.set_font_size(FONT)
    for name in sorted(made.names[:MOST_NAMES], key=lambda one: not one.is_point):
        x, y = (name.x - part.left) / part.unit, (name.y - part.top) / part.unit
        if name.key in written or not (0 <= x < part.pixels and 0 <= y < part.pixels):
            continue
        text = sayable(name.text[:MOST_LETTERS]).replace("\n", " ")
        wide = board.text_extents(text).x_advance
        if name.length / part.unit < wide:
            continue
        across, high = abs(math.cos(name.turn)) * wide / 2 + 4, abs(math.sin(name.turn)) * wide / 2 + 8
        for left, down in lefts(name, wide):
            middle = x + left + wide / 2
            if taken.take((middle - across, y + down - high, middle + across, y + down + high)):
                written.add(name.key)
                write(board, text, x, y, name.turn, left, down)
                break


def write(board: Any, text: str, x: float, y: float, turn: float, left: float, down: float) -> None:
    """Writes a text, with white around it."""
    ascent, descent = board.font_extents()[:2]
    board.save()
    board.translate(x, y)
    board.rotate(turn)
    board.move_to(left, down + (ascent - descent) / 2)
    board.text_path(text)
    board.set_source_rgba(*AROUND)
    board.set_line_width(HALO)
    board.set_line_join(cairo.LINE_JOIN_ROUND)
    board.stroke_preserve()
    board.set_source_rgba(*INK)
    board.fill()
    board.restore()


# ---- pictures


def drawn(
    layers: dict[str, list[TileFeature]], style: Style, zoom: float, part: Part, scale: int, is_transparent: bool
) -> Any:
    """The picture of a part of a tile. `scale`: the dots of a pixel."""
    kind = cairo.FORMAT_ARGB32 if is_transparent else cairo.FORMAT_RGB24
    picture = cairo.ImageSurface(kind, part.pixels * scale, part.pixels * scale)
    board = cairo.Context(picture)
    if not is_transparent:
        board.set_source_rgba(*style.background)
        board.paint()
    made = prepared(layers, style, zoom, part)
    board.scale(scale, scale)
    board.save()
    board.scale(1 / part.unit, 1 / part.unit)
    board.translate(-part.left, -part.top)
    draw_shapes(board, made, style, zoom, part.unit)
    board.restore()
    write_names(board, made, part)
    return picture


def pieces(picture: Any, parts: int) -> list[bytes]:
    """A picture as so many PNG files beside each other, and as many rows of them."""
    side = picture.get_width() // parts
    made = []
    for row in range(parts):
        for column in range(parts):
            piece = cairo.ImageSurface(picture.get_format(), side, side)
            board = cairo.Context(piece)
            board.set_source_surface(picture, -column * side, -row * side)
            board.paint()
            file = io.BytesIO()
            piece.write_to_png(file)
            made.append(file.getvalue())
    return made
