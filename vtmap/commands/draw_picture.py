"""What `vtmap draw` draws: tiles as they are decoded, by styles of its own. Needs Pillow."""
from __future__ import annotations

from collections.abc import Iterable, Sequence
from typing import Dict, Optional, Tuple, TypedDict

from PIL import Image, ImageDraw, ImageFont

from ..files.vector_tile import TileFeature
from ..geometry.tiles import area
from ..geometry.wholes import OUTLINE

SHARPER = 4
WATER = "#a9cfe3"


class Style(TypedDict, total=False):
    """How a layer is drawn: colours, and by the tag `kind`, if there is one, colour and width in pixels of lines."""

    fill: str
    edge: str
    line: Dict[Optional[str], Tuple[str, float]]
    point: str


STYLES: dict[str, Style] = {
    "land": {"fill": "#f3efe2"},
    "park": {"fill": "#c3dfb0"},
    "road": {"line": {"main": ("#ffd98a", 7), "street": ("#ffffff", 5), "path": ("#b3a48c", 2)}},
    "building": {"fill": "#cdbfae", "edge": "#a89782"},
    "place": {"point": "#b03a2e"},
}
OTHER: Style = {"fill": "#dddddd", "edge": "#888888", "line": {None: ("#555555", 2)}, "point": "#333333"}


def style_of(name: str) -> Style:
    """The style of a layer. The lines of a layer `NAME-outline` are the edges of polygons of the layer NAME that the import cut."""
    if name.endswith(OUTLINE):
        style = STYLES.get(name.removesuffix(OUTLINE), OTHER)
        return {"line": {None: (style["edge"], 0.5)}} if "edge" in style else {}
    return STYLES.get(name, OTHER)


class Picture:
    """A picture of a part of the map."""

    def __init__(self, zoom: int, left: int, top: int, size: tuple[int, int]) -> None:
        self.zoom, self.left, self.top = zoom, left, top
        self.size = size[0] * SHARPER, size[1] * SHARPER
        self.image = Image.new("RGB", self.size, WATER)
        self.labels: dict[tuple[int, int], tuple[str, str]] = {}

    def places(self, column: int, row: int, points: Iterable[Sequence[float]]) -> list[tuple[float, float]]:
        """The pixels of points of a tile."""
        side = 256 * SHARPER
        return [((column + x / 4096) * side - self.left * SHARPER, (row + y / 4096) * side - self.top * SHARPER) for x, y in points]

    def draw(self, style: Style, column: int, row: int, features: Iterable[TileFeature]) -> None:
        """Draws the features of one layer of one tile."""
        board = ImageDraw.Draw(self.image)
        for _, kind, lists, tags in features:
            drawn = [self.places(column, row, points) for points in lists]
            if kind == 3 and "fill" in style:
                # A polygon that the import cut has its outline as lines of another layer.
                self.polygons(style, lists, drawn, "edge" in style and "whole" not in tags)
            elif kind == 2 and "line" in style:
                rows = style["line"]
                colour, width = rows.get(tags.get("kind")) or next(iter(rows.values()))
                for line in drawn:
                    board.line(line, fill=colour, width=round(width * SHARPER), joint="curve")
                    for x, y in (line[0], line[-1]):
                        far = width * SHARPER / 2
                        board.ellipse([x - far, y - far, x + far, y + far], fill=colour)
            elif kind == 1 and "point" in style:
                for [(x, y)] in drawn:
                    self.labels[(round(x), round(y))] = (style["point"], tags.get("name", ""))

    def polygons(self, style: Style, lists: list, drawn: list[list[tuple[float, float]]], has_edge: bool) -> None:
        """Draws polygons by a mask, so that what is below shows in their holes."""
        mask = Image.new("1", self.size)
        board = ImageDraw.Draw(mask)
        for ring, pixels in zip(lists, drawn):
            board.polygon(pixels, fill=1 if area(ring) > 0 else 0)
        self.image.paste(style["fill"], mask=mask)
        if has_edge:
            for pixels in drawn:
                ImageDraw.Draw(self.image).line([*pixels, pixels[0]], fill=style["edge"], width=SHARPER // 2)

    def finished(self) -> Image.Image:
        """The picture in its own size, with points and their names."""
        image = self.image.resize((self.size[0] // SHARPER, self.size[1] // SHARPER), Image.LANCZOS)
        board, font = ImageDraw.Draw(image), ImageFont.load_default()
        for (left, top), (colour, name) in sorted(self.labels.items()):
            x, y = left / SHARPER, top / SHARPER
            board.ellipse([x - 5, y - 5, x + 5, y + 5], fill=colour, outline="white")
            for dx, dy in [(-1, 0), (1, 0), (0, -1), (0, 1)]:
                board.text((x + 8 + dx, y - 6 + dy), name, fill="white", font=font)
            board.text((x + 8, y - 6), name, fill="#222222", font=font)
        # Pillow before 9.1 has the names of methods beside its classes.
        return image.quantize(64, method=getattr(Image, "Quantize", Image).FASTOCTREE, dither=getattr(Image, "Dither", Image).NONE)
