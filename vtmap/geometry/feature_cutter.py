"""Large features cut into pieces that every renderer draws right. `wholes.py` puts them together again. Needs GDAL's
Python module."""
from __future__ import annotations

from collections.abc import Sequence

from ..client.edits import encoded
from ..forms import Feature, Tags
from ..limits import GREATEST_ZOOM, MOST_BODY, NUMBER_END
from .cutting import Cutter, on_the_world, outline
from .shapes import Shape, Unfit, count, is_shown, list_count, rounded
from .wholes import OUTLINE, WHOLE


class FeatureCutter:
    """Cuts features that are shown at some zooms. `split_zoom`: into the cells of that zoom. `whole`: the tag with the
    id of the whole."""

    def __init__(
        self,
        zooms: Sequence[int],
        split_zoom: int | None = None,
        cuts: bool = True,
        outlines: bool = True,
        whole: str = WHOLE,
    ) -> None:
        self.zooms, self.cuts, self.outlines, self.whole = zooms, cuts, outlines, whole
        self.cutter = Cutter(zooms, split_zoom)

    def about(self, shape: Shape, many: int) -> int:
        """About how many pieces a shape is cut into, before it is, if that may be as many as `many`."""
        if not self.cuts or self.cutter.about(shape, many) < many:
            return 1
        return self.cutter.about(on_the_world(shape)[0], many)

    def features(self, number: int, shape: Shape, tags: Tags, layer: str) -> tuple[list[Feature], bool]:
        """The features to put for one of this id: itself, or its pieces, then the lines of its outline. Also whether it
        crosses the 180th meridian, where it is cut in any case. Raises `Unfit`."""
        rest: Feature = {"layer": layer, "minzoom": self.zooms[0], "maxzoom": self.zooms[-1]}
        on_world, crosses = on_the_world(shape)
        whole = rounded(on_world)
        if whole is None:
            raise Unfit("it has no extent and is never shown: its area is 0, or all points of its line are one place")
        pieces = self.pieces(on_world, tags, layer) if self.cuts else [whole]
        if len(pieces) == 1:
            return [checked({**rest, "geometry": dict(pieces), "tags": tags})], crosses
        if self.whole in tags:
            raise Unfit(f"it has a tag {self.whole}, which names the whole of a piece: give another name by --whole")
        tags = {**tags, self.whole: number}
        made = [{**rest, "geometry": dict([piece]), "tags": tags} for piece in pieces]
        if shape[0] == "polygons" and self.outlines:
            rest["layer"] += OUTLINE
            made += [
                {**rest, "geometry": dict([piece]), "tags": tags}
                for piece in self.pieces(on_the_world(outline(shape))[0], tags, layer)
            ]
        return [checked(piece) for piece in made], crosses

    def pieces(self, shape: Shape, tags: Tags, layer: str) -> list[Shape]:
        """The pieces of a shape that are shown at the greatest zoom, or all if none is."""
        longest: Tags = {**tags, self.whole: NUMBER_END}
        rest = {
            "layer": layer + OUTLINE,
            "minzoom": 0,
            "maxzoom": GREATEST_ZOOM,
            "geometry": {"polygons": []},
            "tags": longest,
        }
        body = len(encoded(rest))
        made = [piece for piece in map(rounded, self.cutter.pieces(shape, body, body)) if piece]
        shown = [piece for piece in made if is_shown(piece, self.zooms[-1])]
        if not made:
            raise Unfit("it is too narrow to be cut")
        return shown or made


def checked(feature: Feature) -> Feature:
    """The feature, if it isn't too large for a request."""
    length = len(encoded(feature))
    if length > MOST_BODY:
        (shape,) = feature["geometry"].items()
        raise Unfit(
            f"its JSON has {length:,} bytes, over {MOST_BODY:,}: {count(shape):,} points in {list_count(shape):,} lists"
        )
    return feature
