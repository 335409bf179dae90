"""The features of the map that an edited feature becomes: itself, or its pieces. Needs GDAL's Python module for shapes
that are cut alone."""
from __future__ import annotations

from collections.abc import Container
from typing import Any

from ..forms import Feature
from ..interpreters import has
from ..limits import GREATEST_ZOOM
from .shapes import SAFE, Unfit, points_of
from .wholes import OUTLINE, PIECE, WHOLE


def pieces_of(row: Any, now: Container[int]) -> dict[int, Feature]:
    """The features by their ids that a row is to be on the map. Raises `Unfit`. A new row has no id that is somebody
    else's. A row has a `number`, the `feature` that it is to be (None: deleted), its `base`, which is the whole that
    the map has of it (None of a new one), and what was `seen`."""
    base, feature = row.base, row.feature
    if feature is None:
        return {}
    is_cut = base is not None and len(base.pieces) > 1
    if is_cut and feature["geometry"] == base.feature["geometry"]:
        return {
            number: {
                **feature,
                "layer": feature["layer"] + (OUTLINE if was["layer"].endswith(OUTLINE) else ""),
                "geometry": was["geometry"],
                "tags": {**feature["tags"], WHOLE: base.number},
            }
            for number, was in base.pieces.items()
        }
    if base is not None and feature["geometry"] == base.feature["geometry"]:
        return {row.number: feature}
    made = cut(row, is_cut)
    ids = [row.number, *(number for number in (base.pieces if base else ()) if number != row.number)]
    step = 1
    while len(ids) < len(made):
        number = row.number + step * PIECE
        if number not in ids and (base is not None or number in row.seen or number not in now):
            ids.append(number)
        step += 1
    return dict(zip(ids, made))


def cut(row: Any, is_cut: bool) -> list[Feature]:
    """The features of a new shape: itself, or its pieces."""
    feature = row.feature
    ((kind, lists),) = feature["geometry"].items()
    if kind == "points" or not 0 <= feature["minzoom"] <= feature["maxzoom"] <= GREATEST_ZOOM:
        return [feature]
    if has("osgeo"):
        from .feature_cutter import FeatureCutter

        cutter = FeatureCutter(range(feature["minzoom"], feature["maxzoom"] + 1))
        return cutter.features(row.number, (kind, lists), feature["tags"], feature["layer"])[0]
    if is_cut or is_large(feature):
        raise Unfit(
            "it is so large that it has to be cut, which needs GDAL's Python module (Debian: python3-gdal), and no "
            "python3 here has it"
        )
    return [feature]


def is_large(feature: Feature) -> bool:
    """Whether a shape may be larger than a tile of its last zoom."""
    xs, ys = zip(*points_of(feature["geometry"]))
    return max(max(xs) - min(xs), max(ys) - min(ys)) > SAFE << (20 - feature["maxzoom"])
