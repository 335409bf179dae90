"""Features of the map as features of GeoJSON, and back. Needs no package."""
from typing import Any

from ..forms import Feature, Geometry
from .world import degrees, world


def geojson_of(number: int, feature: Feature) -> dict[str, Any]:
    """A feature of the map as one of GeoJSON, its rings in their directions."""
    ((kind, parts),) = feature["geometry"].items()
    places: list
    if kind == "points":
        name, places = "Point", [degrees(point) for point in parts]
    elif kind == "lines":
        name, places = "LineString", [[degrees(point) for point in line] for line in parts]
    else:
        name, places = "Polygon", [
            [[degrees(point) for point in [*ring, ring[0]]] for ring in rings] for rings in parts
        ]
    geometry = (
        {"type": name, "coordinates": places[0]}
        if len(places) == 1
        else {"type": "Multi" + name, "coordinates": places}
    )
    rest = {name: feature[name] for name in ("layer", "minzoom", "maxzoom")}
    return {"type": "Feature", "id": number, **rest, "properties": feature["tags"], "geometry": geometry}


def feature_of(row: dict[str, Any]) -> Feature:
    """The body of a PUT, from a feature that `geojson_of` made."""
    name, places = row["geometry"]["type"], row["geometry"]["coordinates"]
    if not name.startswith("Multi"):
        places = [places]
    geometry: Geometry
    if name.endswith("Point"):
        geometry = {"points": [world(place) for place in places]}
    elif name.endswith("LineString"):
        geometry = {"lines": [[world(place) for place in line] for line in places]}
    else:
        geometry = {"polygons": [[[world(place) for place in ring[:-1]] for ring in rings] for rings in places]}
    return {
        **{name: row[name] for name in ("layer", "minzoom", "maxzoom")},
        "geometry": geometry,
        "tags": row["properties"],
    }
