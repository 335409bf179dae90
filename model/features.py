"""Features as JSON, their limits and faults (docs/HTTP.md), and the metadata of a map (docs/FORMATS.md).

A feature is a dict of its five members. Its tags are a dict from keys to values, or a list of pairs where their order is to be wrong.
It shares no code with the product.
"""
import json

import json_text
import tiles
from disk import LONGEST, MAX_CHANGES, Change, text_of
from limits import MAX_ZOOM, MAX_TILES

GEOMETRIES = ("points", "lines", "polygons")


class Fault(Exception):
    """Why a text is no feature, by the word that is told."""


# ---- reading


def value_of(text):
    """The JSON value of a text."""
    try:
        return json_text.value_of(text)
    except ValueError as error:
        raise Fault("Json") from error


def is_whole(value):
    return isinstance(value, int) and not isinstance(value, bool)


def check_members(value):
    """E1: an object with exactly the five members, each of its kind."""
    members = {"layer", "minzoom", "maxzoom", "geometry", "tags"}
    if not isinstance(value, dict) or set(value) != members:
        raise Fault("E1 Member")
    geometry = value["geometry"]
    kinds = [
        isinstance(value["layer"], str),
        all(is_whole(value[zoom]) and 0 <= value[zoom] <= 255 for zoom in ("minzoom", "maxzoom")),
        isinstance(geometry, dict) and len(geometry) == 1 and set(geometry) <= set(GEOMETRIES) and isinstance([*geometry.values()][0], list),
        isinstance(value["tags"], dict),
    ]
    if not all(kinds):
        raise Fault("E1 Member")


def is_list(value, least, is_item):
    return isinstance(value, list) and least <= len(value) <= 65535 and all(is_item(item) for item in value)


def is_point(value):
    return isinstance(value, list) and len(value) == 2 and all(is_whole(w) and 0 <= w < 2**32 for w in value)


def is_line(value):
    return is_list(value, 2, is_point)


def is_ring(value):
    return is_list(value, 3, is_point)


def is_polygon(value):
    return is_list(value, 1, is_ring)


ITEMS = {"points": is_point, "lines": is_line, "polygons": is_polygon}


def is_name(text):
    return 1 <= len(text.encode()) <= 64


def check_geometry(geometry):
    ((kind, items),) = geometry.items()
    if not is_list(items, 1, ITEMS[kind]):
        raise Fault("E5 Geometry")


def check_layer_and_zooms(feature):
    if not is_name(feature["layer"]):
        raise Fault("E3 Layer")
    if not feature["minzoom"] <= feature["maxzoom"] <= MAX_ZOOM:
        raise Fault("E4 Zoom")


def tag_pairs(feature):
    """The tags in their order; those of a dict in the order of their keys' bytes."""
    tags = feature["tags"]
    return tags if isinstance(tags, list) else sorted(tags.items(), key=lambda tag: tag[0].encode())


def check_keys(feature):
    keys = [key.encode() for key, _ in tag_pairs(feature)]
    if len(keys) > 64 or not all(1 <= len(key) <= 64 for key in keys) or any(a >= b for a, b in zip(keys, keys[1:])):
        raise Fault("E6 Tags")


def is_value(value):
    if isinstance(value, str):
        return len(value.encode()) <= 1024
    return isinstance(value, bool) or is_whole(value)


def check_values(feature):
    if not all(is_value(value) for _, value in tag_pairs(feature)):
        raise Fault("E7 Value")


def check_fields(feature):
    """E3 to E7, the first in this order."""
    check_layer_and_zooms(feature)
    check_geometry(feature["geometry"])
    check_keys(feature)
    check_values(feature)


def feature_of(text):
    """The feature of a JSON text, or its first fault: `Json`, E1, and E3 to E7."""
    value = value_of(text)
    check_members(value)
    check_fields(value)
    return value


def change_of(value):
    """E1 of a change: an object with exactly `put`, a whole number, and `feature`, or with exactly `delete`."""
    if not isinstance(value, dict) or set(value) not in ({"put", "feature"}, {"delete"}):
        raise Fault("E1 Member")
    ((number,),) = [[value[word] for word in ("put", "delete") if word in value]]
    if not is_whole(number) or number < 0:
        raise Fault("E1 Member")
    if "feature" in value:
        check_members(value["feature"])
    return Change(number, value.get("feature"))


def changes_in(text):
    """The list of the changes in an edit's JSON text."""
    value = value_of(text)
    if not isinstance(value, dict) or set(value) != {"changes"} or not isinstance(value["changes"], list):
        raise Fault("E1 Member")
    return value["changes"]


def body_of(text):
    """The changes of an edit's JSON text, or its first fault: `Json`, E1 of any change, and then those of `check_changes`."""
    found = [change_of(change) for change in changes_in(text)]
    check_changes(found)
    return found


def checked_of(text):
    """The changes of a checked edit's JSON text, and the feature that its author saw of each number, or None. Or its first fault: `Json`, E1 of
    any change and of any feature that was seen, those of `check_changes`, and then E3 to E7 of the features that were seen.
    """
    changes, seen = changes_in(text), []
    for change in changes:
        if not isinstance(change, dict) or "was" not in change:
            raise Fault("E1 Member")
        seen.append(change["was"])
    found = [change_of({name: value for name, value in change.items() if name != "was"}) for change in changes]
    for feature in seen:
        if feature is not None:
            check_members(feature)
    check_changes(found)
    for feature in seen:
        if feature is not None:
            check_fields(feature)
    return found, seen


def changes_of(text):
    """The changes of an edit's JSON text, which are together not too long, or its first fault."""
    found = body_of(text)
    check_batch(found)
    return found


# ---- limits


def check(number, feature):
    """E2 to E8, the first in this order."""
    if number >= 2**63:
        raise Fault("E2 Number")
    check_fields(feature)
    tags = dict(tag_pairs(feature))
    if len(text_of(Change(number, feature | {"tags": tags}))) > LONGEST:
        raise Fault("E8 Long")


def check_reach(feature):
    if tiles.reach(feature) > MAX_TILES:
        raise Fault("E9 Reach")


def check_changes(changes):
    """E10, E11, and of each change E2 to E7, the first in this order."""
    if not 1 <= len(changes) <= MAX_CHANGES:
        raise Fault("E10 Batch")
    if len({change.number for change in changes}) < len(changes):
        raise Fault("E11 Twice")
    for change in changes:
        if change.number >= 2**63:
            raise Fault("E2 Number")
        if change.feature:
            check_fields(change.feature)


def check_batch(changes):
    """Those of `check_changes`, and then E8 of their texts together."""
    check_changes(changes)
    if sum(len(text_of(change)) for change in changes) > LONGEST:
        raise Fault("E8 Long")


# ---- writing


def compact(value):
    """JSON without blanks, the members of an object in the order of their keys' bytes."""
    if isinstance(value, dict):
        members = sorted(value.items(), key=lambda member: member[0].encode())
        return "{" + ",".join(f"{compact(key)}:{compact(inner)}" for key, inner in members) + "}"
    if isinstance(value, list):
        return "[" + ",".join(compact(inner) for inner in value) + "]"
    return json.dumps(value, ensure_ascii=False)


def field_kind(value):
    if isinstance(value, str):
        return "String"
    return "Boolean" if isinstance(value, bool) else "Number"


def layer_metadata(name, features):
    fields = {}
    for feature in features:
        for key, value in feature["tags"].items():
            fields[key] = field_kind(value) if fields.get(key, field_kind(value)) == field_kind(value) else "String"
    return {
        "id": name,
        "fields": fields,
        "minzoom": min(feature["minzoom"] for feature in features),
        "maxzoom": max(feature["maxzoom"] for feature in features),
    }


def metadata(features):
    """The metadata of a map from numbers to features."""
    by_layer = {}
    for feature in features.values():
        by_layer.setdefault(feature["layer"], []).append(feature)
    names = sorted(by_layer, key=str.encode)
    return compact({"vector_layers": [layer_metadata(name, by_layer[name]) for name in names]})
