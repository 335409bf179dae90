"""What differs between two versions of a feature, and the name of a feature, as people read them: Needs no package."""
from typing import Any, Optional

from ..shown import shown

ZOOMS = ("minzoom", "maxzoom")
# A feature as the server has it.
Feature = dict[str, Any]


def said_of(feature: Feature) -> dict[str, Any]:
    """The tags of a feature, and its layer and zooms beside them."""
    return {**feature["tags"], **{f"({name})": feature[name] for name in ("layer", *ZOOMS)}}


def told_change(before: Optional[Feature], after: Optional[Feature]) -> str:
    """What one version of a feature changed of another."""
    if after is None or before is None:
        return "deleted" if after is None else "put anew"
    old, new = said_of(before), said_of(after)
    parts = [f"{shown(name)}: {old.get(name)!r} -> {new.get(name)!r}" for name in sorted({*old, *new}) if old.get(name) != new.get(name)]
    return ", ".join(parts + (["its shape"] if before["geometry"] != after["geometry"] else [])) or "nothing"


def told_difference(one: Optional[Feature], other: Optional[Feature]) -> str:
    """What the map has of a feature, and the file."""
    if one is None or other is None:
        return "it isn't on the map" if one is None else "it isn't in the file"
    old, new = said_of(one), said_of(other)
    parts = [f"{shown(name)}: {old.get(name)!r} on the map, {new.get(name)!r} in the file" for name in sorted({*old, *new}) if old.get(name) != new.get(name)]
    return ", ".join(parts + (["its shape"] if one["geometry"] != other["geometry"] else [])) or "the shapes of its pieces"


def named(number: int, feature: Any, text: Optional[str] = None) -> str:
    """The layer and the id of a feature, the text that its file has as its id, and its name if it has one."""
    parts = [part for part in (text, feature["tags"].get("name")) if isinstance(part, str)]
    return f"{shown(feature['layer'])} {number}" + (f" ({', '.join(repr(part) for part in dict.fromkeys(parts))})" if parts else "")
