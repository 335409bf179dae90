"""The fixed forms of JSON that servers and files of maps have (docs/HTTP.md, docs/FORMATS.md), for annotations. Needs no
package."""
from typing import Any, Dict, List, Optional, Tuple, TypedDict, Union

# The value of a tag, and the tags of a feature.
Value = Union[bool, int, str]
Tags = Dict[str, Value]
# A geometry: its kind with its lists. How deep these are depends on the kind.
Geometry = Dict[str, list]
# A feature, with its layer, minzoom, maxzoom, geometry and tags. It is no TypedDict: mypy 1.0, which Debian 12 has,
# takes no `{**feature, ..}` for one.
Feature = Dict[str, Any]
# The status and the content of a reply.
Reply = Tuple[int, bytes]


class ListedChange(TypedDict, total=False):
    """A change as the feed lists it, and as a log has it: `put` with `feature`, or `delete`. `was`: what it replaced, as
    far as that is known."""

    put: int
    feature: Feature
    delete: int
    was: Optional[Feature]


class ListedEdit(TypedDict):
    """An edit as the feed lists it."""

    edit: int
    changes: List[ListedChange]


class LogRow(TypedDict, total=False):
    """A line of a log: an edit, or the numbers of the first and the last one that are missing, or where it begins."""

    time: str
    since: str
    edit: int
    changes: List[ListedChange]
    missed: List[int]
    begins: int


class ListedFeature(TypedDict):
    """A feature as the list of a server has it."""

    id: int
    feature: Feature


class Journal(TypedDict, total=False):
    """The sectors of the journal, how many of them are used, and the last edit that is no longer listed. An older server
    tells nothing of that one."""

    places: int
    used: int
    forgotten: int


class Area(TypedDict):
    """The sectors of an area, and how many of them are used."""

    sectors: int
    used: int


class Status(TypedDict, total=False):
    """What a server tells of itself. An older one tells less."""

    archive: int
    area: Area
    broken: bool
    cells: int
    digest: str
    edits: int
    features: int
    generation: int
    journal: Journal
    last: Optional[int]
    left: Optional[int]
    published: int
    sectors: int
    stale: int
    version: int


def id_of(change: ListedChange) -> int:
    """The id of the feature of a change."""
    return change["put"] if "put" in change else change["delete"]
