"""A stand-in for a server that has boxes (`/admin/features/box/`): a port in front of one that has none, which makes
each reply from the server's list of features, with its limits: 64 KiB of JSON, and 1,024 features looked at."""
import json
import re
import urllib.request
from typing import Any

from .between import Between

PATH = re.compile(r"/admin/features/box/(0|[1-9]\d*),(0|[1-9]\d*),(0|[1-9]\d*),(0|[1-9]\d*)/from/(0|[1-9]\d*)")
MOST_BYTES, MOST_LOOKED, EDGE = 65536, 1024, 2**32 - 1
NOT_FOUND = 404, b"NotFound\n"


class Boxes(Between):
    """The port. `many`: from how many features of the map on a page ends after those that were looked at."""

    def __init__(self, server: Any, many: int = 0) -> None:
        self.many = many
        super().__init__(server, instead=self.answered)

    def answered(self, method: str, path: str) -> Any:
        """The reply to a request for a box; None for another one."""
        if not path.startswith("/admin/features/box/"):
            return None
        found = PATH.fullmatch(path)
        if not found or method not in ("GET", "HEAD"):
            return NOT_FOUND if not found else (405, b"Method\n")
        x0, y0, x1, y1, first = map(int, found.groups())
        if max(x0, y0, x1, y1) > EDGE or x0 > x1 or y0 > y1 or first >= 2**63:
            return NOT_FOUND
        return 200, json.dumps(self.page((x0, y0, x1, y1), first), separators=(",", ":")).encode()

    def page(self, box: tuple[int, int, int, int], first: int) -> dict[str, Any]:
        """A page of a box."""
        rows, size, looked, at = [], 0, 0, first
        while True:
            url = f"http://127.0.0.1:{self.port}/admin/features/page/{at}"
            with urllib.request.urlopen(url, timeout=120) as reply:
                page = json.load(reply)
            for row in page["features"]:
                if size >= MOST_BYTES or (looked >= MOST_LOOKED and self.many == 0):
                    return {"features": rows, "next": row["id"]}
                looked += 1
                if is_in(row["feature"]["geometry"], box):
                    rows.append(row)
                    size += len(json.dumps(row))
            if page["next"] is None:
                return {"features": rows, "next": None}
            at = page["next"]


def is_in(geometry: dict[str, Any], box: tuple[int, int, int, int]) -> bool:
    """Whether the box of a geometry has a point in common with another box."""
    xs, ys = zip(*points_in(geometry))
    return min(xs) <= box[2] and max(xs) >= box[0] and min(ys) <= box[3] and max(ys) >= box[1]


def points_in(part: Any) -> list[list[int]]:
    """The points of a geometry, or of a part of it."""
    if isinstance(part, dict):
        return points_in(list(part.values()))
    return [part] if part and isinstance(part[0], int) else [point for one in part for point in points_in(one)]
