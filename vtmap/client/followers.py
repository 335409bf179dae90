"""How a publication waits for who follows the edits: published edits leave their list at the next start of the server, or when newer ones need their
places. Needs no package.

VTSERVE_PAUSE has the seconds that each command that publishes waits after the beginning, VTSERVE_STANDBYS the addresses of standbys, and VTSERVE_LOGS
the paths of logs, with blanks between them: with those it waits until each of them has the edits, VTSERVE_PAUSE seconds at most.
"""
from __future__ import annotations

import os
import time
from collections.abc import Callable, Iterable
from typing import Any

from ..faults import Fault, Wrong

# The most seconds that are waited for standbys and logs, if nothing else is said, and the seconds between two looks at them.
LONGEST, EACH = 60, 0.1
# The file beside a log that has the number of its last edit.
NUMBER = ".at"


def seconds(text: str) -> float:
    """A number of seconds, at most an hour."""
    found = float(text)
    if not 0 <= found <= 3600:
        raise ValueError(text)
    return found


def said() -> tuple[float | None, list[str], list[str]]:
    """What the environment says: the seconds, or None, the addresses of standbys, and the paths of logs."""
    text = os.environ.get("VTSERVE_PAUSE")
    try:
        length = seconds(text) if text else None
    except ValueError as fault:
        raise Wrong(f"VTSERVE_PAUSE: {text!r} is no number of seconds") from fault
    return length, os.environ.get("VTSERVE_STANDBYS", "").split(), os.environ.get("VTSERVE_LOGS", "").split()


class Log:
    """A log that `vtmap follow --log` writes, as one who follows the edits."""

    def __init__(self, path: str) -> None:
        self.address = path

    def status(self) -> dict[str, int] | None:
        """The number of its last edit, as a server tells it, or None if that can't be read."""
        try:
            with open(self.address + NUMBER, encoding="ascii") as file:
                return {"edits": int(file.read())}
        except (OSError, ValueError):
            return None


class Wait:
    """How long a publication waits: for standbys and logs until they have its edits, and otherwise the whole time."""

    def __init__(self, length: float | None, standbys: Iterable, logs: Iterable[str]) -> None:
        self.followers = [*standbys, *map(Log, logs)]
        self.length = length if length is not None else LONGEST if self.followers else 0

    def __str__(self) -> str:
        return f"waiting at most {self.length:g} s for {' and '.join(one.address for one in self.followers)}" if self.followers else (
            f"waiting {self.length:g} s for who follows the edits")

    def wait(self, edits: int, is_over: Callable[[], bool] = lambda: False) -> list:
        """Waits. `edits`: the number of the last edit of the publication's beginning, or a later one. Returns who lacks some of them."""
        end, late = time.monotonic() + self.length, self.followers
        while not is_over() and (late or not self.followers) and time.monotonic() < end:
            late = [one for one in late if lacks(one, edits)]
            if late or not self.followers:
                time.sleep(min(EACH, self.length))
        return late


def lacks(follower: Any, edits: int) -> bool:
    """Whether a standby or a log lacks an edit, or doesn't say."""
    try:
        status = follower.status()
    except Fault:
        return True
    return status is None or status["edits"] < edits


def told_late(follower: Any) -> str:
    """What may become of who lacks some of a publication's edits."""
    then = "they are missing in it" if isinstance(follower, Log) else "it has to begin anew"
    return f"{follower.address} lacks edits that this publication has: if the server is started again before it reads them, {then}"
