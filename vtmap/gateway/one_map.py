"""What a gateway has of one map: who answers for it, its files, and what its GIS have saved. Needs no package."""
from __future__ import annotations

import argparse
import threading
import time

from ..client.feed import Leader
from ..faults import NoAnswer, Stopped
from ..files.attachments import Attachments
from ..files.map_schema import SchemaFile
from ..files.save_log import SaveLog
from .events import Events
from .history import History
from .far_map import FarMap
from .ogc_api import OgcApi
from .projections import Systems
from .saves import Saves
from .sessions import FORGOTTEN, Sessions
from .wfs import Wfs


class OneMap:
    """A map. `words`: those of `vtmap wfs` for it. `name`: where a machine has several, its name. Raises `Refused` if
    another gateway has its files."""

    def __init__(self, words: argparse.Namespace, systems: Systems, name: str = "") -> None:
        self.log, self.sessions = SaveLog(words.state), Sessions()
        self.log.shorten(time.time() - FORGOTTEN)
        for row in self.log.done:
            self.sessions.restore(row)
        self.live = FarMap(
            Leader(words.url, words.publish), dict(words.layer), self.log, SchemaFile(words.schema), words.held
        )
        self.live.name = name
        self.wfs = Wfs(self.live, self.sessions, Saves(self.live, self.log, words.log))
        self.ogc = OgcApi(self.live, self.wfs.look, systems)
        self.files = Attachments(words.files) if words.files else None
        self.history = History(words.history, [*words.nginx, *([words.log] if words.log else [])])
        self.events = Events(self.live)
        # How many requests are under way, and when the last one ended.
        self.requests, self.used, self.counting = 0, time.monotonic(), threading.Lock()

    def begin(self) -> None:
        """Lists the map, and undoes what was cut short. Without a server that is done by the first request."""
        try:
            self.wfs.look()
        except (NoAnswer, Stopped) as fault:
            self.live.tell(f"{fault}: waiting")

    def enter(self, count: int) -> None:
        """One request more, or one less."""
        with self.counting:
            self.requests, self.used = self.requests + count, time.monotonic()
        if count < 0 and self.live.edits is not None:
            self.events.follow()

    def rest(self, idle: float) -> bool:
        """Gives up the memory of the map, if nobody has asked for so long. Returns whether nobody has."""
        with self.counting:
            # A page that is told of edits needs none of the memory.
            if self.requests > self.events.pages or time.monotonic() < self.used + idle:
                return False
            if self.live.edits is not None:
                self.live.forget()
                self.sessions.empty_all()
            return True

    def close(self) -> None:
        """Lets others have its files."""
        self.events.close()
        self.log.close()
        self.live.client.close()


class OnlyMap:
    """The map of a gateway that has one."""

    def __init__(self, one: OneMap) -> None:
        self.one = one

    def begin(self) -> None:
        """Lists the map."""
        self.one.begin()

    def entered(self, _path: str, _named: str | None) -> tuple[OneMap | None, str]:
        """The map that a request is for, which is under way from now on, and what its path has before that of the
        map."""
        self.one.enter(1)
        return self.one, ""

    def leave(self, one: OneMap) -> None:
        """A request has its reply."""
        one.enter(-1)
