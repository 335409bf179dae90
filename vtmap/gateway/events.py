"""Tells open pages of edits at once, and keeps the gateway's map: by one request of the server's feed of edits, which
waits for the next edit (docs/HTTP.md, The feed of edits), however many pages there are. Needs no package."""
from __future__ import annotations

import threading
import time
from typing import Any

from ..client.feed import Leader
from ..faults import Fault

# The seconds that the server is asked to wait for an edit, the shortest such wait, and the pause before it is asked
# again where it replies at once (an older server, or one with very many who wait) or not at all.
WAIT, SHORTEST, PAUSE = 25, 1.0, 2.0
# The most pages that are told at once: each has a thread.
MOST = 256


class Events:
    """Follows the edits of a live map while somebody needs that: an open page, or the map that is in memory."""

    def __init__(self, live: Any) -> None:
        self.live, self.changed = live, threading.Condition()
        # The number of the last edit that is known, None if the server doesn't say; how many pages are told; whether a
        # thread follows.
        self.last: int | None = None
        self.pages, self.is_following, self.is_over = 0, False, False

    # ---- pages

    def enter(self) -> bool:
        """One page more is told. Returns whether there is room for it, and the server answers."""
        with self.changed:
            if self.pages >= MOST:
                return False
            self.pages += 1
        self.follow()
        with self.changed:
            self.changed.wait_for(lambda: self.last is not None or self.is_over, PAUSE)
            if self.last is None:
                self.pages -= 1
            return self.last is not None

    def leave(self) -> None:
        """A page isn't told any more."""
        with self.changed:
            self.pages -= 1

    def after(self, number: int, seconds: float) -> int | None:
        """The number of the last edit, once it is another one than this; the same one after so many seconds. None if
        the server no longer says."""
        with self.changed:
            self.changed.wait_for(lambda: self.last != number or self.is_over, seconds)
            return None if self.is_over else self.last

    def close(self) -> None:
        """Ends it."""
        with self.changed:
            self.is_over, self.last = True, None
            self.changed.notify_all()

    # ---- the server

    @property
    def is_needed(self) -> bool:
        """Whether somebody needs to know of edits."""
        return not self.is_over and (self.pages > 0 or self.live.edits is not None)

    def follow(self) -> None:
        """Has a thread follow, if none does yet."""
        with self.changed:
            if self.is_following or self.is_over:
                return
            self.is_following = True
        threading.Thread(target=self.keep_following, daemon=True).start()

    def keep_following(self) -> None:
        """Follows as long as somebody needs it."""
        client = Leader(self.live.client.address)
        client.person = self.live.client.person
        try:
            while True:
                with self.changed:
                    if not self.is_needed:
                        self.is_following, self.last = False, None
                        return
                self.look(client)
        finally:
            client.close()

    def look(self, client: Any) -> None:
        """Waits for the next edit, and takes it."""
        began, is_first = time.monotonic(), self.last is None
        try:
            # The first reply is wanted at once.
            edits, last = client.edits_from(self.known_of(client) + 1, 0 if is_first else WAIT)
            if edits:
                self.live.take_edits(edits)
            self.know(last)
            if not edits and not is_first and time.monotonic() < began + SHORTEST:
                time.sleep(PAUSE)
        except Fault:
            # The server no longer has these edits, or doesn't answer: pages look for themselves until it does.
            self.know(None)
            self.see_anew()
            time.sleep(PAUSE)

    def known_of(self, client: Any) -> int:
        """The number of the last edit that is known: that of the map, if it is in memory."""
        at = self.live.edits
        at = self.last if at is None else at
        return client.known()["edits"] if at is None else at

    def see_anew(self) -> None:
        """Takes what the map has now, if it is in memory."""
        try:
            with self.live.lock:
                if self.live.edits is not None:
                    self.live.look()
        except Fault:
            pass

    def know(self, last: int | None) -> None:
        """The number of the last edit is known, or isn't any more."""
        with self.changed:
            self.last = None if self.is_over else last
            self.changed.notify_all()
