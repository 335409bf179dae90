"""How far a command is that sends many changes, and a server that makes the tiles of a publication."""
from __future__ import annotations

import os
import threading
import time
from collections.abc import Iterable, Iterator
from typing import Any, TypeVar

from .faults import Fault
from .limits import MOST_ENTRIES
from .shown import shown

EACH = 1000
T = TypeVar("T")
# How many seconds a publication is waited for before it is asked how far it is, and then between two such questions; and between two lines about
# many rows. Fewer rows than `EACH` are told of only if they take long.
PAUSE, LONG = 2, 10
# A file of so many bytes takes seconds to be opened.
LARGE = 32 * 2 ** 20


def with_progress(changes: Iterable[T], total: int | None = None) -> Iterator[T]:
    """Passes on what `Client.make` yields, and prints a line for each thousand changes. `total`: how many there will be."""
    of = f" of {total:,}" if total else ""
    began = time.monotonic()
    for done, change in enumerate(changes, 1):
        yield change
        if done % EACH == 0:
            print(f"        {done:,}{of} sent so far, {done / max(time.monotonic() - began, 0.001):,.0f} a second", flush=True)


def counted(rows: Iterable[T], what: str, total: int | None = None) -> Iterator[T]:
    """Passes rows on, and prints every two seconds how many there were, if they are many or take long. `total`: how many there will be."""
    began = told = time.monotonic()
    of = f" of {total:,}" if total else ""
    for done, row in enumerate(rows, 1):
        yield row
        now = time.monotonic()
        if now - told >= PAUSE and (done >= EACH or now - began >= LONG):
            told = now
            print(f"        {done:,}{of} {what}", flush=True)


def tell_large(path: str) -> None:
    """Says that a large file is opened: of some formats GDAL looks at all of it first."""
    size = os.path.getsize(path) if os.path.isfile(path) else 0
    if size >= LARGE:
        print(f"        {shown(path)} is opened: {size / 2 ** 20:,.0f} MiB", flush=True)


class Tiles:
    """While it lasts, it prints how many tiles of a publication are made, by a connection of its own. A server without --admin doesn't tell."""

    def __init__(self, client: Any) -> None:
        self.client, self.is_over = client.twin(), threading.Event()
        self.thread = threading.Thread(target=self.watch, daemon=True)

    def __enter__(self) -> "Tiles":
        self.thread.start()
        return self

    def __exit__(self, *_: Any) -> None:
        self.is_over.set()

    def watch(self) -> None:
        """Asks until it is over, or the server doesn't tell."""
        try:
            while not self.is_over.wait(PAUSE):
                status = self.client.status()
                if status is None:
                    return
                drafting = status.get("drafting")
                if drafting and not self.is_over.is_set():
                    taken = f", {drafting['entries']:,} of the {MOST_ENTRIES:,} entries of an archive" if "entries" in drafting else ""
                    print(f"        {drafting['made']:,} tiles made so far{taken}", flush=True)
        except Fault:
            # Whoever waits for the publication is told what is wrong.
            pass
        finally:
            self.client.close()
