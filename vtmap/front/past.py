"""Earlier maps behind one port of this machine: each is a vtserve on a disk that is made for it, and is only read.
Needs no package.

    /at/TIME/about          which edit the map of a time is of: JSON
    /at/EDIT/map/..         its tiles, and so on: what `READ` has
    /pages/                 the page, which shows it by ?at=TIME
"""
from __future__ import annotations

import concurrent.futures
import json
import os
import re
import shutil
import subprocess
import tempfile
import threading
import urllib.parse
from collections import OrderedDict
from collections.abc import Callable
from typing import Any, NamedTuple

from ..client.client import Client, Full
from ..client.edits import put
from ..faults import Fault, Refused, Stopped, Wrong
from ..files.edit_log import text_of
from ..gateway.listener import HERE, TEXT, Listener
from ..limits import SECTOR
from .handler import FIELDS_OF_MAP, PAGE, START, Behind, FrontHandler

ASKED = re.compile(r"/at/([^/?]{1,40})(/[^?]*)(?:\?.*)?")
READ = re.compile(r"/map/.*|/map\.pmtiles|/features/[0-9]+")
NUMBER = re.compile("[0-9]{1,15}")
JSON = "application/json"
# The sectors of a disk: so many for each of the features, at least and at most. Tiles take room too.
TIMES, LEAST_SECTORS, MOST_SECTORS = 16, 1 << 16, 1 << 24
# How often a server is started whose port somebody else has taken meanwhile, and the seconds in which one ends.
TRIES, END = 5, 20


class About(NamedTuple):
    """Which map is that of a time: of which edit, and of how many features. `time`: what was asked for, None if that
    was an edit."""

    edit: int
    features: int
    time: Any

    def json(self) -> bytes:
        """What the page is told."""
        return json.dumps(
            {"edit": self.edit, "features": self.features, "time": self.time and text_of(self.time)}
        ).encode()


class Served(NamedTuple):
    """A map that is served: its process, its port, its folder, and how many features it has."""

    child: subprocess.Popen[bytes]
    port: int
    folder: str
    features: int

    def end(self) -> None:
        """Ends it, and removes its disk."""
        self.child.terminate()
        try:
            self.child.wait(END)
        except subprocess.TimeoutExpired:
            self.child.kill()
            self.child.wait()
        shutil.rmtree(self.folder, ignore_errors=True)


class Maps:
    """The maps that are served, those that were asked for last. `find`: the number of the edit that a text means, and
    the time, if it names one. `features_of`: the features after an edit, as JSON by their ids. Both raise a `Fault`."""

    def __init__(
        self,
        program: str,
        most: int,
        find: Callable[[str], tuple[int, Any]],
        features_of: Callable[[int], dict[int, bytes]],
        start: Callable[[list[str]], tuple[subprocess.Popen[bytes], int]],
    ) -> None:
        self.program, self.most, self.find, self.features_of, self.start = program, most, find, features_of, start
        self.served: OrderedDict[int, Served] = OrderedDict()
        self.turn = threading.Lock()
        # One map is made at a time, by one thread: a process that it starts ends with that thread.
        self.maker = concurrent.futures.ThreadPoolExecutor(1)

    def about(self, text: str) -> About:
        """Which map is that of a time, once it is served."""
        edit, time = self.find(text)
        return About(edit, self.of(edit).features, time)

    def of(self, edit: int) -> Served:
        """The map after an edit."""
        return self.known(edit) or self.maker.submit(self.make, edit).result()

    def known(self, edit: int) -> Served | None:
        """The map after an edit, if it is served."""
        with self.turn:
            found = self.served.get(edit)
            if found and found.child.poll() is None:
                self.served.move_to_end(edit)
                return found
            self.served.pop(edit, None)
        if found:
            found.end()
        return None

    def make(self, edit: int) -> Served:
        """Serves the map after an edit, and ends the one that wasn't asked for longest, if there are too many."""
        if known := self.known(edit):
            return known
        made = self.begin(self.features_of(edit))
        with self.turn:
            self.served[edit] = made
            old = self.served.popitem(last=False)[1] if len(self.served) > self.most else None
        if old:
            old.end()
        print(f"edit {edit:,}: {made.features:,} features", flush=True)
        return made

    def begin(self, features: dict[int, bytes]) -> Served:
        """Starts a server with these features."""
        folder = tempfile.mkdtemp(prefix="vtmap-at-")
        child = None
        try:
            disk = os.path.join(folder, "map.disk")
            sectors = min(max(LEAST_SECTORS, TIMES * sum(map(len, features.values())) // SECTOR), MOST_SECTORS)
            subprocess.run(
                [self.program, "format", disk, "--sectors", f"{sectors}"],
                check=True,
                stdin=subprocess.DEVNULL,
                capture_output=True,
            )
            child, port = self.start([self.program, "serve", disk, "--connections", "4294967295", "--etags"])
            self.load(Client(f"http://{HERE}:{port}", True), features)
            return Served(child, port, folder, len(features))
        except BaseException as fault:
            if child:
                child.kill()
                child.wait()
            shutil.rmtree(folder, ignore_errors=True)
            if isinstance(fault, subprocess.CalledProcessError):
                raise Stopped(
                    f"no disk can be made in {folder}: {fault.stderr.decode(errors='replace').strip()}"
                ) from fault
            raise

    @staticmethod
    def load(client: Client, features: dict[int, bytes]) -> None:
        """Puts the features into a server, and publishes them. If their tiles have no room, there is no archive of
        them."""
        for change, refusal in client.make(put(number, json.loads(feature)) for number, feature in features.items()):
            if refusal:
                raise Stopped(f"feature {change.number:,}: {refusal}")
        try:
            client.publish()
        except Full:
            pass
        client.close()

    def end(self) -> None:
        """Ends all of them."""
        self.maker.shutdown(wait=False, cancel_futures=True)
        for one in self.served.values():
            one.end()


class PastHandler(FrontHandler):
    """One connection. `past` has the maps; `maps` are those of a gateway, which finds one for each request."""

    past: Maps

    def answer(self) -> None:
        """Answers a request, or passes it on to the server of a map. Nothing is changed."""
        path = self.path.partition("?")[0]
        asked = ASKED.fullmatch(self.path)
        if self.command not in ("GET", "HEAD"):
            self.refuse(405, "the map of an earlier time is only read", [("Allow", "GET, HEAD")])
        elif START.fullmatch(path):
            self.head(302, [("Location", "/pages/"), ("Content-Length", "0")])
        elif PAGE.fullmatch(path):
            self.send_page(PAGE.fullmatch(path)[1] or "index.html")  # type: ignore[index]
        elif asked and asked[2] == "/about":
            self.send_about(urllib.parse.unquote(asked[1]))
        elif asked and NUMBER.fullmatch(asked[1]) and READ.fullmatch(asked[2]):
            self.send_of(int(asked[1]), self.path[len(f"/at/{asked[1]}") :])
        else:
            self.refuse(404, "NotFound")

    do_GET = do_HEAD = do_POST = do_PUT = do_DELETE = do_OPTIONS = do_PATCH = answer

    def send_about(self, text: str) -> None:
        """Which map is that of a time."""
        try:
            self.send(200, self.past.about(text).json(), [("Content-Type", JSON), ("Cache-Control", "no-store")])
        except Fault as fault:
            self.send_fault(fault)

    def send_of(self, edit: int, path: str) -> None:
        """What the server of a map says."""
        try:
            port = self.past.of(edit).port
        except Fault as fault:
            self.send_fault(fault)
            return
        self.path = path
        self.pass_on(port, self.fields(FIELDS_OF_MAP), 0, [])

    def send_fault(self, fault: Fault) -> None:
        """Why there is no such map."""
        status = 400 if isinstance(fault, (Refused, Wrong)) else 502
        self.send(status, f"{fault}\n".encode(), [("Content-Type", TEXT), ("Cache-Control", "no-store")])


def front_of_past(port: int, pages: str, past: Maps) -> Listener:
    """Listens on a port of this machine. Raises `OSError`."""
    return Listener((HERE, port), type("Here", (PastHandler,), {"behind": Behind(0, 0, pages), "past": past}))
