"""A client of a running vtserve: edits, the list of features, publications by steps. Needs no package.

    client = Client("http://127.0.0.1:8080")
    for number, feature in client.features(): ..                  # the list of a server with --admin
    for change, refusal in client.make([checked(put(7, feature), was)]): ..

A checked change (edits.py) replaces nothing that its author hasn't seen: if the map has another version, it is refused as a conflict, with
that version. If no reply to an edit comes, the server is asked whether it was made, and it is sent again only if it wasn't.
"""
from __future__ import annotations

import http.client
import json
import operator
import re
import select
import urllib.parse
from collections.abc import Iterable, Iterator
from dataclasses import dataclass
from typing import Any, Optional, Tuple

from ..faults import NoAnswer, Stopped
from ..forms import Feature, ListedChange, ListedFeature, Reply, Status, id_of
from ..geometry.wholes import PIECE
from ..limits import MOST_CHANGES, NUMBER_END
from ..shown import shown
from . import followers
from .address import address
from .edits import NOTHING, Change, batches, body_of, delete, encoded, fits
from .refusals import FINAL, NO_ROOM, STATUSES, WORDS, WRONG_PASSWORD, told

CHECKED, PLAIN, FEED, PAGE, FROM = "/admin/edits", "/edits", "/admin/edits/from", "/admin/features/page", "/admin/features/from"
# Requests that change nothing, and may be sent again. How often an edit is sent that isn't made.
READS = ("GET", "HEAD")
TRIES = 3
# The end of a page of features that another one follows, and the most bytes that are looked at for it.
NEXT = re.compile(rb'"next":(\d+)}\s*\Z')
LONGEST_END = 40
ID_AND_FEATURE = operator.itemgetter("id", "feature")
# Statuses of a batch that its features, or their number, may be the cause of.
OF_ITS_FEATURES = (400, 404, 413, 507)
NO_BATCHES = {
    409: "the disk of the server has version 1: features are sent one by one, which takes longer (upgrade it: docs/DEPLOYING.md)",
    404: "the server, or a proxy in front of it, has no /edits: features are sent one by one, which takes longer (upgrade them: docs/DEPLOYING.md)",
}
NO_CHECKS = {
    409: "the disk of the server has version 1, which takes no checked edits: upgrade it (docs/DEPLOYING.md)",
    404: "the server makes no checked edits: it is older than they are, or the proxy in front of it doesn't pass /admin/ (docs/nginx.conf)",
}


class Lost(NoAnswer):
    """Why a request that was sent has no reply: it may have been done."""


class Full(Stopped):
    """What has no more room on the server's disk."""


@dataclass
class Refusal:
    """Why a change isn't made. A conflict: `now` is what the map has of the feature (None: nothing), which isn't what the author saw."""

    text: str
    is_conflict: bool = False
    now: Feature | None = None

    def __str__(self) -> str:
        return self.text


# A change with its refusal, None if it is made.
Made = Tuple[Change, Optional[Refusal]]


class Client:
    """The server at a URL, by one connection that is kept. `publishes`: when the journal is full. `most`: the most changes of a request. A name
    and a password in the URL are sent with each request; `address` is the URL without them. `longest`: the seconds that a reply may take. A
    publication may take minutes to begin."""

    longest = 600

    def __init__(self, url: str, publishes: bool = False, most: int = MOST_CHANGES) -> None:
        self.publishes, self.most = publishes, most
        self.url, self.person = address(url)
        self.address = urllib.parse.urlunsplit(self.url).rstrip("/")
        self.connection: http.client.HTTPConnection | None = None
        self.tag_of_reply: str | None = None
        # The method and the path of the request that is sent, and whose reply isn't read yet.
        self.ahead: tuple[str, str] | None = None
        # Whether a batch has been accepted; the first change of those that were sent last and aren't known to be made.
        self.has_batches = False
        self.last: int | None = None
        # The numbers of the edits that were made.
        self.made = []
        # The number of the last edit that is known of, and whether the server lists features by pages, as far as is known.
        self.edits, self.has_pages = 0, True

    def twin(self) -> Client:
        """Another client of the same server, with a connection of its own."""
        twin = Client(self.address)
        twin.person = self.person
        return twin

    # ---- requests

    def ask(self, method: str, path: str, body: bytes = b"", fields: dict[str, str] | None = None) -> Reply:
        """The status and the content of the reply to one request. On a kept connection that the server has closed it is sent again if it only
        reads; what changes something may have been done (`Lost`)."""
        fields = {**self.person, **(fields or ({"Content-Type": "application/json"} if body else {}))}
        if self.connection and (self.ahead != (method, path) if self.ahead else is_ended(self.connection)):
            self.close()
        was_kept = self.connection is not None
        try:
            return self.once(method, path, body, fields)
        except Lost:
            if not was_kept or method not in READS:
                raise
        return self.once(method, path, body, fields)

    def once(self, method: str, path: str, body: bytes, fields: dict[str, str]) -> Reply:
        """The status and the content of the reply to a request that is sent once."""
        is_sent = False
        try:
            connection = self.connection or self.connect()
            is_sent = True
            if not self.ahead:
                connection.request(method, self.url.path.rstrip("/") + path, body, fields)
            self.ahead = None
            reply = connection.getresponse()
            self.tag_of_reply = reply.headers.get("etag")
            return reply.status, reply.read()
        except (OSError, http.client.HTTPException) as fault:
            self.close()
            raise (Lost if is_sent else NoAnswer)(f"no reply of {self.address}: {fault}") from fault
        except BaseException:
            self.close()
            raise

    def connect(self) -> http.client.HTTPConnection:
        """Opens a connection, and returns it. It takes no minutes, as what is asked for may."""
        kind = http.client.HTTPSConnection if self.url.scheme == "https" else http.client.HTTPConnection
        self.connection = connection = kind(self.url.netloc, timeout=30)
        connection.connect()
        connection.sock.settimeout(self.longest)
        return connection

    def close(self) -> None:
        """Ends the kept connection."""
        if self.connection:
            self.connection.close()
        self.connection = self.ahead = None

    def send_ahead(self, path: str) -> None:
        """Sends a GET whose reply is read when it is asked for: meanwhile the server makes it. Any other request gives it up."""
        if self.connection and not is_ended(self.connection):
            try:
                self.connection.request("GET", self.url.path.rstrip("/") + path, b"", self.person)
                self.ahead = "GET", path
            except (OSError, http.client.HTTPException):
                self.close()

    def tag(self, path: str) -> str | None:
        """The entity tag of what is at a path, or None."""
        self.ask("HEAD", path)
        return self.tag_of_reply

    def found(self, path: str) -> Any:
        """The JSON of a reply 200, or None of the server's own reply 404."""
        content = self.content(path)
        return None if content is None else self.value(content)

    def content(self, path: str) -> bytes | None:
        """The content of a reply 200, or None of the server's own reply 404."""
        status, content = self.ask("GET", path)
        if status == 200:
            return content
        if (status, word(content)) != (404, "NotFound"):
            self.stop_at(status, content)
            raise Stopped(f"GET {path}: {status} {word(content)}")
        return None

    def status(self) -> Status | None:
        """What the server tells of itself, or None if it says itself that it has no such path: it runs without --admin."""
        status = self.found("/admin/status")
        if status is not None:
            self.edits = status.get("edits", 0)
        return status

    def value(self, content: bytes) -> Any:
        """The JSON of a reply."""
        try:
            return json.loads(content)
        except ValueError as fault:
            raise Stopped(f"what answers at {self.address} is no vtserve: is --url right?") from fault

    def feature(self, number: int) -> Feature | None:
        """A feature of the map, or None."""
        return self.found(f"/features/{number}")

    def features(self, first: int = 0, end: int = NUMBER_END) -> Iterator[tuple[int, Feature]]:
        """Each feature of the map with its id, from a first id to one before the end, in ascending order. While those of a page are read, the
        server makes the next page: it may lack an edit that is made meanwhile."""
        following: int | None = first
        while following is not None and following < end:
            rows, following = self.page(following, end)
            if rows and rows[-1]["id"] >= end:
                rows, following = [row for row in rows if row["id"] < end], None
            yield from map(ID_AND_FEATURE, rows)

    def page(self, first: int, end: int) -> tuple[list[ListedFeature], int | None]:
        """The features from an id on that one reply has, and the id of the next one, None if there is none. An older server has one in a reply.
        If that id is before the end, the next page is asked for before this one is parsed."""
        if self.has_pages:
            content = self.content(f"{PAGE}/{first}")
            if content is not None:
                following = NEXT.search(content[-LONGEST_END:])
                if following and int(following[1]) < end:
                    self.send_ahead(f"{PAGE}/{int(following[1])}")
                page = self.value(content)
                return page["features"], page["next"]
            self.has_pages = False
        row = self.found(f"{FROM}/{first}")
        return ([], None) if row is None else ([row], row["id"] + 1)

    def next_id(self, status: Status) -> int:
        """The id after the greatest one in use. Where pieces of cut features have ids above 2^40, those are left out."""
        last = status["last"]
        if last is None or last < PIECE - 1:
            return 1 if last is None else last + 1
        low, high = 0, PIECE
        while low < high:
            middle = (low + high) // 2
            row = self.found(f"{FROM}/{middle}")
            if row is not None and row["id"] < PIECE:
                low = middle + 1
            else:
                high = middle
        return low

    # ---- publications

    def post(self, path: str) -> Reply:
        """The reply to a step of a publication, which is sent once."""
        return self.ask("POST", path)

    def publish(self) -> None:
        """Publishes by steps, which frees the journal. A publication that is under way is finished first, whoever began it. It waits for who
        follows the edits: the last step takes those up to its beginning out of their list."""
        status, content = self.post("/publish/begin")
        if word(content) == "Busy":
            self.wait()
            self.finish()
            status, content = self.post("/publish/begin")
        left = self.left(status, content)
        self.wait()
        self.finish(left)

    def wait(self) -> None:
        """Waits for who follows the edits, as the environment says."""
        length, standbys, logs = followers.said()
        wait = followers.Wait(length, [Client(url) for url in standbys], logs)
        if wait.length:
            status = self.status()
            wait.wait(status["edits"] if status else 0)

    def step(self) -> Reply:
        """The reply to a step of a publication. If none comes, the next step goes on where that one ended, or finds nothing left to do."""
        for _ in range(TRIES - 1):
            try:
                return self.post("/publish/step")
            except Lost:
                continue
        return self.post("/publish/step")

    def finish(self, left: int | None = None) -> None:
        """Does the steps that are left of a publication. Somebody else may do some of them meanwhile."""
        while left is None or left > 0:
            status, content = self.step()
            if word(content) == "Idle":
                return
            left = self.left(status, content)

    def left(self, status: int, content: bytes) -> int:
        """The sectors that are left after a step."""
        if status != 200:
            self.stop_at(status, content)
            raise Stopped(f"a publication: {status} {word(content)}")
        return json.loads(content)["left"]

    # ---- edits

    def make(self, changes: Iterable[Change]) -> Iterator[Made]:
        """Makes changes in their order. Yields each with its refusal, which is None if it is made."""
        for group in batches(changes, self.most):
            self.last = group[0].number
            yield from self.make_plain(group) if group[0].was is None else self.make_checked(group)

    def make_checked(self, group: list[Change]) -> Iterator[Made]:
        """Makes checked changes as one edit. Changes whose feature somebody else has changed are left out, and are conflicts."""
        while group:
            if len(group) == 1 and not fits(group[0]):
                yield group[0], self.make_large(group[0])
                return
            status, content = self.send("POST", CHECKED, body_of(group), group)
            if status == 200:
                yield from ((change, None) for change in group)
                return
            if status == 409 and content.startswith(b"Changed "):
                seen = [(change, self.feature(change.number)) for change in group]
                group = [change for change, now in seen if encoded(now) == change.was]
                yield from ((change, conflict(change, now)) for change, now in seen if encoded(now) != change.was)
                continue
            if status == 404 or content.startswith(b"NeedsUpgrade"):
                raise Stopped(NO_CHECKS[status])
            if status not in OF_ITS_FEATURES or len(group) == 1:
                self.stop_at(status, content)
                yield from ((change, refusal(status, content, len(change.body or b""))) for change in group)
                return
            for change in group:
                self.last = change.number
                yield from self.make_checked([change])
            return

    def make_large(self, change: Change) -> Refusal | None:
        """Makes a change that is too large for a request beside what its author saw: the feature is deleted, then put as a new one."""
        removal = delete(change.number)._replace(was=change.was)
        if change.was == NOTHING or not fits(removal):
            return Refusal(f"its JSON, and that of the version before, have over 65,536 bytes: {WORDS['E8 Long'].then}")
        refused = self.alone(removal)
        if refused is None and change.body is not None:
            refused = self.alone(change._replace(was=NOTHING))
            if refused is not None:
                self.alone(change._replace(body=change.was, was=NOTHING))
        return refused

    def alone(self, change: Change) -> Refusal | None:
        """Makes one checked change. Returns its refusal."""
        (_, refused), = self.make_checked([change])
        return refused

    def make_plain(self, group: list[Change]) -> Iterator[Made]:
        """Makes changes as one edit, whatever the map has of their features; one by one if the server refuses them together."""
        is_made = len(group) > 1 and self.is_made(group)
        for change in group:
            self.last = change.number
            yield change, None if is_made else self.make_alone(change)

    def make_alone(self, change: Change) -> Refusal | None:
        """Makes one change alone. Returns its refusal."""
        method, body = ("DELETE", b"") if change.body is None else ("PUT", change.body)
        status, content = self.send(method, f"/features/{change.number}", body, [change])
        if status == 200 or (method == "DELETE" and status == 404 and word(content) == "NotFound"):
            return None
        self.stop_at(status, content)
        return refusal(status, content, len(body))

    def is_made(self, group: list[Change]) -> bool:
        """Whether a batch is made. If it isn't, nothing is changed, and each of its changes is to be sent alone."""
        if self.most == 1:
            return False
        status, content = self.send("POST", PLAIN, body_of(group), group)
        if status == 200:
            self.has_batches = True
        elif (status == 409 and content.startswith(b"NeedsUpgrade")) or (status == 404 and not self.knows_edits()):
            self.most = 1
            print(f"note: {NO_BATCHES[status]}", flush=True)
        elif status not in OF_ITS_FEATURES:
            self.stop_at(status, content)
        return status == 200

    def knows_edits(self) -> bool:
        """Whether the server has the path of batches: 404 may also speak of a feature that is to be deleted. A batch of no change is asked for."""
        if not self.has_batches:
            status, content = self.ask("POST", PLAIN, body_of([]))
            self.has_batches = status == 400 and content.startswith(b"E10")
        return self.has_batches

    def send(self, method: str, path: str, body: bytes, group: list[Change]) -> Reply:
        """Status and content of the reply to an edit of these changes. If the journal is full, it is sent again after a publication."""
        status, content = self.deliver(method, path, body, group)
        if status == 507 and content.startswith(b"JournalFull") and self.publishes:
            print("        the journal is full: a publication", flush=True)
            self.publish()
            status, content = self.deliver(method, path, body, group)
        if status == 200:
            self.made.append(self.value(content)["edit"])
            self.edits = max(self.edits, self.made[-1])
        return status, content

    def deliver(self, method: str, path: str, body: bytes, group: list[Change]) -> Reply:
        """Status and content of the reply to an edit. If none comes, and the edit wasn't made, it is sent again."""
        for _ in range(TRIES):
            try:
                return self.ask(method, path, body)
            except Lost as fault:
                number = self.made_as(group, fault)
                if number is not None:
                    return 200, b'{"edit":%d}' % number
        raise NoAnswer(f"{self.address} has ended {TRIES} requests without a reply and without making the edit")

    # ---- edits without a reply

    def made_as(self, group: list[Change], fault: Lost) -> int | None:
        """The number of an edit whose reply didn't come, None if it wasn't made. Raises `Lost` if that isn't known."""
        before, status = self.edits, self.status()
        if status is not None and status["edits"] == before:
            return None
        listed = None if status is None else self.listed_from(before + 1)
        if listed is not None:
            wanted = {change.number: change.body for change in group}
            return next((number for number, changes in listed if changes == wanted), None)
        now = {change.number: self.feature(change.number) for change in group}
        if all((now[change.number] and encoded(now[change.number])) == change.body for change in group):
            return before if status is None else status["edits"]
        # A creation that isn't there was never made, or made and deleted by somebody else; of an unchecked edit nobody can tell.
        if any(change.was is None or (change.was == NOTHING and now[change.number] is None) for change in group):
            raise Lost(f"{fault}, and whether the edit of feature {group[0].number} was made isn't known: look at it on the map") from fault
        return None

    def listed_from(self, first: int) -> list[tuple[int, dict[int, bytes | None]]] | None:
        """The numbers and the changes of the edits from a number on, as far as the server lists edits; None if it doesn't."""
        found = []
        while True:
            status, content = self.ask("GET", f"{FEED}/{first + len(found)}")
            if status != 200:
                return None
            reply = self.value(content)
            found += [(edit["edit"], changes_in(edit["changes"])) for edit in reply["edits"]]
            if not reply["edits"] or found[-1][0] >= reply["last"]:
                return found

    def stop_at(self, status: int, content: bytes) -> None:
        """Stops at a refusal that every further request would get."""
        first = word(content)
        name = first.split(" ")[0]
        if name in FINAL:
            raise (Full if name in NO_ROOM else Stopped)(f"{first} ({told(WORDS[name])})")
        if status == 401 and self.person:
            raise Stopped(f"401 ({WRONG_PASSWORD})")
        if status in STATUSES and status != 413 and first not in WORDS:
            raise Stopped(f"{status} ({told(STATUSES[status])})")


def is_ended(connection: http.client.HTTPConnection) -> bool:
    """Whether a server has closed a connection on which nothing is awaited."""
    return connection.sock is None or bool(select.select([connection.sock], [], [], 0)[0])


def changes_in(listed: Iterable[ListedChange]) -> dict[int, bytes | None]:
    """The features that a listed edit puts, as JSON by their ids, and None for those that it deletes."""
    return {id_of(change): encoded(change["feature"]) if "put" in change else None for change in listed}


def conflict(change: Change, now: Feature | None) -> Refusal | None:
    """The refusal of a change whose feature isn't as its author saw it; None if it is as the change makes it, so the change is made."""
    if (now is None and change.body is None) or (now is not None and encoded(now) == change.body):
        return None
    return Refusal("somebody else has deleted it meanwhile" if now is None else "somebody else has changed it meanwhile", True, now)


def word(content: bytes) -> str:
    """The first line of a refusal: a word of the server, or what a proxy says, without its HTML."""
    text = content.decode("utf-8", "replace").strip()
    if text.startswith("<"):
        title = re.search(r"<title>\s*(.*?)\s*</title>", text, re.IGNORECASE | re.DOTALL)
        return shown(title[1]) if title else "a page in HTML"
    return shown(text.splitlines()[0]) if text else ""


def refusal(status: int, content: bytes, length: int) -> Refusal:
    """A refusal with its cause."""
    first = word(content)
    if first in WORDS:
        return Refusal(f"{first} ({told(WORDS[first])})")
    if status == 413:
        return Refusal(f"413 (a proxy in front of the server takes no body of {length:,} bytes: client_max_body_size of nginx, 65,536 in docs/nginx.conf)")
    return Refusal(first if first.startswith(str(status)) else f"{status} {first}")
