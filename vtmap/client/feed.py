"""The feed of a server's edits, and a standby, which makes them under the same numbers. Needs no package.

    leader, standby = Leader("http://127.0.0.1:8080"), Standby("http://127.0.0.1:8090")
    standby.begin(leader)
    edits, last = leader.edits_from(standby.at + 1)
    for edit in edits:
        standby.take(edit)

`passing.py` passes several on at once.
"""
from __future__ import annotations

import http.client
from collections.abc import Iterable, Iterator, Mapping
from typing import Any, Optional

from ..faults import Fault, NoAnswer, Stopped
from ..forms import ListedEdit as Edit
from ..forms import Status, id_of
from ..limits import MOST_BODY
from .client import FEED, Client, is_ended, word
from .edits import encoded
from .refusals import WORDS, told
from .rows import Request, Row

# A row of a list of features.
Listed = tuple[int, dict[str, Any]]

NUMBERED = "/admin/edits/at"
NO_FEED = "the server doesn't list its edits: it runs without --admin, or is older than that list"
NO_NUMBERS = "the server makes no edits under a number: it is older than they are"
# What a proxy says of a server that starts just now, and the server of a moment without memory: it is waited for.
WAITED_FOR = (502, 503, 504)
ANEW = "begin it anew from a copy of the server's disk (docs/DEPLOYING.md, A second machine)"
THEN = ANEW[0].upper() + ANEW[1:]
WHY = "one of the servers was put back from a copy, or edited by somebody else"


def have_other_maps(one: Mapping[str, object], other: Mapping[str, object]) -> bool:
    """Whether two servers have different maps after the same edit. An older server doesn't tell."""
    return one["edits"] == other["edits"] and "digest" in one and "digest" in other and one["digest"] != other["digest"]


class LeftBehind(Fault):
    """The server no longer lists the edits from a number on. `published`: the last edit that it doesn't list, which has been published."""

    def __init__(self, address: str, number: int, published: int) -> None:
        super().__init__(f"{address} no longer lists edit {number:,}: those up to {published:,} are published and gone from its journal")
        self.number, self.published = number, published


class Leader(Client):
    """A server whose edits are listed. `ended`: if the last list ended with the server's last edit, the number of that one, and the digest of the map
    after it. An older server tells none."""

    ended: Optional[tuple[int, str]] = None

    def stop_at(self, status: int, content: bytes) -> None:
        """Stops at a refusal that every further request would get; one that passes is no answer."""
        if status in WAITED_FOR:
            said = word(content)
            raise NoAnswer(f"{self.address}: {said} ({told(WORDS[said])})" if said in WORDS else f"no reply of {self.address}: {status} {said}")
        super().stop_at(status, content)

    def edits_from(self, number: int, wait: int = 0) -> tuple[list[Edit], int]:
        """The edits from a number on that one reply has, in order, and the number of the last edit. LeftBehind if they have left the list. If there are
        none yet, the server waits up to `wait` seconds for one."""
        path = f"{FEED}/{number}"
        # What was sent ahead waits for nothing: it has edits to tell.
        if wait and self.ahead != ("GET", path):
            path += f"?wait={wait}"
        return self.listed(number, *self.ask("GET", path))

    def listed(self, number: int, status: int, content: bytes) -> tuple[list[Edit], int]:
        """What a reply to the question for the edits from a number on says."""
        if status == 200:
            reply = self.value(content)
            for at, edit in enumerate(reply["edits"], number):
                if edit["edit"] != at:
                    raise Stopped(f"{self.address} lists edit {edit['edit']:,} in place of {at:,}")
            self.ended = (reply["last"], reply["digest"]) if "digest" in reply else None
            return reply["edits"], reply["last"]
        if status == 410:
            known = self.known()
            # An older server lists no published edit.
            raise LeftBehind(self.address, number, known.get("journal", {}).get("forgotten", known["published"]))
        if status == 404:
            edits = self.known()["edits"]
            if number > edits + 1:
                raise Stopped(f"{self.address} has edits up to {edits:,}, and {number - 1:,} are known: it is another map, or was put back from a copy")
            raise Stopped(NO_FEED)
        self.stop_at(status, content)
        raise Stopped(f"the edits from {number:,} on: {status} {word(content)}")

    def row(self) -> Row:
        """The kept connection, or a new one, for requests in a row. None may be asked otherwise before all of its replies are read."""
        if self.connection and (self.ahead or is_ended(self.connection)):
            self.close()
        try:
            connection = self.connection or self.connect()
        except (OSError, http.client.HTTPException) as fault:
            self.close()
            raise NoAnswer(f"no reply of {self.address}: {fault}") from fault
        return Row(connection.sock, self.url.netloc, self.person)

    def request(self, method: str, path: str, body: bytes = b"") -> Request:
        """A request of such a row."""
        return Request(method, self.url.path.rstrip("/") + path, body)

    def known(self) -> Status:
        """What the server tells of itself."""
        status = self.status()
        if status is None:
            raise Stopped(NO_FEED)
        return status

    def edit(self, number: int) -> Optional[Edit]:
        """The edit of a number, or None if it isn't listed any more, or was never made."""
        try:
            edits, _ = self.edits_from(number)
        except LeftBehind:
            return None
        return edits[0] if edits else None

    def changed_since(self, number: int) -> set[int]:
        """The ids of the features that the edits after a number change. LeftBehind if these have left the list."""
        found: set[int] = set()
        last = self.known()["edits"]
        while number < last:
            edits, last = self.edits_from(number + 1)
            found |= {id_of(change) for edit in edits for change in edit["changes"]}
            number += len(edits)
        return found


class Standby(Leader):
    """A server that makes the edits of another one. `at` is the number of its last edit, None where that has to be asked for; `is_compared`: whether
    its map was compared with the leader's; `agreed`: after which edit both had which digest; `is_needed`: whether the leader acknowledges an edit
    once a standby has it."""

    at: Optional[int] = None
    agreed: Optional[tuple[int, str]] = None
    is_compared = is_needed = False

    def begin(self, leader: Leader) -> None:
        """Asks for the last edit. If it is the leader's last one too, equal digests say that the maps are equal. Otherwise, and of an older server, it
        is compared with the same edit of the leader, and the maps by their features the first time, and where one of them doesn't list that edit any
        more."""
        there = leader.known()
        self.is_needed = "standby" in there
        here = self.known()
        at = self.at = here["edits"]
        is_other = have_other_maps(here, there)
        if at == there["edits"] and "digest" in here and "digest" in there and not is_other:
            self.agreed, self.is_compared = (at, here["digest"]), True
            return
        mine = self.edit(at) if at else None
        same = leader.edit(at) if mine else None
        if same and encoded(mine) != encoded(same):
            raise Stopped(f"edit {at:,} of {self.address} isn't that of {leader.address}: it was edited by somebody else. {THEN}")
        if at and (is_other or not (same and self.is_compared)):
            self.compare(leader, at)
        if is_other:
            raise self.another_map(leader, at)
        self.is_compared = True

    def judge(self, leader: Leader, at: int, here: str, there: str) -> None:
        """Stops if the digests of both maps after an edit differ. Says which feature does, unless edits since then change that."""
        if here != there:
            try:
                self.compare(leader, at)
            except LeftBehind:
                pass
            raise self.another_map(leader, at)
        self.agreed = at, here

    def another_map(self, leader: Leader, at: int) -> Stopped:
        """That the maps differ after an edit."""
        return Stopped(f"the map of {self.address} isn't that of {leader.address} after edit {at:,}: {WHY}. {THEN}")

    def confirm(self, leader: Leader, digest: str) -> None:
        """Compares the map with the leader's after the last edit that was made, which has this digest. One question for edits says that of the map here."""
        at = self.at
        if at is None or self.agreed == (at, digest):
            return
        try:
            self.edits_from(at + 1)
        except LeftBehind:
            return
        # Whoever edits it besides is noticed by the next edit's number.
        if self.ended and self.ended[0] == at:
            self.judge(leader, at, self.ended[1], digest)

    def compare(self, leader: Leader, at: int) -> None:
        """Compares the map with the leader's, after its last edit. Features that edits since then change may differ: those edits are made here next. If
        the leader has fewer edits, the next request for them says so."""
        if at > leader.known()["edits"]:
            return
        other = set(differing(self.features(), leader.features()))
        other -= leader.changed_since(at) if other else set()
        if other:
            raise Stopped(f"feature {min(other):,} of {self.address} isn't that of {leader.address}, and no edit after {at:,} changes it: {WHY}. {THEN}")

    def take(self, edit: Edit, digest: Optional[str] = None) -> None:
        """Makes the edit after the last one, of a map with this digest. If the number of its next edit is another one, it has to begin again."""
        status, content = self.reply_to(edit, digest)
        if status == 409 and content.startswith(b"Next "):
            self.at = None
        elif status == 200:
            self.at = edit["edit"]
        else:
            self.refused(edit, status, content)

    def reply_to(self, edit: Edit, digest: Optional[str]) -> tuple[int, bytes]:
        """The reply to an edit that gets its own number or isn't made."""
        body = body_of(edit)
        if len(body) > MOST_BODY:
            return self.put_alone(edit, digest)
        return self.sent("POST", only_after(f"{NUMBERED}/{edit['edit']}", digest), body)

    def put_alone(self, edit: Edit, digest: Optional[str]) -> tuple[int, bytes]:
        """The reply to an edit whose changes are too long for a body: it has put one feature, whose JSON alone isn't."""
        (change,) = edit["changes"]
        body = encoded(change["feature"])
        status, content = self.sent("PUT", only_after(f"/admin/features/{change['put']}/at/{edit['edit']}", digest), body)
        return self.put_unnumbered(edit["edit"], change["put"], body) if status == 404 else (status, content)

    def put_unnumbered(self, edit: int, feature: int, body: bytes) -> tuple[int, bytes]:
        """The same of a server that is older than numbers of a PUT. It gets whichever number is the next one, so that is asked for before, and
        seen in the reply."""
        number = self.known()["edits"] + 1
        if number != edit:
            return 409, b"Next %d" % number
        status, content = self.sent("PUT", f"/features/{feature}", body)
        if status == 200 and self.value(content)["edit"] != edit:
            raise Stopped(f"edit {edit:,} has another number at {self.address}: it was edited by somebody else. {THEN}")
        return status, content

    def sent(self, method: str, path: str, body: bytes) -> tuple[int, bytes]:
        """The reply to a request. If the journal is full, it is sent again after a publication."""
        status, content = self.ask(method, path, body)
        if status == 507 and content.startswith(b"JournalFull") and self.publishes:
            print(f"        the journal of {self.address} is full: a publication", flush=True)
            self.publish()
            status, content = self.ask(method, path, body)
        return status, content

    def refused(self, edit: Edit, status: int, content: bytes) -> None:
        """Stops at a refusal."""
        said = word(content)
        if status == 404 and said == "NotFound":
            is_deletion = any("delete" in change for change in edit["changes"])
            raise Stopped(f"edit {edit['edit']:,} deletes what {self.address} doesn't have: {ANEW}" if is_deletion else NO_NUMBERS)
        if said == "Digest":
            raise Stopped(f"edit {edit['edit']:,} isn't made at {self.address}: the map before it isn't that of the server that is followed: {WHY}. {THEN}")
        self.stop_at(status, content)
        reason = f" ({told(WORDS[said])})" if said in WORDS else ""
        raise Stopped(f"edit {edit['edit']:,} isn't made at {self.address}: {status} {said}{reason}")


def only_after(path: str, digest: Optional[str]) -> str:
    """The path of an edit that is made only of a map with this digest."""
    return f"{path}?after={digest}" if digest else path


def body_of(edit: Edit) -> bytes:
    """The body of the request for an edit of the feed."""
    return encoded({"changes": edit["changes"]})


def differing(one: Iterable[Listed], other: Iterable[Listed]) -> Iterator[int]:
    """The ids whose features differ between two lists, which are in the order of ids."""
    one, other = iter(one), iter(other)
    here, there = next(one, None), next(other, None)
    while here or there:
        number = min(row[0] for row in (here, there) if row)
        if here != there:
            yield number
        here, there = (next(rows, None) if row and row[0] == number else row for rows, row in ((one, here), (other, there)))
