"""The edits of a server on their way to a standby, many at once. Needs no package.

There is a connection to each of them. Edits are sent to the standby as they are listed, several without waiting for each: one is made only under its own
number, so none is made out of order. As soon as the standby has made some, the server is told by the next question for edits, though answers to others
are on their way. A question rests at the server only if the standby has all edits that are known of: so none that tells something waits behind it.
"""
from __future__ import annotations

import http.client
import re
import time
from collections import deque
from collections.abc import Callable
from typing import NamedTuple, Optional

from ..faults import Fault, NoAnswer
from ..limits import MOST_BODY
from .client import FEED
from .feed import NUMBERED, Edit, Leader, Standby, body_of, only_after
from .rows import WINDOW, Reply, Row, readable

# The seconds between two questions for the edits of a server that needs a standby, while answers are on their way, and while it has more edits than one
# answer lists: each lists anew all edits that the standby lacks.
SOON, LATER = 0.003, 0.05
# How many questions are sent behind one that rests, after several edits came at once: the first of the next edits wakes that one, and these bring the
# others, which else would wait for a whole trip.
MORE = 16
# How many seconds an answer may take that waits for nothing, and the shortest time that a question rests.
PATIENCE, SHORTEST = 15, 1
# How many edits may have been listed and not sent to the standby before more are asked for.
MANY = 4 * WINDOW
# The end of a list: the number of the last edit.
LAST = re.compile(rb'"last":(\d+)}\s*\Z')
LONGEST_END = 40


class Asked(NamedTuple):
    """A question for the edits from a number on, whether it rests at the server until there is one, and when it was sent."""

    number: int
    rests: bool
    time: float


class Passing:
    """Passes edits on. `wait`: how many seconds a question rests at most. `is_early`: whether one that found nothing didn't."""

    def __init__(self, leader: Leader, standby: Standby, wait: int) -> None:
        assert standby.at is not None
        self.leader, self.standby, self.wait = leader, standby, wait
        self.asks, self.makes = leader.row(), standby.row()
        # The last edit that was listed, that the server has, and that it was told to be at the standby.
        self.listed = self.last = standby.at
        self.told: Optional[int] = None
        # When a question was sent last, and how many were behind one that rests.
        self.asked_at, self.more = 0.0, MORE
        # What was asked; edits that were listed, sent to the standby, and refused by it.
        self.asked: deque[Asked] = deque()
        self.waiting: deque[Edit] = deque()
        self.sent: deque[Edit] = deque()
        self.sent_at = 0.0
        self.refused: list[Edit] = []
        # By the number of an edit with which a list ended that was then the server's last one: the digest of the map after it.
        self.digests: dict[int, str] = {}
        self.is_over = self.is_early = False
        self.fault: Optional[Fault] = None

    def run(self, is_enough: Callable[[], bool]) -> None:
        """Passes on until the server has no edit for a while, or it is enough. What was listed is passed on too if the server fails. Then the maps are
        compared, if the standby has all that was listed."""
        try:
            self.pass_on()
            self.ask()
            while self.asked or self.sent:
                for row in self.ready():
                    if row is self.makes:
                        self.take_made()
                    elif self.asked:
                        self.take_lists()
                self.is_over = self.is_over or is_enough()
                self.pass_on()
                self.ask()
        except BaseException:
            self.leader.close()
            self.standby.close()
            raise
        if self.fault:
            raise self.fault
        if self.standby.at in self.digests:
            self.standby.confirm(self.leader, self.digests[self.standby.at])

    # ---- the server

    def ask(self) -> None:
        """Asks for more edits, and tells what the standby has, if it is time for that."""
        at = self.standby.at
        if self.is_over or at is None:
            return
        is_new, is_time = self.standby.is_needed and at != self.told, time.monotonic() >= self.next_question()
        if at == self.listed and (is_new or not self.asked):
            self.question(at + 1, True, True)
        elif is_time and is_new:
            self.question(at + 1, True, False)
        elif is_time:
            self.more += 1
            self.question(self.listed + 1, False, False)
        elif self.listed < self.last and len(self.waiting) < MANY and all(asked.number <= self.listed for asked in self.asked):
            self.question(self.listed + 1, False, False)

    def next_question(self) -> float:
        """When a server that needs a standby is to be asked next though an answer is on its way: to tell it what the standby has, or for edits that were
        made behind the one that was answered."""
        if self.is_over or not self.standby.is_needed or (self.standby.at == self.told and self.more >= MORE):
            return float("inf")
        return self.asked_at + (LATER if self.listed < self.last else SOON)

    def question(self, number: int, tells: bool, rests: bool) -> None:
        """Asks for the edits from a number on. `tells`: that the standby has all before; `rests`: until there is one."""
        now = time.monotonic()
        words = [f"wait={self.wait}"] * (rests and self.wait > 0) + ["standby"] * tells
        try:
            self.asks.send([self.leader.request("GET", f"{FEED}/{number}" + ("?" + "&".join(words) if words else ""))])
        except OSError as fault:
            self.fail(self.no_reply(fault))
            return
        self.asked.append(Asked(number, rests, now))
        self.asked_at = now
        if tells:
            self.told = number - 1

    def take_lists(self) -> None:
        """Takes the lists that have come."""
        try:
            for _, reply in self.asks.replies():
                self.take_list(self.asked.popleft(), reply)
                if reply.is_last:
                    self.leader.close()
                    self.asked.clear()
                    self.asks, self.told = self.leader.row(), None
                    break
        except (OSError, http.client.HTTPException) as fault:
            self.fail(self.no_reply(fault))
        except Fault as fault:
            self.fail(fault)

    def take_list(self, asked: Asked, reply: Reply) -> None:
        """Takes one list: of its edits those that none had before. Edits may have left the list that are on their way already."""
        if reply.status == 410 and asked.number <= self.listed:
            return
        if reply.status != 200:
            # Why that is has to be asked by itself.
            self.leader.close()
        found = LAST.search(reply.content[-LONGEST_END:])
        if reply.status == 200 and found and int(found[1]) == self.listed >= asked.number:
            return
        edits, self.last = self.leader.listed(asked.number, reply.status, reply.content)
        if self.leader.ended:
            number, digest = self.leader.ended
            self.digests[number] = digest
        new = edits[self.listed + 1 - asked.number:]
        if new:
            self.waiting.extend(new)
            self.more = 0 if len(new) > 1 else self.more
            self.listed = new[-1]["edit"]
        elif asked.rests and not edits and not self.asked and self.standby.at == self.listed:
            self.is_over, self.is_early = True, time.monotonic() < asked.time + SHORTEST

    def no_reply(self, fault: object) -> NoAnswer:
        """That the server doesn't answer."""
        return NoAnswer(f"no reply of {self.leader.address}: {fault}")

    def fail(self, fault: Optional[Fault] = None) -> None:
        """Asks no more. What was listed is passed on before it ends with this fault."""
        self.leader.close()
        self.asked.clear()
        self.is_over, self.fault = True, fault

    # ---- the standby

    def pass_on(self) -> None:
        """Sends the edits that are listed to the standby. One that is too long for that waits until the others are made."""
        requests = []
        while self.waiting and not self.refused and len(self.sent) < WINDOW:
            body = body_of(self.waiting[0])
            if len(body) > MOST_BODY:
                if self.sent:
                    break
                self.make_alone()
                continue
            edit = self.waiting.popleft()
            self.sent.append(edit)
            requests.append(self.standby.request("POST", only_after(f"{NUMBERED}/{edit['edit']}", self.digests.get(edit["edit"] - 1)), body))
        if requests:
            if len(requests) == len(self.sent):
                # Nothing was awaited, and the connection may have been closed.
                self.makes = self.standby.row()
            self.sent_at = time.monotonic()
            try:
                self.makes.send(requests)
            except OSError as fault:
                raise NoAnswer(f"no reply of {self.standby.address}: {fault}") from fault

    def take_made(self) -> None:
        """Takes the replies of the standby that have come. An edit behind one that is refused is refused too, for its number."""
        try:
            for _, reply in self.makes.replies():
                edit = self.sent.popleft()
                if reply.status == 200 and not self.refused:
                    self.standby.at = edit["edit"]
                    self.digests.pop(edit["edit"] - 1, None)
                else:
                    self.refused.append(edit)
                if reply.is_last:
                    raise http.client.RemoteDisconnected("it has ended the connection")
        except (OSError, http.client.HTTPException) as fault:
            raise NoAnswer(f"no reply of {self.standby.address}: {fault}") from fault
        if self.refused and not self.sent:
            self.waiting.extendleft(reversed(self.refused))
            self.refused = []
            self.make_alone()

    def make_alone(self) -> None:
        """Makes the next edit by itself, which says why if it isn't made. Nothing is passed on once the standby has another number."""
        edit = self.waiting.popleft()
        self.standby.take(edit, self.digests.pop(edit["edit"] - 1, None))
        if self.standby.at is None:
            self.waiting.clear()
            self.fail()

    # ---- both

    def ready(self) -> list[Row]:
        """The connections on which something has come, once it has, or it is time to ask."""
        now = time.monotonic()
        awaited = [row for row, requests in ((self.asks, self.asked), (self.makes, self.sent)) if requests]
        found = readable(awaited, max(0, min(self.next_question() - now, SHORTEST)))
        if not found and self.asked and now > self.asked[0].time + self.wait + PATIENCE:
            self.fail(self.no_reply(f"none in {PATIENCE} seconds"))
        if not found and self.sent and now > self.sent_at + self.standby.longest:
            raise NoAnswer(f"no reply of {self.standby.address}: none in {self.standby.longest} seconds")
        return found
