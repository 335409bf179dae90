"""Saves: changes that are made whole or not at all, though they may take several edits. Needs no package.

What is to be sent is noted before it is sent. If an edit isn't made, those before it are undone, the newest first, by
checked edits: what others have changed just then stays, and is named. If the gateway or the server ends meanwhile, this
is done once both are there again. """
from __future__ import annotations

import json
from collections.abc import Iterable
from typing import NoReturn

from ..client.client import CHECKED, refusal
from ..client.edits import NOTHING, Change, batches, body_of, delete, encoded, fits, sectors
from ..faults import NoAnswer, Refused, Stopped
from ..files.proxy_log import line_of
from ..files.save_log import Groups, SaveLog, Unwritable
from ..shown import shown
from .live_map import LiveMap


class Taken(Exception):
    """Ids for new features that somebody else has taken meanwhile."""

    def __init__(self, ids: set[int]) -> None:
        super().__init__(ids)
        self.ids = ids


class Made:
    """What a save came to: its id in the log, who saves, and the numbers of its edits."""

    def __init__(self, number: int, person: str) -> None:
        self.number, self.person = number, person
        self.edits: list[int] = []


class Saves:
    """Makes saves on a live map, and keeps a log of them. `trail`: the path of the file with who has saved what, or
    None."""

    def __init__(self, live: LiveMap, log: SaveLog, trail: str | None = None) -> None:
        self.live, self.log, self.client, self.trail = live, log, live.client, trail

    # ---- sending

    def make(self, changes: Iterable[Change], new_ids: set[int], person: str) -> Made:
        """Makes changes. Raises `Refused` if they aren't made, and `Taken` if ids that are to be new aren't. What came
        of it is finished by `finish`."""
        groups = list(batches(step for change in changes for step in steps(change)))
        self.see_room(groups)
        try:
            made = Made(self.log.begin(groups), person)
        except Unwritable as fault:
            raise Refused(f"nothing of this was saved: {fault}") from fault
        for group in groups:
            why, taken = self.try_edit(group, made, new_ids)
            if why is not None:
                self.give_up(made.number, why, taken)
        return made

    def see_room(self, groups: Groups) -> None:
        """Refuses what the journal has no room for. To undo a part would take room too."""
        journal = self.client.known()["journal"]
        need, free = sum(map(sectors, groups)), journal["places"] - journal["used"]
        if need > free and not self.client.publishes:
            raise Refused(
                f"nothing of this was saved: it needs {need:,} sectors of the journal, which has {free:,}: publish, "
                "then save again"
            )

    def try_edit(self, group: list[Change], made: Made, new_ids: set[int]) -> tuple[str | None, set[int]]:
        """Makes changes by one edit. Returns why it isn't made, or None, and the new ids that somebody else has."""
        try:
            status, content = self.client.send("POST", CHECKED, body_of(group), group)
            if status == 200:
                edit = json.loads(content)["edit"]
                self.note(made, group, edit, edit)
                return None, set()
            if status == 409 and content.startswith(b"Changed "):
                return self.what_changed(group, made, new_ids)
            self.client.stop_at(status, content)
            return str(refusal(status, content, 0)), set()
        except (NoAnswer, Stopped) as stopped:
            return f"the map's server: {stopped}", set()
        except (Unwritable, OSError) as fault:
            return str(fault), set()

    def note(self, made: Made, group: list[Change], edit: int, told: int | None = None) -> None:
        """Notes that a group is made. `told`: the number of its edit, if a reply had it."""
        made.edits.append(edit)
        self.live.made(group, edit)
        self.log.made(made.number)
        if self.trail:
            with open(self.trail, "a", encoding="utf-8") as file:
                file.write(line_of(made.person, body_of(group), told))

    def what_changed(self, group: list[Change], made: Made, new_ids: set[int]) -> tuple[str | None, set[int]]:
        """Why a checked edit isn't made, None if it is made, and the new ids that somebody else has."""
        last = self.live.look()
        now = {change.number: encoded(self.live.now.get(change.number)) for change in group}
        if all(now[change.number] == (change.body or NOTHING) for change in group):
            self.note(made, group, last)
            return None, set()
        others = {change.number for change in group if now[change.number] != change.was}
        return f"others have just changed {', '.join(map(str, sorted(others)))}", others if others <= new_ids else set()

    def finish(self, made: Made, session: str, **told: object) -> None:
        """Notes what the GIS has since a save. A save that can't be noted is undone: the next start would do so."""
        try:
            self.log.finish(made.number, session, **told)
        except Unwritable as fault:
            self.give_up(made.number, str(fault), set())

    # ---- undoing

    def give_up(self, number: int, why: str, taken: set[int]) -> NoReturn:
        """Undoes what was made of a save, and says why it isn't made."""
        try:
            left = self.undo(number)
        except (NoAnswer, Stopped, Unwritable):
            raise Refused(
                f"nothing of this is saved, and what was sent before is undone as soon as it can be: {why}"
            ) from None
        if taken and not left:
            raise Taken(taken)
        but = f", but for {left}, which others have changed just then" if left else ""
        raise Refused(f"nothing of this was saved{but}: {why}")

    def recover(self) -> None:
        """Undoes what was made of saves that were cut short."""
        for number in list(self.log.begun):
            count = len({change.number for group in self.log.begun[number] for change in group})
            left = self.undo(number)
            but = f", but for {left}, which others have changed since" if left else ""
            self.live.tell(f"a save of {count:,} features was cut short, and is undone{but}")

    def undo(self, number: int) -> str:
        """Undoes what was made of a save. Returns the features that others have changed since, so that they stay, as a
        text."""
        self.live.look()
        groups, sent = self.log.begun[number], self.log.sent[number]
        made = [group for at, group in enumerate(groups) if at < sent or self.is_made(group)]
        back = [turned(change) for group in reversed(made) for change in reversed(group)]
        left = {change.number for change, refused in self.client.make(back) if refused is not None}
        names = ", ".join(self.name(piece) for piece in sorted(left))
        self.live.look()
        self.log.undo(number)
        return names

    def is_made(self, group: list[Change]) -> bool:
        """Whether a group is made of which that isn't known: something of it is on the map that wasn't before."""
        return any(
            encoded(self.live.now.get(change.number)) == (change.body or NOTHING) != change.was for change in group
        )

    def name(self, number: int) -> str:
        """A feature of the map as people know it."""
        feature = self.live.now.get(number)
        return f"{shown(feature['layer'])} {number}" if feature else str(number)


def steps(change: Change) -> list[Change]:
    """A change, or two if it is too large for a request beside what its author saw: the feature is deleted, then put as
    a new one."""
    if fits(change) or change.body is None or change.was == NOTHING:
        return [change]
    return [delete(change.number)._replace(was=change.was), change._replace(was=NOTHING)]


def turned(change: Change) -> Change:
    """The change that undoes another one."""
    return change._replace(body=None if change.was == NOTHING else change.was, was=change.body or NOTHING)
