"""Which version of each feature a GIS has. Needs no package.

The id of a feature names its version (`place.points.352.9f..`), and a GIS sends it back when it saves. Only two things
have to be known beside it: a GIS keeps the id of a feature that it has saved, though the feature has another version
since; and while it is panned it gets no second version of a feature, since it would show both. """
from __future__ import annotations

import math
import time
from collections import defaultdict
from collections.abc import Callable, Iterable, Iterator, Mapping
from typing import Any, Tuple

from ..faults import Refused
from ..geometry.shapes import Box
from ..geometry.world import WORLD
from .actions import number_and_version
from .tables import DIGITS, Kept, Table, View, is_within, signed

# Seconds without a request after which a session that has only read is dropped, and the boxes of one that has saved;
# and after which that one is.
IDLE, FORGOTTEN = 12 * 3600, 30 * 24 * 3600
# Seconds within which a GIS says again what it was asked about.
ASKED = 600
# The most sessions, the most features in the boxes of all of them, and the most boxes of a table in one. Of those
# beyond, the ones go first that were used least recently, and of sessions those that have saved nothing.
MOST_SESSIONS, MOST_SHOWN, MOST_BOXES = 10_000, 5_000_000, 1000
# The same features of a map that isn't held: some 600 bytes each.
MOST_FAR = 60_000

# The id of a feature, and the number and the version that it stands for.
Note = Tuple[str, int, str]


def kept(view: View) -> Kept:
    """A feature as a map that is held keeps it."""
    return view


class Session:
    """One layer of one GIS, which has an address of its own for its requests."""

    def __init__(self) -> None:
        self.used = time.time()
        # What it has saved: the number and the version that an id has become; all ids of each of these, and the last
        # one.
        self.has: dict[str, tuple[int, str]] = {}
        self.ids = defaultdict[Tuple[int, str], set[str]](set)
        self.fids: dict[tuple[int, str], str] = {}
        # Versions of conflicts that it was told (None: deleted), the ids under which it got these features since, and
        # those that are as it was told.
        self.told: dict[int, str | None] = {}
        self.given: dict[int, str] = {}
        self.seen: set[tuple[int, str | None]] = set()
        # By the names of tables: the boxes that were asked for since the layer was loaded, and the features in them.
        self.boxes: dict[str, tuple[list[Box], dict[int, Kept]]] = {}
        self.shown = 0
        # What its last Transaction was that added features, and the ids that these got.
        self.mark = ""
        self.added: list[str] = []
        # The features of which it was asked whether they are to be deleted, and when.
        self.asked, self.asked_at = frozenset[int](), 0.0

    # ---- ids

    def found(self, fid: str) -> tuple[int, str] | None:
        """The number of a feature, and the version of it that the GIS has; None if it is no id of the gateway."""
        return self.has.get(fid) or number_and_version(fid)

    def held(self, fid: str) -> tuple[int, str]:
        """The number of a feature, and the version of it that the GIS has."""
        found = self.found(fid)
        if found is None:
            raise Refused(f"no feature has the id {fid}")
        return found

    def fid(self, table: Table, number: int, version: str) -> str:
        """The id of a feature: that under which the GIS has this version already."""
        fid = self.fids.get((number, version))
        if fid is None:
            fid, again = f"{table.name}.{number}.{version}", 1
            while fid in self.has and self.has[fid] != (number, version):
                again += 1
                fid = f"{table.name}.{number}.{version}-{again}"
            if again > 1:
                self.note(fid, number, version)
        return fid

    def note(self, fid: str, number: int, version: str) -> None:
        """Notes that an id stands for this version."""
        if fid in self.has:
            self.ids[self.has[fid]].discard(fid)
        self.has[fid] = number, version
        self.ids[number, version].add(fid)
        self.fids[number, version] = fid

    def saved(self, fid: str, table: Table, number: int, before: str | None, version: str) -> list[Note]:
        """What is to be noted once a feature is saved: each id under which the GIS has the version before stands for
        the new one."""
        ids = sorted(self.ids[number, before]) if before else []
        if before and f"{table.name}.{number}.{before}" not in self.has:
            ids.append(f"{table.name}.{number}.{before}")
        last = self.given.get(number, fid)
        return [(one, number, version) for one in [*(one for one in [*ids, fid] if one != last), last]]

    def says_again(self, numbers: frozenset[int]) -> bool:
        """Whether it was asked about these features just before, and says them again. Otherwise it is asked now."""
        is_again = numbers == self.asked and time.time() < self.asked_at + ASKED
        self.asked, self.asked_at = frozenset() if is_again else numbers, time.time()
        return is_again

    # ---- what it is given

    def give(self, found: Iterable[tuple[Table, View]]) -> None:
        """Notes that the GIS gets features of which it was told conflicts. `found`: pairs of table and view."""
        numbers = {view.number: (table, view) for table, view in found} if self.told else {}
        for number, version in self.told.items():
            if number in numbers:
                table, view = numbers[number]
                self.given[number] = self.fid(table, number, view.version)
                if view.version == version:
                    self.seen.add((number, version))
            elif version is None:
                self.seen.add((number, version))

    def pinned(
        self,
        table: Table,
        box: Box | None,
        views: Iterable[View],
        pack: Callable[[View], Kept] = kept,
        most: float = math.inf,
    ) -> Iterator[View]:
        """The features of a box, each as the GIS has it already. A box inside of one before is asked for when the layer
        is loaded anew (F5): a GIS that is panned asks for none of those. `pack`: what is kept of a feature. Of a table
        of which it would show more than `most` features none is kept."""
        if box is None and table.name not in self.boxes:
            yield from views
            return
        box = box or (0, 0, WORLD, WORLD)
        boxes, shown = self.boxes.setdefault(table.name, ([], {}))
        if any(is_within(box, one) for one in boxes):
            boxes.clear()
            shown.clear()
        boxes.append(box)
        del boxes[:-MOST_BOXES]
        for view in views:
            here = shown.get(view.number)
            if here is None or (view.number, view.version) in self.fids:
                here = shown[view.number] = pack(view)
            if len(shown) > most:
                boxes.clear()
                shown.clear()
            yield here.view() if here.version != view.version else view

    def count_shown(self) -> int:
        """Counts the features in its boxes. Returns how many more they are than before."""
        before, self.shown = self.shown, sum(len(shown) for _, shown in self.boxes.values())
        return self.shown - before

    @property
    def is_needed(self) -> bool:
        """Whether it has more than what its GIS gets again by reading."""
        return bool(self.has or self.told)


class Sessions:
    """The sessions by their names, the one that was used last at the end."""

    def __init__(self) -> None:
        self.all: dict[str, Session] = {}
        self.shown, self.swept = 0, time.time()
        self.most = MOST_SHOWN

    def get(self, name: str) -> Session:
        """The session of a name, or a new one, which is only kept by `keep`: anybody can make up names."""
        if time.time() > self.swept + 3600:
            self.sweep()
        session = self.all.get(name) or Session()
        session.used = time.time()
        return session

    def keep(self, name: str, session: Session) -> None:
        """Keeps a session that has read or saved something. What nobody has named isn't kept."""
        if not name:
            return
        self.all.pop(name, None)
        self.all[name] = session
        self.shown += session.count_shown()
        while len(self.all) > MOST_SESSIONS:
            self.drop(next((one for one, other in self.all.items() if not other.is_needed), next(iter(self.all))))
        if self.shown > self.most:
            for other in [one for one in self.all.values() if one.shown and one is not session]:
                self.empty(other)
                if self.shown <= self.most:
                    break

    def drop(self, name: str) -> None:
        """Drops a session."""
        self.shown -= self.all.pop(name).shown

    def empty(self, session: Session) -> None:
        """Drops the boxes of a session."""
        session.boxes.clear()
        self.shown += session.count_shown()

    def empty_all(self) -> None:
        """Drops the boxes of all sessions."""
        for session in self.all.values():
            self.empty(session)

    def restore(self, row: Mapping[str, Any]) -> None:
        """Takes what was noted of a save."""
        if row["session"]:
            session = self.get(row["session"])
            for fid, number, version in row["notes"]:
                session.note(fid, number, signed(version[:DIGITS]))
            session.mark, session.added, session.used = row["mark"], row["added"], row["time"]
            self.keep(row["session"], session)

    def sweep(self) -> None:
        """Drops what hasn't been used for long."""
        self.swept = now = time.time()
        for name, session in list(self.all.items()):
            if now > session.used + (FORGOTTEN if session.is_needed else IDLE):
                self.drop(name)
            elif now > session.used + IDLE:
                self.empty(session)
