"""What a GIS saves by one Transaction of WFS: compared with the map of now, then made whole or not at all. Needs no
package."""
from __future__ import annotations

from collections import Counter, defaultdict
from collections.abc import Iterable, Sequence

from ..client.edits import Change, checked, delete, put
from ..commands.deletions import are_many
from ..commands.differences import told_change
from ..faults import Refused
from ..forms import Feature
from ..geometry.pieces import pieces_of
from ..geometry.shapes import Unfit
from ..geometry.wholes import PIECE, Whole
from ..shown import shown
from .actions import Action, is_given
from .live_map import LiveMap
from .saves import Made, Saves, Taken
from .sessions import Note, Session
from .tables import Table, View, version_of
from .wishes import Wish, changed, fault_of_piece, new_feature

# How often new features get other ids because somebody else was faster.
TRIES = 8
ADVICE = "Load the layer anew (F5) to see them. If you save again then, your edits are put over theirs; or undo yours"
# How it is said that very many deletions are meant: by a GIS, and by who has no session.
MEANT = "If that is meant, save once more within ten minutes; if not, undo it (Ctrl+Z)"
MEANT_ALONE = "If that is meant, send it to an address that ends with ?delete-many=true"
# What counts new features that were sent again, and aren't made again.
AGAIN = "again"
# What is said of an id that this gateway hasn't given: from before an update of it, or made up.
NOT_GIVEN = ", undo your edit of it, load the layer anew and make it again"


class Conflict(Refused):
    """Why nothing is saved: others have changed features of it."""

    def __init__(self, features: list[str]) -> None:
        super().__init__(
            f"nothing of this was saved, since others have changed features meanwhile: {'; '.join(features)}. {ADVICE}"
        )
        self.features = features


class Doubted(Refused):
    """Why nothing is saved: it deletes so much that it may be a mistake."""


class Transaction:
    """What a GIS saves at once. `live` is as the map is now. `again`: the ids that its new features got, if the GIS has
    sent it before. Those that the map has as they were added aren't made again."""

    def __init__(self, live: LiveMap, session: Session, actions: Iterable[Action], again: Sequence[str] = ()) -> None:
        self.live, self.session, self.tables = live, session, live.tables()
        self.again, asked = again, list(actions)
        # The features that it names. A new one gets none of their ids, also where the map has no such feature any more.
        self.named = {
            found[0] for action in asked for fid in action.fids for found in [session.found(fid)] if found is not None
        }
        # Its new features in their order: the id of one that isn't made again, or the wish.
        self.new: list[str | Wish] = []
        # What it makes of each feature, by the ids, and the versions that these had.
        self.wishes: dict[int, Wish] = {}
        self.versions: dict[int, str | None] = {}
        self.conflicts: list[str] = []
        self.counts = Counter[str]()
        # The id from which on free ones are looked for; None before the first is.
        self.free: int | None = None
        for action in asked:
            self.add(action)
        if self.conflicts:
            raise Conflict(self.conflicts)

    # ---- what is wanted

    def add(self, action: Action) -> None:
        """Takes an action: what it changes of its features."""
        table = self.tables.get(action.type)
        if table is None:
            raise Refused(f"the map has no layer {action.type}")
        self.counts[action.name] += max(len(action.fids), 1)
        if action.name == "Insert":
            self.insert(action, table)
        for fid in action.fids:
            wish = self.wish(fid, table, action)
            if wish is not None and action.name == "Delete":
                wish.feature = None
            elif wish is not None:
                if wish.feature is None:
                    raise Refused(f"{wish} is deleted and changed at once")
                wish.feature = changed(wish.feature, action, table, wish.number)

    def insert(self, action: Action, table: Table) -> None:
        """Takes a new feature."""
        before = self.again[len(self.new)] if len(self.new) < len(self.again) else None
        if before is not None and is_there(self.live, self.session, before):
            self.new.append(before)
            self.counts[AGAIN] += 1
            return
        number = self.new_id(self.live.greatest() + 1 if self.free is None else self.free)
        self.wishes[number] = Wish(table, None, number, None, changed(new_feature(table), action, table))
        self.new.append(self.wishes[number])

    def new_id(self, first: int) -> int:
        """The next free id, from one on. Pieces of cut features have greater ones."""
        while first in self.live.now or first in self.wishes or first in self.named:
            first += 1
        self.free = first
        return first

    def wish(self, fid: str, table: Table, action: Action) -> Wish | None:
        """The wish for a feature that the GIS has; None if others have changed it, or if it is to be deleted and is
        gone. If the GIS was told that, and has got the feature as it is now, what is saved is put over it."""
        number, version = self.session.held(fid)
        if number in self.wishes:
            return self.wishes[number]
        view, before = self.live.views.get(number), self.live.known.get((number, version))
        now = view.version if view else None
        if view is None and action.name == "Delete":
            return None
        # A GIS that got no reply saves the same again.
        is_made = before and view and action.name == "Update" and changed(before, action, table, number) == view.feature
        # What is put over others' edits has an id that was given: whoever makes one up hasn't seen anything.
        is_known = fid in self.session.has or is_given(fid)
        if (
            now != version
            and not is_made
            and not (is_known and (number, now) in self.session.seen and (view or before))
        ):
            self.tell(table, number, view, before, is_known)
            return None
        if view and view.key != (table.layer, table.kind):
            raise Refused(f"feature {number} isn't of {table.name}")
        self.versions[number] = now
        self.wishes[number] = Wish(table, fid, number, view.whole if view else None, view.feature if view else before)
        return self.wishes[number]

    def tell(self, table: Table, number: int, view: View | None, before: Feature | None, is_known: bool) -> None:
        """Tells a conflict."""
        now = (
            f"now {told_change(before, view.feature if view else None)}" if before else "changed" if view else "deleted"
        )
        text = f"{shown(table.layer)} {number} ({now}{'' if is_known else NOT_GIVEN})"
        if text not in self.conflicts:
            self.conflicts.append(text)
        if is_known:
            self.session.told[number] = view.version if view else None

    # ---- what may be a mistake

    def see_deletions(self, has_name: bool) -> None:
        """Refuses to delete most of a table, until the GIS saves the same again. `has_name`: whether the session is
        known by then."""
        gone = defaultdict(set)
        for wish in self.wishes.values():
            if wish.feature is None:
                gone[wish.table].add(wish.number)
        many = {table: numbers for table, numbers in gone.items() if are_many(len(numbers), table.count)}
        if many and not self.session.says_again(frozenset().union(*many.values())):
            told = ", ".join(
                f"{len(numbers):,} of the {table.count:,} features of {shown(table.title)}"
                for table, numbers in many.items()
            )
            raise Doubted(f"nothing of this was saved: it deletes {told}. {MEANT if has_name else MEANT_ALONE}")

    # ---- making it

    def make(self, saves: Saves, person: str) -> Made:
        """Makes it, for a person. Returns what came of it."""
        for _ in range(TRIES):
            changes = self.changes()
            new_ids = {number for wish in self.wishes.values() if wish.fid is None for number in wish.wanted}
            try:
                return saves.make(changes, new_ids, person)
            except Taken as taken:
                self.renumber(max(number % PIECE for number in taken.ids))
        raise Refused(
            "nothing of this was saved: others have taken the ids of new features again and again: save again"
        )

    def renumber(self, greatest: int) -> None:
        """Gives new features ids above one that somebody else has just taken."""
        free = max(self.free or 0, greatest) + 1
        for wish in [self.wishes.pop(number) for number, wish in list(self.wishes.items()) if wish.fid is None]:
            free = wish.number = self.new_id(free)
            self.wishes[wish.number] = wish

    def changes(self) -> list[Change]:
        """The changes that make it."""
        return [change for wish in self.wishes.values() for change in self.changes_of(wish)]

    def changes_of(self, wish: Wish) -> list[Change]:
        """The changes that make one feature."""
        try:
            wish.wanted = pieces_of(wish, self.live.now)
        except Unfit as fault:
            raise Refused(f"{wish} can't be saved: {fault}") from fault
        was = wish.base.pieces if wish.base else {}
        found = [(number, feature) for number, feature in wish.wanted.items() if feature != was.get(number)]
        for _, feature in found:
            why = fault_of_piece(feature)
            if why:
                raise Refused(f"{wish} can't be saved: {why}")
        made = [checked(put(number, feature), was.get(number)) for number, feature in found]
        return made + [checked(delete(number), feature) for number, feature in was.items() if number not in wish.wanted]

    # ---- what the GIS has then

    def saved(self) -> tuple[list[Note], list[str]]:
        """What is to be noted of each feature that the GIS has now, and the ids of new features."""
        notes, fids = [], {}
        for number, wish in self.wishes.items():
            if wish.feature is None:
                continue
            # The version that was saved: somebody else may have made another one since.
            version = version_of(wish.wanted)
            self.live.remember(View(Whole(number, wish.feature, wish.wanted)))
            fid = wish.fid or self.session.fid(wish.table, number, version)
            fids[wish] = fid
            notes += self.session.saved(fid, wish.table, number, self.versions[number] if wish.base else None, version)
        return notes, [fids[one] if isinstance(one, Wish) else one for one in self.new]


def is_there(live: LiveMap, session: Session, fid: str) -> bool:
    """Whether the map has a feature as it was added under this id."""
    number, version = session.held(fid)
    view = live.views.get(number)
    return view is not None and view.version == version
