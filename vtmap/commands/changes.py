"""What an import changes: the features of a plan beside those that the map has, and beside what the file said at its last import. """
from __future__ import annotations

import argparse
import json
from collections import Counter, defaultdict
from collections.abc import Iterator
from itertools import groupby
from typing import Dict, NamedTuple, Set

from ..client.client import Client
from ..client.edits import Change, batches, delete, encoded, sectors
from ..files.base_file import Base, hash_of
from ..forms import Status
from ..geometry.wholes import whole_in
from ..limits import MOST_CHANGES, NUMBER_END
from ..progress import counted
from ..shown import shown
from .deletions import are_many
from .differences import named, told_difference
from .plan import FEWER, MANY_PIECES, Plan
from .sizes import Sizes

# What becomes of a feature. OWN: it stays as the map has it, which somebody has changed there. CONFLICT: the file and the map were both changed.
NEW, CHANGED, SAME, GONE, OWN, CONFLICT = "new", "changed", "unchanged", "deleted", "own", "conflict"
# How many conflicts are named, where it isn't known what the file said before.
MOST_NAMED = 20


class Found(NamedTuple):
    """What the map has of an id: the layer, or that of the feature that it is a piece of, the id of that feature, and
    the feature as JSON."""

    layer: str
    whole: int
    body: bytes


def counted_layers(counts: Counter[str]) -> str:
    """Counts of layers, as a text."""
    return ", ".join(f"{count:,} of {shown(layer)}" for layer, count in counts.most_common())


class Changes:
    """The changes of an import, and what became of them. `base`: what the file said before, or None."""

    def __init__(self, plan: Plan, words: argparse.Namespace, base: Base | None) -> None:
        self.plan, self.words, self.base = plan, words, base
        # What the file said before: of no feature, if there is no base.
        self.before = base or Base(None, "")
        self.layers = plan.layers | ({words.layer} if words.layer else set())
        # What the map has of the ids and the layers of the plan, whether that is known, and the ids of each of its
        # features.
        self.there: dict[int, Found] = {}
        self.has_looked, self.pieces = False, defaultdict[int, Dict[int, bytes]](dict)
        # What is to be done with each id, the feature that it is a piece of, and what is to be done with each feature and its pieces.
        self.kinds: dict[int, str] = {}
        self.wholes: dict[int, int] = {}
        self.states = defaultdict[int, Set[str]](set)
        # Ids that other layers have, and those whose feature is another one, both by the layers in the map.
        self.taken, self.differing = Counter[str](), Counter[str]()
        self.refused, self.conflicts, self.made = Counter[int](), Counter[int](), Counter[str]()
        # The layer and the hash of each feature that is put, as the base keeps them, and how many changes of it are left.
        self.hashes: dict[int, tuple[str, str]] = {}
        self.left = Counter[int]()
        # The texts that the file has as ids, by the ids.
        self.texts = plan.ids.names() if plan.ids else {}
        # The texts of conflicts, and how many of them are of features of which it isn't known what the file said before.
        self.told_conflicts: list[str] = []
        self.unknown = 0

    def look(self, client: Client, status: Status) -> None:
        """Asks for what the map has, and compares it with the plan."""
        ids, first, end = self.plan.ids_to_put, 0, NUMBER_END
        self.has_looked = True
        if status["last"] is None:
            return self.compare()
        if not self.words.update:
            first, end = min(ids, default=0), max(ids, default=-1) + 1
        first_pieces = {}
        for number, feature in counted(client.features(first, min(end, status["last"] + 1)), "features of the map looked at"):
            whole, layer = whole_in(feature["tags"], self.words.whole), feature["layer"]
            if whole == number:
                first_pieces[number] = layer
            # What has such a tag without being a piece is a feature of its own.
            if whole is None or whole not in first_pieces:
                whole = number
            layer = first_pieces.get(whole, layer)
            if number in ids or (self.words.update and layer in self.layers):
                self.there[number] = Found(layer, whole, encoded(feature))
                self.pieces[whole][number] = self.there[number].body
        return self.compare()

    # ---- comparing

    def compare(self) -> None:
        """Finds out what is to be done with each id."""
        for whole, group in groupby(self.plan.planned("features compared with the map"), lambda planned: planned.whole):
            self.compare_whole(whole, {planned.number: planned.body for planned in group})
        if self.words.delete_missing and not self.plan.unknown:
            self.compare_missing()

    def compare_whole(self, whole: int, wanted: dict[int, bytes]) -> None:
        """Finds out what is to be done with a feature of the file, whose pieces are to be these."""
        there = self.there
        now = {number: body for number, body in self.pieces.get(whole, {}).items() if number in wanted or not self.plan.has(number)}
        now.update({number: there[number].body for number in wanted if number in there})
        self.hashes[whole] = json.loads(wanted[min(wanted)])["layer"], hash_of(wanted)
        kinds = {number: NEW if number not in now else SAME if now[number] == body else self.differs(there[number]) for number, body in wanted.items()}
        kinds.update({number: GONE for number in now if number not in wanted})
        if self.words.update and now != wanted:
            left = self.decided(whole, now, wanted)
            kinds = dict.fromkeys(kinds, left) if left else kinds
        for number, kind in kinds.items():
            self.kinds[number], self.wholes[number] = kind, whole
            self.states[whole].add(kind)

    def differs(self, found: Found) -> str:
        """Counts an id of which the map has another feature."""
        if found.layer not in self.layers and not self.before.is_known(found.whole):
            self.taken[found.layer] += 1
        elif not self.words.update:
            self.differing[found.layer] += 1
        return CHANGED

    def decided(self, whole: int, now: dict[int, bytes], wanted: dict[int, bytes]) -> str | None:
        """What becomes of a feature that isn't on the map as the file has it, if the file's version isn't sent. An id of another layer is no
        conflict: nothing is sent then."""
        layer, found = self.hashes.get(whole) or (self.there[min(now)].layer, None)
        before, is_known = self.before.hash(whole), self.before.is_known(whole)
        is_foreign = not is_known and any(self.there[number].layer not in self.layers for number in now)
        if self.words.exactly or is_foreign or (not now and not is_known) or (is_known and now and hash_of(now) == before):
            return None
        if is_known and found == before:
            return OWN
        if self.words.file_wins:
            return None
        if self.words.map_wins:
            self.before.keep(layer, whole, found)
            return OWN
        self.tell_conflict(whole, now, wanted, is_known)
        return CONFLICT

    def tell_conflict(self, whole: int, now: dict[int, bytes], wanted: dict[int, bytes], is_known: bool) -> None:
        """Keeps the text of a conflict."""
        self.unknown += not is_known
        if is_known or self.unknown <= MOST_NAMED:
            one, other = (json.loads(pieces[min(pieces)]) if pieces else None for pieces in (now, wanted))
            self.told_conflicts.append(f"{named(whole, other or one, self.texts.get(whole))}: {told_difference(one, other)}")

    def compare_missing(self) -> None:
        """Finds out what is to be done with the features of the map that the file doesn't have."""
        planned, kept = set(self.states), self.plan.kept
        for whole, pieces in self.pieces.items():
            now = {number: body for number, body in pieces.items() if number not in self.kinds and number not in kept}
            if not now or whole in planned or whole in kept or self.there[min(now)].layer not in self.missing_from():
                continue
            kind = self.missing(whole, now, self.there[min(now)].layer)
            for number in now:
                self.kinds[number], self.wholes[number] = kind, whole
                self.states[whole].add(kind)
        for whole in self.before.gone(self.missing_from()):
            if whole not in self.pieces and whole not in planned and whole not in kept:
                self.before.keep(self.before.features[whole][0], whole, None)

    def missing(self, whole: int, now: dict[int, bytes], layer: str) -> str:
        """What becomes of a feature that the file doesn't have. One that it never had is the map's own."""
        if not self.words.exactly and not self.before.is_known(whole) and layer in self.before.layers:
            return OWN
        return self.decided(whole, now, {}) or GONE

    def missing_from(self) -> set[str]:
        """The layers whose features are deleted if the file doesn't have them."""
        return {self.words.replace} if self.words.replace else self.layers

    def obstacles(self) -> Iterator[str]:
        """Why nothing may be sent."""
        yield from self.deletions()
        yield from self.cuts()
        if self.words.overwrite:
            return
        if self.taken:
            taken = f"{sum(self.taken.values()):,} of the ids are taken by other layers: {counted_layers(self.taken)}"
            yield f"{taken}. Give another --first, or --overwrite to replace these features"
        if self.differing:
            differing = f"{sum(self.differing.values()):,} of the ids have other features: {counted_layers(self.differing)}"
            yield f"{differing}. `vtmap update` changes them; or give another --first"

    def deletions(self) -> Iterator[str]:
        """Why so much isn't deleted: the file may be a part of what it was to be. Each layer is judged by itself."""
        gone = Counter(self.there[min(self.pieces[whole])].layer for whole, kinds in self.states.items() if kinds == {GONE})
        known = Counter(self.there[min(now)].layer for now in self.pieces.values())
        most = self.words.delete_at_most
        for layer, count in gone.items():
            would = f"{count:,} of {known[layer]:,} features of {shown(layer)} would be deleted"
            if most and not most.allows(count, known[layer]):
                yield f"{would}, and --delete-at-most {most} allows fewer: is the file whole?"
            elif not self.words.delete_many and ((not most and are_many(count, known[layer])) or not self.plan.ids_to_put):
                yield f"{would}: is the file whole? --delete-many deletes them"

    def cuts(self) -> Iterator[str]:
        """Why features aren't cut: they would become very many, and most of what is sent."""
        new = [number for number, kind in self.kinds.items() if kind == NEW]
        pieces = Counter(self.wholes[number] for number in new)
        count, wholes = sum(many for many in pieces.values() if many > 1), sum(many > 1 for many in pieces.values())
        if count >= MANY_PIECES and count * 2 > len(new) and not self.words.cut_many:
            yield f"{wholes:,} feature{'s' if wholes > 1 else ''} would be {count:,} pieces, each with an id of its own: {FEWER}, --cut-many puts them"

    def conflicts_told(self) -> Iterator[str]:
        """The lines about what both the file and the map have changed."""
        yield from (f"conflict: {text}" for text in self.told_conflicts)
        if self.unknown > MOST_NAMED:
            yield f"and {self.unknown - MOST_NAMED:,} more conflicts"
        if self.unknown:
            yield (
                f"note: what the file said of {self.unknown:,} of these at its last import isn't known: "
                f"{self.before.path} hasn't got it of {self.before.address}. "
                "--base names the file that was used then, --was-at the address of the map then"
            )
        if self.told_conflicts:
            yield "note: of conflicts nothing is sent: --file-wins takes what the file has, --map-wins leaves what the map has, from now on too"

    def would_send(self) -> Iterator[str]:
        """The lines about what would be sent, by the names of features."""
        first = {planned.whole: planned.body for planned in reversed(list(self.plan.planned()))} if self.states else {}
        for whole, kinds in self.states.items():
            kind = next(iter(kinds)) if len(kinds) == 1 else CHANGED
            if kind in (NEW, CHANGED, GONE):
                now = self.pieces.get(whole)
                one, other = now and json.loads(now[min(now)]), first.get(whole) and json.loads(first[whole])
                more = f": {told_difference(one, other)}" if kind == CHANGED and one and other else ""
                yield f"would be {'sent' if kind != GONE else kind}: {named(whole, other or one, self.texts.get(whole))}{more}"

    # ---- sending

    def to_send(self) -> Iterator[Change]:
        """The changes, in the order of the file; deletions are last."""
        for planned in self.plan.planned():
            kind = self.kinds[planned.number]
            if kind in (NEW, CHANGED):
                change = Change(planned.number, planned.body, planned.text)
                was = self.there[planned.number].body if kind == CHANGED else encoded(None)
                yield change._replace(was=was) if self.has_looked else change
        for number, kind in self.kinds.items():
            if kind == GONE:
                yield delete(number)._replace(was=self.there[number].body)

    def count(self) -> int:
        """How many changes are sent."""
        return sum(kind in (NEW, CHANGED, GONE) for kind in self.kinds.values())

    def sizes(self, most: int) -> tuple[Sizes, int]:
        """The sums of what is sent, and the sectors of the journal that it takes."""
        room = self.plan.room
        if room and room.is_new and set(self.kinds.values()) == {NEW}:
            return room.sums, sum(map(sectors, batches(self.to_send(), most)))
        sums = Sizes()
        for planned in self.plan.planned("features measured"):
            if self.kinds[planned.number] in (NEW, CHANGED):
                feature = json.loads(planned.body)
                (shape,) = feature["geometry"].items()
                sums.add(planned.text, feature, shape, self.plan.zooms, planned.number == planned.whole)
        return sums, sum(map(sectors, batches(self.to_send(), most)))

    def send(self, client: Client) -> Iterator[tuple[int, str]]:
        """Sends the changes. Yields each refusal with its id, and an empty text for each change that is made."""
        self.left = Counter(self.wholes[number] for number, kind in self.kinds.items() if kind in (NEW, CHANGED, GONE))
        for whole, states in self.states.items():
            if states == {SAME}:
                self.keep(whole)
        for change, refusal in client.make(self.to_send()):
            whole = self.wholes[change.number]
            if refusal is None:
                self.made[self.kinds[change.number]] += 1
                self.left[whole] -= 1
                if self.left[whole] == 0:
                    self.keep(whole)
                    self.save(client.edits)
                yield change.number, ""
            else:
                (self.conflicts if refusal.is_conflict else self.refused)[whole] += 1
                yield change.number, str(refusal)

    def keep(self, whole: int) -> None:
        """Keeps what the file says of a feature that is on the map like that."""
        if self.base and whole in self.hashes:
            layer, found = self.hashes[whole]
            self.base.keep(layer, whole, found)
        elif self.base and self.base.is_known(whole):
            self.base.keep(self.base.features[whole][0], whole, None)

    def save(self, edits: int) -> None:
        """Adds what is kept to the file of the base, a part at a time."""
        if self.base and len(self.base.new) >= MOST_CHANGES:
            self.base.save(edits)

    # ---- telling

    def counts(self) -> Counter[str]:
        """How many features of the file, or of the map, are new, changed, deleted and unchanged: a cut one is one."""
        found = Counter()
        for whole, kinds in self.states.items():
            if whole not in self.refused and whole not in self.conflicts:
                found[next(iter(kinds)) if len(kinds) == 1 else CHANGED] += 1
        return found

    def refused_count(self) -> int:
        """How many features are refused."""
        return self.plan.refused + sum(self.refused.values())

    def failed(self) -> bool:
        """Whether something isn't as it was to be."""
        return self.refused_count() > 0 or sum(self.conflicts.values()) > 0 or len(self.told_conflicts) > 0

    def so_far(self) -> str:
        """What was sent, as a text."""
        same = sum(kind == SAME for kind in self.kinds.values())
        line = f"{sum(self.made.values())} taken, {self.refused_count()} refused" + (f", {same} unchanged" if same else "")
        return line + (f", {sum(self.conflicts.values()):,} changed by others meanwhile" if self.conflicts else "")

    def told(self) -> str:
        """What the command did, as a text: an update in features, of which a cut one is one."""
        if not self.words.update:
            return self.so_far()
        counts, refused = self.counts(), self.refused_count()
        line = ", ".join(f"{counts[kind]:,} {kind}" for kind in (NEW, CHANGED, GONE, SAME))
        line += f", {counts[OWN]:,} left as the map has them" if counts[OWN] else ""
        line += f", {refused:,} refused" if refused else ""
        line += f", {counts[CONFLICT]:,} in conflict" if counts[CONFLICT] else ""
        return line + (f", {sum(self.conflicts.values()):,} changed by others meanwhile" if self.conflicts else "")
