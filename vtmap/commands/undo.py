"""`vtmap undo`: takes edits back by the opposite checked edits. Needs no package."""
from __future__ import annotations

import argparse
import json
from collections import Counter
from collections.abc import Iterable, Iterator, Sequence
from typing import NamedTuple

from ..client.client import Client, Made, Refusal, conflict
from ..client.edits import NOTHING, Change, delete, encoded, put
from ..faults import Refused
from ..files.edit_log import last_of, lines_in
from ..files.missed_edits import Missed
from ..forms import Feature, ListedChange, id_of
from ..progress import with_progress
from .differences import named, told_change
from .ids import ranges, told_ranges
from .log import feature_of, rows_of

ABOUT = {"undo": """Takes edits back: an edit, several, or a whole import, which prints the numbers of its edits.

    vtmap undo 41 --log edits.jsonl
    vtmap undo 12-40,57 --log edits.jsonl --dry-run

What each feature was before is in the log that `vtmap follow --log` writes; of several files the oldest is first. What that log misses is taken from
nginx's log of edits and the gateway's, which --nginx names, where these have it. The newest edit is taken back first.
Each feature is put, or deleted, by a checked edit, only if it still is what the edits have made of it: what somebody has changed since is a conflict,
is named, and stays as it is. `vtmap log --numbers` finds the edits of a person or a day. To take it back again, undo the edits that this prints.

It ends with 1 if something is in conflict or refused. Interrupted, run it again: what is taken back already stays so."""}
MOST_NAMED = 20
NOT_TOLD = ", and what nginx and the gateway were sent in that time isn't as many edits, or others"


class Step(NamedTuple):
    """What is to become of a feature: what the edits have made of it, and what it was before them."""

    now: Feature | None
    before: Feature | None


def changes_of(paths: Sequence[str], numbers: Iterable[range], nginx: Sequence[str] = ()) -> list[ListedChange]:
    """The changes of the edits of these numbers, the newest first. Refuses numbers that the log doesn't have. `nginx`: paths of logs that may have what
    it misses."""
    wanted, found, last = {number for part in numbers for number in part}, {}, 0
    for row in Missed(lambda: rows_of(paths), lines_in(nginx)).rows() if nginx else rows_of(paths):
        last = last_of(row)
        if "edit" in row and row["edit"] in wanted:
            found[row["edit"]] = row["changes"]
    missing = sorted(wanted - set(found))
    if missing:
        more = f": it ends with edit {last:,}" if missing[-1] > last else NOT_TOLD if nginx else ""
        raise Refused(f"the log doesn't have the edits {told_ranges(missing)}{more}: nothing is taken back")
    return [change for number in sorted(found, reverse=True) for change in reversed(found[number])]


class Undo:
    """What is taken back of each feature."""

    def __init__(self, changes: Iterable[ListedChange]) -> None:
        self.steps, self.stopped, self.unknown = {}, {}, set()
        for change in changes:
            self.add(id_of(change), change)

    def add(self, number: int, change: ListedChange) -> None:
        """Takes one more change of a feature back, which is older than those so far. Between it and them nothing else may have been made of it."""
        if number in self.stopped or number in self.unknown:
            return
        if "was" not in change:
            self.unknown.add(number)
            return
        made, step = change.get("feature"), self.steps.get(number)
        if step is not None and encoded(step.before) != encoded(made):
            self.stopped[number] = change
            return
        self.steps[number] = Step(made if step is None else step.now, change["was"])

    def changes(self) -> Iterator[Change]:
        """The checked changes, those of the newest edit first."""
        for number, (now, before) in self.steps.items():
            if encoded(now) != encoded(before):
                made = delete(number) if before is None else put(number, before)
                yield made._replace(was=NOTHING if now is None else encoded(now))


class Told:
    """What becomes of the changes, and how it is told."""

    def __init__(self) -> None:
        self.counts, self.named = Counter(), 0

    def name(self, text: str) -> None:
        """Prints what becomes of a feature; of many only the first ones."""
        self.named += 1
        if self.named <= MOST_NAMED:
            print(text, flush=True)

    def end(self) -> str:
        """Says how many weren't named, and counts all."""
        if self.named > MOST_NAMED:
            print(f"and {self.named - MOST_NAMED:,} more")
        return ", ".join(f"{self.counts[kind]:,} {kind}" for kind in ("put back", "changed back", "deleted", "in conflict", "refused"))

    def take(self, change: Change, refusal: Refusal | None) -> None:
        """Tells what became of a change."""
        now = json.loads(change.was or NOTHING)
        before = None if change.body is None else json.loads(change.body)
        name = named(change.number, before or now)
        if refusal is None:
            kind = "deleted" if before is None else "put back" if now is None else "changed back"
            self.counts[kind] += 1
            self.name(f"{kind}: {name}" + (f": {told_change(now, before)}" if now and before else ""))
        elif refusal.is_conflict:
            self.counts["in conflict"] += 1
            there = f", on the map now: {told_change(now, refusal.now)}" if now and refusal.now else ""
            print(f"conflict: {name}: {refusal}{there}", flush=True)
        else:
            self.counts["refused"] += 1
            print(f"{name} refused: {refusal}", flush=True)


def looked_at(client: Client, changes: Iterable[Change]) -> Iterator[Made]:
    """The changes with the refusal that each would get."""
    for change in changes:
        now = client.feature(change.number)
        yield change, None if (b"null" if now is None else encoded(now)) == change.was else conflict(change, now)


def work(words: argparse.Namespace) -> int:
    """Takes edits back."""
    undo = Undo(changes_of(words.log, words.edits, words.nginx))
    client, told = Client(words.url, words.publish), Told()
    for change in undo.stopped.values():
        told.counts["in conflict"] += 1
        print(f"conflict: {named(id_of(change), feature_of(change))}: somebody has changed it between these edits", flush=True)
    for number in sorted(undo.unknown):
        told.counts["refused"] += 1
        print(f"{number} refused: what it was before isn't known: the log began, or began anew, while it was edited", flush=True)
    client.status()
    made = looked_at(client, undo.changes()) if words.dry_run else with_progress(client.make(undo.changes()))
    for change, refusal in made:
        told.take(change, refusal)
    end = told.end()
    if client.made:
        print(f"its edits: {told_ranges(client.made)}")
    print(f"{end}: nothing was sent" if words.dry_run else end)
    return 1 if told.counts["in conflict"] or told.counts["refused"] else 0


def options(parser: argparse.ArgumentParser, _: str) -> None:
    """The words of the command."""
    parser.add_argument("edits", type=ranges, metavar="NUMBERS", help="the numbers of the edits, as in 12-40,57")
    parser.add_argument("--log", metavar="FILE", action="append", required=True, help="what `vtmap follow --log` writes; several times, the oldest first")
    parser.add_argument("--nginx", metavar="FILE", action="append", default=[], help="nginx's log of edits, or the gateway's, for what --log misses; "
                        "may be given several times")
    parser.add_argument("--dry-run", action="store_true", help="print what would be done, and send nothing")
    parser.add_argument("--publish", action="store_true", help="publish when the journal is full")


def interrupted(_: argparse.Namespace) -> str:
    """What to do after an interruption."""
    return "run the same command again"
