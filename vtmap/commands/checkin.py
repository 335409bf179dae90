"""`vtmap checkin`: sends what was edited in a GeoPackage that `vtmap checkout` wrote. Needs GDAL's Python module for shapes that are cut alone."""
from __future__ import annotations

import argparse
import sqlite3
from collections import Counter
from collections.abc import Container, Mapping

from ..client.client import Client
from ..client.edits import checked, delete, put
from ..client.schema import schema_at
from ..files import geopackage
from ..files.checkout_file import Checkout, Row, Unusable, there
from ..files.map_schema import missing
from ..forms import Feature
from ..geometry.pieces import pieces_of
from ..geometry.shapes import Unfit
from ..geometry.wholes import WHOLE, Whole, wholes_of
from ..interpreters import look_for
from ..shown import shown
from .checkout import Choice, needed
from .deletions import are_many
from .differences import told_change

ABOUT = {"checkin": """Compares a GeoPackage with what was checked out into it, and sends the difference.

    vtmap checkin town.gpkg

All are checked edits: a feature that somebody else has changed meanwhile is left as it is on the map, and listed with both changes as a
conflict; --mine 7,9 puts what you changed of these over what others changed, and keeps what they changed beside it. What others changed
elsewhere is listed too. New features get ids that are free. Large shapes are cut, for which GDAL's Python module is needed. What was sent is
remembered in the file, so a second `vtmap checkin` sends the rest. What is sent for new features is noted before it is sent: if no reply
comes, the next check-in finds what was made, also if it was edited since in the file. What doesn't fit the schema of the map is refused by
name (`vtmap schema`). --dry-run sends nothing and lists. The server is the one
that the file was checked out of, unless --url says another. It ends with 1 if there are conflicts or refusals."""}


def options(parser: argparse.ArgumentParser, _: str) -> None:
    """The words of the command."""
    parser.add_argument("file", help="the GeoPackage that `vtmap checkout` wrote")
    parser.add_argument("--mine", type=lambda text: text.split(","), default=[], help="ids of which what you changed is put over what others changed")
    parser.add_argument("--schema", metavar="FILE", help="the fields that features have to fit (the server's, if it has a schema: docs/FORMATS.md)")
    parser.add_argument("--dry-run", action="store_true", help="list what would be sent, and send nothing")
    parser.add_argument("--delete-many", action="store_true", help="delete even more than half of the features that were checked out")
    parser.add_argument("--publish", action="store_true", help="publish when the journal is full")


def seen_of(base: Whole, now: Mapping[int, Feature]) -> Whole | None:
    """What the map has now of a whole: the whole, with its features by their ids, or None."""
    pieces = {number: now[number] for number in base.pieces if number in now}
    whole = next(iter(wholes_of(pieces.items())), None)
    return whole and whole._replace(pieces=pieces)


def there_of(row: Row, now: Mapping[int, Feature]) -> dict[int, Feature]:
    """What the map has of a row that is sent: of a new one, what was sent for it before, since its author has seen nothing else."""
    return there([*row.base.pieces, *(number for number in row.wanted if number not in row.base.pieces)], now) if row.base else row.seen


class Checkin:
    """Sends what was changed, and counts."""

    def __init__(self, words: argparse.Namespace, client: Client, file: Checkout) -> None:
        self.words, self.client, self.file, self.schema = words, client, file, schema_at(client, words.schema)
        self.conflicts = self.refused = 0
        self.done = Counter()

    def run(self) -> int:
        """Sends what was changed in the file."""
        status = needed(self.client.status())
        now = dict(self.client.features())
        self.adopt(now)
        for table in geopackage.plain_tables(self.file.file):
            print(f"note: the table {shown(table)} has no geometry, and isn't sent")
        rows = list(self.file.rows())
        for fault in self.file.unreadable:
            self.refused += 1
            print(f"refused: {fault}")
        self.refuse_many([row for row in rows if row.said is None])
        self.give_ids([row for row in rows if row.base is None], now, self.client.next_id(status))
        sent = [row for row in rows if self.is_sent(row, now)]
        if not self.words.dry_run:
            self.send(sent)
        self.tell_others(now, {row.number for row in rows})
        return self.told(sent)

    def refuse_many(self, gone: list[Row]) -> None:
        """Takes very many deletions for a mistake."""
        if are_many(len(gone), len(self.file.base)) and not self.words.delete_many:
            raise Unusable(f"{len(gone):,} of {len(self.file.base):,} features are gone from the file: give --delete-many if they are to be deleted")

    def adopt(self, now: dict[int, Feature]) -> None:
        """Finds the new features of an earlier checkin that are on the map, though no reply said so."""
        self.file.part(now)
        for row in self.file.adopt(now):
            print(f"on the map already: {row}: new")
            if not self.words.dry_run:
                self.finish(row)

    def give_ids(self, rows: list[Row], now: dict[int, Feature], free: int) -> None:
        """Gives new features ids that are free, on the map and in the file. A row keeps the one that was noted for it, if nobody else has it."""
        given, taken = set(), self.file.ids()
        for row in rows:
            if not self.file.keeps_id(row, now) or row.number in given:
                while free in taken or free in now:
                    free += 1
                row.number, row.sent, row.seen = free, [], {}
                taken.add(free)
            given.add(row.number)

    def is_sent(self, row: Row, now: dict[int, Feature]) -> bool:
        """Whether a row is to be sent: what the map has of it is what was checked out, or its author says so."""
        base, mine = row.base, told_change(row.shown, row.said) if row.base else "new"
        theirs = base and seen_of(base, now)
        try:
            if base and str(row.number) in self.words.mine:
                row.put_over(theirs)
            self.fit(row)
            row.wanted = pieces_of(row, now)
        except Unfit as fault:
            self.refused += 1
            print(f"refused: {row}: {shown(fault)}")
            return False
        if row.base is base and base and self.is_changed(row, now):
            self.conflicts += 1
            print(f"conflict: {row}: yours: {mine}; on the map now: {told_change(base.feature, theirs and theirs.feature)}")
            return False
        was = there_of(row, now)
        row.changes = [checked(put(number, feature), was.get(number)) for number, feature in row.wanted.items() if feature != was.get(number)]
        row.changes += [checked(delete(number), feature) for number, feature in was.items() if number not in row.wanted]
        print(f"{'would be sent' if self.words.dry_run else 'sending' if row.changes else 'on the map already'}: {row}: {mine}")
        return True

    def fit(self, row: Row) -> None:
        """Gives a row that is sent the values that the schema has. Raises `Unfit`."""
        feature = row.feature
        rules = self.schema.layers.get(feature["layer"]) if feature else None
        if feature is None or rules is None:
            return
        before = row.base.feature["tags"] if row.base else None
        tags = rules.fitted(feature["tags"], before)
        known = {tag for tag, _ in self.file.columns[row.table].values()} | set(before or ())
        unknown = [tag for tag in rules.unknown(tags) if tag not in known]
        fault = missing(feature["layer"], *unknown) if unknown else rules.fault(before, tags)
        if fault:
            raise Unfit(fault)
        row.feature = {**feature, "tags": tags}

    def is_changed(self, row: Row, now: dict[int, Feature]) -> bool:
        """Whether somebody else has changed a feature of a row: it is neither as it was checked out nor as the row is to be."""
        was = row.base.pieces if row.base else {}
        return any(now.get(number) not in (was.get(number), row.wanted.get(number)) for number in {*was, *row.wanted})

    def send(self, rows: list[Row]) -> None:
        """Sends rows, and remembers those that are made. What is sent for new ones is noted before: they are made once if no reply comes."""
        owners = {change.number: row for row in rows for change in row.changes}
        if len({row.number for row in rows}) < len(rows) or len(owners) < sum(len(row.changes) for row in rows):
            raise Unusable("two rows have one id, which is a fault of this program: nothing was sent")
        self.file.note([row for row in rows if row.shown is None])
        left = Counter(row.number for row in owners.values())
        for change, refusal in self.client.make(change for row in rows for change in row.changes):
            row = owners[change.number]
            left[row.number] -= 1
            if refusal:
                row.refusals.append(refusal)
            if left[row.number] == 0:
                self.finish(row)
        for row in rows:
            if not row.changes:
                self.finish(row)

    def finish(self, row: Row) -> None:
        """Remembers a row that was sent, or tells why it is refused."""
        if not row.refusals:
            self.file.remember(row)
            self.done["deleted" if row.said is None else "changed" if row.shown else "new"] += 1
            return
        refusal = row.refusals[0]
        self.conflicts += refusal.is_conflict
        self.refused += not refusal.is_conflict
        print(f"{'conflict' if refusal.is_conflict else 'refused'}: {row}: {refusal}")

    def tell_others(self, now: dict[int, Feature], mine: Container[int | None]) -> None:
        """Lists what others changed of what was checked out, and what they added."""
        ours = {number for base in self.file.base.values() for number in base.pieces}
        for _, base in sorted(self.file.base.items()):
            theirs = seen_of(base, now)
            if (theirs is None or theirs.pieces != base.pieces) and base.number not in mine:
                print(f"changed by others: {shown(base.feature['layer'])} {base.number}: {told_change(base.feature, theirs and theirs.feature)}")
        choice = Choice(self.file.told["layers"], self.file.told["bbox"])
        for whole in wholes_of((number, feature) for number, feature in now.items() if number not in ours):
            if whole.number not in mine and whole.feature["tags"].get(WHOLE) not in ours and choice.has(whole):
                print(f"new by others: {shown(whole.feature['layer'])} {whole.number}")

    def told(self, rows: list[Row]) -> int:
        """Tells the counts, and gives the status of the process."""
        counts = ", ".join(f"{self.done[name]:,} {name}" for name in ("new", "changed", "deleted"))
        print(f"{counts}, {self.conflicts} conflicts, {self.refused} refused" + (f"; {len(rows):,} would be sent" if self.words.dry_run else ""))
        return 1 if self.conflicts or self.refused else 0


def work(words: argparse.Namespace) -> int:
    """Sends what was changed in the file, in an interpreter that has GDAL's module if there is one."""
    look_for("osgeo", words.line)
    file = Checkout(words.file)
    client = Client(words.said_url or file.told["url"], words.publish)
    try:
        return Checkin(words, client, file).run()
    except sqlite3.Error as fault:
        raise Unusable(f"{words.file}: {fault}; {interrupted(words)}") from fault
    finally:
        file.file.close()


def interrupted(_: argparse.Namespace) -> str:
    """What to do after an interruption."""
    return "run the same command again: nothing is made twice"
