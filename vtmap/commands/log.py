"""`vtmap log`: who changed what, and when: by the log of `vtmap follow --log`, and nginx's. Needs no package."""
from __future__ import annotations

import argparse
import json
import sys
from collections import Counter
from collections.abc import Iterable, Iterator, Mapping, Sequence
from datetime import date, datetime
from typing import NamedTuple

from ..faults import Refused
from ..files.edit_log import lines_in, lines_of, time_of
from ..files.missed_edits import Missed
from ..files.proxy_log import Senders
from ..forms import Feature, ListedChange, LogRow, id_of
from ..shown import shown, shown_json
from ..systems import is_unicode
from .differences import named, told_change
from .ids import ranges, told_ranges

ABOUT = {"log": """Tells who changed what on the map, and when.

    vtmap log edits.jsonl --nginx /var/lib/vtserve-nginx/edits.log --day 2026-11-29
    vtmap log edits.jsonl --feature 352

FILE is what `vtmap follow --log` writes; of several, those that logrotate has renamed or compressed too, the oldest is first. --nginx names nginx's
log of edits (docs/nginx.conf), and may be given several times: by it the person is told who sent an edit, or the address without a name, and the
time at which it was made. Without it, and for edits that didn't come by nginx, the person is `-`, and the time is when the edit was seen. Edits that
FILE misses are told by nginx's log, if it has all of them.

It prints a line for each change: the time, the number of the edit, the person, and what was changed. --count prints how many edits and changes
there were in place of that: by person, day, layer or feature. --numbers prints the numbers of the edits, as `vtmap undo` takes them, and --json the
lines of the log with the person."""}
NOBODY = "-"
NEW, CHANGED, DELETED, PUT = "new", "changed", "deleted", "put"
KINDS = (NEW, CHANGED, DELETED, PUT)


class Edit(NamedTuple):
    """An edit: its number, when it was made, by whom, its changes, and the line of the log."""

    number: int
    time: datetime
    person: str
    changes: list[ListedChange]
    row: LogRow


def kind_of(change: ListedChange) -> str:
    """What a change does to its feature."""
    if "delete" in change:
        return DELETED
    return PUT if "was" not in change else NEW if change["was"] is None else CHANGED


def feature_of(change: ListedChange) -> Feature | None:
    """A feature as a change leaves it, or as it was before it is deleted; None where that isn't known."""
    return change.get("feature") or change.get("was")


def rows_of(paths: Iterable[str], begins: bool = False) -> Iterator[LogRow]:
    """The lines of a log, which may be several files; those too that say where it begins, if they are wanted."""
    for path in paths:
        for at, line in enumerate(lines_of(path), 1):
            try:
                row = json.loads(line)
                if "edit" not in row and "missed" not in row and "begins" not in row:
                    raise ValueError("no number")
            except (ValueError, TypeError) as fault:
                raise Refused(f"{path}, line {at}: this isn't a line of `vtmap follow --log`: {fault}") from fault
            if begins or "begins" not in row:
                yield row


def senders_of(paths: Iterable[str]) -> Senders:
    """Who sent which edit, by nginx's logs."""
    senders = Senders()
    for line in lines_in(paths):
        senders.add(line)
    senders.end()
    return senders


def edits_of(paths: Sequence[str], nginx: Sequence[str], fills: bool = True) -> Iterator[Edit | LogRow]:
    """The edits of a log, each with the person and the time; if it `fills`, those too that it misses and nginx's has, and else where it begins. A row of
    others that are missing as it is."""
    senders = senders_of(nginx)
    for row in Missed(lambda: rows_of(paths), lines_in(nginx)).rows() if nginx and fills else rows_of(paths, not fills):
        if "edit" not in row:
            yield row
            continue
        seen = time_of(row)
        sent = senders.of(row["changes"], seen.timestamp()) if nginx else None
        time = datetime.fromtimestamp(sent.time).astimezone() if sent else seen.astimezone()
        yield Edit(row["edit"], time, sent.person if sent else NOBODY, row["changes"], row)
    if senders.unread:
        print(f"note: {senders.unread:,} lines of nginx's log are no edits, or were cut", flush=True)


def wanted(words: argparse.Namespace, edit: Edit) -> Edit | None:
    """The edit with those of its changes that are asked for, or None."""
    if words.person is not None and edit.person != words.person or words.day is not None and edit.time.date() != words.day:
        return None
    if words.edits is not None and not any(edit.number in numbers for numbers in words.edits):
        return None
    changes = [
        change for change in edit.changes
        if (words.feature is None or any(id_of(change) in numbers for numbers in words.feature))
        and (words.layer is None or words.layer in layers_of(change))
    ]
    return edit._replace(changes=changes) if changes else None


def layers_of(change: ListedChange) -> list[str]:
    """The layers of a feature before and after a change."""
    return [feature["layer"] for feature in (change.get("feature"), change.get("was")) if feature]


def told(change: ListedChange) -> str:
    """What a change did."""
    kind, feature = kind_of(change), feature_of(change)
    name = named(id_of(change), feature) if feature else f"{id_of(change)}"
    return f"{kind} {name}" + (f": {told_change(change['was'], change['feature'])}" if kind == CHANGED else "")


def lines(edit: Edit) -> list[str]:
    """The lines of an edit."""
    time, person = edit.time.strftime("%Y-%m-%d %H:%M:%S"), shown(edit.person)
    return [f"{time}  {edit.number}  {person}  {told(change)}" for change in edit.changes]


def missing(row: LogRow) -> str:
    """The line of edits that the log doesn't have."""
    time = time_of(row).astimezone().strftime("%Y-%m-%d %H:%M:%S")
    return f"{time}  the edits {row['missed'][0]:,} to {row['missed'][1]:,} are missing: they were published before they were read"


def json_line(row: Mapping[str, object]) -> str:
    """A line of JSON, without letters that standard output hasn't got."""
    return shown_json(row, not is_unicode(sys.stdout))


def names_of(words: argparse.Namespace, edit: Edit, change: ListedChange) -> str:
    """What a change is counted under."""
    return {
        "person": lambda: shown(edit.person),
        "day": lambda: edit.time.date().isoformat(),
        "layer": lambda: shown((layers_of(change) or [NOBODY])[0]),
        "feature": lambda: named(id_of(change), feature_of(change)) if feature_of(change) else f"{id_of(change)}",
    }[words.count]()


class Counts:
    """How many edits and changes there were, by what is counted."""

    def __init__(self, words: argparse.Namespace) -> None:
        self.words, self.edits, self.changes = words, Counter(), {}

    def add(self, edit: Edit) -> None:
        """Counts an edit."""
        names = [names_of(self.words, edit, change) for change in edit.changes]
        self.edits.update(set(names))
        for name, change in zip(names, edit.changes):
            self.changes.setdefault(name, Counter())[kind_of(change)] += 1

    def lines(self) -> Iterator[str]:
        """A line for each."""
        for name, kinds in sorted(self.changes.items()):
            parts = ", ".join(f"{kinds[kind]:,} {kind}" for kind in KINDS if kinds[kind])
            yield f"{name}: {self.edits[name]:,} edit{'s' if self.edits[name] > 1 else ''}: {parts}"


def options(parser: argparse.ArgumentParser, _: str) -> None:
    """The words of the command."""
    parser.add_argument("log", nargs="+", metavar="FILE", help="what `vtmap follow --log` writes; the oldest first")
    parser.add_argument("--nginx", metavar="FILE", action="append", default=[], help="nginx's log of edits; may be given several times")
    parser.add_argument("--edits", type=ranges, metavar="NUMBERS", help="only these edits, as in 12-40,57")
    parser.add_argument("--feature", type=ranges, metavar="IDS", help="only changes of these features, as in 7 or 1-3000,5000")
    parser.add_argument("--layer", help="only changes of features of this layer")
    parser.add_argument("--person", help="only edits of this person")
    parser.add_argument("--day", type=day, metavar="DAY", help="only edits of this day, as in 2026-11-29, or today")
    form = parser.add_mutually_exclusive_group()
    form.add_argument("--count", choices=("person", "day", "layer", "feature"), help="count edits and changes by this")
    form.add_argument("--numbers", action="store_true", help="print the numbers of the edits, for `vtmap undo`")
    form.add_argument("--json", action="store_true", help="print the lines of the log with the person")


def day(text: str) -> date:
    """A day of this machine's time zone."""
    try:
        return date.today() if text == "today" else date.fromisoformat(text)
    except ValueError as fault:
        raise argparse.ArgumentTypeError(f"{text!r} is no day such as 2026-11-29, or today") from fault


def work(words: argparse.Namespace) -> int:
    """Prints what is asked for."""
    numbers, counts, is_told = [], Counts(words), not (words.numbers or words.count)
    for edit in edits_of(words.log, words.nginx):
        if not isinstance(edit, Edit):
            if is_told:
                print(json_line(edit) if words.json else missing(edit))
            continue
        found = wanted(words, edit)
        if found is None:
            continue
        numbers.append(found.number)
        if words.count:
            counts.add(found)
        elif words.json:
            print(json_line({**edit.row, "person": edit.person, "changes": found.changes}))
        elif is_told:
            print("\n".join(lines(found)))
    if words.numbers:
        print(told_ranges(numbers))
    print("\n".join(counts.lines()), end="\n" if counts.changes else "")
    return 0
