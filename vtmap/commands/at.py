"""`vtmap at`: writes the map of an earlier time into a file. Needs no package."""
from __future__ import annotations

import argparse
import json
import re
import time
from collections.abc import Iterable, Iterator, Mapping
from datetime import date, datetime, timedelta, timezone
from typing import Any, NamedTuple

from ..client.edits import encoded
from ..client.feed import Leader, LeftBehind
from ..client.followers import Log
from ..faults import Refused, Stopped
from ..files.disk_file import moment_of
from ..files.edit_log import read_time, rotated, time_of
from ..files.past import Base, Line, keep_number, last_by, lines_of, moved, number_of, shown_time
from .backup import START, saved_in, written
from .log import NOBODY, edits_of, rows_of

ABOUT = {
    "at": """Writes the map of an earlier time into a file, as `vtmap save` does.

    vtmap at 2026-11-24 tuesday.jsonl --log edits.jsonl
    vtmap at "2026-11-24 14:30" tuesday.jsonl --log edits.jsonl --save map-2026-11-24.jsonl
    vtmap at 1041 before.geojson --log edits.jsonl --disk map.disk

TIME is a time of this machine's time zone or with its own, as 2026-11-24T14:30+01:00; a day is its beginning; `today`,
`yesterday` and `now` are taken too, and the number of an edit: the map after that edit.

--log names what `vtmap follow --log` has written; of several files, compressed ones too, the oldest is first, and
--rotated finds those of logrotate. The edits in it are made again from an older map on, or taken back from a newer one:
the file of --save, that of --disk, or without them the map of the server now. What the log says of a feature is
compared with the map all the way. Edits that the log misses are named, and then nothing is written; a save from the
other side of them helps. A save has its number in SAVE.at, which `vtmap save` writes; --of N says it of one that has
none.

By a time the last edit is meant that was seen by then, which is within a second of when it was made. Where the log was
begun again later it says so, and such a time is refused, unless --nginx names nginx's log of edits, which has it. Of a
time after the last edit of the log the server has to say that there is no later edit.

OUT may be put into a map by `vtmap load`, compared by `vtmap diff`, drawn by `vtmap draw --at`, or shown in the page by
`vtmap serve-at`."""
}
WORDS = ("now", "today", "yesterday")
# How often the map of a server is listed anew if a publication passes, and the seconds that a log is waited for that
# lacks the server's last edits.
TRIES, LAG = 3, 5


class When(NamedTuple):
    """What is asked for: the number of an edit, or a time; neither: now."""

    text: str
    edit: int | None = None
    time: datetime | None = None


def when(text: str) -> When:
    """A time, or the number of an edit."""
    if re.fullmatch("[0-9]{1,15}", text):
        return When(text, edit=int(text))
    if text == "now":
        return When(text)
    try:
        if text in WORDS:
            day = date.today() - timedelta(days=text == "yesterday")
            return When(text, time=datetime(day.year, day.month, day.day).astimezone())
        return When(text, time=read_time(text).astimezone())
    except ValueError as fault:
        raise argparse.ArgumentTypeError(
            f"{text!r} is no time such as 2026-11-24 or 2026-11-24T14:30, and no number of an edit"
        ) from fault


def options_of_log(parser: argparse.ArgumentParser, is_needed: bool = True) -> None:
    """The words that name the log."""
    parser.add_argument(
        "--log",
        metavar="FILE",
        action="append",
        required=is_needed,
        default=None if is_needed else [],
        help="what `vtmap follow --log` writes; several times, the oldest first",
    )
    parser.add_argument(
        "--nginx",
        metavar="FILE",
        action="append",
        default=[],
        help="nginx's log of edits, or the gateway's: who sent an edit, and when; " "may be given several times",
    )
    parser.add_argument(
        "--rotated",
        action="store_true",
        help="read the files too that logrotate has made of these: FILE.1, FILE.2.gz and so on",
    )


def options_of_base(parser: argparse.ArgumentParser) -> None:
    """The words that name the map from which the way begins."""
    source = parser.add_mutually_exclusive_group()
    source.add_argument("--save", metavar="FILE", help="begin with this save, in place of the server's map")
    source.add_argument(
        "--disk", metavar="FILE", help="begin with the map of this disk file, which may be served meanwhile"
    )
    parser.add_argument("--of", type=int, metavar="EDIT", help="the edit of the save, where SAVE.at doesn't say it")


def options(parser: argparse.ArgumentParser, _: str) -> None:
    """The words of the command."""
    parser.add_argument(
        "time", type=when, metavar="TIME", help="a time, as 2026-11-24T14:30, a day, or the number of an edit"
    )
    parser.add_argument(
        "file", metavar="OUT", help="the GeoJSON file, or a file of lines of JSON if its name ends in .jsonl"
    )
    options_of_log(parser)
    options_of_base(parser)


def fault_of(words: argparse.Namespace) -> str | None:
    """What is wrong with the command line."""
    return "--of is for --save" if words.of is not None and not words.save else None


# ---- where the way begins


def now() -> datetime:
    """The time, of UTC."""
    return datetime.now(timezone.utc)


def base_of(words: argparse.Namespace) -> Base:
    """The map from which the way begins."""
    if words.save:
        edit, by, after = number_of(words.save) if words.of is None else (words.of, None, None)
        return Base({number: encoded(feature) for number, feature in saved_in(words.save)}, edit, words.save, by, after)
    if words.disk:
        after = now()
        moment = moment_of(words.disk)
        return Base(
            {number: encoded(feature) for number, feature in moment.features.items()},
            moment.edit,
            words.disk,
            now(),
            after,
        )
    return base_of_server(Leader(words.url))


def base_of_server(leader: Leader) -> Base:
    """The map of a server. What was edited while its features were read is made again."""
    for _ in range(TRIES):
        edit = leader.known()["edits"]
        features = {number: encoded(feature) for number, feature in leader.features()}
        try:
            while True:
                asked = now()
                edits, last = leader.edits_from(edit + 1)
                for change in (change for one in edits for change in one["changes"]):
                    if "put" in change:
                        features[change["put"]] = encoded(change["feature"])
                    else:
                        features.pop(change["delete"], None)
                edit += len(edits)
                if edit >= last:
                    return Base(features, edit, f"the map of {leader.address}", now(), asked)
        except LeftBehind:
            continue
    raise Stopped(f"{leader.address} has published {TRIES} times while its features were read: try again")


# ---- which edit is meant


def needed(paths: Iterable[str], wanted: When, base: Base | None) -> list[str]:
    """The files of a log from that on which begins before a time and a base, of those that logrotate has made, the
    newest first."""
    found: list[str] = []
    for path in paths:
        found.insert(0, path)
        row = next(rows_of([path], True), None)
        if row is None:
            continue
        number = row["edit"] if "edit" in row else row["missed"][0] if "missed" in row else row["begins"]
        is_before = time_of(row) <= wanted.time if wanted.time else wanted.edit is None or number <= wanted.edit + 1
        if is_before and (base is None or number <= base.edit + 1):
            break
    return found


class Trail:
    """The log, as a command's words name it, from a time on, or from a base that is older."""

    def __init__(self, words: argparse.Namespace, first: When, base: Base | None = None) -> None:
        self.paths, self.nginx, self.url = words.log, words.nginx, words.url
        if words.rotated:
            self.paths = [name for path in words.log for name in needed(rotated(path), first, base) or [path]]
            self.nginx = [name for path in words.nginx for name in reversed(list(rotated(path)) or [path])]

    def lines(self) -> Iterator[Line]:
        """The lines of the log, each time anew."""
        return lines_of(edits_of(self.paths, self.nginx, False), NOBODY)

    def number(self, wanted: When, base: Base | None = None) -> int:
        """The number of the edit that is meant."""
        if wanted.edit is not None:
            return wanted.edit
        if wanted.time is None:
            return self.number_of_server()
        if wanted.time > now():
            raise Refused(f"{shown_time(wanted.time)} isn't yet")
        found, is_last = last_by(self.lines(), wanted.time, base)
        if is_last and self.number_of_server() > found:
            found, is_last = last_by(self.lines(), wanted.time, base)
            edits = self.number_of_server()
            if is_last and edits > found:
                raise Refused(
                    f"the log ends with edit {found:,}, and {self.url} has edits up to {edits:,}: name its newer files "
                    "too, or see that `vtmap follow --log` runs"
                )
        return found

    def number_of_server(self) -> int:
        """The number of the server's last edit, once the log has it, or doesn't get it. It has to be a log of this
        server."""
        leader = Leader(self.url)
        edits = leader.known()["edits"]
        self.wait(edits)
        last = None
        for last in self.lines():
            pass
        if last and last.last > edits:
            edits = leader.known()["edits"]
        if last and last.last > edits:
            raise Refused(
                f"the log has edits up to {last.last:,}, and {leader.address} up to {edits:,}: it is of another map, "
                "or the map was put back from a copy"
            )
        there = leader.edit(last.last) if last and last.changes is not None else None
        if last and last.changes is not None and there and bare(there["changes"]) != bare(last.changes):
            raise Refused(f"edit {last.last:,} of the log isn't that of {leader.address}: it is the log of another map")
        return edits

    def wait(self, edit: int) -> None:
        """Waits a little for a log that is written just now to have an edit."""
        log, end = Log(self.paths[-1]), time.monotonic() + LAG
        while (status := log.status()) and status["edits"] < edit and time.monotonic() < end:
            time.sleep(0.05)


def bare(changes: Iterable[Mapping[str, Any]]) -> bytes:
    """Changes without what they replaced."""
    return encoded([{name: value for name, value in change.items() if name != "was"} for change in changes])


class Past(NamedTuple):
    """The map of an edit, and the time that was asked for; None: a number was."""

    features: dict[int, bytes]
    edit: int
    time: datetime | None

    def __str__(self) -> str:
        return f"the map after edit {self.edit:,}" + (
            f", which was that of {shown_time(self.time)}" if self.time else ""
        )


def past_of(words: argparse.Namespace, wanted: When) -> Past:
    """The map of a time."""
    base = base_of(words)
    trail = Trail(words, wanted, base)
    if words.save or words.disk:
        trail.wait(base.edit)
    else:
        trail.number_of_server()
    number = trail.number(wanted, base)
    return Past(moved(base, trail.lines(), number), number, wanted.time)


def work(words: argparse.Namespace) -> int:
    """Writes the file."""
    past = past_of(words, words.time)
    saved = written(words.file, ((number, json.loads(feature)) for number, feature in past.features.items()), START)
    keep_number(words.file, past.edit)
    print(f"{saved:,} features: {past}")
    return 0


def interrupted(words: argparse.Namespace) -> str:
    """What to do after an interruption."""
    return f"{words.file} is as it was"
