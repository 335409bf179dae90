"""`vtmap watch`: looks at a running `vtserve serve --admin`, and says what an operator should do before it is too late. Needs no package."""
from __future__ import annotations

import argparse
import concurrent.futures
import fnmatch
import html
import json
import os
import re
import shutil
import time
from collections.abc import Iterable, Iterator
from typing import Any, Optional

from ..alive import ASKED
from ..client import entries
from ..client.client import Client, word
from ..client.feed import THEN, WHY, have_other_maps
from ..client.followers import NUMBER, Log
from ..client.refusals import STATUSES, WORDS, told
from ..ending import regular, replaced
from ..faults import Fault, NoAnswer
from ..files.attachments import LEAST_FREE, PATH, Attachments
from ..limits import SECTOR
from ..machine.machine import Machine
from ..machine.map_file import MapHere

# What a server tells of itself; how urgent something to do is, and what it is.
Status = dict[str, Any]
Task = tuple[int, str]

DAY = 24 * 3600
SOON, NOW, UNKNOWN = 1, 2, 3
# The seconds that a gateway may take for its reply. A save of 3,000 features takes it some 4 seconds.
LONGEST = 60
# What it ends with if a file, or standard output, can't be written.
FAILED = UNKNOWN
ABOUT = {"watch": """Says what an operator should do about a running `vtserve serve --admin`, before it is too late.

    vtmap watch --state /var/lib/vtserve-watch/state --record /var/lib/vtserve-watch/published

It prints a line for each thing to do, and with nothing to do one line. It ends with 0 if nothing is to be done, 1 if something is to be done
soon, 2 if something doesn't work any more (no server, a failed disk, a full journal, a refused publication), and 3 if that isn't known: as
monitors such as Nagios expect, and cron mails what is printed.

It always sees a full journal, an area that is nearly full or that the next publication may not fit, an archive that has nearly as many
entries as one may have (also while the publication is in the making), a publication that was left under way, a failed disk, a server that needs a standby and hears of none, and one that
doesn't answer. --state FILE keeps what was seen, for the next look: whether the journal fills before the next publication. --record FILE is what `vtmap publish --record` keeps:
whether the last publication was refused, and when it was. --backups FOLDER is where vtserve-backup.service saves the map
(map-2026-11-29.jsonl): whether the newest backup is older than --backup-hours. --standby URL is a server that `vtmap follow` keeps as this
one, and --log FILE a log that it writes: whether they lack edits, or the standby has another map. --gateway URL is a `vtmap wfs`: whether it answers. --files FOLDER is
the folder of its photos and files: whether its disk has room, and with --backups whether they are in the backups. --metrics FILE is written
for Prometheus, by the textfile collector of node_exporter.

--maps looks at each map of a machine with several (`vtmap maps`), eight at once: {map}, {port} and {gateway} in the other words are the name
and the ports of each. It prints what is to be done with the map's name before it, and ends with the most urgent of all.

    vtmap watch --maps --url http://127.0.0.1:8000/{map} --state /var/lib/vtserve-watch/{map}/state"""}
# How many maps are looked at at once, and the words in which a map is named.
AT_ONCE, NAMED = 8, ("url", "state", "record", "backups", "metrics", "standby", "log", "gateway", "files")
# How docs/vtserve-backup.service names its files. A backup that isn't finished has another name.
BACKUP = "map-*.jsonl"
# Edits of less than this share of the journal say nothing of how fast it fills.
MANY = 20
# What a first publication takes for each sector of the journal, if nothing is known: a town takes five times, large areas more.
FIRST = 10
# If edits have touched this share of the cells, in percent, the next archive may be another than the last one.
MUCH = 50
LARGER = "move the map to a larger disk (docs/DEPLOYING.md): once it is full, nothing can be published, and when the journal is full too, nothing can be edited"
IN_FRONT = "the proxy in front of the server answers, but the server doesn't: systemctl status vtserve"
# After so many seconds without a standby a server that needs one takes no edit.
AWAY = 5
DOES_IT_RUN = "Is `vtmap follow` running, and what does it say (journalctl -u vtserve-standby)?"
# How urgent a reply is that isn't the status.
LEVELS = {401: UNKNOWN, 403: UNKNOWN, 404: UNKNOWN, 421: UNKNOWN}
METRICS = [
    ("up", "gauge", "Whether the server answers."),
    ("broken", "gauge", "Whether the disk has failed."),
    ("edits_total", "counter", "The sequence number of the last edit."),
    ("published_edit", "gauge", "The last edit in the published archive."),
    ("publications_total", "counter", "How often an archive was published."),
    ("publication_left_sectors", "gauge", "What is left of the publication under way, 0 if none is."),
    ("features", "gauge", "The features of the map."),
    ("archive_bytes", "gauge", "The length of the published archive."),
    ("archive_entries", "gauge", "The entries of the published archive, of at most 131,072."),
    ("drafted_entries", "gauge", "The entries so far of the archive that is being made, 0 if none is."),
    ("journal_used_sectors", "gauge", "The sectors of the journal that are used."),
    ("journal_sectors", "gauge", "The sectors of the journal."),
    ("area_used_sectors", "gauge", "The sectors of an area that the last publication takes."),
    ("area_next_sectors", "gauge", "The sectors of an area that the next publication may take."),
    ("area_sectors", "gauge", "The sectors of an area."),
    ("stale_cells", "gauge", "The cells that edits have touched since the last publication began."),
    ("cells", "gauge", "The cells in which those are counted."),
    ("standby_confirmed_edit", "gauge", "With --standby-needed: the last edit that a standby has."),
    ("standby_heard_seconds", "gauge", "With --standby-needed: how long ago a standby was heard of."),
    ("watch_result", "gauge", "What `vtmap watch` ends with: 0 nothing to do, 1 soon, 2 now, 3 unknown."),
]


class Unseen(Exception):
    """Why the server's status isn't known: the level and the text."""


def status_of(client: Client) -> Status:
    """What the server tells of itself."""
    try:
        status, content = client.ask("GET", "/admin/status")
    except NoAnswer as fault:
        raise Unseen(NOW, str(fault)) from fault
    if status != 200:
        raise Unseen(*fault_of_reply(client, status, word(content)))
    try:
        found = json.loads(content)
    except ValueError:
        found = None
    if not isinstance(found, dict) or not {"journal", "area", "left", "generation"} <= set(found):
        raise Unseen(NOW, f"{client.address}: this isn't what a vtserve tells of itself")
    return found


def fault_of_reply(client: Client, status: int, said: str) -> Task:
    """How urgent a reply is, and what to do about it."""
    if status == 404 and said == "NotFound":
        return UNKNOWN, f"{client.address}: 404: is the server started with --admin?"
    if said in WORDS:
        return NOW, f"{client.address}: {status}: {said} ({told(WORDS[said])})"
    text = IN_FRONT if status in (502, 503, 504) else told(STATUSES[status]) if status in STATUSES else "it isn't the reply of a vtserve"
    return LEVELS.get(status, NOW), f"{client.address}: {status}: {text}"


def replace(path: str, text: str) -> None:
    """Replaces the content of a file that others may read."""
    replaced(path, text, ".new")
    os.chmod(path, 0o644)


def next_area(status: Status) -> int:
    """The sectors that the next publication may take: those of the last one, and those of the edits since, as the last one needed for its map."""
    used, journal = status["area"]["used"], status["journal"]["used"]
    snapshot = used - -(-status["archive"] // SECTOR)
    return used + round(journal * (used / snapshot if snapshot > 0 else 1))


def fullness(status: Status, most: int) -> Iterator[Task]:
    """What is full, or will be."""
    journal, area = status["journal"], status["area"]
    # An older server doesn't tell these.
    stale, cells = status.get("stale", 0), status.get("cells", 1)
    if status["broken"]:
        yield NOW, ("the disk failed, or its file was removed, replaced or cut (the log says which): edits are refused until the server is started "
                    "again (docs/DEPLOYING.md, After 500 Device)")
    if status.get("version", 2) < 2:
        yield SOON, "the disk has version 1: the page, `vtmap checkin` and `vtmap import` can't edit it. `vtserve upgrade` (docs/DEPLOYING.md)"
    if journal["used"] == journal["places"]:
        yield NOW, "the journal is full: no edit is taken until the map is published (`vtmap publish`)"
    for used, whole, name, what in [
        (journal["used"], journal["places"], "the journal", "publish (`vtmap publish`)"),
        (area["used"], area["sectors"], "an area", LARGER),
    ]:
        if used * 100 >= whole * most and (name, used) != ("the journal", whole):
            yield SOON, f"{used:,} of the {whole:,} sectors of {name} are used: {what}"
    if status["generation"] == 0 and FIRST * journal["used"] > area["sectors"]:
        yield SOON, "nothing was published yet: whether a publication fits isn't known before the first one. Publish (`vtmap publish`)"
    elif next_area(status) > area["sectors"] > area["used"]:
        yield SOON, f"the next publication may not fit: about {next_area(status):,} sectors, an area has {area['sectors']:,}. Publish now, and {LARGER}"
    elif area["used"] * 100 >= area["sectors"] * most and stale * 100 >= cells * MUCH:
        yield SOON, (f"the next publication may not fit: the last one takes {area['used']:,} of the {area['sectors']:,} sectors of an area, and edits "
                     f"since have touched {stale:,} of {cells:,} cells. Publish now, and {LARGER}")


def many_tiles(status: Status, most: int) -> Iterator[Task]:
    """Whether the archive, or the one in the making, has nearly as many entries as one may have."""
    for text in [*entries.many(entries.drafted(status), False, most), *entries.many(status.get("entries"), True, most)][:1]:
        yield SOON, text


def left(status: Status, client: Client, wait: float) -> Iterator[Task]:
    """Whether a publication was left under way: nothing of it is done for a while."""
    if status["left"] is None:
        return
    time.sleep(wait)
    later = status_of(client)
    if later["left"] == status["left"]:
        yield SOON, f"a publication was left with {status['left']:,} sectors to go: `vtmap publish` finishes it, or drops it with --cancel"


def speed(status: Status, path: str, now: float, every: Optional[float]) -> Iterator[Task]:
    """Whether the journal fills before the next publication, at the speed since the last one. Keeps in a file what was seen."""
    try:
        with open(regular(path), encoding="utf-8") as file:
            seen = json.load(file)
    except (OSError, ValueError):
        seen = {}
    if not isinstance(seen, dict) or not {"generation", "interval", "time", "used"} <= set(seen):
        seen = {"generation": None, "interval": None, "time": None}
    used, free = status["journal"]["used"], status["journal"]["places"] - status["journal"]["used"]
    if seen["generation"] != status["generation"]:
        interval = now - seen["time"] if seen["generation"] is not None else None
        seen = {"generation": status["generation"], "interval": interval, "time": now, "used": used}
        try:
            replace(path, json.dumps(seen))
        except OSError as fault:
            yield UNKNOWN, f"--state {path}: {fault}"
        return
    between = every if every is not None else (seen["interval"] or DAY) / 3600
    waited = (now - seen["time"]) / 3600
    if (used - seen["used"]) * MANY > status["journal"]["places"]:
        hours = free * waited / (used - seen["used"])
        if hours < between:
            publish = f"publications come every {between:.1f} hours: publish more often"
            yield SOON, f"the journal is full in {hours:.1f} hours, if edits go on like this, and {publish}"
    if status["edits"] > status.get("published", status["edits"]) and waited > 2 * between:
        yield SOON, f"nothing was published for {waited:.1f} hours, though the map was edited: what does `vtmap publish` say?"


def recorded(path: str, now: float, every: Optional[float]) -> Iterator[Task]:
    """What `vtmap publish` recorded of the last publication."""
    try:
        with open(path, encoding="utf-8") as file:
            last = json.load(file)
        hours, result = (now - last["time"]) / 3600, last["result"]
    except (OSError, ValueError, LookupError, TypeError) as error:
        yield UNKNOWN, f"{path}: {error}: has `vtmap publish` run with --record?"
        return
    if result != "published":
        yield NOW, f"the publication {hours:.1f} hours ago wasn't made: {result}{then_of(result)}"
    elif every is not None and hours > 2 * every:
        yield SOON, f"the last publication was {hours:.1f} hours ago, and they are to come every {every:.1f} hours"


def then_of(result: str) -> str:
    """What is to be done about a publication that the server has refused, in brackets: `refused: TooManyTiles 507`."""
    found = WORDS.get(result.removeprefix("refused: ").split(" ")[0])
    return f" ({told(found)})" if found else ""


def backed_up(folder: str, now: float, most: float) -> Iterator[Task]:
    """Whether the newest backup in a folder is older than so many hours."""
    try:
        with os.scandir(folder) as found:
            newest = max((entry.stat().st_mtime for entry in found if fnmatch.fnmatch(entry.name, BACKUP) and entry.is_file()), default=None)
    except OSError as fault:
        yield UNKNOWN, f"--backups: {fault}"
        return
    if newest is None:
        yield SOON, f"{folder} has no backup: is vtserve-backup.timer enabled? systemctl start vtserve-backup makes one"
    elif now - newest > 3600 * most:
        hours = (now - newest) / 3600
        yield SOON, f"the newest backup in {folder} is {hours:.1f} hours old, and it may be {most:g}: journalctl -u vtserve-backup says why"


def unconfirmed(status: Status, client: Client, wait: float) -> Iterator[Task]:
    """Whether a server that acknowledges no edit without a standby lacks one."""
    known = status.get("standby")
    if known is None:
        return
    if known["heard"] is not None and known["confirmed"] < status["edits"]:
        time.sleep(wait)
        known = status_of(client)["standby"]
    if known["heard"] is None or known["heard"] > AWAY:
        since = "since it started" if known["heard"] is None else f"for {known['heard']:,} seconds"
        yield NOW, f"no edit is taken: the server needs a standby (--standby-needed) and has heard of none {since}. {DOES_IT_RUN}"
    elif known["confirmed"] < status["edits"]:
        yield NOW, (f"no edit is taken: the server needs a standby (--standby-needed), which has edits up to {known['confirmed']:,} of {status['edits']:,}. "
                    f"{DOES_IT_RUN}")


def behind(urls: list[str], status: Status, wait: float) -> Iterator[Task]:
    """Whether a standby lacks edits that the server had a while ago, or has another map after the same edit."""
    for url in urls:
        standby = Client(url)
        try:
            there = status_of(standby)
            if there["edits"] < status["edits"]:
                time.sleep(wait)
                there = status_of(standby)
        except Unseen as fault:
            level, text = fault.args
            yield level, f"a standby: {text}"
            continue
        has = there["edits"]
        if has < status["edits"]:
            yield NOW, (f"the standby {standby.address} has edits up to {has:,}, and the server had {status['edits']:,} of them {wait:g} seconds ago: is "
                        "`vtmap follow` running, and what does it say (journalctl -u vtserve-standby)?")
        elif have_other_maps(there, status):
            yield NOW, f"the standby {standby.address} has another map than the server after edit {has:,}: {WHY}. {THEN}"


def behind_in_logs(paths: list[str], status: Status, wait: float) -> Iterator[Task]:
    """Whether a log lacks edits that the server had a while ago."""
    for path in paths:
        log = Log(path)
        has = log.status()
        if has is not None and has["edits"] < status["edits"]:
            time.sleep(wait)
            has = log.status()
        if has is None:
            yield UNKNOWN, f"{path + NUMBER}, which `vtmap follow --log` writes, can't be read"
        elif has["edits"] < status["edits"]:
            yield NOW, (f"the log {path} has edits up to {has['edits']:,}, and the server had {status['edits']:,} of them {wait:g} seconds ago: is "
                        "`vtmap follow` running, and what does it say (journalctl -u vtserve-log)?")


def gateways(urls: list[str]) -> Iterator[Task]:
    """Whether gateways answer by WFS."""
    for url in urls:
        client = Client(url)
        client.longest = LONGEST
        try:
            status, content = client.ask("GET", ASKED)
        except NoAnswer as fault:
            yield NOW, f"the gateway: {fault}: systemctl status vtserve-wfs"
            continue
        if status != 200 or b"WFS_Capabilities" not in content:
            said = re.search(b"<[^<>]*ExceptionText>([^<]+)<", content)
            text = html.unescape(said[1].decode("utf-8", "replace")) if said else word(content)
            yield LEVELS.get(status, NOW), f"the gateway {client.address}: {status}: {text}"


def kept_files(folder: str, backups: Optional[str], now: float, hours: float) -> Iterator[Task]:
    """Whether photos and files of features can be kept, and are in the backups."""
    files, there = Attachments(folder), Attachments(os.path.join(backups or folder, PATH.rstrip("/")))
    try:
        names, saved = list(files.names()), list(there.names()) if backups else []
        free = shutil.disk_usage(folder).free if os.path.isdir(folder) else None
    except OSError as fault:
        yield NOW, f"the photos and files can't be read: {fault}"
        return
    if free is not None and free < 2 * LEAST_FREE:
        yield (NOW if free < LEAST_FREE else SOON), f"the disk of {folder} has {free >> 20:,} MB left: below {LEAST_FREE >> 20} no photo and no file is taken"
    gone, new = set(saved) - set(names), set(names) - set(saved) if backups else set()
    if gone:
        yield NOW, f"{len(gone):,} photos and files of {there.folder} aren't in {folder} any more, as {min(gone)}: copy them back (docs/DEPLOYING.md)"
    old = [name for name in sorted(new) if os.stat(files.path(name)).st_mtime < now - hours * 3600]
    if old:
        yield SOON, f"{len(old):,} photos and files of {folder} aren't in {there.folder}, as {old[0]}: vtmap save --files {folder}"


def metrics(path: str, status: Optional[Status], result: int, name_of_map: Optional[str] = None) -> None:
    """Writes the metrics; without a status those that are known. Where a machine has several maps, each has the name of its map as a label."""
    label = f'{{map="{name_of_map}"}}' if name_of_map else ""
    values = {"up": int(status is not None), "watch_result": result}
    if status is not None:
        journal, area = status["journal"], status["area"]
        values |= {
            "broken": int(status["broken"]),
            "edits_total": status["edits"],
            "published_edit": status.get("published", 0),
            "publications_total": status["generation"],
            "publication_left_sectors": status["left"] or 0,
            "features": status["features"],
            "archive_bytes": status["archive"],
            "journal_used_sectors": journal["used"],
            "journal_sectors": journal["places"],
            "area_used_sectors": area["used"],
            "area_next_sectors": next_area(status),
            "area_sectors": area["sectors"],
        }
        others = [("stale_cells", "stale"), ("cells", "cells"), ("archive_entries", "entries")]
        values |= {name: status[member] for name, member in others if status.get(member) is not None}
        values |= {"drafted_entries": entries.drafted(status) or 0}
        standby = status.get("standby") or {}
        values |= {f"standby_{name}": standby[member] for name, member in (("confirmed_edit", "confirmed"), ("heard_seconds", "heard"))
                   if standby.get(member) is not None}
    replace(path, "".join(
        f"# HELP vtserve_{name} {text}\n# TYPE vtserve_{name} {kind}\nvtserve_{name}{label} {values[name]}\n"
        for name, kind, text in METRICS if name in values
    ))


def tasks(words: argparse.Namespace, client: Client, now: float) -> tuple[Optional[Status], list[Task]]:
    """The status, or None, and what is to be done, each with its level."""
    found = list(recorded(words.record, now, words.every)) if words.record else []
    found += backed_up(words.backups, now, words.backup_hours) if words.backups else []
    found += kept_files(words.files, words.backups, now, words.backup_hours) if words.files else []
    try:
        status = status_of(client)
        status["entries"] = entries.published(client) if status["archive"] else None
        found += [*fullness(status, words.at), *many_tiles(status, words.at), *left(status, client, words.wait)]
        found += speed(status, words.state, now, words.every) if words.state else []
        found += unconfirmed(status, client, words.wait)
        found += behind(words.standby, status, words.wait)
        found += behind_in_logs(words.log, status, words.wait)
        found += gateways(words.gateway)
    except Unseen as fault:
        level, text = fault.args
        return None, [*found, (level, text)]
    return status, found


def options(parser: argparse.ArgumentParser, _: str) -> None:
    """The words of the command."""
    parser.add_argument("--at", type=int, default=80, metavar="PERCENT", help="how full the journal and an area may be (80)")
    parser.add_argument("--every", type=float, metavar="HOURS", help="how often the map is to be published (as often as was seen)")
    parser.add_argument("--wait", type=float, default=5, metavar="SECONDS", help="how long a publication was left, or a standby or a log lacks edits (5)")
    parser.add_argument("--state", metavar="FILE", help="keep what was seen for the next look")
    parser.add_argument("--record", metavar="FILE", help="what `vtmap publish --record` keeps")
    parser.add_argument("--backups", metavar="FOLDER", help="where backups of the map are, map-*.jsonl")
    parser.add_argument("--backup-hours", type=float, default=26, metavar="HOURS", help="how old the newest of them may be (26)")
    parser.add_argument("--files", metavar="FOLDER", help="the folder of photos and files of `vtmap wfs --files`: its disk, and whether backups have them")
    parser.add_argument("--standby", metavar="URL", action="append", default=[], help="a standby that is to have each edit; may be given several times")
    parser.add_argument("--log", metavar="FILE", action="append", default=[], help="a log of `vtmap follow`; may be given several times")
    parser.add_argument("--gateway", metavar="URL", action="append", default=[], help="a `vtmap wfs` that is to answer; may be given several times")
    parser.add_argument("--metrics", metavar="FILE", help="write metrics for Prometheus")
    parser.add_argument("--map", metavar="NAME", help="the map that they are of, on a machine with several")
    parser.add_argument("--maps", action="store_true", help="look at each map of this machine; {map} in the other words is its name")
    parser.add_argument("--root", metavar="FOLDER", default="/", help="--maps: the folder of /etc, for a try")


def of_map(words: argparse.Namespace, one: MapHere) -> argparse.Namespace:
    """The words of the command for one of the maps, which has a folder for what is kept of it."""
    def named(value: Any) -> Any:
        return [named(each) for each in value] if isinstance(value, list) else value and one.named(value)

    found = argparse.Namespace(**{**vars(words), **{name: named(getattr(words, name)) for name in NAMED}, "map": one.name})
    for path in filter(None, (found.state, found.metrics)):
        os.makedirs(os.path.dirname(os.path.abspath(path)), exist_ok=True)
    return found


def work(words: argparse.Namespace) -> int:
    """Looks at one map, or at each of this machine, and prints what is to be done."""
    if not words.maps:
        result, lines = looked(words)
        print("\n".join(lines))
        return result
    maps = Machine(words.root).maps()
    with concurrent.futures.ThreadPoolExecutor(AT_ONCE) as threads:
        found = list(threads.map(looked, [of_map(words, one) for one in maps]))
    for one, (result, lines) in zip(maps, found):
        if result:
            print("\n".join(f"{one.name}: {line}" for line in lines))
    fine = sum(result == 0 for result, _ in found)
    if fine or not maps:
        print(f"{fine:,} map{'' if fine == 1 else 's'}: nothing to do")
    return most_urgent(result for result, _ in found)


def most_urgent(levels: Iterable[int]) -> int:
    """The most urgent of some levels, 0 if there is none."""
    levels = set(levels)
    return next((level for level in (NOW, UNKNOWN, SOON) if level in levels), 0)


def looked(words: argparse.Namespace) -> tuple[int, list[str]]:
    """Looks at a map. Returns how urgent what is to be done is, and the lines about it."""
    try:
        status, found = tasks(words, Client(words.url), time.time())
    except Fault as fault:
        status, found = None, [(UNKNOWN, str(fault))]
    result, lines = most_urgent(level for level, _ in found), [text for _, text in found]
    if status and not found:
        lines = [f"{status['features']:,} features, edit {status['edits']:,}, generation {status['generation']:,}: nothing to do"]
    if words.metrics:
        try:
            metrics(words.metrics, status, result, words.map)
        except OSError as fault:
            return most_urgent([result, UNKNOWN]), [*lines, f"--metrics {words.metrics}: {fault}"]
    return result, lines
