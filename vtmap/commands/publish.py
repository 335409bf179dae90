"""`vtmap publish`: publishes the map by steps, and may put the archive into an object store. Needs no package."""
from __future__ import annotations

import argparse
import json
import os
import signal
import sys
import time
from typing import Any, NoReturn

from ..archives.fetching import ARCHIVE
from ..client import entries
from ..client.client import Client, word
from ..client.followers import Wait, said, seconds, told_late
from ..client.refusals import STATUSES, WORDS, told
from ..ending import regular, replaced
from ..faults import Fault, NoAnswer
from ..progress import Tiles
from ..systems import signals_to_end
from .archive_store import marks_of, store_joined, store_one

ABOUT = {"publish": """Publishes the map of a running `vtserve serve` by steps, so that tiles and edits go on between them.

    vtmap publish --changed --record /var/lib/vtserve-watch/published

Where the server tells (--admin), it prints every two seconds how many tiles are made, and how many of the 131,072 entries of an archive they
need; and how many sectors are left after each step. It warns once an archive has 80 % of them. A publication that somebody left under way is finished first; with --cancel it is dropped.
Interrupted, it cancels the publication once the server has answered; interrupted twice, it doesn't wait for that. If the server refuses a
step, it says why and cancels the publication; it ends with 1 then, and if somebody else has cancelled the publication, or the server was
restarted. --record keeps the outcome in a file, for `vtmap watch`.

--changed publishes only if the archive lacks an edit, which a server with --admin tells: nobody waits then, and readers keep the archive that
they know. With --to also if the last archive isn't known to be in its place, by what --record kept.

--pause SECONDS waits so long after the beginning, while edits go on. Published edits leave the list that a standby or a log is made of
(`vtmap follow`) at the next start of the server, or when newer ones need their places: 5 seconds are enough for one that keeps up. --standby
URL waits until that standby has these edits, and --log FILE until that log has them, --pause seconds at most, or 60. VTSERVE_PAUSE,
VTSERVE_STANDBYS and VTSERVE_LOGS say so for each command that publishes, `vtmap import --publish` for instance.

--to PLACE puts the archive into an object store, under a name of its own, and then the file newest.json, which names it: readers of an older
one aren't disturbed. PLACE is s3://BUCKET/FOLDER (by `aws s3 cp`) or REMOTE:BUCKET/FOLDER (by `rclone`).

--join ARCHIVE puts one archive there that has also the tiles of other maps, as `vtmap join` makes it: a file, or the address of a map; several
times. The map of --url is the first one. With --changed and --record it is only made if one of the archives has changed."""}
PUBLISHED, STEP = "published", "/publish/step"


def options(parser: argparse.ArgumentParser, _: str) -> None:
    """The words of the command."""
    parser.add_argument("--changed", action="store_true", help="publish only if the archive lacks an edit")
    parser.add_argument("--cancel", action="store_true", help="drop a publication that was left under way")
    parser.add_argument("--record", metavar="FILE", help="keep the outcome in this file, for `vtmap watch`")
    parser.add_argument("--pause", type=seconds, metavar="SECONDS", help="wait after the beginning for who follows the edits (VTSERVE_PAUSE)")
    parser.add_argument("--standby", metavar="URL", action="append", help="wait until this standby has the edits; several times (VTSERVE_STANDBYS)")
    parser.add_argument("--log", metavar="FILE", action="append", help="wait until this log of `vtmap follow` has the edits; several times (VTSERVE_LOGS)")
    parser.add_argument("--to", metavar="PLACE", help="put the archive into an object store")
    parser.add_argument("--join", metavar="ARCHIVE", action="append", help="put it there joined with this one; several times")
    parser.add_argument("--first", action="store_true", help="of an id that several of them have, take the first one's feature (`vtmap join`)")


def fault_of(words: argparse.Namespace) -> str | None:
    """Why the words can't be meant."""
    if words.join and not words.to:
        return "--join needs --to"
    return "--first needs --join" if words.first and not words.join else None


class Ended(Exception):
    """With which status it ends, what is recorded, and what is said."""


class Publication:
    """A publication by steps. `is_interrupted` is set by a signal: a request that was sent is awaited, since its reply tells what became of it."""

    def __init__(self, words: argparse.Namespace, client: Client) -> None:
        self.words, self.client, self.is_interrupted = words, client, False

    def post(self, path: str) -> tuple[int, Any]:
        """Status and word, or content, of a request for a publication."""
        status, content = self.client.step() if path == STEP else self.client.post(path)
        return status, content if status == 200 else word(content)

    def cancel(self) -> None:
        """Cancels the publication that is under way."""
        status, said = self.post("/publish/cancel")
        print("the publication is cancelled" if status == 204 else f"/publish/cancel: {status} {said}", file=sys.stderr)

    def refused(self, path: str, status: int, said: str) -> NoReturn:
        """Ends at a refusal."""
        reason = WORDS.get(said.split(" ")[0]) or STATUSES.get(status)
        text = said if str(status) in said else f"{said} {status}"
        raise Ended(1, f"refused: {text}", f"{path}: {text}" + (f" ({told(reason)})" if reason else ""))

    def finish(self, left: int) -> bool:
        """Does the steps that are left. Returns whether it did the last one itself: somebody else may, and then the server is idle."""
        while left > 0:
            if self.is_interrupted:
                self.cancel()
                raise Ended(130, "interrupted", None)
            status, found = self.post(STEP)
            if status == 409 and found == "Idle":
                return False
            if status != 200:
                self.cancel()
                self.refused(STEP, status, found)
            left = self.client.value(found)["left"]
            print(f"{left} left", flush=True)
        return True

    def wait(self) -> None:
        """Waits for who follows the edits, unless it is interrupted."""
        length, standbys, logs = said()
        length = length if self.words.pause is None else self.words.pause
        wait = Wait(length, [Client(url) for url in self.words.standby or standbys], self.words.log or logs)
        if not wait.length:
            return
        print(wait, flush=True)
        status = self.client.status()
        for one in wait.wait(status["edits"] if status else 0, lambda: self.is_interrupted):
            print(told_late(one), file=sys.stderr, flush=True)

    def post_begin(self) -> tuple[int, Any]:
        """The same for a beginning, which is answered once all tiles are made: meanwhile it prints how many are."""
        with Tiles(self.client):
            return self.post("/publish/begin")

    def begin(self) -> int:
        """Begins a publication; one that is under way is cancelled or finished before. Returns the sectors that are left."""
        status, found = self.post_begin()
        if status == 409 and found == "Busy":
            if self.words.cancel:
                self.cancel()
            else:
                print("a publication is under way: it is finished first", flush=True)
                self.wait()
                self.finish(1)
            status, found = self.post_begin()
        if status != 200:
            self.refused("/publish/begin", status, found)
        return self.client.value(found)["left"]

    def run(self) -> None:
        """Publishes."""
        left = self.begin()
        print(f"begun: {left} left", flush=True)
        before = self.mark()
        self.wait()
        if not self.finish(left) and self.mark() == before:
            raise Ended(1, "dropped by somebody else or a restart",
                        "the publication is gone, and nothing is published: somebody cancelled it, or the server was restarted")
        print("published", flush=True)
        for text in entries.many(entries.published(self.client), True):
            print(f"warning: {text}", flush=True)

    def mark(self) -> int | str | None:
        """What each publication changes: its number, or else the archive's entity tag."""
        status = self.client.status()
        return status["generation"] if status else self.client.tag("/map.pmtiles")


def has_each_edit(client: Client) -> bool:
    """Whether the published archive has each edit, and no publication is under way. A server without --admin doesn't tell."""
    status = client.status()
    return status is not None and status["generation"] > 0 and status["left"] is None and status["edits"] == status["published"]


def recorded(words: argparse.Namespace) -> dict[str, Any]:
    """What the last publication recorded, if it went well; else nothing."""
    try:
        with open(words.record or os.devnull, encoding="utf-8") as file:
            found = json.load(file)
            return found if found["result"] == PUBLISHED else {}
    except (OSError, ValueError, LookupError, TypeError):
        return {}


def put_joined(words: argparse.Namespace) -> dict[str, str | None]:
    """Puts the archive of all maps into its place, unless it is there with the last version of each. Returns what they are, for the record."""
    names = [words.url + ARCHIVE, *words.join]
    try:
        marks = marks_of(names)
        if words.changed and recorded(words).get("joined") == marks and None not in marks.values():
            print("the joined archive has each publication already")
        elif not store_joined(names, words.to, words.first):
            raise Ended(1, f"not stored: {words.to}", f"the map is published, but the joined archive isn't in {words.to}")
        return marks
    except (Fault, OSError) as fault:
        raise Ended(getattr(fault, "status", 1), f"not joined: {fault}", f"the map is published, but not joined: {fault}") from fault


def published(words: argparse.Namespace) -> dict[str, object]:
    """Publishes if it is wanted, and puts the archive into its place. Returns what is recorded beside the outcome. Raises `Ended`."""
    client = Client(words.url)
    is_in_place = not words.to or words.join or recorded(words)
    if words.changed and is_in_place and has_each_edit(client):
        print("the archive has each edit already")
    else:
        publish(words, client)
        if words.to and not words.join and not store_one(words.url, words.to):
            raise Ended(1, f"not stored: {words.to}", f"the map is published, but its archive isn't in {words.to}")
    return {"joined": put_joined(words)} if words.join else {}


def publish(words: argparse.Namespace, client: Client) -> None:
    """Publishes, and may be interrupted. Raises `Ended`."""
    publication = Publication(words, client)

    def interrupt(*_: object) -> None:
        # Whoever asks twice doesn't wait for a reply.
        if publication.is_interrupted:
            raise KeyboardInterrupt
        publication.is_interrupted = True

    before = {number: signal.signal(number, interrupt) for number in signals_to_end()}
    try:
        publication.run()
    finally:
        # What comes after it may be interrupted at once.
        for number, handler in before.items():
            signal.signal(number, handler)


def work(words: argparse.Namespace) -> int:
    """Publishes, and records the outcome."""
    if words.record:
        regular(words.record)
    more = {}
    try:
        more = published(words)
        end = Ended(0, PUBLISHED, None)
    except Ended as found:
        end = found
    except NoAnswer as fault:
        end = Ended(3, "no reply", str(fault))
    except Fault as fault:
        end = Ended(fault.status, f"refused: {fault}", str(fault))
    status, result, said = end.args
    if said:
        print(said, file=sys.stderr)
    if words.record:
        replaced(words.record, json.dumps({"time": int(time.time()), "result": result, **more}, separators=(",", ":")) + "\n", ".new")
    return status
