"""`vtmap follow`: follows the edits of a running `vtserve serve --admin`, into standbys, into a log, or both. Needs no package."""
from __future__ import annotations

import argparse
import os
import subprocess
import sys
import threading
import time
from collections.abc import Iterable
from datetime import datetime, timezone
from typing import NamedTuple, Optional, TextIO, Union

from ..client.client import FEED
from ..client.feed import THEN, Leader, LeftBehind, Standby
from ..client.passing import Passing
from ..ending import regular
from ..faults import Fault, NoAnswer, Refused, Stopped
from ..files.edit_log import EditLog
from ..machine.machine import Machine
from .checkout import Choice, box_of
from .telling import Teller

ABOUT = {"follow": """Follows the edits of a running `vtserve serve --admin`: into standbys, each a second vtserve, into a log, or both.

    vtmap follow --to http://127.0.0.1:8090 --publish
    vtmap follow --log edits.jsonl
    vtmap follow --log edits.jsonl --run "sh webhook.sh" --layer road --bbox 7.4,54.4,7.6,54.6

A standby begins as a copy of the server's disk, and nobody else edits it:

    vtserve copy map.disk standby.disk
    vtserve serve --port 8090 --connections 4294967295 --admin standby.disk

Each edit of the server becomes an edit of the standby with the same number and the same changes. The server replies as soon as there is one; for
a log, and of an older server, it is asked every --every seconds. The standby itself makes an edit only under that number, so none is made twice or
left out, whoever is stopped meanwhile: this command, the server or the standby. Each begins where the standby is. Whenever both have the same last
edit, the digests of their maps are compared, and the next edit is made only of the map that the server had. At the beginning, where one of them has more
edits or is older than digests, the standby's last edit is compared with the server's, if both still list it, and all features but those that later
edits change. A server that was put back from a copy is another map.

With every request the server is told which edits are on the standby's disk: `vtserve serve --standby-needed` acknowledges an edit only then.

--log FILE appends a line of JSON for each edit, `{"time":..,"edit":7,"changes":[{"put":9,"feature":{..},"was":{..}}]}`, with the time when the
edit was seen and what each feature was before: `vtmap log` reads it, and `vtmap undo` takes edits back by it. For that the features of the map
are kept in FILE.map. A new log begins with the next edit. FILE may be renamed meanwhile, as logrotate does: then a new one begins.

--run COMMAND has the shell run a command for what the log gets: it reads a line of JSON for each edit on its standard input, as the log has it, with
those changes of features that are, or were, in the box of --bbox and in a --layer. If it doesn't end with 0, it is run again with the same edits, after
ten seconds at first: so an edit may be told twice, and none is left out. FILE.run has the number of the last one; the first one is the next one.

The server lists published edits until newer ones need their places in its journal, or until it is started again; an older server lists none.
`vtmap publish --pause 5` gives who follows the time to read them before. Whoever hasn't is left behind: a log gets a line `{"time":..,"missed":[8,12]}` and goes on; a standby has to begin anew from a copy,
by --anew COMMAND, which the shell runs with its address in $STANDBY: it stops the standby, copies the disk and starts the standby again.
--publish publishes a standby when its journal is full, and after the server has published.

Each standby and the log is followed by itself: where one can't go on, it says why, and the others go on. It ends with 1 once none is left;
with --once once all edits are followed.

--maps follows each map of a machine with several (`vtmap maps`) by one process: those that are standbys here, for which closed.conf of nginx has a
line, from --url into --to, and all others into --log, from this machine's server. {map} and {port} in these words are the name and the port of each.
Maps that are added, removed or taken over are noticed within two seconds. One that can't go on is tried again each half minute.

    vtmap follow --maps --log /var/lib/vtserve-log/{map}/edits.jsonl
    vtmap follow --maps --url http://FIRST:8000/{map} --to http://127.0.0.1:{port} --publish"""}
# How many seconds there are between two looks whether the server has published.
LOOK = 10
# How many seconds the server is to wait for the next edit.
WAIT = 2
# The seconds between two looks at the maps of a machine, and until one that couldn't go on is tried again.
EACH, AGAIN = 1, 30


def say(line: str, out: TextIO = sys.stdout) -> None:
    """Prints a line by one call: of two threads that print one, none comes between the other's line and its end."""
    print(line + "\n", end="", file=out, flush=True)


class Follower:
    """Passes the edits of a server on to one standby, or to a log."""

    def __init__(self, words: argparse.Namespace, sink: Union[Standby, EditLog], name: str = "") -> None:
        self.words, self.sink = words, sink
        # What its lines begin with on a machine with several maps, and why it ended last. Whether it is to end.
        self.name, self.why, self.is_left = name and f"{name}: ", "", False
        self.leader = Leader(words.url)
        # With which status it ends, what was said last of who doesn't answer, the server's publication that is known, and whether it has begun.
        self.status, self.is_begun = 1, False
        self.told: Optional[str] = None
        self.generation: Optional[int] = None
        # When the server was looked at, and whether its last reply had no edits and came at once.
        self.looked, self.is_early = 0.0, True

    def run(self) -> None:
        """Follows until it can't go on, or with --once until all edits are followed."""
        try:
            while not self.is_left and not self.is_done():
                if self.is_early:
                    time.sleep(self.words.every)
            self.status = 0
        except Fault as fault:
            self.status = fault.status
            self.end(f"{self.sink.address}: {fault}")
        except OSError as fault:
            self.end(f"{fault}" if fault.filename else f"{self.sink.address}: {fault}")
        self.leader.close()
        if isinstance(self.sink, Standby):
            self.sink.close()

    def end(self, why: str) -> None:
        """Says why it can't go on, if that wasn't said."""
        if why != self.why:
            say(self.name + why, sys.stderr)
        self.why = why

    def say(self, line: str) -> None:
        """Prints a line, with the name of the map where there are several."""
        say(self.name + line)

    def is_done(self) -> bool:
        """Passes on what there is. Returns whether it is to end."""
        try:
            if not self.is_begun or self.sink.at is None:
                self.begin()
            if isinstance(self.sink, Standby):
                self.pass_on(self.sink)
            else:
                while self.has_logged(self.sink):
                    pass
            self.publish_after()
            self.told = None
            return self.words.once and self.sink.at is not None and self.sink.at >= self.leader.known()["edits"]
        except LeftBehind as behind:
            self.left_behind(behind)
        except NoAnswer as fault:
            self.wait_for(fault)
        return False

    def begin(self) -> None:
        """Finds out where the standby, or the log, is."""
        self.sink.begin(self.leader)
        if not self.is_begun and self.sink.at is not None:
            self.say(f"{self.sink.address}: following {self.leader.address} from edit {self.sink.at + 1} on")
        self.is_begun = True

    def pass_on(self, standby: Standby) -> None:
        """Passes edits on to a standby, for some seconds at most."""
        passing, end = Passing(self.leader, standby, 0 if self.words.once else WAIT), time.monotonic() + LOOK
        passing.run(lambda: self.is_left or time.monotonic() > end)
        self.is_early = passing.is_early

    def has_logged(self, log: EditLog) -> bool:
        """Logs the edits of one reply. Returns whether there are more. A log's lines say when there was no later edit: that is asked for again and
        again, and no question rests."""
        asked = datetime.now(timezone.utc)
        edits, last = self.leader.edits_from(log.reached() + 1)
        self.is_early = not edits
        if edits:
            if edits[-1]["edit"] < last:
                self.leader.send_ahead(f"{FEED}/{edits[-1]['edit'] + 1}")
            log.take(edits)
        if not edits or edits[-1]["edit"] == last:
            log.look(asked)
        return log.reached() < last

    def publish_after(self) -> None:
        """Publishes a standby if the server has published since the last look."""
        if not isinstance(self.sink, Standby) or not self.words.publish or time.monotonic() < self.looked + LOOK:
            return
        self.looked = time.monotonic()
        generation = self.leader.known()["generation"]
        if self.generation is not None and generation != self.generation:
            self.say(f"{self.leader.address} has published: so does {self.sink.address}")
            self.sink.publish()
        self.generation = generation

    def left_behind(self, behind: LeftBehind) -> None:
        """Goes on after a publication of edits that weren't read: a log misses them, and a standby begins anew."""
        if isinstance(self.sink, EditLog):
            self.sink.miss(self.leader, behind.published)
            return
        if self.words.anew is None:
            raise Stopped(f"it has edits up to {behind.number - 1:,}, and {behind}. {THEN}, and give --anew next time; `vtmap publish --pause 5` "
                          "waits for who follows")
        self.say(f"{self.sink.address} has edits up to {behind.number - 1:,}, and {behind}: --anew begins it anew")
        self.sink.close()
        try:
            subprocess.run(self.words.anew, shell=True, check=True, env={**os.environ, "STANDBY": self.sink.address, "MAP": self.name[:-2]})
        except subprocess.CalledProcessError as fault:
            raise Stopped(f"--anew: {fault}") from fault
        self.is_begun = False

    def wait_for(self, fault: NoAnswer) -> None:
        """Waits for the server, or the standby, which then says anew where it is: an edit whose reply was lost is made or not."""
        if self.words.once:
            raise fault
        self.is_begun, self.is_early = False, True
        if str(fault) != self.told:
            self.told = str(fault)
            self.say(f"{fault}: waiting")


def work(words: argparse.Namespace) -> int:
    """Follows into each standby and into the log, each by itself."""
    if words.maps:
        return follow_maps(words)
    sinks = [Standby(url.rstrip("/"), words.publish) for url in words.to] + ([EditLog(regular(words.log))] if words.log else [])
    teller = Teller(words.log, words.run, Choice(words.layer, words.bbox), say) if words.run else None
    followers = [Follower(words, sink) for sink in sinks]
    threads = [started(follower) for follower in followers]
    if teller and not words.once:
        threading.Thread(target=teller.run, args=[words.every], daemon=True).start()
    joined(threads)
    return max([follower.status for follower in followers] + ([teller.end()] if teller and words.once else []))


def started(follower: Follower) -> threading.Thread:
    """The thread of a follower."""
    thread = threading.Thread(target=follower.run, daemon=True)
    thread.start()
    return thread


def joined(threads: Iterable[threading.Thread]) -> None:
    """Waits for the end of threads. On Windows nothing interrupts a wait without an end."""
    for thread in threads:
        while thread.is_alive():
            thread.join(1)


class Sink(NamedTuple):
    """Where a map of this machine is followed into: a standby of a URL, or the log at a path; and from where."""

    name: str
    source: str
    target: str
    is_log: bool


class Maps:
    """The followers of the maps of this machine."""

    def __init__(self, words: argparse.Namespace) -> None:
        self.words, self.machine = words, Machine(words.root)
        self.running: dict[Sink, tuple[Follower, threading.Thread, float]] = {}

    def sinks(self) -> list[Sink]:
        """Where the maps are followed into: those that are standbys here into those, and all others into logs."""
        closed, found = self.machine.closed(), []
        for one in self.machine.maps():
            if one.name in closed:
                found += [Sink(one.name, one.named(self.words.url), one.named(url), False) for url in self.words.to]
            elif self.words.log:
                found.append(Sink(one.name, f"http://127.0.0.1:{one.port}", one.named(self.words.log), True))
        return found

    def look(self) -> None:
        """Follows the maps that there are, and no other."""
        wanted, now = self.sinks(), time.monotonic()
        for sink, (follower, thread, _) in list(self.running.items()):
            follower.is_left = sink not in wanted
            if follower.is_left and not thread.is_alive():
                follower.say(f"{follower.sink.address}: followed no more")
                del self.running[sink]
        busy = {sink.name for sink, (follower, _, _) in self.running.items() if follower.is_left}
        for sink in wanted:
            last = self.running.get(sink)
            if (last is None and sink.name not in busy) or (last and not last[1].is_alive() and now > last[2] + AGAIN):
                follower = self.follower(sink, last[0].why if last else "")
                self.running[sink] = follower, started(follower), now

    def follower(self, sink: Sink, why: str) -> Follower:
        """What follows into one of them. `why`: why the last one ended."""
        words = argparse.Namespace(**{**vars(self.words), "url": sink.source.rstrip("/")})
        if sink.is_log:
            os.makedirs(os.path.dirname(os.path.abspath(sink.target)), exist_ok=True)
        to: Union[Standby, EditLog] = EditLog(regular(sink.target)) if sink.is_log else Standby(sink.target.rstrip("/"), words.publish)
        follower = Follower(words, to, sink.name)
        follower.why = why
        return follower


def follow_maps(words: argparse.Namespace) -> int:
    """Follows each map of this machine."""
    maps, told = Maps(words), ""
    if words.once:
        maps.look()
        joined(thread for _, thread, _ in maps.running.values())
        return max((follower.status for follower, _, _ in maps.running.values()), default=0)
    while True:
        try:
            maps.look()
            told = ""
        except (Refused, OSError) as fault:
            # A file that is just being changed by hand.
            if str(fault) != told:
                told = str(fault)
                say(told, sys.stderr)
        time.sleep(EACH)


def options(parser: argparse.ArgumentParser, _: str) -> None:
    """The words of the command."""
    parser.add_argument("--to", metavar="URL", action="append", default=[], help="a standby; may be given several times")
    parser.add_argument("--log", metavar="FILE", help="append each edit to this file")
    parser.add_argument("--run", metavar="COMMAND", help="run this with the edits that --log gets, a line of JSON each on its standard input")
    parser.add_argument("--bbox", type=box_of, help="--run: only what is, or was, in this box: WEST,SOUTH,EAST,NORTH in degrees")
    parser.add_argument("--layer", action="append", help="--run: only this layer; may be given several times")
    parser.add_argument("--publish", action="store_true", help="publish a standby when its journal is full, and after the server")
    parser.add_argument("--anew", metavar="COMMAND", help="what begins a standby anew from a copy; its address is $STANDBY")
    parser.add_argument("--every", type=float, default=0.1, metavar="SECONDS", help="how often to ask for a log, or an older server (0.1)")
    parser.add_argument("--once", action="store_true", help="end once all edits are followed")
    parser.add_argument("--maps", action="store_true", help="follow each map of this machine; {map} in the other words is its name")
    parser.add_argument("--root", metavar="FOLDER", default="/", help="--maps: the folder of /etc, for a try")


def fault_of(words: argparse.Namespace) -> Optional[str]:
    """What is wrong with the command line."""
    if words.run and not words.log:
        return "--run needs --log"
    if (words.bbox or words.layer) and not words.run:
        return "--bbox and --layer are for --run"
    if words.maps and words.run:
        return "--run is for one map"
    if words.maps and not all(is_of_map(word) for word in [*words.to, *([words.url] if words.to else []), *([words.log] if words.log else [])]):
        return "--maps: --to and --url, and --log, name {map} or {port}, else all maps would be one"
    return None if words.to or words.log else "one of --to and --log is needed"


def is_of_map(word: str) -> bool:
    """Whether a word is another one for each map."""
    return "{map}" in word or "{port}" in word
