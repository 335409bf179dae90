"""`vtmap takeover`: makes the standby on this machine the server that people edit. Needs no package."""
from __future__ import annotations

import argparse
import re
import time

from ..client.client import Client
from ..client.feed import THEN, WHY, have_other_maps
from ..faults import Fault, Refused
from ..forms import Status
from ..machine.machine import CLOSED, FOLLOW_ALL, FRONT, Machine, unit_of

ABOUT = {"takeover": """Makes the standby on this machine the server that people edit, after the first machine is gone. Run it as root, here.

    vtmap takeover --dry-run
    vtmap takeover

It looks first whether all is there: a standby that answers and isn't broken, its unit vtserve-standby, the units that a first
machine runs, and an nginx.conf that nginx accepts. Then it stops following the first machine, starts nginx, publications, backups,
the watch and the log, and lets edits in. --dry-run looks alone, and says what would be done.

If the first machine still answers, nothing is done: two machines that take edits of one map have two maps. With --planned it is
waited until this one has all of its edits, which end before (`deny all` in its nginx.conf, or another machine that is stopped).
--map NAME takes one of several maps of this machine over. Where vtserve-follow-maps is enabled, it stops following that map alone, and logs it."""}
# How many seconds the first machine has to answer.
PATIENCE = 5
# What a first machine runs beside the server. What of it makes the first backup and the first publication, for which `vtmap watch` looks.
FIRST_HERE = ("vtserve-publish.timer", "vtserve-watch.timer", "vtserve-backup.timer", "vtserve-log.service")
ONCE = ("vtserve-publish.service", "vtserve-backup.service")
STANDBY, LOG = "vtserve-standby.service", FIRST_HERE[-1]
# How many seconds `vtmap follow --maps` takes to leave a map that nginx lets edits into: a question of it rests for two.
LEAVES = 4


def options(parser: argparse.ArgumentParser, _: str) -> None:
    """The words of the command."""
    parser.add_argument("--map", metavar="NAME", help="the map of that name, where there are several")
    parser.add_argument("--leader", metavar="URL", help="the first machine (the one that vtserve-standby follows)")
    parser.add_argument("--planned", action="store_true", help="the first machine answers, and takes no edits any more: wait for its last one")
    parser.add_argument("--wait", type=float, default=60, metavar="SECONDS", help="how long --planned waits (60)")
    parser.add_argument("--dry-run", action="store_true", help="look whether all is there, and say what would be done")
    parser.add_argument("--root", metavar="FOLDER", default="/", help="the folder of /etc and /var, for a try")


def leader_of(unit: str, text: str) -> str:
    """Whom the unit of a standby follows, by its text."""
    found = re.search(r"(?m)^ExecStart=(?:.*\\\n)*.*--url (\S+)", text)
    if not found:
        raise Refused(f"{unit} follows nobody: give --leader URL")
    return found[1]


def known(client: Client) -> Status:
    """What the server here tells of itself, if it can be taken over."""
    status = client.status()
    if status is None:
        raise Refused(f"{client.address} runs without --admin: it can't be a standby")
    if status["broken"]:
        raise Refused(f"{client.address} is broken: restart it (systemctl restart vtserve), and see whether it opens its disk")
    return status


def status_of(leader: Client) -> Status | None:
    """What the first machine tells of itself, None if it doesn't answer."""
    try:
        return leader.status()
    except Fault:
        return None
    finally:
        leader.close()


def edits_of(leader: Client) -> int | None:
    """The number of the last edit of the first machine, None if it doesn't answer."""
    status = status_of(leader)
    return status["edits"] if status else None


def look_at_leader(words: argparse.Namespace, leader: Client, here: Client) -> None:
    """Refuses while the first machine answers, unless that is planned; then waits until this one has all of its edits. Refuses if the maps differ then."""
    leader.longest = PATIENCE
    there = status_of(leader)
    if there is None:
        print(f"{leader.address} doesn't answer")
        return
    edits = there["edits"]
    answers = f"{leader.address} answers, and has edit {edits:,}"
    if words.dry_run:
        print(answers + (f". {another_map(leader, edits)}" if have_other_maps(known(here), there) else ""))
        return
    if not words.planned:
        raise Refused(f"{answers}: stop it, or see to it that nobody edits it any more and say --planned")
    end = time.monotonic() + words.wait
    while True:
        time.sleep(1)
        mine, now = known(here)["edits"], edits_of(leader)
        if now is None:
            return
        if mine == now == edits:
            return refuse_another_map(leader, here)
        if now != edits:
            raise Refused(f"{leader.address} still takes edits ({edits:,}, then {now:,}): close it first (deny all in its nginx.conf)")
        if time.monotonic() > end:
            raise Refused(f"edit {now:,} of {leader.address} isn't here after {words.wait:g} s, but {mine:,}: what does journalctl -u vtserve-standby say?")


def another_map(leader: Client, edits: int) -> str:
    """That the map of the first machine is another one than that of this machine."""
    return f"After edit {edits:,} the map of {leader.address} isn't the one here: {WHY}"


def refuse_another_map(leader: Client, here: Client) -> None:
    """Refuses if both have the same last edit and another map."""
    mine, there = known(here), status_of(leader)
    if there and have_other_maps(mine, there):
        raise Refused(f"{another_map(leader, mine['edits'])}. Which one is right? {THEN}, or stop the first machine to go on with the map here")


def work(words: argparse.Namespace) -> int:
    """Looks, and takes over."""
    machine = Machine(words.root)
    here = Client(f"http://127.0.0.1:{machine.named(words.map).port}" if words.map else words.url)
    status = known(here)
    is_one_for_all = bool(words.map) and machine.is_enabled(FOLLOW_ALL)
    standby = FOLLOW_ALL if is_one_for_all else unit_of(STANDBY, words.map)
    units = [unit_of(name, words.map) for name in FIRST_HERE if name != LOG or not is_one_for_all]
    once = [unit_of(name, words.map) for name in ONCE]
    leader = Client(words.leader or leader_of(standby, machine.unit(standby)).replace("{map}", words.map or ""))
    for each in (*units, *once, FRONT):
        machine.unit(each)
    machine.try_nginx()
    print(f"{here.address}: {status['features']:,} features, edit {status['edits']:,}")
    look_at_leader(words, leader, here)
    if words.dry_run:
        ends = f"{standby} leaves this map" if is_one_for_all else f"systemctl disable --now {standby}"
        print(f"would be done: {ends}\nwould be done: {machine.path(CLOSED)} lets edits of this map in\n"
              f"would be done: systemctl enable --now {FRONT} {' '.join(units)}\nwould be done: systemctl start --no-block {' '.join(once)}")
        return 0
    try:
        if is_one_for_all:
            machine.open(words.map)
            time.sleep(LEAVES)
        else:
            machine.systemctl("disable", "--now", standby)
            machine.open(words.map)
        edits = known(here)["edits"]
        machine.systemctl("enable", "--now", FRONT, *units)
        machine.reload_nginx()
        machine.systemctl("start", "--no-block", *once)
    except PermissionError as fault:
        raise Refused(f"{fault.filename}: run it as root") from None
    print(f"taken over: edits go on with {edits + 1:,}. Give this machine the first one's name or address. The first one may not serve this map again "
          f"with its old disk: what it has from edit {edits + 1:,} on isn't here")
    return 0
