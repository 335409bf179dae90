"""`vtmap replica`: processes on this machine that have each edit of the map, and make tiles for readers. Needs no package."""
from __future__ import annotations

import argparse
import time

from ..client.client import Client
from ..faults import Fault, NoAnswer, Refused
from ..machine.machine import Machine
from ..machine.replicas import FOLLOWS, SERVES, Replicas

ABOUT = {"replica": """Lists, adds and removes the replicas of the map on this machine: processes that make the tiles of readers.

    vtmap replica
    vtmap replica add
    vtmap replica remove 8091

One vtserve uses one processor. A replica is another one, on a copy of the disk, which has each edit of the server a tenth of a second
later. nginx asks replicas for the tiles of all who haven't just edited. Run it as root, on that machine.

add copies the disk, starts the replica and follows the server into it, waits until it has the server's edits, and has nginx ask it.
The copy is in memory (/run) and made anew each time that the replica starts; --disk FOLDER puts it there. remove takes a replica from
nginx first. No request fails, and no edit waits. The map of a machine with one map can have replicas, not those of `vtmap maps`."""}
# How long a replica has to come up, and then to have all edits.
LONGEST = 120


def options(parser: argparse.ArgumentParser, _: str) -> None:
    """The words of the command."""
    parser.add_argument("action", nargs="?", choices=["add", "remove"], help="what to do (list the replicas)")
    parser.add_argument("port", nargs="?", type=int, metavar="PORT", help="the port of a replica (a free one from 8091 on)")
    parser.add_argument("--disk", metavar="FOLDER", help="where its disk is, a folder that the user vtserve writes (in memory)")
    parser.add_argument("--root", metavar="FOLDER", default="/", help="the folder of /etc and /var, for a try")


def fault_of(words: argparse.Namespace) -> str | None:
    """Why the words can't be meant."""
    if words.action == "remove" and words.port is None:
        return "remove needs the port of a replica"
    if words.port is not None and not 0 < words.port < 65536:
        return f"{words.port} is no port"
    if words.disk and not words.disk.startswith("/"):
        return "--disk is a whole path, from / on"
    return None


def edits_of(client: Client) -> int | None:
    """The number of the last edit of a server, None if it doesn't answer."""
    try:
        status = client.status()
        return status["edits"] if status else None
    except Fault:
        return None
    finally:
        client.close()


def at(port: int) -> Client:
    """The server on a port of this machine."""
    return Client(f"http://127.0.0.1:{port}")


def wait_for(port: int, edits: int, why: str) -> None:
    """Waits until the replica on a port has an edit."""
    end = time.monotonic() + LONGEST
    while (found := edits_of(at(port))) is None or found < edits:
        if time.monotonic() > end:
            raise Refused(f"the replica on port {port} {why} after {LONGEST} s: journalctl -u {SERVES.format(port)} -u {FOLLOWS} says why")
        time.sleep(0.1)


def show(replicas: Replicas, edits: int) -> int:
    """Prints the replicas, and how many edits each lacks."""
    found = {port: edits_of(at(port)) for port in replicas.ports()}
    for port, has in found.items():
        print(f"port {port}: " + ("it does not answer" if has is None else f"edit {has:,}" + (f", {edits - has:,} less than the server" if has < edits else "")))
    if not found:
        print("there is no replica: `vtmap replica add` makes one")
    return NoAnswer.status if None in found.values() else 0


def add(replicas: Replicas, words: argparse.Namespace, edits: int) -> None:
    """Makes a replica, and has readers ask it."""
    before = replicas.ports()
    port = replicas.free_port() if words.port is None else words.port
    if port in before:
        raise Refused(f"there is a replica on port {port} already")
    if edits_of(at(port)) is not None:
        raise Refused(f"another server answers on port {port}")
    replicas.machine.check_nginx()
    try:
        replicas.start(port, words.disk)
        wait_for(port, 0, "doesn't answer")
        replicas.follow([*before, port])
        wait_for(port, edits, "lacks edits")
    except BaseException:
        replicas.stop(port)
        replicas.follow(before)
        raise
    is_there = replicas.tell_nginx([*before, port])
    print(f"replica on port {port}: it has edit {edits:,}" + (", and makes tiles for readers" if is_there else "; readers ask it once nginx runs"))


def remove(replicas: Replicas, port: int) -> None:
    """Has readers ask it no more, and stops it."""
    left = [each for each in replicas.ports() if each != port]
    if len(left) == len(replicas.ports()):
        raise Refused(f"there is no replica on port {port}")
    replicas.tell_nginx(left)
    replicas.follow(left)
    replicas.stop(port)
    print(f"the replica on port {port} is removed")


def work(words: argparse.Namespace) -> int:
    """Lists, adds or removes."""
    server = Client(words.url)
    replicas = Replicas(Machine(words.root), server.url.port or 80)
    status = server.status()
    if status is None:
        raise Refused(f"{server.address} runs without --admin: nobody can follow its edits")
    try:
        if words.action is None:
            return show(replicas, status["edits"])
        if words.action == "add":
            add(replicas, words, status["edits"])
        else:
            remove(replicas, words.port)
    except PermissionError as fault:
        raise Refused(f"{fault.filename}: run it as root") from None
    return 0
