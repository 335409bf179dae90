#!/usr/bin/env python3
"""A server that needs a standby, on two machines: how fast edits are acknowledged, and whether one is lost with the
first machine.

    python3 tests/two_machines.py PROGRAM speed [--editors 1 30] [--seconds S]
    python3 tests/two_machines.py PROGRAM kills [--rounds N] [--minutes M]
    python3 tests/two_machines.py PROGRAM stopped [--rounds N]

The machines are two network namespaces with a link between them (tests/link.py), so it is for Linux, as root: `--delay`
is that of one way in milliseconds, `--loss` the percentage of packets that the link loses; several of each are tried
by turns. The standby, and the `vtmap follow` that serves it, are on the second machine, editors beside the first.

`kills`: in each round the first server is killed (`kill -9`) under the editors, as many seconds after the first edit as
`--after` says (from, to), and its disk is removed; each edit that was acknowledged has to be at the standby, under its
number and with its feature, and edits have to go on there. It ends with 1 if one is missing. `stopped`: the standby is stopped (SIGSTOP) for a while, and it is told when the first edit
is refused, and how soon after its end edits are acknowledged again.

`--folder` has the disks: a folder in memory (/dev/shm) shows what the network costs, where a sync takes no time.
`--without` takes away the option --standby-needed. `--first` has all these processes run before all others.
"""
from __future__ import annotations

import argparse
import contextlib
import json
import os
import random
import shutil
import signal
import socket
import subprocess
import sys
import tempfile
import threading
import time
from collections.abc import Iterator
from typing import Any, NamedTuple

from link import FIRST, SECOND, Link, is_possible

TOP = os.path.join(os.path.dirname(os.path.abspath(__file__)), "..")
VTMAP = [sys.executable, os.path.join(TOP, "bin", "vtmap")]
PORT, FRONT = 8080, 8000
# The seconds that anything may take to come up, and an editor waits after a refusal.
LONGEST, PAUSE = 30, 0.02
# The seconds that a process may take to end.
GRACE = 5
# After how many kills it is told how many there were.
SO_FAR = 20
LIMIT = 4294967295
# A journal that some ten thousand edits a second don't fill.
SECTORS = {"speed": 2000000, "kills": 200000, "stopped": 400000}
NGINX = shutil.which("nginx") or shutil.which("nginx", path="/usr/sbin")


class Made(NamedTuple):
    """An edit that was acknowledged: its number, its feature, the count that this has as a tag, and how long it took."""

    edit: int
    feature: int
    count: int
    seconds: float


class Editor(threading.Thread):
    """Somebody who puts a feature of their own again and again, on one connection, until the server is gone."""

    def __init__(self, host: str, number: int, end: float) -> None:
        super().__init__(daemon=True)
        self.host, self.number, self.end = host, number, end
        self.made: list[Made] = []
        # How often an edit was refused, or got no reply, and when, in seconds of the clock.
        self.refused, self.unanswered = 0, 0
        self.first_refusal, self.last_refusal = 0.0, 0.0

    def run(self) -> None:
        count = 0
        while time.monotonic() < self.end:
            try:
                with socket.create_connection((self.host, PORT), timeout=LONGEST) as stream:
                    stream.setsockopt(socket.IPPROTO_TCP, socket.TCP_NODELAY, 1)
                    while time.monotonic() < self.end:
                        began = time.monotonic()
                        status, content = asked(stream, self.put(count))
                        if status == 200:
                            number = json.loads(content)["edit"]
                            self.made.append(Made(number, self.number, count, time.monotonic() - began))
                            count += 1
                        else:
                            self.refused += 1
                            self.last_refusal = time.monotonic()
                            self.first_refusal = self.first_refusal or self.last_refusal
                            time.sleep(PAUSE)
            except ConnectionRefusedError:
                return
            except (OSError, EOFError):
                self.unanswered += 1
                self.last_refusal = time.monotonic()
                self.first_refusal = self.first_refusal or self.last_refusal
                count += 1

    def put(self, count: int) -> bytes:
        """The request for an edit."""
        point = [2307085873 + 1024 * self.number, (1408629722 + 16 * count) % 2**32]
        tags = {"name": f"Editor {self.number}", "n": count}
        feature = {"layer": "poi", "minzoom": 0, "maxzoom": 16, "geometry": {"points": [point]}, "tags": tags}
        body = json.dumps(feature).encode()
        return b"PUT /features/%d HTTP/1.1\r\nhost: a\r\ncontent-length: %d\r\n\r\n" % (self.number, len(body)) + body


def asked(stream: socket.socket, request: bytes) -> tuple[int, bytes]:
    """The status and the content of the reply to a request."""
    stream.sendall(request)
    read = b""
    while b"\r\n\r\n" not in read:
        part = stream.recv(65536)
        if not part:
            raise EOFError
        read += part
    head, _, content = read.partition(b"\r\n\r\n")
    length = int(head.lower().partition(b"content-length: ")[2].split(b"\r\n")[0])
    while len(content) < length:
        content += stream.recv(65536)
    return int(head[9:12]), content


def edit(words: list[str]) -> None:
    """Some editors, as a process of a machine: it prints what became of their edits."""
    host, count, seconds = words[0], int(words[1]), float(words[2])
    editors = [Editor(host, number, time.monotonic() + seconds) for number in range(1, count + 1)]
    for editor in editors:
        editor.start()
    while not any(editor.made for editor in editors) and any(editor.is_alive() for editor in editors):
        time.sleep(PAUSE)
    # Who waits for the first edit reads this line.
    print(flush=True)
    for editor in editors:
        editor.join()
    json.dump({
        "made": [made for editor in editors for made in editor.made],
        "refused": sum(editor.refused for editor in editors),
        "unanswered": sum(editor.unanswered for editor in editors),
        "first_refusal": min((editor.first_refusal for editor in editors if editor.first_refusal), default=0),
        "last_refusal": max(editor.last_refusal for editor in editors),
    }, sys.stdout)


class Machines:
    """A server and its standby on two machines."""

    def __init__(self, words: argparse.Namespace, link: Link, folder: str) -> None:
        self.words, self.link, self.folder = words, link, folder
        self.before = ["chrt", "-r", "1"] if words.first else []
        self.disk, self.copy = (os.path.join(folder, name) for name in ("first.disk", "second.disk"))
        more = [] if words.without else ["--standby-needed"]
        with contextlib.ExitStack() as ends:
            self.run(words.program, "format", self.disk, "--sectors", str(SECTORS[words.what]))
            self.run(words.program, "copy", self.disk, self.copy)
            self.leader = self.serve(ends, link.here, self.disk, more)
            self.started(ends, link.here, self.front())
            self.standby = self.serve(ends, link.there, self.copy, [])
            self.follower = self.started(ends, link.there, [
                *VTMAP, "follow", "--url", f"http://{FIRST}:{FRONT}", "--to", f"http://127.0.0.1:{PORT}"
            ])
            self.wait()
            self.ends = ends.pop_all()

    def __enter__(self) -> "Machines":
        return self

    def __exit__(self, *fault: object) -> None:
        self.ends.close()

    def run(self, *line: str) -> None:
        """Runs a command that says nothing of interest."""
        subprocess.run(line, check=True, stdout=subprocess.DEVNULL)

    def started(self, ends: contextlib.ExitStack, side: list[str], line: list[str]) -> subprocess.Popen:
        """A process on a machine."""
        log = ends.enter_context(open(os.path.join(self.folder, "log"), "ab"))
        child = subprocess.Popen([*side, *self.before, *line], stdout=log, stderr=log)
        ends.callback(ended, child)
        return child

    def serve(self, ends: contextlib.ExitStack, side: list[str], disk: str, more: list[str]) -> subprocess.Popen:
        """A server on a machine."""
        program = [self.words.program, "serve", disk, "--port", str(PORT), "--connections", str(LIMIT), "--admin"]
        return self.started(ends, side, [*program, *more])

    def front(self) -> list[str]:
        """The command of nginx with the kept configuration, which lets the second machine in."""
        with open(os.path.join(TOP, "docs", "nginx.conf"), encoding="utf-8") as file:
            text = file.read().replace("server_name localhost", f"server_name {FIRST} localhost")
        text = text.replace("        allow ::1;\n", f"        allow ::1;\n        allow {SECOND};\n", 1)
        folder = os.path.join(self.folder, "nginx")
        os.mkdir(folder)
        path = os.path.join(folder, "nginx.conf")
        with open(path, "w", encoding="utf-8") as file:
            file.write(text)
        return [NGINX or "nginx", "-p", folder, "-c", path, "-g", "daemon off; user root;"]

    def wait(self) -> None:
        """Waits until an edit is acknowledged, and the standby has it."""
        end = time.monotonic() + LONGEST
        while time.monotonic() < end:
            made = self.edits(1, 0.3)["made"]
            if made:
                return
        raise SystemExit("no edit is acknowledged")

    def editing(self, count: int, seconds: float) -> subprocess.Popen:
        """Editors beside the first server."""
        line = [sys.executable, os.path.abspath(__file__), "editors", "127.0.0.1", str(count), str(seconds)]
        return subprocess.Popen([*self.link.here, *self.before, *line], stdout=subprocess.PIPE)

    def edits(self, count: int, seconds: float) -> dict[str, Any]:
        """What became of the edits of such editors."""
        return told(self.editing(count, seconds))

    def taken_over(self) -> tuple[dict[int, tuple[int, int]], int]:
        """Each edit that the standby has, by its number: a feature, and the count that it has as a tag; and the number of the edit that it makes next."""
        line = [*self.link.there, *self.before, sys.executable, os.path.abspath(__file__), "take"]
        found, number = json.loads(subprocess.run(line, stdout=subprocess.PIPE, check=True).stdout)
        return {edit: (feature, count) for edit, feature, count in found}, number


def take() -> None:
    """A process of the second machine: it prints the edits that the standby has, and the number of one that it makes."""
    with socket.create_connection(("127.0.0.1", PORT), timeout=LONGEST) as stream:
        found: list[tuple[int, int, int]] = []
        last = 1
        while len(found) < last:
            _, content = asked(stream, b"GET /admin/edits/from/%d HTTP/1.1\r\nhost: a\r\n\r\n" % (len(found) + 1))
            reply = json.loads(content)
            last = reply["last"]
            found += [(each["edit"], each["changes"][0]["put"], each["changes"][0]["feature"]["tags"]["n"]) for each in reply["edits"]]
        _, content = asked(stream, Editor("", 1, 0).put(0))
    json.dump([found, json.loads(content).get("edit")], sys.stdout)


def begun(child: subprocess.Popen) -> None:
    """Waits until an edit of editors is acknowledged, or none will be."""
    if child.stdout:
        child.stdout.readline()


def told(child: subprocess.Popen) -> dict[str, Any]:
    """What editors say once they are done."""
    found = json.loads(child.communicate()[0])
    found["made"] = [Made(*made) for made in found["made"]]
    return found


def ended(child: subprocess.Popen) -> None:
    """Ends a process, if it hasn't. One that is killed at once leaves its children, as nginx does its workers."""
    child.terminate()
    try:
        child.wait(GRACE)
    except subprocess.TimeoutExpired:
        child.kill()
        child.wait()


@contextlib.contextmanager
def machines(words: argparse.Namespace, delay: float, loss: float) -> Iterator[Machines]:
    """Two machines with new disks."""
    folder = tempfile.mkdtemp(dir=words.folder)
    try:
        with Link(delay / 1000, loss / 100) as link, Machines(words, link, folder) as found:
            yield found
    finally:
        shutil.rmtree(folder)


def speed(words: argparse.Namespace, delay: float, loss: float) -> int:
    """How fast edits are acknowledged."""
    for count in words.editors:
        with machines(words, delay, loss) as pair:
            found = pair.edits(count, words.seconds)
        times = sorted(made.seconds * 1000 for made in found["made"])
        at = [times[min(len(times) - 1, int(part * len(times)))] for part in (0.5, 0.99)]
        print(
            f"{delay:g} ms one way, {loss:g} % lost, {count} editors: {len(times) / words.seconds:.0f} edits/s, p50 {at[0]:.2f},"
            f" p99 {at[1]:.1f}, longest {times[-1]:.0f} ms; {found['refused']} refused, {found['unanswered']} without a reply",
            flush=True,
        )
    return 0


def kills(words: argparse.Namespace, delay: float, loss: float) -> int:
    """Kills of the first server. Returns how many acknowledged edits are missing."""
    rounds = acknowledged = lost = 0
    end = time.monotonic() + 60 * words.minutes
    while rounds < words.rounds and time.monotonic() < end:
        with machines(words, delay, loss) as pair:
            editors = pair.editing(max(words.editors), LONGEST)
            begun(editors)
            time.sleep(random.uniform(*words.after))
            pair.leader.kill()
            os.remove(pair.disk)
            made = told(editors)["made"]
            pair.follower.kill()
            there, following = pair.taken_over()
            missing = [each for each in made if there.get(each.edit) != (each.feature, each.count)]
        if not made:
            raise SystemExit("no edit was acknowledged before the kill")
        if following != len(there) + 1:
            raise SystemExit(f"edits don't go on at the standby: {following} after {len(there)}")
        rounds, acknowledged, lost = rounds + 1, acknowledged + len(made), lost + len(missing)
        if missing:
            print(f"round {rounds}: {len(missing)} of {len(made)} missing, {len(there)} there: {missing[:3]}", flush=True)
        if rounds % SO_FAR == 0:
            print(f"        so far {rounds} kills, {acknowledged} acknowledged edits, {lost} lost", flush=True)
    print(
        f"{delay:g} ms one way, {loss:g} % lost, {max(words.editors)} editors: {rounds} kills, {acknowledged} acknowledged edits, {lost} lost",
        flush=True,
    )
    return lost


def stopped(words: argparse.Namespace, delay: float, loss: float) -> int:
    """A standby that is stopped and goes on."""
    for _ in range(words.rounds):
        with machines(words, delay, loss) as pair:
            editors = pair.editing(max(words.editors), 16)
            time.sleep(2)
            began = time.monotonic()
            pair.standby.send_signal(signal.SIGSTOP)
            time.sleep(9)
            over = time.monotonic()
            pair.standby.send_signal(signal.SIGCONT)
            found = told(editors)
        print(
            f"{delay:g} ms one way, {loss:g} % lost, {max(words.editors)} editors: the first refusal {found['first_refusal'] - began:.2f} s"
            f" after the stop, the last one {(found['last_refusal'] - over) * 1000:.0f} ms after its end;"
            f" {found['unanswered']} edits without a reply, longest wait {max(made.seconds for made in found['made']):.2f} s",
            flush=True,
        )
    return 0


def main() -> int:
    if sys.argv[1:2] == ["editors"]:
        edit(sys.argv[2:])
        return 0
    if sys.argv[1:2] == ["take"]:
        take()
        return 0
    parser = argparse.ArgumentParser(description=__doc__, formatter_class=argparse.RawDescriptionHelpFormatter)
    parser.add_argument("program")
    parser.add_argument("what", choices=["speed", "kills", "stopped"])
    parser.add_argument("--delay", type=float, nargs="+", default=[0, 1, 20])
    parser.add_argument("--loss", type=float, nargs="+", default=[0])
    parser.add_argument("--editors", type=int, nargs="+", default=[1, 30])
    parser.add_argument("--seconds", type=float, default=10)
    parser.add_argument("--rounds", type=int, default=1)
    parser.add_argument("--after", type=float, nargs=2, default=[0.2, 1.5])
    parser.add_argument("--minutes", type=float, default=15)
    parser.add_argument("--folder")
    parser.add_argument("--without", action="store_true")
    parser.add_argument("--first", action="store_true")
    words = parser.parse_args()
    words.program = os.path.abspath(words.program)
    if not is_possible() or not NGINX:
        print("no root, no `ip`, no /dev/net/tun or no nginx: nothing is tried")
        return 0
    act = {"speed": speed, "kills": kills, "stopped": stopped}[words.what]
    return 1 if sum(act(words, delay, loss) for loss in words.loss for delay in words.delay) else 0


if __name__ == "__main__":
    sys.exit(main())
