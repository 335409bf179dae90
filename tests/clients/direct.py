"""The part `direct` of run.py: clients that keep several connections open, straight to the server's port."""
import http.client
import json
import os
import re
import shutil
import socket
import subprocess
import threading
import time

from .stand import Cases, Server, curl, feature, status_of

KEPT = 6
IDLE = 64
ASKED = 2000
DRAWING = 0.02
TILES = [f"/map/3/{column}/{row}.mvt" for row in range(5) for column in range(8)]
WORLD = 2**32 - 1


class Kept:
    """A connection that is kept open, and opened again where the server has closed it meanwhile, as browsers do."""

    def __init__(self, port):
        self.port, self.connection, self.opened, self.lost = port, None, 0, 0

    def get(self, path):
        """The content of a reply 200. A connection that was closed before a byte of the reply is opened again."""
        while True:
            if self.connection is None:
                self.connection = http.client.HTTPConnection("127.0.0.1", self.port, timeout=60)
                self.opened += 1
            try:
                self.connection.request("GET", path)
                reply = self.connection.getresponse()
                content = reply.read()
                return content if reply.status == 200 else reply.status
            except (http.client.RemoteDisconnected, ConnectionError):
                self.connection.close()
                self.connection = None
            except http.client.IncompleteRead:
                self.lost += 1
                raise


def fetched(port, paths):
    """The contents of paths that six kept connections fetch, each its share and 20 ms after one the next, as a
    browser that draws them; in how many seconds, how many connections were opened, and how many replies were cut."""
    found = {}
    kept = [Kept(port) for _ in range(KEPT)]

    def work(mine, share):
        for path in share:
            found[path] = mine.get(path)
            time.sleep(DRAWING)

    began = time.monotonic()
    threads = [threading.Thread(target=work, args=(mine, paths[first::KEPT])) for first, mine in enumerate(kept)]
    for thread in threads:
        thread.start()
    for thread in threads:
        thread.join()
    return found, time.monotonic() - began, sum(mine.opened for mine in kept), sum(mine.lost for mine in kept)


def direct(cases: Cases, folder: str) -> None:
    with Server(folder, "direct") as server:
        corners = [[0, 0], [WORLD, 0], [WORLD, WORLD], [0, WORLD]]
        text = feature(last=3, geometry={"polygons": [[corners]]})
        cases.show(
            "direct: a feature on every tile", status_of(curl(f"{server.url}/features/1", "-X", "PUT", body=text)), 200
        )
        alone = Kept(server.port)
        expected = {path: alone.get(path) for path in TILES}
        found, seconds, opened, cut = fetched(server.port, TILES)
        cases.show(
            "direct: six kept connections get the same tiles", found == expected and len(found) == len(TILES), True
        )
        cases.show("direct: no reply is cut, and none of the connections ends", (cut, opened), (0, KEPT))
        cases.show(
            "direct: 40 tiles in less than a second, beside a kept connection", seconds < 1 or f"{seconds:.2f} s", True
        )
        cases.say(f"direct: {seconds:.2f} s, of which each client drew for {DRAWING * -(-len(TILES) // KEPT):.2f} s")
        opened = []
        edits = [
            threading.Thread(target=put_all, args=(server.port, first, opened))
            for first in range(100, 100 + 10 * KEPT, 10)
        ]
        began = time.monotonic()
        for thread in edits:
            thread.start()
        for thread in edits:
            thread.join()
        seconds = time.monotonic() - began
        there = sum(status_of(curl(f"{server.url}/features/{number}")) == 200 for number in range(100, 100 + 10 * KEPT))
        cases.show(
            "direct: sixty edits by six kept connections", (there, seconds < 2 or f"{seconds:.2f} s"), (10 * KEPT, True)
        )
        cases.show("direct: no edit was sent twice", len(opened), KEPT)
        with socket.create_connection(("127.0.0.1", server.port)) as silent:
            time.sleep(0.2)
            began = time.monotonic()
            reply = curl(f"{server.url}/features/1")
            waited = time.monotonic() - began
            cases.show(
                "direct: a connection without a request delays no other",
                (status_of(reply), waited < 0.3 or f"{waited:.2f} s"),
                (200, True),
            )
            silent.close()
        with socket.create_connection(("127.0.0.1", server.port), timeout=10) as last:
            last.sendall(b"GET /map/metadata HTTP/1.1\r\nhost: a\r\nconnection: close\r\n\r\n")
            began = time.monotonic()
            content = alone.get(TILES[0])
            waited = time.monotonic() - began
            seen = content == expected[TILES[0]], waited < 0.3 or waited
            cases.show("direct: one that has asked for its end and stays open holds up no other", seen, (True, True))
            whole = b"".join(iter(lambda: last.recv(65536), b""))
            cases.show(
                "direct: and has its whole reply", whole.startswith(b"HTTP/1.1 200 ") and whole.endswith(b"]}"), True
            )
        idle_ones(cases, server, alone)
        too_many(cases, server, alone)
    broken_and_busy(cases, folder)


def broken_and_busy(cases: Cases, folder: str) -> None:
    """A disk whose syncs fail, by strace, while a kept connection asks without a pause: the process ends all the
    same."""
    if not shutil.which("strace"):
        cases.say("direct: no strace: no sync fails")
        return
    failing = [
        "strace",
        "-o",
        os.path.join(folder, "calls"),
        "-e",
        "trace=fdatasync",
        "-e",
        "inject=fdatasync:error=EIO:when=6+",
    ]
    with Server(folder, "busy", more=["--stop-when-broken"], under=failing) as server:
        busy = threading.Thread(target=ask_until_ended, args=(server.port,))
        busy.start()
        replies = [
            status_of(curl(f"{server.url}/features/{number}", "-X", "PUT", body=feature())) for number in range(1, 5)
        ]
        began = time.monotonic()
        status = server.child.wait(60)
        seconds = time.monotonic() - began
        busy.join(60)
        told = sum(line.startswith("vtserve: Device: sync: ") for line in server.lines())
        cases.show("direct: a sync that fails is told once", (replies, told), ([200, 200, 200, 500], 1))
        cases.show(
            "direct: and ends the process with 1, beside a busy connection",
            (status, seconds < 5 or seconds, busy.is_alive()),
            (1, True, False),
        )


def ask_until_ended(port):
    """Asks for one tile after the other over one connection, until it is ended."""
    connection = http.client.HTTPConnection("127.0.0.1", port, timeout=60)
    try:
        while True:
            connection.request("GET", TILES[0])
            connection.getresponse().read()
    except (http.client.HTTPException, ConnectionError):
        connection.close()


def requests_a_second(server):
    """How many requests of one tile wrk makes in a second over one connection, or a client in Python where there is
    no wrk."""
    if shutil.which("wrk"):
        words = ["wrk", "-t", "1", "-c", "1", "-d", "2s", server.url + TILES[0]]
        told = subprocess.run(words, capture_output=True, text=True).stdout
        return float(re.search(r"Requests/sec: +([0-9.]+)", told)[1])
    mine = Kept(server.port)
    began = time.monotonic()
    for _ in range(ASKED):
        mine.get(TILES[0])
    return ASKED / (time.monotonic() - began)


def idle_ones(cases, server, alone):
    """One connection that works, alone and beside 64 that are kept and send nothing: up to three times, since other
    work on the machine slows either."""
    found = set()
    for _ in range(3):
        before = requests_a_second(server)
        idle = [Kept(server.port) for _ in range(IDLE)]
        for one in idle:
            one.get(TILES[0])
        beside = requests_a_second(server)
        again = [one.get(TILES[0]) == alone.get(TILES[0]) for one in idle]
        found.add((all(again), sum(one.opened for one in idle) + alone.opened))
        for one in idle:
            one.connection.close()
        if beside > before * 0.75:
            break
    cases.show(f"direct: {IDLE} idle connections are answered again, and none ended", found, {(True, IDLE + 1)})
    cases.show(
        "direct: they don't hold up the one that works",
        beside > before * 0.75 or f"{beside:.0f} of {before:.0f} a second",
        True,
    )
    cases.say(f"direct: {before:.0f} requests a second alone, {beside:.0f} beside {IDLE} idle connections")


def too_many(cases, server, alone):
    """Three hundred silent connections are kept, and one that works is answered beside them."""
    silent = [socket.create_connection(("127.0.0.1", server.port), timeout=10) for _ in range(300)]
    opened = alone.opened
    content = alone.get(TILES[0])
    cases.show(
        "direct: one that works is answered beside 300 silent ones",
        (len(content) > 0, alone.opened - opened <= 1),
        (True, True),
    )
    for one in silent:
        one.settimeout(0.02)
    ended = [heard(one) for one in silent]
    cases.show("direct: none of the silent ones was ended", ended.count("waits"), len(silent))
    for one in silent:
        one.close()


def heard(peer):
    """Whether a silent connection was ended, or waits."""
    try:
        return "ended" if peer.recv(1) == b"" else "answered"
    except TimeoutError:
        return "waits"
    except ConnectionError:
        return "ended"


def put_all(port, first, opened):
    """Ten edits of a client that keeps its connection, and each connection that it opens."""
    connection = None
    for number in range(first, first + 10):
        while True:
            if connection is None:
                connection = http.client.HTTPConnection("127.0.0.1", port, timeout=60)
                opened.append(first)
            try:
                connection.request("PUT", f"/features/{number}", feature())
                reply = connection.getresponse()
                if reply.status == 200 and "edit" in json.loads(reply.read()):
                    break
            except (http.client.RemoteDisconnected, ConnectionError):
                connection.close()
                connection = None
