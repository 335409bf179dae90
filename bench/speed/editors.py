#!/usr/bin/env python3
"""How long tiles and edits wait while a large map is published beside editors who edit without a pause, and how long the publication takes.

    python3 bench/speed/editors.py PROGRAM [--points N] [--editors N] [--rounds N] [--limit SECONDS] [--disk DISK] [--earlier PROGRAM]

The map is that of beginnings.py with N points (1,000,000 if none are given), put by batches, and one tile of 16 points far from them. DISK has
the map of an earlier run, or gets it. PROGRAM publishes it by POST `/publish/begin` and its steps, and by POST `/publish`: beside nobody,
and beside the editors (20) with a reader of the small tile and a reader of the tiles of zoom 14 in turn, each with 2 ms between two requests.
Each editor PUTs a point of the map, and the next one once it has its reply. Before, they do so without a publication: what an edit waits then is its
own sync and those of the other editors. A publication beside editors that isn't over after SECONDS (600) is given up, and how far it was is
printed. Beside the waits are the processor times of the server between two waits for its connections, and how long its syncs take (turns.c, by
`gcc`): what clients wait on a busy machine is longer by what others take of it. With --earlier both programs publish beside nobody by turns, each
a copy of the same disk. The machine's load is beside each figure.
"""
import argparse
import http.client
import json
import multiprocessing
import os
import random
import selectors
import shutil
import socket
import struct
import subprocess
import sys
import tempfile
import time

from beginnings import ended, in_ms, memory_of, point_feature, posted

HERE = os.path.dirname(os.path.abspath(__file__))
BATCH, SMALL, PAUSE = 64, "/map/14/100/100.mvt", 0.002
# How many turns and syncs turns.c keeps.
PLACES = 256
LARGE = [f"/map/14/{x}/{y}.mvt" for x in range(8000, 8020) for y in range(5200, 5216)]


def parsed():
    """The words of the command line."""
    words = argparse.ArgumentParser(description=__doc__.split("\n")[0])
    words.add_argument("program")
    for name, default in (("points", 1_000_000), ("editors", 20), ("rounds", 3), ("limit", 600)):
        words.add_argument(f"--{name}", type=int, default=default)
    words.add_argument("--disk")
    words.add_argument("--earlier")
    return words.parse_args()


def loads():
    """The load of the last minute, and of the last five."""
    return "load {:.1f}, {:.1f}".format(*os.getloadavg())


class Turns:
    """The longest turns of a server, in processor time, and its longest syncs."""

    def __init__(self, folder):
        self.library, self.file = os.path.join(folder, "turns.so"), os.path.join(folder, "turns")
        subprocess.run(["gcc", "-O2", "-shared", "-fPIC", "-o", self.library, os.path.join(HERE, "turns.c"), "-ldl"], check=True)
        self.forget()

    def forget(self):
        with open(self.file, "r+b" if os.path.exists(self.file) else "w+b") as file:
            file.write(bytes(16 * PLACES))

    def told(self):
        with open(self.file, "rb") as file:
            found = struct.unpack(f"{2 * PLACES}Q", file.read())
        lists = [sorted(found[:PLACES], reverse=True), sorted(found[PLACES:], reverse=True)]
        turns, syncs = (", ".join(f"{times[place - 1] / 1e6:.1f}" for place in (1, 2, 10, 100)) for times in lists)
        return f"the server's longest turns, the first, second, tenth and hundredth: {turns} ms of a processor; its longest syncs: {syncs} ms"


def started(program, disk, turns=None):
    """A server of the disk, and its port."""
    with socket.socket() as probe:
        probe.bind(("127.0.0.1", 0))
        port = probe.getsockname()[1]
    words = [program, "serve", disk, "--port", str(port), "--connections", "4294967295", "--admin"]
    noted = {"LD_PRELOAD": turns.library, "TURNS": turns.file} if turns else {}
    server = subprocess.Popen(words, stdout=subprocess.PIPE, stderr=subprocess.DEVNULL, env={**os.environ, **noted})
    server.stdout.readline()
    return server, port


def connected(port):
    return http.client.HTTPConnection("127.0.0.1", port)


def small_feature(number):
    """One of 16 points in a tile of zoom 14 that has no others."""
    place = [100 * 2**18 + number * 1000, 100 * 2**18 + number * 1000]
    return {"layer": "far", "minzoom": 14, "maxzoom": 14, "geometry": {"points": [place]}, "tags": {"name": f"far {number}"}}


def made(program, disk, points):
    """Puts the map by batches, each as one edit."""
    # (a quarter is the journal: 800,000 edits and more, between two publications)
    sectors = 3_000_000 + 5 * points
    subprocess.run([program, "format", disk, "--sectors", str(sectors)], check=True, stdout=subprocess.DEVNULL)
    server, port = started(program, disk)
    connection, since = connected(port), time.monotonic()
    far = [{"put": points + number, "feature": small_feature(number)} for number in range(16)]
    posted(connection, "/edits", json.dumps({"changes": far}))
    for first in range(0, points, BATCH):
        changes = [{"put": number, "feature": point_feature(number)} for number in range(first, min(first + BATCH, points))]
        posted(connection, "/edits", json.dumps({"changes": changes}, separators=(",", ":")))
    ended(server)
    print(f"{points:,} points, put in {time.monotonic() - since:.0f} s ({loads()})", flush=True)


def processor_seconds(server):
    """The processor time that the server has used."""
    with open(f"/proc/{server.pid}/stat", encoding="ascii") as stat:
        fields = stat.read().rsplit(")", 1)[1].split()
    return (int(fields[11]) + int(fields[12])) / os.sysconf("SC_CLK_TCK")


def edit_requests(points):
    """Requests of which each moves a point of the map."""
    chance = random.Random(points)
    for _ in range(2000):
        number = chance.randrange(points)
        body = json.dumps({**point_feature(number), "geometry": point_feature(chance.randrange(points))["geometry"]}, separators=(",", ":"))
        yield f"PUT /features/{number} HTTP/1.1\r\nhost: x\r\ncontent-length: {len(body)}\r\n\r\n{body}".encode()


class Load:
    """Editors and readers, each kind in a process of its own, and what they wait while something is done."""

    def __init__(self, port, editors, points, turns):
        self.turns, self.port, self.round, self.results, self.kinds = turns, port, multiprocessing.Value("i", 0), multiprocessing.Queue(), {}
        clients = {"edit": (self.edit, editors, list(edit_requests(points))), "small tile": (self.read, [SMALL]), "tile of zoom 14": (self.read, LARGE)}
        self.clients = [multiprocessing.Process(target=self.run, args=(name, *client), daemon=True) for name, client in clients.items()]
        for client in self.clients:
            client.start()
        time.sleep(1)

    def run(self, name, act, *more):
        """Notes the waits of each round, until the rounds are over: it is below 0 then."""
        waits = {}
        try:
            act(lambda since: waits.setdefault(self.round.value, []).append(time.monotonic() - since), *more)
        finally:
            self.results.put((name, waits))

    def edit(self, note, count, requests):
        chance, ready, since = random.Random(count), selectors.DefaultSelector(), {}

        def send(stream):
            since[stream] = time.monotonic()
            stream.sendall(chance.choice(requests))

        for _ in range(count):
            stream = socket.create_connection(("127.0.0.1", self.port))
            stream.setsockopt(socket.IPPROTO_TCP, socket.TCP_NODELAY, 1)
            ready.register(stream, selectors.EVENT_READ)
            send(stream)
        while self.round.value >= 0:
            for key, _ in ready.select(1):
                reply = key.fileobj.recv(65536)
                note(since[key.fileobj])
                if not reply.startswith(b"HTTP/1.1 200"):
                    print("no editor goes on after this reply:", reply, flush=True)
                    return
                send(key.fileobj)

    def read(self, note, paths):
        connection, place = connected(self.port), 0
        while self.round.value >= 0:
            since = time.monotonic()
            connection.request("GET", paths[place % len(paths)])
            reply = connection.getresponse()
            reply.read()
            note(since)
            assert reply.status == 200, reply.status
            place += 1
            time.sleep(PAUSE)

    def measured(self, name, act):
        """What is done in a round, how long it takes, and the number of the round."""
        self.turns.forget()
        self.round.value = number = max(self.kinds, default=0) + 1
        since = time.monotonic()
        outcome = act()
        self.kinds[number] = (f"{name}: {outcome} ({loads()})", self.turns.told(), time.monotonic() - since)
        self.round.value = 0

    def told(self):
        """Ends the clients, and prints the rounds."""
        self.round.value = -1
        found = dict(self.results.get() for _ in self.clients)
        for number, (outcome, turns, took) in self.kinds.items():
            print(f"{outcome}\n    {turns}")
            for kind, rounds in found.items():
                waits = sorted(rounds.get(number, [0]))
                at = [waits[min(len(waits) - 1, int(share * len(waits)))] for share in (0.5, 0.99)]
                print(f"    {kind}: {len(waits) / took:.0f} a second, p50 {at[0] * 1000:.1f}, p99 {at[1] * 1000:.1f}, longest {waits[-1] * 1000:.1f} ms")
        sys.stdout.flush()


def by_steps(connection, limit):
    """A publication by steps. What is left if it isn't over by then."""
    since = time.monotonic()
    told, begin = posted(connection, "/publish/begin")
    sectors = left = told["left"]
    while left and time.monotonic() - since < limit:
        left = posted(connection, "/publish/step")[0]["left"]
    took = time.monotonic() - since
    return f"begins in {begin:.2f} s, all in {took:.2f} s" + (f", given up with {left} of {sectors} sectors left" if left else "")


def at_once(connection, _):
    """A whole publication by one request."""
    told, took = posted(connection, "/publish")
    return f"all in {took:.2f} s, an archive of {told['archive']} bytes"


def within(limit, port, act):
    """What a publication comes to, or how far it is if there is no reply to one of its requests by then."""
    connection = connected(port)
    connection.connect()
    connection.sock.settimeout(limit)
    try:
        return act(connection, limit)
    except TimeoutError:
        connection = connected(port)
        connection.request("GET", "/admin/status")
        status = json.loads(connection.getresponse().read())
        return f"not over after {limit} s: " + json.dumps({key: status[key] for key in ("drafting", "left")})


def forget_peak(server):
    """Has the peak of the process's memory begin anew."""
    with open(f"/proc/{server.pid}/clear_refs", "w", encoding="ascii") as file:
        file.write("5")


def alone(program, disk, rounds):
    """What a program's publications take beside nobody: beginnings, and whole ones by POST `/publish`, in seconds; and their processor times."""
    server, port = started(program, disk)
    connection, rest = connected(port), memory_of(server, "VmRSS")
    times, used = {"begin": [], "whole": []}, {"begin": [], "whole": []}
    for _ in range(rounds):
        for name, path in (("begin", "/publish/begin"), ("whole", "/publish")):
            before = processor_seconds(server)
            told, took = posted(connection, path)
            times[name].append(took)
            used[name].append(processor_seconds(server) - before)
            if name == "begin":
                connection.request("POST", "/publish/cancel")
                connection.getresponse().read()
    peak = memory_of(server, "VmHWM")
    ended(server)
    return times, used, told["archive"], rest, peak


def above(rest, peak, archive):
    ratio = (peak - rest) * 1024 / archive
    return f"at rest {rest} KB, at the peak {peak} KB: above rest {ratio:.2f} times the archive of {archive} bytes"


def beside_nobody(program, disk, rounds):
    times, used, archive, rest, peak = alone(program, disk, rounds)
    for name, seconds in times.items():
        print(f"beside nobody, {name}: {in_ms(seconds)} ms; of a processor {in_ms(used[name])} ms ({loads()})")
    print(f"beside nobody, memory: {above(rest, peak, archive)}", flush=True)


def median(values):
    return sorted(values)[len(values) // 2]


def by_turns(program, earlier, disk, rounds, folder):
    """Both programs publish copies of the disk, one after the other."""
    found, memory = {"this": ({}, {}), "earlier": ({}, {})}, {}
    for name in ("this", "earlier"):
        shutil.copyfile(disk, os.path.join(folder, name))
    for _ in range(rounds):
        for name, which in (("this", program), ("earlier", earlier)):
            times, used, archive, rest, peak = alone(which, os.path.join(folder, name), 1)
            memory.setdefault(name, above(rest, peak, archive))
            for key in times:
                found[name][0].setdefault(key, []).extend(times[key])
                found[name][1].setdefault(key, []).extend(used[key])
    for name, (times, used) in found.items():
        for key in times:
            print(f"by turns, {name} program, {key}: {in_ms(times[key])} ms; of a processor {in_ms(used[key])} ms ({loads()})")
        print(f"by turns, {name} program, memory at first: {memory[name]}")
    for place, what in enumerate(("time", "processor time")):
        ratios = {key: median(found["earlier"][place][key]) / median(found["this"][place][key]) for key in ("begin", "whole")}
        print(f"by turns, {what} of the earlier program divided by that of this one: begin {ratios['begin']:.2f}, whole {ratios['whole']:.2f}", flush=True)
    for name in found:
        os.remove(os.path.join(folder, name))


def beside_editors(words, disk, name, act, turns):
    """One publication beside editors and readers, by a server that has just been started, and its peak of memory."""
    server, port = started(words.program, disk, turns)
    load = Load(port, words.editors, words.points, turns)
    load.measured(f"{words.editors} editors, no publication", lambda: time.sleep(20) or "20 s")
    rest = memory_of(server, "VmRSS")
    forget_peak(server)
    load.measured(f"{words.editors} editors, {name}", lambda: within(words.limit, port, act))
    peak = memory_of(server, "VmHWM")
    load.told()
    ended(server)
    print(f"{words.editors} editors, {name}, memory: before {rest} KB, at the peak {peak} KB", flush=True)


def main():
    words = parsed()
    folder = tempfile.mkdtemp(dir=os.path.dirname(os.path.abspath(words.disk)) if words.disk else None)
    disk, used = words.disk or os.path.join(folder, "points"), os.path.join(folder, "used")
    try:
        if not os.path.exists(disk):
            made(words.program, disk, words.points)
        if words.earlier:
            by_turns(words.program, words.earlier, disk, words.rounds, folder)
            return
        shutil.copyfile(disk, used)
        if words.rounds:
            beside_nobody(words.program, used, words.rounds)
        turns = Turns(folder)
        beside_editors(words, used, "begin and steps", by_steps, turns)
        beside_editors(words, used, "POST /publish", at_once, turns)
    finally:
        shutil.rmtree(folder)


if __name__ == "__main__":
    main()
