#!/usr/bin/env python3
"""How long others wait beside peers that are slow, busy or many: each row prints p50, p99 and the longest wait, in milliseconds.

    python3 bench/speed/waits.py [PROGRAM [SECONDS [ROW..]]]    PROGRAM is crates/vtserve/out/vtserve, which `rt run` leaves there

The others are a kept connection that asks for a tile of 1 KB, new connections that ask for it, and an editor, each with 5 ms between two
requests; which of them a row has is in ROWS. A row ends after SECONDS (60 if none are given), or when its peers are done; a request that has
no reply by then counts with what it has waited, and `>` says so. Needs nginx for the rows of its clients (Debian: nginx-light) and
prlimit for `descriptors` (util-linux).
"""
import asyncio
import http.client
import json
import os
import random
import resource
import shutil
import signal
import socket
import subprocess
import sys
import tempfile
import threading
import time

HERE = os.path.dirname(os.path.abspath(__file__))
PROGRAM = os.path.abspath(sys.argv[1] if len(sys.argv) > 1 else os.path.join(HERE, "..", "..", "crates", "vtserve", "out", "vtserve"))
SECONDS = float(sys.argv[2]) if len(sys.argv) > 2 else 60
PAUSE = 0.005
TILE = b"GET /map/0/0/0.mvt HTTP/1.1\r\nhost: x\r\n\r\n"
LAST = TILE.replace(b"host: x", b"host: x\r\nconnection: close")
BEGUN = b"GET /map/0/0/0.mvt HTTP/1.1\r\nho"
NGINX = """
worker_processes 2;
worker_rlimit_nofile 16384;
pid nginx.pid;
error_log error.log;
events { worker_connections 8192; }
http {
    access_log off;
    client_body_temp_path body;
    proxy_temp_path proxy;
    fastcgi_temp_path fastcgi;
    scgi_temp_path scgi;
    uwsgi_temp_path uwsgi;
    proxy_http_version 1.1;
    proxy_set_header Connection "";
    proxy_next_upstream off;
    upstream vtserve { server 127.0.0.1:%d; keepalive 64; keepalive_timeout 30s; }
    server { listen 127.0.0.1:%d backlog=4096; location / { proxy_pass http://vtserve; } }
}
"""


def free_port():
    """A port that nobody listens on."""
    with socket.socket() as probe:
        probe.bind(("127.0.0.1", 0))
        return probe.getsockname()[1]


def put_of(number, points, first=0, last=0, tags=None):
    """A request that puts a feature with these points."""
    feature = {"layer": "p", "minzoom": first, "maxzoom": last, "geometry": {"points": points}, "tags": tags or {}}
    body = json.dumps(feature, separators=(",", ":")).encode()
    return b"PUT /features/%d HTTP/1.1\r\nhost: x\r\ncontent-length: %d\r\n\r\n%s" % (number, len(body), body)


def post_of(path):
    """A request without a body that changes something."""
    return b"POST %s HTTP/1.1\r\nhost: x\r\ncontent-length: 0\r\n\r\n" % path.encode()


def read_reply(stream):
    """The status of the next reply, and its content."""
    read = b""
    while b"\r\n\r\n" not in read:
        some = stream.recv(65536)
        if not some:
            raise ConnectionError("no reply")
        read += some
    head, _, content = read.partition(b"\r\n\r\n")
    length = next((int(line.split(b":")[1]) for line in head.split(b"\r\n") if line.startswith(b"content-length:")), 0)
    while len(content) < length:
        some = stream.recv(65536)
        if not some:
            raise ConnectionError("half a reply")
        content += some
    return int(head.split()[1]), content


def asked(stream, request):
    """The status and the content of the reply to a request."""
    stream.sendall(request)
    return read_reply(stream)


def connected(port):
    """A connection to the server."""
    stream = socket.create_connection(("127.0.0.1", port))
    stream.setsockopt(socket.IPPROTO_TCP, socket.TCP_NODELAY, 1)
    return stream


class Server:
    """A process that serves a map, and which ends with the row."""

    def __init__(self, folder, name, source=None, under=(), more=()):
        self.disk = os.path.join(folder, name)
        if source:
            shutil.copyfile(source, self.disk)
        else:
            subprocess.run([PROGRAM, "format", self.disk, "--sectors", "200000"], check=True, stdout=subprocess.DEVNULL)
        self.port = free_port()
        self.log = open(self.disk + ".log", "w+b")
        words = [*under, PROGRAM, "serve", self.disk, "--port", str(self.port), "--connections", "4294967295", *more]
        self.child = subprocess.Popen(words, stdout=subprocess.PIPE, stderr=self.log)
        self.child.stdout.readline()

    def lines(self):
        """The lines of its log so far."""
        self.log.seek(0)
        return self.log.read().decode().splitlines()

    def __enter__(self):
        return self

    def __exit__(self, *fault):
        self.child.kill()
        self.child.wait(60)
        self.child.stdout.close()
        self.log.close()
        os.remove(self.disk)


def small_map(folder):
    """A disk whose tile 0/0/0 has about 1 KB."""
    with Server(folder, "making-small") as server:
        with connected(server.port) as stream:
            for number in range(1, 79):
                put = put_of(number, [[number << 25, number << 24]])
                assert asked(stream, put)[0] == 200
            size = len(asked(stream, TILE)[1])
        print(f"a tile of {size} bytes", flush=True)
        shutil.copyfile(server.disk, os.path.join(folder, "small"))
    return os.path.join(folder, "small")


def large_map(folder):
    """A disk with an archive of about 23 MB: 87 features with 30 texts of 1,000 characters each, in the tiles of 13 zooms."""
    with Server(folder, "making-large") as server:
        with connected(server.port) as stream:
            chance = random.Random(1)
            for number in range(1, 88):
                tags = {f"t{key}": "".join(chance.choices("abcdefghijklmnopqrstuvwxyz", k=1000)) for key in range(30)}
                assert asked(stream, put_of(number, [[number << 25, number << 24]], 4, 16, tags))[0] == 200
            for number in range(1001, 1079):
                assert asked(stream, put_of(number, [[number << 21, number << 20]]))[0] == 200
            status, told = asked(stream, post_of("/publish"))
        print("an archive:", status, told.decode(), flush=True)
        shutil.copyfile(server.disk, os.path.join(folder, "large"))
    return os.path.join(folder, "large")


class Waits:
    """The waits of one of the others, in seconds, and when its open request began."""

    def __init__(self, name):
        self.name, self.seconds, self.since, self.faults, self.over = name, [], None, 0, False

    def time(self, act):
        """Times a request."""
        self.since = time.monotonic()
        try:
            act()
            self.seconds.append(time.monotonic() - self.since)
        except OSError:
            self.faults += 1
        self.since = None

    def told(self):
        """p50, p99 and the longest, with the request that is open."""
        since = self.since
        open_for = time.monotonic() - since if since else 0
        waits = sorted([*self.seconds, open_for] if open_for else self.seconds) or [0]
        at = lambda share: waits[min(len(waits) - 1, int(share * len(waits)))] * 1000
        mark = ">" if open_for and open_for == waits[-1] else ""
        more = f", {self.faults} cut" if self.faults else ""
        return f"{self.name}: {len(waits)}, p50 {at(0.5):.2f}, p99 {at(0.99):.2f}, longest {mark}{waits[-1] * 1000:.1f}{more}"


def kept_asks(port, waits, request=lambda: TILE):
    """A kept connection asks for as long as the row lasts."""
    stream = None
    while not waits.over:
        before = waits.faults
        if stream is None:
            stream = connected(port)
        waits.time(lambda: asked(stream, request()))
        if waits.faults > before:
            stream.close()
            stream = None
        time.sleep(PAUSE)


def new_ask(port, waits):
    """New connections ask, one after the other."""
    def ask():
        with connected(port) as stream:
            asked(stream, LAST)

    while not waits.over:
        waits.time(ask)
        time.sleep(PAUSE)


def edits(port, waits):
    """An editor moves one point."""
    numbers = iter(range(1 << 30))
    kept_asks(port, waits, lambda: put_of(9, [[next(numbers) << 8, 5]]))


OTHERS = {"kept": kept_asks, "new": new_ask, "edit": edits}


def processor_seconds(server):
    """The processor time that the server has used."""
    with open(f"/proc/{server.child.pid}/stat", encoding="ascii") as stat:
        fields = stat.read().rsplit(")", 1)[1].split()
    return (int(fields[11]) + int(fields[12])) / os.sysconf("SC_CLK_TCK")


def memory_of(server):
    """The memory that the server takes, as /proc prints it."""
    with open(f"/proc/{server.child.pid}/status", encoding="ascii") as status:
        return next(line for line in status if line.startswith("VmRSS")).split(":")[1].strip()


def beside(server, others, act):
    """What these others wait while something is done."""
    all_waits = [Waits(name) for name in others]
    for waits in all_waits:
        threading.Thread(target=OTHERS[waits.name], args=(server.port, waits), daemon=True).start()
    time.sleep(0.3)
    more = act(server)
    told = [waits.told() for waits in all_waits]
    for waits in all_waits:
        waits.over = True
    time.sleep(0.1)
    return "; ".join([*told, *([more] if more else [])])


def nobody(server):
    """No peer."""
    time.sleep(min(SECONDS, 10))


def viewer(server, over):
    """Asks for a tile each 5 ms."""
    waits = Waits("viewer")
    threading.Thread(target=kept_asks, args=(server.port, waits), daemon=True).start()
    over.append(waits)


def beside_a_viewer(server):
    """A viewer that asks for a tile each 5 ms."""
    over = []
    viewer(server, over)
    nobody(server)
    over[0].over = True


def steps_of(server):
    """A publication by steps: how long it takes."""
    with connected(server.port) as stream:
        start = time.monotonic()
        assert asked(stream, post_of("/publish/begin"))[0] == 200
        begun = time.monotonic()
        for _ in range(100000):
            status, told = asked(stream, post_of("/publish/step"))
            assert status == 200, told
            if json.loads(told)["left"] == 0:
                break
        end = time.monotonic()
    return f"begin {(begun - start) * 1000:.0f}, steps {(end - begun) * 1000:.0f}"


def steps_beside_a_viewer(server):
    """The same beside a viewer."""
    over = []
    viewer(server, over)
    told = steps_of(server)
    over[0].over = True
    return told


def drips(server):
    """A head whose bytes come one by one, each half a second."""
    start = time.monotonic()
    with connected(server.port) as stream:
        stream.sendall(b"GET /")
        while time.monotonic() - start < SECONDS:
            try:
                stream.sendall(b"x")
            except OSError:
                break
            time.sleep(0.5)
    return f"cut after {time.monotonic() - start:.1f} s"


def begun(server):
    """Five peers that have begun a request."""
    streams = [connected(server.port) for _ in range(5)]
    for stream in streams:
        stream.sendall(BEGUN)
    time.sleep(SECONDS)


def next_begun(server):
    """A peer that sends a part of its next request with each one, and goes on ten seconds later."""
    start = time.monotonic()
    with connected(server.port) as stream:
        stream.sendall(TILE + BEGUN)
        while time.monotonic() - start < SECONDS:
            read_reply(stream)
            time.sleep(10)
            stream.sendall(TILE[len(BEGUN):] + BEGUN)


def slow_download(server):
    """A peer that reads an archive at 40 KiB/s."""
    start, count = time.monotonic(), 0
    with socket.socket() as stream:
        stream.setsockopt(socket.SOL_SOCKET, socket.SO_RCVBUF, 16384)
        stream.connect(("127.0.0.1", server.port))
        stream.sendall(b"GET /map.pmtiles HTTP/1.1\r\nhost: x\r\n\r\n")
        while time.monotonic() - start < SECONDS:
            some = len(stream.recv(4096))
            if not some:
                break
            count += some
            time.sleep(some / 40960)
    return f"{count} bytes read"


def half_requests(count):
    """So many peers that have half a request each."""
    def act(server):
        streams = [connected(server.port) for _ in range(count)]
        for stream in streams:
            stream.sendall(BEGUN)
        time.sleep(min(SECONDS, 20))
        with open(f"/proc/{server.child.pid}/status", encoding="ascii") as status:
            return next(line for line in status if line.startswith("VmHWM")).split(":")[1].strip()
    return act


def silent(count):
    """So many peers that have connected and send nothing. A kept connection asks 20,000 times beside them: its processor time."""
    def act(server):
        before = memory_of(server)
        streams = [connected(server.port) for _ in range(count)]
        with connected(server.port) as stream:
            asked(stream, TILE)
            used, start = processor_seconds(server), time.monotonic()
            for _ in range(20000):
                asked(stream, TILE)
            took, used = time.monotonic() - start, processor_seconds(server) - used
        closed = len(server.lines())
        return f"{len(streams)} silent, {closed} closed, memory {before} to {memory_of(server)}; a request: {took * 50:.1f} us, {used * 50:.1f} us of processor"
    return act


async def client(port, until, seen, waits):
    """A client of nginx, which asks again as soon as it has its reply."""
    while time.monotonic() < until:
        reader, writer = await asyncio.open_connection("127.0.0.1", port)
        try:
            while time.monotonic() < until:
                start = time.monotonic()
                writer.write(TILE)
                head = await reader.readuntil(b"\r\n\r\n")
                fields = dict(line.lower().split(b": ", 1) for line in head.split(b"\r\n")[1:] if line)
                await reader.readexactly(int(fields.get(b"content-length", 0)))
                waits.append(time.monotonic() - start)
                status = int(head.split()[1])
                seen[status] = seen.get(status, 0) + 1
                if fields.get(b"connection") == b"close":
                    break
        except (OSError, asyncio.IncompleteReadError):
            seen["cut"] = seen.get("cut", 0) + 1
        writer.close()


async def clients(port, count, seen, waits):
    """So many clients, for a while."""
    until = time.monotonic() + min(SECONDS, 20)
    await asyncio.gather(*(client(port, until, seen, waits) for _ in range(count)), return_exceptions=True)


def through_nginx(count):
    """So many clients of nginx in front of the server."""
    def act(server):
        folder, port = tempfile.mkdtemp(prefix="waits-nginx-"), free_port()
        file = os.path.join(folder, "used.conf")
        with open(file, "w", encoding="ascii") as made:
            made.write(NGINX % (server.port, port))
        child = subprocess.Popen(["nginx", "-p", folder, "-c", file, "-g", "daemon off;"], stderr=subprocess.DEVNULL)
        time.sleep(1)
        seen, waits = {}, []
        asyncio.run(clients(port, count, seen, waits))
        child.terminate()
        child.wait(60)
        shutil.rmtree(folder)
        waits = sorted(waits) or [0]
        at = lambda share: waits[min(len(waits) - 1, int(share * len(waits)))] * 1000
        statuses = ", ".join(f"{number} of {status}" for status, number in sorted(seen.items(), key=str))
        return f"{statuses}; p50 {at(0.5):.1f}, p99 {at(0.99):.1f}, longest {waits[-1] * 1000:.0f}; ended by the server: {len(server.lines())}"
    return act


def descriptors(server):
    """Twice as many clients as there are descriptors: each asks once, and is kept. How long one waits at most for its first reply."""
    streams, waits = [], []
    for _ in range(64):
        streams.append(connected(server.port))
        streams[-1].settimeout(5)
        start = time.monotonic()
        try:
            asked(streams[-1], TILE)
        except OSError:
            break
        waits.append(time.monotonic() - start)
    time.sleep(0.5)
    lines = [line for line in server.lines() if "closed" in line]
    alive = "alive" if server.child.poll() is None else f"ended with {server.child.returncode}"
    return f"{len(waits)} of {len(streams)} answered, longest {max(waits) * 1000:.0f}, {len(lines)} kept ones ended, the server is {alive}"


def stopped_and_continued(server):
    """Forty connections that have sent nothing for a while, as the server is stopped and continued: how many are cut."""
    cut = 0
    for _ in range(40):
        with connected(server.port) as stream:
            stream.sendall(BEGUN)
            time.sleep(0.05)
            server.child.send_signal(signal.SIGSTOP)
            time.sleep(0.02)
            server.child.send_signal(signal.SIGCONT)
            time.sleep(0.02)
            try:
                stream.sendall(TILE[len(BEGUN):])
                read_reply(stream)
            except OSError:
                cut += 1
    return f"{cut} of 40 cut"


# Who waits, what they wait beside, whether the map is the large one, and what limits the server.
ROWS = {
    "idle": (("kept",), nobody, False, ()),
    "idle-new": (("new",), nobody, False, ()),
    "idle-edit": (("edit",), nobody, False, ()),
    "viewer": (("edit",), beside_a_viewer, False, ()),
    "steps": ((), steps_of, True, ()),
    "viewer-steps": ((), steps_beside_a_viewer, True, ()),
    "edit-steps": (("edit",), steps_of, True, ()),
    "drips": (("kept", "new"), drips, False, ()),
    "begun": (("kept", "new"), begun, False, ()),
    "next-begun": (("kept", "new"), next_begun, False, ()),
    "download": (("kept", "new", "edit"), slow_download, True, ()),
    "half-200": (("kept",), half_requests(200), False, ()),
    "half-1000": (("kept", "new"), half_requests(1000), False, ()),
    "silent-0": ((), silent(0), False, ()),
    "silent-200": ((), silent(200), False, ()),
    "silent-10000": (("kept", "new"), silent(10000), False, ()),
    "nginx-50": ((), through_nginx(50), False, ()),
    "nginx-300": ((), through_nginx(300), False, ()),
    "nginx-700": ((), through_nginx(700), False, ()),
    "nginx-2000": ((), through_nginx(2000), False, ()),
    "descriptors": ((), descriptors, False, ("prlimit", "--nofile=32:32")),
    "signals": ((), stopped_and_continued, False, ()),
}


def main():
    resource.setrlimit(resource.RLIMIT_NOFILE, (resource.getrlimit(resource.RLIMIT_NOFILE)[1],) * 2)
    names = sys.argv[3:] or list(ROWS)
    with tempfile.TemporaryDirectory(prefix="waits-") as folder:
        small = small_map(folder)
        large = large_map(folder) if any(ROWS[name][2] for name in names) else None
        for name in names:
            others, act, is_large, under = ROWS[name]
            with Server(folder, name, large if is_large else small, under) as server:
                print(f"{name}: {beside(server, others, act)}", flush=True)


if __name__ == "__main__":
    main()
