#!/usr/bin/env python3
"""How long others wait beside peers that ask for a tile of 8 MB and read nothing of it.

    python3 bench/speed/deaf_peers.py PROGRAM FOLDER [PEERS..]

PROGRAM is crates/vtserve/out/vtserve. For 0, 8, 100 and 1,000 such peers, or those that are named, it measures a tile of 1 KB over a kept
connection, an edit, and a tile over a new connection, one after the other: the medians and the 99th of a hundred, in milliseconds. It runs
itself in a network of its own whose packets have 1,500 bytes, as those of an Ethernet (`unshare`, so it needs root): the system's loopback
takes megabytes for a peer that reads nothing.
"""
import json
import os
import random
import resource
import socket
import subprocess
import sys
import time

PORT = 18_700
# Features of which each takes some 21,000 bytes of the tile of zoom 0.
FEATURES, POINTS = 780, 2_700
SMALL, LARGE = "/map/14/2/3.mvt", "/map/0/0/0.mvt"


def point(place):
    return json.dumps({"layer": "poi", "minzoom": 14, "maxzoom": 14, "geometry": {"points": [place]}, "tags": {"name": "a" * 900}})


def put(number, body):
    return b"PUT /features/%d HTTP/1.1\r\nhost: x\r\ncontent-length: %d\r\n\r\n%s" % (number, len(body), body.encode())


def made_disk(program, folder):
    """A disk whose tile of zoom 0 has some 8 MB, and a tile of zoom 14 some 1 KB."""
    disk = os.path.join(folder, "disk")
    if os.path.exists(disk):
        os.remove(disk)
    subprocess.run([program, "format", disk, "--sectors", "1048576"], check=True)
    chance = random.Random(1)
    requests = [put(1, point([2 * 2**18 + 2**17, 3 * 2**18 + 2**17]))]
    for number in range(2, FEATURES + 2):
        points = [[chance.randrange(2**32), chance.randrange(2**32)] for _ in range(POINTS)]
        feature = {"layer": "p", "minzoom": 0, "maxzoom": 0, "geometry": {"points": points}, "tags": {}}
        requests.append(put(number, json.dumps(feature, separators=(",", ":"))))
    subprocess.run([program, "pipe", disk], input=b"".join(requests), stdout=subprocess.DEVNULL, check=True)
    return disk


def get(path):
    return f"GET {path} HTTP/1.1\r\nhost: x\r\n\r\n".encode()


def reply(peer):
    """Reads one reply, and returns its status."""
    held = b""
    while b"\r\n\r\n" not in held:
        held += peer.recv(65_536) or b"HTTP/1.1 000 gone\r\n\r\n"
    head, _, body = held.partition(b"\r\n\r\n")
    size = next((int(line.split(b":")[1]) for line in head.split(b"\r\n") if line.lower().startswith(b"content-length")), 0)
    while len(body) < size:
        body += peer.recv(65_536)
    return int(head.split()[1])


def deaf(count):
    """Peers that ask for the large tile and read nothing."""
    peers = []
    for _ in range(count):
        peer = socket.socket()
        peer.setsockopt(socket.SOL_SOCKET, socket.SO_RCVBUF, 4_096)
        peer.connect(("127.0.0.1", PORT))
        peer.sendall(get(LARGE))
        peers.append(peer)
    return peers


def timed(work, times):
    waits = []
    for _ in range(times):
        start = time.perf_counter()
        work()
        waits.append(1_000 * (time.perf_counter() - start))
    waits.sort()
    return waits[len(waits) // 2], waits[len(waits) * 99 // 100], waits[-1]


def measured(count):
    """The waits beside so many deaf peers."""
    peers = deaf(count)
    time.sleep(1)
    kept = socket.create_connection(("127.0.0.1", PORT))
    kept.setsockopt(socket.IPPROTO_TCP, socket.TCP_NODELAY, 1)
    statuses = set()

    def tile():
        kept.sendall(get(SMALL))
        statuses.add(reply(kept))

    def edit():
        kept.sendall(put(1, point([2 * 2**18 + 2**17, 3 * 2**18 + 2**17])))
        statuses.add(reply(kept))

    def new():
        with socket.create_connection(("127.0.0.1", PORT)) as peer:
            peer.sendall(get(SMALL))
            statuses.add(reply(peer))

    rows = [("tile", *timed(tile, 2_000)), ("edit", *timed(edit, 300)), ("new connection", *timed(new, 1_000))]
    kept.close()
    for peer in peers:
        peer.close()
    for name, median, late, most in rows:
        print(f"{count:6} peers  {name:15} median {median:7.3f}  99 % {late:7.3f}  most {most:8.3f} ms", flush=True)
    assert statuses <= {200, 204}, statuses
    time.sleep(1)


def main():
    program, folder = (os.path.abspath(word) for word in sys.argv[1:3])
    counts = [int(word) for word in sys.argv[3:]] or [0, 8, 100, 1_000]
    if os.environ.get("APART") != "1":
        command = [sys.executable, *sys.argv]
        os.execvpe("unshare", ["unshare", "--net", *command], {**os.environ, "APART": "1"})
    subprocess.run(["ip", "link", "set", "lo", "mtu", "1500", "up"], check=True)
    limit = resource.getrlimit(resource.RLIMIT_NOFILE)[1]
    resource.setrlimit(resource.RLIMIT_NOFILE, (limit, limit))
    disk = made_disk(program, folder)
    server = subprocess.Popen([program, "serve", "--port", str(PORT), "--connections", "10000000", disk], stdout=subprocess.PIPE, stderr=subprocess.DEVNULL)
    try:
        server.stdout.readline()
        for count in counts:
            measured(count)
    finally:
        server.kill()


main()
