"""Peers of `commands.py` that hold the server's memory: those that read nothing of a large reply, and those that send half of a request."""
import os
import random
import re
import resource
import select
import socket
import threading
import time

from command_cases import Serving, vtserve
from command_streams import BODY, TEXT, reply

# How many bytes all connections may hold.
MAX_HELD = 2**28
# How many bytes the large tile has at least, and what the log says of a connection that is ended since its client takes nothing.
LARGE, WRITE = 2**23, b", write\n"
# Features of which each takes some 21,000 bytes of the tile of zoom 0, as digits.
FEATURES, POINTS = 390, 2_700
GET_LARGE = b"GET /map/0/0/0.hex HTTP/1.1\r\nhost: x\r\n\r\n"
GET_NONE = b"GET /features/999 HTTP/1.1\r\nhost: x\r\n\r\n"
NO_MEMORY = b"HTTP/1.1 503 Service Unavailable\r\ncontent-type: text/plain\r\ncontent-length: 7\r\nconnection: close\r\n\r\nMemory\n"
HALF = b"PUT /features/9 HTTP/1.1\r\nhost: x\r\ncontent-length: 65536\r\n\r\n" + b" " * 65_500


class Logged(Serving):
    """The same, whose log is read as it comes: it is longer than a pipe holds, and a process whose log isn't read waits."""

    def __init__(self, disk, connections):
        super().__init__(disk, connections)
        self.log = b""
        self.reader = threading.Thread(target=self.read_log)
        self.reader.start()

    def read_log(self):
        for line in self.child.stderr:
            self.log += line

    def wait_for_ended(self, count):
        """Waits until so many connections were ended since they take nothing, or for two minutes."""
        end = time.monotonic() + 120
        while self.log.count(WRITE) < count and time.monotonic() < end:
            time.sleep(0.1)

    def end(self):
        status = self.child.wait(timeout=120)
        self.reader.join()
        return status, self.child.stdout.read(), self.log


def large_map(folder, name):
    """A disk whose tile of zoom 0 has some 8 MB."""
    disk = os.path.join(folder, name)
    vtserve(["format", disk, "--sectors", "65536"])
    chance = random.Random(1)
    requests = []
    for number in range(1, FEATURES + 1):
        points = ",".join(f"[{chance.randrange(2**32)},{chance.randrange(2**32)}]" for _ in range(POINTS))
        body = b'{"layer":"p","minzoom":0,"maxzoom":0,"geometry":{"points":[%s]},"tags":{}}' % points.encode()
        requests.append(b"PUT /features/%d HTTP/1.1\r\nhost: x\r\ncontent-length: %d\r\n\r\n%s" % (number, len(body), body))
    vtserve(["pipe", disk], b"".join(requests))
    return disk


def connected(port, space=None):
    """A peer that is connected, with so much space for bytes that it doesn't read."""
    peer = socket.socket()
    if space:
        peer.setsockopt(socket.SOL_SOCKET, socket.SO_RCVBUF, space)
    peer.settimeout(60)
    peer.connect(("127.0.0.1", port))
    return peer


def all_of(peer):
    """What a peer still reads, and whether it was reset."""
    read = b""
    try:
        while held := peer.recv(65_536):
            read += held
    except ConnectionResetError:
        return read, True
    return read, False


def is_readable(peer):
    """Whether a peer has got something."""
    poll = select.poll()
    poll.register(peer, select.POLLIN)
    return bool(poll.poll(0))


def asks(port, requests):
    """What a peer reads that sends these one after the other, and how many seconds that took at most."""
    longest, replies = 0, []
    with connected(port) as peer:
        for request in requests:
            start = time.monotonic()
            peer.sendall(request[: len(request) // 2])
            time.sleep(0.01)
            peer.sendall(request[len(request) // 2 :])
            replies.append(peer.recv(65_536))
            longest = max(longest, time.monotonic() - start)
    return replies, longest


def most_memory(serving):
    """How many bytes of memory the process has had at most."""
    with open(f"/proc/{serving.child.pid}/status") as status:
        return 1024 * int(re.search(r"VmHWM:\s+(\d+)", status.read()).group(1))


def put_small(number):
    return b"PUT /features/%d HTTP/1.1\r\nhost: x\r\ncontent-length: %d\r\n\r\n%s" % (number, len(BODY), BODY)


def edit_of(reply):
    """Whether a reply is that of an edit that was made."""
    return reply.startswith(b"HTTP/1.1 200 OK\r\n") and b'{"edit":' in reply


def deaf_readers(cases, disk, count):
    """So many peers ask for a large tile and read nothing. Others are served meanwhile."""
    serving = Logged(disk, count + 3)
    peers = [connected(serving.port, 4_096) for _ in range(count)]
    for peer in peers:
        peer.sendall(GET_LARGE)
    # The tile is cut for the first one, and spelled for each by parts, between which others are answered.
    asks(serving.port, [GET_NONE])
    serving.wait_for_ended(5 if count * LARGE > MAX_HELD else 0)
    replies, longest = asks(serving.port, [GET_NONE, put_small(1_000), GET_NONE] * 5)
    statuses = [reply[9:12] for reply in replies]
    cases.show(f"others are served beside {count} peers that read nothing of 8 MB", statuses, [b"404", b"200", b"404"] * 5)
    cases.show("each within two seconds", longest < 2 or longest, True)
    memory = most_memory(serving)
    for peer in peers:
        peer.close()
    # The last connection: until then the process runs, also if all others were ended meanwhile.
    asks(serving.port, [GET_NONE])
    status, _, log = serving.end()
    return status, log, memory


def half_senders(cases, disk, count):
    """So many peers send half of a request."""
    serving = Logged(disk, count + 1)
    peers = []
    for _ in range(count):
        peers.append(connected(serving.port))
        peers[-1].sendall(HALF)
    replies, longest = asks(serving.port, [put_small(1_000)])
    cases.show(f"an edit in two reads beside {count} begun ones of 64 KB", edit_of(replies[0]) or replies, True)
    cases.show("within two seconds", longest < 2 or longest, True)
    # (the server reads all that was sent)
    time.sleep(3)
    memory = most_memory(serving)
    seen = {}
    for peer in peers:
        # One that has got a last reply reads it first.
        if not is_readable(peer):
            peer.shutdown(socket.SHUT_WR)
        what = all_of(peer)
        seen[what] = seen.get(what, 0) + 1
        peer.close()
    status, _, log = serving.end()
    return status, log, memory, seen


def deaf_peers(cases, folder):
    """Peers that hold the server's memory: nobody waits for them, and beyond a bound those that have been idle for the longest time are ended."""
    soft, hard = resource.getrlimit(resource.RLIMIT_NOFILE)
    resource.setrlimit(resource.RLIMIT_NOFILE, (min(hard, 16_400), hard))
    disk = large_map(folder, "of_deaf_peers")
    status, log, memory = deaf_readers(cases, disk, 8)
    cases.show("all end, none before its time", (status, log.count(b", write\n"), log.count(b", memory\n")), (0, log.count(b", write\n"), 0))
    status, log, memory = deaf_readers(cases, disk, 60)
    ended = re.findall(rb"connection (\d+): 0 requests, write\n", log)
    # (the first one makes the tile, so others may wait for their peers before it does, on a busy machine some ten)
    are_first = len(ended) >= 5 and all(int(number) <= 20 for number in ended[:5])
    cases.show("beyond 256 MiB those that came first are ended", (status, are_first or ended[:5]), (0, True))
    cases.show("and the memory stays within twice that", memory < 2 * MAX_HELD or memory, True)
    count = MAX_HELD // len(HALF) + 10
    status, log, memory, seen = half_senders(cases, disk, count)
    gone = seen.get((NO_MEMORY, False), 0)
    short = reply_of_a_short_request()
    cases.show("each of them gets a reply", (status, gone + seen.get((short, False), 0)), (0, count))
    cases.show("that there was no memory for them", gone == log.count(b", memory\n") and 10 <= gone <= 30 or (gone, seen.keys()), True)
    cases.show("the memory of half requests", memory < 2 * MAX_HELD or memory, True)
    resource.setrlimit(resource.RLIMIT_NOFILE, (soft, hard))


def reply_of_a_short_request():
    """The reply to a request that was cut."""
    return b"HTTP/1.1 400 Bad Request\r\n" + reply(TEXT, b"Short\n").partition(b"\r\n")[2].replace(b"\r\n\r\n", b"\r\nconnection: close\r\n\r\n")
