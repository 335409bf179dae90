"""Peers of `commands.py` that send or read little."""
import time

from command_streams import GET


def drip(peer, seconds):
    """Sends a byte each half second, until the peer is closed: how many seconds that took."""
    start = time.monotonic()
    while time.monotonic() - start < seconds:
        try:
            peer.sendall(b"x")
        except OSError:
            break
        time.sleep(0.5)
    return time.monotonic() - start


def drips_a_request(peer):
    """A head whose bytes come one by one."""
    peer.sendall(b"GET /")
    return drip(peer, 200)


def drips_behind_its_reply(peer):
    """One request, the last one, and bytes that come one by one behind it."""
    peer.sendall(GET.replace(b"host", b"connection: close\r\nhost"))
    return drip(peer, 200)


# A feature of 62 kB, and a request for it.
LONG = b'{"layer":"p","minzoom":0,"maxzoom":2,"geometry":{"points":[%s]},"tags":{}}' % b",".join([b"[4294967295,4294967295]"] * 2700)
PUT_LONG = b"PUT /features/9 HTTP/1.1\r\nhost: x\r\ncontent-length: %d\r\n\r\n%s" % (len(LONG), LONG)
GET_LONG = b"GET /features/9 HTTP/1.1\r\nhost: x\r\n\r\n"
GET_NOTHING = b"GET /map/1/0/0.hex HTTP/1.1\r\nhost: x\r\n\r\n"


def reads_nothing(peer):
    """Requests without end, whose replies aren't read."""
    start = time.monotonic()
    peer.settimeout(200)
    try:
        while True:
            peer.sendall(GET_LONG * 100)
    except OSError:
        return time.monotonic() - start


def sends_in_pieces(peer):
    """A request in pieces, and its end: how many seconds it takes to the reply."""
    start = time.monotonic()
    for at in range(0, len(GET_NOTHING), 8):
        peer.sendall(GET_NOTHING[at:at + 8])
        time.sleep(0.5)
    peer.recv(100)
    return time.monotonic() - start


# What a peer does, the line of its connection up to its end, and for how many seconds it is served.
SLOW_PEERS = [
    (drips_a_request, rb"connection 1: 0 requests, read", 59, 70),
    (drips_behind_its_reply, rb"connection 1: 1 requests, asked", 58, 70),
    (reads_nothing, rb"connection 1: \d+ requests, write", 59, 80),
    (sends_in_pieces, rb"connection 1: 1 requests, closed", 2, 10),
]
