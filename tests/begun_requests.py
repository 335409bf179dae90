"""Peers of `commands.py` that have begun a request and don't end it: at the limit of connections one of them gives way
to a new connection, and below it none does."""
import contextlib
import os
import re
import socket
import threading
import time

from command_cases import Serving, vtserve
from command_streams import EMPTY
from deaf_peers import all_of, connected, is_readable
from slow_peers import GET_LONG, GET_NOTHING, LONG, PUT_LONG

# How many connections the program has descriptors for: it keeps 16 for itself.
LIMIT = 20
# As many replies as no socket's buffers hold.
ASKED = 300
BEGUN = b"GET /map/0/0/0.mvt HTTP/1.1\r\nhost:"
# Before a begun request has had ten seconds it isn't ended, and a new connection is to be served soon after that.
LEAST, MOST = 9, 15
# How long a peer takes for a request, so that a server that had to would end it.
SLOW_SECONDS = 16


def limited(folder, name):
    """A process that has descriptors for `LIMIT` connections, over a map of one large feature, and that one's reply."""
    disk = os.path.join(folder, name)
    vtserve(["format", disk, "--sectors", "1024"])
    vtserve(["pipe", disk], PUT_LONG)
    large = vtserve(["pipe", disk], GET_LONG)[1]
    return Serving(disk, 4294967295, under=["prlimit", f"--nofile={LIMIT + 16}:"]), large


def begun(port, count):
    """Peers that have begun a request each."""
    peers = [connected(port) for _ in range(count)]
    for peer in peers:
        peer.sendall(BEGUN)
    return peers


def ended(peers):
    """How many of these peers the program has closed."""
    return sum(is_readable(peer) and all_of(peer)[0] == b"" for peer in peers)


def stopped(serving, peers):
    """The log of a process that is stopped behind these peers."""
    for peer in peers:
        peer.close()
    serving.child.terminate()
    return serving.end()[2]


def at_the_limit(folder):
    """All have begun a request, but for the first one, which has been answered and reads nothing: a new one comes."""
    serving, large = limited(folder, "crowded")
    reader = connected(serving.port, space=4_096)
    reader.sendall(GET_LONG * ASKED)
    # (it reads no more than what its buffers hold)
    time.sleep(1)
    peers = begun(serving.port, LIMIT - 1)
    start = time.monotonic()
    reply = serving.ask(GET_NOTHING)
    seconds = time.monotonic() - start
    count = ended(peers)
    with contextlib.suppress(OSError):
        reader.shutdown(socket.SHUT_WR)
    read, reset = all_of(reader)
    log = stopped(serving, [*peers, reader])
    return reply, seconds, count, (len(large) > len(LONG) and read == large * ASKED, reset), log


def below_the_limit(folder):
    """One connection fewer than the limit has begun a request, and one of these peers ends it slowly."""
    serving, _ = limited(folder, "not_crowded")
    peers = begun(serving.port, LIMIT - 2)
    with connected(serving.port) as slow:
        for at in range(len(GET_NOTHING)):
            slow.sendall(GET_NOTHING[at:at + 1])
            time.sleep(SLOW_SECONDS / len(GET_NOTHING))
        slow.shutdown(socket.SHUT_WR)
        reply = all_of(slow)[0]
    count = ended(peers)
    stopped(serving, peers)
    return reply, count


def begun_requests(cases, folder):
    """Both cases, by processes side by side."""
    seen = {}

    def see(case):
        seen[case] = case(folder)

    threads = [threading.Thread(target=see, args=(case,)) for case in (at_the_limit, below_the_limit)]
    for thread in threads:
        thread.start()
    for thread in threads:
        thread.join()
    reply, seconds, count, read, log = seen[at_the_limit]
    cases.show("a new connection beside as many begun requests as there may be connections", reply, EMPTY)
    cases.show("it is served once one of them has had ten seconds", LEAST <= seconds <= MOST or seconds, True)
    lines = re.findall(rb"connection (\d+): 0 requests, read\n", log)
    cases.show("which alone is ended", (count, len(lines[:1]), lines[:1] != [b"1"]), (1, 1, True))
    cases.show("and no peer that takes replies, though it has waited longer", read, (True, False))
    cases.show("below the limit a slow peer is served, and none is ended", seen[below_the_limit], (EMPTY, 0))
