"""Cases of `commands.py` about `serve`: connections of a port, peers that are slow, and a disk file that is lost meanwhile."""
import contextlib
import os
import re
import resource
import signal
import socket
import subprocess
import threading
import time

from command_cases import Serving, refusal, vtserve
from command_streams import DELETE, EMPTY, GET, TEXT, TILE, edit, put, reply
from slow_peers import GET_NOTHING, PUT_LONG, SLOW_PEERS

# A body of as many levels as are read, which needs most of the stack.
LEVELS = b'{"a":' * 126 + b"1" + b"}" * 126
NESTED = b"PUT /features/1 HTTP/1.1\r\nhost: x\r\ncontent-length: %d\r\n\r\n%s" % (len(LEVELS), LEVELS)


def lost_while_served(folder):
    """What a process does that serves, with --stop-when-broken, a disk file that was removed, where only reads come: its output after that, and
    whether it ended between 50 and 75 seconds later."""
    path = os.path.join(folder, "lost")
    vtserve(["format", path, "--sectors", "64"])
    serving = Serving(path, 4294967295, "--stop-when-broken")
    read = serving.ask(GET) == EMPTY
    os.remove(path)
    start = time.monotonic()
    while serving.child.poll() is None and time.monotonic() < start + 90:
        with contextlib.suppress(OSError):
            serving.ask(GET)
        time.sleep(1)
    seconds = time.monotonic() - start
    serving.child.kill()
    status, _, told = serving.end()
    return read, status, b"vtserve: Device: the disk file was removed\n" in told, 50 <= seconds <= 75 or seconds


def out_of_descriptors(disk):
    """What a process says that may open no further descriptor as its first connection comes: its port, and its outcome."""
    serving = Serving(disk, 1, "-v")
    pid = serving.child.pid
    free = min(set(range(1000)) - set(map(int, os.listdir(f"/proc/{pid}/fd"))))
    resource.prlimit(pid, resource.RLIMIT_NOFILE, (free, free))
    with contextlib.suppress(OSError):
        serving.ask(GET)
    return serving.port, serving.end()


def short_of_memory(cases, folder):
    """Limits of the address space (`ulimit -v`), from the least one at which the program serves: the request that needs most of the stack ends none."""
    disk = os.path.join(folder, "short_of_memory")
    vtserve(["format", disk, "--sectors", "1024"])
    statuses, limit = [], 2_000_000
    while len(statuses) < 24 and limit < 40_000_000:
        serving = Serving(disk, 4294967295, under=["prlimit", f"--as={limit}"])
        if serving.line:
            with contextlib.suppress(OSError):
                serving.ask(NESTED)
            with contextlib.suppress(subprocess.TimeoutExpired):
                serving.child.wait(timeout=0.2)
            statuses.append(serving.child.poll())
        serving.child.kill()
        serving.end()
        limit += 32_768
    cases.show("at 24 limits of memory a body of many levels doesn't end the process", statuses, [None] * 24)


def serves(cases, folder):
    """Connections of a port."""
    disk = os.path.join(folder, "served")
    vtserve(["format", disk, "--sectors", "256"])
    serving = Serving(disk, 4)
    cases.show("serve says where it listens", serving.line, b"serving on 127.0.0.1:%d\n" % serving.port)
    cases.show("a PUT of one connection", serving.ask(put(7)), edit(1))
    cases.show("pipe of a disk that is served", vtserve(["pipe", disk], GET), refusal(b"File"))
    cases.show("export of a disk that is served", vtserve(["export", disk, os.path.join(folder, "x.pmtiles")]), refusal(b"File"))
    cases.show("serve of a disk that is served", vtserve(["serve", disk, "--port", "1", "--connections", "1"]), refusal(b"File"))
    cases.show("the tile on the next", serving.ask(GET), reply(TEXT, TILE))
    large = b"PUT /features/8 HTTP/1.1\r\nhost: x\r\ncontent-length: 3000000\r\n\r\n" + bytes(3000000)
    cases.show("a body of 3 MB is refused, and the reply is read", serving.ask(large).split(b"\r\n")[0], b"HTTP/1.1 413 Payload Too Large")
    cases.show("nothing on the last", serving.ask(b""), b"")
    log = b"connection 1: 1 requests, closed\nconnection 2: 1 requests, closed\nconnection 3: 1 requests, refused\nconnection 4: 0 requests, closed\n"
    cases.show("status 0, and a line for each connection", serving.end(), (0, b"", log))
    cases.show("the edit is there", vtserve(["pipe", disk], GET), (0, reply(TEXT, TILE), b""))
    with socket.socket() as taken:
        taken.bind(("127.0.0.1", 0))
        taken.listen()
        words = ["serve", disk, "--port", str(taken.getsockname()[1]), "--connections", "1"]
        cases.show("serve on a port in use", vtserve(words), refusal(b"Listen"))
    port, outcome = out_of_descriptors(disk)
    cases.show("serve -v out of descriptors", outcome, refusal(b"Listen: 127.0.0.1:%d: Too many open files (os error 24)" % port))
    serving = Serving(disk, 1)
    with socket.create_connection(("127.0.0.1", serving.port), timeout=60) as peer:
        peer.sendall(DELETE)
        peer.recv(10)
        serving.child.send_signal(signal.SIGKILL)
    cases.show("DELETE, then killed", serving.end()[0], -signal.SIGKILL)
    cases.show("it is gone", vtserve(["pipe", disk], GET), (0, EMPTY, b""))


def slow_peers(cases, folder):
    """Peers that send or read little: each is given up, and the next one is served. They are served by processes side by side, with one whose disk
    file is removed."""
    seen = {}

    def try_peer(act):
        disk = os.path.join(folder, act.__name__)
        vtserve(["format", disk, "--sectors", "1024"])
        vtserve(["pipe", disk], PUT_LONG)
        serving = Serving(disk, 2)
        with socket.create_connection(("127.0.0.1", serving.port)) as peer:
            seconds = act(peer)
        after = serving.ask(GET_NOTHING)
        status, _, log = serving.end()
        seen[act] = seconds, after, status, log

    def lose():
        seen["lost"] = lost_while_served(folder)

    threads = [threading.Thread(target=try_peer, args=(row[0],)) for row in SLOW_PEERS]
    threads.append(threading.Thread(target=lose))
    for thread in threads:
        thread.start()
    for thread in threads:
        thread.join()
    cases.show("a disk file that is removed is seen within a minute, and ends the process", seen.get("lost"), (True, 1, True, True))
    for act, line, least, most in SLOW_PEERS:
        seconds, after, status, log = seen.get(act, (0, b"", None, b""))
        name = act.__name__.replace("_", " ")
        wanted = line + rb"\nconnection 2: 1 requests, closed\n"
        cases.show(f"a peer that {name}", (bool(re.fullmatch(wanted, log)) or log, status), (True, 0))
        cases.show("it is served for a while, and then the next one", (least <= seconds <= most or seconds, after), (True, EMPTY))
