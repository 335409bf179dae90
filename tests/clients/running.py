"""The parts `full`, `restarts` and `kept` of run.py: a full disk, stops, and connections that are kept."""
import re
import signal
import socket
import time

from .stand import (
    BYTES,
    JSON,
    TEXT,
    TILE,
    Cases,
    Server,
    archive,
    curl,
    feature,
    parsed,
    refusal,
    same,
    status_of,
    wanted,
)


def full(cases: Cases, folder: str) -> None:
    """A journal of 16 sectors and areas of 22, those of a disk of 64."""
    with Server(folder, "full", 64) as server:
        url = server.url
        small = feature(last=0)
        for edit in range(1, 17):
            reply = curl(url + "/features/1", "-X", "PUT", body=small)
            if status_of(reply) != 200:
                break
        same(cases, "16 edits of one sector", reply, wanted(200, JSON, '{"edit":16}'))
        same(
            cases,
            "the 17th: the journal is full",
            curl(url + "/features/1", "-X", "PUT", body=small),
            refusal(507, "JournalFull need 1 free 0"),
        )
        cases.show("a publication frees it", status_of(curl(url + "/publish", "-X", "POST")), 200)
        same(
            cases,
            "the 17th again",
            curl(url + "/features/1", "-X", "PUT", body=small),
            wanted(200, JSON, '{"edit":17}'),
        )
        long = feature(last=0, tags={"k": "x" * 1000})
        for number in [1, 2, 3, 4, 4]:
            text = str(number) + "x" * 1000
            reply = curl(f"{url}/features/{number}", "-X", "PUT", body=feature(last=0, tags={"k": text}))
        same(cases, "five edits of three sectors", reply, wanted(200, JSON, '{"edit":22}'))
        same(
            cases,
            "no room for a sixth",
            curl(url + "/features/5", "-X", "PUT", body=long),
            refusal(507, "JournalFull need 3 free 0"),
        )
        cases.show("a publication of four features of 1 KB", status_of(curl(url + "/publish", "-X", "POST")), 200)
        for number in [5, 6]:
            text = str(number) + "x" * 1000
            reply = curl(f"{url}/features/{number}", "-X", "PUT", body=feature(last=0, tags={"k": text}))
        same(cases, "two more", reply, wanted(200, JSON, '{"edit":24}'))
        reply = curl(url + "/publish", "-X", "POST")
        told = re.fullmatch(rb"AreaFull need ([0-9]+) free 22\n", reply[2])
        cases.show(
            "a map over 22 sectors: AreaFull", (status_of(reply), told is not None and int(told[1]) > 22), (507, True)
        )
        same(cases, "no publication is under way", curl(url + "/publish/step", "-X", "POST"), refusal(409, "Idle"))


def restarts(cases: Cases, folder: str) -> None:
    """What a stop leaves, how many connections a process takes, and its log."""
    with Server(folder, "stopped") as server:
        same(
            cases,
            "PUT, then kill -9",
            curl(server.url + "/features/7", "-X", "PUT", body=feature()),
            wanted(200, JSON, '{"edit":1}'),
        )
        server.end(signal.SIGKILL)
    with Server(folder, "stopped") as server:
        same(cases, "the next process has it", curl(server.url + "/map/0/0/0.hex"), wanted(200, TEXT, TILE))
        curl(server.url + "/publish/begin", "-X", "POST")
        server.end(signal.SIGTERM)
    with Server(folder, "stopped") as server:
        same(
            cases,
            "a publication under way is gone with its process",
            curl(server.url + "/publish/step", "-X", "POST"),
            refusal(409, "Idle"),
        )
        curl(server.url + "/publish", "-X", "POST")
        server.end(signal.SIGKILL)
    with Server(folder, "stopped", connections=3) as server:
        whole = wanted(200, BYTES, archive())
        same(cases, "the archive outlives a kill -9", curl(server.url + "/map.pmtiles"), whole)
        curl(server.url + "/map/0/0/0.mvt", "-H", "Connection: close")
        curl(server.url + "/map/0/0/0.mvt", "-H", "Expect: x")
        cases.show("--connections 3 ends behind the third, with status 0", server.child.wait(30), 0)
        lines = [
            "connection 1: 1 requests, closed",
            "connection 2: 1 requests, asked",
            "connection 3: 1 requests, refused",
        ]
        cases.show("a line for each connection", server.lines(), lines)


ASKS = b"GET /map/metadata HTTP/1.1\r\nhost: a\r\n\r\n"


def peer_of(port):
    """A connection that is kept open."""
    return socket.create_connection(("127.0.0.1", port), timeout=100)


def answered(peer):
    """Whether a request on a kept connection gets its whole reply, and after how many seconds."""
    began = time.monotonic()
    peer.sendall(ASKS)
    read = b""
    while True:
        piece = peer.recv(65536)
        read += piece
        if piece and b"\r\n\r\n" not in read:
            continue
        _, fields, content = parsed(read)
        if not piece or len(content) == int(dict(fields)["content-length"]):
            return read.startswith(b"HTTP/1.1 200 "), time.monotonic() - began


def kept_connections(cases: Cases, folder: str) -> None:
    """As a browser does it: six connections that are kept open, and a seventh; and one that connects and is silent."""
    with Server(folder, "kept") as server:
        kept = [peer_of(server.port) for _ in range(6)]
        replies = [answered(peer) for peer in kept]
        cases.show("six connections that are kept open get their replies", [whole for whole, _ in replies], [True] * 6)
        seventh = peer_of(server.port)
        whole, seconds = answered(seventh)
        cases.show("a seventh gets its reply, within five seconds", (whole, seconds < 5), (True, True))
        cases.say(f"the slowest of the six took {max(took for _, took in replies):.3f} s, the seventh {seconds:.3f} s")
        silent, behind = peer_of(server.port), peer_of(server.port)
        whole, seconds = answered(behind)
        cases.show(
            "one behind a silent connection gets its reply, within five seconds", (whole, seconds < 5), (True, True)
        )
        replies = [answered(peer) for peer in [*kept, seventh]]
        cases.show("each of the seven is answered again on its connection", [whole for whole, _ in replies], [True] * 7)
        for peer in [*kept, seventh, silent, behind]:
            peer.close()
