"""Streams of requests to `pipe` and to a connection of `serve`, with each allocation of the process refused in turn.

A refused allocation must have one of three effects. The process ends with `vtserve: Memory` before it reads, and the disk is as before. One request
is answered `503 Memory`, and all other replies and the bytes of the disk are those of a run without this request: so each request is sent twice. Or
the tile is served all the same: it wasn't cached, or it was cut because the archive couldn't be read.

A connection of `serve` may end for want of memory in three places, and the log says so: for what was read of a request, which gets `503 Memory` as
the connection's last reply; for a part of a download, which is cut; and if it can't even be kept, it is closed, and the reset that follows may
overtake that reply. What came before has its replies, and nothing behind it is done. For a reply alone no connection ends. `serve` itself may lack
memory for what it asks of the system to listen, which is `Listen`. Any reply of `serve` may be as with memory.
"""
import collections
import json
import os
import re
import shutil
import socket
import subprocess
import sys
from pathlib import Path

sys.path.append(str(Path(__file__).resolve().parents[2] / "model"))
import disk
import tiles

MEMORY = (1, b"", b"vtserve: Memory\n")
# What a connection of `serve` is without memory for its input or its buffers.
LAST = b"HTTP/1.1 503 Service Unavailable\r\ncontent-type: text/plain\r\ncontent-length: 7\r\nconnection: close\r\n\r\nMemory\n"
NO_BUFFERS = (0, LAST, b"connection 1: 0 requests, memory\n")
# The same without memory to keep it in, and what `serve` is without memory for what watches its sockets.
NOT_KEPT = (0, b"", b"connection 1: 0 requests, memory\n")
NO_LISTENER = (1, b"", b"vtserve: Listen\n")
# The line of one that lacks memory behind its first replies, and how many bytes of a download are sent with its head, less a sector at the most.
ENDED = re.compile(rb"connection 1: (\d+) requests, memory\n")
FIRST_BYTES, SECTOR = 16_384, 512
REFUSED = b"Memory\n"
# What may answer as with memory: a tile, which is cut where the archive can't be read or the cache can't keep it; and a publication, since a list that
# is collected asks for more room than it needs, and for less where that is refused. And the metadata, whose text is kept with room to spare where a
# shorter list is refused.
PASSES = re.compile(r"(GET|HEAD) /map/(\d+/\d+/\d+\.|metadata$)|POST /publish(/begin)?$")


def request(method, path, content=None, fields=""):
    head = f"{method} {path} HTTP/1.1\r\nhost: x\r\n{fields}"
    return (head + (f"content-length: {len(content)}\r\n" if content is not None else "") + "\r\n" + (content or "")).encode()


def feature(tags=(), geometry=None):
    members = {"layer": "p", "minzoom": 0, "maxzoom": 2, "geometry": geometry or {"points": [[0, 0]]}, "tags": dict(tags)}
    return json.dumps(members, separators=(",", ":"))


def put(number, *rest):
    return request("PUT", f"/features/{number}", feature(*rest))


def get(path, fields=""):
    return request("GET", path, fields=fields)


def post(path):
    return request("POST", path)


def sets(number, *rest):
    """A change that sets a feature, as JSON."""
    return f'{{"put":{number},"feature":{feature(*rest)}}}'


def deletes(number):
    return f'{{"delete":{number}}}'


def batch(*changes):
    return request("POST", "/edits", f'{{"changes":[{",".join(changes)}]}}')


def twice(requests):
    return [each for request in requests for each in (request, request)]


WORLD = 2**32 - 1
LINES = {"lines": [[[0, 0], [WORLD, WORLD]], [[0, WORLD], [WORLD, 0]]]}
POLYGONS = {"polygons": [[[[0, 0], [WORLD, 0], [WORLD, WORLD]], [[9, 5], [2**31, 2**30], [2**31, 5]]]]}
KINDS = [("a", "x"), ("b", -2), ("c", 3), ("d", True)]
LARGE = [(f"k{number:02}", chr(97 + number) * 1000) for number in range(20)]
EDITS = [put(7), put(8, KINDS, LINES), put(9, (), POLYGONS), request("DELETE", "/features/7")]
PUBLISHED = [put(7), put(8, KINDS, LINES), put(9, (), POLYGONS), post("/publish"), put(10, KINDS), request("DELETE", "/features/9")]
STEPPED = [put(number, LARGE) for number in (1, 2)]
# An archive that is sent in parts.
LONG = [*(put(number, [(key, f"{number}{value[1:]}") for key, value in LARGE]) for number in range(1, 6)), post("/publish")]
BAD = ["", "{", "[]", '{"layer":1}', feature().replace("2", "20"), feature((("k", "v"),)).replace('"v"', "1.5"), feature().replace("}", "]", 1)]
TILES = [get(path) for path in ("/map/0/0/0.mvt", "/map/0/0/0.hex", "/map/2/3/3.mvt", "/map/2/1/2.mvt", "/map/16/9/9.hex")]
READS = [*map(get, ("/features/8", "/features/9", "/features/77", "/map/metadata", "/map.pmtiles", "/other", "/features/x")), request("POST", "/map.pmtiles")]
RANGES = [get("/map.pmtiles", f"range: bytes={part}\r\n") for part in ("0-126", "127-", "100-9999", "9999-10000")]
METADATA = get("/map/metadata")
# Changes under a condition, which are refused, and a range under one. No tile: its tag differs from run to run.
CONDITION = 'if-match: "1-6-420"\r\n'
CONDITIONS = [request("PUT", "/features/7", feature(), CONDITION), request("DELETE", "/features/8", fields=CONDITION),
              request("POST", "/publish", fields=CONDITION), get("/features/8", CONDITION), get("/map.pmtiles", "range: bytes=0-1\r\nif-range: x\r\n")]
# Reads of the published archive under conditions that name its tag, and that don't.
TAG = '"1-3-2843"'
TAGGED = [f"if-none-match: {TAG}", f'if-none-match: "a", W/{TAG}', 'if-none-match: "1-3-2842"', f"if-match: {TAG}", 'if-match: "1-3-2842"',
          f"if-match: {TAG}\r\nif-none-match: *", f"if-none-match: {TAG}\r\nrange: bytes=0-6", f"if-match: {TAG}\r\nrange: bytes=0-6"]
TAGGED = [request(method, "/map.pmtiles", fields=f"{field}\r\n") for field in TAGGED for method in ("GET", "HEAD")]
HEADS = [request("HEAD", path) for path in ("/map/0/0/0.mvt", "/map.pmtiles", "/map/metadata")]
PUBLISH = [post("/publish"), put(11), post("/publish"), *TILES[:2]]
STEPS = [post("/publish/begin"), put(12), post("/publish/step"), request("DELETE", "/features/8"), post("/publish/step"), TILES[0], post("/publish/cancel")]
# Batches: of three kinds of features, a replaced one and deletions, and of as many changes as there may be.
CHANGES = [batch(sets(7), sets(8, KINDS, LINES), sets(9, (), POLYGONS)), batch(sets(8), deletes(9)), batch(deletes(7), deletes(8))]
MANY = [batch(*map(sets, range(100, 164))), batch(*map(deletes, range(100, 164)))]
# Each fault of a batch: of its text, its members, its count, its ids, its features, its length, their reach, and of what isn't there.
WIDE = feature((), {"lines": [[[0, 0], [WORLD, WORLD]]]}).replace('"maxzoom":2', '"maxzoom":16')
BAD_CHANGES = [request("POST", "/edits", body) for body in ("", "{", "[]", '{"changes":5}')]
BAD_CHANGES += [batch(sets(7), '{"put":8}'), batch(), batch(*map(deletes, range(65))), batch(sets(7), deletes(7)), batch(sets(7), deletes(2**63)),
                batch(sets(7), sets(8).replace('"p"', '""')), batch(sets(7), sets(8, (("k", "v"),)).replace('"v"', "1.5")),
                batch(sets(7, LARGE), sets(8, LARGE)), batch(sets(7), f'{{"put":8,"feature":{WIDE}}}'), batch(sets(7), deletes(9))]
# A batch that fills the 16 places of a journal of 64 sectors.
FILL = [batch(*(sets(number, (("k", "x" * 900),)) for number in range(8)))]
BOTH = [post("/publish/begin"), batch(sets(12), sets(13, KINDS)), post("/publish/step"), batch(deletes(8), sets(12)), post("/publish/step"), TILES[0],
        post("/publish/cancel")]
ADMIN = [*map(get, ("/admin/status", "/admin/features/from/0", "/admin/features/from/8", "/admin/features/from/99")), request("HEAD", "/admin/status")]
POINT = tiles.feature({"points": [[0, 0]]})


def first_disk(version, *records):
    """The bytes of a disk of a version, formatted and with records in its journal."""
    return disk.write_disk(64, 0, {}, records, b"", 0, version=version)


# The records of a disk that was upgraded behind its second edit.
RECORDS = [disk.Record(1, [disk.Change(1, POINT)]), disk.Record(1, [disk.Change(2, POINT)]), disk.Record(2, [disk.Change(1, None), disk.Change(3, POINT)])]

# Each series: its name, the sectors of its disk or the disk, what was sent to the disk before, the requests, and more options of the command.
SERIES = [
    ("edits, empty disk", 64, [], twice(EDITS)),
    ("bad bodies, empty disk", 64, [], twice([request("PUT", "/features/7", body) for body in BAD])),
    ("reads, empty disk", 64, [], twice([*TILES, *READS, *RANGES[:1]])),
    ("publication, empty disk", 64, [], twice([post("/publish"), *STEPS[:3], *STEPS[4:5]])),
    ("edits, published disk", 256, PUBLISHED, twice(EDITS)),
    ("tiles, published disk", 256, PUBLISHED[:4], twice(TILES)),
    ("tiles after edits", 256, PUBLISHED, twice(TILES)),
    ("reads, published disk", 256, PUBLISHED, twice([*READS, *RANGES, *HEADS])),
    ("conditions, published disk", 256, PUBLISHED, twice(CONDITIONS), "--etags"),
    ("conditions of the archive", 256, PUBLISHED, twice(TAGGED), "--etags"),
    ("metadata between edits", 256, PUBLISHED, twice([METADATA, put(7, KINDS), METADATA, request("DELETE", "/features/8"), METADATA])),
    ("publication, published disk", 256, PUBLISHED, twice(PUBLISH)),
    ("publication by steps", 1024, PUBLISHED + STEPPED, twice(STEPS)),
    ("publication cancelled", 256, PUBLISHED, twice([*STEPS[:2], STEPS[6], STEPS[0], STEPS[2], TILES[0]])),
    ("administration, empty disk", 64, [], twice(ADMIN)),
    ("administration, published disk", 256, PUBLISHED, twice([*ADMIN, post("/publish/begin"), ADMIN[0], put(9, LARGE), ADMIN[2]])),
    ("batches, empty disk", 256, [], twice(CHANGES)),
    ("batches of 64 changes", 256, [], twice(MANY)),
    ("bad batches, empty disk", 256, [], twice(BAD_CHANGES)),
    ("batches, published disk", 256, PUBLISHED, twice([*CHANGES, TILES[0]])),
    ("batches, full journal", 64, FILL, twice([batch(sets(1), sets(2)), batch(deletes(1)), post("/publish"), batch(sets(1), sets(2))])),
    ("batches between steps", 1024, PUBLISHED + STEPPED, twice(BOTH)),
    ("batches, disk of version 1", first_disk(1), EDITS[:1], twice([CHANGES[0], batch(), *EDITS[1:], TILES[0]])),
    ("batches, journal of both versions", first_disk(2, *RECORDS), [], twice([CHANGES[0], batch(deletes(3), deletes(2)), TILES[0]])),
]

# The same by a connection of `serve`, which has them in one read.
SERVED = [
    ("serve, edits and a tile", 256, [], twice([put(7), CHANGES[0], TILES[0], get("/features/8")])),
    ("serve, archive and publication", 256, PUBLISHED, twice([READS[4], RANGES[2], post("/publish"), TILES[1], put(7)])),
    ("serve, downloads in parts", 2048, LONG, twice([READS[4], put(7), get("/map.pmtiles", "range: bytes=9000-99999\r\n"), TILES[0]])),
]
# The same of one that has each once the one before was answered.
KEPT = [
    ("serve, one by one, edits", 256, [], twice([put(7), CHANGES[0], TILES[0], get("/features/8"), BAD_CHANGES[0], request("DELETE", "/features/7")])),
    ("serve, one by one, reads", 256, PUBLISHED, twice([*READS[:5], RANGES[2], HEADS[0], METADATA, post("/publish"), TILES[1]])),
]


def replies_of(requests, written):
    """The replies, one for each request. A reply to HEAD has no content."""
    replies = []
    for asked in requests:
        head, end, rest = written.partition(b"\r\n\r\n")
        length = re.search(rb"content-length: (\d+)", head)
        size = int(length.group(1)) if length and not asked.startswith(b"HEAD") else 0
        replies.append(head + end + rest[:size])
        written = rest[size:]
    return replies if not written and all(replies) else None


class Stream:
    """A disk and the requests that are sent to it."""

    def __init__(self, program, shim, folder, sectors, before, requests, *more):
        self.program, self.shim, self.requests, self.more = program, shim, requests, more
        self.first, self.disk, self.count = (os.path.join(folder, name) for name in ("first", "disk", "count"))
        if os.path.exists(self.first):
            os.remove(self.first)
        if isinstance(sectors, bytes):
            Path(self.first).write_bytes(sectors)
        else:
            subprocess.run([program, "format", self.first, "--sectors", str(sectors)], check=True, capture_output=True)
        done = subprocess.run([program, "pipe", self.first, "--admin"], input=b"".join(before), check=True, capture_output=True)
        assert len(re.findall(rb"HTTP/1.1 200", done.stdout)) == len(before), done
        self.expected, self.left, self.bounds = {}, {}, []

    def served(self, requests, more):
        """The status, the bytes that the peer reads, and standard error of a process that serves requests."""
        words = [self.program, "pipe", self.disk, "--admin", *self.more]
        done = subprocess.run(words, input=b"".join(requests), capture_output=True, timeout=60, env=more)
        return done.returncode, done.stdout, done.stderr

    def run(self, requests, refused=0):
        """What a process does with requests: the number of its allocations, how it ended, its replies and the disk that it left."""
        shutil.copyfile(self.first, self.disk)
        ended = self.served(requests, {"LD_PRELOAD": self.shim, "FAIL_AT": str(refused), "FAIL_COUNT": self.count})
        with open(self.disk, "rb") as file:
            held = file.read()
        with open(self.count) as file:
            allocations = int(file.read())
        return allocations, ended, replies_of(requests, ended[1]), held

    def under_way(self, number):
        """The request that an allocation is made for: the first one with which a stream has so many allocations. None if it is made before all."""
        if not self.bounds:
            self.bounds = [self.run(self.requests[:count])[0] for count in range(len(self.requests) + 1)]
        return next((at - 1 if at else None for at, bound in enumerate(self.bounds) if number <= bound), len(self.requests) - 1)

    def without(self, number):
        """The replies and the disk of a run without a request; of the run with all for -1."""
        if number not in self.expected:
            left = [request for at, request in enumerate(self.requests) if at != number]
            _, ended, replies, held = self.run(left)
            assert ended[0] == 0 and replies, ended
            self.expected[number] = replies, held
        return self.expected[number]

    def effect(self, number, outcome):
        """What a refused allocation did, or None if that is none of the effects that it may have."""
        _, ended, replies, held = outcome
        if ended in (MEMORY, NO_BUFFERS):
            with open(self.first, "rb") as file:
                return "start" if file.read() == held else None
        if ended[0] != 0 or replies is None:
            return None
        whole = self.without(-1)
        if (replies, held) == whole:
            at = self.under_way(number)
            if at is None:
                return "start, the same"
            return f"passed over by {self.line(at)}" if PASSES.match(self.line(at)) else None
        refused = [at for at, reply in enumerate(replies) if reply.startswith(b"HTTP/1.1 503 ") and (reply.endswith(REFUSED) or self.is_head(at))]
        if len(refused) != 1:
            return None
        left = [reply for at, reply in enumerate(replies) if at != refused[0]]
        return f"503 {self.line(refused[0])}" if (left, held) == self.without(refused[0]) else None

    def may_end(self):
        """How many refused allocations may end a connection behind its first replies."""
        return 0

    def is_head(self, at):
        return self.requests[at].startswith(b"HEAD")

    def line(self, at):
        return self.requests[at].split(b" HTTP")[0].decode()


class Connection(Stream):
    """The same by a connection of `serve`."""

    def served(self, requests, more):
        with socket.socket() as free:
            free.bind(("127.0.0.1", 0))
            port = free.getsockname()[1]
        words = [self.program, "serve", self.disk, "--port", str(port), "--connections", "1", *self.more]
        child = subprocess.Popen(words, stdout=subprocess.PIPE, stderr=subprocess.PIPE, env=more)
        read = b""
        if child.stdout.readline():
            with socket.create_connection(("127.0.0.1", port), timeout=60) as peer:
                read = self.replies_to(peer, requests)
        _, told = child.communicate(timeout=60)
        return child.returncode, read, told

    def replies_to(self, peer, requests):
        """What the peer of a connection reads."""
        return asked(peer, b"".join(requests))

    def effect(self, number, outcome):
        """What a refused allocation did, or None if that is none of the effects that it may have."""
        _, ended, replies, held = outcome
        if ended in (NOT_KEPT, NO_LISTENER):
            with open(self.first, "rb") as file:
                return "start" if file.read() == held else None
        if ended[0] == 0 and (replies, held) == self.without(-1):
            return super().effect(number, outcome) or "passed over by a reply"
        return self.end_of(ended, held) or super().effect(number, outcome)

    def end_of(self, ended, held):
        """How a connection ended for want of memory behind its first replies, if it may end so. Nothing behind them is done."""
        end = ENDED.fullmatch(ended[2])
        if ended[0] != 0 or not end or int(end.group(1)) >= len(self.requests):
            return None
        count = int(end.group(1))
        before = b"".join(self.without(-1)[0][:count])
        behind = ended[1].removeprefix(before)
        if before + behind != ended[1] or self.left_by(count) != held:
            return None
        return f"ended: {self.line(count)}" if self.ends_by(count, behind) else None

    def left_by(self, count):
        """The disk that the first requests leave."""
        if count not in self.left:
            self.left[count] = self.run(self.requests[:count])[3]
        return self.left[count]

    def ends_by(self, at, behind):
        """Whether a connection may end by these bytes of the reply to a request: by its front, if the rest of its content is read in parts."""
        reply = self.without(-1)[0][at]
        return FIRST_BYTES - SECTOR < len(behind) < len(reply) and reply.startswith(behind)

    def may_end(self):
        """How many refused allocations may end a connection behind its first replies: one for each download, whose first part takes memory."""
        return sum(self.line(at) == "GET /map.pmtiles" and len(reply) > FIRST_BYTES for at, reply in enumerate(self.without(-1)[0]))


class Kept(Connection):
    """The same by one that has each request once the one before was answered."""

    def replies_to(self, peer, requests):
        """What the peer of a connection reads."""
        read = b""
        try:
            for number, each in enumerate(requests, 1):
                peer.sendall(each)
                while replies_of(requests[:number], read) is None:
                    more = peer.recv(65536)
                    read += more
                    if not more:
                        return read
            return read + asked(peer, b"")
        except OSError:
            return read

    def ends_by(self, at, behind):
        return behind == LAST

    def may_end(self):
        """Two for the connection and its place, and one for what was read of each request: these are kept."""
        return 2 + len(self.requests)


def asked(peer, requests):
    """What a peer reads that sends requests and then no more; nothing where the connection is reset before its end."""
    try:
        peer.sendall(requests)
        peer.shutdown(socket.SHUT_WR)
        return b"".join(iter(lambda: peer.recv(65536), b""))
    except OSError:
        return b""


def tried(name, stream):
    """Refuses each allocation of a stream in turn, prints what that did, and returns the number of allocations and of bad effects."""
    effects, bad = collections.Counter(), 0
    last = stream.run(stream.requests)[0]
    for number in range(1, last + 1):
        outcome = stream.run(stream.requests, number)
        effect = stream.effect(number, outcome)
        effects[effect] += 1
        if effect is None:
            bad += 1
            print(f"{name}: BAD: allocation {number}, request {stream.under_way(number)}: {outcome[1][0]} {outcome[1][2]!r} {outcome[1][1][:300]!r}")
    kinds = {kind: sum(times for effect, times in effects.items() if effect and effect.startswith(kind)) for kind in ("start", "503", "passed over", "ended")}
    if kinds["ended"] > stream.may_end():
        bad += kinds["ended"] - stream.may_end()
        print(f"{name}: BAD: {kinds['ended']} refused allocations end the connection, and {stream.may_end()} may")
    print(f"{name}: {len(stream.requests)} requests, {last} allocations: {kinds}, {bad} bad")
    for effect, times in effects.items():
        if effect and effect.startswith(("passed over", "ended")):
            print(f"    {times} times: {effect}")
    return last, bad
