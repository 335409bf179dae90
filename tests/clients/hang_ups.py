"""The part `hang-ups` of run.py: clients that ask for a large tile or a publication, and hang up before the reply."""
import http.client
import json
import multiprocessing
import os
import random
import select
import selectors
import shutil
import signal
import socket
import struct
import threading
import time

from .meanwhile import BEGIN, WHOLE, answer, has_begun, looked_at, status_of
from .stand import Cases, Server, curl, feature

# A map of more than 1,024 features, each with points in all tiles of zooms 0 and 1: each of these tiles is made by
# parts.
FEATURES, BATCH, POINTS = 8192, 64, 30
# How many seconds others wait at most for a large tile, and for a publication.
BOUND = 5
# After how many seconds clients hang up whose tile is made beside editors.
HELD = [0.01 * step for step in range(16)]
FIRST, SECOND, THIRD, OTHER = NAMES = ["0/0/0", "1/0/0", "1/1/1", "1/0/1"]


def tile_of(name):
    """A request for a tile."""
    return f"GET /map/{name}.mvt HTTP/1.1\r\nhost: x\r\n\r\n".encode()


A, B, C = tile_of(FIRST), tile_of(SECOND), tile_of(THIRD)
# Requests for publications and a tile that their heads refuse, and the replies' status.
REFUSED = [
    ("413 Body", WHOLE.replace(b"\r\n\r\n", b"\r\ncontent-length: 65537\r\n\r\n"), 413),
    ("501 Coding", BEGIN.replace(b"\r\n\r\n", b"\r\ntransfer-encoding: chunked\r\n\r\n"), 501),
    ("417 Expect", WHOLE.replace(b"\r\n\r\n", b"\r\nexpect: something\r\n\r\n"), 417),
    ("400 Host", b"POST /publish HTTP/1.1\r\n\r\n", 400),
    ("400 Head", BEGIN.replace(b"\r\n\r\n", b"\r\nno field\r\n\r\n"), 400),
    ("400 Head, of a tile", A.replace(b"\r\n\r\n", b"\r\nno field\r\n\r\n"), 400),
]
# Who asks for what, in this order, and which of them hang up, in this order.
ROWS = [
    ("the client whose tile is made", [A], [0]),
    ("the client whose tile is made, with another request behind it", [A + B], [0]),
    ("the client whose tile is made, while another waits", [A, B], [0]),
    ("a client that waits for another's tile", [A, B], [1]),
    ("two that wait", [A, B, C], [1, 2]),
    ("two that wait, the later one first", [A, B, C], [2, 1]),
    ("the client whose tile is made, and the first that waits", [A, B, C], [0, 1]),
    ("the first that waits, and the client whose tile is made", [A, B, C], [1, 0]),
    ("the client whose tile is made, and the last that waits", [A, B, C], [0, 2]),
    ("all three", [A, B, C], [0, 1, 2]),
    ("all three, the last one first", [A, B, C], [2, 1, 0]),
    ("who publishes", [WHOLE], [0]),
    ("who begins a publication", [BEGIN], [0]),
    ("who publishes, then who wants a tile", [WHOLE, A], [0, 1]),
    ("who wants a tile, then who publishes", [A, WHOLE], [0, 1]),
    ("who publishes last, and first", [A, WHOLE], [1, 0]),
    ("who publishes, while another wants a tile", [WHOLE, A], [0]),
    ("who wants a tile, while another publishes", [WHOLE, A], [1]),
    ("two of each", [WHOLE, A, WHOLE, B], [0, 1, 2, 3]),
    ("two of each, the last one first", [A, WHOLE, B, WHOLE], [3, 2, 1, 0]),
    ("who publishes, while another waits to", [WHOLE, WHOLE], [0]),
    ("who waits to publish", [WHOLE, WHOLE], [1]),
    ("who publishes, and who waits to", [WHOLE, WHOLE], [0, 1]),
    ("two that wait to publish", [WHOLE, WHOLE, WHOLE], [1, 2]),
    ("who publishes, and the first of two that wait to", [WHOLE, WHOLE, WHOLE], [0, 1]),
    ("who publishes, while another waits to begin", [WHOLE, BEGIN], [0]),
    ("who waits to begin", [WHOLE, BEGIN], [1]),
    ("who begins, and who waits to publish", [BEGIN, WHOLE], [0, 1]),
]


def spread(number):
    """A feature with points in the whole world, by chance."""
    chance = random.Random(number)
    places = [[chance.randrange(2**32), chance.randrange(2**32)] for _ in range(POINTS)]
    return feature(last=1, geometry={"points": places})


def fill(server):
    """Puts them, by batches."""
    connection = http.client.HTTPConnection("127.0.0.1", server.port)
    for first in range(0, FEATURES, BATCH):
        changes = [{"put": number, "feature": json.loads(spread(number))} for number in range(first, first + BATCH)]
        connection.request("POST", "/edits", json.dumps({"changes": changes}, separators=(",", ":")))
        connection.getresponse().read()
    connection.close()


class Looker:
    """A client that looks at a feature: whatever was sent before two looks was read before their replies, and had
    its turn."""

    def __init__(self, server):
        self.connection = http.client.HTTPConnection("127.0.0.1", server.port)

    def look(self):
        for _ in range(2):
            self.connection.request("GET", "/features/1")
            self.connection.getresponse().read()

    def left(self):
        """What is left of the publication under way. To start curl takes as long as to write a small one."""
        self.connection.request("GET", "/admin/status")
        return json.loads(self.connection.getresponse().read())["left"]

    def change(self, number):
        """An edit of a feature that is in each tile, so that none is cached."""
        self.connection.request("PUT", "/features/0", spread(FEATURES + number))
        self.connection.getresponse().read()


class Editor(threading.Thread):
    """A client that changes that feature without a pause."""

    def __init__(self, server):
        super().__init__(daemon=True)
        self.looker, self.count, self.is_over = Looker(server), 0, False

    def run(self):
        while not self.is_over:
            self.looker.change(self.count)
            self.count += 1

    def __enter__(self):
        self.start()
        return self

    def __exit__(self, *fault):
        self.is_over = True
        self.join()
        self.looker.connection.close()


def hang_up(stream, resets):
    """Closes a connection, or resets it."""
    if resets:
        stream.setsockopt(socket.SOL_SOCKET, socket.SO_LINGER, struct.pack("ii", 1, 0))
    stream.close()


def reply_in_time(stream):
    """The reply that comes next, or what is said of one that doesn't."""
    try:
        return answer(stream)
    except TimeoutError:
        return 0, b"no reply in time"


class Stand:
    """A server with that map, and what is seen of it."""

    def __init__(self, cases, folder, server):
        self.cases, self.folder, self.server = cases, folder, server
        self.looker, self.version, self.fresh, self.times = Looker(server), 0, {}, []
        fill(server)

    def change(self):
        """Has the map in the other one of its two versions. No tile is cached then."""
        self.version = 1 - self.version
        self.looker.change(self.version)

    def connected(self):
        stream = socket.create_connection(("127.0.0.1", self.server.port))
        stream.settimeout(BOUND)
        return stream

    def asked(self, requests):
        """A connection for each request, in this order. All were read."""
        streams = []
        for request in requests:
            streams.append(self.connected())
            streams[-1].sendall(request)
        self.looker.look()
        return streams

    def wanted(self):
        """The tiles and the archive of this version of the map, as a server makes them that has just opened a copy
        of the disk."""
        if self.version not in self.fresh:
            copy = os.path.join(self.folder, "fresh")
            shutil.copyfile(self.server.disk, copy)
            with Server(self.folder, "fresh") as other:
                curl(other.url + "/publish", "-X", "POST")
                tiles = {tile_of(name): curl(f"{other.url}/map/{name}.mvt")[2] for name in NAMES}
                self.fresh[self.version] = tiles, curl(other.url + "/map.pmtiles")[2]
            os.remove(copy)
        return self.fresh[self.version]

    def tile(self):
        """The reply to another client that wants a large tile, and how long it takes."""
        with self.connected() as other:
            since = time.monotonic()
            other.sendall(tile_of(OTHER))
            return *reply_in_time(other), time.monotonic() - since

    def published(self):
        """How a publication by another client ends, and how long it takes. One that somebody has begun who is gone
        is cancelled before."""
        with self.connected() as other:
            since = time.monotonic()
            other.sendall(WHOLE)
            status, told = reply_in_time(other)
            if (status, told) == (409, b"Busy\n"):
                curl(self.server.url + "/publish/cancel", "-X", "POST")
                other.sendall(WHOLE)
                status, told = reply_in_time(other)
            return status, time.monotonic() - since

    def others_are_served(self, name, staying=()):
        """Another client gets a large tile, and publishes, in time; those that stay get what they have asked for."""
        status, tile, took = self.tile()
        replies = [(request, *reply_in_time(stream)) for request, stream in staying]
        ended, published_in = self.published()
        archive = curl(self.server.url + "/map.pmtiles")[2]
        tiles, whole = self.wanted()
        self.times.append((took, published_in))
        self.cases.show(
            f"{name}: another client gets its tile",
            [status, tile == tiles[tile_of(OTHER)], took < BOUND],
            [200, True, True],
        )
        self.cases.show(f"{name}: and publishes", [ended, archive == whole, published_in < BOUND], [200, True, True])
        if staying:
            right = [status == 200 and content == tiles.get(request, content) for request, status, content in replies]
            self.cases.show(f"{name}: who stays gets a reply", right, [True] * len(replies))

    def row(self, name, requests, leavers, resets):
        """Some hang up before their replies. If one had its reply before, all is done again, once nothing is made
        any more: a tile takes 20 ms."""
        for _ in range(20):
            self.change()
            streams = self.asked(requests)
            early = [place for place in leavers if select.select([streams[place]], [], [], 0)[0]]
            for place in leavers:
                hang_up(streams[place], resets)
            if not early:
                break
            self.tile()
            self.published()
        name = f"{name}, {'reset' if resets else 'closed'}"
        self.cases.show(f"{name}: no reply had come", early, [])
        left = [place for place in range(len(requests)) if place not in leavers]
        self.others_are_served(name, [(requests[place], streams[place]) for place in left])
        for place in left:
            streams[place].close()

    def while_written(self, resets, waits):
        """Who publishes hangs up while the sectors are written, and maybe others that wait. If it was over before,
        all is done again."""
        for _ in range(100):
            self.change()
            streams = self.asked([WHOLE])
            looked_at(self.server, has_begun)
            streams += self.asked([WHOLE, A] if waits else [])
            is_written = self.looker.left() is not None
            for stream in streams:
                hang_up(stream, resets)
            if is_written:
                break
            self.published()
        name = (
            f"who publishes, while it is written{', and others that wait' if waits else ''},"
            f" {'reset' if resets else 'closed'}"
        )
        self.cases.show(f"{name}: it wasn't over", is_written, True)
        self.others_are_served(name)

    def nothing_is_written(self):
        """Of a publication that is prepared, and of one that has begun, no byte is on the disk, also after its asker
        is gone and the process killed."""
        with open(self.server.disk, "rb") as disk:
            for _ in range(100):
                self.change()
                disk.seek(0)
                before = disk.read()
                stream = self.asked([BEGIN])[0]
                drafting = status_of(self.server)["drafting"]
                if drafting is not None:
                    break
                # On a busy machine it had begun before that was asked.
                stream.close()
                curl(self.server.url + "/publish/cancel", "-X", "POST")
            disk.seek(0)
            self.cases.show(
                "while a publication is prepared, the disk is as it was",
                [drafting is not None, disk.read() == before],
                [True, True],
            )
            hang_up(stream, True)
            begun, _ = looked_at(self.server, has_begun)
            self.server.end(signal.SIGKILL)
            disk.seek(0)
            self.cases.show(
                "once it has begun, and the server was killed, it is too",
                [begun[-1] > 0, disk.read() == before],
                [True, True],
            )

    def refused(self):
        """Of a publication whose request its head refuses nothing is prepared."""
        self.change()
        for name, request, wanted in REFUSED:
            before = status_of(self.server)
            with self.connected() as stream:
                stream.sendall(request)
                status, _ = reply_in_time(stream)
            found = [status, status_of(self.server) == before, before["drafting"], before["left"]]
            self.cases.show(f"{name}: nothing is prepared", found, [wanted, True, None, None])

    def many(self):
        """Sixty-four clients that each want one of the tiles hang up, in an order by chance."""
        self.change()
        streams = self.asked([tile_of(NAMES[place % 4]) for place in range(64)])
        random.Random(1).shuffle(streams)
        for stream in streams:
            hang_up(stream, False)
        self.others_are_served("sixty-four clients that want tiles")

    def held_edits(self):
        """Edits wait for a tile that they had begun anew so often, but not once its client is gone."""
        goes_on = []
        for pause in HELD:
            with Editor(self.server) as one, Editor(self.server) as other:
                stream, = self.asked([A])
                time.sleep(pause)
                hang_up(stream, True)
                before, until = (one.count, other.count), time.monotonic() + BOUND
                while min(one.count - before[0], other.count - before[1]) < 3 and time.monotonic() < until:
                    time.sleep(0.01)
                goes_on.append(time.monotonic() < until)
        self.cases.show(
            "beside two editors: their edits go on once the client is gone for whose tile they wait",
            goes_on,
            [True] * len(HELD),
        )
        self.change()
        self.others_are_served("after the two editors")

    def beside_an_editor(self):
        """The same beside a client that edits without a pause: each edit drops the tile in the making."""
        with Editor(self.server) as editor:
            for stream in self.asked([A, WHOLE, B, C]):
                hang_up(stream, True)
            before = editor.count
            status, _, took = self.tile()
            ended, published_in = self.published()
            edits = editor.count - before
        self.times.append((took, published_in))
        found = [status, took < BOUND, ended, published_in < BOUND, edits > 1]
        self.cases.show(
            "beside an editor: another client gets its tile, and publishes, and the edits go on",
            found,
            [200, True, 200, True, True],
        )
        self.change()
        self.others_are_served("after the editor")


def hang_ups(cases: Cases, folder: str) -> None:
    """Clients that are gone keep nobody from large tiles and publications."""
    with Server(folder, "hang-ups", 65536) as server:
        stand = Stand(cases, folder, server)
        for resets in (False, True):
            for name, requests, leavers in ROWS:
                stand.row(name, requests, leavers, resets)
            for waits in (False, True):
                stand.while_written(resets, waits)
        stand.refused()
        stand.many()
        stand.held_edits()
        stand.beside_an_editor()
        stand.nothing_is_written()
        stand.looker.connection.close()
        cases.say(
            f"the longest waits: for a tile {max(took for took, _ in stand.times):.2f} s, for a publication"
            f" {max(took for _, took in stand.times):.2f} s"
        )
    os.remove(server.disk)


def crowd(port, count):
    """Editors who change points far away, so fast that the server is never without a request."""
    ready, number = selectors.DefaultSelector(), 0

    def send(stream):
        body = feature("far", 5, 5, {"points": [[number, 5]]}).encode()
        stream.sendall(
            b"PUT /features/%d HTTP/1.1\r\nhost: x\r\ncontent-length: %d\r\n\r\n%s"
            % (9000 + number % count, len(body), body)
        )

    for _ in range(count):
        stream = socket.create_connection(("127.0.0.1", port))
        ready.register(stream, selectors.EVENT_READ)
        send(stream)
    while True:
        for key, _ in ready.select():
            key.fileobj.recv(65536)
            number += 1
            send(key.fileobj)


def shrinking(cases: Cases, folder: str) -> None:
    """A map comes down to 1,024 features while a large tile is made and another client waits for its own, and grows
    again. Neither of the two asks any more; another large tile is wanted beside twenty editors."""
    far = feature("far", 5, 5, {"points": [[1, 5]]})
    wide = feature(last=1, geometry={"points": [[0, 0], [2**31, 2**31], [2**32 - 1, 2**32 - 1]]})
    added = [{"put": 5000 + number, "feature": json.loads(wide)} for number in range(64)]
    with Server(folder, "shrinking", 262144) as server:
        editor = http.client.HTTPConnection("127.0.0.1", server.port)

        def edit(path, body, method="POST"):
            editor.request(method, path, body)
            return editor.getresponse().read()

        for number in range(1004):
            chance = random.Random(number)
            places = [[chance.randrange(2**32), chance.randrange(2**32)] for _ in range(600)]
            edit(f"/features/{number}", feature(last=1, geometry={"points": places}), "PUT")
        edit(
            "/edits",
            json.dumps({"changes": [{"put": 9000 + number, "feature": json.loads(far)} for number in range(20)]}),
        )
        edit("/edits", json.dumps({"changes": added}))
        streams = [socket.create_connection(("127.0.0.1", server.port)) for _ in range(2)]
        for stream, request in zip(streams, (A, B)):
            stream.sendall(request)
        edit("/features/1", b"", "GET")
        edit("/edits", json.dumps({"changes": [{"delete": 5000 + number} for number in range(64)]}))
        cases.show("the map shrinks: both get their tiles", [answer(stream)[0] for stream in streams], [200, 200])
        edit("/edits", json.dumps({"changes": added}))
        editors = multiprocessing.Process(target=crowd, args=(server.port, 20), daemon=True)
        editors.start()
        with socket.create_connection(("127.0.0.1", server.port)) as other:
            time.sleep(1)
            other.settimeout(BOUND)
            other.sendall(tile_of(OTHER))
            cases.show("the map shrinks, and grows: another client gets its tile in time", reply_in_time(other)[0], 200)
        editors.terminate()
        editors.join()
    os.remove(server.disk)
