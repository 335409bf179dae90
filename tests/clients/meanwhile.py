"""The part `meanwhile` of run.py: what is served while a publication is prepared."""
import concurrent.futures
import http.client
import itertools
import json
import os
import random
import select
import socket
import time
from typing import Any, Iterator

from .stand import JSON, Cases, Server, curl, feature, refusal, same, wanted

POINTS, BATCH = 4096, 32
BEGIN = b"POST /publish/begin HTTP/1.1\r\nhost: x\r\n\r\n"
WHOLE = b"POST /publish HTTP/1.1\r\nhost: x\r\n\r\n"
STEP = b"POST /publish/step HTTP/1.1\r\nhost: x\r\n\r\n"


def fill(server):
    """Puts points at all zooms, by chance: many tiles."""
    chance = random.Random(7)
    for first in range(0, POINTS, BATCH):
        places = [[chance.randrange(2**32), chance.randrange(2**32)] for _ in range(BATCH)]
        made = [
            {"put": first + at, "feature": json.loads(feature(last=12, geometry={"points": [place]}))}
            for at, place in enumerate(places)
        ]
        reply = curl(server.url + "/edits", body=json.dumps({"changes": made}))
    return reply


def named(server, number, layer):
    """Puts a point that is alone in its layer."""
    return curl(f"{server.url}/features/{number}", "-X", "PUT", body=feature(layer=layer))


def layers(archive):
    """The layers that the metadata of an archive name."""
    at, size = (int.from_bytes(archive[place:place + 8], "little") for place in (24, 32))
    return {row["id"] for row in json.loads(archive[at:at + size])["vector_layers"]}


def answer(asker):
    """Status and content of the reply that comes next."""
    reply = http.client.HTTPResponse(asker)
    reply.begin()
    return reply.status, reply.read()


def others(server, asker):
    """How many looks and edits were answered before anything came for who asks, and whether each was right. They are
    asked on one connection: a process for each would take as long as the publication."""
    count, right = 0, True
    other = http.client.HTTPConnection("127.0.0.1", server.port)

    def is_done(method, body=None):
        other.request(method, f"/features/{POINTS + 10 + count}", body)
        reply = other.getresponse()
        reply.read()
        return reply.status == 200

    while not select.select([asker], [], [], 0)[0]:
        right = right and is_done("PUT", feature(layer="meanwhile")) and is_done("GET")
        count += 1
    other.close()
    return count, right


def published(server):
    """Makes the steps that are left, and reads the archive."""
    while json.loads(curl(server.url + "/publish/step", "-X", "POST")[2])["left"]:
        pass
    return curl(server.url + "/map.pmtiles")[2]


def told_as(archive, status):
    """What the reply to a whole publication tells, by the archive and the status after it."""
    return {"archive": len(archive), "edits": status["published"], "generation": status["generation"]}


def status_of(server):
    return json.loads(curl(server.url + "/admin/status")[2])


def whole(cases: Cases, folder: str) -> None:
    """A whole publication, which is prepared so too, and then written by steps between other replies."""
    with Server(folder, "whole", 65536) as server:
        fill(server)
        named(server, POINTS, "before")
        with socket.create_connection(("127.0.0.1", server.port)) as asker, socket.create_connection(
            ("127.0.0.1", server.port)
        ) as second:
            asker.sendall(WHOLE)
            count, right = others(server, asker)
            cases.show(
                "edits and looks are answered while a whole publication is prepared", (count > 1, right), (True, True)
            )
            status, told = answer(asker)
            archive, after = curl(server.url + "/map.pmtiles")[2], status_of(server)
            cases.show("its reply tells of its archive", (status, json.loads(told)), (200, told_as(archive, after)))
            cases.show(
                "it has the edits before it",
                (json.loads(told)["edits"], after["edits"]),
                (POINTS // BATCH + 1, POINTS // BATCH + 1 + count),
            )
            cases.show(
                "its archive has what was acknowledged before, and nothing later",
                layers(archive) & {"before", "meanwhile"},
                {"before"},
            )
            asker.sendall(WHOLE)
            second.sendall(WHOLE)
            found = [answer(asker), answer(second)]
            cases.show("of two whole publications each is made", [status for status, _ in found], [200, 200])
            cases.show("one after the other", sorted(json.loads(told)["generation"] for _, told in found), [2, 3])
            archive = curl(server.url + "/map.pmtiles")[2]
            cases.show(
                "the archive has the edits since", layers(archive) & {"before", "meanwhile"}, {"before", "meanwhile"}
            )
            asker.sendall(WHOLE)
            second.sendall(BEGIN)
            found = answer(asker), answer(second)
            both = ([200, 200], [409, 200])
            cases.show(
                "a beginning beside it waits for it, or it for the beginning",
                [status for status, _ in found] in both,
                True,
            )
            curl(server.url + "/publish/cancel", "-X", "POST")
            asker.sendall(WHOLE)
            same(
                cases,
                "a cancellation of what is prepared for it",
                curl(server.url + "/publish/cancel", "-X", "POST"),
                refusal(409, "Idle"),
            )
            cases.show("it goes on", answer(asker)[0], 200)
            asker.sendall(WHOLE)
            named(server, POINTS + 1, "late")
            second.sendall(b"\r\n" + WHOLE)
            cases.show(
                "one behind an empty line isn't answered by what is prepared for another", answer(second)[0], 200
            )
            cases.show("it has each edit before it", "late" in layers(curl(server.url + "/map.pmtiles")[2]), True)
            cases.show("and the other one is made", answer(asker)[0], 200)
            second.sendall(WHOLE)
        with socket.create_connection(("127.0.0.1", server.port)) as asker:
            asker.sendall(WHOLE)
            status, told = answer(asker)
            cases.show("another one publishes after who asked is gone", status, 200)
            archive = curl(server.url + "/map.pmtiles")[2]
            cases.show("and is told of its archive", json.loads(told), told_as(archive, status_of(server)))
    os.remove(server.disk)


def fill_large(server):
    """Puts features of 30 KB, so that a publication writes 12,000 sectors."""
    for number in range(100):
        tags = {f"k{at}": f"{number} {at} " + "x" * 1000 for at in range(30)}
        curl(f"{server.url}/features/{number}", "-X", "PUT", body=feature(last=0, tags=tags))


def looked_at(server, is_over):
    """What of the publication is left whenever the status is asked for, on one connection, until something is over,
    and the longest wait for it."""
    found, longest = [], 0.0
    other = http.client.HTTPConnection("127.0.0.1", server.port)
    while not is_over(found):
        start = time.monotonic()
        other.request("GET", "/admin/status")
        found.append(json.loads(other.getresponse().read())["left"])
        longest = max(longest, time.monotonic() - start)
    other.close()
    return found, longest


def has_begun(found):
    return found[-1:] != [] and found[-1] is not None


def written(cases: Cases, folder: str) -> None:
    """A whole publication whose steps are made between other replies, beside other calls of a publication, and one
    whose asker goes away."""
    with Server(folder, "written", 65536) as server:
        fill_large(server)
        with socket.create_connection(("127.0.0.1", server.port)) as asker, socket.create_connection(
            ("127.0.0.1", server.port)
        ) as second:
            asker.sendall(WHOLE)
            found, longest = looked_at(server, lambda _: select.select([asker], [], [], 0)[0])
            lefts = sorted({left for left in found if left is not None}, reverse=True)
            cases.show("a whole publication of some MB is made", answer(asker)[0], 200)
            cases.show("others are answered while its sectors are written", len(lefts) > 2, True)
            cases.show(
                "each step is 64 sectors less", {(one - other) % 64 for one, other in zip(lefts, lefts[1:])}, {0}
            )
            cases.show("nobody waits for a second", longest < 1, True)
            asker.sendall(WHOLE)
            looked_at(server, has_begun)
            second.sendall(STEP)
            cases.show("a step beside it waits until it is over, and is refused", answer(second), (409, b"Idle\n"))
            cases.show("and it is made", (answer(asker)[0], status_of(server)["generation"]), (200, 2))
            asker.sendall(WHOLE)
            looked_at(server, has_begun)
        with socket.create_connection(("127.0.0.1", server.port)) as asker:
            asker.sendall(WHOLE)
            status, told = answer(asker)
            archive = curl(server.url + "/map.pmtiles")[2]
            cases.show(
                "another one is made after who asked is gone",
                (status, json.loads(told)),
                (200, told_as(archive, status_of(server))),
            )
            asker.sendall(WHOLE)
            looked_at(server, has_begun)
        with socket.create_connection(("127.0.0.1", server.port)) as asker:
            asker.sendall(BEGIN)
            cases.show("and a beginning is answered", answer(asker)[0], 200)
            same(cases, "which is anybody's to cancel", curl(server.url + "/publish/cancel", "-X", "POST"), wanted(204))
    os.remove(server.disk)


def fill_tile(server):
    """Puts 1,200 points of 3 KB in one place, so that a tile that has them has more than 3 MiB, and makes the tiles."""
    other = http.client.HTTPConnection("127.0.0.1", server.port)
    for number in range(1200):
        body = feature(
            first=1,
            geometry={"points": [[2**28 + number, 2**28]]},
            tags={f"k{at}": f"{number} {at} " + "x" * 1000 for at in range(3)},
        )
        other.request("PUT", f"/features/{number}", body)
        other.getresponse().read()
    other.close()


def tile_of(server, path, method="GET"):
    """Status, length and content of a reply to a request for a tile."""
    other = http.client.HTTPConnection("127.0.0.1", server.port)
    other.request(method, path)
    reply = other.getresponse()
    found = reply.status, int(reply.getheader("content-length")), reply.read()
    other.close()
    return found


def both_tiles(server, paths):
    """The tiles at two paths, asked for on two connections, and how many edits elsewhere were made meanwhile, each
    of which was acknowledged."""
    count, right = 0, True
    other = http.client.HTTPConnection("127.0.0.1", server.port)
    with socket.create_connection(("127.0.0.1", server.port)) as asker, socket.create_connection(
        ("127.0.0.1", server.port)
    ) as second:
        for stream, path in zip((asker, second), paths):
            stream.sendall(f"GET {path} HTTP/1.1\r\nhost: x\r\n\r\n".encode())
        while count < 3 or not select.select([second], [], [], 0)[0]:
            other.request(
                "PUT",
                f"/features/{2000 + count}",
                feature(first=1, geometry={"points": [[2**31 + 2**30, 2**31 + 2**30]]}),
            )
            reply = other.getresponse()
            reply.read()
            count, right = count + 1, right and reply.status == 200
        found = [answer(asker), answer(second)]
    other.close()
    return found, right


def large_tile(cases: Cases, folder: str) -> None:
    """Tiles of more than 2 MiB of the archive, which are read by parts beside each other and beside edits elsewhere."""
    paths = ["/map/1/0/0.mvt", "/map/2/0/0.mvt"]
    with Server(folder, "large_tile", 65536) as server:
        fill_tile(server)
        made = [(200, tile_of(server, path)[2]) for path in paths]
        cases.show("tiles of more than 2 MiB", [len(tile) > 2 * 2**20 for _, tile in made], [True, True])
        cases.show("they are published", curl(server.url + "/publish", "-X", "POST")[0], "HTTP/1.1 200 OK")
    with Server(folder, "large_tile", 65536) as server:
        cases.show("HEAD of one of the archive", tile_of(server, paths[0], "HEAD"), (200, len(made[0][1]), b""))
    with Server(folder, "large_tile", 65536) as server:
        found, right = both_tiles(server, paths)
        cases.show("two of the archive, read beside each other, are the same", found == made, True)
        cases.show("and edits elsewhere are made meanwhile", right, True)
        cases.show(
            "they are the same after these edits", [(200, tile_of(server, path)[2]) for path in paths] == made, True
        )
        curl(server.url + "/features/5", "-X", "DELETE")
        changed = [(200, tile_of(server, path)[2]) for path in paths]
        cases.show(
            "an edit of theirs is in them",
            [len(old) > len(new) > 0 for (_, old), (_, new) in zip(made, changed)],
            [True, True],
        )
        with socket.create_connection(("127.0.0.1", server.port)) as asker:
            asker.sendall(f"GET {paths[0]} HTTP/1.1\r\nhost: x\r\n\r\n".encode())
            curl(server.url + "/publish", "-X", "POST")
            cases.show("one that is asked for beside a publication", answer(asker) == changed[0], True)
    with Server(folder, "large_tile", 65536) as server:
        cases.show("they are in the next archive", both_tiles(server, paths) == (changed, True), True)
    os.remove(server.disk)


def again_and_again(server: Server, until: float, asked: Iterator[tuple[Any, ...]]) -> list[tuple[int, bytes]]:
    """The replies to requests that `asked` gives, one after the other on one connection until a time."""
    found, connection = [], http.client.HTTPConnection("127.0.0.1", server.port)
    while time.monotonic() < until:
        connection.request(*next(asked))
        reply = connection.getresponse()
        found.append((reply.status, reply.read()))
    connection.close()
    return found


def text_with(layer: str) -> bytes:
    """The metadata of a map with features in this layer and in `p`, on the same zooms and without tags."""
    layers = [{"fields": {}, "id": name, "maxzoom": 2, "minzoom": 0} for name in (layer, "p")]
    return json.dumps({"vector_layers": layers}, separators=(",", ":")).encode()


def metadata_beside_editors(cases: Cases, folder: str) -> None:
    """Metadata that two ask for again and again while two others edit without a pause: nobody waits for ever, and each
    text is that of some edit."""
    changes = [("PUT", "/features/0", feature(layer=layer)) for layer in "ab"]
    with Server(folder, "metadata", 16384) as server:
        for first in range(0, 20_000, 64):
            numbers = range(first, min(first + 64, 20_000))
            made = [{"put": number, "feature": json.loads(feature())} for number in numbers]
            curl(server.url + "/edits", body=json.dumps({"changes": made}))
        curl(server.url + "/features/0", "-X", "PUT", body=changes[0][2])
        looks: list[tuple[Any, ...]] = [("GET", "/map/metadata")]
        until = time.monotonic() + 2
        with concurrent.futures.ThreadPoolExecutor(4) as pool:
            pending = [
                pool.submit(again_and_again, server, until, itertools.cycle(asked))
                for asked in (looks, looks, changes, changes)
            ]
            *readers, one, other = [replies.result(60) for replies in pending]
        several = [len(found) > 4 for found in readers]
        cases.show("two readers of metadata beside two editors get several", several, [True, True])
        told = {reply for found in readers for reply in found}
        cases.show("each is of the map of then", told <= {(200, text_with(layer)) for layer in "ab"}, True)
        made_on = [len(found) > 4 and {status for status, _ in found} == {200} for found in (one, other)]
        cases.show("and the editors go on", made_on, [True, True])
        curl(server.url + "/features/0", "-X", "PUT", body=changes[1][2])
        told_last = curl(server.url + "/map/metadata")[2]
        cases.show("then they are those of the last edit", told_last, text_with("b"))
    os.remove(server.disk)


def meanwhile(cases: Cases, folder: str) -> None:
    """Publications that are prepared by a tile at a time, between which edits and looks are answered, large
    tiles that are read by parts, and metadata that are made by steps."""
    begun(cases, folder)
    whole(cases, folder)
    written(cases, folder)
    large_tile(cases, folder)
    metadata_beside_editors(cases, folder)


def begun(cases: Cases, folder: str) -> None:
    """A publication by steps, whose beginning is prepared so."""
    with Server(folder, "meanwhile", 65536) as server:
        same(cases, "4,096 points", fill(server), wanted(200, JSON, f'{{"edit":{POINTS // BATCH}}}'))
        named(server, POINTS, "before")
        with socket.create_connection(("127.0.0.1", server.port)) as asker, socket.create_connection(
            ("127.0.0.1", server.port)
        ) as second:
            asker.sendall(BEGIN)
            count, right = others(server, asker)
            cases.show("edits and looks are answered while a publication is prepared", (count > 1, right), (True, True))
            status, told = answer(asker)
            cases.show("its beginning is answered", (status, list(json.loads(told))), (200, ["left"]))
            archive = published(server)
            cases.show(
                "its archive has what was acknowledged before, and nothing later",
                layers(archive) & {"before", "meanwhile"},
                {"before"},
            )
            asker.sendall(BEGIN)
            second.sendall(BEGIN)
            found = sorted([answer(asker), answer(second)])
            cases.show(
                "of two beginnings one is refused",
                ([status for status, _ in found], found[1][1]),
                ([200, 409], b"Busy\n"),
            )
            cases.show(
                "its archive has the edits since",
                layers(published(server)) & {"before", "meanwhile"},
                {"before", "meanwhile"},
            )
            asker.sendall(BEGIN)
            same(
                cases,
                "a cancellation of what is prepared",
                curl(server.url + "/publish/cancel", "-X", "POST"),
                refusal(409, "Idle"),
            )
            cases.show("the beginning goes on", answer(asker)[0], 200)
            curl(server.url + "/publish/cancel", "-X", "POST")
            second.sendall(BEGIN)
        with socket.create_connection(("127.0.0.1", server.port)) as asker:
            asker.sendall(BEGIN)
            status, told = answer(asker)
            if (status, told) == (409, b"Busy\n"):
                # (who is gone had asked first, and its publication began: it is anybody's to cancel)
                same(
                    cases,
                    "a publication whose asker is gone",
                    curl(server.url + "/publish/cancel", "-X", "POST"),
                    wanted(204),
                )
                asker.sendall(BEGIN)
                status, told = answer(asker)
            cases.show("another one publishes after who asked is gone", status, 200)
    os.remove(server.disk)
