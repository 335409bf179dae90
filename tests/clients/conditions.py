"""The part `tags` of run.py: entity tags, and conditions on them, of a server with --etags."""
import http.client
import os
import random
import re
import shutil
import subprocess

from .stand import BYTES, JSON, Cases, Server, archive, curl, feature, field, refusal, same, status_of, wanted

# What changes the map or publishes it, and is refused under a condition that names a tag.
CHANGES = [
    ("/features/7", "PUT"),
    ("/features/7", "DELETE"),
    ("/edits", "POST"),
    ("/publish", "POST"),
    ("/publish/begin", "POST"),
    ("/publish/cancel", "POST"),
    ("/admin/edits", "POST"),
]

# A wide map: a box of so many tiles of this zoom in a row, 200 km at the equator; of them so many have a point, and
# so many edits are made anywhere. A cell in which edits are noted is half a tile wide.
ZOOM, ROW, TILES, EDITS = 14, 82, 100, 300
SIDE = 2 ** (32 - ZOOM)
CELLS = 3


def tags(cases: Cases, folder: str) -> None:
    """Entity tags and conditions, with --etags."""
    wide_map(cases, folder)
    with Server(folder, "tags", more=["--admin", "--etags"]) as server:
        url = server.url
        reply = curl(url + "/features/7", "-X", "PUT", "-H", "If-Match: *", body=feature())
        same(cases, "a PUT under if-match: * of what isn't there", reply, refusal(412, "Condition"))
        reply = curl(url + "/features/7", "-X", "PUT", "-H", "If-None-Match: *", body=feature())
        same(cases, "a PUT under if-none-match: * of what isn't there", reply, wanted(200, JSON, '{"edit":1}'))
        reply = curl(url + "/features/7", "-X", "PUT", "-H", "If-None-Match: *", body=feature("q"))
        same(cases, "and of what is there", reply, refusal(412, "Condition"))
        tile = curl(url + "/map/0/0/0.mvt")
        tag = field(tile, "etag")
        cases.show("a tile has a weak tag", re.fullmatch(r'W/"[1-9][0-9]*-1"', tag) is not None, True)
        for value, status in ((tag, 304), (tag[2:], 304), (f'"a", {tag}', 304), ('W/"1-1"', 200)):
            cases.show(
                f"a tile under if-none-match: {value}",
                status_of(curl(url + "/map/0/0/0.mvt", "-H", f"If-None-Match: {value}")),
                status,
            )
        whole = archive()
        curl(url + "/publish", "-X", "POST")
        tag = [("etag", f'"1-1-{len(whole)}"')]
        same(cases, "the archive, with its tag", curl(url + "/map.pmtiles"), wanted(200, BYTES, whole, more=tag))
        for value in (tag[0][1], '"1-1-1"'):
            reply = curl(url + "/map.pmtiles", "-H", "Range: bytes=0-6", "-H", f"If-Range: {value}")
            same(cases, f"a part under if-range: {value}", reply, wanted(200, BYTES, whole, more=tag))
        archive_under_conditions(cases, url, whole, tag)
        curl(url + "/publish", "-X", "POST")
        before, tag = tag[0][1], [("etag", f'"2-1-{len(whole)}"')]
        same(
            cases,
            "another archive has another tag",
            curl(url + "/map.pmtiles", "-H", f"If-None-Match: {before}"),
            wanted(200, BYTES, whole, more=tag),
        )
        mirror(cases, "", folder, url)
        for condition in ('If-Match: "x"', 'If-None-Match: "a"'):
            for path, method in CHANGES:
                reply = curl(url + path, "-X", method, "-H", condition, body=feature())
                same(cases, f"{method} {path} under {condition}", reply, refusal(412, "Condition"))
        same(
            cases,
            "a DELETE under if-match: *",
            curl(url + "/features/7", "-X", "DELETE", "-H", "If-Match: *"),
            wanted(200, JSON, '{"edit":2}'),
        )
        curl(url + "/features/8", "-X", "PUT", body=feature("deep", 10, 12, {"points": [[2**31, 2**31]]}))
        tag = field(curl(url + "/map/0/0/0.mvt", "--head"), "etag")
        cases.show(
            "an edit counts for the tiles above those that show it",
            re.fullmatch(r'W/"[1-9][0-9]*-3"', tag) is not None or tag,
            True,
        )


def wide_map(cases: Cases, folder: str) -> None:
    """The tags of tiles of a map that is wider than 39 km change by edits in the tile or near it, and by no other."""
    chance = random.Random(1)
    with Server(folder, "wide", more=["--admin", "--etags"]) as server:
        connection = http.client.HTTPConnection("127.0.0.1", server.port)

        def put(number, place):
            body = feature("p", ZOOM, ZOOM, {"points": [[2**31 + one for one in place]]})
            connection.request("PUT", f"/features/{number}", body)
            reply = connection.getresponse()
            reply.read()
            return reply.status

        def tag(tile):
            x, y = (2 ** (ZOOM - 1) + one for one in tile)
            connection.request("GET", f"/map/{ZOOM}/{x}/{y}.mvt")
            reply = connection.getresponse()
            reply.read()
            return reply.status, reply.headers["etag"]

        tiles = [divmod(at, ROW) for at in chance.sample(range(ROW * ROW), TILES)]
        made = {put(at, [one * SIDE + SIDE // 2 for one in tile]) for at, tile in enumerate(tiles)}
        before = [tag(tile) for tile in tiles]
        edits = [[chance.randrange(ROW * SIDE) for _ in range(2)] for _ in range(EDITS)]
        made |= {put(TILES + at, place) for at, place in enumerate(edits)}
        after = [tag(tile) for tile in tiles]
        connection.close()
    # How far each tile is from the nearest edit, in cells: 0 for one that has an edit in it.
    far = [
        min(max(max(one * SIDE - at, at - (one + 1) * SIDE, 0) for one, at in zip(tile, edit)) for edit in edits)
        / (SIDE // 2)
        for tile in tiles
    ]
    changed = [one != other for one, other in zip(before, after)]
    cases.show("a wide map: its edits and tiles", (made, {status for status, _ in before + after}), ({200}, {200}))
    cases.show(
        "a wide map: a tile has another tag after an edit in it",
        [(distance, is_other) for distance, is_other in zip(far, changed) if distance == 0 and not is_other],
        [],
    )
    cases.show(
        "a wide map: a tile that no edit is near has its tag",
        [(distance, is_other) for distance, is_other in zip(far, changed) if distance > CELLS and is_other],
        [],
    )
    within = sum(distance == 0 for distance in far)
    cases.say(f"a wide map: {sum(changed)} of {TILES} tags changed, {within} of them of tiles with an edit")


def archive_under_conditions(cases, url, whole, tag):
    """The archive under conditions that name its tag, and under others."""
    path, text = url + "/map.pmtiles", tag[0][1]
    sent, known, other = wanted(200, BYTES, whole, more=tag), wanted(304, more=tag), refusal(412, "Condition")
    part = wanted(206, BYTES, whole[:7], more=[("content-range", f"bytes 0-6/{len(whole)}"), *tag])
    ranges = ["Range: bytes=0-6"]
    for fields, expected in [
        (["If-None-Match: *"], known),
        ([f"If-None-Match: {text}"], known),
        ([f"if-none-match: W/{text}"], known),
        ([f'If-None-Match: "a",\t{text} , "b"'], known),
        (['If-None-Match: "1-1-1"'], sent),
        (["If-None-Match;"], sent),
        ([f"If-None-Match: {text}", "If-None-Match: *"], known),
        (['If-Match: "1-1-1"', f"If-Match: {text}"], sent),
        (['If-Match: "1-1-1"', 'If-Match: "1-1-2"', *ranges], other),
        ([f"If-None-Match: {text}", *ranges], known),
        ([f"If-None-Match: {text}", "Range: bytes=999-1000"], known),
        ([f"If-None-Match: {text}", *ranges, f"If-Range: {text}"], known),
        (['If-None-Match: "1-1-1"', *ranges], part),
        (["If-Match: *"], sent),
        ([f"If-Match: {text}", *ranges], part),
        ([f"If-Match: W/{text}"], other),
        (['If-Match: "1-1-1"', *ranges], other),
        (['If-Match: "1-1-1"', f"If-None-Match: {text}"], other),
        ([f"If-Match: {text}", f"If-None-Match: {text}"], known),
        ([f"If-None-Match: {text}", "Connection: close"], (304, [*tag, ("connection", "close")], b"")),
    ]:
        words = [word for field_of_it in fields for word in ("-H", field_of_it)]
        same(cases, f"the archive under {', '.join(fields)}", curl(path, *words), expected)
        if expected in (known, other):
            same(cases, f"HEAD of it under {', '.join(fields)}", curl(path, "--head", *words), (*expected[:2], b""))


MIRROR = """rm -f new.pmtiles
curl -fsS -o new.pmtiles --etag-compare map.etag --etag-save new.etag -w "%{http_code} %{size_download}" "$0"
if test -e new.pmtiles; then mv new.pmtiles map.pmtiles && mv new.etag map.etag; fi
"""


def mirror(cases, name, folder, url):
    """The archive, fetched each night by its entity tag as docs/DEPLOYING.md has it: twice, and twice behind another
    publication."""
    place, found = os.path.join(folder, "mirror"), []
    os.mkdir(place)
    for night in range(4):
        if night == 2:
            curl(url + "/publish", "-X", "POST")
        told = subprocess.run(
            ["sh", "-c", MIRROR, url + "/map.pmtiles"], cwd=place, capture_output=True, text=True, timeout=100
        ).stdout
        with open(os.path.join(place, "map.pmtiles"), "rb") as file:
            found.append((told, file.read() == archive()))
    cases.show(
        name + "curl fetches the archive by its tag only if it is another one",
        found,
        [("200 223", True), ("304 0", True)] * 2,
    )
    shutil.rmtree(place)
