"""The part `nginx` of run.py: what docs/nginx.conf passes, caches and refuses."""
import json
import os
import re
import shutil
import signal
import socket
import subprocess
import time

from .conditions import mirror
from .stand import (
    BYTES,
    METADATA,
    MVT,
    SHOWN,
    TEXT,
    TILE,
    Cases,
    Nginx,
    Server,
    archive,
    curl,
    feature,
    field,
    status_of,
)


def in_front(cases: Cases, folder: str) -> None:
    """nginx in front: what it passes, what it keeps, what it refuses."""
    nginx = shutil.which("nginx", path=os.environ.get("PATH", "") + ":/usr/sbin")
    if not nginx:
        cases.say("no nginx: nothing is tried in front of the server")
        return
    brief = [("keepalive_timeout 30s", "keepalive_timeout 1s")]
    with Server(folder, "behind", more=["--admin", "--etags"]) as server, Nginx(nginx, folder, server, brief) as front:
        url = front.url

        def tile():
            reply = curl(url + "/map/0/0/0.hex")
            return status_of(reply), reply[2].decode(), field(reply, "x-cache")

        reply = curl(url + "/features/7", "-X", "PUT", body=feature())
        cases.show("nginx: PUT", (status_of(reply), reply[2]), (200, b'{"edit":1}'))
        cases.show("nginx: a tile", tile(), (200, TILE, "MISS"))
        cases.show("nginx: the same tile, kept", tile(), (200, TILE, "HIT"))
        began = time.monotonic()
        curl(url + "/features/7", "-X", "DELETE")
        old = tile()
        if time.monotonic() - began < 5:
            cases.show("nginx: behind an edit the kept tile is the old one", old, (200, TILE, "HIT"))
        empty_cache(front)
        cases.show("nginx: with what is in its cache taken away, the new one", tile(), (204, "", "MISS"))
        curl(url + "/features/7", "-X", "PUT", body=feature())
        time.sleep(12)
        cases.show("nginx: the new one behind ten seconds", tile()[:2], (200, TILE))
        time.sleep(12)
        cases.show("nginx: later it asks whether that one has changed", tile(), (200, TILE, "REVALIDATED"))
        reply = curl(url + "/map/0/0/0.mvt")
        fields = [field(reply, name) for name in ("content-type", "access-control-allow-origin", "cache-control")]
        cases.show("nginx: the fields of a tile", fields, [MVT, "*", "max-age=10"])
        reply = curl(url + "/features/9", "-X", "PUT", body=feature(tags={"k": 0.5}))
        cases.show("nginx: a refusal keeps its word", (status_of(reply), reply[2]), (400, b"E7 Value\n"))
        many = [word for number in range(60) for word in ("-H", f"a{number}: b")]
        cases.show("nginx: sixty fields of a client stay in front", status_of(curl(url + "/features/7", *many)), 200)
        reply = curl(url + "/features/9", "-X", "PUT", "-H", "Transfer-Encoding: chunked", body=feature("c"))
        cases.show("nginx: a body in chunks is put together", (status_of(reply), reply[2]), (200, b'{"edit":4}'))
        reply = curl(url + "/features/9", "-X", "PUT", "-H", "Expect: 100-continue", body=feature("c"))
        cases.show("nginx: and answers an expectation", reply[0], "HTTP/1.1 100 Continue")
        curl(url + "/features/9", "-X", "DELETE")
        reply = curl(url + "/features/9", "-X", "PUT", body="x" * 65536)
        cases.show("nginx: a body of 65,536 bytes gets to the server", (status_of(reply), reply[2]), (400, b"Json\n"))
        cases.show(
            "nginx: one of 65,537 doesn't", status_of(curl(url + "/features/9", "-X", "PUT", body="x" * 65537)), 413
        )
        reply = curl(url + "/publish", "-X", "POST")
        cases.show(
            "nginx: a publication", (status_of(reply), reply[2]), (200, b'{"archive":223,"edits":6,"generation":1}')
        )
        cases.show("nginx: the archive", curl(url + "/map.pmtiles")[2] == archive(), True)
        reply = curl(url + "/map.pmtiles", "-H", "Range: bytes=0-6")
        cases.show(
            "nginx: a part of it",
            (status_of(reply), field(reply, "content-range"), reply[2]),
            (206, "bytes 0-6/223", b"PMTiles"),
        )
        fields = [field(reply, name) for name in ("etag", "cache-control", "access-control-expose-headers")]
        cases.show("nginx: and its fields", fields, ['"1-6-223"', "no-store", "Content-Length, Content-Range, ETag"])
        for value in ('"1-6-223"', "x"):
            reply = curl(url + "/map.pmtiles", "-H", "Range: bytes=0-6", "-H", f"If-Range: {value}")
            cases.show(
                f"nginx: a part under if-range: {value}",
                (status_of(reply), field(reply, "etag"), reply[2]),
                (200, '"1-6-223"', archive()),
            )
        conditions(cases, url)
        archive_in_front(cases, url)
        mirror(cases, "nginx: ", folder, url)
        for path in ("/map.pmtiles", "/map/0/0/0.mvt", "/map.json"):
            reply = curl(url + path, "-X", "OPTIONS")
            fields = [field(reply, "access-control-allow-" + name) for name in ("origin", "headers")]
            cases.show(f"nginx: what a browser asks before {path}", (status_of(reply), fields), (204, ["*", "*"]))
        found = {
            path: field(curl(url + path), "cache-control")
            for path in ("/map.pmtiles", "/features/7", "/admin/status", "/other", "/map/20/0/0.mvt")
        }
        cases.show("nginx: what isn't cached says so", found, dict.fromkeys(found, "no-store"))
        spelled = ["//map/0/0/0.hex", "/map//0/0/0.hex", "/map/%30/0/0.hex", "/map/./0/0/0.hex"]
        found = [status_of(curl(url + path, "--path-as-is")) for path in ["/map/0/0/0.hex", *spelled]]
        cases.show("nginx: a kept tile isn't served in another spelling", found, [200, 404, 404, 404, 404])
        for path, method in [
            ("/features/7", "GET"),
            ("/features/7", "DELETE"),
            ("/publish", "POST"),
            ("/publish/begin", "POST"),
        ]:
            cases.show(
                f"nginx: {method} {path} from another address",
                status_of(curl(url + path, "-X", method, "--interface", "127.0.0.2")),
                403,
            )
        cases.show(
            "nginx: a tile from another address",
            status_of(curl(url + "/map/0/0/0.mvt", "--interface", "127.0.0.2")),
            200,
        )
        cases.show("nginx: another path", status_of(curl(url + "/other")), 404)
        for path, method in [("/features/7", "PUT"), ("/publish", "POST"), ("/map/0/0/0.mvt", "GET")]:
            reply = curl(url + path, "-X", method, "-H", "Host: other.example")
            cases.show(f"nginx: {method} {path} by another name", status_of(reply), 421)
        with socket.create_connection(("127.0.0.1", front.port), timeout=30) as slow:
            slow.sendall(b"PUT /features/9 HTTP/1.1\r\nhost: x\r\ncontent-length: 100\r\n\r\n{")
            cases.show(
                "nginx: a client that sends half a body keeps nobody waiting",
                status_of(curl(url + "/features/7", "--max-time", "10")),
                200,
            )
        for query, address, state in [
            ("?edit=7", "127.0.0.1", "MISS"),
            ("?edit=7", "127.0.0.1", "HIT"),
            ("?edit=8", "127.0.0.1", "MISS"),
            ("?edit=8x", "127.0.0.1", "HIT"),
            ("?edit=" + "9" * 21, "127.0.0.1", "HIT"),
            ("?other=9", "127.0.0.1", "HIT"),
            ("?edit=9", "127.0.0.2", "HIT"),
        ]:
            curl(url + "/map/1/0/0.mvt", "--interface", "127.0.0.2")
            found = field(curl(url + "/map/1/0/0.mvt" + query, "--interface", address), "x-cache")
            cases.show(f"nginx: a tile asked with {query} from {address}", found, state)
        tiles = json.loads(curl(url + "/map.json")[2])
        cases.show("nginx: TileJSON", (tiles["tilejson"], tiles["tiles"], tiles["vector_layers"]),
                   ("3.0.0", [url + "/map/{z}/{x}/{y}.mvt"], json.loads(METADATA)["vector_layers"]))
        again = [curl(url + path) for path in ("/map.json", "/map/metadata")]
        cases.show(
            "nginx: TileJSON and metadata again, from what is kept",
            [field(reply, "x-cache") for reply in again],
            ["HIT", "HIT"],
        )
        cases.show("nginx: and each as it is", (json.loads(again[0][2]), again[1][2]), (tiles, METADATA.encode()))
        reply = curl(f"http://[::1]:{front.port}/map/0/0/0.mvt")
        cases.show("nginx: by IPv6", status_of(reply), 200)
        long = feature("long", 5, 5, tags={"k": "x" * 1024})
        curl(url + "/features/20", "-X", "PUT", body=long)
        reply, bare_reply = curl(url + "/map/5/0/0.mvt", "-H", "Accept-Encoding: gzip"), curl(
            server.url + "/map/5/0/0.mvt"
        )
        packed = field(reply, "content-encoding") == "gzip" and len(reply[2]) < len(bare_reply[2])
        cases.show("nginx: a tile of over 1,000 bytes is compressed", packed, True)
        cases.show("nginx: and is the server's", curl(url + "/map/5/0/0.mvt", "--compressed")[2] == bare_reply[2], True)
        crowd(cases, front, server)
    shutil.rmtree(front.folder)
    passwords(cases, folder)


def conditions(cases, url):
    """Edits under a condition get to the server, which refuses those that name tags; what reads is answered."""
    for field_of_it, reads in (('If-Match: "x"', [200, 412, 412, 412]), ('If-None-Match: "x"', [200, 200, 200, 200])):
        words = ["-H", field_of_it, "-H", "Content-Type: application/json"]
        for path, method in (
            ("/features/7", "PUT"),
            ("/features/7", "DELETE"),
            ("/edits", "POST"),
            ("/admin/edits", "POST"),
            ("/publish", "POST"),
        ):
            reply = curl(url + path, "-X", method, *words, body=feature("other"))
            cases.show(
                f"nginx: {method} {path} under {field_of_it}", (status_of(reply), reply[2]), (412, b"Condition\n")
            )
        found = [
            status_of(curl(url + path, *words))
            for path in ("/features/7", "/map/0/0/0.mvt", "/map.pmtiles", "/map.json")
        ]
        cases.show(f"nginx: what reads under {field_of_it}", found, reads)
    tag = field(curl(url + "/map/0/0/0.mvt"), "etag")
    values = (f"If-None-Match: {tag}", "If-None-Match: *", 'If-Match: "x"')
    found = [status_of(curl(url + "/map/0/0/0.mvt", "-H", name)) for name in values]
    cases.show("nginx: conditions on a tile, which it judges itself", found, [304, 304, 412])
    cases.show("nginx: feature 7 is as it was", curl(url + "/features/7")[2], SHOWN.encode())


def archive_in_front(cases, url):
    """The archive and parts of it under conditions that name its tag, and under others: vtserve's replies, with the
    fields that nginx adds."""
    added = ["no-store", "*", "Content-Length, Content-Range, ETag"]
    tag = '"1-6-223"'
    known, other, whole = (
        (304, tag, None, None, b""),
        (412, None, TEXT, "10", b"Condition\n"),
        (200, tag, BYTES, "223", archive()),
    )
    part, beyond = (206, tag, BYTES, "7", archive()[:7]), (416, None, TEXT, "6", b"Range\n")
    for words, expected in [
        ([f"If-None-Match: {tag}"], known),
        (["If-None-Match: *"], known),
        ([f'If-None-Match: "a", W/{tag}'], known),
        (['If-None-Match: "1-6-222"'], whole),
        (["Range: bytes=0-6", f"If-None-Match: {tag}"], known),
        (["Range: bytes=999-1000", f"If-None-Match: {tag}"], known),
        (["Range: bytes=0-6", f"If-None-Match: {tag}", f"If-Range: {tag}"], known),
        (["Range: bytes=0-6", 'If-None-Match: "1-6-222"'], part),
        (["Range: bytes=999-1000", 'If-None-Match: "1-6-222"'], beyond),
        ([f"If-Match: {tag}"], whole),
        (["Range: bytes=0-6", f"If-Match: {tag}"], part),
        (['If-Match: "1-6-222"'], other),
        ([f"If-Match: W/{tag}"], other),
        (["Range: bytes=0-6", 'If-Match: "1-6-222"'], other),
        (['If-Match: "1-6-222"', f"If-None-Match: {tag}"], other),
        ([f"If-Match: {tag}", f"If-None-Match: {tag}"], known),
        (
            ["If-Modified-Since: Sun, 06 Nov 2044 08:49:37 GMT", "If-Unmodified-Since: Sun, 06 Nov 1994 08:49:37 GMT"],
            whole,
        ),
    ]:
        reply = curl(url + "/map.pmtiles", *(word for name in words for word in ("-H", name)))
        found = (
            status_of(reply),
            *(field(reply, name) for name in ("etag", "content-type", "content-length")),
            reply[2],
        )
        cases.show(f"nginx: the archive under {', '.join(words)}", found, expected)
        found = [
            field(reply, name)
            for name in ("cache-control", "access-control-allow-origin", "access-control-expose-headers")
        ]
        cases.show("nginx: and the fields that it adds", found, added)
    for value, status in ((tag, 304), ('"1-6-222"', 200)):
        reply = curl(url + "/map.pmtiles", "--head", "-H", f"If-None-Match: {value}")
        cases.show(
            f"nginx: HEAD of it under if-none-match: {value}",
            (status_of(reply), field(reply, "etag"), reply[2]),
            (status, tag, b""),
        )


def passwords(cases: Cases, folder: str) -> None:
    """The block of nginx.conf with passwords: people log in from anywhere, this machine needn't, and the map stays
    public."""
    nginx = shutil.which("nginx", path=os.environ.get("PATH", "") + ":/usr/sbin")
    if not (nginx and shutil.which("openssl")):
        cases.say("no nginx, or no openssl: nobody logs in")
        return
    hidden = subprocess.run(["openssl", "passwd", "-apr1", "secret"], capture_output=True, text=True, check=True).stdout
    people = os.path.join(folder, "people")
    with open(people, "w", encoding="utf-8") as file:
        file.write("ann:" + hidden)
    os.chmod(people, 0o644)
    block = [("# satisfy any;", "satisfy any;"), ("# auth_basic", "auth_basic"), ("/etc/vtserve/people", people)]
    with Server(folder, "logged_in") as server, Nginx(nginx, folder, server, block) as front:
        for words, edits in (
            (["--interface", "127.0.0.2"], 401),
            (["--interface", "127.0.0.2", "-u", "ann:secret"], 200),
            ([], 200),
        ):
            found = [status_of(curl(front.url + path, *words)) for path in ("/admin/status", "/map/metadata")]
            cases.show(f"nginx: with passwords, {' '.join(words) or 'from this machine'}", found, [edits, 200])
    shutil.rmtree(front.folder)


def empty_cache(front):
    """Takes away what nginx has in its cache."""
    for name in os.listdir(os.path.join(front.folder, "cache")):
        shutil.rmtree(os.path.join(front.folder, "cache", name))


def asked_of(server):
    """How many requests the ended connections had. In these cases nginx ends one that is idle for a second."""
    return sum(int(line.split()[2]) for line in server.lines())


def crowd(cases, front, server):
    """Fifty clients at once."""
    if not shutil.which("wrk"):
        cases.say("no wrk: fifty clients at once aren't tried")
        return
    time.sleep(2)
    ends = {line.rpartition(", ")[2] for line in server.lines()}
    cases.show("serve's lines: nginx ended each connection", ends, {"closed"})
    before, passed = len(front.errors()), asked_of(server)
    # A tile that isn't in the cache is asked for once; one whose time is over is by each client that comes until the
    # reply is there.
    empty_cache(front)
    for name, path in [("a kept tile", "/map/0/0/0.mvt"), ("a feature, which is never kept", "/features/7")]:
        told = subprocess.run(
            ["wrk", "-t", "2", "-c", "50", "-d", "3s", "--timeout", "10s", front.url + path],
            capture_output=True,
            text=True,
        ).stdout
        faults = [line.strip() for line in told.splitlines() if "Socket errors" in line or "Non-2xx" in line]
        count = re.search(r"(\d+) requests in", told)
        cases.show(
            f"wrk, fifty clients, {name}: no error", (faults, count is not None and int(count[1]) > 50), ([], True)
        )
        cases.say(f"{count[1] if count else 'no'} requests in 3 seconds")
        if path.startswith("/map/"):
            time.sleep(2)
            reached = asked_of(server) - passed
            cases.show("of those at most three reached the server", reached <= 3 or reached, True)
    cases.show("nginx: no line in its log of errors meanwhile", front.errors()[before:], [])
    server.end(signal.SIGTERM)
    # nginx breaks off what a client asked that has gone, as wrk does at its end.
    ends = {line.rpartition(", ")[2] for line in server.lines()[-1000:]}
    cases.show(
        "serve's lines: of those of fifty clients too, or broke off a reply", ends - {"read", "write"}, {"closed"}
    )
    many = max(int(line.split()[2]) for line in server.lines())
    cases.show("and uses one for several requests", many > 10, True)
