"""The parts `requests` and `features` of run.py: what is no request, what is asked of paths, and what is no feature."""
import json
import socket

from .stand import JSON, Cases, Server, curl, feature, parsed, refusal, same, status_of, wanted


def methods(reply):
    """The reply with the methods of `allow` in alphabetical order: HTTP.md's order leaves HEAD's place open."""
    fields = [
        (name, ", ".join(sorted(value.split(", ")))) if name == "allow" else (name, value) for name, value in reply[1]
    ]
    return reply[0], fields, reply[2]


def refused_requests(cases: Cases, folder: str) -> None:
    """What is no request, and what is asked of paths."""
    with Server(folder, "refused") as server:
        url = server.url
        tile = url + "/map/0/0/0.mvt"
        rows = [
            ("33 fields", 400, "Head", [word for number in range(33) for word in ("-H", f"a{number}: b")]),
            ("a head of over 8,192 bytes", 400, "Head", ["-H", "a: " + "b" * 8192]),
            ("HTTP/1.1 without a host", 400, "Host", ["-H", "Host:"]),
            ("an expectation", 417, "Expect", ["-H", "Expect: 100-continue"]),
            ("a length that is no number", 400, "Length", ["-H", "Content-Length: x"]),
            ("a length of 65,537", 413, "Body", ["-X", "PUT", "-H", "Content-Length: 65537"]),
        ]
        for name, status, word, words in rows:
            same(cases, name, curl(tile, *words), refusal(status, word, closes=True))
        chunked = curl(url + "/features/7", "-X", "PUT", "-H", "Transfer-Encoding: chunked", body=feature())
        same(cases, "a body in chunks", chunked, refusal(501, "Coding", closes=True))
        expected = curl(url + "/features/7", "-X", "PUT", "-H", "Expect: 100-continue", body=feature())
        same(cases, "a body behind an expectation", expected, refusal(417, "Expect", closes=True))
        same(
            cases,
            "a body of 65,537 bytes",
            curl(url + "/features/7", "-X", "PUT", body="x" * 65537),
            refusal(413, "Body", closes=True),
        )
        same(
            cases,
            "a body of 65,536 bytes is read",
            curl(url + "/features/7", "-X", "PUT", body="x" * 65536),
            refusal(400, "Json"),
        )
        same(cases, "HTTP/1.0 without a host", curl(tile, "--http1.0", "-H", "Host:"), wanted(204, closes=True))
        same(
            cases,
            "an expectation in HTTP/1.0",
            curl(tile, "--http1.0", "-H", "Expect: 100-continue"),
            refusal(417, "Expect", closes=True),
        )
        same(cases, "connection: close", curl(tile, "-H", "Connection: Close"), wanted(204, closes=True))
        for name, sent, word in [
            ("a head cut short", b"GET / HTTP/1.1\r\nhost: x\r\n", "Head"),
            ("a body cut short", b"PUT /features/7 HTTP/1.1\r\nhost: x\r\ncontent-length: 9\r\n\r\nabc", "Short"),
            (
                "two lengths",
                b"PUT /features/7 HTTP/1.1\r\nhost: x\r\ncontent-length: 3\r\ncontent-length: 3\r\n\r\nabc",
                "Length",
            ),
            ("two hosts", b"GET / HTTP/1.1\r\nhost: x\r\nhost: x\r\n\r\n", "Host"),
        ]:
            same(cases, f"{name} (a bare socket)", parsed(bare(server.port, sent)), refusal(400, word, closes=True))
        sent = b"GET /map/0/0/0.mvt HTTP/1.0\r\nhost: x\r\nhost: x\r\n\r\n"
        same(cases, "two hosts in HTTP/1.0 (a bare socket)", parsed(bare(server.port, sent)), wanted(204, closes=True))
        sent = b"GET http://x/map/0/0/0.mvt HTTP/1.1\r\nhost: x\r\nconnection: close\r\n\r\n"
        same(
            cases,
            "a target in absolute form (a bare socket)",
            parsed(bare(server.port, sent)),
            refusal(404, "NotFound", closes=True),
        )
        features = ["/features", "/features/", "/features/07", "/features/9223372036854775808", "/features/%37"]
        tiles = ["/map/20/0/0.mvt", "/map/19/524288/0.mvt", "/map/1/2/0.mvt", "/map/0/0/0.png", "/map/00/0/0.mvt"]
        for path in ["/", "/publish/", *features, *tiles]:
            same(cases, f"path {path}", curl(url + path), refusal(404, "NotFound"))
        for path, method, allowed in [
            ("/features/7", "POST", "DELETE, GET, HEAD, PUT"),
            ("/map/0/0/0.mvt", "PUT", "GET, HEAD"),
            ("/map/0/0/0.hex", "DELETE", "GET, HEAD"),
            ("/map/metadata", "POST", "GET, HEAD"),
            ("/map.pmtiles", "OPTIONS", "GET, HEAD"),
            ("/publish", "GET", "POST"),
            ("/publish/begin", "PUT", "POST"),
            ("/publish/step", "GET", "POST"),
            ("/publish/cancel", "DELETE", "POST"),
        ]:
            same(
                cases,
                f"{method} {path}",
                methods(curl(url + path, "-X", method)),
                refusal(405, "Method", more=[("allow", allowed)]),
            )
        big = "x" * 3000000
        replies = [curl(url + "/features/7", "-X", "PUT", "-H", "Expect:", body=big) for _ in range(60)]
        whole = [reply for reply in replies if (status_of(reply), reply[2]) == (413, b"Body\n")]
        cases.show("sixty bodies of 3 MB, sixty replies 413 Body read", len(whole), 60)
        same(cases, "the map is as it was", curl(tile), wanted(204))


def bare(port, sent):
    """What a peer reads that sends these bytes and nothing more."""
    with socket.create_connection(("127.0.0.1", port), timeout=30) as peer:
        peer.sendall(sent)
        peer.shutdown(socket.SHUT_WR)
        read = b""
        while piece := peer.recv(65536):
            read += piece
        return read


def refused_features(cases: Cases, folder: str) -> None:
    """Each word of a feature that isn't taken, at the limits."""
    point, tags = {"points": [[0, 0]]}, {f"k{number}": True for number in range(65)}
    world = {"polygons": [[[[0, 0], [4294967295, 0], [4294967295, 4294967295], [0, 4294967295]]]]}
    whole = json.loads(feature())
    rows = [
        ("no JSON", "Json", "{"),
        ("a list", "E1 Member", "[]"),
        ("a member missing", "E1 Member", json.dumps({name: whole[name] for name in whole if name != "tags"})),
        ("a member unknown", "E1 Member", json.dumps({**whole, "more": 1})),
        ("a zoom of 256", "E1 Member", feature(last=256)),
        ("a zoom 1.0", "E1 Member", feature().replace('"minzoom": 0', '"minzoom": 0.0')),
        ("a name of no byte", "E3 Layer", feature(layer="")),
        ("a name of 65 bytes", "E3 Layer", feature(layer="x" * 65)),
        ("minzoom above maxzoom", "E4 Zoom", feature(first=3, last=2)),
        ("maxzoom 20", "E4 Zoom", feature(last=20)),
        ("no points", "E5 Geometry", feature(geometry={"points": []})),
        ("a line of one point", "E5 Geometry", feature(geometry={"lines": [[[0, 0]]]})),
        ("a ring of two points", "E5 Geometry", feature(geometry={"polygons": [[[[0, 0], [9, 9]]]]})),
        ("a point outside", "E5 Geometry", feature(geometry={"points": [[4294967296, 0]]})),
        ("65 tags", "E6 Tags", feature(tags=tags)),
        ("a key of 65 bytes", "E6 Tags", feature(tags={"k" * 65: 1})),
        ("a text of 1,025 bytes", "E7 Value", feature(tags={"k": "x" * 1025})),
        ("a fraction", "E7 Value", feature(tags={"k": 0.5})),
        ("null", "E7 Value", feature(tags={"k": None})),
        ("a number of 2^64", "E7 Value", feature(tags={"k": 2 ** 64})),
        ("a number below -2^63", "E7 Value", feature(tags={"k": -2 ** 63 - 1})),
        ("4,094 points", "E8 Long", feature(geometry={"points": [[0, 0]] * 4094})),
        ("the whole world on 20 zooms", "E9 Reach", feature(last=19, geometry=world)),
        ("the whole world on zooms 0 to 9", "E9 Reach", feature(last=9, geometry=world)),
        (
            "262,145 tiles of zoom 19",
            "E9 Reach",
            feature(first=19, last=19, geometry={"lines": [[[0, 0], [2147483520, 0]]]}),
        ),
    ]
    with Server(folder, "features", 65536) as server:
        path = server.url + "/features/1"
        for name, word, body in rows:
            same(cases, f"PUT, {name}", curl(path, "-X", "PUT", body=body), refusal(400, word))
        same(cases, "none of them is there", curl(path), refusal(404, "NotFound"))
        taken = [
            ("4,093 points", feature(geometry={"points": [[0, 0]] * 4093})),
            ("64 tags", feature(tags={f"k{number}": True for number in range(64)})),
            ("a text of 1,024 bytes", feature(tags={"k": "x" * 1024})),
            ("the least and the greatest number", feature(tags={"a": -2 ** 63, "b": 2 ** 64 - 1})),
            ("zooms 16 to 16", feature(first=16, last=16, geometry=point)),
            ("zooms 0 to 19", feature(last=19, geometry=point)),
            ("the whole world on zoom 9", feature(first=9, last=9, geometry=world)),
            ("262,144 tiles of zoom 19", feature(first=19, last=19, geometry={"lines": [[[0, 0], [2147483519, 0]]]})),
        ]
        for edit, (name, body) in enumerate(taken, 1):
            same(cases, f"PUT, {name}", curl(path, "-X", "PUT", body=body), wanted(200, JSON, '{"edit":%d}' % edit))
