"""Blocks of `reply_script.py` about paths and methods, tiles, and features that are taken or refused."""
import tiles
from reply_stand import BODY, POINT, WORLD, long_body, put, put_parts, request, spelled, with_point


# ---- paths and methods

METHODS = ["GET", "HEAD", "PUT", "DELETE", "POST"]
NO_METHODS = ["G", "GE", "GETS", "get", "Get", "gET", "PATCH", "OPTIONS", "TRACE", "CONNECT", "DELETED"]
SERVED = [
    "/map/1/0/1.mvt",
    "/map/1/0/1.hex",
    "/map/metadata",
    "/map.pmtiles",
    "/features/7",
    "/edits",
    "/publish/cancel",
    "/publish/step",
    "/publish/begin",
    "/publish",
]
NUMBERS = ["0", "10", 2**63 - 1, 2**63, "99999999999999999999999999", "00", "07", "+7", "", "1x", "x", "{id}"]
NOT_SERVED = [
    "*",
    "/",
    "/features",
    "/features/7/",
    "/features/7/7",
    "/features/7.json",
    "/features/%37",
    "/Features/7",
    "/edit",
    "/edits/",
    "/edits/7",
    "/Edits",
    "/map/20/0/0.mvt",
    "/map/00/0/0.mvt",
    "/map/0/1/0.mvt",
    "/map/1/2/0.mvt",
    "/map/1/0/2.hex",
    "/map/0/0/0.png",
    "/map/0/0/.mvt",
    "/map/0/0/0",
    "/map/0/0/0.MVT",
    "/map/0/0/0.mvt.hex",
    "/map/0/0/0.mvt/",
    "/map/0/0/0.mvt/0",
    "/map/0/0",
    "/map/%30/0/0.mvt",
    "/map/metadata/0/0.mvt",
    "/map/\u00e9/0/0.mvt",
    "/map",
    "/map/",
    "/map/metadata/",
    "/map/metadata/0",
    "/map/metadat",
    "/map/metadata.json",
    "/map/Metadata",
    "/map/metadat\u00e1",
    "//map/metadata",
    "map/metadata",
    "/map.pmtiles/",
    "/map.pmtile",
    "/map.pmtiles2",
    "/map.PMTILES",
    "/map/pmtiles",
    "/map.mvt",
    "/publis",
    "/publish/",
    "/publish/\u00e9",
    "/publish2",
    "/Publish",
    "/publish/begi",
    "/publish/begin/",
    "/publish/begins",
    "/publish/begin/step",
    "/publish/step/7",
    "/publish/stop",
    "/publish/cancel/",
    "/publish/cancelled",
    "/publish//step",
    "/step",
]
NO_TEXT = [b"\xff", b"/\xff", b"/publish\x80", b"\x80/map.pmtiles", b"/features/7\xff", b"/features/\xb2", b"/map/0/0/0.mvt\x80"]


def routes(script):
    script.say("Each path with each method; the edits and publications that it makes are given up or taken back in front of the next.")
    with_point(script)
    for path in SERVED:
        for method in METHODS:
            script.ask(request(method, path, BODY if method == "PUT" else b""))
    script.note("Words that are no method of any path. A method is looked at behind the path.")
    for method in NO_METHODS:
        script.ask(*(request(method, path) for path in SERVED + ["/"]))
    script.note("Numbers of features in paths.")
    for number in NUMBERS:
        script.ask(request("GET", f"/features/{number}"))
    script.ask(request("PUT", f"/features/{2**63 - 1}", BODY), request("GET", f"/features/{2**63 - 1}"))
    script.ask(request("DELETE", f"/features/{2**63 - 1}"))
    script.note("Paths that aren't served, whatever the method, and the reply to a HEAD, which is only a head.")
    for path in NOT_SERVED:
        script.ask(request("GET", path), request("PUT", path, BODY), request("HEAD", path))
    script.note("Targets that are no text are no heads; a query isn't looked at.")
    for path in NO_TEXT:
        script.ask(b"GET " + path + b" HTTP/1.1\r\nhost: x\r\n\r\n")
    for path in ("/map/0/0/0.hex?a=b", "/map/0/0/0.hex?", "/map/0/0/0.hex??/", "?/map/0/0/0.hex"):
        script.ask(request("GET", path))
    script.note("What is read as JSON and as bytes, and replies that are only heads.")
    paths = ["/features/7", "/map/metadata", "/map/0/0/0.hex", "/map/0/0/0.mvt?v=1", "/map/16/65535/65535.mvt",
             "/map/17/0/0.mvt", "/map/19/524287/524287.mvt"]
    for method in ("GET", "HEAD"):
        script.ask(*(request(method, path) for path in paths))
    script.note("A feature that is deleted.")
    script.disk(256)
    script.ask(request("GET", "/features/7"), request("DELETE", "/features/7"))
    script.ask(put(7), request("DELETE", "/features/7"), request("GET", "/map/0/0/0.hex"), request("GET", "/features/7"))


# Conditions that nothing meets that is changed here, and those that aren't any.
CONDITIONS = ['IF-MATCH: "1-1-223"', "if-match:", 'If-None-Match: "a", W/"b"', "if-match: *, *"]
NO_CONDITIONS = ["if-matches: *", "x-if-match: *", "if_match: *", "if-none: *", "if-modified-since: x", "if-unmodified-since: x", 'if-range: "x"']
ONE_EDIT = b'{"changes":[{"put":8,"feature":%s}]}' % BODY
CHECKED_EDIT = b'{"changes":[{"put":8,"feature":%s,"was":null}]}' % BODY


def actions(*fields):
    """Requests that change something but a single feature."""
    edits = [request("POST", "/edits", ONE_EDIT, *fields), request("POST", "/admin/edits", CHECKED_EDIT, *fields)]
    return edits + [request("POST", "/publish" + name, b"", *fields) for name in ("", "/begin", "/step", "/cancel")]


def changing(number, *fields):
    """Requests that change something: a feature that is there, one that isn't, and the publication."""
    return [request("PUT", f"/features/{number}", BODY, *fields), request("DELETE", f"/features/{number}", b"", *fields), *actions(*fields)]


def conditions(script):
    script.say("Requests under a condition on entity tags, where replies have them: those that change something are refused, and nothing is changed.")
    script.tags(17)
    with_point(script)
    script.admin()
    shows = [request("GET", path) for path in ("/features/7", "/features/8", "/map/0/0/0.hex", "/map.pmtiles", "/admin/status")]
    for field in CONDITIONS:
        script.ask(*changing(7, field), *changing(8, field), *shows, sizes="4096,1")
    for field in ("if-match: *", "if-none-match: *"):
        script.ask(*actions(field), *shows, sizes="4096,1")
    script.ask(request("PUT", "/features/8", BODY, *CONDITIONS), shows[1])
    script.note("Those that read are answered as without one, but for what has a tag.")
    for field in ("if-match: x", "if-match: *", "if-none-match: *"):
        for method in ("GET", "HEAD"):
            script.ask(*(request(method, path, b"", field) for path in ("/features/7", "/features/8", "/map/0/0/0.hex", "/map/metadata", "/map.pmtiles")))
    script.note("A path that isn't served and a method that isn't are named before, and what is wrong with a head, a length or a body's size.")
    for field in ("if-match: x", "if-none-match: *"):
        script.ask(request("PUT", "/features/07", BODY, field), request("DELETE", "/", b"", field), request("POST", "/features/7", BODY, field))
        script.ask(request("PUT", "/map/metadata", BODY, field), request("DELETE", "/edits", b"", field), request("PATCH", "/features/7", BODY, field))
        for bad in ("content-length: x", "content-length: 65537", "expect: 100-continue", "transfer-encoding: chunked", "host: y"):
            script.wait(request("PUT", "/features/8", b"", field, bad))
        script.ask(request("PUT", "/features/8", BODY, field)[:-1])
    script.note("It is named before what is wrong with the body's text, with the feature, or with the disk, of which no call is made.")
    script.ask(*(request("PUT", "/features/7", body, "if-match: x") for body in (b"", b"{", b"[]", BODY.replace(b'"p"', b'""'))))
    script.ask(request("DELETE", "/features/9", b"", "if-match: x"), request("POST", "/edits", b'{"changes":[]}', "if-match: *"))
    script.admin("from", 1)
    script.ask(*changing(7, "if-match: x"), shows[0], put(8), request("PUT", "/features/8", BODY, "if-match: x"), put(8))
    script.note("The body is passed over whole; the connection stays, unless it is to be closed.")
    with_point(script)
    script.ask(request("PUT", "/features/8", shows[0], "if-none-match: x"), *shows[:2])
    script.ask(request("PUT", "/features/8", BODY, "if-none-match: x", "connection: close"), shows[0])
    script.ask(request("PUT", "/features/8", BODY, "if-none-match: x").replace(b"HTTP/1.1", b"HTTP/1.0"), shows[0])
    script.ask(shows[1])
    script.note("Fields of other names, and other conditions, aren't looked at.")
    for number, field in enumerate(NO_CONDITIONS, 10):
        script.ask(request("PUT", f"/features/{number}", BODY, field), request("DELETE", f"/features/{number}", b"", field))
    script.tags()


def worked_tiles(script):
    script.say("Tiles of the model of the cut, each of a map of its own.")
    for name, features, (zoom, column, row) in tiles.examples():
        script.note(name)
        script.disk(256)
        script.ask(*(put(number, feature) for number, feature in features.items()))
        script.ask(request("GET", f"/map/{zoom}/{column}/{row}.hex"))
    script.note("the empty map, and a column further than the point")
    script.disk(256)
    script.ask(request("GET", "/map/0/0/0.mvt"), put(7), request("GET", "/map/2/3/0.hex"))


# ---- features


def without(name):
    return spelled({key: value for key, value in POINT.items() if key != name})


def changed(geometry=None, **members):
    """The body of the worked point with other members."""
    return spelled({**POINT, **({"geometry": geometry} if geometry is not None else {}), **members})


def raw(old, new):
    """The body of the worked point with another text in it."""
    assert old in BODY
    return BODY.replace(old, new)


def no_features():
    """Bodies that are refused, with remarks in front of each kind."""
    yield "no JSON text"
    yield from [b"", b" ", b"{", b"x", b"nul", b"[1,]", b'"\x01"', b'"\xff"', b'"\\ud800"', b"\xef\xbb\xbf" + BODY, BODY + b"x", b"01", b"1e400", b"NaN"]
    yield "a JSON text, and no object with exactly these members"
    yield from [b"[]", b"null", b"7", b'"x"', b"{}", changed(more=1), changed(layer=7), changed(layer=None), changed(tags=[]), changed(tags=None)]
    yield from (without(name) for name in POINT)
    yield from (changed(geometry) for geometry in ([], {}, {"point": [[0, 0]]}, {"points": 5}, {"points": None}, {"lines": {}}))
    yield changed({"points": [[0, 0]], "lines": [[[0, 0], [1, 1]]]})
    yield from (changed(maxzoom=value) for value in (256, -1, "2", None, True, 2**64))
    yield from (raw(b'"maxzoom":2', b'"maxzoom":' + text) for text in (b"2.0", b"2e0", b"-0", b"1e3"))
    yield "the name of the layer"
    yield from (changed(layer=name) for name in ("", "x" * 65, "\u00e9" * 33))
    yield "the zooms"
    yield from (changed(minzoom=first, maxzoom=last) for first, last in ((3, 2), (0, 20), (20, 20), (255, 255)))
    yield "the geometry"
    yield from (changed({"points": points}) for points in ([], [[]], [[0]], [[0, 0, 0]], [[0, 2**32]], [[-1, 0]], [["0", 0]], [[None, 0]], [0], [[0, True]]))
    yield from (raw(b"[[0,0]]", text) for text in (b"[[0,0.0]]", b"[[0,1e1]]", b"[[0,-0]]", b"[[0,18446744073709551616]]"))
    yield from (changed({"lines": lines}) for lines in ([], [[]], [[[0, 0]]], [[[0, 0], [1]]], [[0, 0]]))
    yield from (changed({"polygons": polygons}) for polygons in ([], [[]], [[[]]], [[[[0, 0], [1, 1]]]], [[[[0, 0], [1, 1], [2]]]], [[[0, 0], [1, 1], [2, 2]]]))
    yield "the tags"
    yield from (changed(tags=found) for found in ({f"k{number}": 1 for number in range(65)}, {"": 1}, {"k" * 65: 1}, {"\u00e9" * 33: 1}))
    yield "the values of tags"
    yield from (changed(tags={"k": value}) for value in (None, [], {}, 0.5, 2**64, -(2**63) - 1, "x" * 1025, "\u00e9" * 513))
    yield from (raw(b'"tags":{}', b'"tags":{"k":' + text + b"}") for text in (b"1.0", b"1e0", b"-0", b"-0.0"))
    yield "two faults each: the first in the order of the words is named"
    yield changed({"points": []}, layer="", minzoom=3, tags={"": None}, more=1)
    yield changed({"points": []}, layer="", minzoom=3, tags={"": None})
    yield changed({"points": []}, minzoom=3, tags={"": None})
    yield changed({"points": []}, tags={"": None})
    yield changed(tags={"": None})
    yield changed({"points": 5}, minzoom=3)
    yield changed({"points": [[0, 0]] * 4094}, tags={"k": None})


def refused_features(script):
    script.say("Bodies that are no feature.")
    script.disk(256)
    for body in no_features():
        if isinstance(body, str):
            script.note(body)
        else:
            script.ask(request("PUT", "/features/7", body))
    script.note("none of them is there")
    script.ask(request("GET", "/features/7"))


def at_the_limits(script):
    script.say("Features at their limits, and beyond: the longest text, the widest reach, names, tags, numbers.")
    script.disk(512)
    script.ask(*put_parts(7, long_body(4093)), sizes="65536")
    script.ask(*put_parts(7, long_body(4094)))
    world = [[[[0, 0], [WORLD, 0], [WORLD, WORLD], [0, WORLD]]]]
    for last in (7, 9, 16, 19, 8):
        script.ask(put(7, tiles.feature({"polygons": world}, maxzoom=last)))
    script.note("too long and too wide: the first is named")
    wide = [[[[0, 0], [WORLD, 0], [WORLD, WORLD], [0, WORLD]] + [[0, 0]] * 5000]]
    script.ask(request("PUT", "/features/7", spelled(tiles.feature({"polygons": wide}, maxzoom=9))))
    script.note("taken: names of 64 bytes, 64 tags, texts of 1,024 bytes, the least and the greatest number, any order, the last of a name")
    taken = [
        tiles.feature({"points": [[0, WORLD]]}, layer="x" * 64),
        tiles.feature({"points": [[0, 0]]}, layer="\u00e9" * 32, tags={"\u00e9" * 32: "\u00e9" * 512}),
        tiles.feature({"points": [[0, 0]]}, tags={f"k{number}": number % 2 == 0 for number in range(64)}),
        tiles.feature({"points": [[0, 0]]}, tags={"k": "x" * 1024, "least": -(2**63), "most": 2**64 - 1, "none": ""}),
        tiles.feature({"points": [[0, 0]]}, tags={"k": '"\x5c/\x08\x0c\n\r\t\x00\x1f\x7f\u2028\U0001f30d'}, minzoom=16, maxzoom=16),
        tiles.feature({"points": [[WORLD, 0]]}, minzoom=17, maxzoom=17),
        tiles.feature({"points": [[WORLD, WORLD]]}, minzoom=0, maxzoom=19),
    ]
    for feature in taken:
        script.ask(put(7, feature), request("GET", "/features/7"), request("GET", "/map/metadata"))
    script.note("the last tiles of zoom 19, and columns, rows and zooms behind them")
    places = ["19/524287/524287", "19/524286/524287", "19/524288/0", "19/0/524288", "20/0/0", "20/1048575/1048575", "255/0/0"]
    script.ask(*(request("GET", f"/map/{place}.hex") for place in places))
    script.note("a line along the edge of the world at zoom 18 has 262,144 tiles, the most; with one more zoom it is refused")
    edge = {"lines": [[[0, 0], [WORLD, 0]]]}
    script.ask(put(7, tiles.feature(edge, 18, 18)), request("GET", "/map/18/0/0.hex"), request("GET", "/map/18/262143/0.hex"))
    script.ask(put(7, tiles.feature(edge, 17, 18)), put(7, tiles.feature(edge, 19, 19)), request("GET", "/map/18/131072/0.hex"))
    script.note("boxes of zoom 19: 262,144 tiles, and one more")
    for right, down in [(2147475456, 0), (2147483648, 0), (0, 2147475456), (0, 2147483648), (536862720, 24576), (429490176, 32768)]:
        script.ask(put(7, tiles.feature({"points": [[0, 0], [right, down]]}, 19, 19)))
    odd = b' {"tags":{"b":1,"a":2,"b":3},"maxzoom":9,"layer":"\\u0070","geometry":{"points":[[ 1 ,\t2]]},\r\n"minzoom":1,"maxzoom":3} '
    script.ask(request("PUT", "/features/7", odd), request("GET", "/features/7"))
    script.note("the metadata where the features of a layer differ")
    script.ask(put(8, tiles.feature({"points": [[0, 0]]}, 1, 5, tags={"a": True, "b": "x", "c": "y"})))
    script.ask(put(9, tiles.feature({"points": [[0, 0]]}, 2, 4, layer="a", tags={"a": True, "d": -1})))
    script.ask(request("GET", "/map/metadata"), request("HEAD", "/map/metadata"))


BLOCKS = [routes, conditions, worked_tiles, refused_features, at_the_limits]
