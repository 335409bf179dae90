"""Blocks of `reply_script.py` about edits of several changes: `/edits`, its bodies, what refuses them, and disks of both versions."""
import tiles
from reply_hostile import neighbours
from reply_stand import A, BEGIN, BODY, CANCEL, GET_ARCHIVE, PUBLISH, STEP, WORLD, Often, head, large_put, put, request, spelled, spelled_parts, tagged

FEATURE = tiles.feature({"points": [[0, 0]]})
LAST = 2**63 - 1


def with_tag(letters, point=(0, 0)):
    """A point with a tag of so many letters: the text of a change that sets it has 30 bytes more."""
    return tiles.feature({"points": [[*point]]}, tags={"t": "x" * letters})


def sets(number, feature=None):
    """A change that sets a feature."""
    return {"put": number, "feature": FEATURE if feature is None else feature}


def deletes(number):
    return {"delete": number}


def body_of(*changes):
    return spelled({"changes": [*changes]})


def post(*changes):
    """The request of an edit."""
    return request("POST", "/edits", body_of(*changes))


def post_body(body):
    return request("POST", "/edits", body)


def post_parts(parts):
    """A POST of a body in parts."""
    size = len(spelled_parts(parts)[0])
    return [f"POST /edits HTTP/1.1\r\nhost: x\r\ncontent-length: {size}\r\n\r\n".encode(), *parts]


def shown(*numbers):
    return [request("GET", f"/features/{number}") for number in numbers]


def in_parts(*changes):
    """A POST of changes that are parts."""
    joined = [part for change in changes for part in [b",", *change]][1:]
    return post_parts([b'{"changes":[', *joined, b"]}"])


def set_points(number, points, letters=0):
    """The parts of a change that sets so many points. Its text has 17 bytes and 8 for each point, and with letters in a tag 5 and these more."""
    tags = [b'"t":"', Often(letters, b"x"), b'"'] if letters else []
    return [b'{"put":%d,"feature":{"layer":"p","minzoom":0,"maxzoom":2,"tags":{' % number, *tags, b'},"geometry":{"points":[[0,0]',
            Often(points - 1, b",[0,0]"), b"]}}}"]


def worked_edits(script):
    script.say("The worked edit of two changes, in one piece and byte by byte.")
    for sizes in ("4096", "1"):
        script.disk(256)
        script.ask(post(sets(7), sets(8)), A, sizes=sizes)
    script.note("A change that deletes a feature that doesn't exist: none of the changes is made, and no number is spent.")
    script.ask(post(sets(9), deletes(10)), *shown(9), A)
    script.note("No changes; a number twice.")
    script.ask(post(), post(sets(7), deletes(7)), post(deletes(7), deletes(7)), post(sets(7), sets(8), sets(7)), *shown(7))
    script.note("A feature is replaced, one deleted and one set; one change alone; what the next process finds.")
    other = tiles.feature({"points": [[WORLD, 0]]}, 1, 3, "q", {"b": -1, "a": "x"})
    script.ask(post(sets(8, other), deletes(7), sets(9)), A, *shown(7, 8, 9), request("GET", "/map/metadata"), post(deletes(9)), post(deletes(9)))
    script.again()
    script.ask(A, *shown(7, 8, 9), post(sets(LAST), sets(0)), *shown(LAST, 0), post(deletes(0), deletes(LAST)))


METHODS = ["GET", "HEAD", "PUT", "DELETE", "PATCH", "OPTIONS", "post", "Post", "POSTS", "P"]


def methods(script):
    script.say("Other methods, with a body and without; other paths; a query, which isn't looked at.")
    script.disk(256)
    for method in METHODS:
        script.ask(request(method, "/edits"), request(method, "/edits", body_of(sets(7))), *shown(7))
    for path in ("/edits/", "/edits/7", "/edit", "/Edits", "/EDITS", "/edits.json", "/edits2", "//edits", "edits", "/features/edits", "/edits/\u00e9"):
        script.ask(request("POST", path, body_of(sets(7))), request("GET", path), request("HEAD", path))
    script.ask(request("POST", "/edits?a=b", body_of(sets(7))), request("POST", "/edits?", body_of(sets(8))), request("POST", "/edits", b""), *shown(7, 8))
    script.note("What the field content-type has doesn't count.")
    for kind in ("application/json", "text/plain", "x"):
        script.ask(request("POST", "/edits", body_of(sets(7)), f"content-type: {kind}"))


# ---- bodies

WITHOUT = [{key: value for key, value in FEATURE.items() if key != name} for name in FEATURE]
NO_NUMBERS = [b"null", b"true", b'"7"', b"-1", b"7.0", b"7e0", b"-0", b"1e3", b"0.5", b"18446744073709551616", b"-9223372036854775809", b"[7]", b"{}"]


def of_other_forms():
    """Bodies that are refused, with remarks in front of each kind."""
    whole = body_of(sets(7))
    yield "no JSON text"
    yield from [b"", b" ", b"{", b"x", b'{"changes":[}', b'{"changes":[1,]}', b'{"changes":[]} x', b"\xff", b"1e400"]
    yield from [b"\xef\xbb\xbf" + whole, whole[:-1], whole + b"}", whole + whole]
    yield "no object with a list `changes` alone"
    yield from [b"[]", b"null", b"7", b'"x"', b"{}", b'{"change":[]}', b'{"Changes":[]}', b'{"changes":null}', b'{"changes":{}}', b'{"changes":5}']
    yield from [whole[:-1] + b',"more":1}', b'{"put":7,"feature":' + BODY + b"}", b'{"delete":7}', BODY, b"[" + whole + b"]", b'{"changes":' + whole + b"}"]
    yield "a change that is no object with exactly the members of one form"
    changes = [None, [], 7, "x", {}, {"put": 7}, {"feature": FEATURE}, {"put": 7, "delete": 7}, {"put": 7, "delete": 7, "feature": FEATURE}]
    changes += [{"delete": 7, "feature": FEATURE}, {"delete": 7, "more": 1}, {**sets(7), "more": 1}, {"Put": 7, "feature": FEATURE}, {"Delete": 7}]
    changes += [{"put": 7, "features": FEATURE}, [sets(7)], {"changes": [sets(7)]}, {"id": 7, "feature": FEATURE}]
    yield from (body_of(change) for change in changes)
    yield from [body_of(sets(8), {"put": 7}), body_of({"put": 7}, sets(8)), body_of(sets(8), deletes(9), None)]
    yield "a number that is no whole number from 0 to 2^64 - 1"
    yield from (b'{"changes":[{"delete":' + text + b"}]}" for text in NO_NUMBERS)
    yield from (b'{"changes":[{"put":' + text + b',"feature":' + BODY + b"}]}" for text in NO_NUMBERS)
    yield "a feature with another member, without one, or with one of another kind"
    yield from (body_of(sets(7, feature)) for feature in WITHOUT)
    yield from (body_of(sets(8), {"put": 7, "feature": feature}) for feature in ([], "x", 7, None, {}))
    other_kinds = [{"more": 1}, {"layer": 7}, {"minzoom": "0"}, {"maxzoom": 256}, {"maxzoom": -1}, {"tags": []}, {"geometry": []}]
    for members in [*other_kinds, {"geometry": {"points": 5}}]:
        yield body_of(sets(7, {**FEATURE, **members}))
    yield "E1 of any change is named before the faults of the edit and of other changes"
    yield body_of(sets(7, {**FEATURE, "layer": ""}), {"put": 8})
    yield body_of(deletes(2**63), deletes(2**63), sets(7, {**FEATURE, "tags": None}))
    yield body_of(*(deletes(number) for number in range(64)), 7)


def with_faults():
    yield "no changes, and 65; a number twice"
    yield from [body_of(), body_of(*(deletes(number) for number in range(65))), body_of(*(sets(number) for number in range(65)))]
    yield from [body_of(*(deletes(number) for number in range(64)), deletes(0)), body_of(sets(7), deletes(8), sets(7)), body_of(deletes(7), sets(7))]
    yield body_of(*(deletes(number) for number in range(63)), sets(0))
    yield from [body_of(deletes(2**64 - 1), deletes(2**64 - 1)), body_of(deletes(2**63), sets(2**63, {**FEATURE, "layer": ""}))]
    yield "a number of 2^63 or more"
    yield from [body_of(change) for number in (2**63, 2**64 - 1) for change in (deletes(number), sets(number))]
    yield from [body_of(sets(7), deletes(2**63)), body_of(sets(2**63, {**FEATURE, "layer": ""}))]
    yield "each fault of a feature, in the first change and in the second"
    broken = [{"layer": ""}, {"layer": "x" * 65}, {"minzoom": 3}, {"maxzoom": 20}, {"geometry": {"points": []}}, {"geometry": {"lines": [[[0, 0]]]}}]
    broken += [{"geometry": {"points": [[0, 2**32]]}}, {"tags": {"": 1}}, {"tags": {f"k{number}": 1 for number in range(65)}}]
    broken += [{"tags": {"k": None}}, {"tags": {"k": "x" * 1025}}, {"tags": {"k": 2**64}}]
    for members in broken:
        feature = {**FEATURE, **members}
        yield from [body_of(sets(7, feature)), body_of(sets(8), sets(7, feature)), body_of(deletes(9), sets(7, feature))]
    yield "of two changes at fault the first is named, whatever its fault is"
    yield body_of(sets(7, {**FEATURE, "tags": {"k": None}}), deletes(2**63))
    yield body_of(sets(7, {**FEATURE, "tags": {"": 1}}), sets(8, {**FEATURE, "layer": ""}))
    yield body_of(sets(7, {**FEATURE, "layer": "", "maxzoom": 20}), sets(8, {**FEATURE, "tags": {"k": None}}))


def refused_edits(script):
    script.say("Bodies that are no edit.")
    script.disk(256)
    for body in [*of_other_forms(), *with_faults()]:
        if isinstance(body, str):
            script.note(body)
        else:
            script.ask(post_body(body))
    script.note("none of them changed anything")
    script.ask(*shown(7, 8), A)
    script.note("taken: blanks, members in any order, the last of a repeated key, and the words of the members in escapes")
    for body in [b' { "changes" :\r\n[ {"feature":%s ,"put": 7}\t, {"delete":7,"delete":8} ] } ' % BODY,
                 b'{"changes":5,"changes":[{"put":8,"put":9,"feature":5,"feature":%s}]}' % BODY,
                 b'{"\\u0063hanges":[{"\\u0064elete":9}]}', b'{"changes":[{"put":0,"feature":%s}]}' % BODY]:
        script.ask(put(8), post_body(body), *shown(0, 7, 8, 9))


def at_the_limits(script):
    script.say("64 changes; then changes of 32,768 bytes together, and of one more. A put with 2,000 points has 16,017 bytes, one of 2,091 and a tag 16,751.")
    script.disk(1024)
    script.ask(post(*(sets(number) for number in range(64))), *shown(0, 63), post(*(deletes(number) for number in range(64))), A, sizes="65536")
    script.ask(*in_parts(set_points(1, 2000), set_points(2, 2091, 2)), sizes="65536")
    script.ask(*in_parts(set_points(1, 2000), set_points(2, 2091, 1)), sizes="65536")
    script.again()
    script.ask(A, request("GET", "/map/metadata"), *shown(3))
    script.note("one change of 32,768 bytes, as alone so beside another, and a byte longer")
    script.ask(*in_parts(set_points(3, 4093, 2)))
    script.ask(*in_parts(set_points(3, 4093, 3)))
    script.ask(*in_parts(set_points(3, 4093, 2), set_points(4, 1)))
    script.ask(*in_parts(set_points(4, 1), set_points(3, 4094)))
    script.note("a deletion has 9 bytes: two features, and with it one byte too many")
    script.ask(*in_parts(set_points(1, 2000), set_points(2, 2089, 8), [b'{"delete":3}']), sizes="65536")
    script.ask(*in_parts(set_points(1, 2000), set_points(2, 2090, 1), [b'{"delete":3}']), sizes="65536")
    script.note("features that cover too many tiles, as the first and as the second; the sum's length is named before, a feature that isn't there behind it")
    edge, wide = {"lines": [[[0, 0], [WORLD, 0]]]}, tiles.feature({"lines": [[[0, 0], [WORLD, 0]]]}, 17, 18)
    script.ask(post(sets(5, wide)), post(sets(4), sets(5, wide)), post(sets(5, wide), sets(4)), post(deletes(99), sets(5, wide)), *shown(4, 5))
    script.ask(post(sets(5, tiles.feature(edge, 18, 18)), sets(6, tiles.feature(edge, 18, 18))), request("GET", "/map/18/262143/0.hex"))
    wide_change = b'{"put":5,"feature":%s}' % spelled(wide)
    script.ask(*in_parts([wide_change], set_points(1, 4093, 3)))
    script.ask(*in_parts(set_points(1, 4094), [b'{"delete":99}']))
    script.note("a body of 65,536 bytes, and one more")
    whole = body_of(sets(4))
    script.ask(*post_parts([whole, Often(65536 - len(whole), b" ")]), *shown(4), sizes="65536,4099")
    script.ask(*post_parts([whole, Often(65537 - len(whole), b" ")]), *shown(4), sizes="65536,4099")


# ---- versions of the disk


def first_disks(script):
    script.say("A disk of version 1: a batch is refused, a PUT and a DELETE are made; after the upgrade the map is the same, and batches are made.")
    script.first(256)
    script.ask(put(7), post(sets(7), sets(8)), *shown(8), put(9), request("DELETE", "/features/9"), A)
    script.note("faults of the body come in front of NeedsUpgrade; those of the length, of the reach and of what is there behind it")
    wide = tiles.feature({"lines": [[[0, 0], [WORLD, 0]]]}, 17, 18)
    script.ask(post_body(b"{"), post_body(b"[]"), post(), post(sets(7), deletes(7)), post(deletes(2**63)), post(sets(7, {**FEATURE, "layer": ""})))
    script.ask(post(sets(5, wide)), post(deletes(99)), request("GET", "/edits"), request("HEAD", "/edits"))
    script.ask(*in_parts(set_points(1, 2000), set_points(2, 2091, 2)), sizes="65536")
    script.upgrade()
    script.ask(A, post(sets(7), sets(8)))
    script.again()
    script.ask(A, *shown(7, 8, 9), post(sets(7), sets(8)), A, post(deletes(99)), request("DELETE", "/features/8"))
    script.again()
    script.ask(A, post(deletes(7), sets(9)))
    script.upgrade()
    script.upgrade()
    script.again()
    script.ask(A, *shown(7, 8, 9))
    script.note("a publication before the upgrade, and one that is under way when the disk is closed")
    script.first(256)
    script.ask(put(7), PUBLISH, put(8), BEGIN)
    script.upgrade()
    script.again()
    script.ask(STEP, GET_ARCHIVE, A, post(deletes(7), deletes(8)), A, GET_ARCHIVE, PUBLISH, GET_ARCHIVE)
    script.note("disks of other sizes, and what can't be upgraded")
    for sectors in (0, 63, 16777217, 64):
        script.first(sectors)
    script.ask(put(7), post(sets(7)))
    script.zeros(64)
    script.upgrade()
    script.first(64)
    script.sector(0, 86)
    script.upgrade()
    script.again()
    script.first(64)
    script.sector(1, 1)
    script.upgrade()
    script.again()


# ---- the journal, and disks that fail


def in_the_journal(script):
    script.say("A disk of 64 sectors, whose journal has sixteen. Edits fill it, and a publication frees it.")
    script.disk(64)
    small, large = with_tag(900), with_tag(1000)
    script.ask(post(*(sets(number, large) for number in range(8))), post(*(sets(number, small) for number in range(8))), *shown(7))
    script.ask(post(sets(8)), post(sets(8), sets(9)), put(8), post(deletes(1)), post(*(sets(number, large) for number in range(8))))
    script.ask(PUBLISH, post(*(deletes(number) for number in range(8))), A, GET_ARCHIVE)
    script.note("edits while a publication is under way")
    script.disk(256)
    script.ask(post(sets(1), sets(2)), BEGIN, post(sets(3), deletes(1)), STEP, GET_ARCHIVE, A, BEGIN, post(deletes(2), deletes(3)), CANCEL, STEP, A)
    script.disk(1024)
    for number in range(1, 4):
        script.ask(*large_put(number))
    script.ask(BEGIN, post(sets(9), deletes(1)), STEP, post(deletes(2), deletes(9)), STEP, STEP, STEP, STEP, STEP, GET_ARCHIVE, A)


def on_failing_disks(script):
    script.say("Edits of which a call of the disk fails: Device, then Broken; reads go on. Then what the next process finds.")
    three = post(sets(1, with_tag(700, [WORLD, 0])), deletes(7), sets(2, with_tag(600)))
    for edit, calls in ((post(sets(8), deletes(7)), 2), (three, 5)):
        for kind, number in [(kind, number) for kind in ("lost", "made") for number in range(1, calls + 1)]:
            script.disk(64)
            script.ask(put(7))
            script.again(kind, number)
            script.ask(edit, post(sets(9)), put(9), A, *shown(7), BEGIN)
            script.again()
            script.ask(A, *shown(7), post(sets(9), sets(10)))
    script.note("Faults of the body, of the path and of the method come in front of Broken; those of the length, of the reach and of what is there behind it.")
    for begin in (script.disk, script.first):
        begin(64)
        script.again("from", 1)
        wide = tiles.feature({"lines": [[[0, 0], [WORLD, 0]]]}, 17, 18)
        script.ask(put(7), post_body(b"{"), post_body(b"[]"), post(), post(sets(7), deletes(7)), request("GET", "/edits"), request("POST", "/edits/"))
        script.ask(post(sets(7)), post(deletes(9)), post(sets(7, wide)), A)
        script.ask(*in_parts(set_points(1, 2000), set_points(2, 2091, 2)), sizes="65536")
    script.note("what is refused makes no call of the disk")
    script.disk(64)
    script.again("from", 1)
    script.ask(post(deletes(9)), post(sets(7, wide)), post(), post(*(sets(number, with_tag(1000)) for number in range(8))))
    script.ask(*in_parts(set_points(1, 2000), set_points(2, 2091, 2)), sizes="65536")
    script.ask(*tagged(1000), A)


# ---- connections


def in_connections(script):
    script.say("Edits among other requests of a connection, in pieces of some sizes.")
    for sizes in ("65536", "1", "2", "7", "64", "100"):
        script.disk(256)
        script.ask(put(1), post(sets(2), deletes(1)), A, post(deletes(1), sets(3)), post_body(b"{"), post(sets(4), sets(5)), *shown(1, 2, 3, 4), PUBLISH,
                   post(deletes(2), deletes(4)), GET_ARCHIVE, A, sizes=sizes)
    script.note("HTTP/1.0, and a connection that is to be closed")
    body = body_of(sets(7), sets(8))
    plain = f"content-length: {len(body)}"
    for first, fields in (("HTTP/1.0", []), ("HTTP/1.1", ["host: a", "connection: close"]), ("HTTP/1.1", ["host: a", "Connection: x, Close"])):
        script.ask(head(f"POST /edits {first}", *fields, plain) + body, A, sizes="4096")
    script.note("refused by a field: the body isn't looked at, and the connection ends")
    for fields in (["expect: 100-continue", plain], ["Expect:", plain], ["transfer-encoding: chunked"], ["transfer-encoding: chunked", plain], [plain, plain],
                   ["content-length: x"], ["content-length: -1"], ["content-length: 65537"], ["content-length: 99999999999999999999999"]):
        script.ask(head("POST /edits HTTP/1.1", "host: a", *fields) + body, A, sizes="4096,1")
    script.ask(head("POST /edits HTTP/1.1", plain) + body, A, sizes="4096,1")
    script.note("without a length the body is empty, and what follows is no head; leading zeros count as digits")
    script.ask(head("POST /edits HTTP/1.1", "host: a") + body, A, sizes="4096,1")
    script.ask(head("POST /edits HTTP/1.1", "host: a", f"Content-Length: \t000{len(body)} ") + body, A, sizes="4096")
    script.note("a body that isn't whole is waited for, and refused at the end of the input; the edit isn't made")
    script.disk(256)
    whole = head("POST /edits HTTP/1.1", "host: a", plain) + body
    front = len(whole) - len(body)
    for size in (front - 1, front, front + 1, len(whole) - 1):
        script.ask(whole[:size])
        script.wait(whole[:size], sizes="4096")
    script.ask(A)
    script.note("an edit whose reply can't be written is made all the same; what is asked behind it isn't looked at")
    for room in (0, 10, 80):
        script.disk(256)
        script.writer(10**9, room)
        script.ask(post(sets(7), sets(8)), post(deletes(7)))
        script.writer()
        script.ask(*shown(7), *shown(8), A)


def damaged_edits(script):
    script.say("An edit of two changes with each byte changed to 0, 255 and its neighbours.")
    script.disk(4096)
    stream = post(sets(7), deletes(8))
    for at, byte in enumerate(stream):
        for other in neighbours(byte):
            script.ask(put(8) if at % 20 == 0 else b"", stream[:at] + bytes([other]) + stream[at + 1 :])
    script.ask(*shown(7, 8), A)


BLOCKS = [worked_edits, methods, refused_edits, at_the_limits, first_disks, in_the_journal, on_failing_disks, in_connections, damaged_edits]
