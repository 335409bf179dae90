"""Blocks of `reply_script.py` about `/admin/edits`: edits that are made only if each feature is what its author saw."""
import reply_edits
import tiles
from reply_edits import FEATURE, LAST, METHODS, NO_NUMBERS, WITHOUT, deletes, sets, shown, with_tag
from reply_hostile import neighbours
from reply_stand import A, BEGIN, BODY, CANCEL, GET_ARCHIVE, PUBLISH, STEP, WORLD, Often, head, put, request, spelled, spelled_parts, tagged, with_point

PATH = "/admin/edits"
OTHER = tiles.feature({"points": [[WORLD, 0]]}, 1, 3, "q", {"b": -1, "a": "x"})


def seen(change, was=None):
    """A change whose author saw this feature, or none."""
    return {**change, "was": was}


def body_of(*changes):
    return spelled({"changes": [*changes]})


def post(*changes):
    """The request of a checked edit."""
    return request("POST", PATH, body_of(*changes))


def post_body(body):
    return request("POST", PATH, body)


def post_parts(parts):
    """A POST of a body in parts."""
    size = len(spelled_parts(parts)[0])
    return [f"POST {PATH} HTTP/1.1\r\nhost: x\r\ncontent-length: {size}\r\n\r\n".encode(), *parts]


def begin(script, sectors=256, features=(), kind="", number=0):
    """A disk with these features, by their numbers, opened so that the paths under `/admin/` are served."""
    script.disk(sectors)
    if features:
        script.ask(*(put(number, feature) for number, feature in features))
    script.admin(kind, number)


# ---- two editors


def worked(script):
    script.say("A feature is created, changed by one who saw it, and by another who saw what was there before; then deleted by each.")
    for sizes in ("4096", "1"):
        begin(script)
        script.ask(post(seen(sets(7))), *shown(7), post(seen(sets(7, OTHER), FEATURE)), *shown(7), A, sizes=sizes)
        gone = [post(seen(deletes(7), FEATURE)), post(seen(deletes(7), OTHER))]
        script.ask(post(seen(sets(7, with_tag(3)), FEATURE)), *shown(7), *gone, *shown(7), A, sizes=sizes)
    script.note("Two create the same number; one deletes what the other has deleted; a request that is sent twice.")
    script.ask(post(seen(sets(8))), post(seen(sets(8, OTHER))), *shown(8), post(seen(deletes(8), FEATURE)), post(seen(deletes(8), FEATURE)))
    script.ask(post(seen(sets(8), None)), post(seen(sets(8), None)), post(seen(sets(8, OTHER), FEATURE)), post(seen(sets(8, OTHER), FEATURE)), *shown(8))
    script.note("A feature is set to what it is; what the next process finds.")
    script.ask(post(seen(sets(8, OTHER), OTHER)), A)
    script.admin()
    script.ask(*shown(7, 8), post(seen(deletes(8), OTHER)), *shown(8), A)
    script.note("A deletion of what isn't there, by one who saw that: as in /edits.")
    script.ask(post(seen(deletes(9))), post(seen(sets(9)), seen(deletes(10))), *shown(9), request("POST", "/edits", body_of(deletes(9))))
    script.note("What GET gives is taken as it is.")
    script.ask(put(LAST, OTHER), request("GET", f"/admin/features/from/{LAST}"), post_body(b'{"changes":[{"delete":%d,"was":%s}]}' % (LAST, spelled(OTHER))))


def who_may_ask(script):
    script.say("Without /admin/ it isn't served; other methods, with a body and without; other paths; a query, which isn't looked at.")
    with_point(script)
    for opening in (script.again, script.admin):
        opening()
        for method in METHODS:
            script.ask(request(method, PATH), request(method, PATH, body_of(seen(sets(8)))), *shown(8))
        for path in ("/admin/edits/", "/admin/edits/7", "/admin/edit", "/admin/Edits", "/Admin/edits", "/admin//edits", "//admin/edits", "/admin/edits.json"):
            script.ask(request("POST", path, body_of(seen(sets(7)))), request("GET", path))
        script.ask(request("POST", PATH + "?a=b", body_of(seen(deletes(7), FEATURE))), request("POST", PATH, b""), *shown(7, 8))
    script.note("Opened again without it it isn't served.")
    script.again()
    script.ask(post(seen(sets(9))), *shown(9))


# ---- what is compared


def with_members(feature):
    """Features that differ from this one in one member each."""
    yield {**feature, "layer": "r"}
    yield from ({**feature, "minzoom": zoom} for zoom in (0, 2))
    yield from ({**feature, "maxzoom": zoom} for zoom in (2, 4))
    yield from ({**feature, "geometry": geometry} for geometry in OTHER_GEOMETRIES)
    yield from ({**feature, "tags": tags} for tags in OTHER_TAGS)


TAGS = {"a": "1", "b": 1, "c": -1, "d": True, "e": ""}
LINES = {"lines": [[[0, 0], [9, 9], [20, 0]], [[5, 5], [6, 6]]]}
COMPARED = tiles.feature(LINES, 1, 3, "p", TAGS)
OTHER_GEOMETRIES = [{"points": [[0, 0]]}, {"polygons": [[[[0, 0], [9, 9], [20, 0]]]]}, {"lines": LINES["lines"][::-1]}, {"lines": LINES["lines"][:1]},
                    {"lines": [LINES["lines"][0][::-1], LINES["lines"][1]]}, {"lines": [*LINES["lines"], [[0, 0], [1, 1]]]},
                    {"lines": [[[0, 0], [9, 9]], [[5, 5], [6, 6]]]}, {"lines": [[[0, 0], [9, 9], [20, 1]], [[5, 5], [6, 6]]]},
                    {"lines": [[[0, 0], [9, 9], [20, 0], [5, 5]], [[5, 5], [6, 6]]]}]
OTHER_TAGS = [{}, {**TAGS, "f": 1}, {key: TAGS[key] for key in "abcd"}, {**TAGS, "a": 1}, {**TAGS, "b": "1"}, {**TAGS, "b": 2}, {**TAGS, "b": True},
              {**TAGS, "c": 1}, {**TAGS, "d": False}, {**TAGS, "d": 1}, {**TAGS, "d": "true"}, {**TAGS, "e": " "}, {**TAGS, "e": 0},
              {**{key: TAGS[key] for key in "abcd"}, "E": ""}]
POLYGONS = tiles.feature({"polygons": [[[[0, 0], [9, 0], [9, 9]], [[1, 1], [2, 1], [2, 2]]], [[[20, 20], [30, 20], [30, 30]]]]})
OTHER_POLYGONS = [[[[[0, 0], [9, 0], [9, 9]]], [[[20, 20], [30, 20], [30, 30]]]], [[[[0, 0], [9, 0], [9, 9]], [[1, 1], [2, 1], [2, 2]]]],
                  [[[[20, 20], [30, 20], [30, 30]]], [[[0, 0], [9, 0], [9, 9]], [[1, 1], [2, 1], [2, 2]]]],
                  [[[[0, 0], [9, 0], [9, 9]], [[1, 1], [2, 2], [2, 1]]], [[[20, 20], [30, 20], [30, 30]]]],
                  [[[[9, 0], [9, 9], [0, 0]], [[1, 1], [2, 1], [2, 2]]], [[[20, 20], [30, 20], [30, 30]]]],
                  [[[[1, 1], [2, 1], [2, 2]], [[0, 0], [9, 0], [9, 9]]], [[[20, 20], [30, 20], [30, 30]]]]]
POINTS = tiles.feature({"points": [[0, 0], [7, 7], [0, 0]]})
OTHER_POINTS = [[[0, 0], [7, 7]], [[0, 0], [0, 0], [7, 7]], [[7, 7], [0, 0], [0, 0]], [[0, 0], [7, 7], [0, 0], [0, 0]], [[0, 0], [7, 7], [0, 1]]]


def compared(script):
    script.say("What was seen differs in one member: each is Changed, and nothing is changed.")
    begin(script, features=[(7, COMPARED), (8, POLYGONS), (9, POINTS)])
    for other in with_members(COMPARED):
        script.ask(post(seen(deletes(7), other)), post(seen(sets(7), other)))
    for polygons in OTHER_POLYGONS:
        script.ask(post(seen(deletes(8), {**POLYGONS, "geometry": {"polygons": polygons}})))
    for points in OTHER_POINTS:
        script.ask(post(seen(deletes(9), {**POINTS, "geometry": {"points": points}})))
    script.ask(*shown(7, 8, 9), A)
    script.note("Null for what is there, a feature for what isn't.")
    script.ask(post(seen(sets(7))), post(seen(deletes(7))), post(seen(sets(10), COMPARED)), post(seen(deletes(10), COMPARED)), *shown(7, 10))
    script.note("The members and the tags in another order, blanks, numbers and texts in other words, the last of a repeated key: equal.")
    text = (b' {"tags":{"e":"","d":true,"c":-1,"b":7,"b":1,"\\u0061":"\\u0031"} , "maxzoom":3,"minzoom":1,"layer":"p",\r\n'
            b'"geometry":{"lines":[[[0,0],[9,9],[20,0]],[[5,5],[6,6]]]}}')
    for change in (b'{"was":%s,"put":7,"feature":%s}' % (text, spelled(COMPARED)), b'{"was":null,"was":%s,"delete":7}' % text):
        script.ask(post_body(b'{"changes":[%s]}' % change), *shown(7))
    script.ask(post(seen(deletes(8), POLYGONS), seen(sets(9, OTHER), POINTS)), *shown(8, 9), A)
    script.note("Whole numbers that a double can't tell apart, at both ends.")
    for one, other in ((2**64 - 1, 2**64 - 2), (2**53, 2**53 + 1), (-(2**63), -(2**63) + 1), (0, False), (1, True)):
        first, second = ({**FEATURE, "tags": {"t": value}} for value in (one, other))
        script.ask(put(11, first), post(seen(sets(11, second), second)), post(seen(sets(11, second), first)), *shown(11))


def the_first(script):
    script.say("Of several changes the first is named whose number has something else, in the order of the body.")
    begin(script, 1024, [(1, FEATURE), (2, OTHER), (3, COMPARED)])
    right = [seen(deletes(1), FEATURE), seen(sets(2, FEATURE), OTHER), seen(deletes(3), COMPARED)]
    wrong = [seen(deletes(1), OTHER), seen(sets(2, FEATURE), FEATURE), seen(deletes(3))]
    for bits in range(1, 8):
        changes = [wrong[at] if bits & 1 << at else right[at] for at in range(3)]
        script.ask(post(*changes), post(*changes[::-1]), post(changes[1], changes[2], changes[0]))
    script.ask(*shown(1, 2, 3), A, post(*right), *shown(1, 2, 3), A)
    script.note("64 changes: the last, the first, one in the middle; then all of them are right.")
    script.ask(post(*(seen(sets(number)) for number in range(10, 74))), A, sizes="65536")
    again = [seen(sets(number, OTHER), FEATURE) for number in range(10, 74)]
    for at in (63, 0, 31):
        script.ask(post(*again[:at], seen(sets(10 + at), OTHER), *again[at + 1 :]), *shown(10, 73), A, sizes="65536")
    script.ask(post(*again[:63], seen(sets(LAST, OTHER), FEATURE)), post(*again[:63], seen(deletes(73), FEATURE)), *shown(10, 72, 73), A, sizes="65536")


# ---- bodies


def plain_bodies():
    """The bodies of `/edits` that are refused, each as it is and with null as what was seen of each change."""
    for body in [*reply_edits.of_other_forms(), *reply_edits.with_faults()]:
        yield body
        if isinstance(body, bytes) and body.startswith(b'{"changes":[{'):
            for word in (b"delete", b"feature", b"put"):
                body = body.replace(b'{"%s":' % word, b'{"was":null,"%s":' % word)
            yield body


def other_members():
    yield "what was seen is missing, has another kind, or has other members; another member beside it"
    yield from [body_of(sets(7)), body_of(deletes(7)), body_of(seen(sets(7)), deletes(8)), body_of({"was": None}), body_of({"put": 7, "was": None})]
    yield from (body_of(seen(change, was)) for change in (sets(8), deletes(7)) for was in ([], "x", 7, True, {}, [None], [FEATURE], {"feature": FEATURE}))
    yield from (body_of(seen(deletes(7), was)) for was in WITHOUT)
    yield from [body_of({**seen(sets(7)), "more": 1}), body_of({**seen(deletes(7)), "more": 1}), body_of({**deletes(7), "Was": None})]
    yield from [body_of({**sets(7), "were": None}), body_of({**seen(deletes(7)), "feature": FEATURE}), body_of({**sets(7), "delete": 7, "was": None})]
    other_kinds = [{"more": 1}, {"layer": 7}, {"minzoom": "0"}, {"maxzoom": 256}, {"maxzoom": -1}, {"tags": []}, {"geometry": []}]
    yield from (body_of(seen(deletes(7), {**FEATURE, **members})) for members in [*other_kinds, {"geometry": {"points": 5}}])
    yield spelled({"changes": [sets(7)], "was": [None]})
    yield "what was seen is nested so deep that the body is 127 deep, and 128"
    yield from (b'{"changes":[{"delete":7,"was":' + b"[" * depth + b"]" * depth + b"}]}" for depth in (124, 125))
    yield "a number that is none"
    yield from (b'{"changes":[{"delete":' + text + b',"was":null}]}' for text in NO_NUMBERS)
    yield from (b'{"changes":[{"put":' + text + b',"feature":' + BODY + b',"was":null}]}' for text in NO_NUMBERS)


BROKEN = [{"layer": ""}, {"layer": "x" * 65}, {"minzoom": 3}, {"maxzoom": 20}, {"geometry": {"points": []}}, {"geometry": {"lines": [[[0, 0]]]}},
          {"geometry": {"points": [[0, 2**32]]}}, {"tags": {"": 1}}, {"tags": {f"k{number}": 1 for number in range(65)}}, {"tags": {"k": None}},
          {"tags": {"k": "x" * 1025}}, {"tags": {"k": 2**64}}]


def faults_in_order():
    yield "each fault of what was seen, in the first change and in the second"
    for members in BROKEN:
        was = {**FEATURE, **members}
        yield from [body_of(seen(sets(8), was)), body_of(seen(sets(8)), seen(deletes(7), was)), body_of(seen(deletes(7), was), seen(sets(8)))]
    yield "the faults of the changes are named before those of what was seen, and E1 of what was seen before all others"
    bad, worse = {**FEATURE, "layer": ""}, {**FEATURE, "maxzoom": 20}
    yield from [body_of(seen(sets(8), bad), seen(sets(9, worse))), body_of(seen(deletes(7), bad), seen(deletes(2**63))), body_of(seen(sets(7, worse), bad))]
    yield from [body_of(seen(deletes(7), bad), seen(deletes(7))), body_of(*(seen(deletes(number), bad) for number in range(65)))]
    yield from [body_of(seen(deletes(7), bad), seen(sets(8, worse), {})), body_of(seen(deletes(2**63)), seen(deletes(2**63), []))]
    yield body_of(seen(sets(7, bad), 7))
    yield "of two that were seen the first is named"
    yield from [body_of(seen(deletes(7), bad), seen(deletes(8), worse)), body_of(seen(deletes(8), worse), seen(deletes(7), bad))]
    yield body_of(seen(deletes(8)), seen(deletes(7), {**FEATURE, "tags": {"k": None}}), seen(deletes(9), bad))
    yield "faults of the body are named before what has changed"
    yield from [body_of(seen(deletes(7)), seen(sets(8), bad)), body_of(seen(sets(7)), seen(sets(8, bad))), body_of(seen(sets(7)), seen(deletes(7)))]


def refused_edits(script):
    script.say("Bodies that are no checked edit.")
    begin(script, features=[(7, FEATURE)])
    for body in [*plain_bodies(), *other_members(), *faults_in_order()]:
        if isinstance(body, str):
            script.note(body)
        else:
            script.ask(post_body(body), sizes="65536")
    script.note("none of them changed anything")
    script.ask(*shown(7, 8, 9), A)
    script.note("what was seen has no limit of its text or its reach: nothing that is stored breaks one, so it is only Changed")
    wide = tiles.feature({"lines": [[[0, 0], [WORLD, 0]]]}, 17, 18)
    script.ask(post(seen(deletes(7), wide)), post(seen(sets(8, wide))), post(seen(sets(8, wide), wide)), *shown(8))


def at_the_limits(script):
    script.say("Changes whose texts are too long together, or whose feature covers too many tiles: compared first.")
    script.disk(1024)
    script.ask(*(put(number, with_tag(900)) for number in range(40)), sizes="65536")
    script.admin()
    large = [seen(sets(number, with_tag(1000)), with_tag(900)) for number in range(33)]
    script.ask(post(*large), post(*large[:32]), post(*large[:31]), *shown(0, 31, 32), sizes="65536")
    script.ask(post(*large[:31], seen(deletes(39))), post(seen(deletes(99)), seen(sets(41, OTHER), OTHER)), A, sizes="65536")
    script.note("A feature of more than half of a body can be put with null as what was seen, and is deleted with what was seen; to be put over it it is "
                "too long.")
    points = [b'{"geometry":{"points":[[4000000000,4000000000]', Often(1500, b",[4000000000,4000000000]"), b']},"layer":"p","maxzoom":2,"minzoom":0,"tags":{}}']
    script.ask(*post_parts([b'{"changes":[{"put":50,"feature":', *points, b',"was":null}]}']), sizes="65536")
    script.ask(*post_parts([b'{"changes":[{"put":50,"feature":', *points, b',"was":', *points, b"}]}"]), sizes="65536")
    script.ask(*post_parts([b'{"changes":[{"delete":50,"was":', *points, b"}]}"]), *shown(50), sizes="65536")
    script.note("a body of 65,536 bytes, and one more")
    whole = body_of(seen(sets(51)))
    script.ask(*post_parts([whole, Often(65536 - len(whole), b" ")]), *shown(51), sizes="65536,4099")
    script.ask(*post_parts([whole, Often(65537 - len(whole), b" ")]), *shown(51), sizes="65536,4099")


# ---- disks of version 1, publications, and disks that fail


def first_disks(script):
    script.say("A disk of version 1: a checked edit is refused, what has changed is named before that; after the upgrade it is made.")
    script.first(256)
    script.ask(put(7))
    script.admin()
    unseen = [post(seen(deletes(7))), post(seen(sets(8)))]
    script.ask(post(seen(deletes(7), FEATURE)), *unseen, post(seen(sets(8), FEATURE)), post_body(b"{"), post(), *shown(7, 8))
    script.ask(post(seen(deletes(9))), post(seen(sets(8, {**FEATURE, "layer": ""}), FEATURE)))
    script.upgrade()
    script.admin()
    script.ask(post(seen(deletes(7))), post(seen(deletes(7), FEATURE), seen(sets(8))), *shown(7, 8), A)


def in_the_journal(script):
    script.say("Checked edits while a publication is under way, and in a journal that is full.")
    begin(script, features=[(1, FEATURE), (2, OTHER)])
    first, second = post(seen(sets(3)), seen(deletes(1), FEATURE)), post(seen(deletes(2)), seen(deletes(3), FEATURE))
    script.ask(BEGIN, first, STEP, GET_ARCHIVE, A, BEGIN, second, CANCEL, STEP, A)
    script.ask(post(seen(deletes(2), OTHER), seen(deletes(3), FEATURE)), PUBLISH, GET_ARCHIVE, A)
    begin(script, 64, [(number, with_tag(900)) for number in range(16)])
    script.ask(post(seen(deletes(1), with_tag(900))), post(seen(deletes(1))), post(seen(sets(1, with_tag(900)), with_tag(900))), PUBLISH, *shown(1))
    script.ask(post(seen(deletes(1), with_tag(900))), *shown(1), A)


def on_failing_disks(script):
    script.say("Checked edits of which a call of the disk fails: Device, then Broken, but what has changed is named before. Then what the next process finds.")
    for kind, number in [(kind, number) for kind in ("lost", "made") for number in (1, 2)]:
        begin(script, 64, [(7, FEATURE)], kind, number)
        script.ask(post(seen(deletes(7), OTHER)), post(seen(sets(8)), seen(deletes(7), FEATURE)), post(seen(sets(9))), post(seen(sets(7))), *shown(7, 8), A)
        script.ask(post(seen(deletes(7), FEATURE)), post(seen(deletes(9))), post_body(b"{"), post(), post(seen(deletes(7), {**FEATURE, "layer": ""})))
        script.admin()
        script.ask(A, *shown(7, 8), post(seen(sets(9)), seen(sets(10))))
    script.note("what is refused makes no call of the disk")
    begin(script, 64, [(7, FEATURE)], "from", 1)
    script.ask(post(seen(deletes(7))), post(seen(deletes(9))), post(), post(*(seen(sets(number, with_tag(1000))) for number in range(10, 18))))
    script.ask(*tagged(1000), A)


# ---- connections


def in_connections(script):
    script.say("Checked edits among other requests of a connection, in pieces of some sizes.")
    for sizes in ("65536", "1", "2", "7", "64", "100"):
        begin(script)
        script.ask(put(1), post(seen(sets(2)), seen(deletes(1), FEATURE)), A, post(seen(deletes(1), FEATURE)), post_body(b"{"),
                   post(seen(sets(4))), *shown(1, 2), PUBLISH, post(seen(deletes(2), FEATURE), seen(deletes(4), FEATURE)), GET_ARCHIVE, A, sizes=sizes)
    script.note("HTTP/1.0, and a connection that is to be closed")
    body = body_of(seen(sets(7)))
    plain = f"content-length: {len(body)}"
    for first, fields in (("HTTP/1.0", []), ("HTTP/1.1", ["host: a", "connection: close"])):
        script.ask(head(f"POST {PATH} {first}", *fields, plain) + body, A, sizes="4096")
    script.note("an edit whose reply can't be written is made all the same: sent again it is Changed")
    for room in (0, 10, 80):
        begin(script)
        script.writer(10**9, room)
        script.ask(post(seen(sets(7))), post(seen(deletes(7), FEATURE)))
        script.writer()
        script.ask(post(seen(sets(7))), *shown(7), A)


def damaged_edits(script):
    script.say("A checked edit of two changes with each byte changed to 0, 255 and its neighbours.")
    begin(script, 4096)
    stream = post(seen(sets(7)), seen(deletes(8), FEATURE))
    for at, byte in enumerate(stream):
        for other in neighbours(byte):
            script.ask(put(8) if at % 20 == 0 else b"", stream[:at] + bytes([other]) + stream[at + 1 :])
    script.ask(*shown(7, 8), A)


BLOCKS = [worked, who_may_ask, compared, the_first, refused_edits, at_the_limits, first_disks, in_the_journal, on_failing_disks, in_connections, damaged_edits]
