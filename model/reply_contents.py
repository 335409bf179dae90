"""Blocks of `reply_script.py` about long contents that several peers get at once: each gets its own bytes. Each is a function of a script."""
from listening import END, Peer, logged, pace, time_for
from reply_listening import DONE, EDIT, GONE, SLOW, listen, part_of, published, reply_size, with_points
from reply_stand import BEGIN, GET_ARCHIVE, PUBLISH, STEP, large_put, put, request


def lasts(script, takes, *asked):
    """When a peer has taken the replies to requests, which are as long as they are now."""
    return time_for(sum(reply_size(script, each) for each in asked), *takes)


# ---- parts of the archive


def range_of(first, last, *fields):
    return request("GET", "/map.pmtiles", b"", f"range: bytes={first}-{last}", *fields)


FRONT, BACK = range_of(700, 139_999), range_of(60_001, 157_777)
QUICK = (100_000, 20_000)


def two_ranges(script):
    script.say("Two ranges of the archive at once, of different places: their parts are read and sent in turn, and each gets its own bytes.")
    published(script)
    for first, second in ((SLOW, SLOW), (SLOW, QUICK), (QUICK, SLOW), ((0, 30_000), (65_536, 13_107))):
        front, back = lasts(script, first, FRONT), lasts(script, second, BACK)
        one = Peer((0, FRONT), (1, END), answered=[FRONT], takes=first, last=front)
        other = Peer((0, BACK), (1, END), answered=[BACK], takes=second, last=back)
        ends = sorted([(front, 1), (back, 2)])
        listen(script, one, other, log=logged(*((number, 1, "closed") for _, number in ends)), time=ends[-1][0])
    script.note("The same to peers that take all at once, and of three peers each.")
    one, other = Peer((0, FRONT), (1, END), answered=[FRONT]), Peer((0, BACK), (1, END), answered=[BACK])
    listen(script, one, other, log=logged((1, 1, "closed"), (2, 1, "closed")), time=1)
    front, back = lasts(script, SLOW, FRONT), lasts(script, SLOW, BACK)
    one = Peer((0, FRONT), (1, END), answered=[FRONT], takes=SLOW, last=front, more=2)
    other = Peer((0, BACK), (1, END), answered=[BACK], takes=SLOW, last=back, more=2)
    listen(script, one, other, log=logged(*((number, 1, "closed") for number in (4, 5, 6, 1, 2, 3))), time=front)


# ---- several requests in one read, of which the first one's reply has parts


def in_one_read(script):
    script.say("Two requests in one read, of which the first one is a download: the second one is answered once that was sent, as the map is then.")
    published(script)
    script.ask(EDIT)
    last = lasts(script, SLOW, GET_ARCHIVE, DONE)
    script.ask(GONE)
    one = Peer((0, GET_ARCHIVE + DONE), (1, END), answered=[GET_ARCHIVE, DONE], takes=SLOW, last=last)
    other = Peer((50, EDIT), (51, END), answered=[EDIT], last=50)
    listen(script, one, other, order=[0, 1, 0], log=logged((2, 1, "closed"), (1, 2, "closed")), time=last)
    script.note("Two ranges in one read, by two peers, each in its order.")
    first, second = lasts(script, SLOW, FRONT, BACK, DONE), lasts(script, QUICK, BACK, FRONT)
    one = Peer((0, FRONT + BACK + DONE), (1, END), answered=[FRONT, BACK, DONE], takes=SLOW, last=first)
    other = Peer((0, BACK + FRONT), (1, END), answered=[BACK, FRONT], takes=QUICK, last=second)
    listen(script, one, other, log=logged((2, 2, "closed"), (1, 3, "closed")), time=first)
    script.note("Each of them is there before the next is answered, also if all is taken at once. Of a head no content is read.")
    head = request("HEAD", "/map.pmtiles")
    asked = [head, FRONT, GONE, DONE, BACK, head]
    listen(script, Peer((0, b"".join(asked)), (1, END), answered=asked), log=logged((1, len(asked), "closed")), time=1)
    script.note("A request behind one that closes the connection isn't answered.")
    closing = range_of(60_001, 157_777, "connection: close")
    last = lasts(script, SLOW, closing)
    listen(script, Peer((0, closing + EDIT), (1, END), answered=[closing], takes=SLOW, last=last), log=logged((1, 1, "asked")), time=last)
    script.ask(DONE)
    script.note("Nor is one behind a download that is cut, or whose peer takes no more.")
    size, last = part_of(script, 650)
    cut = Peer((0, GET_ARCHIVE + EDIT), (1, END), answered=[GET_ARCHIVE], takes=SLOW, size=size, last=last)
    other = Peer((650, PUBLISH), (650, BEGIN), (650, STEP), (650, END), answered=[PUBLISH, BEGIN, STEP], last=650)
    listen(script, cut, other, log=logged((2, 3, "closed"), (1, 0, "gone")), time=last)
    listen(script, Peer((0, FRONT + EDIT), answered=[FRONT], takes=(70_000, 0), size=70_000), log=logged((1, 0, "write")), time=60_000)
    script.ask(DONE)


# ---- replies of more than 1 MiB

LARGE, SMALL = 38, request("GET", "/map/2/0/0.hex")
NOTHING, STOPS, BY_BYTES = (0, 0), (300_000, 0), (7, 7_919)


def long_replies(script):
    script.say("A tile of more than 1 MiB to one that takes some bytes at a time, one that takes none, and one that stops: others are answered at once.")
    script.disk(8192)
    for number in range(1, LARGE + 1):
        script.ask(*large_put(number))
    for path in ("/map/0/0/0.mvt", "/map/0/0/0.hex"):
        tile = request("GET", path)
        last = lasts(script, BY_BYTES, tile)
        part, _, over = pace(reply_size(script, tile), *STOPS)
        slow = Peer((0, tile), (1, END), answered=[tile], takes=BY_BYTES, last=last)
        deaf = Peer((0, tile), (1, END), answered=[tile], takes=NOTHING, size=0)
        stops = Peer((0, tile), (1, END), answered=[tile], takes=STOPS, size=part)
        asked = [put(50), SMALL, tile, request("DELETE", "/features/50"), SMALL]
        acts = [(100 * at, each) for at, each in enumerate(asked, 1)]
        others = Peer(*acts, (600, END), answered=asked, comes=100, last=500)
        log = logged((4, 5, "closed"), (1, 1, "closed"), (2, 0, "write"), (3, 0, "write"))
        listen(script, slow, deaf, stops, others, log=log, time=over)
    script.note("Several of them in one read, to two peers at once: a later one has the edits of meanwhile.")
    tile = request("GET", "/map/0/0/0.mvt")
    size = reply_size(script, tile)
    script.ask(put(50))
    last = time_for(size + reply_size(script, tile) + reply_size(script, SMALL), 1000, 100_000)
    script.ask(request("DELETE", "/features/50"))
    one = Peer((0, tile + SMALL + tile), (1, END), answered=[tile, SMALL, tile], takes=(1000, 100_000), last=last)
    other = Peer((0, tile), (50, put(50)), (60, END), answered=[tile, put(50)], last=50)
    listen(script, one, other, order=[0, 1, 1, 0, 0], log=logged((2, 2, "closed"), (1, 3, "closed")), time=last)


# ---- hex text, which is spelled as it is sent

HEX, HEX_HEAD, EMPTY = request("GET", "/map/0/0/0.hex"), request("HEAD", "/map/0/0/0.hex"), request("GET", "/map/2/3/1.hex")


def hex_replies(script):
    script.say("Hex text is spelled as its peer takes it, in pieces that end within the digits of a byte, or within what was spelled at once.")
    with_points(script)
    for takes in ((1, 4_099), (3, 65_535), (65_536, 65_537), (131_073, 1_021), (65_700, 131_071)):
        one = Peer((0, HEX + DONE), (1, END), answered=[HEX, DONE], takes=takes, last=lasts(script, takes, HEX, DONE))
        listen(script, one, log=logged((1, 2, "closed")), time=lasts(script, takes, HEX, DONE))
    script.note("To two peers at once, and an edit comes meanwhile: each has the digits of the tile as it was when it was asked for.")
    last = lasts(script, SLOW, HEX)
    one = Peer((0, HEX), (1, END), answered=[HEX], takes=SLOW, last=last)
    other = Peer((0, HEX_HEAD + EMPTY), (50, EDIT + HEX), (51, END), answered=[HEX_HEAD, EMPTY, EDIT, HEX], last=50)
    listen(script, one, other, order=[0, 1, 1, 1, 1], log=logged((2, 4, "closed"), (1, 1, "closed")), time=last)
    script.note("Several in one read, the later ones with the edit; one that is cut; the head alone, and an empty tile.")
    one = Peer((0, HEX + HEX_HEAD + HEX + EMPTY), (1, END), answered=[HEX, HEX_HEAD, HEX, EMPTY], takes=SLOW,
               last=lasts(script, SLOW, HEX, HEX_HEAD, HEX, EMPTY))
    listen(script, one, log=logged((1, 4, "closed")), time=lasts(script, SLOW, HEX, HEX_HEAD, HEX, EMPTY))
    part, _, over = pace(reply_size(script, HEX), 70_001, 0)
    listen(script, Peer((0, HEX), (1, END), answered=[HEX], takes=(70_001, 0), size=part), log=logged((1, 0, "write")), time=over)
    script.ask(HEX_HEAD, HEX, EMPTY, HEX_HEAD, sizes="4096,1")
    script.note("Of a tile that is read from the archive.")
    script.ask(PUBLISH)
    script.again()
    one = Peer((0, HEX_HEAD + HEX), (1, END), answered=[HEX_HEAD, HEX], takes=(3, 65_535), last=lasts(script, (3, 65_535), HEX_HEAD, HEX))
    listen(script, one, log=logged((1, 2, "closed")), time=lasts(script, (3, 65_535), HEX_HEAD, HEX))


BLOCKS = [two_ranges, in_one_read, long_replies, hex_replies]
