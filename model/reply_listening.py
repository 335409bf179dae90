"""Blocks of `reply_script.py` about peers that a listener serves by turns. Each is a function of a script."""
import connections
from listening import END, FLOOD, Fixed, Peer, Turn, listen as listen_to, logged, pace, time_for
from reply_admin import batch_of
from reply_tags import with_tags
from reply_stand import BEGIN, CANCEL, GET_ARCHIVE, PUBLISH, STEP, Often, large_put, put, put_parts, request, text_of, with_point

# Linux's errors: no descriptor is left, a signal, a connection is gone, a fault of the protocol, an argument at fault. Then one that is none.
EMFILE, EINTR, ECONNABORTED, EPROTO, EINVAL, NO_NUMBER = 24, 4, 103, 71, 22, -1
MAX_OPEN = 256
MAX_DROPPED = 2**24

A, HEAD = request("GET", "/map/0/0/0.hex"), request("HEAD", "/map/0/0/0.hex")
LAST = request("GET", "/map/0/0/0.hex", b"", "connection: close")
FRONT, BACK = A[:21], A[21:]
B = put(8)
REFUSED = request("PUT", "/features/8", b"abc")
NEXT, SHOWN, GONE = put(9), request("GET", "/features/9"), request("DELETE", "/features/9")


def listen(script, *peers, **said):
    listen_to(script, *peers, spelled=text_of, **said)


# ---- room for new connections

# There is no descriptor for the second one, each 10 ms from 500 ms to 1 s, and once more while one that was closed may still send.
NONE_LEFT = [(1, 0), (52, EMFILE)]


def no_descriptor(script):
    script.say("While there is no descriptor left, a connection is closed for another one only after it has waited for a second.")
    with_point(script)
    listen(
        script,
        Peer((0, A), answered=[A]),
        Peer((500, A), (1500, END), answered=[A], comes=500, last=1000),
        accepts=NONE_LEFT, log=logged((1, 1, "closed"), (2, 1, "closed")), time=1500,
    )
    script.note("One that asks again within that second is served, and the new one waits until there is a descriptor: 52 tries take 520 ms.")
    listen(
        script,
        Peer((0, A), (900, A), (1200, END), answered=[A, A], last=900),
        Peer((500, A), (1500, END), answered=[A], comes=500, last=1020),
        accepts=NONE_LEFT, log=logged((1, 2, "closed"), (2, 1, "closed")), time=1500,
    )


def accepts_that_fail(script):
    script.say("An accept that fails for the connection that it accepts, and one that a signal interrupts: the next one is accepted.")
    with_point(script)
    twice = Peer((0, A), (1, END), answered=[A], more=1)
    failing = [(1, ECONNABORTED), (1, EINTR), (1, 0), (1, EPROTO), (1, ECONNABORTED)]
    listen(script, twice, accepts=failing, log=logged((1, 1, "closed"), (2, 1, "closed")), time=1)
    script.note("A thousand may fail in a row, and no more.")
    listen(script, Peer((0, A), (1, END), answered=[A]), accepts=[(1000, ECONNABORTED)], log=logged((1, 1, "closed")), time=1)
    listen(script, Peer((0, A), (1, END)), accepts=[(1001, ECONNABORTED)], failed=True)
    script.note("A listener that accepts no more ends what is open, and ends at once if nothing is.")
    later = Peer((0, A), comes=5)
    listen(script, Peer((0, A), answered=[A]), later, accepts=[(1, 0), (3, EINVAL)], log=logged((1, 1, "closed")), failed=True, time=5)
    done = Peer((0, LAST), answered=[LAST], words=["stubborn"], more=1)
    later = Peer((5, LAST), comes=5, more=1)
    listen(script, done, later, accepts=[(2, 0), (1, NO_NUMBER)], log=logged((1, 1, "asked"), (2, 1, "asked")), failed=True, time=5)


def so_many_are_open(script):
    script.say("One more than may be open: the one that has waited longest is closed after a second, and the new one is served then.")
    with_point(script)
    others = [*range(3, MAX_OPEN + 2)]
    log = logged((2, 1, "closed"), (1, 2, "closed"), *((number, 1, "closed") for number in others))
    first = Peer((0, A), (1, A), (5000, END), answered=[A, A], last=1)
    listen(
        script,
        first,
        Peer((0, A), (5000, END), answered=[A], more=MAX_OPEN - 2),
        Peer((0, A), (5001, END), answered=[A], last=1000),
        log=log, time=5001,
    )
    script.note("While each of those that are open has begun a request, another one waits for ten seconds. Then the one that has waited longest is closed.")
    log = logged(*((number, 0, "read") for number in range(1, MAX_OPEN + 2)))
    listen(script, Peer((0, FRONT), more=MAX_OPEN), log=log, time=70_000)
    script.note("At that limit as many are closed as come, and no more while another one may come.")
    log = logged(*((number, 1, "closed") for number in [1, 2, *range(4, MAX_OPEN + 3), 3, MAX_OPEN + 3]))
    listen(
        script,
        Peer((0, A), answered=[A], more=1),
        Peer((0, A), (6000, END), answered=[A]),
        Peer((0, A), (5000, END), answered=[A], more=MAX_OPEN - 4),
        Peer((2000, A), (5000, END), answered=[A], comes=2000, last=2000, more=1),
        Peer((9000, A), (9001, END), answered=[A], comes=9000, last=9000),
        log=log, time=9001,
    )
    script.note("A connection is ended whose stream can't be watched, and no other one.")
    unwatched = Peer((5, A), (6, END), words=["unwatched"])
    listen(script, unwatched, Peer((5, A), (6, END), answered=[A], last=5), log=logged((1, 0, "closed"), (2, 1, "closed")), time=6)


# ---- turns


def points_between(first, second, pairs):
    """The parts of a feature that goes from one point to another so often."""
    front, back = b'{"layer":"p","minzoom":0,"maxzoom":2,"tags":{},"geometry":{"points":[%s' % first, b"]}}"
    return [front, Often(pairs, b",%s,%s" % (second, first)), back]


# The points are in one tile at zoom 2, and apart from each other at zoom 0.
PARTS = points_between(b"[0,0]", b"[999999999,999999999]", 1249)
FEATURES = 8


def with_points(script):
    """A disk whose tile of zoom 0 is some 160,000 bytes long as digits, and whose archive is longer than two parts of 65,536 bytes."""
    script.disk(8192)
    for number in range(1, FEATURES + 1):
        script.ask(*put_parts(number, PARTS))


def reply_size(script, asked):
    """How many bytes the reply has that a map makes now."""
    return len(connections.outcome(script.stand.service, asked, 4096).written)


def turns(script):
    script.say("One that has sent several requests at once has a turn for each of them, as others have.")
    with_point(script)
    listen(
        script,
        Peer((0, A * 3), (0, END), answered=[A] * 3),
        Peer((0, B), (0, END), answered=[B]),
        order=[0, 1, 0, 0], log=logged((2, 1, "closed"), (1, 3, "closed")),
    )
    script.note("Five peers have each begun a request, and another one asks twice.")
    listen(
        script,
        Peer((0, FRONT), (90_000, BACK), more=4),
        Peer((1000, A), (2000, B), (2001, END), answered=[A, B], comes=1000, last=2000),
        log=logged((6, 2, "closed"), *((number, 0, "read") for number in range(1, 6))), time=60_000,
    )
    script.note("What is still sent after the last reply is dropped, once the server has ended its side.")
    listen(script, Peer((0, LAST), (0, FLOOD), answered=[LAST], dropped=MAX_DROPPED), log=logged((1, 1, "asked")))
    script.note("What can't be set is left, and what is sent on isn't read then. A full log is passed over.")
    listen(script, Peer((0, LAST), (0, FLOOD), answered=[LAST], words=["stubborn"]), log=logged((1, 1, "asked")))
    listen(script, Peer((0, LAST), (0, FLOOD), answered=[LAST], words=["stubborn"], more=2), word="log 0")


def slow_readers(script):
    script.say("One that reads a large reply slowly, and has asked for more before: others are served meanwhile, and its next request only then.")
    with_points(script)
    size = reply_size(script, A)
    # (its next reply goes out at once, and is as long and longer by what the other one has put meanwhile)
    script.ask(NEXT)
    both = size + reply_size(script, A)
    script.ask(GONE)
    rate = 1000
    last = time_for(both, 1000, rate)
    listen(
        script,
        Peer((100, A * 2), (101, END), answered=[A, A], takes=(1000, rate), last=last),
        Peer((500, SHOWN), (600, NEXT), (700, END), answered=[SHOWN, NEXT], comes=400, last=600),
        order=[0, 1, 1, 0], log=logged((2, 2, "closed"), (1, 2, "closed")), time=last,
    )
    script.note("One that reads nothing more is given up after a minute, and only its first request was answered.")
    listen(script, Peer((0, A + GONE), answered=[A], takes=(1000, 0), size=1000), log=logged((1, 0, "write")), time=60_000)
    script.ask(SHOWN)
    script.note("Where the listener stops, a connection that waits for a request ends at once, one whose reply is sent within a second ends then,")
    script.note("and any other one after that second.")
    size = reply_size(script, A)
    quick, rate = size - 100_000, 20_000
    listen(
        script,
        Peer((0, A), answered=[A], takes=(1000, 1000), size=11_000, last=1000),
        Peer((0, A), answered=[A], takes=(quick, rate), last=time_for(size, quick, rate)),
        Peer(),
        Peer(comes=90),
        word="until 50", log=logged((3, 0, "closed"), (2, 1, "closed"), (1, 0, "write")), failed=True, time=1090,
    )


# ---- a bound on the bytes of all connections

PUT_HALF = request("PUT", "/features/8", b"x" * 9_000)[:5_000]


def all_hold_too_much(script):
    script.say("Once all connections hold more than they may, the one is ended that has waited longest for its peer, and no other one.")
    script.note("The reply to the last one is longer than what is given to it in a turn, and counts until it is sent.")
    with_points(script)
    size = reply_size(script, A)
    deaf = {"answered": [A], "takes": (1000, 0), "size": 1000}
    listen(
        script,
        Peer((0, A), **deaf),
        Peer((100, A), comes=100, last=100, **deaf),
        Peer((200, A), comes=200, last=200, **deaf),
        Peer((300, A), (400, END), answered=[A], comes=300, last=300),
        word=f"held {size * 2}", log=logged((1, 0, "write"), (2, 0, "write"), (4, 1, "closed"), (3, 0, "write")), time=60_200,
    )
    script.note("One whose peer reads goes on.")
    rate = 10_000
    last = time_for(size, 1000, rate)
    listen(
        script,
        Peer((0, A), (last + 1, END), answered=[A], takes=(1000, rate), last=last),
        Peer((50, A), comes=50, last=50, **deaf),
        Peer((250, A), comes=250, last=250, **deaf),
        word=f"held {size * 5 // 2}", log=logged((2, 0, "write"), (1, 1, "closed"), (3, 0, "write")), time=60_250,
    )
    script.note("One that has sent a part of a request gets a reply, as its last one.")
    listen(
        script,
        Peer((0, PUT_HALF), (300, b"x"), refused=True, last=200),
        Peer((100, PUT_HALF), (300, END), answered=[PUT_HALF], comes=100, last=300),
        Peer((200, PUT_HALF), (300, END), answered=[PUT_HALF], comes=200, last=300),
        word="held 12000", log=logged((1, 0, "memory"), (2, 1, "refused"), (3, 1, "refused")), time=2300,
    )


def so_many_reads(script):
    script.say("A connection may make so many reads: what it has asked by then is answered, and it ends once more comes.")
    with_point(script)
    listen(script, Peer((0, FRONT), (1, BACK), (2, A), (3, END), answered=[A], last=1), word="reads 2", log=logged((1, 1, "turns")), time=3)
    listen(script, Peer((0, FRONT), (1, A), (2, END)), word="reads 1", log=logged((1, 0, "turns")), time=2)


# At which times two peers send their halves: all orders.
ORDERS = [(1, 2, 3, 4), (1, 3, 2, 4), (1, 4, 2, 3), (2, 3, 1, 4), (2, 4, 1, 3), (3, 4, 1, 2)]


def halves(asked, cut, start, first, second, end):
    return Peer((start + first, asked[:cut]), (start + second, asked[cut:]), (start + end, END), answered=[asked], comes=start, last=start + second)


def cut_anywhere(script):
    script.say("Two connections at a time whose requests are cut anywhere, in any order of the halves: the next two come 20 ms later.")
    with_point(script)
    for cut in range(1, len(REFUSED)):
        peers = []
        for place, (first, second, third, fourth) in enumerate(ORDERS):
            start = 20 * place
            peers.append(halves(A, 1 + cut % (len(A) - 1), start, first, second, 9))
            peers.append(halves(REFUSED, cut, start, third, fourth, 10))
        log = logged(*((number, 1, "closed") for number in range(1, len(peers) + 1)))
        listen(script, *peers, log=log, time=20 * (len(ORDERS) - 1) + 10)


def byte_by_byte(script):
    script.say("Three connections whose bytes come one by one, by turns: each with two requests.")
    with_point(script)
    peers = []
    for number, asked in enumerate([(A, B), (B, A), (A, B)]):
        held = asked[0] + asked[1]
        acts = [(number + 3 * at, held[at : at + 1]) for at in range(len(held))]
        peers.append(Peer(*acts, (number + 3 * len(held), END), answered=asked, last=number + 3 * (len(held) - 1)))
    # (the shorter request is whole first, and the second of each at the end, by turns)
    time = 2 + 3 * (len(A) + len(B))
    listen(script, *peers, order=[0, 2, 1, 0, 1, 2], log=logged(*((number, 2, "closed") for number in (1, 2, 3))), time=time)


# ---- times


def stages(script):
    closed, read, asked = logged((1, 1, "closed")), logged((1, 0, "read")), logged((1, 1, "asked"))
    script.say("How long a peer is waited for. First the end of the input comes with the request.")
    with_point(script)
    listen(script, Peer((0, A), (0, END), answered=[A]), log=closed)
    script.note("A minute for the first bytes, one for the rest, and the same again.")
    twice = Peer((59_999, FRONT), (119_998, BACK), (179_997, FRONT), (239_996, BACK), (299_995, END), answered=[A, A], last=239_996)
    listen(script, twice, log=logged((1, 2, "closed")), time=299_995)
    script.note("Nothing in a minute, and nothing in a minute after a reply: the peer has two seconds to send something else.")
    listen(script, Peer(), log=logged((1, 0, "closed")), time=62_000)
    listen(script, Peer((0, A), answered=[A]), log=closed, time=62_000)
    script.note("A request that isn't whole after a minute, one of which a part comes then, and one of which the rest does: closed at once, or served.")
    listen(script, Peer((10, FRONT)), log=read, time=60_010)
    listen(script, Peer((0, FRONT), (30_000, b"TP/1.1\r\n"), (59_999, b"host: x\r\n"), (60_000, b"a")), log=read, time=60_000)
    listen(script, Peer((0, FRONT), (60_000, BACK), (60_001, END), answered=[A], last=60_000), log=closed, time=60_001)
    script.note("A part of a request that came with the one before has a minute too.")
    listen(script, Peer((0, A + FRONT), answered=[A]), log=logged((1, 1, "read")), time=60_000)
    script.note("What comes after the last reply is dropped up to a pause of two seconds, or up to the input's end.")
    listen(script, Peer((0, LAST), (1999, b"a"), (3998, b"b"), (5999, b"c"), answered=[LAST]), log=asked, time=5998)
    listen(script, Peer((0, LAST), (1999, b"a"), (3998, END), answered=[LAST]), log=asked, time=3998)


# How many bytes of a reply a peer takes at once, and in a tenth of a second.
PACES = [(0, 150), (0, 200), (0, 250), (0, 300), (80_000, 0), (80_000, 100), (80_000, 150), (150_000, 100)]


def paces(script):
    script.say("A reply has a minute, and a second more for each 16,384 bytes of it that were sent, but never more than a minute at once.")
    with_points(script)
    size = reply_size(script, A)
    for quick, rate in PACES:
        got, last, time = pace(size, quick, rate)
        end = logged((1, 1, "closed") if got == size else (1, 0, "write"))
        listen(script, Peer((0, A), (1, END), answered=[A], takes=(quick, rate), size=got, last=last), log=end, time=max(time, 1))


# ---- downloads

EDIT = put(9)
FIRST_PART = 16_384
SLOW = (20_000, 10_000)


def published(script):
    with_points(script)
    script.ask(PUBLISH)


def part_of(script, at):
    """How many bytes of a download are sent whose archive is gone from a time on, and when the last one comes: the parts that were read by then.
    The first one is read with the head of the reply, and each other one once those before were sent."""
    reply = connections.outcome(script.stand.service, GET_ARCHIVE, 4096).written
    sent = reply.index(b"\r\n\r\n") + 4 + FIRST_PART
    while time_for(sent, *SLOW) < at:
        sent += connections.MAX_OF_A_PART
    return min(sent, len(reply)), time_for(min(sent, len(reply)), *SLOW)


def downloads(script):
    gone = request("DELETE", "/features/1")
    script.say("A download beside edits, steps and one whole publication.")
    published(script)
    last = time_for(reply_size(script, GET_ARCHIVE), *SLOW)
    asked = [(50, EDIT), (150, BEGIN), (160, STEP), (250, gone), (260, STEP), (350, CANCEL), (360, PUBLISH), (450, gone)]
    other = Peer(*asked, (451, END), answered=[what for _, what in asked], last=450)
    slow = Peer((0, GET_ARCHIVE), (1, END), answered=[GET_ARCHIVE], takes=SLOW, last=last)
    listen(script, slow, other, log=logged((2, 8, "closed"), (1, 1, "closed")), time=last)
    script.note("It is cut from the first step of the second publication on, at any time.")
    for at in (100, 650, 800, 1400):
        published(script)
        size, last = part_of(script, at)
        cut = Peer((0, GET_ARCHIVE), (1, END), answered=[GET_ARCHIVE], takes=SLOW, size=size, last=last)
        other = Peer((at, PUBLISH), (at, BEGIN), (at, STEP), (at, END), answered=[PUBLISH, BEGIN, STEP], last=at)
        listen(script, cut, other, log=logged((2, 3, "closed"), (1, 0, "gone")), time=last)
    script.note("Two downloads of different archives at once, each of its own to the last byte.")
    published(script)
    last = time_for(reply_size(script, GET_ARCHIVE), *SLOW)
    slow = Peer((0, GET_ARCHIVE), (1, END), answered=[GET_ARCHIVE], takes=SLOW, last=last)
    other = Peer((100, EDIT), (110, PUBLISH), (120, END), answered=[EDIT, PUBLISH], last=110)
    listen_second(script, slow, other, last)


def listen_second(script, slow, other, last):
    """The one of the first archive, edits, and a download of the second one, which is as long and longer by the point of the edit."""
    second = Peer((200, GET_ARCHIVE), (201, END), answered=[GET_ARCHIVE], takes=SLOW, last=last)
    log = logged((2, 2, "closed"), (1, 1, "closed"), (3, 1, "closed"))
    listen(script, slow, other, second, log=log, time=last)


# ---- publications that are prepared

DONE = request("GET", "/features/9")


def preparations(script):
    script.say("A beginning is prepared by a tile at a time, and others are answered in between: the archive is of the map as it was when it was asked for.")
    with_point(script)
    one = Peer((0, BEGIN), (10, STEP), (20, GET_ARCHIVE), (30, END), answered=[BEGIN, STEP, GET_ARCHIVE], last=20)
    other = Peer((0, EDIT + DONE), (29, END), answered=[EDIT, DONE])
    listen(script, one, other, order=[0, 1, 1, 0, 0], log=logged((2, 2, "closed"), (1, 3, "closed")), time=30)
    script.note("A query and an empty line before it change nothing of that.")
    for asked in (request("POST", "/publish/begin?x"), b"\r\n" + BEGIN):
        with_point(script)
        one = Peer((0, asked), (10, STEP), (20, GET_ARCHIVE), (30, END), answered=[asked, STEP, GET_ARCHIVE], last=20)
        other = Peer((0, EDIT + DONE), (29, END), answered=[EDIT, DONE])
        listen(script, one, other, order=[0, 1, 1, 0, 0], log=logged((2, 2, "closed"), (1, 3, "closed")), time=30)
    with_point(script)
    script.note("Edits that are acknowledged before it is read are in it.")
    gone = request("DELETE", "/features/7")
    both = Peer((0, gone + BEGIN + STEP + GET_ARCHIVE), (1, END), answered=[gone, BEGIN, STEP, GET_ARCHIVE])
    listen(script, both, Peer((0, put(8)), (2, END), answered=[put(8)]), order=[0, 1, 0, 0, 0], log=logged((1, 4, "closed"), (2, 1, "closed")), time=2)
    script.note("A second beginning waits for the first one, which it doesn't overtake, and then is refused; the first one is cancelled.")
    with_point(script)
    first = Peer((0, BEGIN), (10, CANCEL), (30, END), answered=[BEGIN, CANCEL], last=10)
    second = Peer((0, EDIT + BEGIN), (20, BEGIN), (21, END), answered=[EDIT, BEGIN, BEGIN], last=20)
    listen(script, first, second, order=[0, 1, 1, 0, 1], log=logged((2, 3, "closed"), (1, 2, "closed")), time=30)
    script.note("Any other call of a publication drops what is prepared, and it is made anew, of the map of then.")
    for asked in (CANCEL, STEP):
        with_point(script)
        first = Peer((0, BEGIN), (10, STEP), (20, GET_ARCHIVE), (30, END), answered=[BEGIN, STEP, GET_ARCHIVE], last=20)
        second = Peer((0, EDIT + asked + request("DELETE", "/features/9")), (31, END), answered=[EDIT, asked, request("DELETE", "/features/9")])
        listen(script, first, second, order=[1, 1, 0, 1, 0, 0], log=logged((1, 3, "closed"), (2, 3, "closed")), time=31)


STATUS = request("GET", "/admin/status")

# Requests that a path, a method or a condition refuses. No feature has a tag, and neither has the map, so that a condition is never met.
REFUSED_BY_PATH = [request("GET", "/publish"), request("HEAD", "/publish/begin"), request("POST", "/publish/other"), request("POST", "/nothing")]
CONDITIONS = ["if-match: *", "if-none-match: *", 'if-match: "1-1-223"']
REFUSED_CALLS = [request("POST", path, b"", field) for path, field in zip(("/publish", "/publish/begin", "/publish/step"), CONDITIONS)]
REFUSED_CALLS += [request("POST", "/publish/cancel?x", b"", CONDITIONS[0]), b"\r\n" + request("POST", "/publish?x", b"", CONDITIONS[1])]


def refused_meanwhile(script):
    script.say("A request that is refused by its path, its method or its conditions changes nothing of what is prepared for another connection.")
    for refused in REFUSED_BY_PATH + REFUSED_CALLS:
        with_point(script)
        one = Peer((0, BEGIN), (10, STEP), (20, GET_ARCHIVE), (30, END), answered=[BEGIN, STEP, GET_ARCHIVE], last=20)
        other = Peer((0, EDIT + refused + DONE), (29, END), answered=[EDIT, refused, DONE])
        listen(script, one, other, order=[0, 1, 1, 1, 0, 0], log=logged((2, 3, "closed"), (1, 3, "closed")), time=30)
    script.note("Nor of a whole publication.")
    for refused in REFUSED_BY_PATH + REFUSED_CALLS:
        with_point(script)
        one = Peer((0, PUBLISH), (20, GET_ARCHIVE), (30, END), answered=[PUBLISH, GET_ARCHIVE], last=20)
        other = Peer((0, EDIT + refused + DONE), (29, END), answered=[EDIT, refused, DONE])
        listen(script, one, other, order=[Fixed(0), 1, 1, 1, 0, 0], log=logged((2, 3, "closed"), (1, 2, "closed")), time=30)
    script.note("Nothing is prepared for it: it is answered in its first turn, and what follows it in the second one, before the third one of another.")
    for refused in REFUSED_CALLS:
        with_point(script)
        one = Peer((0, refused + DONE), (30, END), answered=[refused, DONE])
        other = Peer((0, STEP + SHOWN + EDIT), (29, END), answered=[STEP, SHOWN, EDIT])
        listen(script, one, other, order=[0, 1, 0, 1, 1], log=logged((2, 3, "closed"), (1, 2, "closed")), time=30)
    script.note("It doesn't wait for a whole publication that has begun, nor end it.")
    for refused in (REFUSED_BY_PATH[0], REFUSED_CALLS[0], REFUSED_CALLS[3]):
        with_large_map(script)
        listen_to_steps(script, [*[DONE] * (BEGINS + 1), refused, STATUS, refused, STATUS])
        script.ask(SHOWN_AT_ONCE)


def whole_preparations(script):
    script.say("A whole publication is prepared so too, and its last step made with its reply: its archive is of the map as it was when it was asked for.")
    with_point(script)
    script.admin()
    one = Peer((0, PUBLISH), (10, STATUS), (20, GET_ARCHIVE), (30, END), answered=[PUBLISH, STATUS, GET_ARCHIVE], last=20)
    other = Peer((0, EDIT + DONE), (29, END), answered=[EDIT, DONE])
    listen(script, one, other, order=[Fixed(0), 1, 1, 0, 0, 0], log=logged((2, 2, "closed"), (1, 3, "closed")), time=30)
    script.note("The next one has that edit.")
    again = Peer((0, PUBLISH), (10, STATUS), (20, GET_ARCHIVE), (30, END), answered=[PUBLISH, STATUS, GET_ARCHIVE], last=20)
    other = Peer((0, request("DELETE", "/features/9") + STATUS), (29, END), answered=[request("DELETE", "/features/9"), STATUS])
    listen(script, again, other, order=[Fixed(0), 1, 1, 0, 0, 0], log=logged((2, 2, "closed"), (1, 3, "closed")), time=30)
    script.note("While its tiles are made the status tells how many are, and how many entries they need: the first two are equal, and share one.")
    with_point(script)
    script.admin()
    others = [DONE] * 5 + [STATUS] + [DONE] * 2 + [STATUS]
    one = Peer((0, PUBLISH), (30, END), answered=[PUBLISH])
    other = Peer((0, b"".join(others)), (29, END), answered=others)
    # A step fixes the map, one reads its feature, 20 find the tiles of a zoom, three make one each, and the last finds none; then it is answered.
    order = [place for _ in others for place in (Turn(0), 1)] + [Turn(0)] * (27 - len(others))
    listen(script, one, other, order=order, log=logged((2, len(others), "closed"), (1, 1, "closed")), time=30)
    script.note("A query and empty lines before it change nothing of that.")
    for asked in (request("POST", "/publish?x"), b"\r\n\r\n" + PUBLISH):
        with_point(script)
        one = Peer((0, asked), (10, GET_ARCHIVE), (30, END), answered=[asked, GET_ARCHIVE], last=10)
        other = Peer((0, EDIT + DONE), (29, END), answered=[EDIT, DONE])
        listen(script, one, other, order=[Fixed(0), 1, 1, 0, 0], log=logged((2, 2, "closed"), (1, 2, "closed")), time=30)
    script.note("One whose side ends behind its request gets its reply all the same.")
    with_point(script)
    ended = Peer((0, PUBLISH), (0, END), answered=[PUBLISH])
    other = Peer((0, EDIT + DONE), (20, GET_ARCHIVE), (21, END), answered=[EDIT, DONE, GET_ARCHIVE], last=20)
    listen(script, ended, other, order=[Fixed(0), 1, 1, 0, 1], log=logged((1, 1, "closed"), (2, 3, "closed")), time=21)
    script.note("A second one waits for the first one, and has the edits since.")
    with_point(script)
    first = Peer((0, PUBLISH), (30, END), answered=[PUBLISH])
    second = Peer((0, EDIT + PUBLISH), (20, GET_ARCHIVE), (21, END), answered=[EDIT, PUBLISH, GET_ARCHIVE], last=20)
    listen(script, first, second, order=[Fixed(0), 1, 0, 1, 1], log=logged((2, 3, "closed"), (1, 1, "closed")), time=30)
    script.note("So it waits for a beginning, and is refused then; and a beginning waits for it.")
    with_point(script)
    first = Peer((0, BEGIN), (10, STEP), (20, GET_ARCHIVE), (30, END), answered=[BEGIN, STEP, GET_ARCHIVE], last=20)
    second = Peer((0, EDIT + PUBLISH), (21, END), answered=[EDIT, PUBLISH])
    listen(script, first, second, order=[0, 1, 1, 0, 0], log=logged((2, 2, "closed"), (1, 3, "closed")), time=30)
    first = Peer((0, PUBLISH), (30, END), answered=[PUBLISH])
    second = Peer((0, request("DELETE", "/features/9") + BEGIN), (10, STEP), (20, GET_ARCHIVE), (21, END),
                  answered=[request("DELETE", "/features/9"), BEGIN, STEP, GET_ARCHIVE], last=20)
    listen(script, first, second, order=[Fixed(0), 1, 0, 1, 1, 1], log=logged((2, 4, "closed"), (1, 1, "closed")), time=30)
    script.note("Any other call of a publication drops what is prepared, and it is made anew, of the map of then.")
    for asked in (CANCEL, STEP):
        with_point(script)
        first = Peer((0, PUBLISH), (20, GET_ARCHIVE), (30, END), answered=[PUBLISH, GET_ARCHIVE], last=20)
        second = Peer((0, EDIT + asked + request("DELETE", "/features/9")), (31, END), answered=[EDIT, asked, request("DELETE", "/features/9")])
        listen(script, first, second, order=[1, 1, Fixed(0), 1, 0, 0], log=logged((1, 2, "closed"), (2, 3, "closed")), time=31)
    script.note("The disk fails at one of its calls: the edit of meanwhile is acknowledged all the same, but for one of its own, and the archive stays.")
    for kind in ("from", "lost", "made"):
        for number in range(1, 8):
            with_point(script)
            script.ask(PUBLISH)
            script.again(kind, number)
            first = Peer((0, PUBLISH), (10, GET_ARCHIVE), (20, END), answered=[PUBLISH, GET_ARCHIVE], last=10)
            second = Peer((0, EDIT + DONE), (19, END), answered=[EDIT, DONE])
            order = [Fixed(0), 1, 1, 0, 0]
            listen(script, first, second, order=order, log=logged((2, 2, "closed"), (1, 2, "closed")), time=20)
            script.again()
            script.ask(DONE + GET_ARCHIVE)


# ---- tiles that are made by parts

# Of so many points a tile is made by parts; of so many its numbers are listed before, by parts too.
MANY, WIDE = 1100, 4200
NEAR, FAR = request("GET", "/map/1/0/0.hex"), request("GET", "/map/1/1/1.hex")


def with_many(script, sectors=1024, many=MANY):
    """A disk with so many points in one place that their tile is made by parts."""
    script.disk(sectors)
    for first in range(1, many, 64):
        script.ask(batch_of(range(first, min(first + 64, many))))


def long_tiles(script):
    script.say("A tile of many features is made by parts, and others are answered in between: it has their edits.")
    with_many(script)
    one = Peer((0, A), (30, END), answered=[A])
    gone = request("DELETE", "/features/9")
    other = Peer((0, gone + DONE), (29, END), answered=[gone, DONE])
    listen(script, one, other, order=[1, 1, 0], log=logged((2, 2, "closed"), (1, 1, "closed")), time=30)
    script.note("So is one of which only the head is asked for.")
    script.ask(put(9))
    one, other = Peer((0, HEAD), (30, END), answered=[HEAD]), Peer((0, gone + DONE), (29, END), answered=[gone, DONE])
    listen(script, one, other, order=[1, 1, 0], log=logged((2, 2, "closed"), (1, 1, "closed")), time=30)
    script.note("So is one that is asked for behind an empty line, or with a query.")
    for asked in (b"\r\n" + A, request("GET", "/map/0/0/0.hex?x")):
        script.ask(put(9))
        one, other = Peer((0, asked), (30, END), answered=[asked]), Peer((0, gone + DONE), (29, END), answered=[gone, DONE])
        listen(script, one, other, order=[1, 1, 0], log=logged((2, 2, "closed"), (1, 1, "closed")), time=30)
    script.note("It is cached. Two ask for the next one at once, and it is made for both.")
    listen(script, Peer((0, A + B + A), (30, END), answered=[A, B, A]), log=logged((1, 3, "closed")), time=30)
    both = Peer((0, A), (30, END), answered=[A], more=1)
    listen(script, both, log=logged((1, 1, "closed"), (2, 1, "closed")), time=30)
    script.note("One of the two makes its steps and the other waits, so that others have as many turns meanwhile as with one: it has the edit of the last.")
    asked = [*[DONE] * 24, gone]
    both, third = Peer((0, A), (30, END), answered=[A], more=1), Peer((0, b"".join(asked)), (29, END), answered=asked)
    script.ask(put(9))
    listen(script, both, third, order=[*[2] * 25, 0, 1], log=logged((3, 25, "closed"), (1, 1, "closed"), (2, 1, "closed")), time=30)
    script.note("Another one of many features waits for it, and one of few doesn't.")
    script.ask(put(9))
    script.ask(gone, put(9))
    first, second = Peer((0, A), (28, END), answered=[A]), Peer((0, NEAR), (29, END), answered=[NEAR])
    third = Peer((0, FAR + SHOWN), (30, END), answered=[FAR, SHOWN])
    log = logged((1, 1, "closed"), (2, 1, "closed"), (3, 2, "closed"))
    listen(script, first, second, third, order=[2, 2, 0, 1], log=log, time=30)
    script.note("Each edit has it begun anew, but only four times: then edits wait for it, and others don't.")
    script.ask(put(2000))
    edits = [put(number) for number in range(2001, 2009)]
    first, second = Peer((0, A), (29, END), answered=[A]), Peer((0, b"".join(edits)), (30, END), answered=edits)
    log = logged((1, 1, "closed"), (2, 8, "closed"))
    listen(script, first, second, order=[1, 1, 1, 1, 0, 1, 1, 1, 1], log=log, time=30)


def wide_tiles(script):
    script.say("So is one of more than 4,096 features, of which the numbers are listed first: it has the edits of meanwhile, in between and behind them.")
    with_many(script, 4096, WIDE)
    gone = [request("DELETE", f"/features/{number}") for number in (9, 4199, 1)]
    one, other = Peer((0, A), (30, END), answered=[A]), Peer((0, b"".join([*gone, put(9), put(5000)])), (29, END), answered=[*gone, put(9), put(5000)])
    listen(script, one, other, order=[1, 1, 1, 1, 0, 1], log=logged((2, 5, "closed"), (1, 1, "closed")), time=30)
    script.note("The tile of the next zoom has as many features, and its numbers are listed too; another one has none.")
    listen(script, Peer((0, A + NEAR + FAR + SHOWN), (30, END), answered=[A, NEAR, FAR, SHOWN]), log=logged((1, 4, "closed")), time=30)


# ---- metadata that are made by steps

METADATA, METADATA_HEAD, METADATA_POST = (request(method, "/map/metadata") for method in ("GET", "HEAD", "POST"))
# It gives the first feature a layer and a key of its own.
MOVED = request("PUT", "/features/1", b'{"layer":"q","minzoom":1,"maxzoom":3,"geometry":{"points":[[0,0]]},"tags":{"k":1}}')
# The features of the map with so many are read in five steps, and the reply follows the last one.
READ_IN = 5


def beside_metadata(script, asked, others, order):
    """Metadata that one asks for, and what another one asks for meanwhile, one at each turn."""
    one, other = Peer((0, asked), (30, END), answered=[asked]), Peer((0, b"".join(others)), (29, END), answered=others)
    listen(script, one, other, order=order, log=logged((2, len(others), "closed"), (1, 1, "closed")), time=30)


def long_metadata(script):
    script.say("The metadata of a map of many features are made by steps, and others are answered in between. An edit has them begun anew, and is in them.")
    with_many(script)
    beside_metadata(script, METADATA, [DONE] * READ_IN, [*[1] * (READ_IN - 1), 0, 1])
    for asked, edit in ((METADATA, MOVED), (METADATA_HEAD, put(1)), (b"\r\n" + METADATA, MOVED), (request("GET", "/map/metadata?x"), put(1))):
        script.ask(put(9))
        beside_metadata(script, asked, [edit, *[DONE] * READ_IN], [*[1] * READ_IN, 0, 1])
    script.note("They are kept until the next edit: whoever asks then is answered in the first turn.")
    beside_metadata(script, METADATA, [DONE] * 2, [0, 1, 1])
    script.note("Two ask for them at once: one of them makes the steps, and the other waits for it.")
    script.ask(MOVED)
    both, third = Peer((0, METADATA), (30, END), answered=[METADATA], more=1), Peer((0, 6 * DONE), (29, END), answered=6 * [DONE])
    log = logged((3, 6, "closed"), (1, 1, "closed"), (2, 1, "closed"))
    listen(script, both, third, order=[*[2] * (READ_IN - 1), 0, 1, 2, 2], log=log, time=30)
    script.note("A tile that is made meanwhile doesn't keep them waiting.")
    script.ask(put(1))
    first, second = Peer((0, A), (28, END), answered=[A]), Peer((0, METADATA), (29, END), answered=[METADATA])
    third = Peer((0, 8 * DONE), (30, END), answered=8 * [DONE])
    log = logged((1, 1, "closed"), (2, 1, "closed"), (3, 8, "closed"))
    listen(script, first, second, third, order=[*[2] * (READ_IN - 1), 1, *[2] * 4, 0], log=log, time=30)
    script.note("A request that is refused by its method asks for none, and changes nothing of those that are made.")
    script.ask(MOVED)
    beside_metadata(script, METADATA, [METADATA_POST, *[DONE] * 4], [*[1] * (READ_IN - 1), 0, 1])
    script.ask(put(1))
    one, other = Peer((0, METADATA_POST + DONE), (30, END), answered=[METADATA_POST, DONE]), Peer((0, 3 * SHOWN), (29, END), answered=3 * [SHOWN])
    listen(script, one, other, order=[0, 1, 0, 1, 1], log=logged((2, 3, "closed"), (1, 2, "closed")), time=30)
    script.note("Each edit has them begun anew, but only four times: then edits wait for them, and others don't.")
    edits = [MOVED, put(1)] * 4
    first, second, third = (Peer((0, METADATA), (29, END), answered=[METADATA]), Peer((0, b"".join(edits)), (30, END), answered=edits),
                            Peer((0, 9 * SHOWN), (31, END), answered=9 * [SHOWN]))
    log = logged((1, 1, "closed"), (2, 8, "closed"), (3, 9, "closed"))
    listen(script, first, second, third, order=[*[1, 2] * 4, *[2] * 4, 0, 1, 2, 1, 1, 1], log=log, time=31)


def refused_beside_metadata(script):
    script.say("An edit that its conditions refuse changes nothing of the metadata that are made.")
    with_many(script)
    for refused in (request("PUT", "/features/1", b"{}", CONDITIONS[2]), request("DELETE", "/features/1", b"", CONDITIONS[1])):
        script.ask(put(9))
        beside_metadata(script, METADATA, [refused, *[DONE] * 4], [*[1] * (READ_IN - 1), 0, 1])


# ---- tiles that are read by parts

# The tile of a map of these features has between 2 and 3 MiB: it is read by three parts.
BULKY = range(3000, 3080)
READ, READ_HEAD = request("GET", "/map/0/0/0.mvt"), request("HEAD", "/map/0/0/0.mvt")


def with_archive(script):
    """A disk with an archive that has such a tile, which isn't cached."""
    with_many(script, 65536)
    for number in BULKY:
        script.ask(*large_put(number))
    script.ask(PUBLISH)
    script.again()


def read_tiles(script):
    script.say("A tile of more than 1 MiB of the archive is read by parts, and others are answered in between.")
    with_archive(script)
    one, other = Peer((0, READ), (30, END), answered=[READ]), Peer((0, 3 * SHOWN), (29, END), answered=3 * [SHOWN])
    listen(script, one, other, order=[1, 1, 0, 1], log=logged((2, 3, "closed"), (1, 1, "closed")), time=30)
    script.note("So is one of which only the head is asked for.")
    script.again()
    one, other = Peer((0, READ_HEAD), (30, END), answered=[READ_HEAD]), Peer((0, 3 * SHOWN), (29, END), answered=3 * [SHOWN])
    listen(script, one, other, order=[1, 1, 0, 1], log=logged((2, 3, "closed"), (1, 1, "closed")), time=30)
    script.note("It is cached then.")
    one, other = Peer((0, READ), (30, END), answered=[READ]), Peer((0, 2 * SHOWN), (29, END), answered=2 * [SHOWN])
    listen(script, one, other, order=[0, 1, 1], log=logged((2, 2, "closed"), (1, 1, "closed")), time=30)
    script.note("An edit of it meanwhile is in it: it is made then, and what was read is of no use.")
    script.again()
    edit = request("DELETE", f"/features/{BULKY[0]}")
    one, other = Peer((0, READ), (30, END), answered=[READ]), Peer((0, edit + SHOWN), (29, END), answered=[edit, SHOWN])
    listen(script, one, other, order=[1, 1, 0], log=logged((2, 2, "closed"), (1, 1, "closed")), time=30)
    script.note("The disk fails from one of its calls on, before a part is read or at one: the tile is made.")
    script.ask(PUBLISH)
    for number in (1, 2, 1000, 3000):
        script.again("from", number)
        listen(script, Peer((0, READ), (30, END), answered=[READ]), log=logged((1, 1, "closed")), time=30)


# How many turns the publication of a large map takes at most, and after how many of them it has begun: the map is fixed, its features are read,
# which tiles they cover is read of each of 20 zooms, its only tile is made, then added, since it is large, and no other one is found.
TURNS, BEGINS = 70, 25
SHOWN_AT_ONCE = request("GET", "/map.pmtiles", b"", "range: bytes=0-126")


def with_large_map(script):
    """A disk with a map of eleven steps of 64 sectors, of which nothing is published."""
    script.disk(4096)
    script.admin()
    for number in range(1, 7):
        script.ask(*large_put(number))


def listen_to_steps(script, others, answered=(PUBLISH, STATUS), turns=TURNS, last=(10,)):
    """A whole publication of the first peer, and requests of a second one, one at each turn. Then what the first one asks."""
    times = [0, *last]
    first = Peer(*zip(times, answered), (30, END), answered=answered, last=times[-1])
    second = Peer((0, b"".join(others)), (29, END), answered=others)
    before, after = others[:turns], others[turns:]
    order = [place for _ in before for place in (Turn(0), 1)] + [Turn(0)] * (TURNS - len(before)) + [1] * len(after) + [0] * (len(answered) - 1)
    log = logged((2, len(others), "closed"), (1, len(answered), "closed"))
    listen(script, first, second, order=order, log=log, time=30)


def whole_steps(script):
    script.say("The steps of a whole publication are made between other replies too: what is left is told meanwhile.")
    with_large_map(script)
    listen_to_steps(script, [STATUS] * TURNS)
    script.ask(request("HEAD", "/map.pmtiles"), SHOWN_AT_ONCE)
    script.note("What is edited meanwhile isn't in its archive, but in that of the next one.")
    edits = [put(8), request("DELETE", "/features/2"), request("GET", "/features/2"), put(9), STATUS] * (TURNS // 5)
    with_large_map(script)
    listen_to_steps(script, edits)
    script.ask(SHOWN_AT_ONCE, request("GET", "/map/0/0/0.hex"), PUBLISH, SHOWN_AT_ONCE)
    script.note("Any other call of a publication waits for it once it has begun.")
    for asked in (STEP, CANCEL, BEGIN):
        with_large_map(script)
        listen_to_steps(script, [*[DONE] * (BEGINS + 1), asked, STATUS], turns=BEGINS + 1)
        script.ask(STEP, CANCEL, SHOWN_AT_ONCE)
    script.note("One behind an empty line waits too.")
    with_large_map(script)
    listen_to_steps(script, [*[DONE] * (BEGINS + 1), b"\r\n" + STEP, STATUS], turns=BEGINS + 1)
    script.ask(STEP, CANCEL, SHOWN_AT_ONCE)
    script.note("So does a second one, which then is prepared and written in the same way.")
    with_large_map(script)
    first = Peer((0, PUBLISH), (10, STATUS), (30, END), answered=[PUBLISH, STATUS], last=10)
    second = Peer((0, EDIT + PUBLISH), (10, STATUS), (21, END), answered=[EDIT, PUBLISH, STATUS], last=10)
    order = [Turn(0), 1, *[Turn(0)] * TURNS, *[Turn(1)] * TURNS, 0, 1]
    listen(script, first, second, order=order, log=logged((2, 3, "closed"), (1, 2, "closed")), time=30)
    script.note("The disk fails at one of its calls: at a step between replies, at the last one, or at an edit between them.")
    for kind in ("from", "lost", "made"):
        for number in (3, 4, 66, 67, 68, 69, 70, 132, 134, 514, *range(516, 524), 700, 715, 730):
            with_large_map(script)
            script.again(kind, number)
            others = [DONE, put(9), *[DONE] * (BEGINS - 2), DONE, DONE, put(8), DONE, DONE, request("DELETE", "/features/9"), DONE]
            listen_to_steps(script, others, answered=[PUBLISH, SHOWN_AT_ONCE])
            script.again()
            script.ask(DONE, request("GET", "/features/8"), SHOWN_AT_ONCE)


BLOCKS = [no_descriptor, accepts_that_fail, so_many_are_open, turns, slow_readers, all_hold_too_much, so_many_reads]
BLOCKS += [cut_anywhere, byte_by_byte, stages, paces, downloads, preparations, whole_preparations, whole_steps]
BLOCKS += [with_tags(refused_meanwhile), long_tiles, wide_tiles, read_tiles, long_metadata, with_tags(refused_beside_metadata)]
