"""Blocks of `reply_script.py` about edits of several changes whose streams are cut short or can't be answered, and whose bodies are made to do harm.

Each is a function of a script.
"""
import connections
import tiles
from reply_edits import body_of, deletes, post, post_body, post_parts, sets, shown
from reply_stand import A, BODY, WORLD, Often, head, put, request

WIDEST = tiles.feature({"lines": [[[0, 0], [WORLD, WORLD]]]}, 9, 9)


def cut_edits(script):
    stream = post(sets(7), deletes(8)) + A
    script.say("An edit of two changes and a tile, cut behind each byte: the input ends, or a read fails. The edit is made once its body is whole.")
    script.disk(4096)
    for size in range(len(stream)):
        script.ask(put(8), stream[:size])
        script.wait(put(8), stream[:size], sizes="4096")
    script.ask(*shown(7, 8), A)
    script.say("The same whole, whose writer fails or is full behind each byte: the edit is in the map all the same.")
    script.disk(64)
    script.ask(put(8))
    whole = len(connections.outcome(script.stand.service, stream, 4096).written)
    for end in ("fails", "full"):
        for room in range(whole + 1):
            if room % 7 == 0:
                script.disk(64)
            script.writer()
            script.ask(put(8))
            script.writer(10**9, room, end)
            script.ask(stream)
        script.writer()
        script.ask(*shown(7, 8))


def hostile():
    """Bodies in parts, with remarks in front of each kind."""
    point, front, back = body_of(deletes(1))[12:-2], b'{"changes":[', b"]}"

    def tagged(*value):
        return [front, b'{"put":2,"feature":', BODY[:-2], b'"a":', *value, b"}}}", back]

    yield "values of a tag that are nested 122 and 123 deep, in five lists and objects: 127 is within the limit of JSON, 128 isn't"
    for deep in (121, 122, 123, 30000):
        yield tagged(Often(deep, b"["), Often(deep, b"]"))
    yield "changes that are lists 125 and 126 deep, brackets that aren't closed, and bytes behind the end"
    for deep in (125, 126, 30000):
        yield [front, Often(deep, b"["), Often(deep, b"]"), back]
    yield from [[Often(65536, b"[")], [front, Often(65000, b"[")], [Often(5461, front)], [front, point, back, Often(1000, b"}")]]
    yield "ids of 60,000 digits"
    for digits in ([Often(60000, b"9")], [b"1", Often(60000, b"0")], [b"0.", Often(60000, b"0")], [b"-", Often(60000, b"9")], [Often(60000, b"0")]):
        yield [front, b'{"delete":', *digits, b"}", back]
    yield "members that are repeated 5,000 times, of a change and of the object; 4,000 members of one change"
    yield [front, b'{"delete":1', Often(5000, b',"delete":2'), b"}", back]
    yield [b'{"changes":[]', Often(4000, b',"changes":[]'), b"}"]
    yield [front, b'{"delete":1,', b",".join(b'"%d":0' % key for key in range(4000)), b"}", back]
    yield "4,600 changes; 20,000 that are no objects; one id twice in the first and the last of 64 changes"
    yield from [[front, point, Often(4600, b"," + point), back], [front, b"{}", Often(20000, b",{}"), back]]
    yield [body_of(*map(deletes, [*range(1, 64), 1]))]
    yield "halves of surrogate pairs, NUL, byte order marks, bytes that are no UTF-8"
    for text in (b'"\\ud800"', b'"\\udc00\\ud800"', b'"\\u0000"', b'"\0"', b'"\xef\xbb\xbf"', b'"\xc0\x80"', b'"\xed\xa0\x80"', b'"\xf4\x90\x80\x80"'):
        yield tagged(text)
    yield from [[b"\xef\xbb\xbf", body_of(deletes(1))], [body_of(deletes(1)), b"\xef\xbb\xbf"]]
    yield from [[front, b'{"\\u0064elete":1}', back], [front, b'{"delete\\u0000":1}', back]]


def hostile_edits(script):
    script.say("Bodies of edits that are nested deep, of long numbers, with members that are repeated, of many changes, of texts that are none.")
    script.disk(4096)
    for parts in hostile():
        if isinstance(parts, str):
            script.note(parts)
        else:
            script.ask(put(1), *post_parts(parts), sizes="65536")
    script.ask(*shown(1, 2), A)
    script.note("64 changes of the widest reach, then as many of which the last covers too many tiles: none of these is made")
    script.ask(post(*(sets(number, WIDEST) for number in range(64))), *shown(63), request("GET", "/map/9/511/511.hex"))
    script.ask(post(*(deletes(number) for number in range(64))), *shown(63))
    script.ask(post(*(sets(number, WIDEST) for number in range(63)), sets(63, {**WIDEST, "minzoom": 8})), *shown(0, 63))
    script.note("a body that claims more bytes than follow, and one that claims none")
    for size in (1, 65536):
        script.ask(head("POST /edits HTTP/1.1", "host: a", f"content-length: {size + len(body_of(deletes(1)))}") + body_of(deletes(1)), sizes="4096,1")
    script.ask(head("POST /edits HTTP/1.1", "host: a", "content-length: 0") + body_of(deletes(1)), A, sizes="4096,1")
    script.ask(post_body(b"{}"), A)


BLOCKS = [cut_edits, hostile_edits]
