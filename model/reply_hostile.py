"""Blocks of `reply_script.py` about streams that are cut short, damaged or of another protocol, and about bodies made to do harm.

Each is a function of a script.
"""
import connections
from reply_stand import BODY, Often, put, put_parts, request


def neighbours(byte):
    """The values 0 and 255 and those beside a byte."""
    return sorted({0, 255, (byte + 1) % 256, (byte - 1) % 256} - {byte})


def of_other_protocols():
    """What comes of a peer that speaks something else, or a form of a request that no server here takes."""
    yield "the preface of HTTP/2, alone and with its settings"
    preface = b"PRI * HTTP/2.0\r\n\r\nSM\r\n\r\n"
    yield from [preface, preface + bytes([0, 0, 0, 4, 0, 0, 0, 0, 0])]
    yield "a handshake of TLS 1.2, an alert, one of SSL 2, and a head behind them"
    hello = b"\x16\x03\x01\x00\xa5\x01\x00\x00\xa1\x03\x03" + bytes(range(32)) + b"\x00"
    yield from [hello, b"\x15\x03\x01\x00\x02\x02\x28", b"\x80\x2e\x01\x00\x02", b"\x16\r\n\r\nGET /a HTTP/1.1\r\nhost: a\r\n\r\n"]
    yield "SSH, SMTP, a proxy's line, a reply, RTSP, SIP"
    yield from [b"SSH-2.0-x\r\n", b"EHLO x\r\n", b"PROXY TCP4 1.2.3.4 5.6.7.8 1 2\r\n", b"HTTP/1.1 200 OK\r\n\r\n",
                b"OPTIONS rtsp://x/y RTSP/1.0\r\n\r\n", b"INVITE sip:x@y SIP/2.0\r\n\r\n"]
    yield "requests of HTTP/0.9, of versions that aren't served, and without one"
    yield from [b"GET /map/0/0/0.hex\r\n", b"GET /map/0/0/0.hex HTTP/0.9\r\n\r\n", b"GET /a HTTP/1\r\n\r\n", b"GET /a HTTP/1.\r\n\r\n",
                b"GET /a HTTP/01.1\r\n\r\n", b"GET /a HTTP/3\r\n\r\n", b"GET /a HTTP/-1.1\r\n\r\n", b"GET /a\tHTTP/1.1\r\n\r\n", b"GET /a HTTP/1.1\t\r\n\r\n"]


def odd_targets():
    """Targets in their other forms, and paths with marks."""
    return ["http://x/map/0/0/0.hex", "HTTP://X/map/0/0/0.hex", "https://x/", "hTTps://u@x:443/features/7?/8", "http://x?/features/7", "http:///features/7",
            "http://:80/features/7", "httpx://x/features/7", "x:443", "*", "//x/map/0/0/0.hex", "/map/0/0/0.hex#a", "/map/../map/0/0/0.hex",
            "/./map/0/0/0.hex", "/map//0/0/0.hex", "/map/0/0/0.hex%00", "/map/0/0/0%2Ehex", "/map/0/0/0.hex;a", "\\map\\0\\0\\0.hex",
            "/map/18446744073709551616/0/0.hex", "/map/0/340282366920938463463374607431768211456/0.hex", "/features/9223372036854775808",
            "/features/-7", "/features/7e0", "/features/0x7", "/features/7%20", "/features/\u0667", "/features/7\u00a0"]


# Fields of a PUT of two bytes: its lengths, codings, and lines that are folded.
FIELDS_OF_A_BODY = [
    ("two lengths, the same, others, and in one field", [["content-length: 2", "content-length: 2"], ["content-length: 2", "content-length: 3"],
     ["content-length: 2, 2"], ["content-length: 2,"], ["content-length: ,2"]]),
    ("signs, blanks, other digits", [[f"content-length: {value}"] for value in (
        "+2", "-2", "--2", "2.0", "2 ", " 2", "\t2", "2\x0b", "2;", "0x2", "2h", "\u0662", "\u00b2", "")]),
    ("a coding beside a length, in any order", [["transfer-encoding: chunked", "content-length: 2"], ["content-length: 2", "transfer-encoding: chunked"],
     ["transfer-encoding: identity", "content-length: 2"], ["transfer-encoding: gzip, chunked"], ["Transfer-Encoding: \tchunked", "content-length: x"],
     ["transfer-encoding: chunked", "transfer-encoding: identity"], ["content-length: 65537", "transfer-encoding: chunked"]]),
    ("lines that are folded", [["content-length: 2", " 0"], ["content-length:", " 2"], ["x: y", "\tz", "content-length: 2"], [" content-length: 2"],
     ["\tcontent-length: 2"], ["content-length: 2", " "]]),
    ("a blank in front of the colon, in a name, and no colon", [["content-length : 2"], ["content-length\t: 2"], ["content length: 2"], ["content-length"],
     ["content-length; 2"], ["content_length: 2"], [": 2"], ["transfer-encoding : chunked", "content-length: 2"]]),
    ("expectations and upgrades", [["expect: 100-continue", "content-length: 2"], ["Expect:", "content-length: 2"], ["upgrade: h2c", "content-length: 2"],
     ["connection: upgrade, http2-settings", "upgrade: h2c", "http2-settings: AA", "content-length: 2"], ["upgrade: websocket", "connection: Upgrade"]]),
]


def streams(script):
    script.say("Bytes of other protocols, and of requests that no server here takes: each is refused at the byte at fault.")
    script.disk(64)
    for held in of_other_protocols():
        if isinstance(held, str):
            script.note(held)
        else:
            script.wait(held)
            script.ask(held, sizes="4096,1")
    script.note("targets in absolute form, of an authority, of all, with marks and with numbers that no tile and no feature has")
    script.ask(put(7))
    for target in odd_targets():
        script.ask(request("GET", target), request("GET", "/map/0/0/0.hex"), sizes="4096,1")
    script.note("a method that connects, and one about all")
    script.ask(request("CONNECT", "x:443"), request("OPTIONS", "*"), request("TRACE", "/map/0/0/0.hex"))
    for remark, rows in FIELDS_OF_A_BODY:
        script.note(remark)
        for fields in rows:
            head = "\r\n".join(["PUT /features/8 HTTP/1.1", "host: a", *fields, "", ""]).encode()
            script.ask(head + b"hi", request("GET", "/features/7"), sizes="4096,1")
    script.note("lines that end in other ways: of LF alone, of CR alone, of two CR, and a body that looks like a request")
    plain = b"GET /map/0/0/0.hex HTTP/1.1\r\nhost: a\r\n\r\n"
    for held in [plain.replace(b"\r\n", b"\n"), plain.replace(b"\r\n", b"\r"), plain.replace(b"\r\n", b"\r\r\n"), plain.replace(b"\r\n", b"\n\r"),
                 plain.replace(b"\r\n", b"\r\n\0"), plain.replace(b"a\r\n", b"a\0b\r\n")]:
        script.ask(held, plain, sizes="4096,1")
    script.ask(request("PUT", "/features/8", plain), request("POST", "/publish", plain), plain, sizes="4096,1")


def damaged_streams(script):
    """A point and its tile, as in the worked connection."""
    stream = request("PUT", "/features/7", BODY) + request("GET", "/map/0/0/0.hex")
    script.say("The worked connection, cut behind each byte: the input ends, or a read fails.")
    script.disk(4096)
    for size in range(len(stream)):
        script.ask(stream[:size])
        script.wait(stream[:size], sizes="4096")
    script.say("The worked connection with each byte changed to 0, 255 and its neighbours.")
    script.disk(4096)
    for at, byte in enumerate(stream):
        for other in neighbours(byte):
            script.ask(stream[:at] + bytes([other]) + stream[at + 1 :])
    script.say("The worked connection, whose writer fails or is full behind each byte: the edit is in the map all the same.")
    script.disk(64)
    whole = len(connections.outcome(script.stand.service, stream, 4096).written)
    for end in ("fails", "full"):
        for room in range(whole + 1):
            if room % 14 == 0:
                script.disk(64)
            script.writer(10**9, room, end)
            script.ask(stream)
        script.writer()
        script.ask(request("GET", "/features/7"))


def bodies():
    """Bodies in parts: the pieces, or a piece and how often it is there."""
    front, back = b'{"layer":"p","minzoom":0,"maxzoom":2,"geometry":{"points":[[0,0]]},"tags":{"a":', b"}}"

    def value(*parts):
        return [front, *parts, back]

    yield "values of tags that are nested 125 and 126 deep, in an object and its tags: 127 is within the limit of JSON, 128 isn't"
    for deep in (124, 125, 126, 127, 5000):
        yield value((deep, b"["), (deep, b"]"))
        yield value((deep, b'{"b":'), b"0", (deep, b"}"))
    yield "lists alone, 127 and 128 deep, more than a text has bytes for, and brackets that aren't closed"
    for deep in (127, 128, 32768):
        yield [(deep, b"["), (deep, b"]")]
    yield from [[(65536, b"[")], [(13107, b'{"a":')], [front, (30000, b"[")], [(65536, b"]")], [(65536, b'"')], [(65536, b"-")]]
    yield "numbers of 60,000 digits"
    for before, digit, behind in [(b"", b"9", b""), (b"-", b"9", b""), (b"0.", b"0", b"1"), (b"0.", b"9", b""), (b"1", b"0", b"e-60000"), (b"1e-", b"9", b""),
                                  (b"1e", b"9", b""), (b"1e", b"0", b"1"), (b"0e", b"9", b""), (b"0", b"0", b""), (b"1", b"0", b"")]:
        yield value(before, (60000, digit), behind)
    yield "halves of surrogate pairs, in a value, a key, a name, and in what a repeated key loses"
    for text in (b'"\\ud800"', b'"\\udc00"', b'"\\ud83c\\udf0d"', b'"\\udf0d\\ud83c"', b'"\\ud83c\\u0041"', b'"\\ud83c\\n"', b'"\\ud83c', b'"\\uD83C\\uDF0D"',
                 b'1,"\\ud800":1', b'"\\ud800","a":1', b'["\\ud800"],"a":1', b'{"\\ud800":1},"a":1'):
        yield value(text)
    yield "NUL, in escapes and as it is; other bytes below a blank; DEL"
    for text in (b'"\\u0000"', b'"\0"', b'1,"\\u0000":2', b'"\x1f"', b'"\x7f"', b"\0", b"1\0", b'"\\0"', b'"\n"'):
        yield value(text)
    yield "byte order marks: in front, behind, inside a text, inside a list; UTF-16"
    mark = b"\xef\xbb\xbf"
    whole = b"".join(value(b"1"))
    yield from [[mark + whole], [whole + mark], value(b'"' + mark + b'"'), value(mark + b"1"), [b"\xff\xfe" + whole], [whole.decode().encode("utf-16-le")]]
    yield "bytes that are no UTF-8: too long, surrogates, past the last letter, cut"
    for text in (b"\xc0\x80", b"\xe0\x80\x80", b"\xed\xa0\x80", b"\xf4\x90\x80\x80", b"\xf8\x88\x80\x80\x80", b"\x80", b"\xe2\x82", b"\xf4\x8f\xbf\xbf",
                 b"\xef\xbf\xbf"):
        yield value(b'"' + text + b'"')
    yield "keys that are repeated: the last value counts, also of members; 3,000 times one key, and 4,000 keys"
    yield from [value(b'null,"a":2'), value(b'2,"a":null'), [b'{"layer":"q","tags":5,' + whole[1:]], [whole[:-1] + b',"layer":"q"}'],
                [whole[:-1] + b',"layer":null}'],
                [whole[:-1] + b',"geometry":{"points":[[1,1]]}}'], value(b"1", (3000, b',"a":1')),
                [front[:-4], b",".join(b'"%d":%d' % (key, key) for key in range(4000)), back]]
    yield "words and marks that other readers take"
    for text in (b"NaN", b"Infinity", b"-Infinity", b"True", b"undefined", b"'x'", b"0x1", b"1_0", b"+1", b".5", b"5.", b"1e", b"1e+", b"- 1", b"00", b"-01",
                 b"1 2", b"[1,]", b"{,}",
                 b"/**/1", b"1//", b'"\\x41"', b'"\\u12"', b'"\\u+123"', b'"\\U0041"', b"\xc2\xa01", b"\x0c1", b"\xe2\x80\xa81"):
        yield value(text)


def hostile_bodies(script):
    script.say("Bodies that are nested deep, of long numbers, of texts that are none, with keys that are repeated.")
    script.disk(4096)
    for parts in bodies():
        if isinstance(parts, str):
            script.note(parts)
        else:
            parts = [Often(*part) if isinstance(part, tuple) else part for part in parts]
            script.ask(*put_parts(7, parts), sizes="65536")
    script.note("what the last one that was taken left")
    script.ask(request("GET", "/features/7"))


BLOCKS = [streams, damaged_streams, hostile_bodies]
