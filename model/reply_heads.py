"""Blocks of `reply_script.py` about heads and bodies: pieces, limits, and what is refused."""
from reply_stand import A, BODY, PIECES, Often, head, put, request, with_point


def worked(script):
    script.say("The worked connection: a point and its tile, in one piece and byte by byte.")
    for sizes in ("4096", "1"):
        script.disk(256)
        script.ask(request("PUT", "/features/7", BODY), request("GET", "/map/0/0/0.hex"), sizes=sizes)
    script.note("The archive of that map, its part, a range that is none, and one behind its end.")
    script.ask(request("POST", "/publish"))
    for value in ("bytes=0-126", "bytes=223-", "bytes=223-300"):
        script.ask(request("GET", "/map/0/0/0.hex"), request("GET", "/map.pmtiles", b"", f"range: {value}"), sizes="4096,1")
    script.note("No bytes, and the beginning of a head.")
    script.ask(sizes=PIECES)
    script.ask(b"GET /map/0", sizes=PIECES)


def broken_reads(script):
    script.say("A read that fails behind some bytes of two requests ends the connection: nothing is told of what isn't whole.")
    with_point(script)
    two = A + b"PUT /features/8?c HTTP/1.1\r\nhost: a\r\nContent-Length: 002\r\n\r\nhi"
    for size in (0, len(A) - 1, len(A), len(A) + 1, len(two) - 1, len(two)):
        script.wait(two[:size], sizes="5,1,4096")


def openings(script):
    script.say("Disks of sizes that none has, and of the least and the most that one has.")
    for sectors in (0, 63, 64, 16777216, 16777217, 2**64 - 1):
        script.disk(sectors)
        script.ask(put(7), request("GET", "/map/0/0/0.hex"))
    script.note("Disks that hold no map, and one of which a sector of an area is written. What isn't opened comes back as it was.")
    script.zeros(64)
    script.again()
    for at, first in [(0, 0), (0, 86), (1, 1), (2, 1), (63, 1)]:
        script.disk(64)
        script.sector(at, first)
        script.again()
        script.ask(put(7))
        script.again()
    script.note("Zeros in place of the journal's record: the map without the edit. Zeros in place of the root: no map.")
    script.ask(A)
    for at in (3, 1):
        script.sector(at, 0)
        script.again()
        script.ask(A, put(9))


def pieces(script):
    script.say("Requests of one connection: the replies don't depend on the pieces. A body of two bytes is no JSON.")
    with_point(script)
    bare = request("HEAD", "/map/0/0/0.hex").replace(b"host: x", b"host: a")
    hi = b"PUT /features/8 HTTP/1.1\r\nhost: a\r\n"
    none = b"GET /map/2/3/0.hex HTTP/1.1\r\nhost: a\r\n\r\n"
    talks = [
        [A, hi + b"Content-Length: 002\r\n\r\nhi"],
        [b"\r\n\nGET /map/0/0/0.hex HTTP/1.1\nhost: a\n\n"],
        [b"GET /map/0/0/0.hex HTTP/1.0\r\n\r\n", A],
        [A[:-2] + b"Connection: Close, x\r\n\r\n!"],
        [A[:-2] + b"connection: y\r\nCONNECTION: x ,\t close\r\n\r\n"],
        [A[:-2] + b"connection: closed, clos\r\nx: close\r\n\r\n"],
        [A[:-2] + b"connection: keep-alive, ,\tCLOSE\t,\r\n\r\n", A],
        [none, A],
        [none[:-2] + b"connection: close\r\n\r\n", A],
        [A, b"\r\n"],
        [A, A[:-2]],
        [A, b"GET /a HTTP/1.1 \r\n\r\n"],
        [A[:-2] + b"x y: z\r\n\r\n"],
        [hi + b"content-length: \t2 \r\n\r\nhi", A],
        [hi + b"content-length: 2\r\nconnection: keep-alive\r\n\r\nhi"],
        [A[:-2] + b"content-length: 2\r\n\r\nhi", A],
        [b"GET /map/0/0/0.hex?b?c HTTP/1.1\r\nhost: a\r\n\r\n"],
        [bare, A],
        [none.replace(b"GET", b"HEAD"), b"\r\n"],
        [A * 40],
    ]
    for parts in talks:
        script.ask(*parts, sizes=PIECES)
    script.note("Five requests, of which some are refused, on the empty map; HTTP/1.0 ends it.")
    last = b"GET /map/1/0/0.hex HTTP/1.0\r\n\r\nand what follows"
    body = put(8).replace(BODY, b"{").replace(b"77", b"1")
    for size in ("65536", "1", "2", "7", "100"):
        script.disk(256)
        script.ask(put(7), request("GET", "/map/0/0/0.hex"), body, put(8), last, sizes=size)


REFUSED = [
    head("GET /a HTTP/1.1"),
    head("GET /a HTTP/1.1", "host: a", "Host: a"),
    head("GET /a HTTP/1.1", "hosts: a", "x: host"),
    head("HEAD /a HTTP/1.1"),
    head("HEAD /a HTTP/1.1", "host: a", "host: b"),
    head("HEAD /a HTTP/1.0", "host:", "host:", "transfer-encoding: chunked"),
    head("head /a HTTP/1.1"),
    head("PUT /b HTTP/1.1", "transfer-encoding: chunked", "expect: 100-continue", "content-length: x"),
    head("PUT /b HTTP/1.1", "host: a", "transfer-encoding: chunked"),
    head("PUT /b HTTP/1.1", "Transfer-Encoding: x", "host: a", "transfer-encoding: y", "content-length: 2"),
    head("PUT /b HTTP/1.1", "host: a", "transfer-encoding:", "expect: 100-continue", "content-length: x"),
    head("PUT /b HTTP/1.0", "transfer-encoding: chunked"),
    head("PUT /b HTTP/1.0", "expect: 100-continue", "transfer-encoding: chunked"),
    head("PUT /b HTTP/1.0", "expect: 100-continue", "content-length: x"),
    head("HEAD /a HTTP/1.1", "host: a", "transfer-encoding: chunked"),
    head("PUT /b HTTP/1.1", "host: a", "expect: 100-continue", "content-length: 2"),
    head("PUT /b HTTP/1.1", "host: a", "content-length: 65537", "EXPECT: x", "expect: y"),
    head("HEAD /a HTTP/1.1", "host: a", "expect:"),
    *(head("PUT /b HTTP/1.1", "host: a", f"content-length: {value}") for value in ("x", "+5", "-0", "-1", "1 0", "2, 2", "0x1", "1e3", "1_000")),
    head("PUT /b HTTP/1.1", "host: a", "content-length:"),
    head("PUT /b HTTP/1.1", "host: a", "content-length: 99999999999999999999x"),
    head("PUT /b HTTP/1.1", "host: a", "content-length: 2", "CONTENT-LENGTH: 2"),
    head("PUT /b HTTP/1.1", "host: a", "content-length: 65537", "content-length: 0"),
    head("HEAD /a HTTP/1.1", "host: a", "content-length: x"),
    *(head("PUT /b HTTP/1.1", "host: a", f"content-length: {2**64 + more}") for more in (-1, 0, 2)),
    head("PUT /b HTTP/1.1", "host: a", "content-length: 65537"),
    head("PUT /b HTTP/1.1", "host: a", "content-length: 99999999999999999999999999"),
    head("HEAD /a HTTP/1.1", "host: a", "content-length: 00065537"),
]


def refusals(script):
    script.say("Heads that are refused by the first rule that they break, at their last byte, though the connection stays open.")
    with_point(script)
    for held in REFUSED:
        script.wait(held)
    script.note("A head that breaks none, beside them; names of fields count in any case and whole.")
    script.ask(head("GET /map/0/0/0.hex HTTP/1.1", "HOST:"), sizes="4096,1,7")
    odd = ["host: a", "hosts: b", "transfer-encodings: x", "expects: y", "te: trailers"]
    script.ask(head("GET /map/0/0/0.hex HTTP/1.1", *odd), sizes="4096,1,7")
    script.note("HTTP/1.0 has any number of hosts; its expectations are refused as well.")
    for fields in ([], ["host: a"], ["host: a", "HOST: b"], ["expect: 100-continue"], ["EXPECT: x", "host: a", "expect:"]):
        script.ask(head("GET /map/0/0/0.hex HTTP/1.0", *fields), sizes="4096,1,7")
    script.ask(head("PUT /features/8 HTTP/1.0", "expect: 100-continue", f"content-length: {len(BODY)}") + BODY, sizes="4096,1,7")
    script.note("A length of 23 digits.")
    long = head("PUT /features/8 HTTP/1.1", "host: a", "content-length: 00000000000000000000002")
    script.ask(long + b"hi", sizes="4096,1,7")
    script.note("A body that isn't whole is waited for, and refused at the end of the input.")
    for size, body in [(3, b"hi"), (65536, b""), (7, b"seven b"), (8, b"seven b")]:
        script.ask(head("PUT /features/8 HTTP/1.1", "host: a", f"content-length: {size}") + body, sizes="4096,1,7")
    script.ask(head("HEAD /a HTTP/1.1", "host: a", "content-length: 1"), sizes="4096,1,7")
    script.wait(head("PUT /features/8 HTTP/1.1", "host: a", "content-length: 3") + b"hi")
    script.note("Where the head itself ends too early or is at fault, the refusal of a HEAD has its content: no method was read.")
    script.ask(head("HEAD /a HTTP/1.1", "host: a")[:-2], sizes="4096,1,7")
    script.ask(head("HEAD /a HTTP/1.1", " host: a"), sizes="4096,1,7")


def long_head(size, fields):
    """The parts of a head of so many bytes, with a host, so many fields more, and a last one that fills up."""
    first, last = b"GET /map/0/0/0.hex HTTP/1.1\r\nhost: a\r\n", b"\r\n\r\n"
    middle = b"x: y\r\n" * fields + b"z: "
    return [first, Often(fields, b"x: y\r\n"), b"z: ", Often(size - len(first + middle + last), b"z"), last]


def limits(script):
    script.say("Heads of 8,192 bytes and of 32 fields, and beyond. Each is then cut by its last byte.")
    with_point(script)
    for size, fields in [(8192, 2), (8193, 2), (1000, 30), (1000, 31), (8190, 40)]:
        parts = long_head(size, fields)
        script.ask(*parts, sizes="10000,1,100,8192")
        script.ask(*parts[:-1], b"\r\n\r", sizes="100")
    script.note("Empty lines in front count: 8,192 bytes with them, and one more.")
    for count in (8192 - len(A), 8193 - len(A)):
        script.ask(Often(count // 2, b"\r\n"), Often(count % 2, b"\n"), A, sizes="10000,1")
    script.note("A head that never ends is refused at 8,192 bytes, one of too many fields at its empty line, what is no head at once.")
    script.wait(*long_head(9000, 40), sizes="1")
    script.wait(*long_head(1000, 31), b"GET /a", sizes="1")
    script.wait(b"GET\r\n\r\nGET /a", sizes="1")
    script.note("A body of 65,536 bytes, and two requests behind it; one more byte is too many.")
    behind = A + b"PUT /features/8 HTTP/1.1\r\nhost: a\r\ncontent-length: 2\r\n\r\nhi"
    large = b"PUT /features/8 HTTP/1.1\r\nhost: a\r\ncontent-length: 65536\r\n\r\n"
    script.ask(large, Often(65536, b"x"), behind, sizes="1000,65536,4099")
    script.ask(large, BODY, Often(65536 - len(BODY), b" "), behind, sizes="1000")
    script.wait(large.replace(b"65536", b"65537"), sizes="1")


FAULTS = [
    b"\r\rGET /a HTTP/1.1\r\n",
    b"\n\rGET /a HTTP/1.1\r\n",
    b" GET /a HTTP/1.1\r\n",
    b"G\x01T /a HTTP/1.1\r\n",
    b"(GET) /a HTTP/1.1\r\n",
    b"GET\t/a HTTP/1.1\r\n",
    b"GET\r\n\r\n",
    b"GET  /a HTTP/1.1\r\n",
    b"GET /\x01 HTTP/1.1\r\n",
    b"GET /0123456789\x01",
    b"GET /a\x7f HTTP/1.1\r\n",
    b"GET /\xff HTTP/1.1\r\n",
    b"GET /\xc3\xa9\xc3 HTTP/1.1\r\n",
    b"GET /a\r\n\r\n",
    b"GET /a  HTTP/1.1\r\n",
    b"GET /a http/1.1\r\n",
    b"GET /a HTTP/2.0\r\n",
    b"GET /a HTTP/1.2\r\n",
    b"GET /a HTTP/1.x\r\n",
    b"GET /a HTTP/1.1 \r\n",
    b"GET /a HTTP/1.11\r\n",
    b"GET /a HTTP/1.1\rx: y",
    b"GET /a HTTP/1.1\r\n x: y\r\n",
    b"GET /a HTTP/1.1\r\n: y\r\n",
    b"GET /a HTTP/1.1\r\nx y: z\r\n",
    b"GET /a HTTP/1.1\r\nx : z\r\n",
    b"GET /a HTTP/1.1\r\nx\r\n",
    b"GET /a HTTP/1.1\r\nx: \x00\r\n",
    b"GET /a HTTP/1.1\r\nx: a\x7fb\r\n",
    b"GET /a HTTP/1.1\r\nx: y\rz\r\n",
    b"GET /a HTTP/1.1\r\nx: y\r\n\rz",
    b"GET /a HTTP/1.1\nx: y\n\xe9: z\n",
    b"GET /\xc3\xa9 HTTP/1.1\r\nx\x01: y\r\n",
    b"GET /\xc3\xa9 HTTP/1.0\r\n \r\n",
]


def faults(script):
    script.say("Heads at fault, at each position of a head: refused at the byte at fault, though the connection stays open.")
    script.disk(64)
    for held in FAULTS:
        script.wait(held, sizes="1")
    script.note("A head with a byte that stands nowhere, at each place of it in turn.")
    whole = b"GET /a HTTP/1.1\r\nhost: a\r\nx: \t y\n\r\n"
    for at in range(len(whole)):
        script.wait(whole[:at] + b"\x00" + whole[at + 1 :], sizes="1")
    script.note("The same head, cut at each place: the input ends, or stays open.")
    for at in range(len(whole) + 1):
        script.ask(whole[:at])
        script.wait(whole[:at], sizes="1")
    script.note("Each byte that is no letter, digit or mark of a token, in a name; what a value may have beside them.")
    for byte in b'"(),/:;<=>?@[\x5c]{}\x7f\x80\xff':
        script.wait(b"GET /a HTTP/1.1\r\nhost: a\r\nx" + bytes([byte]) + b"y: z\r\n\r\n", sizes="1")
    script.ask(b"GET /a HTTP/1.1\r\nhost: a\r\n!#$%&'*+-.^_`|~: \x22(),/:;<=>?@[\x5c]{}\x80\xff\r\n\r\n", sizes="4096,1")


BLOCKS = [worked, openings, pieces, broken_reads, refusals, limits, faults]
