#!/usr/bin/env python3
"""What a request costs: `vtserve demo` over streams of GETs of one small map.

    python3 bench/speed/requests.py [PROGRAM]       PROGRAM is crates/vtserve/out/vtserve, which `rt run` leaves there

It prints the processor time of the program for each request, at 1,000 and at 100,000 requests in one stream, and their ratio,
which is to stay below 1.3; and for one stream in pieces of 1 byte and of 64 KiB. It ends with 1 where the ratio is above.
"""
import os
import subprocess
import sys
import tempfile

HERE = os.path.dirname(os.path.abspath(__file__))
PROGRAM = sys.argv[1] if len(sys.argv) > 1 else os.path.join(HERE, "..", "..", "crates", "vtserve", "out", "vtserve")
BODY = b'{"layer":"p","minzoom":0,"maxzoom":2,"geometry":{"points":[[0,0]]},"tags":{}}'
PUT = b"PUT /features/7 HTTP/1.1\r\nhost: x\r\ncontent-length: %d\r\n\r\n%s" % (len(BODY), BODY)
GET = b"GET /map/0/0/0.mvt HTTP/1.1\r\nhost: x\r\n\r\n"


def seconds(child):
    """Seconds of processor time of a child that ends, and its status."""
    _, status, usage = os.wait4(child.pid, 0)
    child.returncode = os.waitstatus_to_exitcode(status)
    return usage.ru_utime + usage.ru_stime


def run(requests):
    """Seconds of processor time for a stream in a file, which is read in the largest pieces that the program takes."""
    with tempfile.TemporaryFile() as stream, tempfile.TemporaryFile() as out:
        stream.write(PUT + GET * requests)
        stream.seek(0)
        time = seconds(subprocess.Popen([PROGRAM, "demo", "256"], stdin=stream, stdout=out))
        out.seek(0)
        replies = out.read().count(b"HTTP/1.1 200 OK")
        if replies != requests + 1:
            sys.exit(f"{replies} replies to {requests + 1} requests")
        return time


def run_pieces(requests, piece):
    """Seconds of processor time for a stream that is written into a pipe in pieces, and what the program wrote."""
    stream = PUT + GET * requests
    with tempfile.TemporaryFile() as out:
        child = subprocess.Popen([PROGRAM, "demo", "256"], stdin=subprocess.PIPE, stdout=out)
        fd = child.stdin.fileno()
        for at in range(0, len(stream), piece):
            view = memoryview(stream)[at:at + piece]
            while view:
                view = view[os.write(fd, view):]
        child.stdin.close()
        time = seconds(child)
        out.seek(0)
        return time, out.read()


def cost(requests, times):
    """The least time of some runs, in microseconds."""
    return min(run(requests) for _ in range(times)) * 1e6


def main():
    start = cost(0, 40)
    few = (cost(1000, 40) - start) / 1000
    many = (cost(100000, 5) - start) / 100000
    print(f"start of the program: {start:.0f} us")
    print(f"1,000 requests in one stream: {few:.2f} us each")
    print(f"100,000 requests in one stream: {many:.2f} us each")
    print(f"ratio: {many / few:.2f} (below 1.3 is wanted)")
    whole, bytewise = run_pieces(2000, 1 << 16), run_pieces(2000, 1)
    if whole[1] != bytewise[1]:
        sys.exit("the output depends on the pieces")
    print(f"2,000 requests in pieces of 64 KiB: {whole[0] * 1e6 / 2000:.2f} us each")
    print(f"2,000 requests in pieces of 1 byte: {bytewise[0] * 1e6 / 2000:.2f} us each, equal output")
    return 0 if many / few < 1.3 else 1


if __name__ == "__main__":
    sys.exit(main())
