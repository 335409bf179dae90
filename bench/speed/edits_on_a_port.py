#!/usr/bin/env python3
"""User instructions of one edit over a kept connection of `serve`, by callgrind, and the functions that take them: of one sector, of 39
sectors, and of a batch of 64 points. A count is the difference of two runs, divided by the edits between them.

    python3 bench/speed/edits_on_a_port.py PROGRAM FOLDER [FEATURES [PORT]]

PROGRAM is crates/vtserve/out/vtserve or what tools/unproved.py makes; the map has FEATURES features before. It needs valgrind. The profiles
stay in FOLDER, for `callgrind_annotate`. valgrind counts each byte of a `rep stosb`, by which glibc fills 2 KB and more.
"""
import json
import os
import re
import shutil
import socket
import subprocess
import sys
import time

PROGRAM, FOLDER = (os.path.abspath(word) for word in sys.argv[1:3])
FEATURES = int(sys.argv[3]) if len(sys.argv) > 3 else 0
PORT = int(sys.argv[4]) if len(sys.argv) > 4 else 18_871
# The edits of each kind, and how many of the shorter and of the longer run.
KINDS = [("one sector", 100, 600), ("39 sectors", 5, 25), ("a batch of 64", 5, 25)]
SHOWN = 40


def point(number):
    """A place of the world for each number."""
    return [number * 65_537 % 2**32, number * 131_071 % 2**32]


def feature(layer, geometry, number):
    """A feature with three tags, as JSON has it."""
    tags = {"class": "street", "lanes": number % 4, "name": f"feature {10_000 + number}"}
    return {"layer": layer, "minzoom": 0, "maxzoom": 16, "geometry": geometry, "tags": tags}


def body(kind, number):
    """The body of an edit."""
    if kind == "one sector":
        value = feature("poi", {"points": [point(number)]}, number)
    elif kind == "39 sectors":
        value = feature("roads", {"lines": [[[2**31 + i * 1000 + number, 2**31 + i * 701] for i in range(2400)]]}, number)
    else:
        value = {"changes": [{"put": 1000 + i, "feature": feature("poi", {"points": [point(i + number)]}, i)} for i in range(64)]}
    return json.dumps(value, separators=(",", ":")).encode()


def put(number, content):
    return b"PUT /features/%d HTTP/1.1\r\nhost: x\r\ncontent-length: %d\r\n\r\n" % (number, len(content)) + content


def ask(kind, number):
    """The request of an edit."""
    content = body(kind, number)
    if kind == "a batch of 64":
        return b"POST /edits HTTP/1.1\r\nhost: x\r\ncontent-length: %d\r\n\r\n" % len(content) + content
    return put(number, content)


def made_disk():
    path = os.path.join(FOLDER, "before")
    if os.path.exists(path):
        os.remove(path)
    subprocess.run([PROGRAM, "format", path, "--sectors", "65536"], check=True, stdout=subprocess.DEVNULL)
    stream = b"".join(put(100_000 + n, body("one sector", n)) for n in range(FEATURES))
    subprocess.run([PROGRAM, "pipe", path], input=stream, stdout=subprocess.DEVNULL, check=True)
    return path


def connected():
    for _ in range(400):
        try:
            return socket.create_connection(("127.0.0.1", PORT))
        except OSError:
            time.sleep(0.05)
    sys.exit("no server")


def answered(replies):
    """Whether the next reply is a 200; its content is passed."""
    status, size = replies.readline(), 0
    while (line := replies.readline()) != b"\r\n":
        if line.startswith(b"content-length"):
            size = int(line.split(b":")[1])
    replies.read(size)
    return b" 200 " in status


def counted(disk, kind, times):
    """The instructions of a server that gets so many edits, and its profile."""
    global PORT
    PORT += 1
    path, profile = os.path.join(FOLDER, "disk"), os.path.join(FOLDER, f"{kind} {times}")
    shutil.copy(disk, path)
    command = ["valgrind", "--tool=callgrind", f"--callgrind-out-file={profile}", PROGRAM, "serve", "--port", str(PORT), "--connections", "1", path]
    server = subprocess.Popen(command, stdout=subprocess.DEVNULL, stderr=subprocess.PIPE)
    peer = connected()
    replies = peer.makefile("rb")
    for number in range(times):
        peer.sendall(ask(kind, number % 50))
        if not answered(replies):
            sys.exit(f"{kind}: refused")
    peer.shutdown(socket.SHUT_WR)
    replies.read()
    return int(re.search(rb"Collected : (\d+)", server.communicate(timeout=100)[1])[1]), profile


def by_function(profile):
    """The instructions of each function, with what it calls."""
    command = ["callgrind_annotate", "--inclusive=yes", "--threshold=100", profile]
    found = {}
    for line in subprocess.run(command, capture_output=True, text=True, check=True).stdout.splitlines():
        row = re.match(r"\s*([\d,]+) \([ \d.]+%\)\s+\S*?:(.*?)(?: \[.*\])?$", line)
        if row:
            name = re.sub(r"'\d+$", "", row[2])
            found[name] = max(found.get(name, 0), int(row[1].replace(",", "")))
    return found


def main():
    disk = made_disk()
    for kind, few, many in KINDS:
        (less, before), (more, after) = counted(disk, kind, few), counted(disk, kind, many)
        print(f"{kind}, a body of {len(body(kind, 7))} bytes: {(more - less) / (many - few):.0f} instructions for each edit", flush=True)
        short, long = by_function(before), by_function(after)
        rows = sorted(((long[name] - short.get(name, 0)) / (many - few), name) for name in long)[::-1]
        for count, name in rows[:SHOWN]:
            print(f"{count:12.0f} {name}")


main()
