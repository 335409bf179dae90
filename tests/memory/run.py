#!/usr/bin/env python3
"""Runs each command of the program with each allocation refused in turn, until runs meet none.

    python3 tests/memory/run.py [PROGRAM]       PROGRAM is crates/vtserve/out/vtserve, which `rt run` leaves there

Each run must end as it would with memory, or with status 1 and `vtserve: Memory`, or answer 503 to the request that lacked memory
and go on. The script ends with 1 otherwise. `demo` runs on its stored input; its disk is in memory, so it may also lack memory for
a write, which is `Device` or 500. The others run on small files; what `format`, `upgrade` and `export` leave of them is looked at too.
`streams.py` sends requests of every kind to `pipe` and to `serve`, and compares the replies and the disk with those of a run without the
refused request. `claims.py` refuses large allocations alone.
"""
import collections
import os
import re
import socket
import subprocess
import sys
import tempfile

import claims
import streams

HERE = os.path.dirname(os.path.abspath(__file__))
CRATE = os.path.join(HERE, "..", "..", "crates", "vtserve")
CALM = 100  # so many runs in a row that meet no refusal, or none that matters, end the series
PROGRAM = os.path.abspath(sys.argv[1] if len(sys.argv) > 1 else os.path.join(CRATE, "out", "vtserve"))
BODY = b'{"layer":"p","minzoom":0,"maxzoom":2,"geometry":{"points":[[0,0]]},"tags":{}}'
PUT = b"PUT /features/7 HTTP/1.1\r\nhost: x\r\ncontent-length: %d\r\n\r\n%s" % (len(BODY), BODY)
PUBLISH = b"POST /publish HTTP/1.1\r\nhost: x\r\n\r\n"
GET = b"GET /map/0/0/0.hex HTTP/1.1\r\nhost: x\r\n\r\n"
MEMORY_FOLDER = "/dev/shm" if os.path.isdir("/dev/shm") else None  # a sync takes no time there
MEMORY = b"vtserve: Memory\n"
DEVICE = b"vtserve: Device\n"
LISTEN = b"vtserve: Listen\n"  # what `serve` asks of the system to listen lacked memory


class Command:
    """A command: its words, what it reads, what is to be done before each run, and whether what it left is right for its status."""

    def __init__(self, words, stream=b"", before=None, faults=(MEMORY,), statuses=("503",), leaves=None):
        self.words = words
        self.stream = stream
        self.before = before
        self.faults = faults
        self.statuses = statuses
        self.leaves = leaves

    def run(self, more):
        """The status, standard output and standard error of one process."""
        if self.before:
            self.before()
        done = subprocess.run([PROGRAM, *self.words], input=self.stream, capture_output=True, timeout=60, env=more)
        return done.returncode, done.stdout, done.stderr


class Serving(Command):
    """The same of `serve`: what it writes is what its peer reads."""

    def run(self, more):
        with socket.socket() as free:
            free.bind(("127.0.0.1", 0))
            port = free.getsockname()[1]
        words = [PROGRAM, *self.words, "--port", str(port), "--connections", "1"]
        child = subprocess.Popen(words, stdout=subprocess.PIPE, stderr=subprocess.PIPE, env=more)
        read = b""
        if child.stdout.readline():
            with socket.create_connection(("127.0.0.1", port), timeout=60) as peer:
                try:
                    peer.sendall(self.stream)
                    peer.shutdown(socket.SHUT_WR)
                    read = b"".join(iter(lambda: peer.recv(65536), b""))
                except OSError:
                    pass
        _, told = child.communicate(timeout=60)
        return child.returncode, read, told


def codes(written):
    """The statuses of the replies."""
    return tuple(code.decode() for code in re.findall(rb"HTTP/1\.1 (\d+)", written))


def is_good(command, outcome, whole):
    """Whether a run that lacked memory ended as it may: named, or with an error in the place of one reply."""
    status, written, told = outcome
    if command.leaves and not command.leaves(status):
        return False
    if status == 1 and told in command.faults:
        return True
    found, wanted = codes(written), codes(whole[1])
    if len(found) != len(wanted):
        # A connection that lacks memory before its request is answered gets that reply as its last one, or none if it can't be kept, and the log
        # of `serve` says so.
        return status == 0 and found in ((), ("503",)) and told == b"connection 1: 0 requests, memory\n"
    # The map of an edit that failed has no tile.
    differ = [code for code, other in zip(found, wanted) if code != other]
    return status == 0 and any(code in command.statuses for code in differ) and all(code in (*command.statuses, "204") for code in differ)


def series(name, command, shim):
    """Runs a command with each allocation refused in turn, and says how many outcomes are bad."""
    whole = command.run({})
    outcomes = collections.Counter()
    bad = calm = 0
    for number in range(1, 100000):
        outcome = command.run({"LD_PRELOAD": shim, "FAIL_AT": str(number)})
        if outcome == whole:
            calm += 1
            if calm == CALM:
                break
            continue
        calm = 0
        good = is_good(command, outcome, whole)
        bad += not good
        outcomes[(outcome[0], codes(outcome[1]), outcome[2].decode().strip(), good)] += 1
    for (status, replies, told, good), times in outcomes.items():
        print(f"{name}: {times} times: status {status}, replies {list(replies)}, {told!r}{'' if good else '  BAD'}")
    print(f"{name}: {number - CALM} allocations, {bad} bad outcomes")
    return bad


def commands(folder):
    """Each command, on files in a folder."""
    with open(os.path.join(CRATE, "stdin"), "rb") as file:
        stream = file.read()
    made, disk, archive, goal, first = (os.path.join(folder, name) for name in ["made", "disk", "archive", "goal", "first"])
    old, new = (streams.first_disk(version, *streams.RECORDS[:2]) for version in (1, 2))
    subprocess.run([PROGRAM, "format", disk, "--sectors", "64"], check=True, capture_output=True)
    subprocess.run([PROGRAM, "pipe", disk], input=PUT + PUBLISH, check=True, capture_output=True)
    subprocess.run([PROGRAM, "export", disk, archive], check=True, capture_output=True)

    def remove(path):
        if os.path.exists(path):
            os.remove(path)

    def write(path, held):
        with open(path, "wb") as file:
            file.write(held)

    def holds(path, held):
        with open(path, "rb") as file:
            return file.read() == held

    def is_exported(status):
        return os.path.exists(goal) == (status == 0) and not os.path.exists(goal + ".part")

    return [
        ("format", Command(["format", made, "--sectors", "64"], before=lambda: remove(made), leaves=lambda status: os.path.exists(made) == (status == 0))),
        ("pipe", Command(["pipe", disk], GET)),
        ("serve", Serving(["serve", disk], GET, faults=(MEMORY, LISTEN))),
        ("upgrade", Command(["upgrade", first], before=lambda: write(first, old), leaves=lambda status: holds(first, old if status else new))),
        ("export", Command(["export", disk, goal], before=lambda: remove(goal), leaves=is_exported)),
        ("show", Command(["show", archive])),
        ("verify", Command(["verify", archive])),
        ("demo", Command(["demo", "256"], stream, faults=(MEMORY, DEVICE), statuses=("503", "500"))),
    ]


def main():
    with tempfile.TemporaryDirectory(dir=MEMORY_FOLDER) as folder:
        shim = os.path.join(folder, "refuse.so")
        subprocess.run(["gcc", "-shared", "-fPIC", "-o", shim, os.path.join(HERE, "refuse.c"), "-ldl"], check=True)
        bad = sum(series(name, command, shim) for name, command in commands(folder))
        kinds = [("streams", streams.Stream, streams.SERIES), ("connections", streams.Connection, streams.SERVED)]
        for kind, made, rows in [*kinds, ("kept connections", streams.Kept, streams.KEPT)]:
            tried = [streams.tried(row[0], made(PROGRAM, shim, folder, *row[1:])) for row in rows]
            requests = sum(len(row[3]) for row in rows)
            print(f"{kind}: {len(rows)}, {requests} requests, {sum(allocations for allocations, _ in tried)} allocations")
            bad += sum(worse for _, worse in tried)
        bad += claims.tried(PROGRAM, shim, folder)[1]
    return 1 if bad else 0


if __name__ == "__main__":
    sys.exit(main())
