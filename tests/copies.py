#!/usr/bin/env python3
"""`vtserve copy`, alone and while the disk is served, edited and published.

    python3 tests/copies.py [PROGRAM] [--copies 100]       PROGRAM is crates/vtserve/out/vtserve, which `rt run` leaves there

Edit n is a list of changes: eight features, and one of forty others in turn, all with n in their tags. So the map after edit n is known,
and one that mixes two edits is seen. A copy must open to the map after one edit, at least the last that was acknowledged before the
copy began; its archive must be sound; and each of its sectors must be the disk's or zeros. Beside them as many copies are made as a
script would make them that reads the file in pieces: how many of those are such a map is printed. It prints a line for each case, and
ends with 1 if one differs from what is wanted.
"""
import contextlib
import http.client
import json
import os
import re
import shutil
import stat
import subprocess
import sys
import tempfile
import threading
import time

from command_cases import PROGRAM, Cases, Serving, content, disks, failed_at_each_call, killed_at_each_call, published, refusal, vtserve, write
from command_streams import GET, put

SECTORS = 4096
ALWAYS, OTHERS = range(1, 9), 40
FILLER = "z" * 700


def change(number, edit):
    feature = {"layer": "p", "minzoom": 0, "maxzoom": 3, "geometry": {"points": [[edit, 0]]}, "tags": {"edit": edit, "filler": FILLER}}
    return {"put": number, "feature": feature}


def text_of(edit):
    """The request of an edit."""
    numbers = [*ALWAYS, 100 + edit % OTHERS]
    return json.dumps({"changes": [change(number, edit) for number in numbers]}).encode()


def map_after(edit):
    """The edit of each feature in the map after an edit."""
    made = {number: edit for number in ALWAYS} if edit else {}
    made.update({100 + other % OTHERS: other for other in range(max(1, edit - OTHERS + 1), edit + 1)})
    return made


class Editor(threading.Thread):
    """Makes one edit after the other, and counts those that were acknowledged."""

    def __init__(self, port, ended):
        super().__init__()
        self.port, self.ended, self.acknowledged, self.fault = port, ended, 0, None

    def run(self):
        link = http.client.HTTPConnection("127.0.0.1", self.port, timeout=60)
        while not self.ended.is_set():
            link.request("POST", "/edits", text_of(self.acknowledged + 1))
            answer = link.getresponse()
            read = answer.read()
            if answer.status == 200:
                self.acknowledged += 1
            elif answer.status != 507:
                self.fault = answer.status, read
                return


class Publisher(threading.Thread):
    """Publishes from time to time."""

    def __init__(self, port, ended):
        super().__init__()
        self.port, self.ended, self.published, self.fault = port, ended, 0, None

    def run(self):
        link = http.client.HTTPConnection("127.0.0.1", self.port, timeout=60)
        while not self.ended.wait(0.03):
            link.request("POST", "/publish", b"")
            answer = link.getresponse()
            read = answer.read()
            if answer.status != 200:
                self.fault = answer.status, read
                return
            self.published += 1


def opened(path):
    """The edit of each feature on a disk, or what `pipe` says of it."""
    numbers = [*ALWAYS, *range(100, 100 + OTHERS)]
    asked = b"".join(b"GET /features/%d HTTP/1.1\r\nhost: x\r\n\r\n" % number for number in numbers)
    status, out, told = vtserve(["pipe", path], asked)
    if status:
        return told
    edits = [re.search(rb'"edit":(\d+)', part) for part in out.split(b"HTTP/1.1 ")[1:]]
    return {number: int(edit[1]) for number, edit in zip(numbers, edits) if edit}


def in_pieces(disk, goal):
    """Copies a file as a script does that knows nothing of it."""
    with open(disk, "rb") as source, open(goal, "wb") as made:
        for piece in iter(lambda: source.read(16384), b""):
            made.write(piece)
            time.sleep(0.002)


def is_one_map(found, least, most):
    """Whether a map is the one after an edit, from `least` to `most`."""
    edit = found.get(1, 0) if isinstance(found, dict) else None
    return edit is not None and least <= edit <= most and found == map_after(edit)


def whole_copy(folder, disk, editor):
    """What is wrong with a copy that is made now, or None."""
    goal, archive = os.path.join(folder, "copy"), os.path.join(folder, "copy.pmtiles")
    for path in (goal, archive):
        with contextlib.suppress(FileNotFoundError):
            os.remove(path)
    before = editor.acknowledged
    status, out, told = vtserve(["copy", disk, goal])
    if (status, told) != (0, b""):
        return status, told
    found = opened(goal)
    if not is_one_map(found, before, editor.acknowledged + 1):
        return "not a map after one edit", before, found
    if out != b"%d edits\n" % found.get(1, 0):
        return "another number is told", out, found
    if vtserve(["export", goal, archive])[0] == 0 and vtserve(["verify", archive])[0] != 0:
        return "its archive isn't sound"
    return None


def while_it_is_served(cases, folder, copies):
    """Copies of a disk that is edited and published meanwhile."""
    disk = os.path.join(folder, "served")
    vtserve(["format", disk, "--sectors", str(SECTORS)])
    serving, ended = Serving(disk, 4294967295), threading.Event()
    threads = editor, publisher = Editor(serving.port, ended), Publisher(serving.port, ended)
    for thread in threads:
        thread.start()
    wrong = [found for found in (whole_copy(folder, disk, editor) for _ in range(copies)) if found]
    naive = 0
    for _ in range(copies):
        before = editor.acknowledged
        in_pieces(disk, os.path.join(folder, "pieces"))
        naive += is_one_map(opened(os.path.join(folder, "pieces")), before, editor.acknowledged + 1)
    ended.set()
    for thread in threads:
        thread.join()
    serving.child.kill()
    serving.end()
    cases.show(f"{copies} copies while {editor.acknowledged} edits and {publisher.published} publications were made", wrong[:3], [])
    done = editor.fault, publisher.fault, editor.acknowledged > copies, publisher.published > 3
    cases.show("each edit and publication was acknowledged", done, (None, None, True, True))
    print(f"        read in pieces, {naive} of {copies} copies were a map after one edit")


def sectors(path):
    held = content(path)[0]
    return [held[at:at + 512] for at in range(0, len(held), 512)]


def alone(cases, folder):
    """Copies of a disk that no one serves."""
    disk, archive = published(folder, "disk")
    vtserve(["pipe", disk], put(8))
    os.chmod(disk, 0o640)
    before, goal = content(disk), os.path.join(folder, "copy")
    cases.show("copy", vtserve(["copy", disk, goal], umask=0o022), (0, b"2 edits\n", b""))
    cases.show("the disk is left as it is", content(disk) == before, True)
    cases.show("it has the disk's mode", stat.S_IMODE(os.stat(goal).st_mode), 0o640)
    pairs = list(zip(sectors(disk), sectors(goal), strict=True))
    cases.show("each sector is the disk's, or zeros", all(copy in (held, bytes(512)) for held, copy in pairs), True)
    cases.show("it has one root", [copy == bytes(512) for _, copy in pairs[1:3]], [True, False])
    cases.show("it serves the map", vtserve(["pipe", goal], GET)[1], vtserve(["pipe", disk], GET)[1])
    cases.show("a copy of it has its bytes", (vtserve(["copy", goal, goal + "2"])[0], content(goal + "2")[0] == content(goal)[0]), (0, True))
    exported = os.path.join(folder, "map.pmtiles")
    cases.show("export of it", (vtserve(["export", goal, exported])[0], content(exported)[0] == archive), (0, True))
    cases.show("an edit of it", vtserve(["pipe", goal], put(9))[1][-10:], b'{"edit":3}')
    fresh = os.path.join(folder, "fresh")
    vtserve(["format", fresh, "--sectors", "64"])
    cases.show("copy of an empty map", vtserve(["copy", fresh, fresh + "2"]), (0, b"0 edits\n", b""))
    cases.show("it has its bytes", content(fresh + "2")[0] == content(fresh)[0], True)


def refuses(cases, folder):
    """What isn't copied, and where to."""
    disk, _ = published(folder, "refused")
    held, goal = content(disk)[0], os.path.join(folder, "goal")
    os.mkfifo(os.path.join(folder, "fifo"))
    os.symlink(os.path.join(folder, "none"), os.path.join(folder, "dangling"))
    for name, path in [("the disk itself", disk), ("a folder", folder), ("a FIFO", os.path.join(folder, "fifo")),
                       ("a link to nothing", os.path.join(folder, "dangling")), ("a folder that isn't there", os.path.join(folder, "no", "goal"))]:
        cases.show(f"copy onto {name}", vtserve(["copy", disk, path]), refusal(b"File"))
    write(goal + ".part", b"mine")
    cases.show("copy where a file has the name of its part", vtserve(["copy", disk, goal]), refusal(b"File"))
    in_the_way = refusal(b"File: %s.part: File exists (os error 17)" % goal.encode())
    cases.show("copy -v where it has", vtserve(["copy", disk, goal, "-v"]), in_the_way)
    cases.show("that file is left as it is", content(goal + ".part")[0], b"mine")
    os.remove(goal + ".part")
    cases.show("-v tells which", vtserve(["copy", disk, disk, "-v"])[2].startswith(b"vtserve: File: " + disk.encode() + b": "), True)
    rows = [("a missing disk", None, b"File"), ("no bytes", b"", b"NotFormatted"), ("zeros", bytes(32768), b"NotFormatted"),
            ("a disk cut short", held[:-512], b"Damaged"), ("a disk with a byte of a root changed", held[:1024] + b"x" + held[1025:], b"Damaged")]
    for name, bytes_held, fault in rows:
        path = os.path.join(folder, "bad")
        with contextlib.suppress(FileNotFoundError):
            os.remove(path)
        if bytes_held is not None:
            write(path, bytes_held)
        cases.show(f"copy of {name}", vtserve(["copy", path, goal]), refusal(fault))
        cases.show("nothing is made", [os.path.exists(goal), os.path.exists(goal + ".part")], [False, False])
    cases.show("copy of a FIFO", vtserve(["copy", os.path.join(folder, "fifo"), goal]), refusal(b"File"))
    cases.show("the disk is left as it is", content(disk)[0] == held, True)


class Roots(threading.Thread):
    """Gives a disk one root after the other, of ever later generations, until it is told to end."""

    def __init__(self, path):
        super().__init__()
        self.path, self.ended = path, threading.Event()

    def run(self):
        with open(self.path, "r+b", buffering=0) as file:
            generation = 2
            while not self.ended.is_set():
                os.pwrite(file.fileno(), disks.root_sector(disks.Root(generation, 1, 1, 0, 0)), disks.SECTOR * (1 + generation % 2))
                generation += 1
                time.sleep(0.001)


def overtaken(cases, folder):
    """A copy that publications overtake each time is busy, also where what it read meanwhile isn't sound."""
    if not shutil.which("strace"):
        print("        no strace: no copy is overtaken")
        return
    disk, _ = published(folder, "overtaken")
    goal, held = os.path.join(folder, "goal"), bytearray(content(disk)[0])
    disks.put_at(held, disks.Layout(64).place(1), disks.front(0, 2, 0, disks.LAST_VERSION))
    write(disk, held)
    cases.show("copy of a disk with a damaged record", vtserve(["copy", disk, goal]), refusal(b"Damaged"))
    roots = Roots(disk)
    roots.start()
    # Each read takes 10 ms, so that there is another root after it.
    slowly = ["strace", "-f", "-o", "/dev/null", "-e", "trace=pread64", "-e", "inject=pread64:delay_enter=10000"]
    found = subprocess.run([*slowly, PROGRAM, "copy", disk, goal], capture_output=True)
    roots.ended.set()
    roots.join()
    cases.show("copy of it while its root changes", (found.returncode, found.stdout, found.stderr), refusal(b"Busy"))
    cases.show("nothing is made", [os.path.exists(goal), os.path.exists(goal + ".part")], [False, False])


def stopped(cases, folder):
    """A copy that is killed, or of which a call fails, leaves no FILE or the whole copy."""
    if not shutil.which("strace"):
        print("        no strace: no copy is stopped")
        return
    disk, _ = published(folder, "stopped")
    goal = os.path.join(folder, "left")
    vtserve(["copy", disk, goal])
    whole, words = content(goal)[0], ["copy", disk, goal]

    def left():
        found = content(goal)[0] if os.path.exists(goal) else None
        for path in (goal, goal + ".part"):
            with contextlib.suppress(FileNotFoundError):
                os.remove(path)
        return None if found in (None, whole) else "neither nothing nor the copy"

    left()
    count, wrong = killed_at_each_call(words, disk, left)
    cases.show(f"copy, killed at each of its {count} calls of the system", (wrong, count > 10), (None, True))

    def check(outcome, faults):
        part, wrong = os.path.exists(goal + ".part"), left()
        if outcome[0] == 0:
            return None
        return wrong or part or ("" if outcome in map(refusal, faults) else outcome)

    for call, at, fault in [("pread64", disk, b"Device"), ("pwrite64", goal + ".part", b"File"), ("fdatasync", goal + ".part", b"File"),
                            ("ftruncate", goal + ".part", b"File"), ("fsync", folder, b"File")]:
        count, wrong = failed_at_each_call(call, at, words, lambda outcome: check(outcome, [fault]))
        cases.show(f"copy, with each {call} failing: {count}", (wrong, count >= 1), (None, True))


def main():
    cases = Cases()
    copies = int(sys.argv[sys.argv.index("--copies") + 1]) if "--copies" in sys.argv else 100
    with tempfile.TemporaryDirectory() as scratch:
        folder = os.path.realpath(scratch)
        for act in (alone, refuses, overtaken, stopped):
            below = os.path.join(folder, act.__name__)
            os.mkdir(below)
            act(cases, below)
        while_it_is_served(cases, folder, copies)
    return 1 if cases.differ else 0


if __name__ == "__main__":
    sys.exit(main())
