"""Cases of `commands.py` about `export`."""
import os
import shutil
import subprocess

from command_cases import ARCHIVE, PROGRAM, content, disks, failing, killed_at_each_call, published, refusal, remove, vtserve, write
from command_streams import GET, TEXT, TILE, reply


def exports_unwritable(cases, folder, disk, archive):
    """The archive of a disk that may only be read, by a user who isn't root."""
    open_to_all = os.path.join(folder, "readable")
    os.mkdir(open_to_all)
    os.chmod(open_to_all, 0o777)
    path, goal = os.path.join(open_to_all, "disk"), os.path.join(open_to_all, "map.pmtiles")
    shutil.copy(disk, path)
    os.chmod(path, 0o444)
    program = os.path.join(open_to_all, "vtserve")
    shutil.copy(PROGRAM, program)
    os.chmod(program, 0o755)
    os.chmod(folder, 0o755)
    other = {"user": 65534} if os.geteuid() == 0 else {}
    found = subprocess.run([program, "export", path, goal], capture_output=True, **other)
    cases.show("export of a disk that may only be read", (found.returncode, found.stdout, found.stderr), (0, b"%d bytes\n" % ARCHIVE, b""))
    cases.show("it is the archive", content(goal)[0] == archive, True)
    found = subprocess.run([program, "pipe", path], input=GET, capture_output=True, **other)
    cases.show("pipe of it", (found.returncode, found.stdout, found.stderr), refusal(b"File"))


def exports(cases, folder):
    """The archive into a file: whole, or not at all."""
    disk, archive = published(folder, "published")
    goal = os.path.join(folder, "map.pmtiles")
    before = content(disk)[0]
    cases.show("export of an archive", vtserve(["export", disk, goal]), (0, b"%d bytes\n" % ARCHIVE, b""))
    cases.show("it is the one that a connection gives", (content(goal)[0], len(archive)), (archive, ARCHIVE))
    cases.show("verify of it", vtserve(["verify", goal])[:2], (0, b"ok: 3 tiles, 2 entries, 1 contents\n"))
    cases.show("the disk is left as it is", content(disk)[0] == before, True)
    with open(goal, "wb") as file:
        file.write(b"x" * 1000)
    cases.show("export to a file that is there", vtserve(["export", disk, goal]), (0, b"%d bytes\n" % ARCHIVE, b""))
    cases.show("it is replaced", content(goal)[0] == archive, True)
    empty = os.path.join(folder, "unpublished")
    vtserve(["format", empty, "--sectors", "64"])
    lost = os.path.join(folder, "no", "map.pmtiles")
    rows = [
        ("of no archive, before the file is looked at", [empty, lost], b"NoArchive"),
        ("of a missing disk", [os.path.join(folder, "none"), goal], b"File"),
        ("into a folder that isn't there", [disk, lost], b"File"),
        ("onto a folder", [disk, folder], b"File"),
        ("onto the disk itself", [disk, disk], b"File"),
        ("onto the disk itself by another path", [disk, os.path.join(folder, ".", "published")], b"File"),
    ]
    for name, names, fault in rows:
        cases.show(f"export {name}", vtserve(["export", *names]), refusal(fault))
    with open(goal + ".part", "wb") as file:
        file.write(b"mine")
    cases.show("export where a file has the name of its part", vtserve(["export", disk, goal]), refusal(b"File"))
    in_the_way = refusal(b"File: %s.part: File exists (os error 17)" % goal.encode())
    cases.show("export -v where it has", vtserve(["export", disk, goal, "-v"]), in_the_way)
    cases.show("that file is left as it is", content(goal + ".part")[0], b"mine")
    os.remove(goal + ".part")
    with open("/dev/full", "wb") as full:
        found = subprocess.run([PROGRAM, "export", disk, goal], stdout=full, stderr=subprocess.PIPE)
    cases.show("export where standard output is full", (found.returncode, found.stderr, content(goal)[0] == archive), (1, b"vtserve: Write\n", True))
    exports_unwritable(cases, folder, disk, archive)
    cases.show("export where standard output is closed", vtserve(["export", disk, goal], preexec_fn=lambda: os.close(1)), (0, b"", b""))
    if shutil.which("strace"):
        words = ["export", disk, goal]
        with open(goal, "wb") as file:
            file.write(b"old")
        rows = [
            ("write", goal + ".part", b"File", "a write"),
            ("fsync", goal + ".part", b"File", "its sync"),
            ("rename,renameat,renameat2", goal + ".part", b"File", "its renaming"),
        ]
        for call, at, fault, name in rows:
            cases.show(f"export where {name} fails", failing(call, at, 1, words), refusal(fault))
            cases.show("the goal is as it was, with nothing beside", (content(goal)[0], os.path.exists(goal + ".part")), (b"old", False))
            told = fault + b": " + goal.encode() + b": Input/output error (os error 5)"
            cases.show(f"export -v where {name} fails", failing(call, at, 1, [*words, "-v"]), refusal(told))
        cases.show("export where each read of the disk fails", failing("pread64", disk, "1+", words), refusal(b"Device"))
        cases.show("the goal is as it was, with nothing beside", (content(goal)[0], os.path.exists(goal + ".part")), (b"old", False))
    cases.show("the disk is left as it is, and serves", (content(disk)[0] == before, vtserve(["pipe", disk], GET)), (True, (0, reply(TEXT, TILE), b"")))


def damaged_exports(cases, folder):
    """The archive of a disk whose snapshot or journal is damaged, and none of one whose format sector or root is."""
    disk, archive = published(folder, "whole")
    layout, goal, path = disks.Layout(64), os.path.join(folder, "saved.pmtiles"), os.path.join(folder, "damaged")
    saved, lost = (0, b"%d bytes\n" % ARCHIVE, b""), refusal(b"Damaged")
    rows = [
        ("snapshot", layout.area_at(1), b"\xff" * disks.SECTOR, saved, b"a snapshot"),
        ("journal", layout.place(1), disks.front(0, 2, 0, disks.LAST_VERSION), saved, b"the journal"),
        ("format sector", 0, b"VTILEDSK\0", lost, b"its size"),
        ("root", 2, b"VTROOT02", lost, b"the sector of a root"),
    ]
    for name, sector, held, wanted, part in rows:
        found = bytearray(content(disk)[0])
        disks.put_at(found, sector, held)
        write(path, found)
        cases.show(f"pipe of a disk whose {name} is damaged", vtserve(["pipe", path], GET), refusal(b"Damaged"))
        cases.show("pipe -v of it", vtserve(["pipe", path, "-v"], GET), refusal(b"Damaged: " + path.encode() + b": " + part))
        cases.show("export of it", vtserve(["export", path, goal]), wanted)
        there = content(goal)[0] if os.path.exists(goal) else None
        cases.show("what the file has then", there, archive if wanted == saved else None)
        cases.show("the disk is left as it is", content(path)[0], bytes(found))
        remove(goal)


def stopped_exports(cases, folder):
    """An export that is killed at a call of the system leaves the old file or the new one, and the disk as it was."""
    if not shutil.which("strace"):
        print("        no strace: no export is stopped")
        return
    folder = os.path.join(folder, "stopped")
    os.mkdir(folder)
    disk, archive = published(folder, "disk")
    goal, before, seen = os.path.join(folder, "map.pmtiles"), content(disk)[0], set()
    write(goal, b"old")

    def check():
        found, held = content(goal)[0], content(disk)[0]
        seen.add(found)
        write(goal, b"old")
        remove(goal + ".part")
        if held != before:
            return "the disk has changed"
        return None if found in (archive, b"old") else f"the file has {len(found)} bytes"

    count, wrong = killed_at_each_call(["export", disk, goal], disk, check)
    cases.show(f"export, killed at each of its {count} calls of the system", (wrong, count > 10, len(seen)), (None, True, 2))
    cases.show("export after it", (vtserve(["export", disk, goal]), content(goal)[0]), ((0, b"%d bytes\n" % ARCHIVE, b""), archive))
