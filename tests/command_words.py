"""Cases of `commands.py` about command lines: those that don't parse, what `-v` adds, and paths that aren't UTF-8."""
import fcntl
import os
import shutil
import socket

from command_cases import vtserve


def words(cases, folder, disk):
    """Command lines that don't parse are status 2, before any file is touched."""
    path = os.path.join(folder, "unmade")
    lines = [
        ["format", path],
        ["format", "--sectors", "64"],
        ["format", path, "64"],
        ["format", path, "--sectors", "x"],
        ["pipe"],
        ["pipe", disk, "64"],
        ["export", disk],
        ["export", disk, path, path],
        ["serve", disk, "--port", "8080"],
        ["serve", disk, "--port", "0", "--connections", "1"],
        ["serve", disk, "--port", "65536", "--connections", "1"],
        ["serve", disk, "--port", "8080", "--connections", "0"],
    ]
    for line in lines:
        status, out, told = vtserve(line)
        cases.show(" ".join(word.replace(folder, "FOLDER") for word in line), (status, out, told != b""), (2, b"", True))
    cases.show("no file is made", os.path.exists(path), False)
    for port, count, told in [("65536", "1", b"65536 is not in 1..=65535"), ("0", "1", b"0 is not in 1..=65535"),
                              ("8080", "0", b"0 is not in 1..=4294967295"), ("8080", "4294967296", b"4294967296 is not in 1..=4294967295")]:
        found = vtserve(["serve", disk, "--port", port, "--connections", count])
        cases.show(f"--port {port} --connections {count} tells the range", (found[0], told in found[2] or found[2]), (2, True))


def told_more(cases, folder, disk):
    """With `-v` the line of an error goes on with the path, and with the cause where it is known. `disk` has an archive."""
    absent, goal = os.path.join(folder, "absent"), os.path.join(folder, "nowhere", "goal")
    is_missing = b": No such file or directory (os error 2)"
    limits = b": N is from 64 to 16777216"
    used = os.path.join(folder, "used")
    shutil.copy(disk, used)
    short = os.path.join(folder, "short.pmtiles")
    with open(short, "wb") as file:
        file.write(b"PMTiles")
    with open(used, "rb") as lock, socket.socket() as taken:
        fcntl.flock(lock, fcntl.LOCK_EX)
        taken.bind(("127.0.0.1", 0))
        taken.listen()
        port = str(taken.getsockname()[1])
        rows = [
            (["pipe", absent], b"File: " + absent.encode() + is_missing),
            (["serve", absent, "--port", port, "--connections", "1"], b"File: " + absent.encode() + is_missing),
            (["serve", disk, "--port", port, "--connections", "1"], b"Listen: 127.0.0.1:" + port.encode() + b": Address already in use (os error 98)"),
            (["show", absent], b"File: " + absent.encode() + is_missing),
            (["verify", absent], b"File: " + absent.encode() + is_missing),
            (["upgrade", absent], b"File: " + absent.encode() + is_missing),
            (["export", absent, goal], b"File: " + absent.encode() + is_missing),
            (["export", disk, goal], b"File: " + goal.encode() + b".part" + is_missing),
            (["export", disk, disk], b"File: " + disk.encode() + b": not a regular file, or the disk itself"),
            (["pipe", used], b"File: " + used.encode() + b": another process uses it"),
            (["export", used, absent], b"File: " + used.encode() + b": another process uses it"),
            (["format", disk, "--sectors", "64"], b"File: " + disk.encode() + b": File exists (os error 17)"),
            (["format", os.path.join(absent, "disk"), "--sectors", "64"], b"File: " + os.path.join(absent, "disk").encode() + is_missing),
            (["format", absent, "--sectors", "63"], b"TooSmall: " + absent.encode() + limits),
            (["format", absent, "--sectors", "16777217"], b"Damaged: " + absent.encode() + limits),
            (["show", short], b"Short: " + short.encode()),
            (["demo", "63"], b"TooSmall" + limits),
        ]
        for line, told in rows:
            name = " ".join(word.replace(folder, "FOLDER").replace(port, "PORT") for word in line)
            cases.show(f"{name} -v", vtserve([*line, "-v"]), (1, b"", b"vtserve: " + told + b"\n"))
            cases.show(name, vtserve(line), (1, b"", b"vtserve: " + told.partition(b":")[0] + b"\n"))


def foreign_paths(cases, folder, disk):
    """A path that isn't UTF-8 is refused as one that leads to no file."""
    path = os.fsencode(folder) + b"/\xff"
    lines = [
        ["format", path, "--sectors", "64"],
        ["pipe", path],
        ["serve", path, "--port", "8080", "--connections", "1"],
        ["export", path, disk],
        ["export", disk, path],
        ["show", path],
        ["verify", path],
    ]
    for line in lines:
        cases.show(f"{line[0]} and a path that isn't UTF-8", vtserve(line), (1, b"", b"vtserve: File\n"))
    cases.show("no file of that name is made", os.path.exists(path), False)
