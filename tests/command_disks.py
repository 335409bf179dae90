"""Cases of `commands.py` about disks in files: made, kept by one process after the other, refused, and stopped by a kill or a call that fails."""
import contextlib
import os
import re
import resource
import shutil
import signal
import subprocess
import tempfile

from command_cases import PROGRAM, content, failing, killed_after_its_reply, killed_at_each_call, refusal, remove, system, vtserve
from command_streams import DELETE, EMPTY, GET, TEXT, TILE, edit, error, put, reply


def formats(cases, folder):
    """A disk is made once, and only of a size that it may have."""
    disk = os.path.join(folder, "disk")
    cases.show("format makes a disk of 256 sectors", vtserve(["format", disk, "--sectors", "256"]), (0, b"formatted 256 sectors\n", b""))
    cases.show("it has 256 sectors of 512 bytes", os.path.getsize(disk), 131072)
    before = content(disk)
    cases.show("format of a file that is there", vtserve(["format", disk, "--sectors", "256"]), refusal(b"File"))
    cases.show("it changes no byte", content(disk) == before, True)
    other = os.path.join(folder, "other")
    for sectors, name in [("63", b"TooSmall"), ("0", b"TooSmall"), ("16777217", b"Damaged"), ("18446744073709551615", b"Damaged")]:
        cases.show(f"format --sectors {sectors}", vtserve(["format", other, "--sectors", sectors]), refusal(name))
        cases.show("no file is made", os.path.exists(other), False)
    cases.show("sizes are judged before the file", vtserve(["format", disk, "--sectors", "63"]), refusal(b"TooSmall"))
    cases.show("that file too is left as it is", content(disk) == before, True)
    cases.show("format in a folder that isn't there", vtserve(["format", os.path.join(folder, "no", "disk"), "--sectors", "64"]), refusal(b"File"))
    cases.show("format in the folder where it runs", vtserve(["format", "here", "--sectors", "64"], cwd=folder), (0, b"formatted 64 sectors\n", b""))
    most = os.path.join(folder, "most")
    cases.show("format --sectors 16777216", vtserve(["format", most, "--sectors", "16777216"]), (0, b"formatted 16777216 sectors\n", b""))
    cases.show("it serves", vtserve(["pipe", most], GET), (0, EMPTY, b""))
    return disk


def keeps(cases, folder, disk):
    """What one process was told is what the next one has."""
    cases.show("PUT", vtserve(["pipe", disk], put(7)), (0, edit(1), b""))
    cases.show("another process: GET", vtserve(["pipe", disk], GET), (0, reply(TEXT, TILE), b""))
    cases.show("a third: DELETE, then GET", vtserve(["pipe", disk], DELETE + GET), (0, edit(2) + EMPTY, b""))
    cases.show("PUT, then killed", killed_after_its_reply(disk, put(7), edit(3)), (-signal.SIGKILL, edit(3), b""))
    cases.show("it is there", vtserve(["pipe", disk], GET), (0, reply(TEXT, TILE), b""))
    cases.show("DELETE, then killed", killed_after_its_reply(disk, DELETE, edit(4)), (-signal.SIGKILL, edit(4), b""))
    cases.show("it is gone, and the next edit is 5", vtserve(["pipe", disk], GET + put(7)), (0, EMPTY + edit(5), b""))
    many = os.path.join(folder, "many")
    vtserve(["format", many, "--sectors", "256"])
    told = [killed_after_its_reply(many, put(number), edit(number)) for number in range(1, 21)]
    cases.show("20 processes, each killed after its reply", told, [(-signal.SIGKILL, edit(number), b"") for number in range(1, 21)])
    deletes = b"".join(b"DELETE /features/%d HTTP/1.1\r\nhost: x\r\n\r\n" % number for number in range(1, 21))
    cases.show("none of the 20 is lost", vtserve(["pipe", many], deletes + GET), (0, b"".join(edit(number) for number in range(21, 41)) + EMPTY, b""))


def refuses(cases, folder, disk):
    """What is no disk of a map."""
    cases.show("pipe of a missing file", vtserve(["pipe", os.path.join(folder, "none")]), refusal(b"File"))
    cases.show("no file is made", os.path.exists(os.path.join(folder, "none")), False)
    cases.show("pipe of a folder", vtserve(["pipe", folder]), refusal(b"File"))
    rows = [
        ("a file without a byte", b"", b"NotFormatted"),
        ("a file of zeros", bytes(32768), b"NotFormatted"),
        ("a disk cut short", content(disk)[0][:32768], b"Damaged"),
        ("a disk with a byte of a root changed", content(disk)[0][:1024] + b"x" + content(disk)[0][1025:], b"Damaged"),
    ]
    for name, held, fault in rows:
        path = os.path.join(folder, "held")
        with open(path, "wb") as file:
            file.write(held)
        cases.show(f"pipe of {name}", vtserve(["pipe", path], GET), refusal(fault))
        cases.show("it is left as it is", content(path)[0] == held, True)
    cases.show("pipe where no request comes", vtserve(["pipe", disk]), (0, b"", b""))


def descriptor_of_a_format(path):
    """The descriptors that a disk's file gets whose program is started without standard streams."""
    with tempfile.NamedTemporaryFile("r") as told:
        closes = ["sh", "-c", 'exec "$@" <&- >&- 2>&-', "sh", PROGRAM, "format", path, "--sectors", "64"]
        subprocess.run(["strace", "-qq", "-o", told.name, "-P", path, "-e", "trace=openat", *closes], check=False, timeout=60)
        return [int(number) for number in re.findall(r"O_CREAT.*= (\d+)$", told.read(), re.MULTILINE)]


def closed_streams(cases, folder):
    """Standard streams that are closed: a disk's file doesn't get their numbers."""
    path = os.path.join(folder, "closed")
    for number, name, wanted in [(0, "input", (0, b"", b"")), (1, "output", (0, b"", b"")), (2, "error", (0, EMPTY, b""))]:
        vtserve(["format", path, "--sectors", "64"])
        before = content(path)
        cases.show(f"pipe where standard {name} is closed", vtserve(["pipe", path], GET, preexec_fn=lambda: os.close(number)), wanted)
        cases.show("the disk is left as it is", content(path) == before, True)
        os.remove(path)
    made = vtserve(["format", path, "--sectors", "64"], preexec_fn=lambda: os.close(1))
    cases.show("format where standard output is closed", made, refusal(b"Write"))
    cases.show("the disk is made", vtserve(["pipe", path], GET), (0, EMPTY, b""))
    os.remove(path)
    if shutil.which("strace"):
        cases.show("format where all three are closed: the number of the disk's file", descriptor_of_a_format(path), [3])


def runs_out(cases, folder):
    """Files that the system keeps from growing: what can't be made is taken away, and can be tried again."""
    path = os.path.join(folder, "short")

    def limit():
        signal.signal(signal.SIGXFSZ, signal.SIG_IGN)
        resource.setrlimit(resource.RLIMIT_FSIZE, (65536, 65536))

    cases.show("format where files may have 128 sectors", vtserve(["format", path, "--sectors", "256"], preexec_fn=limit), refusal(b"File"))
    cases.show("the file is taken away", os.path.exists(path), False)
    cases.show("format again, of 128 sectors", vtserve(["format", path, "--sectors", "128"], preexec_fn=limit), (0, b"formatted 128 sectors\n", b""))


def fails(cases, folder):
    """Calls of the system that fail."""
    if not shutil.which("strace"):
        print("        no strace: no call of the system is made to fail")
        return
    path = os.path.join(folder, "again")
    make = ["format", path, "--sectors", "64"]
    rows = [
        ("fsync", path, 1, b"File", "the sync of its length"),
        ("fsync", folder, 1, b"File", "the sync of its folder"),
        ("pwrite64", path, 1, b"Device", "a write"),
        ("fdatasync", path, 1, b"Device", "its first sync"),
        ("fdatasync", path, 4, b"Device", "its last sync"),
    ]
    for call, at, number, fault, name in rows:
        cases.show(f"format where {name} fails", failing(call, at, number, make), refusal(fault))
        cases.show("the file is taken away", os.path.exists(path), False)
        told = fault + b": " + path.encode() + b": Input/output error (os error 5)"
        cases.show(f"format -v where {name} fails", failing(call, at, number, [*make, "-v"]), refusal(told))
    cases.show("the same command again, where each read would fail", failing("pread64", path, "1+", make), (0, b"formatted 64 sectors\n", b""))
    cases.show("pipe where its first sync fails", failing("fdatasync", path, 1, ["pipe", path], GET), refusal(b"Device"))
    word = b"Device: " + path.encode() + b": Input/output error (os error 5)"
    for words, call, number in [(["pipe", path], "fdatasync", 1), (["pipe", path], "fdatasync", 2), (["pipe", path], "pread64", "2+"),
                                (["upgrade", path], "fdatasync", 2), (["export", path, path + "x"], "pread64", "1+")]:
        cases.show(f"{words[0]} -v where {call} {number} fails", failing(call, path, number, [*words, "-v"], GET), refusal(word))
    cases.show("pipe where its second sync fails", failing("fdatasync", path, 2, ["pipe", path], GET), refusal(b"Device"))
    # Where a read of 64 sectors fails, the sector is read alone. So all reads from the second one on fail.
    cases.show("pipe where a read fails", failing("pread64", path, "2+", ["pipe", path], GET), refusal(b"Device"))
    told = error(b"Device") + error(b"Broken") + EMPTY
    cases.show("PUT where its write fails, PUT, GET", failing("pwrite64", path, 1, ["pipe", path], put(7) + put(7) + GET),
               (0, told, b"vtserve: Device: write: Input/output error (os error 5)\n"))
    cases.show("another process: PUT", vtserve(["pipe", path], put(7)), (0, edit(1), b""))
    large = os.path.join(folder, "large")
    cases.show("format of 256 sectors", vtserve(["format", large, "--sectors", "256"]), (0, b"formatted 256 sectors\n", b""))
    cases.show("pipe where a read ahead fails", failing("pread64", large, 2, ["pipe", large], GET), (0, EMPTY, b""))
    cases.show("pipe where all reads but the first fail", failing("pread64", large, "2+", ["pipe", large], GET), refusal(b"Device"))


def stopped_formats(cases, folder):
    """A format that is killed leaves no file, one that is no disk, or the empty map."""
    if not shutil.which("strace"):
        print("        no strace: no format is stopped")
        return
    path, seen = os.path.join(folder, "formatted"), set()

    def check():
        outcome = vtserve(["pipe", path], GET)
        seen.add(outcome)
        remove(path)
        return None if outcome in [(0, EMPTY, b""), refusal(b"File"), refusal(b"NotFormatted")] else f"pipe is {outcome}"

    count, wrong = killed_at_each_call(["format", path, "--sectors", "64"], path, check)
    cases.show(f"format, killed at each of its {count} calls of the system", (wrong, count > 10, len(seen)), (None, True, 3))


def shown(path, numbers):
    """The numbers of these that have a feature."""
    asked_for = b"".join(b"GET /features/%d HTTP/1.1\r\nhost: x\r\n\r\n" % number for number in numbers)
    statuses = re.findall(rb"HTTP/1\.1 (\d+)", vtserve(["pipe", path], asked_for)[1])
    return [number for number, status in zip(numbers, statuses) if status == b"200"]


def after_a_failed_sync(cases, folder):
    """A medium that is full fails a sync. What a new process acknowledges then is on the medium: it is there without the system's cache.

    The medium is a loop device over a file in memory that has less room than it says."""
    back, mounted = os.path.join(folder, "back"), os.path.join(folder, "mounted")
    os.mkdir(back)
    os.mkdir(mounted)
    image, filler, disk = os.path.join(back, "image"), os.path.join(back, "filler"), os.path.join(mounted, "disk")
    with contextlib.ExitStack() as undo:
        try:
            system("mount", "-t", "tmpfs", "-o", "size=8M", "tmpfs", back)
            undo.callback(system, "umount", "-l", back)
            system("truncate", "-s", "64M", image)
            loop = system("losetup", "-f", "--show", image)
            undo.callback(system, "losetup", "-d", loop)
            system("mkfs.ext4", "-q", "-O", "^has_journal", "-E", "lazy_itable_init=1,nodiscard", loop)
            system("mount", loop, mounted)
            undo.callback(system, "umount", mounted)
        except (OSError, subprocess.CalledProcessError):
            print("        no loop device can be mounted: no medium is made to fail")
            return
        publish = b"POST /publish HTTP/1.1\r\nhost: a\r\ncontent-length: 0\r\n\r\n"
        vtserve(["format", disk, "--sectors", "4096"])
        cases.show("four edits", vtserve(["pipe", disk], b"".join(put(number) for number in range(1, 5)))[1], b"".join(edit(number) for number in range(1, 5)))
        os.sync()
        with contextlib.suppress(OSError), open(filler, "wb", buffering=0) as file:
            while True:
                file.write(bytes(4096))
        out = vtserve(["pipe", disk], b"".join(put(number) for number in range(5, 65)) + publish + put(65))[1]
        told = b"".join(edit(number) for number in range(5, 65)) + error(b"Device") + error(b"Broken")
        cases.show("on a full medium edits are made, a publication is Device, and an edit after it Broken", out, told)
        os.remove(filler)
        numbers = [*range(1, 65), 100, 101]
        told = vtserve(["pipe", disk], put(100) + put(101))[1]
        cases.show("a new process acknowledges two edits", told.count(b'{"edit":'), 2)
        before = shown(disk, numbers)
        system("umount", mounted)
        system("mount", loop, mounted)
        cases.show("what it shows is on the medium", (shown(disk, numbers), {100, 101} <= set(before)), (before, True))
