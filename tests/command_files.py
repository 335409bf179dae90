"""Cases of `commands.py` about what a file is: opened and locked, lost while it is open, not a regular one, and on a file system that is full."""
import contextlib
import os
import shutil
import socket
import stat
import subprocess

from command_cases import ARCHIVE, PROGRAM, PUBLISH, asked, content, failing, published, refusal, system, vtserve
from command_streams import EMPTY, GET, TEXT, TILE, edit, error, put, reply

STATUS = b"GET /admin/status HTTP/1.1\r\nhost: x\r\n\r\n"
NO_LOCKS = b"vtserve: the file system has no locks: nothing keeps another process from this disk\n"


def opens(cases, folder):
    """A disk's file is opened once, locked, and read from its medium again; a fault on the way refuses it."""
    path = os.path.join(folder, "alone")
    vtserve(["format", path, "--sectors", "64"])
    link = os.path.join(folder, "link")
    os.symlink(path, link)
    cases.show("pipe of a link to a disk", vtserve(["pipe", link], GET), (0, EMPTY, b""))
    if not shutil.which("strace"):
        print("        no strace: what is asked at opening isn't seen")
        return
    calls = asked(path, "open,openat,flock,fdatasync,fsync,fadvise64", ["pipe", path], b"")
    cases.show("a disk is opened once, locked, synced and dropped from the cache", calls[:4], ["openat", "flock", "fdatasync", "fadvise64"])
    cases.show("it isn't opened again", calls.count("openat"), 1)
    for name in ["EOPNOTSUPP", "ENOSYS"]:
        cases.show(f"pipe where a lock is {name}", failing("flock", path, 1, ["pipe", path], GET, name), (0, EMPTY, NO_LOCKS))
    for name in ["EBADF", "EIO", "ENOLCK", "EAGAIN", "EINVAL"]:
        cases.show(f"pipe where a lock is {name}", failing("flock", path, 1, ["pipe", path], GET, name), refusal(b"File"))
    cases.show("pipe where it stays in the cache", failing("fadvise64", path, 1, ["pipe", path], GET), refusal(b"Device"))
    calls = asked(path, "statx,pwrite64,fdatasync", ["pipe", path, "--admin"], put(7) + 3 * STATUS)
    wanted = ["statx", "pwrite64", "fdatasync", "statx", "statx", "statx"]
    cases.show("an edit looks at the disk's path once, before its write; so does each status, which syncs nothing", calls[-6:], wanted)


def replace(path):
    """Another file gets the path of a file."""
    shutil.copy(path, path + ".other")
    os.replace(path + ".other", path)


def loses(cases, folder):
    """A disk file that is removed, replaced or cut while it is open takes no further edit, and reads go on."""
    ways = [("removed", os.remove), ("replaced", replace), ("cut", lambda path: os.truncate(path, 512 * 63))]
    for name, lose in ways:
        path = os.path.join(folder, name)
        vtserve(["format", path, "--sectors", "64"])
        child = subprocess.Popen([PROGRAM, "pipe", path], stdin=subprocess.PIPE, stdout=subprocess.PIPE, stderr=subprocess.PIPE)
        child.stdin.write(put(7))
        child.stdin.flush()
        first = child.stdout.read(len(edit(1)))
        lose(path)
        out, told = child.communicate(put(8) + PUBLISH + GET, timeout=60)
        wanted = edit(1) + error(b"Device") + error(b"Broken") + reply(TEXT, TILE)
        cases.show(f"PUT to a disk file that was {name}, a publication, a tile", first + out, wanted)
        cases.show("that is told", (child.returncode, told), (0, b"vtserve: Device: the disk file was %s\n" % name.encode()))
    cases.show("PUT to a disk file that wasn't", vtserve(["pipe", os.path.join(folder, "replaced")], put(8)), (0, edit(2), b""))


def unusual_files(folder):
    """Files that aren't regular ones, each with its name."""
    fifo, device, plug = (os.path.join(folder, name) for name in ["fifo", "device", "socket"])
    os.mkfifo(fifo)
    socket.socket(socket.AF_UNIX).bind(plug)
    found = [("a FIFO", fifo), ("a socket", plug)]
    try:
        os.mknod(device, stat.S_IFCHR | 0o666, os.makedev(1, 5))
        found.append(("a device", device))
    except PermissionError:
        print("        not root: no device is made")
    return found


def refuses_unusual_files(cases, folder):
    """What isn't a regular file is refused, and waited for by no command."""
    folder = os.path.join(folder, "unusual")
    os.mkdir(folder)
    disk, archive = published(folder, "disk")
    found = unusual_files(folder)
    for name, path in found:
        served = ["serve", path, "--port", "1", "--connections", "1"]
        for words in [["pipe", path], served, ["export", path, disk + "x"], ["show", path], ["verify", path]]:
            cases.show(f"{words[0]} of {name}", vtserve(words), refusal(b"File"))
            told = refusal(b"File: %s: not a regular file" % path.encode())
            cases.show(f"{words[0]} -v of {name}", vtserve([*words, "-v"]), told)
    for words in [["pipe", "/dev/zero"], ["show", "/dev/zero"], ["verify", "/dev/zero"], ["show", "/dev/null"]]:
        cases.show(" ".join(words), vtserve(words), refusal(b"File"))
    target = os.path.join(folder, "target")
    with open(target, "wb") as file:
        file.write(b"old")
    link, dangling = os.path.join(folder, "link"), os.path.join(folder, "dangling")
    os.symlink(target, link)
    os.symlink(os.path.join(folder, "none"), dangling)
    for name, path in [*found, ("a link", link), ("a link to nothing", dangling)]:
        before = os.lstat(path)
        cases.show(f"export onto {name}", vtserve(["export", disk, path]), refusal(b"File"))
        after = os.lstat(path)
        same = (after.st_mode, after.st_ino) == (before.st_mode, before.st_ino)
        cases.show("it is left as it is, with nothing beside", (same, os.path.exists(path + ".part")), (True, False))
    cases.show("what the link leads to is left as it is", content(target)[0], b"old")
    os.remove(target)
    for mode in [0o640, 0o600, 0o444, 0o666]:
        with open(target, "wb") as file:
            file.write(b"old")
        os.chmod(target, mode)
        cases.show(f"export onto a file of mode {mode:o}", vtserve(["export", disk, target], umask=0o022), (0, b"%d bytes\n" % ARCHIVE, b""))
        cases.show("the archive has that mode", (content(target)[0] == archive, stat.S_IMODE(os.stat(target).st_mode)), (True, mode))
    os.remove(target)
    vtserve(["export", disk, target], umask=0o027)
    cases.show("a new file has the mode of new files", stat.S_IMODE(os.stat(target).st_mode), 0o640)
    with open(target, "wb") as file:
        file.write(archive)
    cases.show("verify of a link to an archive", vtserve(["verify", link])[0], 0)


def small_file_systems(cases, folder):
    """What `-v` tells of a file system that is full, of one that isn't written, and of a folder in place of a disk."""
    small = os.path.join(folder, "small")
    disk, other = os.path.join(small, "disk"), os.path.join(small, "other")
    os.mkdir(small)
    source, _ = published(folder, "source")

    def told(word, path, cause):
        return refusal(word + b": " + path.encode() + b": " + cause)

    cases.show("format -v of a folder", vtserve(["format", small, "--sectors", "64", "-v"]), told(b"File", small, b"File exists (os error 17)"))
    for words in (["pipe", small], ["upgrade", small], ["export", small, other]):
        cases.show(f"{words[0]} -v of a folder", vtserve([*words, "-v"]), told(b"File", small, b"not a regular file"))
    try:
        system("mount", "-t", "tmpfs", "-o", "size=256k", "tmpfs", small)
    except (OSError, subprocess.CalledProcessError):
        print("        no tmpfs can be mounted: no file system is full")
        return
    try:
        cases.show("a small disk", vtserve(["format", disk, "--sectors", "64", "-v"]), (0, b"formatted 64 sectors\n", b""))
        full = told(b"Device", other, b"No space left on device (os error 28)")
        cases.show("format -v on a file system that is full", vtserve(["format", other, "--sectors", "4096", "-v"]), full)
        cases.show("it leaves no file", os.path.exists(other), False)
        with contextlib.suppress(OSError), open(os.path.join(small, "filler"), "wb", buffering=0) as file:
            while True:
                file.write(bytes(4096))
        full = told(b"File", other, b"No space left on device (os error 28)")
        for word in ("export", "copy"):
            cases.show(f"{word} -v on a file system that is full", vtserve([word, source, other, "-v"]), full)
            cases.show("it leaves no file", (os.path.exists(other), os.path.exists(other + ".part")), (False, False))
        system("mount", "-o", "remount,ro", small)
        cause = b"Read-only file system (os error 30)"
        cases.show("format -v on one that isn't written", vtserve(["format", other, "--sectors", "64", "-v"]), told(b"File", other, cause))
        for words in (["pipe", disk], ["upgrade", disk]):
            cases.show(f"{words[0]} -v on one that isn't written", vtserve([*words, "-v"]), told(b"File", disk, cause))
    finally:
        system("umount", "-l", small)
