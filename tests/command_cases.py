"""What the cases of `commands.py` share: the program as a process, calls of the system that fail, and a served port."""
import collections
import os
import re
import signal
import socket
import subprocess
import sys
import tempfile

HERE = os.path.dirname(os.path.abspath(__file__))
sys.path.append(os.path.join(HERE, "..", "model"))
# The model of disks, for cases that make one.
import disk as disks  # noqa: E402, F401
from command_streams import put  # noqa: E402

PROGRAM = os.path.abspath(sys.argv[1] if len(sys.argv) > 1 else os.path.join(HERE, "..", "crates", "vtserve", "out", "vtserve"))
ARCHIVE = 223
PUBLISH = b"POST /publish HTTP/1.1\r\nhost: x\r\n\r\n"
DOWNLOAD = b"GET /map.pmtiles HTTP/1.1\r\nhost: x\r\n\r\n"


def vtserve(words, requests=b"", **more):
    """The status, standard output and standard error of one process."""
    child = subprocess.run([PROGRAM, *words], input=requests, capture_output=True, timeout=60, **more)
    return child.returncode, child.stdout, child.stderr


def killed_after_its_reply(path, request, wanted):
    """What a process wrote that is killed as soon as it has written so many bytes, while its input stays open."""
    child = subprocess.Popen([PROGRAM, "pipe", path], stdin=subprocess.PIPE, stdout=subprocess.PIPE, stderr=subprocess.PIPE)
    child.stdin.write(request)
    child.stdin.flush()
    written = child.stdout.read(len(wanted))
    child.send_signal(signal.SIGKILL)
    rest, told = child.communicate(timeout=60)
    return child.returncode, written + rest, told


def content(path):
    """The bytes of a file, and when it was changed."""
    with open(path, "rb") as file:
        return file.read(), os.fstat(file.fileno()).st_mtime_ns


def write(path, held):
    with open(path, "wb") as file:
        file.write(held)


def remove(*paths):
    for path in paths:
        if os.path.exists(path):
            os.remove(path)


class Cases:
    """The cases so far, each printed as it is seen."""

    def __init__(self):
        self.differ = 0

    def show(self, name, found, wanted):
        if found == wanted:
            print(f"ok      {name}")
        else:
            self.differ += 1
            print(f"DIFFERS {name}: {found!r}, wanted {wanted!r}")


def refusal(name):
    """Status 1, nothing on standard output, and the fault's name on standard error."""
    return 1, b"", b"vtserve: %s\n" % name


def published(folder, name):
    """A disk on which the map of one point is published, and its archive as a connection gives it."""
    path = os.path.join(folder, name)
    vtserve(["format", path, "--sectors", "64"])
    vtserve(["pipe", path], put(7) + PUBLISH)
    return path, vtserve(["pipe", path], DOWNLOAD)[1].partition(b"\r\n\r\n")[2]


def system_call_fails(call, at, number, error="EIO"):
    """The words before a command that have its call of the system of this name and number fail, of those on the file or folder at a path.

    A number with a plus stands for that call and all later ones."""
    return ["strace", "-qq", "-o", os.devnull, "-P", at, "-e", f"trace={call}", "-e", f"inject={call}:error={error}:when={number}"]


def failing(call, at, number, words, requests=b"", error="EIO"):
    """What the program does where the call of the system of this name and number fails, of those on the file or folder at a path."""
    trace = system_call_fails(call, at, number, error)
    child = subprocess.run([*trace, PROGRAM, *words], input=requests, capture_output=True, timeout=60)
    return child.returncode, child.stdout, child.stderr


def calls_of(words, at):
    """The calls of the system that the program makes from the first one on that names a path: each by its name, and as which of this name it comes."""
    with tempfile.NamedTemporaryFile("r") as told:
        subprocess.run(["strace", "-qq", "-o", told.name, PROGRAM, *words], stdin=subprocess.DEVNULL, capture_output=True, timeout=60)
        counts, found, begun = collections.Counter(), [], False
        for line in told:
            name = line.partition("(")[0]
            counts[name] += 1
            begun = begun or at in line and name != "execve"
            if begun and re.fullmatch(r"\w+", name):
                found.append((name, counts[name]))
    return found


def killed_at_each_call(words, at, check):
    """Kills the program on entering each of these calls in turn, each in a process of its own: the number of calls, and what `check` finds wrong
    with the files behind one. `check` puts them back."""
    calls = calls_of(words, at)
    check()
    for name, number in calls:
        trace = ["strace", "-qq", "-o", os.devnull, "-e", f"trace={name}", "-e", f"inject={name}:signal=KILL:when={number}"]
        subprocess.run([*trace, PROGRAM, *words], stdin=subprocess.DEVNULL, capture_output=True, timeout=60)
        wrong = check()
        if wrong:
            return len(calls), f"{name} {number}: {wrong}"
    return len(calls), None


def failed_at_each_call(call, at, words, check, requests=b"", limit=1000):
    """Each call of this name on a file fails in turn, until a run meets none: how many there are, and what `check` finds wrong with an outcome. It
    answers None of a run that met none, and nothing of one that ended as it may."""
    for number in range(1, limit):
        outcome = failing(call, at, number, words, requests)
        wrong = check(outcome)
        if wrong is None:
            return number - 1, None
        if wrong:
            return number, wrong
    return limit, "it doesn't end"


def asked(at, calls, words, requests):
    """The calls of these names that the program asks on the file at a path, in order."""
    with tempfile.NamedTemporaryFile("r") as told:
        trace = ["strace", "-qq", "-o", told.name, "-P", at, "-e", f"trace={calls}"]
        subprocess.run([*trace, PROGRAM, *words], input=requests, capture_output=True, timeout=60)
        return re.findall(r"^(\w+)\(", told.read(), re.MULTILINE)


class Serving:
    """A process that serves so many connections of a port, under these words of another command."""

    def __init__(self, disk, connections, *more, under=()):
        with socket.socket() as free:
            free.bind(("127.0.0.1", 0))
            self.port = free.getsockname()[1]
        words = [*under, PROGRAM, "serve", disk, "--port", str(self.port), "--connections", str(connections), *more]
        self.child = subprocess.Popen(words, stdout=subprocess.PIPE, stderr=subprocess.PIPE)
        self.line = self.child.stdout.readline()

    def ask(self, requests, keeps_open=False):
        """What a peer reads that sends these bytes, and then no more."""
        with socket.create_connection(("127.0.0.1", self.port), timeout=60) as peer:
            peer.sendall(requests)
            if not keeps_open:
                peer.shutdown(socket.SHUT_WR)
            return b"".join(iter(lambda: peer.recv(65536), b""))

    def end(self):
        out, told = self.child.communicate(timeout=60)
        return self.child.returncode, out, told


def system(*words):
    """What a command of the system prints."""
    return subprocess.run(words, check=True, capture_output=True, text=True, timeout=60).stdout.strip()
