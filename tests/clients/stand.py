"""What the parts of tests/clients/run.py share: a server, nginx in front of it, curl, and the cases that were seen."""
import json
import os
import shutil
import signal
import socket
import struct
import subprocess
import sys
import time
from collections.abc import Iterable
from typing import Any, Optional, Union

# The first line of a reply, its fields in their order, and its content; what is expected of one, by its status.
Reply = tuple[str, list[tuple[str, str]], bytes]
Expected = tuple[int, list[tuple[str, str]], bytes]

HERE = os.path.dirname(os.path.abspath(__file__))
TOP = os.path.join(HERE, "..", "..")
PROGRAM = os.path.abspath(
    sys.argv[1] if len(sys.argv) > 1 else os.path.join(TOP, "crates", "vtserve", "out", "vtserve")
)
EXAMPLES = os.path.join(TOP, "examples")
VTMAP = [sys.executable, os.path.join(TOP, "bin", "vtmap")]
SYSTEM_PYTHON = "/usr/bin/python3"
TILE = "1a130a017012090807180122030900002880207802"
SHOWN = '{"geometry":{"points":[[0,0]]},"layer":"p","maxzoom":2,"minzoom":0,"tags":{}}'
METADATA = '{"vector_layers":[{"fields":{},"id":"p","maxzoom":2,"minzoom":0}]}'
ROOT = bytes.fromhex("020005020115150101")
JSON, TEXT, MVT, BYTES = (
    "application/json",
    "text/plain",
    "application/vnd.mapbox-vector-tile",
    "application/octet-stream",
)
PHRASES = {
    200: "OK",
    204: "No Content",
    206: "Partial Content",
    304: "Not Modified",
    400: "Bad Request",
    404: "Not Found",
    405: "Method Not Allowed",
    409: "Conflict",
    412: "Precondition Failed",
    413: None,
    416: None,
    417: "Expectation Failed",
    501: "Not Implemented",
    503: "Service Unavailable",
    507: "Insufficient Storage",
}
HALF = 20037508.342789244


def feature(
    layer: str = "p", first: int = 0, last: int = 2, geometry: Optional[dict] = None, tags: Optional[dict] = None
) -> str:
    """The body of a PUT."""
    return json.dumps(
        {
            "layer": layer,
            "minzoom": first,
            "maxzoom": last,
            "geometry": geometry or {"points": [[0, 0]]},
            "tags": tags or {},
        }
    )


def archive() -> bytes:
    """The archive of the map with the worked point alone: three tiles of one content, by FORMATS.md and the standard
    of PMTiles 3."""
    metadata, tile = METADATA.encode(), bytes.fromhex(TILE)
    at = [127, 127 + len(ROOT), 127 + len(ROOT) + len(metadata)]
    places = [at[0], len(ROOT), at[1], len(metadata), at[2], 0, at[2], len(tile)]
    world = [-1800000000, -850511287, 1800000000, 850511287]
    head = b"PMTiles\x03" + struct.pack("<11Q6B4iB2i", *places, 3, 2, 1, 1, 1, 1, 1, 0, 2, *world, 0, 0, 0)
    return head + ROOT + metadata + tile


class Cases:
    """The cases so far, each printed as it is seen."""

    def __init__(self) -> None:
        self.seen = 0
        self.differ = 0

    def show(self, name: str, found: object, wanted: object) -> None:
        self.seen += 1
        if found == wanted:
            print(f"ok      {name}", flush=True)
        else:
            self.differ += 1
            print(f"DIFFERS {name}: {found!r}, wanted {wanted!r}", flush=True)

    def say(self, text: str) -> None:
        print(f"        {text}", flush=True)


def free_port() -> int:
    """A port that nobody listens on."""
    with socket.socket() as probe:
        probe.bind(("127.0.0.1", 0))
        return probe.getsockname()[1]


class Server:
    """A process of `serve`, on a disk that is made for it if there is none."""

    def __init__(
        self,
        folder: str,
        name: str,
        sectors: int = 4096,
        connections: int = 4294967295,
        port: Optional[int] = None,
        more: Iterable[str] = ("--admin",),
        log: Optional[str] = None,
        under: Iterable[str] = (),
    ) -> None:
        self.disk = os.path.join(folder, name)
        if not os.path.exists(self.disk):
            subprocess.run(
                [PROGRAM, "format", self.disk, "--sectors", str(sectors)], check=True, stdout=subprocess.DEVNULL
            )
        self.port = port or free_port()
        self.url = f"http://127.0.0.1:{self.port}"
        self.log = open(log or self.disk + ".log", "w+b")
        self.words = [
            *under,
            PROGRAM,
            "serve",
            self.disk,
            "--port",
            str(self.port),
            "--connections",
            str(connections),
            *more,
        ]
        self.start()

    def start(self) -> None:
        """Starts the process, and waits until it listens."""
        self.child = subprocess.Popen(self.words, stdout=subprocess.PIPE, stderr=self.log)
        self.told = self.child.stdout.readline().decode()

    def restart(self) -> None:
        """Ends the process, and starts it again on the same disk and port: its feed lists no published edit then."""
        self.end()
        self.child.stdout.close()
        self.start()

    def lines(self) -> list[str]:
        """The lines on standard error so far."""
        self.log.seek(0)
        return self.log.read().decode().splitlines()

    def end(self, by: int = signal.SIGTERM) -> int:
        """Ends it, and gives its status."""
        self.child.send_signal(by)
        return self.child.wait(60)

    def __enter__(self) -> "Server":
        return self

    def __exit__(self, *fault: object) -> None:
        if self.child.poll() is None:
            self.end(signal.SIGKILL)
        self.child.stdout.close()
        self.log.close()


def parsed(reply: bytes) -> Reply:
    """The first line, the fields in their order and the content of a reply."""
    head, _, content = reply.partition(b"\r\n\r\n")
    first, *fields = head.decode().split("\r\n")
    pairs = (field.partition(": ") for field in fields)
    return first, [(name, value) for name, _, value in pairs], content


def curl(url: str, *words: str, body: Optional[str] = None) -> Reply:
    """What curl reads: the first line, the fields and the content."""
    if body is not None:
        words = (*words, "--data-binary", "@-")
    child = subprocess.run(
        ["curl", "--silent", "--include", "--max-time", "120", *words, url],
        input=body and body.encode(),
        capture_output=True,
    )
    return parsed(child.stdout) if child.returncode == 0 else (f"curl ended with {child.returncode}", [], b"")


def status_of(reply: Reply) -> Union[int, str]:
    """The number of a reply's status, or what was read instead."""
    return int(reply[0].split()[1]) if reply[0].startswith("HTTP/1.") else reply[0]


def wanted(
    status: int,
    kind: Optional[str] = None,
    content: Union[str, bytes] = "",
    closes: bool = False,
    more: Iterable[tuple[str, str]] = (),
) -> Expected:
    """The reply that HTTP.md promises, its fields in their order."""
    content = content if isinstance(content, bytes) else content.encode()
    fields = [("content-type", kind)] if kind else []
    fields += more
    fields += [("content-length", str(len(content)))] if status not in (204, 304) else []
    fields += [("connection", "close")] if closes else []
    return status, fields, content


def same(cases: Cases, name: str, reply: Reply, expected: Expected) -> None:
    """Shows a reply beside the one that is wanted, and its phrase where HTTP has one."""
    status, fields, content = expected
    phrase = PHRASES[status]
    line = f"HTTP/1.1 {status} {phrase}" if phrase else " ".join(["HTTP/1.1", str(status), *reply[0].split()[2:]])
    cases.show(name, reply, (line, fields, content))


def refusal(status: int, word: str, closes: bool = False, more: Iterable[tuple[str, str]] = ()) -> Expected:
    """A refusal: its word and a line feed."""
    return wanted(status, TEXT, word + "\n", closes, more)


class Nginx:
    """nginx with the kept configuration, but for its ports and further changes, in front of a server. `unit`: the
    umask and the user of the workers, whose group its folder has then, and nobody else may enter it."""

    def __init__(
        self,
        program: str,
        folder: str,
        server: Any,
        changes: Iterable[tuple[str, str]] = (),
        unit: Optional[tuple[int, Optional[str]]] = None,
    ) -> None:
        self.folder = os.path.join(folder, "nginx")
        os.mkdir(self.folder)
        mask, user = unit or (-1, None)
        if user:
            shutil.chown(self.folder, group=user)
            os.chmod(self.folder, 0o750)
        self.port = free_port()
        self.url = f"http://127.0.0.1:{self.port}"
        with open(os.path.join(TOP, "docs", "nginx.conf"), encoding="utf-8") as file:
            kept = file.read()
        used = kept.replace("server 127.0.0.1:8080;", f"server 127.0.0.1:{server.port};").replace(
            "listen 8000", f"listen 127.0.0.1:{self.port}"
        )
        used = used.replace("listen [::]:8000", f"listen [::1]:{self.port}").replace(
            "127.0.0.1:8001;", f"127.0.0.1:{free_port()};"
        )
        for before, after in changes:
            used = used.replace(before, after)
        path = os.path.join(self.folder, "used.conf")
        with open(path, "w", encoding="utf-8") as made:
            made.write(used)
        words = [program, "-p", self.folder, "-c", path, "-g", "daemon off;" + (f" user {user};" if user else "")]
        self.child = subprocess.Popen(words, stdout=subprocess.DEVNULL, stderr=subprocess.PIPE, umask=mask)
        for _ in range(100):
            with socket.socket() as probe:
                if probe.connect_ex(("127.0.0.1", self.port)) == 0:
                    return
            time.sleep(0.1)

    def errors(self) -> list[str]:
        """The lines of its log of errors."""
        with open(os.path.join(self.folder, "error.log"), encoding="utf-8") as file:
            return file.read().splitlines()

    def __enter__(self) -> "Nginx":
        return self

    def __exit__(self, *fault: object) -> None:
        self.child.terminate()
        self.child.communicate(timeout=60)


def field(reply: Reply, name: str) -> Optional[str]:
    """The value of a field of a reply."""
    return next((value for key, value in reply[1] if key.lower() == name), None)
