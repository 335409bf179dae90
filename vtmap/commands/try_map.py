"""`vtmap try`: a map of a made-up town on this machine, with all that is around it, until Ctrl+C. Needs GDAL's Python module for the town."""
from __future__ import annotations

import argparse
import ctypes
import os
import shutil
import signal
import socket
import subprocess
import sys
import threading
import time
import webbrowser
from typing import IO, Any

from ..faults import Refused, Stopped
from ..front.handler import HERE, Behind, front
from ..interpreters import command_of, has, other
from ..systems import is_windows, signals_to_end

ABOUT = {"try": """Makes a map of a made-up town on this machine, and opens it in a browser: the page, the tiles, QGIS's gateway, all on one port.

    vtmap try
    vtmap try FOLDER --again

It makes the folder (vtmap-try) with a disk of 32 MiB for the map, starts the server `vtserve`, the gateway of `vtmap wfs` and, if pycairo is
installed, `vtmap wmts`, imports the town of examples/town.py, publishes it, and prints its address, which all commands take as --url or VTSERVE_URL.
Ctrl+C ends all of it; the map stays in the folder, and --again goes on with it. Reached is it from this machine alone, and everybody on it may edit.
For others run nginx (docs/DEPLOYING.md).

The server is crates/vtserve/out/vtserve of a clone, or `vtserve` of the PATH, or the one that --program names. The town needs GDAL's Python module
(Debian: `python3-gdal`); --empty begins without it."""}
FOLDER, DISK, SECTORS = "vtmap-try", "map.disk", 1 << 16
ABOVE = os.path.dirname(os.path.dirname(os.path.dirname(os.path.abspath(__file__))))
# Where the page, the town and the program are: in a clone, and in the package.
PAGES = [os.path.join(ABOVE, "web")]
TOWNS = [os.path.join(ABOVE, "examples", "town.py"), os.path.join(ABOVE, "..", "..", "share", "vtserve", "town.py")]
BUILT = os.path.join(ABOVE, "crates", "vtserve", "out", "vtserve")
WORDS_OF_TOWN = ("--layer-field", "layer", "--minzoom", "10", "--maxzoom", "16")
LINK = "look at it: "
# How often a server is started whose port somebody else has taken meanwhile, and the seconds for a start and for an end.
TRIES, START, END = 5, 60, 20
# prctl: the signal that a process gets when the one that started it ends.
PR_SET_PDEATHSIG = 1


class Ended(Exception):
    """Why it ends though nobody asked for that."""


def options(parser: argparse.ArgumentParser, _: str) -> None:
    """The words of the command."""
    parser.add_argument("folder", nargs="?", default=FOLDER, help=f"the folder of the map, which is made ({FOLDER})")
    parser.add_argument("--again", action="store_true", help="go on with the map of this folder")
    parser.add_argument("--port", type=int, default=0, help="the port of 127.0.0.1 (a free one)")
    parser.add_argument("--program", metavar="FILE", help="the program vtserve")
    parser.add_argument("--empty", action="store_true", help="begin with an empty map")
    parser.add_argument("--no-browser", action="store_true", help="open no browser")


def fault_of(words: argparse.Namespace) -> str | None:
    """What is wrong with the command line."""
    return None if 0 <= words.port < 1 << 16 else "--port is a number from 1 to 65535"


# ---- what it needs


def program_of(words: argparse.Namespace) -> str:
    """The path of the server."""
    if is_windows():
        raise Refused("the server runs on Linux alone: see the map of somebody who has one (docs/OFFICE.md, On Windows)")
    found = words.program or (BUILT if os.access(BUILT, os.X_OK) else shutil.which("vtserve"))
    if found is None:
        raise Refused("there is no program vtserve: build it (README.md), install the package, or name it by --program")
    try:
        told = subprocess.run([os.path.abspath(found), "--version"], stdin=subprocess.DEVNULL, capture_output=True, timeout=START, check=False).stdout
    except (OSError, subprocess.TimeoutExpired) as fault:
        raise Refused(f"{found} can't be run: {getattr(fault, 'strerror', fault)}") from fault
    if not told.startswith(b"vtserve "):
        raise Refused(f"{found} isn't the program vtserve")
    return os.path.abspath(found)


def first_of(paths: list[str], what: str) -> str:
    """The one of several files that is there."""
    for path in paths:
        if os.path.exists(path):
            return path
    raise Refused(f"{what} isn't here: run `vtmap` of a clone or of the package")


def see_folder(words: argparse.Namespace) -> None:
    """Refuses a folder that has something, or with --again no map."""
    folder = words.folder
    has_map = os.path.isfile(os.path.join(folder, DISK))
    if words.again and not has_map:
        raise Refused(f"{folder} has no map of `vtmap try`: leave out --again")
    if not words.again and os.path.lexists(folder) and not (os.path.isdir(folder) and not os.listdir(folder)):
        more = ": --again goes on with it, and another folder takes a new one" if has_map else ": name another folder"
        raise Refused(f"{folder} {'has a map already' if has_map else 'is there, and not empty'}{more}")


def see_town(words: argparse.Namespace) -> str | None:
    """The script of the town, if it is wanted. Sees that it can be imported."""
    if words.again or words.empty:
        return None
    if not (has("osgeo") or other("osgeo")):
        raise Refused("the town needs GDAL's Python module (Debian: python3-gdal): --empty begins without it")
    return first_of(TOWNS, "the town")


# ---- processes


def end_with_parent() -> None:
    """Has the kernel end this process with the one that started it, where the kernel can."""
    if sys.platform == "linux":
        ctypes.CDLL(None).prctl(PR_SET_PDEATHSIG, signal.SIGTERM)


def free_port() -> int:
    """A port of this machine that nobody has just now."""
    with socket.socket() as probe:
        probe.bind((HERE, 0))
        return probe.getsockname()[1]


def last_line(path: str) -> str:
    """The last line of a log."""
    with open(path, encoding="utf-8", errors="replace") as file:
        return (file.read().strip().splitlines() or ["it said nothing"])[-1]


class Children:
    """The processes of a try. Ctrl+C is for the first process alone, which ends them in the right order."""

    def __init__(self, folder: str) -> None:
        self.folder, self.running, self.logs = folder, {}, {}
        self.files: list[IO[bytes]] = []

    def start(self, name: str, line: list[str], environment: dict[str, str] | None = None) -> Any:
        """Starts one. What it prints goes into a log."""
        self.logs[name] = os.path.join(self.folder, name + ".log")
        file = open(self.logs[name], "wb")
        self.files.append(file)
        self.running[name] = subprocess.Popen(
            line, env=environment, stdin=subprocess.DEVNULL, stdout=file, stderr=file, start_new_session=True, preexec_fn=end_with_parent)
        return self.running[name]

    def run(self, name: str, line: list[str], environment: dict[str, str] | None = None) -> list[str]:
        """Runs one to its end. Returns the lines that it prints. Raises `Stopped` if it fails."""
        status = self.start(name, line, environment).wait()
        del self.running[name]
        with open(self.logs[name], encoding="utf-8", errors="replace") as file:
            lines = file.read().splitlines()
        if status:
            raise Stopped("\n".join([*lines, f"{name} ended with {status}"]))
        return lines

    def waits_for(self, name: str, said: str) -> bool:
        """Waits until one has said something. Returns whether it has, and hasn't ended."""
        end = time.monotonic() + START
        while self.running[name].poll() is None and time.monotonic() < end:
            with open(self.logs[name], encoding="utf-8", errors="replace") as file:
                if said in file.read():
                    return True
            time.sleep(0.05)
        return False

    def see(self) -> None:
        """Raises `Ended` if one has ended."""
        for name, child in self.running.items():
            if child.poll() is not None:
                raise Ended(f"{name} has ended with {child.returncode}: {last_line(self.logs[name])}")

    def end(self) -> None:
        """Ends them, the last one first: a gateway finishes what it saves while the server runs yet."""
        for child in reversed(list(self.running.values())):
            child.terminate()
            try:
                child.wait(END)
            except subprocess.TimeoutExpired:
                child.kill()
                child.wait()
        for file in self.files:
            file.close()


# ---- the try


class Try:
    """A map in a folder, and all that is around it."""

    def __init__(self, words: argparse.Namespace, program: str, town: str | None) -> None:
        self.words, self.program, self.town = words, program, town
        self.folder, self.children = words.folder, Children(words.folder)
        self.front: Any = None

    def path(self, name: str) -> str:
        """The path of a file of the folder."""
        return os.path.join(self.folder, name)

    def vtmap(self, name: str, *words: str) -> list[str]:
        """Runs a command of `vtmap` at the map."""
        return self.children.run(name, *command_of([*words, "--url", self.address()]))

    def address(self) -> str:
        """The address of the front."""
        return f"http://{HERE}:{self.front.server_address[1]}"

    def begin(self) -> str:
        """Starts all of it. Returns the address of the page, where the map is."""
        os.makedirs(self.folder, exist_ok=True)
        if not self.words.again:
            self.children.run("format", [self.program, "format", self.path(DISK), "--sectors", f"{SECTORS}"])
        port = self.serve()
        gateway, pictures = free_port(), free_port() if has("cairo") or other("cairo") else 0
        try:
            self.front = front(self.words.port, Behind(port, gateway, first_of(PAGES, "the page"), pictures))
        except OSError as fault:
            raise Refused(f"port {self.words.port} of {HERE} can't be opened: {fault.strerror}") from fault
        threading.Thread(target=self.front.serve_forever, daemon=True).start()
        link = self.fill() if self.town else self.address() + "/pages/"
        log = self.path("edits.jsonl")
        self.children.start("log", *command_of(["follow", "--log", log, "--url", f"http://{HERE}:{port}"]))
        state = ["--state", self.path("wfs.state"), "--log", self.path("edits.log"), "--behind-nginx", "--schema", self.path("schema.json")]
        state += ["--files", self.path("files"), "--history", log]
        line, environment = command_of(["wfs", "--port", f"{gateway}", *state, "--url", f"http://{HERE}:{port}"])
        self.children.start("wfs", line, environment)
        if not self.children.waits_for("wfs", "/wfs"):
            raise Ended(f"the gateway doesn't start: {last_line(self.path('wfs.log'))}")
        if pictures:
            style = os.path.join(first_of(PAGES, "the page"), "style.json")
            self.children.start("wmts", *command_of(["wmts", "--port", f"{pictures}", "--style", style, "--behind-nginx", "--url", f"http://{HERE}:{port}"]))
            if not self.children.waits_for("wmts", "/wmts"):
                raise Ended(f"what draws doesn't start: {last_line(self.path('wmts.log'))}")
        return link

    def serve(self) -> int:
        """Starts the server on a free port, which somebody else may take before it does. Returns the port."""
        for _ in range(TRIES):
            port = free_port()
            words = ["serve", self.path(DISK), "--port", f"{port}", "--connections", "4294967295", "--admin", "--etags"]
            self.children.start("map", [self.program, *words])
            if self.children.waits_for("map", f"serving on {HERE}:{port}"):
                return port
        raise Ended(f"the server doesn't start: {last_line(self.path('map.log'))}")

    def fill(self) -> str:
        """Imports the town, and publishes it. Returns the address of the page, where it is."""
        path = self.path("town.geojson")
        with open(path, "w", encoding="utf-8", newline="\n") as file:
            file.write("\n".join(self.children.run("town", [sys.executable, self.town or ""])) + "\n")
        lines = self.vtmap("import", "import", path, *WORDS_OF_TOWN)
        self.vtmap("publish", "publish")
        return next((line[len(LINK):] for line in lines if line.startswith(LINK)), self.address() + "/pages/")

    def end(self) -> None:
        """Ends all of it."""
        if self.front:
            self.front.shutdown()
            self.front.server_close()
        self.children.end()


def shows_pages() -> bool:
    """Whether a browser can be opened here: one in a terminal would take that."""
    return sys.platform != "linux" or bool(os.environ.get("DISPLAY") or os.environ.get("WAYLAND_DISPLAY"))


def tell(one: Try, link: str) -> None:
    """Says where the map is, and opens the page."""
    print(f"""the map: {link}
QGIS:    {one.address()}/wfs
vtmap:   VTSERVE_URL={one.address()}
Ctrl+C ends it. The map stays in {one.folder}: `vtmap try {one.folder} --again` goes on with it""", flush=True)
    if not one.words.no_browser and shows_pages():
        webbrowser.open(link)


def interrupt(*_: Any) -> None:
    """Ends what is being done, once."""
    for number in signals_to_end():
        signal.signal(number, signal.SIG_IGN)
    raise KeyboardInterrupt


def work(words: argparse.Namespace) -> int:
    """Serves until it is interrupted."""
    program = program_of(words)
    see_folder(words)
    one = Try(words, program, see_town(words))
    for number in signals_to_end():
        signal.signal(number, interrupt)
    try:
        tell(one, one.begin())
        while True:
            one.children.see()
            time.sleep(0.2)
    except KeyboardInterrupt:
        return 0
    except Ended as fault:
        print(fault, file=sys.stderr)
        return 1
    finally:
        one.end()
        print("all of it has ended", flush=True)
