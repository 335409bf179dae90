"""`vtmap serve-at`: shows the maps of earlier times in the page, each by a vtserve on a disk that is made for it. Needs
no package."""
from __future__ import annotations

import argparse
import signal
import subprocess
import sys
from datetime import datetime

from ..faults import Refused, Stopped
from ..front.past import TRIES, Maps, front_of_past
from .at import Trail, base_of, fault_of as fault_of_base, options_of_base, options_of_log, past_of, when
from .try_map import HERE, PAGES, end_with_parent, first_of, free_port, program_of

ABOUT = {
    "serve-at": """Shows the maps of earlier times in the page: one address for all of them.

    vtmap serve-at --log edits.jsonl

The page shows the map of a time by http://127.0.0.1:8092/pages/?at=2026-11-24, and behind nginx (docs/nginx.conf) by
/pages/?at=2026-11-24 of the map's own address. Times, and the words that name the log and where to begin, are those of
`vtmap at`.

The map of a time is made when it is asked for first: a disk in the folder of temporary files with the features of then,
and a vtserve that serves it. The last --most of them are kept, and nothing of them can be changed through this port. It
listens on 127.0.0.1 alone. Ctrl+C, or SIGTERM, ends all of them and removes their disks.

The server is crates/vtserve/out/vtserve of a clone, or `vtserve` of the PATH, or the one that --program names."""
}


def options(parser: argparse.ArgumentParser, _: str) -> None:
    """The words of the command."""
    options_of_log(parser)
    options_of_base(parser)
    parser.add_argument("--port", type=int, default=8092, help="the port of 127.0.0.1 (8092)")
    parser.add_argument("--most", type=int, default=3, metavar="N", help="how many maps are kept at once, 1 to 100 (3)")
    parser.add_argument("--program", metavar="FILE", help="the program vtserve")


def fault_of(words: argparse.Namespace) -> str | None:
    """What is wrong with the command line."""
    if not 0 < words.port < 1 << 16:
        return "--port is a number from 1 to 65535"
    return fault_of_base(words) if 1 <= words.most <= 100 else "--most is a number from 1 to 100"


def start(line: list[str]) -> tuple[subprocess.Popen[bytes], int]:
    """Starts a server on a free port, which somebody else may take before it does. Returns its process and its port."""
    for _ in range(TRIES):
        port = free_port()
        words = [*line, "--port", f"{port}"]
        child = subprocess.Popen(
            words,
            stdin=subprocess.DEVNULL,
            stdout=subprocess.PIPE,
            stderr=subprocess.DEVNULL,
            start_new_session=True,
            preexec_fn=end_with_parent,
        )
        assert child.stdout
        if child.stdout.readline().startswith(b"serving on "):
            return child, port
        child.wait()
    raise Stopped("the server of an earlier map doesn't start")


def maps_of(words: argparse.Namespace) -> Maps:
    """The maps that may be asked for."""

    def find(text: str) -> tuple[int, datetime | None]:
        try:
            wanted = when(text)
        except argparse.ArgumentTypeError as fault:
            raise Refused(f"{fault}") from fault
        base = base_of(words) if words.save or words.disk else None
        return Trail(words, wanted, base).number(wanted, base), wanted.time

    return Maps(program_of(words), words.most, find, lambda edit: past_of(words, when(f"{edit}")).features, start)


def work(words: argparse.Namespace) -> int:
    """Serves until it is ended."""
    pages, maps = first_of(PAGES, "the page"), maps_of(words)
    try:
        server = front_of_past(words.port, pages, maps)
    except OSError as fault:
        raise Refused(f"port {words.port} of {HERE} can't be opened: {fault.strerror}") from fault
    signal.signal(signal.SIGTERM, lambda *_: sys.exit(0))
    print(f"http://{HERE}:{words.port}/pages/?at=", flush=True)
    try:
        server.serve_forever()
    except KeyboardInterrupt:
        pass
    finally:
        maps.end()
    return 0
