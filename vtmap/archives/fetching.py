"""Archives of files and of servers. What a server sends is read into a file first. Needs no package."""
from __future__ import annotations

import contextlib
import http.client
import os
import shutil
import tempfile
from typing import IO, Iterator

from ..client.address import SCHEMES, shown
from ..client.client import Client, word
from ..faults import Fault, NoAnswer
from .reading import Archive

ARCHIVE, ENDING = "/map.pmtiles", ".pmtiles"
CHUNK = 1 << 20


def is_address(name: str) -> bool:
    """Whether it names a server, and no file."""
    return name.partition("://")[0] in SCHEMES and "://" in name


def client_of(name: str) -> tuple[Client, str]:
    """The server of an archive, and the path of the archive there. The address of a map is enough."""
    base, is_named, _ = name.partition("?")[0].rpartition("/") if name.endswith(ENDING) else (name, "", "")
    return Client(base), name[len(base):] if is_named else ARCHIVE


def tag_of(name: str) -> str | None:
    """What changes with each version of an archive: its entity tag, or a file's time and size. None if nobody tells."""
    if is_address(name):
        client, path = client_of(name)
        try:
            return client.tag(path)
        finally:
            client.close()
    about = os.stat(name)
    return f"{about.st_mtime_ns}-{about.st_size}"


def fetch(name: str, file: IO[bytes]) -> None:
    """Reads the archive of a server into a file."""
    client, path = client_of(name)
    try:
        connection = client.connect()
        connection.request("GET", client.url.path.rstrip("/") + path, b"", client.person)
        reply = connection.getresponse()
        if reply.status != 200:
            raise Fault(f"{shown(name)}: {reply.status} {word(reply.read())}")
        shutil.copyfileobj(reply, file, CHUNK)
        if reply.length:
            raise NoAnswer(f"{shown(name)}: the reply ended {reply.length:,} bytes early")
    except (OSError, http.client.HTTPException) as fault:
        raise NoAnswer(f"no reply of {shown(name)}: {fault}") from fault
    finally:
        client.close()


@contextlib.contextmanager
def opened(names: list[str], folder: str) -> Iterator[list[Archive]]:
    """The archives of files and addresses, open. What servers send is in files of a folder meanwhile."""
    with contextlib.ExitStack() as stack:
        found = []
        for name in names:
            path = name
            if is_address(name):
                path = os.path.join(stack.enter_context(tempfile.TemporaryDirectory(dir=folder)), "archive")
                with open(path, "wb") as file:
                    fetch(name, file)
            found.append(stack.enter_context(Archive(path, shown(name) if is_address(name) else None)))
        yield found
