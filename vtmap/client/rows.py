"""A connection on which requests are sent before the replies to those before them have come. Needs no package."""
from __future__ import annotations

import http.client
import select
import socket
from collections import deque
from collections.abc import Iterable
from typing import NamedTuple, Optional

# How many requests that change something may wait for their replies.
WINDOW = 32
# The most bytes of the head of a reply, and how many are read at once.
MOST_HEAD, PIECE = 1 << 16, 1 << 16
# Statuses of replies without a content.
NO_CONTENT = (204, 304)


class Request(NamedTuple):
    """A request: its method, its path with that of the server's address, and its body, which is JSON."""

    method: str
    path: str
    body: bytes = b""


class Reply(NamedTuple):
    """A reply, and whether the server says that it ends the connection behind it."""

    status: int
    content: bytes
    is_last: bool


class Row:
    """The requests of a connection, and the replies that have come. `fields`: the header fields of each request."""

    def __init__(self, connection: socket.socket, host: str, fields: dict[str, str]) -> None:
        self.connection, self.read = connection, bytearray()
        self.owed: deque[Request] = deque()
        lines = [f"Host: {host}"] + [f"{name}: {value}" for name, value in fields.items()]
        self.fields = "\r\n".join(lines) + "\r\n"

    def fileno(self) -> int:
        """What `select` waits for."""
        return self.connection.fileno()

    def send(self, requests: Iterable[Request]) -> None:
        """Sends requests, together."""
        together = list(requests)
        self.owed.extend(together)
        self.connection.sendall(b"".join(map(self.text, together)))

    def text(self, request: Request) -> bytes:
        """A request as it is sent."""
        about = f"Content-Type: application/json\r\nContent-Length: {len(request.body)}\r\n" if request.method != "GET" else ""
        return f"{request.method} {request.path} HTTP/1.1\r\n{self.fields}{about}\r\n".encode("latin-1") + request.body

    def replies(self) -> list[tuple[Request, Reply]]:
        """Reads what is there, and waits if nothing is. Returns the replies that are whole then, each with its request."""
        piece, pending = self.connection.recv(PIECE), getattr(self.connection, "pending", None)
        while pending and pending():
            # What TLS has decoded already: `select` doesn't know of it.
            piece += self.connection.recv(PIECE)
        if not piece:
            raise http.client.RemoteDisconnected("it has ended the connection")
        self.read += piece
        found, begin = [], 0
        while self.owed and (reply := reply_in(self.read, begin)):
            begin, one = reply
            found.append((self.owed.popleft(), one))
        del self.read[:begin]
        return found


def readable(rows: list[Row], seconds: float) -> list[Row]:
    """Those of some connections on which something has come, once it has, or after so many seconds. `select` doesn't know files above 1,023."""
    if not hasattr(select, "poll"):
        return select.select(rows, [], [], seconds)[0]
    poll = select.poll()
    for row in rows:
        poll.register(row, select.POLLIN)
    found = {file for file, _ in poll.poll(seconds * 1000)}
    return [row for row in rows if row.fileno() in found]


def reply_in(read: bytearray, begin: int) -> Optional[tuple[int, Reply]]:
    """The reply that begins at a place of what was read, and the place behind it; None while it isn't whole."""
    end = read.find(b"\r\n\r\n", begin)
    if end < 0:
        if len(read) - begin > MOST_HEAD:
            raise http.client.HTTPException("a reply has no end of its head")
        return None
    first, *lines = bytes(read[begin:end]).lower().split(b"\r\n")
    fields = {name: value.strip() for name, _, value in (line.partition(b":") for line in lines)}
    is_last = fields.get(b"connection") == b"close"
    try:
        status = int(first.split()[1])
        if fields.get(b"transfer-encoding") == b"chunked":
            chunks = in_chunks(read, end + 4)
            return chunks and (chunks[0], Reply(status, chunks[1], is_last))
        behind = end + 4 + (0 if status in NO_CONTENT else int(fields[b"content-length"]))
    except (LookupError, ValueError):
        raise http.client.HTTPException(f"it isn't a reply that was asked for: {first[:60]!r}") from None
    return (behind, Reply(status, bytes(read[end + 4:behind]), is_last)) if len(read) >= behind else None


def in_chunks(read: bytearray, begin: int) -> Optional[tuple[int, bytes]]:
    """The place behind a content in chunks that begins at a place, and the content; None while it isn't whole. Proxies send such."""
    content = b""
    while (end := read.find(b"\r\n", begin)) >= 0:
        size = int(read[begin:end].split(b";")[0], 16)
        if size == 0:
            last = read.find(b"\r\n\r\n", end)
            return (last + 4, content) if last >= 0 else None
        begin = end + 2 + size + 2
        if len(read) < begin:
            break
        content += bytes(read[end + 2:begin - 2])
    return None
