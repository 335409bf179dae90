"""HTTP of the front: which path is whose, what of a request is passed on, and what is refused as docs/nginx.conf
refuses it. Needs no package.

It is for one person on one machine: nothing is cached, compressed or limited, and whoever reaches the port may edit.
Requests for other names, and changes that a page of another origin asks for, are refused by the handler of the gateway,
which this one is made of. """
from __future__ import annotations

import http.client
import http.server
import json
import os
import re
from typing import Any, NamedTuple

from ..gateway.listener import EVENT_STREAM, HERE, MOST_BODY, PAUSE, READS, TEXT, Handler, Listener
from ..limits import GREATEST_ZOOM
from ..limits import MOST_BODY as MOST_OF_MAP

# What of a request vtserve gets, and the gateway; and what of a reply a client gets.
FIELDS_OF_MAP = ("content-type", "range", "if-range", "if-match", "if-none-match")
FIELDS_OF_GATEWAY = ("content-type", "accept-encoding", "if-none-match", "origin", "sec-fetch-site")
FIELDS_OF_REPLY = (
    "content-type",
    "content-length",
    "content-range",
    "content-encoding",
    "accept-ranges",
    "etag",
    "allow",
    "location",
    "content-disposition",
    "content-security-policy",
    "x-content-type-options",
    "cross-origin-resource-policy",
)
# Whose a path is. Edits are JSON: a page of another origin can make a browser send text or a form, but for JSON the
# browser asks first.
PUBLIC = re.compile(r"/map/.*|/map\.json|/map\.pmtiles")
OF_MAP = re.compile(r"/map/.*|/map\.pmtiles|/features/.*|/edits|/publish(/.*)?|/admin/.*")
OF_GATEWAY, OF_PICTURES = re.compile(r"/(wfs|ogc|files)(/.*)?"), re.compile(r"/wmts(/.*)?|/xyz/.*")
EDITS = re.compile(r"/edits|/admin/edits(/at/[0-9]+)?")
PAGE, START = re.compile(r"/pages/([A-Za-z0-9_][A-Za-z0-9_.-]*)?"), re.compile(r"/(pages)?")
# Where the page finds the schema of the map, and where the gateway has it.
SCHEMA, SCHEMA_OF_GATEWAY = "/pages/schema.json", "/ogc/schema.json"
KINDS = {
    ".html": "text/html; charset=utf-8",
    ".css": "text/css; charset=utf-8",
    ".js": "text/javascript; charset=utf-8",
    ".json": "application/json; charset=utf-8",
}
OTHER_KIND = "application/octet-stream"
POLICY = (
    "default-src 'self'; img-src 'self' data:; connect-src 'self'; style-src 'self' 'unsafe-inline'; "
    "frame-ancestors 'none'; base-uri 'none'; form-action 'self'"
)
OF_PAGES = [("Cache-Control", "no-cache"), ("Content-Security-Policy", POLICY), ("X-Content-Type-Options", "nosniff")]
OF_ALL = [
    ("Access-Control-Allow-Origin", "*"),
    ("Access-Control-Allow-Headers", "*"),
    ("Access-Control-Expose-Headers", "Content-Length, Content-Range, ETag"),
]
CHUNK, LONGEST = 1 << 16, 600


class Behind(NamedTuple):
    """What is behind a front: the ports of the server and of the gateway, the folder of the page, and the port of
    pictures, 0 without them."""

    map: int
    gateway: int
    pages: str
    pictures: int = 0


class FrontHandler(Handler):
    """One connection."""

    behind: Behind

    def answer(self) -> None:
        """Answers a request, or passes it on."""
        path = self.path.partition("?")[0]
        if self.command == "OPTIONS" and PUBLIC.fullmatch(path):
            self.head(204, OF_ALL)
        elif START.fullmatch(path) and self.command in READS:
            self.head(302, [("Location", "/pages/"), ("Content-Length", "0")])
        elif path == SCHEMA and self.command in READS:
            self.path = SCHEMA_OF_GATEWAY
            self.pass_on(self.behind.gateway, {"Host": HERE, **self.fields(("If-None-Match",))}, 0, [])
        elif PAGE.fullmatch(path):
            self.send_page(PAGE.fullmatch(path)[1] or "index.html")  # type: ignore[index]
        elif path == "/map.json":
            self.send_tilejson()
        elif EDITS.fullmatch(path) and self.headers.get_content_type() != "application/json":
            self.refuse(415, "application/json is needed")
        elif OF_MAP.fullmatch(path):
            self.pass_on(
                self.behind.map, self.fields(FIELDS_OF_MAP), MOST_OF_MAP, OF_ALL if PUBLIC.fullmatch(path) else []
            )
        elif OF_GATEWAY.fullmatch(path):
            self.pass_on(self.behind.gateway, self.fields_of_gateway(), MOST_BODY, [])
        elif OF_PICTURES.fullmatch(path) and self.behind.pictures:
            self.pass_on(self.behind.pictures, self.fields_of_gateway(), 0, OF_ALL)
        else:
            self.refuse(404, "NotFound")

    do_GET = do_HEAD = do_POST = do_PUT = do_DELETE = do_OPTIONS = do_PATCH = answer

    def fields(self, names: tuple[str, ...]) -> dict[str, str]:
        """Some of the fields of the request."""
        return {name: self.headers[name] for name in names if name in self.headers}

    def fields_of_gateway(self) -> dict[str, str]:
        """The fields that the gateway gets, with the address that the client has asked."""
        about = {
            "Host": HERE,
            "X-Forwarded-Host": self.headers.get("host", HERE),
            "X-Forwarded-Proto": "http",
            "X-Real-IP": self.client_address[0],
        }
        return {**self.fields(FIELDS_OF_GATEWAY), **about}

    def length(self) -> int | None:
        """The length of the body. Without a length there is no body; None if it is said in another way, or twice."""
        has_one = "content-length" in self.headers or "transfer-encoding" in self.headers
        return super().length() if has_one else 0

    # ---- replies

    def head(self, status: int, fields: list[tuple[str, str]]) -> None:
        """Sends the head of a reply."""
        self.connection.settimeout(PAUSE)
        closing = [("Connection", "close")] if self.close_connection else []
        phrase = http.client.responses.get(status, "")
        lines = [f"HTTP/1.1 {status} {phrase}", *(f"{name}: {value}" for name, value in [*fields, *closing]), "", ""]
        self.wfile.write("\r\n".join(lines).encode("iso-8859-1"))

    def send(self, status: int, data: bytes, fields: list[tuple[str, str]]) -> None:
        """Sends a reply that is known whole."""
        self.head(status, [("Content-Length", str(len(data))), *fields])
        if self.command != "HEAD":
            self.wfile.write(data)

    def send_page(self, name: str) -> None:
        """A file of the page."""
        if self.command not in ("GET", "HEAD"):
            self.refuse(405, "GET or HEAD is needed")
            return
        try:
            with open(os.path.join(self.behind.pages, name), "rb") as file:
                data = file.read()
        except OSError:
            self.refuse(404, "NotFound")
            return
        self.send(200, data, [("Content-Type", KINDS.get(os.path.splitext(name)[1], OTHER_KIND)), *OF_PAGES])

    def send_tilejson(self) -> None:
        """What a client needs to know of the tiles, as TileJSON."""
        try:
            status, _, data = self.asked(self.behind.map, "GET", "/map/metadata")
        except (OSError, http.client.HTTPException):
            self.refuse(502, "the map's server doesn't answer")
            return
        if status == 200:
            layers = json.loads(data)["vector_layers"]
            last = max((layer["maxzoom"] for layer in layers), default=GREATEST_ZOOM)
            tiles = f"http://{self.headers['host']}/map/{{z}}/{{x}}/{{y}}.mvt"
            data = json.dumps(
                {"tilejson": "3.0.0", "tiles": [tiles], "maxzoom": last, "vector_layers": layers}, separators=(",", ":")
            ).encode()
        self.send(
            status,
            data,
            [("Content-Type", "application/json" if status == 200 else TEXT), ("Cache-Control", "no-cache"), *OF_ALL],
        )

    @staticmethod
    def asked(port: int, method: str, path: str) -> tuple[int, Any, bytes]:
        """The status, the fields and the content of a reply."""
        connection = http.client.HTTPConnection(HERE, port, timeout=LONGEST)
        try:
            connection.request(method, path)
            reply = connection.getresponse()
            return reply.status, reply.headers, reply.read()
        finally:
            connection.close()

    def pass_on(self, port: int, fields: dict[str, str], most: int, more: list[tuple[str, str]]) -> None:
        """Passes a request on, and its reply back while it comes."""
        length = self.length()
        if length is None:
            self.refuse(411, "one Content-Length is needed")
            return
        if length > most:
            self.refuse(413, f"a body of at most {most:,} bytes is taken")
            return
        body = self.body(length)
        if body is None:
            self.refuse(408, "the body didn't come")
            return
        connection = http.client.HTTPConnection(HERE, port, timeout=LONGEST)
        try:
            connection.request(self.command, self.path, body or None, fields)
            reply = connection.getresponse()
        except (OSError, http.client.HTTPException):
            connection.close()
            self.refuse(502, "the map's server doesn't answer")
            return
        try:
            self.pass_back(reply, more)
        except (OSError, http.client.HTTPException):
            # The client has gone, or the server: a reply that has begun can't be another one.
            self.close_connection = True
        finally:
            connection.close()

    def pass_back(self, reply: http.client.HTTPResponse, more: list[tuple[str, str]]) -> None:
        """Passes a reply back."""
        caching = [("Cache-Control", "no-cache" if more else "no-store")]
        # A stream of events has no length, and each part of it is passed on as it comes.
        is_stream = reply.getheader("content-type") == EVENT_STREAM
        self.close_connection = self.close_connection or is_stream
        self.head(
            reply.status,
            [
                *((name, value) for name, value in reply.getheaders() if name.lower() in FIELDS_OF_REPLY),
                *caching,
                *more,
            ],
        )
        while self.command != "HEAD":
            part = reply.read1(CHUNK) if is_stream else reply.read(CHUNK)
            if not part:
                break
            self.wfile.write(part)
        if reply.length and self.command != "HEAD":
            raise http.client.IncompleteRead(b"", reply.length)


def front(port: int, behind: Behind) -> http.server.HTTPServer:
    """Listens on a port of this machine; 0: on a free one. Raises `OSError`."""
    return Listener((HERE, port), type("Here", (FrontHandler,), {"behind": behind}))
