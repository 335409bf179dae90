"""HTTP for the gateway: paths, addresses, origins, sizes, times, and a reply for each fault. Needs no package."""
from __future__ import annotations

import gzip
import hashlib
import http
import json
import re
import socket
import sys
import threading
import time
import traceback
import urllib.parse
from collections.abc import Callable, Iterable
from http.server import BaseHTTPRequestHandler, ThreadingHTTPServer
from typing import Any

from ..faults import Fault, NoAnswer, Refused, Stopped
from ..files import map_schema
from ..shown import shown, shown_lines
from ..systems import is_windows
from . import file_paths, wfs_texts
from .far_replies import Spool, Spooled
from .file_paths import FILES
from .ogc_api import Unknown
from .ogc_texts import JSON

WFS, OGC = "/wfs", "/ogc"
# Where the history of a feature is, behind what nginx lets only those ask who edit: it has the names of people.
HISTORY = re.compile("/wfs/history/([0-9]{1,19})")
# Where the schema is read, and where it gets more.
SCHEMAS, SCHEMA = ("/wfs/schema.json", "/ogc/schema.json"), "/wfs/schema.json"
# Where open pages are told of edits, and after how many seconds without one they are told that nothing has happened.
# How often they are told at most.
EVENTS, HEARTBEAT, SELDOM = "/wfs/events", 15, 0.2
# The methods of what is only read.
READ = "GET, HEAD, OPTIONS"
XML, TEXT, EVENT_STREAM = "text/xml; charset=utf-8", "text/plain; charset=utf-8", "text/event-stream"
# The media types of a Transaction and of a schema, and the methods that change nothing.
KINDS_OF_XML, KINDS_OF_JSON, READS = (
    ("text/xml", "application/xml", "application/gml+xml"),
    ("application/json",),
    ("GET", "HEAD", "OPTIONS"),
)
HERE = "127.0.0.1"
# The names by which a client, or the proxy in front, reaches this. A web page could rebind its own name to this
# address, and edit the map.
HOSTS = re.compile(r"(127\.0\.0\.1|localhost|\[::1\])(:[0-9]+)?", re.IGNORECASE)
# What a browser may do with a reply: show it as what it says that it is, run nothing of it, and show it in no other
# page.
SAFETY = [
    ("X-Content-Type-Options", "nosniff"),
    ("Content-Security-Policy", "default-src 'none'; frame-ancestors 'none'; sandbox"),
]
# The most bytes of a Transaction, of all bodies at once, and those from which on a reply is compressed.
MOST_BODY, MOST_BODIES, LEAST_GZIP = 32 * 2**20, 256 * 2**20, 2000
# Seconds after which a connection without a request is closed, and one that stops in the middle of a request or takes
# nothing of its reply; the bytes of a second that a body or a reply takes at least beside these; and the seconds for
# which what a refused client sends yet is read.
IDLE, PAUSE, SLOWEST, LINGER = 300, 30, 64 * 2**10, 2
# The bytes of a file that are sent at once.
CHUNK = 2**17
# A field of a reply, and those of one.
Field = tuple[str, Any]
Fields = list[Field]


class Handler(BaseHTTPRequestHandler):
    """One connection. `maps` has the maps, `map` is the one that a request is for, and `prefix` what its path has
    before that of the map. `is_behind_nginx`: whether nginx says who sends a request. `is_public`: whether pages of
    other origins may read."""

    protocol_version = "HTTP/1.1"
    disable_nagle_algorithm = True
    timeout = IDLE
    server: Listener
    maps: Any = None
    map: Any = None
    prefix = ""
    is_behind_nginx = is_public = False

    def log_message(self, *words: Any) -> None:
        """Prints nothing: what was saved is printed elsewhere."""

    def handle_one_request(self) -> None:
        """Waits for a request, and answers it."""
        self.connection.settimeout(IDLE)
        try:
            super().handle_one_request()
        finally:
            if self.map is not None:
                self.maps.leave(self.map)
                self.map = None

    def parse_request(self) -> bool:
        """Reads the head of a request. Returns whether it is to be answered."""
        self.connection.settimeout(PAUSE)
        if not super().parse_request():
            return False
        if not HOSTS.fullmatch(self.headers.get("host", "")):
            self.refuse(421, "reach it as 127.0.0.1 or localhost, or through a proxy that does")
        elif self.is_foreign():
            self.refuse(403, "a page of another origin asks for a change")
        else:
            return self.maps is None or self.find_map()
        return False

    def find_map(self) -> bool:
        """Finds the map that a request is for, and takes its name off the path. Returns whether there is one."""
        named = self.headers.get("x-map") if self.is_behind_nginx else None
        try:
            self.map, self.prefix = self.maps.entered(self.path, named)
        except Refused as fault:
            self.refuse(503, str(fault))
            return False
        if self.map is None:
            self.refuse(404, "NotFound")
            return False
        self.path = self.path.removeprefix(self.prefix)
        return True

    def is_foreign(self) -> bool:
        """Whether a page of another origin asks for a change. A browser names the origin of the page with such a
        request, other programs name none. The scheme isn't compared: a proxy may take https and pass on http. No page
        can send X-Forwarded-Host without the browser asking first."""
        return self.command not in READS and self.is_of_other(self.headers.get_all("origin", []))

    def is_of_other(self, origins: list[str]) -> bool:
        """Whether one of these is another origin."""
        here = self.headers.get("x-forwarded-host", self.headers.get("host")).lower()
        return any(origin.lower() not in ("", f"http://{here}", f"https://{here}") for origin in origins)

    def handle_expect_100(self) -> bool:
        """Says nothing yet: a body is asked for once it is known that it is taken."""
        return True

    def do_GET(self) -> None:
        """Answers WFS and OGC API Features."""
        path, _, query = self.path.partition("?")
        given = dict(urllib.parse.parse_qsl(query, keep_blank_values=True))
        if path in SCHEMAS:
            self.answer_schema()
            return
        if number := HISTORY.fullmatch(path):
            self.answer_history(int(number[1]))
            return
        if path == EVENTS:
            self.answer_events()
            return
        if path.startswith(FILES):
            file_paths.answer(self, self.map.files, path, SAFETY)
            return
        if path == OGC or path.startswith(OGC + "/"):
            self.answer_ogc(path.removeprefix(OGC), given)
            return
        session = session_in(path)
        if session is None:
            self.reply(404, b"NotFound", TEXT)
            return
        given = {name.lower(): value for name, value in given.items()}
        self.answer_wfs(
            wfs_texts.chosen(given.get("version", wfs_texts.V2.name)),
            "InvalidParameterValue",
            lambda: self.map.wfs.answer(session, given, self.address(WFS)),
        )

    do_HEAD = do_GET

    def do_POST(self) -> None:
        """Makes a Transaction, or adds to the schema."""
        path, _, query = self.path.partition("?")
        if path == FILES:
            file_paths.take(self, self.map.files, path)
            return
        session, length, is_meant = (
            session_in(path),
            self.length(),
            ("delete-many", "true") in urllib.parse.parse_qsl(query),
        )
        most, kinds = (map_schema.MOST_BYTES, KINDS_OF_JSON) if path == SCHEMA else (MOST_BODY, KINDS_OF_XML)
        if is_read_only(path):
            self.not_allowed()
        elif length is None:
            self.refuse(411, "one Content-Length is needed")
        elif length > most:
            self.refuse(413, f"a body of at most {most:,} bytes is taken")
        elif session is None and path != SCHEMA:
            self.refuse(404, "NotFound")
        elif self.headers.get_content_type() not in kinds:
            # A web page can make a browser post text or a form to any server, also with a parameter that has "xml" in
            # it. For XML of another origin the browser asks first.
            self.refuse(415, f"{kinds[0]} is needed")
        elif not self.server.bodies.take(length):
            self.refuse(503, "others are sending very much just now")
        else:
            try:
                self.post(
                    lambda body: self.add_to_schema(body)
                    if session is None
                    else self.transact(session, body, is_meant),
                    length,
                )
            finally:
                self.server.bodies.take(-length)

    def post(self, work: Callable[[bytes], None], length: int) -> None:
        """Does what is asked by a body, once that is there. The process doesn't end before its reply is sent."""
        body = self.body(length)
        if body is None:
            self.refuse(408, "the body didn't come")
            return
        try:
            with self.server.saving:
                work(body)
        except Ending:
            self.refuse(503, "the gateway ends")

    def transact(self, session: str, body: bytes, is_meant: bool) -> None:
        """Makes a Transaction, or answers a request by XML that reads."""
        body = body if self.map.files is None else file_paths.by_paths(body, self.map.files)
        self.answer_wfs(
            wfs_texts.V1,
            "OperationProcessingFailed",
            lambda: self.map.wfs.posted(session, body, self.address(WFS), self.person(), is_meant),
        )

    def answer_history(self, number: int) -> None:
        """Sends what has become of a feature."""
        status, kind = 200, JSON
        try:
            found = self.map.history.of(number)
            if found is None:
                status, kind, text = 404, TEXT, "no log of edits is kept here"
            else:
                text = json.dumps(found, ensure_ascii=False, separators=(",", ":"))
        except OSError as fault:
            status, kind, text = 500, TEXT, f"the log of edits can't be read: {fault.strerror}"
        self.reply(status, text.encode(), kind)

    # ---- edits, as they are made

    def answer_events(self) -> None:
        """Tells a page of each edit, as an event stream, until the page or the server is gone: its number alone, of
        several the last one. A page of another origin isn't told: no reply lets it read this, but it would keep a
        thread."""
        site = self.headers.get("sec-fetch-site", "same-origin")
        if self.is_of_other(self.headers.get_all("origin", [])) or site not in ("same-origin", "none"):
            self.refuse(403, "a page of another origin asks")
        elif not self.map.events.enter():
            self.refuse(503, "edits can't be told just now: ask for the last one")
        else:
            try:
                self.tell_edits()
            finally:
                self.map.events.leave()

    def tell_edits(self) -> None:
        """Sends the event stream."""
        self.close_connection = True
        fields: Fields = [
            ("Content-Type", EVENT_STREAM),
            ("Cache-Control", "no-store"),
            ("X-Accel-Buffering", "no"),
            *SAFETY,
        ]
        told, last = -1, self.map.events.last
        try:
            self.connection.settimeout(PAUSE)
            self.connection.sendall(self.head_of(200, fields))
            while last is not None and self.command != "HEAD":
                self.connection.sendall(b"data: %d\n\n" % last if last != told else b":\n\n")
                told = last
                time.sleep(SELDOM)
                last = self.map.events.after(told, HEARTBEAT)
        except OSError:
            pass

    # ---- the schema

    def answer_schema(self) -> None:
        """Sends the schema as it is now."""
        live = self.map.live
        with live.lock:
            schema = live.see_schema()
        status, text, kind = (200, schema.text(), JSON) if schema.layers else (404, "the map has no schema", TEXT)
        tag = f'W/"{hashlib.sha256(text.encode()).hexdigest()[:32]}"'
        if status == 200 and tag in self.headers.get("if-none-match", ""):
            self.write(304, b"", [("ETag", tag), ("Cache-Control", "no-store"), *SAFETY])
            return
        self.reply(status, text.encode(), kind, [("ETag", tag)] if status == 200 else [])

    def add_to_schema(self, body: bytes) -> None:
        """Adds what a body has to the schema."""
        status, kind, live = 200, JSON, self.map.live
        try:
            if live.schema.path is None:
                raise Unknown("the gateway has no file of a schema: start it with --schema FILE")
            more = map_schema.parsed(body.decode())
            with live.lock:
                self.map.wfs.look()
                text = live.add_to_schema(more).text()
            live.tell(f"schema: {shown(self.person())}: {', '.join(map(shown, more.layers))}")
        except (NoAnswer, Stopped) as fault:
            status, kind, text = 502, TEXT, str(fault)
        except OSError as fault:
            status, kind, text = 500, TEXT, f"the schema can't be written: {fault}"
        except (Refused, UnicodeDecodeError) as fault:
            status, kind, text = 404 if isinstance(fault, Unknown) else 400, TEXT, str(fault)
        self.reply(status, text.encode(), kind)

    # ---- what a client says

    def length(self) -> int | None:
        """The length of the body, None if it isn't said once."""
        said = self.headers.get_all("content-length", [])
        is_said = (
            len(said) == 1 and re.fullmatch("[0-9]{1,12}", said[0].strip()) and "transfer-encoding" not in self.headers
        )
        return int(said[0]) if is_said else None

    def body(self, length: int) -> bytes | None:
        """The body of a request, None if it doesn't come in time."""
        if self.headers.get("expect", "").lower() == "100-continue":
            self.connection.sendall(b"HTTP/1.1 100 Continue\r\n\r\n")
        end, parts = time.monotonic() + PAUSE + length / SLOWEST, bytearray()
        try:
            while len(parts) < length:
                self.connection.settimeout(max(min(end - time.monotonic(), PAUSE), 0.001))
                part = self.rfile.read1(min(length - len(parts), 2**16))  # type: ignore[attr-defined]
                if not part:
                    return None
                parts += part
        except socket.timeout:
            return None
        return bytes(parts)

    def address(self, path: str) -> str:
        """The address by which the client reaches a path: through a proxy, that which the proxy says."""
        host = self.headers.get("x-forwarded-host", self.headers.get("host", HERE))
        scheme, before = self.headers.get("x-forwarded-proto", "http"), self.headers.get("x-forwarded-prefix", "")
        return f"{scheme}://{host}{before}{self.prefix}{path}"

    def person(self) -> str:
        """Who sends a request: what nginx says of it, a name or an address; without nginx anybody can say anything."""
        said = (self.headers.get("x-forwarded-user") or self.headers.get("x-real-ip")) if self.is_behind_nginx else None
        # Fields are read as ISO 8859-1, and nginx sends a name in UTF-8.
        return said.encode("iso-8859-1", "replace").decode(errors="replace") if said else self.client_address[0]

    # ---- replies

    def answer_wfs(self, version: wfs_texts.Version, code: str, work: Callable[[], Any]) -> None:
        """Answers by WFS. A refusal has status 200 too: of another one QGIS shows no text."""
        try:
            text = work()
        except (NoAnswer, Stopped) as stopped:
            text = wfs_texts.report(version, "NoApplicableCode", f"the map's server: {stopped}")
        except Fault as fault:
            text = wfs_texts.refused(version, code, fault)
        except RecursionError:
            text = wfs_texts.report(version, code, "the request is nested too deep")
        except Exception as fault:
            text = wfs_texts.report(version, "NoApplicableCode", broken(fault))
        changed = (
            (lambda part: part)
            if self.map.files is None
            else lambda part: file_paths.by_addresses(part, self.address("/"))
        )
        if isinstance(text, Spooled):
            is_zipped = "gzip" in self.headers.get("accept-encoding", "")
            self.reply_by_file(*text.packed(changed, is_zipped), XML, is_zipped)
        else:
            self.reply(200, changed(text).encode(), XML)

    def answer_ogc(self, path: str, given: dict[str, str]) -> None:
        """Answers by OGC API Features."""
        status, kind, fields = 200, JSON, []
        try:
            kind, data, fields = self.map.ogc.answer(path, given, self.address(OGC))
        except Unknown as unknown:
            status, data = 404, refused("NotFound", unknown)
        except (NoAnswer, Stopped) as stopped:
            status, data = 502, refused("NoApplicableCode", f"the map's server: {stopped}")
        except Refused as fault:
            status, data = 400, refused("InvalidParameterValue", fault)
        except Exception as fault:
            status, data = 500, refused("NoApplicableCode", broken(fault))
        if isinstance(data, Spool):
            self.reply_by_file(data, data.length(), kind, False, [*fields, *self.readable()])
        else:
            self.reply(status, data, kind, [*fields, *self.readable()])

    def readable(self) -> Fields:
        """What lets pages of other origins read a reply, if they may."""
        return (
            [
                ("Access-Control-Allow-Origin", "*"),
                ("Access-Control-Expose-Headers", "Content-Crs, Content-Disposition"),
            ]
            if self.is_public
            else []
        )

    def do_OPTIONS(self) -> None:
        """Says what may be asked of a path."""
        path = self.path.partition("?")[0]
        if is_read_only(path):
            asked = (
                [("Access-Control-Allow-Methods", READ), ("Access-Control-Allow-Headers", "*"), *self.readable()]
                if self.is_public
                else []
            )
            self.reply(204, b"", None, [("Allow", READ), *asked])
        elif path == SCHEMA or session_in(path) is not None:
            self.reply(204, b"", None, [("Allow", f"{READ}, POST")])
        else:
            self.reply(404, b"NotFound", TEXT)

    def not_allowed(self) -> None:
        """Refuses a method that changes something where nothing is changed so."""
        path = self.path.partition("?")[0]
        if path.startswith(FILES):
            self.refuse(405, "the method isn't taken here", [("Allow", f"{READ}, POST, PUT")])
        elif is_read_only(path) or path == SCHEMA or session_in(path) is not None:
            self.refuse(
                405,
                "the method isn't taken here",
                [("Allow", READ if is_read_only(path) else f"{READ}, POST"), *self.readable()],
            )
        else:
            self.refuse(404, "NotFound")

    do_DELETE = do_PATCH = not_allowed

    def do_PUT(self) -> None:
        """Keeps a file under a name of its sender."""
        path = self.path.partition("?")[0]
        if path.startswith(file_paths.OF_GIVEN):
            file_paths.take(self, self.map.files, path)
        else:
            self.not_allowed()

    def reply(self, status: int, data: bytes, kind: str | None, more: Iterable[Field] = ()) -> None:
        """Sends a reply. `more`: further fields of it."""
        is_zipped = len(data) >= LEAST_GZIP and "gzip" in self.headers.get("accept-encoding", "")
        data = gzip.compress(data, 1) if is_zipped else data
        # Another client of the same address needs another session.
        fields = [("Content-Type", kind), ("Content-Length", len(data))] if kind else []
        fields += [("Cache-Control", "no-store"), *SAFETY, *more]
        fields += [("Content-Encoding", "gzip")] if is_zipped else []
        self.write(status, data, fields)

    def head_of(self, status: int, fields: Fields) -> bytes:
        """The head of a reply with these fields."""
        fields = [*fields, ("Connection", "close")] if self.close_connection else fields
        return "\r\n".join(
            [
                f"HTTP/1.1 {status} {http.HTTPStatus(status).phrase}",
                *(f"{name}: {value}" for name, value in fields),
                "",
                "",
            ]
        ).encode()

    def write(self, status: int, data: bytes, fields: Fields) -> None:
        """Writes a reply with these fields."""
        try:
            # The time of all of it.
            self.connection.settimeout(PAUSE + len(data) / SLOWEST)
            self.connection.sendall(self.head_of(status, fields) + (data if self.command != "HEAD" else b""))
        except OSError:
            # A GIS no longer waits once somebody has moved the map on.
            self.close_connection = True

    def write_file(self, status: int, file: Any, length: int, fields: Fields) -> None:
        """Writes a reply whose content is that of an open file."""
        try:
            self.connection.settimeout(PAUSE + length / SLOWEST)
            self.connection.sendall(self.head_of(status, fields))
            if self.command != "HEAD":
                self.connection.sendfile(file)
        except OSError:
            self.close_connection = True

    def reply_by_file(self, made: Spool, length: int, kind: str, is_zipped: bool, more: Iterable[Field] = ()) -> None:
        """Sends a reply that is in a file."""
        fields: Fields = [
            ("Content-Type", kind),
            ("Content-Length", length),
            ("Cache-Control", "no-store"),
            *SAFETY,
            *more,
        ]
        try:
            self.connection.settimeout(PAUSE + length / SLOWEST)
            self.connection.sendall(
                self.head_of(200, [*fields, *([("Content-Encoding", "gzip")] if is_zipped else [])])
            )
            while self.command != "HEAD" and (part := made.file.read(CHUNK)):
                self.connection.sendall(part)
        except OSError:
            self.close_connection = True
        finally:
            made.close()

    def refuse(self, status: int, text: str, more: Iterable[Field] = ()) -> None:
        """Refuses a request whose body, if it has one, isn't read, and ends the connection."""
        self.close_connection = True
        self.reply(status, text.encode(), TEXT, more)
        # A connection that is closed while the client sends is reset, and the client gets no reply.
        end = time.monotonic() + LINGER
        try:
            self.connection.shutdown(socket.SHUT_WR)
            while (left := end - time.monotonic()) > 0:
                self.connection.settimeout(left)
                if not self.connection.recv(2**16):
                    break
        except OSError:
            pass

    def send_error(self, code: int, message: str | None = None, explain: str | None = None) -> None:
        """Refuses what is no request."""
        self.refuse(int(code), message or http.HTTPStatus(code).phrase)


class Ending(Exception):
    """Why nothing is saved any more: the process ends."""


class Bodies:
    """How many bytes of bodies there are, which are being read or saved."""

    def __init__(self) -> None:
        self.bytes, self.lock = 0, threading.Lock()

    def take(self, length: int) -> bool:
        """Takes room for a body, or gives it back. Returns whether there was room."""
        with self.lock:
            has_room = self.bytes + length <= MOST_BODIES
            self.bytes += length if has_room else 0
            return has_room


class Saving:
    """How many saves are under way."""

    def __init__(self) -> None:
        self.count, self.changed, self.is_over = 0, threading.Condition(), False

    def __enter__(self) -> None:
        self.add(1)

    def __exit__(self, *fault: Any) -> None:
        self.add(-1)

    def add(self, number: int) -> None:
        """One more, or one less."""
        with self.changed:
            if number > 0 and self.is_over:
                raise Ending
            self.count += number
            self.changed.notify_all()

    def wait(self) -> None:
        """Waits until there is none, and takes no further one."""
        with self.changed:
            self.is_over = True
            self.changed.wait_for(lambda: self.count == 0)


class Listener(ThreadingHTTPServer):
    """Listens on a port of 127.0.0.1."""

    daemon_threads = True
    request_queue_size = 64
    # On Windows a second process would get the port that this one has.
    allow_reuse_address = not is_windows()

    def __init__(self, *words: Any) -> None:
        super().__init__(*words)
        self.saving, self.bodies = Saving(), Bodies()

    def handle_error(self, request: Any, client_address: Any) -> None:
        """Says nothing of a client that has gone, and all of another fault."""
        if not isinstance(sys.exc_info()[1], OSError):
            super().handle_error(request, client_address)


def session_in(path: str) -> str | None:
    """The name of the session that a path of WFS has, empty if it has none; None if it is another path."""
    found = re.fullmatch(f"{WFS}(?:/([0-9a-f]{{10}}))?/?", path)
    return (found[1] or "") if found else None


def is_read_only(path: str) -> bool:
    """Whether a path is only read."""
    return path == OGC or path.startswith(OGC + "/")


def refused(code: str, text: object) -> bytes:
    """A refusal of OGC API Features."""
    return json.dumps({"code": code, "description": str(text)}, ensure_ascii=False).encode(errors="replace")


def broken(fault: Exception) -> str:
    """Prints a fault of this program, and says that there was one."""
    print(shown_lines(traceback.format_exc()), file=sys.stderr, flush=True)
    return f"the request can't be understood ({type(fault).__name__}: {fault})"


def listener(port: int, maps: Any, **known: bool) -> Listener:
    """Listens on a port, for these maps. `known`: whether it is behind nginx, and public."""
    handler = type("Here", (Handler,), {"maps": maps, **known})
    try:
        return Listener((HERE, port), handler)
    except OSError as fault:
        raise Refused(f"port {port} of {HERE} can't be opened: {fault.strerror}") from fault
