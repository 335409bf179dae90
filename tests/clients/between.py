"""A stand-in for what happens between a script and the server: requests are passed on, some after something else has
happened, some without a reply, and some not at all, which a proxy may answer."""
import http.client
import http.server
import sys
import threading
from collections.abc import Callable
from typing import Any, Optional, cast


class Passes(http.server.BaseHTTPRequestHandler):
    """Passes a request on."""

    protocol_version = "HTTP/1.1"

    def pass_on(self) -> None:
        body = self.rfile.read(int(self.headers.get("content-length", 0)))
        between = cast(Port, self.server).between
        between.before(self.command, self.path)
        between.asked.append((self.command, self.path, self.headers.get("authorization")))
        instead = between.instead(self.command, self.path)
        if instead is not None:
            self.answer(*instead)
            return
        try:
            connection = http.client.HTTPConnection("127.0.0.1", between.port, timeout=120)
            connection.request(self.command, self.path, body)
            reply = connection.getresponse()
            content = reply.read()
            connection.close()
        except (OSError, http.client.HTTPException):
            # The server has ended.
            self.close_connection = True
            return
        if between.loses(self.command, self.path):
            self.close_connection = True
            return
        self.answer(reply.status, content, reply.headers.get("etag"))

    def answer(self, status: int, content: bytes, tag: Optional[str] = None) -> None:
        """Sends a reply; status 0 is none."""
        if status == 0:
            self.close_connection = True
            return
        self.send_response(status)
        if status != 204:
            self.send_header("content-length", str(len(content)))
        if tag is not None:
            self.send_header("etag", tag)
        self.end_headers()
        if self.command != "HEAD":
            self.wfile.write(content)

    do_GET = do_HEAD = do_PUT = do_POST = do_DELETE = pass_on

    def log_message(self, *_: object) -> None:
        pass


class Port(http.server.ThreadingHTTPServer):
    """A port on which a client may end without waiting for its reply. `between`: what its requests are passed on by."""

    between: "Between"

    def handle_error(self, request: Any, client_address: Any) -> None:
        if not isinstance(sys.exc_info()[1], OSError):
            super().handle_error(request, client_address)


class Between:
    """A port whose requests are passed on to a server. `before(method, path)` is called first; a reply is lost if
    `loses(method, path)`. If `instead(method, path)` is a status and a content, these are the reply, and the server
    isn't asked."""

    def __init__(
        self,
        server: Any,
        before: Callable[[str, str], object] = lambda *_: None,
        loses: Callable[[str, str], object] = lambda *_: False,
        instead: Callable[[str, str], Any] = lambda *_: None,
    ) -> None:
        self.port: int = server.port
        self.before, self.loses, self.instead = before, loses, instead
        self.asked: list[tuple[str, str, Optional[str]]] = []

    def __enter__(self) -> "Between":
        self.server = Port(("127.0.0.1", 0), Passes)
        self.server.between = self
        self.url = f"http://127.0.0.1:{self.server.server_port}"
        threading.Thread(target=self.server.serve_forever, daemon=True).start()
        return self

    def __exit__(self, *fault: object) -> None:
        self.server.shutdown()
        self.server.server_close()


def once(method: str, path: str) -> Callable[[str, str], bool]:
    """Whether a request is the first of this method to this path."""
    seen = []

    def is_first(*asked: str) -> bool:
        if asked == (method, path):
            seen.append(asked)
        return asked == (method, path) and len(seen) == 1

    return is_first
