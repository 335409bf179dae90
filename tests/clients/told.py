"""The part `told` of run.py: the gateway tells open pages of edits as they are made, by one request to the server that
waits. Through nginx with docs/nginx.conf, through the front of `vtmap try`, and in a real Chromium, where a page looks
by itself again once nobody tells it."""
import http.client
import json
import os
import shutil
import threading
import time
from typing import Any, Optional

from vtmap.front.handler import Behind, front

from .between import Between
from .browser import HIGH, WIDE, Browser
from .gateways import Gateway
from .pages import PAGE
from .stand import Cases, Nginx, Server, curl, feature, free_port, status_of

EVENTS = "/wfs/events"
# The seconds within which a stream tells of an edit, beside other work, and within which a page shows it: less than the
# 60 after which a page looks that is told of edits.
SOON, LATE = 3, 30
# How often a page has asked for the last edit.
ASKED = "performance.getEntriesByType('resource').filter(({name}) => name.endsWith('/admin/status')).length"


class Stream:
    """An event stream of a gateway."""

    def __init__(self, port: int, **fields: str) -> None:
        self.connection = http.client.HTTPConnection("127.0.0.1", port, timeout=30)
        self.connection.request("GET", EVENTS, headers={name.replace("_", "-"): text for name, text in fields.items()})
        self.reply = self.connection.getresponse()

    def next(self) -> Optional[int]:
        """The number that it tells next, None at its end."""
        while line := self.reply.readline():
            if line.startswith(b"data: "):
                return int(line[6:])
        return None

    def close(self) -> None:
        self.connection.close()


def told(cases: Cases, folder: str) -> None:
    """All of it."""
    folder = os.path.join(folder, "told")
    os.mkdir(folder)
    with Server(folder, "town") as server, Between(server) as between, Gateway(folder, between.url) as gateway:
        put(server, 1)
        doors(cases, gateway)
        streams(cases, server, between, gateway)
        by_front(cases, server, gateway)
        program = shutil.which("nginx") or shutil.which("nginx", path="/usr/sbin")
        if program:
            behind_nginx(cases, folder, program, server, gateway)
        else:
            cases.say("no nginx: no page is told of edits")
    away(cases, folder)


def put(server: Server, number: int) -> int:
    """Makes an edit. Returns its number."""
    return json.loads(curl(f"{server.url}/features/{number}", "-X", "PUT", body=feature(tags={"n": number}))[2])["edit"]


def doors(cases: Cases, gateway: Gateway) -> None:
    """Who isn't told."""
    here = f"http://127.0.0.1:{gateway.port}"
    found = []
    others = {"Origin": "http://other.example"}, {"Sec_Fetch_Site": "cross-site"}, {"Sec_Fetch_Site": "same-site"}
    for fields in others:
        stream = Stream(gateway.port, **fields)
        found.append((stream.reply.status, stream.reply.getheader("access-control-allow-origin")))
        stream.close()
    cases.show("told: a page of another origin", found, [(403, None)] * 3)
    stream = Stream(gateway.port, Origin=here, Sec_Fetch_Site="same-origin")
    kinds = [stream.reply.getheader(name) for name in ("content-type", "cache-control", "access-control-allow-origin")]
    cases.show("told: a page of this one", (stream.reply.status, kinds), (200, ["text/event-stream", "no-store", None]))
    stream.close()
    statuses = [status_of(curl(gateway.url + EVENTS, "-X", method)) for method in ("PUT", "DELETE")]
    statuses.append(status_of(curl(gateway.url + EVENTS, "-H", "Content-Type: text/xml", body="<a/>")))
    cases.show("told: other methods", statuses, [404, 404, 404])


def streams(cases: Cases, server: Server, between: Between, gateway: Gateway) -> None:
    """Each edit is told, by one request to the server, however many are told."""
    many = [Stream(gateway.port) for _ in range(12)]
    cases.show("told: the last edit at first", {stream.next() for stream in many}, {1})
    time.sleep(1)
    before = len(between.asked)
    began, number = time.monotonic(), put(server, 2)
    found = {stream.next() for stream in many}
    cases.show("told: the next one, soon", (found, time.monotonic() - began < SOON), ({number}, True))
    time.sleep(1)
    asked = [path for _, path, _ in between.asked[before:]]
    cases.show("told: one request to the server for all", asked, [f"/admin/edits/from/{number + 1}?wait=25"])
    for number in range(3, 60):
        last = put(server, number)
    seen: list[int] = []
    while not seen or seen[-1] != last:
        seen.append(many[0].next() or last)
    cases.show("told: many, up to the last one, none twice", seen, sorted(set(seen)))
    for stream in many:
        stream.close()


def by_front(cases: Cases, server: Server, gateway: Gateway) -> None:
    """Through the front of `vtmap try`."""
    made = front(0, Behind(server.port, gateway.port, PAGE))
    threading.Thread(target=made.serve_forever, daemon=True).start()
    stream = Stream(made.server_address[1])
    first, number = stream.next(), put(server, 2)
    cases.show("told: through the front", (stream.reply.status, first, stream.next()), (200, number - 1, number))
    other = Stream(made.server_address[1], Origin="http://other.example")
    cases.show("told: and not a page of another origin", other.reply.status, 403)
    for one in (stream, other):
        one.close()
    made.shutdown()
    made.server_close()


def behind_nginx(cases: Cases, folder: str, program: str, server: Server, gateway: Gateway) -> None:
    """Through nginx, for those who edit alone, and in the page."""
    changes = [("server 127.0.0.1:8090;", f"server 127.0.0.1:{gateway.port};")]
    changes.append(("127.0.0.1:8001", f"127.0.0.1:{free_port()}"))
    with Nginx(program, folder, server, changes) as nginx:
        shutil.copytree(PAGE, os.path.join(nginx.folder, "pages"))
        stream = Stream(nginx.port, Host="localhost")
        first, number = stream.next(), put(server, 2)
        cases.show("told: through nginx, and nothing is kept back", (first, stream.next()), (number - 1, number))
        stream.close()
        found = [status_of(curl(nginx.url + EVENTS, *words)) for words in (
            ("--interface", "127.0.0.2"), ("-H", "Origin: http://other.example"), ("-H", "Sec-Fetch-Site: cross-site"))]
        cases.show("told: through nginx: who doesn't edit, and other origins", found, [403] * 3)
        if not shutil.which("chromium"):
            cases.say("no chromium: no page is told of edits")
            return
        with Browser(os.path.join(folder, "profile"), WIDE, HIGH) as browser:
            in_page(cases, browser, nginx, server, gateway)


def in_page(cases: Cases, browser: Browser, nginx: Nginx, server: Server, gateway: Gateway) -> None:
    """A page in a browser."""
    page = browser.open(f"{nginx.url}/pages/#3/0/0")
    page.wait("document.getElementById('told').textContent", LATE)
    time.sleep(3)
    before = page.value(ASKED)
    time.sleep(9)
    cases.show("told: a page that is told doesn't ask", page.value(ASKED) - before, 0)
    began, number = time.monotonic(), put(server, 100)
    cases.show("told: it shows a colleague's edit", sees(page, number), True)
    cases.say(f"after {time.monotonic() - began:.2f} s, and it has asked {page.value(ASKED) - before} times")
    gateway.end()
    cases.show("told: without a gateway the page asks by itself", sees(page, put(server, 101)), True)
    faults = [fault for fault in page.faults() if not fault.startswith("Failed to load resource")]
    cases.show("told: the browser complains of nothing", faults, [])


def sees(page: Any, number: int) -> bool:
    """Whether a page says that it shows an edit, before it would look by itself."""
    return bool(page.wait(f"document.getElementById('told').textContent.endsWith('edit {number}')", LATE))


def away(cases: Cases, folder: str) -> None:
    """The server ends, and comes back."""
    with Server(folder, "away") as server, Gateway(folder, server.url) as gateway:
        put(server, 1)
        stream = Stream(gateway.port)
        first = stream.next()
        server.end()
        cases.show("told: the server ends, and so does the stream", (first, stream.next()), (1, None))
        stream.close()
        cases.show("told: nobody is told meanwhile", status_of(curl(gateway.url + EVENTS, "--max-time", "9")), 503)
        with Server(folder, "away", port=server.port) as again:
            for _ in range(40):
                stream = Stream(gateway.port)
                if stream.reply.status == 200:
                    break
                stream.close()
                time.sleep(0.25)
            cases.show("told: until it is back", (stream.next(), put(again, 2), stream.next()), (1, 2, 2))
            stream.close()
