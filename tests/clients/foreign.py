"""The part `foreign` of run.py: pages of other origins, and made-up ids, change nothing by `vtmap wfs`. By hand each
kind of request that a browser makes for a page, and a page in Chromium itself; straight to the gateway, as on an
editor's own machine."""
import http.client
import itertools
import json
import os
import shutil
import socket
import threading
from http.server import BaseHTTPRequestHandler, ThreadingHTTPServer

from .browser import Browser
from .gateways import GML, Gateway, Gis, edits_at, feature_at, point, put_at
from .stand import Cases, Server, curl, feature

# Media types of a Transaction; and others, of which a page can send some without the browser asking first.
TAKEN = ("text/xml", "text/xml; charset=UTF-8", "Application/XML", "application/gml+xml; version=3.2")
OTHERS = ("text/plain", "text/plain;charset=xml", "application/x-www-form-urlencoded;xml",
          "multipart/form-data; boundary=xml", "")
ROUTES = ("/wfs", "/wfs/0123456789", "/ogc/collections/p.points/items", "/")
COUNT = itertools.count()


def foreign(cases: Cases, folder: str) -> None:
    """All of it."""
    folder = os.path.join(folder, "foreign")
    os.mkdir(folder)
    with Server(folder, "map") as server:
        curl(f"{server.url}/features/7", "-X", "PUT", body=feature(tags={"name": "Seven"}))
        with Gateway(folder, server.url) as gateway:
            by_hand(cases, server, gateway)
            other_methods(cases, gateway)
            behind_another_name(cases, gateway)
            smuggled(cases, server, gateway)
            made_up(cases, server, gateway)
            by_page(cases, folder, server, gateway)


def origins(port):
    """Origins, and whether a request that names one is served: seven."""
    here = f"127.0.0.1:{port}"
    return {None: True, f"http://{here}": True, f"https://{here}": True, "null": False,
            f"http://127.0.0.1:{port + 1}": False, f"http://{here}.example.org": False, "http://example.org": False}


def insert():
    """A Transaction that adds a point, which no other one adds."""
    shape = f"<geom>{point(1000.0 + next(COUNT), 5.0)}</geom>"
    made = f'<Insert><v:p.points xmlns:v="urn:vtserve">{shape}</v:p.points></Insert>'
    return f'<Transaction {GML} version="1.0.0">{made}</Transaction>'


def asked(gateway, method, path, origin=None, kind="", body=None, **more):
    """The status of the reply to a request."""
    more = {name.replace("_", "-"): value for name, value in more.items()}
    fields = {"Origin": origin, "Content-Type": kind, **more}
    connection = http.client.HTTPConnection("127.0.0.1", gateway.port, timeout=60)
    connection.request(method, path, body, {name: value for name, value in fields.items() if value})
    reply = connection.getresponse()
    reply.read()
    connection.close()
    return reply.status


def wanted(is_own, kind, route):
    """The status of the reply to a POST."""
    if not is_own or route.startswith("/ogc"):
        return 405 if is_own else 403
    return 404 if not route.startswith("/wfs") else 200 if kind in TAKEN else 415


def by_hand(cases, server, gateway):
    """Each origin with each media type to each route."""
    for origin, is_own in origins(gateway.port).items():
        edits, wrong = edits_at(server.url), []
        for kind, route in itertools.product((*TAKEN, *OTHERS), ROUTES):
            status = asked(gateway, "POST", route, origin, kind, insert())
            if status != wanted(is_own, kind, route):
                wrong.append((kind, route, status))
        made = edits_at(server.url) - edits
        name = f"foreign: POST of origin {origin}: nine media types to four routes"
        cases.show(name, (wrong, made), ([], 2 * len(TAKEN) if is_own else 0))


def other_methods(cases, gateway):
    """Other methods. What only reads is answered to all: no page of another origin gets to see it."""
    own = [405 if route.startswith(("/wfs", "/ogc")) else 404 for route in ROUTES]
    for method in ("PUT", "DELETE", "PATCH"):
        places = itertools.product((None, "http://example.org", "null"), ROUTES)
        found = [asked(gateway, method, route, origin) for origin, route in places]
        cases.show(f"foreign: {method}", found, own + [403] * 8)
    reads = "/wfs?REQUEST=GetCapabilities", "/ogc/"
    for method, status in (("GET", 200), ("HEAD", 200), ("OPTIONS", 204)):
        found = [asked(gateway, method, path, origin) for origin in (None, "http://example.org") for path in reads]
        cases.show(f"foreign: {method} is answered", found, [status] * 4)
    reply = curl(f"{gateway.url}/wfs?REQUEST=GetCapabilities", "-H", "Origin: http://example.org")
    allowed = [name for name, _ in reply[1] if name.lower().startswith("access-control")]
    cases.show("foreign: and no page is allowed to read it", allowed, [])


def behind_another_name(cases, gateway):
    """Behind a proxy the host that was asked for is the one that the proxy says."""
    for origin, status in (("https://map.example", 200), ("http://map.example:81", 403), (gateway.url, 403)):
        found = asked(gateway, "POST", "/wfs", origin, "text/xml", insert(), X_Forwarded_Host="map.example")
        cases.show(f"foreign: by a proxy as map.example: {origin}", found, status)


def smuggled(cases, server, gateway):
    """The body of a refused request isn't the next request."""
    edits, inner, head = edits_at(server.url), insert(), f"POST /wfs HTTP/1.1\r\nHost: {gateway.url[7:]}\r\n"
    inner = f"{head}Content-Type: text/xml\r\nContent-Length: {len(inner)}\r\n\r\n{inner}"
    outer = f"{head}Origin: null\r\nContent-Type: text/plain\r\nContent-Length: {len(inner)}\r\n\r\n{inner}"
    with socket.create_connection(("127.0.0.1", gateway.port), timeout=60) as peer:
        peer.sendall(outer.encode())
        peer.shutdown(socket.SHUT_WR)
        told = b"".join(iter(lambda: peer.recv(65536), b""))
    found = [line.split()[1] for line in told.split(b"\r\n") if line.startswith(b"HTTP/")], edits_at(server.url) - edits
    cases.show("foreign: a request in the body of a refused one isn't made", found, ([b"403"], 0))


def made_up(cases, server, gateway):
    """An id with a version that was never given overwrites nothing, also once the feature was read."""
    gis = Gis(gateway, "p.points")
    for fid in ("p.points.7.0123456789abcdef", "p.points.7.0123456789abcdef01234567"):
        gis.fids[7] = fid
        refused = gis.save(gis.update(7, name="Forged"))
        gis.get("GetFeature")
        again = gis.save(gis.update(7, name="Forged"))
        found = "others have changed" in refused, "others have changed" in again, feature_at(server.url, 7)["tags"]
        name = f"foreign: the made-up id {fid}, before and after a read"
        cases.show(name, found, (True, True, {"name": "Seven"}))
    gis = Gis(gateway, "p.points")
    gis.rows()
    put_at(server.url, 7, name="By others")
    refused = gis.save(gis.update(7, name="Mine"))
    gis.get("GetFeature")
    found = "others have changed" in refused, gis.save(gis.update(7, name="Mine")), feature_at(server.url, 7)["tags"]
    cases.show("foreign: one that was given does", found, (True, "SUCCESS", {"name": "Mine"}))


class Page(BaseHTTPRequestHandler):
    """An empty page of another origin."""

    def do_GET(self):
        self.send_response(200)
        self.send_header("Content-Type", "text/html")
        self.send_header("Content-Length", "15")
        self.end_headers()
        self.wfile.write(b"<!doctype html>")

    def log_message(self, *words):
        pass


def by_page(cases, folder, server, gateway):
    """A page of another origin in Chromium: what it sends as the browser lets it, and by a form."""
    if not shutil.which("chromium"):
        cases.say("no Chromium: no page of another origin is tried")
        return
    other = ThreadingHTTPServer(("127.0.0.1", 0), Page)
    threading.Thread(target=other.serve_forever, daemon=True).start()
    with Browser(os.path.join(folder, "profile"), 400, 300) as browser:
        page = browser.open(f"http://127.0.0.1:{other.server_address[1]}/")
        edits = edits_at(server.url)
        for kind, mode in [*((kind, "no-cors") for kind in ("", *OTHERS[:4], *TAKEN)), ("text/xml", "cors")]:
            fields = {"Content-Type": kind} if kind else {}
            words = json.dumps({"method": "POST", "mode": mode, "body": insert(), "headers": fields})
            page.value(f"fetch('{gateway.url}/wfs', {words}).then(reply => reply.type, fault => String(fault))")
        cases.show("foreign: a page in Chromium posts each media type", edits_at(server.url) - edits, 0)
        path = f"{gateway.url}/ogc/collections/p.points/items"
        found = page.value(f"fetch('{path}').then(() => 'read', () => 'refused')")
        cases.show("foreign: and reads nothing", found, "refused")
        page.value(form(gateway.url + "/wfs", insert()))
        page.wait(f"location.href.startsWith('{gateway.url}')")
        told = page.wait("document.readyState === 'complete' && document.body?.innerText")
        found = told, edits_at(server.url) - edits
        cases.show("foreign: its form is refused", found, ("a page of another origin asks for a change", 0))
    other.shutdown()
    other.server_close()


def form(address, text):
    """The script that sends a text to an address by a form."""
    words = {"method": "post", "enctype": "text/plain", "action": address}
    field = {"name": text + "<!--", "value": "-->"}
    return f"""(() => {{
        const form = Object.assign(document.createElement("form"), {json.dumps(words)});
        form.append(Object.assign(document.createElement("input"), {json.dumps(field)}));
        document.body.append(form);
        form.submit();
    }})()"""
