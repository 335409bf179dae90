"""The part `outsiders` of run.py: docs/nginx.conf against who isn't of the office. Pages of other origins that a
browser of the office opens, names that nobody has checked, fields Host that are no host, one address that asks for
much, and accounts of the machine that read what is written."""
import functools
import gzip
import http.server
import json
import os
import re
import resource
import shutil
import socket
import subprocess
import threading
import time

from .browser import Browser
from .stand import TOP, Cases, Nginx, Server, curl, feature, field, free_port, status_of

KIND = ["-H", "Content-Type: application/json"]
# What changes the map, or what is published, with the fields that a script sends.
CHANGES = [
    ("POST", "/publish", []),
    ("POST", "/publish/begin", []),
    ("POST", "/publish/step", []),
    ("POST", "/publish/cancel", []),
    ("PUT", "/features/7", []),
    ("DELETE", "/features/7", []),
    ("POST", "/edits", KIND),
    ("POST", "/admin/edits", KIND),
    ("POST", "/admin/edits/at/2", KIND),
    ("POST", "/wfs", ["-H", "Content-Type: text/xml"]),
    ("POST", "/wfs/1", ["-H", "Content-Type: text/xml"]),
    ("POST", "/ogc/collections", KIND),
    ("POST", "/map/0/0/0.mvt", []),
    ("PATCH", "/other", []),
]
PASSWORDS = [("# satisfy any;", "satisfy any;"), ("# auth_basic", "auth_basic"), ("/etc/vtserve/people", "people")]
# Seconds: how long a head may take, and how long it was before.
HEAD, BEFORE = 10, 60
# More heads than four processes of 1,024 connections take.
MANY = 4400


def nginx_of(cases):
    """Where nginx is, or None, which is said."""
    found = shutil.which("nginx", path=os.environ.get("PATH", "") + ":/usr/sbin")
    if not found:
        cases.say("outsiders: no nginx: nothing is tried")
    return found


def known(server):
    """What the server tells of itself."""
    return json.loads(curl(server.url + "/admin/status")[2])


# ---- pages of other origins

def foreign(cases, server, front):
    """A page of another origin asks for each change: 403, and nothing is done."""
    url, before = front.url, known(server)
    origins = [
        "http://evil.example",
        "https://evil.example",
        "null",
        f"http://127.0.0.1:{front.port + 1}",
        "http://127.0.0.1",
        f"http://localhost:{front.port}",
        f"http://127.0.0.1:{front.port}.evil.example",
        f"http://evil.example/127.0.0.1:{front.port}",
    ]
    for method, path, words in CHANGES:
        found = [
            status_of(curl(url + path, "-X", method, *words, "-H", f"Origin: {origin}", body=feature()))
            for origin in origins
        ]
        cases.show(f"outsiders: {method} {path} by a page of another origin", found, [403] * len(origins))
    cases.show("outsiders: which has changed nothing", known(server), before)
    for method, path, status in [
        ("GET", "/map/0/0/0.mvt", 200),
        ("GET", "/features/7", 200),
        ("HEAD", "/map.json", 200),
        ("OPTIONS", "/map/0/0/0.mvt", 204),
    ]:
        reply = curl(
            url + path, *(["--head"] if method == "HEAD" else ["-X", method]), "-H", "Origin: http://evil.example"
        )
        cases.show(f"outsiders: {method} {path} by one", status_of(reply), status)


def own(cases, front):
    """The page's own origin, by each name of the server and each form of its port; and who names no origin."""
    pairs = [
        (name, f"http://{name}")
        for name in (f"127.0.0.1:{front.port}", f"localhost:{front.port}", f"[::1]:{front.port}", "localhost")
    ]
    pairs += [
        (f"LOCALHOST:{front.port}", f"http://localhost:{front.port}"),
        ("localhost:80", "http://localhost"),
        ("localhost", "http://localhost:80"),
    ]
    # A proxy in front of nginx ends TLS.
    pairs += [
        ("localhost", "https://localhost"),
        ("localhost:443", "https://localhost"),
        ("localhost:8443", "https://localhost:8443"),
    ]
    for host, origin in pairs:
        reply = curl(
            front.url + "/features/7", "-X", "PUT", "-H", f"Host: {host}", "-H", f"Origin: {origin}", body=feature()
        )
        cases.show(f"outsiders: a page of {origin} at {host}", status_of(reply), 200)
    for host, origin in [
        ("localhost:443", "http://localhost"),
        ("localhost:80", "https://localhost"),
        ("localhost", "http://localhost:8080"),
    ]:
        reply = curl(
            front.url + "/features/7", "-X", "PUT", "-H", f"Host: {host}", "-H", f"Origin: {origin}", body=feature()
        )
        cases.show(f"outsiders: a page of {origin} isn't one of {host}", status_of(reply), 403)
    for method, path, words in CHANGES:
        status = status_of(curl(front.url + path, "-X", method, *words, body=feature()))
        cases.show(f"outsiders: {method} {path} without an origin gets past nginx's rule", status != 403, True)


def by_tls(cases, folder, nginx):
    """nginx itself ends TLS: a page that came without it is another origin."""
    if not shutil.which("openssl"):
        cases.say("outsiders: no openssl: TLS isn't tried")
        return
    key, port = os.path.join(folder, "key.pem"), free_port()
    words = [
        "openssl",
        "req",
        "-x509",
        "-newkey",
        "rsa:2048",
        "-nodes",
        "-keyout",
        key,
        "-out",
        key + ".crt",
        "-days",
        "2",
        "-subj",
        "/CN=localhost",
    ]
    subprocess.run(words, check=True, capture_output=True)
    tls = [
        (
            "        server_name localhost",
            (
                f"        listen 127.0.0.1:{port} ssl;\n        ssl_certificate {key}.crt;\n        ssl_certificate_key"
                f" {key};\n        server_name localhost"
            ),
        )
    ]
    with Server(folder, "tls") as server, Nginx(nginx, folder, server, tls) as front:
        url = f"https://localhost:{port}"

        def put(origin):
            return status_of(curl(url + "/features/7", "-k", "-X", "PUT", "-H", f"Origin: {origin}", body=feature()))

        cases.show("outsiders: a page of the server, by TLS", put(url), 200)
        cases.show("outsiders: one without TLS", put(f"http://localhost:{port}"), 403)
        cases.show(
            "outsiders: TileJSON by TLS",
            json.loads(curl(url + "/map.json", "-k")[2])["tiles"],
            [url + "/map/{z}/{x}/{y}.mvt"],
        )
    shutil.rmtree(front.folder)


def origins(cases, folder, nginx):
    """Pages of other origins and of the server's own."""
    with Server(folder, "origins") as server, Nginx(
        nginx, folder, server, [("127.0.0.1:8090", f"127.0.0.1:{free_port()}")]
    ) as front:
        curl(server.url + "/features/7", "-X", "PUT", body=feature())
        foreign(cases, server, front)
        own(cases, front)
        hosts(cases, front)
    shutil.rmtree(front.folder)
    by_tls(cases, folder, nginx)


class Strange(http.server.BaseHTTPRequestHandler):
    """Another origin: a page without anything."""

    def do_GET(self):
        self.send_response(200)
        self.send_header("content-length", "0")
        self.end_headers()

    def log_message(self, *_):
        pass


def sent(page, url, words):
    """What becomes of a request that a page makes: the status, or that the browser shows it nothing."""
    return page.value(
        f"fetch({json.dumps(url)}, {json.dumps(words)}).then(reply => reply.type === 'opaque' ? 'sent' : reply.status,"
        " () => 'refused')"
    )


def by_browser(cases, folder, nginx):
    """A browser of the office opens a page of another origin, which sends what browsers send without asking; and one
    of the server itself."""
    if not shutil.which("chromium"):
        cases.say("outsiders: no Chromium: no page is opened")
        return
    stranger = http.server.ThreadingHTTPServer(("127.0.0.1", 0), Strange)
    threading.Thread(target=stranger.serve_forever, daemon=True).start()
    with Server(folder, "browsed") as server, Nginx(nginx, folder, server) as front, Browser(
        os.path.join(folder, "profile"), 400, 300
    ) as browser:
        curl(server.url + "/features/7", "-X", "PUT", body=feature())
        before, page = known(server), browser.open(f"http://127.0.0.1:{stranger.server_port}/")
        for more in (
            {},
            {"referrerPolicy": "no-referrer"},
            {"body": '{"changes":[{"delete":7}]}', "headers": {"Content-Type": "text/plain;charset=json"}},
        ):
            found = [
                sent(page, front.url + path, {"method": "POST", "mode": "no-cors", **more})
                for path in ("/publish", "/publish/begin", "/edits", "/wfs")
            ]
            cases.show(f"outsiders: a browser sends POST with {more or 'nothing'}", found, ["sent"] * 4)
        cases.show(
            "outsiders: and PUT not at all",
            sent(page, front.url + "/features/7", {"method": "PUT", "body": feature()}),
            "refused",
        )
        cases.show("outsiders: which has changed and published nothing", known(server), before)
        cases.show("outsiders: it reads a tile", sent(page, front.url + "/map/0/0/0.mvt", {}), 200)
        pages = os.path.join(front.folder, "pages")
        os.mkdir(pages)
        with open(os.path.join(pages, "own.html"), "w", encoding="utf-8") as file:
            file.write("<!DOCTYPE html><title>own</title>")
        page = browser.open(front.url + "/pages/own.html")
        found = [
            sent(page, path, {"method": method, "body": body, "headers": {"Content-Type": "application/json"}})
            for method, path, body in [
                ("PUT", "/features/8", feature()),
                ("POST", "/edits", '{"changes":[{"delete":8}]}'),
                ("POST", "/publish", None),
                ("DELETE", "/features/7", None),
            ]
        ]
        cases.show("outsiders: a page of the server edits and publishes", found, [200] * 4)
        found = sent(page, "/features/9", {"method": "PUT", "body": feature(), "referrerPolicy": "no-referrer"})
        cases.show("outsiders: also one that names no referrer", found, 200)
    stranger.shutdown()
    stranger.server_close()
    shutil.rmtree(front.folder)


# ---- what a Host may be

def raw(front, head):
    """The status of the reply to a head, and its content."""
    with socket.create_connection(("127.0.0.1", front.port), timeout=30) as peer:
        peer.sendall(head.encode() + b"\r\nConnection: close\r\n\r\n")
        reply = b"".join(iter(functools.partial(peer.recv, 65536), b""))
    return int(reply.split()[1]), reply.partition(b"\r\n\r\n")[2].decode()


def hosts(cases, front):
    """TileJSON has URLs of the Host that was asked for, and of nothing else."""
    for host in (
        f"127.0.0.1:{front.port}",
        "localhost",
        "LocalHost:8000",
        "localhost.",
        "localhost.:8000",
        "[::1]:8000",
        "[::1]",
    ):
        status, told = raw(front, f"GET /map.json HTTP/1.0\r\nHost: {host}")
        cases.show(
            f"outsiders: TileJSON of {host}",
            (status, json.loads(told)["tiles"]),
            (200, [f"http://{host}/map/{{z}}/{{x}}/{{y}}.mvt"]),
        )
    for host in (
        'localhost:1","evil":"x',
        "localhost:evil.example",
        "localhost:1 evil.example",
        "localhost:123456",
        "localhost:8000@evil.example",
        "localhost:8000#",
    ):
        cases.show(f"outsiders: {host} is no host", raw(front, f"GET /map.json HTTP/1.0\r\nHost: {host}")[0], 400)
    status, told = raw(front, "GET http://localhost/map.json HTTP/1.0\r\nHost: evil.example")
    cases.show("outsiders: nor is one beside a target that names another", (status, "evil" in told), (400, False))


# ---- names that nobody has checked

class Told(http.server.BaseHTTPRequestHandler):
    """A stand-in for the gateway, which keeps who nginx says has asked."""

    def do_GET(self):
        self.server.seen.append((self.headers.get("x-forwarded-user"), self.headers.get("x-real-ip")))
        self.send_response(200)
        self.send_header("content-length", "0")
        self.end_headers()

    def log_message(self, *_):
        pass


def people_in(folder: str) -> None:
    """The file of names and passwords: ann's is `secret`."""
    with open(os.path.join(folder, "people"), "w", encoding="utf-8") as file:
        file.write("ann:{PLAIN}secret\n")


def persons(front):
    """Who has sent the edits of nginx's log: the names and the addresses."""
    time.sleep(0.2)
    with open(os.path.join(front.folder, "edits.log"), encoding="utf-8") as file:
        return [(row["person"], row["address"]) for row in map(json.loads, file)]


def names(cases, folder, nginx):
    """A name counts where nginx has asked for its password."""
    stub = http.server.ThreadingHTTPServer(("127.0.0.1", 0), Told)
    stub.seen = []
    threading.Thread(target=stub.serve_forever, daemon=True).start()
    gateway = ("127.0.0.1:8090", f"127.0.0.1:{stub.server_port}")
    with Server(folder, "unasked") as server, Nginx(nginx, folder, server, [gateway]) as front:
        status = status_of(curl(front.url + "/features/7", "-X", "PUT", "-u", "ann:any", body=feature()))
        curl(front.url + "/wfs", "-u", "ann:any")
        cases.show(
            "outsiders: a name, where nobody has a password",
            (status, persons(front), stub.seen),
            (200, [("", "127.0.0.1")], [(None, "127.0.0.1")]),
        )
    shutil.rmtree(front.folder)
    stub.seen.clear()
    logs_in = ("        # 192.168.1.0/24 2;", "        127.0.0.3 2;")
    with Server(folder, "asked") as server, Nginx(nginx, folder, server, [gateway, logs_in, *PASSWORDS]) as front:
        people_in(front.folder)
        asked(cases, front, stub)
    shutil.rmtree(front.folder)
    stub.shutdown()
    stub.server_close()


def asked(cases, front, stub):
    """Where people have passwords: from an address without one, from others, and from one that sees its own edits at
    once."""
    rows = [
        ("127.0.0.1", "ann:wrong", 200, ""),
        ("127.0.0.1", "ann:secret", 200, ""),
        ("127.0.0.1", "bob:any", 200, ""),
        ("127.0.0.2", "ann:secret", 200, "ann"),
        ("127.0.0.2", "ann:wrong", 401, None),
        ("127.0.0.2", "bob:any", 401, None),
        ("127.0.0.3", "ann:secret", 200, "ann"),
        ("127.0.0.3", "ann:wrong", 401, None),
    ]
    for address, person, status, _ in rows:
        words = ["-u", person, "--interface", address]
        found = status_of(curl(front.url + "/features/7", "-X", "PUT", *words, body=feature())), status_of(
            curl(front.url + "/wfs", *words)
        )
        cases.show(f"outsiders: {person} from {address}", found, (status, status))
    wanted = [(person, address) for address, _, _, person in rows if person is not None]
    cases.show("outsiders: who has edited, by nginx's log", persons(front), wanted)
    cases.show(
        "outsiders: and by what the gateway is told",
        stub.seen,
        [(person or None, address) for person, address in wanted],
    )
    seen = []
    for address in ("127.0.0.2", "127.0.0.3"):
        curl(front.url + "/map/1/0/0.mvt", "--interface", address)
        seen.append(field(curl(front.url + "/map/1/0/0.mvt?edit=3", "--interface", address), "x-cache"))
    cases.show("outsiders: who logs in from an address of `geo` sees its edits at once", seen, ["HIT", "MISS"])


# ---- one address that asks for much

def fill(server):
    """A map whose tile 0/0/0 has 3 MB, published with an archive of over 10 MB; the tile 5/0/0 is a small one of
    over 1,000 bytes."""
    for number in range(100):
        tags = {f"k{at}": f"{number} {at} " + "x" * 1000 for at in range(30)}
        curl(
            f"{server.url}/features/{number}",
            "-X",
            "PUT",
            body=feature(last=3, geometry={"points": [[number * 1000000, 0]]}, tags=tags),
        )
    curl(server.url + "/features/900", "-X", "PUT", body=feature("q", 5, 5, tags={"k": "y" * 1024}))
    curl(server.url + "/publish", "-X", "POST")


def begun(front, head, address="127.0.0.1"):
    """A connection that has sent this, and reads nothing."""
    peer = socket.socket()
    peer.setsockopt(socket.SOL_SOCKET, socket.SO_RCVBUF, 4096)
    peer.settimeout(30)
    peer.bind((address, 0))
    peer.connect(("127.0.0.1", front.port))
    peer.sendall(head.encode())
    return peer


def compressed(cases, server, front):
    """A tile is the same with gzip and without, and nginx keeps it as it sends it."""
    url, path = front.url, "/map/0/0/0.mvt"
    plain = curl(server.url + path)[2]
    for value, packs in [
        ("gzip", True),
        ("GZIP", True),
        ("deflate, gzip;q=0.5", True),
        ("br;q=1.0,gzip ; q=1.000, *;q=0", True),
        ("gzip;q=0", False),
        ("gzip; q=0.000, identity", False),
        ("identity", False),
        ("x-gzip", False),
        ("gzipped", False),
        ("br", False),
    ]:
        reply = curl(url + path, "-H", f"Accept-Encoding: {value}")
        is_packed = field(reply, "content-encoding") == "gzip"
        content = gzip.decompress(reply[2]) if is_packed else reply[2]
        cases.show(
            f"outsiders: a tile for Accept-Encoding: {value}",
            (status_of(reply), is_packed, content == plain),
            (200, packs, True),
        )
        cases.show("outsiders: and what it varies by", field(reply, "vary"), "Accept-Encoding")
    for words, states in (([], ["HIT", "MISS", "HIT"]), (["-H", "Accept-Encoding: gzip"], ["HIT", "MISS", "HIT"])):
        found = [field(curl(url + path + query, *words), "x-cache") for query in ("", "?edit=101", "?edit=101")]
        cases.show(f"outsiders: from the cache, {' '.join(words) or 'as it is'}", found, states)
    kept = [
        name
        for folder, _, names_in in os.walk(os.path.join(front.folder, "cache"))
        for name in (os.path.join(folder, each) for each in names_in)
    ]
    heads = [open(name, "rb").read(2000) for name in kept]
    cases.show(
        "outsiders: nginx keeps it compressed",
        any(b"KEY: gzip:/map/0/0/0.mvt\n" in head and b"Content-Encoding: gzip" in head for head in heads),
        True,
    )
    cases.show("outsiders: no path is the key of another tile", status_of(curl(url + path + "gzip")), 404)


def of_one_tile(cases, server, front):
    """HEAD, parts and conditions of a tile that is kept compressed, and of one that isn't."""
    url, path = front.url, "/map/0/0/0.mvt"
    plain = curl(server.url + path)[2]
    for words in ([], ["-H", "Accept-Encoding: gzip"]):
        name = " ".join(words) or "as it is"
        head = curl(url + path, "--head", *words)
        tag = field(head, "etag")
        cases.show(
            f"outsiders: HEAD, {name}",
            (status_of(head), head[2], field(head, "content-encoding")),
            (200, b"", "gzip" if words else None),
        )
        reply = curl(url + path, "-H", f"If-None-Match: {tag}", *words)
        cases.show(
            f"outsiders: under its tag, {name}", (status_of(reply), reply[2], field(reply, "etag")), (304, b"", tag)
        )
        part = curl(url + path, "-H", "Range: bytes=0-99", *words)
        # A server may ignore Range (RFC 9110, 14.2): the content is the whole tile then.
        wanted = plain[:100] if status_of(part) == 206 else plain
        content = gzip.decompress(part[2]) if field(part, "content-encoding") == "gzip" else part[2]
        cases.show(f"outsiders: a part of it, {name}", content == wanted, True)
    cases.show(
        "outsiders: the length of one that isn't compressed",
        int(field(curl(url + path, "--head"), "content-length")),
        len(plain),
    )


def heads(cases, front):
    """A head that is begun and never ends is given up, however it is sent; one that takes a while is answered."""
    peers = [begun(front, "GET / HTTP/1.1\r\nHost: "), begun(front, "")]
    slow, began = begun(front, "GET /map/5/0/0.mvt HTTP/1.1\r\nHost: local"), time.monotonic()
    time.sleep(HEAD / 2)
    slow.sendall(b"host\r\n\r\n")
    cases.show("outsiders: a head that takes five seconds", slow.recv(12), b"HTTP/1.1 200")
    while time.monotonic() < began + HEAD - 2:
        time.sleep(1)
        peers[0].sendall(b"x")
    took = []
    for peer in peers:
        peer.settimeout(BEFORE / 3)
        try:
            rest = peer.recv(4096)
        except TimeoutError:
            rest = b"nothing"
        except ConnectionResetError:
            rest = b""
        took.append((rest in (b"",) or rest.startswith(b"HTTP/1.1 408"), time.monotonic() - began < HEAD + 5))
    cases.show(
        "outsiders: a head of which a byte comes each second is given up, and a connection without one",
        took,
        [(True, True)] * 2,
    )
    for peer in [slow, *peers]:
        peer.close()


def many_heads(cases, front):
    """Begun heads of one address take no connection from others: here more of them than four processes of nginx have
    connections by default."""
    soft, hard = resource.getrlimit(resource.RLIMIT_NOFILE)
    if hard < MANY + 500:
        cases.say(f"outsiders: {hard} descriptors: {MANY} heads aren't begun")
        return
    resource.setrlimit(resource.RLIMIT_NOFILE, (max(soft, MANY + 500), hard))
    peers = [begun(front, "GET / HTTP/1.1\r\nHost: ") for _ in range(MANY)]
    found = [
        status_of(curl(front.url + "/map/5/0/0.mvt", "--interface", address, "--max-time", "5"))
        for address in ("127.0.0.1", "127.0.0.2")
    ]
    cases.show(f"outsiders: a tile beside {MANY:,} begun heads", found, [200, 200])
    for peer in peers:
        peer.close()


def limits(cases, server, front):
    """How many requests of an address are answered at once, and how many parts of the archive."""
    tile, archive = front.url + "/map/5/0/0.mvt", front.url + "/map.pmtiles"
    length = known(server)["archive"]
    half = "PUT /features/9 HTTP/1.1\r\nHost: localhost\r\nContent-Length: 100\r\n\r\n{"
    peers = [begun(front, half) for _ in range(500)]
    end = time.monotonic() + 10
    while status_of(curl(tile)) != 429 and time.monotonic() < end:
        time.sleep(0.2)
    others = status_of(curl(tile, "--interface", "127.0.0.2"))
    cases.show(
        "outsiders: the 501st request of an address, and one of another", (status_of(curl(tile)), others), (429, 200)
    )
    for peer in peers:
        peer.close()
    end = time.monotonic() + 10
    while status_of(curl(tile)) != 200 and time.monotonic() < end:
        time.sleep(0.2)
    cases.show("outsiders: when they have ended", status_of(curl(tile)), 200)
    part = f"GET /map.pmtiles HTTP/1.1\r\nHost: localhost\r\nRange: bytes=0-{length}\r\n\r\n"
    peers = [begun(front, part) for _ in range(200)]
    statuses = {peer.recv(12) for peer in peers}
    found = [
        status_of(curl(archive, "-H", "Range: bytes=0-6", "--interface", address))
        for address in ("127.0.0.1", "127.0.0.2")
    ]
    cases.show(
        "outsiders: 200 parts of the archive at once, one more, and one of another address",
        (statuses, found),
        ({b"HTTP/1.1 206"}, [429, 206]),
    )
    for peer in peers:
        peer.close()


def much(cases, folder, nginx):
    """One address can't have all of nginx, or of the server behind it."""
    with Server(folder, "much", 131072, more=["--admin", "--etags"]) as server, Nginx(nginx, folder, server) as front:
        fill(server)
        compressed(cases, server, front)
        of_one_tile(cases, server, front)
        limits(cases, server, front)
        heads(cases, front)
        many_heads(cases, front)
    shutil.rmtree(front.folder)


# ---- other accounts of the machine

def lines_of(name):
    """The lines of a file of docs/; one that goes on after a backslash is one."""
    with open(os.path.join(TOP, "docs", name), encoding="utf-8") as file:
        return file.read().replace("\\\n", " ").splitlines()


def value_of(unit, name):
    """What a unit sets."""
    return next((line.partition("=")[2] for line in lines_of(unit) if line.startswith(name + "=")), None)


def modes(folder, names_of):
    """The modes of files."""
    return {name: f"{os.stat(os.path.join(folder, name)).st_mode & 0o7777:o}" for name in names_of}


def read_by_others(path):
    """Whether an account that has nothing to do with the map reads a file."""
    words = ["setpriv", "--reuid=12345", "--regid=12345", "--clear-groups", "cat", path]
    return subprocess.run(words, capture_output=True, check=False).returncode == 0


def accounts(cases, folder, nginx):
    """nginx by the words of its unit, in a folder as DEPLOYING.md makes it: what it writes is for root and its
    workers."""
    if os.geteuid() != 0 or not shutil.which("setpriv"):
        cases.say("outsiders: not root, or no setpriv: other accounts aren't tried")
        return
    command = value_of("vtserve-nginx.service", "ExecStart")
    user = re.search(r'-g "user ([a-z-]+);"', command)
    cases.show("outsiders: the unit of nginx names the user of its workers", user and user[1], "www-data")
    with Server(folder, "accounts") as server:
        front = Nginx(
            nginx,
            folder,
            server,
            [],
            unit=(int(value_of("vtserve-nginx.service", "UMask") or "22", 8), user and user[1]),
        )
        with front:
            shutil.copytree(os.path.join(TOP, "web"), os.path.join(front.folder, "pages"))
            worked(cases, front)
            rotated(cases, folder, front)
    shutil.rmtree(front.folder)


def worked(cases, front):
    """Edits, tiles and the page are served; nobody else reads the logs."""
    statuses = [status_of(curl(front.url + path)) for path in ("/pages/", "/map/0/0/0.mvt", "/map/0/0/0.mvt")]
    edit = status_of(curl(front.url + "/features/7", "-X", "PUT", body=feature(tags={"k": "z" * 900})))
    cases.show(
        "outsiders: nginx by its unit serves the page, tiles and edits", (statuses, edit), ([200, 204, 204], 200)
    )
    cases.show("outsiders: and has the tile in its cache", field(curl(front.url + "/map/0/0/0.mvt"), "x-cache"), "HIT")
    logs = ["access.log", "edits.log", "error.log"]
    cases.show("outsiders: the modes of its logs", modes(front.folder, logs), dict.fromkeys(logs, "640"))
    found = [read_by_others(os.path.join(front.folder, name)) for name in logs + ["pages/index.html"]]
    cases.show("outsiders: another account reads none of its files", found, [False] * 4)


def rotated(cases, folder, front):
    """logrotate by docs/vtserve.logrotate: new files are as private, and nginx goes on in them."""
    if not shutil.which("logrotate", path=os.environ.get("PATH", "") + ":/usr/sbin"):
        cases.say("outsiders: no logrotate: logs aren't rotated")
        return
    text = "\n".join(lines_of("vtserve.logrotate")).replace("/var/lib/vtserve-nginx", front.folder)
    # The logs of the user vtserve, who may not be here.
    text = re.sub(r"/var/lib/vtserve-log/edits\.jsonl\n.*?\{.*?\}", "", text, flags=re.DOTALL)
    script, state = os.path.join(folder, "rotate"), os.path.join(folder, "rotate.state")
    with open(script, "w", encoding="utf-8") as file:
        file.write(text + "\n")
    os.chmod(script, 0o644)
    for name in ("access.log", "edits.log"):
        os.chmod(os.path.join(front.folder, name), 0o644)
    told = subprocess.run(
        ["/usr/sbin/logrotate", "--force", "--state", state, script], capture_output=True, text=True, check=False
    )
    time.sleep(1)
    edit = status_of(curl(front.url + "/features/8", "-X", "PUT", body=feature()))
    cases.show(
        "outsiders: logs are rotated", (told.returncode, told.stderr, edit, len(persons(front))), (0, "", 200, 1)
    )
    cases.show(
        "outsiders: the modes of the new ones, also after one for all",
        modes(front.folder, ["access.log", "edits.log"]),
        {"access.log": "640", "edits.log": "640"},
    )


def outsiders(cases: Cases, folder: str) -> None:
    """Who isn't of the office."""
    nginx = nginx_of(cases)
    if not nginx:
        return
    place = os.path.join(folder, "outsiders")
    os.mkdir(place)
    for part in (origins, by_browser, names, much, accounts):
        part(cases, place, nginx)
    shutil.rmtree(place)
