"""The part `wfs-hostile` of run.py: names of a map that are markup or forge lines of a log, requests that are made to
take long or much memory, and new features that are saved several times alike."""
import http.client
import json
import os
import random
import re
import signal
import socket
import subprocess
import threading
import time
import urllib.parse
import xml.etree.ElementTree as tree
from types import SimpleNamespace
from unittest import mock

from vtmap.gateway import filters, live_map, sessions, tables, wfs, wfs_texts

from .gateways import GML, Gateway, Gis, edits_at, feature_at, map_at, point, put_at, text_of
from .import_stand import has_gdal
from .stand import VTMAP, Cases, Server, curl, feature, field, status_of

LAYER, TAG, VALUE = "p\"><script>'&", 'k" onload="<x>', "]]></a><script>1</script>&\"'\x0b"
FORGED = "p\n2026-11-29 12:00:00  1  anna  deleted p 1\x1b[2J\x9b2J"
HEAD = "POST /wfs HTTP/1.1\r\nHost: 127.0.0.1:{port}\r\nContent-Type: text/xml\r\nContent-Length: 1000\r\n\r\n<a>"


def wfs_hostile(cases: Cases, folder: str) -> None:
    """All of it."""
    folder = os.path.join(folder, "wfs-hostile")
    os.mkdir(folder)
    patterns(cases)
    many_sessions(cases)
    unlocked(cases)
    with Server(folder, "map", sectors=16384) as server:
        # A gateway that would take all of the machine's memory is ended before.
        with Gateway(folder, server.url, under=["prlimit", f"--as={2 ** 32}"]) as gateway:
            markup(cases, server, gateway)
            long_like(cases, server, gateway)
            late = stopped_body(gateway)
            bodies(cases, gateway)
            encodings(cases, folder, gateway)
            alike(cases, server, gateway)
            answered_late(cases, late)
            stopped_bodies(cases, gateway)
        persons(cases, folder, server)
        lines(cases, folder, server)


# ---- markup

def markup(cases, server, gateway):
    """A layer, a tag and a value that are markup: each reply has them as a text."""
    curl(f"{server.url}/features/7", "-X", "PUT", body=feature(LAYER, tags={TAG: VALUE, "b": "plain"}))
    curl(f"{server.url}/features/8", "-X", "PUT", body=feature("plain", tags={"name": "Eight"}))
    for version in ("2.0.0", "1.1.0"):
        url = f"{gateway.url}/wfs?VERSION={version}&REQUEST="
        root = tree.fromstring(text_of(url + "GetCapabilities"))
        titles = [one.text for one in root.iter() if one.tag.endswith("}Title")]
        cases.show(f"wfs-hostile: {version}: titles", titles, ["vtserve", f"{LAYER} (points)", "plain (points)"])
        names = {one.tag.rpartition("}")[2] for request in ("GetCapabilities", "DescribeFeatureType", "GetFeature")
                 for one in tree.fromstring(text_of(url + request)).iter()}
        made = [name for name in names if name.lower() in ("script", "x")]
        cases.show(f"wfs-hostile: {version}: no reply has an element of the map's making", made, [])
        rows = tree.fromstring(text_of(url + "GetFeature"))
        values = [one.text for one in rows.iter() if one.text and "script" in one.text]
        cases.show(f"wfs-hostile: {version}: the value", values, [VALUE.replace("\x0b", "\ufffd")])
    layer = urllib.parse.quote(LAYER)
    texts = [text_of(f"{gateway.url}/wfs?REQUEST={text}") for text in (layer, f"GetFeature&TYPENAMES={layer}")]
    reports = [tree.fromstring(text).find(".//{*}ExceptionText").text.endswith(LAYER) for text in texts]
    cases.show("wfs-hostile: a report", reports, [True, True])
    found = json.loads(text_of(f"{gateway.url}/ogc/collections"))["collections"]
    cases.show("wfs-hostile: the other service", found[0]["title"], f"{LAYER} (points)")
    gis = Gis(gateway, "plain.points")
    version = re.search(r"8\.([0-9a-f]+)", str(gis.rows() and gis.fids[8]))[1]
    gis.fids[8] = f"&quot;/&gt;&lt;script&gt;.8.{version}"
    cases.show("wfs-hostile: an id with markup", gis.save(gis.update(8, name="x"))[:21], "no feature has the id")
    for path in ("/wfs?REQUEST=GetCapabilities", "/ogc/", "/ogc/nix", "/nix"):
        reply = curl(gateway.url + path)
        policy = field(reply, "content-security-policy") or ""
        found = field(reply, "x-content-type-options"), "default-src 'none'" in policy
        cases.show(f"wfs-hostile: what a browser may do with {path}", found, ("nosniff", True))


def lines(cases, folder, server):
    """A layer whose name is a line of a log and an escape: each command prints one line of it, without the escape."""
    number = 900
    made = {"layer": FORGED, "minzoom": 0, "maxzoom": 2, "geometry": {"points": [[0, 0]]}, "tags": {FORGED: FORGED}}
    curl(f"{server.url}/features/{number}", "-X", "PUT", body=json.dumps(made))
    log, kept = os.path.join(folder, "edits.jsonl"), os.path.join(folder, "kept.jsonl")
    changed = {"put": number, "feature": {**made, "tags": {FORGED: "x"}}, "was": made}
    with open(log, "w", encoding="utf-8") as file:
        file.write(json.dumps({"time": "2026-11-29T12:00:00.000Z", "edit": 1, "changes": [changed]}) + "\n")
    with open(kept, "w", encoding="utf-8") as file:
        file.write(json.dumps({"id": 1, "feature": {**made, "layer": "p"}}) + "\n")
    url = ["--url", server.url]
    for name, words, count in [
        ("log", ["log", log], 1),
        ("log --count layer", ["log", log, "--count", "layer"], 1),
        ("log --count feature", ["log", log, "--count", "feature"], 1),
        ("log --json", ["log", log, "--json"], 1),
        ("undo", ["undo", "1", "--log", log, "--dry-run", *url], 2),
        ("load", ["load", kept, "--exactly", *url], 2),
        *(imported(folder, url) if has_gdal(cases) else []),
        ("delete-layer", ["delete-layer", FORGED, *url], 1),
    ]:
        child = subprocess.run([*VTMAP, *words], capture_output=True, text=True, timeout=100)
        controls = [part for part in child.stdout + child.stderr if not part.isprintable() and part != "\n"]
        told = child.stdout.splitlines()
        forged = [line for line in told if line.startswith("2026")]
        found = len(told) if count else any("anna" in line for line in told), forged, controls
        wanted = count or True, told[:1] if name == "log" else [], []
        cases.show(f"wfs-hostile: vtmap {name} prints no line of a name", found, wanted)


def imported(folder, url):
    """Imports of a file whose layer, and a field that is dropped, have that name."""
    path = os.path.join(folder, "forged.geojson")
    shape = {"type": "Point", "coordinates": [7, 54]}
    row = {"type": "Feature", "id": 1, "properties": {FORGED: [1, 2], "name": FORGED}, "geometry": shape}
    with open(path, "w", encoding="utf-8") as file:
        file.write(json.dumps({"type": "FeatureCollection", "features": [row]}))
    words = [path, "--layer", FORGED, "--id", "id", "--dry-run", *url]
    return [(name, [name, *words], None) for name in ("import", "update")]


def persons(cases, folder, server):
    """Who saves is what nginx says, and nothing without it. A Save that was sent again is told as one."""
    for words, wanted in (([], "127.0.0.1"), (["--behind-nginx"], "J\u00f6rg")):
        with Gateway(folder, server.url, *words) as gateway:
            gis = Gis(gateway, "plain.points")
            action = gis.insert(point(9.0 + len(words), 9.0))
            fields = "-H", "Content-Type: text/xml", "-H", "X-Forwarded-User: J\u00f6rg"
            for _ in range(2):
                curl(gis.url, *fields, body=f"<Transaction {GML}>{action}</Transaction>")
            told = [line.split(": ")[1:] for line in gateway.end()[1] if line.startswith("saved: ")]
        cases.show(
            f"wfs-hostile: a name {'with' if words else 'without'} --behind-nginx",
            [name for name, _ in told],
            [wanted] * 2,
        )
        cases.show(
            "wfs-hostile: the log says what was sent again",
            [made.split(",")[0] for _, made in told],
            ["1 new", "1 sent again"],
        )


# ---- filters

def slowly(pattern, text):
    """Whether a text is like a pattern of letters, `*` for any text, `?` for any letter, and `!` before a letter that
    stands for itself."""
    if not pattern:
        return not text
    if pattern[0] == "*":
        return any(slowly(pattern[1:], text[at:]) for at in range(len(text) + 1))
    letter, rest = (pattern[1:2], pattern[2:]) if pattern[0] == "!" else (pattern[0], pattern[1:])
    if pattern == "!":
        return not text
    return bool(text) and (pattern[0] == "?" or letter == text[0]) and slowly(rest, text[1:])


def patterns(cases: Cases) -> None:
    """Random patterns beside a slow reference."""
    chance, differ = random.Random(5), []
    like = tree.Element("PropertyIsLike", {"wildCard": "*", "singleChar": "?", "escapeChar": "!"})
    for _ in range(100_000):
        pattern = "".join(chance.choice("ab*?!.") for _ in range(chance.randrange(7)))
        text = "".join(chance.choice("ab*!.\n") for _ in range(chance.randrange(8)))
        if filters.value_test("PropertyIsLike", like, [pattern])(text) != slowly(pattern, text):
            differ.append((pattern, text))
    cases.show("wfs-hostile: 100,000 patterns of LIKE", differ[:3], [])


def long_like(cases, server, gateway):
    """A pattern with many wildcards that a long text nearly has."""
    put_at(server.url, 8, name="a" * 1000)
    words = f'<ValueReference>name</ValueReference><Literal>{"*a" * 12}*b</Literal>'
    like = f'<Filter><PropertyIsLike wildCard="*" singleChar="?" escapeChar="!">{words}</PropertyIsLike></Filter>'
    query = urllib.parse.urlencode({"REQUEST": "GetFeature", "TYPENAMES": "v:plain.points", "FILTER": like})
    began = time.monotonic()
    reply = curl(f"{gateway.url}/wfs?{query}", "--max-time", "10")
    found = status_of(reply), time.monotonic() - began < 5
    cases.show("wfs-hostile: twelve wildcards take less than five seconds", found, (200, True))


# ---- bodies

def peak(gateway):
    """The most memory that a gateway has had, in MB."""
    with open(f"/proc/{gateway.child.pid}/status", encoding="utf-8") as file:
        return int(re.search(r"VmHWM:\s*([0-9]+)", file.read())[1]) // 1024


def posted(gateway, body):
    """What is told of a body."""
    connection = http.client.HTTPConnection("127.0.0.1", gateway.port, timeout=300)
    connection.request("POST", "/wfs", body, {"Content-Type": "text/xml"})
    told = connection.getresponse().read().decode()
    connection.close()
    found = re.search("<ows:ExceptionText>(.*?)</ows:ExceptionText>", told, re.DOTALL)
    return found[1] if found else told


def bodies(cases, gateway):
    """Bodies that would take much more memory than their length, and a long one that doesn't."""
    names, many = "".join(f"<a{at}/>" for at in range(20000)), "over 1,000,000 elements: save fewer features at once"
    deep = "the request is nested too deep: over 500 elements are inside of each other"
    for name, body, wanted in [
        ("nested elements", "<a>" * 4_000_000 + "</a>" * 4_000_000, deep),
        ("many elements", f"<a>{'<a/>' * 7_000_000}</a>", many),
        ("many attributes", "<a" + "".join(f' a{at}=""' for at in range(1_500_000)) + "/>", many),
        ("a long namespace", f'<a xmlns="{"x" * 1_000_000}">{names}</a>', "a body with a isn't taken"),
        ("a long text", f"<a>{'x' * 20_000_000}</a>", "a body with a isn't taken"),
    ]:
        cases.show(f"wfs-hostile: {name}, {len(body) // 2 ** 20} MB", posted(gateway, body)[-len(wanted):], wanted)
    cases.show("wfs-hostile: which take less than 1 GB", peak(gateway) < 1024, True)
    cases.say(f"at its peak the gateway took {peak(gateway)} MB")
    cases.show("wfs-hostile: and the map is read", len(Gis(gateway, "plain.points").rows()) > 0, True)


def encodings(cases, folder, gateway):
    """Encodings that there aren't."""
    refused, taken = "the request is no XML: ", "a body with a isn't taken"
    unknown = refused + "unknown encoding: nonsense"
    for name, wanted in (("nonsense", unknown), ("hex", refused), ("windows-1252", taken)):
        told = posted(gateway, f'<?xml version="1.0" encoding="{name}"?><a/>')
        cases.show(f"wfs-hostile: the encoding {name}", told[:len(wanted)], wanted)
    with open(os.path.join(folder, "gateway.log"), encoding="utf-8") as file:
        cases.show("wfs-hostile: none is a fault of the program", "Traceback" in file.read(), False)


# ---- clients that stop

def stopped_body(gateway):
    """A connection whose body stops after three bytes, and since when."""
    peer = socket.create_connection(("127.0.0.1", gateway.port), timeout=100)
    peer.sendall(HEAD.format(port=gateway.port).encode())
    return peer, time.monotonic()


def answered_late(cases, late):
    """Such a body is given up after half a minute."""
    peer, began = late
    told = peer.recv(65536)
    peer.close()
    found = told.split(b"\r\n")[0], time.monotonic() - began < 100
    cases.show("wfs-hostile: a body that stops is given up", found, (b"HTTP/1.1 408 Request Timeout", True))


def stopped_bodies(cases, gateway):
    """Many bodies that stop: others are answered, and SIGTERM ends the gateway at once."""
    peers = [stopped_body(gateway)[0] for _ in range(20)]
    gis = Gis(gateway, "plain.points")
    gis.rows()
    cases.show("wfs-hostile: a save beside 20 bodies that stop", gis.save(gis.update(8, name="Eight")), "SUCCESS")
    began = time.monotonic()
    gateway.child.send_signal(signal.SIGTERM)
    try:
        status = gateway.child.wait(20)
    except subprocess.TimeoutExpired:
        status = None
    cases.show("wfs-hostile: SIGTERM beside them", (status, time.monotonic() - began < 20), (0, True))
    for peer in peers:
        peer.close()


def many_sessions(cases: Cases) -> None:
    """Sessions by names that somebody makes up, and many that have saved."""
    made = sessions.Sessions()
    for at in range(50_000):
        made.get(f"{at:010x}")
    cases.show("wfs-hostile: names that nobody has read or saved by aren't kept", len(made.all), 0)
    for at in range(15_000):
        name = f"{at:010x}"
        session = made.get(name)
        if at < 100:
            session.note("p.points.1.0123456789abcdef", 1, "0123456789abcdef")
        made.keep(name, session)
    found = len(made.all), all(f"{at:010x}" in made.all for at in range(100))
    cases.show("wfs-hostile: 10,000 others are kept, and all that have saved are among them", found, (10_000, True))


def unlocked(cases: Cases) -> None:
    """While features are chosen and written others have the map."""
    live, seen = live_map.LiveMap(None, {}), []
    live.take({7: {"layer": "p", "minzoom": 0, "maxzoom": 2, "geometry": {"points": [[0, 0]]}, "tags": {}}})
    live.look = lambda: None
    service = wfs.Wfs(live, sessions.Sessions(), SimpleNamespace(log=SimpleNamespace(begun={})))

    def looked(work):
        def worked(*words):
            other = threading.Thread(target=lambda: seen.append(is_free(live.lock)))
            other.start()
            other.join()
            return work(*words)
        return worked

    with mock.patch.object(tables.Table, "meeting", looked(tables.Table.meeting)):
        with mock.patch.object(wfs_texts, "features", looked(wfs_texts.features)):
            told = service.answer("", {"request": "GetFeature"}, "http://localhost/wfs")
    found = seen, "<v:p.points" in told
    cases.show("wfs-hostile: the map isn't held while features are chosen and written", found, ([True, True], True))


def is_free(lock):
    """Whether nobody else holds a lock."""
    return lock.acquire(blocking=False) and lock.release() is None


# ---- the same again

def alike(cases, server, gateway):
    """Equal Saves of new features: they are the one that was sent, as long as it is on the map."""
    gis, before = Gis(gateway, "plain.points"), set(map_at(server.url))
    one, two = gis.insert(point(5001.0, 1.0), name="one"), gis.insert(point(5002.0, 1.0), name="two")

    def added():
        return sorted(map_at(server.url)[number]["tags"]["name"] for number in set(map_at(server.url)) - before)

    told = [gis.save(one) for _ in range(3)]
    cases.show("wfs-hostile: three equal Saves", (len(set(told)), added()), (1, ["one"]))
    curl(f"{server.url}/features/{told[0].split('.')[2]}", "-X", "DELETE")
    told = [gis.save(one) for _ in range(2)]
    cases.show("wfs-hostile: and once a colleague has deleted it", (len(set(told)), added()), (1, ["one"]))
    put_at(server.url, int(told[0].split(".")[2]), name="moved")
    cases.show("wfs-hostile: and changed it", (gis.save(one).split()[0], added()), ("SUCCESS", ["moved", "one"]))
    first = gis.save(one, two).split()
    curl(f"{server.url}/features/{first[1].split('.')[2]}", "-X", "DELETE")
    edits, again = edits_at(server.url), gis.save(one, two).split()
    found = again[1] != first[1], again[2] == first[2], edits_at(server.url) - edits, added()
    cases.show("wfs-hostile: of two the one that is gone", found, (True, True, 1, ["moved", "one", "one", "two"]))
    made = feature_at(server.url, int(again[1].split(".")[2]))
    cases.show("wfs-hostile: it has the id that was told", made["tags"], {"name": "one"})
