"""The part `maps` of run.py: several maps on a machine, by `vtmap maps`, the template units and docs/nginx.conf.

A stand-in for systemctl runs what the template units run. Three maps and the one of a machine with one are behind
one nginx: one is killed, one is full, one is removed.
"""
import json
import os
import random
import shutil
import signal
import socket
import stat
import subprocess
import sys
import tempfile
import time

from .pictures import Drawer, has_cairo
from .stand import HERE, PROGRAM, TILE, TOP, VTMAP, Cases, Nginx, Server, curl, feature, field, free_port, status_of

TIMED = ("publish", "watch", "backup")
STARTED = "enable --now vtserve@{0}.service" + "".join(f" vtserve-{name}@{{0}}.timer" for name in TIMED)
ONCE = "start --no-block vtserve-publish@north.service vtserve-backup@north.service"
WATCHED = "--quiet is-enabled vtserve-watch-maps.timer"
# Before nginx's files are written: whether all maps have one gateway; and after that, whether nginx runs.
TOLD = ["--quiet is-enabled vtserve-wfs-maps.service", "--quiet is-active vtserve-nginx.service"]
STOPPED = "disable --now" + "".join(f" vtserve-{name}@{{0}}.timer" for name in TIMED) + "".join(
    f" vtserve{name}@{{0}}.service" for name in ("-wfs", "-wmts", "-log", "-standby", ""))


class Here:
    """A machine below a folder: its root, a stand-in for systemctl, and ports of its own."""

    def __init__(self, folder):
        self.root, self.kept, programs = (os.path.join(folder, name) for name in ("root", "stand_in", "programs"))
        for name in (self.root, self.kept, programs):
            os.mkdir(name)
        os.symlink(PROGRAM, os.path.join(programs, "vtserve"))
        with open(os.path.join(programs, "systemctl"), "w", encoding="utf-8") as file:
            file.write(f'#!/bin/sh\nexec {sys.executable} {HERE}/systemctl_stand_in.py "$@"\n')
        os.chmod(file.name, 0o755)
        self.words = {
            **os.environ,
            "PATH": programs + ":" + os.environ["PATH"],
            "STAND_IN": self.kept,
            "ROOT": self.root,
            "PROGRAM": PROGRAM,
        }

    def vtmap(self, *words):
        """The status and the lines of a command of vtmap that has a root."""
        child = subprocess.run([*VTMAP, *words, "--root", self.root], env=self.words, capture_output=True, text=True)
        return child.returncode, (child.stdout + child.stderr).splitlines()

    def maps(self, *words):
        """The same of `vtmap maps`."""
        return self.vtmap("maps", *words)

    def add(self, name, *words):
        """The same, for a new map with a small disk and a free port."""
        return self.maps("add", name, "--port", str(free_pair()), "--sectors", "64", *words)

    def has_front(self, program, front):
        """This machine's nginx is one that runs: it includes the files of this machine, and is told to read them
        again."""
        used = os.path.join(front.folder, "used.conf")
        os.symlink(self.path("etc/vtserve/nginx-maps"), os.path.join(front.folder, "nginx-maps"))
        self.words["FRONT"] = front.url
        self.words["NGINX"] = json.dumps([program, "-p", front.folder, "-c", used])

    def calls(self):
        """What systemctl was called with since the last look."""
        path = os.path.join(self.kept, "calls")
        if not os.path.exists(path):
            return []
        with open(path, encoding="utf-8") as file:
            found = file.read().splitlines()
        os.unlink(path)
        return found

    def path(self, *parts):
        return os.path.join(self.root, *parts)

    def mode(self, *parts):
        return oct(stat.S_IMODE(os.stat(self.path(*parts)).st_mode))

    def process(self, unit):
        """The process id of a service."""
        with open(os.path.join(self.kept, unit), encoding="ascii") as file:
            return int(file.read())

    def end(self):
        """Ends what runs."""
        for unit in os.listdir(self.kept):
            if unit.endswith(".service") and os.path.exists(f"/proc/{self.process(unit)}"):
                os.kill(self.process(unit), signal.SIGKILL)


def free_pair():
    """A port that nobody listens on, nor on the next one, below those that the system gives to clients."""
    while True:
        port = random.randrange(20000, 30000, 2)
        with socket.socket() as one, socket.socket() as other:
            if one.connect_ex(("127.0.0.1", port)) and other.connect_ex(("127.0.0.1", port + 1)):
                return port


def answered(url, *words, status=None):
    """The reply of a server that is starting; or the first one of this status, while nginx reads its configuration."""
    for _ in range(100):
        reply = curl(url, *words)
        if status_of(reply) == status or (status is None and status_of(reply) not in (502, 504)):
            break
        time.sleep(0.1)
    return reply


def templates(cases: Cases) -> None:
    """The template units are those of one map, with names, and systemd-analyze has nothing to say of them."""
    child = subprocess.run(
        [sys.executable, os.path.join(TOP, "tools", "templates.py"), "--check"], capture_output=True, text=True
    )
    cases.show("maps: the template units are made of the units of one map", (child.returncode, child.stdout), (0, ""))
    if not shutil.which("systemd-analyze"):
        cases.say("no systemd-analyze: no template unit is judged")
        return
    units = sorted(os.path.join(TOP, "docs", name) for name in os.listdir(os.path.join(TOP, "docs")) if "@." in name)
    child = subprocess.run(["systemd-analyze", "verify", *units], capture_output=True, text=True)
    faults = [line for line in child.stderr.splitlines() if "is not executable: No such file" not in line]
    cases.show("maps: systemd-analyze verify of the template units", (len(units), faults), (12, []))


def commands(cases, here):
    """What `vtmap maps` writes and runs."""
    cases.show("maps: none", here.maps(), (0, ["there is no map: `vtmap maps add NAME` makes one"]))
    for name in ("map", "features", "North", "1st", "a/b", "-x", "x" * 32, ""):
        cases.show(f"maps: a name that is none: {name!r}", here.maps("add", name)[0], 2)
    cases.show("maps: no host name", here.maps("add", "north", "--host", "north;")[0], 2)
    cases.show("maps: other words that are wrong", [here.maps(*words)[0] for words in (
        ["add"], ["add", "north", "--sectors", "1"], ["add", "north", "--memory", "much"])], [2, 2, 2])
    os.makedirs(here.path("etc/vtserve"))
    with open(here.path("etc/vtserve/nginx.conf"), "w", encoding="utf-8") as file:
        file.write("events {}\n")
    told = here.maps("add", "north")
    cases.show(
        "maps: an nginx.conf that knows one map",
        (told[0], "install nginx.conf anew" in told[1][0], os.listdir(here.path("etc/vtserve"))),
        (1, True, ["nginx.conf"]),
    )
    shutil.copy(os.path.join(TOP, "docs", "nginx.conf"), here.path("etc/vtserve/nginx.conf"))
    with open(os.path.join(here.kept, "fails"), "w", encoding="ascii"):
        told = here.add("north")
    cases.show("maps: systemctl fails", (told[0], "Failed to enable unit" in told[1][0], here.maps()[0]), (1, True, 0))
    os.unlink(os.path.join(here.kept, "fails"))
    here.calls()
    disk = here.path("var/lib/vtserve/north/map.disk")
    status, lines = here.maps("add", "north", "--host", "north.example.org", "--memory", "512M", "--sectors", "4096")
    once = " once nginx runs (vtserve-nginx.service)"
    said = [
        f"{disk} is kept as it was",
        "north: http://localhost:8000/north/" + once,
        "north: http://north.example.org:8000/" + once,
    ]
    cases.show("maps: vtmap maps add", (status, lines), (0, said))
    wanted = ["daemon-reload", WATCHED, STARTED.format("north"), ONCE, *TOLD]
    cases.show("maps: what it runs", here.calls(), wanted)
    modes = [
        here.mode(*path)
        for path in (["etc/vtserve/maps/north"], ["var/lib/vtserve/north/map.disk"], ["var/lib/vtserve/north"])
    ]
    cases.show("maps: modes of its files, and of its folder", modes, ["0o640", "0o640", "0o750"])
    with open(here.path("etc/vtserve/maps/north"), encoding="utf-8") as file:
        cases.show(
            "maps: its file",
            file.read().splitlines()[1:],
            ["PORT=8100", "GATEWAY=8101", 'HOSTS="north.example.org"', "PICTURES=18100"],
        )
    with open(here.path("etc/systemd/system/vtserve@north.service.d/memory.conf"), encoding="utf-8") as file:
        cases.show("maps: its limit", file.read(), "[Service]\nMemoryMax=512M\n")
    cases.show("maps: a map that is there", here.maps("add", "north"), (1, ["there is a map north already"]))
    cases.show("maps: a host name of another map", here.maps("add", "south", "--host", "north.example.org"),
               (1, ["north.example.org is a name of the map north"]))
    cases.show("maps: a port of another map", here.maps("add", "south", "--port", "8101")[0], 1)
    here.calls()
    cases.show(
        "maps: the next ports",
        (here.maps("add", "south", "--sectors", "64")[1][0].split()[1:], here.maps()[1][1].split(":")[0]),
        (["is", "formatted,", "64", "sectors"], "south"),
    )
    with open(here.path("etc/vtserve/maps/south"), encoding="utf-8") as file:
        cases.show("maps: they are free ones", file.read().splitlines()[1:3], ["PORT=8102", "GATEWAY=8103"])
    with open(here.path("etc/vtserve/maps/south~"), "w", encoding="utf-8"):
        cases.show("maps: what an editor leaves is none", len(here.maps()[1]), 2)
    os.unlink(here.path("etc/vtserve/maps/south~"))
    cases.show("maps: a map that isn't there", here.maps("remove", "west"), (1, ["there is no map west"]))
    here.calls()
    for name in ("north", "south"):
        cases.show(
            f"maps: vtmap maps remove {name}",
            here.maps("remove", name),
            (0, [f"{name} is removed. Its disk is kept: {here.path('var/lib/vtserve', name, 'map.disk')}"]),
        )
    cases.show(
        "maps: what that runs",
        here.calls(),
        [*TOLD, STOPPED.format("north"), "daemon-reload", *TOLD, STOPPED.format("south")],
    )
    left = sorted(os.listdir(here.path("etc/vtserve/maps"))) + os.listdir(here.path("etc/systemd/system"))
    for unit, said in (
        ("vtserve-watch-maps.timer", "one timer watches all, a map has none"),
        ("vtserve-wfs-maps.service", "one gateway answers for all, a map has none"),
    ):
        with open(os.path.join(here.kept, "enabled"), "w", encoding="ascii") as file:
            file.write(unit)
        here.calls()
        here.maps("add", "north", "--wfs")
        wanted = STARTED.format("north")
        wanted = f"{wanted} vtserve-wfs@north.service" if "watch" in unit else wanted
        wanted = wanted.replace(" vtserve-watch@north.timer", "") if "watch" in unit else wanted
        cases.show(f"maps: where {said} of its own", wanted in here.calls(), True)
        with open(here.path("etc/vtserve/nginx-maps/gateways.conf"), encoding="utf-8") as file:
            cases.show(f"maps: where {said}: nginx", '"~." gateways;' in file.read(), "wfs" in unit)
        here.maps("remove", "north")
    os.unlink(os.path.join(here.kept, "enabled"))
    cases.show("maps: nginx's files anew", (here.maps("nginx")[0], here.maps("nginx", "north")[0]), (0, 2))
    with open(here.path("etc/vtserve/nginx-maps/gateways.conf"), encoding="utf-8") as file:
        cases.show("maps: and no gateway of all", "gateways;" in file.read(), False)
    cases.show("maps: what is left", (left, sorted(os.listdir(here.path("var/lib/vtserve")))), ([], ["north", "south"]))


def all_maps(cases, here, url):
    """One watch of all maps, which says of each what the watch of that map says."""
    kept = here.path("var/lib/vtserve-watch/{map}")
    words = [
        "watch",
        "--maps",
        "--url",
        url + "/{map}",
        "--state",
        kept + "/all.state",
        "--metrics",
        kept + "/all.prom",
    ]
    found = here.vtmap(*words)
    cases.show("maps: one watch of all", found, (0, ["3 maps: nothing to do"]))
    with open(here.path("var/lib/vtserve-watch/south/all.prom"), encoding="utf-8") as file:
        cases.show("maps: the metrics of each", 'vtserve_up{map="south"} 1' in file.read(), True)
    os.makedirs(here.path("var/backups/vtserve/east"), exist_ok=True)
    shutil.copy(
        here.path("etc/vtserve/maps/east"), os.path.join(here.path("var/backups/vtserve/east"), "map-2026-12-01.jsonl")
    )
    code, lines = here.vtmap(*words, "--backups", here.path("var/backups/vtserve/{map}"))
    said = [f"{name}: {here.path('var/backups/vtserve', name)} has no backup" for name in ("north", "south")]
    cases.show(
        "maps: what is to be done about each",
        (code, [line.partition(": is")[0] for line in lines]),
        (1, [*said, "1 map: nothing to do"]),
    )
    code, lines = here.vtmap(*words, "--gateway", "http://127.0.0.1:{gateways}")
    cases.show(
        "maps: words that can't be meant", (code, "{map}, {port} and {gateway} can be named" in lines[-1]), (2, True)
    )
    with tempfile.TemporaryDirectory() as none:
        child = subprocess.run([*VTMAP, "watch", "--maps", "--root", none], capture_output=True, text=True)
        cases.show("maps: a watch of no map", (child.returncode, child.stdout), (0, "0 maps: nothing to do\n"))


# The maps that are there.
NAMES = ["east", "north", "south"]


def logged(here, name):
    """The numbers of the edits in the log of a map, None if there is none."""
    path = here.path("var/lib/vtserve-log", name, "edits.jsonl")
    if not os.path.exists(path):
        return None
    with open(path, encoding="utf-8") as file:
        return [row["edit"] for row in map(json.loads, file) if "edit" in row]


def followed(cases, here, folder):
    """One process that follows all maps: a standby of another machine's map, and logs of the others."""
    words = ["follow", "--maps", "--log", here.path("var/lib/vtserve-log/{map}/edits.jsonl")]
    wrong = [
        ["follow", "--maps"],
        [*words[:3], "edits.jsonl"],
        [*words, "--run", "true"],
        [*words, "--to", "http://127.0.0.1:{port}"],
        [*words, "--to", "http://127.0.0.1:1", "--url", "http://127.0.0.1/{map}"],
    ]
    found = [here.vtmap(*line)[0] for line in wrong]
    cases.show("maps: follow --maps: words that can't be meant", found, [2] * len(wrong))
    code, lines = here.vtmap(*words, "--once")
    cases.show(
        "maps: the log of each is begun",
        (code, sorted(line.split(":")[0] for line in lines), [logged(here, name) for name in NAMES]),
        (0, NAMES, [[], [], []]),
    )
    with Server(folder, "first.disk", 4096) as first:
        here.add("west")
        with open(here.path("etc/vtserve/maps/west"), encoding="utf-8") as file:
            port = next(line for line in file if line.startswith("PORT=")).strip()[5:]
        url = f"http://127.0.0.1:{port}"
        answered(url + "/admin/status")
        closed = here.path("etc/vtserve/nginx-maps/closed.conf")
        with open(closed, "w", encoding="utf-8") as file:
            file.write('"~^west (POST|PUT|DELETE|PATCH)$" 1;\n')
        # A name in the address, which a server ignores, is another one for each map.
        words += ["--url", f"http://{{map}}:x@127.0.0.1:{first.port}", "--to", "http://127.0.0.1:{port}"]
        told = os.path.join(folder, "told")
        with open(told, "w", encoding="utf-8") as file:
            child = subprocess.Popen([*VTMAP, *words, "--root", here.root], env=here.words, stdout=file, stderr=file)
        try:
            following(cases, here, first, url, told)
            taken_over(cases, here, first, url, closed)
        finally:
            child.kill()
            child.wait()
    os.unlink(closed)
    here.maps("remove", "west")


def true_soon(what):
    """Whether something comes true within half a minute."""
    for _ in range(300):
        if what():
            return True
        time.sleep(0.1)
    return False


def edits_of(url):
    """The number of the last edit of a server."""
    return json.loads(curl(url + "/admin/status")[2])["edits"]


def following(cases, here, first, url, told):
    """What that process does while maps are edited, added and removed."""
    for number in range(1, 4):
        curl(f"{first.url}/features/{number}", "-X", "PUT", body=feature())
    cases.show(
        "maps: a standby has the edits of the other machine",
        (true_soon(lambda: edits_of(url) == 3), logged(here, "west")),
        (True, None),
    )
    here.add("inland")
    cases.show("maps: a map that is added is logged", true_soon(lambda: logged(here, "inland") == []), True)
    with open(here.path("etc/vtserve/maps/inland"), encoding="utf-8") as file:
        port = next(line for line in file if line.startswith("PORT=")).strip()[5:]
    curl(f"http://127.0.0.1:{port}/features/1", "-X", "PUT", body=feature())
    cases.show("maps: with its edits", true_soon(lambda: logged(here, "inland") == [1]), True)
    here.maps("remove", "inland")

    def is_left():
        with open(told, encoding="utf-8") as file:
            return any(line.startswith("inland: ") and line.endswith("followed no more\n") for line in file)

    cases.show("maps: one that is removed is followed no more", true_soon(is_left), True)
    os.kill(here.process("vtserve@north.service"), signal.SIGKILL)
    curl(f"{first.url}/features/4", "-X", "PUT", body=feature())
    cases.show("maps: one whose server is killed holds up no other", true_soon(lambda: edits_of(url) == 4), True)
    subprocess.run(["systemctl", "enable", "--now", "vtserve@north.service"], env=here.words)


def taken_over(cases, here, first, url, closed):
    """A standby of that process is taken over: it is left, and logged."""
    os.makedirs(here.path("var/lib/vtserve-nginx"), exist_ok=True)
    first.end(signal.SIGKILL)
    with open(os.path.join(here.kept, "enabled"), "w", encoding="ascii") as file:
        file.write("vtserve-follow-maps.service")
    here.calls()
    code, lines = here.vtmap("takeover", "--map", "west", "--leader", first.url)
    os.unlink(os.path.join(here.kept, "enabled"))
    called = here.calls()
    units = [call for call in called if "vtserve-standby@" in call or "vtserve-log@" in call]
    with open(closed, encoding="utf-8") as file:
        cases.show(
            "maps: one is taken over",
            (code, lines[-1].split(".")[0], units, file.read()),
            (0, "taken over: edits go on with 5", [], ""),
        )
    curl(f"{url}/features/9", "-X", "PUT", body=feature())
    cases.show("maps: it is logged from then on", true_soon(lambda: logged(here, "west") == [5]), True)


def addresses(cases, here, front):
    """Three maps by paths and by host names, and the one of a machine with one."""
    url = front.url
    north = ("-H", "Host: north.example.org")
    for path, number in (("/north", 1), ("/south", 2), ("/east", 3), ("", 4)):
        reply = answered(f"{url}{path}/features/{number}", "-X", "PUT", status=400)
        cases.show(f"maps: {path or '/'} has a server", status_of(reply), 400)
        cases.show(
            f"maps: an edit of {path or '/'}",
            curl(f"{url}{path}/features/{number}", "-X", "PUT", body=feature(f"of{number}"))[2],
            b'{"edit":1}',
        )
    found = {
        path: json.loads(curl(url + path + "/admin/features/page/0")[2])["features"][0]["id"]
        for path in ("/north", "/south", "/east", "")
    }
    cases.show("maps: each has its own", found, {"/north": 1, "/south": 2, "/east": 3, "": 4})
    cases.show(
        "maps: by its host name", json.loads(curl(url + "/admin/features/page/0", *north)[2])["features"][0]["id"], 1
    )
    cases.show("maps: a host name of none", status_of(curl(url + "/map/metadata", "-H", "Host: west.example.org")), 421)
    for again in ("", " again"):
        tiles = [
            curl(f"{url}{path}/map/0/0/0.mvt", *words)[2]
            for path, words in (("/north", ()), ("/south", ()), ("", north), ("", ()))
        ]
        wanted = [
            bytes.fromhex(TILE)
            .replace(b"\x1a\x13\x0a\x01p\x12", b"\x1a\x15\x0a\x03of%d\x12" % number)
            .replace(b"\x08\x07", b"\x08%c" % number)
            for number in (1, 2, 1, 4)
        ]
        cases.show(f"maps: a tile of each{again}, by nginx's cache", tiles, wanted)
    paths = [
        "/north//map/0/0/0.mvt",
        "/north/south/map/0/0/0.mvt",
        "/west/map/0/0/0.mvt",
        "/north/map.json/",
        "/northern/map/0/0/0.mvt",
    ]
    cases.show("maps: paths of none", [status_of(curl(url + path)) for path in paths], [404] * len(paths))
    foreign = ["-X", "PUT", "-H", "Origin: http://other.example"]
    found = [
        status_of(curl(url + path + "/features/1", *foreign, *words, body=feature()))
        for path, words in (("/north", ()), ("", north), ("", ()))
    ]
    cases.show("maps: an edit of a page of another origin", found, [403] * 3)
    for path, words, place in (("/north", (), f"{url}/north"), ("", north, "http://north.example.org"), ("", (), url)):
        found = json.loads(curl(url + path + "/map.json", *words)[2])
        cases.show(
            f"maps: TileJSON of {place}", (found["tiles"], "bounds" in found), ([place + "/map/{z}/{x}/{y}.mvt"], False)
        )
    for path, words in (("/north", ()), ("", north), ("", ())):
        page = curl(f"{url}{path}/pages/", *words)
        moved = [field(curl(url + path + end, *words), "location") for end in ("/", "/pages")]
        cases.show(
            f"maps: the page of {path or words}",
            (status_of(page), b"page.js" in page[2], moved),
            (200, True, [path + "/pages/"] * 2),
        )
    state = here.path("var/lib/vtserve-watch/north")
    os.makedirs(state)
    words = [*VTMAP, "publish", "--url", url + "/north", "--record", os.path.join(state, "published")]
    publication = subprocess.run(words, capture_output=True, text=True)
    cases.show(
        "maps: vtmap by the address of a map",
        (publication.returncode, publication.stdout.splitlines()[-1:]),
        (0, ["published"]),
    )
    parts = [curl(url + path + "/map.pmtiles", "-H", "Range: bytes=0-6") for path in ("/north", "/south")]
    cases.show(
        "maps: the archive of each",
        [(status_of(part), part[2]) for part in parts],
        [(206, b"PMTiles"), (404, b"NotFound\n")],
    )
    child = subprocess.run(
        ["systemctl", "start", "vtserve-watch@north.service"], env=here.words, capture_output=True, text=True
    )
    said = f"{here.path('var/backups/vtserve/north')} has no backup"
    cases.show(
        "maps: the watch of a map", (child.returncode, said in child.stdout or child.stdout + child.stderr), (1, True)
    )
    with open(os.path.join(state, "vtserve.prom"), encoding="utf-8") as file:
        cases.show(
            "maps: its metrics",
            [line for line in file.read().splitlines() if line.startswith("vtserve_features")],
            ['vtserve_features{map="north"} 1'],
        )
    all_maps(cases, here, url)
    links = {link["rel"]: link["href"] for link in json.loads(answered(url + "/north/ogc/")[2])["links"]}
    cases.show("maps: its gateway knows the path", links["data"], f"{url}/north/ogc/collections")
    cases.show(
        "maps: a map without a gateway, and without pictures",
        [status_of(curl(url + path)) for path in ("/south/ogc/", "/south/xyz/0/0/0.png")],
        [502] * 2,
    )
    if has_cairo(cases):
        drawn(cases, here, front)
    logs = {
        name: open(os.path.join(front.folder, name), encoding="utf-8").read().count("\n")
        for name in sorted(os.listdir(front.folder))
        if "edits" in name
    }
    cases.show(
        "maps: a log of the edits of each",
        logs,
        {"edits-east.log": 1, "edits-north.log": 1, "edits-south.log": 1, "edits.log": 1},
    )


def drawn(cases, here, front):
    """The pictures of a map, at its path."""
    with open(here.path("etc/vtserve/maps/south"), encoding="utf-8") as file:
        ports = dict(line.rstrip().split("=") for line in file if line.startswith(("PORT=", "PICTURES=")))
    with Drawer(here.root, f"http://127.0.0.1:{ports['PORT']}", port=ports["PICTURES"]):
        seen = [
            status_of(curl(f"{front.url}{path}"))
            for path in ("/south/xyz/0/0/0.png", "/south/wmts/1.0.0/map/default/GoogleMapsCompatible/0/0/0.png")
        ]
        told = curl(front.url + "/south/wmts/1.0.0/WMTSCapabilities.xml")[2].decode()
        cases.show(
            "maps: its pictures, and where they say that they are",
            (seen, f'"{front.url}/south/wmts?"' in told),
            ([200, 200], True),
        )


def boxes(cases, here, front):
    """The box that the TileJSON of a map has."""
    def tilejson(wanted):
        """The box and the centre of a map's TileJSON, once nginx has read its files."""
        found = None
        for _ in range(100):
            reply = json.loads(curl(front.url + f"/south/map.json?{time.monotonic()}")[2])
            found = reply.get("bounds"), reply.get("center")
            if found == wanted:
                break
            time.sleep(0.1)
        return found

    wrong = ["7.2,54.3,7.9", "a,b,c,d", "7.9,54.3,7.2,54.8", "7.2,54.8,7.9,54.3", "-181,0,0,1", "0,0,1,86", "nan,0,1,1"]
    cases.show(
        "maps: boxes that are none",
        [here.maps("bounds", "south", "--bounds=" + text)[0] for text in wrong],
        [2] * len(wrong),
    )
    cases.show("maps: the box of a map that isn't there", here.maps("bounds", "west")[0], 1)
    with open(here.path("etc/vtserve/maps/south"), "a", encoding="utf-8") as file:
        file.write("VTSERVE_PAUSE=5\n")
    # A box of 0.7 degrees is 1/514 of the world's width: nine halvings.
    cases.show(
        "maps: a box",
        here.maps("bounds", "south", "--bounds=-7.2,54.3,-6.5,54.8"),
        (0, ["south: bounds -7.2,54.3,-6.5,54.8"]),
    )
    cases.show(
        "maps: its TileJSON has it",
        tilejson(([-7.2, 54.3, -6.5, 54.8], [-6.85, 54.55, 9])),
        ([-7.2, 54.3, -6.5, 54.8], [-6.85, 54.55, 9]),
    )
    with open(here.path("etc/vtserve/maps/south"), encoding="utf-8") as file:
        lines = [line for line in file.read().splitlines()[3:] if not line.startswith("PICTURES=")]
        cases.show(
            "maps: its file, with what was added to it",
            lines,
            ['HOSTS=""', "VTSERVE_PAUSE=5", "BOUNDS=-7.2,54.3,-6.5,54.8"],
        )
    cases.show("maps: no box any more", here.maps("bounds", "south"), (0, ["south: no bounds"]))
    cases.show("maps: nor has its TileJSON", tilejson((None, None)), (None, None))


def fates(cases, here, front):
    """One is killed, one is full, one is removed."""
    url = front.url

    def states(*names):
        """What these say of themselves, and their processes."""
        status = {name: json.loads(curl(f"{url}/{name}/admin/status")[2]) for name in names}
        return [(name, status[name]["edits"], here.process(f"vtserve@{name}.service")) for name in names]

    before = states("south", "east")
    os.kill(here.process("vtserve@north.service"), signal.SIGKILL)
    cases.show(
        "maps: one is killed",
        (status_of(curl(url + "/north/features/1")), states("south", "east") == before),
        (502, True),
    )
    cases.show("maps: its tile is served from nginx's cache", status_of(curl(url + "/north/map/0/0/0.mvt")), 200)
    cases.show(
        "maps: vtmap maps lists it",
        (here.maps()[0], [line.split(": ")[0] + line[-6:] for line in here.maps()[1]]),
        (3, ["easttion 0", "northanswer", "southtion 0"]),
    )
    subprocess.run(["systemctl", "enable", "--now", "vtserve@north.service"], env=here.words)
    reply = answered(url + "/north/features/1")
    cases.show("maps: it is started again, and has its edits", status_of(reply), 200)
    number, reply = 100, None
    while reply is None or status_of(reply) == 200:
        reply, number = (
            curl(f"{url}/south/features/{number}", "-X", "PUT", body=feature(tags={"text": "x" * 900})),
            number + 1,
        )
    cases.show("maps: one is full", (status_of(reply), reply[2].split()[0]), (507, b"JournalFull"))
    edits = [curl(f"{url}/{name}/features/9", "-X", "PUT", body=feature()) for name in ("north", "east")]
    cases.show("maps: others take edits", [status_of(edit) for edit in edits], [200, 200])
    before = states("north", "south")
    status, lines = here.maps("remove", "east")
    cases.show("maps: one is removed", (status, lines[0].split(".")[0]), (0, "east is removed"))
    found = [status_of(answered(url + "/east/features/3", status=404)), states("north", "south") == before]
    cases.show("maps: it has no path, and others are as they were", found, [404, True])
    here.add("east")
    reply = answered(url + "/east/features/9", status=200)
    cases.show("maps: it comes back with its disk", status_of(reply), 200)
    cases.show("maps: the map of a machine with one has seen nothing of it", curl(url + "/features/4")[2], b"".join(
        [b'{"geometry":{"points":[[0,0]]},"layer":"of4","maxzoom":2,"minzoom":0,"tags":{}}']))


def maps(cases: Cases, folder: str) -> None:
    """The commands, and three maps behind nginx."""
    folder = os.path.join(folder, "maps")
    os.mkdir(folder)
    templates(cases)
    here = Here(folder)
    try:
        commands(cases, here)
        program = shutil.which("nginx") or shutil.which("nginx", path="/usr/sbin")
        if not program:
            cases.say("no nginx: no maps are behind it")
            return
        place = os.path.join(folder, "front")
        os.mkdir(place)
        with Server(place, "one.disk", 4096) as one:
            with Nginx(
                program,
                place,
                one,
                [("127.0.0.1:8001", f"127.0.0.1:{free_port()}"), ("alias pages/;", f"alias {TOP}/web/;")],
            ) as front:
                here.has_front(program, front)
                told = [
                    here.add("north", "--host", "north.example.org", "--wfs"),
                    here.add("south"),
                    here.add("east", "--front", front.url),
                ]
                cases.show(
                    "maps: three maps are added",
                    ([code for code, _ in told], told[2][1][1]),
                    ([0, 0, 0], f"east: {front.url}/east/"),
                )
                addresses(cases, here, front)
                boxes(cases, here, front)
                followed(cases, here, place)
                fates(cases, here, front)
    finally:
        here.end()
