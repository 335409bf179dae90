"""The part `replicas` of run.py: processes on one machine make the tiles of readers, by `vtmap replica`, the units
of replicas and docs/nginx.conf. A stand-in for systemctl runs what the units run."""
import os
import shutil
import signal
import threading

from .several_maps import Here
from .standby import waited
from .stand import TOP, Cases, Nginx, Server, curl, feature, free_port, status_of

TILE = "/map/0/0/0.mvt"


class Reader(threading.Thread):
    """Asks for tiles, one after the other, until it is stopped."""

    def __init__(self, url):
        super().__init__(daemon=True)
        self.url, self.statuses, self.is_over = url, [], threading.Event()
        self.start()

    def run(self):
        while not self.is_over.is_set():
            self.statuses.append(status_of(curl(self.url + TILE)))

    def end(self):
        """The statuses of its replies, without repeats, once it has ended, and whether there were any."""
        self.is_over.set()
        self.join()
        return len(self.statuses) > 3, sorted(set(self.statuses))


def commands(cases, here, server):
    """What `vtmap replica` refuses, and what it writes."""
    url = ("--url", server.url)
    cases.show(
        "replicas: none", here.vtmap("replica", *url), (0, ["there is no replica: `vtmap replica add` makes one"])
    )
    wrong = [["remove"], ["add", "0"], ["add", "65536"], ["add", "--disk", "here"]]
    cases.show(
        "replicas: words that are wrong", [here.vtmap("replica", *words, *url)[0] for words in wrong], [2] * len(wrong)
    )
    cases.show(
        "replicas: one that isn't there",
        here.vtmap("replica", "remove", "8091", *url),
        (1, ["there is no replica on port 8091"]),
    )
    taken = here.vtmap("replica", "add", str(server.port), *url)
    cases.show("replicas: a port of another server", taken, (1, [f"another server answers on port {server.port}"]))
    cases.show("replicas: without a server", here.vtmap("replica", "--url", f"http://127.0.0.1:{free_port()}")[0], 3)
    with open(here.path("etc/vtserve/nginx.conf"), "w", encoding="utf-8") as file:
        file.write("events {}\n")
    cases.show("replicas: an nginx.conf that knows none", here.vtmap("replica", "add", *url)[0], 1)
    shutil.copy(os.path.join(TOP, "docs", "nginx.conf"), here.path("etc/vtserve/nginx.conf"))
    with open(os.path.join(here.kept, "fails"), "w", encoding="ascii"):
        told = here.vtmap("replica", "add", *url)
    cases.show("replicas: systemctl fails", (told[0], "Failed to enable unit" in told[1][0]), (1, True))
    os.unlink(os.path.join(here.kept, "fails"))
    left = [
        name
        for name in ("etc/vtserve/replicas", "etc/vtserve/nginx-maps/replicas.conf")
        if os.path.exists(here.path(name))
    ]
    cases.show("replicas: nothing is left of those", (left, here.vtmap("replica", *url)[0]), ([], 0))


def added(cases, here, server, front):
    """Adds two while a reader goes on. Returns their ports."""
    ports, reader = [free_port(), free_port()], Reader(front.url)
    first = here.vtmap("replica", "add", str(ports[0]), "--url", server.url)
    cases.show(
        "replicas: one is added",
        first,
        (0, [f"replica on port {ports[0]}: it has edit 1, and makes tiles for readers"]),
    )
    folder = here.path("disks")
    os.mkdir(folder)
    second = here.vtmap("replica", "add", str(ports[1]), "--disk", folder, "--url", server.url)
    cases.show(
        "replicas: another one, whose disk has a folder",
        (second[0], os.listdir(folder)),
        (0, [f"replica-{ports[1]}.disk"]),
    )
    cases.show("replicas: no request fails meanwhile", reader.end(), (True, [200]))
    again = here.vtmap("replica", "add", str(ports[0]), "--url", server.url)
    cases.show("replicas: one that is there", again, (1, [f"there is a replica on port {ports[0]} already"]))
    cases.show(
        "replicas: their list",
        here.vtmap("replica", "--url", server.url),
        (0, [f"port {port}: edit 1" for port in sorted(ports)]),
    )
    with open(here.path("etc/vtserve/replicas"), encoding="utf-8") as file:
        cases.show("replicas: the file of who follows", file.read().splitlines()[1:], ["TO=" + " ".join(
            f"--to http://127.0.0.1:{port}" for port in sorted(ports))])
    return ports


def balanced(cases, here, server, front, ports):
    """Who makes which tiles."""
    def tiles(query=""):
        """The statuses of ten replies with a tile."""
        return {status_of(curl(front.url + TILE + query)) for _ in range(10)}

    follower = here.process("vtserve-replicas.service")
    os.kill(follower, signal.SIGSTOP)
    reply = curl(front.url + "/features/1", "-X", "DELETE")
    cases.show("replicas: an edit is made by the server", status_of(reply), 200)
    cases.show("replicas: readers have the tile of the replicas", tiles(), {200})
    cases.show("replicas: who has edited has the newest", tiles("?edit=2"), {204})
    lag = here.vtmap("replica", "--url", server.url)
    cases.show(
        "replicas: the list says what they lack",
        lag,
        (0, [f"port {port}: edit 1, 1 less than the server" for port in sorted(ports)]),
    )
    os.kill(follower, signal.SIGCONT)
    cases.show("replicas: readers have it once the replicas have the edit", waited(lambda: tiles() == {204}), True)
    curl(front.url + "/features/1", "-X", "PUT", body=feature())
    waited(lambda: tiles() == {200})
    tags = {dict(curl(front.url + TILE)[1]).get("ETag") for _ in range(10)}
    cases.show("replicas: a tile has one tag, since one process makes it", len(tags), 1)
    os.kill(here.process(f"vtserve-replica@{ports[0]}.service"), signal.SIGKILL)
    cases.show("replicas: one that is away", (tiles(), here.vtmap("replica", "--url", server.url)[0]), ({200}, 3))
    os.kill(here.process(f"vtserve-replica@{ports[1]}.service"), signal.SIGKILL)
    cases.show("replicas: without any the server makes the tiles", tiles(), {200})


def removed(cases, here, server, front, ports):
    """Removes them while a reader goes on."""
    reader = Reader(front.url)
    for port in ports:
        cases.show("replicas: one is removed", here.vtmap("replica", "remove", str(port), "--url", server.url), (
            0, [f"the replica on port {port} is removed"]))
    cases.show("replicas: no request fails meanwhile, either", reader.end(), (True, [200]))
    left = [name for name in os.listdir(here.path("etc/vtserve/nginx-maps"))] + os.listdir(
        here.path("etc/systemd/system")
    )
    cases.show("replicas: what is left", (left, os.path.exists(here.path("etc/vtserve/replicas"))), ([], False))


def replicas(cases: Cases, folder: str) -> None:
    """A server and two replicas behind nginx."""
    program = shutil.which("nginx", path=os.environ.get("PATH", "") + ":/usr/sbin")
    if not program:
        cases.say("replicas: no nginx: nobody balances")
        return
    place = os.path.join(folder, "replicas_part")
    os.mkdir(place)
    here = Here(place)
    for part in ("etc/vtserve", "var/lib/vtserve"):
        os.makedirs(here.path(part))
    try:
        with Server(here.path("var/lib/vtserve"), "map.disk") as server:
            here.words["SERVER"] = server.url
            commands(cases, here, server)
            curl(server.url + "/features/1", "-X", "PUT", body=feature())
            with Nginx(program, place, server, [("proxy_cache tiles;", "proxy_cache off;")]) as front:
                here.has_front(program, front)
                ports = added(cases, here, server, front)
                balanced(cases, here, server, front, ports)
                removed(cases, here, server, front, ports)
    finally:
        here.end()
    shutil.rmtree(place)
