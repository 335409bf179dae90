"""The part `wfs-deaths` of run.py: the gateway or the server ends in the middle of a long save, by `kill -9` and by
SIGTERM. What was made of the save is undone, by the next start or once the server answers; and a restart isn't
noticed by who edits."""
import json
import os
import signal
import subprocess
import threading
import time

from .between import Between
from .gateways import Gateway, Gis, edits_at, feature_at, map_at, point, put_at, text_of
from .pages import town
from .stand import VTMAP, Cases, Server, curl, feature, free_port

EDITS = "/admin/edits"
# 200 features are four edits.
IDS = range(133, 333)


def wfs_deaths(cases: Cases, folder: str) -> None:
    """All of it."""
    folder = os.path.join(folder, "deaths")
    os.mkdir(folder)
    with Server(folder, "town", sectors=16384) as server:
        town(folder, server.url)
        was = buildings(server.url)
        for at in (1, 2, 4):
            for is_made in (True, False):
                killed(cases, folder, server, was, at, is_made)
        changed_since(cases, folder, server, was)
        ended(cases, folder, server)
        restarted(cases, folder, server)
        unwritable(cases, folder, server)
        behind(cases, folder, server)
    waiting(cases, folder)
    server_killed(cases, folder)


def buildings(url):
    """The features that are saved, as they are on the map."""
    now = map_at(url)
    return {number: now.get(number) for number in IDS}


def differing(url, was):
    """The features that aren't as they were."""
    now = buildings(url)
    return [number for number, feature in was.items() if now[number] != feature]


class Disturbed(Between):
    """Does something once the edit of a number is sent, which then is made or not."""

    def __init__(self, server, at, work, is_made):
        self.at, self.work, self.is_made, self.seen = at, work, is_made, 0
        super().__init__(server, instead=self.look)

    def look(self, method, path):
        """What is replied in place of the server."""
        self.seen += (method, path) == ("POST", EDITS)
        if self.seen == self.at and (method, path) == ("POST", EDITS):
            self.work()
            return None if self.is_made else (0, b"")
        return None


class Saving(threading.Thread):
    """Saves beside, since no reply may come. `told` is what comes."""

    def __init__(self, gis, actions):
        super().__init__()
        self.gis, self.actions, self.told = gis, actions, ""
        self.start()

    def run(self):
        try:
            self.told = self.gis.save(*self.actions)
        except OSError:
            pass


def cut_short(folder, server, at, is_made, value):
    """A save of 200 changes and a new feature whose gateway is killed while an edit is sent. Returns the path of its
    log."""
    state = os.path.join(folder, f"state {at} {is_made} {value}")
    with Disturbed(server, at, lambda: gateway.child.kill(), is_made) as between, Gateway(
        folder, between.url, "--state", state
    ) as gateway:
        gis = Gis(gateway, "building.areas")
        gis.rows()
        thread = Saving(gis, [gis.update(number, floors=value) for number in IDS])
        gateway.child.wait(60)
        thread.join()
        time.sleep(0.5)
    return state


def killed(cases, folder, server, was, at, is_made):
    """The gateway is killed at an edit, and started again."""
    name = f"wfs: a gateway that is killed at edit {at} of 4, which is {'made' if is_made else 'not made'}"
    state = cut_short(folder, server, at, is_made, 90)
    left = len(differing(server.url, was))
    cases.show(f"{name}: leaves a part", (left > 0, left), (at + is_made > 1, min(200, 64 * (at - 1 + is_made))))
    with Gateway(folder, server.url, "--state", state) as gateway:
        cases.show(
            f"{name}: says that it is undone", gateway.told[-2], "a save of 200 features was cut short, and is undone"
        )
        cases.show(f"{name}: nothing of it is left", differing(server.url, was), [])
    with Gateway(folder, server.url, "--state", state) as gateway:
        cases.show(f"{name}: which is done once", [line for line in gateway.told if "cut short" in line], [])


def changed_since(cases, folder, server, was):
    """Somebody changes a feature of a save that was cut short, before it is undone."""
    state = cut_short(folder, server, 3, True, 91)
    put_at(server.url, 140, name="others")
    with open(state, "a", encoding="utf-8") as file:
        file.write('{"sent": 1')
    with Gateway(folder, server.url, "--state", state) as gateway:
        told = (
            "a save of 200 features was cut short, and is undone, but for building 140, which others have changed since"
        )
        cases.show("wfs: what others have changed since stays, and is named", gateway.told[-2], told)
        cases.show("wfs: all else is undone", differing(server.url, was), [140])
        gis = Gis(gateway, "building.areas")
        gis.rows()
        cases.show(
            "wfs: then it can be saved again", gis.save(*(gis.update(number, floors=92) for number in IDS)), "SUCCESS"
        )


def ended(cases, folder, server):
    """A gateway that gets SIGTERM in the middle of a save makes it first."""
    with Disturbed(server, 2, lambda: gateway.child.send_signal(signal.SIGTERM), True) as between, Gateway(
        folder, between.url
    ) as gateway:
        gis = Gis(gateway, "building.areas")
        gis.rows()
        thread = Saving(gis, [gis.update(number, floors=93) for number in IDS])
        status = gateway.child.wait(60)
        thread.join()
        floors = {feature["tags"]["floors"] for feature in buildings(server.url).values()}
        cases.show(
            "wfs: SIGTERM in the middle of a save: it is made whole, and told",
            (status, floors, thread.told),
            (0, {93}, "SUCCESS"),
        )


def restarted(cases, folder, server):
    """A restart, with a file of what was saved and without."""
    for words, wanted in ((["--state", os.path.join(folder, "kept")], "SUCCESS"), ([], "nothing of this was saved")):
        with Gateway(folder, server.url, *words) as gateway:
            gis = Gis(gateway, "place.points")
            gis.rows()
            gis.save(gis.update(451, name="before"), gis.update(452, name="before"))
            added = gis.save(gis.insert(point(835001, 7265001), name="once")).split()[1]
        gis.fids[456] = added
        with Gateway(folder, server.url, *words, port=gateway.port) as gateway:
            told = gis.save(gis.update(451, name="after"), gis.update(456, name="after"))
            cases.show(
                f"wfs: a feature that was saved before a restart {'with' if words else 'without'} --state",
                told[: len(wanted)],
                wanted,
            )
            gis.anew()
            again = gis.save(gis.update(451, name="after F5"), gis.update(452, name="after F5"))
            cases.show("wfs: and after F5", again, "SUCCESS")


def waiting(cases: Cases, folder: str) -> None:
    """A gateway that begins before its server, and two with one file."""
    port, state = free_port(), os.path.join(folder, "waiting")
    with Gateway(folder, f"http://127.0.0.1:{port}", "--state", state) as gateway:
        cases.show(
            "wfs: a gateway without a server waits",
            gateway.told[0].startswith(f"no reply of http://127.0.0.1:{port}: "),
            True,
        )
        told = text_of(f"{gateway.url}/wfs?REQUEST=GetCapabilities")
        cases.show("wfs: and says so", "the map's server: no reply of" in told, True)
        with Server(folder, "late", port=port) as server:
            curl(f"{server.url}/features/7", "-X", "PUT", body=feature())
            cases.show("wfs: until it is there", len(Gis(gateway, "p.points").rows()), 1)
        second = subprocess.run(
            [*VTMAP, "wfs", "--state", state, "--port", str(free_port())], capture_output=True, text=True, timeout=60
        )
        cases.show(
            "wfs: a second one can't use the same file",
            (second.returncode, second.stderr),
            (1, f"another `vtmap wfs` uses {state}\n"),
        )
        second = subprocess.run(
            [*VTMAP, "wfs", "--port", str(gateway.port)], capture_output=True, text=True, timeout=60
        )
        told = f"port {gateway.port} of 127.0.0.1 can't be opened: Address already in use\n"
        cases.show("wfs: nor the same port", (second.returncode, second.stderr), (1, told))


def behind(cases, folder, server):
    """Many edits, publications and an older map while nobody asks the gateway."""
    with Gateway(folder, server.url) as gateway:
        gis = Gis(gateway, "building.areas")
        gis.rows()
        gateway.child.send_signal(signal.SIGSTOP)
        for name in ("one", "two"):
            put_at(server.url, 451, name=name)
            curl(f"{server.url}/publish", "-X", "POST")
        server.restart()
        gateway.child.send_signal(signal.SIGCONT)
        cases.show(
            "wfs: after a publication of edits that it hasn't read",
            Gis(gateway, "place.points").rows()[451]["name"],
            "two",
        )
        changes = [
            {"put": 451, "feature": {**feature_at(server.url, 451), "tags": {"name": f"again {at}"}}}
            for at in range(1100)
        ]
        for change in changes:
            text_of(f"{server.url}/edits", body=json.dumps({"changes": [change]}))
        cases.show("wfs: after 1,100 edits", Gis(gateway, "place.points").rows()[451]["name"], "again 1099")


def unwritable(cases, folder, server):
    """A file of --state that can't grow any more."""
    most = 20000
    under = ["prlimit", f"--fsize={most}"]
    with Gateway(folder, server.url, "--state", os.path.join(folder, "small"), under=under) as gateway:
        gis = Gis(gateway, "building.areas")
        gis.rows()
        for floors in range(100):
            was = buildings(server.url)
            told = gis.save(*(gis.update(number, floors=floors) for number in list(IDS)[:5]))
            if told != "SUCCESS":
                break
        cases.show(
            "wfs: a save that can't be noted isn't made",
            ("can't be written: File too large" in told, differing(server.url, was)),
            (True, []),
        )
        cases.show("wfs: and the map is read", len(gis.anew()), 318)
    with Gateway(folder, server.url, "--state", os.path.join(folder, "small")) as gateway:
        cases.show("wfs: after a restart with more room all is as it was told", differing(server.url, was), [])
        gis = Gis(gateway, "building.areas")
        gis.rows()
        cases.show("wfs: and it is saved", gis.save(gis.update(133, floors=3)), "SUCCESS")


def server_killed(cases: Cases, folder: str) -> None:
    """The server is killed in the middle of a save, and started again: what was made is undone by the next request."""
    for at in (1, 3):
        name, disk = f"wfs: a server that is killed at edit {at} of 4", f"killed {at}"
        with Server(folder, disk, sectors=16384) as server:
            town(folder, server.url)
            was = buildings(server.url)
            with Disturbed(server, at, lambda: server.end(signal.SIGKILL), True) as between, Gateway(
                folder, between.url
            ) as gateway:
                gis = Gis(gateway, "building.areas")
                gis.rows()
                told = gis.save(*(gis.update(number, floors=94) for number in IDS))
                wanted = "nothing of this is saved, and what was sent before is undone as soon as it can be: "
                cases.show(f"{name}: is told", told[: len(wanted)], wanted)
                cases.show(
                    f"{name}: nothing is read meanwhile", "the map's server: no reply of" in gis.get("GetFeature"), True
                )
                with Server(folder, disk, port=server.port) as again:
                    rows = gis.anew()
                    found = differing(again.url, was), {rows[number]["floors"] == "94" for number in IDS}
                    cases.show(f"{name}: the next request finds all as it was", found, ([], {False}))
                    edits = edits_at(again.url)
                    cases.show(
                        f"{name}: and it can be saved",
                        gis.save(*(gis.update(number, floors=94) for number in IDS)),
                        "SUCCESS",
                    )
                    cases.show(f"{name}: by four edits", edits_at(again.url), edits + 4)
