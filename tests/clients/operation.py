"""The part `operation` of run.py: what keeps a map going. Layers are deleted on full disks, dead ends are seen
before they come, the disk file is read while it is served, cut features are saved as one, and archives get into an
object store."""
import functools
import hashlib
import http.client
import json
import os
import random
import re
import shutil
import signal
import subprocess
import sys
import threading
import time

import disk as model
from vtmap.files import disk_file

from .between import Between
from .gateways import Gateway
from .import_stand import area_of, has_gdal, imported, lists_of, round_ring, row, world, written
from .stand import HERE, PROGRAM, VTMAP, Cases, Nginx, Server, archive, curl, feature, free_port, status_of

PUBLISH = [*VTMAP, "publish", "--url"]


def tool(name, *words):
    """The status and the lines of a command of vtmap."""
    child = subprocess.run([*VTMAP, name, *words], capture_output=True, text=True)
    return child.returncode, (child.stdout + child.stderr).splitlines()


def status(server):
    return json.loads(curl(server.url + "/admin/status")[2])


def fill(server, numbers, layer="p", size=900):
    """Puts features with long texts, each with tiles of its own, in batches of 30, until one is refused. Returns the
    last reply."""
    numbers, reply = list(numbers), None
    for at in range(0, len(numbers), 30):
        place = [{"points": [[number * 40000000 % 2**32, 0]]} for number in numbers[at : at + 30]]
        changes = [
            {"put": number, "feature": json.loads(feature(layer, 7, 7, where, {"name": str(number) + "x" * size}))}
            for number, where in zip(numbers[at : at + 30], place)
        ]
        reply = curl(server.url + "/edits", "-X", "POST", body=json.dumps({"changes": changes}))
        if status_of(reply) != 200:
            break
    return reply


# ---- making room

def crowded(server, more):
    """A published map of two layers, then so many features more of one, with which it can't be published; the
    journal has one sector."""
    fill(server, range(1, 61))
    fill(server, range(101, 131), "q")
    curl(server.url + "/publish", "-X", "POST")
    fill(server, range(201, 201 + more), "q")
    while status(server)["journal"]["used"] < 255:
        curl(server.url + "/features/1", "-X", "PUT", body=feature("p", 0, 0))
    return curl(server.url + "/publish", "-X", "POST")[2]


def rooms(cases: Cases, folder: str) -> None:
    """Layers are deleted on a map that can't be published, with a journal that is nearly full, and while a
    publication is under way."""
    blind = "Features are deleted without looking at them again"
    with Server(folder, "rooms", 1024) as server:
        cases.show("operation: the map can't be published", crowded(server, 50).startswith(b"AreaFull "), True)
        code, lines = tool("delete-layer", "q", "--url", server.url)
        said = (
            "The journal has 1 of the 2 sectors that the deletions take: move the map to a larger disk, or delete as"
            " many as there is room for"
        )
        wanted = (1, True, "0 features of q deleted", 80 + 60)
        cases.show(
            "operation: where all can't be deleted nothing is",
            (code, said in lines[0], lines[-1], status(server)["features"]),
            wanted,
        )
        code, lines = tool("delete-layer", "q", "--anyway", "--url", server.url)
        told = any(blind in line for line in lines)
        wanted = (0, True, "80 features of q deleted")
        cases.show(
            "operation: with one sector of the journal 55 features are deleted, then there is room",
            (code, told, lines[-1]),
            wanted,
        )
        fill(server, range(1001, 1011), "r")
        curl(server.url + "/publish/begin", "-X", "POST")
        code, lines = tool("delete-layer", "r", "--url", server.url)
        under_way = status(server)["left"] is not None
        cases.show(
            "operation: deleted while a publication is under way",
            (code, lines, under_way),
            (0, ["10 features of r deleted"], True),
        )
        cases.show("operation: the other layer is there", status(server)["features"], 60)
    with Server(folder, "no_room", 1024) as server:
        crowded(server, 90)
        code, lines = tool("delete-layer", "q", "--anyway", "--url", server.url)
        said = ["65 features are left; the journal has 0 of its sectors free", "55 features of q deleted"]
        cases.show("operation: where that isn't enough, what is left is told", (code, lines[-2:]), (1, said))


# ---- watching

def touched(cases: Cases, folder: str) -> None:
    """What `vtmap watch` says of an area that is nearly full, once edits have touched little or much of the map
    since the last publication."""
    with Server(folder, "touched", 1024) as server:
        fill(server, range(1, 91))
        curl(server.url + "/publish", "-X", "POST")
        area = status(server)["area"]
        used = f"{area['used']} of the {area['sectors']} sectors of an area are used"

        def lines():
            percent = 100 * area["used"] // area["sectors"]
            return [line.partition(": ") for line in tool("watch", "--url", server.url, "--at", str(percent))[1]]

        curl(server.url + "/features/1", "-X", "PUT", body=feature("p", 0, 0))
        cases.show("operation: vtmap watch, an area that is nearly full", [line[0] for line in lines()], [used])
        world_wide = {"lines": [[[0, 0], [2 ** 32 - 1, 2 ** 32 - 1]]]}
        curl(server.url + "/features/2", "-X", "PUT", body=feature("p", 0, 0, world_wide))
        found = lines()
        cases.show(
            "operation: vtmap watch, and edits everywhere",
            [line[0] for line in found],
            [used, "the next publication may not fit"],
        )
        cases.show(
            "operation: vtmap watch, how much they touched",
            "edits since have touched 1,024 of 1,024 cells" in found[-1][2],
            True,
        )
        curl(server.url + "/publish", "-X", "POST")
        cases.show(
            "operation: vtmap watch, once they are published",
            "the next publication may not fit" in [line[0] for line in lines()],
            False,
        )


def watching(cases: Cases, folder: str) -> None:
    """What an operator is told, and a monitor."""
    state, record, metrics = (os.path.join(folder, name) for name in ("state", "record", "metrics"))
    words = ["--wait", "0.5", "--state", state, "--record", record, "--metrics", metrics]

    def watched(url, *more):
        code, lines = tool("watch", "--url", url, *words, *more)
        return code, [re.sub(r"\d+\.\d+", "N", line.split(":")[0]) for line in lines]

    with Server(folder, "watched", 1024) as server:
        subprocess.run([*PUBLISH, server.url, "--record", record], check=True, capture_output=True)
        cases.show(
            "operation: vtmap watch, nothing to do", watched(server.url), (0, ["0 features, edit 0, generation 1"])
        )
        curl(server.url + "/features/1", "-X", "PUT", body=feature())
        curl(server.url + "/publish/begin", "-X", "POST")
        cases.show(
            "operation: vtmap watch, a publication that was left",
            watched(server.url),
            (1, ["a publication was left with 3 sectors to go"]),
        )
        subprocess.run([*PUBLISH, server.url, "--record", record], check=True, capture_output=True)
        watched(server.url)
        fill(server, range(1, 61))
        said = "the journal is full in N hours, if edits go on like this, and publications come every N hours"
        cases.show(
            "operation: vtmap watch, a journal that fills too fast", watched(server.url, "--every", "24"), (1, [said])
        )
        fill(server, range(101, 131))
        lines = watched(server.url, "--every", "0.000001")[1]
        cases.show(
            "operation: vtmap watch, an old publication",
            lines[:1],
            ["the last publication was N hours ago, and they are to come every N hours"],
        )
        subprocess.run([*PUBLISH, server.url, "--record", record], check=True, capture_output=True)
        fill(server, range(201, 291))
        lines = watched(server.url)[1]
        cases.show(
            "operation: vtmap watch, an area that the next publication doesn't fit",
            "the next publication may not fit" in lines,
            True,
        )
        refused = subprocess.run([*PUBLISH, server.url, "--record", record], capture_output=True, text=True)
        cases.show(
            "operation: vtmap publish is refused",
            (refused.returncode, refused.stderr.startswith("/publish/begin: AreaFull need ")),
            (1, True),
        )
        code, lines = watched(server.url)
        cases.show(
            "operation: vtmap watch, a publication that was refused",
            (code, lines[0]),
            (2, "the publication N hours ago wasn't made"),
        )
        while status(server)["journal"]["used"] < 256:
            curl(server.url + "/features/1", "-X", "PUT", body=feature("p", 0, 0))
        code, lines = watched(server.url)
        cases.show("operation: vtmap watch, a full journal", (code, lines[1]), (2, "the journal is full"))
        with open(metrics, encoding="utf-8") as file:
            told = dict(line.split() for line in file if not line.startswith("#"))
        # All points are in the first row of cells: those of `fill`, and the one of feature 1.
        stale = {number * 40000000 % 2**32 // 131072 % 32 for number in [0, 1, *range(201, 291)]}
        wanted = {
            "up": "1",
            "journal_used_sectors": "256",
            "journal_sectors": "256",
            "features": "180",
            "watch_result": "2",
            "cells": "1024",
            "stale_cells": str(len(stale)),
        }
        cases.show("operation: the metrics", {name: told.get("vtserve_" + name) for name in wanted}, wanted)
        nginx = shutil.which("nginx", path=os.environ.get("PATH", "") + ":/usr/sbin")
        if nginx:
            os.remove(record)
            words[4:6] = []
            with Nginx(nginx, folder, server) as front:
                cases.show("operation: vtmap watch through nginx", watched(front.url)[0], 2)
                server.end(signal.SIGKILL)
                code, lines = tool("watch", "--url", front.url, *words)
                said = (
                    f"{front.url}: 502: the proxy in front of the server answers, but the server doesn't: systemctl"
                    " status vtserve"
                )
                cases.show("operation: vtmap watch, a server that is down behind nginx", (code, lines), (2, [said]))
            shutil.rmtree(front.folder)
        server.end(signal.SIGKILL) if server.child.poll() is None else None
        cases.show("operation: vtmap watch, no server", watched(server.url)[0], 2)
        with open(metrics, encoding="utf-8") as file:
            cases.show("operation: its metric", "vtserve_up 0\n" in file.read(), True)


def many_entries(cases: Cases, folder: str) -> None:
    """What `vtmap watch` says of an archive with nearly as many entries as one may have: of a stand-in, and of a
    publication that is refused."""
    watched = functools.partial(tool, "watch", "--wait", "0.2")
    header = bytearray(archive()[:127])
    with Server(folder, "entries", 1024) as server:
        curl(server.url + "/features/1", "-X", "PUT", body=feature())
        cases.show("operation: vtmap watch, no archive", watched("--url", server.url)[0], 0)
        curl(server.url + "/publish", "-X", "POST")
        # 80 % of 131,072 are 104,857.6; docs/FORMATS.md and PMTiles 3 have the count of entries at byte 80.
        for entries, more, code in [
            (104857, [], 0),
            (104858, [], 1),
            (131072, [], 1),
            (65536, ["--at", "50"], 1),
            (65535, ["--at", "50"], 0),
        ]:
            header[80:88] = entries.to_bytes(8, "little")
            part = 206, bytes(header)
            with Between(
                server, instead=lambda _, path, part=part: part if path == "/map.pmtiles" else None
            ) as between:
                found, lines = watched("--url", between.url, "--metrics", os.path.join(folder, "entries.prom"), *more)
            said = f"the archive has {entries:,} entries, and may have 131,072" in lines[0]
            cases.show(
                f"operation: vtmap watch, {entries:,} entries {' '.join(more)}", (found, said), (code, code == 1)
            )
            with open(os.path.join(folder, "entries.prom"), encoding="utf-8") as file:
                cases.show("operation: and the metric", f"vtserve_archive_entries {entries}\n" in file.read(), True)
        with Between(server, instead=lambda _, path: (403, b"no") if path == "/map.pmtiles" else None) as between:
            cases.show("operation: vtmap watch, an archive that isn't for it", watched("--url", between.url)[0], 0)
        told = status(server)
        for drafting, code in [
            ({"made": 120000, "places": 1}, 0),
            ({"entries": 104857, "made": 120000, "places": 1}, 0),
            ({"entries": 104858, "made": 120000, "places": 1}, 1),
        ]:
            part = 200, json.dumps({**told, "drafting": drafting}).encode()
            with Between(
                server, instead=lambda _, path, part=part: part if path == "/admin/status" else None
            ) as between:
                found, lines = watched("--url", between.url, "--metrics", os.path.join(folder, "entries.prom"))
            there = drafting.get("entries", 0)
            said = lines[0].startswith(f"the archive in the making has already {there:,} entries, and may have 131,072")
            cases.show(f"operation: vtmap watch, {there:,} entries so far", (found, said), (code, code == 1))
            with open(os.path.join(folder, "entries.prom"), encoding="utf-8") as file:
                cases.show("operation: and its metric", f"vtserve_drafted_entries {there}\n" in file.read(), True)


def published_and_told(server, *more):
    """Runs `vtmap publish` of a server, and what its status tells meanwhile of the publication in the making."""
    found, is_over = [], threading.Event()

    def look():
        while not is_over.is_set():
            drafting = status(server)["drafting"]
            found.extend([drafting] if drafting else [])

    looks = threading.Thread(target=look)
    looks.start()
    told = subprocess.run([*PUBLISH, server.url, *more], capture_output=True, text=True)
    is_over.set()
    looks.join()
    return told, found


def too_many_tiles(cases: Cases, folder: str) -> None:
    """The same of real archives: points on all zooms, so far from each other that from zoom 7 on each is alone in
    one tile, a third of it from its edges."""
    record = os.path.join(folder, "tiles.record")

    def put(server, numbers):
        places = {number: [at * 2 ** 25 + 2 ** 25 // 3 for at in (number % 128, number // 128)] for number in numbers}
        for at in range(0, len(numbers), 64):
            changes = [
                {"put": number, "feature": json.loads(feature("p", 0, 19, {"points": [places[number]]}))}
                for number in numbers[at : at + 64]
            ]
            curl(server.url + "/edits", "-X", "POST", body=json.dumps({"changes": changes}))

    with Server(folder, "tiles", 262144) as server:
        put(server, range(8000))
        published, drafts = published_and_told(server, "--record", record)
        told = [published]
        code, lines = tool("watch", "--url", server.url, "--record", record)
        found = re.match(r"the archive has ([\d,]+) entries, and may have 131,072", lines[0])
        # Of each point a tile of its own at each of 13 zooms.
        cases.show(
            "operation: vtmap watch, a real archive of 8,000 points on all zooms",
            (told[0].returncode, code, found is not None),
            (0, 1, True),
        )
        counted = found and int(found[1].replace(",", "")) >= 13 * 8000
        cases.show("operation: whose entries it counts", counted or lines, True)
        taken = int(found[1].replace(",", "")) if found else 0
        said = f"warning: the archive has {taken:,} entries" in told[0].stdout
        cases.show("operation: vtmap publish says so too", said, True)
        # No two neighbours are equal here: each tile needs an entry.
        numbers = [(draft["entries"], draft["made"]) for draft in drafts]
        cases.show(
            "operation: meanwhile the status told how many there were so far",
            (len(set(numbers)) > 2, numbers == sorted(numbers), all(one == other <= taken for one, other in numbers)),
            (True, True, True),
        )
        put(server, range(8000, 10000))
        published, drafts = published_and_told(server, "--record", record)
        told.append(published)
        cases.show(
            "operation: and of one that no archive takes, up to as many as one may have",
            104858 < max(draft["entries"] for draft in drafts) <= 131072,
            True,
        )
        code, lines = tool("watch", "--url", server.url, "--record", record)
        then = (
            "(the map has too many tiles for an archive: end features at a smaller zoom, or take a part of them to a"
            " map of its own (docs/DEPLOYING.md, Join the maps of regions))"
        )
        said = f"wasn't made: refused: TooManyTiles 507 {then}" in lines[0]
        cases.show(
            "operation: vtmap watch, 10,000 of them, which no archive takes",
            (told[1].returncode, code, said),
            (1, 2, True),
        )
        cases.show(
            "operation: vtmap publish says what to do",
            told[1].stderr.splitlines()[0],
            f"/publish/begin: TooManyTiles 507 {then}",
        )


def watched_gateway(cases: Cases, folder: str) -> None:
    """What `vtmap watch` says of a gateway: one that answers, one whose server is away, one that hangs, and none."""
    def watched(url, gateway):
        code, lines = tool("watch", "--url", url, "--gateway", gateway)
        return code, lines[0].replace(gateway, "URL")

    with Server(folder, "gated") as server, Server(folder, "gated_other") as other, Gateway(
        folder, other.url
    ) as gateway:
        cases.show("operation: vtmap watch, a gateway that answers", watched(server.url, gateway.url)[0], 0)
        other.end(signal.SIGKILL)
        code, line = watched(server.url, gateway.url)
        cases.show(
            "operation: vtmap watch, one whose server is away",
            (code, line.startswith("the gateway URL: 200: the map's server: no reply")),
            (2, True),
        )
        gateway.end()
        code, line = watched(server.url, gateway.url)
        wanted = "the gateway: no reply of URL: [Errno 111] Connection refused: systemctl status vtserve-wfs"
        cases.show("operation: vtmap watch, a gateway that has ended", (code, line), (2, wanted))
        with Between(server, instead=lambda _, path: (403, b"<html><title>403 Forbidden</title></html>")) as between:
            code, line = watched(server.url, between.url)
        cases.show(
            "operation: vtmap watch, a gateway that isn't for it",
            (code, line),
            (3, "the gateway URL: 403: 403 Forbidden"),
        )


def unpublished(cases: Cases, folder: str) -> None:
    """What `vtmap watch` says of a disk of version 1, and of edits that no publication takes, though none is
    recorded."""
    disk, state = os.path.join(folder, "old_version"), os.path.join(folder, "old_state")
    subprocess.run([PROGRAM, "format", disk, "--sectors", "1024"], check=True, capture_output=True)
    with open(disk, "r+b") as file:
        file.seek(8)
        file.write(b"\1")
    with Server(folder, "old_version") as server:
        code, lines = tool("watch", "--url", server.url)
        cases.show(
            "operation: vtmap watch, a disk of version 1",
            (code, [line.split(":")[0] for line in lines]),
            (1, ["the disk has version 1"]),
        )
    with Server(folder, "unpublished", 1024) as server:
        words = ["watch", "--url", server.url, "--state", state]
        curl(server.url + "/features/1", "-X", "PUT", body=feature())
        cases.show("operation: vtmap watch, a first look", tool(*words, "--every", "0.00001")[0], 0)
        time.sleep(1)
        code, lines = tool(*words, "--every", "0.00001")
        said = [re.sub(r"\d+\.\d+", "N", line.split(",")[0]) for line in lines]
        cases.show(
            "operation: vtmap watch, edits that no publication takes",
            (code, said),
            (1, ["nothing was published for N hours"]),
        )
        cases.show("operation: vtmap watch, by its usual times", tool(*words)[0], 0)
        curl(server.url + "/publish", "-X", "POST")
        cases.show("operation: vtmap watch, once they are published", tool(*words, "--every", "0.00001")[0], 0)


# ---- the served disk file

class Busy(threading.Thread):
    """Edits one after the other, edit K puts K into feature K mod 40 or deletes it, and publications by steps in
    between."""

    def __init__(self, server):
        super().__init__()
        self.connection = http.client.HTTPConnection("127.0.0.1", server.port, timeout=120)
        self.done, self.stop, self.publications = 0, threading.Event(), 0

    def ask(self, method, path, body=None):
        self.connection.request(method, path, body)
        reply = self.connection.getresponse()
        return reply.status, reply.read()

    def run(self):
        while not self.stop.is_set():
            edit = self.done + 1
            number = edit % 40
            method, body = (
                ("DELETE", None) if after(edit - 1).get(number) and edit % 7 == 0 else ("PUT", numbered(edit))
            )
            code, content = self.ask(method, f"/features/{number}", body)
            if code == 507:
                self.publish()
                continue
            if code != 200:
                raise AssertionError(f"{method} {number}: {code} {content}")
            self.done = edit
            if edit % 97 == 0:
                self.publish()
        self.connection.close()

    def publish(self):
        self.ask("POST", "/publish/begin")
        while self.ask("POST", "/publish/step")[1] != b'{"left":0}':
            pass
        self.publications += 1


def numbered(edit):
    """The feature of an edit; of some the record has several sectors."""
    return feature("p", 0, 0, {"points": [[edit, edit]]}, {"edit": edit, "name": "x" * (edit * 37 % 1000)})


def after(edit, known={0: {}}):
    """The numbers of the edits that made the features of the map after an edit."""
    for at in range(max(known) + 1, edit + 1):
        number, now = at % 40, dict(known[at - 1])
        if now.get(number) and at % 7 == 0:
            del now[number]
        else:
            now[number] = at
        known[at] = now
    return known[edit]


def served_disk(cases: Cases, folder: str) -> None:
    """The disk file is read while edits and publications go on: each time it is the map after the edit that is told."""
    saved, faults, edits = os.path.join(folder, "moment.jsonl"), [], []
    with Server(folder, "moment.disk", 2048) as server:
        busy = Busy(server)
        busy.start()
        end = time.monotonic() + 20
        while time.monotonic() < end and busy.is_alive():
            before = busy.done
            code, lines = tool("save", saved, "--disk", server.disk)
            told = re.fullmatch(r"(\d+) features saved, of the map after edit ([\d,]+)", lines[0] if lines else "")
            edit = int(told[2].replace(",", "")) if told else -1
            edits.append(edit)
            with open(saved, encoding="utf-8") as file:
                found = {read["id"]: read["feature"] for read in map(json.loads, file)}
            if code != 0 or not before <= edit <= busy.done + 1:
                faults.append((code, lines, before, busy.done))
            elif found != {number: json.loads(numbered(made)) for number, made in after(edit).items()}:
                faults.append(f"the map after edit {edit} isn't that")
        busy.stop.set()
        busy.join()
        cases.show("operation: --disk, the map of a moment while it is edited and published", faults[:2], [])
        cases.show(
            "operation: and it went on",
            (len(edits) > 10, edits == sorted(edits), busy.publications > 10),
            (True, True, True),
        )
        cases.say(f"{len(edits)} times, edits {edits[0]} to {edits[-1]}, {busy.publications} publications")
        files = [os.path.join(folder, name) for name in ("list.jsonl", "disk.jsonl")]
        tool("save", files[0], "--url", server.url)
        tool("save", files[1], "--disk", server.disk)
        cases.show("operation: --disk and the server's list are the same file", digest(files[0]), digest(files[1]))
    with open(server.disk, "r+b") as file:
        file.seek(512)
        file.write(b"x")
    code, lines = tool("save", files[1], "--disk", server.disk)
    cases.show(
        "operation: --disk, a damaged file",
        (code, lines, digest(files[0]) == digest(files[1])),
        (1, ["a root sector"], True),
    )


def exactly(cases: Cases, folder: str) -> None:
    """The map is made that of a file: what was imported wrongly since is deleted, which is told before; very much
    isn't."""
    monday, empty, saved = (os.path.join(folder, name) for name in ("monday.jsonl", "empty.jsonl", "saved.jsonl"))
    with Server(folder, "exactly", 4096) as server:
        fill(server, range(1, 31))
        tool("save", monday, "--url", server.url)
        fill(server, range(101, 141), "wrong", 10)
        curl(server.url + "/features/3", "-X", "DELETE")
        curl(server.url + "/features/4", "-X", "PUT", body=feature("p", 0, 0))
        code, lines = tool("load", monday, "--exactly", "--url", server.url)
        told = [
            "to be deleted: 40 of wrong, which the file doesn't have",
            "40 of the 69 features of the map would be deleted: nothing was changed (--delete-many deletes them)",
        ]
        cases.show(
            "operation: load --exactly, very many deletions", (code, lines, status(server)["features"]), (1, told, 69)
        )
        code, lines = tool("load", monday, "--exactly", "--delete-many", "--url", server.url)
        cases.show(
            "operation: load --exactly --delete-many",
            (code, lines),
            (0, [told[0], "2 features put, 40 deleted, 28 were there already"]),
        )
        tool("save", saved, "--url", server.url)
        cases.show("operation: the map is that of the file", digest(saved), digest(monday))
        code, lines = tool("load", monday, "--exactly", "--url", server.url)
        cases.show(
            "operation: load --exactly of what the map has",
            (code, lines),
            (0, ["0 features put, 0 deleted, 30 were there already"]),
        )
        open(empty, "w", encoding="utf-8").close()
        code, _ = tool("load", empty, "--exactly", "--url", server.url)
        cases.show("operation: load --exactly of an empty file", (code, status(server)["features"]), (1, 30))
    with Server(folder, "exactly_unseen", 4096, more=()) as server:
        code, lines = tool("load", monday, "--exactly", "--url", server.url)
        cases.show(
            "operation: load --exactly without --admin", (code, status_of(curl(server.url + "/features/1"))), (1, 404)
        )


def passed_by(cases: Cases, folder: str) -> None:
    """Publications pass while the disk file is read: it begins again. Edits go on meanwhile."""
    with Server(folder, "passed.disk", 2048) as server:
        for number in range(20):
            curl(f"{server.url}/features/{number}", "-X", "PUT", body=numbered(number + 1))
        curl(server.url + "/publish", "-X", "POST")
        read, passes = disk_file.Disk.snapshot, []

        def passing(disk, root):
            found = read(disk, root)
            if len(passes) < 2:
                passes.append(root.generation)
                for at in range(2):
                    curl(f"{server.url}/features/{len(passes)}", "-X", "PUT", body=numbered(100 * len(passes) + at))
                    curl(server.url + "/publish", "-X", "POST")
            return found

        disk_file.Disk.snapshot = passing
        try:
            moment = disk_file.moment_of(server.disk)
        finally:
            disk_file.Disk.snapshot = read
        listed = json.loads(curl(server.url + "/features/2")[2])
        cases.show(
            "operation: --disk, publications that pass it by",
            (moment.passed, moment.edit, moment.features[2] == listed),
            (2, 24, True),
        )


def written_disks(cases: Cases, folder: str) -> None:
    """Random disks of the second writer (model/disk.py), of both versions, with journals that go round the ring."""
    chance, path, saved, differ = (
        random.Random(5),
        os.path.join(folder, "written.disk"),
        os.path.join(folder, "written.jsonl"),
        [],
    )
    for at in range(40):
        kind = chance.choice(["points", "lines", "polygons"])

        def made():
            ring = [[chance.randrange(2**32), chance.randrange(2**32)] for _ in range(chance.randint(3, 90))]
            tags = {
                "a": chance.choice([True, False, -(2**63), 2**64 - 1, "ä" * chance.randint(0, 500)]),
                "b": chance.randrange(9),
            }
            return json.loads(
                feature("p", 0, 19, {kind: {"points": ring, "lines": [ring], "polygons": [[ring, ring]]}[kind]}, tags)
            )

        def change():
            number = chance.choice([chance.randrange(30), 2 ** 63 - 1])
            return model.Change(number, made() if chance.random() < 0.7 else None)

        version = 1 + at % 2
        edits = [
            {one.number: one for one in (change() for _ in range(chance.randint(1, 5) if version > 1 else 1))}
            for _ in range(60)
        ]
        records = [model.Record(version, list(edit.values())) for edit in edits]
        first = {number: made() for number in chance.sample(range(40), 20)}
        held = model.write_disk(
            4099, at % 3, first, records, b"archive", chance.randrange(1024), before=at * 2**40, version=version
        )
        with open(path, "wb") as file:
            file.write(held)
        code, lines = tool("save", saved, "--disk", path)
        with open(saved, encoding="utf-8") as file:
            found = [(read["id"], json.dumps(read["feature"], sort_keys=True)) for read in map(json.loads, file)]
        wanted = [
            (number, json.dumps(one, sort_keys=True))
            for number, one in sorted(model.map_of(model.read_disk(held)).items())
        ]
        if (code, found) != (0, wanted) or not lines[0].endswith(f" of the map after edit {at * 2 ** 40 + 60:,}"):
            differ.append(at)
    cases.show("operation: --disk, forty disks of the second writer", differ, [])


def digest(path):
    with open(path, "rb") as file:
        return hashlib.sha256(file.read()).hexdigest()


# ---- cut features

def turn_of(ring):
    """The direction of a ring of longitudes and latitudes."""
    area = sum((b[0] - a[0]) * (b[1] + a[1] - 2 * ring[0][1]) for a, b in zip(ring, ring[1:]))
    return "counterclockwise" if area < 0 else "clockwise"


def rings_as_they_are(cases, folder, server):
    """A backup that isn't of wholes has the rings of the map: put back, each feature is the same."""
    path = os.path.join(folder, "rings.geojson")
    subprocess.run([*VTMAP, "save", path, "--url", server.url], check=True, capture_output=True)
    with Server(folder, "rings", 65536) as other:
        subprocess.run([*VTMAP, "load", path, "--url", other.url, "--publish"], check=True, capture_output=True)
        files = [os.path.join(folder, f"rings{at}.jsonl") for at in range(2)]
        for file, one in zip(files, (server, other)):
            subprocess.run([*VTMAP, "save", file, "--url", one.url], check=True, capture_output=True)
        cases.show("operation: a backup puts back each ring in its direction", digest(files[0]), digest(files[1]))


def wholes(cases: Cases, folder: str) -> None:
    """A county that the import cuts is one feature again, and is cut into the same pieces when it is put back."""
    if not has_gdal(cases):
        return
    rings = [round_ring(11, 50, 20000, 900), round_ring(11, 50, 5000, 100)]
    rows = [
        row("Polygon", rings, name="county"),
        row("LineString", [[8, 49], [12, 50]], name="line"),
        row("Point", [1, 1], name="point", whole=7),
    ]
    garden = [round_ring(10, 50, 90, 12), round_ring(10, 50, 30, 7)]
    rows += [
        row("Polygon", [ring[::turn] for ring in garden], name=name) for name, turn in (("garden", 1), ("mirrored", -1))
    ]
    path, saved, kept = written(folder, "county.geojson", rows), os.path.join(folder, "wholes.geojson"), []
    with Server(folder, "wholes", 65536) as server, Server(folder, "wholes_again", 65536) as other:
        imported(path, server.url, "--layer", "area", "--minzoom", "6")
        code, lines = tool("save", saved, "--wholes", "--url", server.url)
        cases.show("operation: --wholes", (code, lines), (0, ["5 features saved"]))
        with open(saved, encoding="utf-8") as file:
            found = json.load(file)["features"]
        county = next(one for one in found if one["properties"]["name"] == "county")
        cases.show(
            "operation: the county is one, with its lake and its points",
            [len(ring) for ring in county["geometry"]["coordinates"]],
            [901, 101],
        )
        turns = {
            name: [
                turn_of(ring)
                for one in found
                if one["properties"]["name"] == name
                for ring in one["geometry"]["coordinates"]
            ]
            for name in ("county", "garden", "mirrored")
        }
        cases.show(
            "operation: outer rings counterclockwise, inner ones clockwise",
            turns,
            dict.fromkeys(turns, ["counterclockwise", "clockwise"]),
        )
        given = area_of([[world(*place) for place in ring[:-1]] for ring in rings])
        cases.show("operation: its area", abs(area_of(lists_of(county, 2)[0]) / given - 1) < 1e-6, True)
        line = next(one for one in found if one["properties"]["name"] == "line")
        cases.show(
            "operation: the line is one",
            (line["geometry"]["type"], len(line["geometry"]["coordinates"])),
            ("LineString", 2),
        )
        point = [one["properties"] for one in found if one["properties"]["name"] == "point"]
        cases.show("operation: what only has a tag `whole` is as it was", point, [{"name": "point", "whole": 7}])
        code, lines = tool("load", saved, "--url", other.url)
        cases.show("operation: it is no backup", (code, status(other)["features"]), (1, 0))
        imported(saved, other.url, "--layer", "area", "--minzoom", "6")
        rings_as_they_are(cases, folder, server)
        for one in (server, other):
            file = os.path.join(folder, f"wholes{len(kept)}.jsonl")
            subprocess.run([*VTMAP, "save", file, "--url", one.url], check=True, capture_output=True)
            with open(file, encoding="utf-8") as lines:
                pieces = [json.loads(line)["feature"] for line in lines]
            kept.append(
                sum(
                    area_of(rings)
                    for piece in pieces
                    if piece["layer"] == "area"
                    for rings in piece["geometry"].get("polygons", [])
                )
            )
        cases.show("operation: put into another map it has the same area", abs(kept[0] / kept[1] - 1) < 1e-6, True)


# ---- an object store

def stores(cases: Cases, folder: str) -> None:
    """vtmap publish --to, into a server of S3 on this machine; and a reader of PMTiles by ranges."""
    if not (shutil.which("moto_server") and shutil.which("aws")):
        cases.say("no moto_server, or no aws: no object store is tried (pip install 'moto[server]' awscli)")
        return
    port = free_port()
    words = {"AWS_ACCESS_KEY_ID": "key", "AWS_SECRET_ACCESS_KEY": "secret", "AWS_DEFAULT_REGION": "us-east-1"}
    words["AWS_ENDPOINT_URL"] = f"http://127.0.0.1:{port}"
    with subprocess.Popen(
        ["nice", "moto_server", "-p", str(port)], stdout=subprocess.DEVNULL, stderr=subprocess.DEVNULL
    ) as store:
        try:
            for _ in range(200):
                if curl(f"http://127.0.0.1:{port}/moto-api/")[1]:
                    break
                time.sleep(0.1)
            rule = {"Effect": "Allow", "Principal": "*", "Action": "s3:GetObject", "Resource": "arn:aws:s3:::maps/*"}
            readers = {"Version": "2012-10-17", "Statement": [rule]}
            for made in (
                ["s3", "mb", "s3://maps"],
                ["s3api", "put-bucket-policy", "--bucket", "maps", "--policy", json.dumps(readers)],
            ):
                subprocess.run(["aws", *made], env={**os.environ, **words}, check=True, capture_output=True)
            stored(cases, folder, f"http://127.0.0.1:{port}/maps/office", words)
        finally:
            store.terminate()


def stored(cases, folder, url, words):
    """Two publications, each under a name of its own."""
    def newest():
        return json.loads(curl(url + "/newest.json")[2])["archive"]

    def published(*more):
        return subprocess.run(
            [*PUBLISH, server.url, "--to", "s3://maps/office", *more],
            env={**os.environ, **words},
            capture_output=True,
            text=True,
        )

    with Server(folder, "stored", 4096) as server:
        fill(server, range(1, 31), size=50)
        told = published()
        cases.show("operation: vtmap publish --to s3://", (told.returncode, told.stderr), (0, ""))
        first = newest()
        reply = curl(f"{url}/{first}")
        cases.show(
            "operation: the archive in the store",
            reply[2] == curl(server.url + "/map.pmtiles")[2] and len(reply[2]) > 1000,
            True,
        )
        fields = {name.lower(): value for name, value in reply[1]}
        cases.show("operation: its type", fields.get("content-type"), "application/vnd.pmtiles")
        reader = [sys.executable, os.path.join(HERE, "read_range.py")]
        tile = subprocess.run([*reader, f"{url}/{first}", "7/1/0"], capture_output=True, text=True)
        cases.show(
            "operation: a tile of it, by ranges",
            (tile.stdout.strip(), tile.stderr),
            (curl(server.url + "/map/7/1/0.hex")[2].decode(), ""),
        )
        fill(server, range(101, 131), size=50)
        time.sleep(1.1)
        published()
        cases.show(
            "operation: the next one has a name of its own",
            (newest() != first, status_of(curl(f"{url}/{first}"))),
            (True, 200),
        )
        words["AWS_ENDPOINT_URL"] = f"http://127.0.0.1:{free_port()}"
        words["AWS_MAX_ATTEMPTS"] = "1"
        record = os.path.join(folder, "stored.record")
        told = published("--record", record)
        with open(record, encoding="utf-8") as file:
            said = json.load(file)["result"]
        cases.show(
            "operation: a store that isn't there",
            (told.returncode, said, "published" in told.stdout),
            (1, "not stored: s3://maps/office", True),
        )


def operation(cases: Cases, folder: str) -> None:
    """Each task of an operator."""
    place = os.path.join(folder, "operation")
    os.mkdir(place)
    watch = touched, watching, many_entries, too_many_tiles, watched_gateway, unpublished
    for part in (rooms, *watch, served_disk, passed_by, exactly, written_disks, wholes, stores):
        part(cases, place)
    shutil.rmtree(place)
