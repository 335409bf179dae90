"""The part `history` of run.py: what has become of a feature, as the gateway tells the page behind nginx: when, by
whom, before and after; over files that logrotate has renamed, and what is missing. Outsiders get none of it."""
import gzip
import json
import os
import shutil
import time
from typing import Any

from .gateways import Gateway, Gis
from .outsiders import nginx_of
from .stand import Cases, Nginx, Server, curl, field, free_port, status_of
from .standby import waited
from .trail import PEOPLE, Office, shape, vtmap


def told(front: Nginx, number: int, *words: str) -> Any:
    """The changes that are told of a feature, the newest first: number, person, the names before and after."""
    reply = curl(f"{front.url}/wfs/history/{number}", *words)
    if status_of(reply) != 200:
        return status_of(reply)
    found = json.loads(reply[2])
    rows = [
        one["missed"]
        if "missed" in one
        else (one["edit"], one["person"], name_of(one.get("was", "?")), name_of(one["feature"]))
        for one in found["changes"]
    ]
    return [*rows, "more"] if found["more"] else rows


def name_of(version):
    """The name of a version of a feature; None of none, `?` of one that isn't known."""
    return version and version if isinstance(version, str) else version and version["tags"]["name"]


def known(cases, office, gateway):
    """What people have done, by the page and by QGIS."""
    office.edit("anna", "PUT", "/features/352", shape("Church"))
    changes = '{"changes":[{"put":352,"feature":%s,"was":%s},{"put":3521,"feature":%s,"was":null}]}' % (
        shape("St Mary"),
        shape("Church"),
        shape("x"),
    )
    office.edit("bob", "POST", "/admin/edits", changes)
    office.last()
    gis = Gis(gateway, "p.points")
    gis.rows()
    gis.save(gis.update(352, name="St John"))
    office.edit(None, "DELETE", "/features/352")
    office.edit("anna", "PUT", "/features/7", shape("Other"))
    first = office.last() - 4
    wanted = [
        (first + 3, "", "St John", None),
        (first + 2, "127.0.0.1", "St Mary", "St John"),
        (first + 1, "bob", "Church", "St Mary"),
        (first, "anna", None, "Church"),
    ]
    cases.show("history: of a feature", told(office.front, 352), wanted)
    cases.show("history: of another one of the same edit", told(office.front, 3521), [(first + 1, "bob", None, "x")])
    cases.show("history: of one that never was", told(office.front, 99), [])
    row = json.loads(curl(f"{office.front.url}/wfs/history/352")[2])["changes"][0]
    cases.show("history: the time is within a minute", time.time() - 60 < stamp(row["time"]) < time.time() + 1, True)
    return wanted


def stamp(text):
    """A time in seconds since 1970."""
    return time.mktime(time.strptime(text[:19], "%Y-%m-%dT%H:%M:%S")) - time.timezone


def outside(cases, office):
    """Who may not edit gets no names, and nobody by another method or path."""
    url, elsewhere = office.front.url, ["--interface", "127.0.0.2"]
    found = [status_of(curl(f"{url}{path}", *elsewhere)) for path in ("/wfs/history/352", "/map/0/0/0.mvt")]
    cases.show("history: outsiders are asked for a password, and see the map", found, [401, 200])
    right, wrong = (told(office.front, 3521, *elsewhere, "-u", f"anna:{word}") for word in ("secret", "wrong"))
    cases.show("history: with a password", [right[0][1], wrong], ["bob", 401])
    found = [
        status_of(curl(f"{url}/wfs/history{path}", *more))
        for path, *more in [
            ("",),
            ("/",),
            ("/x",),
            ("/3521/x",),
            ("/-1",),
            ("/99999999999999999999",),
            ("/3521", "-X", "POST"),
            ("/3521", "--head"),
        ]
    ]
    cases.show("history: other paths and methods", found, [404] * 6 + [411, 200])
    reply = curl(f"{url}/wfs/history/3521", "-H", "Origin: http://evil.example")
    cases.show(
        "history: no page of another origin may read it",
        (field(reply, "access-control-allow-origin"), field(reply, "cache-control")),
        (None, "no-store"),
    )
    reply = curl(f"{url}/wfs/history/3521", "-H", "Host: evil.example")
    cases.show("history: nor by another name", status_of(reply), 421)


def rotated(cases, office, wanted):
    """Logs that logrotate has renamed and compressed, and edits that are missing."""
    for path in (office.path, office.nginx):
        with open(path, "rb") as file, gzip.open(path + ".2.gz", "wb") as packed:
            packed.write(file.read())
    os.rename(office.path, office.path + ".1")
    with open(office.path + ".1", "wb"):
        pass
    cases.show("history: while the new log has no edit yet", told(office.front, 352), wanted)
    office.edit("bob", "PUT", "/features/352", shape("Anew"))
    waited(lambda: os.path.exists(office.path))
    first = office.last()
    cases.show(
        "history: over files that were renamed", told(office.front, 352), [(first, "bob", None, "Anew"), *wanted]
    )
    office.follower.kill()
    office.follower.communicate()
    office.edit("bob", "PUT", "/features/352", shape("Unseen"))
    curl(office.server.url + "/publish", "-X", "POST")
    office.server.restart()
    vtmap("follow", "--log", office.path, "--once", "--url", office.server.url)
    office.edit("anna", "PUT", "/features/352", shape("Later"))
    vtmap("follow", "--log", office.path, "--once", "--url", office.server.url)
    rows = told(office.front, 352)
    cases.show(
        "history: edits that the log misses", rows[:2], [(first + 2, "anna", "Unseen", "Later"), [first + 1, first + 1]]
    )
    cases.show("history: before a feature's first edit none is missing", told(office.front, 99), [])
    changes = ",".join('{"put":%d,"feature":%s}' % (number, shape("many")) for number in range(1000, 1060))
    office.edit(None, "POST", "/edits", '{"changes":[%s]}' % changes)
    for at in range(60):
        office.edit(None, "PUT", "/features/1000", shape(f"{at}"))
    vtmap("follow", "--log", office.path, "--once", "--url", office.server.url)
    rows = told(office.front, 1000)
    cases.show("history: of many changes the newest", (len(rows), rows[0][3], rows[-1]), (51, "59", "more"))


def without(cases, folder, server, nginx):
    """Without a log, and with a log of nginx that can't be read."""
    port = free_port()
    with Nginx(nginx, folder, server, [("127.0.0.1:8090", f"127.0.0.1:{port}")]) as front:
        cases.show("history: without a gateway", told(front, 352), 502)
        with Gateway(folder, server.url, port=port):
            cases.show("history: without a log", told(front, 352), 404)
        with Gateway(
            folder, server.url, "--history", os.path.join(folder, "office", "edits.jsonl"), "--nginx", folder, port=port
        ) as gateway:
            found = [told(front, 3521), told(front, 3521)]
            lines = gateway.end()[1]
        cases.show("history: a log of nginx that can't be read", [rows[-1][1] for rows in found], ["", ""])
        note = f"note: {folder} can't be read (Is a directory): the history doesn't say who has sent what is in it"
        cases.show("history: which is said once", [line for line in lines if line.startswith("note")], [note])
    shutil.rmtree(front.folder)


def history(cases: Cases, folder: str) -> None:
    """What has become of a feature."""
    nginx = nginx_of(cases)
    if not nginx:
        return
    place = os.path.join(folder, "history_part")
    os.makedirs(os.path.join(place, "office"))
    port, office_folder = free_port(), os.path.join(place, "office")
    with Server(place, "history", 65536) as server:
        with Nginx(nginx, place, server, [*PEOPLE, ("127.0.0.1:8090", f"127.0.0.1:{port}")]) as front:
            with open(os.path.join(front.folder, "people"), "w", encoding="utf-8") as file:
                file.write("anna:{PLAIN}secret\nbob:{PLAIN}secret\n")
            office = Office(office_folder, server, front)
            words = [
                "--history",
                office.path,
                "--nginx",
                office.nginx,
                "--log",
                os.path.join(place, "gateway.edits"),
                "--behind-nginx",
            ]
            with Gateway(place, server.url, *words, port=port) as gateway:
                wanted = known(cases, office, gateway)
                outside(cases, office)
                rotated(cases, office, wanted)
        shutil.rmtree(front.folder)
        without(cases, place, server, nginx)
    shutil.rmtree(place)
