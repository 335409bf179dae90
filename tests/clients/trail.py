"""The part `trail` of run.py: who changed what, by the logs of `vtmap follow` and of nginx; and edits that are taken
back."""
import gzip
import json
import os
import re
import shutil
import subprocess
import time

from .gateways import Gateway, Gis
from .import_stand import has_gdal, imported, row, written
from .standby import features, follow, known, waited
from .stand import VTMAP, Cases, Nginx, Server, curl, status_of

PEOPLE = [
    ("# satisfy any;", "satisfy any;"),
    ('# auth_basic "the map";', 'auth_basic "the map";'),
    ("# auth_basic_user_file /etc/vtserve/people;", "auth_basic_user_file people;"),
]
KIND = ["-H", "Content-Type: application/json"]
NAMES = {"person": "anna", "day": "[0-9-]{10}", "layer": "p", "feature": "p 7 .'New'."}


def shape(name, layer="p", at=7):
    """The JSON of a feature, as somebody writes it."""
    geometry = '"geometry": {"points": [[%d, 7]]}' % at
    return '{ "tags" : {"name":"%s"}, "layer":"%s","minzoom":0,\n "maxzoom":2, %s }' % (name, layer, geometry)


def vtmap(command, *words):
    """The status and the lines of a command."""
    child = subprocess.run([*VTMAP, command, *words], capture_output=True, text=True)
    return child.returncode, (child.stdout + child.stderr).splitlines()


class Office:
    """A server behind nginx, where people have passwords, and the log of its edits."""

    def __init__(self, folder, server, front):
        self.server, self.front, self.path = server, front, os.path.join(folder, "edits.jsonl")
        self.nginx = os.path.join(front.folder, "edits.log")
        self.follower = follow(server.url, "--log", self.path, "--every", "0.05")
        self.follower.stdout.readline()

    def edit(self, person, method, path, body=None):
        """The status of an edit by a person, by nginx; by nobody, straight to the server."""
        words = [*KIND, "-X", method]
        if person is None:
            return status_of(curl(self.server.url + path, *words, body=body))
        return status_of(
            curl(self.front.url + path, *words, "-u", f"{person}:secret", "--interface", "127.0.0.2", body=body)
        )

    def last(self):
        """The number of the last edit, once the log has it."""
        edits = known(self.server)["edits"]

        def is_there():
            with open(self.path, "rb") as file:
                return any(json.loads(line).get("edit") == edits for line in file)

        waited(is_there)
        return edits

    def log(self, *words):
        """What `vtmap log` tells, without the times."""
        self.last()
        code, lines = vtmap("log", self.path, "--nginx", self.nginx, *words)
        return code, [re.sub(r"^\d{4}-\d\d-\d\d \d\d:\d\d:\d\d  ", "", line) for line in lines]

    def undo(self, numbers, *words):
        """What `vtmap undo` tells."""
        self.last()
        return vtmap("undo", numbers, "--log", self.path, "--url", self.server.url, *words)


def told(cases, office):
    """Each kind of edit, by several people."""
    was, checked = (
        shape("Old").replace("\n", ""),
        '{"changes":[{"was":%s,"put":7,"feature":%s},{"put":8,"feature":%s,"was":null}]}',
    )
    large = shape("é\\u0001", at=9) + " " * (65536 - len(shape("é\\u0001", at=9).encode()))
    replies = [
        office.edit("anna", "PUT", "/features/7", shape("Old")),
        office.edit("bob", "POST", "/admin/edits", checked % (was, shape("New"), was)),
        office.edit(None, "PUT", "/features/9", shape("Nine", "q")),
        office.edit("bob", "DELETE", "/features/8"),
        office.edit("anna", "POST", "/admin/edits/at/5", '{"changes":[{"put":9,"feature":%s}]}' % shape("Nine", "p")),
        office.edit("anna", "PUT", "/features/10", large),
        office.edit("mallory:wrong", "PUT", "/features/7", shape("x")),
        office.edit("bob", "DELETE", "/features/8"),
    ]
    cases.show("trail: edits by people", replies, [200] * 6 + [401, 404])
    lines = [
        "1  anna  new p 7 ('Old')",
        "2  bob  changed p 7 ('New'): name: 'Old' -> 'New'",
        "2  bob  new p 8 ('Old')",
        "3  -  new q 9 ('Nine')",
        "4  bob  deleted p 8 ('Old')",
        "5  anna  changed p 9 ('Nine'): (layer): 'q' -> 'p'",
        "6  anna  new p 10 ('é\\x01')",
    ]
    cases.show("trail: who changed what", office.log(), (0, lines))
    rows = [
        (("--feature", "7"), [0, 1]),
        (("--person", "bob"), [1, 2, 4]),
        (("--layer", "q"), [3, 5]),
        (("--day", "today"), [*range(7)]),
        (("--day", "2001-01-01"), []),
        (("--edits", "3-4,6"), [3, 4, 6]),
        (("--person", "bob", "--feature", "8-9"), [2, 4]),
    ]
    for words, wanted in rows:
        cases.show(f"trail: {' '.join(words)}", office.log(*words), (0, [lines[at] for at in wanted]))
    for name, first in NAMES.items():
        code, found = office.log("--count", name)
        cases.show(f"trail: --count {name}", (code, any(re.match(first + ": ", line) for line in found)), (0, True))
    cases.show("trail: --count person", office.log("--count", "person")[1],
               ["-: 1 edit: 1 new", "anna: 3 edits: 2 new, 1 changed", "bob: 2 edits: 1 new, 1 changed, 1 deleted"])
    cases.show("trail: --numbers", office.log("--person", "anna", "--numbers"), (0, ["1,5-6"]))
    code, found = office.log("--json", "--edits", "4")
    row_of = json.loads(found[0])
    cases.show(
        "trail: --json", (code, row_of["edit"], row_of["person"], row_of["changes"][0]["delete"]), (0, 4, "bob", 8)
    )


def faults(cases, office):
    """A second one that writes the log, and a file system that is full."""
    code, lines = vtmap("follow", "--url", office.server.url, "--log", office.path, "--once")
    cases.show(
        "trail: a second one for the same log",
        (code, lines[-1].endswith(": another `vtmap follow` writes this log")),
        (1, True),
    )
    path = os.path.join(os.path.dirname(office.path), "other.jsonl")
    for size, code in ((1, 1), (10**7, 0)):
        words = [
            "prlimit",
            f"--fsize={size * 1000}",
            *VTMAP,
            "follow",
            "--url",
            office.server.url,
            "--log",
            path,
            "--once",
        ]
        child = subprocess.run(words, capture_output=True, text=True)
        cases.show(
            f"trail: a log in files of at most {size} KB",
            (child.returncode, "Traceback" in child.stderr),
            (code, False),
        )


def same_again(cases, office):
    """The same change by several people in turn, and by somebody who goes past nginx."""
    first = office.last() + 1
    for person in ("anna", "bob", None, "anna"):
        office.edit(person, "PUT", "/features/7", shape("Same"))
        time.sleep(1.5)
    lines = office.log("--edits", f"{first}-{first + 3}")[1]
    cases.show("trail: the same change again", [line.split("  ")[1] for line in lines], ["anna", "bob", "-", "anna"])


def undone(cases, office):
    """An edit, a range, conflicts, and the way back."""
    server = office.server
    before, first = features(server), office.last() + 1
    office.edit("anna", "PUT", "/features/20", shape("one"))
    office.edit(
        "anna",
        "POST",
        "/edits",
        '{"changes":[{"put":20,"feature":%s},{"put":21,"feature":%s},{"delete":7}]}' % (shape("two"), shape("21")),
    )
    office.edit("anna", "DELETE", "/features/20")
    office.edit("anna", "PUT", "/features/20", shape("three"))
    after, last = features(server), office.last()
    code, lines = office.undo(f"{first}-{last}", "--dry-run")
    end = "1 put back, 0 changed back, 2 deleted, 0 in conflict, 0 refused"
    cases.show(
        "trail: undo --dry-run", (code, lines[-1], features(server) == after), (0, f"{end}: nothing was sent", True)
    )
    code, lines = office.undo(f"{first}-{last}")
    seen = code, sorted(lines), features(server) == before
    cases.show(
        "trail: undo of a range",
        seen,
        (
            0,
            sorted(
                [
                    "deleted: p 20 ('three')",
                    "put back: p 7 ('Same')",
                    "deleted: p 21 ('21')",
                    f"its edits: {last + 1}",
                    end,
                ]
            ),
            True,
        ),
    )
    code, lines = office.undo(f"{first}-{last}")
    cases.show(
        "trail: once more changes nothing", (code, office.last(), features(server) == before), (0, last + 1, True)
    )
    code, lines = office.undo(f"{last + 1}")
    cases.show("trail: undo of the undoing", (code, features(server) == after), (0, True))
    code, lines = office.undo("9999")
    cases.show(
        "trail: an edit that the log doesn't have",
        (code, lines[0].split(":")[0]),
        (1, "the log doesn't have the edits 9999"),
    )


def conflicts(cases, office):
    """What somebody has changed since stays: after the edits, and between them."""
    server, first = office.server, office.last() + 1
    office.edit(
        "anna",
        "POST",
        "/edits",
        '{"changes":[%s]}' % ",".join('{"put":%d,"feature":%s}' % (number, shape("a")) for number in (30, 31, 32)),
    )
    office.edit("bob", "PUT", "/features/31", shape("bob's"))
    office.edit("bob", "PUT", "/features/32", shape("bob's"))
    office.edit("anna", "PUT", "/features/32", shape("anna's"))
    code, lines = office.undo(f"{first},{first + 3}")
    left = {number: json.loads(curl(f"{server.url}/features/{number}")[2])["tags"]["name"] for number in (31, 32)}
    cases.show(
        "trail: what somebody has changed since stays",
        (code, left, status_of(curl(server.url + "/features/30"))),
        (1, {31: "bob's", 32: "bob's"}, 404),
    )
    cases.show(
        "trail: and is named",
        sorted(line for line in lines if line.startswith("conflict")),
        [
            "conflict: p 31 ('a'): somebody else has changed it meanwhile, on the map now: name: 'a' -> \"bob's\"",
            "conflict: p 32 ('a'): somebody has changed it between these edits",
        ],
    )
    cases.show("trail: and counted", lines[-1], "0 put back, 1 changed back, 1 deleted, 2 in conflict, 0 refused")


def import_undone(cases, office, folder):
    """An import prints the numbers of its edits, by which it is taken back; while it runs somebody else edits the
    map."""
    before = features(office.server)
    path = written(
        folder, "trail.geojson", [row("Point", [at / 100, at / 100], name=f"point {at}") for at in range(150)]
    )
    code, lines = imported(path, office.server.url, "--layer", "imported", "--maxzoom", "3", "--first", "1001")
    numbers = next((line.split()[2] for line in lines if line.startswith("its edits: ")), None)
    cases.show("trail: an import prints its edits", (code, numbers), (0, f"{office.last() - 2}-{office.last()}"))
    code, lines = office.undo(numbers)
    cases.show("trail: an import is taken back", (code, lines[-1], features(office.server) == before),
               (0, "0 put back, 0 changed back, 150 deleted, 0 in conflict, 0 refused", True))


def missed(cases, office, folder):
    """Edits that were published before the log had them, told and taken back by what nginx and the gateway were
    sent."""
    server, log, saved = office.server, os.path.join(folder, "gap.jsonl"), os.path.join(folder, "gap.gateway.log")
    follows, logs = ["follow", "--log", log, "--once", "--url", server.url], ["--nginx", office.nginx, "--nginx", saved]
    vtmap(*follows)
    first = office.last() + 1
    office.edit("anna", "PUT", "/features/50", shape("one"))
    vtmap(*follows)
    office.edit("bob", "PUT", "/features/50", shape("two"))
    with Gateway(folder, server.url, "--log", saved) as gateway:
        gis = Gis(gateway, "p.points")
        gis.rows()
        gis.save(gis.update(50, name="three"))
    office.edit("bob", "DELETE", "/features/50")
    office.last()
    curl(server.url + "/publish", "-X", "POST")
    server.restart()
    vtmap(*follows)
    code, lines = vtmap("log", log)
    gap = f"the edits {first + 1:,} to {first + 3:,} are missing: they were published before they were read"
    cases.show("trail: edits that the log misses", (code, len(lines), gap in lines[-1]), (0, 2, True))
    code, lines = vtmap("log", log, *logs)
    cases.show("trail: are told by nginx's log and the gateway's", [line.split("  ", 1)[1] for line in lines], [
        f"{first}  anna  new p 50 ('one')",
        f"{first + 1}  bob  changed p 50 ('two'): name: 'one' -> 'two'",
        f"{first + 2}  127.0.0.1  changed p 50 ('three'): name: 'two' -> 'three'",
        f"{first + 3}  bob  deleted p 50 ('three')",
    ])
    code, lines = vtmap("undo", f"{first + 2}-{first + 3}", "--log", log, "--url", server.url)
    cases.show(
        "trail: without them they can't be taken back",
        (code, lines),
        (1, [f"the log doesn't have the edits {first + 2}-{first + 3}: nothing is taken back"]),
    )
    code, lines = vtmap("undo", f"{first + 2}-{first + 3}", "--log", log, *logs, "--url", server.url)
    now = json.loads(curl(f"{server.url}/features/50")[2])["tags"]
    cases.show("trail: with them they are", (code, lines[0], now), (0, "put back: p 50 ('two')", {"name": "two"}))
    told = "nothing is taken back"
    code, lines = vtmap("undo", f"{first + 1}", "--log", log, "--nginx", saved, "--url", server.url)
    wanted = (
        f"the log doesn't have the edits {first + 1}, and what nginx and the gateway were sent in that time isn't as"
        f" many edits, or others: {told}"
    )
    cases.show("trail: where one of the logs is missing they aren't", (code, lines), (1, [wanted]))


def rotated(cases, office):
    """The log is renamed and compressed while it is written."""
    office.last()
    old = office.path + ".1"
    os.rename(office.path, old)
    office.edit("anna", "PUT", "/features/40", shape("forty"))
    cases.show("trail: a log that was renamed goes on in a new file", waited(lambda: os.path.exists(office.path)), True)
    with open(old, "rb") as file, gzip.open(old + ".gz", "wb") as packed:
        packed.write(file.read())
    code, lines = vtmap("log", old + ".gz", office.path, "--numbers")
    cases.show("trail: both are read", (code, lines), (0, [f"1-{office.last()}"]))
    code, lines = vtmap("log", office.nginx)
    cases.show(
        "trail: a file that is no log", (code, "this isn't a line of `vtmap follow --log`" in lines[0]), (1, True)
    )


def trail(cases: Cases, folder: str) -> None:
    """Who changed what, and undo."""
    nginx = shutil.which("nginx", path=os.environ.get("PATH", "") + ":/usr/sbin")
    if not nginx:
        cases.say("trail: no nginx: nobody has a name")
        return
    place = os.path.join(folder, "trail_part")
    os.mkdir(place)
    with Server(place, "trail", 65536) as server, Nginx(nginx, place, server, PEOPLE) as front:
        with open(os.path.join(front.folder, "people"), "w", encoding="utf-8") as file:
            file.write("anna:{PLAIN}secret\nbob:{PLAIN}secret\n")
        office = Office(place, server, front)
        told(cases, office)
        faults(cases, office)
        same_again(cases, office)
        undone(cases, office)
        conflicts(cases, office)
        if has_gdal(cases):
            import_undone(cases, office, place)
        missed(cases, office, place)
        rotated(cases, office)
        office.follower.kill()
        office.follower.communicate()
    shutil.rmtree(place)
