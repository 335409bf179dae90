"""The part `windows` of run.py: the commands of an office, by vtmap.pyz, where the system looks like Windows
(windows_stand_in.py). No Windows is tried here."""
import fcntl
import json
import os
import signal
import sqlite3
import subprocess
import sys
import urllib.request

from vtmap.command_line import COMMANDS
from vtmap.systems import LOCKED

from .endings import has_pillow
from .import_stand import has_gdal, row, written
from .stand import HERE, SYSTEM_PYTHON, TOP, Cases, Server, curl, feature, free_port

STAND_IN = [SYSTEM_PYTHON, os.path.join(HERE, "windows_stand_in.py")]
# A name that cp1252 hasn't got, and one that isn't even in one unit of UTF-16.
CITY, FLAG = "Łódź", "\U0001f6a9"
# A path of Windows, which is one name here.
WELLS = "C:\\Daten\\Brunnen.csv"


class Office:
    """A folder of files, and a server."""

    def __init__(self, cases, folder, server):
        self.cases, self.folder, self.server = cases, folder, server
        # One file, as a clerk has it.
        subprocess.run([sys.executable, os.path.join(TOP, "tools", "pyz.py"), self.path("vtmap.pyz")], check=True)
        self.words = {**os.environ, "VTMAP_PLACE": self.path("vtmap.pyz")}

    def begun(self, *words):
        """A command there, which runs."""
        return subprocess.Popen(
            [*STAND_IN, *words], cwd=self.folder, env=self.words, stdout=subprocess.PIPE, stderr=subprocess.STDOUT
        )

    def ran(self, *words, most=100):
        """The status of a command there, and what it prints."""
        child = self.begun(*words, "--url", self.server.url)
        told = child.communicate(timeout=most)[0]
        return child.returncode, told.decode("cp1252")

    def show(self, name, words, status, said, is_last=True):
        """Shows the status of a command, its last line or a part of what it says, and that it ends its lines as
        Windows does."""
        found, told = self.ran(*words)
        has = told.rstrip().splitlines()[-1:] == [said] if is_last else said in told
        self.cases.show(
            f"windows: {name}",
            (found, has or told, "Traceback" in told, told.count("\n") - told.count("\r\n")),
            (status, True, False, 0),
        )

    def path(self, name):
        """The path of a file."""
        return os.path.join(self.folder, name)

    def write(self, name, text, encoding="cp1252"):
        """Writes a file, byte by byte."""
        with open(self.path(name), "w", encoding=encoding, newline="") as file:
            file.write(text)

    def read(self, name):
        """The bytes of a file."""
        with open(self.path(name), "rb") as file:
            return file.read()


def windows(cases: Cases, folder: str) -> None:
    """Each command that an office uses."""
    if not has_gdal(cases):
        return
    folder = os.path.join(folder, "windows")
    os.mkdir(folder)
    with Server(folder, "office", 16384) as server:
        office = Office(cases, folder, server)
        helps(office)
        imports(office)
        copies(office)
        history(office)
        others(office)
        gateway(office)
        locks(office)


def helps(office):
    """Each command begins."""
    for name in COMMANDS:
        code, told = office.ran(name, "--help")
        office.cases.show(f"windows: {name} --help", (code, told.startswith(f"usage: vtmap {name} ")), (0, True))
    code, told = office.ran("maps")
    office.cases.show(
        "windows: maps says that it is for Linux",
        (code, told),
        (1, "the maps of a machine are for Linux with systemd\r\n"),
    )
    office.show("try says so too", ["try"], 1, "the server runs on Linux alone", False)


def imports(office):
    """A table of Excel, by its path, and names that the console hasn't got."""
    words = [WELLS, "--id", "Nr", "--ids", "map.ids", "--layer", "well"]
    office.write(WELLS, "Nr;Name;lon;lat\r\nB-1;Brücke;7,495;54,501\r\nB-2;Mühle;7,505;54,502\r\n")
    office.show("import of a table of Excel", ["import", *words], 0, "2 taken, 0 refused")
    found = json.loads(curl(office.server.url + "/features/1")[2])["tags"]
    office.cases.show("windows: its letters", found, {"Name": "Brücke", "Nr": "B-1"})
    office.cases.show(
        "windows: its ids, without carriage returns", office.read("map.ids"), b'["well","B-1",1]\n["well","B-2",2]\n'
    )
    office.write(
        WELLS, "Nr;Name;lon;lat\r\nB-1;Brücke;7,495;54,501\r\nB-2;Mühlbach;7,505;54,502\r\nB-3;Wehr;7,5;54,5\r\n"
    )
    office.show("update", ["update", *words], 0, "1 new, 1 changed, 0 deleted, 1 unchanged")
    office.show("the same again", ["update", *words], 0, "0 new, 0 changed, 0 deleted, 3 unchanged")
    # Notepad has saved the ids.
    with open(office.path("map.ids"), "wb") as file:
        file.write(b'["well","B-1",1]\r\n["well","B-2",2]\r\n["well","B-3",3]\r\n')
    office.show(
        "the same by ids that an editor has saved", ["update", *words], 0, "0 new, 0 changed, 0 deleted, 3 unchanged"
    )
    written(
        office.folder,
        "towns.geojson",
        [row("Point", [7.5, 54.5], nr=1, name=CITY), row("Point", [7.6, 54.6], nr=2, name=FLAG)],
    )
    words = ["towns.geojson", "--id", "nr", "--first", "100", "--layer", "town"]
    office.show("import of names that the console hasn't got", ["import", *words], 0, "2 taken, 0 refused")
    curl(f"{office.server.url}/features/101", "-X", "PUT", body=feature("town", tags={"name": CITY + "!", "nr": 1}))
    written(
        office.folder,
        "towns.geojson",
        [row("Point", [7.5, 54.5], nr=1, name=CITY + "?"), row("Point", [7.6, 54.6], nr=2, name=FLAG)],
    )
    office.show("a conflict of such names", ["update", *words], 1, "name: '\\u0141ód\\u017a!' on the map", False)
    office.show("a file that isn't there", ["import", "C:\\none.gpkg", "--layer", "x"], 1, "nothing was sent", False)


def copies(office):
    """A GeoPackage and back."""
    office.show("checkout", ["checkout", "town.gpkg", "--layer", "well"], 0, "town.gpkg: 3 features in 1 tables", False)
    with sqlite3.connect(office.path("town.gpkg")) as file:
        file.execute("UPDATE well SET Name = ? WHERE fid = 1", (CITY,))
    file.close()
    office.show("checkin", ["checkin", "town.gpkg"], 0, "0 new, 1 changed, 0 deleted, 0 conflicts, 0 refused")
    with open(office.path("town.gpkg"), "rb"):
        words = ["checkout", "town.gpkg", "--layer", "well", "--force"]
        office.show(
            "checkout into a file that another program has open",
            words,
            1,
            "another program has it open: close it there",
            False,
        )
    office.show("checkout once it is closed", words, 0, "town.gpkg: 3 features in 1 tables", False)
    office.show("save", ["save", "map.geojson"], 0, "5 features saved")
    office.show("save as lines", ["save", "map.jsonl"], 0, "5 features saved")
    office.cases.show(
        "windows: neither has carriage returns",
        [b"\r" in office.read(name) for name in ("map.geojson", "map.jsonl")],
        [False, False],
    )
    office.show(
        "save by the disk file",
        ["save", "moment.jsonl", "--disk", office.server.disk],
        0,
        "5 features saved, of the map after edit",
        False,
    )
    office.cases.show("windows: which is the same", office.read("moment.jsonl") == office.read("map.jsonl"), True)
    office.show("delete-layer", ["delete-layer", "well"], 0, "3 features of well deleted")
    office.show("load", ["load", "map.geojson"], 0, "3 features put, 2 were there already")


def history(office):
    """Who changed what."""
    follow = ["follow", "--log", "edits.jsonl", "--once"]
    office.show("follow", follow, 0, "edits.jsonl: following", False)
    curl(f"{office.server.url}/features/7", "-X", "PUT", body=feature(tags={"name": CITY + FLAG}))
    office.ran(*follow)
    office.show("log", ["log", "edits.jsonl"], 0, "new p 7 ('\\u0141ód\\u017a\\U0001f6a9')", False)
    code, told = office.ran("log", "edits.jsonl", "--json")
    found = [change["feature"]["tags"] for change in json.loads(told)["changes"]]
    office.cases.show("windows: log --json is JSON", (code, found), (0, [{"name": CITY + FLAG}]))
    numbers = office.ran("log", "edits.jsonl", "--numbers")[1].strip()
    office.show(
        "undo",
        ["undo", numbers, "--log", "edits.jsonl"],
        0,
        "0 put back, 0 changed back, 1 deleted, 0 in conflict, 0 refused",
    )


def others(office):
    """What else an office uses."""
    office.show("publish", ["publish", "--record", "published"], 0, "published")
    office.show("watch", ["watch", "--record", "published", "--metrics", "metrics"], 0, "nothing to do", False)
    office.show("qgis", ["qgis", "map.qgs"], 0, "map.qgs: type=xyz", False)
    if has_pillow():
        office.show("draw", ["draw", "map.png", "--zoom", "14"], 0, "features drawn", False)
    else:
        office.cases.say("windows: no Pillow: nothing is drawn")
    office.show("join", ["join", office.server.url, "all.pmtiles"], 0, "1 archives joined", False)


def gateway(office):
    """The gateway of QGIS, beside it on the same machine."""
    port = free_port()
    child = office.begun("wfs", "--port", str(port), "--state", "wfs.state", "--url", office.server.url)
    lines = [child.stdout.readline().decode("cp1252") for _ in range(2)]
    office.cases.show("windows: wfs", lines[1], f"http://127.0.0.1:{port}/wfs\r\n")
    with urllib.request.urlopen(
        f"http://127.0.0.1:{port}/wfs?SERVICE=WFS&REQUEST=GetCapabilities", timeout=60
    ) as reply:
        office.cases.show("windows: wfs answers", (reply.status, b"town" in reply.read()), (200, True))
    office.show(
        "a second one with the same state", ["wfs", "--state", "wfs.state"], 1, "another `vtmap wfs` uses wfs.state"
    )
    child.send_signal(signal.SIGTERM)
    office.cases.show("windows: wfs ends", child.wait(60), 0)
    child.stdout.close()


def locks(office):
    """A file of ids that another process uses."""
    with open(office.path("map.ids"), "ab") as file:
        fcntl.lockf(file, fcntl.LOCK_EX, 1, LOCKED)
        words = ["import", WELLS, "--id", "Nr", "--ids", "map.ids", "--layer", "well"]
        office.show("ids that another import uses", words, 1, "another import uses map.ids: nothing was sent")
