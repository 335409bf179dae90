"""The part `page-files` of run.py: files that are dropped on the page, in a real Chromium through nginx with
docs/nginx.conf.

What the page makes of a file is compared with what `vtmap import` makes of it. Pictures are kept in the folder that
PICTURES names, if it does.
"""
import json
import os
import shutil
import subprocess
import time

from .browser import HIGH, WIDE, Browser
from .page_hands import Hands
from .pages import LOSE, PAGE, REFUSE, WHILE
from .stand import SYSTEM_PYTHON, VTMAP, Cases, Nginx, Server, curl, feature, status_of

JSON_FILE = {
    "type": "FeatureCollection",
    "features": [
        {
            "type": "Feature",
            "geometry": {"type": "Point", "coordinates": [7.5, 54.5, 3]},
            "properties": {
                "name": "A",
                "n": 5,
                "r": 0.5,
                "b": True,
                "d": "2024-01-31",
                "l": [1, 2],
                "o": {"a": 1},
                "nul": None,
                "mix": 5,
                "bi": True,
                "small": 0.00001,
                "whole": 5.0,
                "big": 9007199254740993,
            },
        },
        {
            "type": "Feature",
            "geometry": {"type": "LineString", "coordinates": [[7.5, 54.5], [7.501, 54.501]]},
            "properties": {"name": "B", "n": 6, "r": 2, "b": False, "l": [3], "mix": "x", "bi": 3, "late": 1, "x": ""},
        },
        {
            "type": "Feature",
            "geometry": {
                "type": "Polygon",
                "coordinates": [[[7.5, 54.5], [7.502, 54.5], [7.502, 54.502], [7.5, 54.5]]],
            },
            "properties": {"name": "C"},
        },
        {
            "type": "Feature",
            "geometry": {"type": "MultiPoint", "coordinates": [[7.51, 54.5], [7.52, 54.5]]},
            "properties": {"name": "D"},
        },
        {"type": "Feature", "geometry": None, "properties": {"name": "E"}},
        {
            "type": "Feature",
            "geometry": {"type": "GeometryCollection", "geometries": [{"type": "Point", "coordinates": [7, 54]}]},
            "properties": {"name": "F"},
        },
        {"type": "Feature", "geometry": {"type": "Point", "coordinates": [7, 89]}, "properties": {"name": "G"}},
    ],
}
TABLE = (
    'nr;name;lon;lat;h\n1;"Well;'
    ' ""old""";7,495;54,501;\n2;Pump;7.505;54.502;3\n3;None;;;\n4;Bad;1.000,5;54;x\n5;caf\xe9;7.5;54.5;1\n'
)
TRACK = """<?xml version="1.0"?><gpx version="1.1" creator="x" xmlns="http://www.topografix.com/GPX/1/1"><metadata><name>m</name></metadata>
<wpt lat="54.5" lon="7.5"><ele>3.5</ele><time>2024-01-31T10:00:00Z</time><name>W &amp; co</name><cmt>c</cmt><desc>d</desc>
<link href="http://x"><text>t</text></link><sym>Flag</sym><type>ty</type></wpt>
<rte><name>R</name><number>3</number><rtept lat="54.5" lon="7.5"><name>p1</name></rtept><rtept lat="54.501" lon="7.501"/></rte>
<trk><name>T</name><trkseg><trkpt lat="54.5" lon="7.5"><ele>1</ele></trkpt><trkpt lat="54.501" lon="7.502"/></trkseg>
<trkseg><trkpt lat="54.503" lon="7.5"/><trkpt lat="54.504" lon="7.501"/></trkseg></trk></gpx>"""
PLACES = """<?xml version="1.0" encoding="UTF-8"?><kml xmlns="http://www.opengis.net/kml/2.2"><Document><name>Doc</name><Folder><name>Places</name>
<Placemark><name>One</name><description>a &lt;b&gt;x</description><ExtendedData><Data name="k"><value>5</value></Data></ExtendedData>
<Point><coordinates>7.5,54.5,3</coordinates></Point></Placemark>
<Placemark><name>Two</name><LineString><coordinates>7.5,54.5 7.501,54.501</coordinates></LineString></Placemark></Folder>
<Placemark><name>Three</name><Polygon><outerBoundaryIs><LinearRing><coordinates>7.5,54.5 7.502,54.5 7.502,54.502 7.5,54.5</coordinates></LinearRing>
</outerBoundaryIs><innerBoundaryIs><LinearRing><coordinates>7.501,54.5002 7.5015,54.5002 7.5015,54.5006 7.501,54.5002</coordinates></LinearRing>
</innerBoundaryIs></Polygon></Placemark>
<Placemark><name>M</name><MultiGeometry><Point><coordinates>7.5,54.51</coordinates></Point><Point><coordinates>7.51,54.51</coordinates></Point></MultiGeometry>
</Placemark></Document></kml>"""
# Layers of GPX that the page doesn't read (each point of a line), and tags of KML that GDAL's driver adds to each
# feature.
NOT_READ, ADDED = ("route_points", "track_points"), ("tessellate", "extrude", "visibility")
FAULT = "document.getElementById('told').className === 'fault' && document.getElementById('told').textContent"


class Files(Hands):
    """A person who drops files on the page."""

    def all(self, nginx):
        self.one = self.opened("#14/54.5/7.5")
        self.compared()
        self.many()
        self.refused_ones()
        self.taken_ids()
        self.lost()
        self.not_taken()
        self.viewers(nginx)
        told = [fault for fault in self.one.faults() if not fault.startswith("Failed to load resource")]
        self.show("the browser complains of nothing", told, [])

    def file(self, name, content):
        """A file of this content."""
        path = os.path.join(self.folder, name)
        with open(path, "wb") as file:
            file.write(content if isinstance(content, bytes) else content.encode())
        return path

    def drop(self, path):
        """Drops a file on the map, as from a window of files."""
        data = {"items": [], "files": [path], "dragOperationsMask": 1}
        for kind in ("dragEnter", "dragOver", "drop"):
            self.one.ask("Input.dispatchDragEvent", type=kind, x=400, y=400, data=data)

    def chosen(self, path):
        """Chooses a file by the button's dialog."""
        root = self.one.ask("DOM.getDocument")["root"]["nodeId"]
        node = self.one.ask("DOM.querySelector", nodeId=root, selector="#chosen")["nodeId"]
        self.one.ask("DOM.setFileInputFiles", nodeId=node, files=[path])

    def is_shown(self, text):
        """Waits for the heading of the panel."""
        self.one.wait(
            (
                "!document.getElementById('panel').hidden && document.querySelector('#panel h2').innerText ==="
                f" {json.dumps(text)}"
            ),
            15,
        )
        return self.one.text("#panel h2")

    def features(self, url=None):
        """The features of a map: layer, tags and geometry of each, in an order of their own."""
        found, number = [], 0
        while status_of(reply := curl(f"{url or self.server.url}/admin/features/from/{number}")) == 200:
            row = json.loads(reply[2])
            made, number = row["feature"], row["id"] + 1
            found.append((made["layer"], made["tags"], made["geometry"], (made["minzoom"], made["maxzoom"])))
        return sorted(found, key=lambda row: json.dumps(row[:2], sort_keys=True))

    def imported(self, path, name):
        """What `vtmap import` makes of a file: the features, and what it says."""
        with Server(self.folder, name + ".disk", sectors=4096, more=["--admin"]) as other:
            words = [SYSTEM_PYTHON, *VTMAP[1:], "import", path, "--url", other.url]
            told = subprocess.run(words, capture_output=True, text=True, check=False).stdout
            return self.features(other.url), told

    def compared(self):
        """Each kind of file: shown, sent, the same features as the import makes, and taken back."""
        for name, content, count in (
            ("a.geojson", json.dumps(JSON_FILE), 4),
            ("b.csv", TABLE.encode("cp1252"), 3),
            ("d.gpx", TRACK, 3),
            ("e.kml", PLACES, 4),
        ):
            path = self.file(name, content)
            before = self.edits_and_features()
            self.drop(path)
            self.show(f"{name} is shown", self.is_shown(f"{name}: {count} features"), f"{name}: {count} features")
            self.show(f"{name} isn't on the map yet", self.edits_and_features(), before)
            self.seen(name)
            notes = self.one.value("[...document.querySelectorAll('#panel .notes li')].map(each => each.innerText)")
            time.sleep(0.5)
            self.keep(self.one, f"page-file-{name.split('.')[-1]}.png")
            self.one.press(f"Send {count}")
            self.show(
                f"{name} is sent", self.is_shown(f"{name}: {count} features sent"), f"{name}: {count} features sent"
            )
            self.show(f"{name} by one edit", self.edits_and_features(), (before[0] + 1, before[1] + count))
            wanted, told = self.imported(path, name)
            wanted = [
                (layer, {key: value for key, value in tags.items() if key not in ADDED}, shape, zooms)
                for layer, tags, shape, zooms in wanted
                if layer not in NOT_READ
            ]
            found = self.features()
            self.show(
                f"{name} has the layers, tags and zooms that the import gives it",
                [(row[0], row[1], row[3]) for row in found],
                [(row[0], row[1], row[3]) for row in wanted],
            )
            self.show(
                f"{name} has its shapes, within a unit of the world",
                [differs(one[2], other[2]) for one, other in zip(found, wanted)],
                [0] * count,
            )
            told = told.replace("a list is no value", "a list or an object is no value")
            said = [note for note in notes if self.words_of(note) not in told]
            self.show(f"of {name} the page says nothing that the import doesn't", said, [])
            self.one.press("Take it all back")
            self.told(f"{count} features taken back")
            self.show(f"{name} is taken back", self.edits_and_features(), (before[0] + 2, before[1]))

    @staticmethod
    def words_of(note):
        """What a note of the page and the import's have in common."""
        note = note.partition(" refused: ")[2] or note.rpartition(":")[0]
        return note.replace(" and are read as Windows-1252", "")

    def many(self):
        """More features than an edit has; one of them is changed before they are taken back."""
        rows = "".join(f"{7.49 + at % 20 / 1000},{54.49 + at // 20 / 1000},tree {at}\n" for at in range(150))
        before = self.edits_and_features()
        self.chosen(self.file("trees.csv", "lon,lat,name\n" + rows))
        self.is_shown("trees.csv: 150 features")
        self.one.type("#panel input[aria-label=layer]", "tree")
        self.one.type("#panel input[aria-label='first zoom']", "12")
        self.one.press("Send 150")
        self.is_shown("trees.csv: 150 features sent")
        edits, count = self.edits_and_features()
        self.show("150 features are three edits", (edits - before[0], count - before[1]), (3, 150))
        self.show(
            "with the layer and the zooms of the form",
            {(row[0], row[3]) for row in self.features()},
            {("tree", (12, 14))},
        )
        self.show("which the panel tells", f"edits {before[0] + 1}–{edits}" in self.one.text("#panel"), True)
        first = json.loads(curl(f"{self.server.url}/admin/features/from/0")[2])
        body = {**first["feature"], "tags": {"name": "kept"}}
        curl(f"{self.server.url}/features/{first['id']}", "-X", "PUT", body=json.dumps(body))
        self.one.press("Take it all back")
        self.told("149 features taken back; 1 stays, since somebody has changed it")
        self.show("what somebody has changed stays", [row[1] for row in self.features()], [{"name": "kept"}])
        curl(f"{self.server.url}/features/{first['id']}", "-X", "DELETE")

    def refused_ones(self):
        """Features that the server refuses are named with its words, and the rest is sent; a large one isn't sent."""
        def row(name, size=0.0):
            ring = [[7.5, 54.5], [7.5 + size, 54.5], [7.5 + size, 54.5 + size], [7.5, 54.5]]
            return {
                "type": "Feature",
                "properties": {"name": name},
                "geometry": {"type": "Polygon", "coordinates": [ring]}
                if size
                else {"type": "Point", "coordinates": [7.5, 54.5]},
            }

        rows = [row(f"{at}" if at not in (3, 40) else "x" * 1100) for at in range(70)] + [row("large", 0.5)]
        self.drop(self.file("some.json", json.dumps({"type": "FeatureCollection", "features": rows})))
        self.is_shown("some.json: 71 features")
        self.one.press("Send 71")
        self.is_shown("some.json: 68 features sent")
        notes = self.one.value("[...document.querySelectorAll('#panel .notes li')].map(each => each.innerText)")
        long = "a text of a tag has over 1,024 bytes, or a number is outside of -2^63 to 2^64 - 1 (E7 Value)"
        large = "it is larger than a tile of its last zoom: vtmap import cuts it, or a smaller last zoom shows it whole"
        self.show("what is refused is named with the server's words", notes,
                  [f"feature of the file {at} refused: {why}" for at, why in ((71, large), (4, long), (41, long))])
        self.show("and the rest is on the map", len(self.features()), 68)
        self.one.press("Take it all back")
        self.told("68 features taken back")

    def taken_ids(self):
        """Somebody takes the next id between the question for it and the edit."""
        free = (json.loads(curl(f"{self.server.url}/admin/status")[2]).get("last") or 0) + 1
        self.drop(self.file("two.csv", "lon,lat,name\n7.5,54.5,one\n7.51,54.5,two\n"))
        self.is_shown("two.csv: 2 features")
        self.one.value("""(() => { const asked = window.fetch; let first = true; window.fetch = async (url, words) => {
            if (first && words?.method === "POST") { first = false; await asked("../features/%d", {method: "PUT", body: %s}); }
            return asked(url, words); }; })()""" % (free + 1, json.dumps(feature("place", tags={"name": "theirs"}))))
        self.one.press("Send 2")
        self.is_shown("two.csv: 2 features sent")
        self.show(
            "ids that are taken meanwhile are left to who took them",
            sorted(row[1]["name"] for row in self.features()),
            ["one", "theirs", "two"],
        )
        self.one.press("Take it all back")
        self.told("2 features taken back")
        curl(f"{self.server.url}/features/{free + 1}", "-X", "DELETE")

    def lost(self):
        """No reply comes, then none is taken; what was made isn't made twice."""
        before = self.edits_and_features()
        rows = "".join(f"{7.49 + at / 1000},54.5,{at}\n" for at in range(100))
        self.drop(self.file("lost.csv", "lon,lat,name\n" + rows))
        self.is_shown("lost.csv: 100 features")
        self.one.value(LOSE)
        told = self.refused(self.one, "Send 100")
        time.sleep(WHILE)
        self.show(
            "no reply", told, "the server doesn't answer: the edit may be made or not. Save again: it isn't made twice"
        )
        self.one.value(REFUSE % (1, 1))
        self.refused(self.one, "Send 100")
        self.one.press("Send 100")
        self.is_shown("lost.csv: 100 features sent")
        self.show(
            "each feature is made once",
            (self.edits_and_features()[1] - before[1], len(self.features())),
            (100, before[1] + 100),
        )
        self.one.press("Take it all back")
        self.told("100 features taken back")

    def not_taken(self):
        """Files that the page can't read, and one that is left."""
        for name, content, why in (
            (
                "x.bin",
                b"\x00\x01\x02",
                (
                    "it has no columns lon and lat of longitudes and latitudes (it has \x00\x01\x02); vtmap import"
                    " reads others by --x and --y"
                ),
            ),
            ("x.json", "{", "it is no GeoJSON"),
            ("x.xml", "<a/>", "the page reads GeoJSON, CSV, GPX and KML; vtmap import reads more"),
        ):
            self.one.value("document.getElementById('told').textContent = ''")
            self.drop(self.file(name, content))
            self.show(f"{name} is refused", self.one.wait(FAULT, 8), why)
        script = '<gpx><wpt lat="54.5" lon="7.5"><name>&lt;img src=x onerror=alert(1)&gt;</name></wpt></gpx>'
        before = self.edits_and_features()
        self.drop(self.file("script.gpx", script))
        self.is_shown("script.gpx: 1 feature")
        self.one.key("Escape")
        self.show(
            "Escape leaves a file",
            (self.one.value("document.getElementById('panel').hidden"), self.edits_and_features()),
            (True, before),
        )

    def viewers(self, nginx):
        """Who may not edit drops nothing."""
        folder = os.path.join(self.folder, "others")
        os.mkdir(folder)
        with Nginx(nginx, folder, self.server, [("allow 127.0.0.1;", "")]) as front:
            shutil.copytree(PAGE, os.path.join(front.folder, "pages"))
            here, self.one = self.one, self.browser.open(f"{front.url}/pages/#16/54.5/7.5")
            self.one.wait("document.getElementById('told').textContent")
            self.one.value("document.getElementById('told').textContent = ''")
            self.drop(os.path.join(self.folder, "two.csv"))
            self.show(
                "who may not edit drops nothing",
                self.one.wait(FAULT, 8),
                "view only: this machine may not edit the map",
            )
            self.one = here


def differs(one, other):
    """The greatest difference of two geometries beyond a unit, or what differs in their lists."""
    if isinstance(one, dict):
        return differs(list(one.items()), list(other.items()))
    if isinstance(one, (list, tuple)):
        return (
            max([differs(a, b) for a, b in zip(one, other)], default=0)
            if len(one) == len(other)
            else "of another length"
        )
    return 0 if one == other or isinstance(one, int) and abs(one - other) <= 1 else "differs"


def page_files(cases: Cases, folder: str) -> None:
    nginx = shutil.which("nginx") or "/usr/sbin/nginx"
    if not shutil.which("chromium") or not os.path.exists(nginx):
        cases.say("no chromium or no nginx: files that are dropped on the page aren't tried")
        return
    if subprocess.run([SYSTEM_PYTHON, "-c", "import osgeo"], capture_output=True).returncode != 0:
        cases.say("no GDAL in the system's Python: files that are dropped on the page aren't tried")
        return
    folder = os.path.join(folder, "page-files")
    os.mkdir(folder)
    with Server(folder, "files", sectors=16384, more=["--admin"]) as server, Nginx(nginx, folder, server) as front:
        shutil.copytree(PAGE, os.path.join(front.folder, "pages"))
        with Browser(os.path.join(folder, "profile"), WIDE, HIGH) as browser:
            Files(cases, browser, server, front, folder).all(nginx)
