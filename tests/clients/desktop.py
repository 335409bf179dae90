"""The part `desktop` of run.py: QGIS, by its Python module and without a window, edits what `vtmap checkout` wrote,
and the difference is sent back. Somebody else edits the map meanwhile."""
import json
import os
import sqlite3
import subprocess

from .pages import town
from .stand import SYSTEM_PYTHON, VTMAP, Cases, Server, curl, status_of

QGIS = """
import os, sys
os.environ["QT_QPA_PLATFORM"] = "offscreen"
from qgis.core import *
app = QgsApplication([], False)
app.initQgis()
path = sys.argv[1]


def layer(name):
    made = QgsVectorLayer(f"{path}|layername={name}", name, "ogr")
    assert made.isValid(), name
    return made


def one(layer, words):
    found, = layer.getFeatures(words)
    return found


def number(layer, name):
    return layer.fields().indexOf(name)


"""
LOOK = QGIS + """
for name in sys.argv[2:]:
    made = layer(name)
    box = made.extent()
    print(name, made.featureCount(), QgsWkbTypes.displayString(made.wkbType()), made.crs().authid(), round(box.width()), round(box.height()))
"""
EDIT = QGIS + """
building, place, land, road, park = map(layer, ["building", "place", "land", "road", "park"])
with edit(building):
    building.changeAttributeValue(one(building, "house=1").id(), number(building, "floors"), 9)
    moved = one(building, "house=2")
    shape = moved.geometry()
    shape.translate(10, 5)
    building.changeGeometry(moved.id(), shape)
    building.deleteFeature(one(building, "house=3").id())
    building.changeAttributeValue(one(building, "house=4").id(), number(building, "floors"), 8)
    made = QgsFeature(building.fields())
    made.setGeometry(QgsGeometry.fromWkt("MultiPolygon(((834800 7265200, 834840 7265200, 834840 7265240, 834800 7265240, 834800 7265200)))"))
    made["house"], made["floors"] = 999, 2
    assert building.addFeature(made)
with edit(place):
    place.changeAttributeValue(one(place, "name='Church'").id(), number(place, "name"), "Old Church")
    place.addAttribute(QgsField("height", 6, "double"))
    place.updateFields()
    place.changeAttributeValue(one(place, "name='School'").id(), number(place, "height"), 12.5)
with edit(land):
    island = next(land.getFeatures())
    shape = island.geometry()
    shape.translate(200, 100)
    land.changeGeometry(island.id(), shape)
with edit(road):
    made = QgsFeature(road.fields())
    made.setGeometry(QgsGeometry.fromWkt("MultiLineString((833000 7265000, 836900 7265700))"))
    made["name"], made["kind"] = "Long Bridge", "main"
    assert road.addFeature(made)
wells = QgsVectorLayer("Point?crs=EPSG:4326&field=name:string&field=depth:double&field=open:bool", "well", "memory")
with edit(wells):
    for name, shape in [("Well", "Point(7.5 54.5)"), ("No place", None)]:
        made = QgsFeature(wells.fields())
        if shape:
            made.setGeometry(QgsGeometry.fromWkt(shape))
        made["name"], made["depth"], made["open"] = name, 3.0, True
        wells.addFeature(made)
words = QgsVectorFileWriter.SaveVectorOptions()
words.driverName, words.layerName, words.actionOnExistingFile = "GPKG", "well", QgsVectorFileWriter.CreateOrOverwriteLayer
QgsVectorFileWriter.writeAsVectorFormatV3(wells, path, QgsCoordinateTransformContext(), words)
print("edited")
"""


def run(folder, script, *words):
    """What a script of QGIS prints."""
    path = os.path.join(folder, "script.py")
    with open(path, "w", encoding="utf-8") as file:
        file.write(script)
    told = subprocess.run(["nice", SYSTEM_PYTHON, path, *words], capture_output=True, text=True, timeout=300)
    return told.stdout.splitlines() or [told.stderr]


def gis(*words):
    """The status and the lines of a command."""
    told = subprocess.run([*VTMAP, *words], capture_output=True, text=True, timeout=300)
    return told.returncode, (told.stdout + told.stderr).splitlines()


def desktop(cases: Cases, folder: str) -> None:
    if subprocess.run([SYSTEM_PYTHON, "-c", "import qgis.core, osgeo"], capture_output=True).returncode != 0:
        cases.say("no QGIS or no GDAL in the system's Python: no desktop GIS is tried")
        return
    folder = os.path.join(folder, "desktop")
    os.mkdir(folder)
    with Server(folder, "town", sectors=16384, more=["--admin"]) as server:
        town(folder, server.url)
        Desk(cases, folder, server.url).all()


class Desk:
    """A person with QGIS."""

    def __init__(self, cases, folder, url):
        self.cases, self.folder, self.url = cases, folder, url
        self.file = os.path.join(folder, "town.gpkg")

    def show(self, name, found, wanted):
        self.cases.show(f"desktop: {name}", found, wanted)

    def get(self, number):
        """A feature of the map, or None."""
        reply = curl(f"{self.url}/features/{number}")
        return json.loads(reply[2]) if status_of(reply) == 200 else None

    def put(self, number, **tags):
        """Somebody else changes the tags of a feature."""
        curl(f"{self.url}/features/{number}", "-X", "PUT", body=json.dumps({**self.get(number), "tags": tags}))

    def edits(self):
        return json.loads(curl(f"{self.url}/admin/status")[2])["edits"]

    def all(self):
        self.checkout()
        self.changes()
        self.interrupted()
        self.mistakes()

    def checkout(self):
        edit = self.edits()
        self.show(
            "the map is checked out",
            gis("checkout", self.file, "--url", self.url),
            (0, [f"{self.file}: 339 features in 5 tables, of edit {edit}"]),
        )
        found = [
            line.split()[:-2] for line in run(self.folder, LOOK, self.file, "building", "land", "park", "place", "road")
        ]
        areas = [[name, count, "MultiPolygon"] for name, count in [("building", "318"), ("land", "1"), ("park", "3")]]
        wanted = [[*row, "EPSG:3857"] for row in [*areas, ["place", "5", "Point"], ["road", "12", "MultiLineString"]]]
        self.show("QGIS opens each layer, the cut land as one", found, wanted)
        self.show(
            "what nobody edited sends nothing",
            gis("checkin", self.file),
            (0, ["0 new, 0 changed, 0 deleted, 0 conflicts, 0 refused"]),
        )
        self.show("and makes no edit", self.edits(), edit)
        told = f"{self.file} exists: check it in, and give --force to write it anew"
        self.show("a file isn't written over", gis("checkout", self.file, "--url", self.url), (1, [told]))
        part = os.path.join(self.folder, "part.gpkg")
        status, lines = gis("checkout", part, "--url", self.url, "--layer", "place", "--bbox", "7.49,54.49,7.505,54.51")
        self.show("a part of it", (status, lines[0].split(": ")[1].split(",")[0]), (0, "4 features in 1 tables"))

    def changes(self):
        self.show("QGIS edits", run(self.folder, EDIT, self.file), ["edited"])
        church = self.get(452)
        church["geometry"]["points"][0][0] += 1000
        curl(
            f"{self.url}/features/452",
            "-X",
            "PUT",
            body=json.dumps({**church, "maxzoom": 15, "tags": {"name": "St Mary", "spire": True}}),
        )
        self.put(450, name="by others")
        before, land = self.get(134), self.get(101)
        status, lines = gis("checkin", self.file, "--dry-run")
        self.show(
            "a trial sends nothing",
            (status, lines[-1]),
            (1, "0 new, 0 changed, 0 deleted, 1 conflicts, 1 refused; 9 would be sent"),
        )
        status, lines = gis("checkin", self.file)
        self.show(
            "what was changed is sent", (status, lines[-1]), (1, "3 new, 5 changed, 1 deleted, 1 conflicts, 1 refused")
        )
        conflict = (
            "conflict: place 452: yours: name: 'Church' -> 'Old Church'; on the map now: (maxzoom): 16 -> 15, "
            "name: 'Church' -> 'St Mary', spire: None -> True, its shape"
        )
        self.show(
            "a conflict is reported with both changes",
            [line for line in lines if line.startswith("conflict")],
            [conflict],
        )
        self.show(
            "and so is what can't be read",
            [line for line in lines if line.startswith("refused")],
            ["refused: well, row 2: it has no geometry"],
        )
        others = [line.split(":")[1].strip() for line in lines if line.startswith("changed by others")]
        self.show("what others changed elsewhere is listed", others, ["building 450"])
        self.show("a tag", self.get(133)["tags"], {"floors": 9, "house": 1})
        moved = [
            b - a
            for a, b in zip(before["geometry"]["polygons"][0][0][0], self.get(134)["geometry"]["polygons"][0][0][0])
        ]
        self.show(
            "a shape, moved by 10 and -5 metres",
            moved,
            [round(10 / 40075016.685578488 * 2**32), round(-5 / 40075016.685578488 * 2**32)],
        )
        self.show("a deletion", self.get(135), None)
        self.show("what somebody else made stays", self.get(452)["tags"], {"name": "St Mary", "spire": True})
        self.show("a new column is a new tag", self.get(453)["tags"], {"height": "12.5", "name": "School"})
        made = [self.get(number) for number in range(456, 460)]
        names = [
            feature and (feature["layer"], feature["tags"].get("name"), feature["tags"].get("house"))
            for feature in made
        ]
        self.show(
            "new features have ids that were free",
            names,
            [("building", None, 999), ("road", "Long Bridge", None), ("well", "Well", None), None],
        )
        self.show(
            "a new layer has the zooms of the others", [made[2][zoom] for zoom in ("minzoom", "maxzoom")], [10, 16]
        )
        self.show("and its values their types", made[2]["tags"], {"depth": 3, "name": "Well", "open": True})
        self.show("a long line is cut", made[1]["tags"].get("whole"), 457)
        self.show(
            "the moved land is cut again",
            (self.get(101)["geometry"] != land["geometry"], self.get(101)["tags"]["whole"]),
            (True, 101),
        )
        whole = os.path.join(self.folder, "again.gpkg")
        gis("checkout", whole, "--url", self.url, "--layer", "land")
        self.show(
            "and is one feature", run(self.folder, LOOK, whole, "land")[0].split()[:3], ["land", "1", "MultiPolygon"]
        )
        edit = self.edits()
        status, lines = gis("checkin", self.file)
        wanted = (1, "0 new, 0 changed, 0 deleted, 1 conflicts, 1 refused", edit)
        self.show("again it sends nothing, and tells what is left", (status, lines[-1], self.edits()), wanted)
        gis("checkin", self.file, "--mine", "452")
        wanted = {**church, "maxzoom": 15, "tags": {"name": "Old Church", "spire": True}}
        self.show("the author's word puts what he changed over the other's, and keeps the rest", self.get(452), wanted)
        self.show(
            "after which the file has nothing to send",
            gis("checkin", self.file)[1][-1],
            "0 new, 0 changed, 0 deleted, 0 conflicts, 1 refused",
        )

    def interrupted(self):
        """A checkin of 600 new features that is killed several times."""
        many = os.path.join(self.folder, "many.gpkg")
        gis("checkout", many, "--url", self.url, "--layer", "place")
        with sqlite3.connect(many) as file:
            file.executemany(
                "INSERT INTO place (geom, name, minzoom, maxzoom) SELECT geom, ?, 10, 16 FROM place WHERE fid = 451",
                [(f"made {number}",) for number in range(600)],
            )
        kills = 0
        for seconds in (0.3, 0.5, 0.7, 0.9, 1.1, 1.3):
            child = subprocess.Popen([*VTMAP, "checkin", many], stdout=subprocess.DEVNULL)
            try:
                child.wait(seconds)
            except subprocess.TimeoutExpired:
                child.kill()
                child.wait()
                kills += 1
        status, lines = gis("checkin", many)
        self.show("a checkin that was killed is finished by the next", (kills > 0, status), (True, 0))
        named, number = [], 0
        while status_of(reply := curl(f"{self.url}/admin/features/from/{number}")) == 200:
            row = json.loads(reply[2])
            number = row["id"] + 1
            named.append(row["feature"]["tags"].get("name", ""))
        made = sorted(name for name in named if str(name).startswith("made "))
        self.show("and made each new feature once", made, sorted(f"made {number}" for number in range(600)))
        self.show(
            "as the file has it", gis("checkin", many)[1][-1], "0 new, 0 changed, 0 deleted, 0 conflicts, 0 refused"
        )

    def mistakes(self):
        """A file that lost its features, one that is none, no server."""
        emptied = os.path.join(self.folder, "emptied.gpkg")
        gis("checkout", emptied, "--url", self.url, "--layer", "building")
        run(
            self.folder,
            QGIS
            + "made = layer('building')\nwith edit(made):\n   "
            " made.deleteFeatures(made.allFeatureIds())\nprint('emptied')",
            emptied,
        )
        edit = self.edits()
        told = "318 of 318 features are gone from the file: give --delete-many if they are to be deleted"
        self.show("a layer that is gone isn't deleted without a word", gis("checkin", emptied), (1, [told]))
        self.show("nothing was sent", self.edits(), edit)
        self.show("a file that isn't there", gis("checkin", emptied + ".no"), (1, [f"there is no file {emptied}.no"]))
        with sqlite3.connect(self.file, isolation_level=None) as other:
            other.execute("BEGIN EXCLUSIVE")
            status, lines = gis("checkin", self.file)
            other.execute("ROLLBACK")
        self.show(
            "a file that another program writes just now",
            (status, lines[0].partition(" (")[0]),
            (1, f"{self.file} can't be written"),
        )
        status, lines = gis("checkin", self.file, "--url", "http://127.0.0.1:1")
        self.show("no server", (status, lines[0].partition(": ")[0]), (3, "no reply of http://127.0.0.1:1"))
