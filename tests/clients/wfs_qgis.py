"""The part `wfs-qgis` of run.py: QGIS, by its Python module and without a window, edits the live map by the WFS of
`vtmap wfs`, and reads it by its OGC API Features. Somebody else edits the map meanwhile."""
import json
import os
import shutil
import subprocess

from .desktop import run
from .gateways import Gateway, edits_at, feature_at, map_at, put_at
from .pages import town
from .stand import SYSTEM_PYTHON, VTMAP, Cases, Nginx, Server

QGIS = """
import json, os, sys, urllib.request
os.environ["QT_QPA_PLATFORM"] = "offscreen"
from qgis.core import *
from qgis.PyQt.QtCore import QVariant
app = QgsApplication([], False, os.path.join(sys.argv[3], "profile"))
app.initQgis()
server, gateway = sys.argv[1:3]


def layer(name, version="auto", words="restrictToRequestBBOX=1 "):
    made = QgsVectorLayer(f"pagingEnabled='true' preferCoordinatesForWfsT11='false' {words}srsname='EPSG:3857' typename='v:{name}' url='{gateway}/wfs' "
                          f"version='{version}'", name, "WFS")
    assert made.isValid(), name
    return made


def rows(layer):
    return {feature["feature_id"]: feature for feature in layer.getFeatures() if feature["feature_id"] != NULL}


def saved(layer):
    '''Saves. Says whether it was done, and why not.'''
    if layer.commitChanges():
        return True
    return [error.strip() for error in layer.commitErrors() if "WFS" in error][0]


def put(number, **tags):
    '''Somebody else changes the tags of a feature.'''
    now = json.load(urllib.request.urlopen(f"{server}/features/{number}"))
    urllib.request.urlopen(urllib.request.Request(f"{server}/features/{number}", json.dumps({**now, "tags": tags}).encode(), method="PUT"))


def say(value):
    print("said " + json.dumps(value))


"""
READ = QGIS + """
for version in ("2.0.0", "1.1.0"):
    for name in ("building.areas", "land.areas", "park.areas", "place.points", "road.lines"):
        made = layer(name, version, "")
        fields = [(field.name(), QVariant.typeToName(field.type())) for field in made.fields()]
        say([name, made.featureCount(), len(rows(made)), QgsWkbTypes.displayString(made.wkbType()), made.crs().authid(), fields])
    building = layer("building.areas", version)
    for words in ('"floors" = 2', '"floors" in (1, 3) and not "house" = 7', '"floors" is null', '"house" >= 10 and "house" <= 20'):
        say([building.setSubsetString(words), building.featureCount(), len(rows(building))])
"""
EDIT = QGIS + """
place, road, building, land = map(layer, ["place.points", "road.lines", "building.areas", "land.areas"])
# A shape and an attribute of one feature, an attribute of another, a deletion and a new feature, in one Save.
place.startEditing()
found, name = rows(place), place.fields().indexOf("name")
shape = QgsGeometry(found[452].geometry())
shape.translate(10, 5)
place.changeGeometry(found[452].id(), shape)
place.changeAttributeValue(found[452].id(), name, "Church of St. <A> & \\"Co\\"")
place.changeAttributeValue(found[451].id(), name, None)
place.deleteFeature(found[454].id())
new = QgsFeature(place.fields())
new["name"] = "New"
new.setGeometry(QgsGeometry.fromWkt("POINT(834700 7265400)"))
place.addFeature(new)
say(saved(place))
# The same features again, without being loaded.
place.startEditing()
found = rows(place)
place.changeAttributeValue(found[452].id(), name, "Church")
place.changeGeometry(found[452].id(), QgsGeometry(found[452].geometry()))
added, = (feature for feature in place.getFeatures() if feature["name"] == "New")
place.changeAttributeValue(added.id(), name, "Newer")
say(saved(place))
# A vertex of a road, moved and moved back; a tag of a feature that the import has cut.
road.startEditing()
first = rows(road)[min(rows(road))]
shape, corner = QgsGeometry(first.geometry()), first.geometry().vertexAt(1)
shape.moveVertex(corner.x() + 3, corner.y() + 3, 1)
road.changeGeometry(first.id(), shape)
say([first["feature_id"], saved(road)])
road.startEditing()
road.changeGeometry(first.id(), first.geometry())
say(saved(road))
land.startEditing()
island, = land.getFeatures()
land.changeAttributeValue(island.id(), land.fields().indexOf("name"), "Land")
say(saved(land))
# All buildings at once.
building.startEditing()
floors = building.fields().indexOf("floors")
for feature in building.getFeatures():
    building.changeAttributeValue(feature.id(), floors, feature["floors"] + 10)
say(saved(building))
"""
CONFLICT = QGIS + """
place = layer("place.points")
name, found = place.fields().indexOf("name"), rows(place)
place.startEditing()
for number in (451, 453):
    place.changeAttributeValue(found[number].id(), name, f"mine {number}")
put(453, name="theirs", kind="school")
say(saved(place))
say(saved(place))
place.reload()
say(sorted(feature["name"] for feature in rows(place).values()))
say(saved(place))
# A feature that QGIS has got is the same while it pans, until F5.
place = layer("place.points")
west = [feature["name"] for feature in place.getFeatures(QgsFeatureRequest(QgsRectangle(834000, 7264000, 834800, 7266000)))]
put(452, name="By others")
wide = [feature["name"] for feature in place.getFeatures(QgsFeatureRequest(QgsRectangle(834000, 7264000, 834900, 7266000)))]
place.reload()
anew = [feature["name"] for feature in place.getFeatures(QgsFeatureRequest(QgsRectangle(834000, 7264000, 834800, 7266000)))]
say([west, wide, anew])
"""
EMPTY = QGIS + """
# All buildings are selected and deleted by mistake, then on purpose; the layer stays, and gets a new one, also once it is loaded anew.
building = layer("building.areas")
building.startEditing()
building.deleteFeatures([feature.id() for feature in building.getFeatures()])
say(saved(building))
say(saved(building))
for made in (building, layer("building.areas")):
    made.startEditing()
    new = QgsFeature(made.fields())
    new["floors"] = 7
    new.setGeometry(QgsGeometry.fromWkt("MultiPolygon(((834800 7265200, 834840 7265200, 834840 7265240, 834800 7265240, 834800 7265200)))"))
    made.addFeature(new)
    say([[field.name() for field in made.fields()], saved(made)])
    made.startEditing()
    made.deleteFeatures([feature.id() for feature in made.getFeatures()])
    say(saved(made))
"""
PROJECT = QGIS + """
path = os.path.join(sys.argv[3], "town.qgs")
project = QgsProject.instance()
project.addMapLayer(layer("place.points"))
say(project.write(path))
project.clear()
say(project.read(path))
place, = project.mapLayers().values()
place.startEditing()
place.changeAttributeValue(rows(place)[455].id(), place.fields().indexOf("name"), "Light")
say(saved(place))
made = QgsVectorLayer(f"url='{gateway}/ogc' typename='building.areas' pageSize='50'", "building", "OAPIF")
say([made.isValid(), sum(1 for _ in made.getFeatures()), made.crs().authid()])
"""


FORMS = QGIS + """
project = QgsProject.instance()
say(project.read(os.path.join(sys.argv[3], "forms.qgs")))
made = {layer.name(): layer for layer in project.mapLayers().values()}
say(sorted(name for name, layer in made.items() if layer.isValid()))
building = made["Houses (areas)"]
for name in ("roof", "built", "listed", "floors"):
    at = building.fields().indexOf(name)
    setup, constraints = building.editorWidgetSetup(at), building.fields().field(at).constraints()
    needed = bool(constraints.constraints() & QgsFieldConstraints.ConstraintNotNull)
    say([name, setup.type(), building.attributeAlias(at), needed, [list(one) for one in setup.config().get("map", [])]])
say([building.editFormConfig().readOnly(0), building.displayExpression()])
building.startEditing()
first = min(building.getFeatures(), key=lambda feature: feature["feature_id"])
building.changeAttributeValue(first.id(), building.fields().indexOf("roof"), "hip")
say([first["feature_id"], saved(building)])
building.startEditing()
building.changeAttributeValue(first.id(), building.fields().indexOf("roof"), "pyramid")
say(saved(building))
"""
LOGIN = QGIS + """
for words in ("username='ann' password='secret' ", "username='ann' password='wrong' ", ""):
    place = QgsVectorLayer(f"pagingEnabled='true' srsname='EPSG:3857' typename='v:place.points' url='{gateway}/wfs' version='auto' {words}", "place", "WFS")
    say(place.isValid())
    if place.isValid():
        place.startEditing()
        place.changeAttributeValue(rows(place)[455].id(), place.fields().indexOf("name"), "By Ann")
        say(saved(place))
"""


def wfs_qgis(cases: Cases, folder: str) -> None:
    """All of it."""
    if subprocess.run([SYSTEM_PYTHON, "-c", "import qgis.core, osgeo"], capture_output=True).returncode != 0:
        cases.say("no QGIS or no GDAL in the system's Python: no QGIS edits the live map")
        return
    folder = os.path.join(folder, "wfs-qgis")
    os.mkdir(folder)
    with Server(folder, "town", sectors=16384) as server:
        town(folder, server.url)
        with Gateway(folder, server.url, "--schema", os.path.join(folder, "schema.json")) as gateway:
            desk = Desk(cases, folder, server, gateway)
            desk.reads()
            desk.edits()
            desk.conflict()
            desk.project()
            desk.forms()
            desk.login(server, gateway)
            desk.empties()


class Desk:
    """A person with QGIS."""

    def __init__(self, cases, folder, server, gateway):
        self.cases, self.folder, self.url, self.own = cases, folder, server.url, gateway.url
        self.gateway = self.own

    def show(self, name, found, wanted):
        self.cases.show(f"wfs-qgis: {name}", found, wanted)

    def said(self, script):
        """What a script of QGIS says."""
        lines = run(self.folder, script, self.url, self.gateway, self.folder)
        return [json.loads(line.removeprefix("said ")) for line in lines if line.startswith("said ")] or lines

    def tags(self, number):
        """The tags of a feature of the map, or None."""
        found = feature_at(self.url, number)
        return found and found["tags"]

    def reads(self):
        found = self.said(READ)
        counts = [
            ["building.areas", 318, 318, "MultiPolygon"],
            ["land.areas", 1, 1, "MultiPolygon"],
            ["park.areas", 3, 3, "MultiPolygon"],
            ["place.points", 5, 5, "Point"],
            ["road.lines", 12, 12, "MultiLineString"],
        ]
        self.show("each layer, whole", [row[:4] for row in found if len(row) == 6], counts * 2)
        fields = [
            ["feature_id", "qlonglong"],
            ["floors", "qlonglong"],
            ["house", "qlonglong"],
            ["minzoom", "int"],
            ["maxzoom", "int"],
        ]
        self.show("its system and fields", (found[0][4], found[0][5]), ("EPSG:3857", fields))
        filtered = [row for row in found if len(row) == 3]
        self.show(
            "filters find the same by both versions",
            (filtered[:4] == filtered[4:], all(row[0] and row[1] == row[2] for row in filtered)),
            (True, True),
        )
        self.show("as many as there are", [row[1] for row in filtered[2:4]], [0, 11])

    def edits(self):
        before, edits = map_at(self.url), edits_at(self.url)
        found = self.said(EDIT)
        self.show("each Save is made", [row if isinstance(row, bool) else row[1] for row in found], [True] * 6)
        self.show("a shape and an attribute", self.tags(452), {"name": "Church"})
        self.show("NULL is no tag", self.tags(451), {})
        self.show("a deletion", self.tags(454), None)
        self.show("a new feature, and what it was changed to", self.tags(456), {"name": "Newer"})
        number = found[2][0]
        self.show("a road that was moved and moved back", feature_at(self.url, number) == before[number], True)
        pieces = [
            feature["tags"]["name"] for feature in map_at(self.url).values() if feature["tags"].get("whole") == 101
        ]
        self.show("a tag of all pieces of a cut feature", (len(pieces) > 1, set(pieces)), (True, {"Land"}))
        now = map_at(self.url)
        floors = [
            now[number]["tags"]["floors"] - feature["tags"]["floors"]
            for number, feature in before.items()
            if feature["layer"] == "building"
        ]
        self.show("all 318 buildings", floors, [10] * 318)
        self.cases.say(f"by {edits_at(self.url) - edits} edits")

    def conflict(self):
        put_at(self.url, 451, name="Town Hall")
        first, second, shown, last, panned = self.said(CONFLICT)
        text = (
            "nothing of this was saved, since others have changed features meanwhile: place 453 (now kind: None ->"
            " 'school', name: 'School' -> 'theirs')"
        )
        self.show("what others have changed is refused, and QGIS shows it", text in first, True)
        self.show("again without F5", text in second, True)
        self.show("after F5 both are shown", ("mine 451" in shown, "theirs" in shown), (True, True))
        self.show(
            "and the next Save is put over it", (last, self.tags(453)), (True, {"name": "mine 453", "kind": "school"})
        )
        wanted = [["Church", "Newer"], ["Church", "Newer"], ["By others", "Newer"]]
        self.show("panned, QGIS shows no feature twice", [sorted(names) for names in panned], wanted)

    def forms(self):
        """A project with forms by a schema, which is gone again then."""
        path = os.path.join(self.folder, "schema.json")
        fields = {
            "roof": {"choices": ["flat", "hip"], "label": "Roof"},
            "built": {"type": "date", "required": True},
            "listed": {"type": "boolean"},
            "floors": {"type": "integer"},
            "house": {"type": "integer"},
        }
        with open(path, "w", encoding="utf-8") as file:
            json.dump(
                {
                    "layers": {
                        "building": {"title": "Houses", "label": "house", "fields": fields},
                        "tree": {"kinds": ["points"]},
                    }
                },
                file,
            )
        words = [
            "qgis",
            os.path.join(self.folder, "forms.qgs"),
            "--edit",
            "--url",
            self.own,
            "--schema",
            path,
            "--maxzoom",
            "16",
            "--centre",
            "7.5,54.5",
        ]
        told = subprocess.run([*VTMAP, *words], capture_output=True, text=True, check=False)
        self.show("a project with forms is written", (told.returncode, told.stderr), (0, ""))
        found = self.said(FORMS)
        names = ["Houses (areas)", "land (areas)", "park (areas)", "place (points)", "road (lines)", "tree (points)"]
        self.show(
            "QGIS opens it, with an empty layer too",
            (found[0], [name for name in found[1] if name != "vtserve"]),
            (True, names),
        )
        none = ["", "{2839923C-8B7D-419E-B84B-CA2FE9B80EC7}"]
        choices = [[*one.items()][0] if isinstance(one, dict) else one for one in found[2][4]]
        self.show("it has a list of the choices", found[2][:4], ["roof", "ValueMap", "Roof", False])
        self.show("with no value too", len(choices), 3)
        self.show("a calendar for what is required", found[3][:4], ["built", "DateTime", "", True])
        self.show("a check box", found[4][:4], ["listed", "CheckBox", "", False])
        self.show("the id can't be changed, and a field names the feature", found[6], [True, '"house"'])
        number = found[7][0]
        self.show("what is chosen is saved", (found[7][1], self.tags(number)["roof"]), (True, "hip"))
        self.show("another value isn't", "roof is 'pyramid': one of 'flat', 'hip' is needed" in str(found[8]), True)
        os.remove(path)

    def empties(self):
        self.gateway = self.own
        found = self.said(EMPTY)
        told = str(found[0]).partition("nothing of this was saved: ")[2]
        wanted = (
            "it deletes 318 of the 318 features of building (areas). If that is meant, save once more within ten"
            " minutes"
        )
        self.show("all buildings aren't deleted by one Save", told.startswith(wanted), True)
        fields = ["feature_id", "floors", "house", "roof", "minzoom", "maxzoom"]
        self.show(
            "saved once more they are, and the layer takes new ones",
            found[1:],
            [True, [fields, True], True, [fields, True], True],
        )
        self.show("it is empty again", [one for one in map_at(self.url).values() if one["layer"] == "building"], [])

    def login(self, server, gateway):
        """nginx asks for a password."""
        nginx = shutil.which("nginx", path=os.environ.get("PATH", "") + ":/usr/sbin")
        if not (nginx and shutil.which("openssl")):
            self.cases.say("no nginx, or no openssl: QGIS doesn't log in")
            return
        people = os.path.join(self.folder, "people")
        with open(people, "w", encoding="utf-8") as file:
            file.write(
                "ann:"
                + subprocess.run(
                    ["openssl", "passwd", "-apr1", "secret"], capture_output=True, text=True, check=True
                ).stdout
            )
        os.chmod(people, 0o644)
        block = [
            ("# auth_basic", "auth_basic"),
            ("/etc/vtserve/people", people),
            ("        deny all;\n", ""),
            ("127.0.0.1:8090", f"127.0.0.1:{gateway.port}"),
        ]
        with Nginx(nginx, self.folder, server, block) as front:
            self.gateway = front.url
            found = self.said(LOGIN)
        self.show(
            "behind nginx it logs in and saves; with a wrong password, and with none, there is no layer",
            found,
            [True, True, False, False],
        )
        self.show("what it saved", self.tags(455), {"name": "By Ann"})

    def project(self):
        found = self.said(PROJECT)
        self.show(
            "a project that is opened again edits as before",
            (found[:3], self.tags(455)),
            ([True] * 3, {"name": "Light"}),
        )
        self.show("QGIS reads the OGC API by pages", found[3], [True, 318, "EPSG:4326"])
