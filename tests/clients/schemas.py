"""The part `schema` of run.py: the schema of a map, which QGIS's gateway keeps, nginx serves, and the gateway, the
import and the check-in hold what is sent against. What is added to it holds at once; nobody else changes it."""
import json
import os
import shutil
import sqlite3
import subprocess

from .gateways import Gateway, Gis, edits_at, feature_at, map_at, point
from .import_stand import has_gdal
from .pages import town
from .stand import VTMAP, Cases, Nginx, Server, curl, field, status_of
from .wfs_tables import columns, layers

JSON = ["-H", "Content-Type: application/json"]


def vtmap(*line, **more):
    """The status and the lines of a command."""
    child = subprocess.run([*VTMAP, *line], capture_output=True, text=True, timeout=300, **more)
    return child.returncode, (child.stdout + child.stderr).splitlines()


def schema(cases: Cases, folder: str) -> None:
    """All of it."""
    nginx = shutil.which("nginx", path=os.environ.get("PATH", "") + ":/usr/sbin")
    if not nginx:
        cases.say("schema: no nginx: nobody serves a schema")
        return
    folder = os.path.join(folder, "schema")
    os.mkdir(folder)
    with Server(folder, "town", sectors=16384) as server:
        town(folder, server.url)
        path = os.path.join(folder, "schema.json")
        with Gateway(folder, server.url, "--schema", path) as gateway:
            with Nginx(nginx, folder, server, [("127.0.0.1:8090", f"127.0.0.1:{gateway.port}")]) as front:
                desk = Desk(cases, folder, server, gateway, front, path)
                desk.adds()
                desk.saves()
                desk.by_hand()
                desk.hostile()
                if has_gdal(cases):
                    desk.imports()
                    desk.checks_in()
        with Gateway(folder, server.url) as gateway:
            told = curl(f"{gateway.url}/wfs/schema.json", *JSON, body="{}")
            cases.show(
                "schema: a gateway without a file takes none",
                (status_of(told), b"--schema FILE" in told[2]),
                (404, True),
            )


class Desk:
    """People who use a map with a schema."""

    def __init__(self, cases, folder, server, gateway, front, path):
        self.cases, self.folder, self.url, self.gateway, self.front, self.path = (
            cases,
            folder,
            server.url,
            gateway,
            front.url,
            path,
        )

    def show(self, name, found, wanted):
        self.cases.show(f"schema: {name}", found, wanted)

    def add(self, *names):
        """What `vtmap schema add` says."""
        return vtmap("schema", "add", *names, "--url", self.front)

    def served(self):
        """The schema that nginx serves, or the status."""
        reply = curl(f"{self.front}/pages/schema.json")
        return json.loads(reply[2])["layers"] if status_of(reply) == 200 else status_of(reply)

    # ---- adding

    def adds(self):
        self.show(
            "none is served",
            (self.served(), vtmap("schema", "--url", self.front)),
            (404, (0, ["the map has no schema"])),
        )
        self.show(
            "a field is added",
            self.add("building", "roof", "--choices", "flat,gable"),
            (0, ["building: floors, house, roof"]),
        )
        wanted = {
            "kinds": ["areas"],
            "minzoom": 14,
            "maxzoom": 16,
            "fields": {
                "floors": {"type": "integer"},
                "house": {"type": "integer"},
                "roof": {"type": "text", "choices": ["flat", "gable"]},
            },
        }
        zooms = {key: value for key, value in feature_at(self.url, 133).items() if key.endswith("zoom")}
        self.show("with what the map has of its layer", self.served(), {"building": {**wanted, **zooms}})
        with open(self.path, encoding="utf-8") as file:
            self.show("it is in the file", json.load(file)["layers"], self.served())
        names = [name for name, _ in columns(Gis(self.gateway, "building.areas"))]
        self.show(
            "it is a column at once", names, ["geom", "feature_id", "floors", "house", "roof", "minzoom", "maxzoom"]
        )
        self.show(
            "choices are added",
            self.add("building", "roof", "--choices", "hip"),
            (0, ["building: floors, house, roof"]),
        )
        self.show(
            "another type isn't",
            self.add("building", "floors", "--type", "text"),
            (1, ["building has a field 'floors' of the type integer already"]),
        )
        self.show(
            "what is no schema isn't",
            self.add("building", "x" * 65),
            (1, ["layer building, field " + "x" * 65 + ": a name has 1 to 64 bytes"]),
        )
        code, lines = self.add(
            "tree spots",
            "kind",
            "--kind",
            "points",
            "--minzoom",
            "12",
            "--maxzoom",
            "15",
            "--required",
            "--title",
            "Trees",
        )
        self.show(
            "a new layer is added",
            (code, lines, "tree·spots.points" in layers(self.gateway)),
            (0, ["tree spots: kind"], True),
        )
        code, lines = vtmap("schema", "--url", self.front)
        self.show(
            "it is shown",
            lines,
            [
                "building: areas, zooms 10 to 16",
                "  floors: integer",
                "  house: integer",
                "  roof: text: flat, gable, hip",
                "tree spots (Trees): points, zooms 12 to 15",
                "  kind: text, required",
            ],
        )
        served = curl(f"{self.front}/pages/schema.json", "--interface", "127.0.0.2")
        found = (
            status_of(served),
            field(served, "content-type"),
            field(served, "cache-control"),
            field(served, "x-content-type-options"),
        )
        self.show("everybody reads it", found, (200, "application/json", "no-cache", "nosniff"))

    # ---- QGIS

    def saves(self):
        gis, edits = Gis(self.gateway, "building.areas"), edits_at(self.url)
        gis.rows()
        self.show(
            "a choice is saved",
            (gis.save(gis.update(133, roof="flat")), feature_at(self.url, 133)["tags"]["roof"]),
            ("SUCCESS", "flat"),
        )
        told = gis.save(gis.update(133, roof="pyramid"))
        self.show(
            "another value isn't", told, "building 133: roof is 'pyramid': one of 'flat', 'gable', 'hip' is needed"
        )
        told = gis.save(gis.update(133, colour="red"))
        self.show(
            "a field that there isn't is asked for by name",
            told,
            "building 133: building has no field 'colour': `vtmap schema add building colour` makes it",
        )
        self.show("nothing is made of these", edits_at(self.url), edits + 1)
        self.show("it is added", self.add("building", "colour")[0], 0)
        self.show(
            "then it is saved",
            (gis.save(gis.update(133, colour="red")), feature_at(self.url, 133)["tags"]["colour"]),
            ("SUCCESS", "red"),
        )
        self.add("building", "built", "--type", "date", "--required")
        self.show("what a feature hasn't had isn't asked for", gis.save(gis.update(134, roof="hip")), "SUCCESS")
        told = gis.save(gis.update(134, built="yesterday"))
        self.show("a date is one", told, "building 134: built is 'yesterday', no date")
        self.show("it is saved", gis.save(gis.update(134, built="2026-11-29")), "SUCCESS")
        self.show(
            "what is required isn't removed", gis.save(gis.update(134, built=None)), "building 134: built is required"
        )
        trees = Gis(self.gateway, "tree·spots.points")
        self.show(
            "a new feature has what is required",
            trees.save(trees.insert(point(1, 1))),
            "a new feature of tree spots: kind is required",
        )
        told = trees.save(trees.insert(point(1, 1), kind="oak"))
        made = feature_at(self.url, int(told.split()[1].split(".")[2]))
        self.show(
            "and the zooms of the schema", (made["tags"], made["minzoom"], made["maxzoom"]), ({"kind": "oak"}, 12, 15)
        )
        places = Gis(self.gateway, "place.points")
        places.rows()
        told = places.save(places.update(452, height="12"))
        self.show(
            "a layer that it doesn't name is as before",
            (told, feature_at(self.url, 452)["tags"]["height"]),
            ("SUCCESS", "12"),
        )
        code, lines = vtmap("schema", "check", "--url", self.front)
        self.show("what isn't as it says is counted", (code, lines[0].split(": ")[1], lines[-1]),
                  (1, "built is required", "317 features aren't as the schema says"))

    # ---- the file

    def by_hand(self):
        with open(self.path, encoding="utf-8") as file:
            kept = file.read()
        layer = json.loads(kept)["layers"]["building"]
        layer["fields"]["floors"]["choices"] = [1, 2, 3]
        layer["title"] = "Buildings of the town"
        for text in (json.dumps({"layers": {"building": layer}}), '{"layers":'):
            with open(self.path + ".new", "w", encoding="utf-8") as file:
                file.write(text)
            os.replace(self.path + ".new", self.path)
            gis = Gis(self.gateway, "building.areas")
            gis.rows()
            told = gis.save(gis.update(133, floors=7))
            self.show(
                "a file that is changed holds at once, and a wrong one not",
                told,
                "building 133: floors is 7: one of 1, 2, 3 is needed",
            )
        code, lines = self.add("building", "more")
        self.show("nothing is added to a wrong one", (code, lines[0].startswith("the schema is no JSON")), (1, True))
        with open(self.path, "w", encoding="utf-8") as file:
            file.write(kept)

    def hostile(self):
        """What a page of another origin, and others, make of it."""
        more = '{"layers":{"x":{}}}'
        for words, wanted in [
            (["-H", "Content-Type: text/plain"], 415),
            (["-H", "Content-Type: text/xml"], 415),
            ([*JSON, "-H", "Origin: http://evil.example"], 403),
        ]:
            for url in (self.gateway.url, self.front):
                self.show(
                    f"POST with {words[-1]}", status_of(curl(f"{url}/wfs/schema.json", *words, body=more)), wanted
                )
        for name, url, wanted in [("of an outsider", self.front, 403), ("to /pages/", self.front, 405)]:
            path, words = (
                ("/pages/schema.json", []) if wanted == 405 else ("/wfs/schema.json", ["--interface", "127.0.0.2"])
            )
            self.show(f"POST {name}", status_of(curl(url + path, *JSON, *words, body=more)) >= 400, True)
        self.show(
            "POST of very much",
            status_of(curl(f"{self.gateway.url}/wfs/schema.json", *JSON, body=" " * (2**20 + 1))),
            413,
        )
        for body in ("[]", "{", '{"layers":{"x":{"fields":{"a":{"type":"<script>"}}}}}', "\x00"):
            told = curl(f"{self.gateway.url}/wfs/schema.json", *JSON, body=body)
            self.show(
                f"POST of {body!r}", (status_of(told), field(told, "content-type").split(";")[0]), (400, "text/plain")
            )
        many = json.dumps({"layers": {f"l{at}": {} for at in range(1001)}})
        self.show("POST of many layers", status_of(curl(f"{self.gateway.url}/wfs/schema.json", *JSON, body=many)), 400)
        self.show("nothing is made of these", sorted(self.served()), ["building", "tree spots"])

    # ---- files

    def written(self, name, text):
        path = os.path.join(self.folder, name)
        with open(path, "w", encoding="utf-8") as file:
            file.write(text)
        return path

    def imports(self):
        self.add("well", "depth", "--type", "integer", "--minzoom", "11", "--maxzoom", "16")
        self.add("well", "kind", "--choices", "dug,bored")
        edits, path = edits_at(self.url), self.written("wells.csv", "depth,kind,owner,lon,lat\n7,dug,Ann,7.5,54.5\n")
        words = ["--layer", "well", "--url", self.front]
        code, lines = vtmap("import", path, *words)
        told = "well has no field 'owner': `vtmap schema add well owner` makes it; --new-fields puts them without"
        self.show(
            "import: attributes without a field stop it", (code, told in lines, edits_at(self.url)), (1, True, edits)
        )
        path = self.written(
            "more.csv", "depth,kind,lon,lat\n7,dug,7.5,54.5\ndeep,dug,7.5,54.5\n8,drilled,7.5,54.5\n9,bored,7.5,54.5\n"
        )
        code, lines = vtmap("import", path, *words, "--new-fields")
        refused = [line.split("not sent: ")[1] for line in lines if "refused: not sent" in line]
        self.show(
            "import: values are as it says",
            refused,
            ["depth is 'deep', no integer", "kind is 'drilled': one of 'dug', 'bored' is needed"],
        )
        made = [one for one in map_at(self.url).values() if one["layer"] == "well"]
        found = [(one["tags"]["depth"], one["tags"]["kind"], one["minzoom"], one["maxzoom"]) for one in made]
        self.show(
            "import: numbers are numbers, and zooms are the layer's",
            (found, lines[-1]),
            ([(7, "dug", 11, 16), (9, "bored", 11, 16)], "2 taken, 2 refused"),
        )
        code, lines = vtmap("import", self.written("free.csv", "any,lon,lat\n1,7.5,54.5\n"), "--url", self.front)
        self.show("import: a layer that it doesn't name is as before", (code, lines[-1]), (0, "1 taken, 0 refused"))

    def checks_in(self):
        path = os.path.join(self.folder, "town.gpkg")
        vtmap("checkout", path, "--url", self.url, "--layer", "building")
        with sqlite3.connect(path) as file:
            file.execute("ALTER TABLE building ADD COLUMN owner TEXT")
            file.execute("UPDATE building SET owner = 'Ann' WHERE fid = 140")
            file.execute("UPDATE building SET roof = 'pyramid' WHERE fid = 141")
            file.execute("UPDATE building SET roof = 'hip' WHERE fid = 142")
        code, lines = vtmap("checkin", path, "--url", self.front)
        self.show("checkin: what doesn't fit is named, and the rest is sent", (code, lines), (1, [
            "refused: building 140: building has no field 'owner': `vtmap schema add building owner` makes it",
            "refused: building 141: roof is 'pyramid': one of 'flat', 'gable', 'hip' is needed",
            "sending: building 142: roof: None -> 'hip'",
            "0 new, 1 changed, 0 deleted, 0 conflicts, 2 refused",
        ]))
        self.add("building", "owner")
        with sqlite3.connect(path) as file:
            file.execute("UPDATE building SET roof = NULL WHERE fid = 141")
        code, lines = vtmap("checkin", path, "--url", self.front)
        self.show(
            "checkin: a field that was added is sent",
            (code, lines[0]),
            (0, "sending: building 140: owner: None -> 'Ann'"),
        )
