"""The part `wfs` of run.py: `vtmap wfs` reads and saves as QGIS asks it to. Two people at one feature, long saves,
ids that somebody else takes, lost replies, full journals, and what is no request of WFS."""
import json
import os
import re
import threading
import time

from .between import Between, once
from .gateways import GML, XML, Gateway, Gis, edits_at, feature_at, map_at, point, put_at, text_of, triangle
from .pages import town
from .stand import HALF, Cases, Server, curl, field, status_of

EDITS = "/admin/edits"
LAYERS = ["building.areas", "land.areas", "park.areas", "place.points", "road.lines"]


def wfs(cases: Cases, folder: str) -> None:
    """All of it."""
    folder = os.path.join(folder, "wfs")
    os.mkdir(folder)
    with Server(folder, "town", sectors=16384) as server:
        town(folder, server.url)
        with Gateway(folder, server.url) as gateway:
            desk = Desk(cases, server, gateway)
            desk.reads()
            desk.saves()
            desk.two_people()
            desk.panned()
            desk.large()
            hostile(cases, gateway)
        disturbed(cases, folder, server)
        raced(cases, folder, server)
    odd(cases, folder)
    full(cases, folder)


class Desk:
    """People with a GIS."""

    def __init__(self, cases, server, gateway):
        self.cases, self.url, self.gateway = cases, server.url, gateway

    def show(self, name, found, wanted):
        self.cases.show(f"wfs: {name}", found, wanted)

    def tags(self, number):
        """The tags of a feature of the map, or None."""
        found = feature_at(self.url, number)
        return found and found["tags"]

    def gis(self, layer, version="2.0.0"):
        """A layer that is loaded."""
        made = Gis(self.gateway, layer, version)
        made.rows()
        return made

    # ---- reading

    def reads(self):
        for version in ("2.0.0", "1.1.0"):
            told = text_of(f"{self.gateway.url}/wfs?REQUEST=GetCapabilities&VERSION={version}")
            self.show(
                f"{version}: a layer for each kind of a layer", re.findall("<wfs:Name>v:(.*?)</wfs:Name>", told), LAYERS
            )
            gis = Gis(self.gateway, "building.areas", version)
            fields = re.findall('element name="([^"]*)" type="([^"]*)" minOccurs', gis.get("DescribeFeatureType"))
            longs, ints = ("feature_id", "floors", "house"), ("minzoom", "maxzoom")
            whole = [
                ("geom", "gml:MultiSurfacePropertyType"),
                *((name, "xsd:long") for name in longs),
                *((name, "xsd:int") for name in ints),
            ]
            self.show(f"{version}: tags are fields, and so are the zooms", fields, whole)
            rows = gis.rows()
            self.show(
                f"{version}: each feature once",
                (len(rows), len(Gis(self.gateway, "land.areas", version).rows())),
                (318, 1),
            )
            counted = re.search('number(?:Matched|OfFeatures)="([0-9]+)"', gis.get("GetFeature", RESULTTYPE="hits"))[1]
            self.show(f"{version}: counted", counted, "318")
            self.filters(gis, rows)
        first, second = Gis(self.gateway, "place.points").url, Gis(self.gateway, "place.points").url
        self.show("each layer has an address of its own", first != second, True)

    def filters(self, gis, rows):
        """Filters, as QGIS sends them."""
        space = "http://www.opengis.net/fes/2.0" if gis.version == "2.0.0" else "http://www.opengis.net/ogc"
        name = "ValueReference" if gis.version == "2.0.0" else "PropertyName"

        def compares(kind, literal, more=""):
            return f"<{kind}{more}><{name}>floors</{name}><Literal>{literal}</Literal></{kind}>"

        floors = [int(row["floors"]) for row in rows.values()]
        like = compares("PropertyIsLike", "1*", ' wildCard="*" singleChar="?" escapeChar="!"').replace(
            "floors", "house"
        )
        houses = [row["house"] for row in rows.values() if row["house"].startswith("1")]
        for text, wanted in [
            (compares("PropertyIsEqualTo", 2), floors.count(2)),
            (compares("PropertyIsGreaterThan", 2), sum(value > 2 for value in floors)),
            (f"<Not>{compares('PropertyIsEqualTo', 2)}</Not>", len(floors) - floors.count(2)),
            (
                f"<Or>{compares('PropertyIsEqualTo', 1)}{compares('PropertyIsEqualTo', 3)}</Or>",
                floors.count(1) + floors.count(3),
            ),
            (f"<PropertyIsNull><{name}>floors</{name}></PropertyIsNull>", 0),
            (like, len(houses)),
        ]:
            found = gis.rows(FILTER=f'<Filter xmlns="{space}">{text}</Filter>')
            self.show(f"{gis.version}: filter {text[:40]}", len(found), wanted)
        west = HALF * 7.5 / 180
        found = gis.rows(BBOX=f"{west - 99999},0,{west},{HALF},EPSG:3857")
        self.show(
            f"{gis.version}: a box",
            0 < len(found) < 318 and all(first_x(row["geom"]) < west + 100 for row in found.values()),
            True,
        )

    # ---- saving

    def saves(self):
        gis, edits = self.gis("place.points"), edits_at(self.url)
        before = {number: feature_at(self.url, number) for number in gis.fids}
        self.show(
            "a change of a tag and a shape",
            gis.save(gis.update(452, name="Old &lt;Church&gt;", geom=point(835000.5, 7265000.5))),
            "SUCCESS",
        )
        place = feature_at(self.url, 452)
        at = [int((835000.5 / HALF + 1) * 2 ** 31), int((1 - 7265000.5 / HALF) * 2 ** 31)]
        self.show("is on the map", (place["tags"], place["geometry"]["points"]), ({"name": "Old <Church>"}, [at]))
        self.show("as one edit", edits_at(self.url), edits + 1)
        self.show("and again, under the id that it has", gis.save(gis.update(452, name=None)), "SUCCESS")
        self.show("a value of NULL is no tag", self.tags(452), {})
        told = gis.save(
            gis.insert(point(835001, 7265001), name="New"),
            gis.insert(point(835002, 7265002), name="Newer", minzoom=12),
            gis.delete(453),
        )
        self.show(
            "new features and a deletion",
            [word.rpartition(".")[0] for word in told.split()],
            ["", "place.points.456", "place.points.457"],
        )
        new = feature_at(self.url, 457)
        found = self.tags(453), new["tags"], new["minzoom"], new["maxzoom"]
        self.show("have the zooms of the others, or their own", found, (None, {"name": "Newer"}, 12, 16))
        gis.fids.update({456: told.split()[1], 457: told.split()[2]})
        found = gis.save(gis.update(456, name="N")), gis.save(gis.delete(456), gis.delete(457))
        self.show("they are changed, and deleted, without being loaded", found, ("SUCCESS",) * 2)
        for number, feature in before.items():
            curl(f"{self.url}/features/{number}", "-X", "PUT", body=json.dumps(feature))
        self.refusals()
        self.untouched()

    def refusals(self):
        """What the map doesn't take is refused with the feature's name."""
        gis = self.gis("building.areas")
        for text, values in [
            ("floors is no whole number: many", {"floors": "many"}),
            ("zooms go from 0 to 19, the first at most the last", {"minzoom": 25}),
            ("minzoom is no zoom: low", {"minzoom": "low"}),
            ("the server gives feature_id, it can't be changed", {"feature_id": 7}),
        ]:
            self.show(f"refused: {text}", gis.save(gis.update(133, **values)), f"building 133: {text}")
        self.show(
            "refused: another kind of shape",
            gis.save(gis.update(133, geom=point(1, 1))),
            "building 133 has no shape of areas",
        )
        self.show("refused: no shape", gis.save(gis.update(133, geom=None)), "building 133 has no shape of areas")
        told = gis.save(gis.update(133, note="x" * 1025))
        self.show(
            "refused: a long text", told.startswith("building 133: note: a text of a tag has over 1,024 bytes"), True
        )
        self.show(
            "refused: changed and deleted",
            gis.save(gis.delete(133), gis.update(133, floors=1)),
            "building 133 is deleted and changed at once",
        )

    def untouched(self):
        """What is saved as it was shown is no edit."""
        for layer in ("road.lines", "building.areas", "place.points", "land.areas"):
            gis = Gis(self.gateway, layer)
            rows, edits = gis.rows(), edits_at(self.url)
            actions = [
                gis.update(number, **{name: as_text(cell) for name, cell in row.items() if name != "feature_id"})
                for number, row in rows.items()
            ]
            self.show(f"{layer} as they were shown are saved", gis.save(*actions), "SUCCESS")
            self.show(f"{layer}: that is no edit", edits_at(self.url), edits)

    def two_people(self):
        one, two = self.gis("place.points"), self.gis("place.points")
        self.show("one of two saves", one.save(one.update(451, name="One"), one.update(454, name="Pier")), "SUCCESS")
        edits = edits_at(self.url)
        told = two.save(two.update(451, name="Two"), two.update(455, name="Light"))
        conflict = (
            "nothing of this was saved, since others have changed features meanwhile: place 451 (now name: 'Town Hall'"
            " -&gt; 'One')."
        )
        self.show("the other is told what was changed", (told.startswith(conflict), "F5" in told), (True, True))
        self.show("and nothing is saved", (edits_at(self.url), self.tags(455)), (edits, {"name": "Lighthouse"}))
        again = two.save(two.update(451, name="Two"))
        self.show("again without F5", again.startswith(conflict), True)
        two.anew()
        told = two.save(two.update(451, name="Two"), two.update(455, name="Light"))
        self.show("after F5 it is put over it", (told, self.tags(451)), ("SUCCESS", {"name": "Two"}))
        put_at(self.url, 451, name="Two", kind="hall")
        self.show(
            "an edit by HTTP is a conflict too",
            "kind: None -&gt; 'hall'" in two.save(two.update(451, name="Three")),
            True,
        )
        curl(f"{self.url}/features/454", "-X", "DELETE")
        self.show("a feature that is gone", "place 454 (now deleted)" in one.save(one.update(454, name="Mole")), True)
        one.rows()
        self.show(
            "is put anew after F5",
            (one.save(one.update(454, name="Mole")), self.tags(454)),
            ("SUCCESS", {"name": "Mole"}),
        )
        curl(f"{self.url}/features/454", "-X", "DELETE")
        self.show("to delete what is gone is no conflict", one.save(one.delete(454)), "SUCCESS")

    def panned(self):
        """A GIS that is panned gets no second version of a feature."""
        gis, half = Gis(self.gateway, "place.points"), HALF * 7.505 / 180
        west = gis.rows(BBOX=f"0,0,{half},{HALF}")
        number = next(iter(west))
        put_at(self.url, number, name="By others")
        fid = gis.fids[number]
        east = gis.rows(BBOX=f"0,0,{half + 5000},{HALF}")
        self.show(
            "panned, the version that it has", (east[number]["name"], gis.fids[number]), (west[number]["name"], fid)
        )
        fresh = gis.anew(BBOX=f"0,0,{half},{HALF}")
        self.show("and after F5 the new one", (fresh[number]["name"], gis.fids[number] != fid), ("By others", True))

    def large(self):
        """A cut feature, and a large new one."""
        gis, edits = self.gis("land.areas"), edits_at(self.url)
        self.show("a tag of a cut feature", gis.save(gis.update(101, name="Land")), "SUCCESS")
        pieces = [
            feature["tags"]["name"] for feature in map_at(self.url).values() if feature["tags"].get("whole") == 101
        ]
        self.show(
            "is on all of its pieces, by one edit",
            (len(pieces) > 1, set(pieces), edits_at(self.url)),
            (True, {"Land"}, edits + 1),
        )
        park, edits = self.gis("park.areas"), edits_at(self.url)
        told = park.save(park.insert(triangle(834000, 7264000, 10000), name="Huge"))
        made = edits_at(self.url) - edits
        self.show(
            "a large new one takes several edits", (told.startswith("SUCCESS park.areas."), made > 1), (True, True)
        )
        number = int(told.split(".")[2])
        rows = park.anew()
        self.show("and is one feature", (len(rows), rows[number]["name"]), (4, "Huge"))
        self.show(
            "which is deleted again",
            (park.save(park.delete(number)), self.tags(number), len(park.anew())),
            ("SUCCESS", None, 3),
        )


def first_x(shape):
    """The first coordinate of a shape."""
    return float(
        next(part.text for part in shape.iter() if part.tag.endswith("}posList") or part.tag.endswith("}pos")).split()[
            0
        ]
    )


def as_text(cell):
    """A cell as an Update has it: a shape as it was read."""
    from xml.etree.ElementTree import tostring
    return cell if isinstance(cell, str) else tostring(cell).decode()


# ---- what is no request

def hostile(cases, gateway):
    gis, update = Gis(gateway, "place.points"), '<Update typeName="v:place.points">'
    gis.rows()
    for text, body in [
        ("document type", '<!DOCTYPE a [<!ENTITY x "y">]><a>&x;</a>'),
        ("no XML", "<Transaction>"),
        ("no XML", " "),
        ("LockFeature isn't taken", "<LockFeature/>"),
        (
            "names no feature",
            f"<Transaction>{update}<Property><Name>name</Name><Value>1</Value></Property></Update></Transaction>",
        ),
        (
            "no feature has the id",
            (
                '<Transaction><Delete typeName="place.points"><Filter><FeatureId'
                ' fid="nonsense"/></Filter></Delete></Transaction>'
            ),
        ),
        (
            "no layer nix",
            (
                '<Transaction><Delete typeName="nix"><Filter><FeatureId'
                ' fid="place.points.451.0123456789abcdef"/></Filter></Delete></Transaction>'
            ),
        ),
        (
            "ids of features are needed",
            '<Transaction><Delete typeName="place.points"><Filter><PropertyIsEqualTo/></Filter></Delete></Transaction>',
        ),
        (
            "which property",
            f"<Transaction>{update}<Property><Value>1</Value></Property>{gis.named(451)}</Update></Transaction>"
            .replace("ogc:", ""),
        ),
        ("EPSG:3857 is needed", f"<Transaction {GML}>{gis.insert(point(1, 1).replace('3857', '25832'))}</Transaction>"),
        ("outside of the world", f"<Transaction {GML}>{gis.insert(point(1e9, 1.0))}</Transaction>"),
        ("no such coordinates", f"<Transaction {GML}>{gis.insert(point(1, 1).replace('1,1', 'x'))}</Transaction>"),
        (
            "feature 451 isn't of road.lines",
            f"<Transaction {GML}>{gis.update(451, name='x').replace('place.points', 'road.lines', 1)}</Transaction>",
        ),
        (
            "nested too deep",
            f"<Transaction {GML}>{gis.insert('<MultiPoint><a>' * 5000 + '</a></MultiPoint>' * 5000)}</Transaction>",
        ),
    ]:
        cases.show(f"wfs: {text}: {body[:50]}", text in gis.send(body), True)
    url = gateway.url + "/wfs"
    for name, words, status in [
        ("another host", ["-H", "Host: example.org"], 421),
        ("a form", ["-X", "POST", "-H", "Content-Type: text/plain", "--data-binary", "<a/>"], 415),
        ("a post of another host", ["-H", "Host: example.org", "-H", XML, "--data-binary", "<a/>"], 421),
        ("no length", ["-X", "POST", "-H", XML, "-H", "Transfer-Encoding: chunked", "--data-binary", "<a/>"], 411),
        ("too long", ["-X", "POST", "-H", XML, "-H", f"Content-Length: {2 ** 26}"], 413),
        ("another method", ["-X", "TRACE"], 501),
    ]:
        cases.show(f"wfs: {name}", status_of(curl(url, *words)), status)
    for path in ("/", "/wfs/nonsense", "/wfs/0123456789/7", "/map/0/0/0.mvt"):
        cases.show(f"wfs: there is no {path}", status_of(curl(gateway.url + path)), 404)
    told = text_of(f"{url}?REQUEST=GetFeature&TYPENAMES=v:nix")
    cases.show(
        "wfs: a layer that there isn't", "<ows:ExceptionText>the map has no layer nix</ows:ExceptionText>" in told, True
    )
    cases.show("wfs: a request that there isn't", "no such request" in text_of(f"{url}?REQUEST=LockFeature"), True)
    cases.show(
        "wfs: nothing is kept by caches", field(curl(f"{url}?REQUEST=GetCapabilities"), "cache-control"), "no-store"
    )


# ---- others, meanwhile

def disturbed(cases, folder, server):
    """Long saves that others disturb, ids that they take, and replies that are lost."""
    def show(name, found, wanted):
        cases.show(f"wfs: {name}", found, wanted)

    ids, seen, do = list(range(200, 400)), [], {}

    def before(method, path):
        if (method, path) == ("POST", EDITS):
            seen.append(path)
            do.pop(len(seen), lambda: None)()

    def at(number, work):
        seen.clear()
        do.clear()
        do[number] = work

    lost = once("POST", EDITS)
    with Between(
        server, before=before, loses=lambda *asked: bool(do.get("loses")) and lost(*asked)
    ) as between, Gateway(folder, between.url) as gateway:
        gis = Gis(gateway, "building.areas")
        gis.rows()
        was = map_at(server.url)
        at(3, lambda: put_at(server.url, 390, name="others"))
        told = gis.save(*(gis.update(number, floors=77) for number in ids))
        show(
            "a long save that others disturb isn't made",
            told,
            "nothing of this was saved: others have just changed 390",
        )
        show(
            "nothing of it is left",
            [number for number, feature in map_at(server.url).items() if feature != was[number]],
            [390],
        )
        at(3, lambda: [put_at(server.url, number, name="others") for number in (391, 210)])
        gis.anew()
        told = gis.save(*(gis.update(number, floors=78) for number in ids))
        wanted = (
            "nothing of this was saved, but for building 210, which others have changed just then: others have just"
            " changed 391"
        )
        show("but for what others have changed in between", told, wanted)
        left = [number for number, feature in map_at(server.url).items() if feature != was[number]]
        show("which is named, and stays", left, [210, 390, 391])
        gis.anew()
        show("then it is made", gis.save(*(gis.update(number, floors=5) for number in ids)), "SUCCESS")
        now = map_at(server.url)
        show("all of it", {now[number]["tags"].get("floors") for number in ids}, {5})
        do["loses"], edits = True, edits_at(server.url)
        show("a reply that is lost", gis.save(*(gis.update(number, floors=6) for number in ids[:30])), "SUCCESS")
        show("is of one edit", edits_at(server.url), edits + 1)
        do.clear()
        ids_taken(cases, gateway, server, at)


def ids_taken(cases, gateway, server, at):
    """Two gateways take the same ids for new features."""
    gis, last = Gis(gateway, "place.points"), json.loads(curl(f"{server.url}/admin/status")[2])["last"] % 2 ** 40
    gis.rows()
    body = json.dumps(
        {"layer": "place", "minzoom": 0, "maxzoom": 2, "geometry": {"points": [[1, 1]]}, "tags": {"name": "others"}}
    )
    free = max(int(number) for number in gis.fids)
    last = max(number for number in range(free, free + 200) if feature_at(server.url, number))
    at(2, lambda: [curl(f"{server.url}/features/{last + k}", "-X", "PUT", body=body) for k in (70, 71)])
    told = gis.save(*(gis.insert(point(835001, 7265001 + at_), name=f"n{at_}") for at_ in range(100)))
    numbers = [int(word.split(".")[2]) for word in told.split()[1:]]
    cases.show(
        "wfs: others take ids of new features: all get others",
        (len(set(numbers)), min(numbers) > last + 71),
        (100, True),
    )
    cases.show(
        "wfs: none is there twice",
        [number for number in range(last + 1, last + 70) if feature_at(server.url, number)],
        [],
    )
    edits = edits_at(server.url)
    body = f'<Transaction {GML} version="1.0.0">{gis.insert(point(835001, 7265001), name="once")}</Transaction>'
    first, second = gis.send(body), gis.send(body)
    cases.show(
        "wfs: a Transaction that is sent again is made once", (first == second, edits_at(server.url)), (True, edits + 1)
    )


def raced(cases, folder, server):
    """Two gateways with three clients each add to five numbers until there were some thirty saves: none of what was
    told as saved is lost."""
    ids, end, lock = range(133, 138), time.time() + 100, threading.Lock()
    won, counts = dict.fromkeys(ids, 0), {True: 0, False: 0}
    for number in ids:
        put_at(server.url, number, floors=0)

    def client(gateway, power):
        gis, at = Gis(gateway, "building.areas"), power
        while counts[True] < 30 and time.time() < end:
            at += 1
            number = ids[at % len(ids)]
            value = int(gis.anew(FEATUREID=f"building.areas.{number}.{'0' * 16}")[number]["floors"])
            is_saved = gis.save(gis.update(number, floors=value + 10 ** power)) == "SUCCESS"
            with lock:
                counts[is_saved] += 1
                won[number] += is_saved * 10 ** power

    with Gateway(folder, server.url) as one, Gateway(folder, server.url) as two:
        people = [threading.Thread(target=client, args=(gateway, 3 * at)) for at, gateway in enumerate((one, two) * 3)]
        for person in people:
            person.start()
        for person in people:
            person.join()
    cases.show(
        "wfs: six clients race, and no edit is lost",
        {number: feature_at(server.url, number)["tags"]["floors"] for number in ids},
        won,
    )
    cases.say(f"{counts[True]} saves, {counts[False]} conflicts")


def odd(cases: Cases, folder: str) -> None:
    """Odd names and values, mixed kinds, a layer that the map doesn't have yet."""
    tags = {
        "addr:street": "A",
        "name": "n",
        "Name": "N",
        "minzoom": "tag",
        "geom": "g",
        "fid": 5,
        "gml_id": "q",
        "1st": "1",
        "ä ö": "ü",
        "a.b": "dot",
        "x_x0041_y": "esc",
        "_": "under",
        "-": "minus",
        "日本": "jp",
        "lines": " two\nlines\r\n\tand blanks ",
        "ctrl": "a\x01b",
        "int": -5,
        "big": 2**64 - 1,
        "bool": True,
        "mixed": 5,
        "feature_id": "own",
    }
    with Server(folder, "odd") as server:
        whole = {"layer": "my layer:x", "minzoom": 3, "maxzoom": 15, "geometry": {"points": [[7, 7]]}, "tags": tags}
        other = {**whole, "geometry": {"points": [[9, 9]]}, "tags": {"mixed": "text"}}
        for number, feature in ((1, whole), (2, other), (3, {**other, "geometry": {"lines": [[[1, 1], [9, 9]]]}})):
            curl(f"{server.url}/features/{number}", "-X", "PUT", body=json.dumps(feature))
        with Gateway(folder, server.url, "--layer", "tree spots:points:kind=text,count=integer,old=boolean") as gateway:
            gis = Gis(gateway, "my·layer.x.points")
            row = gis.rows()[1]
            edits = edits_at(server.url)
            from xml.sax.saxutils import escape

            values = {
                name: as_text(cell) if name == "geom" else escape(cell, {"\r": "&#13;"})
                for name, cell in row.items()
                if name != "feature_id"
            }
            cases.show(
                "wfs: odd names and values as they were shown",
                (gis.save(gis.update(1, **values)), edits_at(server.url)),
                ("SUCCESS", edits),
            )
            told = gis.save(gis.update(1, **{"addr.street": "B", "bool": "false", "mixed": "6", "_x0031_st": "2"}))
            wanted = {**tags, "addr:street": "B", "bool": False, "mixed": 6, "1st": "2"}
            cases.show("wfs: odd names, changed", (told, feature_at(server.url, 1)["tags"]), ("SUCCESS", wanted))
            told = gis.save(gis.update(1, bool="maybe"))
            cases.show("wfs: no boolean", told, "my layer:x 1: bool is neither true nor false: maybe")
            new = Gis(gateway, "tree·spots.points")
            told = new.save(new.insert(point(1, 1), kind="oak", count=3, old="true"))
            wanted = {"kind": "oak", "count": 3, "old": True}
            made = feature_at(server.url, 4)
            cases.show(
                "wfs: a layer that the map doesn't have yet",
                (told[:7], made["layer"], made["tags"]),
                ("SUCCESS", "tree spots", wanted),
            )


def full(cases: Cases, folder: str) -> None:
    """A journal without room."""
    with Server(folder, "full", sectors=256) as server:
        for number in range(1, 31):
            curl(
                f"{server.url}/features/{number}",
                "-X",
                "PUT",
                body=json.dumps(
                    {
                        "layer": "p",
                        "minzoom": 0,
                        "maxzoom": 2,
                        "geometry": {"points": [[number, number]]},
                        "tags": {"name": "x"},
                    }
                ),
            )
        with Gateway(folder, server.url) as gateway, Gateway(folder, server.url, "--publish") as publishing:
            gis, edits = Gis(gateway, "p.points"), 0
            gis.rows()
            for name in range(100):
                edits = edits_at(server.url)
                told = gis.save(*(gis.update(number, name=f"{name} {'x' * 200}") for number in gis.fids))
                if told != "SUCCESS":
                    break
            wanted = (
                r"nothing of this was saved: it needs [0-9]+ sectors of the journal, which has [0-9]+: publish, then"
                r" save again"
            )
            cases.show("wfs: a full journal", re.fullmatch(wanted, told) is not None, True)
            cases.show("wfs: makes no edit", edits_at(server.url), edits)
            gis = Gis(publishing, "p.points")
            gis.rows()
            cases.show(
                "wfs: with --publish it is saved",
                gis.save(*(gis.update(number, name=f"last {'x' * 200}") for number in gis.fids)),
                "SUCCESS",
            )
