"""The part `wfs-far` of run.py: a map that the gateway doesn't hold, but reads by boxes, is answered as one that it
holds. The server's boxes are those of a stand-in (box_stand_in.py) if the program has none."""
import json
import os
import random
import re
import subprocess
import time
from contextlib import ExitStack
from typing import Optional

from .box_stand_in import Boxes
from .gateways import Gateway, Gis, edits_at, feature_at, map_at, point, put_at, text_of
from .pages import town
from .stand import VTMAP, Cases, Server, curl, feature, status_of

ASKED = "/wfs?SERVICE=WFS&VERSION=2.0.0&REQUEST="
LAYERS = ["building.areas", "land.areas", "park.areas", "place.points", "road.lines"]
# A box in the town, in metres, and its world.
TOWN, HALF = (833000, 7262000, 837000, 7268000), 20037508
HAS = "/admin/features/box/0,0,0,0/from/9223372036854775807"
# The most memory of a gateway with a map of very many points, and how many these are.
MOST_MB, MANY = 200, int(os.environ.get("FAR_FEATURES", "20000"))


def wfs_far(cases: Cases, folder: str) -> None:
    """All of it."""
    folder = os.path.join(folder, "wfs-far")
    os.mkdir(folder)
    with ExitStack() as stack:
        server = stack.enter_context(Server(folder, "town", sectors=16384))
        town(folder, server.url)
        cut(server)
        stand_in_is_true(cases, server, "the town")
        url = boxes_of(cases, stack, server)
        far = stack.enter_context(Gateway(folder, url, "--held", "0"))
        held = stack.enter_context(Gateway(folder, server.url, "--held", "1000000"))
        told = [is_far(far), is_far(held)]
        cases.show("wfs-far: one reads boxes, and the other holds the map", told, [[True], [False]])
        Both(cases, server, far, held).all()
        without(cases, folder, server)
    large(cases, folder)


def is_far(gateway: Gateway) -> list[bool]:
    """Whether a gateway says that it reads boxes, for each time that it has listed the map."""
    return [line.endswith("as they are asked for") for line in gateway.told if "the map has" in line]


def has_boxes(server: Server) -> bool:
    """Whether the program itself has boxes."""
    return status_of(curl(server.url + HAS)) == 200


def boxes_of(cases: Cases, stack: ExitStack, server: Server) -> str:
    """The address of a server with boxes: its own, or that of a stand-in in front of it."""
    if has_boxes(server):
        return server.url
    cases.say("the program has no boxes: a stand-in makes them")
    return stack.enter_context(Boxes(server)).url


def stand_in_is_true(cases: Cases, server: Server, name: str) -> None:
    """Sees that the stand-in lists in boxes what the server lists, if that has boxes."""
    if not has_boxes(server):
        return
    dice = random.Random(11)
    with Boxes(server) as stand_in:
        for at in range(12):
            west, north = dice.randrange(2**32), dice.randrange(2**32)
            wide = 2 ** dice.randrange(20, 33)
            box = west, north, min(west + wide, 2**32 - 1), min(north + wide, 2**32 - 1)
            box = (0, 0, 2**32 - 1, 2**32 - 1) if at == 0 else box
            found = listed(server.url, box)
            cases.show(f"wfs-far: {name}: the stand-in lists box {at} too", listed(stand_in.url, box), found)


def listed(url: str, box: tuple[int, int, int, int]) -> list[object]:
    """The features in a box, by pages."""
    rows: list[object] = []
    at: Optional[int] = 0
    while at is not None:
        path = f"{url}/admin/features/box/{','.join(map(str, box))}/from/{at}"
        page = json.loads(text_of(path))
        rows += page["features"]
        at = page["next"]
    return rows


def cut(server: Server) -> None:
    """The pieces of cut features: a line of three pieces, and a piece of one that has lost its first one."""
    pieces = [
        (5000, [[9, 9], [500, 9]], 5000),
        (5000 + 2**40, [[500, 9], [900, 90]], 5000),
        (5000 + 2**41, [[900, 90], [999, 5000]], 5000),
        (6000 + 2**40, [[7, 7], [8, 8]], 6000),
    ]
    for number, line, whole in pieces:
        made = feature("cut", geometry={"lines": [line]}, tags={"whole": whole, "name": "long"})
        curl(f"{server.url}/features/{number}", "-X", "PUT", body=made)


class Both:
    """Two gateways of one map, which are to say the same."""

    def __init__(self, cases: Cases, server: Server, far: Gateway, held: Gateway) -> None:
        self.cases, self.server, self.far, self.held = cases, server, far, held

    def show(self, name: str, found: object, wanted: object) -> None:
        self.cases.show(f"wfs-far: {name}", found, wanted)

    def alike(self, name: str, path: str) -> None:
        """Sees that both say the same."""
        far, held = (self.said(gateway, path) for gateway in (self.far, self.held))
        at = next((at for at, (one, other) in enumerate(zip(far, held)) if one != other), min(len(far), len(held)))
        place = slice(max(at - 40, 0), at + 200)
        self.show(f"{name}: both say the same", (far[place], len(far)), (held[place], len(held)))

    def said(self, gateway: Gateway, path: str) -> str:
        """What one says, without what differs between any two replies."""
        text = text_of(gateway.url + path).replace(gateway.url, "URL")
        text = re.sub(r'timeStamp"?[=:]"[^"]*"', "", re.sub("/wfs/[0-9a-f]{10}", "/wfs/SESSION", text))
        return text.replace("\n", "")

    def all(self) -> None:
        self.reads()
        self.random_boxes()
        self.saves()
        self.pans()
        self.follows()

    def reads(self) -> None:
        self.alike("capabilities", ASKED + "GetCapabilities")
        self.alike("schema", ASKED + "DescribeFeatureType")
        for layer in (*LAYERS, "cut.lines"):
            path = f"{ASKED}GetFeature&TYPENAMES=v:{layer}"
            self.alike(f"all of {layer}", path)
            self.alike(f"a part of {layer}", path + "&COUNT=7&STARTINDEX=3")
            self.alike(f"how many of {layer}", path + "&RESULTTYPE=hits")
            values = path.replace("GetFeature", "GetPropertyValue")
            self.alike(f"values of {layer}", values + "&VALUEREFERENCE=feature_id")
            self.alike(f"items of {layer}", f"/ogc/collections/{layer}/items?limit=5")
            self.alike(f"the next items of {layer}", f"/ogc/collections/{layer}/items?limit=5&after=140")
            self.alike(f"{layer} as CSV", f"/ogc/collections/{layer}/items?f=csv")
            self.alike(f"the collection {layer}", f"/ogc/collections/{layer}")
        self.alike("all of the map, WFS 1.1", "/wfs?SERVICE=WFS&VERSION=1.1.0&REQUEST=GetFeature")
        buildings = ASKED + "GetFeature&TYPENAMES=v:building.areas"
        self.alike("sorted", buildings + "&SORTBY=floors%20DESC,house&COUNT=20")
        by_id = ASKED + "GetFeature&STOREDQUERY_ID=urn:ogc:def:query:OGC-WFS::GetFeatureById&ID="
        self.alike("an id of no feature", by_id + "nothing")
        by_id += "place.points."
        self.alike("by an id", by_id + "452")
        self.alike("one item", "/ogc/collections/place.points/items/452")
        self.alike("an id that isn't there", by_id + "9")
        self.alike("an attribute", "/ogc/collections/building.areas/items?floors=2")
        more = "<ValueReference>floors</ValueReference><Literal>2</Literal>"
        null = "<PropertyIsNull><ValueReference>house</ValueReference></PropertyIsNull>"
        for text in (f"<PropertyIsGreaterThan>{more}</PropertyIsGreaterThan>", null):
            self.alike("a filter", f"{buildings}&FILTER=<Filter>{text}</Filter>")
        self.alike("nothing like that", ASKED + "GetFeature&TYPENAMES=v:nowhere.points")

    def random_boxes(self) -> None:
        """Boxes in the town, and in the world."""
        dice = random.Random(7)
        for at in range(30):
            wide = [TOWN, (-HALF, -HALF, HALF, HALF), (-HALF, HALF - 60, -HALF + 60, HALF)][at % 3]
            xs, ys = (sorted(dice.uniform(wide[axis], wide[axis + 2]) for _ in "ab") for axis in (0, 1))
            box = f"{xs[0]:.3f},{ys[0]:.3f},{xs[1]:.3f},{ys[1]:.3f}"
            self.alike(f"box {at}", f"{ASKED}GetFeature&BBOX={box},EPSG:3857")
        for name, box in (
            ("with its edges exchanged", "836000,7266000,834000,7264000"),
            ("beyond the world", "-99999999,-99999999,99999999,99999999"),
            ("outside of the world", "99999999,99999999,199999999,199999999"),
            ("that is a point", "835000,7265000,835000,7265000"),
        ):
            self.alike(f"a box {name}", f"{ASKED}GetFeature&BBOX={box},EPSG:3857")

    # ---- saving

    def gis(self, layer: str, **given: object) -> Gis:
        """A layer that is loaded from the gateway that reads boxes."""
        made = Gis(self.far, layer)
        made.rows(**given)
        return made

    def saves(self) -> None:
        gis, edits = self.gis("place.points"), edits_at(self.server.url)
        new = gis.insert(point(835001.0, 7265001.0), name="New")
        told = gis.save(gis.update(452, name="Old"), new, gis.delete(453))
        number = int(told.split(".")[2]) if told.startswith("SUCCESS") else 0
        found = [feature_at(self.server.url, one) for one in (452, number, 453)]
        tags = [one and one["tags"] for one in found]
        wanted = [{"name": "Old"}, {"name": "New"}, None]
        self.show("a save is one edit", (tags, edits_at(self.server.url)), (wanted, edits + 1))
        put_at(self.server.url, 454, name="theirs")
        told = gis.save(gis.update(454, name="mine"))
        tags = feature_at(self.server.url, 454)["tags"]
        is_told = "place 454" in told and "theirs" in told
        self.show("a conflict, and what they changed", (is_told or told, tags), (True, {"name": "theirs"}))
        gis.anew()
        told, tags = gis.save(gis.update(454, name="mine")), feature_at(self.server.url, 454)["tags"]
        self.show("after F5 it is put over theirs", (told, tags), ("SUCCESS", {"name": "mine"}))
        long = self.gis("cut.lines")
        self.show("a cut feature is saved as one", long.save(long.update(5000, name="longer")), "SUCCESS")
        there = map_at(self.server.url).items()
        names = {number: one["tags"]["name"] for number, one in there if one["layer"] == "cut"}
        self.show("and all of its pieces have it", names, {
            5000: "longer", 5000 + 2**40: "longer", 5000 + 2**41: "longer", 6000 + 2**40: "long"})
        many = self.gis("building.areas")
        told = many.save(*[many.delete(number) for number in list(many.fids)[:200]])
        self.show("most of a layer isn't deleted unasked", "200 of the 318 features" in told, True)
        self.alike("after all of it, the map", ASKED + "GetFeature")

    def pans(self) -> None:
        """Who pans gets no second version of a feature, and F5 shows the new one."""
        gis = Gis(self.far, "place.points")
        gis.rows(BBOX="834000,7260000,836000,7268000,EPSG:3857")
        put_at(self.server.url, 451, name="since")
        rows = gis.rows(BBOX="834000,7260000,837000,7268000,EPSG:3857")
        self.show("who pans gets no second version", rows[451]["name"], "Town Hall")
        rows = gis.anew(BBOX="834000,7260000,836000,7268000,EPSG:3857")
        self.show("after F5 the new one", rows[451]["name"], "since")

    def follows(self) -> None:
        """New layers and fields, deletions, and a layer that loses its last feature."""
        made: list[tuple[int, str, dict[str, object]]] = [
            (9001, "fresh", {"a": 1}), (9002, "fresh", {"b": True}), (452, "place", {"name": "x", "more": "y"})
        ]
        for number, layer, tags in made:
            was = feature_at(self.server.url, number) or json.loads(feature(layer))
            body = json.dumps({**was, "layer": layer, "tags": tags})
            curl(f"{self.server.url}/features/{number}", "-X", "PUT", body=body)
        self.alike("new fields and layers", ASKED + "DescribeFeatureType")
        self.alike("features of them", ASKED + "GetFeature")
        for number in (9001, 9002, 5000):
            curl(f"{self.server.url}/features/{number}", "-X", "DELETE")
        self.alike("a layer that has lost its last feature, and pieces without the first one", ASKED + "GetFeature")
        self.alike("and what is told of it", ASKED + "GetCapabilities")


def without(cases: Cases, folder: str, server: Server) -> None:
    """A server without boxes, and a small map, are held whole."""
    with ExitStack() as stack:
        if not has_boxes(server):
            gateway = stack.enter_context(Gateway(folder, server.url, "--held", "0"))
            cases.show("wfs-far: a server without boxes", is_far(gateway), [False])
        gateway = stack.enter_context(Gateway(folder, boxes_of(cases, stack, server)))
        cases.show("wfs-far: a small map", is_far(gateway), [False])


def large(cases: Cases, folder: str) -> None:
    """The memory of a gateway with a map of many points, of which somebody loads all."""
    with ExitStack() as stack:
        server = stack.enter_context(Server(folder, "many", sectors=262144))
        path = os.path.join(folder, "many.geojson")
        with open(path, "w", encoding="utf-8") as file:
            for at in range(MANY):
                place = [7 + at % 1000 / 1000, 54 + at // 1000 / 5000]
                tags = {"name": f"point {at}", "height": at % 90, "kind": "tree"}
                file.write(json.dumps({"type": "Feature", "id": at + 1, "properties": tags,
                                       "geometry": {"type": "Point", "coordinates": place}}) + "\n")
        words = [*VTMAP, "import", path, "--layer", "tree", "--minzoom", "14", "--maxzoom", "14", "--url", server.url]
        subprocess.run(words, check=True, capture_output=True)
        stand_in_is_true(cases, server, f"{MANY:,} points")
        gateway = stack.enter_context(Gateway(folder, boxes_of(cases, stack, server)))
        began, gis = time.monotonic(), Gis(gateway, "tree.points")
        count = gis.get("GetFeature").count("<v:feature_id>")
        cases.show(f"wfs-far: all of {MANY:,} points", count, MANY)
        cases.say(f"in {time.monotonic() - began:.1f} s, {memory_of(gateway)} MB at most")
        # The points are columns of 0.001 degrees and rows of 0.0002, from 779236.4 and 7170156.3 metres on.
        found = gis.rows(BBOX="779236,7170000,790000,7170440,EPSG:3857")
        inside = {at + 1 for at in range(MANY) if at % 1000 < 97 and at // 1000 < 8}
        cases.show("wfs-far: a box of them", set(found), inside)
        # So many that the server looks at 1,024 features for a page, and lists none on the first ones.
        found = gis.rows(BBOX="779236,7170250,890445,7290000,EPSG:3857")
        cases.show("wfs-far: a box of most of them", set(found), set(range(3001, MANY + 1)))
        cases.show(f"wfs-far: within {MOST_MB} MB", memory_of(gateway) < MOST_MB, True)


def memory_of(gateway: Gateway) -> int:
    """The most memory that a process has had, in MB."""
    with open(f"/proc/{gateway.child.pid}/status", encoding="ascii") as file:
        return int(re.search(r"VmHWM:\s+(\d+)", file.read())[1]) >> 10  # type: ignore[index]
