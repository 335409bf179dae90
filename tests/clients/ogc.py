"""The part `ogc` of run.py: the OGC API Features of `vtmap wfs`, read by hand and by GDAL, and both of its services
behind nginx."""
import json
import os
import re
import shutil
import subprocess
import time

from vtmap.geometry.geojson import feature_of
from vtmap.geometry.wholes import twice_area

from .browser import Browser
from .gateways import Gateway, Gis, map_at, put_at, text_of
from .pages import town
from .stand import SYSTEM_PYTHON, TOP, VTMAP, Cases, Nginx, Server, curl, field, status_of

LEAFLET = "/usr/share/javascript/leaflet"
EDITS = """
import json, sys
from osgeo import ogr
source = ogr.Open(sys.argv[1], 1)
places = source.GetLayerByName("v:place.points")
named = {place.GetField("name"): place for place in places}
named["School"].SetField("name", "Old School")
new = ogr.Feature(places.GetLayerDefn())
new.SetField("name", "By GDAL")
new.SetGeometry(ogr.CreateGeometryFromWkt("POINT (834900 7265400)"))
print(json.dumps([places.SetFeature(named["School"]), places.CreateFeature(new), places.DeleteFeature(named["Harbour"].GetFID())]))
"""
PLACES = ["Town Hall", "Church", "School", "Harbour", "Lighthouse"]


def ogc(cases: Cases, folder: str) -> None:
    """All of it."""
    folder = os.path.join(folder, "ogc")
    os.mkdir(folder)
    with Server(folder, "town", sectors=16384) as server:
        town(folder, server.url)
        trail = os.path.join(folder, "gateway.edits.log")
        with Gateway(folder, server.url, "--log", trail, "--behind-nginx") as gateway:
            documents(cases, gateway.url + "/ogc")
            pages(cases, gateway.url + "/ogc/collections", server.url)
            selections(cases, gateway.url + "/ogc/collections")
            refusals(cases, gateway.url + "/ogc")
            by_gdal(cases, gateway.url)
            by_leaflet(cases, folder, server, gateway)
            behind_nginx(cases, folder, server, gateway)
            edited_by_gdal(cases, gateway.url, server.url)
            with_passwords(cases, folder, server, gateway)


def asked(url):
    """The JSON of a reply."""
    return json.loads(text_of(url))


def documents(cases, url):
    """What says what there is: each link leads to a document of its type."""
    first = asked(url + "/")
    cases.show(
        "ogc: the landing page's links",
        [link["rel"] for link in first["links"]],
        ["self", "service-desc", "conformance", "data"],
    )
    listed = asked(url + "/collections")["collections"]
    ids = ["building.areas", "land.areas", "park.areas", "place.points", "road.lines"]
    cases.show(
        "ogc: a collection for each kind of a layer",
        [(one["id"], one["itemType"]) for one in listed],
        [(name, "feature") for name in ids],
    )
    found = [
        (link["href"], link["type"], field(curl(link["href"]), "content-type"))
        for one in [first, *listed]
        for link in one["links"]
    ]
    cases.show("ogc: each link has the type that it says", [row for row in found if row[1] != row[2]], [])
    west, south, east, north = listed[3]["extent"]["spatial"]["bbox"][0]
    cases.show(
        "ogc: the extent of the places", (7.49 < west < east < 7.52, 54.49 < south < north < 54.51), (True, True)
    )
    classes = [name.rpartition("/")[2] for name in asked(url + "/conformance")["conformsTo"]]
    cases.show("ogc: what of the standard there is", classes, ["core", "oas30", "geojson", "crs"])
    api = asked(url + "/api")
    parameters = api["paths"]["/collections/building.areas/items"]["get"]["parameters"]
    shared = api["components"]["parameters"]
    named = [shared[one["$ref"].rpartition("/")[2]]["name"] if "$ref" in one else one["name"] for one in parameters]
    cases.show(
        "ogc: the API names the parameters",
        sorted(named),
        sorted(["bbox", "bbox-crs", "crs", "limit", "datetime", "after", "floors", "house", "f"]),
    )
    missing = [path for path in api["paths"] if "{" not in path and status_of(curl(url + path)) != 200]
    cases.show("ogc: each path of the API is there", (missing, len(api["paths"])), ([], 18))
    cases.show("ogc: HEAD", (status_of(curl(url + "/", "--head")), curl(url + "/", "--head")[2]), (200, b""))


def pages(cases, url, server):
    """Pages, while somebody edits."""
    whole = asked(f"{url}/building.areas/items")
    cases.show(
        "ogc: all of a collection",
        (whole["numberMatched"], whole["numberReturned"], len(whole["features"])),
        (318, 318, 318),
    )
    ids, place, count = [], f"{url}/building.areas/items?limit=50", 0
    while place:
        page = asked(place)
        ids += [feature["id"] for feature in page["features"]]
        curl(f"{server}/features/{ids[count]}", "-X", "DELETE")
        count += 1
        place = next((link["href"] for link in page["links"] if link["rel"] == "next"), None)
    cases.show(
        "ogc: by pages each feature once, though some are deleted",
        (count, ids),
        (7, [feature["id"] for feature in whole["features"]]),
    )
    place = asked(f"{url}/place.points/items/452")
    cases.show(
        "ogc: a feature",
        (place["id"], place["properties"], place["geometry"]["type"]),
        (452, {"name": "Church"}, "Point"),
    )
    put_at(server, 452, name="Old Church")
    cases.show("ogc: is as it is now", asked(f"{url}/place.points/items/452")["properties"], {"name": "Old Church"})
    put_at(server, 452, name="Church")
    roads = asked(f"{url}/road.lines/items")["features"]
    same = [feature_of(road) == json.loads(curl(f"{server}/features/{road['id']}")[2]) for road in roads]
    cases.show("ogc: degrees lead back to each point of the map", (len(same), all(same)), (12, True))
    rings = [
        ring
        for area in asked(f"{url}/park.areas/items")["features"]
        for polygon in polygons(area["geometry"])
        for ring in polygon[:1]
    ]
    cases.show("ogc: outer rings are counterclockwise", {twice_area(ring) > 0 for ring in rings}, {True})
    cases.show("ogc: a feature that the import has cut is one", len(asked(f"{url}/land.areas/items")["features"]), 1)


def polygons(geometry):
    """The polygons of a geometry."""
    return [geometry["coordinates"]] if geometry["type"] == "Polygon" else geometry["coordinates"]


def names(url):
    """The names of the features of a reply."""
    return [feature["properties"]["name"] for feature in asked(url)["features"]]


def selections(cases, url):
    """Boxes and properties."""
    items = f"{url}/place.points/items"
    for query, wanted in [
        ("", PLACES),
        ("?bbox=7.5,54.4,7.505,54.6", ["Town Hall", "School", "Harbour"]),
        ("?bbox=7.5,54.4,-999,7.505,54.6,999", ["Town Hall", "School", "Harbour"]),
        ("?bbox=170,54,7.5,55", ["Church"]),
        ("?bbox=-180,-90,180,90", PLACES),
        ("?bbox=8,54,9,55", []),
        ("?name=Church", ["Church"]),
        ("?name=Town%20Hall&bbox=8,54,9,55", []),
        ("?datetime=2026-11-29T00:00:00Z", PLACES),
        ("?datetime=../2026-11-29", PLACES),
        ("?limit=99999", PLACES),
        ("?f=json", PLACES),
    ]:
        cases.show(f"ogc: places{query}", names(items + query), wanted)
    cases.show(
        "ogc: a number",
        {feature["properties"]["floors"] for feature in asked(f"{url}/building.areas/items?floors=2")["features"]},
        {2},
    )


def refusals(cases, url):
    """What there isn't, and what is wrong."""
    places = "/collections/place.points"
    missing = [
        "/collections/nix",
        "/collections/nix/items",
        "/nix",
        places + "/nix",
        *(f"{places}/items/{name}" for name in ("1", "x", "452/x")),
    ]
    queries = [
        "limit=0",
        "limit=x",
        "bbox=1,2,3",
        "bbox=1,2,3,x",
        "bbox=0,60,1,50",
        "bbox=nan,1,2,3",
        "nix=1",
        "after=-1",
        "datetime=now",
    ]
    wrong = ["/?nix=1", "/collections?f=html", *(f"{places}/items?{query}" for query in queries)]
    for path, status in [*((path, 404) for path in missing), *((path, 400) for path in wrong)]:
        reply = curl(url + path)
        found = status_of(reply), sorted(json.loads(reply[2])), field(reply, "content-type")
        cases.show(f"ogc: {path}", found, (status, ["code", "description"], "application/json"))


def counted(name, layer):
    """How many features GDAL's command finds in a layer, by asking and by reading them."""
    told = subprocess.run(["ogrinfo", "-ro", "-so", name, layer], capture_output=True, text=True, timeout=100).stdout
    read = subprocess.run(
        ["ogrinfo", "-ro", "-q", "-geom=NO", name, layer], capture_output=True, text=True, timeout=100
    ).stdout
    return [int(count) for count in re.findall("Feature Count: ([0-9]+)", told)], read.count("OGRFeature")


def by_gdal(cases, url):
    """GDAL reads both services."""
    if not shutil.which("ogrinfo"):
        cases.say("no ogrinfo: GDAL doesn't read the gateway")
        return
    count = len(asked(f"{url}/ogc/collections/building.areas/items")["features"])
    for driver, path, prefix in (("WFS", "/wfs", "v:"), ("OAPIF", "/ogc", "")):
        name = f"{driver}:{url}{path}"
        cases.show(
            f"ogc: GDAL reads {driver}",
            [counted(name, prefix + layer) for layer in ("building.areas", "place.points")],
            [([count], count), ([5], 5)],
        )
        words = ["ogrinfo", "-ro", "-q", "-where", "name = 'Church'", name, prefix + "place.points"]
        told = subprocess.run(words, capture_output=True, text=True, timeout=100).stdout
        cases.show(f"ogc: GDAL selects by {driver}", (told.count("OGRFeature"), "Church" in told), (1, True))


def edited_by_gdal(cases, url, server):
    """GDAL's module for Python changes, adds and deletes features by WFS."""
    if subprocess.run([SYSTEM_PYTHON, "-c", "import osgeo"], capture_output=True).returncode != 0:
        cases.say("no GDAL in the system's Python: it edits nothing by WFS")
        return
    told = subprocess.run([SYSTEM_PYTHON, "-c", EDITS, f"WFS:{url}/wfs"], capture_output=True, text=True, timeout=100)
    made = json.loads(told.stdout or "null") or told.stderr
    cases.show("ogc: GDAL changes, adds and deletes by WFS", made, [0, 0, 0])
    found = {
        number: feature["tags"].get("name") for number, feature in map_at(server).items() if feature["layer"] == "place"
    }
    cases.show(
        "ogc: which is on the map",
        sorted(found.values()),
        sorted([*(set(PLACES) - {"School", "Harbour"}), "Old School", "By GDAL"]),
    )


def by_leaflet(cases, folder, server, gateway):
    """The page with Leaflet, behind nginx, in Chromium. Its picture is kept in the folder that PICTURES names, if it
    does."""
    nginx = shutil.which("nginx", path=os.environ.get("PATH", "") + ":/usr/sbin")
    if not (nginx and shutil.which("chromium") and os.path.exists(LEAFLET)):
        cases.say("no nginx, no Chromium or no libjs-leaflet: Leaflet doesn't draw the features")
        return
    port = [("127.0.0.1:8090", f"127.0.0.1:{gateway.port}")]
    place, markup = json.loads(curl(f"{server.url}/features/451")[2]), "<i>markup</i>"
    curl(f"{server.url}/features/999", "-X", "PUT", body=json.dumps({**place, "layer": markup}))
    with Nginx(nginx, folder, server, port) as front, Browser(os.path.join(folder, "profile"), 760, 480) as browser:
        pages = os.path.join(front.folder, "pages")
        shutil.copytree(os.path.join(TOP, "web"), pages)
        for name in ("leaflet.js", "leaflet.css"):
            shutil.copy(os.path.join(LEAFLET, name), pages)
        shutil.copytree(os.path.join(LEAFLET, "images"), os.path.join(pages, "images"))
        page = browser.open(f"{front.url}/pages/features.html")
        names = (
            "[...document.querySelectorAll('.leaflet-control-layers-overlays label')].map(label =>"
            " label.innerText.trim())"
        )
        wanted = [
            markup + " (points)",
            "land (areas)",
            "park (areas)",
            "road (lines)",
            "building (areas)",
            "place (points)",
        ]
        page.wait(
            "document.querySelectorAll('.leaflet-control-layers-overlays label').length === 6 &&"
            " document.querySelector('canvas')"
        )
        cases.show("ogc: Leaflet has each collection, and a name that is markup as a text", page.value(names), wanted)
        page.wait("document.querySelector('canvas').getContext('2d').getImageData(380, 240, 1, 1).data[3] > 0")
        time.sleep(1)
        page.click(380, 250)
        told = page.wait("document.querySelector('.leaflet-popup pre')?.innerText") or ""
        cases.show(
            "ogc: a click shows a feature", told.split(" ")[0] in ("land", "park", "road", "building", "place"), True
        )
        cases.show("ogc: and neither the page nor the browser complains", page.faults(), [])
        if os.environ.get("PICTURES"):
            time.sleep(1)
            page.picture(os.path.join(os.environ["PICTURES"], "features-leaflet.png"))
    curl(f"{server.url}/features/999", "-X", "DELETE")
    shutil.rmtree(front.folder)


def behind_nginx(cases, folder, server, gateway):
    """Both services behind nginx: for those who edit alone, under the proxy's address, with and without passwords."""
    nginx = shutil.which("nginx", path=os.environ.get("PATH", "") + ":/usr/sbin")
    if not nginx:
        cases.say("no nginx: the gateway isn't tried behind it")
        return
    port = [("127.0.0.1:8090", f"127.0.0.1:{gateway.port}")]
    with Nginx(nginx, folder, server, port) as front:
        gis = Gis(front, "place.points")
        gis.rows()
        cases.show("nginx: the gateway names the proxy's address", gis.url.startswith(front.url + "/wfs/"), True)
        cases.show("nginx: a save", gis.save(gis.update(451, name="By nginx")), "SUCCESS")
        first = asked(f"{front.url}/ogc/")
        cases.show(
            "nginx: so does its other service",
            {link["href"].startswith(front.url + "/ogc/") for link in first["links"]},
            {True},
        )
        cases.show("nginx: and its features", len(names(f"{front.url}/ogc/collections/place.points/items")), 5)
        for path in ("/wfs?REQUEST=GetCapabilities", "/ogc/", "/ogc/collections/place.points/items"):
            cases.show(
                f"nginx: {path} isn't for another address",
                status_of(curl(front.url + path, "--interface", "127.0.0.2")),
                403,
            )
        packed = curl(f"{front.url}/wfs?REQUEST=GetFeature&TYPENAMES=building.areas", "-H", "Accept-Encoding: gzip")
        cases.show(
            "nginx: features are compressed", (status_of(packed), field(packed, "content-encoding")), (200, "gzip")
        )
        body = "x" * (2**20)
        cases.show(
            "nginx: a body of 1 MB reaches the gateway",
            status_of(curl(gis.url, "-H", "Content-Type: text/xml", body=body)),
            200,
        )
    curl(
        f"{server.url}/features/451",
        "-X",
        "PUT",
        body=curl(f"{server.url}/features/451")[2].decode().replace("By nginx", "Town Hall"),
    )
    shutil.rmtree(front.folder)


def with_passwords(cases, folder, server, gateway):
    """The block with passwords: who edits logs in."""
    nginx = shutil.which("nginx", path=os.environ.get("PATH", "") + ":/usr/sbin")
    if not (nginx and shutil.which("openssl")):
        cases.say("no nginx, or no openssl: nobody logs in")
        return
    port = [("127.0.0.1:8090", f"127.0.0.1:{gateway.port}")]
    people = os.path.join(folder, "people")
    with open(people, "w", encoding="utf-8") as file:
        file.write(
            "ann:"
            + subprocess.run(
                ["openssl", "passwd", "-apr1", "secret"], capture_output=True, text=True, check=True
            ).stdout
        )
    os.chmod(people, 0o644)
    block = [("# satisfy any;", "satisfy any;"), ("# auth_basic", "auth_basic"), ("/etc/vtserve/people", people)]
    with Nginx(nginx, folder, server, [*port, *block]) as front:
        away = ["--interface", "127.0.0.2"]
        cases.show("nginx: without a password", status_of(curl(f"{front.url}/wfs?REQUEST=GetCapabilities", *away)), 401)
        gis = Gis(front, "place.points", words=[*away, "-u", "ann:secret"])
        gis.rows()
        log, trail = os.path.join(folder, "edits.jsonl"), os.path.join(folder, "gateway.edits.log")
        follows = [*VTMAP, "follow", "--log", log, "--once", "--url", server.url]
        subprocess.run(follows, check=True, capture_output=True)
        cases.show("nginx: with a name and a password", gis.save(gis.update(451, name="By Ann")), "SUCCESS")
        subprocess.run(follows, check=True, capture_output=True)
        told = subprocess.run(
            [*VTMAP, "log", log, "--nginx", trail, "--person", "ann"], capture_output=True, text=True
        ).stdout.splitlines()
        cases.show(
            "nginx: vtmap log says who has saved",
            [line.partition("  ann  ")[2] for line in told],
            ["changed place 451 ('By Ann'): name: 'Town Hall' -> 'By Ann'"],
        )
        _, lines = gateway.end()
        cases.show(
            "nginx: and so does the gateway",
            [line for line in lines if "ann" in line][0].startswith("saved: ann: 1 changed, edit "),
            True,
        )
    shutil.rmtree(front.folder)
