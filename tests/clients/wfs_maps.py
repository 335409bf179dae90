"""The part `wfs-maps` of run.py: one `vtmap wfs --maps` for the maps of a machine. Each is read and edited at its own
path, maps are added, rest, are removed and come back while it runs, and none touches another."""
import json
import os
import re
import shutil
import subprocess
import time
from contextlib import ExitStack
from typing import Any

from vtmap.machine.map_file import map_of
from vtmap.machine.nginx_files import files_of

from .gateways import Gateway, Gis, edits_at, feature_at, point, text_of
from .stand import VTMAP, Cases, Nginx, Server, curl, feature, free_port, status_of

PNG = b"\x89PNG\r\n\x1a\n" + bytes(24)
# After how many seconds without a request a map rests here.
IDLE = 1.5


class Country:
    """A folder with the files of maps, their servers, and a gateway of all."""

    def __init__(self, cases: Cases, folder: str, stack: ExitStack) -> None:
        self.cases, self.folder, self.stack = cases, folder, stack
        self.servers: dict[str, Server] = {}
        os.makedirs(self.path("etc/vtserve/maps"))

    def show(self, name: str, found: object, wanted: object) -> None:
        self.cases.show(f"wfs-maps: {name}", found, wanted)

    def path(self, *parts: str) -> str:
        return os.path.join(self.folder, *parts)

    def words(self, *more: str) -> list[str]:
        """The words of a gateway of all maps, beside its URL."""
        kept = self.path("kept/{map}")
        return ["--maps", "--root", self.folder, "--state", kept + "/state", "--files", kept + "/files", *more]

    def add(self, name: str) -> Server:
        """A map, which has a feature of its own name."""
        server = self.stack.enter_context(Server(self.folder, name))
        self.servers[name] = server
        curl(f"{server.url}/features/1", "-X", "PUT", body=feature(f"of {name}", tags={"name": name}))
        self.write(name)
        return server

    def write(self, name: str) -> None:
        """Its file."""
        with open(self.path("etc/vtserve/maps", name), "w", encoding="utf-8") as file:
            file.write(f"# {name}\nPORT={self.servers[name].port}\nGATEWAY={self.servers[name].port + 1}\n")

    def layers(self, url: str) -> list[str]:
        """The layers that a gateway tells of at an address."""
        told = text_of(f"{url}/wfs?SERVICE=WFS&REQUEST=GetCapabilities")
        return re.findall("<wfs:Name>v:(.*?)</wfs:Name>", told)


class At:
    """A map of a gateway, as `Gis` asks a gateway."""

    def __init__(self, gateway: Gateway, name: str) -> None:
        self.url = f"{gateway.url}/{name}"


def wfs_maps(cases: Cases, folder: str) -> None:
    """All of it."""
    folder = os.path.join(folder, "wfs-maps")
    os.mkdir(folder)
    with ExitStack() as stack:
        country = Country(cases, folder, stack)
        words(country)
        for name in ("north", "south"):
            country.add(name)
        cut_short(country)
        with Gateway(folder, "http://127.0.0.1:{port}", *country.words("--idle", f"{IDLE}")) as gateway:
            told = [line for line in gateway.told if "maps" in line or "cut short" in line]
            country.show(
                "it says how many maps there are, and has undone what was cut short of one",
                (sorted(told), feature_at(country.servers["south"].url, 7)),
                (["2 maps", "south: a save of 1 features was cut short, and is undone"], None),
            )
            reads(country, gateway)
            edits(country, gateway)
            comes_and_goes(country, gateway)
        behind_nginx(country)


def words(country: Country) -> None:
    """Command lines that can't be meant."""
    for more, said in (
        (["--url", "http://127.0.0.1:8080"], "--maps needs an --url"),
        (["--url", "http://127.0.0.1:{port}", "--layer", "a:points"], "--layer is of one map"),
        (["--url", "http://127.0.0.1:{port}", "--idle", "0"], "--idle is a number of seconds"),
    ):
        child = subprocess.run([*VTMAP, "wfs", *country.words(*more)], capture_output=True, text=True)
        country.show(f"words that can't be meant: {said}", (child.returncode, said in child.stderr), (2, True))


def cut_short(country: Country) -> None:
    """A save of the south is as a `kill -9` of the gateway leaves it: noted, and made."""
    made = feature("of south", tags={"name": "half"})
    curl(f"{country.servers['south'].url}/features/7", "-X", "PUT", body=made)
    kept = json.dumps(json.loads(made), sort_keys=True, separators=(",", ":"))
    os.makedirs(country.path("kept/south"))
    with open(country.path("kept/south/state"), "w", encoding="utf-8") as file:
        file.write(json.dumps({"begun": 1, "session": "", "groups": [[[7, kept, len(kept), "null"]]]}) + "\n")


def reads(country: Country, gateway: Gateway) -> None:
    """Each map at its own path."""
    found = {name: country.layers(At(gateway, name).url) for name in ("north", "south")}
    country.show("each has its layers", found, {name: [f"of·{name}.points"] for name in found})
    told = text_of(f"{gateway.url}/north/wfs?SERVICE=WFS&REQUEST=GetCapabilities")
    place = re.findall(r'Get xlink:href="([^"]*?)/[0-9a-f]{10}\?"', told)
    country.show("its capabilities name its path", set(place), {f"{gateway.url}/north/wfs"})
    page = json.loads(curl(f"{gateway.url}/south/ogc/collections/of%C2%B7south.points/items")[2])
    links = json.loads(curl(f"{gateway.url}/south/ogc/")[2])["links"]
    country.show("OGC API Features of another", (
        [one["properties"] for one in page["features"]], {one["href"].split("/ogc")[0] for one in links}
    ), ([{"name": "south"}], {f"{gateway.url}/south"}))
    paths = ["/wfs", "/ogc/", "/", "/west/wfs", "/north", "/north/south/wfs", "/NORTH/wfs", "/../north/wfs", "/files/x"]
    statuses = [status_of(curl(gateway.url + path, "--path-as-is")) for path in paths]
    country.show("paths of no map", statuses, [404] * len(paths))
    told = curl(f"{gateway.url}/north/ogc/collections", "-H", "X-Map: south")[2].decode()
    country.show("the field X-Map says nothing without nginx", "south" in told, False)
    other = ("-H", "Origin: http://other.example", "-H", "Content-Type: text/xml")
    foreign = curl(f"{gateway.url}/north/wfs", *other, body="<a/>")
    country.show("a page of another origin", status_of(foreign), 403)


def edits(country: Country, gateway: Gateway) -> None:
    """A save, a file and a history are of one map alone."""
    gis, other = Gis(At(gateway, "north"), "of·north.points"), country.servers["south"]
    gis.rows()
    before = edits_at(other.url)
    told = gis.save(gis.update(1, name="New"), gis.insert(point(1.0, 1.0), name="Two"))
    tags = feature_at(country.servers["north"].url, 1)["tags"]
    country.show("a save", (told.split()[0], tags), ("SUCCESS", {"name": "New"}))
    country.show("the other map has no edit of it", edits_at(other.url), before)
    path = country.path("one.png")
    with open(path, "wb") as file:
        file.write(PNG)
    sent = ("--data-binary", f"@{path}", "-H", "Content-Type: image/png", "-X", "POST")
    kept = curl(f"{gateway.url}/north/files/", *sent)
    name = json.loads(kept[2])["path"] if status_of(kept) == 201 else "files/none"
    found = [status_of(curl(f"{gateway.url}/{one}/{name}")) for one in ("north", "south")]
    country.show("a photo of one is none of the other", (status_of(kept), found), (201, [200, 404]))
    country.show("no log of edits is kept here", status_of(curl(f"{gateway.url}/north/wfs/history/1")), 404)
    rested(country, gateway, gis)


def rested(country: Country, gateway: Gateway, gis: Gis) -> None:
    """After a while without a request a map gives up its memory, and what its GIS have saved is known yet."""
    time.sleep(3 * IDLE)
    country.show("after a rest the layer has the id that it has", gis.save(gis.update(1, name="Newer")), "SUCCESS")
    rows = gis.anew()
    country.show("and the map as it is", sorted(row["name"] for row in rows.values()), ["Newer", "Two"])


def comes_and_goes(country: Country, gateway: Gateway) -> None:
    """Maps are added and removed while it runs, and one has its own gateway."""
    country.add("east")
    country.show("a map that is added", country.layers(f"{gateway.url}/east"), ["of·east.points"])
    os.unlink(country.path("etc/vtserve/maps/east"))
    country.show("a map that is removed", status_of(curl(f"{gateway.url}/east/wfs")), 404)
    kept = country.path("kept/east/state")
    for _ in range(40):
        asked = [*VTMAP, "wfs", "--port", f"{free_port()}", "--url", country.servers["east"].url, "--state", kept]
        own = subprocess.Popen(asked, stdout=subprocess.PIPE, stderr=subprocess.PIPE, text=True)
        line = own.stdout.readline() if own.stdout else ""
        if line:
            break
        own.communicate()
        time.sleep(0.25)
    country.show("another gateway can have its files then", "the map has 1 features" in line, True)
    country.write("east")
    reply = curl(f"{gateway.url}/east/wfs?SERVICE=WFS&REQUEST=GetCapabilities")
    found = status_of(reply), b"another `vtmap wfs` uses" in reply[2]
    country.show("while it has them the map is 503", found, (503, True))
    own.terminate()
    own.communicate()
    country.show("and after that it is there again", country.layers(f"{gateway.url}/east"), ["of·east.points"])
    country.servers["south"].end()
    told = text_of(f"{gateway.url}/south/wfs?SERVICE=WFS&REQUEST=GetCapabilities")
    is_away, others = "the map's server: no reply" in told, country.layers(f"{gateway.url}/north")
    country.show("the server of one is away", (is_away, others), (True, ["of·north.points"]))
    status, lines = gateway.end()
    # On a busy machine it may also have rested, and be listed anew, before that.
    listed = dict.fromkeys(line.split(" features")[0] for line in lines if line.startswith("north: the map has"))
    country.show("it ends, and has listed the map that rested anew", (status, [*listed][:2]), (
        0, ["north: the map has 1", "north: the map has 2"]
    ))


def behind_nginx(country: Country) -> None:
    """nginx names the map in a field, whatever the path is by which a browser has asked."""
    program = shutil.which("nginx") or shutil.which("nginx", path="/usr/sbin")
    if not program:
        country.cases.say("no nginx: the gateway isn't behind it")
        return
    with Gateway(country.folder, "http://127.0.0.1:{port}", *country.words("--behind-nginx")) as gateway:
        place = country.path("front")
        os.mkdir(place)
        included = country.path("nginx-maps")
        changes = [("127.0.0.1:8093;", f"127.0.0.1:{gateway.port};"), ("127.0.0.1:8001", f"127.0.0.1:{free_port()}"),
                   ("include nginx-maps/", f"include {included}/")]
        os.mkdir(included)
        for name, text in files(country).items():
            with open(os.path.join(included, name), "w", encoding="utf-8") as file:
                file.write(text)
        with Nginx(program, place, country.servers["north"], changes) as front:
            north = ("-H", "Host: north.example.org")
            told = [curl(front.url + path + "?SERVICE=WFS&REQUEST=GetCapabilities", *more)[2].decode()
                    for path, more in (("/north/wfs", ()), ("/wfs", north))]
            country.show("behind nginx: by its path and by its name", [
                set(re.findall(r'Get xlink:href="([^"]*?)/[0-9a-f]{10}\?"', text)) for text in told
            ], [{f"{front.url}/north/wfs"}, {"http://north.example.org/wfs"}])
            asked = f"{front.url}/north/wfs?SERVICE=WFS&REQUEST=GetCapabilities"
            found = curl(asked, "-H", "X-Map: east")[2].decode()
            country.show("a client can't name another map", ("of·north" in found, "of·east" in found), (True, False))
            paths = ("/north/east/wfs", "/wfs", "/north/pages/schema.json")
            country.show("other paths", [status_of(curl(front.url + path)) for path in paths], [404, 502, 404])


def files(country: Country) -> dict[str, str]:
    """What `vtmap maps` writes for nginx, where all maps have one gateway."""
    maps: list[Any] = []
    for name in ("north", "east"):
        with open(country.path("etc/vtserve/maps", name), encoding="utf-8") as file:
            maps.append(map_of(name, file.read() + 'HOSTS="%s.example.org"\n' % name))
    return files_of(maps, True)
