"""The part `wmts` of run.py: pictures of the map by `vtmap wmts`, read by hand, by GDAL's driver of WMTS, and behind
nginx.

Colours are those of web/style.json, and places and exceptions those of OGC 07-057r7 (WMTS 1.0.0).
"""
import os
import re
import shutil
import signal
import struct
import subprocess
import time
import xml.etree.ElementTree as tree
import zlib

from .stand import SYSTEM_PYTHON, TOP, VTMAP, Cases, Nginx, Server, curl, feature, field, free_port, status_of

PNG, CAPABILITIES, TILE = (
    "image/png",
    "/wmts/1.0.0/WMTSCapabilities.xml",
    "/wmts/1.0.0/map/default/GoogleMapsCompatible",
)
NAMES = {"": "{http://www.opengis.net/wmts/1.0}", "ows": "{http://www.opengis.net/ows/1.1}"}
BACKGROUND, LAND, POINT = (0xa9, 0xcf, 0xe3), (0xf3, 0xef, 0xe2), (0xb0, 0x3a, 0x2e)
KVP = {"SERVICE": "WMTS", "REQUEST": "GetTile", "VERSION": "1.0.0", "LAYER": "map", "STYLE": "default", "FORMAT": PNG,
       "TILEMATRIXSET": "GoogleMapsCompatible", "TILEMATRIX": "1", "TILEROW": "0", "TILECOL": "1"}
# By GDAL: the colours in the middle of each quarter of the world.
READ = """
import sys
from osgeo import gdal
gdal.UseExceptions()
data = gdal.Open(sys.argv[1])
half = data.RasterXSize // 2
for x, y in ((0, 0), (half, 0), (0, half), (half, half)):
    print(*[data.GetRasterBand(band).ReadAsArray(x, y, half, half, 8, 8)[4][4] for band in (1, 2, 3)])
print(data.GetGeoTransform()[0], data.RasterXSize)
"""
# By QGIS: whether the layer is one, and the colours in the middle of each quarter of the world.
QGIS = """
import os, sys
os.environ["QT_QPA_PLATFORM"] = "offscreen"
from qgis.core import *
from qgis.PyQt.QtCore import QSize
app = QgsApplication([], False, os.path.join(sys.argv[1], "profile"))
app.initQgis()
layer = QgsRasterLayer(sys.argv[2], "map", "wms")
print(layer.isValid(), layer.crs().authid())
settings = QgsMapSettings()
settings.setLayers([layer])
settings.setDestinationCrs(layer.crs())
settings.setExtent(QgsRectangle(-2e7, -2e7, 2e7, 2e7))
settings.setOutputSize(QSize(512, 512))
job = QgsMapRendererParallelJob(settings)
job.start()
job.waitForFinished()
image = job.renderedImage()
for x, y in ((128, 128), (384, 128), (128, 384), (384, 384)):
    colour = image.pixelColor(x, y)
    print(colour.red(), colour.green(), colour.blue())
sys.stdout.flush()
os._exit(0)
"""
OF_WMTS = f"crs=EPSG:3857&dpiMode=7&format={PNG}&layers=map&styles=default&tileMatrixSet=GoogleMapsCompatible&url="


class Drawer:
    """A process of `vtmap wmts`."""

    def __init__(self, folder, url, *more, port=None, under=()):
        self.port = port or free_port()
        self.url = f"http://127.0.0.1:{self.port}"
        self.log = open(os.path.join(folder, "drawer.log"), "ab")
        words = [*under, *VTMAP, "wmts", "--port", str(self.port), "--url", url, *more]
        self.child = subprocess.Popen(words, stdout=subprocess.PIPE, stderr=self.log, text=True)
        self.told = self.child.stdout.readline().rstrip()

    def __enter__(self):
        return self

    def __exit__(self, *fault):
        if self.child.poll() is None:
            self.child.send_signal(signal.SIGTERM)
            self.child.wait(60)
        self.child.stdout.close()
        self.log.close()


def pixels(data):
    """The rows of pixels of a PNG file of 8 bits a channel."""
    at, parts, head = 8, b"", None
    while at < len(data):
        length, kind = struct.unpack(">I4s", data[at:at + 8])
        content = data[at + 8:at + 8 + length]
        head = content if kind == b"IHDR" else head
        parts += content if kind == b"IDAT" else b""
        at += 12 + length
    wide, high, _, kind = struct.unpack(">IIBB", head[:10])
    step = {2: 3, 6: 4}[kind]
    lines, before, rows = zlib.decompress(parts), bytearray(wide * step), []
    for row in range(high):
        start = row * (wide * step + 1)
        before = unfiltered(lines[start], lines[start + 1:start + 1 + wide * step], before, step)
        rows.append([tuple(before[place:place + step]) for place in range(0, wide * step, step)])
    return rows


def unfiltered(kind, line, before, step):
    """A line of a PNG file, by its filter."""
    made = bytearray()
    for at, value in enumerate(line):
        left, up, corner = (made[at - step], before[at], before[at - step]) if at >= step else (0, before[at], 0)
        near = min((left, up, corner), key=lambda one: abs(left + up - corner - one))
        made.append((value + (0, left, up, (left + up) // 2, near)[kind]) % 256)
    return made


def has_cairo(cases):
    """Whether some interpreter draws."""
    for path in dict.fromkeys([VTMAP[0], SYSTEM_PYTHON]):
        if (
            os.path.exists(path)
            and subprocess.run([path, "-c", "import cairo"], capture_output=True, check=False).returncode == 0
        ):
            return True
    cases.say("no python3-cairo: nothing is drawn")
    return False


def quarter():
    """A polygon over the north-east quarter of the world."""
    ring = [[2 ** 31, 2 ** 20], [2 ** 32 - 2 ** 20, 2 ** 20], [2 ** 32 - 2 ** 20, 2 ** 31], [2 ** 31, 2 ** 31]]
    return feature("land", 0, 2, {"polygons": [[ring]]})


def wmts(cases: Cases, folder: str) -> None:
    """All of it."""
    if not has_cairo(cases):
        return
    folder = os.path.join(folder, "wmts")
    os.mkdir(folder)
    with Server(folder, "map", more=("--admin", "--etags")) as server:
        put = curl(f"{server.url}/features/1", "-X", "PUT", body=quarter())
        cases.show("wmts: the quarter is put", status_of(put), 200)
        style = os.path.join(folder, "style.json")
        shutil.copy(os.path.join(TOP, "web", "style.json"), style)
        with Drawer(folder, server.url, "--style", style, "--title", "A <map> & more") as drawer:
            pictures(cases, drawer.url)
            documents(cases, drawer.url)
            exceptions(cases, drawer.url)
            doors(cases, drawer.url)
            by_gdal(cases, drawer.url)
            anew(cases, drawer.url, server.url, style)
        behind_nginx(cases, folder, server)
        without_a_server(cases, folder)


def colour(url, x=128, y=128):
    """The colour of a pixel of a picture, its status and its kind."""
    reply = curl(url)
    return pixels(reply[2])[y][x] if status_of(reply) == 200 and field(reply, "content-type") == PNG else reply


def pictures(cases, url):
    """Where the quarter is in pictures of several zooms, and where it isn't."""
    for path, wanted in (
        ("0/0/0", BACKGROUND),
        ("1/1/0", LAND),
        ("1/0/0", BACKGROUND),
        ("1/1/1", BACKGROUND),
        ("2/3/0", LAND),
        ("3/7/3", LAND),
        ("3/7/4", BACKGROUND),
        ("12/2048/2047", LAND),
        ("12/2047/2047", BACKGROUND),
    ):
        cases.show(
            f"wmts: /xyz/{path}.png", colour(f"{url}/xyz/{path}.png", 200 if path == "0/0/0" else 128, 200), wanted
        )
    cases.show(
        "wmts: the world in one picture",
        [colour(f"{url}/xyz/0/0/0.png", x, y) for x, y in ((192, 64), (64, 64), (64, 192), (192, 192))],
        [LAND, BACKGROUND, BACKGROUND, BACKGROUND],
    )
    sizes = [len(pixels(curl(f"{url}/xyz/2/3/0{more}.png")[2])) for more in ("", "@2x")]
    cases.show("wmts: pixels of a side", sizes, [256, 512])
    path = f"{url}{TILE}/1/0/1.png"
    cases.show(
        "wmts: WMTS has a row before a column", (colour(path), colour(f"{url}{TILE}/1/1/0.png")), (LAND, BACKGROUND)
    )
    seen = [
        colour(path.replace("default", "transparent")),
        colour(f"{url}{TILE}/1/1/0.png".replace("default", "transparent")),
    ]
    cases.show("wmts: without the background", seen, [(*LAND, 255), (0, 0, 0, 0)])
    query = "&".join(f"{name.lower()}={value}" for name, value in KVP.items())
    cases.show("wmts: by a query, whose names may be small", curl(f"{url}/wmts?{query}")[2] == curl(path)[2], True)


def documents(cases, url):
    """The capabilities, by their path and by a query."""
    reply = curl(url + CAPABILITIES)
    cases.show(
        "wmts: both ways of its capabilities",
        (field(reply, "content-type"), reply[2] == curl(f"{url}/wmts?service=WMTS&request=GetCapabilities")[2]),
        ("text/xml; charset=utf-8", True),
    )
    top = tree.fromstring(reply[2])
    cases.show(
        "wmts: it is of version 1.0.0, and a name is a text",
        (top.get("version"), top.findtext("*/ows:Title", namespaces={"ows": NAMES["ows"][1:-1]})),
        ("1.0.0", "A <map> & more"),
    )
    matrices = list(top.iter(NAMES[""] + "TileMatrix"))
    scales = [float(one.findtext(NAMES[""] + "ScaleDenominator")) for one in matrices]
    # Annex E.4 of the standard.
    wanted = [559082264.0287178, 279541132.0143589, 139770566.0071794]
    cases.show(
        "wmts: scales as those of GoogleMapsCompatible",
        (len(scales), max(abs(one / other - 1) for one, other in zip(scales, wanted)) < 1e-9),
        (23, True),
    )
    cases.show(
        "wmts: and the corner of all",
        {one.findtext(NAMES[""] + "TopLeftCorner") for one in matrices},
        {"-20037508.342789244 20037508.342789244"},
    )
    cases.show(
        "wmts: where tiles are",
        next(top.iter(NAMES[""] + "ResourceURL")).get("template"),
        f"{url}/wmts/1.0.0/map/{{Style}}/{{TileMatrixSet}}/{{TileMatrix}}/{{TileRow}}/{{TileCol}}.png",
    )


def exceptions(cases, url):
    """What is refused, by the codes of the standard."""
    for change, status, code, place in (
        ({"SERVICE": None}, 400, "MissingParameterValue", "service"),
        ({"REQUEST": None}, 400, "MissingParameterValue", "request"),
        ({"LAYER": None}, 400, "MissingParameterValue", "Layer"),
        ({"TILEROW": None}, 400, "MissingParameterValue", "TileRow"),
        ({"SERVICE": "WMS"}, 400, "InvalidParameterValue", "service"),
        ({"REQUEST": "GetMap"}, 400, "InvalidParameterValue", "request"),
        ({"REQUEST": "GetFeatureInfo"}, 501, "OperationNotSupported", "GetFeatureInfo"),
        ({"REQUEST": "GetCapabilities", "ACCEPTVERSIONS": "2.0.0"}, 400, "VersionNegotiationFailed", "acceptversions"),
        ({"VERSION": "1.1.0"}, 400, "InvalidParameterValue", "version"),
        ({"LAYER": "%3Cscript%3E"}, 400, "InvalidParameterValue", "Layer"),
        ({"STYLE": "x"}, 400, "InvalidParameterValue", "Style"),
        ({"FORMAT": "image/jpeg"}, 400, "InvalidParameterValue", "Format"),
        ({"TILEMATRIXSET": "x"}, 400, "InvalidParameterValue", "TileMatrixSet"),
        ({"TILEMATRIX": "23"}, 400, "InvalidParameterValue", "TileMatrix"),
        ({"TILEMATRIX": "-1"}, 400, "InvalidParameterValue", "TileMatrix"),
        ({"TILEMATRIX": "9" * 3000}, 400, "InvalidParameterValue", "TileMatrix"),
        ({"TILEROW": "2"}, 400, "TileOutOfRange", "TileRow"),
        ({"TILECOL": "2"}, 400, "TileOutOfRange", "TileCol"),
        ({"TILECOL": "1.5"}, 400, "InvalidParameterValue", "TileCol"),
        ({"TILECOL": "%D9%A1"}, 400, "InvalidParameterValue", "TileCol"),
        ({"layer": "x"}, 400, "InvalidParameterValue", "layer"),
    ):
        words = {**KVP, **change}
        query = "&".join(f"{name}={value}" for name, value in words.items() if value is not None)
        cases.show(f"wmts: {change}"[:80], told(f"{url}/wmts?{query}"), (status, code, place))
    for path, wanted in (
        (f"{TILE}/1/2/0.png", (400, "TileOutOfRange", "TileRow")),
        (f"{TILE}/x/0/0.png", (400, "InvalidParameterValue", "TileMatrix")),
        (f"{TILE.replace('map', 'x')}/0/0/0.png", (400, "InvalidParameterValue", "Layer")),
    ):
        cases.show(f"wmts: {path}", told(url + path), wanted)
    for path in (
        "/wmts/1.0.0",
        "/wmts/x",
        f"{TILE}/0/0/0.jpg",
        "/xyz/1/2/0.png",
        "/xyz/23/0/0.png",
        "/xyz/01/0/0.png",
        "/xyz/1/0/0.svg",
        "/xyz/../etc",
        "/",
    ):
        cases.show(f"wmts: {path}: nothing is there", status_of(curl(url + path, "--path-as-is")), 404)
    cases.show("wmts: too long an address", status_of(curl(f"{url}/wmts?a={'a' * 70000}")), 414)
    cases.show(
        "wmts: too many parts of a query",
        told(f"{url}/wmts?" + "&".join(f"a{at}=" for at in range(200)))[:2],
        (400, "InvalidParameterValue"),
    )


def told(url):
    """The status, the code and the place of a report."""
    reply = curl(url)
    text = reply[2].decode()
    found = re.search(r'exceptionCode="(\w+)" locator="(\w*)"', text)
    return (status_of(reply), *(found.groups() if found else (text,)))


def doors(cases, url):
    """Methods, hosts and origins."""
    path = url + "/xyz/1/1/0.png"
    cases.show(
        "wmts: nothing is posted",
        [status_of(curl(path, "-X", method)) for method in ("POST", "PUT", "DELETE")],
        [405] * 3,
    )
    cases.show(
        "wmts: a change that a page of another origin asks for",
        status_of(curl(path, "-X", "POST", "-H", "Origin: http://other.example")),
        403,
    )
    cases.show("wmts: another host", status_of(curl(path, "-H", "Host: other.example")), 421)
    reply = curl(path, "-H", "Origin: http://other.example")
    kept = [field(reply, name) for name in ("access-control-allow-origin", "x-content-type-options", "cache-control")]
    cases.show(
        "wmts: pages of other origins show pictures", (status_of(reply), *kept), (200, "*", "nosniff", "max-age=10")
    )
    cases.show("wmts: only the head of a picture", (status_of(curl(path, "-I")), curl(path, "-I")[2]), (200, b""))


def by_gdal(cases, url):
    """GDAL's driver of WMTS, by both addresses of the capabilities."""
    if (
        not os.path.exists(SYSTEM_PYTHON)
        or subprocess.run([SYSTEM_PYTHON, "-c", "import osgeo.gdal_array"], capture_output=True, check=False).returncode
    ):
        cases.say("no python3-gdal: GDAL doesn't read WMTS")
        return
    wanted = [" ".join(map(str, one)) for one in (BACKGROUND, LAND, BACKGROUND, BACKGROUND)] + [
        "-20037508.342789244 1073741824"
    ]
    for address in (url + CAPABILITIES, url + "/wmts?SERVICE=WMTS&REQUEST=GetCapabilities"):
        words = {
            **os.environ,
            "GDAL_DEFAULT_WMS_CACHE_PATH": os.path.join(os.environ.get("TMPDIR", "/tmp"), f"wms-{os.getpid()}"),
        }
        child = subprocess.run(
            [SYSTEM_PYTHON, "-c", READ, "WMTS:" + address],
            capture_output=True,
            text=True,
            env=words,
            check=False,
            timeout=120,
        )
        shutil.rmtree(words["GDAL_DEFAULT_WMS_CACHE_PATH"], ignore_errors=True)
        cases.show(
            f"wmts: GDAL reads {address.partition('/wmts')[2]}", child.stdout.splitlines() or child.stderr, wanted
        )


def by_qgis(cases: Cases, folder: str) -> None:
    """QGIS's layers of WMTS and of tiles: the part `wmts-qgis`."""
    if subprocess.run(
        [SYSTEM_PYTHON, "-c", "import qgis.core"], capture_output=True, check=False
    ).returncode or not has_cairo(cases):
        cases.say("no python3-qgis, or no python3-cairo: QGIS reads no pictures")
        return
    folder = os.path.join(folder, "wmts-qgis")
    os.mkdir(folder)
    wanted = ["True EPSG:3857", *(" ".join(map(str, one)) for one in (BACKGROUND, LAND, BACKGROUND, BACKGROUND))]
    with Server(folder, "map", more=("--admin", "--etags")) as server, Drawer(folder, server.url) as drawer:
        curl(f"{server.url}/features/1", "-X", "PUT", body=quarter())
        for name, source in (
            ("WMTS by paths", OF_WMTS + drawer.url + CAPABILITIES),
            ("WMTS by queries", OF_WMTS + drawer.url + "/wmts?SERVICE%3DWMTS%26REQUEST%3DGetCapabilities"),
            ("tiles", f"type=xyz&zmin=0&zmax=22&url={drawer.url}/xyz/%7Bz%7D/%7Bx%7D/%7By%7D.png"),
            (
                "sharp tiles",
                f"type=xyz&zmin=0&zmax=22&tilePixelRatio=2&url={drawer.url}/xyz/%7Bz%7D/%7Bx%7D/%7By%7D@2x.png",
            ),
        ):
            child = subprocess.run(
                [SYSTEM_PYTHON, "-c", QGIS, folder, source], capture_output=True, text=True, check=False, timeout=120
            )
            cases.show(f"wmts: QGIS draws {name}", child.stdout.splitlines() or child.stderr, wanted)


def anew(cases, url, server, style):
    """A picture is sent again once it is another one: after an edit of its tile, and after a change of the style."""
    path = url + "/xyz/2/1/1.png"
    tag = field(curl(path), "etag")
    same = curl(path, "-H", f"If-None-Match: {tag}")
    cases.show("wmts: a picture that a client has", (status_of(same), field(same, "etag"), same[2]), (304, tag, b""))
    curl(
        f"{server}/features/2",
        "-X",
        "PUT",
        body=feature("land", 0, 2, {"polygons": [[[[0, 0], [2**31, 0], [2**31, 2**31], [0, 2**31]]]]}),
    )
    again = curl(path, "-H", f"If-None-Match: {tag}")
    cases.show(
        "wmts: after an edit",
        (status_of(again), field(again, "etag") != tag, pixels(again[2])[128][128]),
        (200, True, LAND),
    )
    with open(style, encoding="utf-8") as file:
        text = file.read()
    replaced(style, text.replace("#f3efe2", "#123456"))
    cases.show("wmts: after a change of the style", colour(path), (0x12, 0x34, 0x56))
    replaced(style, "{")
    cases.show("wmts: a style that can't be read changes nothing", colour(path), (0x12, 0x34, 0x56))
    replaced(style, text)
    cases.show("wmts: as before", colour(path), LAND)


def replaced(path, text):
    """Puts another file in the place of one."""
    with open(path + ".new", "w", encoding="utf-8") as file:
        file.write(text)
    os.rename(path + ".new", path)


def behind_nginx(cases, folder, server):
    """Everybody reads pictures, and the cache has them."""
    nginx = shutil.which("nginx", path=os.environ.get("PATH", "") + ":/usr/sbin")
    if not nginx:
        cases.say("no nginx: pictures aren't tried behind it")
        return
    with Drawer(folder, server.url, "--behind-nginx") as drawer, Nginx(
        nginx, folder, server, [("127.0.0.1:8091", f"127.0.0.1:{drawer.port}")]
    ) as front:
        away = ["--interface", "127.0.0.2"]
        path = front.url + "/xyz/1/1/0.png"
        seen = [curl(one, *away) for one in (path, path + "?x=1", front.url + TILE + "/1/0/1.png")]
        cases.show(
            "nginx: pictures are for everybody, and cached by their paths",
            [(status_of(one), field(one, "x-cache")) for one in seen],
            [(200, "MISS"), (200, "HIT"), (200, "MISS")],
        )
        cases.show(
            "nginx: for so long",
            [value for name, value in seen[1][1] if name.lower() == "cache-control"],
            ["max-age=10"],
        )
        same = curl(path, *away, "-H", f"If-None-Match: {field(seen[0], 'etag')}")
        cases.show("nginx: which a client has", status_of(same), 304)
        cases.show(
            "nginx: a query of WMTS isn't cached",
            field(curl(f"{front.url}/wmts?" + "&".join(f"{a}={b}" for a, b in KVP.items())), "x-cache"),
            None,
        )
        document = curl(front.url + CAPABILITIES, *away)
        cases.show(
            "nginx: the capabilities name its address",
            (status_of(document), f'"{front.url}/wmts?"' in document[2].decode()),
            (200, True),
        )
        cases.show(
            "nginx: a refusal isn't cached",
            [field(curl(front.url + TILE + "/1/2/0.png"), "x-cache") for _ in (1, 2)],
            ["MISS", "MISS"],
        )
        cases.show(
            "nginx: nothing is posted there",
            status_of(curl(path, "-X", "POST", "-H", "Origin: http://other.example")),
            403,
        )
    shutil.rmtree(front.folder)


def without_a_server(cases: Cases, folder: str) -> None:
    """A map that doesn't answer, and what it isn't started with."""
    with Drawer(folder, f"http://127.0.0.1:{free_port()}") as drawer:
        cases.show("wmts: the capabilities need no server", status_of(curl(drawer.url + CAPABILITIES)), 200)
        cases.show(
            "wmts: pictures do",
            (status_of(curl(drawer.url + "/xyz/0/0/0.png")), told(drawer.url + TILE + "/0/0/0.png")[:2]),
            (502, (502, "NoApplicableCode")),
        )
        began = time.monotonic()
        drawer.child.send_signal(signal.SIGTERM)
        cases.show("wmts: it ends at SIGTERM", (drawer.child.wait(20), time.monotonic() - began < 10), (0, True))
    path = os.path.join(folder, "none.json")
    for text, said in (
        (None, "No such file"),
        ("{", "can't be read"),
        ('{"background":"url(x)","rules":[]}', "is no colour"),
    ):
        if text:
            replaced(path, text)
        child = subprocess.run(
            [*VTMAP, "wmts", "--port", str(free_port()), "--style", path],
            capture_output=True,
            text=True,
            timeout=60,
            check=False,
        )
        cases.show(f"wmts: a style that is {text}", (child.returncode, said in child.stderr or child.stderr), (1, True))
