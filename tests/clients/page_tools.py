"""The part `page-tools` of run.py: what the page offers beside tags and shapes, in a real Chromium through nginx with
docs/nginx.conf.

The map has parcels that share corners, and layers that style.json doesn't name. Pictures are kept in the folder that
PICTURES names, if it does.
"""
import http.server
import json
import os
import re
import shutil
import struct
import subprocess
import threading
import time
import zlib

from .browser import HIGH, WIDE, Browser
from .import_stand import world
from .pages import PAGE, PLACE, People
from .stand import SYSTEM_PYTHON, VTMAP, Cases, Nginx, Server, curl, feature, field, status_of

# Where the map is: longitude and latitude, and the same in the world. A side of a parcel is 120 pixels of zoom 17.
AT = (7.5, 54.5)
X, Y = (int(part) for part in world(*AT))
PIXEL = 2 ** 32 / 512 / 2 ** 17
SIDE = int(120 * PIXEL)
OPENED = f"#17/{AT[1]}/{AT[0]}"
# The colour of a pixel of the map.
COLOUR = """(() => {
    const [x, y] = %s, {data} = document.getElementById("map").getContext("2d").getImageData(Math.round(x), Math.round(y), 1, 1);
    return [...data].slice(0, 3);
})()"""

# Counts how often a page draws paths and texts, and copies what is drawn, on any canvas.
COUNT = """(() => {
    window.counted = {};
    for (const name of ["fill", "stroke", "fillText", "strokeText", "drawImage"]) {
        const own = CanvasRenderingContext2D.prototype[name];
        counted[name] = 0;
        CanvasRenderingContext2D.prototype[name] = function (...words) { counted[name]++; return own.apply(this, words); };
    }
})()"""


def parcel(column, row):
    """A ring around one of the parcels, each of which shares corners with its neighbours."""
    west, north = X + SIDE * column, Y + SIDE * row
    return [[west, north], [west + SIDE, north], [west + SIDE, north + SIDE], [west, north + SIDE]]


# The colour of the first layer that the style doesn't name.
with open(os.path.join(PAGE, "style.json"), encoding="utf-8") as _file:
    FIRST_COLOUR = json.load(_file)["rules"][-1]["colours"][0]
# The features of the map by their ids.
FEATURES = {
    1: ("parcel", {"polygons": [[parcel(-1, -1)]]}, {"name": "Smith", "use": "garden"}),
    2: ("parcel", {"polygons": [[parcel(0, -1)]]}, {"name": "Jones", "use": "meadow"}),
    3: ("parcel", {"polygons": [[parcel(-1, 0)]]}, {"name": "Miller", "built": 5000}),
    11: ("cable", {"lines": [[[X - 2 * SIDE, Y + SIDE // 2], [X + 2 * SIDE, Y + SIDE // 2]]]}, {"volts": 400}),
    12: ("valve", {"points": [[X + SIDE // 2, Y - SIDE // 2]]}, {"name": "Main valve"}),
    13: ("zone", {"polygons": [[parcel(0, -1)]]}, {"name": "Flood"}),
}
# One far away, at zooms 7 and 8 only.
FAR, FAR_AT = 21, [
    [int(part) for part in world(*place)] for place in [(8.9, 48.1), (9.1, 48.1), (9.1, 47.9), (8.9, 47.9)]
]
OTHERS = ["cable", "lake", "parcel", "valve", "zone"]


def numbers(colour):
    """Red, green and blue of `#a1b2c3`."""
    return [int(colour[at:at + 2], 16) for at in (1, 3, 5)]


def image(colour):
    """A PNG of 256 by 256 pixels of one colour."""
    def chunk(name, content):
        return struct.pack(">I", len(content)) + name + content + struct.pack(">I", zlib.crc32(name + content))
    rows = zlib.compress((b"\0" + bytes(colour) * 256) * 256)
    return (
        b"\x89PNG\r\n\x1a\n"
        + chunk(b"IHDR", struct.pack(">2I5B", 256, 256, 8, 2, 0, 0, 0))
        + chunk(b"IDAT", rows)
        + chunk(b"IEND", b"")
    )


class Images(http.server.BaseHTTPRequestHandler):
    """A server of images: the colour of a tile tells its zoom."""

    def do_GET(self):
        self.server.asked.append(self.path)
        self.send_response(200)
        self.send_header("Content-Type", "image/png")
        self.end_headers()
        self.wfile.write(image([int(self.path.split("/")[1]), 200, 90]))

    def log_message(self, *words):
        pass


class Tools(People):
    """A person with the page."""

    def pixel(self, x, y):
        """The colour of the map at a point of the world."""
        return self.one.value(COLOUR % (PLACE % (x, y)))

    def all(self, nginx):
        self.one = self.opened(OPENED)
        self.colours()
        self.search()
        self.snaps()
        self.moves_along()
        self.long_texts()
        self.drags()
        self.changed_tiles()
        self.unchanged_tiles(nginx)
        self.backdrop(nginx)
        told = [fault for fault in self.one.faults() if not fault.startswith("Failed to load resource")]
        self.show("the browser complains of nothing", told, [])

    def drags(self):
        """A drag of the map copies what is drawn, and draws no path and no text anew. Counts don't depend on how busy
        the machine is, as the time of a frame does."""
        made = self.opened(OPENED)
        made.value(COUNT)
        there, back = ((480, 400), (540, 440)), ((540, 440), (480, 400))
        # What comes into view is drawn once.
        for way in (there, back):
            made.drag(*way)
        time.sleep(1)
        first = made.value("({...counted})")
        for way in (there, back):
            made.drag(*way)
        time.sleep(1)
        second = made.value("({...counted})")
        grown = {name: second[name] - first[name] for name in second}
        self.show("a drag copies what is drawn", grown["drawImage"] > 4, True)
        self.show("and draws nothing anew", {**grown, "drawImage": 0}, dict.fromkeys(grown, 0))

    def colours(self):
        """Layers that the style doesn't name."""
        with open(os.path.join(PAGE, "style.json"), encoding="utf-8") as file:
            colours = json.load(file)["rules"][-1]["colours"]
        self.show("the style doesn't name them", len(colours) >= len(OTHERS), True)
        self.one.press("Layers")
        shown = self.one.value(
            "[...document.querySelectorAll('#legend label')].map(each => [each.innerText,"
            " each.querySelector('i').style.background])"
        )
        wanted = [[layer, f"rgb({', '.join(map(str, numbers(colour)))})"] for layer, colour in zip(OTHERS, colours)]
        self.show(
            "layers that the style doesn't name have a colour each",
            [[layer.strip(), colour] for layer, colour in shown],
            wanted,
        )
        self.keep(self.one, "page-colours.png")
        self.one.press("Layers")
        self.show("a line has that of its layer", self.pixel(X + SIDE, Y + SIDE // 2), numbers(colours[0]))
        self.show("a point too, above all areas", self.pixel(X + SIDE // 2, Y - SIDE // 2), numbers(colours[3]))
        project = os.path.join(self.folder, "map.qgs")
        subprocess.run([*VTMAP, "qgis", project, "--url", self.front.url], check=True, capture_output=True)
        with open(project, encoding="utf-8") as file:
            points = re.findall(
                r'layer="(\w+)"[^>]*geometry_type[^>]*Point.*?name="color" value="([\d,]+)"', file.read(), re.DOTALL
            )
        wanted = [(layer, ",".join(map(str, numbers(colour))) + ",255") for layer, colour in zip(OTHERS, colours)]
        self.show("the project for QGIS has the same", [pair for pair in points if pair[0] in OTHERS], wanted)
        drawn = self.one.value(
            """Promise.all([import("./maplibre.js"), import("./style.js"), fetch("style.json").then(reply => reply.json())])
            .then(([{maplibreStyle}, {Style}, given]) => {
                const style = new Style(given), layers = %s;
                style.know(layers);
                return maplibreStyle(style, layers.map(id => ({id, maxzoom: 16})), "tiles").layers.slice(1).map(layer => [layer["source-layer"], layer.type]);
            })"""
            % json.dumps(OTHERS[2:4])
        )
        wanted = [
            [layer, kind]
            for kinds in (["fill", "line"], ["line"], ["circle"])
            for layer in OTHERS[2:4]
            for kind in kinds
        ]
        self.show("MapLibre draws all areas of them below all lines, and these below all points", drawn, wanted)


    def find(self, text, made=None):
        """Searches, and gives the title of the panel, or what the foot says if no panel comes."""
        made = made or self.one
        made.value("document.getElementById('panel').hidden = true; document.getElementById('told').textContent = ''")
        made.type("#search input", text)
        made.press("Find")
        made.wait("!document.getElementById('panel').hidden || document.getElementById('told').textContent", 10)
        return (
            made.text("#panel h2") if not made.value("document.getElementById('panel').hidden") else made.text("#told")
        )

    def search(self):
        """By id everywhere, and by the texts of tags in view."""
        self.show("a text finds the one feature in view that has it", self.find("garden"), "parcel 1")
        self.show("with its tags", self.one.text("#panel table").split("\n"), ["name\tSmith", "use\tgarden"])
        before = self.one.value("location.hash")
        self.show(
            "in small letters too, and by the name of its tag",
            [self.find(text) for text in ("MILLER", "use=mea", "built=5000")],
            ["parcel 3", "parcel 2", "parcel 3"],
        )
        self.show("the map stays where it is", self.one.value("location.hash"), before)
        self.show("several are listed", self.find("m"), "4 found")
        rows = self.one.value("[...document.querySelectorAll('#panel .found')].map(row => row.innerText)")
        self.show(
            "with the tag that has the text",
            sorted(rows),
            ["parcel 1: Smith", "parcel 2: meadow", "parcel 3: Miller", "valve 12: Main valve"],
        )
        self.keep(self.one, "page-found.png")
        self.one.press("valve 12: Main valve")
        self.one.wait("document.querySelector('#panel h2').textContent === 'valve 12'")
        self.show("and a click shows one", self.one.text("#panel h2"), "valve 12")
        self.show("what nothing has", self.find("church"), 'nothing in view has "church"')
        self.show(
            "and what nothing has as its id", self.find("77"), 'nothing in view has "77", and no feature has this id'
        )
        self.show("an id is found wherever it is", self.find("21"), "lake 21")
        self.drawn(self.one)
        zoom, latitude, longitude = (float(part) for part in self.one.value("location.hash.slice(1)").split("/"))
        self.show(
            "and shown at a zoom that has it",
            (7 <= zoom < 9, abs(latitude - 48) < 0.5, abs(longitude - 9) < 0.5),
            (True, True, True),
        )
        self.show("on the map", self.pixel(*(int(part) for part in world(9, 48))) != [169, 207, 227], True)
        self.one.value(f"location.hash = '{OPENED}'")
        self.drawn(self.one)
        self.show(
            "a feature that the map shows is found by its id without moving it",
            (self.find("13"), self.one.value("location.hash")),
            ("zone 13", before),
        )
        self.one.press("Edit")
        self.one.wait("document.querySelector('#panel form')")
        self.one.type("#search input", "garden")
        self.one.press("Find")
        self.show(
            "while something is edited nothing is sought",
            self.one.wait("document.getElementById('told').textContent.startsWith('save')"),
            True,
        )
        self.one.press("Cancel")


    def at(self, x, y):
        """Where a point of the world is on the screen."""
        return self.one.value(PLACE % (x, y))

    def form(self, number, kind="parcel"):
        """Opens the form of a feature that is found by its id."""
        self.one.wait("document.getElementById('panel').hidden")
        self.show(f"{number} is found", self.find(str(number)), f"{kind} {number}")
        self.one.press("Edit")
        self.one.wait("document.querySelector('#panel form')")

    def moved(self, start, by, keys=0):
        """Drags from a point of the world by pixels."""
        x, y = self.at(*start)
        self.one.drag((x, y), (x + by[0], y + by[1]), keys)

    def ring(self, number):
        """The outer ring of a feature."""
        return self.get(number)["geometry"]["polygons"][0][0]

    def edited(self):
        """Saves, and gives what the page tells."""
        self.one.press("Save")
        return re.sub(r"\d+$", "K", self.saved(self.one))

    def snaps(self):
        """A corner that is dragged near a neighbour's becomes the same."""
        gap = int(30 * PIXEL)
        lone = [[X + gap, Y + gap], [X + SIDE, Y + gap], [X + SIDE, Y + SIDE], [X + gap, Y + SIDE]]
        curl(
            f"{self.server.url}/features/88",
            "-X",
            "PUT",
            body=feature("parcel", 14, 18, {"polygons": [[lone]]}, {"name": "Lone"}),
        )
        self.one = self.opened(OPENED)
        self.form(88)
        self.moved(lone[0], (-33, -25), keys=1)
        self.edited()
        free = self.ring(88)[0]
        self.show(
            "with Alt a corner doesn't snap",
            ([X, Y] != free, abs(free[0] - X) < 8 * PIXEL, abs(free[1] - Y) < 8 * PIXEL),
            (True, True, True),
        )
        self.form(88)
        self.moved(free, (5, -4))
        self.one.wait("performance.now() > 0")
        self.edited()
        self.show("a corner that is dragged near a neighbour's is exactly there", self.ring(88)[0], [X, Y])
        self.one.press("New line")
        (x, y), (east, south) = self.at(X - SIDE, Y - SIDE), self.at(X + SIDE, Y - SIDE)
        self.one.click(x + 4, y + 5)
        self.one.click(east + 6, south - 3, clicks=2)
        self.one.wait("document.querySelector('#panel form')")
        self.one.type("#panel form input[aria-label=layer]", "cable")
        self.edited()
        line = self.get(89)["geometry"]["lines"][0]
        self.show("so are the points of a new line", line, [[X - SIDE, Y - SIDE], [X + SIDE, Y - SIDE]])
        curl(f"{self.server.url}/edits", body=json.dumps({"changes": [{"delete": 88}, {"delete": 89}]}))

    def moves_along(self):
        """Corners that neighbours share move with the one that is dragged, in one edit, if that is asked for."""
        self.one = self.opened(OPENED)
        before = {number: self.ring(number) for number in (1, 2, 3, 13)}
        self.form(1)
        self.moved([X, Y], (-25, 15))
        self.edited()
        alone = self.ring(1)[2]
        self.show(
            "a corner moves alone",
            ([self.ring(number) for number in (2, 3, 13)], alone != [X, Y]),
            ([before[2], before[3], before[13]], True),
        )
        self.form(1)
        self.moved(alone, (25, -15))
        self.edited()
        self.show("and snaps back", self.ring(1)[2], [X, Y])
        edits = self.edits_and_features()[0]
        self.form(1)
        self.one.value("document.querySelector('#panel .along input').click()")
        self.moved([X, Y], (-40, 30))
        x, y = self.at(X, Y - SIDE / 2)
        self.keep(self.one, "page-along.png")
        self.one.press("Save")
        told = self.saved(self.one)
        corner = self.ring(1)[2]
        self.show("with the neighbours that share it, if asked", told, f"feature 1 saved with 3 more, edit {edits + 1}")
        self.show(
            "to the same place",
            ([self.ring(2)[3], self.ring(13)[3], self.ring(3)[1]], corner != [X, Y]),
            ([corner] * 3, True),
        )
        others = [before[2][:3], before[13][:3], [before[3][0], *before[3][2:]]]
        self.show(
            "and no other corner", [self.ring(2)[:3], self.ring(13)[:3], [self.ring(3)[0], *self.ring(3)[2:]]], others
        )
        self.drawn(self.one)
        self.form(1)
        self.one.value("document.querySelector('#panel .along input').click()")
        x, y = ((a + b) / 2 for a, b in zip(self.at(*corner), self.at(X, Y - SIDE)))
        self.one.drag((x, y), (x + 30, y))
        curl(f"{self.front.url}/features/2", "-X", "PUT", body=json.dumps({**self.get(2), "tags": {"name": "Brown"}}))
        told = self.refused(self.one, "Save")
        self.show(
            "a neighbour that somebody changes meanwhile",
            told,
            "somebody else has just changed feature 2, which moves along: save again",
        )
        self.show("of which nothing is saved", len(self.ring(1)), 4)
        self.edited()
        added = self.ring(1)[2]
        self.show(
            "gets the new corner of the shared edge when it is saved again",
            [len(self.ring(1)), self.ring(2)[4], self.ring(13)[4]],
            [5, added, added],
        )
        self.show("and keeps what was changed", self.get(2)["tags"], {"name": "Brown"})
        self.form(1)
        self.one.value("document.querySelector('#panel .along input').click()")
        self.one.click(*self.at(*added), button="right")
        self.edited()
        self.show(
            "a corner that is removed goes from both", [len(self.ring(number)) for number in (1, 2, 13)], [4, 4, 4]
        )
        self.form(1)
        self.one.value("document.querySelector('#panel .along input').click()")
        self.moved(corner, (40, -30))
        self.one.key("z", 90, modifiers=2)
        self.one.press("Cancel")


    def long_texts(self):
        """The form shows names and values whole, in as many lines as they need, and keeps the ends of lines."""
        tags = {
            "a_name_of_a_tag_that_some_program_wrote_in_full": "short",
            "note": "word " * 60 + "end",
            "lines": "one\ntwo\nthree",
            "number": 2**63,
        }
        curl(
            f"{self.server.url}/features/77",
            "-X",
            "PUT",
            body=feature("valve", 14, 18, {"points": [[X - SIDE, Y + SIDE]]}, tags),
        )
        self.one = self.opened(OPENED)
        for wide in (WIDE, 390):
            self.one.ask(
                "Emulation.setDeviceMetricsOverride", width=wide, height=HIGH, deviceScaleFactor=1, mobile=False
            )
            self.one.wait(f"innerWidth === {wide}")
            self.form(77, "valve")
            time.sleep(0.3)
            cut = """[...document.querySelectorAll('#panel .tags textarea')]
                .filter(each => each.scrollWidth > each.clientWidth || each.scrollHeight > each.clientHeight).map(each => each.value)"""
            self.show(f"{wide} pixels wide, the form cuts no name and no value", self.one.value(cut), [])
            self.keep(self.one, f"page-form-{wide}.png")
            self.one.type("#panel .tags tr:first-child [aria-label=value]", "shorter" if wide == WIDE else "x " * 100)
            self.show("nor what is typed", self.one.value(cut), [])
            self.edited()
        self.show("a text of several lines stays one", self.get(77)["tags"], {**tags, list(tags)[0]: "x " * 100})
        self.one.ask("Emulation.setDeviceMetricsOverride", width=WIDE, height=HIGH, deviceScaleFactor=1, mobile=False)
        curl(f"{self.server.url}/features/77", "-X", "DELETE")

    def tiles_asked(self, since):
        """The tiles that the page has asked for since a time of its own, each once, in order."""
        names = self.one.value(
            f"""[...new Set(performance.getEntriesByType("resource").filter(({{name, startTime}}) => startTime > {since})
            .map(({{name}}) => name.match(/map\\/(\\d+\\/\\d+\\/\\d+)\\.mvt/)?.[1]).filter(Boolean))]"""
        )
        return sorted(names)

    def changed_tiles(self):
        """After an edit the page asks only for tiles that it may have changed."""
        self.one = self.opened(OPENED)
        here = [
            [int(part) * 2**17 // 2**32 for part in place]
            for place in ((X + SIDE // 2, Y - SIDE // 2), (X - 3 * SIDE, Y - SIDE // 2))
        ]
        names = [f"17/{column}/{row}" for column, row in here]
        shown = self.tiles_asked(0)
        self.show(
            "several tiles are in view",
            (len([name for name in shown if name.startswith("17/")]) >= 4, set(names) <= set(shown)),
            (True, True),
        )
        # All tiles are asked for twice at first: those of a cache may be from before the last edit.
        time.sleep(14)
        since = self.one.value("performance.now()")
        self.form(12, "valve")
        self.write(self.one, "name", "Old valve")
        self.edited()
        time.sleep(14)
        self.show(
            "after an edit only the tile that has it is asked for, and once more when the cache is over",
            self.tiles_asked(since),
            names[:1],
        )
        since = self.one.value("performance.now()")
        point = self.get(12)
        body = json.dumps({**point, "geometry": {"points": [[X - 3 * SIDE, Y - SIDE // 2]]}})
        curl(f"{self.server.url}/features/12", "-X", "PUT", body=body)
        self.one.wait(
            f"document.getElementById('told').textContent.endsWith('edit {self.edits_and_features()[0]}')", 10
        )
        self.drawn(self.one)
        self.show("of what somebody else moves, the tiles before and after", self.tiles_asked(since), sorted(names))
        self.show("which show it", self.find("valve"), "valve 12")
        since = self.one.value("performance.now()")
        curl(f"{self.server.url}/features/12", "-X", "PUT", body=json.dumps(point))
        curl(f"{self.server.url}/publish", "-X", "POST")
        self.one.wait(
            f"document.getElementById('told').textContent.endsWith('edit {self.edits_and_features()[0]}')", 10
        )
        self.drawn(self.one)
        self.show(
            "a published edit is listed, and only the tiles that it changed are asked for",
            self.tiles_asked(since),
            sorted(names),
        )

    def unchanged_tiles(self, nginx):
        """Who may not edit asks each half minute whether the tags above the tiles in view have changed, and for the
        tiles only if one has."""
        folder = os.path.join(self.folder, "viewer")
        os.mkdir(folder)
        with Nginx(nginx, folder, self.server, [("allow 127.0.0.1;", "")]) as front:
            shutil.copytree(PAGE, os.path.join(front.folder, "pages"))
            made = self.browser.open(f"{front.url}/pages/{OPENED}")
            made.wait("document.getElementById('told').textContent")
            self.drawn(made)
            self.show(
                "who may not edit finds what is in view",
                [self.find(text, made) for text in ("1", "21")],
                ["parcel 1", 'nothing in view has "21"'],
            )
            asked = made.value(
                "performance.getEntriesByType('resource').filter(({name}) => name.includes('/features/')).length"
            )
            self.show("and isn't asked for a password", asked, 0)

            def replies():
                """The status of each reply for tiles in view, and for tags."""
                with open(os.path.join(front.folder, "access.log"), encoding="utf-8") as file:
                    rows = re.findall(r'"(GET|HEAD) /map/1[57]/\S+ HTTP/1.1" (\d+) ', file.read())
                return [[status for name, status in rows if name == method] for method in ("GET", "HEAD")]

            # The first look, whose tags aren't known yet, and the tiles once more when the cache is over.
            time.sleep(45)
            before, tags = replies()
            seen = (
                before.count("304") >= 4 or before,
                before.count("200") <= 3 or before,
                len(tags) in range(1, 5) or tags,
            )
            self.show("who may not edit is sent no tile twice that is as it was", seen, (True, True, True))
            time.sleep(20)
            tiles, again = replies()
            self.show(
                "and asks for none while no tag changes",
                (tiles[len(before) :], again[len(tags) :]),
                ([], ["304"] * len(tags)),
            )
            before = self.get(12)
            curl(
                f"{self.server.url}/features/12",
                "-X",
                "PUT",
                body=json.dumps({**before, "tags": {**before["tags"], "name": "Main valve"}}),
            )
            time.sleep(42)
            self.show("what somebody else changes is seen at the next look", self.find("main valve", made), "valve 12")
            curl(f"{self.server.url}/features/12", "-X", "PUT", body=json.dumps(before))

    def shot(self, made, x, y):
        """The colour of a pixel of the screen: a page mayn't read a map with images of others."""
        path = os.path.join(self.folder, "shot.png")
        made.picture(path)
        script = (
            "import sys; from PIL import Image;"
            " print(*Image.open(sys.argv[1]).convert('RGB').getpixel((int(sys.argv[2]), int(sys.argv[3]))))"
        )
        told = subprocess.run(
            [SYSTEM_PYTHON, "-c", script, path, str(round(x)), str(round(y))],
            capture_output=True,
            text=True,
            check=True,
        ).stdout
        return [int(part) for part in told.split()]

    def sees(self, made, x, y, colour):
        """Whether a pixel of the screen gets a colour within some seconds, or which it has."""
        end = time.monotonic() + 8
        while (found := self.shot(made, x, y)) != colour and time.monotonic() < end:
            time.sleep(0.3)
        return found == colour or found

    def backdrop(self, nginx):
        """Images of another server below the map, if style.json names one, and nginx.conf its host."""
        policy = field(curl(self.front.url + "/pages/"), "content-security-policy")
        self.show("nginx lets the page ask nobody else", re.findall(r"https?:", policy), [])
        with http.server.ThreadingHTTPServer(("127.0.0.1", 0), Images) as images:
            images.asked = []
            threading.Thread(target=images.serve_forever, daemon=True).start()
            host = f"http://127.0.0.1:{images.server_port}"
            for name, changes in (("closed", []), ("backed", [('set $backdrop "";', f'set $backdrop " {host}";')])):
                folder = os.path.join(self.folder, name)
                os.mkdir(folder)
                with Nginx(nginx, folder, self.server, changes) as front:
                    shutil.copytree(PAGE, os.path.join(front.folder, "pages"))
                    path = os.path.join(front.folder, "pages", "style.json")
                    with open(path, encoding="utf-8") as file:
                        style = json.load(file)
                    style["backdrop"] = {
                        "tiles": host + "/{z}/{x}/{y}.png",
                        "maxzoom": 17,
                        "credit": "Images by somebody",
                    }
                    with open(path, "w", encoding="utf-8") as file:
                        json.dump(style, file)
                    made = self.browser.open(f"{front.url}/pages/{OPENED}")
                    made.wait("document.getElementById('told').textContent")
                    self.drawn(made)
                    time.sleep(1)
                    (self.backed if changes else self.closed)(made, images)
            images.shutdown()

    def closed(self, made, images):
        self.show("without its host in nginx.conf the browser doesn't ask for a backdrop", images.asked, [])
        self.show("and the map is there", self.sees(made, WIDE / 2 + 180, HIGH / 2 + 60, numbers(FIRST_COLOUR)), True)

    def backed(self, made, images):
        below, line = (WIDE / 2 + 180, HIGH / 2 + 180), (WIDE / 2 + 180, HIGH / 2 + 60)
        self.show("images lie below the map, those of the last zoom", self.sees(made, *below, [17, 200, 90]), True)
        self.show("and the map above them", self.sees(made, *line, numbers(FIRST_COLOUR)), True)
        self.show("and no more of them than the screen needs", len(images.asked) <= 20 or images.asked, True)
        self.show("with whose they are", made.text("#credit"), "Images by somebody")
        self.keep(made, "page-backdrop.png")
        made.value("location.hash = location.hash.replace('#17.00', '#15.2')")
        self.show("other zooms have others", self.sees(made, *below, [16, 200, 90]), True)
        made.press("Layers")
        made.value("[...document.querySelectorAll('#legend label')].at(-1).click()")
        self.show("and they can be hidden", self.sees(made, *below, [169, 207, 227]), True)


def page_tools(cases: Cases, folder: str) -> None:
    nginx = shutil.which("nginx") or "/usr/sbin/nginx"
    if not shutil.which("chromium") or not os.path.exists(nginx):
        cases.say("no chromium or no nginx: the tools of the page aren't tried")
        return
    folder = os.path.join(folder, "page-tools")
    os.mkdir(folder)
    with Server(folder, "parcels", sectors=16384, more=["--admin", "--etags"]) as server, Nginx(
        nginx, folder, server
    ) as front:
        shutil.copytree(PAGE, os.path.join(front.folder, "pages"))
        for number, (layer, geometry, tags) in FEATURES.items():
            reply = curl(f"{server.url}/features/{number}", "-X", "PUT", body=feature(layer, 14, 18, geometry, tags))
            assert status_of(reply) == 200, reply
        curl(f"{server.url}/features/{FAR}", "-X", "PUT", body=feature("lake", 7, 8, {"polygons": [[FAR_AT]]}, {}))
        with Browser(os.path.join(folder, "profile"), WIDE, HIGH) as browser:
            Tools(cases, browser, server, front, folder).all(nginx)
