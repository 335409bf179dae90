"""The part `page` of run.py: a real Chromium with the page of web/, by mouse and keyboard, through nginx with
docs/nginx.conf.

Two people edit one feature, a new feature's id is taken by somebody else, saves are refused and replies are lost,
the server is away when somebody saves or opens the page, a large feature is one, a telephone shows the page, a
machine that may not edit sees the map, and people log in. Pictures are kept in the folder that PICTURES names, if it
does.
"""
import json
import os
import re
import shutil
import subprocess
import sys
import time

from .browser import HIGH, WIDE, Browser
from .downloads import downloads
from .import_stand import world
from .maplibre import draw_truth, maplibre
from .screens import Share, water_differs
from .stand import EXAMPLES, SYSTEM_PYTHON, TOP, VTMAP, Cases, Nginx, Server, curl, feature, field, status_of

PAGE = os.path.join(TOP, "web")
WORLD = 2 ** 32
# Where a point of the world is on the screen of a page.
PLACE = """(() => {
    const [zoom, latitude, longitude] = location.hash.slice(1).split("/").map(Number), scale = 512 * 2 ** zoom / 2 ** 32;
    const x = (longitude + 180) / 360 * 2 ** 32, y = (0.5 - Math.asinh(Math.tan(latitude * Math.PI / 180)) / (2 * Math.PI)) * 2 ** 32;
    return [(%s - x) * scale + innerWidth / 2, (%s - y) * scale + innerHeight / 2];
})()"""
# The pixels of a square of the screen that have the colour of a point in the style.
RED = """(() => {
    const canvas = document.getElementById("map"), {data} = canvas.getContext("2d").getImageData(%d, %d, 8, 8);
    return [...data.keys()].filter(at => at %% 4 === 0 && data[at] === 0xb0 && data[at + 1] === 0x3a && data[at + 2] === 0x2e).length;
})()"""
# Of the POSTs of a page one is made, and neither it nor anything else gets a reply for a while; or some pass, and then
# nginx answers so many, since the server doesn't run.
WHILE = 0.5
LOSE = """(() => { const asked = window.fetch; let lost = null; window.fetch = async (url, words) => {
    const reply = await asked(url, words);
    if (words?.method === "POST") { lost ??= performance.now(); }
    if (lost !== null && performance.now() - lost < %d) { throw new TypeError("lost"); }
    return reply; }; })()""" % (1000 * WHILE)
REFUSE = """(() => { const asked = window.fetch; let passed = %d, left = %d; window.fetch = async (url, words) =>
    words?.method === "POST" && passed-- <= 0 && left-- > 0 ? new Response("", {status: 502}) : asked(url, words); })()"""
LAYER = "document.querySelector('#panel form input[aria-label=layer]').value"
AWAY = "the server doesn't run, or starts just now: try again, and if that doesn't help tell the administrator (502)"
UNKNOWN = "the server doesn't answer: the edit may be made or not. Save again: it isn't made twice"
# Ids of pieces after the first one, and a place without other features.
PIECE, SEA = 2**40, (54.6, 7.6)
HIDE = (
    "document.head.append(Object.assign(document.createElement('style'), {textContent: 'nav, details, aside, footer {"
    " visibility: hidden }'}))"
)


def page(cases: Cases, folder: str) -> None:
    nginx = shutil.which("nginx") or "/usr/sbin/nginx"
    if not shutil.which("chromium") or not os.path.exists(nginx):
        cases.say("no chromium or no nginx: the page isn't tried")
        return
    if subprocess.run([SYSTEM_PYTHON, "-c", "import osgeo, PIL"], capture_output=True).returncode != 0:
        cases.say("no GDAL or no Pillow in the system's Python: the page isn't tried")
        return
    folder = os.path.join(folder, "page")
    os.mkdir(folder)
    with Server(folder, "town", sectors=16384, more=["--admin"]) as server, Nginx(nginx, folder, server) as front:
        shutil.copytree(PAGE, os.path.join(front.folder, "pages"))
        told = town(folder, front.url)
        cases.show(
            "page: the import says where to look",
            re.findall(r"look at it: (\S+/pages/#)[0-9.]+/54.50\d+/7.50\d+", told),
            [f"{front.url}/pages/#"],
        )
        maplibre(cases, folder, front)
        door = [
            (status_of(reply), field(reply, "location"))
            for reply in (curl(front.url + path) for path in ("/", "/pages"))
        ]
        cases.show("page: the address alone leads to it", door, [(302, "/pages/")] * 2)
        with Browser(os.path.join(folder, "profile"), WIDE, HIGH) as browser:
            People(cases, browser, server, front, folder).all(nginx)
        cases.show("page: nginx has nothing in its log of errors but the server that was away", unexpected(front), [])
    downloads(cases, folder, nginx)


def town(folder, url):
    """The town of the README, imported."""
    path = os.path.join(folder, "town.geojson")
    with open(path, "wb") as file:
        subprocess.run([sys.executable, os.path.join(EXAMPLES, "town.py")], stdout=file, check=True)
    words = ["--layer-field", "layer", "--minzoom", "10", "--maxzoom", "16", "--first", "101", "--url", url]
    return subprocess.run([*VTMAP, "import", path, *words], capture_output=True, text=True).stdout


def unexpected(front):
    """The lines of nginx's log of errors that aren't about a server that doesn't run, or an address that may not
    edit."""
    known = ["Connection refused", "access forbidden", "prematurely closed", "Connection reset by peer"]
    return [line for line in front.errors() if not any(word in line for word in known)]


class People:
    """Two people with a page each."""

    def __init__(self, cases, browser, server, front, folder):
        self.cases, self.browser, self.server, self.front, self.folder = cases, browser, server, front, folder
        self.one = self.two = None

    def show(self, name, found, wanted):
        self.cases.show(f"page: {name}", found, wanted)

    def get(self, number):
        """A feature of the map, or None."""
        reply = curl(f"{self.front.url}/features/{number}")
        return json.loads(reply[2]) if status_of(reply) == 200 else None

    def opened(self, place):
        """A page that has drawn its tiles."""
        made = self.browser.open(f"{self.front.url}/pages/{place}")
        made.wait("document.getElementById('told').textContent")
        self.drawn(made)
        return made

    def drawn(self, made):
        """Waits until a page has no tile left to ask for and has drawn."""
        last = -1
        for _ in range(100):
            count = made.value("performance.getEntriesByType('resource').length")
            if count == last:
                return
            last = count
            time.sleep(0.4)

    def place(self, made, number):
        """Where the first point of a feature is on the screen."""
        points = self.get(number)["geometry"]["points"]
        return made.value(PLACE % tuple(points[0]))

    def keep(self, made, name):
        """Keeps a picture of the screen, if pictures are kept, in few colours."""
        kept = os.environ.get("PICTURES")
        if kept:
            path = os.path.join(kept, name)
            made.picture(path)
            script = (
                "import sys; from PIL import Image; Image.open(sys.argv[1]).convert('RGB').quantize(128,"
                " dither=0).save(sys.argv[1], optimize=True)"
            )
            subprocess.run([SYSTEM_PYTHON, "-c", script, path], check=True)

    def edit(self, made, number):
        """Opens the form of a point. A click at the same place as before selects what lies below, so it may take
        more than one."""
        place = self.place(made, number)
        for _ in range(5):
            made.click(*place)
            if (made.text("#panel h2") or "").endswith(f" {number}"):
                break
        made.press("Edit")
        made.wait("document.querySelector('#panel form')")

    def write(self, made, name, value):
        """Writes the last tag of the form."""
        made.type("#panel form tbody tr:last-child [aria-label=tag]", name)
        made.type("#panel form tbody tr:last-child [aria-label=value]", value)

    def refused(self, made, name):
        """Presses a button, and gives what the panel says then of why that failed."""
        made.press(name)
        made.wait("document.querySelector('#panel p.fault')", 30)
        return made.text("#panel p.fault")

    def edits_and_features(self):
        """How many edits were made, and how many features there are."""
        status = json.loads(curl(f"{self.server.url}/admin/status")[2])
        return status["edits"], status["features"]

    def saved(self, made):
        """What the page tells once it has saved."""
        made.wait("document.getElementById('panel').hidden")
        return made.text("#told")

    def all(self, nginx):
        self.looks()
        self.edits()
        self.conflict()
        self.new_feature()
        self.deletion()
        self.lost_reply()
        self.late_look()
        self.refused_conflict()
        self.refused_return()
        self.made_once()
        self.deleted_before_the_reply()
        self.taken_id()
        self.large_feature()
        self.many_pieces()
        self.deleted_pieces()
        self.lonely_piece()
        self.telephone()
        self.view_only(nginx)
        self.elsewhere(nginx)
        self.passwords(nginx)
        self.away()
        self.faults()

    def looks(self):
        self.one = self.opened("#14/54.5/7.5")
        self.show("an editor may edit", self.one.value("document.getElementById('adding').hidden"), False)
        self.one.value(HIDE)
        time.sleep(0.3)
        truth, drawn = os.path.join(self.folder, "truth.png"), os.path.join(self.folder, "drawn.png")
        self.one.picture(drawn)
        draw_truth(self.server.url, truth)
        self.show(
            "it draws land where the reader of examples does, but for 2 % of the pixels",
            water_differs(truth, drawn),
            Share(0.02),
        )
        self.one = self.opened("#14.2/54.5/7.504")
        self.one.press("Layers")
        (ring,), = self.get(119)["geometry"]["polygons"]
        self.one.click(*self.one.value(PLACE % tuple(sum(part) / len(ring) for part in zip(*ring))))
        self.show(
            "a click in an area selects it", self.one.text("#panel").split("\n")[:2], ["park 119", "name\tMeadow"]
        )
        time.sleep(0.3)
        self.keep(self.one, "town-page.png")
        self.one.press("Layers")
        self.one.value("location.hash = '#16/54.5/7.5'")
        self.drawn(self.one)
        self.one.click(*self.place(self.one, 451))
        self.show("a click shows the tags", self.one.text("#panel").split("\n")[:2], ["place 451", "name\tTown Hall"])
        self.one.press("Layers")
        self.show(
            "the legend has the layers of people",
            self.one.text("#legend").split(),
            ["Layers", "building", "land", "park", "place", "road"],
        )
        self.one.press("Layers")

    def edits(self):
        self.two = self.opened("#16/54.5/7.5")
        for made in (self.one, self.two):
            self.edit(made, 451)
        x, y = self.place(self.one, 451)
        self.write(self.one, "name", "Old Town Hall")
        self.one.drag((x, y), (x - 60, y - 40), keys=1)
        before = self.get(451)
        self.one.press("Save")
        self.show("an edit is saved", re.sub(r"\d+$", "K", self.saved(self.one)), "feature 451 saved, edit K")
        after = self.get(451)
        self.show("with its tags", after["tags"], {"name": "Old Town Hall"})
        moved = [
            round((b - a) * 512 * 2**16 / WORLD)
            for a, b in zip(before["geometry"]["points"][0], after["geometry"]["points"][0])
        ]
        self.show("and its shape", moved, [-60, -40])
        seen = self.one.wait(RED % (x - 64, y - 44) + " > 30", 3)
        self.show("its author sees it within three seconds, past the cache of nginx", seen, True)

    def conflict(self):
        self.two.wait("document.getElementById('told').className === 'fault'", 10)
        self.show(
            "the other one reads of it at once",
            self.two.text("#told"),
            "somebody else has just changed what you edit: when you save, you see both",
        )
        self.write(self.two, "name", "Rathaus")
        self.two.press("Add a tag")
        self.write(self.two, "floors", "3")
        self.two.press("Save")
        self.two.wait("document.querySelector('#panel .differs')")
        self.show("nothing is overwritten", self.get(451)["tags"], {"name": "Old Town Hall"})
        rows = [row.split("\t") for row in self.two.text("#panel table").split("\n")]
        wanted = [
            ["shape", "1 point", "1 point", "1 point"],
            ["tag name", "Town Hall", "Old Town Hall", "Rathaus"],
            ["tag floors", "–", "–", "3"],
        ]
        self.show("both versions are side by side", [[cell.strip() for cell in row] for row in rows[-3:]], wanted)
        self.keep(self.two, "page-conflict.png")
        self.two.press("Save what is chosen")
        self.two.wait("document.querySelector('#panel p.fault')")
        self.show("what both changed has to be chosen", self.two.text("#panel p.fault"), "choose a value of tag name")
        self.two.value("document.querySelectorAll('#panel input[name=\"tag name\"]')[1].click()")
        self.two.press("Save what is chosen")
        self.saved(self.two)
        self.show("the rest has what either changed", self.get(451)["tags"], {"floors": "3", "name": "Rathaus"})
        x, y = self.place(self.one, 451)
        self.show("the shape is the other's", self.one.wait(RED % (x - 4, y - 4) + " > 30", 8), True)

    def new_feature(self):
        self.one.press("New area")
        for place in [(300, 300), (400, 300), (400, 380)]:
            self.one.click(*place)
        self.one.click(300, 380, clicks=2)
        self.one.wait("document.querySelector('#panel form')")
        self.show("a new area is of the first layer of which areas are drawn", self.one.value(LAYER), "building")
        self.one.type("#panel form input[aria-label=layer]", "plan")
        self.write(self.one, "name", "New Square")
        free = 456
        # Between the page's question for a free id and its edit somebody takes it: every POST waits until that is done.
        self.one.value("""(() => { const asked = window.fetch; let first = true; window.fetch = async (url, words) => {
            if (first && words?.method === "POST") { first = false; await asked("../features/%d", {method: "PUT", body: %s}); }
            return asked(url, words); }; })()""" % (free, json.dumps(feature("place", tags={"name": "first"}))))
        self.one.press("Save")
        told = self.saved(self.one)
        self.show(
            "a new feature whose id is taken meanwhile gets another",
            re.sub(r"\d+$", "K", told),
            f"feature {free + 1} saved, edit K",
        )
        self.show("the other one has its id", self.get(free)["tags"], {"name": "first"})
        made = self.get(free + 1)
        self.show(
            "and it is as it was drawn",
            (made["layer"], made["tags"], len(made["geometry"]["polygons"][0][0])),
            ("plan", {"name": "New Square"}, 4),
        )

    def deletion(self):
        self.one.wait("performance.now() > 0")
        self.drawn(self.one)
        self.one.click(350, 360)
        self.show("it is seen at once", self.one.text("#panel h2"), "plan 457")
        self.one.press("Delete")
        self.one.wait("document.querySelector('#panel h2').textContent.endsWith('?')")
        curl(
            f"{self.front.url}/features/457", "-X", "PUT", body=json.dumps({**self.get(457), "tags": {"name": "Kept"}})
        )
        self.one.press("Delete it")
        self.one.wait("document.querySelector('#panel h2').textContent.startsWith('Changed')")
        self.show("what somebody else has changed isn't deleted", self.get(457)["tags"], {"name": "Kept"})
        self.one.press("Delete it all the same")
        self.saved(self.one)
        self.show("but by a second word", self.get(457), None)

    def lost_reply(self):
        """An edit whose reply doesn't arrive."""
        self.edit(self.one, 453)
        self.write(self.one, "name", "Old School")
        self.one.value("""(() => { const asked = window.fetch; let first = true; window.fetch = async (url, words) => {
            const reply = await asked(url, words);
            if (first && words?.method === "POST") { first = false; throw new TypeError("lost"); }
            return reply; }; })()""")
        before = json.loads(curl(f"{self.server.url}/admin/status")[2])["edits"]
        self.one.press("Save")
        told = self.saved(self.one)
        after = json.loads(curl(f"{self.server.url}/admin/status")[2])["edits"]
        self.show("an edit whose reply was lost is found on the map", told, f"feature 453 saved, edit {before + 1}")
        self.show("and made once", (after - before, self.get(453)["tags"]), (1, {"name": "Old School"}))

    def deleted_before_the_reply(self):
        """A new feature whose reply is lost, and which somebody else deletes before the page has asked: it isn't
        made again."""
        edits, features = self.edits_and_features()
        free = json.loads(curl(f"{self.server.url}/admin/status")[2])["last"] + 1
        self.drawn_point("Gone")
        self.one.value("""(() => { const asked = window.fetch; let first = true; window.fetch = async (url, words) => {
            const reply = await asked(url, words);
            if (first && words?.method === "POST") {
                first = false;
                await asked(new URL("../features/%d", location.href), {method: "DELETE"});
                throw new TypeError("lost");
            }
            return reply; }; })()""" % free)
        self.one.press("Save")
        told = self.saved(self.one)
        self.show(
            "a new feature that somebody deletes before its reply isn't made again",
            (told, self.edits_and_features(), self.get(free)),
            (f"feature {free} saved, edit {edits + 1}", (edits + 2, features), None),
        )

    def late_look(self):
        """The page looks for edits of others while its own has no reply yet, and learns what the feature is now
        after that."""
        self.edit(self.one, 453)
        self.write(self.one, "name", "Older School")
        self.one.value(
            """(() => { const asked = window.fetch; let hasLooked; const looked = new Promise(done => hasLooked = done);
            const passed = seconds => new Promise(done => setTimeout(done, 1000 * seconds)); let isMade = false;
            window.fetch = async (url, words) => {
                const reply = await asked(url, words);
                if (words?.method === "POST") { isMade = true; await Promise.race([looked, passed(12)]); }
                else if (isMade && String(url).endsWith("features/453")) { hasLooked(); await passed(1); }
                return reply; }; })()""")
        before = json.loads(curl(f"{self.server.url}/admin/status")[2])["edits"]
        self.one.press("Save")
        self.saved(self.one)
        time.sleep(2)
        self.show(
            "the page's own edit isn't taken for somebody else's",
            self.one.text("#told"),
            f"feature 453 saved, edit {before + 1}",
        )

    def refused_conflict(self):
        """What two people chose of a feature is refused, first by the server, then since it doesn't run."""
        self.one.value("location.hash = '#16/54.5/7.5'")
        self.drawn(self.one)
        self.edit(self.one, 452)
        before = self.get(452)
        self.one.type("#panel form input[aria-label='first zoom']", "15")
        curl(f"{self.front.url}/features/452", "-X", "PUT", body=json.dumps({**before, "maxzoom": 14}))
        self.one.press("Save")
        self.one.wait("document.querySelector('#panel .differs')")
        # The author's first zoom with the other's last one.
        told = [self.refused(self.one, "Save what is chosen") for _ in range(2)]
        self.one.value(REFUSE % (0, 1))
        told.append(self.refused(self.one, "Save what is chosen"))
        zooms = "zooms go from 0 to 19, the first at most the last (E4 Zoom)"
        self.show("what is chosen of two versions, refused three times", told, [zooms, zooms, AWAY])
        self.keep(self.one, "page-refused.png")
        self.one.value("document.querySelectorAll('#panel input[name=\"last zoom\"]')[1].click()")
        self.one.press("Save what is chosen")
        self.saved(self.one)
        self.show("is saved the fourth time", self.get(452), {**before, "minzoom": 15})

    def refused_return(self):
        """A feature that somebody else has deleted is put back, which is refused, and then somebody else puts one
        there."""
        self.edit(self.one, 452)
        before = self.get(452)
        self.write(self.one, "name", "Mine")
        curl(f"{self.front.url}/features/452", "-X", "DELETE")
        self.one.press("Save")
        self.one.wait("document.querySelector('#panel h2').textContent.startsWith('Changed')")
        self.one.value(REFUSE % (0, 1))
        told = self.refused(self.one, "Put mine back")
        theirs = {**before, "tags": {"name": "Theirs"}}
        curl(f"{self.front.url}/features/452", "-X", "PUT", body=json.dumps(theirs))
        self.one.press("Put mine back")
        self.one.wait("document.querySelector('#panel .differs')")
        self.show(
            "what is put back replaces nothing that its author hasn't seen", (told, self.get(452)), (AWAY, theirs)
        )
        self.one.value("document.querySelectorAll('#panel input[name=\"tag name\"]')[1].click()")
        self.one.press("Save what is chosen")
        self.saved(self.one)
        self.show("until it is chosen", self.get(452), {**before, "tags": {"name": "Mine"}})

    def drawn_point(self, name):
        """Draws a new point."""
        self.one.press("New point")
        self.one.click(420, 420)
        self.one.wait("document.querySelector('#panel form')")
        self.show(
            f"{name}, a new point, is of the first layer of which points are drawn", self.one.value(LAYER), "place"
        )
        self.one.type("#panel form input[aria-label=layer]", "plan")
        self.write(self.one, "name", name)

    def made_once(self):
        """New features whose edit gets no reply: one is saved again as it is, one after another change."""
        for names in (["Well", "Well"], ["Pump", "Old Pump"]):
            edits, features = self.edits_and_features()
            free = json.loads(curl(f"{self.server.url}/admin/status")[2])["last"] + 1
            self.drawn_point(names[0])
            self.one.value(LOSE)
            told = self.refused(self.one, "Save")
            time.sleep(WHILE)
            self.write(self.one, "name", names[1])
            self.one.press("Save")
            edits += len(set(names))
            self.show(
                f"a new feature without replies, {' then '.join(names)}",
                (told, self.saved(self.one)),
                (UNKNOWN, f"feature {free} saved, edit {edits}"),
            )
            self.show(
                "is there once",
                (self.edits_and_features(), self.get(free)["tags"]),
                ((edits, features + 1), {"name": names[1]}),
            )

    def taken_id(self):
        """The id of a new feature is taken by somebody else while the server is away for its author."""
        free = json.loads(curl(f"{self.server.url}/admin/status")[2])["last"] + 1
        self.drawn_point("Bench")
        self.one.value(REFUSE % (0, 1))
        told = self.refused(self.one, "Save")
        curl(f"{self.front.url}/features/{free}", "-X", "PUT", body=feature("place", tags={"name": "first"}))
        self.one.press("Save")
        self.saved(self.one)
        found = [self.get(number)["tags"] for number in (free, free + 1)]
        self.show(
            "a new feature whose id is taken while its save is refused gets another",
            (told, found),
            (AWAY, [{"name": "first"}, {"name": "Bench"}]),
        )

    def cut(self, whole, places, tags):
        """Puts pieces of a large feature, squares of ten pixels at zoom 16 in the sea, in rows of 14; their ids are
        as `--id` makes them."""
        x, y = (int(part) for part in world(SEA[1], SEA[0]))
        rows = []
        for at in places:
            west, north = x + 1280 * (at % 14 - 7), y + 1280 * (at // 14 - 5)
            ring = [[west, north], [west + 1280, north], [west + 1280, north + 1280], [west, north + 1280]]
            made = json.loads(feature("cut", 14, 16, {"polygons": [[ring]]}, {**tags, "whole": whole}))
            rows.append({"put": whole + PIECE * at, "feature": made})
        for at in range(0, len(rows), 20):
            reply = curl(f"{self.server.url}/edits", body=json.dumps({"changes": rows[at:at + 20]}))
            assert status_of(reply) == 200, reply

    def names(self, whole, places):
        """The names of pieces, None for those that aren't there; once if all have the same."""
        pieces = [self.get(whole + PIECE * at) for at in places]
        found = [piece and piece["tags"].get("name") for piece in pieces]
        return found[:1] if len(set(found)) == 1 else found

    def sea(self, place, button):
        """A page at the place without other features, with the piece there selected and a button pressed."""
        made = self.opened(f"#16/{SEA[0]}/{SEA[1]}")
        made.click(WIDE / 2 + 10 * (place % 14 - 7) + 5, HIGH / 2 + 10 * (place // 14 - 5) + 5)
        made.press(button)
        return made

    def many_pieces(self):
        """A large feature that several edits change: the second one is refused, then replies are lost, then its
        author changes more."""
        self.cut(600, range(140), {"name": "Cut", "note": "Ж" * 300})
        made = self.sea(75, "Edit")
        made.wait("document.querySelector('#panel form')")
        named = "#panel form tbody tr:first-child [aria-label=value]"
        told = []
        for name, words in [("One", REFUSE % (1, 1)), ("One", LOSE)]:
            made.type(named, name)
            made.value(words)
            told.append(self.refused(made, "Save"))
        time.sleep(WHILE)
        self.show(
            "many pieces, of which a part is saved",
            (told, sorted(set(self.names(600, range(140))))),
            ([AWAY, UNKNOWN], ["Cut", "One"]),
        )
        made.type(named, "Two")
        made.press("Save")
        self.saved(made)
        self.show("are all saved by a further change", self.names(600, range(140)), ["Two"])

    def deleted_pieces(self):
        """The deletion of a large feature is interrupted twice, and ended in another page. Then one that somebody
        else deletes is put back."""
        _, features = self.edits_and_features()
        made = self.sea(75, "Delete")
        made.wait("document.querySelector('#panel h2').textContent.endsWith('?')")
        told = []
        for _ in range(2):
            made.value(REFUSE % (1, 1))
            told.append(self.refused(made, "Delete it"))
        self.show(
            "a deletion that is interrupted twice leaves the first pieces",
            (told, self.names(600, range(11)), self.names(600, [139])),
            ([AWAY] * 2, ["Two"], [None]),
        )
        made = self.sea(5, "Delete")
        made.press("Delete it")
        self.saved(made)
        self.show(
            "which another page deletes",
            (self.names(600, range(140)), self.edits_and_features()[1]),
            ([None], features - 140),
        )
        self.cut(600, range(20), {"name": "Cut"})
        made = self.sea(5, "Edit")
        made.wait("document.querySelector('#panel form')")
        made.type("#panel form tbody tr:first-child [aria-label=value]", "Back")
        before = [self.get(600 + PIECE * at) for at in range(20)]
        curl(
            f"{self.server.url}/edits", body=json.dumps({"changes": [{"delete": 600 + PIECE * at} for at in range(20)]})
        )
        made.press("Save")
        made.press("Put mine back")
        self.saved(made)
        wanted = [{**piece, "tags": {"name": "Back", "whole": 600}} for piece in before]
        self.show(
            "a large feature that somebody else has deleted is put back",
            [self.get(600 + PIECE * at) for at in range(20)],
            wanted,
        )

    def lonely_piece(self):
        """A piece whose first piece somebody has deleted."""
        self.cut(700, [133], {"name": "Left"})
        made = self.sea(133, "Edit")
        made.wait("document.querySelector('#panel form')")
        made.type("#panel form tbody tr:first-child [aria-label=value]", "Alone")
        made.press("Save")
        self.saved(made)
        self.show("a piece without the first one is a feature of its own", self.names(700, [133]), ["Alone"])

    def telephone(self):
        """A narrow screen that is touched, and a feature with a long text."""
        x, y = (int(part) for part in world(SEA[1], SEA[0] - 0.02))
        ring = [[x, y], [x + 9000, y], [x + 9000, y + 9000], [x, y + 9000]]
        body = feature("cut", 14, 16, {"polygons": [[ring]]}, {"name": "Sign", "note": "word " * 200})
        curl(f"{self.front.url}/features/800", "-X", "PUT", body=body)
        made = self.opened(f"#16/{SEA[0] - 0.02}/{SEA[1]}")
        made.ask("Emulation.setDeviceMetricsOverride", width=390, height=760, deviceScaleFactor=1, mobile=True)
        made.ask("Emulation.setTouchEmulationEnabled", enabled=True, maxTouchPoints=2)
        made.wait("innerWidth === 390")
        self.drawn(made)
        made.click(*made.value(PLACE % (x + 4500, y + 4500)))
        made.wait("document.querySelector('#panel th')")
        heads = made.value(
            "[...document.querySelectorAll('#panel th')].map(head => [head.innerText, head.scrollWidth > 60])"
        )
        self.show("names of tags are readable beside a long text", heads, [["name", True], ["note", True]])
        edges = (
            "[document.querySelector('nav').getBoundingClientRect().bottom,"
            " document.getElementById('panel').getBoundingClientRect().top]"
        )
        made.press("Edit")
        made.wait("document.querySelector('#panel form')")
        nav, panel = made.value(edges)
        left, top = made.value(PLACE % (x + 4500, y + 4500))
        self.show(
            "on a narrow screen the feature that is edited is between buttons and panel",
            (0 < left < 390, nav < top < panel),
            (True, True),
        )
        made.press("Cancel")
        zoom = made.value("Number(location.hash.slice(1).split('/')[0])")
        begin, end = [(left - 50, top), (left + 50, top)], [(left - 70, top + 20), (left + 130, top + 20)]
        self.touch(made, [("touchStart", begin), ("touchMove", end), ("touchEnd", [])])
        now = made.value(PLACE % (x + 4500, y + 4500))
        self.show(
            "two fingers twice as far apart zoom in by one",
            round(made.value("Number(location.hash.slice(1).split('/')[0])") - zoom, 1),
            1,
        )
        self.show("and the place between them goes with them", [round(now[0] - left), round(now[1] - top)], [30, 20])
        before = made.value("location.hash")
        self.touch(
            made,
            [("touchStart", [(200, 300)]), ("touchMove", [(230, 340)]), ("touchMove", [(260, 380)]), ("touchEnd", [])],
        )
        self.show("then one finger moves the map again", made.value("location.hash") != before, True)
        self.show("and touches select nothing meanwhile", made.value("document.getElementById('panel').hidden"), True)

    def touch(self, made, steps):
        """Touches the screen: of each step what happens, and where the fingers are then."""
        for kind, fingers in steps:
            made.ask(
                "Input.dispatchTouchEvent",
                type=kind,
                touchPoints=[{"x": left, "y": top, "id": at} for at, (left, top) in enumerate(fingers)],
            )

    def large_feature(self):
        self.one.value("location.hash = '#15/54.5/7.5'")
        self.drawn(self.one)
        self.edit_land()
        self.write(self.one, "name", "Nordwerth Island")
        self.one.press("Add a tag")
        self.write(self.one, "area", "9007199254740993")
        self.one.value(
            "(() => { const kind = document.querySelector('#panel form tbody tr:last-child select'); kind.value ="
            " 'number'; kind.onchange(); })()"
        )
        self.one.press("Save")
        self.saved(self.one)
        tags = [self.get(number)["tags"] for number in range(101, 118)]
        wanted = {"area": 9007199254740993, "name": "Nordwerth Island", "whole": 101}
        self.show("all pieces of a large feature are changed, and no number is rounded", tags, [wanted] * 17)
        self.edit_land()
        self.one.type("#panel form tbody tr:first-child [aria-label=value]", "8")
        curl(
            f"{self.front.url}/features/105",
            "-X",
            "PUT",
            body=json.dumps({**self.get(105), "tags": {**wanted, "name": "by others"}}),
        )
        self.one.press("Save")
        self.one.wait("document.querySelector('#panel .differs')")
        row = [row.split("\t") for row in self.one.text("#panel table").split("\n") if row.startswith("tag name")]
        self.show(
            "what somebody else changed of one piece is a conflict",
            [[cell.strip() for cell in cells] for cells in row],
            [["tag name", "Nordwerth Island", "by others", "Nordwerth Island"]],
        )
        self.show(
            "and nothing is changed", [self.get(number)["tags"]["area"] for number in (101, 117)], [wanted["area"]] * 2
        )
        self.one.press("Save what is chosen")
        self.saved(self.one)
        tags = [self.get(number)["tags"] for number in range(101, 118)]
        self.show("until it is chosen", tags, [{"area": 8, "name": "by others", "whole": 101}] * 17)

    def edit_land(self):
        """Opens the form of the land, which the import has cut."""
        for _ in range(5):
            self.one.click(300, 500)
            if self.one.text("#panel h2") == "land 101":
                break
        self.one.press("Edit")
        self.one.wait("document.querySelector('#panel form')")

    def away(self):
        self.one.value("location.hash = '#16/54.5/7.5'")
        self.drawn(self.one)
        self.edit(self.one, 452)
        self.write(self.one, "name", "St Mary")
        self.server.end()
        self.one.press("Save")
        self.one.wait("document.querySelector('#panel p.fault')", 70)
        self.show("while the server is away, it says so", self.one.text("#panel p.fault"), AWAY)
        away = "document.getElementById('told').textContent.startsWith('the server doesn\\'t answer (502)')"
        self.show("and at its foot", self.one.wait(away, 10), True)
        late = self.browser.open(f"{self.front.url}/pages/#16/54.5/7.5")
        late.wait(away, 10)
        self.show(
            "a page that is opened meanwhile says so too",
            late.text("#told"),
            "the server doesn't answer (502): the page asks again",
        )
        with Server(self.folder, "town", port=self.server.port, more=["--admin"]):
            self.show("and lets edit once it is back", late.wait("!document.getElementById('adding').hidden", 15), True)
            self.show(
                "as it says",
                bool(
                    late.wait("/^[0-9]+ features, edit [0-9]+$/.test(document.getElementById('told').textContent)", 5)
                ),
                True,
            )
            self.one.press("Save")
            self.saved(self.one)
            self.show("and what was typed is saved when it is back", self.get(452)["tags"], {"name": "St Mary"})

    def view_only(self, nginx):
        """A machine that nginx doesn't let edit."""
        folder = os.path.join(self.folder, "others")
        os.mkdir(folder)
        with Nginx(nginx, folder, self.server, [("allow 127.0.0.1;", "")]) as front:
            shutil.copytree(PAGE, os.path.join(front.folder, "pages"))
            made = self.browser.open(f"{front.url}/pages/#16/54.5/7.5")
            made.wait("document.getElementById('told').textContent")
            self.drawn(made)
            self.show(
                "a machine that may not edit reads why",
                made.text("#told"),
                "view only: this machine may not edit the map",
            )
            made.click(*self.place(made, 453))
            self.show(
                "and sees tags, without buttons to edit",
                made.text("#panel").split("\n"),
                ["place 453", "name\tOlder School", "Close"],
            )

    def passwords(self, nginx):
        """A machine that may edit with a password only: the browser asks for it only after a click on the button."""
        if not shutil.which("openssl"):
            self.cases.say("no openssl: nobody logs in")
            return
        folder = os.path.join(self.folder, "passwords")
        os.mkdir(folder)
        people = os.path.join(folder, "people")
        hidden = subprocess.run(
            ["openssl", "passwd", "-apr1", "secret"], capture_output=True, text=True, check=True
        ).stdout
        with open(people, "w", encoding="utf-8") as file:
            file.write("ann:" + hidden)
        os.chmod(people, 0o644)
        block = [
            ("# satisfy any;", "satisfy any;"),
            ("# auth_basic", "auth_basic"),
            ("/etc/vtserve/people", people),
            ("allow 127.0.0.1;", ""),
        ]
        with Nginx(nginx, folder, self.server, block) as front:
            shutil.copytree(PAGE, os.path.join(front.folder, "pages"))
            made = self.browser.open(f"{front.url}/pages/#16/54.5/7.5")
            made.wait("document.getElementById('told').textContent", 8)
            self.show(
                "with passwords, who only looks is asked for none",
                made.text("#told"),
                "view only: log in to edit the map",
            )
            self.drawn(made)
            made.click(*self.place(made, 453))
            self.show(
                "and sees tags, without buttons to edit",
                made.text("#panel").split("\n"),
                ["place 453", "name\tOlder School", "Close"],
            )
            # Here the browser learns the password, as from its dialog.
            self.browser.open(front.url.replace("//", "//ann:secret@") + "/admin/status")
            made.press("Log in")
            self.show("who logs in may edit", made.wait("!document.getElementById('adding').hidden", 8), True)
            self.edit(made, 453)
            self.write(made, "name", "Oldest School")
            made.press("Save")
            self.saved(made)
            self.show("and saves", self.get(453)["tags"], {"name": "Oldest School"})

    def elsewhere(self, nginx):
        """An editor whose address isn't among those that nginx keeps tiles of each edit for, as one with a password
        from elsewhere."""
        folder = os.path.join(self.folder, "elsewhere")
        os.mkdir(folder)
        with Nginx(nginx, folder, self.server, [("127.0.0.1 1;", "")]) as front:
            shutil.copytree(PAGE, os.path.join(front.folder, "pages"))
            made = self.browser.open(f"{front.url}/pages/#16/54.5/7.5")
            made.wait("document.getElementById('told').textContent")
            self.drawn(made)
            self.edit(made, 453)
            x, y = self.place(made, 453)
            made.drag((x, y), (x - 60, y - 40), keys=1)
            made.press("Save")
            self.saved(made)
            self.show(
                "whose tiles nginx keeps sees his edit when its time is over",
                made.wait(RED % (x - 64, y - 44) + " > 30", 25),
                True,
            )

    def faults(self):
        """What the browser complained of, but for refusals that it should get."""
        told = [
            fault
            for made in (self.one, self.two)
            for fault in made.faults()
            if not fault.startswith("Failed to load resource")
        ]
        self.show("the browser complains of nothing", told, [])
