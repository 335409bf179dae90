"""The part `page-hands` of run.py: the page for hands and eyes, in a real Chromium through nginx with docs/nginx.conf.

All that the mouse does is done by keys alone, and what a screen reader reads is looked at in Chromium's
accessibility tree. In each state of the page texts have the contrast of WCAG 2.2 AA (1.4.3), fields too (1.4.11),
and controls the size (2.5.8; 44 pixels on a telephone). A telephone edits by touch, and shows where it is. The
page's language is the browser's, and what is saved unchanged makes no edit. Pictures are kept in the folder that
PICTURES names, if it does.
"""
import json
import os
import re
import shutil
import time

from .browser import CONTROL, HIGH, SHIFT, WIDE, Browser
from .page_tools import FEATURES, OPENED, PIXEL, SIDE, Tools, X, Y
from .pages import PAGE
from .stand import Cases, Nginx, Server, curl, feature, status_of

# What of the page's own texts a person reads or hears: texts, and names of controls.
HEARD = """(() => {
    const shown = [...document.querySelectorAll("body *")].filter(each => each.checkVisibility());
    return shown.flatMap(each => [each.ariaLabel, each.title, each.placeholder, ...[...each.childNodes].filter(node => node.nodeType === 3)
        .map(node => node.data.trim())]).filter(Boolean);
})()"""


# The name of what has the focus, and whether that is seen.
FOCUSED = "(each => each.ariaLabel ?? each.labels?.[0]?.innerText ?? each.innerText)(document.activeElement)"
IS_SEEN = "document.activeElement.matches(':focus-visible') && getComputedStyle(document.activeElement).outlineStyle"
# Roles of what a person works with: each needs a name.
CONTROLS = {
    "button",
    "link",
    "textbox",
    "searchbox",
    "checkbox",
    "radio",
    "combobox",
    "listbox",
    "spinbutton",
    "switch",
    "slider",
    "application",
    "DisclosureTriangle",
    "form",
    "complementary",
    "table",
    "image",
    "img",
}
# What a page mustn't have: an id twice, an order of its own for Tab, a field or a button without a name, an empty
# heading, a heading of a column that isn't said to be one.
WRONG = """(() => {
    const all = [...document.querySelectorAll("*")], ids = all.map(each => each.id).filter(Boolean);
    return [...ids.filter((id, at) => ids.indexOf(id) < at), ...all.filter(each => each.tabIndex > 0 || each.matches("h2:empty, th:not([scope])"))
        .map(each => each.outerHTML), ...(document.querySelectorAll("main").length === 1 ? [] : ["main"])];
})()"""


# Texts whose contrast with what is below them is below 4.5, and fields whose border has less than 3 with what is around
# it. What lets the map show through is taken over black and over white.
DIM = """(() => {
    const parts = colour => colour.match(/[\\d.]+/g).map(Number), over = ([r, g, b, a = 1], below) => [r, g, b].map((part, at) => part * a + below[at] * (1 - a));
    const linear = part => part / 255 <= 0.04045 ? part / 255 / 12.92 : ((part / 255 + 0.055) / 1.055) ** 2.4;
    const light = ([r, g, b]) => 0.2126 * linear(r) + 0.7152 * linear(g) + 0.0722 * linear(b);
    const contrast = (one, other) => (Math.max(light(one), light(other)) + 0.05) / (Math.min(light(one), light(other)) + 0.05);
    const grounds = each => {
        const layers = [];
        for (let at = each; at; at = at.parentElement) { layers.unshift(parts(getComputedStyle(at).backgroundColor)); }
        return [[0, 0, 0], [255, 255, 255]].map(base => layers.reduce((below, colour) => over(colour, below), base));
    };
    const least = (each, colour) => Math.min(...grounds(each).map(ground => contrast(over(parts(colour), ground), ground)));
    const isText = each => [...each.childNodes].some(node => node.nodeType === 3 && node.data.trim()) || each.matches("input, textarea");
    const shown = [...document.querySelectorAll("body *")].filter(each => each.checkVisibility() && each.getClientRects().length && !each.disabled);
    const dim = shown.filter(isText).flatMap(each => [getComputedStyle(each).color, ...(each.placeholder ? [getComputedStyle(each, "::placeholder").color] : [])]
        .filter(colour => least(each, colour) < 4.5).map(colour => [each.outerHTML.slice(0, 80), colour]));
    const faint = shown.filter(each => each.matches("input[type=search], input:not([type]), textarea, select")
        && least(each.parentElement, getComputedStyle(each).borderTopColor) < 3);
    return [...dim, ...faint.map(each => each.outerHTML.slice(0, 80)), ...(shown.some(isText) ? [] : ["no text"])];
})()"""
# Controls that are smaller than so many pixels. That of a field in a label is the label.
SMALL = """(() => {
    const all = [...document.querySelectorAll("button, input, select, textarea, summary")].filter(each => each.checkVisibility() && each.getClientRects().length);
    const boxes = all.map(each => [each.outerHTML.slice(0, 80), (each.closest("label") ?? each).getBoundingClientRect()]);
    return [...boxes.filter(([, {width, height}]) => width < %d || height < %d).map(([html, {width, height}]) => [html, width, height]),
        ...(all.length > 2 ? [] : ["no controls"])];
})()"""
# Whether a button can be pressed as the screen is: nothing covers its middle.
IN_REACH = """(() => {
    const found = [...document.querySelectorAll("button")].find(each => each.textContent === %s && each.checkVisibility());
    const {x, y, width, height} = found.getBoundingClientRect();
    return document.elementFromPoint(x + width / 2, y + height / 2) === found;
})()"""


class Hands(Tools):
    """A person with the page."""

    # The least size of a control in pixels.
    least = 24

    def all(self, nginx):
        self.one = self.opened(OPENED)
        self.find_and_edit()
        self.selects()
        self.moves_corners()
        self.draws()
        self.chooses()
        self.unchanged()
        self.phone()
        self.german()
        told = [fault for fault in self.one.faults() if not fault.startswith("Failed to load resource")]
        self.show("the browser complains of nothing", told, [])

    # ---- by keys alone

    def tab_to(self, name, modifiers=0):
        """Presses Tab until what has this name has the focus. Returns what has it then."""
        for _ in range(80):
            found = self.one.value(FOCUSED)
            if found == name:
                break
            self.one.key("Tab", modifiers=modifiers)
        return found

    def presses(self, name):
        """Goes to a button, and presses it."""
        self.show(f"Tab reaches {name}", self.tab_to(name), name)
        self.show(f"and it is seen that {name} has the focus", self.one.value(IS_SEEN), "solid")
        self.one.key("Enter")

    def types(self, name, text):
        """Goes to a field, and writes a text in place of its own."""
        self.show(f"Tab reaches the field {name}", self.tab_to(name), name)
        self.one.key("a", modifiers=CONTROL)
        for letter in text:
            self.one.key(letter)

    def heading(self, text):
        """Sees that the panel opens with a heading, and has the focus."""
        self.one.wait(
            f"document.querySelector('#panel h2')?.innerText === {text!r} && !document.getElementById('panel').hidden"
        )
        self.show(f"the panel with {text} has the focus", self.one.value(FOCUSED), text)
        self.tree(text)

    def told(self, text):
        """Sees what a screen reader says, which reads each change of the foot."""
        self.one.wait(f"document.getElementById('told').textContent === {text!r}", 8)
        nodes = self.nodes()
        at = {node["nodeId"]: node for node in nodes}
        said = [
            "".join(self.name(at[child]) for child in node.get("childIds", []))
            for node in nodes
            if self.role(node) == "status"
        ]
        self.show(f"a screen reader says: {text}", said, [text])

    def finds(self, text, heading):
        """Finds a feature by keys."""
        self.types("Search", text)
        self.one.key("Enter")
        self.heading(heading)

    def nodes(self):
        """What a screen reader has of the page."""
        return [node for node in self.one.ask("Accessibility.getFullAXTree")["nodes"] if not node.get("ignored")]

    @staticmethod
    def role(node):
        return node.get("role", {}).get("value")

    @staticmethod
    def name(node):
        return node.get("name", {}).get("value", "")

    def tree(self, state):
        """Sees that each control has a name, and that nothing is wrong with the page as a document."""
        controls = [node for node in self.nodes() if self.role(node) in CONTROLS]
        self.show(
            f"{state}: each control has a name",
            [node for node in controls if not self.name(node).strip() and self.role(node) not in ("table", "form")],
            [],
        )
        self.show(f"{state}: there are controls", len(controls) > 8, True)
        self.show(f"{state}: the document is sound", self.one.value(WRONG), [])
        self.seen(state)

    def seen(self, state):
        """Sees that what is shown has the contrast and the sizes that it needs."""
        self.show(f"{state}: texts and fields have contrast", self.one.value(DIM), [])
        self.show(
            f"{state}: no control is smaller than {self.least} pixels",
            self.one.value(SMALL % (self.least, self.least)),
            [],
        )

    def find_and_edit(self):
        """A feature is found, changed and saved."""
        self.tree("the map")
        live = [
            [entry["value"]["value"] for entry in node.get("properties", []) if entry["name"] == "live"]
            for node in self.nodes()
            if self.role(node) == "status"
        ]
        self.show("what the foot says is read when it changes", live, [["polite"]])
        self.finds("garden", "parcel 1")
        self.presses("Edit")
        self.heading("Edit parcel 1")
        self.types("value", "Smithers")
        self.types("last zoom", "99")
        self.presses("Save")
        self.one.wait("document.querySelector('#panel p.fault')")
        said = [node for node in self.nodes() if self.role(node) == "alert"]
        self.show("a refusal is read at once", len(said), 1)
        self.show("and the button keeps the focus", self.one.wait(FOCUSED + " === 'Save'"), True)
        self.types("last zoom", "18")
        self.presses("Save")
        self.one.wait("document.getElementById('panel').hidden")
        self.told(f"feature 1 saved, edit {self.edits_and_features()[0]}")
        self.show("what was written is on the map", self.get(1)["tags"]["name"], "Smithers")
        self.show("and the focus is where it was before", self.one.value(FOCUSED), "Search")
        self.types("Search", "")
        self.one.key("Backspace")
        self.one.key("Enter")
        self.heading("6 found")
        self.presses("valve 12: Main valve")
        self.heading("valve 12")
        self.one.key("Escape")
        self.show("Escape closes the panel", self.one.value("document.getElementById('panel').hidden"), True)

    def selects(self):
        """The cross in the middle of the map is what a mouse's pointer is."""
        self.show("Tab reaches the map", self.tab_to("The map"), "The map")
        self.show("and it is seen that it has the focus", self.one.value(IS_SEEN), "solid")
        before = self.at(X, Y)
        self.one.key("ArrowRight")
        self.one.key("ArrowUp")
        after = self.at(X, Y)
        self.show("arrows move the map", [round(b - a) for a, b in zip(before, after)], [-64, 64])
        self.one.key("ArrowLeft", modifiers=SHIFT)
        self.show("a little with Shift", round(self.at(X, Y)[0] - after[0]), 4)
        time.sleep(0.3)
        self.keep(self.one, "page-cross.png")
        self.one.key("Enter")
        self.heading("valve 12")
        self.presses("Close")
        self.show("the map has the focus again", self.one.value(FOCUSED), "The map")
        self.one.key("Enter")
        self.heading("parcel 2")
        self.one.key("Escape")
        for key, zoom in (("+", 18), ("-", 17)):
            self.one.key(key)
            self.show(f"{key} zooms", round(self.one.value("Number(location.hash.slice(1).split('/')[0])")), zoom)
        for _ in range(4):
            self.one.key("ArrowUp")
        self.one.key("Enter")
        self.told("nothing is at the cross")

    def moves_corners(self):
        """A corner is gone to, taken, moved and put down; one is removed; both are taken back."""
        before = self.ring(3)
        self.finds("3", "parcel 3")
        self.presses("Edit")
        self.heading("Edit parcel 3")
        self.show("Tab reaches the map", self.tab_to("The map", SHIFT), "The map")
        self.one.key("PageDown")
        self.told("point 1 of 4")
        self.show("which is in the middle then", [round(part) for part in self.at(*before[0])], [WIDE // 2, HIGH // 2])
        self.one.key(" ")
        self.told("the point is taken: arrows move it, the space bar puts it down, Escape puts it back")
        self.one.key("ArrowLeft")
        self.one.key("Escape")
        self.told("taken back")
        self.one.key(" ")
        self.told("no point is at the cross: Page Down goes to one")
        self.one.key("PageUp")
        self.told("point 4 of 4")
        self.one.key("PageDown")
        self.told("point 1 of 4")
        self.one.key(" ")
        self.one.key("ArrowLeft")
        self.one.key("ArrowLeft")
        self.one.key(" ")
        self.told("the point is put down")
        self.one.key("ArrowDown")
        self.one.key("PageDown")
        self.one.key("Delete")
        self.told("the point is removed: 1 area, 3 points")
        self.one.key("PageDown")
        self.one.key("Delete")
        self.told("the point stays: too few would be left")
        time.sleep(0.3)
        self.keep(self.one, "page-corner.png")
        self.one.key("z", modifiers=CONTROL)
        self.told("taken back")
        self.presses("Save")
        self.one.wait("document.getElementById('panel').hidden")
        after = self.ring(3)
        self.show(
            "the corner is where the arrows moved it, and no other one",
            ([round((b - a) / PIXEL) for a, b in zip(before[0], after[0])], after[1:]),
            ([-128, 0], before[1:]),
        )

    def draws(self):
        """A line is drawn, with a point too many that is taken back."""
        self.presses("New line")
        self.show("who draws has the map", self.one.value(FOCUSED), "The map")
        middle = self.one.value("location.hash")
        for key in (" ", "ArrowRight", " ", "ArrowUp", " ", "Backspace"):
            self.one.key(key)
        self.told("1 line, 3 points")
        self.one.key("Enter")
        self.heading("New feature")
        self.types("layer", "cable")
        self.types("value", "New cable")
        self.presses("Save")
        self.one.wait("document.getElementById('panel').hidden")
        number = int(self.one.text("#told").split()[1])
        (line,) = self.get(number)["geometry"]["lines"]
        self.show(
            "a line is drawn by keys",
            ([round((b - a) / PIXEL) for a, b in zip(*line)], len(line), middle != ""),
            ([64, 0], 2, True),
        )
        curl(f"{self.server.url}/features/{number}", "-X", "DELETE")

    def chooses(self):
        """Of what two have changed one is chosen."""
        self.finds("12", "valve 12")
        self.presses("Edit")
        self.heading("Edit valve 12")
        self.types("value", "My valve")
        before = self.get(12)
        curl(
            f"{self.server.url}/features/12", "-X", "PUT", body=json.dumps({**before, "tags": {"name": "Their valve"}})
        )
        self.presses("Save")
        self.heading("Changed by two: valve 12")
        self.told("Somebody else has changed this feature meanwhile.")
        self.show(
            "Tab reaches a choice",
            self.tab_to("tag name, on the map (blue): Their valve"),
            "tag name, on the map (blue): Their valve",
        )
        self.one.key("ArrowRight")
        self.presses("Save what is chosen")
        self.one.wait("document.getElementById('panel').hidden")
        self.show("what is chosen by keys is saved", self.get(12)["tags"], {"name": "My valve"})
        curl(f"{self.server.url}/features/12", "-X", "PUT", body=json.dumps(before))

    # ---- by fingers

    def phone(self):
        """A telephone: what is needed is in reach, a corner is removed and put back by touch, and the map goes where
        the person is."""
        self.one = self.opened(OPENED)
        self.one.ask("Emulation.setDeviceMetricsOverride", width=390, height=760, deviceScaleFactor=1, mobile=True)
        self.one.ask("Emulation.setTouchEmulationEnabled", enabled=True, maxTouchPoints=2)
        self.one.wait("innerWidth === 390")
        self.drawn(self.one)
        self.least = 44
        self.seen("a telephone")
        self.keep(self.one, "phone-map.png")
        self.one.press("Layers")
        self.seen("a telephone with layers")
        self.one.press("Layers")
        self.tap(*self.at(X - SIDE / 4, Y + SIDE * 0.8))
        self.one.wait("document.querySelector('#panel h2')?.textContent === 'parcel 3'")
        self.seen("a telephone with a feature")
        self.keep(self.one, "phone-feature.png")
        self.one.press("Edit")
        self.one.wait("document.querySelector('#panel form')")
        self.seen("a telephone with a form")
        for name in ("Save", "Cancel", "Undo", "Remove point"):
            self.show(f"{name} is in reach", self.one.value(IN_REACH % json.dumps(name)), True)
        corner = self.at(*self.ring(3)[1])
        self.touches((corner[0] + 12, corner[1] - 12))
        time.sleep(0.3)
        self.keep(self.one, "phone-form.png")
        self.one.press("Remove point")
        self.show(
            "a corner is touched and removed",
            self.one.wait("document.getElementById('told').textContent.startsWith('the point is removed')"),
            True,
        )
        self.one.press("Undo")
        self.show("and put back", self.one.wait("document.getElementById('told').textContent === 'taken back'"), True)
        self.one.press("Save")
        self.show("as it was", self.saved(self.one), "parcel 3 is as it was: nothing was saved")
        self.one.press("New line")
        self.seen("a telephone that draws")
        for place in ((100, 330), (220, 330), (220, 400)):
            self.tap(*place)
        self.one.press("Undo")
        self.keep(self.one, "phone-drawing.png")
        self.one.press("Done")
        self.one.wait("document.querySelector('#panel form')")
        self.show(
            "a line is drawn by touch",
            self.one.wait("document.querySelector('#panel .hint').textContent.startsWith('1 line, 2 points')"),
            True,
        )
        self.one.press("Cancel")
        self.here()
        self.least = 24

    def tap(self, x, y):
        """Taps the screen."""
        self.touch(self.one, [("touchStart", [(x, y)]), ("touchEnd", [])])

    def touches(self, place):
        """Touches a place of the screen, for so long that it is no tap, and doesn't move."""
        self.touch(self.one, [("touchStart", [place]), ("touchEnd", [])])

    def here(self):
        """The map goes where the telephone is, if the person lets the browser tell it."""
        asks = "document.getElementById('here').click()"
        for allowed in ("denied", "granted"):
            self.one.browser.ask(
                "Browser.setPermission", permission={"name": "geolocation"}, setting=allowed, origin=self.front.url
            )
            self.one.ask("Emulation.setGeolocationOverride", latitude=54.501, longitude=7.502, accuracy=12)
            self.one.value("document.getElementById('told').textContent = ''")
            self.one.value(asks)
            self.one.wait("document.getElementById('told').textContent", 25)
            wanted = (
                "here, within 12 metres"
                if allowed == "granted"
                else "the browser doesn't tell the page where you are: allow it in its settings"
            )
            self.show(f"where the telephone is, {allowed}", self.one.text("#told"), wanted)
        _, latitude, longitude = (float(part) for part in self.one.value("location.hash.slice(1)").split("/"))
        self.show("the map is there", (round(latitude, 4), round(longitude, 4)), (54.501, 7.502))
        self.drawn(self.one)
        self.keep(self.one, "phone-here.png")

    # ---- its texts

    def unchanged(self):
        """What is saved as it was makes no edit."""
        edits = self.edits_and_features()[0]
        self.form(1)
        self.one.press("Save")
        self.show(
            "a feature that is saved as it was makes no edit",
            (self.saved(self.one), self.edits_and_features()[0]),
            ("parcel 1 is as it was: nothing was saved", edits),
        )
        self.form(1)
        self.write(self.one, "use", "orchard")
        self.show("a change does", self.edited(), "feature 1 saved, edit K")
        self.form(1)
        self.write(self.one, "use", "garden")
        self.show("and back", (self.edited(), self.edits_and_features()[0]), ("feature 1 saved, edit K", edits + 2))

    def english(self):
        """The English texts of the page that aren't German ones."""
        return self.one.value("""import("./texts.js").then(({LANGUAGES: {en, de}}) => {
            const all = given => Object.values(given).flatMap(text => typeof text === "object" ? all(text) : typeof text === "string" ? [text] : []);
            return all(en).filter(text => !all(de).includes(text));
        })""")

    def german(self):
        """The page in a browser that asks for German: no English text of its own is left in what it shows."""
        with Browser(
            os.path.join(self.folder, "german"), WIDE, HIGH, ["--lang=de-DE", "--accept-lang=de-DE"]
        ) as browser:
            english, self.one, here = self.english(), browser.open(f"{self.front.url}/pages/{OPENED}"), self.one
            self.one.wait("document.getElementById('told').textContent")
            self.drawn(self.one)
            self.show(
                "a German browser has the page in German",
                (self.one.value("[document.documentElement.lang, document.title]"), self.one.text("#told")),
                (
                    ["de", "Karte"],
                    f"6 Objekte, Änderung {self.edits_and_features()[0]}".replace(
                        "6 ", f"{self.edits_and_features()[1]} "
                    ),
                ),
            )
            seen = []
            for step in self.german_steps():
                seen.append(step)
                heard = self.one.value(HEARD)
                self.show(f"no English text is left: {step}", sorted(set(heard) & set(english)), [])
                self.show(f"and there are texts: {step}", len(heard) > 10, True)
            self.keep(self.one, "page-german.png")
            self.one = here

    def german_steps(self):
        """What a person does in the German page, step by step."""
        yield "the map"
        self.one.press("Ebenen")
        yield "its layers"
        self.one.press("Ebenen")
        self.one.press("Neue Linie")
        yield "a new line is drawn"
        self.one.press("Abbrechen")
        self.one.type("#search input", "zzz")
        self.one.press("Suchen")
        self.one.wait("document.getElementById('told').textContent.startsWith('nichts')")
        yield "nothing is found"
        self.one.type("#search input", "2")
        self.one.press("Suchen")
        self.one.wait("document.querySelector('#panel h2')?.textContent === 'parcel 2'")
        yield "a feature"
        self.one.press("Löschen")
        self.one.wait("document.querySelector('#panel h2').textContent === 'parcel 2 löschen?'")
        yield "a question"
        self.one.press("Abbrechen")
        self.one.type("#search input", "2")
        self.one.press("Suchen")
        self.one.press("Bearbeiten")
        self.one.wait("document.querySelector('#panel form')")
        yield "a form"
        self.one.type("#panel form input[aria-label='letzte Zoomstufe']", "99")
        self.one.press("Speichern")
        self.one.wait("document.querySelector('#panel p.fault')")
        self.show("a refusal is German too", self.one.text("#panel p.fault"),
                  "Zoomstufen gehen von 0 bis 19, die erste höchstens gleich der letzten (E4 Zoom)")
        yield "a refusal"
        self.one.type("#panel form input[aria-label='letzte Zoomstufe']", "18")
        before = self.get(2)
        curl(
            f"{self.server.url}/features/2",
            "-X",
            "PUT",
            body=re.sub("Jones", "Theirs", feature("parcel", 14, 18, FEATURES[2][1], before["tags"])),
        )
        self.one.type("#panel form tbody tr:last-child [aria-label=Wert]", "Wiese")
        self.one.press("Speichern")
        self.one.wait("document.querySelector('#panel .differs')")
        yield "two versions"
        self.one.press("Gewähltes speichern")
        self.one.wait("document.getElementById('panel').hidden")
        yield "what was saved"


def page_hands(cases: Cases, folder: str) -> None:
    nginx = shutil.which("nginx") or "/usr/sbin/nginx"
    if not shutil.which("chromium") or not os.path.exists(nginx):
        cases.say("no chromium or no nginx: the page for hands and eyes isn't tried")
        return
    folder = os.path.join(folder, "page-hands")
    os.mkdir(folder)
    with Server(folder, "parcels", sectors=16384, more=["--admin", "--etags"]) as server, Nginx(
        nginx, folder, server
    ) as front:
        shutil.copytree(PAGE, os.path.join(front.folder, "pages"))
        for number, (layer, geometry, tags) in FEATURES.items():
            reply = curl(f"{server.url}/features/{number}", "-X", "PUT", body=feature(layer, 14, 18, geometry, tags))
            assert status_of(reply) == 200, reply
        with Browser(os.path.join(folder, "profile"), WIDE, HIGH) as browser:
            Hands(cases, browser, server, front, folder).all(nginx)
