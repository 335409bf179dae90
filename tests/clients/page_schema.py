"""The part `page-schema` of run.py: the page of a map with a schema, and a table that has lost its end, in a real
Chromium through nginx with docs/nginx.conf and the gateway, at 1,280 and at 390 pixels, in English and German. Pictures
are kept in the folder that PICTURES names, if it does."""
import json
import os
import shutil
import time
from typing import cast

from .browser import Browser
from .gateways import Gateway
from .page_files import Files
from .page_tools import FEATURES, OPENED
from .pages import PAGE
from .stand import Cases, Nginx, Server, curl, feature, field, status_of

SIZES = {"wide": (1280, 800), "narrow": (390, 780)}
SCHEMA = {
    "parcel": {
        "title": "Parcels",
        "kinds": ["areas"],
        "minzoom": 12,
        "maxzoom": 17,
        "fields": {
            "name": {"type": "text", "label": "Owner", "required": True},
            "use": {"type": "text", "label": "Use", "choices": ["meadow", "orchard", "yard"]},
            "built": {"type": "integer", "label": "Built"},
            "fenced": {"type": "boolean", "label": "Fenced"},
            "area": {"type": "number", "label": "Hectares"},
            "seen": {"type": "date", "label": "Last seen"},
        },
    },
    "tree": {
        "title": "Trees",
        "kinds": ["points"],
        "minzoom": 13,
        "maxzoom": 15,
        "fields": {"kind": {"choices": ["oak", "lime"], "required": True}, "height": {"type": "integer"}},
    },
}
CUT = "nr,name,lon,lat\n1,Well,7.5,54.5\n2,Pump,7.505,5"
# What the form's fields are called, and the heads of their rows.
NAMES = """[...document.querySelectorAll("#panel form table:first-of-type + table tbody:not(.tags) tr")].map(each =>
    [each.cells[0].innerText, each.querySelector("input, select, textarea").ariaLabel])"""
# The text of a fault in the panel, once it is seen: no part of it is below the buttons.
SEEN = """(() => {
    const fault = document.querySelector("#panel p.fault"), buttons = document.querySelector("#panel .actions");
    return Boolean(fault) && fault.getBoundingClientRect().bottom <= buttons.getBoundingClientRect().top + 1;
})()"""
# The types of these fields, and the zooms of the form.
TYPES = """[...document.querySelectorAll("#panel form table:first-of-type + table tbody:not(.tags) tr")].map(each =>
    each.cells[1].firstChild.type)"""
ZOOMS = """[...document.querySelectorAll("#panel form input")].filter(each => each.ariaLabel?.endsWith("zoom"))
    .map(each => each.value)"""
FAULT = "document.querySelector('#panel p.fault')?.innerText"
ASKED = "performance.getEntriesByType('resource').filter(each => each.name.endsWith('schema.json')).length"
CHOOSE = """(() => { const list = document.querySelector(`#panel select[aria-label='%s']`);
    list.selectedIndex = [...list.options].findIndex(each => each.innerText.startsWith(%s));
    list.dispatchEvent(new Event("change")); return list.selectedOptions[0]?.innerText; })()"""


class Schemas(Files):
    """A person with the page of a map that has a schema."""

    path = ""

    def keep(self, made, name):
        """Keeps a picture, once the screen is as the page is."""
        time.sleep(0.3)
        super().keep(made, name)

    def write(self, layers):
        """Makes a schema that of the map."""
        with open(self.path + ".new", "w", encoding="utf-8") as file:
            json.dump({"layers": layers}, file)
        os.replace(self.path + ".new", self.path)

    def choose(self, name, value):
        """Chooses a value of a list."""
        return self.one.value(CHOOSE % (name, json.dumps(value)))

    def edits(self, number, layer="parcel", press="Edit"):
        """Opens the form of a feature."""
        self.find(str(number))
        self.one.press(press)
        self.one.wait("document.querySelector('#panel form')")

    def fault(self, press="Save"):
        """What the page says why it saves nothing."""
        before = self.edits_and_features()
        self.one.press(press)
        told = self.one.wait(FAULT)
        now = self.edits_and_features(), self.one.value(SEEN)
        self.show("nothing was sent, and it is seen why", now, (before, True))
        return told

    def has_no_schema(self):
        """Without a schema the form is as it was."""
        self.edits(3)
        self.show("without a schema the form has tags", self.one.value(NAMES), [])
        is_listed = "Boolean(document.querySelector('#panel select[aria-label=layer]'))"
        self.show("and a layer to be written", self.one.value(is_listed), False)
        self.one.press("Cancel")

    def form(self, name):
        """The form has the fields of the schema, and refuses what that refuses."""
        self.edits(1)
        wanted = ["Owner *", "Use", "Built", "Fenced", "Hectares", "Last seen"]
        self.show("the form has the fields of the schema, the required ones marked", self.one.value(NAMES),
                  [[label, label.split(" *")[0]] for label in wanted])
        wanted = ["textarea", "select-one", "text", "select-one", "text", "date"]
        self.show("each of its type", self.one.value(TYPES), wanted)
        listed = "[...document.querySelector('#panel select[aria-label=Use]').options].map(each => each.innerText)"
        wanted = ["–", "meadow", "orchard", "yard", "garden"]
        self.show("choices are a list, with what the feature has", self.one.value(listed), wanted)
        required = [
            self.name(node) for node in self.nodes()
            if any(one["name"] == "required" and one["value"]["value"] for one in node.get("properties", []))
        ]
        self.show("a screen reader hears which are required", required, ["Owner"])
        self.tree(f"a form by the schema, {name}")
        self.keep(self.one, f"page-schema-{name}.png")
        for label, text, why in (
            ("Built", "late", "Built is 'late', no integer"),
            ("Hectares", "2,5", "Hectares is '2,5', no number"),
            ("Owner", "", "Owner is required"),
        ):
            self.one.type(f"#panel [aria-label='{label}']", text)
            self.show(f"refused by name: {label}", self.fault(), why)
            right = {"Built": "1990", "Hectares": "2.5", "Owner": "Smith"}[label]
            self.one.type(f"#panel [aria-label='{label}']", right)
        self.one.press("Add a tag")
        self.one.type("#panel .tags [aria-label=tag]", "colour")
        self.one.type("#panel .tags [aria-label=value]", "red")
        self.show("a tag without a field is refused with what makes it", self.fault(),
                  "parcel has no field 'colour': `vtmap schema add parcel colour` makes it")
        self.keep(self.one, f"page-schema-refused-{name}.png")
        self.one.value("document.querySelector('#panel .tags button').click()")
        self.choose("Fenced", "yes")
        self.one.value("document.querySelector('#panel input[type=date]').value = '2026-11-29'")
        self.one.press("Save")
        self.saved(self.one)
        tags = {"name": "Smith", "use": "garden", "built": 1990, "area": "2.5", "fenced": True, "seen": "2026-11-29"}
        self.show("what fits is saved, and what was there stays", self.get(1)["tags"], tags)
        self.edits(1)
        for label in ("Built", "Hectares"):
            self.one.type(f"#panel [aria-label='{label}']", "")
        self.one.value("document.querySelector('#panel input[type=date]').value = ''")
        self.choose("Fenced", "–")
        self.one.press("Save")
        self.saved(self.one)
        self.show("what is emptied is gone", self.get(1)["tags"], {"name": "Smith", "use": "garden"})

    def draws_new(self, name):
        """A new feature gets a layer of the schema, its fields and its zooms."""
        self.one.press("New point")
        self.one.click(self.browser.size[0] // 2, 330)
        self.one.wait("document.querySelector('#panel form')")
        layers = "[...document.querySelector('#panel select[aria-label=layer]').options].map(each => each.innerText)"
        told = self.one.value(layers)
        self.show("layers are those of the schema first", (told[0], told[-1]), ("Trees (tree)", "another layer …"))
        self.show("with its zooms", self.one.value(ZOOMS), ["13", "15"])
        self.tree(f"a new feature by the schema, {name}")
        self.keep(self.one, f"page-schema-new-{name}.png")
        self.one.type("#panel [aria-label=height]", "12")
        self.show("what is required has to be there", self.fault(), "kind is required")
        self.choose("layer", "valve")
        self.show("another layer has other fields: what was written stays as a tag", self.one.value(
            "[...document.querySelectorAll('#panel .tags textarea')].map(each => each.value)"), ["height", "12"])
        self.choose("layer", "Trees")
        self.choose("kind", "oak")
        self.one.press("Save")
        self.saved(self.one)
        number = int(self.one.text("#told").split()[1])
        made = self.get(number)
        self.show("it is saved by the schema", (made["layer"], made["tags"], made["minzoom"], made["maxzoom"]),
                  ("tree", {"kind": "oak", "height": 12}, 13, 15))
        curl(f"{self.server.url}/features/{number}", "-X", "DELETE")

    def other_layer(self):
        """A layer that nobody has named yet can be written."""
        self.one.press("New point")
        self.one.click(self.browser.size[0] // 2, 330)
        self.one.wait("document.querySelector('#panel form')")
        self.choose("layer", "another")
        self.show("the name of another layer is written", self.one.value(
            "document.activeElement.matches('input[aria-label=layer]')"), True)
        self.one.press("Cancel")

    def read_anew(self):
        """A schema that has changed is read when the next form opens, and no more often."""
        before = self.one.value(ASKED)
        self.write({**SCHEMA, "parcel": {**SCHEMA["parcel"], "fields": {"name": {"label": "Holder"}}}})
        self.edits(2)
        self.show("a schema that has changed is read anew", self.one.value(NAMES), [["Holder", "Holder"]])
        self.show("it is asked for once", self.one.value(ASKED) - before, 1)
        self.show("other tags stay as they were", self.one.value(
            "[...document.querySelectorAll('#panel .tags textarea')].map(each => each.value)"), ["use", "meadow"])
        self.one.press("Cancel")
        self.write(SCHEMA)

    def tagged(self):
        """It is asked for with its tag."""
        path = f"{self.front.url}/pages/schema.json"
        tag = field(curl(path), "etag")
        self.show("the schema has a tag, with which it isn't sent again",
                  status_of(curl(path, "-H", f"If-None-Match: {tag}")), 304)
        self.show("with another one it is", status_of(curl(path, "-H", 'If-None-Match: W/"x"')), 200)

    def files(self, name):
        """A file is held to the schema."""
        before = self.edits_and_features()
        rows = "kind,height,crown,lon,lat\noak,12,4,7.5,54.5\nelm,3,4,7.5,54.5\nlime,tall,4,7.5,54.5\n"
        self.chosen(self.file("tree.csv", rows))
        self.is_shown("tree.csv: 3 features")
        notes = "[...document.querySelectorAll('#panel .notes li')].map(each => each.innerText)"
        wanted = [
            "tree: they are shown at zooms 13 to 15, as the schema has it",
            "tree has no field 'crown': `vtmap schema add tree crown` makes it",
            "feature of the file 2 refused: kind is 'elm': one of 'oak', 'lime' is needed",
            "feature of the file 3 refused: height is 'tall', no integer",
        ]
        self.show("what the schema refuses of a file is told", self.one.value(notes), wanted)
        self.seen(f"a file and the schema, {name}")
        self.keep(self.one, f"page-schema-file-{name}.png")
        self.show("attributes without a field are refused", self.fault("Send 3"), wanted[1])
        self.one.value("document.querySelector('#panel .along input').click()")
        self.one.press("Send 3")
        self.is_shown("tree.csv: 1 feature sent")
        after = before[0] + 1, before[1] + 1
        self.show("unless the person says so, and the rest is sent", self.edits_and_features(), after)
        self.show("with values of its types and its zooms",
                  [row[1:2] + row[3:] for row in self.features() if row[0] == "tree"],
                  [({"kind": "oak", "height": 12, "crown": "4"}, (13, 15))])
        self.one.press("Take it all back")
        self.told("1 feature taken back")

    def cut(self, name):
        """A table that has lost its end."""
        before = self.edits_and_features()
        self.chosen(self.file("cut.csv", CUT))
        self.is_shown("cut.csv")
        self.show("a table that has lost its end is refused", self.one.wait(FAULT),
                  "cut.csv seems to be cut: its last line has no end, and its first one has one ('2,Pump,7.505,5')."
                  " Get all of it, or say that it is whole")
        self.show("which a screen reader says", len([node for node in self.nodes() if self.role(node) == "alert"]), 1)
        self.seen(f"a file that is cut, {name}")
        self.keep(self.one, f"page-cut-{name}.png")
        self.one.press("Cancel")
        is_closed = self.one.value("document.getElementById('panel').hidden")
        self.show("nothing is sent", (is_closed, self.edits_and_features()), (True, before))
        self.chosen(self.file("cut.csv", CUT + "4\n3,Lamp\n"))
        self.is_shown("cut.csv")
        self.show("one whose last line has too few fields, too", "has 2 of the 4 fields" in self.one.wait(FAULT), True)
        self.chosen(self.file("cut.csv", CUT + "4.5"))
        self.is_shown("cut.csv")
        self.one.press("It is whole")
        self.is_shown("cut.csv: 2 features")
        self.one.press("Cancel")

    def german(self):
        """In German."""
        for name, size in SIZES.items():
            profile = os.path.join(self.folder, f"german-{name}")
            with Browser(profile, *size, ["--lang=de-DE", "--accept-lang=de-DE"]) as browser:
                here, self.one = self.one, browser.open(f"{self.front.url}/pages/{OPENED}")
                self.one.wait("document.getElementById('told').textContent.includes('Objekte')")
                self.drawn(self.one)
                self.one.type("#search input", "Smith")
                self.one.press("Suchen")
                self.one.wait("document.querySelector('#panel h2')?.textContent === 'parcel 1'")
                self.one.press("Bearbeiten")
                self.one.wait("document.querySelector('#panel form')")
                self.one.type("#panel [aria-label=Built]", "spät")
                self.show("a refusal in German", self.fault("Speichern"), "Built ist 'spät', keine ganze Zahl")
                self.keep(self.one, f"page-schema-german-{name}.png")
                self.one.press("Abbrechen")
                self.chosen(self.file("cut.csv", CUT))
                self.show("a cut file in German", self.one.wait(FAULT),
                          "cut.csv ist wohl abgeschnitten: die letzte Zeile hat kein Ende, die erste hat eines"
                          " ('2,Pump,7.505,5'). Ganz holen, oder sagen, dass sie vollständig ist")
                self.keep(self.one, f"page-cut-german-{name}.png")
                self.one = here

    def conflicts(self):
        """Of two versions none is saved that the schema refuses."""
        self.edits(2)
        self.one.type("#panel [aria-label=Built]", "6789")
        body = feature("parcel", 14, 18, FEATURES[2][1], {"name": "Jones", "use": "meadow", "built": 7})
        curl(f"{self.server.url}/features/2", "-X", "PUT", body=body)
        self.one.press("Save")
        self.one.wait("document.querySelector('#panel .differs')")
        self.one.value("[...document.querySelectorAll('#panel .differs input')].at(-1).click()")
        self.one.press("Save what is chosen")
        self.saved(self.one)
        self.show("what is chosen of two versions is saved", self.get(2)["tags"]["built"], 6789)

    def all(self, nginx):
        name = "wide" if self.browser.size[0] > 400 else "narrow"
        self.least = 24 if name == "wide" else 44
        self.one = self.opened(OPENED)
        if name == "wide":
            self.has_no_schema()
        self.write(SCHEMA)
        self.form(name)
        self.draws_new(name)
        self.files(name)
        self.cut(name)
        if name == "wide":
            self.other_layer()
            self.read_anew()
            self.tagged()
            self.conflicts()
            self.german()
        told = [fault for fault in self.one.faults() if not fault.startswith("Failed to load resource")]
        self.show("the browser complains of nothing", told, [])


def page_schema(cases: Cases, folder: str) -> None:
    nginx = shutil.which("nginx") or "/usr/sbin/nginx"
    if not shutil.which("chromium") or not os.path.exists(nginx):
        cases.say("no chromium or no nginx: the page of a map with a schema isn't tried")
        return
    folder = os.path.join(folder, "page-schema")
    os.mkdir(folder)
    with Server(folder, "parcels", sectors=16384, more=["--admin", "--etags"]) as server:
        for number, row in FEATURES.items():
            layer, geometry, tags = cast("tuple[str, dict, dict]", row)
            reply = curl(f"{server.url}/features/{number}", "-X", "PUT", body=feature(layer, 14, 18, geometry, tags))
            assert status_of(reply) == 200, reply
        path = os.path.join(folder, "schema.json")
        with Gateway(folder, server.url, "--schema", path) as gateway:
            changes = [("127.0.0.1:8090", f"127.0.0.1:{gateway.port}")]
            with Nginx(nginx, folder, server, changes) as front:
                shutil.copytree(PAGE, os.path.join(front.folder, "pages"))
                for name, size in SIZES.items():
                    with Browser(os.path.join(folder, f"profile-{name}"), *size) as browser:
                        person = Schemas(cases, browser, server, front, folder)
                        person.path = path
                        person.all(nginx)
