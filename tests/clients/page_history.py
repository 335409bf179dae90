"""The part `page-history` of run.py: the history of a feature in the page, in a real Chromium through nginx with
docs/nginx.conf and the gateway, at 1,280 and at 390 pixels; what is put back, a conflict meanwhile, a feature that was
deleted, and who may only look. Pictures are kept in the folder that PICTURES names, if it does."""
import json
import os
import shutil
from typing import cast

from .browser import HIGH, Browser
from .gateways import Gateway
from .page_hands import Hands
from .page_tools import FEATURES, OPENED
from .pages import PAGE
from .past import History
from .past_maps import ServeAt
from .stand import Cases, Nginx, Server, curl, feature, free_port, status_of
from .standby import follow, waited

SIZES = {"wide": (1280, 800), "narrow": (390, 780)}
# The changes that the panel shows, each as its text without the time.
CHANGES = """[...document.querySelectorAll("#panel .change p")].map(each => each.innerText.replace(/ .*, by/, " by"))"""
PANEL = "document.querySelector('#panel h2')?.innerText === %s && !document.getElementById('panel').hidden"


class Histories(Hands):
    """A person with the page."""

    log = ""

    def edit(self, number, tags, deleted=False):
        """Somebody else edits a feature, by nginx."""
        layer, geometry, _ = FEATURES[number]
        words = ["-X", "DELETE"] if deleted else ["-X", "PUT"]
        body = None if deleted else feature(layer, 14, 18, geometry, tags)
        assert status_of(curl(f"{self.front.url}/features/{number}", *words, body=body)) == 200
        self.see()

    def see(self):
        """Waits until the log has each edit."""
        edits = self.edits_and_features()[0]

        def has_all():
            with open(self.log + ".at", encoding="ascii") as file:
                return int(file.read()) == edits

        waited(has_all)

    def heading_is(self, text):
        """Waits for a panel."""
        self.one.wait(PANEL % json.dumps(text))
        return self.one.text("#panel h2")

    def opens(self, number, layer):
        """Opens the history of a feature."""
        self.find(str(number))
        self.one.press("History")
        self.show(
            "the panel has the history", self.heading_is(f"History of {layer} {number}"), f"History of {layer} {number}"
        )

    def look(self, name):
        """Looks at the history of a feature that two people have changed."""
        self.edit(1, {"name": "Smith & Sons", "use": "garden"})
        self.edit(1, {"name": "Smith & Sons", "use": "orchard"})
        edits = self.edits_and_features()[0]
        self.opens(1, "parcel")
        found = self.one.value(CHANGES)
        self.show(
            "each change has its person and its number",
            found[:2],
            [f"changed by 127.0.0.1, edit {edits}", f"changed by 127.0.0.1, edit {edits - 1}"],
        )
        rows = self.one.value(
            "[...document.querySelectorAll('#panel .change')].map(each => each.querySelector('table').innerText)"
        )
        self.show("and what it changed", rows[:2], ["tag use\tgarden → orchard", "tag name\tSmith → Smith & Sons"])
        self.tree(f"the history, {name}")
        self.keep(self.one, f"page-history-{name}.png")

    def puts_back(self, name):
        """Puts back what was before a change."""
        self.one.value("[...document.querySelectorAll('#panel .change button')][1].click()")
        self.heading_is("Put parcel 1 back?")
        self.show(
            "it says what would become of it",
            self.one.text("#panel table").splitlines(),
            ["tag name\tSmith & Sons → Smith", "tag use\torchard → garden"],
        )
        self.tree(f"what would be put back, {name}")
        self.keep(self.one, f"page-put-back-{name}.png")
        before = self.edits_and_features()[0]
        self.one.press("Put it back")
        self.saved(self.one)
        self.show("it is put back by one edit", self.edits_and_features()[0], before + 1)
        self.show("as it was", self.get(1)["tags"], {"name": "Smith", "use": "garden"})
        self.see()

    def conflicts(self):
        """Somebody changes it while it is asked: the two versions are shown, and nothing is overwritten."""
        self.edit(2, {"name": "Jones", "use": "field"})
        self.opens(2, "parcel")
        self.one.press("Put back what was before")
        self.heading_is("Put parcel 2 back?")
        self.edit(2, {"name": "Jones & Co", "use": "field"})
        self.one.press("Put it back")
        self.show(
            "a conflict shows both versions", self.heading_is("Changed by two: parcel 2"), "Changed by two: parcel 2"
        )
        self.show("and nothing is overwritten", self.get(2)["tags"]["name"], "Jones & Co")
        self.one.press("Save what is chosen")
        self.saved(self.one)
        self.show("what is chosen has both changes", self.get(2)["tags"], {"name": "Jones & Co", "use": "meadow"})
        self.see()
        self.opens(2, "parcel")
        count = self.edits_and_features()[0]
        self.edit(2, {"name": "Jones", "use": "meadow"})
        last = "[...document.querySelectorAll('#panel .change button')].at(-1)"
        self.one.value(f"{last}.click()")
        self.show(
            "what is so already makes no edit",
            (self.one.wait("document.querySelector('#panel p.fault')?.innerText"), self.edits_and_features()[0]),
            ("it is like that now", count + 1),
        )
        self.one.press("Close")

    def lost(self):
        """A feature that somebody has deleted is found by its number, and put back."""
        self.edit(12, None, deleted=True)
        self.one.wait(f"document.getElementById('told').textContent.endsWith('edit {self.edits_and_features()[0]}')")
        self.drawn(self.one)
        self.show("a deleted feature is found by its number", self.find("12"), "History of valve 12")
        self.show("the foot says that it is gone", self.one.text("#told"), "12 isn't on the map any more")
        self.show("it says who has deleted it", self.one.value(CHANGES)[0].split(", edit")[0], "deleted by 127.0.0.1")
        self.keep(self.one, "page-history-lost.png")
        self.one.press("Put back what was before")
        self.heading_is("Put valve 12 back?")
        self.one.press("Put it back")
        self.saved(self.one)
        self.show("it is on the map again", self.get(12)["tags"], {"name": "Main valve"})
        self.show("what never was isn't found", self.find("99"), 'nothing in view has "99", and no feature has this id')
        self.see()

    def by_keys(self):
        """The same without a mouse."""
        self.edit(3, {"name": "Miller", "built": 5001})
        self.finds("3", "parcel 3")
        self.presses("History")
        self.heading("History of parcel 3")
        names = self.one.value(
            "[...document.querySelectorAll('#panel .change button')].map(each => each.ariaLabel.split(':')[0])"
        )
        self.show("each button says before when", names, ["Put back what was before"] * len(names))
        self.tab_to(self.one.value("document.querySelector('#panel .change button').ariaLabel"))
        self.one.key("Enter")
        self.heading("Put parcel 3 back?")
        self.presses("Put it back")
        self.one.wait("document.getElementById('panel').hidden")
        self.show("as it was", self.get(3)["tags"], {"name": "Miller", "built": 5000})

    def german(self):
        """In German."""
        profile = os.path.join(self.folder, "german")
        with Browser(profile, *SIZES["wide"], ["--lang=de-DE", "--accept-lang=de-DE"]) as browser:
            here, self.one = self.one, browser.open(f"{self.front.url}/pages/{OPENED}")
            self.one.wait("document.getElementById('told').textContent.includes('Objekte')")
            self.drawn(self.one)
            self.one.type("#search input", "1")
            self.one.press("Suchen")
            self.heading_is("parcel 1")
            self.one.press("Verlauf")
            self.show("in German", self.heading_is("Verlauf von parcel 1"), "Verlauf von parcel 1")
            script = "document.querySelector('#panel .change p').innerText.replace(/ .*, von/, ' von')"
            self.show("with the words of German", self.one.value(script).split(", Änd")[0], "geändert von 127.0.0.1")
            self.keep(self.one, "page-history-german.png")
            self.one = here

    def all(self, nginx):
        self.one = self.opened(OPENED)
        self.look("wide")
        self.puts_back("wide")
        self.conflicts()
        self.lost()
        self.by_keys()
        self.german()
        told = [fault for fault in self.one.faults() if not fault.startswith("Failed to load resource")]
        self.show("the browser complains of nothing", told, [])

    def phone(self):
        """On a narrow screen."""
        self.least = 44
        self.one = self.opened(OPENED)
        self.look("narrow")
        self.puts_back("narrow")
        told = [fault for fault in self.one.faults() if not fault.startswith("Failed to load resource")]
        self.show("the browser complains of nothing on a narrow screen", told, [])


class Past(Histories):
    """A person with the page of an earlier time."""

    def all(self, nginx):
        edits = self.edits_and_features()[0]
        self.one = self.opened(f"?at={len(FEATURES)}{OPENED}")
        self.show(
            "the page says of which time it is",
            self.one.text("#past"),
            f"The map after edit {len(FEATURES)}. Go to the map of now",
        )
        self.show(
            "and the foot that it is only looked at",
            self.one.text("#told"),
            f"view only: the map after edit {len(FEATURES)}",
        )
        self.show("the map is that of then", self.find("garden"), "parcel 1")
        self.show(
            "with the tags of then",
            self.one.value("[...document.querySelectorAll('#panel td')].map(each => each.innerText)"),
            ["Smith", "garden"],
        )
        self.show(
            "nothing can be edited",
            self.one.value("[...document.querySelectorAll('#panel button')].map(each => each.innerText)"),
            ["Close"],
        )
        self.show("a feature is found by its number", self.find("12"), "valve 12")
        self.seen("an earlier map")
        self.keep(self.one, f"page-at-{self.browser.size[0]}.png")
        self.one.value("document.querySelector('#past a').focus()")
        self.one.key("Enter")
        self.one.wait("!location.search && document.getElementById('told')?.textContent.includes('features')")
        self.show(
            "the link leads to the map of now, where it was",
            self.one.value("[location.hash, document.getElementById('past').hidden]"),
            ["#17.00/54.500000/7.500000", True],
        )
        self.show("nothing was changed", self.edits_and_features()[0], edits)
        today = self.opened(f"?at=today{OPENED}")
        today.wait("document.getElementById('told').className === 'fault'")
        self.show("with a way to the map of now", today.text("#past"), "Go to the map of now")
        self.show(
            "a time without a map says why",
            today.text("#told").startswith("400 the log begins with edit 1, seen at "),
            True,
        )

    def opened(self, place):
        """A page that has drawn its tiles, once the map is made."""
        made = self.browser.open(f"{self.front.url}/pages/{place}")
        made.wait("document.getElementById('told').textContent", 60)
        self.drawn(made)
        return made

    def without(self):
        """Where no earlier maps are kept."""
        made = self.browser.open(f"{self.front.url}/pages/?at=2026-11-24{OPENED}")
        made.wait("document.getElementById('told').className === 'fault'")
        self.show(
            "without vtmap serve-at the page says so",
            made.text("#told"),
            "no maps of earlier times are kept here (vtmap serve-at)",
        )


class Lookers(Histories):
    """Who may only look."""

    def all(self, nginx):
        self.one = self.opened(OPENED)
        self.find("garden")
        self.heading_is("parcel 1")
        buttons = self.one.value("[...document.querySelectorAll('#panel button')].map(each => each.innerText)")
        self.show("who may only look has no history", buttons, ["Close"])


def filled(front):
    """Puts the features into the map, by nginx."""
    for number, row in FEATURES.items():
        layer, geometry, tags = cast("tuple[str, dict, dict]", row)
        body = feature(layer, 14, 18, geometry, tags)
        assert status_of(curl(f"{front.url}/features/{number}", "-X", "PUT", body=body)) == 200


def page_history(cases: Cases, folder: str) -> None:
    """The history of a feature in the page."""
    nginx = shutil.which("nginx") or "/usr/sbin/nginx"
    if not shutil.which("chromium") or not os.path.exists(nginx):
        cases.say("no chromium or no nginx: the history in the page isn't tried")
        return
    folder = os.path.join(folder, "page-history")
    os.mkdir(folder)
    port, at, log = free_port(), free_port(), os.path.join(folder, "edits.jsonl")
    with Server(folder, "parcels", sectors=16384, more=["--admin", "--etags"]) as server:
        with Nginx(
            nginx, folder, server, [("127.0.0.1:8090", f"127.0.0.1:{port}"), ("127.0.0.1:8092", f"127.0.0.1:{at}")]
        ) as front:
            words = ["--history", log, "--nginx", os.path.join(front.folder, "edits.log"), "--behind-nginx"]
            follower = follow(server.url, "--log", log, "--every", "0.05")
            follower.stdout.readline()
            with Gateway(folder, server.url, *words, port=port):
                shutil.copytree(PAGE, os.path.join(front.folder, "pages"))
                filled(front)
                for name, (wide, high) in SIZES.items():
                    with Browser(os.path.join(folder, f"profile-{name}"), wide, high) as browser:
                        one = Histories(cases, browser, server, front, folder)
                        one.log = log
                        one.all(nginx) if name == "wide" else one.phone()
                        then = Past(cases, browser, server, front, folder)
                        name == "wide" and then.without()
                        served = ServeAt(History(folder, server), port=at)
                        then.least = one.least
                        then.all(nginx)
                        served.end()
            follower.kill()
            follower.communicate()
        shutil.rmtree(front.folder)
        closed = [("allow 127.0.0.1;", ""), ("127.0.0.1:8090", f"127.0.0.1:{port}")]
        with Nginx(nginx, folder, server, closed) as front:
            shutil.copytree(PAGE, os.path.join(front.folder, "pages"))
            with Browser(os.path.join(folder, "profile-looker"), 1280, HIGH) as browser:
                Lookers(cases, browser, server, front, folder).all(nginx)
