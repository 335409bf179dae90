"""The part `checkins` of run.py: new features of `vtmap checkin` whose edit was refused, or whose reply was lost,
and what their author and others do before the next check-in. Each is made once, under an id of its own, and replaces
nothing of others. A row is added by SQL, as QGIS adds it.
"""
import json
import os
import shutil
import sqlite3
import subprocess

from vtmap.files import geopackage
from vtmap.files.checkout_file import normal
from vtmap.geometry.wholes import wholes_of

from .between import Between
from .import_stand import has_gdal
from .stand import VTMAP, Cases, Server, curl, feature
from .updates import listed

EDITS = "/admin/edits"
PAGE = "/admin/features/page/"
LONG = "x" * 1100
QUIET = "0 new, 0 changed, 0 deleted, 0 conflicts, 0 refused"


def gis(*words):
    """The status and the lines of a command."""
    told = subprocess.run([*VTMAP, *words], capture_output=True, text=True, timeout=300)
    return told.returncode, (told.stdout + told.stderr).splitlines()


def point(name):
    """A feature of the layer `place`."""
    return feature("place", 10, 16, {"points": [[2 ** 31, 2 ** 31]]}, {"name": name})


def square(side):
    """A polygon of the map."""
    west = north = 2 ** 31 + 1000
    return {"polygons": [[[[west, north], [west + side, north], [west + side, north + side], [west, north + side]]]]}


class Desk:
    """A file that was checked out of a map of three places, and of one area if it `has_areas`."""

    def __init__(self, folder, name, server, has_areas=False):
        self.server, self.file = server, os.path.join(folder, name + ".gpkg")
        for number in (1, 2, 3):
            curl(f"{server.url}/features/{number}", "-X", "PUT", body=point(f"old {number}"))
        if has_areas:
            curl(
                f"{server.url}/features/4",
                "-X",
                "PUT",
                body=feature("area", 10, 16, square(1000), {"name": "old area"}),
            )
        gis("checkout", self.file, "--url", server.url)

    def sql(self, *statements):
        """Changes the file as a person does."""
        with sqlite3.connect(self.file) as file:
            for statement, *values in statements:
                file.execute(statement, values)
        file.close()

    def add(self, name):
        """A new place."""
        self.sql(
            ("INSERT INTO place (geom, name, minzoom, maxzoom) SELECT geom, ?, 10, 16 FROM place WHERE fid = 1", name)
        )

    def add_area(self, name, side):
        """A new area."""
        blob = geopackage.blob_of(square(side), True)
        self.sql(("INSERT INTO area (geom, name, minzoom, maxzoom) VALUES (?, ?, 12, 16)", blob, name))

    def rename(self, name, other, table="place"):
        self.sql((f"UPDATE {table} SET name = ? WHERE name = ?", other, name))

    def checkin(self, url=None):
        """The status and the last line of a check-in, and all lines."""
        code, lines = gis("checkin", self.file, "--url", url or self.server.url)
        return code, lines[-1], lines

    def lost(self, is_made=True):
        """A check-in whose first edit gets no reply, and is made or not; the server doesn't answer from then on.
        Returns its status."""
        gone = []

        def instead(_, path):
            if gone or (path == EDITS and not is_made):
                gone.append(path)
                return 0, b""
            return None

        def loses(_, path):
            if path == EDITS:
                gone.append(path)
            return bool(gone)

        with Between(self.server, loses=loses, instead=instead) as between:
            return self.checkin(between.url)[0]

    def names(self):
        """The names of new features of the map, by their ids."""
        found = {number: one["tags"].get("name", "") for number, one in listed(self.server).items()}
        return {number: name for number, name in found.items() if not str(name).startswith("old")}


def refused_before(cases: Cases, folder: str) -> None:
    """A new feature that was refused has an id that is noted; another new one is added."""
    with Server(folder, "refused_before") as server:
        desk = Desk(folder, "refused_before", server)
        desk.add(LONG)
        cases.show(
            "checkins: a new feature that the server refuses",
            desk.checkin()[:2],
            (1, "0 new, 0 changed, 0 deleted, 0 conflicts, 1 refused"),
        )
        desk.rename(LONG, "first")
        desk.add("second")
        cases.show(
            "checkins: it is corrected, and another one is added",
            desk.checkin()[:2],
            (0, "2 new, 0 changed, 0 deleted, 0 conflicts, 0 refused"),
        )
        cases.show("checkins: each has an id of its own", desk.names(), {4: "first", 5: "second"})
        cases.show("checkins: and the file has nothing more to send", desk.checkin()[1:], (QUIET, [QUIET]))


def noted_twice(cases: Cases, folder: str) -> None:
    """Files in which an earlier program noted one id for two rows."""
    with Server(folder, "noted_twice") as server:
        desk = Desk(folder, "noted_twice", server)
        desk.add("first")
        desk.add("second")
        desk.sql(*(("INSERT INTO gpkg_vtserve_features VALUES ('place', ?, 9, '{}', NULL)", fid) for fid in (4, 5)))
        cases.show(
            "checkins: an id that is noted twice",
            desk.checkin()[1],
            "2 new, 0 changed, 0 deleted, 0 conflicts, 0 refused",
        )
        cases.show("checkins: is that of the first", desk.names(), {4: "second", 9: "first"})
    with Server(folder, "never_made") as server:
        desk = Desk(folder, "never_made", server)
        desk.add("first")
        desk.add("second")
        curl(server.url + "/features/4", "-X", "PUT", body=point("first"))
        never = json.dumps({"4": json.loads(point("second"))})
        row = "INSERT INTO gpkg_vtserve_features VALUES ('place', ?, 4, ?, NULL)"
        desk.sql(("DELETE FROM place WHERE fid > 3",))
        for fid, name in ((6, "first"), (7, "second")):
            desk.sql(
                (
                    (
                        "INSERT INTO place (fid, geom, name, minzoom, maxzoom) SELECT ?, geom, ?, 10, 16 FROM place"
                        " WHERE fid = 1"
                    ),
                    fid,
                    name,
                )
            )
        desk.sql((row, 6, "{}"), (row, 7, never))
        cases.show(
            "checkins: one that was never made, but remembered",
            desk.checkin()[1],
            "2 new, 0 changed, 0 deleted, 0 conflicts, 0 refused",
        )
        cases.show("checkins: is made", desk.names(), {4: "first", 5: "second"})


def taken_meanwhile(cases: Cases, folder: str) -> None:
    """Somebody else takes the next free id after the server told it, before its features are listed."""
    with Server(folder, "taken_meanwhile") as server:
        desk = Desk(folder, "taken_meanwhile", server)
        desk.add("mine")

        def meddles(method, path):
            if path == PAGE + "0":
                curl(server.url + "/features/4", "-X", "PUT", body=point("theirs"))

        with Between(server, before=meddles) as between:
            code, last, _ = desk.checkin(between.url)
        cases.show("checkins: an id that others take meanwhile", (code, desk.names()), (0, {4: "theirs", 5: "mine"}))


def lost_reply(cases: Cases, folder: str) -> None:
    """A new feature was made, and no reply said so."""
    with Server(folder, "lost_reply") as server:
        desk = Desk(folder, "lost_reply", server)
        desk.add("mine")
        cases.show("checkins: a reply that is lost", (desk.lost(), desk.names()), (3, {4: "mine"}))
        desk.rename("mine", "mine again")
        wanted = (0, "1 new, 1 changed, 0 deleted, 0 conflicts, 0 refused")
        cases.show(
            "checkins: the feature is edited, and checked in",
            (desk.checkin()[:2], desk.names()),
            (wanted, {4: "mine again"}),
        )
        cases.show("checkins: and the file has nothing more to send", desk.checkin()[1:], (QUIET, [QUIET]))
        desk.add("second")
        desk.lost()
        desk.rename("second", "second again")
        desk.lost(is_made=False)
        desk.rename("second again", "at last")
        code, _, _ = desk.checkin()
        cases.show(
            "checkins: lost twice, made and not made", (code, desk.names()), (0, {4: "mine again", 5: "at last"})
        )
        desk.add("gone")
        desk.lost()
        desk.sql(("DELETE FROM place WHERE name = 'gone'",))
        wanted = (0, "1 new, 0 changed, 1 deleted, 0 conflicts, 0 refused")
        cases.show(
            "checkins: a new feature is deleted again",
            (desk.checkin()[:2], desk.names()),
            (wanted, {4: "mine again", 5: "at last"}),
        )


def changed_by_others(cases: Cases, folder: str) -> None:
    """Somebody else has changed a new feature whose reply was lost: theirs stays."""
    with Server(folder, "changed_by_others") as server:
        desk = Desk(folder, "changed_by_others", server)
        desk.add("mine")
        desk.lost()
        curl(server.url + "/features/4", "-X", "PUT", body=point("theirs"))
        desk.rename("mine", "mine again")
        cases.show(
            "checkins: an id that others have by now",
            (desk.checkin()[0], desk.names()),
            (0, {4: "theirs", 5: "mine again"}),
        )


def earlier_file(cases: Cases, folder: str) -> None:
    """A file that an earlier program checked out, with the id of a feature that was made: it has no table of what
    was sent."""
    with Server(folder, "earlier_file") as server:
        desk = Desk(folder, "earlier_file", server)
        desk.add("mine")
        curl(server.url + "/features/4", "-X", "PUT", body=point("mine"))
        desk.sql(
            ("INSERT INTO gpkg_vtserve_features VALUES ('place', 4, 4, '{}', NULL)",),
            ("DROP TABLE IF EXISTS gpkg_vtserve_sent",),
        )
        desk.add("more")
        cases.show(
            "checkins: a file of an earlier program", (desk.checkin()[0], desk.names()), (0, {4: "mine", 5: "more"})
        )


def islands(server):
    """The names of the areas of the map as people see them, and the shape of each."""
    wholes = [whole.feature for whole in wholes_of(listed(server).items()) if whole.feature["layer"] == "area"]
    return sorted((feature["tags"]["name"], normal(feature["geometry"])) for feature in wholes)


def large(cases: Cases, folder: str) -> None:
    """A new feature that is cut into pieces. The reply to the first request is lost, which had all of them, or some."""
    old = ("old area", normal(square(1000)))
    for name, side in (("one request", 300000), ("several requests", 1500000)):
        for edited in ("", ", and it is edited"):
            with Server(folder, f"large {name}{edited}", 65536) as server:
                desk = Desk(folder, f"large {name}{edited}", server, True)
                desk.add_area("island", side)
                code, pieces = desk.lost(), len(listed(server)) - 4
                if edited:
                    desk.rename("island", "island again", "area")
                again = desk.checkin()[0]
                wanted = [("island again" if edited else "island", normal(square(side))), old]
                cases.show(
                    f"checkins: a large new feature of {name}{edited}",
                    (code, pieces > 1, again, islands(server) == wanted),
                    (3, True, 0, True),
                )
                cases.show("checkins: and the file has nothing more to send", desk.checkin()[1:], (QUIET, [QUIET]))


def leftovers(cases: Cases, folder: str) -> None:
    """Somebody else's piece has the id 2^40 above the next free one, which a piece of a new feature would have."""
    piece = feature("area-outline", 12, 16, {"lines": [[[0, 0], [9, 9]]]}, {"name": "old piece", "whole": 5})
    with Server(folder, "leftovers", 65536) as server:
        desk = Desk(folder, "leftovers", server, True)
        curl(f"{server.url}/features/{5 + 2 ** 40}", "-X", "PUT", body=piece)
        desk.add_area("island", 300000)
        code = desk.checkin()[0]
        wanted = [("island", normal(square(300000))), ("old area", normal(square(1000)))]
        cases.show(
            "checkins: a large new feature beside a piece that is left of another",
            (code, islands(server) == wanted),
            (0, True),
        )
        cases.show("checkins: which stays", listed(server)[5 + 2**40], json.loads(piece))


def checkins(cases: Cases, folder: str) -> None:
    """New features, each made once."""
    place = os.path.join(folder, "checkins")
    os.mkdir(place)
    for part in (refused_before, noted_twice, taken_meanwhile, lost_reply, changed_by_others, earlier_file):
        part(cases, place)
    if has_gdal(cases):
        large(cases, place)
        leftovers(cases, place)
    shutil.rmtree(place)
