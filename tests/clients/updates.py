"""The part `updates` of run.py: imports that overwrite nothing, ids that stay, and files that are imported again.

What the map has is compared with the files, by a reader of its own.
"""
import json
import os
import shutil
import signal
import subprocess
import time
from collections import Counter

from .between import Between, once
from .import_stand import has_gdal, import_of, imported, is_near, row, shown, square, world, written
from .stand import Cases, Server, curl, feature, status_of

EDITS = "/admin/edits"


def status(server):
    return json.loads(curl(server.url + "/admin/status")[2])


def listed(server):
    """Each feature of the map by its id."""
    found, number = {}, 0
    while status_of(reply := curl(f"{server.url}/admin/features/from/{number}")) == 200:
        told = json.loads(reply[2])
        found[told["id"]] = told["feature"]
        number = told["id"] + 1
    return found


def layers(server):
    """How many features each layer has."""
    return dict(Counter(feature["layer"] for feature in listed(server).values()))


def points(count, **tags):
    return [row("Point", [at / 100, at / 100], nr=at, name=f"point {at}", **tags) for at in range(1, count + 1)]


def six_files(cases: Cases, folder: str) -> None:
    """Six files one after the other: each has its ids, and what one has no other gets."""
    counts = {"roads": 150, "rivers": 70, "parcels": 200, "wells": 10, "paths": 64, "trees": 65}
    files = {name: written(folder, f"{name}.geojson", points(count, of=name)) for name, count in counts.items()}
    with Server(folder, "six_files", 65536) as server:
        ends = [imported(path, server.url, "--layer", name)[0] for name, path in files.items()]
        cases.show("updates: six files, each after the other", (ends, layers(server)), ([0] * 6, counts))
        before = listed(server)
        taken = {
            "rivers": "70 of the ids are taken by other layers: 70 of roads",
            "parcels": "200 of the ids are taken by other layers: 150 of roads, 50 of rivers",
        }
        for name, said in taken.items():
            code, lines = imported(files[name], server.url, "--layer", name, "--first", "1")
            wanted = [said + ". Give another --first, or --overwrite to replace these features", "nothing was sent"]
            cases.show(f"updates: {name} with --first 1", (code, lines[-2:]), (1, wanted))
        cases.show("updates: nothing of it was sent", listed(server) == before, True)
        code, lines = imported(files["wells"], server.url, "--layer", "wells", "--first", "1", "--overwrite")
        cases.show("updates: --overwrite", (code, layers(server)["roads"], layers(server)["wells"]), (0, 140, 20))
        code, lines = imported(files["roads"], server.url, "--layer", "roads")
        note = "note: the map has roads already: these are further features of it (`vtmap update` changes them instead)"
        cases.show(
            "updates: a file of a layer that is there", (code, note in lines, layers(server)["roads"]), (0, True, 290)
        )
    with Server(folder, "unseen_ids", more=()) as server:
        code, lines = imported(files["wells"], server.url, "--layer", "wells")
        cases.show(
            "updates: without --admin --first has to be named",
            (code, lines[-1].endswith("Name the first one by --first: nothing was sent")),
            (1, True),
        )
        code, lines = imported(files["wells"], server.url, "--layer", "wells", "--first", "7")
        known = [number for number in range(1, 30) if shown(server, number)]
        cases.show("updates: and is taken as it comes", (code, known), (0, list(range(7, 17))))


def differences(cases: Cases, folder: str) -> None:
    """A file that is imported each day: what differs is sent, and nothing else."""
    rows = points(200)
    words = ["--layer", "p", "--id", "nr", "--update", "--base", os.path.join(folder, "daily.base")]
    path = written(folder, "daily.geojson", rows)
    with Server(folder, "daily", 65536) as server:
        cases.show(
            "updates: the first day",
            imported(path, server.url, *words)[1][-1],
            "200 new, 0 changed, 0 deleted, 0 unchanged",
        )
        edits = status(server)["edits"]
        code, lines = imported(path, server.url, *words, "--delete-missing")
        same = "0 new, 0 changed, 0 deleted, 200 unchanged"
        cases.show(
            "updates: an unchanged file sends nothing", (code, lines[-1], status(server)["edits"]), (0, same, edits)
        )
        other = [
            *rows[1:3],
            *[{**one, "properties": {**one["properties"], "name": "changed"}} for one in rows[3:6]],
            *rows[6:],
            *points(212)[200:],
        ]
        path = written(folder, "next.geojson", other)
        code, lines = imported(path, server.url, *words, "--delete-missing")
        cases.show(
            "updates: the next day",
            (code, lines[-1], status(server)["edits"]),
            (0, "12 new, 3 changed, 1 deleted, 196 unchanged", edits + 1),
        )
        found = {number: one["tags"]["name"] for number, one in listed(server).items()}
        cases.show(
            "updates: the map is as the file",
            found,
            {one["properties"]["nr"]: one["properties"]["name"] for one in other},
        )
        code, lines = imported(written(folder, "none.geojson", []), server.url, *words, "--delete-missing")
        cases.show(
            "updates: a file of nothing deletes nothing",
            (code, lines[-1], len(listed(server))),
            (1, "nothing was sent", 211),
        )
        code, lines = imported(path, server.url, "--layer", "q", "--first", "1000", "--id", "nr")
        cases.show(
            "updates: --id and --first", (code, layers(server), 1002 in listed(server)), (0, {"p": 211, "q": 211}, True)
        )
        code, lines = imported(path, server.url, "--layer", "r", "--update")
        cases.show(
            "updates: without ids that stay",
            (code, lines[-1].endswith("give --id FIELD, or the --first of the import before")),
            (2, True),
        )
        nowhere = written(folder, "nowhere.geojson", [*other[:-1], {**other[-1], "geometry": None}])
        code, lines = imported(nowhere, server.url, *words, "--delete-missing")
        said = "note: they have no geometry, and aren't put: 1 feature" in lines
        cases.show(
            "updates: no geometry is no failure, and deletes nothing",
            (code, said, lines[-1]),
            (0, True, "0 new, 0 changed, 0 deleted, 210 unchanged"),
        )


def refused_ones(cases: Cases, folder: str) -> None:
    """Features of the file that are refused: those that the map has stay. Where the id of one isn't known, nothing
    is deleted."""
    def rows(*changes):
        made = points(5)
        for at, name, value in changes:
            made[at]["properties"][name] = value
        return [{**one, "properties": {"kind": "p", **one["properties"]}} for one in made]

    def asked(name, *words, of):
        code, lines = imported(
            written(folder, name, of), server.url, "--layer-field", "kind", "--update", "--delete-missing", *words
        )
        notes = [line for line in lines if line.startswith("note: nothing is deleted")]
        return code, lines[-1], notes, sorted(one["tags"]["name"] for one in listed(server).values())

    names = [f"point {at}" for at in range(1, 6)]
    note = "note: nothing is deleted, since the map may have refused features whose ids aren't known: 1 feature"
    numbered = ["--id", "nr", "--base", os.path.join(folder, "refused.base")]
    named = ["--id", "name", "--ids", os.path.join(folder, "refused.ids")]
    with Server(folder, "refused", 65536) as server:
        asked("all.geojson", *numbered, of=rows())
        found = asked("no_layer.geojson", *numbered, of=rows((1, "kind", None))[:4])
        cases.show("updates: one without a layer stays on the map, and one that is gone is deleted", found,
                   (1, "0 new, 0 changed, 1 deleted, 3 unchanged, 1 refused", [], names[:4]))
        for name, value in (("none", None), ("below 0", -1)):
            found = asked("no_id.geojson", *numbered, of=rows((1, "nr", value))[:3])
            cases.show(f"updates: one whose id is {name}: nothing is deleted", found,
                       (1, "0 new, 0 changed, 0 deleted, 2 unchanged, 1 refused", [note], names[:4]))
        found = asked("twice.geojson", *numbered, of=[*rows()[:3], *rows()[:1]])
        cases.show(
            "updates: one id twice is known",
            found,
            (1, "0 new, 0 changed, 1 deleted, 3 unchanged, 1 refused", [], names[:3]),
        )
        found = imported(
            written(folder, "replaced.geojson", rows((1, "kind", None))[:3]),
            server.url,
            "--layer-field",
            "kind",
            *numbered,
            "--replace",
            "p",
        )
        cases.show(
            "updates: --replace, one without a layer stays",
            (found[1][-1], len(listed(server))),
            ("0 new, 0 changed, 0 deleted, 2 unchanged, 1 refused", 3),
        )
    with Server(folder, "refused_texts", 65536) as server:
        asked("all.geojson", *named, of=rows())
        found = asked("no_layer.geojson", *named, of=rows((1, "kind", None))[:4])
        cases.show("updates: --ids, one without a layer: nothing is deleted", found,
                   (1, "0 new, 0 changed, 0 deleted, 3 unchanged, 1 refused", [note], names))
        found = asked("no_name.geojson", *named, of=rows((1, "name", None))[:4])
        cases.show("updates: --ids, one without its text: nothing is deleted", found,
                   (1, "0 new, 0 changed, 0 deleted, 3 unchanged, 1 refused", [note], names))


def large_ones(cases: Cases, folder: str) -> None:
    """A large feature is one for people: its pieces are counted as one, and none is left when it becomes small."""
    words = ["--layer", "s", "--minzoom", "12", "--id", "nr", "--update"]
    with Server(folder, "pieces", 65536) as server:
        for degrees, said in (
            (0.05, "1 new, 0 changed"),
            (0.05, "0 new, 0 changed"),
            (0.06, "0 new, 1 changed"),
            (0.004, "0 new, 1 changed"),
        ):
            path = written(folder, "growing.geojson", [row("Polygon", [square(20, 50, degrees)], nr=21)])
            code, lines = imported(path, server.url, *words)
            cases.show(f"updates: a square of {degrees} degrees", (code, lines[-1].startswith(said)), (0, True))
        cases.show("updates: no piece of it is left", list(listed(server)), [21])
        tagged = written(folder, "tagged.geojson", [row("Point", [at, at], nr=at, whole=21) for at in (21, 30, 31)])
        said = imported(tagged, server.url, "--layer", "t", "--id", "nr", "--first", "1000", "--update")[1][-1]
        again = imported(
            tagged, server.url, "--layer", "t", "--id", "nr", "--first", "1000", "--update", "--delete-missing"
        )[1][-1]
        same = ("3 new, 0 changed, 0 deleted, 0 unchanged", "0 new, 0 changed, 0 deleted, 3 unchanged")
        cases.show("updates: tags that only look like those of pieces", (said, again), same)


def like_outlines(cases: Cases, folder: str) -> None:
    """A layer whose name ends as those of outlines do is nobody else's."""
    words = ["--minzoom", "12", "--id", "nr", "--update", "--delete-missing"]
    with Server(folder, "outlines", 65536) as server:
        lines, large = written(folder, "lines.geojson", points(9)), written(
            folder, "large.geojson", [row("Polygon", [square(20, 50, 0.05)], nr=21)]
        )
        ways = [
            (lines, server.url, "--layer", "coast-outline", "--first", "100", *words),
            (large, server.url, "--layer", "coast", *words),
        ]
        for way in ways:
            imported(*way)
        before = listed(server)
        ends = [imported(*way)[1][-1] for way in ways]
        same = [f"0 new, 0 changed, 0 deleted, {count} unchanged" for count in (9, 1)]
        cases.show(
            "updates: a layer of the name of outlines, beside one that has some",
            (ends, listed(server) == before),
            (same, True),
        )
        small = written(folder, "large.geojson", [row("Polygon", [square(20, 50, 0.004)], nr=21)])
        said = imported(small, server.url, "--layer", "coast", *words)[1][-1]
        wanted = ("0 new, 1 changed, 0 deleted, 0 unchanged", {"coast": 1, "coast-outline": 9})
        cases.show("updates: its own outline goes with it, the others stay", (said, layers(server)), wanted)


def by_texts(cases: Cases, folder: str) -> None:
    """Ids of texts, in a file of the map's own."""
    def named(names):
        return [{**row("Point", [at / 10, 1], name=name), "id": name} for at, name in enumerate(names)]

    ids = os.path.join(folder, "map.ids")
    words = ["--id", "id", "--ids", ids, "--update", "--delete-missing"]

    def numbers():
        with open(ids, encoding="utf-8") as file:
            return {(layer, name): number for layer, name, number in map(json.loads, file)}

    with Server(folder, "texts", 65536) as server:
        curl(server.url + "/features/40", "-X", "PUT", body=feature("other"))
        first = written(folder, "texts1.geojson", named([f"HY-{at:04}" for at in range(100)]))
        cases.show(
            "updates: texts as ids",
            imported(first, server.url, "--layer", "h", *words)[1][-1],
            "100 new, 0 changed, 0 deleted, 0 unchanged",
        )
        before = numbers()
        cases.show("updates: the next free ids", sorted(before.values()), list(range(41, 141)))
        second = written(folder, "texts2.geojson", named(["ä\u2028\n", *[f"HY-{at:04}" for at in range(99, 0, -1)]]))
        cases.show(
            "updates: in another order, one gone, one new",
            imported(second, server.url, "--layer", "h", *words)[1][-1].split(",")[0],
            "1 new",
        )
        cases.show(
            "updates: no id has changed", {key: number for key, number in numbers().items() if key in before}, before
        )
        cases.show(
            "updates: each id has its feature",
            {one["tags"]["name"]: number for number, one in listed(server).items() if one["layer"] == "h"},
            {name: number for (_, name), number in numbers().items() if name != "HY-0000"},
        )
        imported(second, server.url, "--layer", "again", *words)
        both = numbers()
        cases.show(
            "updates: the same texts of another layer are other features",
            both["h", "HY-0007"] != both["again", "HY-0007"],
            True,
        )
        lost = [*words[:3], ids + ".lost", *words[4:]]
        code, lines = imported(second, server.url, "--layer", "h", *lost)
        cases.show(
            "updates: a file of ids that was lost", (code, lines[-1], len(listed(server))), (1, "nothing was sent", 201)
        )
        code, lines = imported(second, server.url, "--layer", "h", *words[:2])
        cases.show("updates: texts without a file for them", (code, lines[-1]),
                   (1, r"id has texts ('ä\u2028\n'): --ids FILE keeps ids for them: nothing was sent"))
        own = [{**row("Point", [at, 1]), "id": number} for at, number in enumerate((500, 502, 501))]
        code, lines = imported(written(folder, "own.geojson", own), server.url, "--layer", "own", "--id", "id")
        places = {number: one["geometry"]["points"] for number, one in listed(server).items() if one["layer"] == "own"}
        cases.show(
            "updates: GeoJSON's own ids",
            (code, sorted(places), is_near(places[502], [world(1, 1)])),
            (0, [500, 501, 502], True),
        )


def others_meanwhile(cases: Cases, folder: str) -> None:
    """Somebody else edits a feature after the import has looked; a reply is lost; an import is killed."""
    words = ["--layer", "p", "--id", "nr", "--update", "--base", os.path.join(folder, "meanwhile.base")]
    path = written(folder, "meanwhile.geojson", points(100))
    theirs = feature("p", 0, 14, tags={"name": "theirs"})
    with Server(folder, "meanwhile", 65536) as server:
        is_first = once("POST", EDITS)

        def meddles(*asked):
            if is_first(*asked):
                curl(server.url + "/features/7", "-X", "PUT", body=theirs)

        with Between(server, before=meddles) as between:
            code, lines = imported(path, between.url, *words)
            before = between.url
        said = "feature 7 refused: somebody else has changed it meanwhile"
        wanted = (1, True, "99 new, 0 changed, 0 deleted, 0 unchanged, 1 changed by others meanwhile")
        cases.show(
            "updates: what somebody else changes meanwhile is left and told", (code, said in lines, lines[-1]), wanted
        )
        cases.show("updates: it is theirs", shown(server, 7), json.loads(theirs))
        edits = status(server)["edits"]
        changed = written(folder, "meanwhile2.geojson", points(100, more="x"))
        with Between(server, loses=once("POST", EDITS)) as between:
            code, lines = imported(changed, between.url, *words, "--was-at", before, "--file-wins")
        wanted = (0, "0 new, 100 changed, 0 deleted, 0 unchanged", edits + 2)
        cases.show("updates: a lost reply: sent again, made once", (code, lines[-1], status(server)["edits"]), wanted)
        many = written(folder, "killed.geojson", points(3000, more="y" * 500))
        words += ["--maxzoom", "2", "--publish", "--file-wins"]
        child = subprocess.Popen(import_of(many, server.url, *words), stdout=subprocess.DEVNULL)
        while shown(server, 500) is None and child.poll() is None:
            time.sleep(0.01)
        child.send_signal(signal.SIGKILL)
        child.wait()
        code, lines = imported(many, server.url, *words)
        sums = [int(part.split()[0].replace(",", "")) for part in lines[-1].split(", ")]
        cases.show(
            "updates: a killed import, run again",
            (code, sum(sums), sums[3] > 0, len(listed(server))),
            (0, 3000, True, 3000),
        )
        gone = server.url
    code, lines = imported(path, gone, *words)
    cases.show("updates: no server", code, 3)


def tables(cases, folder, server):
    """Points of columns, coordinates that the file doesn't name, and the layers of a GeoPackage by their names."""
    rows = {
        "lon_lat.csv": ("name,lon,lat\na,7.5,54.5\nb,,\n", []),
        "x_y.csv": ("name,RW,HW\na,402861.31,6040189.51\nb,,\n", ["--x", "RW", "--y", "HW", "--crs", "EPSG:25832"]),
    }
    for name, (text, words) in rows.items():
        path = os.path.join(folder, name)
        with open(path, "w", encoding="utf-8") as file:
            file.write(text)
        code, lines = imported(path, server.url, *words)
        layer = name.removesuffix(".csv")
        found = [one["geometry"]["points"] for one in listed(server).values() if one["layer"] == layer]
        cases.show(
            f"updates: {name}", (code, len(found) == 1 and is_near(found[0], [world(7.5, 54.5)], 200)), (0, True)
        )
        cases.show(
            f"updates: {name}, one without a place",
            "note: they have no geometry, and aren't put: 1 feature" in lines,
            True,
        )
    code, lines = imported(os.path.join(folder, "x_y.csv"), server.url)
    cases.show(
        "updates: a table whose columns aren't known",
        (code, "name the columns of its points by --x and --y" in lines[-1]),
        (1, True),
    )
    path = written(folder, "metres.geojson", [row("Point", [402861.31, 6040189.51])])
    code, lines = imported(path, server.url, "--crs", "EPSG:25832")
    found = [one["geometry"]["points"] for one in listed(server).values() if one["layer"] == "metres"]
    cases.show(
        "updates: --crs of GeoJSON", (code, len(found) == 1 and is_near(found[0], [world(7.5, 54.5)], 200)), (0, True)
    )
    pack = os.path.join(folder, "two.gpkg")
    for name, count in (("alpha", 200), ("beta", 1)):
        source = written(folder, f"{name}.geojson", points(count))
        subprocess.run(
            ["ogr2ogr", "-f", "GPKG", "-update", "-append", pack, source, "-nln", name], check=True, capture_output=True
        )
    code, lines = imported(pack, server.url)
    found = layers(server)
    cases.show(
        "updates: each layer of a GeoPackage by its name", (code, found.get("alpha"), found.get("beta")), (0, 200, 1)
    )


def updates(cases: Cases, folder: str) -> None:
    """Imports again and again."""
    if not has_gdal(cases):
        return
    place = os.path.join(folder, "updates")
    os.mkdir(place)
    six_files(cases, place)
    differences(cases, place)
    refused_ones(cases, place)
    large_ones(cases, place)
    like_outlines(cases, place)
    by_texts(cases, place)
    others_meanwhile(cases, place)
    with Server(place, "tables", 65536) as server:
        tables(cases, place, server)
    shutil.rmtree(place)
