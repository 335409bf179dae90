"""The part `three-ways` of run.py: a file that is imported again, while people edit the map. What they changed
stays, what the file changed is sent, and what both changed is a conflict that is named. What the map is to have is
written here, feature by feature."""
import json
import os
import shutil
import subprocess

from .import_stand import has_gdal, imported, row, square, written
from .stand import SYSTEM_PYTHON, VTMAP, Cases, Server, curl, feature
from .updates import listed, status

WORDS = ["--layer", "p", "--id", "nr", "--update", "--delete-missing"]


def rows(names):
    """Features of a file: a point for each id, with its name."""
    return [row("Point", [number / 100, number / 100], nr=number, name=name) for number, name in names.items()]


def numbered(count, **changes):
    """The names of features 1 to `count`, with some changed."""
    return {number: changes.get(f"n{number}", f"name {number}") for number in range(1, count + 1)}


class Office:
    """A map, and a file that is imported into it again and again."""

    def __init__(self, folder, name, server, words=WORDS):
        self.folder, self.name, self.server, self.words = folder, name, server, words

    def imports(self, names, *words, url=None):
        """The status and the lines of an import of a file with these features."""
        return imported(
            written(self.folder, f"{self.name}.geojson", rows(names)), url or self.server.url, *self.words, *words
        )

    def edits(self, number, name):
        """Somebody edits a feature on the map: gives it a name, or deletes it."""
        found = listed(self.server).get(number) or json.loads(feature("p", 0, 14, {"points": [[9, 9]]}))
        path = f"{self.server.url}/features/{number}"
        if name is None:
            curl(path, "-X", "DELETE")
        else:
            curl(path, "-X", "PUT", body=json.dumps({**found, "tags": {**found["tags"], "name": name}}))

    def names(self):
        return {number: one["tags"]["name"] for number, one in listed(self.server).items()}


def theirs_stays(cases: Cases, folder: str) -> None:
    """Colleagues change five features, delete two and add one. The file changes others, deletes one and has a new
    one."""
    with Server(folder, "theirs", 65536) as server:
        office = Office(folder, "theirs", server)
        office.imports(numbered(100))
        for number in (1, 2, 3, 4, 5):
            office.edits(number, f"theirs {number}")
        for number in (6, 7):
            office.edits(number, None)
        office.edits(500, "drawn on the map")
        edits = status(server)["edits"]
        code, lines = office.imports(numbered(100))
        cases.show("three ways: an unchanged file takes nothing back", (code, lines[-1], status(server)["edits"]),
                   (0, "0 new, 0 changed, 0 deleted, 93 unchanged, 8 left as the map has them", edits))
        newer = {**numbered(101, n10="in the file", n11="in the file"), 12: None}
        newer = {number: name for number, name in newer.items() if name}
        code, lines = office.imports(newer)
        wanted = {**newer, **{number: f"theirs {number}" for number in (1, 2, 3, 4, 5)}, 500: "drawn on the map"}
        del wanted[6], wanted[7]
        cases.show(
            "three ways: what the file changed is sent, and nothing else",
            (code, lines[-1], office.names() == wanted),
            (0, "1 new, 2 changed, 1 deleted, 90 unchanged, 8 left as the map has them", True),
        )


def conflicts(cases: Cases, folder: str) -> None:
    """Both change a feature; the file deletes one that was changed on the map, and changes one that was deleted
    there."""
    def office_of(server):
        office = Office(folder, server.disk.rpartition("/")[2], server)
        office.imports(numbered(30))
        for number, name in ((1, "theirs"), (2, "theirs"), (3, None), (4, "both")):
            office.edits(number, name)
        newer = numbered(30, n1="ours", n3="ours", n4="both", n5="ours")
        del newer[2]
        return office, newer

    said = [
        "conflict: p 1 ('ours'): name: 'theirs' on the map, 'ours' in the file",
        "conflict: p 3 ('ours'): it isn't on the map",
        "conflict: p 2 ('theirs'): it isn't in the file",
    ]
    with Server(folder, "conflicts", 65536) as server:
        office, newer = office_of(server)
        code, lines = office.imports(newer)
        end = "0 new, 1 changed, 0 deleted, 26 unchanged, 3 in conflict"
        cases.show(
            "three ways: conflicts are named",
            (code, [line for line in lines if line.startswith("conflict")], lines[-1]),
            (1, said, end),
        )
        theirs = {**numbered(30, n1="theirs", n2="theirs", n4="both", n5="ours")}
        del theirs[3]
        cases.show("three ways: and nothing of them is sent", office.names() == theirs, True)
        cases.show("three ways: they are told again", office.imports(newer)[0], 1)
        code, lines = office.imports(newer, "--map-wins")
        cases.show("three ways: --map-wins", (code, lines[-1], office.names() == theirs),
                   (0, "0 new, 0 changed, 0 deleted, 27 unchanged, 3 left as the map has them", True))
        code, lines = office.imports(newer)
        cases.show("three ways: from now on too", (code, lines[-1], office.names() == theirs),
                   (0, "0 new, 0 changed, 0 deleted, 27 unchanged, 3 left as the map has them", True))
        code, lines = office.imports({**newer, 1: "ours again"})
        cases.show(
            "three ways: until the file changes again",
            (code, len([line for line in lines if line.startswith("conflict")])),
            (1, 1),
        )
    with Server(folder, "file_wins", 65536) as server:
        office, newer = office_of(server)
        code, lines = office.imports(newer, "--dry-run", "--file-wins")
        would = [line for line in lines if line.startswith("would be")]
        wanted = [
            "would be sent: p 1 ('ours'): name: 'theirs' on the map, 'ours' in the file",
            "would be sent: p 3 ('ours')",
            "would be sent: p 5 ('ours'): name: 'name 5' on the map, 'ours' in the file",
            "would be deleted: p 2 ('theirs')",
        ]
        cases.show(
            "three ways: --dry-run names what would be sent",
            (code, would, lines[-1].endswith(": nothing was sent")),
            (0, wanted, True),
        )
        code, lines = office.imports(newer, "--file-wins")
        cases.show(
            "three ways: --file-wins",
            (code, lines[-1], office.names() == newer),
            (0, "1 new, 2 changed, 1 deleted, 26 unchanged", True),
        )
        code, _ = office.imports(newer, "--file-wins", "--map-wins")
        cases.show("three ways: both of them", code, 2)


def unknown(cases: Cases, folder: str) -> None:
    """What the file said before isn't known: each difference is a conflict. The map was put back from an older copy,
    or is another one."""
    with Server(folder, "unknown", 65536) as server, Server(folder, "another", 65536) as another:
        office = Office(folder, "unknown", server)
        base = os.path.join(folder, "unknown.geojson.base")
        office.imports(numbered(40))
        os.remove(base)
        office.edits(1, "theirs")
        office.edits(500, "drawn on the map")
        before = office.names()
        code, lines = office.imports(numbered(40, n2="ours"))
        found = sorted(line.split(" (")[0] for line in lines if line.startswith("conflict"))
        cases.show("three ways: without what the file said before", (code, found, office.names() == before),
                   (1, ["conflict: p 1", "conflict: p 2", "conflict: p 500"], True))
        code, lines = office.imports(numbered(40, n2="ours"), "--exactly")
        cases.show("three ways: --exactly makes the map as the file", (code, lines[-1], office.names()),
                   (0, "0 new, 2 changed, 1 deleted, 38 unchanged", numbered(40, n2="ours")))
        elsewhere = Office(folder, "unknown", another)
        for number in (1, 2, 3):
            elsewhere.edits(number, "old")
        code, lines = elsewhere.imports(numbered(40, n2="ours"))
        cases.show("three ways: another map isn't taken for this one", (code, elsewhere.names()[1], lines[-1]),
                   (1, "old", "37 new, 0 changed, 0 deleted, 0 unchanged, 3 in conflict"))
        code, lines = office.imports(numbered(40, n2="ours, newer"))
        cases.show(
            "three ways: which knows what it knew", (code, lines[-1]), (0, "0 new, 1 changed, 0 deleted, 39 unchanged")
        )
        address = server.url.replace("127.0.0.1", "localhost")
        code, _ = office.imports(numbered(40, n2="renamed"), url=address)
        cases.show("three ways: the map by another name", code, 1)
        code, lines = office.imports(numbered(40, n2="renamed"), "--was-at", server.url, url=address)
        cases.show("three ways: --was-at", (code, lines[-1]), (0, "0 new, 1 changed, 0 deleted, 39 unchanged"))
    with Server(folder, "put_back", 65536) as server:
        office = Office(folder, "put_back", server)
        office.imports(numbered(30))
        old = server.disk + ".old"
        shutil.copy(server.disk, old)
        for number in range(1, 4):
            office.edits(number, "theirs")
        office.imports(numbered(30, n9="ours"))
        server.end()
        os.replace(old, server.disk)
        with Server(folder, "put_back", port=server.port) as again:
            office.server = again
            code, lines = office.imports(numbered(30, n9="ours"))
            told = any(line.startswith("note: the map has 1 edits, and had 5 at the last import") for line in lines)
            cases.show(
                "three ways: a map that was put back from a copy",
                (code, told, [line for line in lines if line.startswith("conflict")]),
                (1, True, ["conflict: p 9 ('ours'): name: 'name 9' on the map, 'ours' in the file"]),
            )


def kept_elsewhere(cases: Cases, folder: str) -> None:
    """A file in a folder where nothing can be written: it is imported, and what it said is kept where --base says."""
    place = os.path.join(folder, "read_only")
    os.mkdir(place)
    path = written(place, "kept.geojson", rows(numbered(3)))
    # A folder of this name in its place can't be written either, by root too.
    os.mkdir(path + ".base")
    with Server(folder, "kept", 65536) as server:
        words = ["--layer", "p", "--id", "nr"]
        code, lines = imported(path, server.url, *words)
        cases.show("three ways: a name that is taken", (code, lines[-1].endswith(": nothing was sent")), (1, True))
        base = os.path.join(folder, "kept.base")
        cases.show("three ways: --base", imported(path, server.url, *words, "--base", base)[0], 0)
        path = written(place, "kept.geojson", rows(numbered(3, n2="changed")))
        code, lines = imported(path, server.url, *words, "--update", "--base", base)
        cases.show("three ways: and the next time", (code, lines[-1]), (0, "0 new, 1 changed, 0 deleted, 2 unchanged"))
        os.rmdir(path + ".base")
        if shutil.which("setpriv"):
            os.chmod(folder, 0o755)
            os.chmod(place, 0o555)
            line = [
                "setpriv",
                "--reuid",
                "65534",
                "--clear-groups",
                SYSTEM_PYTHON,
                *VTMAP[1:],
                "import",
                path,
                "--url",
                server.url,
                *words,
            ]
            told = subprocess.run(line, capture_output=True, text=True, check=False)
            said = [line for line in told.stdout.splitlines() if line.startswith("note: what the file says isn't kept")]
            cases.show(
                "three ways: where nothing can be written an import goes on, and says so",
                (told.returncode, len(said)),
                (0, 1),
            )


def whole_ones(cases: Cases, folder: str) -> None:
    """A large feature is one; texts are named; a feature that somebody moves to another layer is no id of another
    layer."""
    ids = os.path.join(folder, "map.ids")
    words = ["--minzoom", "12", "--id", "code", "--ids", ids, "--update", "--delete-missing"]

    def imports(*rows):
        return imported(written(folder, "wholes.geojson", rows), server.url, "--layer", "s", *words)

    with Server(folder, "wholes", 65536) as server:
        large, small = (
            row("Polygon", [square(20, 50, size)], code=code, name=code.lower())
            for size, code in ((0.05, "HY-1"), (0.004, "HY-2"))
        )
        imports(large, small)
        pieces = {number: one for number, one in listed(server).items() if one["tags"].get("whole")}
        for number, one in pieces.items():
            curl(
                f"{server.url}/features/{number}",
                "-X",
                "PUT",
                body=json.dumps({**one, "tags": {**one["tags"], "name": "theirs"}}),
            )
        code, lines = imports(large, small)
        cases.show("three ways: a large feature that somebody renamed", (code, lines[-1]),
                   (0, "0 new, 0 changed, 0 deleted, 1 unchanged, 1 left as the map has them"))
        code, lines = imports({**large, "properties": {**large["properties"], "height": 7}}, small)
        said = next((line for line in lines if line.startswith("conflict")), "")
        cases.show(
            "three ways: and the file changes",
            (code, said.split(": ")[1], len(pieces) > 1),
            (1, f"s {min(pieces)} ('HY-1', 'hy-1')", True),
        )
        number = next(number for number, one in listed(server).items() if one["tags"]["name"] == "hy-2")
        curl(
            f"{server.url}/features/{number}",
            "-X",
            "PUT",
            body=json.dumps({**listed(server)[number], "layer": "elsewhere"}),
        )
        code, lines = imports(large, small)
        cases.show("three ways: one that is in another layer by now", (code, lines[-1]),
                   (0, "0 new, 0 changed, 0 deleted, 0 unchanged, 2 left as the map has them"))


def half_a_file(cases: Cases, folder: str) -> None:
    """A file that ends in the middle, or is empty: what would empty a layer is taken for a mistake."""
    with Server(folder, "half", 65536) as server:
        office = Office(folder, "half", server)
        office.imports(numbered(200))
        said = "195 of 200 features of p would be deleted: is the file whole? --delete-many deletes them"
        code, lines = office.imports(numbered(5, n1="changed"))
        cases.show(
            "three ways: half a file deletes nothing",
            (code, lines[-2:], office.names() == numbered(200)),
            (1, [said, "nothing was sent"], True),
        )
        cases.show("three ways: nor does it with --exactly", office.imports(numbered(5), "--exactly")[0], 1)
        code, lines = office.imports(numbered(5, n1="changed"), "--delete-many")
        cases.show(
            "three ways: --delete-many",
            (code, lines[-1], len(office.names())),
            (0, "0 new, 1 changed, 195 deleted, 4 unchanged", 5),
        )
        code, lines = office.imports({})
        cases.show("three ways: a file of nothing", (code, lines[-1], len(office.names())), (1, "nothing was sent", 5))
        office.imports(numbered(40))
        code, lines = office.imports(numbered(20))
        cases.show(
            "three ways: half of a layer is deleted without a word more",
            (code, lines[-1]),
            (0, "0 new, 0 changed, 20 deleted, 20 unchanged"),
        )


def three_ways(cases: Cases, folder: str) -> None:
    """Imports again, while people edit the map."""
    if not has_gdal(cases):
        return
    place = os.path.join(folder, "three_ways")
    os.mkdir(place)
    for part in (theirs_stays, conflicts, unknown, kept_elsewhere, whole_ones, half_a_file):
        part(cases, place)
    shutil.rmtree(place)
