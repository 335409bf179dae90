"""The part `past` of run.py: the map of an earlier time, from a save, a disk file or the server, and the log of edits;
what two times differ in. What is wanted is what the server itself had then: a save of each edit, made while the map was
edited."""
import gzip
import json
import os
import shutil
import subprocess
import time
from datetime import datetime, timedelta

from .endings import has_pillow
from .stand import VTMAP, Cases, Server, curl, free_port
from .standby import Editor, features, follow, known, waited

EDITS = 24


def vtmap(command, *words):
    """The status and the lines of a command."""
    child = subprocess.run([*VTMAP, command, *words], capture_output=True, text=True, check=False)
    return child.returncode, (child.stdout + child.stderr).splitlines()


def content(path):
    """The bytes of a file; None if there is none."""
    if not os.path.exists(path):
        return None
    with open(path, "rb") as file:
        return file.read()


def point(name, at=7, layer="p", **tags):
    """A feature with a point."""
    return {
        "geometry": {"points": [[at * 2**20, 2**31]]},
        "layer": layer,
        "maxzoom": 9,
        "minzoom": 0,
        "tags": {"name": name, **tags},
    }


class History:
    """A server whose edits are logged, and what it had after each edit."""

    def __init__(self, folder, server, name="edits.jsonl"):
        self.folder, self.server, self.log = folder, server, os.path.join(folder, name)
        self.words = ["--log", self.log, "--url", server.url]
        self.follower = self.begun = None

    def path(self, name):
        """The path of a file."""
        return os.path.join(self.folder, name)

    def begin(self):
        """Begins to log."""
        self.follower = follow(self.server.url, "--log", self.log, "--every", "0.02")
        self.follower.stdout.readline()

    def pause(self):
        """Ends the logging for a while."""
        self.see()
        self.follower.kill()
        self.follower.communicate()

    def see(self):
        """Waits until the log has each edit."""
        waited(lambda: (content(self.log + ".at") or b"0").strip() == b"%d" % known(self.server)["edits"])

    def keep(self):
        """Keeps what the server has now under the number of its edit."""
        edit = known(self.server)["edits"]
        rows = [row for page in features(self.server) for row in json.loads(page)["features"]]
        with open(self.path(f"{edit}.jsonl"), "w", encoding="utf-8") as file:
            file.writelines(
                json.dumps(row, ensure_ascii=False, separators=(",", ":"), sort_keys=True) + "\n" for row in rows
            )
        return edit

    def save(self):
        """The same by `vtmap save`, which says beside it of which edit it is."""
        edit = known(self.server)["edits"]
        vtmap("save", self.path(f"{edit}.jsonl"), "--url", self.server.url)
        return edit

    def edit(self, *changes):
        """Makes an edit. Returns its number."""
        body = json.dumps({"changes": list(changes)})
        return json.loads(curl(self.server.url + "/edits", "-H", "Content-Type: application/json", body=body)[2])[
            "edit"
        ]

    def at(self, when, *words):
        """The status, the last line, and what was written."""
        out = self.path("out.jsonl")
        if os.path.exists(out):
            os.remove(out)
        code, lines = vtmap("at", str(when), out, *self.words, *words)
        return code, lines[-1], content(out)

    def wanted(self, edit):
        """What the server had after an edit."""
        return content(self.path(f"{edit}.jsonl"))


def each_edit(cases, history):
    """The map after each of many random edits, from either side."""
    editor = Editor(history.server.port)
    saved = [history.save()]
    history.begin()
    history.begun = datetime.now()
    for edit in range(1, EDITS + 1):
        editor.edit()
        saved.append(history.save() if edit in (17, EDITS) else history.keep())
    history.see()
    cases.show("past: a save says of which edit it is", json.loads(content(history.path("17.jsonl.at")))["edit"], 17)
    sources = [("the server", []), ("its disk file", ["--disk", history.server.disk])]
    sources += [(f"a save of edit {edit}", ["--save", history.path(f"{edit}.jsonl")]) for edit in (0, 17, EDITS)]
    for name, words in sources:
        chosen = saved if name == "the server" else saved[::6]
        differs = [edit for edit in chosen if history.at(edit, *words)[::2] != (0, history.wanted(edit))]
        cases.show(f"past: the map after each edit, from {name}", differs, [])
    code, line, made = history.at(17)
    there = len(made.splitlines())
    cases.show(
        "past: it says what it wrote",
        (code, line, json.loads(content(history.path("out.jsonl.at")))["edit"]),
        (0, f"{there:,} features: the map after edit 17", 17),
    )
    code, lines = vtmap("at", "5", history.path("out.geojson"), *history.words)
    with Server(history.folder, "loaded", 65536) as other:
        told = vtmap("load", history.path("out.geojson"), "--url", other.url)[0]
        vtmap("save", history.path("again.jsonl"), "--url", other.url)
    cases.show(
        "past: as GeoJSON, which vtmap load takes",
        (code, told, content(history.path("again.jsonl")) == history.wanted(5)),
        (0, 0, True),
    )


def stamp(moment):
    """A time as a word of a command."""
    return moment.isoformat(timespec="milliseconds")


def times(cases, history):
    """By times: the last edit by then, days, and what isn't known."""
    marks = []
    for name in ("one", "two", "three"):
        time.sleep(1.2)
        marks.append((datetime.now(), known(history.server)["edits"]))
        history.edit({"put": 1000, "feature": point(name)})
        history.keep()
    history.see()
    found = [history.at(stamp(moment))[2] == history.wanted(edit) for moment, edit in [(history.begun, 0), *marks]]
    cases.show("past: the map at a time", found, [True] * 4)
    moment, edit = marks[1]
    found = history.at(stamp(moment))[1].split(": ", 1)[1]
    cases.show(
        "past: it names the time",
        found,
        f"the map after edit {edit}, which was that of {moment.strftime('%Y-%m-%d %H:%M:%S')}",
    )
    later = stamp(marks[2][0] + timedelta(hours=26))
    rows = [
        ("now", (0, f"the map after edit {known(history.server)['edits']}")),
        ("2001-01-01", (1, "the log begins with edit 1, seen at ")),
        (later, (1, "isn't yet")),
        ("9999", (1, f"the log hasn't got the edits {known(history.server)['edits'] + 1} to 9,999")),
        ("monday", (2, "'monday' is no time such as 2026-11-24 or 2026-11-24T14:30, and no number of an edit")),
    ]
    for when, (code, text) in rows:
        found = history.at(when)
        cases.show(
            f"past: at {when if when != later else 'a time to come'}",
            (found[0], text in found[1] or found[1], found[2] is None),
            (code, True, code != 0),
        )
    away = ["--url", f"http://127.0.0.1:{free_port()}"]
    old = ["--save", history.path("0.jsonl")]
    found = [history.at(stamp(moment), *old, *away)[::2] for moment in (marks[1][0], datetime.now())]
    cases.show("past: without a server, from a save", found == [(0, history.wanted(marks[1][1])), (3, None)], True)


def paused(cases, history):
    """While nobody logged: a time in between isn't known, unless a save says it; edits that were published then are
    missing."""
    edit = known(history.server)["edits"]
    before = datetime.now()
    history.pause()
    vtmap("follow", "--once", *history.words)
    time.sleep(1.2)
    history.edit({"put": 1001, "feature": point("late")})
    middle = datetime.now()
    saved = history.save()
    history.edit({"put": 1001, "feature": point("later")})
    time.sleep(1.2)
    history.begin()
    history.see()
    found = history.at(stamp(before))
    cases.show("past: before a pause of the log", (found[0], found[2] == history.wanted(edit) or found[1]), (0, True))
    found = history.at(stamp(middle))
    cases.show(
        "past: in the pause",
        (
            found[0],
            found[1].startswith(f"edit {edit + 1}: made after "),
            "the log doesn't say when" in found[1],
            found[2],
        ),
        (1, True, True, None),
    )
    with open(history.path(f"{saved}.jsonl.at"), encoding="utf-8") as file:
        of_save = json.load(file)
    found = history.at(of_save["after"], "--save", history.path(f"{saved}.jsonl"))
    cases.show("past: in the pause, when a save was made", (found[0], found[2] == history.wanted(saved)), (0, True))


def gap(cases, history):
    """Edits that were published before they were read: named, and refused on each way across them."""
    history.pause()
    first = history.save()
    for name in ("a", "b", "c"):
        history.edit({"put": 1002, "feature": point(name)})
        last = history.save()
    history.edit({"put": 1003, "feature": point("d")})
    curl(history.server.url + "/publish", "-X", "POST")
    history.server.restart()
    history.begin()
    history.see()
    history.edit({"delete": 1002})
    after = history.save()
    history.see()
    missing = f"the log misses the edits {first + 1} to {last + 1}, seen at "
    for name, edit, words in [
        ("from the server, back", first, []),
        ("from a save, on", after, ["--save", history.path(f"{first}.jsonl")]),
    ]:
        code, line, made = history.at(edit, *words)
        cases.show(f"past: a gap, {name}", (code, line.startswith(missing) or line, made), (1, True, None))
    code, _, made = history.at(last, "--save", history.path(f"{last}.jsonl"))
    cases.show("past: a save in the gap is of its own edit", (code, made == history.wanted(last)), (0, True))
    differs = [
        edit
        for edit, save in ((first - 3, first), (after, after))
        if history.at(edit, "--save", history.path(f"{save}.jsonl"))[::2] != (0, history.wanted(edit))
    ]
    cases.show("past: on either side of a gap", differs, [])
    code, lines = vtmap("diff", str(first), "now", *history.words)
    cases.show("past: no difference across a gap", (code, len(lines), lines[-1].startswith(missing)), (1, 1, True))


def rotated(cases, history):
    """The log in files as logrotate makes them: those alone are read that are needed."""
    folder = history.path("rotated")
    os.mkdir(folder)
    rows = content(history.log).splitlines(keepends=True)
    path = os.path.join(folder, "edits.jsonl")
    for name, part in ((".3.gz", rows[:8]), (".2.gz", rows[8:15]), (".1", rows[15:20]), ("", rows[20:])):
        data = b"".join(part)
        with open(path + name, "wb") as file:
            file.write(gzip.compress(data) if name.endswith(".gz") else data)
    words = ["--log", path, "--rotated", "--url", history.server.url]
    code, lines = vtmap("at", "3", history.path("out.jsonl"), *words)
    cases.show("past: files of logrotate", (code, content(history.path("out.jsonl")) == history.wanted(3)), (0, True))
    with open(path + ".2.gz", "wb"):
        pass
    differs = [
        edit
        for edit in (16, 20)
        if vtmap("at", str(edit), history.path("out.jsonl"), *words)[0]
        or content(history.path("out.jsonl")) != history.wanted(edit)
    ]
    cases.show("past: those alone that are needed", differs, [])
    code, lines = vtmap("at", "3", history.path("out.jsonl"), *words)
    cases.show(
        "past: one that is empty", (code, lines[-1].startswith("the log misses the edits 8 to 14, seen at ")), (1, True)
    )


# What is tried with the disk file in place of the server, whose last edit is compared with the log's.
ON_DISK = "the last version that was changed, with the disk file"


def changed(rows, name):
    """The rows of a log, of which the first one that has a name has another one."""
    place = next(at for at, row in enumerate(rows) if name in row)
    return [row.replace(name, b'"odd"') if at == place else row for at, row in enumerate(rows)]


def wrong(cases, history):
    """What isn't of one map: a save that was changed, of another edit, without a number; a log that was changed."""
    path, told = history.path("changed.jsonl"), {}
    shutil.copy(history.path("17.jsonl"), path)
    code, line, _ = history.at(20, "--save", path)
    told["without a number"] = (
        code,
        line == f"{path}.at is missing, which says of which edit {path} is: give the number by --of",
    )
    code, line, made = history.at(20, "--save", path, "--of", "17")
    told["with --of"] = code, made == history.wanted(20)
    code, line, _ = history.at(20, "--save", path, "--of", "12")
    told["of another edit"] = code, "isn't as the log has it" in line
    shutil.copy(history.path("17.jsonl.at"), path + ".at")
    with open(path, "a", encoding="utf-8") as file:
        file.write('{"feature":%s,"id":99999}\n' % json.dumps(point("x")))
    code, line, _ = history.at(20, "--save", path)
    told["a save that was changed"] = code, "isn't the file any more" in line
    _, *rows = content(history.log).splitlines(keepends=True)
    for name, kept, text in [
        ("a line that is gone", rows[:9] + rows[10:], "the log misses edit 10,"),
        ("two lines in another order", rows[:9] + rows[10:8:-1] + rows[11:], "the log has edit 10 after edit 11"),
        ("a line that is there twice", rows[:9] + rows[8:], "the log has edit 9 after edit 9"),
        ("a first version that was changed", changed(rows, b'"one"'), "1,000 than the edits before it have made"),
        ("a version in between that was changed", changed(rows, b'"two"'), "1,000 than the edits before it have made"),
        ("the last version that was changed", changed(rows, b'"three"'), "edit 27 of the log isn't that of http://"),
        (ON_DISK, changed(rows, b'"three"'), "isn't as the log has it after edit 27"),
        ("a log that begins later", rows[9:], "the log begins with edit 10: the edits 6 to 9 before it aren't in it"),
    ]:
        other = history.path("other.jsonl")
        with open(other, "wb") as file:
            file.writelines(kept)
        source = ["--disk", history.server.disk] if name == ON_DISK else ["--url", history.server.url]
        code, lines = vtmap("at", "5", history.path("out2.jsonl"), "--log", other, *source)
        told[name] = code, text in lines[-1] or lines[-1]
    cases.show(
        "past: a log of another map, or one that was changed",
        told,
        {name: (0, True) if name == "with --of" else (1, True) for name in told},
    )


def differences(cases: Cases, folder: str) -> None:
    """What two times differ in."""
    with Server(folder, "diff", 65536) as server:
        history = History(folder, server, "diff.jsonl")
        history.begin()
        history.edit(
            {"put": 1, "feature": point("Church", layer="place")}, {"put": 2, "feature": point("Mill", layer="place")}
        )
        first = history.edit({"put": 3, "feature": point("Well", layer="well")})
        history.edit({"put": 1, "feature": point("St Mary", layer="place")})
        history.edit({"put": 4, "feature": point("Pump", layer="well")}, {"delete": 2})
        history.edit({"put": 3, "feature": point("Fountain", layer="well")})
        last = history.edit({"put": 3, "feature": point("Well", layer="well")})
        history.see()
        code, lines = vtmap("diff", str(first), "now", *history.words)
        lines_of = [
            "changed place 1 ('St Mary'): name: 'Church' -> 'St Mary' (edit 3 by -)",
            "deleted place 2 ('Mill') (edit 4 by -)",
            "new well 4 ('Pump') (edit 4 by -)",
        ]
        cases.show(
            "past: what differs",
            (code, lines),
            (0, [*lines_of, f"1 new, 1 changed, 1 deleted, between edit {first} and edit {last}"]),
        )
        found = [
            vtmap("diff", str(first), "now", *history.words, *words)[1][:-1]
            for words in (["--layer", "well"], ["--feature", "1-2"], ["--person", "anna"])
        ]
        cases.show("past: by layer, feature and person", found, [lines_of[2:], lines_of[:2], []])
        found = vtmap("diff", str(first), "now", *history.words, "--count", "layer")[1][:-1]
        cases.show(
            "past: counted by layer", found, ["place: 0 new, 1 changed, 1 deleted", "well: 1 new, 0 changed, 0 deleted"]
        )
        exported(cases, history, first)
        cases.show(
            "past: an earlier second time",
            vtmap("diff", "now", str(first), *history.words)[1],
            [f"the first time is the later one: edit {last} after edit {first}"],
        )
        history.pause()


def exported(cases, history, first):
    """The features that differ as GeoJSON, before and after."""
    path = history.path("diff.geojson")
    vtmap("diff", str(first), "now", *history.words, "--geojson", path)
    rows = [
        (
            row["properties"]["_version"],
            row["properties"]["_id"],
            row["properties"]["_change"],
            row["properties"]["name"],
            row["geometry"]["type"],
        )
        for row in json.loads(content(path))["features"]
    ]
    cases.show(
        "past: as GeoJSON",
        rows,
        [
            ("before", 1, "changed", "Church", "Point"),
            ("after", 1, "changed", "St Mary", "Point"),
            ("before", 2, "deleted", "Mill", "Point"),
            ("after", 4, "new", "Pump", "Point"),
        ],
    )


def place(column, row):
    """A point of the pictures."""
    return [2**31 + column * 40_000, 2**31 + row * 40_000]


RING = [place(0, 0), place(9, 1), place(9, 9), place(1, 8)]
# Shapes whose parts a tile shows, turns, cuts and leaves out; the last one has no area, and is left out.
BUILDINGS = [
    [RING, [place(3, 3), place(3, 5), place(5, 5), place(3, 3)]],
    [[place(12, 0), place(12, 4), place(16, 4)], [place(13, 1), place(13, 1), place(13, 1)]],
]
ROADS = [
    [place(-40, 5), place(0, 6), place(0, 6), place(60, -9)],
    [place(2, 2), place(2, 2)],
    [place(5, 12), place(5, -30), place(50, 60)],
]
SHAPES = [
    ("building", {"polygons": BUILDINGS}),
    ("road", {"lines": ROADS}),
    ("place", {"points": [place(6, 2), place(30, 2)]}),
    ("park", {"polygons": [[list(reversed(RING))]]}),
    ("other", {"polygons": [[[place(0, 0), place(1, 1), place(2, 2)]]]}),
]


def drawn(history, zoom, *words):
    """The status, the first line and the picture that `vtmap draw` makes."""
    path = history.path("picture.png")
    if os.path.exists(path):
        os.remove(path)
    view = ["--zoom", str(zoom), "--centre", "0.002,-0.002", "--size", "500x300"]
    code, lines = vtmap("draw", path, *view, *words)
    return code, lines[0], content(path)


def pictures(cases: Cases, folder: str) -> None:
    """A picture of an earlier map is the one that was drawn then from the server's tiles."""
    if not has_pillow():
        cases.say("past: no Pillow: nothing is drawn")
        return
    with Server(folder, "pictures", 65536) as server:
        history, then = History(folder, server, "pictures.jsonl"), {}
        history.begin()
        for number, (layer, geometry) in enumerate(SHAPES, 1):
            tags = {"name": layer, "kind": "main"}
            made = {"geometry": geometry, "layer": layer, "maxzoom": 17, "minzoom": 0, "tags": tags}
            edit = history.edit({"put": number, "feature": made})
            then[edit] = drawn(history, 14, "--url", server.url)[2]
        history.edit({"delete": 1}, {"put": 3, "feature": point("far")})
        history.see()
        cases.show("past: pictures differ", (None in then.values(), len(set(then.values()))), (False, len(SHAPES) - 1))
        wanted = [drawn(history, zoom, "--url", server.url)[2] for zoom in (9, 17)]
        found = [drawn(history, zoom, "--at", "now", *history.words)[2] for zoom in (9, 17)]
        cases.show("past: a picture without tiles is the one of the tiles", found == wanted, True)
        differs = [
            edit
            for edit, picture in then.items()
            if drawn(history, 14, "--at", str(edit), *history.words) != (0, f"the map after edit {edit}", picture)
        ]
        cases.show("past: a picture of an earlier map is the one that was drawn then", differs, [])
        code, lines = vtmap("draw", history.path("now.png"), "--at", "1")
        cases.show("past: a picture needs the log", (code, lines[-1]), (2, "vtmap draw: error: --at needs --log"))
        history.pause()


def past(cases: Cases, folder: str) -> None:
    """The map of an earlier time."""
    place = os.path.join(folder, "past_part")
    os.mkdir(place)
    with Server(place, "past", 65536) as server:
        history = History(place, server)
        each_edit(cases, history)
        times(cases, history)
        rotated(cases, history)
        wrong(cases, history)
        paused(cases, history)
        gap(cases, history)
        history.pause()
    differences(cases, place)
    pictures(cases, place)
    shutil.rmtree(place)
