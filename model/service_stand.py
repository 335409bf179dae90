"""A model of a service on a disk in memory, which answers the lines of `service_script.py`."""
from collections import namedtuple

from calls import find_archive, format_disk, pieces, upgrade
from crashes import FROM, MADE, NONE, NOT_MADE, Failed, Faulty, Memory
from disk import LAST_VERSION, SECTOR, VERSIONS, Change, Fault
from machine import NO_NEGATIVE, Refused, Service
from map_archive import runs_of, tiles_of
from words import Fields, Tuple, Variant, briefly, debug, digest, err, ok, read, some, spelled

World = namedtuple("World", "x y")
Tag = namedtuple("Tag", "key value")
Feature = namedtuple("Feature", "layer minzoom maxzoom geometry tags")
Published = namedtuple("Published", "generation edits archive_len")
Report = namedtuple("Report", "tiles entries contents")
Drafting = namedtuple("Drafting", "entries made places")

LONGEST = 240
CALLS = ("publish", "prepare", "drafted", "drop", "drafting", "archive", "verify", "metadata", "version", "nothing")
EVENTS = ("put", "delete", "batch", "tile", "look", "begin", "step", "cancel")
SERVICE_WORDS = CALLS + EVENTS
CLOSED_WORDS = ("write", "sector", "sectors", "export")


# ---- values as they are printed


def shortly(text):
    """A text, or its length and hash if it is long."""
    held = text.encode()
    return text if len(held) <= LONGEST else f"{len(held)} letters {digest(held):016x}"


def value_shown(value):
    if isinstance(value, bool):
        return Tuple("Truth", value)
    if isinstance(value, str):
        return Tuple("Text", value)
    return Tuple("Natural" if value >= 0 else "Negative", value)


def lists_shown(lists, depth):
    if depth == 0:
        return World(*lists)
    return [lists_shown(item, depth - 1) for item in lists]


def feature_shown(found):
    (kind, lists), = found["geometry"].items()
    depth = {"points": 1, "lines": 2, "polygons": 3}[kind]
    tags = [Tag(key, value_shown(value)) for key, value in found["tags"].items()]
    return Feature(found["layer"], found["minzoom"], found["maxzoom"], Tuple(kind.capitalize(), lists_shown(lists, depth)), tags)


def fault_shown(refused):
    if refused.name == "Limit":
        return Tuple("Limit", Variant(refused.numbers[0]))
    if refused.numbers:
        return Fields(refused.name, need=refused.numbers[0], free=refused.numbers[1])
    return Variant(refused.name)


# ---- features as they are read


def letters_read(word):
    letters, _, count = word.partition("*")
    return letters * (int(count) if count else 1)


def value_read(word):
    if word.startswith("'"):
        return letters_read(word[1:])
    if word == "-0":
        return NO_NEGATIVE
    return {"true": True, "false": False}.get(word) if word in ("true", "false") else int(word)


def feature_read(words):
    """Parses a feature."""
    layer, minzoom, maxzoom, kind, *rest = words
    polygons, tags = [[[]]], {}
    for word in rest:
        if "=" in word:
            key, value = word.split("=", 1)
            tags[key] = value_read(value)
        elif word == "/":
            polygons[-1].append([])
        elif word == "|":
            polygons.append([[]])
        else:
            polygons[-1][-1].append([int(number) for number in word.split(",")])
    lists = {"points": polygons[-1][-1], "lines": polygons[-1], "polygons": polygons}[kind]
    return {"layer": layer, "minzoom": int(minzoom), "maxzoom": int(maxzoom), "geometry": {kind: lists}, "tags": tags}


def change_read(text):
    """Parses a change: `put ID FEATURE` or `delete ID`."""
    name, number, *words = text.split()
    return Change(int(number), feature_read(words) if name == "put" else None)


def changes_read(text):
    """Parses the changes of a batch; no text is a batch of none."""
    return [change_read(change) for change in text.split(" & ")] if text else []


# ---- archives as they are copied


def copied(disk, first, length, room):
    """The outcome of copying an archive to a writer, which has room for so many bytes or for all, and the bytes that are written."""
    written = b""
    try:
        for piece in pieces(disk, first, length):
            left = len(piece) if room is None else room - len(written)
            written += piece[:left]
            if left < len(piece):
                return f"Err(Write) {briefly(written)}"
    except Failed:
        return f"Err(Device) {briefly(written)}"
    return f"Ok(()) {briefly(written)}"


# ---- the state of a script


class Trial:
    """A closed disk or an open service, the disk that was stopped last and the failing calls of the next session; the answer to each command."""

    def __init__(self):
        self.session, self.stopped, self.failing = Memory(0), Memory(0), (NONE, 0)

    def faulty(self, disk):
        kind, call = self.failing
        self.failing = NONE, 0
        return Faulty(disk, kind, call)

    def taken(self):
        """The disk, and the number of its calls."""
        if isinstance(self.session, Service):
            return self.session.disk.disk, self.session.disk.calls
        return self.session, 0

    # ---- the disk

    def do_disk(self, sectors):
        self.session = Memory(sectors)
        return "made"

    def do_write(self, at, held=b""):
        self.session.write(at, held.ljust(SECTOR, b"\0"))
        return "Ok(())"

    def do_sector(self, at):
        return spelled(self.session.read(at).rstrip(b"\0"))

    def do_sectors(self):
        return " ".join(str(at) for at in range(self.session.count) if any(self.session.read(at)))

    def worked(self, work):
        """The outcome of work on the disk with its failing calls, and the number of calls."""
        self.session = self.taken()[0]
        disk = self.faulty(self.session)
        try:
            outcome = ok(work(disk) or ())
        except Failed:
            outcome = err(Variant("Device"))
        except Fault as fault:
            outcome = err(Variant(str(fault)))
        return f"{debug(outcome)} in {disk.calls}"

    def do_format(self):
        return self.do_format_version(LAST_VERSION)

    def do_format_version(self, version):
        if version not in VERSIONS:
            return f"? format_version {version}"
        return self.worked(lambda disk: format_disk(disk, version))

    def do_upgrade(self):
        return self.worked(upgrade)

    def do_export(self, room=None):
        disk = self.faulty(self.session)
        try:
            outcome = copied(disk, *find_archive(disk), room)
        except Failed:
            outcome = "Err(Device)"
        except Fault as fault:
            outcome = f"Err({fault})"
        return f"{outcome} in {disk.calls}"

    def fail(self, kind, call, name):
        self.failing = kind, call
        return f"{name}({call})"

    def do_fail_from(self, call):
        return self.fail(FROM, call, "AllFrom")

    def do_fail_not_made(self, call):
        return self.fail(NOT_MADE, call, "OneNotMade")

    def do_fail_made(self, call):
        return self.fail(MADE, call, "OneMade")

    def do_open(self):
        disk = self.faulty(self.taken()[0])
        try:
            self.session = Service(disk)
            return "open"
        except Failed:
            self.session = disk.disk
            return f"Device in {disk.calls}"
        except Fault as fault:
            self.session = disk.disk
            return f"{fault} in {disk.calls}"

    def do_stop(self):
        self.stopped, calls = self.taken()
        self.session = Memory(0)
        return f"stopped in {calls}"

    def do_resume(self):
        self.session, self.stopped = self.stopped, Memory(0)
        return "resumed"

    def do_crash(self, *choice):
        self.session = self.stopped.crash(choice)
        return "crashed"

    # ---- calls of a service

    def do_publish(self):
        return self.told(lambda: Published(*self.session.publish()))

    def told(self, call):
        """What a call returns."""
        try:
            return debug(ok(call()))
        except Refused as refused:
            return debug(err(fault_shown(refused)))

    def do_prepare(self, count=1):
        outcome = "Ok(true)"
        for _ in range(count):
            if outcome == "Ok(true)":
                outcome = self.told(self.session.prepare)
        return outcome

    def do_drafted(self):
        return self.told(self.session.drafted)

    def do_drop(self):
        self.session.drop()
        return "dropped"

    def do_drafting(self):
        draft = self.session.draft
        return debug(some(Drafting(**draft.told())) if draft else None)

    def do_archive(self, at=0, count=None):
        count = self.session.root.archive_len if count is None else count
        if at + count > self.session.root.archive_len:
            return f"? archive {at} {count}"
        try:
            return briefly(self.session.read(at, count))
        except Refused as refused:
            return debug(fault_shown(refused))

    def do_verify(self):
        self.session.read(0, self.session.root.archive_len)
        runs = runs_of(tiles_of(self.session.snapshot))
        return debug(ok(Report(sum(run for _, run, _ in runs), len(runs), len({held for _, _, held in runs}))))

    def do_metadata(self):
        return shortly(self.session.metadata().decode())

    def do_version(self):
        return str(self.session.version)

    # ---- events

    def edited(self, name, rest):
        """The number of the edit that is made."""
        if name == "batch":
            return self.session.batch(changes_read(rest))
        change = change_read(f"{name} {rest}")
        return self.session.put(*change) if name == "put" else self.session.delete(change.number)

    def answered(self, name, rest):
        if name in ("put", "delete", "batch"):
            return Tuple("Edited", self.edited(name, rest))
        if name == "look":
            found = self.session.map.get(int(rest))
            return Tuple("Look", some(feature_shown(found)) if found else None)
        if name == "cancel":
            self.session.cancel()
            return Variant("Cancelled")
        return Tuple("Left", getattr(self.session, name)())

    def event(self, text):
        name, _, rest = text.partition(" ")
        if name == "tile":
            held = self.session.tile(*[int(word) for word in rest.split()])
            return f"Tile({briefly(held) or None})"
        try:
            return shortly(debug(self.answered(name, rest)))
        except Refused as refused:
            return debug(Tuple("Refused", fault_shown(refused)))

    def answer(self, line):
        if not line or line.startswith("#"):
            return line
        word = line.split("; ")[0].split()[0]
        if word in (CLOSED_WORDS if isinstance(self.session, Service) else SERVICE_WORDS):
            return f"? {line}"
        if word in EVENTS:
            return "; ".join(self.event(text) for text in line.split("; "))
        if word == "nothing":
            return ""
        front, _, words = line.partition("=")
        numbers = [int(number) for number in front.split()[1:]]
        return getattr(self, f"do_{word}")(*numbers, *([read(words)] if words else []))
