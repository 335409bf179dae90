"""A model of a disk with its generations and its journal, which answers the lines of `journal_script.py`."""
from collections import namedtuple

from calls import append, format_disk, install, upgrade, write_area
from crashes import FROM, MADE, NONE, NOT_MADE, Failed, Faulty, Memory, Seen
from disk import VERSIONS, LAST_NUMBER, LONGEST_OF, SECTOR, Fault, Layout, Root
from disk import front, head_version, layout_of, parts_of, records_of, root_of, version_of
from words import Fields, Variant, briefly, debug, err, ok, read, some, spelled

JournalPosition = namedtuple("JournalPosition", "place edits")
Head = namedtuple("Head", "version number length parts")


class Ring:
    """The sectors of a journal, with the members of a `Layout` that `disk.records_of` uses."""

    def __init__(self, first, places):
        self.first, self.places = first, places

    def place(self, number):
        return self.first + number % self.places


def head_of(sector, version, number):
    """The head of a record of this version that a sector is, or None."""
    length = int.from_bytes(sector[12:16], "little")
    if not 1 <= length <= LONGEST_OF[version] or sector[:16] != front(0, number, length, version):
        return None
    return Head(version, number, length, parts_of(length))


def optional(value):
    """An optional value, in the form of `{:?}`."""
    return debug(None if value is None else some(value))


class Trial:
    """The state of a script, and the answer to each command."""

    def __init__(self):
        self.disk = Faulty(Memory(0))
        self.stopped = Memory(0)
        self.ring, self.start, self.used, self.last = Ring(0, 1), JournalPosition(0, 0), 0, 0
        self.mark = JournalPosition(0, 0)

    def counted(self, call, device):
        """The outcome of a call, with the number of calls of the disk. `device` is the fault that a failed call of the disk is reported as."""
        before = self.disk.calls
        try:
            outcome = ok(call())
        except Failed:
            outcome = err(device)
        except Fault as fault:
            outcome = err(Variant(str(fault)))
        return f"{debug(outcome)} in {self.disk.calls - before}"

    # ---- the disk

    def do_disk(self, sectors):
        self.disk = Faulty(Memory(sectors))
        return "made"

    def do_write(self, at, held=b""):
        if at >= self.disk.count or len(held) > SECTOR:
            return "no sector"
        return self.counted(lambda: self.disk.write(at, held.ljust(SECTOR, b"\0")) or (), Variant("DiskFault"))

    def do_sync(self):
        return self.counted(lambda: self.disk.sync() or (), Variant("DiskFault"))

    def do_sector(self, at):
        if at >= self.disk.count:
            return "no sector"
        before = self.disk.calls
        try:
            return spelled(self.disk.read(at).rstrip(b"\0"))
        except Failed:
            return f"DiskFault in {self.disk.calls - before}"

    def do_sectors(self):
        held = [at for at in range(self.disk.count) if any(self.disk.disk.read(at))]
        self.disk.calls += self.disk.count
        return " ".join(str(at) for at in held)

    def fail(self, kind, call, shown):
        self.disk = Faulty(self.disk.disk, kind, call)
        return f"{shown}({call})"

    def do_fail_from(self, call):
        return self.fail(FROM, call, "AllFrom")

    def do_fail_not_made(self, call):
        return self.fail(NOT_MADE, call, "OneNotMade")

    def do_fail_made(self, call):
        return self.fail(MADE, call, "OneMade")

    def do_fail_none(self):
        return self.fail(NONE, 0, "OneNotMade")

    def do_stop(self):
        self.stopped, self.disk = self.disk.disk, Faulty(Memory(0))
        return "stopped"

    def do_crash(self, *choice):
        self.disk = Faulty(self.stopped.crash(choice))
        return "crashed"

    # ---- its generations

    def do_layout(self, sectors):
        if not 64 <= sectors <= 16777216:
            return "None"
        return debug(some(layout_shown(Layout(sectors))))

    def do_format(self):
        return self.do_format_version(VERSIONS[-1])

    def do_format_version(self, version):
        if version not in VERSIONS:
            return "no version"
        return self.counted(lambda: format_disk(self.disk, version) or (), Variant("Device"))

    def do_upgrade(self):
        return self.counted(lambda: upgrade(self.disk) or (), Variant("Device"))

    def do_root(self):
        return self.counted(self.root, Variant("Device"))

    def root(self):
        seen = Seen(self.disk)
        layout = layout_of(seen)
        return Fields("Found", layout=layout_shown(layout), root=root_of(seen, layout), version=version_of(seen))

    def do_area(self, generation, index, held=b""):
        if not 64 <= self.disk.count <= 16777216 or index >= Layout(self.disk.count).area or len(held) > SECTOR:
            return "no sector"
        held = held.rjust(SECTOR * index + len(held), b"\0")
        return self.counted(lambda: write_area(self.disk, Layout(self.disk.count), generation, held, [index]) or (), Variant("DiskFault"))

    def do_install(self, *numbers):
        if self.disk.count < 3:
            return "no sector"
        return self.counted(lambda: install(self.disk, Root(*numbers)) or (), Variant("DiskFault"))

    # ---- its journal

    def do_ring(self, first, places, place, edits, most=2):
        if first + places > self.disk.count or place >= places:
            return "no ring"
        ring, start, before = Ring(first, places), JournalPosition(place, edits), self.disk.calls
        try:
            records, used = records_of(Seen(self.disk), ring, Root(0, edits, place, 0, 0), most)
        except Failed:
            return f"Device in {self.disk.calls - before}"
        except Fault:
            return f"Damaged in {self.disk.calls - before}"
        self.ring, self.start, self.used, self.last = ring, start, used, edits + len(records)
        held = "".join(f" {version}={briefly(text)}" for version, text in records)
        return f"used {used} last {self.last}:{held} in {self.disk.calls - before}"

    def do_append(self, *words):
        version, text = words if len(words) == 2 else (1, *words)
        if self.ring.first + self.ring.places > self.disk.count:
            return "no ring"
        if not 1 <= len(text) <= LONGEST_OF.get(version, 0):
            return "no text"
        need, free = parts_of(len(text)), self.ring.places - self.used
        if self.last == LAST_NUMBER:
            return "Err(NumbersSpent) in 0"
        if need > free:
            return f"{debug(err(Fields('Full', need=need, free=free)))} in 0"
        return self.counted(lambda: self.appended(version, text), Variant("Device"))

    def appended(self, version, text):
        append(self.disk, self.ring.place, self.start.place + self.used, self.last + 1, text, version)
        self.used, self.last = self.used + parts_of(len(text)), self.last + 1
        return self.last

    def next(self):
        return JournalPosition((self.start.place + self.used) % self.ring.places, self.last)

    def do_next(self):
        return f"free {self.ring.places - self.used} {debug(self.next())}"

    def do_mark(self):
        self.mark = self.next()
        return debug(self.mark)

    def do_release(self, behind):
        before, after = self.mark.edits - self.start.edits, self.last - self.mark.edits
        may = [0 <= before <= behind <= 67 * before, 0 <= after <= self.used - behind <= 67 * after]
        if not all(may) or self.mark.place != (self.start.place + behind) % self.ring.places:
            return "no such places"
        self.start, self.used = self.mark, self.used - behind
        return self.do_next()

    def do_head(self, at, number, most=None):
        sector = self.disk.read(at)
        if most is not None:
            return optional(head_version(sector, number, most))
        return " ".join([optional(head_version(sector, number, 2)), *(optional(head_of(sector, version, number)) for version in (1, 2))])

    def do_has_part(self, head_at, number, at, part):
        first, sector = self.disk.read(head_at), self.disk.read(at)
        version = head_version(first, number, 2)
        head = head_of(first, version, number) if version else None
        return optional(sector[:16] == front(part, number, head.length, version) if head else None)

    def answer(self, line):
        if not line or line.startswith("#"):
            return line
        front_words, _, spelled_words = line.partition("=")
        verb, *numbers = front_words.split()
        numbers = [int(number) for number in numbers]
        if spelled_words or verb == "append":
            numbers.append(read(spelled_words))
        return getattr(self, f"do_{verb}")(*numbers)


def layout_shown(layout):
    return Fields("Layout", sectors=layout.sectors, journal=layout.places, area=layout.area)
