"""Disks in memory, what a crash leaves of them, and failing calls, from docs/PROMISES.md. It shares no code with the product."""
import itertools

from disk import SECTOR


class Failed(Exception):
    """A call of the disk failed."""


class Memory:
    """A disk of `count` sectors, zeros except for the given contents."""

    def __init__(self, count, contents=None):
        self.count, self.settled, self.writes = count, dict(contents or {}), {}

    def read(self, at):
        return self.writes[at][-1] if at in self.writes else self.settled.get(at, bytes(SECTOR))

    def write(self, at, sector):
        self.writes.setdefault(at, []).append(sector)

    def sync(self):
        self.settled.update({at: contents[-1] for at, contents in self.writes.items()})
        self.writes = {}

    def crash(self, choice):
        """The disk after a crash: the i-th unsynced sector, in ascending order, has its last synced content for 0, or its j-th write for j."""
        left = dict(self.settled)
        for index, at in enumerate(sorted(self.writes)):
            chosen = choice[index] if index < len(choice) else 0
            if chosen:
                left[at] = self.writes[at][min(chosen, len(self.writes[at])) - 1]
        return Memory(self.count, left)


def every_choice(memory):
    """Each choice of a crash, as the numbers for `crash`. A sector to which nothing was written but what it has counts as not written."""
    versions = ((at, [memory.settled.get(at, bytes(512)), *memory.writes[at]]) for at in sorted(memory.writes))
    return itertools.product(*(range(len(of) if set(of) != {of[0]} else 1) for _, of in versions))


NONE, FROM, NOT_MADE, MADE = "none", "from", "not_made", "made"


class Faulty:
    """A disk whose calls fail from a number on, or at one number, before or after their work is done. Numbers start at 1."""

    def __init__(self, disk, kind=NONE, call=0):
        self.disk, self.kind, self.call, self.calls = disk, kind, call, 0

    @property
    def count(self):
        return self.disk.count

    def made(self, call):
        """Makes a call of the disk, unless it fails before."""
        self.calls += 1
        fails = self.kind == FROM and self.calls >= self.call or self.kind in (NOT_MADE, MADE) and self.calls == self.call
        outcome = None if fails and self.kind != MADE else call()
        if fails:
            raise Failed()
        return outcome

    def read(self, at):
        return self.made(lambda: self.disk.read(at))

    def write(self, at, sector):
        return self.made(lambda: self.disk.write(at, sector))

    def sync(self):
        return self.made(self.disk.sync)


class Seen:
    """The bytes of a disk for the reader of `disk.py`: each sector is read once, when it is first needed."""

    def __init__(self, disk):
        self.disk, self.sectors = disk, {}

    def __len__(self):
        return SECTOR * self.disk.count

    def sector(self, at):
        if at not in self.sectors:
            self.sectors[at] = self.disk.read(at)
        return self.sectors[at]

    def __getitem__(self, span):
        start, end = span.start, min(span.stop, len(self))
        held = b"".join(self.sector(at) for at in range(start // SECTOR, (end + SECTOR - 1) // SECTOR))
        return held[start % SECTOR :][: max(0, end - start)]
