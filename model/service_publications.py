"""Blocks of `service_script.py` about publications, and about forty events of which each call of the disk fails in turn."""
from crashes import Faulty, every_choice
from disk import VERSIONS, snapshot_text
from machine import Service
from map_archive import archive_of
from service_lines import ALL_CHOICES, LAST, WORLD_END, crashed, fresh, heading, long_point, looks, opened, opens, put, put_each, stops, with_snapshot
from service_stand import Trial


# ---- publications

DEEP = "p 0 16 points 123456789,123456789 t='x*1000"
HIDDEN = "l 0 5 lines 0,0 16384,0"


def publications():
    yield from heading("The documented archive: three tiles in two entries with one content, 223 bytes.")
    yield from [*opened(), "archive", put(7), "begin", "step", "archive", "archive 0 127", "archive 127 9", "archive 136 66", "archive 202 21"]
    yield from ["verify", "stop", "resume", "export"]
    yield from heading("The second publication uses the other area, the third the first area again.")
    yield from [*opened(), put(7), "begin; step", put(8), "begin; step", "archive", "stop", "resume", "sector 1", "sector 2", "sectors"]
    yield from ["open", put(9), "publish", "archive", "stop", "resume", "sector 1", "sector 2"]
    yield from heading("An empty map and a map without tiles have no archive.")
    yield from [*opened(), "begin; step", "archive", "stop", "resume", "sector 2", "export"]
    yield from [*opened(), f"put 7 {HIDDEN}", "begin; step", "archive", "stop", "resume", "sector 2", "open", "look 7"]
    yield from heading("A map that doesn't fit the area: nothing changes, and edits continue.")
    yield from [*opened(), put(7), "begin; step", "delete 7", f"put 1 {DEEP}", "begin", "publish", "step", put(2), "archive", "stop", "resume"]
    yield from ["sector 1", "sector 2"]
    yield from heading("Contents of exactly the 22 sectors of the area, of 23, and a snapshot that ends with its sector.")
    for points, letters in ((10, 930), (10, 992), (8, 930)):
        yield from [*with_snapshot(snapshot_text({number: long_point(letters) for number in range(1, points + 1)})), "open", "begin", "publish"]


def between():
    yield from heading("An edit during a publication: it is shown, and it is not in the archive. A crash after the publication changes nothing.")
    yield from [*opened(), put(7), "begin", put(8), "archive", "step", "tile 0 0 0", "archive", "stop", *crashed(), "archive", "tile 0 0 0", put(9)]
    yield from heading("Fifteen edits leave one place of the journal; a publication reclaims theirs. Edit 16 is then stored at places 15 and 0.")
    yield from [*opened(), *put_each(1, 15), put(16, 467), "begin; step", "archive", put(16, 467), "stop", "resume", "sector 2", "sector 18", "sector 3"]
    yield from ["open", "stop", *crashed(), looks(15, 16), put(17)]
    yield from heading("Edits during a publication keep their places: five of 16 are in use after it, and eleven are free.")
    yield from [*opened(), *put_each(1, 9), "begin", *put_each(10, 14), "step", *put_each(15, 25), "stop", *crashed(), "tile 0 0 0", put(26)]
    yield from ["begin; step", put(26)]
    yield from heading("Busy and Idle; a refused publish leaves the publication under way.")
    yield from [*opened(), put(7), "step", "cancel", "begin", "begin", "cancel", "step", "cancel", "archive", "begin", "step", "step"]
    yield from [*opened(), put(7), "publish", "archive", "begin", "publish", "step"]
    yield from heading("After a crash no publication is under way.")
    yield from [*opened(), put(7), "begin; step", put(8), "begin", "stop", *crashed(), "step", "cancel", "look 8", "archive"]
    yield from heading("The last generation: no publication begins, and edits continue.")
    yield from [*fresh(), f"write 2 = 'VTROOT01 {LAST}:8", "open", "begin", "publish", "step", put(7), "begin", "stop", "resume", "sector 1", "sector 2"]


def large():
    """A disk of 1,024 sectors with 62 points, each with a tag of 1,000 letters."""
    return [*opened(1024), *put_each(1, 62, 1000)]


def steps():
    yield from heading("A snapshot of 125 sectors and an archive of 5: steps of 64, 64 and 2.")
    yield from [*large(), "begin", "step", "step", "step", "step", "archive", "verify", "stop", *crashed(), "look 62", "archive", "stop", "resume", "sector 2"]
    yield from heading("Edits between steps; a publication that is cancelled halfway, and the next one in the same area.")
    yield from [*large(), "begin", "step", put(63), "step", "cancel", "step", "delete 1", "begin", "step", "step", put(64), "step", "archive"]
    yield from [looks(1, 63, 64), "stop", *crashed(), "archive"]
    yield from heading(
        "Calls of that publication fail: the first of a step, its last write, its sync; after all writes a sync, the root, a sync. Opening makes 5",
        "calls, the edits 310. A crash leaves all points, and the archive exactly if it leaves the root.",
    )
    for call in (1, 64, 65, 66, 130, 131, 132, 133, 134, 135, 136):
        yield from [*fresh(1024), f"fail_from {5 + 62 * 5 + call}", "open", *put_each(1, 62, 1000), "begin", *["step"] * 4, "stop"]
        for choice in ([0] * 130, [1] * 130):
            yield from [*crashed(choice), "tile 0 0 0", "archive", put(63)]


def publication_stops():
    yield from heading(
        "Feature 7 is published and 8 added. The step that publishes both fails at each of its calls, 9 to 13: a sector of the snapshot, one of the",
        "archive, a sync, the root, a sync. The service is broken then, and still answers reads. A crash leaves the old archive or the new and both",
        "features, and the next publication succeeds.",
    )
    for stop in stops(9, 14):
        yield from [*opened(), put(7), "begin; step", "stop", "resume", stop, "open", put(8), "begin", "step", "begin", "step", "cancel", put(9), "delete 7"]
        yield from ["publish", looks(7, 8, 9), "archive", "tile 0 0 0", "metadata", "stop"]
        for choice in ALL_CHOICES[2]:
            yield from [*crashed(choice), "archive", "tile 0 0 0", "begin; step", "archive"]


def script_stops():
    yield from heading(
        "A run of edits and of two publications with an edit in each, and one that is cancelled; each call of the disk fails in turn. After a crash,",
        "some first edits are shown, all acknowledged ones among them, the archive is that of some first of those, and the next edit has the next",
        "number.",
    )
    events = [put(1), "begin", put(2, 467), "step", "delete 1", "tile 0 0 0", "begin", "cancel", "begin", put(3), "step"]
    for stop in stops(1, 27):
        yield from [*fresh(), stop, "open", *(["; ".join(events)] if opens(stop, 5) else []), "stop"]
        for choice in ALL_CHOICES[3]:
            yield from [*crashed(choice), f"tile 0 0 0; {put(9)}", "archive"]


# ---- forty events


def round_of(tens):
    """Eight events: of three features put and one deleted, two remain. A publication has an edit between its two events."""
    first, second, third = (10 * tens + number for number in (1, 2, 3))
    return [put(first), put(second, 467), "begin", put(third), "step", f"delete {first}", "tile 0 0 0", f"look {second}"]


ROUNDS = [round_of(tens) for tens in range(1, 6)]
EVENTS_MADE = [event for events in ROUNDS for event in events]
MAX_UNSYNCED = 10


def rounds(after=0):
    """The lines of the forty events, a round in each, without the first `after` events."""
    left = [events[max(0, after - 8 * number) :] for number, events in enumerate(ROUNDS)]
    return ["; ".join(events) for events in left if events]


def tried(lines):
    trial = Trial()
    for line in lines:
        trial.answer(line)
    return trial


def calls_made(version):
    """The number of calls of the disk that opening it and the forty events make."""
    return tried([*opened(64, version), *rounds()]).taken()[1]


def forty_events():
    yield from heading(
        "Five rounds of eight events, in which the journal wraps around: 20 edits, ten features, and a root of generation 5 with 18 edits that begins at",
        "place 7. Edit 19 is stored there, in sector 10, edit 20 in sector 11, and the next one in sector 12. First on a disk of version 2.",
    )
    for version in reversed(VERSIONS):
        lasting = tried([*opened(64, version), *rounds()]).session
        assert (lasting.last, len(lasting.map), lasting.next_place()) == (20, 10, 9)
        assert (lasting.root.generation, lasting.root.edits, lasting.root.journal_at) == (5, 18, 7)
        yield from [*opened(64, version), *rounds(), looks(*range(11, 14)), looks(*range(51, 54)), "archive", "verify", "stop", "resume"]
        yield from ["sector 1", "sector 2", "sector 10", "sector 11", "open", "version", put(9), "stop", "resume", "sector 12", "open"]
        yield from ["stop", *crashed(), "archive", put(9)]


class History:
    """The maps of the forty events by the number of edits, and the archives that are made of them."""

    def __init__(self):
        self.maps, self.archives = [{}], {}
        trial = tried(opened())
        for event in EVENTS_MADE:
            trial.answer(event)
            if trial.session.last == len(self.maps):
                self.maps.append(dict(trial.session.map))

    def archive(self, edits):
        if edits not in self.archives:
            self.archives[edits] = archive_of(self.maps[edits])
        return self.archives[edits]

    def fits(self, left, acknowledged, generation):
        """Whether a service that was opened after a crash shows all acknowledged edits and at most one more, the archive of the edits that its
        root names, and no earlier generation."""
        root = left.root
        archive = self.archive(root.edits) if root.generation else b""
        shows = left.last - acknowledged in (0, 1) and left.map == self.maps[left.last] and left.read(0, root.archive_len) == archive
        return shows and root.generation - generation in (0, 1)


def stop_choices():
    yield from heading(
        "The forty events on a disk whose calls fail from each number on. At most ten sectors are unsynced then, and a crash leaves each of them as it",
        "was or as it was written: every choice is opened. The tile shows all acknowledged edits and at most the one that failed, the next edit has the",
        "next number, and the archive is that of the edits of its root. First on disks of version 2.",
    )
    for version in reversed(VERSIONS):
        yield from stop_choices_of(version)


def stop_choices_of(version):
    history, choices = History(), 0
    for call in range(1, calls_made(version) + 1):
        ran = [*fresh(64, version), f"fail_from {call}", "open", *(rounds() if call > 5 else [])]
        trial = tried(ran)
        acknowledged, generation = (trial.session.last, trial.session.root.generation) if call > 5 else (0, 0)
        trial.answer("stop")
        assert len(trial.stopped.writes) <= MAX_UNSYNCED
        yield from [*ran, "stop"]
        for choice in every_choice(trial.stopped):
            assert history.fits(Service(Faulty(trial.stopped.crash(choice))), acknowledged, generation)
            choices += 1
            yield from [*crashed(choice), f"tile 0 0 0; {put(9)}", "archive"]
    yield f"# {choices} choices of {call} stops, on disks of version {version}."


def failed_event(stop, version):
    """The number of events up to the one of which a call fails, or 0 if that is a call of opening."""
    trial = tried([*fresh(64, version), stop, "open"])
    if not isinstance(trial.session, Service):
        return 0
    return 1 + next(number for number, event in enumerate(EVENTS_MADE) if trial.answer(event) == "Refused(Device)")


def one_failure():
    yield from heading(
        "The forty events on a disk of which one call fails, before or after its work is done. The events after the failed one are answered all the",
        "same. Then the disk is opened again, and they are run once more. First on disks of version 2.",
    )
    for version in reversed(VERSIONS):
        for stop in [f"{word} {call}" for word in ("fail_not_made", "fail_made") for call in range(1, calls_made(version) + 1)]:
            failed = failed_event(stop, version)
            yield from [*fresh(64, version), stop, "open", *(rounds() if failed else []), "stop", "resume", "open", *rounds(failed), "archive"]


def read_failures():
    yield from heading(
        "The same events, but with two tiles after each publication, before its third feature is put: they are read from the archive. If one of these",
        "reads fails, the tile is cut, and nothing is broken.",
    )
    events = [[*events[:3], events[4], "tile 0 0 0", "tile 2 0 0", events[3], *events[5:]] for events in ROUNDS]
    lines_made = ["; ".join(round_made) for round_made in events]
    trial = tried(opened())
    whole, last = [trial.answer(line) for line in lines_made], trial.taken()[1]
    for stop in [f"{word} {call}" for word in ("fail_not_made", "fail_made") for call in range(6, last + 1)]:
        trial = tried([*fresh(), stop, "open"])
        if [trial.answer(line) for line in lines_made] == whole:
            yield from [*fresh(), stop, "open", *lines_made, "archive", "stop", *crashed(), "archive"]


def too_many():
    yield from heading(
        "Three lines across the world: 196,608 tiles of zoom 16, each unlike the next, are too many entries, for a small area too.")
    rows = [f"put {number} l 16 16 lines 0,{y} {WORLD_END - 1},{y}" for number, y in ((1, 32768), (2, 1073774592), (3, 2147516416))]
    for sectors in (24000, 64):
        yield from [*opened(sectors), *rows, "begin", "step", looks(2)]
    yield from heading("One line with the most tiles that a feature may cover has too many for an archive: 262,144 of zoom 18.")
    yield from [*opened(24000), put(7), "publish", f"put 1 l 18 18 lines 0,0 {WORLD_END - 1},0", "begin", "archive", "delete 1", "publish"]


def centres(count):
    """Points in the middle of every other tile of a row of zoom 16: equal contents, and no run of two."""
    return " ".join(f"{2 * column * 65536 + 32768},32768" for column in range(count))


def directories():
    yield from heading("Contents that fit in the area, equal ones that are stored once, with directories that do and that don't.")
    for count in (3200, 3960):
        yield from [*opened(256), f"put 7 l 16 16 points {centres(count)}", "begin", "step", "step", "archive"]


BLOCKS = [publications, between, steps, publication_stops, script_stops, forty_events, stop_choices, one_failure, read_failures, too_many, directories]
