"""Blocks of `service_script.py` about publications that are prepared in parts: the first call fixes the map, the next ones read its features, each
later one goes on to the next zoom or makes a part of a tile, and edits, failing calls and crashes come between them. The archive is that of the map as
it was at the first call."""
import copy

from chance import Chance
from crashes import Faulty
from disk import VERSIONS
from machine import Service
from map_archive import archive_of, tiles_of
from service_lines import LAST, WORLD_END, batch, crashed, fresh, heading, looks, opened, opens, put, put_each, stops, words_of
from service_publications import DEEP, HIDDEN
from service_random import calls_of_opening, large_choice, large_event, random_batch, random_event, random_failure, random_place, random_put, small_put
from service_stand import Trial

# More parts than any of these maps has, but for those that have too many tiles.
ALL = "prepare 10000"
PUBLISHED = [ALL, "drafted", "step", "archive"]
CORNERS = [(0, 0), (WORLD_END - 1, 0), (0, WORLD_END - 1), (WORLD_END - 1, WORLD_END - 1)]


def corner(number, letters=0):
    """A point in a corner of the world, which is in tiles of its own from zoom 1 on."""
    x, y = CORNERS[number % 4]
    tag = f" t='{'abcd'[number % 4]}*{letters}" if letters else ""
    return f"put {number} p 0 2 points {x},{y}{tag}"


# ---- the parts of a draft


def parts():
    yield from heading(
        "The documented archive in parts: a call fixes the map, one reads its features, one goes on to each of 20 zooms, three make the tiles, and one",
        "finds none left. Nothing is written before a step.",
    )
    yield from [*opened(), "drafting", put(7), "prepare", "drafting", "prepare", "drafting", "prepare", "drafting", "prepare", "prepare", "drafting"]
    yield from ["prepare 20", "drafting", "prepare", "prepare"]
    yield from ["drafting", "archive", "drafted", "drafting", "drafted", "step", "archive", "verify", "stop", "resume", "sector 2"]
    yield from heading("The same without a feature read before it is begun, without a tile made, with one, and with all in one call.")
    for prepared in (["prepare"], ["prepare 2"], ["prepare 3"], ["prepare 5"], [ALL], ["prepare 0", "prepare 1", "prepare 0"]):
        yield from [*opened(), put(7), *prepared, "drafted", "step", "archive", "stop"]
    yield from heading("An empty map and one without tiles have no archive: no tile is found.")
    yield from [*opened(), "prepare", "prepare", "prepare", put(7), "drafted", "step", "archive", "stop", "resume", "sector 2"]
    yield from [*opened(), f"put 7 {HIDDEN}", "prepare", put(8), "prepare 2", "drafted", "step", "archive", looks(7, 8), *PUBLISHED]


def edits_between():
    yield from heading(
        "Edits between the parts: a number that is new, one that is replaced, one that is deleted, one that is deleted and set again, one that is set and",
        "deleted, and one that changes twice. The tile shows them at once; the archive has none of them, and the next one has all.",
    )
    edits = [[put(9)], [put(1, 3)], ["delete 2"], ["delete 3", put(3, 5)], [put(10), "delete 10"], [put(4, 1), put(4, 2)], [corner(5, 7), corner(6)]]
    for edit in [*edits, sum(edits, [])]:
        for before in (1, 2, 3, 6):
            yield from [*opened(256), *(corner(number) for number in range(1, 5)), f"prepare {before}", *edit]
            yield from ["tile 0 0 0", "tile 1 0 0", ALL, *edit, "drafted"]
            yield from ["tile 0 0 0", "step", "archive", "verify", "tile 0 0 0", "metadata", "stop", *crashed(), "archive", "tile 0 0 0", looks(*range(1, 11))]
            yield from PUBLISHED
    yield from heading("Every feature is deleted after the map was fixed, one after each tile, and by one batch; and all are moved to the same place.")
    for version in VERSIONS:
        yield from [*opened(256, version), *(corner(number, 9) for number in range(1, 5)), "prepare"]
        for number in range(1, 5):
            yield from [f"delete {number}", "prepare"]
        yield from ["tile 0 0 0", "metadata", *PUBLISHED, "verify", *PUBLISHED]
        yield from [*opened(256, version), *(corner(number, 9) for number in range(1, 5)), "prepare 3"]
        yield from [batch(*(f"delete {number}" for number in range(1, 5))), "prepare 2", batch(*(put(number) for number in range(1, 9))), ALL, "drafted"]
        yield from ["tile 0 0 0", "step", "archive", "verify", looks(1, 8)]
    yield from heading("Edits that are refused between the parts change nothing of either map.")
    yield from [*opened(), corner(1), "prepare", "put 1 p 3 2 points 0,0", "delete 2", batch(), batch(put(3), "delete 4"), "prepare", put(1, 1025), ALL]
    yield from ["drafted", "step", "archive", looks(1, 3)]
    yield from heading("Layers and tags of the map when it was fixed: metadata and keys aren't those of the map now.")
    yield from [*opened(), "put 1 roads 0 1 points 0,0 a='x b=1", "put 2 trees 0 3 points 99,99 a=true", "prepare 2"]
    yield from ["put 1 rails 0 4 points 5,5 z=9", "delete 2", "put 3 water 1 5 points 7,7 a='y", "metadata"]
    yield from [*PUBLISHED, "archive 0 127", "metadata", *PUBLISHED]


def every_part():
    yield from heading("An edit after each number of parts, in turn, and the beginning after it: the archive is the same each time, and the edit is shown.")
    rows = [corner(1, 3), corner(2), corner(3, 30), corner(4), "put 5 l 0 2 lines 0,0 4294967295,4294967295 n=1"]
    trial = Trial()
    for line in [*opened(256), *rows]:
        trial.answer(line)
    tiles = len(list(tiles_of(trial.session.map)))
    for edit in ("delete 3", corner(2, 8), put(9), batch("delete 1", corner(4, 4), put(10))):
        for count in range(1, tiles + 5):
            yield from [*opened(256), *rows, f"prepare {count}", edit, "prepare", "drafted", "step", "archive", "tile 0 0 0", "stop"]


def large_maps():
    yield from heading(
        "600 features: three steps read them, and 19 parts make the tile of zoom 0. Edits between these, of features that are read or not, and in the tile",
        "or not: the archive is that of the map when it was fixed, and what is shown that of now.",
    )

    def spread(number):
        return f"put {number} p 0 1 points {number * 7919 % 4096 * 2**20},{number * 1237 % 4096 * 2**20} n={number % 40} t='{'abcdefg'[number % 7]}*{number % 9}"

    rows = [batch(*(spread(number) for number in range(first, first + 60))) for first in range(1, 601, 60)]
    edits = [
        ["delete 1", "delete 600", put(601)],
        [put(300, 5), put(2), "delete 2"],
        [batch(*(f"delete {number}" for number in range(200, 260))), put(250, 3)],
        [batch(*(put(number, number % 5) for number in range(570, 630)))],
    ]
    for count, before in enumerate((1, 2, 3, 4, 5, 6, 14, 23, 24)):
        edit = edits[count % len(edits)]
        yield from [*opened(4096), *rows, f"prepare {before}", "drafting", *edit, "prepare", "drafting", *edits[(count + 1) % len(edits)], ALL, "drafting"]
        yield from ["drafted", "step; step; step; step", "archive", "verify", "tile 0 0 0", "metadata", ALL, "drafted", "step; step; step; step"]
        yield from ["archive", "stop"]


def large_tiles():
    def tagged(number, maxzoom, place):
        """A feature of some 30,000 bytes, none of whose texts another one has."""
        tags = " ".join(f"k{key:02}='{number:02}{key:02}*250" for key in range(30))
        return f"put {number} p 0 {maxzoom} points {place},{place} {tags}"

    def features(maxzoom, place):
        return [*opened(4096), *(tagged(number, maxzoom, place) for number in range(1, 11))]

    steps = "; ".join(["step"] * 20)
    yield from heading(
        "Ten features of 30,000 bytes: their tile has more than 262,144 bytes, so the step after its last part copies a part of it, and the one after that",
        "adds it. Edits before the last part, before the copy and before it is added aren't in it.",
    )
    for before in (3, 4, 5):
        yield from [*features(0, 0), f"prepare {before}", "drafting", put(11), "delete 3", put(2, 7), "prepare", "drafting", "prepare", "drafting"]
        yield from ["prepare", "drafting", ALL, "drafted", steps, "archive", "verify", "tile 0 0 0", "stop"]
    yield from heading("The tile of the next zoom is equal: a part of it is copied too, and then it has the other's content.")
    yield from [*features(1, 0), "prepare 4", "drafting", *["prepare", "drafting"] * 6, "drafted", steps, "archive", "verify", "tile 1 0 0", "stop"]
    yield from heading("It is another one, and both don't fit in the area: the third one is counted, and no part of it is copied.")
    yield from [*features(2, 5 * 2**28), "prepare 4", "drafting", *["prepare", "drafting"] * 9, ALL, "drafting", "drafted", "archive", "stop"]


# ---- the journal


def journals():
    yield from heading(
        "The places of the edits before the map was fixed are reclaimed, those of later ones aren't: nine of 16 are in use, then five more, and five remain.")
    yield from [*opened(), *put_each(1, 9), "prepare", "drafting", *put_each(10, 14), ALL, *put_each(15, 16), put(17), "drafted", put(17), "step", put(17)]
    yield from [*put_each(18, 30), "stop", *crashed(), "tile 0 0 0", put(31), ALL, "drafted", "step", put(31), "archive"]
    yield from heading("A journal that is full between the parts refuses edits, and the publication makes room for them.")
    for version in VERSIONS:
        yield from [*opened(64, version), *put_each(1, 14), "prepare 2", put(15), put(1, 200), put(2), "delete 3", ALL, "drafted", "delete 3", "step"]
        yield from ["delete 3", put(16), "stop", *crashed(), looks(1, 2, 3, 15, 16), "archive", "verify"]
    yield from heading("The journal wraps around while a publication is in the making.")
    yield from [*opened(), *put_each(1, 12), "begin; step", *put_each(13, 16), "prepare", *put_each(17, 24), ALL, "drafted", *put_each(25, 27), "step"]
    yield from ["archive", *put_each(28, 31), "stop", "resume", "sector 1", "open", looks(16, 17, 24, 31), "stop", *crashed(), "tile 0 0 0", put(32)]


# ---- what is refused


def refusals():
    yield from heading(
        "Idle if nothing is in the making, Busy if a publication is under way; what was in the making is gone then, and the one under way isn't.",
    )
    yield from [*opened(), put(7), "drafted", "drop", "drafting", "begin", "prepare", "drafted", "drafting", "step", "drafted"]
    yield from [put(8), "prepare 3", put(9), "begin", "prepare", "drafted", "drafting", "drafted", "step", "archive", "drafted"]
    yield from heading("Installing another publication drops what is in the making; cancelling one doesn't.")
    yield from [*opened(), put(7), "prepare 2", put(8), "begin; step", "drafting", "drafted", "archive"]
    yield from [put(9), "prepare 2", put(10), "begin; cancel", "prepare", put(11), "drafted", "step", "archive", "drafting"]
    yield from [put(12), "prepare 2", put(13), "publish", "drafting", "drafted", "archive", "prepare", "publish", "drafted", "archive"]
    yield from heading("What is dropped isn't begun; the next call fixes the map of then.")
    yield from [*opened(), put(7), "prepare 2", put(8), "drop", "drafting", "drafted", "prepare", "drafting", put(9), "drafted", "step", "archive"]
    yield from heading("The last generation: no map is fixed, and edits continue.")
    yield from [*fresh(), f"write 2 = 'VTROOT01 {LAST}:8", "open", put(7), "prepare", "drafting", "drafted", put(8), "begin", "stop", "resume", "sector 2"]
    yield from heading("The generation before it: one more is published, and then none.")
    yield from [*fresh(), f"write 1 = 'VTROOT01 {LAST - 1}:8", "open", put(7), "prepare 2", put(8), "drafted", "step", "prepare", "drafted", "archive"]


def areas():
    yield from heading("A map that doesn't fit the area when it is fixed is refused, whatever is deleted meanwhile, and one that fits then isn't.")
    yield from [*opened(), put(7), f"put 1 {DEEP}", "prepare", "delete 1", ALL, "drafted", "drafted", "archive", *PUBLISHED]
    yield from [*opened(), put(7), "prepare 2", f"put 1 {DEEP}", *PUBLISHED, ALL, "drafted", "begin", "stop", "resume", "sector 1", "sector 2"]
    yield from heading("Too many entries for an archive: found between the tiles, and told at the beginning.")
    rows = [f"put {number} l 16 16 lines 0,{y} {WORLD_END - 1},{y}" for number, y in ((1, 32768), (2, 1073774592), (3, 2147516416))]
    yield from [*opened(64), *rows, "prepare", "delete 1", "prepare 200000", looks(2), "drafted", "drafted", "step"]


# ---- failing calls


def stops_between():
    yield from heading(
        "A run with a publication in parts: edits before it, between its parts and after it; each call of the disk fails in turn. After `Device` the service",
        "is broken, and so is each later part. After a crash some first edits are shown, all acknowledged ones among them, and the archive is that of the",
        "map when it was fixed, or there is none.",
    )
    lines = [put(1), put(2, 467), "prepare", put(3), "delete 1", "prepare 2", put(2, 500), ALL, "drafted", put(4), "step", "prepare", put(5), "drafted", "step"]
    lasting = Trial()
    for line in [*opened(), *lines]:
        lasting.answer(line)
    for stop in stops(1, lasting.taken()[1] + 1):
        yield from [*fresh(), stop, "open", *([*lines, looks(1, 2, 3, 4, 5), "archive"] if opens(stop, 5) else []), "stop"]
        for choice in ([], [1], [1, 1]):
            yield from [*crashed(choice), f"tile 0 0 0; {put(9)}", "archive", "drafting", "prepare 3", "drafted", "step", "archive"]
    yield from heading("None of the parts calls the disk.")
    for stop in ("fail_from 6", "fail_from 7"):
        yield from [*fresh(), stop, "open", "prepare", ALL, "drafted", "stop"]
    yield from heading("Edits that fail between the parts break the service: Broken comes before Busy and Idle, and nothing is in the making after it.")
    for after in (["prepare"], ["drafted"], ["prepare", "drafted"], ["drafted", "prepare"], ["drop", "drafted"], ["prepare", "drafting"]):
        yield from [*fresh(), "fail_from 8", "open", put(1), "prepare 2", put(2), *after, "begin", "step", "archive", "stop"]


# ---- random runs


def random_part(chance):
    """A call of a publication in the making, mostly of one tile."""
    kind = chance.below(16)
    if kind < 9:
        return "prepare"
    if kind < 12:
        return f"prepare {1 + chance.below(12)}"
    if kind < 15:
        return "drafted"
    return "drop"


def random_line(chance, event):
    """A part, or some events. Most publications are begun in parts."""
    if chance.below(2):
        return random_part(chance)
    events = (event(chance) for _ in range(1 + chance.below(3)))
    return "; ".join("step" if made == "begin" and chance.below(4) else made for made in events)


class Fixed:
    """The maps of the publications of a session as they were asked for, by what the service answered, and not by what it keeps."""

    def __init__(self, trial):
        self.trial, self.drafting, self.publishing = trial, None, None

    def follow(self, line):
        """Answers a line that has at most one event of a publication, and compares what is installed with the map that was asked for."""
        service = self.trial.session
        before, generation = dict(service.map), service.root.generation
        answer = self.trial.answer(line)
        if line.startswith("prepare") and answer.startswith("Ok"):
            self.drafting = before if self.drafting is None else self.drafting
        elif line.startswith("prepare") or line == "drop":
            self.drafting = None
        elif line == "drafted":
            self.publishing = self.drafting if answer.startswith("Ok") else self.publishing
            self.drafting = None
        if service.root.generation > generation and line == "step":
            assert service.root.archive_len == 0 or service.read(0, service.root.archive_len) == archive_of(self.publishing)
            self.drafting = None


def drafts_of(chance, trial, count, event):
    """The lines of a session in which a publication is prepared, begun and finished while random events come between."""
    fixed = Fixed(trial)
    yield "prepare"
    fixed.follow("prepare")
    for _ in range(count):
        for line in ("prepare" if chance.below(3) else f"prepare {chance.below(9)}", event(chance), f"tile {random_place(chance)}"):
            fixed.follow(line)
            yield line
    for line in ("drafted", event(chance), "step", "step", "archive"):
        fixed.follow(line)
        yield line


def edit_event(chance):
    kind = chance.below(8)
    if kind < 4:
        return random_put(chance, 200)
    if kind < 6:
        return f"delete {chance.below(8)}"
    return random_batch(chance, 100)


def random_drafts():
    yield from heading(
        "Random edits, batches and tiles between the parts of a publication: the archive is that of the map when it was fixed, and each tile has the bytes",
        "of one that is cut anew.",
    )
    chance, trial = Chance(2028), Trial()
    for turn in range(30):
        for line in [*(fresh(256) if turn % 15 == 0 else []), "open", *(random_put(chance, 100) for _ in range(chance.below(4)))]:
            trial.answer(line)
            yield line
        for _ in range(1 + chance.below(2)):
            yield from drafts_of(chance, trial, 1 + chance.below(9), edit_event)
        for line in ("verify", "stop", "resume" if chance.below(2) else "crash"):
            trial.answer(line)
            yield line


def random_stops():
    yield from heading(
        "Random runs with parts of publications, on disks of both versions, of which a random call fails, or none. A crash by random choices follows each.",
        "It leaves the acknowledged edits, and of the next one all changes or none.",
    )
    chance, trial, ended = Chance(1911), Trial(), None
    for turn in range(120):
        lines = [*(fresh(80 + chance.below(300), 1 + chance.below(3) // 2) if turn % 20 == 0 else [])]
        for line in lines:
            trial.answer(line)
            yield line
        lines = [random_failure(chance, trial)] if chance.below(4) else []
        for line in [*lines, "open"]:
            trial.answer(line)
            yield line
        if not isinstance(trial.session, Service):
            trial.answer("open")
            yield "open"
        for _ in range(2 + chance.below(10)):
            line = random_line(chance, lambda c: random_event(c) if c.below(2) else random_batch(c, 300))
            trial.answer(line)
            yield line
        ended = trial.session
        for line in (looks(*range(8)), "archive", "stop", f"crash{words_of(chance.below(3) for _ in range(chance.below(9)))}", "export"):
            trial.answer(line)
            yield line
        assert Service(Faulty(copy.deepcopy(trial.session))).map in ended.left_by_a_crash()


def large_drafts():
    yield from heading(
        "A disk of 4,096 sectors with 300 features, whose publications are prepared in parts between edits, and written in several steps. A call fails, or",
        "all from it on, and a crash follows.",
    )
    chance, trial = Chance(7), Trial()
    puts = [small_put(chance, number) for number in range(300)]
    for line in [*opened(4096), *("; ".join(puts[at : at + 30]) for at in range(0, 300, 30)), "publish", "stop", "resume"]:
        trial.answer(line)
        yield line
    for _ in range(8):
        stop = f"{chance.one_of(['fail_from', 'fail_not_made', 'fail_made'])} {calls_of_opening(trial) + 1 + chance.below(800)}"
        lines = [stop, "open", large_event(chance), "prepare"]
        for _ in range(6 + chance.below(6)):
            lines += [f"prepare {1 + chance.below(30)}", large_event(chance)]
        lines += [large_event(chance), "drafted"]
        for _ in range(4 + chance.below(12)):
            lines.append("step" if chance.below(3) else large_event(chance))
        for line in lines:
            trial.answer(line)
            yield line
        ended = trial.session
        for line in ("stop", f"crash{words_of(large_choice(chance))}"):
            trial.answer(line)
            yield line
        left = Service(Faulty(copy.deepcopy(trial.session)))
        assert left.map in ended.left_by_a_crash()
        assert left.last - ended.last in (0, 1) and left.root.generation - ended.root.generation in (0, 1)


BLOCKS = [parts, edits_between, every_part, large_maps, large_tiles, journals, refusals, areas, stops_between, random_drafts, random_stops, large_drafts]
