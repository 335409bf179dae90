"""Blocks of `service_script.py` about edits of several changes: their limits, their records, and what a crash leaves of them."""
from disk import Change, edit_text, text_of
from machine import Service
from service_lines import ALL_CHOICES, LAST, POINT, WORLD_END, batch, crashed, fresh, heading, long_point, looks, opened, opens, put, put_each, stops
from service_stand import Trial

WORLD = f"0,0 {WORLD_END - 1},0 {WORLD_END - 1},{WORLD_END - 1} 0,{WORLD_END - 1}"


def puts(first, last, letters=0):
    """A batch of points."""
    return batch(*put_each(first, last, letters))


def deletes(first, last):
    return batch(*(f"delete {number}" for number in range(first, last + 1)))


def letters_for(texts):
    """How many letters the tags of some points have, whose changes have so many bytes together. The text of one has 30 more than its letters."""
    letters = []
    while texts > 1060:
        letters.append(1000)
        texts -= 1030
    return [*letters, texts - 30] if texts > 30 else letters


def of_bytes(texts, first=1, letter="x"):
    """A batch of points whose changes have so many bytes together."""
    letters = letters_for(texts)
    made = batch(*(put(number, count, letter) for number, count in enumerate(letters, first)))
    assert sum(len(text_of(Change(number, long_point(count)))) for number, count in enumerate(letters, first)) == texts
    return made


def worked_batches():
    yield from heading("The documented batch: two points in one edit. The next edit has the next number.")
    yield from [*opened(256), batch(put(7), put(8)), "tile 0 0 0", looks(7, 8), put(9), "stop", "resume", "sector 3", "sector 4", "open", looks(7, 8, 9)]
    yield from heading("A feature that is deleted doesn't exist: nothing is changed, not even by the other change, and no number is spent.")
    yield from [*opened(256), batch(put(9), "delete 10"), "look 9", "tile 0 0 0", put(9), batch("delete 10", "delete 9"), "look 9"]
    yield from [batch("delete 9"), "look 9", batch("delete 9"), "stop", *crashed(), "look 9", put(9)]
    yield from heading("No changes, and two changes of one number: its feature is set and deleted, deleted and set, or set twice.")
    yield from [*opened(256), batch(), batch(put(7), "delete 7"), batch("delete 7", put(7)), batch(put(7), put(7, 1)), batch("delete 7", "delete 7")]
    yield from [put(7), batch("delete 7", put(7, 1)), batch(put(7, 1), "delete 7"), batch("delete 7", "delete 7"), "look 7", "stop", "resume", "sectors"]
    yield from heading("A batch of one change has the record of a put, and of a deletion.")
    for event in (put(7), batch(put(7)), f"{put(7)}; delete 7", f"{batch(put(7))}; {batch('delete 7')}"):
        yield from [*opened(), event, "stop", "resume", "sector 3", "sector 4"]
    yield from heading("Batches with other events in one run; the order of the changes, their tags and their kinds; a feature that is replaced.")
    yield from [*opened(), f"{batch(put(2), put(1))}; tile 0 0 0; {batch('delete 1', put(2, 3), put(3))}; tile 0 0 0; look 1; look 2; {batch()}; begin; step"]
    yield from [batch("put 5 l 0 8 lines 0,0 16384,0 b=true c=-2", "delete 2", "put 4 a 0 2 polygons 0,0 1000,0 1000,1000 / 10,10 20,10 20,20"), "tile 6 0 0"]
    yield from [looks(2, 3, 4, 5), "metadata", "stop", *crashed(), looks(2, 3, 4, 5), "archive", "tile 0 0 0"]


def sizes():
    yield from heading("One change, 64, and 65; a number twice in the first and the last of 64 changes, and in 65.")
    yield from [*opened(), puts(1, 1), puts(1, 64), "look 64", puts(1, 65), "look 65", deletes(1, 65), deletes(1, 64), "look 1", "look 64"]
    yield from [batch(*put_each(1, 63), put(1)), batch(*put_each(1, 63), "delete 1"), batch(put(64), *put_each(1, 63)), batch(*put_each(1, 64), put(1))]
    yield from ["stop", *crashed(), "look 64", put(9)]
    yield from heading(
        "Batches whose text fills a sector exactly, is a byte longer, and fills two and three: a write and a sync for one sector, else bodies, sync, head,",
        "sync. Opening takes 5 calls.",
    )
    for size in (495, 496, 497, 991, 992, 993, 1487, 1488, 1489):
        yield from [*opened(), of_bytes(size - 1), "stop", *crashed(), looks(1, 2), put(9)]
    yield from [*opened(), batch(put(1, 200), put(2, 235)), "stop", *opened(), batch(put(1, 200), put(2, 236)), "stop", *opened(), puts(1, 19), "stop"]
    yield from [*opened(), puts(1, 20), "stop"]
    yield from heading("Changes of 32,768 bytes together, which open again, and of one more; then one change of 32,768 bytes, alone and beside another.")
    yield from [*opened(1024), of_bytes(32769), "look 32", of_bytes(32768), "stop", *crashed(), looks(1, 32), put(33), "stop", "resume", "sector 3"]
    yield "sector 70"
    longest, longer = (f"put 1 p 0 0 points {' '.join(['5,5'] * 4093)} t='{letters}" for letters in ("xx", "xxx"))
    yield from [*opened(1024), batch(longer), batch(longest), batch(longest, put(2)), batch(put(2), longest), batch(longest, "delete 1")]
    yield from [batch(put(2), "delete 1"), "stop", *crashed(), looks(1, 2), longest, batch(put(2), longest)]
    yield from heading("The journal has 16 places: 7,936 bytes in one batch fill it, and a byte more doesn't fit. One place is left by 15 edits.")
    yield from [*opened(), of_bytes(7936), of_bytes(7935), put(50), batch(put(50)), "delete 1", batch("delete 1"), "begin; step", batch("delete 1", put(50))]
    yield from ["stop", *crashed(), looks(1, 2, 50)]
    yield from [*opened(), *put_each(1, 15), batch(put(16, 200), put(17, 236)), looks(16, 17), batch(put(16, 200), put(17, 235)), batch("delete 1")]
    yield from ["stop", *crashed(), looks(1, 16, 17)]


def limits():
    yield from heading("Each limit of a change, in the first and in the second of a batch. A refused batch takes no number, and changes nothing.")
    broken = [put(2**63), f"delete {2**63}", f"put 1 {'l' * 65} 0 2 points 0,0", "put 1 p 3 2 points 0,0", "put 1 p 0 20 points 0,0", "put 1 p 0 2 lines 0,0",
              "put 1 p 0 2 points 0,0 b=1 a=1", put(1, 1025), f"put 1 p 0 9 polygons {WORLD}"]
    yield from opened(1024)
    for change in broken:
        yield from [batch(change), batch(put(2), change), batch(change, put(2)), batch("delete 3", change)]
    yield from ["look 2", put(2)]
    yield from heading(
        "Of several faults the first one is reported: of the count, of a number that is there twice, of the changes in their order, of their length, of",
        "the tiles that a feature covers, and of a feature that doesn't exist.",
    )
    world = f"p 0 9 polygons {WORLD}"
    yield from [batch(*put_each(1, 64), put(1)), batch(put(2**63), put(2**63)), batch(put(1, 1025), f"put {2**63} {POINT}"), batch("delete 3", put(1, 1025))]
    yield from [batch(*(put(number, 1000) for number in range(1, 33)), put(33, 1025)), batch(f"put 1 {world}", *(put(number, 1000) for number in range(2, 34)))]
    yield from [batch(f"put 1 {world}", put(2, 1025)), batch("delete 3", f"put 1 {world}"), batch(*(put(number, 1000) for number in range(4, 36)), "delete 3")]
    yield from [f"{batch(f'put 1 {world}', 'delete 3')}; {batch('delete 3', 'delete 4')}"]
    yield from heading("The last edit number: limits and NotFound are reported before NumbersSpent, and that before JournalFull.")
    yield from [*fresh(), f"write 1 = 'VTROOT01 0:8 {LAST - 1}:8", "open", batch(put(1), put(2)), batch(put(1)), batch(put(1), "delete 2"), batch("delete 3")]
    yield from [batch(), batch(put(1), put(1)), batch(put(1, 1025)), of_bytes(7936), of_bytes(32769), "stop", *crashed(), looks(1, 2), batch(put(3))]
    yield from heading("A batch that doesn't fit the journal is refused before it is written, and after all limits.")
    yield from [*opened(), put(1), of_bytes(7936, 2), of_bytes(32769, 2), batch("delete 1", "delete 2"), batch("delete 2", *put_each(3, 11, 1000)), "stop"]


# A batch of three sectors, which sets two features, replaces one and deletes one; what comes before and behind it.
BEFORE = [put(1), put(2)]
THREE = batch(put(3, 600, "y"), "delete 1", put(2, 500, "z"))
ALL = f"{looks(1, 2, 3)}; tile 0 0 0"


def batch_stops():
    yield from heading(
        "Two edits, a batch of three sectors, and a deletion. Opening makes calls 1 to 5, the edits 6 to 9, the batch 10 to 14 (two bodies, a sync, the",
        "head, a sync), and each of these fails in turn. Whatever a crash leaves of its sectors, all changes of the batch are there or none; before its",
        "head is written, none.",
    )
    for stop in stops(10, 15):
        yield from [*fresh(), stop, "open", *BEFORE, THREE, batch(put(4)), batch(), put(5), "delete 2", ALL, "begin", "stop"]
        trial = Trial()
        for line in [*fresh(), stop, "open", *BEFORE, THREE, batch(put(4)), put(5), "delete 2", "stop"]:
            trial.answer(line)
        for choice in ALL_CHOICES[3 if len(trial.stopped.writes) == 3 else 2]:
            held = Service(trial.stopped.crash(choice)).map
            assert set(held) in ({1, 2}, {2, 3}, {2, 3, 4}, {2, 3, 4, 5}, {3, 4, 5})
            yield from [*crashed(choice), ALL, batch(put(9), "delete 2"), looks(2, 9)]
    yield from heading("Only one call of a batch in one sector fails; without a crash it is there exactly if the write was done. Then it is made again.")
    for stop in ("fail_not_made 6", "fail_made 6", "fail_not_made 7", "fail_made 7"):
        yield from [*fresh(), stop, "open", batch(put(1), put(2)), batch(put(3)), "stop", "resume", "open", looks(1, 2, 3), batch(put(1), put(2)), "stop"]
        yield from [*crashed(), looks(1, 2, 3)]


def bodies_alone():
    yield from heading(
        "A batch of three sectors stops after one of its bodies, and a crash leaves that or not. A put of the same number stops before its second body,",
        "their sync, or its head. No crash leaves either edit, and another batch is there whole.",
    )
    for first in ([0], [1]):
        for call in (7, 8, 9):
            for second in ALL_CHOICES[2]:
                yield from [*fresh(), "fail_from 7", "open", of_bytes(1200), "stop", f"crash {first[0]}"]
                yield from [f"fail_from {call}", "open", put(2, 963, "y"), "stop", f"crash {' '.join(map(str, second))}"]
                yield from ["open", looks(1, 2, 3), of_bytes(1200, 3, "z"), "stop", *crashed(), looks(1, 2, 3, 4)]


def during_publications():
    yield from heading("Batches before, between and after the steps of a publication: what it publishes is the map at its beginning.")
    yield from [*opened(1024), *(puts(first, first + 29, 1000) for first in (1, 31)), "begin", batch("delete 1", put(62)), "tile 0 0 0", "step", "archive"]
    yield from [batch(*(f"delete {number}" for number in range(2, 60))), "step", batch("delete 2"), batch(put(2), "delete 60"), "step", "archive", "verify"]
    yield from ["tile 0 0 0", looks(1, 2, 60, 61, 62), "stop", *crashed(), "tile 0 0 0", looks(1, 2, 60, 61, 62), "archive", puts(1, 3), "begin", "cancel"]
    yield from heading("A batch keeps its places while a publication is under way: it doesn't fit before the last step, and does after it.")
    yield from [*opened(), *put_each(1, 12), "begin", of_bytes(1984, 20), of_bytes(1983, 20), batch("delete 1"), "step", batch("delete 1"), of_bytes(5456, 30)]
    yield from [of_bytes(5455, 30), "archive", "stop", *crashed(), looks(1, 20, 30), "begin; step", "archive"]
    yield from heading("The batch fails while a publication is under way: the service is broken, and the publication is dropped.")
    yield from [*fresh(), "fail_from 8", "open", batch(put(1), put(2)), "begin", batch(put(3), "delete 1"), "step", "cancel", "begin", looks(1, 2, 3), "stop"]
    for choice in ALL_CHOICES[1]:
        yield from [*crashed(choice), looks(1, 2, 3), "step", "begin; step", "archive"]


def moved_together():
    yield from heading("Two points change their corners of the world in one batch: no tile shows one of them twice, or not at all.")
    corners = ["0,0", f"{WORLD_END - 1},{WORLD_END - 1}"]
    tiles = "tile 2 0 0; tile 2 3 3; tile 0 0 0"
    yield from [*opened(), batch(*(f"put {number} p 0 2 points {at}" for number, at in enumerate(corners, 1))), tiles, "publish", tiles]
    yield from [batch(*(f"put {number} p 0 2 points {at}" for number, at in enumerate(reversed(corners), 1))), tiles, "stop", *crashed(), tiles]
    yield from [batch("delete 1", "delete 2"), tiles, "stop", *crashed(), tiles, "archive"]


def batch_script():
    yield from heading(
        "A run of batches, puts and deletions with two publications; each call of the disk fails in turn. After a crash, some first edits are shown, all",
        "acknowledged ones among them, the archive is that of some first of those, and the next edit has the next number.",
    )
    events = [batch(put(1), put(2, 467)), "begin", batch(put(3), "delete 1"), "step", "delete 2", "tile 0 0 0", "begin", batch(put(4), put(5, 470)), "step"]
    for stop in stops(6, 26):
        yield from [*fresh(), stop, "open", *(["; ".join(events)] if opens(stop, 5) else []), "stop"]
        for choice in ALL_CHOICES[2]:
            yield from [*crashed(choice), f"tile 0 0 0; {looks(1, 2, 3, 4, 5)}", batch(put(9), put(10)), "archive"]


# The text of an edit that the documents show.
assert edit_text([Change(7, long_point(0))]).hex() == "0101070000000000000001700002010100000000000000000000"

BLOCKS = [worked_batches, sizes, limits, batch_stops, bodies_alone, during_publications, moved_together, batch_script]
