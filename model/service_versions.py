"""Blocks of `service_script.py` about disks of both versions: their upgrade, and journals with records of both."""
from crashes import every_choice
from disk import Change, Layout, Record, edit_text, record_text, snapshot_text, text_of
from machine import Service
from service_batches import deletes, of_bytes, puts
from service_lines import LAST, WORLD_END, batch, crashed, fresh, heading, long_point, looks, opened, opens, put, put_each, record_words, stops
from service_lines import text_words, with_snapshot
from service_openings import EARLIER
from service_stand import Trial
from tiles import feature

FIRST = [64, 1]
# A change whose text has 1,137 bytes: its record has three sectors in both versions.
LONG = Change(7, feature({"points": [[5, 5]] * 140}))


def versions():
    yield from heading("A disk is formatted in the last version, or in a version that there is; each is opened.")
    yield from ["disk 64", "format", "sector 0", "open", "version", "format_version 1", "sector 0", "open", "version", "format_version 2", "sector 0", "open"]
    yield from ["version", "format_version 0", "format_version 3", "format_version 4294967297", "version"]
    for sectors in (0, 63, 16777217):
        yield from [f"disk {sectors}", "format_version 1", "open", "upgrade"]
    yield from heading("A format in version 1 fails at some of its 25 calls.")
    for stop in ("fail_from 1", "fail_not_made 24", "fail_made 24", "fail_not_made 25", "fail_made 25"):
        yield from ["disk 64", stop, "format_version 1", "stop", "resume", "open"]
    yield from heading("Versions that there are not.")
    for version in (0, 3, 257, 2**16 + 1, 2**24 + 2, 2**32 - 1):
        yield from [*fresh(), f"write 0 = 'VTILEDSK {version}:4 64:8", "open", "upgrade", "sector 0"]


def refused_before():
    yield from heading("A disk of version 1 takes puts and deletions, and no batch, whatever that has: NeedsUpgrade is reported before all limits.")
    yield from [*opened(256, 1), put(7), batch(put(7), put(8)), batch(), puts(1, 65), batch(put(7), "delete 7"), batch("delete 9"), batch(put(2**63)), "look 8"]
    yield from [of_bytes(32769), "version", put(9), "tile 0 0 0", "stop", "resume", "sector 3", "sector 4", "upgrade", "open", "version", "tile 0 0 0"]
    yield from heading("After the upgrade the map is the same, and the next edits are of version 2.")
    yield from [looks(7, 8, 9), batch(put(7), put(8)), "tile 0 0 0", "delete 9", "stop", *crashed(), "version", looks(7, 8, 9), "stop", "resume", "sector 3"]
    yield from ["sector 5", "sector 6"]
    yield from heading("Broken is reported before NeedsUpgrade.")
    yield from [*fresh(*FIRST), "fail_from 6", "open", batch(put(1)), put(1), batch(put(1)), batch(), "stop", *crashed(), batch(put(1)), "upgrade", "open"]
    yield from [batch(put(1))]


def outcomes():
    yield from heading("An upgrade syncs, reads sector 0, writes it and syncs: four calls, and two on a disk of version 2.")
    yield from [*fresh(*FIRST), "upgrade", "sectors", "upgrade", "open", "version", *fresh(), "upgrade", "open", "version"]
    yield from heading("It closes the disk, with what isn't synced; a sector more than the format says is left alone.")
    yield from [*opened(*FIRST), put(1), "upgrade", "look 1", "open", "version", "look 1"]
    yield from ["disk 65", "write 0 = 'VTILEDSK 1:4 64:8", "write 1 = 'VTROOT01", "write 64 = 07", "upgrade", "sector 0", "sector 64", "open", "version"]
    yield from heading("Faults of sector 0: nothing is written. Other sectors aren't read.")
    for words in ("00", "'VTILEDSL 1:4 64:8", "'VTILEDSK 0:4 64:8", "'VTILEDSK 3:4 64:8", "'VTILEDSK 1:4 63:8", "'VTILEDSK 1:4 65:8", "'VTILEDSK 1:4 64:8 01",
                  "'VTILEDSK 2:4 65:8", "'VTILEDSK 2:4 64:8 00*491 01"):
        yield from [*fresh(*FIRST), f"write 0 = {words}", "upgrade", "sector 0", "stop", "crash", "sector 0"]
    yield from [*fresh(*FIRST), "write 1 = 'VTROOT02", "write 3 = 1:1 1:1 1:2 1:8 0:4", "upgrade", "sector 0", "open"]


# A disk of version 1 on which the last put isn't synced, and what a disk shows.
UNSYNCED = [*fresh(*FIRST), "fail_not_made 9", "open", put(1), put(2), "stop", "resume"]
SHOWS = ["version", f"{looks(1, 2)}; tile 0 0 0"]


def left_of(lines):
    """The disk that some lines stop, with its unsynced writes."""
    trial = Trial()
    for line in lines:
        trial.answer(line)
    return trial.stopped


def upgrade_stops():
    yield from heading(
        "A disk of version 1 with one edit that is synced and one that isn't. The upgrade fails at each of its four calls. Whatever a crash leaves, the",
        "disk opens in version 1 or 2; in version 2, both edits are there.",
    )
    for stop in stops(1, 5):
        made = [*UNSYNCED, stop, "upgrade", "stop"]
        yield from made
        left = left_of(made)
        for choice in every_choice(left):
            found = Service(left.crash(choice))
            assert found.version == 1 and set(found.map) in ({1}, {1, 2}) or set(found.map) == {1, 2}
            yield from [*crashed(choice), *SHOWS, batch(put(9), put(8)), put(9), "upgrade", "open", *SHOWS, batch(put(9), put(8))]
    yield from heading("The same without a crash: the disk is opened, or upgraded again.")
    for stop in stops(1, 5):
        yield from [*UNSYNCED, stop, "upgrade", "open", *SHOWS, *UNSYNCED, stop, "upgrade", "upgrade", "open", *SHOWS, batch(put(3), put(4))]
    yield from heading("A disk of version 2, of which the second edit isn't synced. The upgrade fails at each of its two calls, and the disk stays as it was.")
    for stop in stops(1, 3):
        made = [*fresh(), *UNSYNCED[2:], stop, "upgrade", "stop"]
        yield from made
        for choice in every_choice(left_of(made)):
            yield from [*crashed(choice), *SHOWS, batch(put(9), put(8))]
    yield from heading("An upgrade of a disk with a publication, of which each call fails: the archive stays.")
    for stop in stops(1, 4):
        made = [*opened(*FIRST), put(1), "publish", put(2, 467), "stop", "resume", stop, "upgrade", "stop"]
        yield from made
        for choice in every_choice(left_of(made)):
            yield from [*crashed(choice), *SHOWS, "archive", "begin; step", "archive"]


def earlier_upgraded():
    yield from heading("The disk that an earlier version wrote: edits in version 1, no batch, the upgrade, batches, a publication.")
    yield from ["disk 64", *(f"write {at} = {words}" for at, words in EARLIER.items()), "open", "version", put(7), "delete 8", batch(put(1)), "stop", "resume"]
    yield from ["sector 7", "sector 8", "upgrade", "sector 0", "sector 7", "open", "version", looks(7, 8, 9), "archive", "tile 0 0 0"]
    yield from [batch(put(8), "delete 7"), of_bytes(900, 20), looks(7, 8, 9, 20), "stop", *crashed(), looks(7, 8, 9, 20), "archive", "publish", "archive"]
    yield from ["verify", batch("delete 20")]
    yield from ["stop", *crashed(), looks(8, 20), "version", "publish", "stop", "resume", "sector 0", "sector 1", "sector 2"]
    yield from heading("The same disk is upgraded at once, and the first edit of version 2 is a batch of two sectors.")
    yield from ["disk 64", *(f"write {at} = {words}" for at, words in EARLIER.items()), "upgrade", "open", batch(put(7, 300), put(9, 300), "delete 8")]
    yield from ["tile 0 0 0", "stop", *crashed(), looks(7, 8, 9), "archive", "stop", "resume", "sectors", "sector 7", "sector 8"]


def with_publications():
    yield from heading("A publication before the upgrade, and one after it: the archive and the tiles that are read from it stay.")
    yield from [*opened(*FIRST), put(7), "publish", put(8), "stop", "resume", "upgrade", "open", "archive", "tile 0 0 0", "tile 2 0 0", "delete 8"]
    yield from [batch(put(9), put(10)), "publish", "archive", "verify", "tile 0 0 0", "stop", *crashed(), "version", "tile 0 0 0", "archive"]
    yield from heading("An upgrade while a publication is under way ends that; the next one is whole.")
    yield from [*opened(1024, 1), *put_each(1, 62, 1000), "begin", "step", put(63), "stop", "resume", "upgrade", "open", "step", "archive", "look 63"]
    yield from ["begin", batch("delete 1", put(64)), "step", deletes(2, 60), "step", "step", "archive", looks(1, 61, 63, 64), "stop", *crashed(), "archive"]


def both_in_a_ring():
    yield from heading("The journal has 16 places. Fifteen edits of version 1, the upgrade, and a batch that fits, and one that doesn't.")
    yield from [*opened(*FIRST), *put_each(1, 15), batch(put(16)), put(16, 467), "stop", "resume", "upgrade", "open", put(16, 466)]
    yield from [batch(put(16, 441), put(17)), batch(put(16, 440), put(17)), batch(put(16, 400), "delete 1"), looks(1, 15, 16), batch("delete 2")]
    yield from ["stop", *crashed(), looks(1, 2, 15, 16), "publish", batch("delete 2")]
    yield from heading("Records of version 1 up to the end of the ring, of version 2 behind it: the root begins at place 14.")
    yield from [*opened(*FIRST), *put_each(1, 14), "publish", put(15), "stop", "resume", "upgrade", "open", of_bytes(1400, 20), batch("delete 1", "delete 2")]
    yield from [put(16), "stop", *crashed(), looks(1, 15, 16, 20, 21), "stop", "resume", *(f"sector {at}" for at in (17, 18, 3, 4, 5, 6))]
    yield from ["open", "publish", "archive", put(17), "stop", *crashed(), looks(1, 17)]
    yield from heading("A record of version 1 in places 14 to 0, one of version 2 behind it; the other way round; and each version between two of the other.")
    layout = Layout(64)
    for order in ((1, 2), (2, 1), (1, 2, 1, 2), (2, 1, 2, 1)):
        yield from with_snapshot(snapshot_text({7: long_point(0), 9: long_point(600)}), numbers=(5, 14))
        yield from record_words(layout, 14, 6, LONG, version=order[0])
        for place, version in enumerate(order[1:], 1):
            made = [Change(9, None)] if version == 1 or place > 2 else [Change(9, None), Change(10 + place, long_point(1))]
            yield from record_words(layout, place, 6 + place, *made, version=version)
        yield from ["open", looks(7, 9, 11, 12), batch(put(20), "delete 7"), "stop", *crashed(), looks(7, 20)]


def heads_behind():
    yield from heading(
        "A head of either version with a later number, at the next place: the journal ends in front of it, and the next edit replaces it. No service",
        "leaves such a disk.",
    )
    layout = Layout(64)
    for version in (2, 1):
        for number, later in ((3, 1), (3, 2), (LAST, 2)):
            yield from [*fresh(64, version), *record_words(layout, 0, 1, Change(7, long_point(0)), version=1)]
            yield from [*record_words(layout, 1, number, Change(8, long_point(0)), version=later), "open", looks(7, 8), put(9), batch(put(10), put(11))]
            yield from ["stop", *crashed(), looks(7, 8, 9, 11)]
    yield from heading("On a disk of version 1, a head of version 2 with the next number ends the journal too. An edit replaces it, an upgrade leaves it.")
    for more in ([], [put(9)], ["upgrade", "open", put(9)], [put(9), "upgrade", "open"]):
        yield from [*fresh(*FIRST), *record_words(layout, 0, 1, Change(7, long_point(0)), version=1)]
        yield from [*record_words(layout, 1, 2, Change(8, long_point(0)), Change(7, None)), "open", looks(7, 8), *more, looks(7, 8, 9), "stop", *crashed()]
        yield from ["version", looks(7, 8, 9)]
    yield from heading("A head of the last number behind that of the one before; numbers of records that are in the snapshot.")
    yield from [*fresh(), f"write 1 = 'VTROOT01 0:8 {LAST - 2}:8", *record_words(layout, 0, LAST - 1, Change(7, long_point(0)), version=1)]
    yield from [*record_words(layout, 1, LAST, Change(8, long_point(0)), Change(7, None)), *record_words(layout, 2, 0, Change(9, long_point(0))), "open"]
    yield from [looks(7, 8, 9), put(1), "delete 8", batch("delete 8")]
    for version in (1, 2):
        yield from [*with_snapshot(text_of(Change(7, long_point(0))), numbers=(5, 3)), *record_words(layout, 3, 5, Change(7, None), version=version), "open"]
        yield from ["look 7", batch("delete 7", put(8)), "stop", *crashed(), looks(7, 8)]


def bodies_and_lengths():
    yield from heading("Bodies of the other version than their head, in the first and in the last one; and all of one version.")
    layout = Layout(64)
    for version in (1, 2):
        text = record_text(Record(version, [LONG]))
        lines = list(text_words(layout, 0, 1, version, text))
        others = list(text_words(layout, 0, 1, 3 - version, text))
        for chosen in ((0, 0, 0), (0, 1, 0), (0, 0, 1), (0, 1, 1), (1, 0, 0)):
            yield from [*fresh(), *(pair[which] for pair, which in zip(zip(lines, others), chosen)), "open"]
    yield from heading("On a disk of version 1 a body of version 2 doesn't fit either.")
    text = text_of(LONG)
    yield from [*fresh(*FIRST), *text_words(layout, 0, 1, 1, text), "open", *fresh(*FIRST), *text_words(layout, 0, 1, 1, text)]
    yield from [list(text_words(layout, 0, 1, 2, text))[1], "open"]
    yield from heading("Heads of both versions with lengths of 0, of one byte, at the limit and past it, and with the parts of another length.")
    for version in (1, 2):
        for parts, length in ((1, 0), (0, 0), (1, 1), (67, 32768), (67, 32769), (67, 32770), (67, 33232), (66, 32769), (68, 32769), (1, 497), (2, 496)):
            yield from [*fresh(1024), f"write 3 = 1:1 {version}:1 {parts}:2 1:8 {length}:4 01", "open"]
    yield from heading("Whole records of 32,768 and 32,769 bytes: of one change, of 32 changes, and a byte longer than that.")
    large, longest = Layout(1024), Change(1, feature({"points": [[5, 5]] * 4093}, 0, 0, "p", {"t": "xx"}))
    many = [Change(number, long_point(1000)) for number in range(1, 32)] + [Change(32, long_point(808))]
    assert len(text_of(longest)) == len(edit_text(many)) - 1 == 32768
    longer = [*many[:-1], Change(32, long_point(809))]
    rows = [(1, text_of(longest)), (2, edit_text([longest])), (1, text_of(longest) + b"\0"), (2, edit_text(many)), (2, edit_text(longer)), (1, edit_text(many))]
    for version, text in rows:
        yield from [*fresh(1024), *text_words(large, 0, 1, version, text), "open"]
        if len(text) - version + 1 <= 32768 and (version == 1) == (text == text_of(longest)):
            yield from ["tile 0 0 0", "look 32", batch("delete 1", put(40)), "stop", *crashed(), looks(1, 32, 40)]


def texts():
    yield from heading("Texts of records of version 2: each is no edit, but for the last ones.")
    layout = Layout(64)
    first, second, gone = (text_of(Change(7, long_point(0))), text_of(Change(9, long_point(3))), text_of(Change(8, None)))
    bad = [b"\0", b"\1", b"\0" + first, b"\2" + first, b"\1" + first + second, b"\2" + first + second[:-1], b"\2" + first + second + b"\0", b"\x41" + first]
    bad += [b"\2" + first * 2, b"\2" + gone * 2, b"\2" + first + text_of(Change(7, None)), b"\3" + first + second + gone[:-1], first, gone, second]
    bad += [b"\1" + text_of(Change(2**63, None)), b"\2" + first + text_of(Change(2**63, None)), b"\2" + gone + b"\3" + first[1:], b"\xff" + gone * 54]
    for text in bad:
        yield from [*fresh(), *text_words(layout, 0, 1, 2, text), "open"]
    yield from [*fresh(), *text_words(layout, 0, 1, 1, b"\1" + first), "open", *fresh(), *text_words(layout, 0, 1, 1, b"\1" + gone), "open"]
    sixty_five = [Change(number, None) for number in range(65)]
    for made in (sixty_five, sixty_five[1:]):
        yield from [*fresh(), *text_words(layout, 0, 1, 2, edit_text(made)), "open"]
    for text in (b"\1" + first, b"\1" + gone, b"\2" + first + second, b"\3" + second + gone + first):
        yield from [*fresh(), *text_words(layout, 0, 1, 2, text), "open", looks(7, 8, 9), batch(put(8), put(9))]
    yield from heading("Of a record that isn't whole and a text that is none, the record is reported, though it comes later.")
    yield from [*fresh(), *text_words(layout, 0, 1, 2, b"\0"), *text_words(layout, 1, 2, 2, b"\1"), "write 5 = 1:1 2:1 2:2 3:8 497:4", "open"]
    yield from heading("Features of other makers that cover more tiles than a put may have, beside one that is deleted and wasn't there.")
    wide = feature({"polygons": [[[[0, 0], [WORLD_END - 1, 0], [WORLD_END - 1, WORLD_END - 1]]]]}, 0, 19)
    yield from [*fresh(), *record_words(layout, 0, 1, Change(1, wide), Change(2, None), Change(3, long_point(0))), "open", "tile 19 0 0", looks(2, 3)]
    yield from [batch("delete 2"), batch("delete 1", put(2)), "tile 19 0 0", "tile 0 0 0"]


def openings():
    yield from heading("Each call of opening a disk with a record of version 1, a batch of three sectors and a deletion fails in turn. The disk opens again.")
    layout = Layout(64)
    made = [Change(7, long_point(700)), Change(9, None), Change(8, long_point(600))]
    text = snapshot_text({7: long_point(0), 9: long_point(600)})
    for stop in stops(1, 13):
        yield from with_snapshot(text, numbers=(5, 14))
        yield from [*record_words(layout, 14, 6, Change(8, long_point(0)), version=1), *record_words(layout, 15, 7, *made)]
        yield from [*record_words(layout, 2, 8, Change(7, None)), stop, "open"]
        yield from [looks(7, 8, 9), "stop"] if opens(stop, 12) else ["open", looks(7, 8, 9), "stop"]


BLOCKS = [versions, refused_before, outcomes, upgrade_stops, earlier_upgraded, with_publications, both_in_a_ring, heads_behind, bodies_and_lengths]
BLOCKS += [texts, openings]
