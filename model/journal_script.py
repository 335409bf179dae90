"""The part `journal` of the script of `service_runs`: a model of a disk with its generations and its journal answers each line."""
import words
from crashes import Seen, every_choice
from disk import SECTOR, Fault, Root, layout_of, root_of, version_of
from journal_stand import Trial

CRATE, PART = "service_runs", "journal"

# A number whose bytes are all different, lowest first 1 to 8.
NUMBER = 0x0807060504030201
LAST = 2**64 - 1
# The format sector of a disk of 64 sectors, in versions 1 and 2.
FORMAT_64 = "'VTILEDSK 1:4 64:8"
LAST_FORMAT_64 = "'VTILEDSK 2:4 64:8"
# Texts with letters at the bounds of their parts.
LETTERS = {1: "'a", 496: "'a*495 'b", 497: "'a*495 'b 'c", 992: "'a*495 'b 'c 'a*494 'd", 993: "'a*495 'b 'c 'a*494 'd 'e"}


# How a record is appended, by its version.
APPEND = {1: "append", 2: "append 2"}


def heading(*texts):
    return ["", *(f"# {text}" for text in texts)]


def root_words(*numbers):
    return "'VTROOT01 " + " ".join(f"{number}:8" for number in numbers)


def three(first, even, odd, sectors=64):
    """Lines that make a disk with these first three sectors."""
    return [f"disk {sectors}"] + [f"write {at} = {held}" for at, held in enumerate([first, even, odd]) if held is not None]


def choices(sectors):
    """All choices of a crash if `sectors` sectors are unsynced, each written once."""
    return [[number >> bit & 1 for bit in reversed(range(sectors))] for number in range(2**sectors)]


def words_of(numbers):
    return " ".join(str(number) for number in numbers)


def stops(calls):
    """Lines that make calls fail: for each call and one more, all from it on, only it before its work is done, only it after."""
    return [f"{word} {call}" for word in ("fail_from", "fail_not_made", "fail_made") for call in range(1, calls + 2)]


def filled(at, byte):
    return f"write {at} = {byte:02x}*512"


def sectors_of(count):
    return [f"sector {at}" for at in range(count)]


def memories():
    yield from heading("A disk in memory begins with zeros.")
    yield from ["disk 4", *sectors_of(4)]
    yield from heading("It is as large as numbers go. Of sectors far apart a crash leaves those that are chosen: only the first three numbers count.")
    far = [0, 2**32, LAST - 1]
    yield f"disk {LAST}"
    for at in far:
        yield from [filled(at, 4), f"sector {at}"]
    yield from [filled(LAST, 4), f"sector {LAST}", "stop", "crash 1 0 1 1 1 1 1 1 1", *(f"sector {at}" for at in far)]
    yield from heading(
        "Sector 1 is synced with 1s, then sector 3 is filled with 5s, and sector 1 with 2s and with 3s. A crash by each of these choices, and then a",
        "second one, which loses nothing.",
    )
    unsynced = ["disk 4", filled(1, 1), "sync", filled(3, 5), filled(1, 2), filled(1, 3)]
    chosen = [[], [0], [1], [2], [3], [0, 0], [1, 0], [2, 0], [2**32 - 1, 0], [0, 1], [1, 1], [2, 1], [0, 2], [1, 2**32 - 1], [2, 1, 1, 1]]
    for choice in chosen:
        yield from [*unsynced, "stop", f"crash {words_of(choice)}".rstrip(), *sectors_of(4), "stop", "crash 1 1", *sectors_of(4)]
    yield from heading("The same once it is synced, and then with one more write.")
    for choice in ([0, 0], [1, 1], [2, 2]):
        yield from [*unsynced, "sync", "stop", f"crash {words_of(choice)}", *sectors_of(4)]
    for choice in ([0], [1]):
        yield from [*unsynced, "sync", filled(0, 7), "stop", f"crash {words_of(choice)}", *sectors_of(4)]


def failing_calls():
    yield from heading(
        "Sector 2 is filled with 7s, synced, filled with 8s and read, while each call of the four fails, none, or all from one on: what is told, what the",
        "disk has then, and what a crash leaves of it that loses what wasn't synced.",
    )
    for stop in [f"{word} {call}" for word in ("fail_from", "fail_not_made", "fail_made") for call in range(7)]:
        yield from ["disk 3", stop, filled(2, 7), "sync", filled(2, 8), "sector 2", "fail_none", "sector 2", "stop", "crash", "sector 2"]


def layouts():
    yield from heading("Layouts: the two documented examples, the smallest and the largest disk, and sizes out of range.")
    yield from (f"layout {sectors}" for sectors in (64, 256, 65, 67, 16777216, 0, 63, 16777217, LAST))


def formats():
    yield from heading("A disk of zeros is formatted. Sectors that are zeros already are not written, so it takes 25 calls.")
    yield from ["disk 64", "root", "format", "sectors", "sector 0", "sector 1", "root"]
    yield from ["disk 256", "format", "sector 0", "root"]
    yield from heading("Disks that are too small or too large are refused without a call; one of 64 sectors is formatted.")
    for sectors in (0, 63, 64, 16777217):
        yield from [f"disk {sectors}", "format"]
    yield from heading("A disk is formatted in a version: the first, the last, and none that there isn't; too small and too large disks as before.")
    for version in (1, 2):
        yield from ["disk 64", f"format_version {version}", "sector 0", "sectors", "root"]
    yield from ["disk 64", "format_version 0", "format_version 3", f"format_version {2**32 + 1}", "root"]
    for sectors in (0, 63, 16777217):
        yield from [f"disk {sectors}", "format_version 1"]
    yield from [*old_disk(), "format_version 1", "root", "format", "root"]
    yield from heading("On a disk that was used before, format clears both roots and the journal (sectors 1 to 18) and nothing else.")
    yield from [*old_disk(), "sectors", "format", "sectors", "root"]


def old_disk(first=FORMAT_64):
    """A disk of 64 sectors, of version 1 unless given, with roots of generations 4 and 5, and with sevens at both ends of the journal and in an area."""
    yield from three(first, root_words(4, 0, 0, 0, 0), root_words(5, 0, 0, 0, 0))
    yield from ["write 3 = 07*512", "write 18 = 07*512", "write 19 = 07*512", "sync"]


def state_of(disk):
    """The version of a disk and its live root, or its fault."""
    held = Seen(disk)
    try:
        return version_of(held), root_of(held, layout_of(held))
    except Fault as fault:
        return str(fault)


def format_crashes():
    yield from heading(
        "A format of a used disk fails at each of its 25 calls, then crashes by every choice: the old disk, an unformatted one or a fresh one is left.",
        "Calls 1 and 2 are zeros in sector 0 and a sync, 3 to 20 zeros in sectors 1 to 18, 21 a sync, 22 and 23 the root and a sync, 24 and 25",
        "the mark and a sync. Zeros over zeros leave the same sector in either case, so a crash has no choice there.",
    )
    choices_tried = 0
    for stop in stops(25):
        lines_made, trial = [*old_disk(), stop, "format", "stop"], Trial()
        yield from lines_made
        for line in lines_made:
            trial.answer(line)
        for choice in every_choice(trial.stopped):
            assert state_of(trial.stopped.crash(choice)) in ((1, Root(5, 0, 0, 0, 0)), (2, Root(0, 0, 0, 0, 0)), "NotFormatted")
            choices_tried += 1
            yield from [f"crash {words_of(choice)}".rstrip(), "root", "sectors"]
    yield f"# {choices_tried} choices."


def possible_roots():
    yield from heading("Valid roots on a disk of 64 sectors, whose journal has 16 and whose areas have 22.")
    roots = [[0, 0, 0, 0, 0], [2, 7, 15, 100, 200], [LAST - 1, LAST, 0, 0, 0], [4, 0, 0, 11264, 0]]
    for root in [*roots, [4, 0, 0, 0, 11264], [4, 0, 0, 512, 10752], [4, 0, 0, 1, 10752]]:
        yield from [*three(FORMAT_64, root_words(*root), None), "root"]
    yield from heading("Invalid roots: of the other parity, past the journal, past the area.")
    roots = [[1, 0, 0, 0, 0], [LAST, 0, 0, 0, 0], [2, 0, 16, 0, 0], [2, 0, LAST, 0, 0], [4, 0, 0, 11265, 0], [4, 0, 0, 0, 11265]]
    for root in [*roots, [4, 0, 0, 1, 10753], [4, 0, 0, LAST, 0], [4, 0, 0, 0, LAST], [4, 0, 0, LAST, LAST], [4, 0, 0, LAST - 511, 512]]:
        yield from [*three(FORMAT_64, root_words(*root), root_words(1, 0, 0, 0, 0)), "root"]
    yield from heading("Of two roots the one of greater generation is live.")
    for even, odd in [(4, 3), (4, 5), (0, 1), (LAST - 1, LAST), (None, 7), (6, None)]:
        sectors = [None if generation is None else root_words(generation, 9, 0, 0, 0) for generation in (even, odd)]
        yield from [*three(FORMAT_64, *sectors), "root"]


def bad_roots():
    yield from heading(
        "Damaged root sectors: both zeros, both of one parity, each in the other's sector, a nonzero byte after the numbers, one at the end, another",
        "mark, a sector of ones.",
    )
    whole, odd = root_words(2, 0, 0, 0, 0), root_words(1, 0, 0, 0, 0)
    mark = "'VTROOT02 2:8"
    rows = [(None, None), (odd, None), (whole, whole), (None, whole), (odd, whole), (f"{whole} 01", odd), (f"{whole} 00*463 01", odd)]
    for even, second in [*rows, (mark, odd), (whole, mark), ("01*512", odd)]:
        yield from [*three(FORMAT_64, even, second), "root"]
    yield from heading("A fault of sector 0 is reported first, and one of sector 1 before one of sector 2: the number of calls shows how far it read.")
    yield from [*three(None, "01", "01"), "root", *three(FORMAT_64, "01", "01"), "root", *three(FORMAT_64, None, "01"), "root"]


def bad_formats():
    yield from heading("Damaged format sectors: another version, too few sectors, more than the disk has, a nonzero byte after the count, another mark.")
    for first in [
        "'VTILEDSKxxxxxxxxxxxxx",
        "'VTILEDSK 0:4 64:8",
        "'VTILEDSK 3:4 64:8",
        "'VTILEDSK 257:4 64:8",
        f"'VTILEDSK {2**24 + 2}:4 64:8",
        "'VTILEDSK 2:4 63:8",
        "'VTILEDSK 2:4 65:8",
        f"{LAST_FORMAT_64} 01",
        f"{LAST_FORMAT_64} 00*491 01",
        "'VTILEDSK 1:4 63:8",
        "'VTILEDSK 1:4 65:8",
        "'VTILEDSK 1:4 16777217:8",
        f"'VTILEDSK 1:4 {2**63 + 64}:8",
        f"{FORMAT_64} 01",
        f"{FORMAT_64} 00*491 01",
        "'VTILEDSL 1:4 64:8",
        "'vTILEDSK 1:4 64:8",
        "00",
    ]:
        yield from [*three(first, root_words(0, 0, 0, 0, 0), None), "root"]
    yield from heading("Disks with one sector fewer than their format says, as many, and more, of both versions; and disks of zeros.")
    for first in (FORMAT_64, LAST_FORMAT_64):
        for sectors in (63, 64, 70):
            yield from [*three(first, root_words(0, 0, 0, 0, 0), None, sectors), "root"]
    for sectors in (0, 1, 64):
        yield from [f"disk {sectors}", "root"]


def reads_that_fail():
    yield from heading("Each read of the format and root sectors fails in turn.")
    for stop in stops(3):
        yield from [*three(FORMAT_64, root_words(4, 0, 0, 0, 0), root_words(5, 0, 0, 0, 0)), stop, "root", "root"]


def upgrades():
    yield from heading("A disk of version 1 is upgraded: only sector 0 changes. A disk of version 2 is synced and read, and isn't written.")
    yield from [*old_disk(), "root", "upgrade", "sector 0", "sectors", "root", "upgrade", "root", "stop", "crash", "root"]
    yield from [*old_disk(LAST_FORMAT_64), "upgrade", "sector 0", "root"]
    yield from ["disk 64", "format", "upgrade", "root", "disk 64", "format_version 1", "upgrade", "root"]
    yield from heading("The disk has more sectors than its format says: the number of sectors stays.")
    yield from [*three(FORMAT_64, root_words(0, 0, 0, 0, 0), None, 70), "upgrade", "sector 0", "root"]
    yield from heading("Faults of sector 0 are reported, and nothing is written. The roots aren't read, so one that is damaged is no fault here.")
    for sectors in (0, 1, 64):
        yield from [f"disk {sectors}", "upgrade", "sectors"]
    for first in ("'VTILEDSL 1:4 64:8", "'VTILEDSK 0:4 64:8", "'VTILEDSK 3:4 64:8", "'VTILEDSK 1:4 65:8", f"{FORMAT_64} 01", f"{LAST_FORMAT_64} 00*491 01"):
        yield from [*three(first, root_words(0, 0, 0, 0, 0), None), "upgrade", "sector 0", "stop", "crash", "sector 0"]
    yield from [*three(FORMAT_64, "01", None), "upgrade", "root", "write 1 = " + root_words(0, 0, 0, 0, 0), "root"]


# What `upgrade_crashes` writes before an upgrade without a sync: a sector of an area, and the root of generation 7.
UNSYNCED = ["write 20 = 08*512", f"write 2 = {root_words(7, 1, 2, 0, 0)}"]


def upgrade_crashes():
    yield from heading(
        "An upgrade after two writes that aren't synced, sectors 2 and 20. It fails at each of its 4 calls (a sync, a read, the format, a sync), and then",
        "crashes by every choice: where the disk is left as of version 2, both writes are left.",
    )
    choices_tried = 0
    for stop in stops(4):
        lines_made, trial = [*old_disk(), *UNSYNCED, stop, "upgrade", "stop"], Trial()
        yield from lines_made
        for line in lines_made:
            trial.answer(line)
        for choice in every_choice(trial.stopped):
            left = trial.stopped.crash(choice)
            version, root = state_of(left)
            assert version == 1 or root.generation == 7 and left.read(20) == b"\x08" * SECTOR
            choices_tried += 1
            yield from [f"crash {words_of(choice)}".rstrip(), "root", "sector 0", "sector 20"]
    yield f"# {choices_tried} choices."
    yield from heading("After the fault the disk is read, and the upgrade is done again: it then is of version 2.")
    for stop in stops(4):
        yield from [*old_disk(), *UNSYNCED, stop, "upgrade", "fail_none", "root", "upgrade", "root", "sector 20", "stop", "crash", "root"]
    yield from heading("An upgrade of a disk of version 2 fails at each of its 2 calls, a sync and a read: it stays as it was.")
    for stop in stops(2):
        yield from [*old_disk(LAST_FORMAT_64), *UNSYNCED, stop, "upgrade", "stop"]
        for choice in choices(2):
            yield from [f"crash {words_of(choice)}", "root", "sector 0", "sector 20"]


def installs():
    yield from heading("The areas of a disk of 64 sectors begin at 19 and 41: their first and last sectors, for even and odd generations.")
    for generation, index in [(0, 0), (0, 21), (1, 0), (1, 21), (6, 3), (LAST, 1), (0, 22)]:
        yield from ["disk 64", f"area {generation} {index} = 07*512", "sectors"]
    yield from heading("Roots whose bytes are all different: an invalid one, and a valid one on the largest disk.")
    numbers = [NUMBER + 0x1010101010101010 * ten for ten in range(5)]
    yield from ["disk 16777216", "write 0 = 'VTILEDSK 2:4 16777216:8", f"install {words_of(numbers)}", "sector 2", "root"]
    numbers[2:] = [number % 2**bits for number, bits in zip(numbers[2:], (22, 32, 32))]
    yield from [f"install {words_of(numbers)}", "sector 2", "sector 1", "root"]
    yield from heading("Generation 6 is installed after 5, and each call fails in turn: a sync, the root, a sync. Where the root is left, its area is too.")
    for stop in stops(3):
        yield from three(FORMAT_64, root_words(4, 0, 0, 0, 0), root_words(5, 0, 0, 0, 0))
        yield from ["sync", "area 6 0 = 07*512", stop, "install 6 9 3 512 0", "stop"]
        for choice in choices(2):
            yield from [f"crash {words_of(choice)}", "root", "sector 19", "sector 2"]


def part_sectors():
    yield from heading("Records of both versions: texts of one byte, of one part, of two and of three. The bytes of their number are all different.")
    for command in APPEND.values():
        for words in LETTERS.values():
            yield from ["disk 8", f"ring 2 4 0 {NUMBER - 1}", f"{command} = {words}", "sectors", "sector 2", "sector 3", "sector 4"]


def heads():
    yield from heading("Heads of versions 1 and 2: valid ones, wrong lengths and counts of parts, another kind, version or number; up to a version.")
    rows = [(1, 1, 1, 1), (1, 1, 1, 496), (1, 1, 2, 497), (1, 1, 67, 32768), (1, 1, 67, 32769), (1, 1, 0, 0), (1, 1, 1, 497), (1, 1, 258, 497)]
    rows += [(1, 1, 2, 2**16 + 497), (2, 1, 1, 1), (0, 0, 0, 0), (1, 2, 1, 1), (1, 0, 1, 1), (1, 3, 1, 1), (1, 255, 1, 1), (2, 2, 1, 1)]
    for kind, version, parts, length in [*rows, (1, 2, 2, 497), (1, 2, 67, 32769), (1, 2, 67, 32770), (1, 2, 0, 0), (1, 2, 1, 497)]:
        yield from ["disk 1", f"write 0 = {kind}:1 {version}:1 {parts}:2 {NUMBER}:8 {length}:4 'a"]
        yield from [f"head 0 {number}" for number in (NUMBER, NUMBER + 1, NUMBER - 1)]
        yield from [f"head 0 {NUMBER} {most}" for most in (0, 1, 3, 255)]
    yield from heading("The parts of a record of three: sectors 0 to 2. Sector 3 is a body of a shorter text, 4 one of zeros, 5 one of another version.")
    yield from ["disk 6", f"ring 0 3 0 {NUMBER - 1}", f"append = {LETTERS[993]}", f"write 3 = 2:1 1:1 1:2 {NUMBER}:8 992:4 'a"]
    yield from [f"write 4 = 2:1 1:1 1:2 {NUMBER}:8 993:4", f"write 5 = 2:1 2:1 1:2 {NUMBER}:8 993:4"]
    yield from [f"has_part 0 {NUMBER} {at} {part}" for at in range(6) for part in range(4)]
    yield from heading("The same in version 2: a body of version 1 isn't one of the record's.")
    yield from ["disk 5", f"ring 0 3 0 {NUMBER - 1}", f"append 2 = {LETTERS[993]}", f"write 3 = 2:1 1:1 1:2 {NUMBER}:8 993:4"]
    yield from [f"write 4 = 2:1 2:1 2:2 {NUMBER}:8 993:4", *(f"has_part 0 {NUMBER} {at} {part}" for at in range(5) for part in range(4))]


def append_crashes():
    yield from heading(
        "A text of two parts after one of two bytes, in a ring of four sectors from sector 2 on, from place 2 on: the body goes into place 0. Each of",
        "the four calls fails in turn (the body, a sync, the head, a sync), and a crash leaves each unsynced sector or not. In version 1, then in 2.",
    )
    for command, stop in [(command, stop) for command in APPEND.values() for stop in stops(4)]:
        yield from ["disk 8", "ring 2 4 2 6", "append = 'xx", stop, f"{command} = 'y*497", "next", "fail_none", "ring 2 4 2 6", "stop"]
        for choice in choices(2):
            yield from [f"crash {words_of(choice)}", "ring 2 4 2 6", "sectors"]
    yield from heading("The same with three parts, from place 3 on in a ring of five: the bodies go into places 4 and 0.")
    for stop in stops(5):
        yield from ["disk 8", "ring 2 5 3 41", stop, "append = 'z*993", "stop"]
        for choice in choices(3):
            yield from [f"crash {words_of(choice)}", "ring 2 5 3 41", "sectors"]
    yield from heading(
        "An append of three parts is stopped after one of its bodies, and another of the same number before its head: whichever bodies a crash leaves,",
        "there is no record. A third append of that number is recovered whole. The first and the third are of version 1 or 2, the second is of the other.",
    )
    for one, other in [APPEND.values(), reversed(APPEND.values())]:
        for first, calls, second in [(first, calls, second) for first in ("", " 1") for calls in (2, 3, 4) for second in choices(2)]:
            yield from ["disk 8", "ring 2 5 3 41", "fail_from 2", f"{one} = 'x*993", "stop", f"crash{first}", "ring 2 5 3 41"]
            yield from [f"fail_from {calls}", f"{other} = 'y*993", "stop", f"crash {words_of(second)}", "ring 2 5 3 41", f"{one} = 'z*993"]
            yield from ["stop", "crash", "ring 2 5 3 41"]


def full_rings():
    yield from heading("A ring of four places fills: a text that needs more places than are free is refused without a call, and the last place is used.")
    yield from ["disk 6", "ring 2 4 2 6", "next", "append = 'y*497", "next", "append = 'y*993", "append = 'y*992", "next", "append = 'x", "ring 2 4 2 6"]
    yield from heading("The last number: NumbersSpent is reported before Full.")
    yield from ["disk 6", f"ring 2 4 3 {LAST - 1}", "append = 'x", "append = 'y*993", "append = 'y*32768", "append = 'x", f"ring 2 4 3 {LAST - 1}"]
    yield from heading("Texts that no record has: of no bytes, of 32,769 in version 1, of 32,770 in version 2; and versions that there aren't.")
    yield from ["disk 82", "ring 2 80 75 6", "append =", "append = 'x*32769", "append 2 =", "append 2 = 'x*32770", "append 0 = 'x", "append 3 = 'x"]
    yield from [f"append {2**32 + 1} = 'x", "next"]


def releases():
    yield from heading("In a ring of four places, the first of three records is released; two more take the free place and the released one.")
    yield from ["disk 6", "ring 2 4 2 6", "append = 'a", "mark", "append = 'bb", "append = 'ccc", "next", "release 2", "release 1"]
    yield from ["append = 'dddd", "append = 'eeeee", "append = 'f", "next", "stop", "crash", "ring 2 4 3 7", "ring 2 4 2 6"]
    yield from heading("Records of several parts: none is released, then two across the end of the ring, then all. A mark can be released once.")
    yield from ["disk 8", "ring 2 5 3 41", "mark", "release 0", "append = 'x*497", "append = 'y", "mark", "append = 'z*497", "release 3", "release 3"]
    yield from ["ring 2 5 1 43", "append = 'u*993", "mark", "release 4", "release 5", "append = 'v*2480", "mark", "release 5", "ring 2 5 1 45", "ring 2 5 1 46"]


def recoveries():
    pattern = "".join(f"{byte:02x}" for byte in range(251))
    yield from heading("Texts of 1, 2 and 67 parts from place 75 on: the third begins in place 78 and continues in place 0. A crash keeps them all.")
    yield from ["disk 82", "ring 2 80 75 6", "append = 'x*496", "append = 'y*497", f"append = {pattern}*130 {pattern[:276]}", "next"]
    yield from ["stop", "crash", "ring 2 80 75 6", "append = 'z"]
    yield from heading("Recovery from a later record, from starts without a record, and with each of the first reads failing.")
    yield from ["ring 2 80 76 7", "ring 2 80 77 8", "ring 2 80 78 8", "ring 2 80 0 9", "ring 2 80 75 5"]
    for call in range(1, 6):
        yield from [f"fail_not_made {call}", "ring 2 80 75 6"]
    yield from heading("Rings that don't fit the disk.")
    yield from ["disk 6", "ring 2 5 0 0", "ring 7 0 0 0", "ring 2 4 4 0", "ring 6 0 0 0"]


def versions():
    yield from heading(
        "Records of versions 1, 2 and 1 in a ring of six places from place 4 on. On a disk of version 1 the journal ends at the record of version 2, and the",
        "next record takes its place. Of a version above 2 as of 2, of version 0 there is no record.",
    )
    yield from ["disk 8", "ring 2 6 4 6", "append = 'a", "append 2 = 'y*497", "append = 'ccc", "next", "stop", "crash"]
    yield from [f"ring 2 6 4 6 {most}" for most in (2, 3, 0, 1)]
    yield from ["append = 'bb", "ring 2 6 4 6", "append 2 = 'dd", "ring 2 6 4 6", "ring 2 6 4 6 1", "ring 2 6 0 8"]
    yield from heading("The longest texts: of 32,768 bytes in version 1 and of 32,769 in version 2, each of 67 parts, and a release of both.")
    yield from ["disk 200", "ring 2 140 100 6", "append = 'x*32768", "append 2 = 'a 'y*32768", "stop", "crash", "ring 2 140 100 6 1"]
    yield from ["ring 2 140 100 6", "mark", "release 134"]
    yield from heading("A record of 32,769 bytes in version 2, from a head and 66 bodies; the same sectors in version 1 are damaged.")
    for version in (2, 1):
        yield "disk 80"
        for part in range(67):
            kind, count = (2, part) if part else (1, 67)
            yield f"write {part} = {kind}:1 {version}:1 {count}:2 {NUMBER}:8 32769:4 {part}:1*496"
        yield from [f"ring 0 80 0 {NUMBER - 1}", f"ring 0 80 0 {NUMBER - 1} 1", f"ring 0 67 0 {NUMBER - 1}", f"ring 0 66 0 {NUMBER - 1}"]
    yield from heading("Heads and bodies of versions 1, 2 and others: a record is whole if all of it is of one version, 1 or 2, that is expected.")
    for head, body in [(1, 2), (2, 1), (2, 2), (1, 1), (3, 3), (0, 0)]:
        yield from pair(TWO, BODY, versions_of=(head, body))
        yield from [f"ring 0 2 0 {NUMBER - 1} {most}" for most in (1, 3)]
    yield from heading("A record of three parts whose first body is of the other version, then its second, then none.")
    for one, other in [(1, 2), (2, 1)]:
        for bodies in [(other, one), (one, other), (one, one)]:
            yield from ["disk 3", f"write 0 = 1:1 {one}:1 3:2 {NUMBER}:8 993:4 'a*496"]
            yield from (f"write {part} = 2:1 {version}:1 {part}:2 {NUMBER}:8 993:4 'b*496" for part, version in enumerate(bodies, 1))
            yield f"ring 0 3 0 {NUMBER - 1}"


# Sectors of a ring, by kind, part, length and byte of the text.
ZERO = None
SHORT = (1, 1, 2, 97)
TWO = (1, 2, 497, 97)
BODY = (2, 1, 497, 98)


def pair_words(sector, number=NUMBER, version=1):
    kind, part, length, byte = sector
    return f"{kind}:1 {version}:1 {part}:2 {number}:8 {length}:4 {byte}:1*496"


def pair(first, second, start=f"0 {NUMBER - 1}", versions_of=(1, 1)):
    yield "disk 2"
    both = enumerate(zip([first, second], versions_of))
    yield from (f"write {at} = {pair_words(sector, version=version)}" for at, (sector, version) in both if sector)
    yield f"ring 0 2 {start}"


def pairs():
    yield from heading("Rings of two sectors: empty; a text with other bytes after its end; a second head of the same number; a text of two parts.")
    for both in [(ZERO, ZERO), (SHORT, ZERO), (SHORT, SHORT), (TWO, BODY)]:
        yield from pair(*both)
    yield from heading("A body without a head; a head in the second place.")
    for both in [(BODY, ZERO), (ZERO, SHORT)]:
        yield from pair(*both)
    yield from heading("A head whose body is missing, or of another part, another length, another kind.")
    for body in [ZERO, (2, 2, 497, 98), (2, 1, 498, 98), (1, 1, 497, 98)]:
        yield from pair(TWO, body)
    yield from heading("Heads with a length of 0, one past the limit, counts of parts that don't match, and more parts than the ring has places.")
    for head in [(1, 0, 0, 97), (1, 67, 32769, 97), (1, 2, 2, 97), (1, 1, 497, 97), (1, 3, 993, 97)]:
        yield from pair(head, BODY)
    yield from heading("A second record: whole, and one with more parts than places are left; no body of it is read.")
    for second in [SHORT, TWO]:
        yield from ["disk 2", f"write 0 = {pair_words(SHORT)}", f"write 1 = {pair_words(second, NUMBER + 1)}", f"ring 0 2 0 {NUMBER - 1}"]
    yield from heading("From place 1 on, the body is in place 0. After the last number there is no record.")
    yield from pair(BODY, TWO, f"1 {NUMBER - 1}")
    yield from pair(SHORT, ZERO, f"0 {LAST}")
    yield from ["disk 1", f"write 0 = 1:1 1:1 1:2 {LAST}:8 1:4 'a", f"ring 0 1 0 {LAST - 1}", "append = 'b"]


def lines():
    yield from ["# Disks, their generations and their journals. Written by model/journal_script.py, with the answers."]
    for block in (memories, failing_calls, layouts, formats, format_crashes, possible_roots, bad_roots, bad_formats, reads_that_fail):
        yield from block()
    for block in (upgrades, upgrade_crashes, installs, part_sectors, heads, append_crashes, full_rings, releases, recoveries, versions, pairs):
        yield from block()


def files():
    return words.files(lines(), Trial().answer)
