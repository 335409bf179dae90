"""The lines of which the blocks of `service_script.py` are made: disks, edits, openings and crashes."""
from disk import LAST_VERSION, SECTOR, Layout, Record, Root, format_sector, put_records, record_text, root_sector
from tiles import feature
from words import spelled

LAST = 2**64 - 1
WORLD_END = 2**32
POINT = "p 0 2 points 0,0"
ALL_CHOICES = {sectors: [[number >> bit & 1 for bit in reversed(range(sectors))] for number in range(2**sectors)] for sectors in range(4)}


def heading(*texts):
    return ["", *(f"# {text}" for text in texts)]


def point(letters=0, letter="x"):
    """A point at the corner of the world, on zooms 0 to 2. The text of its edit has 25 bytes, or 30 and the letters of its tag."""
    return POINT + (f" t='{letter}*{letters}" if letters else "")


def put(number, letters=0, letter="x"):
    return f"put {number} {point(letters, letter)}"


def put_each(first, last, letters=0):
    return [put(number, letters) for number in range(first, last + 1)]


def looks(*numbers):
    return "; ".join(f"look {number}" for number in numbers)


def words_of(numbers):
    return "".join(f" {number}" for number in numbers)


def batch(*changes):
    return f"batch {' & '.join(changes)}" if changes else "batch"


def fresh(sectors=64, version=LAST_VERSION):
    """Lines that make a disk with the empty map."""
    return [f"disk {sectors}", "format" if version == LAST_VERSION else f"format_version {version}"]


def opened(sectors=64, version=LAST_VERSION):
    return [*fresh(sectors, version), "open"]


def crashed(choice=()):
    return [f"crash{words_of(choice)}", "open"]


def stops(first, last):
    """Lines that make calls fail: for each number all from it on, only it before its work is done, only it after."""
    return [f"{word} {call}" for word in ("fail_from", "fail_not_made", "fail_made") for call in range(first, last + 1)]


def write_words(at, held):
    """Lines that write bytes into consecutive sectors."""
    return [f"write {at + index} = {spelled(held[SECTOR * index :][:SECTOR])}" for index in range(-(-len(held) // SECTOR))]


def image(layout, root, snapshot, archive=b"", older=None, version=LAST_VERSION):
    """Lines that make a disk with a root, its snapshot and its archive."""
    yield f"disk {layout.sectors}"
    yield from write_words(0, format_sector(layout.sectors, version).rstrip(b"\0"))
    yield from write_words(1 + root.generation % 2, root_sector(root).rstrip(b"\0"))
    if older:
        yield from write_words(1 + older.generation % 2, root_sector(older).rstrip(b"\0"))
    yield from write_words(layout.area_at(root.generation), snapshot)
    yield from write_words(layout.area_at(root.generation) + -(-len(snapshot) // SECTOR), archive)


def text_words(layout, place, number, version, text):
    """Lines that write a record of the journal with this text."""
    held = bytearray(SECTOR * layout.sectors)
    put_records(held, layout, place, number, [(version, text)])
    for part in range(-(-len(text) // 496)):
        at = layout.place(place + part)
        yield from write_words(at, bytes(held[SECTOR * at :][:SECTOR]).rstrip(b"\0"))


def record_words(layout, place, number, *changes, version=LAST_VERSION):
    """Lines that write a record of the journal with these changes."""
    return text_words(layout, place, number, version, record_text(Record(version, list(changes))))


def opens(stop, last):
    """Whether an opening of `last` calls succeeds with these failing calls."""
    return int(stop.split()[1]) > last


def long_point(letters, letter="x"):
    return feature({"points": [[0, 0]]}, tags={"t": letter * letters} if letters else {})


def with_snapshot(text, length=None, numbers=(5, 0), archive_len=0, older=Root(0, 0, 0, 0, 0), version=LAST_VERSION):
    """Lines that make a disk of generation 1 with this text in its area. `numbers` are the root's edits and place in the journal."""
    root = Root(1, *numbers, len(text) if length is None else length, archive_len)
    return list(image(Layout(64), root, text, older=older, version=version))
