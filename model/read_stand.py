"""What `map_runs` has to answer to a line of the part `reads`: second readers of messages, tiles, edits and archives, from the documents alone.

It shares no code with the product. `crates/map_runs/src/main.rt` says what each command does.
"""
import re

import archives
import ids
import texts
import tile_reading
import tiles
import wire
from rust_text import Named, Record, clipped, debug, option

METADATA = b'{"vector_layers":[{"fields":{},"id":"p","maxzoom":2,"minzoom":0}]}'
KINDS = {"points": tile_reading.POINTS, "lines": tile_reading.LINES, "polygons": tile_reading.POLYGONS}
ABOUT_NAMES = ("keep", "find", "contents", "looks")


def expanded(text):
    """`<COUNT:TEXT>` stands for the text so many times."""
    return re.sub(r"<(\d+):([^<>]*)>", lambda found: found[2] * int(found[1]), text)


# ---- numbers


def point(found):
    return Record("Pt", x=found[0], y=found[1])


def shape_text(shape):
    if shape.kind == "Raw":
        return Named("Raw", shape.held)
    if shape.kind == "Points":
        return Named("Points", [point(p) for p in shape.held])
    return Named(shape.kind, [[point(p) for p in line] for line in shape.held])


def shape(rest):
    kind, *numbers = rest.split()
    try:
        return str(shape_text(tile_reading.shape_of(KINDS.get(kind, tile_reading.UNKNOWN), [int(number) for number in numbers])))
    except tile_reading.GeometryFault as fault:
        return str(fault)


EXAMPLES = {"points": ("points", [(5, 7), (3, 2)]), "line": ("lines", [[(2, 2), (2, 10), (10, 10)]]), "ring": ("rings", [[(3, 6), (8, 12), (20, 34)]])}


def example(kind):
    return debug(tiles.integers(EXAMPLES[kind]))


def nothing(_):
    return f"{debug(tiles.integers(('lines', [])))} {debug(tiles.integers(('rings', [])))}"


def spell(rest):
    return b"".join(wire.varint(int(word)) for word in rest.split()).hex()


def zigzag(rest):
    return str(wire.zigzag(int(rest)))


def unzigzag(rest):
    return str(wire.unzigzag(int(rest)))


def tile_id(rest):
    place = [int(word) for word in rest.split()]
    return str(ids.id_of(*place)) if ids.is_tile(*place) else "no tile"


def place(rest):
    found = ids.tile_of(int(rest))
    return "{}/{}/{}".format(*found) if found else "no tile"


def range_of(value):
    """RFC 9110, 14.2, as far as docs/HTTP.md takes it."""
    found = re.fullmatch(rb"bytes=([0-9]{1,18})-([0-9]{1,18})", value)
    if not found or int(found[1]) > int(found[2]):
        return "none"
    return f"{int(found[1])} to {int(found[2])}"


def digits(rest):
    if not re.fullmatch("[0-9]+", rest):
        return "no digits"
    return str(int(rest)) if int(rest) < 2**64 else "too great"


def written(rest):
    first, second = rest.split()
    return f"of {int(first)}, {int(second)}."


NUMBERS = {
    "shape": shape, "example": example, "nothing": nothing, "spell": spell, "zigzag": zigzag, "unzigzag": unzigzag, "id": tile_id, "place": place,
    "range": lambda rest: range_of(rest.encode()), "digits": digits, "written": written}


# ---- archives that are built


def archive_of(tiles):
    """The archive of tiles, or the words for what they are instead."""
    before = -1
    for number, content in tiles:
        if not before < number < ids.ALL_IDS or not content:
            return None, "no tiles"
        before = number
    if not tiles:
        return None, "no tiles"
    archive = archives.built(tiles, METADATA)
    return archive, "the tiles need more than 131,072 entries"


def even_tiles(rest):
    count, _, content = rest.partition(" ")
    return [(2 * index, bytes.fromhex(content)) for index in range(int(count))]


def build(rest):
    pairs = [word.split(":") for word in rest.split()]
    archive, otherwise = archive_of([(int(number), bytes.fromhex(content)) for number, content in pairs])
    return archive.hex() if archive else otherwise


def even(rest):
    archive, otherwise = archive_of(even_tiles(rest))
    return archive.hex() if archive else otherwise


def apart(rest):
    count, length = rest.split()
    tiles = [(2 * index, index.to_bytes(8, "little").ljust(int(length), b"\0")[: int(length)]) for index in range(int(count))]
    archive, otherwise = archive_of(tiles)
    return archive.hex() if archive else otherwise


def even_judged(rest):
    archive, otherwise = archive_of(even_tiles(rest))
    return archives.judged(archive) if archive else otherwise


BUILDS = {"build": build, "even": even, "apart": apart, "evenjudged": even_judged}


# ---- messages


def fault_text(fault):
    return Named("Err", Record("WireFault", at=fault.at, kind=Name(fault.kind)))


class Name:
    """A word that is printed as it is."""

    def __init__(self, word):
        self.word = word

    def __str__(self):
        return self.word


def varint(data):
    try:
        return str(Named("Ok", wire.read_varint(data)))
    except wire.WireFault as fault:
        return str(fault_text(fault))


VALUES = {wire.VARINT: "Varint", wire.EIGHT: "Eight", wire.BYTES: "Bytes", wire.FOUR: "Four"}


def fields(data):
    told = []
    try:
        for field, kind, value in wire.fields_of(data):
            held = value if kind == wire.VARINT else [*value]
            told.append(str(Named("Ok", Record("Field", number=field, value=Named(VALUES[kind], held)))))
    except wire.WireFault as fault:
        told.append(str(fault_text(fault)))
    return ", ".join(told)


def feature_text(feature):
    tags = [(key, Named(value.kind, value.held)) for key, value in feature.tags]
    return Record("TileFeature", id=option(feature.id), tags=tags, shape=shape_text(feature.shape))


def tile(data):
    try:
        layers = tile_reading.read_tile(data)
    except tile_reading.TileFault as fault:
        return str(fault)
    return debug([Record("Layer", name=layer.name, version=layer.version, extent=layer.extent, features=[*map(feature_text, layer.features)])
                  for layer in layers])


def world(found):
    return Record("World", x=found[0], y=found[1])


def nested(lists):
    """Lists of places, of any depth."""
    return world(lists) if isinstance(lists[0], int) else [nested(inner) for inner in lists]


def tag_text(tag):
    key, value = tag
    if isinstance(value, bool):
        kind = "Truth"
    elif isinstance(value, str):
        kind = "Text"
    else:
        kind = "Natural" if value >= 0 else "Negative"
    return Record("Tag", key=key, value=Named(kind, value))


def change_text(edit):
    if not edit.feature:
        return Record("Delete", id=edit.number)
    feature = edit.feature
    ((kind, lists),) = feature["geometry"].items()
    told = Record(
        "Feature", layer=feature["layer"], minzoom=feature["minzoom"], maxzoom=feature["maxzoom"],
        geometry=Named(kind.capitalize(), nested(lists)), tags=[tag_text(tag) for tag in feature["tags"].items()])
    return Record("Put", id=edit.number, feature=told)


def change(data):
    found = texts.read_change(data)
    return found if isinstance(found, str) else f"{found[1]} bytes: {change_text(found[0])}"


def edit(data):
    found = texts.read_edit(data)
    return found if isinstance(found, str) else f"{found[1]} bytes: {debug([*map(change_text, found[0])])}"


# ---- archives


HEADER_FAULTS = {"short header": "Short", "bad magic": "Magic"}


def header_fault(fault):
    word, _, number = str(fault).partition(": ")
    return Named("Version", int(number)) if number else Name(HEADER_FAULTS[word])


def header(data):
    try:
        said = archives.header_of(data)
    except archives.Fault as fault:
        return str(header_fault(fault))
    parts = {name: Record("SectionSpan", offset=said[name + "_at"], length=said[name]) for name in archives.SECTIONS}
    names = ["addressed", "entries", "contents", "clustered", "internal", "compression", "kind", "min_zoom", "max_zoom"]
    places = {"min_lon": "west", "min_lat": "south", "max_lon": "east", "max_lat": "north", "centre_zoom": "centre_zoom",
              "centre_lon": "centre_lon", "centre_lat": "centre_lat"}
    told = Record("Header", **parts, **{name: said[name] for name in names}, **{name: said[field] for name, field in places.items()})
    return f"{told}, written the same"


def entry_text(e):
    return Record("DirectoryEntry", id=e.id, run=e.run, length=e.length, offset=e.offset)


def directory(data):
    try:
        return debug([*map(entry_text, archives.read_directory(data))])
    except archives.DirectoryFault as fault:
        return str(fault)


def metadata(data):
    return debug(archives.is_object(data))


def entries(data):
    return debug([*map(entry_text, archives.listed(data))])


def verify(data):
    line = archives.judged(data)
    return f"{0 if line.startswith('ok: ') else 1} {line}"


def show(data):
    try:
        return debug("".join(line + "\n" for line in archives.shown(data)))
    except archives.Fault as fault:
        word = str(header_fault(fault)).partition("(")[0]
        return f"{word}, 0 bytes written"


BYTES = {
    "varint": varint, "fields": fields, "tile": tile, "change": change, "edit": edit, "header": header, "directory": directory,
    "metadata": metadata, "list": entries, "verify": verify, "show": show, "rangeof": range_of}


def find(number, data):
    try:
        found = archives.found(archives.read_directory(data), int(number))
    except archives.DirectoryFault as fault:
        return str(fault)
    return debug(option(found and entry_text(found)))


def content(data, number):
    try:
        found = archives.looked_up(data, int(number))
    except archives.Fault as fault:
        return str(fault)
    return "none" if found is None else found.hex()


def contents(numbers, data):
    archives.opened(data)
    return debug([content(data, number) for number in numbers.split(",")])


NAMED = {"find": find, "contents": contents, "looks": contents}


class Stand:
    """The bytes that lines gave names."""

    def __init__(self):
        self.held = {}

    def input(self, text):
        """`-` for no bytes, `@` and a name, or hexadecimal digits; then changes: `AT=HEX`, `..LEN`, `+HEX`."""
        first, *changes = expanded(text).split()
        data = bytearray(self.held[first[1:]] if first.startswith("@") else bytes.fromhex(first.strip("-")))
        for word in changes:
            if word.startswith(".."):
                del data[int(word[2:]) :]
            elif word.startswith("+"):
                data += bytes.fromhex(word[1:])
            else:
                at, _, part = word.partition("=")
                part = bytes.fromhex(part)
                data[int(at) : int(at) + len(part)] = part
        return bytes(data)

    def about_a_name(self, word, rest):
        name, _, text = rest.partition(" ")
        data = self.input(text)
        if word == "keep":
            self.held[name] = data
            return f"{len(data)} bytes"
        return NAMED[word](name, data)

    def command(self, word, rest):
        for group in (NUMBERS, BUILDS):
            if word in group:
                return group[word](rest)
        if word in ABOUT_NAMES:
            return self.about_a_name(word, rest)
        if word in BYTES:
            return BYTES[word](self.input(rest))
        return None

    def answer(self, line):
        """What is printed of a line."""
        if not line or line.startswith("#"):
            return line
        word, _, rest = line.partition(" ")
        try:
            told = self.command(word, rest)
            return f"? {line}" if told is None else clipped(told)
        except archives.Fault as fault:
            return str(fault)
