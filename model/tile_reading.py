"""A second reader of tiles of any maker (Mapbox Vector Tile 2.1, docs/FORMATS.md). It shares no code with the product.

Where a tile has several faults, one of them is named: here the first in the order in which the parts are read. A part of a message is
read in a pass over the message's fields, which ends at bytes that are no field and at a field of the part that has another wire type.
Of a tile its layers are read, each as soon as it is named: of a layer the name, the version, the extent, the keys, the values and the
features, of a feature the id, the type, the tags and the geometry, and then tags and shape are made of these.
"""
from collections import namedtuple

from wire import BYTES, EIGHT, FOUR, VARINT, WireFault, fields_of, read_varint, unzigzag

# Integers of a shape that are no coordinates.
MOVE, LINE, CLOSE = 1, 2, 7
UNKNOWN, POINTS, LINES, POLYGONS = 0, 1, 2, 3

Layer = namedtuple("Layer", "name version extent features")
Feature = namedtuple("Feature", "id tags shape")
# A value by the name of its kind, as `Text`, and what it holds; a shape likewise.
Value = namedtuple("Value", "kind held")
Shape = namedtuple("Shape", "kind held")


class TileFault(Exception):
    """Why bytes are no tile, by its name."""


class GeometryFault(Exception):
    """Why integers are no shape of a kind, by its name."""


# ---- shapes


class Integers:
    """The integers of a shape, taken from the front, and where the cursor stands."""

    def __init__(self, held):
        self.held, self.at, self.cursor = held, 0, (0, 0)

    def command(self, wanted):
        if self.at == len(self.held):
            raise GeometryFault("Cut")
        found = self.held[self.at]
        if found % 8 != wanted:
            raise GeometryFault("Command")
        self.at += 1
        return found // 8

    def points(self, count):
        found = []
        for _ in range(count):
            if self.at + 2 > len(self.held):
                raise GeometryFault("Cut")
            self.cursor = tuple(old + unzigzag(way) for old, way in zip(self.cursor, self.held[self.at : self.at + 2]))
            if not all(-(2**63) <= w < 2**63 for w in self.cursor):
                raise GeometryFault("Cursor")
            self.at += 2
            found.append(self.cursor)
        return found

    def line(self, is_ring):
        if self.command(MOVE) != 1:
            raise GeometryFault("Count")
        found = self.points(1)
        count = self.command(LINE)
        if count < (2 if is_ring else 1):
            raise GeometryFault("Count")
        found += self.points(count)
        if is_ring and self.command(CLOSE) != 1:
            raise GeometryFault("Count")
        return found

    def all_points(self):
        if not self.held:
            return []
        count = self.command(MOVE)
        if count == 0:
            raise GeometryFault("Count")
        found = self.points(count)
        if self.at < len(self.held):
            raise GeometryFault("Command")
        return found

    def lines(self, is_ring):
        found = []
        while self.at < len(self.held):
            found.append(self.line(is_ring))
        return found


def shape_of(kind, integers):
    """The shape of a kind that integers spell."""
    if kind == POINTS:
        return Shape("Points", Integers(integers).all_points())
    if kind == LINES:
        return Shape("Lines", Integers(integers).lines(False))
    if kind == POLYGONS:
        return Shape("Rings", Integers(integers).lines(True))
    return Shape("Raw", integers)


# ---- messages


def values_in(data, number, kinds):
    """The wire types and values of the fields of a number, in a pass over all fields."""
    try:
        for field, kind, value in fields_of(data):
            if field == number:
                if kind not in kinds:
                    raise TileFault("Kind")
                yield kind, value
    except WireFault as fault:
        raise TileFault("Wire") from fault


def each_in(data, number):
    return [value for _, value in values_in(data, number, [BYTES])]


def last_in(data, number, kind, otherwise=None):
    values = [value for _, value in values_in(data, number, [kind])]
    return values[-1] if values else otherwise


def text_of(data):
    try:
        return data.decode("utf-8")
    except UnicodeDecodeError as error:
        raise TileFault("Utf8") from error


def short(number):
    if number >= 2**32:
        raise TileFault("Range")
    return number


def unpacked(data):
    """Numbers one behind the other."""
    at = 0
    while at < len(data):
        number, at = read_varint(data, at)
        yield number


def numbers_in(data, number):
    """The numbers of a list, packed or one by one."""
    found = []
    try:
        for kind, value in values_in(data, number, [VARINT, BYTES]):
            found += [short(one) for one in ([value] if kind == VARINT else unpacked(value))]
    except WireFault as fault:
        raise TileFault("Wire") from fault
    return found


def whole(number):
    return Value("Natural", number) if number >= 0 else Value("Negative", number)


def signed(number):
    return number - 2**64 if number >= 2**63 else number


VALUE_KINDS = {1: BYTES, 2: FOUR, 3: EIGHT, 4: VARINT, 5: VARINT, 6: VARINT, 7: VARINT}


def said_value(data):
    """The last field that says a value, where all that do have one number."""
    last = None
    try:
        for field, kind, value in fields_of(data):
            if field not in VALUE_KINDS:
                continue
            if kind != VALUE_KINDS[field]:
                raise TileFault("Kind")
            if last and last[0] != field:
                raise TileFault("Value")
            last = field, value
    except WireFault as fault:
        raise TileFault("Wire") from fault
    if not last:
        raise TileFault("Value")
    return last


def value_of(data):
    field, held = said_value(data)
    if field == 1:
        return Value("Text", text_of(held))
    if field in (2, 3):
        return Value("Float" if field == 2 else "Double", [*held])
    if field == 7:
        return Value("Truth", held != 0)
    return whole({4: signed, 5: int, 6: unzigzag}[field](held))


def tags_of(indices, keys, values):
    pairs = [*zip(indices[::2], indices[1::2])]
    if len(indices) % 2 or any(key >= len(keys) or value >= len(values) for key, value in pairs):
        raise TileFault("Tag")
    if len({key for key, _ in pairs}) < len(pairs):
        raise TileFault("Tag")
    return [(keys[key], values[value]) for key, value in pairs]


def feature_of(data, keys, values):
    number, kind = last_in(data, 1, VARINT), last_in(data, 3, VARINT, UNKNOWN)
    indices, integers = numbers_in(data, 2), numbers_in(data, 4)
    tags = tags_of(indices, keys, values)
    try:
        return Feature(number, tags, shape_of(kind, integers))
    except GeometryFault as fault:
        raise TileFault("Geometry") from fault


def name_of(data):
    if data is None:
        raise TileFault("Name")
    return text_of(data)


def version_of(number):
    if short(number) not in (1, 2):
        raise TileFault("Version")
    return number


def extent_of(number):
    if short(number) == 0:
        raise TileFault("Extent")
    return number


def layer_of(data):
    name = name_of(last_in(data, 1, BYTES))
    version = version_of(last_in(data, 15, VARINT, 1))
    extent = extent_of(last_in(data, 5, VARINT, 4096))
    keys = [text_of(part) for part in each_in(data, 3)]
    values = [value_of(part) for part in each_in(data, 4)]
    return Layer(name, version, extent, [feature_of(part, keys, values) for part in each_in(data, 2)])


def read_tile(data):
    """The layers of a tile."""
    layers = []
    for part in each_in(data, 3):
        layer = layer_of(part)
        if layer.name in [before.name for before in layers]:
            raise TileFault("LayerTwice")
        layers.append(layer)
    return layers
