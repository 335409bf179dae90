"""Tiles of one place in several archives as one tile, as docs/FORMATS.md has it: layers by their names, features by
ascending id, keys and values of a layer once and in order of first use. Needs no package.

What a tile of vtserve has of a feature depends on that feature alone. So the merged tile has the bytes that it has on
a map of all features.
"""
from __future__ import annotations

from typing import Iterator, NamedTuple

from ..files.protobuf import bytes_field, fields, number_field, varint, varint_of

LAYER = 3
NAME, FEATURE, KEY, VALUE, EXTENT, VERSION = 1, 2, 3, 4, 5, 15
ID, TAGS, TYPE, GEOMETRY = 1, 2, 3, 4
# What a layer and a feature have that don't say it.
USUAL_EXTENT, USUAL_VERSION = 4096, 1


class BadTile(ValueError):
    """Why a tile can't be merged."""


class SharedId(Exception):
    """An id that two tiles have in a layer: the name of the layer, and the id."""

    def __init__(self, layer: str, number: int) -> None:
        super().__init__(layer, number)
        self.layer, self.number = layer, number


class Feature(NamedTuple):
    """A feature of a layer: its tags are pairs of a key's and a value's bytes."""

    number: int
    tags: list[tuple[bytes, bytes]]
    kind: int
    geometry: bytes


class Layer(NamedTuple):
    """The bytes of a layer's message, its name, and its extent and version."""

    data: bytes
    name: bytes
    form: tuple[int, int]

    @property
    def said(self) -> str:
        """Its name, as a message has it."""
        return repr(self.name.decode("utf-8", "replace"))


def layers_in(tile: bytes) -> dict[bytes, Layer]:
    """The layers of a tile, by their names."""
    found: dict[bytes, Layer] = {}
    for number, data in fields(tile):
        if number != LAYER:
            continue
        if not isinstance(data, bytes):
            raise BadTile("a layer is no message")
        said = dict(fields(data))
        layer = Layer(data, said.get(NAME, b""), (said.get(EXTENT, USUAL_EXTENT), said.get(VERSION, USUAL_VERSION)))
        if not isinstance(layer.name, bytes) or layer.name in found:
            raise BadTile("a layer has no name of its own")
        found[layer.name] = layer
    return found


def numbers_in(data: bytes) -> Iterator[int]:
    """The numbers of a packed list."""
    at = 0
    while at < len(data):
        number, at = varint(data, at)
        yield number


def packed(value: bytes | int) -> bytes:
    """A list of numbers as it is packed: some writers have a field for each number."""
    return value if isinstance(value, bytes) else varint_of(value)


def feature_of(data: bytes, keys: list[bytes], values: list[bytes], layer: Layer) -> Feature:
    """A feature by its message and the pools of its layer."""
    number, kind, tags, geometry = None, 0, b"", b""
    for field, value in fields(data):
        if field == ID:
            number = value
        elif field == TYPE:
            kind = value
        elif field == TAGS:
            tags += packed(value)
        elif field == GEOMETRY:
            geometry += packed(value)
    if not isinstance(number, int) or not isinstance(kind, int):
        raise BadTile(f"layer {layer.said} has a feature without an id: another archive may have the same one")
    places = list(numbers_in(tags))
    of_keys, of_values = places[::2], places[1::2]
    if len(places) % 2 or max(of_keys, default=-1) >= len(keys) or max(of_values, default=-1) >= len(values):
        raise BadTile(f"layer {layer.said} has a tag without a key or a value")
    return Feature(number, [(keys[key], values[value]) for key, value in zip(of_keys, of_values)], kind, geometry)


def features_in(layer: Layer) -> Iterator[Feature]:
    """The features of a layer."""
    found: dict[int, list[bytes]] = {FEATURE: [], KEY: [], VALUE: []}
    for number, value in fields(layer.data):
        if number in found:
            if not isinstance(value, bytes):
                raise BadTile(f"layer {layer.said} has a number in place of bytes")
            found[number].append(value)
    for data in found[FEATURE]:
        yield feature_of(data, found[KEY], found[VALUE], layer)


def written(layer: Layer, features: list[Feature]) -> bytes:
    """The message of a layer."""
    keys: dict[bytes, int] = {}
    values: dict[bytes, int] = {}
    parts = [bytes_field(NAME, layer.name)]
    for feature in features:
        tags = b"".join(varint_of(keys.setdefault(key, len(keys))) + varint_of(values.setdefault(value, len(values)))
                        for key, value in feature.tags)
        parts.append(bytes_field(FEATURE, b"".join((
            number_field(ID, feature.number),
            bytes_field(TAGS, tags) if tags else b"",
            number_field(TYPE, feature.kind) if feature.kind else b"",
            bytes_field(GEOMETRY, feature.geometry) if feature.geometry else b"",
        ))))
    parts += [bytes_field(KEY, key) for key in keys]
    parts += [bytes_field(VALUE, value) for value in values]
    extent, version = layer.form
    return b"".join([*parts, number_field(EXTENT, extent), number_field(VERSION, version)])


def merged_layer(layers: list[Layer], takes_first: bool) -> bytes:
    """The message of a layer that has the features of several."""
    if len({layer.form for layer in layers}) > 1:
        raise BadTile(f"layer {layers[0].said} has another extent or version than that of the other archive")
    found: dict[int, Feature] = {}
    for layer in layers:
        features = list(features_in(layer))
        own = {feature.number: feature for feature in features}
        if len(own) < len(features):
            raise BadTile(f"layer {layer.said} has two features of one id")
        shared = own.keys() & found.keys()
        if shared and not takes_first:
            raise SharedId(layer.said, min(shared))
        found = own | found
    return written(layers[0], [found[number] for number in sorted(found)])


def merged(tiles: list[bytes], takes_first: bool = False) -> bytes:
    """One tile with the layers and features of several. If several have an id in one layer, `takes_first` takes the
    feature of the first one; otherwise it raises `SharedId`. Raises `BadTile`."""
    layers: dict[bytes, list[Layer]] = {}
    try:
        for tile in tiles:
            for name, layer in layers_in(tile).items():
                layers.setdefault(name, []).append(layer)
        return b"".join(
            bytes_field(LAYER, found[0].data if len(found) == 1 else merged_layer(found, takes_first))
            for _, found in sorted(layers.items()))
    except (IndexError, KeyError) as fault:
        raise BadTile(f"it isn't a vector tile: {fault}") from None
