"""What an import would put into the map: the features of a file with their ids, large ones cut; kept in a file, for maps are large."""
from __future__ import annotations

import argparse
import math
import tempfile
from collections.abc import Iterator
from typing import NamedTuple

from osgeo import ogr, osr

from ..client.edits import encoded, text_bytes
from ..faults import Refused
from ..files.gdal_file import Nowhere, Reader, Unreadable
from ..files.id_file import IdFile
from ..files.import_rules import NOWHERE
from ..files.map_schema import Schema, missing
from ..forms import Feature, Tags
from ..geometry.feature_cutter import FeatureCutter
from ..geometry.shapes import Box, Shape, Unfit, bounds, count, is_shown, size, wrong_zooms
from ..geometry.wholes import PIECE
from ..geometry.world import WORLD, degrees
from ..limits import NUMBER_END
from ..progress import counted
from ..shown import shown
from .sizes import Room, is_heavy

# Cut features that are named each; the rest is counted.
MOST_NAMED = 20
# Pieces of a feature, and new ones of all, that are told before they are made.
MANY_PIECES = 2000
FEWER = "a smaller --maxzoom makes fewer of them, --no-split none"
# After so many features it is looked whether the disk has room for them.
BETWEEN = 256


class Planned(NamedTuple):
    """A feature to put: its id, the id of the feature that it is a piece of (its own if it isn't cut), the bytes of its
    text, and its JSON."""

    number: int
    whole: int
    text: int
    body: bytes


class Plan:
    """The features of all layers of a reader. `first`: the first id, or what is added to the ids of the file. `ids`: an `IdFile`, or None. `schema`: what
    the features have to fit, or None. `room`: what the server's disk has room for, None if that doesn't matter."""

    def __init__(
        self,
        words: argparse.Namespace,
        reader: Reader,
        first: int,
        ids: IdFile | None,
        schema: Schema | None = None,
        room: Room | None = None,
    ) -> None:
        self.words, self.reader, self.first, self.ids, self.room = words, reader, first, ids, room
        self.zooms = range(words.minzoom, words.maxzoom + 1)
        self.cutter = FeatureCutter(self.zooms, words.split_zoom, not words.no_split, not words.no_outlines, words.whole)
        self.spool = tempfile.TemporaryFile()
        # The layers of the features; the ids to put; the ids of features that aren't put, whose pieces stay as they are.
        self.layers: set[str] = set()
        self.ids_to_put: set[int] = set()
        self.kept: set[int] = set()
        # How many features are refused, and of how many of them the id isn't known.
        self.refused, self.unknown = 0, 0
        self.next, self.cut, self.nowhere = first, 0, 0
        self.box: Box | None = None
        # The types of the fields of each layer of the map that aren't those of tags.
        self.types: dict[str, dict[str, str]] = {}
        # The schema of the map, and the attributes for which it has no field, by the layers.
        self.schema = schema or Schema()
        self.unknown_fields: dict[str, dict[str, None]] = {}

    def read(self) -> None:
        """Plans the features of all layers."""
        total, layer = self.reader.feature_count(), None
        for at, feature in counted(self.reader.features(), "features read", total):
            if at is not layer:
                layer, name, projection, types = at, at.GetName(), self.reader.projection(at), self.reader.types(at)
            made = self.add(feature, name, projection)
            if made is not None and types:
                self.types.setdefault(made, {}).update(types)
            if self.room and self.reader.read % BETWEEN == 0:
                self.look_at_room(total)
        if self.cut > MOST_NAMED:
            print(f"and {self.cut - MOST_NAMED:,} more features are cut", flush=True)
        if self.unknown and self.words.delete_missing:
            what = f"{self.unknown:,} feature{'s' if self.unknown > 1 else ''}"
            print(f"note: nothing is deleted, since the map may have refused features whose ids aren't known: {what}", flush=True)
        if self.nowhere:
            print(f"note: {NOWHERE}: {self.nowhere:,} feature{'s' if self.nowhere > 1 else ''}", flush=True)

    def look_at_room(self, total: int | None) -> None:
        """Ends an import for which the disk is known to have no room, before all of a long file is read."""
        fault = self.room and self.room.lacks_already(self.reader.read, total)
        if fault:
            raise Refused(fault)

    def add(self, feature: ogr.Feature, name: str, projection: osr.CoordinateTransformation) -> str | None:
        """Plans a feature of the file's layer of this name. Returns its layer in the map, if it is to be put."""
        number = None
        try:
            # The id is read first, so that a feature that is refused keeps it on the map. By --ids it depends on the layer.
            number = self.number(feature) if self.ids is None else None
            tags = self.reader.tags(feature)
            layer = self.layer(tags, name)
            tags = self.fitted(layer, tags)
            number = self.number(feature, layer) if number is None else number
            self.check(number)
            made = self.features(number, self.reader.shape(feature, projection), tags, layer)
            self.reader.tell_shape()
        except Nowhere:
            self.nowhere += 1
            self.keep(number)
            return None
        except (Unfit, RuntimeError) as fault:
            self.refused += 1
            self.keep(number)
            # Whoever gave no ids finds a feature by its row.
            row = self.reader.at(name)
            named = row if number is None else f"feature {number}" if self.words.id else f"feature {number} ({row})"
            print(f"{named} refused: not sent: {shown(fault)}", flush=True)
            return None
        self.layers.add(layer)
        for own, planned in made:
            self.ids_to_put.add(own)
            length = text_bytes(planned)
            self.spool.write(b"%d %d %d %s\n" % (own, number, length, encoded(planned)))
            if self.room:
                self.room.add(length, planned, self.zooms, own == number)
        self.next = made[-1][0] + 1
        return layer

    def keep(self, number: int | None) -> None:
        """Leaves the id to a feature that isn't put. If it isn't known, nothing is deleted: it may be that of any feature of the map."""
        if number is None and self.words.id is None:
            number = self.next
        if number is None:
            self.unknown += 1
        elif number not in self.ids_to_put:
            self.kept.add(number)
            self.next = number + 1

    def has(self, number: int) -> bool:
        """Whether an id is that of a feature of the file, put or kept."""
        return number in self.ids_to_put or number in self.kept

    def layer(self, tags: Tags, name: str) -> str:
        """The layer of a feature in the map."""
        if self.words.layer_field is None:
            return self.words.layer or name
        layer = tags.pop(self.words.layer_field, None)
        if layer is None:
            raise Unfit(f"it has no attribute {self.words.layer_field}")
        return str(layer)

    def fitted(self, layer: str, tags: Tags) -> Tags:
        """The tags as the schema has them, if it names the layer."""
        rules = self.schema.layers.get(layer)
        if rules is None:
            return tags
        tags = rules.fitted(tags)
        self.unknown_fields.setdefault(layer, {}).update(dict.fromkeys(rules.unknown(tags)))
        fault = rules.fault(None, tags)
        if fault:
            raise Unfit(fault)
        return tags

    def obstacles(self) -> Iterator[str]:
        """Why nothing may be sent: attributes for which the schema has no field."""
        for layer, tags in self.unknown_fields.items():
            if tags and not self.words.new_fields:
                yield f"{missing(layer, *tags)}; --new-fields puts them without"

    def number(self, feature: ogr.Feature, layer: str | None = None) -> int:
        """The id of a feature: the next one, or by the field that --id names, and with --ids by the layer."""
        if self.words.id is None:
            return self.next
        value = self.reader.identity(feature)
        if self.ids is not None and layer is not None:
            return self.ids.number(layer, str(value))
        if str(value).isdecimal():
            return self.first + int(str(value))
        if not (self.ids_to_put or self.refused) and any(letter.isalpha() for letter in str(value)):
            raise Unreadable(f"{self.words.id} has texts ({value!r}): --ids FILE keeps ids for them")
        raise Unfit(f"its {self.words.id} is {value!r}, no number: --ids FILE keeps ids for texts")

    def check(self, number: int) -> None:
        """Refuses an id that can't be used."""
        if self.words.id is not None and not number < PIECE:
            raise Unfit(f"its {self.words.id} makes the id {number:,}: ids are below {PIECE:,}")
        if number in self.ids_to_put or number in self.kept:
            raise Unfit(f"its {self.words.id} makes the id {number}, and an earlier feature has the same")

    def features(self, number: int, shape: Shape, tags: Tags, layer: str) -> list[tuple[int, Feature]]:
        """The features to put for one of the file, each with its id."""
        about = self.cutter.about(shape, MANY_PIECES)
        if about >= MANY_PIECES:
            print(f"feature {number} will be cut into about {about:,} pieces: {FEWER}", flush=True)
        made, crosses = self.cutter.features(number, shape, tags, layer)
        step = 1 if self.words.id is None else PIECE
        if number + step * (len(made) - 1) >= NUMBER_END:
            raise Unfit("its pieces have no ids below 2^63")
        if crosses:
            self.reader.notes.add("cut at the 180th meridian, which they cross")
        shapes = [next(iter(piece["geometry"].items())) for piece in made]
        if not any(is_shown(piece, self.words.maxzoom) for piece in shapes):
            self.reader.notes.add(f"no zoom shows them: they are smaller than a unit of a tile of zoom {self.words.maxzoom}")
        if len(made) > 1:
            self.tell_cut(number, len(made), sum(piece["layer"] != layer for piece in made))
        for at, piece in enumerate(shapes):
            self.tell_wrong(number + step * at, piece)
            box = bounds(piece)
            self.box = box if self.box is None else around(self.box, box)
        return [(number + step * at, piece) for at, piece in enumerate(made)]

    def tell_cut(self, number: int, pieces: int, outlines: int) -> None:
        """Says that a feature is cut."""
        self.cut += 1
        if self.cut <= MOST_NAMED:
            print(f"feature {number} is cut into {pieces - outlines:,} pieces{f' and {outlines:,} of its outline' if outlines else ''}", flush=True)

    def tell_wrong(self, number: int, shape: Shape) -> None:
        """Says what renderers will draw wrong of a feature, and what makes publications slow."""
        wrong = wrong_zooms(shape, self.zooms)
        if wrong:
            wide, high = size(shape)
            zooms = f"zoom {wrong[0]}" if len(wrong) == 1 else f"zooms {wrong[0]} to {wrong[-1]}"
            print(f"warning: feature {number} is {wide / 1000:,.1f} km wide and {high / 1000:,.1f} km high: wrong in some renderers at {zooms}", flush=True)
        if is_heavy(shape, self.zooms):
            print(f"warning: feature {number} has {count(shape):,} points in very many tiles: publications will take long", flush=True)

    def planned(self, what: str | None = None) -> Iterator[Planned]:
        """Each feature to put. `what` is done with them, if that takes long enough to be told."""
        self.spool.seek(0)
        for row in counted(self.spool, what, len(self.ids_to_put)) if what else self.spool:
            number, whole, text, body = row.rstrip(b"\n").split(b" ", 3)
            yield Planned(int(number), int(whole), int(text), body)

    def place(self) -> str:
        """Zoom, latitude and longitude of a view of all features, as in the address of a map."""
        west, north, east, south = self.box or (0, 0, WORLD, WORLD)
        share = max(east - west, south - north, 1)
        zoom = min(max(math.floor(math.log2(WORLD / share)), self.words.minzoom), self.words.maxzoom)
        longitude, latitude = degrees([(west + east) / 2, (north + south) / 2])
        return f"{zoom}/{latitude:.5f}/{longitude:.5f}"


def around(one: Box, other: Box) -> Box:
    """The box around two."""
    return min(one[0], other[0]), min(one[1], other[1]), max(one[2], other[2]), max(one[3], other[3])
