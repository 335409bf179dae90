"""The map as the gateway has it where that is too large to be held: an index of it, and boxes of its features as they
are asked for (`/admin/features/box/`, docs/HTTP.md). A server without boxes, and a small map, are held whole, as
`LiveMap` does. Needs no package."""
from __future__ import annotations

import contextlib
import json
import math
from collections.abc import Iterable, Iterator, Mapping

from ..client.client import PAGE
from ..client.feed import Leader
from ..faults import Stopped
from ..files.map_schema import SchemaFile
from ..files.save_log import SaveLog
from ..forms import Feature
from ..geometry.shapes import Box
from ..geometry.wholes import WHOLE, Whole, group_of
from .index import Index, whole_of
from .live_map import LiveMap, Version
from .tables import NO_PAST, FarTable, Kept, Key, Table, View, meets

BOXES = "/admin/features/box"
# An id that few maps have: who asks for the features from there on asks whether there are boxes.
LAST_ID = 2**63 - 1
# The most features of a map that is held whole, if nothing else is said, and the greatest coordinate.
HELD, EDGE = 10_000, 2**32 - 1
# The most versions of features that are kept of a map that isn't held.
MOST_KNOWN = 40_000


class Packed:
    """A feature as somebody has got it, in few bytes."""

    __slots__ = ("number", "version", "data")

    def __init__(self, view: View) -> None:
        self.number, self.version = view.number, view.version
        self.data = json.dumps(
            {str(piece): feature for piece, feature in view.whole.pieces.items()}, separators=(",", ":")
        ).encode()

    def view(self) -> View:
        """The feature again."""
        pieces = {int(piece): feature for piece, feature in json.loads(self.data).items()}
        return view_of(self.number, pieces)


def view_of(number: int, pieces: dict[int, Feature]) -> View:
    """The view of features of the map that are one."""
    is_whole = (
        group_of(pieces[number], WHOLE) is not None and len(pieces) > 0 and number == pieces[number]["tags"].get(WHOLE)
    )
    return View(whole_of(number, pieces) if is_whole else Whole(number, pieces[number], pieces))


class Views:
    """The views of a map that isn't held, by their ids."""

    def __init__(self, live: FarMap) -> None:
        self.live = live

    def get(self, number: int) -> View | None:
        """The feature of an id as it is now, None if there is none."""
        return self.live.view(number, self.live.client)


class Now:
    """The features of a map that isn't held, by their ids."""

    def __init__(self, live: FarMap) -> None:
        self.live = live

    def __len__(self) -> int:
        return len(self.live.index)

    def __contains__(self, number: object) -> bool:
        return number in self.live.index

    def get(self, number: int) -> Feature | None:
        """A feature as it is now, None if there is none."""
        return self.live.client.feature(number)


class Known:
    """Versions of features that somebody has got, by their numbers and versions."""

    def __init__(self) -> None:
        self.packed: dict[Version, Packed] = {}

    def get(self, key: Version) -> Feature | None:
        """The feature of a version, None if it isn't known any more."""
        found = self.packed.get(key)
        return None if found is None else found.view().feature

    def add(self, view: View) -> Packed:
        """Keeps a version. Of very many the oldest one goes."""
        key = view.number, view.version
        found = self.packed.get(key)
        if found is None:
            found = self.packed[key] = Packed(view)
            while len(self.packed) > MOST_KNOWN:
                del self.packed[next(iter(self.packed))]
        return found


class FarMap(LiveMap):
    """A map that is held, or read by boxes. `held`: the most features of one that is held."""

    def __init__(
        self,
        client: Leader,
        further: Mapping[Key, Mapping[str, str]],
        log: SaveLog | None = None,
        schema: SchemaFile | None = None,
        held: int = HELD,
    ) -> None:
        super().__init__(client, further, log, schema)
        self.held, self.index, self.got = held, Index(), Known()

    # ---- following

    def list(self) -> None:
        """Lists the map anew: all of it, or the index of a large one."""
        status = self.client.known()
        self.forget()
        self.is_far = status["features"] > self.held and has_boxes(self.client)
        if not self.is_far:
            super().list()
            return
        index = Index()
        for number, feature in self.client.features():
            index.take(number, feature)
        self.index = index
        self.got = Known()
        self.views, self.now, self.known = Views(self), Now(self), self.got
        self.edits = status["edits"]
        self.tell(f"the map has {len(index):,} features at edit {self.edits:,}, which are read as they are asked for")

    def forget(self) -> None:
        """Forgets what the map has."""
        super().forget()
        self.index, self.got, self.is_far = Index(), Known(), False

    def take(self, changes: Mapping[int, Feature | None]) -> None:
        """Takes features by their ids; None for one that is gone."""
        if not self.is_far:
            super().take(changes)
            return
        for number, feature in changes.items():
            self.index.take(number, feature)

    # ---- features

    def view(self, number: int, client: Leader) -> View | None:
        """The feature of an id as it is now, with all pieces of a cut one; None if there is none."""
        if number not in self.index:
            return None
        group = self.index.group(number)
        if not group and self.index.is_part(number):
            return None
        found = {
            piece: feature
            for piece in sorted({number, *group})
            for feature in [client.feature(piece)]
            if feature is not None
        }
        if number not in found:
            return None
        key = group_of(found[number], WHOLE)
        return view_of(
            number,
            {piece: feature for piece, feature in found.items() if piece == number or group_of(feature, WHOLE) == key},
        )

    def stream(self, key: Key, box: Box | None, first: int = 0) -> Iterator[View]:
        """The features of a table in a box (None: all), from an id on, in the order of their ids, each as it is when it
        is read."""
        with self.lock:
            wholes = [
                (number, around)
                for number, around in self.index.wholes(key)
                if number >= first and (box is None or meets(around, box))
            ]
        client = Leader(self.client.address)
        client.person = self.client.person
        with contextlib.closing(client):
            for number, feature in self.rows(client, key, box, first):
                while wholes and wholes[0][0] < number:
                    yield from filter(None, [self.view(wholes.pop(0)[0], client)])
                if self.index.is_part(number) or key != (feature["layer"], *feature["geometry"]):
                    continue
                view = View(Whole(number, feature, {number: feature}))
                if box is None or meets(view.box, box):
                    yield view
            for number, _ in wholes:
                yield from filter(None, [self.view(number, client)])

    def rows(self, client: Leader, key: Key, box: Box | None, first: int) -> Iterator[tuple[int, Feature]]:
        """The features of the map that may be in a table and a box, by pages. Without a box pages are left out that
        have none of the table."""
        at: int | None = first
        where = None if box is None else ",".join(f"{edge}" for edge in edges(box))
        while at is not None:
            if where is None:
                at = next(self.index.ids_of(key, at), None)
                if at is None:
                    return
            page = client.found(f"{PAGE}/{at}" if where is None else f"{BOXES}/{where}/from/{at}")
            if page is None:
                # It was started anew without --admin, or by an older program: what was read so far isn't all of it.
                raise Stopped(f"{client.address} no longer lists features by pages")
            for row in page["features"]:
                yield row["id"], row["feature"]
            at = page["next"]

    # ---- tables

    def tables(self) -> dict[str, Table]:
        """The tables by their names."""
        if not self.is_far:
            return super().tables()
        schema, wanted = self.schema.now, {*self.further, *self.schema.now.tables()}
        made: dict[Key, Table] = {}
        for key in {*wanted, *self.emptied, *self.index.summaries}:
            summary, before = self.index.summaries.get(key), self.made_tables.get(key)
            count = summary.count if summary else 0
            if before and before.count and not count:
                self.empty(key, before.past())
            if count or key in wanted or key in self.emptied:
                past = NO_PAST if count else self.emptied.get(key, NO_PAST)
                made[key] = FarTable(
                    self, key, summary if count else None, self.further.get(key, {}), past, schema.layers.get(key[0])
                )
        self.made_tables = made
        return {table.name: table for _, table in sorted(made.items())}

    def features_of(self, layers: Iterable[str]) -> Iterator[Feature]:
        """The features of layers, for their schema."""
        if not self.is_far:
            yield from super().features_of(layers)
            return
        names = set(layers)
        for key in [key for key in self.index.summaries if key[0] in names]:
            yield from (view.feature for view in self.stream(key, None))

    # ---- what others have got

    def remember(self, view: View) -> None:
        """Remembers a version that somebody has got."""
        if self.is_far:
            self.got.add(view)
        else:
            super().remember(view)

    def greatest(self) -> int:
        """The greatest id of a feature, or 0."""
        return self.index.greatest() if self.is_far else super().greatest()

    def pack(self, view: View) -> Kept:
        """What is kept of a feature that a GIS shows."""
        if self.is_far:
            return self.got.add(view)
        return view


def edges(box: Box) -> tuple[int, int, int, int]:
    """The least box of whole numbers around one, within the world. The server takes none whose left edge is right of
    its right one."""
    west, north, east, south = (min(max(edge, 0), EDGE) for edge in box)
    return (
        math.floor(min(west, east)),
        math.floor(min(north, south)),
        math.ceil(max(west, east)),
        math.ceil(max(north, south)),
    )


def has_boxes(client: Leader) -> bool:
    """Whether a server has boxes."""
    return client.found(f"{BOXES}/0,0,0,0/from/{LAST_ID}") is not None
