"""The map as the gateway has it: listed once, and then followed by the server's feed of edits. Needs no package."""
from __future__ import annotations

import json
import threading
from collections import defaultdict
from collections.abc import Iterable, Iterator, Mapping
from typing import Protocol, Tuple, TypeVar

from ..client.client import changes_in
from ..client.edits import Change
from ..client.feed import Leader, LeftBehind
from ..faults import Stopped
from ..files.map_schema import Schema, SchemaFile, schema_of
from ..files.save_log import SaveLog, Unwritable
from ..forms import Feature, ListedChange, ListedEdit
from ..geometry.wholes import PIECE, WHOLE, Whole, group_of, joined
from .tables import NO_PAST, Kept, Key, Past, Table, View

# How often the map is listed anew where a publication has ended the list of the edits since.
TRIES = 8
# Whoever lacks more edits than this, and than the map has features, lists it anew.
MANY = 1000
# The most versions of features that are kept to tell what others changed, and the most tables without features.
MOST_KNOWN, MOST_EMPTIED = 200_000, 1000

# A number and a version of a feature.
Version = Tuple[int, str]
Asked = TypeVar("Asked", contravariant=True)
Got = TypeVar("Got", covariant=True)


class Found(Protocol[Asked, Got]):
    """What is looked up: held here, or read from the server."""

    def get(self, key: Asked, /) -> Got | None:
        """What there is of a key, None if there is nothing."""


class Features(Found[int, Feature], Protocol):
    """The features of the map by their ids, and how many they are."""

    def __len__(self) -> int:
        ...

    def __contains__(self, number: object, /) -> bool:
        ...


class LiveMap:
    """The features of the map up to the edit `edits`, None before it is listed. `further`: types of tags by layer and
    kind, for tables and columns that the map doesn't have yet. `log`: what keeps the tables that lost their last
    feature. Whoever uses it holds `lock`. Features are asked for by `now`, as people see them by `views`, and as
    somebody has got them by `known`."""

    # Whether features are read as they are asked for, and not held.
    is_far = False
    now: Features
    views: Found[int, View]
    known: Found[Version, Feature]

    def __init__(
        self,
        client: Leader,
        further: Mapping[Key, Mapping[str, str]],
        log: SaveLog | None = None,
        schema: SchemaFile | None = None,
    ) -> None:
        self.client, self.further, self.log, self.lock = client, further, log, threading.RLock()
        # Of a machine with several maps, the name of this one, which is printed before what is told of it.
        self.name = ""
        self.schema = schema or SchemaFile()
        # By layer and kind: the tables, and what those had that lost their last feature.
        self.emptied = {key: Past(*row) for key, row in log.emptied.items()} if log else {}
        self.clear()

    def clear(self) -> None:
        """Holds nothing of the map."""
        self.edits: int | None = None
        self.features, self.groups = dict[int, Feature](), defaultdict[tuple, dict[int, Feature]](dict)
        self.shown, self.members = dict[int, View](), defaultdict[Key, dict[int, View]](dict)
        self.versions = dict[Version, Feature]()
        self.now, self.views, self.known = self.features, self.shown, self.versions
        self.made_tables, self.changed_tables = dict[Key, Table](), {
            *self.further,
            *self.emptied,
            *self.schema.now.tables(),
        }

    def tell(self, text: str) -> None:
        """Prints a line about the map."""
        print(f"{self.name}: {text}" if self.name else text, flush=True)

    def forget(self) -> None:
        """Forgets what the map has. It is listed anew by the next request."""
        with self.lock:
            self.clear()

    # ---- following

    def look(self) -> int:
        """Takes what others have changed, of the schema too. Returns the number of the last edit."""
        self.see_schema()
        for _ in range(TRIES):
            if self.edits is not None and self.follow(self.edits):
                return self.edits
            self.list()
        raise Stopped(f"{self.client.address} publishes its edits sooner than they are read")

    def list(self) -> None:
        """Lists the map anew. Edits that are made meanwhile are listed by the feed again."""
        edits = self.client.known()["edits"]
        now = dict(self.client.features())
        self.take({**{number: None for number in self.features if number not in now}, **now})
        self.edits = edits
        self.tell(f"the map has {len(now):,} features at edit {edits:,}")

    def follow(self, at: int) -> bool:
        """Takes the edits since the last one that is known. Returns whether the server lists them, and they aren't too
        many."""
        while True:
            try:
                edits, last = self.client.edits_from(at + 1)
            except LeftBehind:
                return False
            except Stopped:
                # A map that was put back from a copy has fewer edits.
                if self.client.known()["edits"] >= at:
                    raise
                return False
            if last - at > max(MANY, len(self.now)):
                return False
            for edit in edits:
                self.take(features_in(edit["changes"]))
                at = self.edits = edit["edit"]
            if not edits or at >= last:
                return True

    def take_edits(self, edits: Iterable[ListedEdit]) -> None:
        """Takes edits of the feed, the first of which is the one after the last that is known. Others, and very many,
        are left to the next look."""
        with self.lock:
            for edit in edits:
                if self.edits is not None and edit["edit"] == self.edits + 1:
                    self.take(features_in(edit["changes"]))
                    self.edits = edit["edit"]

    def made(self, changes: Iterable[Change], number: int) -> None:
        """Takes own changes, which are the edit of a number. What others did before it is followed later, and then
        these changes again."""
        self.take({change.number: feature_of(change.body) for change in changes})
        if self.edits is not None and number == self.edits + 1:
            self.edits = number

    # ---- features

    def take(self, changes: Mapping[int, Feature | None]) -> None:
        """Takes features by their ids; None for one that is gone."""
        keys = set()
        for number, feature in changes.items():
            before = self.features.get(number)
            if feature != before:
                keys |= {group_of(one, WHOLE) or (number,) for one in (before, feature) if one is not None}
                self.replace(number, before, feature)
        for key in keys:
            self.see(key)

    def replace(self, number: int, before: Feature | None, feature: Feature | None) -> None:
        """Replaces a feature."""
        self.hide(number)
        if before is not None:
            del self.features[number]
            if key := group_of(before, WHOLE):
                del self.groups[key][number]
                if not self.groups[key]:
                    del self.groups[key]
        if feature is not None:
            self.features[number] = feature
            if key := group_of(feature, WHOLE):
                self.groups[key][number] = feature

    def see(self, key: tuple) -> None:
        """Makes the whole of a group anew, or a feature that is in none."""
        number = key[0]
        if len(key) > 1:
            pieces = dict(sorted(self.groups.get(key, {}).items()))
        else:
            pieces = (
                {number: self.features[number]}
                if number in self.features and not group_of(self.features[number], WHOLE)
                else {}
            )
        for piece in pieces:
            self.hide(piece)
        if len(key) > 1 and number in pieces:
            self.show(View(joined(number, pieces, WHOLE)))
        else:
            for piece, feature in pieces.items():
                self.show(View(Whole(piece, feature, {piece: feature})))

    def show(self, view: View) -> None:
        """Adds a view."""
        self.shown[view.number] = self.members[view.key][view.number] = view
        self.changed_tables.add(view.key)

    def hide(self, number: int) -> None:
        """Removes a view, if there is one."""
        view = self.shown.pop(number, None)
        if view is not None:
            del self.members[view.key][number]
            self.changed_tables.add(view.key)

    def tables(self) -> dict[str, Table]:
        """The tables by their names."""
        changed, self.changed_tables, schema = self.changed_tables, set(), self.schema.now
        wanted = {*self.further, *schema.tables()}
        for key in changed:
            views, before = self.members[key].values(), self.made_tables.get(key)
            if before and before.count and not views:
                self.empty(key, before.past())
            if views or key in wanted or key in self.emptied:
                past = NO_PAST if views else self.emptied.get(key, NO_PAST)
                self.made_tables[key] = Table(key, views, self.further.get(key, {}), past, schema.layers.get(key[0]))
            else:
                self.made_tables.pop(key, None)
        return {table.name: table for _, table in sorted(self.made_tables.items())}

    def empty(self, key: Key, past: Past) -> None:
        """Keeps what a table had that has lost its last feature: a GIS that shows it may add features again. Of very
        many the oldest one goes."""
        self.emptied.pop(key, None)
        self.emptied[key] = past
        while len(self.emptied) > MOST_EMPTIED:
            oldest = next(iter(self.emptied))
            del self.emptied[oldest]
            self.changed_tables.add(oldest)
        try:
            if self.log:
                self.log.empty(key, past)
        except Unwritable as fault:
            self.tell(str(fault))

    # ---- the schema

    def see_schema(self) -> Schema:
        """Reads the schema anew if its file has changed. Returns it."""
        if self.schema.look():
            self.changed_tables |= {*self.members, *self.made_tables, *self.schema.now.tables()}
        return self.schema.now

    def add_to_schema(self, more: Schema) -> Schema:
        """Adds what another schema has more to the file. A layer that the file doesn't name gets what the map has of
        it, too. Returns the schema."""
        new = [name for name in more.layers if name not in self.schema.read().layers]
        there = schema_of(self.features_of(new))
        self.schema.add(there.added(more))
        return self.see_schema()

    def features_of(self, layers: Iterable[str]) -> Iterator[Feature]:
        """The features of layers, for their schema."""
        yield from (
            view.feature
            for name in layers
            for key, views in self.members.items()
            if key[0] == name
            for view in views.values()
        )

    # ---- versions

    def remember(self, view: View) -> None:
        """Remembers a version that somebody has got."""
        self.versions.setdefault((view.number, view.version), view.feature)
        while len(self.versions) > MOST_KNOWN:
            del self.versions[next(iter(self.versions))]

    def pack(self, view: View) -> Kept:
        """What is kept of a feature that a GIS shows; its `view()` is the feature."""
        return view

    def greatest(self) -> int:
        """The greatest id of a feature, or 0: pieces have greater ones."""
        return max((number for number in self.features if number < PIECE), default=0)


def feature_of(body: bytes | None) -> Feature | None:
    """The feature of a change; None if it is deleted."""
    return None if body is None else json.loads(body)


def features_in(changes: Iterable[ListedChange]) -> dict[int, Feature | None]:
    """What changes of the feed make of features, by their ids."""
    return {number: feature_of(body) for number, body in changes_in(changes).items()}
