"""The file of `vtmap checkout`: tables of features for a desktop GIS, and what `checkin` has to know of them: which feature of the map each row is, what
it was as it was checked out, and which tag each column is. Needs no package.
"""
from __future__ import annotations

import json
import os
import re
import sqlite3
from collections import Counter, defaultdict
from collections.abc import Collection, Iterable, Iterator, Mapping
from typing import TYPE_CHECKING, Dict, List, NamedTuple, Optional, Tuple

from ..client.edits import Change
from ..faults import Refused
from ..forms import Feature, Geometry, Value
from ..geometry.wholes import Whole, wholes_of
from ..shown import shown
from ..systems import put_in_place
from . import geopackage
from .geopackage import Cell

if TYPE_CHECKING:
    from ..client.client import Refusal

ZOOMS = ("minzoom", "maxzoom")
# The features of a row that isn't on the map yet.
NOTHING = "{}"
KINDS = {"points": "points", "lines": "lines", "polygons": "areas"}
MEMORY = """
    CREATE TABLE gpkg_vtserve_checkout (name TEXT PRIMARY KEY, value TEXT NOT NULL);
    CREATE TABLE gpkg_vtserve_tables (name TEXT PRIMARY KEY, layer TEXT NOT NULL, minzoom INTEGER NOT NULL, maxzoom INTEGER NOT NULL);
    CREATE TABLE gpkg_vtserve_columns (name TEXT NOT NULL, column_name TEXT NOT NULL, tag TEXT NOT NULL, form TEXT NOT NULL);
    CREATE TABLE gpkg_vtserve_features (name TEXT NOT NULL, fid INTEGER NOT NULL, id INTEGER NOT NULL, pieces TEXT NOT NULL, shown TEXT,
        PRIMARY KEY (name, fid));
"""
# What was sent for rows of which it isn't known whether they are on the map. Files of an earlier program have no such table.
SENT = """
    CREATE TABLE IF NOT EXISTS gpkg_vtserve_sent (name TEXT NOT NULL, fid INTEGER NOT NULL, id INTEGER NOT NULL, sent TEXT NOT NULL,
        PRIMARY KEY (name, fid))
"""

# The table and the id of a row. What is remembered of one: these, the id, the features by their ids, and what it shows.
Key = Tuple[str, int]
Remembered = Tuple[str, int, Optional[int], Dict[int, Feature], Optional[Feature]]


class Sent(NamedTuple):
    """What was sent once for a new row: what the row `said`, and the features by their ids."""

    said: Feature
    pieces: dict[int, Feature]


class Unusable(Refused):
    """Why a file can't be written, or isn't one of `checkout`."""


# ---- tags and cells

# How the texts of a type look that a GeoPackage has and the map hasn't.
TEXTS = {
    "REAL": re.compile(r"-?[0-9]+(\.[0-9]+)?(e[+-]?[0-9]+)?"),
    "DATE": re.compile(r"[0-9]{4}-[0-9]{2}-[0-9]{2}"),
    "DATETIME": re.compile(r"[0-9]{4}-[0-9]{2}-[0-9]{2}T[0-9]{2}:[0-9]{2}:[0-9]{2}(\.[0-9]{1,3})?Z"),
}


def form_of(values: Collection[object], wanted: str | None = None) -> str:
    """The type of the column of these values of a tag: the one that is wanted, if all values have it."""
    if wanted == "REAL" and all(
        isinstance(value, int) and not isinstance(value, bool) or is_like(value, "REAL") for value in values
    ):
        return wanted
    if wanted is not None and wanted in ("DATE", "DATETIME") and all(is_like(value, wanted) for value in values):
        return wanted
    if all(isinstance(value, bool) for value in values):
        return "BOOLEAN"
    is_number = all(isinstance(value, int) and not isinstance(value, bool) and abs(value) < 2 ** 63 for value in values)
    return "INTEGER" if is_number else "TEXT"


def is_like(value: object, form: str) -> bool:
    """Whether a value is a text that looks like this type, and is spelled as `checkin` would spell it."""
    return isinstance(value, str) and bool(TEXTS[form].fullmatch(value)) and (form != "REAL" or repr(float(value)) == value)


def cell_of(value: Value | None, form: str | None) -> Cell:
    """The cell of a tag's value."""
    if form == "REAL" and isinstance(value, str):
        return float(value)
    if value is None or form != "TEXT":
        return value
    return json.dumps(value) if isinstance(value, bool) else str(value)


def tag_of(cell: Cell, before: Value | None) -> Value | None:
    """The value of a tag that a cell says. In a column of texts, one that was a number or a boolean stays so if it can."""
    if isinstance(cell, bytes):
        raise geopackage.Unreadable("a column has binary values")
    if isinstance(before, bool) and cell in ("true", "false"):
        return cell == "true"
    if isinstance(before, int) and isinstance(cell, str) and cell.removeprefix("-").isdecimal():
        return int(cell)
    return repr(cell) if isinstance(cell, float) else cell


def normal(geometry: Geometry) -> tuple[str, list]:
    """A geometry of which rings begin anywhere and go either way."""
    (kind, lists), = geometry.items()
    if kind != "polygons":
        return kind, lists
    return kind, [[turned(ring) for ring in rings] for rings in lists]


def turned(ring: list) -> list:
    at = ring.index(min(ring))
    ring = ring[at:] + ring[:at]
    return ring if ring[1] <= ring[-1] else ring[:1] + ring[:0:-1]


# ---- the file as it is written

class Table:
    """A table to write: the features of one kind of one layer. `types`: those that its columns are to have, by their tags."""

    def __init__(self, name: str, layer: str, kind: str, wholes: list[Whole], types: Mapping[str, str]) -> None:
        self.name, self.layer, self.kind, self.wholes = name, layer, kind, wholes
        values = defaultdict[str, List[Value]](list)
        for whole in wholes:
            for tag, value in whole.feature["tags"].items():
                values[tag].append(value)
        taken = {"fid", "geom", "rowid", "oid", "_rowid_", *ZOOMS}
        self.columns = [(geopackage.free_name(tag, taken), tag, form_of(values[tag], types.get(tag))) for tag in sorted(values)]
        self.is_several = any(len(whole.feature["geometry"][kind]) > 1 for whole in wholes)

    def write(self, file: sqlite3.Connection) -> None:
        """Writes the table and what `checkin` has to know of it."""
        columns = [*((name, form) for name, _, form in self.columns), *((zoom, "INTEGER") for zoom in ZOOMS)]
        geopackage.add_table(file, self.name, self.kind, self.is_several or self.kind != "points", columns, map(self.row, self.wholes))
        zooms = Counter(tuple(whole.feature[zoom] for zoom in ZOOMS) for whole in self.wholes).most_common(1)[0][0]
        file.execute("INSERT INTO gpkg_vtserve_tables VALUES (?, ?, ?, ?)", (self.name, self.layer, *zooms))
        file.executemany("INSERT INTO gpkg_vtserve_columns VALUES (?, ?, ?, ?)", [(self.name, *column) for column in self.columns])
        remember(file, [(self.name, whole.number, whole.number, whole.pieces, None) for whole in self.wholes])

    def row(self, whole: Whole) -> tuple[int, Geometry, list[Cell]]:
        tags = whole.feature["tags"]
        cells = [cell_of(tags.get(tag), form) for _, tag, form in self.columns]
        return whole.number, whole.feature["geometry"], [*cells, *(whole.feature[zoom] for zoom in ZOOMS)]


def remember(file: sqlite3.Connection, rows: Iterable[Remembered]) -> None:
    """Remembers what the map has of rows: the table, the row, the id, the features by their ids, and what the row shows if that is another."""
    file.executemany("INSERT OR REPLACE INTO gpkg_vtserve_features VALUES (?, ?, ?, ?, ?)", [
        (name, fid, number, json.dumps({str(key): value for key, value in pieces.items()}), shown and json.dumps(shown))
        for name, fid, number, pieces, shown in rows
    ])


def tables_of(wholes: Iterable[Whole], types: Mapping[str, Mapping[str, str]]) -> Iterator[Table]:
    """The tables of wholes: one for each layer and kind."""
    groups, taken = defaultdict[Tuple[str, str], List[Whole]](list), set[str]()
    for whole in wholes:
        (kind,) = whole.feature["geometry"]
        groups[whole.feature["layer"], kind].append(whole)
    several = Counter(layer for layer, _ in groups)
    for (layer, kind), members in sorted(groups.items()):
        name = f"{layer} {KINDS[kind]}" if several[layer] > 1 else layer
        yield Table(geopackage.free_name(name, taken), layer, kind, members, types.get(layer, {}))


def write(
    path: str, wholes: Iterable[Whole], told: Mapping[str, object], types: Mapping[str, Mapping[str, str]]
) -> int:
    """Writes a file with these features, and notes about it. `types`: those of columns, by layers and tags. Returns the number of its tables. An
    older file is replaced at the end."""
    part = path + ".part"
    if os.path.exists(part):
        os.remove(part)
    file = geopackage.create(part)
    with file:
        file.executescript(MEMORY)
        made = list(tables_of(wholes, types))
        for table in made:
            table.write(file)
        file.executemany("INSERT INTO gpkg_vtserve_checkout VALUES (?, ?)", [(name, json.dumps(value)) for name, value in told.items()])
    file.close()
    for ending in ("-wal", "-shm"):
        if os.path.exists(path + ending):
            os.remove(path + ending)
    put_in_place(part, path)
    return len(made)


# ---- the file as it was edited

class Row:
    """A feature of the file: what it `said` is now (None: deleted), what it `shown` was before, and the whole of the map that it was made of
    (`base`). The latter two are None of a new one, of which the map may have some of what was `sent` before: `seen`, by the ids. `feature` is
    what it is to be on the map."""

    def __init__(self, table: str, fid: int, base: Whole | None, shown: Feature | None, said: Feature | None) -> None:
        self.table, self.fid, self.base, self.shown, self.said = table, fid, base, shown, said
        self.feature = merged(shown, said, base.feature) if base and shown else said
        self.number = base.number if base else None
        self.sent: list[Sent] = []
        self.seen: dict[int, Feature] = {}
        self.wanted: dict[int, Feature] = {}
        # What is sent of it, and why some of that isn't made.
        self.changes: list[Change] = []
        self.refusals: list[Refusal] = []

    def put_over(self, theirs: Whole | None) -> None:
        """Puts what was changed in the file over what somebody else has made of the feature, a whole or None."""
        self.base = theirs
        self.feature = merged(self.shown, self.said, theirs.feature) if theirs and self.shown else self.said

    def __str__(self) -> str:
        layer, table = shown((self.said or self.shown or {})["layer"]), shown(self.table)
        row = f" (row {self.fid} of {table})" if self.shown is None else ""
        return f"{layer} {self.number}{row}" if self.number is not None else f"new feature of {table} (row {self.fid})"


def merged(before: Feature, after: Feature | None, theirs: Feature) -> Feature | None:
    """What one version changed of another, made of a third: what it left as it was is as in the third."""
    if after is None:
        return None
    parts = {name: after[name] if after[name] != before[name] else theirs[name] for name in ("layer", *ZOOMS, "geometry")}
    tags = {}
    for tag in {**theirs["tags"], **after["tags"]}:
        of = after if after["tags"].get(tag) != before["tags"].get(tag) else theirs
        if tag in of["tags"]:
            tags[tag] = of["tags"][tag]
    return {**parts, "tags": tags}


class Checkout:
    """A file that `checkout` wrote, after somebody edited it."""

    def __init__(self, path: str) -> None:
        if not os.path.exists(path):
            raise Unusable(f"there is no file {path}")
        self.file = sqlite3.connect(path)
        try:
            self.lock(path)
            self.told = {name: json.loads(value) for name, value in self.file.execute("SELECT * FROM gpkg_vtserve_checkout")}
            self.layers = {name: rest for name, *rest in self.file.execute("SELECT * FROM gpkg_vtserve_tables")}
            self.columns = defaultdict[str, Dict[str, Tuple[str, str]]](dict)
            for name, column, tag, form in self.file.execute("SELECT * FROM gpkg_vtserve_columns"):
                self.columns[name][column] = tag, form
            kept = self.file.execute("SELECT name, fid, id, pieces, shown FROM gpkg_vtserve_features").fetchall()
        except sqlite3.DatabaseError as fault:
            raise Unusable(f"{path} isn't a file of `vtmap checkout`, or another program has written it anew: edit the file itself ({fault})") from fault
        # By table and row: what the map had, what the row shows of it, and the ids that were given to new rows, which may not have been made.
        self.base: dict[Key, Whole] = {
            (name, fid): base_of(json.loads(pieces)) for name, fid, _, pieces, _ in kept if pieces != NOTHING
        }
        self.shown: dict[Key, Feature] = {key: base.feature for key, base in self.base.items()}
        self.shown.update({(name, fid): json.loads(shown) for name, fid, _, _, shown in kept if shown})
        self.noted: dict[Key, int] = {(name, fid): number for name, fid, number, pieces, _ in kept if pieces == NOTHING}
        self.sent = self.sent_before()
        self.unreadable: list[str] = []

    def lock(self, path: str) -> None:
        """Sees that the file can be written, before anything is sent."""
        try:
            self.file.execute("BEGIN IMMEDIATE")
            self.file.rollback()
        except sqlite3.OperationalError as fault:
            raise Unusable(f"{path} can't be written ({fault}): save the edits in the other program, and close the file there") from fault

    def sent_before(self) -> dict[Key, list[Sent]]:
        """What was sent for new rows by the ids that are noted for them, by table and row."""
        if not self.file.execute("SELECT 1 FROM sqlite_master WHERE name = 'gpkg_vtserve_sent'").fetchone():
            return {}
        found = self.file.execute("SELECT name, fid, id, sent FROM gpkg_vtserve_sent").fetchall()
        return {(name, fid): [Sent(said, {int(piece): feature for piece, feature in pieces.items()}) for said, pieces in json.loads(sent)]
                for name, fid, number, sent in found if self.noted.get((name, fid)) == number}

    def ids(self) -> set[int]:
        """Each id that the file has of a feature."""
        pieces = [*(base.pieces for base in self.base.values()), *(one.pieces for sent in self.sent.values() for one in sent)]
        return {*self.noted.values(), *(number for features in pieces for number in features)}

    def part(self, now: Mapping[int, Feature]) -> None:
        """Leaves an id that an earlier program gave to several rows to one of them: the one that the map has, or the first. The others are new
        rows without an id. A row whose own number is the id was checked out, and stays as it is."""
        claims = defaultdict[int, List[Key]](list)
        for key, number in sorted([*((key, base.number) for key, base in self.base.items()), *self.noted.items()]):
            claims[number].append(key)
        for number, keys in claims.items():
            made = [key for key in keys if key in self.base and there(self.base[key].pieces, now) == self.base[key].pieces]
            checked_out = [key for key in keys if key in self.base and key[1] == number]
            owner = [*made, *checked_out, *keys][0]
            for key in keys:
                if key != owner and key not in checked_out:
                    self.forget(key)

    def forget(self, key: Key) -> None:
        """Forgets what is known of a row."""
        self.base.pop(key, None)
        self.shown.pop(key, None)
        self.noted.pop(key, None)
        self.sent.pop(key, None)

    def adopt(self, now: Mapping[int, Feature]) -> list[Row]:
        """Takes new rows that the map has as they were sent for rows that were checked out. Returns each as it was sent."""
        made = []
        for (table, fid), sent in self.sent.items():
            found = there([number for one in sent for number in one.pieces], now)
            is_there = [one for one in sent if one.pieces == found]
            if is_there:
                row = Row(table, fid, None, None, is_there[-1].said)
                row.number, row.wanted = self.noted.pop((table, fid)), found
                self.base[table, fid], self.shown[table, fid] = base_of(found), is_there[-1].said
                made.append(row)
        return made

    def keeps_id(self, row: Row, now: Mapping[int, Feature]) -> bool:
        """Gives a new row the id that is noted for it. Returns whether there is one, of which the map has nothing but what was sent."""
        key = row.table, row.fid
        row.number, row.sent, row.seen = self.noted.get(key), self.sent.get(key, []), {}
        if row.number is None or row.said is None or row.feature is None:
            return False
        # An earlier program noted the id alone.
        sent = row.sent or [Sent(row.said, {row.number: row.feature})]
        row.seen = there([number for one in sent for number in one.pieces], now)
        return all(any(one.pieces.get(number) == feature for one in sent) for number, feature in row.seen.items())

    def rows(self) -> Iterator[Row]:
        """The rows that were changed, are new, or are gone."""
        seen = set[Key]()
        for table, column in geopackage.tables(self.file):
            for fid, blob, cells in geopackage.rows(self.file, table, column):
                seen.add((table, fid))
                was = self.shown.get((table, fid))
                try:
                    said = self.feature(table, was, blob, cells)
                except geopackage.Unreadable as fault:
                    self.unreadable.append(f"{shown(table)}, row {fid}: {shown(fault)}")
                    continue
                if was is None or said != was:
                    yield Row(table, fid, self.base.get((table, fid)), was, said)
        for (table, fid), base in self.base.items():
            if (table, fid) not in seen:
                yield Row(table, fid, base, self.shown[table, fid], None)

    def feature(self, table: str, shown: Feature | None, blob: object, cells: Mapping[str, Cell]) -> Feature:
        """The feature that a row says. Cells that are as they were say what the row showed."""
        layer, *zooms = self.layers.get(table) or [table, *self.common_zooms()]
        was = shown or {"layer": layer, "minzoom": zooms[0], "maxzoom": zooms[1], "tags": {}, "geometry": None}
        tags = {}
        for column, cell in cells.items():
            tag, form = self.columns[table].get(column, (column, None))
            before = was["tags"].get(tag)
            value = before if form and cell == cell_of(before, form) else tag_of(cell, before)
            if value is not None and column not in ZOOMS:
                tags[tag] = value
        made = {zoom: was[zoom] if cells.get(zoom) is None else cells[zoom] for zoom in ZOOMS}
        geometry = geopackage.geometry_of(blob)
        if shown and normal(geometry) == normal(was["geometry"]):
            geometry = was["geometry"]
        return {**was, **made, "geometry": geometry, "tags": tags}

    def common_zooms(self) -> tuple[int, ...]:
        """The zooms of features of a table that somebody added."""
        return Counter(tuple(zooms) for _, *zooms in self.layers.values()).most_common(1)[0][0]

    def note(self, rows: list[Row]) -> None:
        """Notes the ids of new rows, and what is sent for them, before it is sent. What was sent before may be made yet: it stays noted."""
        with self.file:
            self.file.execute(SENT)
            remember(self.file, [(row.table, row.fid, row.number, {}, None) for row in rows])
            for row in rows:
                sent = [*(one for one in row.sent if one != (row.said, row.wanted)), (row.said, row.wanted)]
                self.file.execute("INSERT OR REPLACE INTO gpkg_vtserve_sent VALUES (?, ?, ?, ?)", (row.table, row.fid, row.number, json.dumps(sent)))

    def remember(self, row: Row) -> None:
        """Remembers what was sent."""
        with self.file:
            self.file.execute("DELETE FROM gpkg_vtserve_sent WHERE name = ? AND fid = ?", (row.table, row.fid))
            if row.wanted:
                shown = row.said if row.said != base_of(row.wanted).feature else None
                remember(self.file, [(row.table, row.fid, row.number, row.wanted, shown)])
            else:
                self.file.execute("DELETE FROM gpkg_vtserve_features WHERE name = ? AND fid = ?", (row.table, row.fid))


def there(numbers: Iterable[int], now: Mapping[int, Feature]) -> dict[int, Feature]:
    """What the map has of these ids."""
    return {number: now[number] for number in numbers if number in now}


def base_of(pieces: Mapping[int, Feature]) -> Whole:
    """The whole of features by their ids, which may be texts."""
    whole, *_ = wholes_of((int(number), feature) for number, feature in pieces.items())
    return whole
