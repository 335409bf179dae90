"""The requests of WFS, answered. Needs no package."""
from __future__ import annotations

import hashlib
import re
import secrets
import threading
from collections.abc import Callable, Iterable, Iterator, Mapping, Sequence
from typing import List, Optional, Tuple
from xml.etree.ElementTree import Element

from ..faults import Refused, Stopped
from ..files.save_log import Unwritable
from ..geometry.gml import SYSTEM, local
from ..geometry.shapes import Box
from ..shown import shown
from . import wfs_texts
from .actions import OF_IDS, Action, actions_of, parsed, type_in
from .far_replies import FarReply, Spooled
from .filters import box_of, box_within, ids_within, test_of
from .live_map import LiveMap
from .saves import Saves
from .sessions import Session, Sessions
from .tables import FarTable, Table, View, meets
from .transaction import AGAIN, Conflict, Doubted, Transaction, is_there
from .wfs_requests import (
    BY_ID,
    BY_ID_NAMES,
    CAPABILITIES,
    DESCRIBED,
    FEATURES,
    LISTED,
    READS,
    SCHEMA,
    VALUES,
    Given,
    Invalid,
    columns_in,
    given_in,
    in_order,
    invalid,
    name_in,
    request_of,
    see_column,
    see_format,
    version_of,
)
from .wfs_texts import V2, Found, Version

# The most elements of a filter, beside ids; the bytes of the name of a session; and an id of a feature without its
# version.
MOST_PARTS, NAME_BYTES = 5000, 5
WITHOUT_VERSION = re.compile(r"(?:v:)?([^\s<>&]+)\.([0-9]{1,19})")

# The views that are asked for of each table; and of a query these, whether it names nothing but a box, and that.
Views = List[Tuple[Table, Iterable[View]]]
Chosen = Tuple[Views, bool, Optional[Box]]


class Wfs:
    """The WFS of a live map."""

    def __init__(self, live: LiveMap, sessions: Sessions, saves: Saves) -> None:
        self.live, self.sessions, self.saves, self.turn = live, sessions, saves, threading.Lock()

    def look(self, is_saving: bool = False) -> None:
        """Takes what others have changed, and undoes what was cut short. Where that can't be undone yet, the map is
        read, and nothing is saved."""
        if self.saves.log.begun:
            try:
                self.saves.recover()
            except (Stopped, Unwritable):
                if is_saving:
                    raise
        self.live.look()

    # ---- reading

    def answer(self, name: str, given: Given, address: str, queries: Sequence[Given] = ()) -> str | Spooled:
        """The reply to a request with these parameters, by names in small letters. `name`: that of the session, empty
        for none. `queries`: the parameters of each query of a request by XML; another one is a query itself."""
        version = version_of(given)
        request = request_of(given, version)
        with self.live.lock:
            self.look()
            tables = self.live.tables()
        # Tables and views stay as they are: others go on while features are chosen and written.
        if request == CAPABILITIES:
            # Two layers of a GIS have the same id with different contents, so each has an address of its own: QGIS uses
            # this one.
            return wfs_texts.capabilities(
                version, tables.values(), f"{address}/{name or secrets.token_hex(NAME_BYTES)}"
            )
        if request in (LISTED, DESCRIBED):
            return stored(request, given, tables.values())
        see_format(given.get("outputformat"), version)
        if request == SCHEMA:
            return wfs_texts.schema(version, named_tables(given, tables))
        queries = queries or [given]
        if any("storedquery_id" in query for query in queries):
            return self.by_id(version, name, given, queries, request == VALUES)
        chosen = [self.chosen(name, query, tables) for query in queries]
        wanted: dict[str, frozenset[str] | None] = {}
        for query in queries if request == FEATURES else ():
            wanted.update(columns_in(query.get("propertyname"), named_tables(query, tables)))
        if self.live.is_far:
            return FarReply(self, version, name, given, chosen).made(request == VALUES, wanted)
        found, fids, matched = self.found(name, given, chosen)
        if request == VALUES:
            return values(given.get("valuereference"), found, fids, matched)
        return wfs_texts.features(version, found, fids, matched, wanted)

    def chosen(self, name: str, query: Given, tables: Mapping[str, Table]) -> Chosen:
        """The views of each table that a query asks for, in their order; whether it names nothing but a box, and that
        box."""
        see_system(query.get("srsname"))
        made, is_plain = chosen_in(self.sessions.get(name), query, named_tables(query, tables))
        return (
            [(table, in_order(views, query.get("sortby"), table)) for table, views in made],
            is_plain,
            box_of(query.get("bbox")),
        )

    def found(self, name: str, given: Given, chosen: Iterable[Chosen]) -> tuple[list[Found], list[str], int]:
        """The features that queries ask for, as pairs of table and view, with their ids, and how many there are with
        those that aren't returned."""
        if is_counted(given):
            return [], [], sum(1 for tables, _, _ in chosen for _, views in tables for _ in views)
        with self.live.lock:
            session = self.sessions.get(name)
            found = [
                (table, view)
                for tables, is_plain, box in chosen
                for table, views in tables
                for view in (session.pinned(table, box, views) if is_plain else views)
            ]
            matched, first = len(found), number_in(given, ("startindex",), 0)
            found = found[first : first + number_in(given, ("count", "maxfeatures"), matched)]
            return found, self.give(name, session, found), matched

    def give(self, name: str, session: Session, found: Iterable[Found]) -> list[str]:
        """Notes that a GIS gets features. Returns their ids. Whoever calls it holds the lock."""
        for _, view in found:
            self.live.remember(view)
        session.give(found)
        fids = [session.fid(table, view.number, view.version) for table, view in found]
        self.sessions.keep(name, session)
        return fids

    def by_id(self, version: Version, name: str, given: Given, queries: Sequence[Given], is_value: bool) -> str:
        """The reply to the stored query: the one feature of an id, and no collection, or a value of it."""
        query = {**given, **queries[0]}
        if version is not V2 or len(queries) > 1 or query["storedquery_id"] not in BY_ID_NAMES:
            raise invalid("STOREDQUERY_ID", f"there is no stored query {query['storedquery_id']}, but {BY_ID}")
        if not query.get("id"):
            raise Invalid("MissingParameterValue", "ID", "it doesn't say of which feature")
        with self.live.lock:
            session = self.sessions.get(name)
            table, view = self.named(session, query["id"])
            if given.get("resulttype", "").lower() == "hits":
                return wfs_texts.features(version, [], [], 1)
            (fid,) = self.give(name, session, [(table, view)])
        if is_value:
            return values(given.get("valuereference"), [(table, view)], [fid], 1)
        return wfs_texts.feature(version, table, view, fid)

    def named(self, session: Session, text: str) -> Found:
        """The table and the view of a feature that an id names, with its version or without."""
        found, held = WITHOUT_VERSION.fullmatch(text), session.found(text)
        number = int(found[2]) if found else held[0] if held else None
        view = None if number is None else self.live.views.get(number)
        for table in self.live.tables().values() if view else ():
            if view and (table.layer, table.kind) == view.key and not (found and found[1] != table.name):
                return table, view
        raise Invalid("NotFound", "ID", f"no feature has the id {text}")

    # ---- saving

    def posted(self, name: str, body: bytes, address: str, person: str, is_meant: bool = False) -> str | Spooled:
        """The reply to a request by XML. `person`: who sends it, a name or an address. `is_meant`: whatever it deletes,
        it isn't asked whether that is meant."""
        # One at a time: what is parsed may be several times as large as the body.
        with self.turn:
            root = parsed(body)
            if local(root) == "Transaction":
                return self.transaction(name, root, body, person, is_meant)
        if local(root).lower() not in READS:
            raise Refused(f"a body with {local(root)} isn't taken")
        given, queries = given_in(root)
        try:
            return self.answer(name, given, address, queries)
        except Refused as fault:
            return wfs_texts.refused(wfs_texts.chosen(given.get("version", V2.name)), "InvalidParameterValue", fault)

    def transaction(self, name: str, root: Element, body: bytes, person: str, is_meant: bool) -> str:
        """The reply to a Transaction."""
        with self.live.lock:
            self.look(is_saving=True)
            session, mark = self.sessions.get(name), hashlib.sha256(body).hexdigest()
            # If the reply to it was lost, the GIS sends the same again: its new features are made once, as long as they
            # are on the map.
            again = session.added if session.mark == mark else []
            counts: Mapping[str, int] = {"Insert": len(again), "Update": 0, "Delete": 0}
            added = again
            if not again or not all(is_there(self.live, session, fid) for fid in again):
                counts, added = self.save((name, session), actions_of(root), again, mark, (person, is_meant))
            else:
                self.live.tell(f"saved: {shown(person)}: {len(again):,} sent again")
            return wfs_texts.transacted(root.get("version", wfs_texts.V1.name), counts, added)

    def save(
        self,
        named: tuple[str, Session],
        actions: Iterable[Action],
        again: Sequence[str],
        mark: str,
        said: tuple[str, bool],
    ) -> tuple[Mapping[str, int], list[str]]:
        """Makes a Transaction. `named`: the session, and its name before it. `said`: by whom it is, and whether what it
        deletes is meant. Returns its counts and the ids of new features."""
        (name, session), (person, is_meant) = named, said
        try:
            task = Transaction(self.live, session, actions, again)
            if not is_meant:
                task.see_deletions(bool(name))
            made = task.make(self.saves, person)
        except Conflict as conflict:
            self.sessions.keep(name, session)
            self.live.tell(f"conflict: {shown(person)}: {'; '.join(conflict.features)}")
            raise
        except Doubted:
            self.sessions.keep(name, session)
            raise
        notes, added = task.saved()
        mark = mark if added else ""
        self.saves.finish(made, name, notes=notes, mark=mark, added=added)
        for note in notes:
            session.note(*note)
        session.mark, session.added = mark, added
        self.sessions.keep(name, session)
        self.live.tell(f"saved: {shown(person)}: {told(task.counts)}{edits_told(made.edits)}")
        return task.counts, added


def is_counted(given: Given) -> bool:
    """Whether features are to be counted alone."""
    if given.get("resulttype", "results").lower() not in ("results", "hits"):
        raise invalid("resultType", f"RESULTTYPE {given['resulttype']} isn't known: results and hits are")
    return given.get("resulttype", "").lower() == "hits"


def chosen_in(session: Session, given: Given, tables: Iterable[Table]) -> tuple[Views, bool]:
    """The views of each table that a request asks for, and whether it names nothing but a box. Where the map isn't
    held, they are read as they are needed, those of ids one by one, and those in a box that a filter asks for by that
    box."""
    box, fids = box_of(given.get("bbox")), given.get("featureid", given.get("resourceid"))
    wanted = {session.held(fid)[0] for fid in fids.split(",")} if fids else None
    asked = filter_in(given.get("filter"))
    made: Views = []
    for table in tables:
        if isinstance(table, FarTable):
            made.append((table, far_views(session, table, box, wanted, asked)))
            continue
        test = test_of(asked, table, session) if asked is not None else None
        made.append(
            (
                table,
                [
                    view
                    for view in table.meeting(box)
                    if (wanted is None or view.number in wanted) and (test is None or test(view))
                ],
            )
        )
    return made, wanted is None and asked is None


def far_views(
    session: Session, table: FarTable, box: Box | None, wanted: set[int] | None, asked: Element | None
) -> Far:
    """The views of a table of a map that isn't held that a request asks for."""
    test = test_of(asked, table, session) if asked is not None else None
    inner = box_within(asked) if asked is not None else None
    numbers = ids_within(asked, session) if asked is not None else None
    numbers = numbers if wanted is None else wanted if numbers is None else wanted & numbers

    def read() -> Iterator[View]:
        if numbers is not None:
            found = (table.live.views.get(number) for number in sorted(numbers))
            views: Iterable[View] = (
                view for view in found if view is not None and view.key == (table.layer, table.kind)
            )
        else:
            views = table.meeting(inner if box is None else box)
        for view in views:
            if (box is None or meets(view.box, box)) and (test is None or test(view)):
                yield view

    return Far(table, read, table.count if box is None and wanted is None and asked is None else None)


class Far:
    """Views that are read each time that they are gone through. `count`: how many they are, None if that isn't known
    before."""

    def __init__(self, table: FarTable, read: Callable[[], Iterator[View]], count: int | None) -> None:
        self.table, self.read, self.count = table, read, count

    def __iter__(self) -> Iterator[View]:
        return self.read()


def filter_in(said: str | Element | None) -> Element | None:
    """The element of a filter, of which a parameter has the text; None if there is none. Each feature is tried by each
    part of it."""
    found = (parsed(said.encode()) if said else None) if isinstance(said, str) else said
    if found is not None and sum(local(part) not in OF_IDS for part in found.iter()) > MOST_PARTS:
        raise invalid("filter", f"a filter has at most {MOST_PARTS:,} parts beside ids of features")
    return found


def told(counts: Mapping[str, int]) -> str:
    """The counts of a Transaction as a text."""
    made = (
        (counts["Insert"] - counts[AGAIN], "new"),
        (counts[AGAIN], "sent again"),
        (counts["Update"], "changed"),
        (counts["Delete"], "deleted"),
    )
    return ", ".join(f"{count:,} {said}" for count, said in made if count) or "nothing"


def edits_told(numbers: Sequence[int]) -> str:
    """The numbers of edits as a text."""
    if not numbers:
        return ""
    return f", edit {numbers[0]:,}" if len(numbers) == 1 else f", edits {numbers[0]:,} to {numbers[-1]:,}"


def stored(request: str, given: Given, tables: Iterable[Table]) -> str:
    """The reply that lists or describes the stored query."""
    asked = [one.strip() for one in given.get("storedquery_id", "").split(",") if one.strip()]
    wrong = [one for one in asked if one not in BY_ID_NAMES]
    if wrong:
        raise invalid("STOREDQUERY_ID", f"there is no stored query {wrong[0]}, but {BY_ID}")
    return wfs_texts.stored_queries(BY_ID, tables) if request == LISTED else wfs_texts.described_queries(BY_ID)


def values(name: str | None, found: Sequence[Found], fids: Sequence[str], matched: int) -> str:
    """The reply with the values of one property of features."""
    name = value_in(name, {table.name: table for table, _ in found}.values())
    if name.startswith("@"):
        return wfs_texts.values(fids, matched)
    return wfs_texts.values(wfs_texts.cells(found, name_in(name)), matched)


def value_in(name: str | None, tables: Iterable[Table]) -> str:
    """The name of a property, or of an attribute. Refuses one that features of these tables don't have."""
    if not name:
        raise Invalid("MissingParameterValue", "valueReference", "it doesn't say of which property")
    if name.startswith("@"):
        if name != "@gml:id":
            raise invalid("valueReference", f"no feature has {name}")
        return name
    for table in tables:
        see_column(name_in(name), table, "valueReference")
    return name


def named_tables(given: Given, tables: Mapping[str, Table]) -> list[Table]:
    """The tables that a request names; all if it names none."""
    names = list(
        dict.fromkeys(
            type_in(one) for one in re.split("[,()]", given.get("typenames", given.get("typename", ""))) if one.strip()
        )
    )
    wrong = [name for name in names if name not in tables]
    if wrong:
        raise invalid("typeNames", f"the map has no layer {wrong[0]}")
    return [tables[name] for name in names] if names else list(tables.values())


def see_system(name: str | None) -> None:
    """Refuses coordinates of another system than the map's."""
    if name and not SYSTEM.search(name):
        raise invalid("srsName", f"SRSNAME {name}: EPSG:3857 is needed")


def number_in(given: Given, names: Iterable[str], usual: int) -> int:
    """A number that a parameter of one of these names has."""
    text = next((given[name] for name in names if given.get(name)), str(usual))
    if not re.fullmatch("[0-9]{1,18}", text):
        raise Refused(f"{text} is no number of features")
    return int(text)
