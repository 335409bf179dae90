"""`vtmap import` and `vtmap update`: the features of a file are planned, compared with the map, and sent. Needs GDAL's Python module."""
from __future__ import annotations

import argparse
import errno
import json
import os
import sys

from ..client import entries
from ..client.client import NO_CHECKS, Client
from ..client.schema import schema_at
from ..faults import Fault, NoAnswer, Stopped
from ..files.base_file import Base
from ..files.gdal_file import Reader
from ..files.id_file import IdFile
from ..files.map_schema import Schema
from ..forms import Status
from ..limits import MOST_CHANGES
from ..progress import with_progress
from ..shown import shown
from ..systems import without_end
from .changes import Changes
from .ids import told_ranges
from .import_options import MAXZOOM, has_ids
from .plan import Plan
from .sizes import Room

UNKNOWN = "the server tells nothing of itself (start it with --admin): which ids are free isn't known"


def plan_of(words: argparse.Namespace, client: Client, status: Status | None) -> Plan:
    """The features to put, read from the file. Prints what a user should know of them."""
    ids = IdFile(words.ids) if words.ids else None
    first = words.first
    if first is None:
        if status is None:
            raise Stopped(f"{UNKNOWN}. Name the first one by --first")
        first = client.next_id(status) if words.id is None or ids else 0
    if ids:
        ids.begin_at(first)
    schema = schema_at(client, words.schema)
    take_zooms(words, schema)
    columns = (words.x, words.y) if words.x is not None else None
    reader = Reader(words.file, words.source, words.crs, words.encoding, words.cut_texts, columns, words.id, words.not_cut)
    room = None if status is None or words.anyway else Room(status, words.publish, words.id is None and words.first is None)
    plan = Plan(words, reader, first, ids, schema, room)
    plan.read()
    reader.notes.show()
    return plan


def take_zooms(words: argparse.Namespace, schema: Schema) -> None:
    """Takes the zooms of the layer that --layer names from the schema, if the command names none."""
    rules = schema.layers.get(words.layer)
    if rules and rules.zooms and not (words.says_minzoom or words.says_maxzoom):
        words.minzoom, words.maxzoom = rules.zooms
        words.says_maxzoom = True
        print(f"note: they are shown at zooms {words.minzoom} to {words.maxzoom}, as the schema has it", flush=True)


def base_of(words: argparse.Namespace, client: Client, status: Status | None) -> Base | None:
    """What the file said at its last import into this map. None if ids don't stay, or the server doesn't tell what the map has."""
    if status is None or not has_ids(words):
        return None
    path, before = base_path(words), words.was_at and words.was_at.rstrip("/")
    try:
        base = Base(path if os.path.exists(path) or not words.dry_run else None, client.address, before)
    except OSError as fault:
        if words.update or words.base or fault.errno not in (errno.EACCES, errno.EPERM, errno.EROFS):
            raise
        print(f"note: what the file says isn't kept, so that `vtmap update` won't know it: {fault} (--base names another place)", flush=True)
        return None
    if status["edits"] < base.edits:
        print(f"note: the map has {status['edits']:,} edits, and had {base.edits:,} at the last import: it was put back from a copy, or is another one. "
              "What the file said then isn't looked at", flush=True)
        base.forget()
    return base


def base_path(words: argparse.Namespace) -> str:
    """The file of what was imported before."""
    return words.base or (words.ids or without_end(words.file)) + ".base"


def obstacles(words: argparse.Namespace, client: Client, status: Status | None, changes: Changes) -> list[str]:
    """Looks at what the map has. Returns why nothing may be sent."""
    if status is None:
        print(f"note: {UNKNOWN}", flush=True)
        if words.update:
            return ["update needs to know what the map has"]
        changes.compare()
        return [*changes.plan.obstacles(), *changes.cuts()]
    changes.look(client, status)
    found = [*changes.plan.obstacles(), *changes.obstacles()]
    # A proxy's copy of the layers may be older than the last edit: this asks for one that isn't (docs/nginx.conf).
    known = client.found(f"/map/metadata?edit={status['edits']}")["vector_layers"]
    layers = {layer["id"] for layer in known} & changes.layers
    if not words.anyway:
        ids = changes.plan.ids
        if ids and any(not ids.is_known(layer) for layer in layers):
            found.append(f"{words.ids} has no ids of the layer, which the map has already: is it the file that was used before? (--anyway goes on)")
    if layers and words.first is None and words.id is None:
        names = " and ".join(map(shown, sorted(layers)))
        print(f"note: the map has {names} already: these are further features of it (`vtmap update` changes them instead)", flush=True)
    return found


def tell_zooms(words: argparse.Namespace, client: Client) -> None:
    """Says that features end at a zoom beyond which other clients show the map: they ask for tiles up to the greatest zoom of nginx's TileJSON."""
    if words.says_maxzoom:
        return
    status, content = client.ask("GET", "/map.json")
    try:
        last = json.loads(content)["maxzoom"] if status == 200 else MAXZOOM
    except (ValueError, LookupError, TypeError):
        return
    if isinstance(last, int) and last > MAXZOOM:
        print(f"note: they are shown up to zoom {MAXZOOM}: give --maxzoom {last} to show them as far in as /map.json says", flush=True)


def has_room(words: argparse.Namespace, client: Client, status: Status | None, changes: Changes) -> bool:
    """Whether the server's disk has room for the changes, as far as a client knows. Prints what is needed."""
    sums, journal = changes.sizes(client.most)
    taken, where = entries.there(client, {**status}) if status else (0, "")
    for line in sums.lines(journal, taken, where):
        print(line, flush=True)
    if status is None:
        return True
    room = Room(status, words.publish, True)
    print(f"what was published last takes {room.used:,} sectors of an area, which has {room.area:,}", flush=True)
    fault = room.lacks(sums.area(), journal)
    if fault:
        print(fault)
    return words.anyway or fault is None


def send(client: Client, changes: Changes) -> None:
    """Sends the changes, and prints refusals and how far it is."""
    for number, refusal in with_progress(changes.send(client), changes.count()):
        if refusal:
            print(f"feature {number} refused: {refusal}", flush=True)


def tell_edits(client: Client) -> None:
    """Prints the numbers of the edits that were made."""
    if client.made:
        print(f"its edits: {told_ranges(client.made)} (`vtmap undo` takes them back)", flush=True)


def tell_disk(client: Client) -> None:
    """Prints what of the disk is used after the import, if the server tells it."""
    try:
        status = client.status()
    except Stopped:
        return
    if status is not None:
        journal, area = status["journal"], status["area"]
        print(f"used: {journal['used']:,} of {journal['places']:,} sectors of the journal until the next publication, "
              f"{area['used']:,} of {area['sectors']:,} of an area by what was published last")


def tell_place(client: Client, plan: Plan) -> None:
    """Prints where the data is."""
    if plan.box is None:
        return
    status, _ = client.ask("GET", "/pages/")
    place = f"/pages/#{plan.place()}"
    print("look at it: " + (client.address + place if status == 200 else f"{place} at the address of the nginx in front of the server"))


def work(words: argparse.Namespace, client: Client) -> int:
    """The import. Returns its exit status."""
    status = client.status()
    if status is not None and "last" not in status:
        raise Stopped(NO_CHECKS[404])
    base = base_of(words, client, status)
    plan = plan_of(words, client, status)
    changes = Changes(plan, words, base)
    found = obstacles(words, client, status, changes)
    for line in changes.conflicts_told():
        print(line, flush=True)
    if found:
        print("\n".join([*found, "nothing was sent"]))
        return 1
    tell_zooms(words, client)
    if not has_room(words, client, status, changes):
        print("nothing was sent")
        return 1
    # Without --admin nothing that is sent is checked.
    if status is None and client.status() is not None:
        raise Stopped("the server tells what the map has, which it didn't when it was asked first: run the same command again")
    if words.dry_run:
        print("\n".join([*changes.would_send(), f"{changes.told()}: nothing was sent"]))
        return 1 if changes.failed() else 0
    return sent(words, client, plan, changes)


def sent(words: argparse.Namespace, client: Client, plan: Plan, changes: Changes) -> int:
    """Sends the changes, and keeps the ids and what the file says. Returns the exit status."""
    if plan.ids:
        plan.ids.save()
    try:
        if changes.base:
            changes.base.keep_types(plan.types)
        try:
            send(client, changes)
        finally:
            if changes.base:
                changes.base.end(client.edits)
        tell_edits(client)
        tell_disk(client)
        tell_place(client, plan)
    except NoAnswer as fault:
        tell_edits(client)
        print(f"feature {client.last}: {fault}")
        print(f"{changes.so_far()}, then the server didn't answer: {again(words, plan)}")
        return 3
    except Stopped as fault:
        tell_edits(client)
        print(f"stopped at feature {client.last}: {fault}")
        print(f"{changes.so_far()}: {again(words, plan)}")
        return 1
    except KeyboardInterrupt:
        tell_edits(client)
        print(f"{changes.so_far()}, then it was interrupted: {again(words, plan)}")
        return 130
    except OSError as fault:
        print(f"standard output, or {base_path(words)}: {fault}: {changes.so_far()}: {again(words, plan)}", file=sys.stderr)
        return 1
    print(changes.told())
    return 1 if changes.failed() else 0


def again(words: argparse.Namespace, plan: Plan) -> str:
    """How to go on."""
    return "run the same command again" + (f" with --first {plan.first}" if words.first is None and words.id is None else "")


def imported(words: argparse.Namespace) -> int:
    """Runs the command, and says of each fault that nothing was sent."""
    fault: object
    try:
        return work(words, Client(words.url, words.publish, 1 if words.no_batches else MOST_CHANGES))
    except Fault as found:
        fault, status = found, found.status
    except KeyboardInterrupt:
        fault, status = "interrupted", 130
    except OSError as found:
        fault, status = found, 1
    except RuntimeError as found:
        fault, status = f"GDAL can't read {words.file}: {found}", 1
    print(f"{shown(fault)}: nothing was sent")
    return status
