"""`vtmap delete-layer`: deletes the features of layers. Needs no package."""
from __future__ import annotations

import argparse
from collections import Counter
from collections.abc import Container, Iterable
from itertools import chain

from ..client.client import Client, Full
from ..client.edits import DELETES_OF_A_SECTOR, Change, batches, checked, delete
from ..faults import Fault, NoAnswer, Stopped
from ..forms import Feature, Status
from ..progress import with_progress
from ..shown import shown
from .ids import ranges

ABOUT = {"delete-layer": """Deletes the features of layers from the map.

    vtmap delete-layer parish parish-outline
    vtmap delete-layer parish --numbers 1-3000

It asks the server for the list of its features; of a server without --admin name the ids with --numbers. Up to 55 features are deleted by one
request, which take a sector of the journal; with --no-batches one. A feature that somebody else changes meanwhile is left, and reported: run
the same command again. The published archive shows the layers until the next publication.

Nothing is published unless the journal has no room. It works while a publication is under way, and on a map that no longer fits on its disk
(`AreaFull`), if the journal has room for all of it: then features are deleted without looking at them again, which takes the fewest sectors.
If the journal hasn't, nothing is deleted, and it says so; --anyway deletes as many as there is room for, after which the map may fit again.

It prints how many features of each layer are deleted. It ends with 1 if some are left."""}


def options(parser: argparse.ArgumentParser, _: str) -> None:
    """The words of the command."""
    parser.add_argument("layers", nargs="+", metavar="LAYER", help="the name of a layer")
    parser.add_argument("--numbers", type=ranges, help="the ids to ask for, as in 1-3000,5000, instead of the whole list")
    parser.add_argument("--no-batches", action="store_true", help="delete each feature in a request of its own")
    parser.add_argument("--anyway", action="store_true", help="delete as many as there is room for on a disk that is full")


def found_in(client: Client, layers: Container[str], numbers: Iterable[range] | None) -> dict[int, Feature]:
    """The features of these layers, by their ids: of the whole map, or of these ids."""
    there: Iterable[tuple[int, Feature | None]]
    if numbers is not None:
        there = ((number, client.feature(number)) for number in chain.from_iterable(numbers))
    elif client.status() is not None:
        there = client.features()
    else:
        raise Stopped("the server doesn't list its features: start it with --admin, or give --numbers")
    return {number: feature for number, feature in there if feature is not None and feature["layer"] in layers}


def free_in(status: Status) -> int:
    """The sectors of the journal that are free."""
    return status["journal"]["places"] - status["journal"]["used"]


def changes_for(client: Client, found: dict[int, Feature], anyway: bool) -> list[Change]:
    """The deletions: checked ones if the journal has, or gets by a publication, a sector for each request. Raises `Stopped` if neither they nor
    those that take the fewest sectors have room, unless that is wanted `anyway`."""
    plain = [delete(number) for number in found]
    status = client.status()
    if status is None:
        return plain
    made = [checked(change, found[change.number]) for change in plain]
    if count(batches(made, client.most)) <= free_in(status):
        return made
    try:
        client.publish()
        return made
    except Full as fault:
        need, free = count(batches(plain, client.most)), free_in(status)
        if need > free and not anyway:
            raise Stopped(f"{fault}. The journal has {free:,} of the {need:,} sectors that the deletions take: move the map to a larger disk, or delete "
                          f"as many as there is room for with --anyway ({free * client.most:,}), after which the map may fit again") from fault
        print(f"note: {fault}. Features are deleted without looking at them again", flush=True)
        return plain


def count(groups: Iterable[object]) -> int:
    """How many groups there are."""
    return sum(1 for _ in groups)


def delete_all(client: Client, found: dict[int, Feature], deleted: Counter[str], anyway: bool) -> bool:
    """Deletes the features. Counts those of each layer that are deleted. Returns whether all are."""
    for change, refusal in with_progress(client.make(changes_for(client, found, anyway))):
        if refusal:
            print(f"feature {change.number}: {refusal}", flush=True)
        else:
            deleted[found[change.number]["layer"]] += 1
    return sum(deleted.values()) == len(found)


def tell_rest(client: Client, found: dict[int, Feature], deleted: Counter[str]) -> None:
    """Says what is left, and what room the journal has, if the server tells it."""
    try:
        status = client.status()
    except (NoAnswer, Stopped):
        status = None
    room = "" if status is None else f"; the journal has {status['journal']['places'] - status['journal']['used']:,} of its sectors free"
    print(f"{len(found) - sum(deleted.values()):,} features are left{room}")


def work(words: argparse.Namespace) -> int:
    """Deletes the layers. Tells how far it came, however it ends."""
    client, deleted = None, Counter[str]()
    found: dict[int, Feature] = {}
    try:
        client = Client(words.url, True, 1 if words.no_batches else DELETES_OF_A_SECTOR)
        found = found_in(client, words.layers, words.numbers)
        end = 0 if delete_all(client, found, deleted, words.anyway) else 1
    except Fault as fault:
        print(f"stopped: {fault}")
        end = fault.status
        if client and found and not isinstance(fault, NoAnswer):
            tell_rest(client, found, deleted)
    except KeyboardInterrupt:
        print("interrupted: run the same command again")
        end = 130
    for layer in words.layers:
        print(f"{deleted[layer]} features of {shown(layer)} deleted")
    return end
