"""`vtmap save` and `vtmap load`: the features of a map in a file, and back. Needs no package."""
from __future__ import annotations

import argparse
import json
import os
from collections import Counter
from collections.abc import Iterable, Iterator, Mapping
from datetime import datetime, timezone
from itertools import chain

from ..client.client import Client, word
from ..client.edits import NOTHING, Change, delete, encoded, put
from ..ending import regular
from ..faults import Refused, Stopped
from ..files.archive_ids import ids_in
from ..files.attachments import PATH, Attachments, Use, saved as copied
from ..files.disk_file import moment_of
from ..files.past import drop_number, keep_number
from ..forms import Feature, Status
from ..geometry.geojson import feature_of, geojson_of
from ..geometry.wholes import right_handed, wholes_of
from ..limits import MOST_CHANGES
from ..progress import with_progress
from ..shown import shown
from ..systems import put_in_place
from .deletions import are_many
from .ids import ranges

ABOUT = {
    "save": """Saves the features of the map in a file, which `vtmap load` puts back into a map.

    vtmap save map.geojson
    vtmap save map.geojson --disk /var/lib/vtserve/map.disk

The file is GeoJSON (longitude and latitude, a feature a line), which other programs read too: the member `id` is the feature's id,
`properties` are its tags, and `layer`, `minzoom` and `maxzoom` are members beside them. `vtmap load` puts back exactly the features that were
saved: coordinates are the centres of the squares of 9 mm (at the equator) that the map distinguishes. A file whose name ends in `.jsonl` has a
line for each feature in place of that, as the server itself writes it: `{"feature":{..},"id":7}`.

--disk FILE reads the disk file, which a server may serve meanwhile, and saves the map of one moment; it says after which edit. It needs the
right to read the file, and no --admin. Otherwise the server is asked for its features, which a server with `--admin` lists: features that are
edited meanwhile are saved as they are when it reads them. Of a server without it the ids have to be known:
    --numbers 1-3000,5000-5999    asks for each of these ids; complete if the ids are
    --archive                     publishes the map, downloads the archive, and asks for each id in its tiles. Features that no
                                  tile shows (for instance polygons too small to have an area at their greatest zoom) are missed

--wholes is for other programs: a feature that the import cut is one again, the union of its pieces, without the lines of its outline, and
rings have the directions that GeoJSON asks for. Such a file is no backup: `vtmap load` refuses it, and `vtmap import` puts it into a map.
Without --wholes each ring is saved in the direction that it has in the map, so that `vtmap load` puts back the same.

--files FOLDER also copies the photos and files of features, which `vtmap wfs --files FOLDER` keeps, into the folder `files`
beside FILE: those that aren't there yet, since none ever changes. It names files that features name and
the folder lacks, and ends with 1 if one is damaged; all else is saved then.

FILE is as it was until all features are there; what was got by then is in FILE.part. FILE.at says of which edit the features are, if that is known:
of a disk file, and of a server that wasn't edited meanwhile. `vtmap at` begins with such a save.""",
    "load": """Puts the features of a file that `vtmap save` wrote back into a map.

    vtmap load map.geojson --publish

It replaces nothing of a map that has other features of these ids, unless --overwrite says so. --exactly makes the map that of the file: it
also deletes what the map has and the file doesn't, after it has said how much of which layers that is; more than 20 deletions, if they are
more than half of the map, are taken for a mistake, and then nothing is changed without --delete-many. With --publish it frees the journal by a
publication whenever it is full; it puts up to 64 features in a request, and with --no-batches one. --files FOLDER first
copies the files that the features name from the folder `files` beside FILE into FOLDER, those that aren't there.""",
}
START, END = '{"type":"FeatureCollection","features":[', "\n]}\n"
START_OF_WHOLES = '{"type":"FeatureCollection","wholes":true,"features":['


def listed(client: Client, status: Status | None) -> Iterator[tuple[int, Feature]]:
    """Each feature of the map with its id, in ascending order. `status`: what the server tells of itself."""
    if status is None:
        raise Refused("the server doesn't list its features: start it with --admin, or give --disk, --numbers or --archive")
    return client.features()


def ids_of_archive(client: Client) -> list[int]:
    """The ids in the tiles of the map, which is published for it."""
    client.publish()
    status, archive = client.ask("GET", "/map.pmtiles")
    # A map without tiles has no archive.
    if status == 404 and word(archive) == "NotFound":
        return []
    if status != 200:
        client.stop_at(status, archive)
        raise Stopped(f"GET /map.pmtiles: {status} {word(archive)}")
    return ids_in(archive)


def is_list(words: argparse.Namespace) -> bool:
    """Whether the server's list of features is asked for."""
    return words.numbers is None and not words.archive


def wanted(words: argparse.Namespace, client: Client, status: Status | None) -> Iterable[tuple[int, Feature | None]]:
    """Each id that is asked for, with its feature or None."""
    if is_list(words):
        return listed(client, status)
    numbers = ids_of_archive(client) if words.archive else chain.from_iterable(words.numbers)
    return ((number, client.feature(number)) for number in numbers)


def is_lines(name: str) -> bool:
    return name.endswith(".jsonl")


def row_of(number: int, feature: Feature, lines: bool) -> str:
    """A feature as a line of the file."""
    if lines:
        return json.dumps({"feature": feature, "id": number}, ensure_ascii=False, separators=(",", ":"), sort_keys=True)
    return json.dumps(geojson_of(number, feature), ensure_ascii=False)


def written(path: str, features: Iterable[tuple[int, Feature]], start: str) -> int:
    """Writes the file, which has what it had until all features are there. Returns how many they are."""
    saved, lines = 0, is_lines(path)
    with open(regular(path) + ".part", "w", encoding="utf-8", newline="\n") as file:
        file.write("" if lines else start)
        for number, feature in features:
            file.write(("" if lines else ",\n" if saved else "\n") + row_of(number, feature, lines) + ("\n" if lines else ""))
            saved += 1
        file.write("" if lines else END)
        file.flush()
        os.fsync(file.fileno())
    put_in_place(path + ".part", path)
    return saved


def edit_of(client: Client, before: Status | None) -> int | None:
    """The edit of what was listed since a status; None if that isn't known, or others were made meanwhile."""
    after = client.status() if before else None
    return after["edits"] if before and after and after["edits"] == before["edits"] else None


def files_beside(path: str) -> Attachments:
    """The folder of photos and files beside a file of features."""
    return Attachments(os.path.join(os.path.dirname(os.path.abspath(path)), PATH.rstrip("/")))


def save_files(words: argparse.Namespace, use: Use) -> bool:
    """Copies the files of a folder, and says which aren't there that features name. Returns whether none is damaged."""
    kept, beside = Attachments(words.files), files_beside(words.file)
    done, there, damaged = copied(kept, beside)
    lost = [name for name in sorted(use.named) if not kept.has(name)]
    print(f"{done} files saved, {there} were there already")
    for name in damaged:
        print(f"damaged, and not saved: {kept.path(name)}")
    for name in lost:
        number, tag = use.named[name][0]
        print(f"missing: {PATH}{name}, which feature {number} names ({shown(tag)})" + (": an earlier backup has it" if beside.has(name) else ""))
    return not damaged


def load_files(words: argparse.Namespace, rows: Iterable[tuple[int, Feature]]) -> bool:
    """Copies the files that features name back into a folder."""
    kept, beside = Attachments(words.files), files_beside(words.file)
    wanted = sorted(Use.of(rows).named)
    missing = [name for name in wanted if not kept.has(name)]
    lost = [name for name in missing if not (beside.has(name) and beside.copy_to(kept, name))]
    print(f"{len(missing) - len(lost)} files put, {len(wanted) - len(missing)} were there already" + (f", {len(lost)} aren't in the backup" if lost else ""))
    return not lost


def save(words: argparse.Namespace) -> int:
    """Saves features in the file."""
    begun = datetime.now(timezone.utc)
    moment = moment_of(words.disk) if words.disk else None
    client = None if moment is not None else Client(words.url)
    before = client.status() if client and is_list(words) else None
    by = datetime.now(timezone.utc)
    found: Iterable[tuple[int, Feature | None]] = ()
    if client is not None:
        found = wanted(words, client, before)
    elif moment is not None:
        found = moment.features.items()
    missing, use = [], Use({})

    def there() -> Iterator[tuple[int, Feature]]:
        for number, feature in found:
            if feature is None:
                missing.append(number)
            else:
                use.add(number, feature)
                yield number, feature

    features = ((whole.number, right_handed(whole.feature)) for whole in wholes_of(there())) if words.wholes else there()
    saved = written(words.file, features, START_OF_WHOLES if words.wholes else START)
    after = begun if moment else datetime.now(timezone.utc)
    edit = moment.edit if moment else edit_of(client, before) if client else None
    if edit is None or words.wholes:
        drop_number(words.file)
    else:
        keep_number(words.file, edit, by, after)
    of_moment = f", of the map after edit {moment.edit:,}" if moment else ""
    of_ids = f", {len(missing)} ids without one" if words.numbers or words.archive else ""
    print(f"{saved} features saved{of_moment}{of_ids}")
    if moment and moment.passed:
        print(f"note: reading began again {moment.passed} times, since a publication passed")
    return 0 if words.files is None or save_files(words, use) else 1


def saved_in(path: str) -> list[tuple[int, Feature]]:
    """The ids and features of a file."""
    try:
        with open(path, encoding="utf-8") as file:
            if is_lines(path):
                return [(row["id"], row["feature"]) for row in map(json.loads, file)]
            whole = json.load(file)
        if not whole.get("wholes"):
            return [(row["id"], feature_of(row)) for row in whole["features"]]
    except (ValueError, TypeError, LookupError, AttributeError) as fault:
        raise Refused(f"{path} is no file that save has written: {type(fault).__name__}: {fault}") from fault
    raise Refused(f"{path} was saved with --wholes: put it into a map by `vtmap import`, which cuts large features again")


def changes_for(rows: Iterable[tuple[int, Feature]], there: Mapping[int, bytes], overwrites: bool) -> list[Change]:
    """The checked edits that put the features of a file into a map that has others, which they don't replace unless that is wanted."""
    made = [put(number, feature)._replace(was=there.get(number, NOTHING)) for number, feature in rows]
    made = [change for change in made if change.was != change.body]
    differing = sum(change.was != NOTHING for change in made)
    if differing and not overwrites:
        raise Refused(f"{differing:,} of these features are others in the map: nothing was put (--overwrite replaces them)")
    return made


def deletions_for(rows: Iterable[tuple[int, Feature]], there: Mapping[int, bytes], many: bool) -> list[Change]:
    """The checked edits that delete what the map has and the file doesn't. Says what that is. Very many are taken for a mistake."""
    known = {number for number, _ in rows}
    gone = {number: was for number, was in there.items() if number not in known}
    if gone:
        layers = Counter(json.loads(was)["layer"] for was in gone.values())
        print(f"to be deleted: {', '.join(f'{count:,} of {shown(layer)}' for layer, count in layers.most_common())}, which the file doesn't have", flush=True)
    if are_many(len(gone), len(there)) and not many:
        raise Refused(f"{len(gone):,} of the {len(there):,} features of the map would be deleted: nothing was changed (--delete-many deletes them)")
    return [delete(number)._replace(was=was) for number, was in gone.items()]


def load(words: argparse.Namespace) -> int:
    """Puts the features of the file back."""
    # Of an id that the file has twice, the last feature counts.
    rows = list(dict(saved_in(words.file)).items())
    client = Client(words.url, words.publish, 1 if words.no_batches else MOST_CHANGES)
    are_there = words.files is None or load_files(words, rows)
    deletions = []
    if client.status() is None:
        if words.exactly:
            raise Refused("the server doesn't list its features, so --exactly can't compare them: start it with --admin")
        print("note: the server tells nothing of itself (start it with --admin): what it has of these features is replaced", flush=True)
        changes = [put(number, feature) for number, feature in rows]
    else:
        there = {number: encoded(feature) for number, feature in client.features()}
        deletions = deletions_for(rows, there, words.delete_many) if words.exactly else []
        changes = changes_for(rows, there, words.overwrite or words.exactly)
    for change, refusal in with_progress(client.make([*changes, *deletions])):
        if refusal:
            raise Refused(f"feature {change.number}: {refusal}")
    same = len(rows) - len(changes)
    deleted = f", {len(deletions)} deleted" if words.exactly else ""
    print(f"{len(changes)} features put{deleted}" + (f", {same} were there already" if same else ""))
    return 0 if are_there else 1


def options(parser: argparse.ArgumentParser, name: str) -> None:
    """The words of a command."""
    parser.add_argument("file", help="the GeoJSON file, or a file of lines of JSON if its name ends in .jsonl")
    parser.add_argument("--files", metavar="FOLDER", help="the folder of photos and files, which are kept beside FILE in the folder `files`")
    if name == "save":
        source = parser.add_mutually_exclusive_group()
        source.add_argument("--disk", metavar="FILE", help="read this disk file, which may be served meanwhile")
        source.add_argument("--numbers", type=ranges, help="the ids to ask for, as in 1-3000,5000")
        source.add_argument("--archive", action="store_true", help="publish, and take the ids from the archive")
        parser.add_argument("--wholes", action="store_true", help="features that the import cut as one, for other programs")
        return
    parser.add_argument("--overwrite", action="store_true", help="replace features of the map that have other content")
    parser.add_argument("--exactly", action="store_true", help="make the map that of the file: --overwrite, and delete what the file doesn't have")
    parser.add_argument("--delete-many", action="store_true", help="--exactly: delete even more than half of the features of the map")
    parser.add_argument("--publish", action="store_true", help="publish by steps when the journal is full")
    parser.add_argument("--no-batches", action="store_true", help="put each feature in a request of its own")


def work(words: argparse.Namespace) -> int:
    """Runs a command."""
    return save(words) if words.command == "save" else load(words)


def interrupted(words: argparse.Namespace) -> str:
    """What to do after an interruption."""
    return f"{words.file} is as it was" if words.command == "save" else "run the same command again"
