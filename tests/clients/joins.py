"""The part `join` of run.py: archives of several maps as one, by `vtmap join`.

Wanted archives are those that model/map_archive.py writes of the features of all maps. They are read by
model/archives.py and by GDAL.
"""
import json
import os
import random
import subprocess

import archives as model
import ids
from map_archive import archive_of
from wire import number, part
from vtmap.archives import writing

from .import_stand import has_gdal
from .stand import HERE, PROGRAM, SYSTEM_PYTHON, TILE, VTMAP, Cases, Server, archive, curl, feature, status_of

# The maps, the features of each, and how far maps are apart and overlap: so that some tiles belong to one, and others
# to several.
MAPS, EACH, ZOOM = 4, 60, 9
SIDE, OVERLAP = 2 ** 28, 2 ** 24
SECOND = feature(last=2, tags={"name": "other"})


def joined(*words):
    """The status of a join, and the lines that it printed."""
    child = subprocess.run([*VTMAP, "join", *words], capture_output=True, text=True)
    return child.returncode, (child.stdout + child.stderr).splitlines()


def kept(folder, name, content):
    """The path of a file with this content."""
    path = os.path.join(folder, name)
    with open(path, "wb") as file:
        file.write(content)
    return path


def read(path):
    """The content of a file, or None."""
    if not os.path.exists(path):
        return None
    with open(path, "rb") as file:
        return file.read()


def features_of(chance, at):
    """The features of a map: points, lines and areas with tags of each type. Other maps have some with another type."""
    found = {}
    for one in range(EACH):
        x, y = ((at // side % 2) * SIDE + 2**30 + chance.randrange(-OVERLAP, SIDE + OVERLAP) for side in (1, 2))
        shapes = [
            {"points": [[x, y]]},
            {"lines": [[[x, y], [x + 2**22, y + 2**21]]]},
            {"polygons": [[[[x, y], [x + 2**23, y], [x + 2**23, y + 2**22]]]]},
        ]
        tags = {
            "name": chance.choice(["Ö", "b", "c"]),
            "floors": chance.choice([1, 2, -3]),
            "of": [7, "text", True, 7][at],
            f"k{at}": one % 2 == 0,
        }
        tags = {key: value for key, value in tags.items() if chance.random() < 0.7}
        layer = chance.choice(["road", "area", "õ", f"own{at}"])
        first = min(at, 2) + chance.randrange(2)
        found[1000 * at + one] = {
            "layer": layer,
            "minzoom": first,
            "maxzoom": ZOOM - at,
            "geometry": chance.choice(shapes),
            "tags": tags,
        }
    return found


def regions(cases: Cases, folder: str) -> None:
    """Maps that have some tiles in common, beside the map of all."""
    chance = random.Random(7)
    maps = [features_of(chance, at) for at in range(MAPS)]
    country = archive_of({key: value for found in maps for key, value in found.items()})
    paths = [kept(folder, f"map{at}.pmtiles", archive_of(found)) for at, found in enumerate(maps)]
    out = os.path.join(folder, "country.pmtiles")
    status, lines = joined(*paths, out)
    tiles = [
        {number for entry in model.listed(read(path)) for number in range(entry.id, entry.id + entry.run)}
        for path in paths
    ]
    several = sum(sum(number in found for found in tiles) > 1 for number in set.union(*tiles))
    counts = model.counts_of(model.listed(country))
    said = (
        "4 archives joined: {addressed:,} tiles (%d merged), {entries:,} entries, {contents:,} contents, %s bytes"
        % (several, f"{len(country):,}")
    )
    cases.show("join: four maps", (status, lines, several > 40), (0, [said.format(**counts)], True))
    cases.show("join: the archive is that of one map of all", read(out) == country, True)
    joined(*reversed(paths), out, "--replace")
    cases.show("join: whatever the order", read(out) == country, True)
    cases.show(
        "join: nothing is left beside it",
        [name for name in os.listdir(folder) if "part" in name or name.startswith("tmp")],
        [],
    )
    verified = subprocess.run([PROGRAM, "verify", out], capture_output=True, text=True).stdout.strip()
    cases.show(
        "join: vtserve verify, and another reader", (verified, model.judged(read(out))), (model.judged(country),) * 2
    )
    if has_gdal(cases):
        words = [SYSTEM_PYTHON, os.path.join(HERE, "read_tiles.py"), out]
        cases.show(
            "join: GDAL reads each tile",
            json.loads(subprocess.run(words, capture_output=True).stdout)["contents"],
            counts["contents"],
        )
    one = os.path.join(folder, "one.pmtiles")
    cases.show("join: one archive stays as it is", (joined(paths[0], one)[0], read(one) == read(paths[0])), (0, True))
    nested = os.path.join(folder, "nested.pmtiles")
    joined(*paths[:2], nested)
    joined(nested, *paths[2:], out, "--replace")
    cases.show("join: an archive that is a join itself", read(out) == country, True)


def refused(cases, name, folder, words, said):
    """A join that is refused, with a sentence that has this: no file is written or changed."""
    out = kept(folder, "kept.pmtiles", b"as it was")
    status, lines = joined(*words, out, "--replace")
    cases.show(f"join: {name}", (status, len(lines), said in lines[-1] or lines, read(out)), (1, 1, True, b"as it was"))
    cases.show(
        f"join: {name}, nothing is left",
        sorted(part for part in os.listdir(folder) if part.startswith("kept") or "tmp" in part),
        ["kept.pmtiles"],
    )


def shared_ids(cases: Cases, folder: str) -> None:
    """Two maps with a feature of one id."""
    first, second = kept(folder, "first.pmtiles", archive()), kept(
        folder, "second.pmtiles", archive_of({7: json.loads(SECOND)})
    )
    refused(
        cases,
        "ids that two maps share are refused",
        folder,
        [first, second],
        f"tile 0/0/0, layer 'p': {first} and {second} have the feature 7 each (--first",
    )
    out = os.path.join(folder, "chosen.pmtiles")
    cases.show(
        "join: --first", (joined(first, second, out, "--first")[0], read(out) == archive_of_two(False)), (0, True)
    )
    cases.show(
        "join: --first of the other one",
        (joined(second, first, out, "--first", "--replace")[0], read(out) == archive_of_two(True)),
        (0, True),
    )
    refused(cases, "an archive with itself", folder, [first, first], "have the feature 7 each")
    cases.show(
        "join: an archive with itself, --first",
        (joined(first, first, out, "--first", "--replace")[0], read(out) == archive()),
        (0, True),
    )
    third = kept(folder, "third.pmtiles", archive_of({7: {**json.loads(SECOND), "layer": "q"}}))
    cases.show(
        "join: one id in two layers", (joined(first, third, out, "--replace")[0], len(model.listed(read(out)))), (0, 2)
    )


def archive_of_two(is_second):
    """The archive of the worked point or of the other one, with the metadata of both."""
    made = archive_of({7: json.loads(SECOND if is_second else feature())})
    said = model.header_of(made)
    fields = b'{"vector_layers":[{"fields":{"name":"String"},"id":"p","maxzoom":2,"minzoom":0}]}'
    maker = model.Maker()
    maker.tiles = model.section(made, said, "tiles")
    sections = model.section(made, said, "root")
    return maker.archive(sections, metadata=fields, **{name: said[name] for name in (
        "addressed", "entries", "contents", "clustered", "min_zoom", "max_zoom", "west", "south", "east", "north")})


def layered(layer=b"", tile_id=0, **header):
    """An archive of another maker, with one tile of one layer `p`, and this in it."""
    maker = model.Maker()
    content = part(3, part(1, b"p") + layer + number(15, 2))
    return maker.archive(
        [maker.tile(tile_id, 1, content)], metadata=b'{"vector_layers":[{"id":"p","fields":{}}]}', **header
    )


def bad_archives(cases: Cases, folder: str) -> None:
    """Files that can't be joined."""
    good, made = kept(folder, "good.pmtiles", archive()), archive()
    point = number(3, 1) + part(4, bytes([9, 0, 0]))
    bad = {
        "a truncated archive": (made[:-1], "it is truncated: its section `tiles` ends after the file"),
        "a header that ends early": (made[:100], "it has 100 bytes, fewer than a header"),
        "no archive": (b"x" * 200, "it is no PMTiles archive"),
        "an empty file": (b"", "it has 0 bytes"),
        "another version": (model.changed(made, version=2), "it is PMTiles version 2"),
        "compressed directories": (
            model.changed(made, internal=2),
            "its directories have the compression gzip: only uncompressed ones are read",
        ),
        "compressed tiles": (
            model.changed(made, compression=4),
            "its tiles have the compression zstd: only uncompressed ones are read",
        ),
        "images": (model.changed(made, kind=2), "its tiles have the type 2: only Mapbox vector tiles"),
        "a root directory that is none": (made[:127] + b"\x05" + made[128:], "the directory at byte 127 can't be read"),
        "metadata that are none": (made[:136] + b"[" + made[137:], "its metadata have no list of layers"),
        "contents after the section of tiles": (
            model.changed(made, tiles=20),
            "the content of tile 0/0/0 isn't in the section of tiles",
        ),
        "a tile that is none": (made[:202] + b"\x1a\x7f" + made[204:], "tile 0/0/0 of"),
        "features without ids": (layered(part(2, point)), "has a feature without an id"),
        "another extent": (layered(part(2, number(1, 1) + point) + number(5, 512)), "has another extent"),
        "a tag without a value": (
            layered(part(2, number(1, 1) + part(2, bytes([0, 0])) + point)),
            "has a tag without a key or a value",
        ),
        "an id twice": (layered(part(2, number(1, 1) + point) * 2), "has two features of one id"),
    }
    for name, (content, said) in bad.items():
        refused(cases, name, folder, [good, kept(folder, "bad.pmtiles", content)], said)
    refused(cases, "a folder", folder, [good, folder], "it is no regular file")
    nowhere = os.path.join(folder, "none", "out.pmtiles")
    cases.show(
        "join: a folder that isn't there",
        joined(good, nowhere),
        (1, [f"there is no folder {os.path.dirname(nowhere)}"]),
    )
    refused(cases, "a file that isn't there", folder, [good, os.path.join(folder, "none.pmtiles")], "No such file")
    out = kept(folder, "kept.pmtiles", b"as it was")
    status, lines = joined(good, out)
    cases.show("join: a file that exists", (status, "exists" in lines[0], read(out)), (1, True, b"as it was"))
    # Room for the contents, and not for the archive.
    limited = ["prlimit", "--fsize=100", *VTMAP, "join", good, out, "--replace"]
    child = subprocess.run(limited, capture_output=True, text=True)
    cases.show(
        "join: a file system that is full",
        (child.returncode, "File too large" in child.stderr or child.stderr, read(out)),
        (1, True, b"as it was"),
    )
    cases.show(
        "join: it leaves nothing", [name for name in os.listdir(folder) if "part" in name or name.startswith("tmp")], []
    )
    cases.show("join: no OUT", (joined(good)[0], joined()[0]), (2, 2))
    cases.show(
        "join: a server that doesn't answer", joined("http://127.0.0.1:9", os.path.join(folder, "none.pmtiles"))[0], 3
    )


def empty_archives(cases: Cases, folder: str) -> None:
    """Archives without tiles."""
    empty = kept(folder, "empty.pmtiles", model.Maker().archive([], metadata=b'{"vector_layers":[]}'))
    good, out = kept(folder, "good.pmtiles", archive()), os.path.join(folder, "with_empty.pmtiles")
    cases.show(
        "join: an archive without tiles", (joined(empty, good, empty, out)[0], read(out) == archive()), (0, True)
    )
    cases.show("join: none has a tile", joined(empty, empty, out, "--replace")[0], 0)
    verified = subprocess.run([PROGRAM, "verify", out], capture_output=True, text=True).stdout
    cases.show("join: vtserve verify of it", verified, "ok: 0 tiles, 0 entries, 0 contents\n")


def many(first, count, run=1):
    """An archive with this many entries, two contents by turns, from a tile id on."""
    maker = model.Maker()
    tiles = [maker.tile(0, 1, bytes.fromhex(TILE)), maker.tile(0, 1, part(3, part(1, b"q") + number(15, 2)))]
    root = []
    for at in range(0, count, 4096):
        entries = [tiles[one % 2]._replace(id=first + one * run, run=run) for one in range(at, min(at + 4096, count))]
        root.append(maker.leaf(entries[0].id, entries))
    return maker.archive(root, metadata=b'{"vector_layers":[]}', clustered=1)


def many_entries(cases: Cases, folder: str) -> None:
    """More entries than one map may have, and runs that others cut."""
    base, count = ids.id_of(12, 0, 0), 70_000
    paths = [kept(folder, f"many{at}.pmtiles", many(base + at * count, count)) for at in range(2)]
    out = os.path.join(folder, "many.pmtiles")
    status, lines = joined(*paths, out)
    verified = subprocess.run([PROGRAM, "verify", out], capture_output=True, text=True).stdout
    said = "140000 tiles, 140000 entries, 2 contents"
    cases.show(
        "join: 140,000 entries", (status, verified, model.judged(read(out))), (0, f"ok: {said}\n", f"ok: {said}")
    )
    leaves = model.entries_of(model.section(read(out), model.header_of(read(out)), "root"))
    cases.show(
        "join: they are in leaf directories of 512",
        (len(leaves), {entry.run for entry in leaves}),
        (-(-140_000 // 512), {0}),
    )
    # One run over the odd tiles of another archive: the even ones stay as they are, the odd ones are merged.
    maker = model.Maker()
    wide = kept(
        folder,
        "wide.pmtiles",
        maker.archive([maker.tile(base, 10, part(3, part(1, b"z") + number(15, 2)))], metadata=b'{"vector_layers":[]}'),
    )
    odd = model.Maker()
    every = [odd.tile(base + at, 1, bytes.fromhex(TILE)) for at in range(1, 12, 2)]
    joined(wide, kept(folder, "odd.pmtiles", odd.archive(every, metadata=b'{"vector_layers":[]}')), out, "--replace")
    wanted = [
        bytes.fromhex(TILE) * (at % 2) + (part(3, part(1, b"z") + number(15, 2)) if at < 10 else b"") or None
        for at in range(12)
    ]
    cases.show(
        "join: a run of which another archive has a part",
        [model.looked_up(read(out), base + at) for at in range(12)],
        wanted,
    )
    # A root directory of 5,000 leaves, with four bytes each, doesn't fit into the first 16,384 bytes; 2,500 do.
    writing.LEAF_ENTRIES = 4
    writer = writing.Writer(folder)
    for at in range(20_000):
        writer.put(base + 2 * at, 1, b"%d" % (at % 7))
    writer.finish(out, b"{}", (0, 0, 0, 0))
    writer.close()
    said = model.header_of(read(out))
    leaves = model.entries_of(model.section(read(out), said, "root"))
    sizes = {len(model.leaf_of(read(out), said, leaf, 0)) for leaf in leaves}
    cases.show(
        "join: the root directory is in the first bytes",
        (said["root_at"] + said["root"] <= 16384, sizes, len(model.listed(read(out)))),
        (True, {8}, 20_000),
    )


def addresses(cases: Cases, folder: str) -> None:
    """Archives of servers."""
    with Server(folder, "joined", 4096) as server:
        curl(server.url + "/features/7", "-X", "PUT", body=feature())
        out = os.path.join(folder, "of_server.pmtiles")
        refused(cases, "a map that isn't published", folder, [server.url], "404 NotFound")
        cases.show("join: a publication", status_of(curl(server.url + "/publish", "-X", "POST")), 200)
        cases.show("join: the address of a map", (joined(server.url, out)[0], read(out) == archive()), (0, True))
        cases.show(
            "join: that of its archive",
            (joined(server.url + "/map.pmtiles", out, "--replace")[0], read(out) == archive()),
            (0, True),
        )


def country(cases: Cases, folder: str) -> None:
    """`vtmap publish --join`, into an object store that is a folder."""
    stored, record = os.path.join(folder, "store"), os.path.join(folder, "published")
    os.mkdir(stored)
    aws = kept(folder, "aws", b'#!/bin/sh\nfor word; do from=$to; to=$word; done\ncp "$from" "$STORE/${to##*/}"\n')
    os.chmod(aws, 0o755)
    words = {**os.environ, "PATH": folder + ":" + os.environ["PATH"], "STORE": stored}

    def published(server, *more):
        line = [*VTMAP, "publish", "--url", server.url, "--to", "s3://maps/country", "--record", record, *more]
        child = subprocess.run(line, env=words, capture_output=True, text=True)
        with open(record, encoding="utf-8") as file:
            return child.returncode, json.load(file)["result"].split(":")[0], (child.stdout + child.stderr).splitlines()

    def newest():
        return read(os.path.join(stored, json.loads(read(os.path.join(stored, "newest.json")))["archive"]))

    point, other = json.loads(feature()), json.loads(SECOND)
    with Server(folder, "north", 4096, more=("--admin", "--etags")) as north, Server(
        folder, "south", 4096, more=("--admin", "--etags")
    ) as south:
        for server, number, body in ((north, 7, feature()), (south, 8, SECOND)):
            curl(f"{server.url}/features/{number}", "-X", "PUT", body=body)
        cases.show(
            "join: vtmap publish --join, a map that isn't published",
            published(north, "--join", south.url)[:2],
            (1, "not joined"),
        )
        curl(south.url + "/publish", "-X", "POST")
        found = published(north, "--join", south.url, "--changed")
        cases.show(
            "join: vtmap publish --join",
            (found[:2], newest() == archive_of({7: point, 8: other})),
            ((0, "published"), True),
        )
        found = published(north, "--join", south.url, "--changed")
        wanted = ["the archive has each edit already", "the joined archive has each publication already"]
        cases.show(
            "join: vtmap publish --join --changed, nothing has",
            (found, len(os.listdir(stored))),
            ((0, "published", wanted), 2),
        )
        curl(south.url + "/features/9", "-X", "PUT", body=feature())
        curl(south.url + "/publish", "-X", "POST")
        found = published(north, "--join", south.url, "--changed")
        both = {7: point, 8: other, 9: point}
        cases.show(
            "join: vtmap publish --join --changed, the other map has",
            (found[:2], newest() == archive_of(both)),
            ((0, "published"), True),
        )
        curl(south.url + "/features/7", "-X", "PUT", body=SECOND)
        curl(south.url + "/publish", "-X", "POST")
        found = published(north, "--join", south.url, "--changed")
        cases.show(
            "join: vtmap publish --join, an id that both have",
            (found[:2], newest() == archive_of(both)),
            ((1, "not joined"), True),
        )
        found = published(north, "--join", south.url, "--changed", "--first")
        cases.show(
            "join: vtmap publish --join --first", (found[:2], newest() == archive_of(both)), ((0, "published"), True)
        )
        south.end()
        found = published(north, "--join", south.url, "--changed", "--first")
        cases.show(
            "join: vtmap publish --join, a map that is away",
            (found[:2], newest() == archive_of(both)),
            ((3, "not joined"), True),
        )
        cases.show(
            "join: vtmap publish --join without a place",
            tool_status("publish", "--url", north.url, "--join", south.url),
            2,
        )


def tool_status(*words):
    """The status of a command of vtmap."""
    return subprocess.run([*VTMAP, *words], capture_output=True).returncode


def joins(cases: Cases, folder: str) -> None:
    """The archives, as they are joined and as they are refused."""
    folder = os.path.join(folder, "joins")
    os.mkdir(folder)
    for one in (regions, shared_ids, bad_archives, empty_archives, many_entries, addresses, country):
        place = os.path.join(folder, one.__name__)
        os.mkdir(place)
        one(cases, place)
