"""Measures a tile of a city beside PostGIS, and a durable batch of 64 points.

    python3 bench/speed/city/postgis.py PROGRAM

PROGRAM is the built `vtserve`. As root, with PostgreSQL and PostGIS (Debian: postgresql, postgresql-15-postgis-3), whose server
runs as the user `postgres`, with a GiST index and the table clustered by it. Both have the same 6,479 features, and both tiles
have as many features in each layer. vtserve cuts its tile again after an edit inside it, PostGIS makes it by ST_AsMVT. A batch puts 64
points at other places: by one request to vtserve, by one INSERT of 64 rows with ON CONFLICT into a table with a primary key and a
GiST index; both are on the medium as they are answered. vtserve is asked over TCP, for tiles by serve/client.cpp (g++), for batches
by the connection of batches/run.py; PostGIS over a Unix socket by pgbench, prepared. Server and client have a processor each.
"""
import glob
import http.client
import json
import os
import shutil
import socket
import statistics
import subprocess
import sys
import tempfile
import urllib.request

HERE = os.path.dirname(os.path.abspath(__file__))
sys.path[:0] = [os.path.join(HERE, ".."), os.path.join(HERE, "..", "batches"), os.path.join(HERE, "..", "..", "..")]

import city_features  # noqa: E402
import run as batches  # noqa: E402
from vtmap.client import edits  # noqa: E402

ROUNDS, MANY, FEATURES, ZOOM, BATCH = 5, 400, 6479, 12, 64
COLUMN, ROW = 2000, 1300
HALF = 20037508.342789244
LAYER = """(SELECT ST_AsMVT(t, '{layer}', 4096, 'geom') FROM (SELECT ST_AsMVTGeom(geom, ST_TileEnvelope({zoom}, {column}, {row}), 4096, 64) AS geom,
 {tags} FROM city WHERE layer = '{layer}' AND geom && ST_TileEnvelope({zoom}, {column}, {row}, margin => 64.0 / 4096)) AS t)"""
TAGS = {"building": "class, height, name", "poi": "class, name", "transportation": "class, lanes, name"}


def metres(point):
    return f"{(point[0] / 2**31 - 1) * HALF:.4f} {(1 - point[1] / 2**31) * HALF:.4f}"


def well_known(geometry):
    """The text of a geometry, as PostGIS reads it."""
    if "points" in geometry:
        return "POINT(" + metres(geometry["points"][0]) + ")"
    if "lines" in geometry:
        return "LINESTRING(" + ",".join(map(metres, geometry["lines"][0])) + ")"
    ring = geometry["polygons"][0][0]
    return "POLYGON((" + ",".join(map(metres, ring + ring[:1])) + "))"


def varint(data, at):
    number = shift = 0
    while True:
        number |= (data[at] & 127) << shift
        shift, at = shift + 7, at + 1
        if data[at - 1] < 128:
            return number, at


def fields(data):
    """The fields of a message with their numbers: integers, or bytes."""
    at = 0
    while at < len(data):
        key, at = varint(data, at)
        value, at = varint(data, at)
        if key & 7 == 2:
            value, at = data[at:at + value], at + value
        yield key >> 3, value


def counted(tile):
    """How many features each layer of a tile has."""
    layers = [list(fields(layer)) for number, layer in fields(tile) if number == 3]
    return {dict(layer)[1].decode(): sum(number == 2 for number, _ in layer) for layer in layers}


class PostGis:
    def __init__(self, folder):
        self.programs = max(glob.glob("/usr/lib/postgresql/*/bin"))
        self.folder = folder
        shutil.chown(folder, "postgres")
        self.run("initdb", "-D", f"{folder}/data", "-A", "trust")
        options = f"-k {folder} -c listen_addresses= -c jit=off"
        self.run("pg_ctl", "-D", f"{folder}/data", "-o", options, "-l", f"{folder}/log", "-w", "start", before=["taskset", "-c", "1"])

    def run(self, program, *words, before=(), **more):
        words = ["runuser", "-u", "postgres", "--", *before, f"{self.programs}/{program}", *words]
        return subprocess.run(words, check=True, stdout=subprocess.PIPE, text=True, **more).stdout

    def sql(self, text):
        return self.run("psql", "-h", self.folder, "-d", "postgres", "-q", "-t", "-A", "-v", "ON_ERROR_STOP=1", input=text)

    def put(self, features):
        none = "\\N"
        rows = ["\t".join([body["layer"]] + [str(body["tags"].get(key, none)) for key in ("class", "height", "lanes", "name")]
            + ["SRID=3857;" + well_known(body["geometry"])]) for _, body in features]
        self.sql("CREATE EXTENSION postgis;\nCREATE TABLE city (layer text, class text, height int, lanes int, name text, geom geometry(Geometry, 3857));\n"
            "COPY city FROM STDIN;\n" + "\n".join(rows) + "\n\\.\nCREATE INDEX city_geom ON city USING gist (geom);\n"
            "CLUSTER city USING city_geom;\nANALYZE city;\n")

    def batch(self):
        """The statement of a batch, each time with points at other places."""
        self.sql("CREATE TABLE points (id bigint PRIMARY KEY, name text, people int, geom geometry(Point, 3857));\n"
            "CREATE INDEX points_geom ON points USING gist (geom);\n")
        rows = [f"({at}, 'town number {at}', {at * 17}, ST_SetSRID(ST_MakePoint(:turn + {at * 7919 % 1000003}, 3 * :turn), 3857))" for at in range(BATCH)]
        return ("\\set turn random(1, 1000000)\nINSERT INTO points VALUES " + ", ".join(rows)
            + " ON CONFLICT (id) DO UPDATE SET name = EXCLUDED.name, people = EXCLUDED.people, geom = EXCLUDED.geom;\n")

    def time(self, query):
        """The median of the microseconds of a query, asked one time after the other."""
        path = f"{self.folder}/query.sql"
        with open(path, "w", encoding="utf-8") as file:
            file.write(query)
        for old in glob.glob(f"{self.folder}/times*"):
            os.remove(old)
        self.run("pgbench", "-h", self.folder, "-n", "-M", "prepared", "-f", path, "-t", str(MANY), "-l", f"--log-prefix={self.folder}/times", "postgres",
            before=["taskset", "-c", "2"], stderr=subprocess.DEVNULL)
        with open(glob.glob(f"{self.folder}/times*")[0], encoding="utf-8") as file:
            return statistics.median(int(line.split()[2]) for line in file)

    def end(self):
        self.run("pg_ctl", "-D", f"{self.folder}/data", "-m", "immediate", "stop")


class Vtserve:
    def __init__(self, program, folder, features):
        disk = os.path.join(folder, "disk")
        subprocess.run([program, "format", disk, "--sectors", "262144"], check=True, stdout=subprocess.DEVNULL)
        with socket.socket() as probe:
            probe.bind(("127.0.0.1", 0))
            port = probe.getsockname()[1]
        words = ["taskset", "-c", "1", program, "serve", disk, "--port", str(port), "--connections", "1000000"]
        self.child = subprocess.Popen(words, stdout=subprocess.PIPE, stderr=subprocess.DEVNULL)
        self.child.stdout.readline()
        self.port = port
        link = http.client.HTTPConnection("127.0.0.1", port)
        for batch in edits.batches([edits.put(number, body) for number, body in features]):
            link.request("POST", "/edits", edits.FRAME % b",".join(edits.json_of(change) for change in batch))
            reply = link.getresponse()
            if reply.status != 200:
                sys.exit(f"POST /edits: {reply.status} {reply.read()!r}")
            reply.read()
        link.close()
        self.client, self.listed, self.again = os.path.join(folder, "client"), os.path.join(folder, "list"), features[0]
        subprocess.run(["g++", "-O2", "-std=c++17", "-o", self.client, os.path.join(HERE, "..", "serve", "client.cpp")], check=True)

    def batch_time(self, first):
        """The median of the microseconds of a batch that puts points, each time at other places, from this turn on."""
        peer, times = batches.Peer(self.port), []
        for turn in range(first, first + MANY):
            changes = [edits.put(BATCH * 1000 + at, point(at, turn)) for at in range(BATCH)]
            body = edits.FRAME % b",".join(map(edits.json_of, changes))
            times.append(peer.ask(batches.request(b"POST", b"/edits", body)))
        peer.socket.close()
        return 1e6 * statistics.median(times)

    def bytes_of(self, path):
        with urllib.request.urlopen(f"http://127.0.0.1:{self.port}{path}") as reply:
            return reply.read()

    def time(self, path):
        """The median of the microseconds of a tile that was edited before each time."""
        number, body = self.again
        with open(self.listed, "w", encoding="utf-8") as file:
            file.write(f"PUT /features/{number} {json.dumps(body)}\nGET {path}\n" * MANY)
        words = ["taskset", "-c", "2", self.client, "list", "1", "50", str(self.port), self.listed, str(self.port), ""]
        return int(subprocess.run(words, check=True, stdout=subprocess.PIPE, text=True).stdout.split()[0]) / 1000


def point(at, turn):
    """A point of a batch."""
    place = [at * 7919 * 64 % 2**32, turn * 104729 * 64 % 2**32]
    return {"layer": "towns", "minzoom": 3, "maxzoom": 3, "geometry": {"points": [place]}, "tags": {"name": f"town number {at}", "people": at * 17}}


def told(values):
    return f"{statistics.median(values):.0f} us ({min(values):.0f} to {max(values):.0f})"


def main(program):
    features = [(number, city_features.city_feature(number - 1)) for number in range(1, FEATURES + 1)]
    folder = tempfile.mkdtemp()
    os.sched_setaffinity(0, {2})
    server = Vtserve(program, folder, features)
    peer = PostGis(tempfile.mkdtemp())
    try:
        peer.put(features)
        place = {"zoom": ZOOM, "column": COLUMN, "row": ROW}
        query = "SELECT " + " || ".join(LAYER.format(layer=layer, tags=tags, **place).replace("\n", "") for layer, tags in TAGS.items()) + ";\n"
        path = f"/map/{ZOOM}/{COLUMN}/{ROW}.mvt"
        mine, other = counted(server.bytes_of(path)), counted(bytes.fromhex(peer.sql(query).strip()[2:]))
        if mine != other:
            sys.exit(f"{mine} and {other}")
        pairs = [(server.time(path), peer.time(query)) for _ in range(ROUNDS)]
        ratios = [second / first for first, second in pairs]
        print(f"a tile of a city at zoom {ZOOM}, {sum(mine.values())} features, cut again after an edit in it: {told([pair[0] for pair in pairs])}; "
            f"PostGIS {told([pair[1] for pair in pairs])}; ratio {statistics.median(ratios):.1f} ({min(ratios):.1f} to "
            f"{max(ratios):.1f})")
        statement = peer.batch()
        pairs = [(server.batch_time(MANY * at), peer.time(statement)) for at in range(ROUNDS)]
        ratios = [second / first for first, second in pairs]
        print(f"a batch of {BATCH} points: {told([pair[0] for pair in pairs])}; PostGIS {told([pair[1] for pair in pairs])}; "
            f"ratio {statistics.median(ratios):.1f} ({min(ratios):.1f} to {max(ratios):.1f})")
    finally:
        peer.end()
        server.child.kill()
        shutil.rmtree(folder)
        shutil.rmtree(peer.folder, ignore_errors=True)


main(*sys.argv[1:])
