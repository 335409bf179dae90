#!/usr/bin/env python3
"""How long replies of `vtserve serve` take beside those of nginx with the same bytes as files: hot tiles, also with a browser's head and
beside a bare server in C++ (peer.cpp), published tiles in turn and in random order, tiles on a viewer's walk, the archive whole and in
ranges, connections of one request; durable edits of 1, 3 and 39 sectors beside a raw write and sync of as many; `export` beside `cp` and
`sync`; and what a tile that is kept costs the processor as the map grows.

    python3 bench/speed/serve/run.py [PROGRAM [FOLDER [PART..]]]    PROGRAM is crates/vtserve/out/vtserve, which `rt run` leaves there

Each server has one connection, which is kept, and all share one processor; the client (client.cpp, g++) asks two of them by turns from
another one, in rounds. A figure is the median of the rounds' medians, with the least and the greatest; the ratio is that of the rounds'
ratios, the peer's time divided by vtserve's, so above 1 vtserve is faster. Disks and files lie in a scratch folder in FOLDER, or in the
system's. A PART is one of tiles, edits, turn, city, walk, growth and archive; without any, all run. Needs nginx (Debian: nginx-light).
"""
import http.client
import json
import os
import random
import shutil
import socket
import statistics
import subprocess
import sys
import tempfile
import time

HERE = os.path.dirname(os.path.abspath(__file__))
sys.path[:0] = [os.path.join(HERE, ".."), os.path.join(HERE, "..", "..", "..")]

import city_features  # noqa: E402
from browser_head import browser_fields  # noqa: E402
from vtmap.client import edits  # noqa: E402

PROGRAM = os.path.abspath(sys.argv[1] if len(sys.argv) > 1 else os.path.join(HERE, "..", "..", "..", "crates", "vtserve", "out", "vtserve"))
ROUNDS = 9
SERVERS, CLIENT = "1", "2"
# Zoom and column of each tile, with how many features it shows.
TILES = [(8, 10, 18), (8, 20, 520), (8, 30, 6200)]
# A viewer's walk over a city: steps to the east, west, south and north by one tile, and in (i) and out (o) by one zoom.
WALK = "eeseeswwinneessooiissweeneoowwnniieesswwoossenniwwssoeenn" * 2
VIEW = (4, 3)
KEPT = 256
CELL_BITS = (27, 22, 17)
# Durable edits: the sectors of the journal that one takes, the points of its line, and how many are put in a round. A sector has 496 bytes
# of the edit's text, a point 8.
EDITS = [(1, 2, 300), (3, 150, 200), (39, 2400, 60)]
JOURNAL_SECTORS = 65536
# The zooms whose tiles of the city are asked for in random order: 1,615 tiles.
CITY_ZOOMS = range(12, 16)
CONFIGURATION = """
worker_processes 1;
pid nginx.pid;
error_log error.log;
events { worker_connections 64; }
http {
    access_log off;
    sendfile on;
    tcp_nopush on;
    keepalive_timeout 600;
    keepalive_requests 1000000000;
    client_body_temp_path body;
    proxy_temp_path proxy;
    fastcgi_temp_path fastcgi;
    scgi_temp_path scgi;
    uwsgi_temp_path uwsgi;
    server { listen 127.0.0.1:PORT; root FOLDER/files; }
    server { listen 127.0.0.1:PLAIN; root FOLDER/files; tcp_nopush off; }
}
"""


def free_port():
    with socket.socket() as probe:
        probe.bind(("127.0.0.1", 0))
        return probe.getsockname()[1]


def feature(layer, zoom, points, tags):
    return json.dumps({"layer": layer, "minzoom": zoom, "maxzoom": zoom, "geometry": {"points": points}, "tags": tags})


def place(zoom, column, row, step):
    """A point inside of a tile, another for each step."""
    side = 2 ** (32 - zoom)
    return [column * side + side // 8 + (step * 7919) % (side // 2), row * side + side // 8 + (step * 104729) % (side // 2)]


class Vtserve:
    def __init__(self, folder, name, sectors):
        disk = os.path.join(folder, name)
        subprocess.run([PROGRAM, "format", disk, "--sectors", str(sectors)], check=True, stdout=subprocess.DEVNULL)
        self.disk = disk
        self.begin()

    def begin(self):
        """Opens the disk and serves it."""
        self.port = free_port()
        words = ["taskset", "-c", SERVERS, PROGRAM, "serve", self.disk, "--port", str(self.port), "--connections", "1000000"]
        self.child = subprocess.Popen(words, stdout=subprocess.PIPE, stderr=subprocess.DEVNULL)
        self.child.stdout.readline()

    def put(self, features):
        """Puts these features, on one connection."""
        link = http.client.HTTPConnection("127.0.0.1", self.port)
        for number, body in features:
            link.request("PUT", f"/features/{number}", body)
            reply = link.getresponse()
            said = reply.read()
            if reply.status != 200:
                sys.exit(f"PUT: {reply.status} {said!r}")
        link.close()

    def put_batches(self, features):
        """Puts these features, in batches."""
        changes = [edits.put(number, body) for number, body in features]
        link = http.client.HTTPConnection("127.0.0.1", self.port)
        for batch in edits.batches(changes):
            link.request("POST", "/edits", edits.FRAME % b",".join(edits.json_of(change) for change in batch))
            reply = link.getresponse()
            said = reply.read()
            if reply.status != 200:
                sys.exit(f"POST /edits: {reply.status} {said!r}")
        link.close()

    def bytes_of(self, path, method="GET"):
        link = http.client.HTTPConnection("127.0.0.1", self.port)
        link.request(method, path)
        reply = link.getresponse()
        content = reply.read()
        link.close()
        if reply.status != 200:
            sys.exit(f"{path}: {reply.status} {content!r}")
        return content

    def processor(self):
        """The seconds of processor time that the server has taken so far."""
        with open(f"/proc/{self.child.pid}/stat", encoding="utf-8") as file:
            words = file.read().rpartition(")")[2].split()
        return (int(words[11]) + int(words[12])) / os.sysconf("SC_CLK_TCK")

    def end(self):
        self.child.kill()
        self.child.wait()


class Bare:
    """The bare server in C++, of the same files as nginx."""

    def __init__(self, folder, files):
        program = os.path.join(folder, "peer")
        subprocess.run(["g++", "-O2", "-std=c++17", "-o", program, os.path.join(HERE, "peer.cpp")], check=True)
        self.port = free_port()
        self.child = subprocess.Popen(["taskset", "-c", SERVERS, program, str(self.port), files])
        await_port(self.port)

    def end(self):
        self.child.kill()
        self.child.wait()


def await_port(port):
    for _ in range(100):
        with socket.socket() as probe:
            if probe.connect_ex(("127.0.0.1", port)) == 0:
                return
        time.sleep(0.05)
    sys.exit(f"nothing listens on port {port}")


class Nginx:
    def __init__(self, folder):
        self.files = os.path.join(folder, "files")
        os.mkdir(self.files)
        self.port, self.plain = free_port(), free_port()
        configuration = os.path.join(folder, "nginx.conf")
        with open(configuration, "w", encoding="utf-8") as file:
            file.write(CONFIGURATION.replace("PORT", str(self.port)).replace("PLAIN", str(self.plain)).replace("FOLDER", folder))
        words = ["taskset", "-c", SERVERS, "nginx", "-p", folder, "-c", configuration, "-g", "daemon off;"]
        self.child = subprocess.Popen(words, stderr=subprocess.DEVNULL)
        await_port(self.port)

    def keep(self, name, content):
        with open(os.path.join(self.files, name), "wb") as file:
            file.write(content)

    def keep_all(self, folder, name, server, paths):
        """Keeps what a server answers to these, below a folder of this name, and gives the file with the list of them."""
        link = http.client.HTTPConnection("127.0.0.1", server.port)
        for path in paths:
            link.request("GET", path)
            reply = link.getresponse()
            content = reply.read()
            if reply.status != 200:
                sys.exit(f"{path}: {reply.status}")
            os.makedirs(os.path.dirname(self.files + "/" + name + path), exist_ok=True)
            self.keep(name + path, content)
        link.close()
        listed = os.path.join(folder, name + ".list")
        with open(listed, "w", encoding="utf-8") as file:
            file.write("".join(f"GET {path}\n" for path in paths))
        return listed

    def end(self):
        self.child.terminate()
        self.child.wait()


def told(values):
    """The median in microseconds, with the least and the greatest."""
    return f"{statistics.median(values) / 1000:.1f} us ({min(values) / 1000:.1f} to {max(values) / 1000:.1f})"


def show(name, client, words, peer):
    """Runs the client, and prints what its rounds told."""
    command = ["taskset", "-c", CLIENT, client, *[str(word) for word in words]]
    printed = subprocess.run(command, check=True, stdout=subprocess.PIPE, text=True).stdout
    tell(name, [[int(number) for number in line.split()] for line in printed.splitlines()], peer)


def tell(name, rounds, peer):
    """Prints what rounds of pairs of nanoseconds told."""
    ratios = [second / first for first, second in rounds]
    ratio = f"{statistics.median(ratios):.2f} ({min(ratios):.2f} to {max(ratios):.2f})"
    first, second = [told([pair[at] for pair in rounds]) for at in (0, 1)]
    print(f"{name}: {first}; {peer} {second}; ratio {ratio}", flush=True)


def tiles(folder, client, nginx):
    """Hot tiles of three sizes, one of them with a browser's head and by a connection for each, and beside the bare server."""
    server, bare = Vtserve(folder, "tiles", 131072), Bare(folder, nginx.files)
    number = 0
    for zoom, column, count in TILES:
        rows = []
        for step in range(count):
            number += 1
            rows.append((number, feature("towns", zoom, [place(zoom, column, column, step)], {"name": f"town number {number}", "people": number * 17})))
        server.put(rows)
    fields = os.path.join(folder, "fields")
    with open(fields, "w", encoding="utf-8", newline="") as file:
        file.write(browser_fields(server.port))
    for at, (zoom, column, _) in enumerate(TILES):
        path = f"/map/{zoom}/{column}/{column}.mvt"
        content = server.bytes_of(path)
        name = f"{column}.mvt"
        nginx.keep(name, content)
        kind, both = f"a hot tile of {len(content)} bytes", [server.port, path, nginx.port, "/" + name]
        show(kind, client, ["get", ROUNDS, 300, *both], "nginx")
        show(kind, client, ["get", ROUNDS, 300, server.port, path, nginx.plain, "/" + name], "nginx without tcp_nopush")
        show(kind, client, ["get", ROUNDS, 300, server.port, path, bare.port, "/" + name], "a bare server in C++")
        if at == 0:
            head = len(f"GET {path} HTTP/1.1\r\n\r\n") + os.path.getsize(fields)
            whole, alone = f"{kind}, asked for with a browser's head of {head} bytes", f"{kind}, a connection of one request"
            to_bare = [server.port, path, bare.port, "/" + name]
            show(whole, client, ["get", ROUNDS, 300, *both, fields], "nginx")
            show(whole, client, ["get", ROUNDS, 300, *to_bare, fields], "a bare server in C++")
            show(alone, client, ["connect", ROUNDS, 300, *both], "nginx")
            show(alone, client, ["connect", ROUNDS, 300, *to_bare], "a bare server in C++")
    bare.end()
    server.end()


def line_of(points):
    """A line of so many points in some tiles of zoom 14."""
    line = [[2147483648 + at * 199, 2147483648 + at * at * 61 % 300007] for at in range(points)]
    return json.dumps({"layer": "roads", "minzoom": 14, "maxzoom": 14, "geometry": {"lines": [line]}, "tags": {}}, separators=(",", ":"))


def filled_sectors(disk):
    """How many sectors of a disk file aren't zeros."""
    with open(disk, "rb") as file:
        return sum(any(sector) for sector in iter(lambda: file.read(512), b""))


def durable_edits(folder, client, nginx):
    """Edits of some sectors, on a disk as `format` leaves it and on one whose file has no holes, beside raw writes of as many and a sync."""
    body, plain, whole = os.path.join(folder, "body.json"), os.path.join(folder, "plain"), os.path.join(folder, "whole")
    for sectors, points, count in EDITS:
        with open(body, "w", encoding="utf-8") as file:
            file.write(feature("towns", 3, [[5, 5]], {"name": "a town that moves"}) if sectors == 1 else line_of(points))
        size = os.path.getsize(body)
        for is_whole in (False, True):
            with open(plain, "wb") as file:
                file.write(bytes(512 * sectors * ROUNDS * count))
                file.flush()
                os.fsync(file.fileno())
            server = Vtserve(folder, f"edits{sectors}{is_whole}", 4 * JOURNAL_SECTORS)
            if is_whole:
                server.end()
                subprocess.run(["cp", "--sparse=never", server.disk, whole], check=True)
                os.replace(whole, server.disk)
                subprocess.run(["sync", server.disk], check=True)
                server.begin()
            else:
                before = filled_sectors(server.disk)
                server.put([(1000000, open(body, "rb").read())])
                if filled_sectors(server.disk) != before + sectors:
                    sys.exit(f"an edit takes {filled_sectors(server.disk) - before} sectors, and not {sectors}")
            what = f"a durable edit of {sectors} sector{'s' * (sectors > 1)}, a body of {size} bytes"
            what += ", on a disk file without holes" if is_whole else ""
            peer = f"a write of {sectors} and a sync"
            show(what, client, ["put", ROUNDS, count, server.port, "/features/1000000", body, plain, sectors], peer)
            server.end()
            os.remove(server.disk)
    os.remove(plain)


def seconds_of(*commands):
    """How long these commands take, one after the other, each in a process of its own."""
    begun = time.perf_counter_ns()
    for words in commands:
        child = os.posix_spawnp(words[0], words, os.environ, file_actions=[(os.POSIX_SPAWN_OPEN, 1, os.devnull, os.O_WRONLY, 0)])
        if os.waitpid(child, 0)[1] != 0:
            sys.exit(f"{words} failed")
    return time.perf_counter_ns() - begun


def city(folder, client, nginx):
    """The published tiles of a city in random order: far more than are kept; and the export of its archive."""
    server = Vtserve(folder, "city", 262144)
    server.put_batches([(number, city_features.city_feature(number)) for number in range(city_features.FEATURES)])
    server.bytes_of("/publish", "POST")
    paths = [f"/map/{zoom}/{column}/{row}.mvt" for zoom in CITY_ZOOMS for column, row in city_features.tiles_at(zoom)]
    random.Random(38).shuffle(paths)
    listed = nginx.keep_all(folder, "city", server, paths)
    show(f"{len(paths):,} published tiles of a city in random order", client, ["list", ROUNDS, 50, server.port, listed, nginx.port, "/city"], "nginx")
    server.end()
    archive, copied = os.path.join(folder, "city.pmtiles"), os.path.join(folder, "copied.pmtiles")
    seconds_of([PROGRAM, "export", server.disk, archive])
    rounds = []
    for _ in range(ROUNDS):
        exported = os.path.join(folder, "exported.pmtiles")
        rounds.append((seconds_of([PROGRAM, "export", server.disk, exported]), seconds_of(["cp", archive, copied], ["sync", copied])))
        os.remove(exported)
        os.remove(copied)
    tell(f"export of the city's archive of {os.path.getsize(archive)} bytes", rounds, "cp and sync of it")
    os.remove(server.disk)


def in_turn(folder, client, nginx):
    """Many tiles of a published map, one after the other: more than are kept."""
    server = Vtserve(folder, "turn", 131072)
    zoom, side = 13, 71
    rows = []
    for number in range(1, 4 * side * side + 1):
        column, row = 1000 + number // 4 % side, 3000 + number // 4 // side % side
        rows.append((number, feature("towns", zoom, [place(zoom, column, row, number)], {"name": f"town number {number}", "people": number * 17})))
    server.put(rows)
    server.bytes_of("/publish", "POST")
    paths = [f"/map/{zoom}/{1000 + at % side}/{3000 + at // side}.mvt" for at in range(5000)]
    listed = nginx.keep_all(folder, "turn", server, paths)
    show("5,000 published tiles in turn", client, ["list", 3, 50, server.port, listed, nginx.port, "/turn"], "nginx")
    server.end()
    server.begin()
    show("the same right after opening", client, ["list", 1, 50, server.port, listed, nginx.port, "/turn"], "nginx")
    server.end()


def walked():
    """The tiles that a viewer's walk asks for: at each step all that the view shows."""
    zoom, column, row, tiles = 12, 2000, 1500, []
    for step in WALK:
        column += {"e": 1, "w": -1}.get(step, 0)
        row += {"s": 1, "n": -1}.get(step, 0)
        if step == "i" and zoom < 14:
            zoom, column, row = zoom + 1, 2 * column + 2, 2 * row + 1
        if step == "o" and zoom > 11:
            zoom, column, row = zoom - 1, column // 2, row // 2
        tiles += [(zoom, column + across, row + down) for down in range(VIEW[1]) for across in range(VIEW[0])]
    return tiles


def hits(asked):
    """How many of these tiles a server that keeps 256 of them, and the newest edit of each cell of three sizes, needn't cut: a model."""
    kept, cells, last, found = {}, {}, 0, 0
    for what in asked:
        if what[0] == "edit":
            last += 1
            cells.update({(bits, *((at >> bits) % 32 for at in point)): last for point in what[1] for bits in CELL_BITS})
            continue
        zoom, column, row = what
        side, margin = 2 ** (32 - zoom), 2 ** (32 - zoom) // 64
        newest = last
        for bits in CELL_BITS:
            across, down = ([max(0, at * side - margin) >> bits, min(2 ** 32 - 1, (at + 1) * side + margin) >> bits] for at in (column, row))
            if max(across[1] - across[0], down[1] - down[0]) < 32:
                newest = min(newest, max(cells.get((bits, x % 32, y % 32), 0) for x in range(across[0], across[1] + 1) for y in range(down[0], down[1] + 1)))
        number = kept.pop(what, -1)
        found += number >= newest
        kept[what] = number if number >= newest else last
        if len(kept) > KEPT:
            del kept[next(iter(kept))]
    return found


def walk(folder, client, nginx):
    """A viewer's walk, while edits come in between: far from the city or in it after each view, or in it after each tenth."""
    server = Vtserve(folder, "walk", 131072)
    tiles = walked()
    city = sorted({(column >> zoom - 11, row >> zoom - 11) for zoom, column, row in tiles})
    rows = []
    for number in range(1, 20001):
        column, row = city[number % len(city)]
        rows.append((number, json.dumps({"layer": "towns", "minzoom": 11, "maxzoom": 14, "geometry": {"points": [spread(column, row, number)]},
            "tags": {"name": f"town number {number}", "people": number * 17}})))
    server.put(rows)
    paths = [f"/map/{zoom}/{column}/{row}.mvt" for zoom, column, row in tiles]
    nginx.keep_all(folder, "walk", server, sorted(set(paths)))
    far, near = [1, 1], spread(*city[0], 7)
    edits = (("far from it after each view", far, 12), ("in it after each tenth view", near, 120), ("in it after each view", near, 12))
    for is_published, (name, point, every) in [(False, edit) for edit in edits] + [(True, edit) for edit in edits]:
        server.put([(30000, feature("towns", 3, [point], {}))])
        if is_published:
            server.bytes_of("/publish", "POST")
        lines, asked = [], []
        for at, path in enumerate(paths):
            lines.append("GET " + path)
            asked.append(tiles[at])
            if at % every == every - 1:
                lines.append("PUT /features/30000 " + feature("towns", 3, [point], {"at": at}))
                asked.append(("edit", [point]))
        listed = os.path.join(folder, "walk.list")
        with open(listed, "w", encoding="utf-8") as file:
            file.write("\n".join(lines) + "\n")
        share = "published before" if is_published else f"{hits(asked * 3) / (3 * len(paths)):.0%} kept"
        for percent in (50, 99):
            show(f"a walk over {len(set(paths))} tiles, {len(paths)} asked for, an edit {name}, {share}, {percent} of 100 by", client,
                ["list", 3, percent, server.port, listed, nginx.port, "/walk"], "nginx")
    server.end()


def spread(column, row, step):
    """A point anywhere in a tile of zoom 11."""
    side = 2 ** 21
    return [column * side + (step * 7919 * 64) % side, row * side + (step * 104729 * 64) % side]


def growth(folder, client, nginx):
    """A tile that is kept, of a map of 1,000 features and of one of 100,000."""
    servers = []
    for count in (1000, 100000):
        server = Vtserve(folder, f"growth{count}", 1048576)
        rows = []
        for step in range(count):
            zoom, column = (8, 10) if step < 18 else (12, 700 + step % 1000)
            rows.append((step + 1, feature("towns", zoom, [place(zoom, column, column, step)], {"people": step * 17})))
        server.put(rows)
        servers.append(server)
    small, large = servers
    path = "/map/8/10/10.mvt"
    before = [server.processor() for server in servers]
    show("a tile that is kept, of 100,000 features", client, ["get", ROUNDS, 4000, large.port, path, small.port, path], "of 1,000")
    spent = [server.processor() - was for server, was in zip(servers, before)]
    print(f"processor time of the same: {spent[1]:.2f} s and {spent[0]:.2f} s, ratio {spent[0] / spent[1]:.2f}", flush=True)
    small.end()
    large.end()


def archive(folder, client, nginx):
    """The archive, whole and in parts."""
    server = Vtserve(folder, "archive", 393216)
    text = "abcdefghij" * 100
    rows = []
    for number in range(1, 2001):
        tags = {f"k{key}": f"{number} {key} {text}" for key in range(10)}
        rows.append((number, feature("texts", 12, [place(12, number % 64, number // 64, 1)], tags)))
    server.put(rows)
    server.bytes_of("/publish", "POST")
    content = server.bytes_of("/map.pmtiles")
    nginx.keep("map.pmtiles", content)
    show(f"the archive of {len(content)} bytes, whole", client, ["get", ROUNDS, 5, server.port, "/map.pmtiles", nginx.port, "/map.pmtiles"], "nginx")
    # With tcp_nopush nginx waits for the client's acknowledgement if a reply is somewhat shorter or longer than a segment of 64 KiB.
    for port, peer in [(nginx.port, "nginx"), (nginx.plain, "nginx without tcp_nopush")]:
        for size in (4096, 65536):
            show(f"the same in ranges of {size:,} bytes", client, ["range", ROUNDS, size, server.port, "/map.pmtiles", port, "/map.pmtiles"], peer)
    server.end()


PARTS = {
    "tiles": tiles,
    "edits": durable_edits,
    "turn": in_turn,
    "city": city,
    "walk": walk,
    "growth": growth,
    "archive": archive,
}


def main():
    wanted = sys.argv[3:] or list(PARTS)
    if not set(wanted) <= set(PARTS):
        sys.exit(f"parts are {', '.join(PARTS)}")
    folder = tempfile.mkdtemp(dir=sys.argv[2] if len(sys.argv) > 2 else None)
    os.chmod(folder, 0o755)
    client = os.path.join(folder, "client")
    subprocess.run(["g++", "-O2", "-std=c++17", "-o", client, os.path.join(HERE, "client.cpp")], check=True)
    nginx = Nginx(folder)
    try:
        for part in wanted:
            PARTS[part](folder, client, nginx)
    finally:
        nginx.end()
        shutil.rmtree(folder)


main()
