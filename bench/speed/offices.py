#!/usr/bin/env python3
"""A day of a country's offices, simulated: what readers and editors wait where one process serves all, where replicas make the tiles, and where each
region has a process.

    python3 bench/speed/offices.py [--seconds N] [--offices N] [--features N] [--tiles N ..] [--edits N]

A simulation by discrete events. What it assumes: a process does one thing after the other, each for the time of COSTS, which were measured; an edit
waits for a sync, lognormal around its mean; views of twelve tiles side by side come at random, half of them of zoom 14, around the offices, of which
some are far busier than others; edits come at random around them too; nginx keeps a tile for ten seconds, and asks once for all who wait for it; a
process keeps 256 tiles, answers 304 where no edit has come near, reads from the archive what none has touched since the publication, and cuts the rest;
where edits were it knows by the cells of `tile_cache`; replicas make an edit a tenth of a second later at most; a publication takes slices between
rounds, of the length of the last round, from 1 to 4 ms; metadata are made by steps of 2 ms. It prints a row for each arrangement. bench/README.md has the table.
"""
import argparse
import bisect
import collections
import heapq
import itertools
import math
import random

# Seconds of a processor, measured on 2026-11-30: a tile from the cache; from the archive, and for each feature; one that is cut, and for each feature;
# an edit; metadata for each feature; a look at the feed; a publication for each feature.
COSTS = {"hot": 20e-6, "published": 60e-6, "published_feature": 30e-9, "cut": 40e-6, "cut_feature": 1.1e-6, "edit": 100e-6,
         "metadata_feature": 150e-9, "feed": 30e-6, "publish_feature": 10e-6}
# Bits of a cell's coordinate, and cells in a row, of the levels that know where edits were.
LEVELS = ((27, 32), (22, 32), (17, 32), (17, 256))
# The longest step of what takes long.
STEP = 0.002
TILES_KEPT, NGINX_SECONDS, FOLLOWS_IN, SIDE, DISTRICT = 256, 10, 0.1, 600, 15
ZOOMS = [10] * 10 + [11] * 10 + [12] * 15 + [13] * 20 + [14] * 45
LEAST_ZOOM, LATITUDE = 10, 50
KILOMETRE = 2 ** 32 / (40075 * math.cos(math.radians(LATITUDE)))
CORNER = int(190 / 360 * 2 ** 32), int(0.339 * 2 ** 32)


class Cells:
    """Where edits were: the number of the newest edit of each cell, on each level."""

    def __init__(self):
        self.levels, self.newest_of_all = [[0] * (wide * wide) for _, wide in LEVELS], 0

    def mark(self, x, y, number):
        """An edit at a place."""
        self.newest_of_all = number
        for cells, (bits, wide) in zip(self.levels, LEVELS):
            cells[(x >> bits) % wide * wide + (y >> bits) % wide] = number

    def newest(self, zoom, x, y):
        """The newest edit that may have touched a tile: what the level says that knows best."""
        side = 1 << 32 - zoom
        margin, best = side >> 6, self.newest_of_all
        for cells, (bits, wide) in zip(self.levels, LEVELS):
            columns, rows = (range(max(0, at * side - margin) >> bits, (min(2 ** 32, (at + 1) * side + margin) - 1 >> bits) + 1) for at in (x, y))
            if len(columns) < wide and len(rows) < wide:
                best = min(best, max(cells[column % wide * wide + row % wide] for column, row in itertools.product(columns, rows)))
        return best


class Clock:
    """Events, in the order of their times."""

    def __init__(self):
        self.events, self.count = [], itertools.count()

    def at(self, time, event):
        """Something happens then."""
        heapq.heappush(self.events, (time, next(self.count), event))

    def run(self, end):
        """All that happens before the end."""
        while self.events and self.events[0][0] < end:
            time, _, event = heapq.heappop(self.events)
            event(time)


class Process:
    """A vtserve: it does one thing after the other, and between two rounds a slice of a publication."""

    def __init__(self, country, features, sync):
        self.country, self.features, self.sync = country, features, sync
        self.waiting, self.is_busy, self.used = collections.deque(), False, 0.0
        self.cells, self.edits, self.published = Cells(), 1, 0
        self.kept = collections.OrderedDict()
        self.in_round, self.round, self.left = 0, 0.0, 0.0
        self.publishing, self.publications = (0, 0.0), []

    def ask(self, time, cost, then=None):
        """Something is to be done: `cost` gives its seconds once it is its turn."""
        self.waiting.append((time, cost, then))
        if not self.is_busy:
            self.go_on(time)

    def go_on(self, time):
        """What is done next."""
        if not self.in_round:
            if self.left > 0 and (self.round > 0 or not self.waiting):
                slice_ = min(max(0.001, min(0.004, self.round)), self.left)
                self.left, self.round = self.left - slice_, 0.0
                if self.left <= 0:
                    self.published = self.publishing[0]
                    self.publications.append(time + slice_ - self.publishing[1])
                self.takes(time, slice_, self.go_on)
                return
            self.in_round, self.round = len(self.waiting), 0.0
        if not self.waiting:
            self.is_busy = False
            return
        self.in_round -= 1
        _, cost, then = self.waiting.popleft()
        seconds = cost()
        self.round += seconds

        def over(now):
            if then:
                then(now)
            self.go_on(now)
        self.takes(time, seconds, over)

    def takes(self, time, seconds, then):
        """It is busy for so long."""
        self.used, self.is_busy = self.used + seconds, True
        self.country.clock.at(time + seconds, then)

    def publish(self, time):
        """A publication begins."""
        self.left, self.publishing, self.round = COSTS["publish_feature"] * self.features, (self.edits, time), 0.001
        if not self.is_busy:
            self.go_on(time)

    def edit(self, x, y):
        """The seconds of an edit at a place."""
        self.edits += 1
        self.cells.mark(x, y, self.edits)
        return COSTS["edit"] + (self.country.chance.lognormvariate(math.log(self.sync), 0.5) if self.sync else 0)

    def tile(self, key, tag):
        """The seconds of a reply with a tile; `tag` is what the asker has: a process and an edit."""
        newest, kept = self.cells.newest(*key), self.kept.get(key)
        if tag is not None and tag[0] is self and tag[1] >= newest:
            return COSTS["hot"]
        if kept is not None and kept >= newest:
            self.kept.move_to_end(key)
            return COSTS["hot"]
        features = self.country.features_of(key[0])
        kind = "published" if 0 < self.published >= newest else "cut"
        self.kept[key] = self.edits
        if len(self.kept) > TILES_KEPT:
            self.kept.popitem(last=False)
        return COSTS[kind] + features * COSTS[kind + "_feature"]


class Country:
    """Offices, those who look at their maps and edit them, and what serves them: a process for each of some regions, each with replicas."""

    def __init__(self, words, tiles, replicas, regions):
        self.words, self.clock, self.chance, self.tiles = words, Clock(), random.Random(1), tiles
        features = words.offices * words.features
        self.rows = math.isqrt(regions)
        places = [(self.chance.random() * SIDE, self.chance.random() * SIDE) for _ in range(words.offices)]
        self.places = places
        self.busy = list(itertools.accumulate(1 / math.sqrt(1 + number) for number in range(words.offices)))
        self.servers = [Process(self, features / regions, words.sync) for _ in range(regions)]
        self.replicas = [[Process(self, features / regions, 0) for _ in range(replicas)] for _ in range(regions)]
        self.cached, self.tags, self.asked = {}, {}, {}
        self.tile_waits, self.edit_waits, self.hits = [], [], 0

    def features_of(self, zoom):
        """How many features a tile of a zoom shows, around an office."""
        area = (40075 * math.cos(math.radians(LATITUDE)) / 2 ** zoom) ** 2
        district = DISTRICT ** 2
        return self.words.features * (area / district if area < district else max(1, area / (4 * district))) if zoom >= LEAST_ZOOM else 0

    def place(self):
        """A place that somebody looks at: people look where things are, around an office."""
        x, y = self.places[bisect.bisect(self.busy, self.chance.random() * self.busy[-1])]
        x, y = x + self.chance.gauss(0, 4), y + self.chance.gauss(0, 4)
        column, row = (max(0, min(self.rows - 1, int(at / SIDE * self.rows))) for at in (x, y))
        return CORNER[0] + int(x * KILOMETRE), CORNER[1] + int(y * KILOMETRE), row * self.rows + column

    def view(self, time):
        """Somebody looks: twelve tiles side by side."""
        self.clock.at(time + self.chance.expovariate(self.tiles / 12), self.view)
        x, y, region = self.place()
        zoom = self.chance.choice(ZOOMS)
        for column, row in itertools.product(range(4), range(3)):
            self.ask(time, (zoom, (x >> 32 - zoom) + column, (y >> 32 - zoom) + row), region)

    def ask(self, time, key, region):
        """A tile is asked for, of nginx first."""
        if self.cached.get(key, -1) > time:
            self.hits += 1
            self.tile_waits.append(0.0001)
            return
        if key in self.asked:
            self.asked[key].append(time)
            return
        self.asked[key] = [time]
        process = min(self.replicas[region] or [self.servers[region]], key=lambda each: len(each.waiting))

        def has(now):
            self.cached[key], self.tags[key] = now + NGINX_SECONDS, (process, process.edits)
            self.tile_waits.extend(now - since for since in self.asked.pop(key))
        process.ask(time, lambda: process.tile(key, self.tags.get(key)), has)

    def edit(self, time):
        """Somebody edits."""
        self.clock.at(time + self.chance.expovariate(self.words.edits), self.edit)
        x, y, region = self.place()
        server = self.servers[region]

        def made(now):
            self.edit_waits.append(now - time)
            for replica in self.replicas[region]:
                self.clock.at(now + self.chance.random() * FOLLOWS_IN, lambda then, replica=replica: replica.ask(then, lambda: replica.edit(x, y)))
        server.ask(time, lambda: server.edit(x, y), made)

    def every(self, seconds, process, cost):
        """A process is asked for the same again and again; what takes long is done by steps."""
        def step(time, left):
            rest = left - STEP
            process.ask(time, lambda: min(left, STEP), (lambda now: step(now, rest)) if rest > 0 else None)

        def again(time):
            self.clock.at(time + seconds, again)
            step(time, cost)
        self.clock.at(self.chance.random() * seconds, again)

    def run(self):
        """A row of the table."""
        seconds = self.words.seconds
        self.clock.at(0, self.view)
        self.clock.at(0, self.edit)
        for number, (server, replicas) in enumerate(zip(self.servers, self.replicas)):
            self.every(10, server, COSTS["metadata_feature"] * server.features)
            for _ in range(1 + len(replicas)):
                self.every(FOLLOWS_IN, server, COSTS["feed"])
            self.clock.at(seconds / 4 + number * seconds / 3 / len(self.servers), server.publish)
        self.clock.run(seconds)
        others = [replica for replicas in self.replicas for replica in replicas]
        # The first tenth, in which nothing is cached, isn't counted.
        waits, edits = (values[len(values) // 10:] for values in (self.tile_waits, self.edit_waits))
        publications = [each for server in self.servers for each in server.publications]
        return [f"{self.tiles:,}", f"{len(self.servers)}", f"{len(self.replicas[0])}", f"{self.hits / max(1, len(self.tile_waits)):.0%}",
                f"{max(server.used for server in self.servers) / seconds:.0%}", f"{max((each.used for each in others), default=0) / seconds:.0%}",
                *(f"{rank(values, share) * 1000:.1f}" for values, share in ((waits, 0.5), (waits, 0.99), (edits, 0.5), (edits, 0.99))),
                f"{max(publications):.0f}" if publications else "not over"]


def rank(values, share):
    """The value below which so many of all are."""
    return sorted(values)[int(len(values) * share)] if values else math.nan


def main():
    parser = argparse.ArgumentParser(description="A day of a country's offices, simulated.")
    parser.add_argument("--offices", type=int, default=400)
    parser.add_argument("--features", type=int, default=2500, help="of each office (2,500)")
    parser.add_argument("--tiles", type=int, nargs="+", default=[1000, 4000, 8000], help="tiles a second that are asked for (1,000 4,000 8,000)")
    parser.add_argument("--edits", type=float, default=17, help="edits a second (17)")
    parser.add_argument("--sync", type=float, default=0.001, help="the mean of a sync's seconds (0.001)")
    parser.add_argument("--seconds", type=float, default=240)
    words = parser.parse_args()
    head = ["tiles a second", "processes", "replicas of each", "from nginx", "server busy", "replica busy", "tile p50 ms", "p99", "edit p50 ms", "p99",
            "publication s"]
    print("| " + " | ".join(head) + " |\n|" + "---|" * len(head))
    for tiles in words.tiles:
        for regions, replicas in ((1, 0), (1, 3), (16, 0)):
            print("| " + " | ".join(Country(words, tiles, replicas, regions).run()) + " |", flush=True)


if __name__ == "__main__":
    main()
