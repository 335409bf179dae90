"""The part `wfs-random` of run.py: four GIS by two gateways, and somebody by HTTP, edit a dozen features at random.
A model says of each save whether it is made, what the map has then, and which features are conflicts. One gateway is
started again now and then, with its file."""
import copy
import json
import os
import random

from .gateways import Gateway, Gis, map_at, point
from .stand import Cases, Server, curl

STEPS, SEED = 160, 29
TAGS = ("a", "b")


def wfs_random(cases: Cases, folder: str) -> None:
    """All of it."""
    folder = os.path.join(folder, "random")
    os.mkdir(folder)
    with Server(folder, "map", sectors=65536) as server:
        world = World(server, folder)
        fault = next(filter(None, (world.step(at) for at in range(STEPS))), None)
        world.end()
        cases.show(f"wfs-random: {STEPS} steps at random are as the model says", fault, None)
        cases.show("wfs-random: of each kind some", [kind for kind, count in world.counts.items() if count < 2], [])
        cases.say(f"{world.counts}")


class Person:
    """A GIS, and what it has of each feature by the model; conflicts that it was told of, and those whose version it
    has loaded since."""

    def __init__(self, gateway):
        self.gis, self.has, self.told, self.seen = Gis(gateway, "p.points"), {}, {}, {}

    def may_save(self, number, now):
        """Whether a save of a feature is no conflict."""
        return self.has[number] == now.get(number) or (number in self.seen and self.seen[number] == now.get(number))

    def load(self, now):
        """Loads anew. Returns what differs from the map."""
        rows = self.gis.anew()
        shown = {number: {tag: row[tag] for tag in TAGS if row.get(tag)} for number, row in rows.items()}
        self.has = copy.deepcopy(now)
        self.seen.update((number, version) for number, version in self.told.items() if now.get(number) == version)
        wanted = {number: feature["tags"] for number, feature in now.items()}
        return None if shown == wanted else ("loaded", shown, wanted)


class World:
    """The map, and who edits it."""

    def __init__(self, server, folder):
        self.url, self.folder, self.state = server.url, folder, os.path.join(folder, "state")
        self.random, self.values, self.counts = (
            random.Random(SEED),
            0,
            dict.fromkeys(("loads", "others", "starts", "conflicts", "saves"), 0),
        )
        for number in range(1, 13):
            self.put(
                number,
                {
                    "layer": "p",
                    "minzoom": 0,
                    "maxzoom": 2,
                    "geometry": {"points": [[number, number]]},
                    "tags": {"a": "0", "b": "0"},
                },
            )
        self.gateways = [Gateway(folder, self.url, "--state", self.state), Gateway(folder, self.url)]
        self.people = [Person(self.gateways[at % 2]) for at in range(4)]
        for person in self.people:
            person.load(map_at(self.url))

    def end(self):
        """Ends the gateways."""
        for gateway in self.gateways:
            gateway.end()

    def put(self, number, feature):
        curl(f"{self.url}/features/{number}", "-X", "PUT", body=json.dumps(feature))

    def value(self):
        """A value that nothing has yet."""
        self.values += 1
        return f"v{self.values}"

    def step(self, at):
        """Does something. Returns what isn't as the model says."""
        now, person, kind = map_at(self.url), self.random.choice(self.people), self.random.random()
        if kind < 0.15:
            self.counts["loads"] += 1
            return person.load(now)
        if kind < 0.35:
            return self.others(now)
        if kind < 0.41:
            return self.start()
        return self.save(at, person, now)

    def others(self, now):
        """Somebody edits by HTTP."""
        self.counts["others"] += 1
        number = self.random.choice(sorted(now))
        if self.random.random() < 0.15:
            curl(f"{self.url}/features/{number}", "-X", "DELETE")
        else:
            self.put(number, {**now[number], "tags": {**now[number]["tags"], self.random.choice(TAGS): self.value()}})

    def start(self):
        """Starts a gateway again."""
        self.counts["starts"] += 1
        port = self.gateways[0].port
        self.gateways[0].end()
        self.gateways[0] = Gateway(self.folder, self.url, "--state", self.state, port=port)

    def save(self, at, person, now):
        """A person saves some changes and deletions, and perhaps a new feature."""
        actions, wanted, conflicts = [], copy.deepcopy(now), []
        numbers = self.random.sample(sorted(person.has), min(len(person.has), self.random.choice([1, 1, 2, 3])))
        for number in numbers:
            is_deleted, tag, value = self.random.random() < 0.12, self.random.choice(TAGS), self.value()
            actions.append(person.gis.delete(number) if is_deleted else person.gis.update(number, **{tag: value}))
            if not person.may_save(number, now) and not (is_deleted and number not in now):
                conflicts.append(number)
            elif is_deleted:
                wanted.pop(number, None)
            else:
                base = now.get(number) or person.has[number]
                wanted[number] = {**base, "tags": {**base["tags"], tag: value}}
        added = self.value() if self.random.random() < 0.2 else None
        if added:
            actions.append(person.gis.insert(point(1000.0 * at, 5.0), a=added))
        told = person.gis.save(*actions)
        if conflicts:
            return self.refused(person, now, conflicts, told)
        return self.saved(person, wanted, numbers, added, told)

    def refused(self, person, now, conflicts, told):
        """What isn't right of a save that is to be refused."""
        self.counts["conflicts"] += 1
        person.told.update((number, now.get(number)) for number in conflicts)
        is_named = told.startswith("nothing of this was saved, since others") and all(
            f"p {number} (" in told for number in conflicts
        )
        return None if is_named and map_at(self.url) == now else ("refused", conflicts, told)

    def saved(self, person, wanted, numbers, added, told):
        """What isn't right of a save that is to be made."""
        self.counts["saves"] += 1
        now = map_at(self.url)
        for number in [number for number, feature in now.items() if added and feature["tags"].get("a") == added]:
            person.gis.fids[number] = told.split()[-1]
            wanted[number] = now[number]
            numbers.append(number)
        for number in numbers:
            person.has[number] = copy.deepcopy(wanted.get(number))
            if number not in wanted:
                del person.has[number]
                person.gis.fids.pop(number, None)
        differ = {
            number: (now.get(number), wanted.get(number))
            for number in {*now, *wanted}
            if now.get(number) != wanted.get(number)
        }
        is_added = not added or len(told.split()) == 2
        return None if told.startswith("SUCCESS") and not differ and is_added else ("saved", told, differ)
