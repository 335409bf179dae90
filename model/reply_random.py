"""Requests at random, and the block of `reply_script.py` that makes connections of them."""
import random

import tiles
from reply_edits import deletes, post, sets
from reply_routes import METHODS, NOT_SERVED, NO_METHODS, SERVED, no_features
from reply_stand import BEGIN, CANCEL, PUBLISH, STEP, WORLD, put, request


def random_feature(chance):
    """A small feature about some corners of tiles."""
    corner = [chance.randrange(9) << 29, chance.randrange(9) << 29]

    def point():
        return [min(max(part + chance.randrange(-(2**25), 2**25), 0), WORLD) for part in corner]

    def line(least):
        return [point() for _ in range(chance.randrange(least, least + 3))]

    kind = chance.choice(["points", "lines", "polygons"])
    makers = {"points": point, "lines": lambda: line(2), "polygons": lambda: [line(3) for _ in range(chance.randrange(1, 3))]}
    values = [True, False, -1, 0, 7, 2**64 - 1, "x", "\u00e9", ""]
    tags = {f"k{number}": chance.choice(values) for number in range(chance.randrange(4))}
    first = chance.randrange(4)
    geometry = {kind: [makers[kind]() for _ in range(chance.randrange(1, 3))]}
    return tiles.feature(geometry, first, min(first + chance.randrange(3), 5), chance.choice("abp"), tags)


def random_edit(chance):
    """An edit of some changes, of different numbers but for one in ten."""
    numbers = chance.sample(range(8), chance.randrange(1, 6))
    if chance.randrange(10) == 0:
        numbers.append(numbers[0])
    return post(*(sets(number, random_feature(chance)) if chance.randrange(4) else deletes(number) for number in numbers))


def random_request(chance):
    zoom = chance.randrange(5)
    tile = f"/map/{zoom}/{chance.randrange(2**zoom)}/{chance.randrange(2**zoom)}"
    number = chance.randrange(8)
    method = chance.choice(["GET", "GET", "GET", "HEAD"])
    first = chance.randrange(3000)
    makers = [
        (6, lambda: put(number, random_feature(chance))),
        (2, lambda: request("DELETE", f"/features/{number}")),
        (3, lambda: random_edit(chance)),
        (2, lambda: request(method, f"/features/{number}")),
        (6, lambda: request(method, tile + ".hex")),
        (2, lambda: request(method, tile + ".mvt")),
        (1, lambda: request(method, "/map/metadata")),
        (1, lambda: PUBLISH),
        (3, lambda: chance.choice([BEGIN, STEP, CANCEL])),
        (2, lambda: request(method, "/map.pmtiles", b"", f"range: bytes={first}-{first + chance.randrange(200)}")),
        (1, lambda: request(method, "/map.pmtiles")),
        (1, lambda: request(chance.choice(METHODS + NO_METHODS), chance.choice(SERVED + NOT_SERVED).encode("ascii", "replace").decode())),
        (1, lambda: request("PUT", f"/features/{number}", chance.choice([body for body in no_features() if isinstance(body, bytes)]))),
    ]
    return chance.choices([make for _, make in makers], [weight for weight, _ in makers])[0]()


def at_random(script):
    script.say("Connections at random, with a fixed seed; the disk is opened again now and then.")
    chance = random.Random(32)
    script.disk(512)
    for number in range(120):
        if number % 20 == 19:
            script.again()
        asked = [random_request(chance) for _ in range(chance.randrange(1, 5))]
        script.ask(*asked, sizes=str(chance.choice([1, 3, 50, 4096])))
