"""Requests of edits that are nearly right: changes of numbers at the ends of their ranges, of one number twice, of too many, of features with another
member; and bodies with a member too many or too few. Most are refused, for a fault that the models know."""
import random

from features import compact
from reply_random import random_feature
from reply_stand import request

NUMBERS = [0, 1, 2, 3, 7, 2**63 - 1, 2**63, 2**64 - 1, 2**64, -1, -(2**63), 0.5, None, "7", True, [], {}]
MEMBERS = [{"layer": ""}, {"layer": "l" * 64}, {"layer": "l" * 65}, {"layer": 7}, {"minzoom": 9}, {"minzoom": 19, "maxzoom": 19}, {"maxzoom": 20},
           {"maxzoom": 255}, {"maxzoom": 256}, {"maxzoom": -1}, {"geometry": {}}, {"geometry": {"points": []}}, {"geometry": {"lines": [[[0, 0]]]}},
           {"geometry": {"points": [[0, 0]], "lines": []}}, {"geometry": {"points": [[0, 2**32]]}}, {"geometry": {"polygons": [[]]}}, {"tags": []},
           {"tags": {"": 1}}, {"tags": {"k": None}}, {"tags": {"k": 2**64}}, {"tags": {"k": "x" * 1024}}, {"tags": {"k": "x" * 1025}},
           {"tags": {f"k{number}": number for number in range(65)}}, {"more": 1}]
# Features of the widest reach, and of one more.
WIDE = [{"geometry": {"lines": [[[0, 0], [2**32 - 1, 2**32 - 1]]]}, "minzoom": zoom, "maxzoom": 9} for zoom in (9, 8)]


def odd_feature(chance: random.Random):
    """A feature, which half the time has another member or lacks one."""
    feature = random_feature(chance)
    kind = chance.randrange(6)
    if kind == 0:
        return {**feature, **chance.choice(MEMBERS)}
    if kind == 1:
        return {**feature, **chance.choice(WIDE)}
    if kind == 2:
        feature.pop(chance.choice([*feature]))
    return feature


def odd_change(chance, number):
    """A change of a number, or of another one, and seldom of no form."""
    if chance.randrange(20) == 0:
        number = chance.choice(NUMBERS)
    kind = chance.randrange(24)
    if kind == 0:
        return chance.choice([None, [], 7, {}, {"put": number}, {"feature": random_feature(chance)}, {"delete": number, "put": number}, {"Delete": number}])
    if kind == 1:
        return {"put": number, "feature": odd_feature(chance)}
    return {"delete": number} if kind < 8 else {"put": number, "feature": random_feature(chance)}


def odd_changes(chance):
    """Changes of ascending numbers; seldom none, 64 or more, or one number twice."""
    count = chance.choice([0, 1, 1, 2, 2, 3, 5, 8, 63, 64, 65])
    first = chance.randrange(8)
    numbers = [first + number for number in range(count)]
    if count > 1 and chance.randrange(6) == 0:
        numbers[-1] = chance.choice(numbers[:-1])
    chance.shuffle(numbers)
    return [odd_change(chance, number) for number in numbers]


def odd_body(chance):
    """A body of these changes, seldom with another member."""
    changes = odd_changes(chance)
    if chance.randrange(20):
        return {"changes": changes}
    return chance.choice([changes, {"change": changes}, {"changes": changes, "more": 1}, {"changes": {"0": changes}}, {"changes": None}, {}])


def odd_edit(chance):
    return request("POST", "/edits", compact(odd_body(chance)).encode())
