"""Lines of `map_script.py` about numbers with values and about boxes: the two indexes of a map."""
from chance import Chance

LAST = 2**32 - 1


# ---- numbers with values


def number_lines():
    yield "# Values by number."
    yield from ["numbers", "entries", ("set 7 70", "None"), ("set 3 30", "None"), (f"set {2**64 - 1} 1", "None"), ("set 0 2", "None"),
                ("set 3 31", "Some(30)"), ("get 0", "Some(2)"), ("get 3", "Some(31)"), ("get 4", "None"), ("get 7", "Some(70)"),
                (f"get {2**64 - 1}", "Some(1)"), ("from 0", "Some((0, 2))"), ("from 1", "Some((3, 31))"), ("from 3", "Some((3, 31))"),
                ("from 4", "Some((7, 70))"), ("from 8", f"Some(({2**64 - 1}, 1))"), (f"from {2**64 - 1}", f"Some(({2**64 - 1}, 1))"),
                "entries", ("unset 4", "None"), ("unset 3", "Some(31)"), ("unset 3", "None"), ("get 3", "None"),
                "entries"]
    for way in ("fillup", "filldown"):
        yield f"# 10,000 numbers, {'from the first up' if way == 'fillup' else 'from the last down'}: a full block is halved."
        yield from ["numbers", f"{way} 10000 3", "entries", ("blocks 157", "at most 157 blocks"), ("get 1", "None"), ("get 100000", "None")]
    yield "# A new value replaces the old one."
    yield from ["numbers", "fillup 1000 3", "set 297 5", "blocks 15", "fillup 1000 3", ("get 297", "Some(99)"), "entries", "blocks 15"]
    yield "# Numbers are taken out, all but one in so many: any two neighbours have more than 64 entries together."
    yield from ["numbers", "fillup 10000 3"]
    for one_in, most in [(2, 156), (40, 8), (1, 0)]:
        yield from [f"thin 10000 3 {one_in}", "entries", f"blocks {most}"]
    yield "# The first number from one on: in every block and between them, where all are full, and where most were taken out."
    for way in ("fillup", "filldown"):
        yield from ["numbers", ("from 0", "None"), f"{way} 1000 3", *(f"from {number}" for number in range(0, 3010, 31)), "thin 1000 3 9",
                    *(f"from {number}" for number in range(0, 3010, 31))]
    yield "# Room once made serves any number, and stays where a number is taken out."
    for number in [0, 1, 297, 298, 600, 2**64 - 1]:
        yield from ["numbers", "fillup 200 3", f"serve {number}", "entries"]
    for seed in (1, 2026, 88172645463325252):
        chance = Chance(seed)
        yield f"# In no order. Seed {seed}."
        yield from ["numbers", "fillup 700 3"]
        for turn in range(600):
            number = chance.below(2100)
            yield f"set {number} {turn}" if chance.below(4) else f"unset {number}"
            if turn % 7 == 0:
                yield f"from {chance.below(2200)}"
            if turn % 100 == 99:
                yield "entries"


# ---- boxes


def small(number, x, y):
    """A box of three columns and three rows, at the zooms 3 to 7."""
    return f"{number} {x} {min(x + 2, LAST)} {y} {min(y + 2, LAST)} 3 7"


def any_bounds(chance):
    if chance.below(50) == 0:
        return f"0 {LAST} 0 {LAST}"
    return " ".join(f"{start} {any_end(chance, start)}" for start in [any_corner(chance), any_corner(chance)])


def any_corner(chance):
    """A coordinate near one of sixteen, or any."""
    near = chance.below(16) * 2**28
    return [near, chance.below(2**32), near + chance.below(100000), near + chance.below(100000)][chance.below(4)]


def any_end(chance, start):
    """The other end: now and then it comes before the first."""
    return [start, LAST, chance.below(2**32), *[min(start + chance.below(2**28 if k == 3 else 10000), LAST) for k in range(3, 8)]][chance.below(8)]


def box_lines():
    world = f"0 {LAST} 0 {LAST}"
    around = "12 20 10 20"
    yield "# Entries whose box and zooms meet: a number, columns, rows, zooms; then columns, rows and a zoom."
    yield "boxes"
    yield from [f"add {small(*entry)}" for entry in [(9, 10, 10), (4, 20, 20), (7, 9, 10), (5, 20, 21), (4, 12, 8)]]
    yield from [(f"query {around} {zoom}", found) for zoom, found in [(2, "[]"), (3, "[4, 4, 9]"), (7, "[4, 4, 9]"), (8, "[]")]]
    yield from [(f"take {small(*entry)}", told) for entry, told in [
        ((9, 11, 10), "not there"), ((8, 10, 10), "not there"), ((9, 10, 10), "taken"), ((9, 10, 10), "not there"), ((4, 12, 8), "taken")]]
    yield f"query {around} 5", "[4]"
    yield "# Boxes of a point and of the world, and one of no zoom."
    yield "boxes"
    yield from [f"add {number} {x} {x} {y} {y} 4 4" for number, x, y in [(1, 0, 0), (2, LAST, LAST), (3, 7, 9)]]
    yield from [f"add 4 {world} 0 255", f"add 5 {world} 5 4"]
    for x, y, zoom, found in [(0, 0, 4, [1, 4]), (0, 1, 4, [4]), (7, 9, 4, [3, 4]), (7, 9, 5, [4]), (LAST, LAST, 4, [2, 4]),
                              (LAST, LAST, 255, [4])]:
        yield f"query {x} {x} {y} {y} {zoom}", str(found)
    yield f"query {world} 4", "[1, 2, 3, 4]"
    yield "# A row of boxes, each beside the next, is split and joined."
    yield from ["boxes", "scatter 1000 4 0", ("query 2002 2008 0 8 3", "[500, 501, 502]"), ("gather 1000 4 0 0", "1000 taken"),
                (f"query {world} 3", "[]")]
    yield "# Blocks stay in proportion: any two neighbours that entries left have more than 64 together."
    yield from ["boxes", "scatter 20000 7000001 4", ("gather 20000 7000001 4 40", "19500 taken"), ("boxblocks 16", "at most 16 blocks"),
                "query 0 1000000000 0 40000 5"]
    for seed in (1, 2026):
        yield from any_box_lines(Chance(seed), seed)


def any_box_lines(chance, seed):
    yield f"# Boxes anywhere, added and taken. Seed {seed}."
    yield from ["boxes", "scatter 300 14000001 9000011"]
    held = []
    for _ in range(250):
        if chance.below(3) or not held:
            maxzoom = chance.below(18)
            held.append(f"{chance.below(700)} {any_bounds(chance)} {max(chance.below(18) - 8, 0)} {maxzoom}")
            yield f"add {held[-1]}"
        else:
            yield f"take {held.pop(chance.below(len(held)))}"
        yield f"query {any_bounds(chance)} {chance.below(18)}"
    yield from [f"take {entry}" for entry in held]
    yield from [("gather 300 14000001 9000011 0", "300 taken"), (f"query 0 {LAST} 0 {LAST} 8", "[]")]


PARTS = [number_lines, box_lines]
