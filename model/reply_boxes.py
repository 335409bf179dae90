"""Blocks of `reply_script.py` about the features whose bounding boxes meet a box, by pages."""
import random

import tiles
from reply_admin import LAST, METHODS, NO_NUMBERS, get
from reply_stand import BODY, PUBLISH, WORLD, large_put, put, request, spelled, with_point

BOX = "/admin/features/box/"
ALL = f"0,0,{WORLD},{WORLD}"
NO_BOXES = ["", ",", ",,,", "1", "1,2", "1,2,3", "1,2,3,", ",2,3,4", "1,,3,4", "1,2,3,4,", "1,2,3,4,5", ",1,2,3,4", "1,2,3,x", "01,2,3,4", "1,2,3,04",
            "1,2,3,4294967296", "1,2,4294967296,4", "4294967296,2,4294967297,4", "1,4294967296,2,4294967297", "5,2,4,9", "1,9,4,8", "+1,2,3,4",
            "-1,2,3,4", "1.0,2,3,4", "1,2,3,4 ", "1;2;3;4", "1%2C2%2C3%2C4", "1,2,3,99999999999999999999999999"]
NOT_SERVED = [BOX, BOX + "1,2,3,4", BOX + "1,2,3,4/", BOX + "1,2,3,4/from", BOX + "1,2,3,4/from/", BOX + "1,2,3,4/from/7/", BOX + "1,2,3,4/page/7",
              BOX + "1/2/3/4/from/7", "/features/box/1,2,3,4/from/7", "/admin/features/box", "/admin/feature/box/1,2,3,4/from/7"]


def boxes(*asked, number=0):
    """Requests for the features in each of these boxes."""
    return get(*(f"{BOX}{','.join(map(str, box)) if isinstance(box, tuple) else box}/from/{number}" for box in asked))


def drawn(kind, shape, first=0, last=2):
    return tiles.feature({kind: shape}, first, last)


def who_may_ask(script):
    script.say("The features in a box are listed only where the paths under /admin/ are served. Each method, with it and without.")
    with_point(script)
    for opening in (script.again, script.admin):
        opening()
        for path in (BOX + "0,0,0,0/from/7", BOX + "1,1,2,2/from/0", BOX + ALL + "/from/8"):
            for method in METHODS:
                script.ask(request(method, path, BODY if method == "PUT" else b""))
        script.ask(*get(*NOT_SERVED))
        script.ask(*(boxes(*NO_BOXES)))
        script.ask(*get(*(f"{BOX}{ALL}/from/{number}" for number in NO_NUMBERS)))
        script.ask(*get(BOX + ALL + "/from/7?v=1", BOX + ALL + "?/from/7"), sizes="4096,1,7")


def edges(script):
    script.say("A box has its edges: points on them and beside them, lines and polygons whose boxes meet it where they don't, and other zooms.")
    script.disk(256)
    script.admin()
    script.ask(*boxes(ALL, number=LAST))
    points = [(x, y) for x in (9, 10, 15, 20, 21) for y in (29, 30, 35, 40, 41)]
    script.ask(*(put(100 + number, drawn("points", [list(point)])) for number, point in enumerate(points)))
    script.ask(*boxes((10, 30, 20, 40), (10, 30, 10, 30), (9, 29, 9, 41), (20, 40, 21, 41), (0, 0, 8, 100), (22, 0, WORLD, WORLD), ALL), sizes="4096,1")
    script.note("Bounding boxes: of a line across a corner, of a ring around the box, of points far apart, of one on each edge of the world.")
    script.disk(256)
    script.admin()
    script.ask(put(7, drawn("lines", [[[0, 100], [100, 0]], [[90, 100], [100, 90]]])), put(2, drawn("points", [[0, 0], [WORLD, WORLD]], 2, 2)))
    script.ask(put(3, drawn("polygons", [[[[50, 50], [90, 50], [90, 90], [50, 90]], [[60, 60], [60, 80], [80, 80], [80, 60]]]], 3, 9)))
    script.ask(put(LAST, drawn("points", [[WORLD, 0]])), put(0, drawn("points", [[0, WORLD]], 19, 19)))
    asked = [(0, 0, 1, 1), (10, 10, 20, 20), (65, 65, 70, 70), (100, 100, 100, 100), (101, 0, 200, 100), (101, 101, 101, 101), (0, WORLD, 0, WORLD),
             (WORLD, 0, WORLD, 0), (WORLD, WORLD, WORLD, WORLD), (1, WORLD, WORLD, WORLD), ALL]
    script.ask(*boxes(*asked))
    for number in (1, 2, 3, 4, 7, 8, LAST - 1, LAST):
        script.ask(*boxes((65, 65, 70, 70), ALL, number=number))
    script.note("Replaced elsewhere, deleted, after a publication and once the disk is opened again.")
    script.ask(put(7, drawn("points", [[500, 500]])), *boxes((0, 0, 99, 99), (500, 500, 500, 500)))
    script.ask(request("DELETE", "/features/2"), *boxes((0, 0, 99, 99), ALL), PUBLISH, put(1, drawn("points", [[65, 65]])), *boxes((65, 65, 70, 70), ALL))
    script.admin()
    script.ask(*boxes((65, 65, 70, 70), ALL))


def paged(script):
    script.say("The features of a box by pages, beside others: a page ends with the one with which its entries have 65,536 bytes.")
    chance = random.Random(7)
    script.disk(8192)
    script.admin()
    numbers = [3 * number + 1 for number in range(1600)]
    chance.shuffle(numbers)
    for start in range(0, len(numbers), 64):
        sets = [{"put": number, "feature": drawn("points", [[number % 40, number // 40]])} for number in numbers[start : start + 64]]
        script.ask(request("POST", "/edits", spelled({"changes": sets})))
    for number in (0, 1, 2, 2000, 2200, 4798, 4799):
        script.ask(*boxes(ALL, (0, 0, 39, 60), (10, 0, 19, 200), (5, 50, 5, 50), (40, 0, WORLD, WORLD), number=number))
    script.ask(*(part for number in range(2, 20, 3) for part in large_put(number)))
    script.ask(*boxes((0, 0, 0, 9), (0, 0, 9, 0), number=0), *boxes((0, 0, 0, 9), ALL, number=5), *boxes((0, 0, 0, 9), number=17))


BLOCKS = [who_may_ask, edges, paged]
