"""Blocks of `reply_script.py` about the paths under `/admin/`, which are served where that is asked for."""
import tiles
from reply_stand import BEGIN, BODY, CANCEL, PUBLISH, STEP, WORLD, large_put, put, request, spelled, with_point

STATUS = "/admin/status"
FROM = "/admin/features/from/"
LAST = 2**63 - 1
METHODS = ["GET", "HEAD", "PUT", "DELETE", "POST", "PATCH"]
NOT_SERVED = ["/admin", "/admin/", "/admin/status/", "/admin/status/7", "/admin/statu", "/admin/Status", "/Admin/status", "/admin/features",
              "/admin/features/7", "/admin/features/from", "/admin/features/from/7/", "/admin/features/from/7/8", "/admin/features/from//7",
              "/admin/map/metadata", "/status", "/features/from/7"]
NO_NUMBERS = ["", "00", "07", "+7", "-1", "x", "7x", str(2**63), "99999999999999999999999999"]


def get(*paths):
    return [request("GET", path) for path in paths]


def batch_of(numbers):
    """A batch of points in the corner of the world."""
    return request("POST", "/edits", b'{"changes":[' + b",".join(b'{"put":%d,"feature":%s}' % (number, BODY) for number in numbers) + b"]}")


def who_may_ask(script):
    script.say("The paths under /admin/ are served only where that is asked for. Each method, with it and without, and paths that aren't served.")
    with_point(script)
    for opening in (script.again, script.admin):
        opening()
        for path in (STATUS, FROM + "7", FROM + "8"):
            for method in METHODS:
                script.ask(request(method, path, BODY if method == "PUT" else b""))
        script.ask(*get(*NOT_SERVED))
        script.ask(*get(*(FROM + number for number in NO_NUMBERS)))
        script.ask(*get(STATUS + "?v=1", FROM + "7?v=1", "/features/7", "/map/0/0/0.hex"), sizes="4096,1,7")
    script.note("Opened again without it they aren't served.")
    script.again()
    script.ask(*get(STATUS, FROM + "7"))


def listing(script):
    script.say("The first feature from a number on.")
    script.disk(256)
    script.admin()
    script.ask(*get(FROM + "0", FROM + str(LAST)))
    script.ask(put(7), put(LAST), put(0, tiles.feature({"lines": [[[0, 0], [9, 9]]]}, tags={"a": 1, "b": "x"})), put(8), put(300))
    script.ask(*get(*(FROM + str(number) for number in (0, 1, 6, 7, 8, 9, 299, 300, 301, LAST - 1, LAST))), sizes="4096,1")
    script.ask(request("DELETE", "/features/8"), *get(FROM + "8"), request("DELETE", f"/features/{LAST}"), *get(FROM + "301"))
    script.note("Numbers with gaps, in several blocks: each of them, the one before it and the one behind it.")
    script.disk(4096)
    script.admin()
    numbers = [3 * number + 1 for number in range(320)]
    for start in range(0, len(numbers), 64):
        script.ask(batch_of(numbers[start : start + 64]))
    for start in range(0, len(numbers), 40):
        script.ask(*get(*(FROM + str(near) for number in numbers[start : start + 40] for near in (number - 1, number, number + 1))))
    script.note("Most of them are taken out.")
    for start in range(0, len(numbers), 64):
        gone = [number for number in numbers[start : start + 64] if number % 7]
        script.ask(request("POST", "/edits", b'{"changes":[' + b",".join(b'{"delete":%d}' % number for number in gone) + b"]}"))
    script.ask(*get(*(FROM + str(number) for number in range(0, 960, 29))))


def statuses(script):
    script.say("What a service tells of itself: an empty map, edits, steps of a publication, and a publication that is cancelled.")
    script.disk(4096)
    script.admin()
    script.ask(*get(STATUS))
    script.ask(put(7), *get(STATUS), put(7), put(8), *get(STATUS), request("DELETE", "/features/8"), *get(STATUS), sizes="4096")
    script.ask(*(part for number in range(9, 12) for part in large_put(number)), *get(STATUS))
    script.ask(BEGIN, *get(STATUS), STEP, *get(STATUS), put(12), *get(STATUS), STEP, *get(STATUS))
    while script.stand.service.publication:
        script.ask(STEP, *get(STATUS))
    script.ask(PUBLISH, *get(STATUS), BEGIN, *get(STATUS), CANCEL, *get(STATUS))
    script.note("The same once it is opened again, on a disk of the first version, and once that is upgraded.")
    script.admin()
    script.ask(*get(STATUS))
    script.first(64)
    script.admin()
    script.ask(*get(STATUS), put(7), PUBLISH, *get(STATUS))
    script.upgrade()
    script.admin()
    script.ask(*get(STATUS))
    script.note("A journal that is full.")
    script.disk(64)
    script.admin()
    script.ask(*(put(number) for number in range(17)), *get(STATUS))


def broken(script):
    script.say("A broken service tells that it is, and lists what it has.")
    for kind, number in (("from", 1), ("lost", 2), ("made", 1)):
        with_point(script)
        script.admin(kind, number)
        script.ask(*get(STATUS), put(8), *get(STATUS, FROM + "0", FROM + "8"), put(9), sizes="4096")
    script.note("In the middle of a publication, which is dropped.")
    script.disk(256)
    script.ask(put(7))
    script.admin("from", 1)
    script.ask(BEGIN, *get(STATUS), STEP, *get(STATUS), sizes="4096")


def shape(number, kind, *points):
    """A PUT of a line, or of points."""
    return put(number, tiles.feature({kind: [list(points)] if kind == "lines" else list(points)}))


def touched(script):
    script.say("In how many of 1,024 cells edits came since the last publication: cells have 131,072 units, and repeat after 32 of them.")
    cell, status = 131072, get(STATUS)
    script.disk(4096)
    script.admin()
    script.ask(*status, shape(1, "points", [0, 0]), *status, shape(2, "points", [cell - 1, cell - 1]), *status)
    script.ask(shape(3, "points", [cell, 0]), *status, shape(4, "points", [0, cell]), *status, shape(5, "points", [32 * cell, 32 * cell]), *status)
    script.note("Points at the world's end, and a refused edit.")
    script.ask(shape(6, "points", [WORLD, WORLD]), *status, shape(7, "lines", [40 * cell, 40 * cell]), *status)
    script.ask(PUBLISH, *status)
    script.note("Boxes that are 31, 32, 33 and 65 cells wide, each after a publication: one of them is counted once.")
    for width in (31, 32, 33, 65):
        script.ask(shape(7, "lines", [5 * cell, 9 * cell], [(5 + width) * cell - 1, 9 * cell]), *status, PUBLISH, *status)
    script.note("A box is counted whole, not only the cells of its line. A feature that moves is counted where it was, and so is one that is deleted.")
    script.ask(shape(8, "lines", [2 * cell, 2 * cell], [5 * cell, 4 * cell]), *status, PUBLISH, shape(8, "points", [9 * cell, 9 * cell]), *status, PUBLISH)
    script.ask(request("DELETE", "/features/8"), *status, PUBLISH, *status)
    script.note("Edits in a publication: those before its beginning count until it is installed, those after it from then on too.")
    script.ask(shape(9, "lines", [0, 0], [3 * cell, 0]), *status, BEGIN, *status, shape(10, "lines", [0, cell], [cell, cell]), *status)
    while script.stand.service.publication:
        script.ask(STEP, *status)
    script.note("One that is cancelled changes nothing, and neither does opening the disk again.")
    script.ask(BEGIN, shape(11, "points", [0, 7 * cell]), CANCEL, *status)
    script.admin()
    script.ask(*status)
    script.note("The whole world in one edit, and more edits.")
    script.ask(shape(12, "lines", [0, 0], [WORLD, WORLD]), *status, put(13), *status, PUBLISH, *status)


BLOCKS = [who_may_ask, listing, statuses, touched, broken]
