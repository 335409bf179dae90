"""Blocks of `reply_script.py` about what is listed under `/admin/`: edits since the last publication, and features by pages; and about edits that are made
only if they get a number."""
import tiles
from connections import MAX_BODY
from reply_admin import LAST, METHODS, NO_NUMBERS, STATUS, batch_of, get
from reply_edits import deletes, sets
from reply_stand import BEGIN, BODY, CANCEL, PUBLISH, STEP, WORLD, Often, large_put, put, request, spelled, spelled_parts, tagged, with_point

FEED, PAGE, AT = "/admin/edits/from/", "/admin/features/page/", "/admin/edits/at/"
NOT_SERVED = ["/admin/edits/", "/admin/edits/from", "/admin/edits/from/1/", "/admin/edits/from/1/2", "/admin/edits/1", "/admin/edits/at", "/admin/edits/at/1/",
              "/admin/edits/at/1/2", "/admin/features/page", "/admin/features/page/7/", "/admin/features/page/7/8", "/edits/from/1", "/edits/at/1",
              "/features/page/7", "/admin/edit/from/1"]
ODD = tiles.feature({"lines": [[[0, 0], [WORLD, 9], [5, 5]]]}, 1, 3, 'l"\\é', {"a": "\x01\n\t\x7f", "b": -1, "c": True, "d": 2**64 - 1, "日": ""})


def edits(*numbers):
    """Requests for the edits from each of these numbers on."""
    return get(*(FEED + str(number) for number in numbers))


def pages(*numbers):
    return get(*(PAGE + str(number) for number in numbers))


def at(number, *changes):
    """The request of an edit under a number."""
    return request("POST", AT + str(number), spelled({"changes": [*changes]}))


def begin(script, sectors=256, kind="", number=0):
    script.disk(sectors)
    script.admin(kind, number)


def who_may_ask(script):
    script.say("Edits and features are listed, and edits made under a number, only where the paths under /admin/ are served. Each method, with it and without.")
    with_point(script)
    for opening in (script.again, script.admin):
        opening()
        for path in (FEED + "1", FEED + "2", FEED + "3", PAGE + "7", PAGE + "8", AT + "2", AT + "9"):
            for method in METHODS:
                script.ask(request(method, path, BODY if method == "PUT" else b""))
        script.ask(*get(*NOT_SERVED))
        for path in (FEED, PAGE, AT):
            script.ask(*get(*(path + number for number in NO_NUMBERS)))
        script.ask(*get(FEED + "1?v=1", PAGE + "7?v=1"), sizes="4096,1,7")


# ---- the feed


def listed(script):
    script.say("The edits from each number on: of an empty map, after single edits, batches and deletions, and once the disk is opened again.")
    begin(script)
    script.ask(*edits(0, 1, 2, LAST))
    script.ask(put(7), put(8, ODD), request("DELETE", "/features/7"), batch_of([1, 2, 3]), put(8))
    script.ask(request("POST", "/edits", spelled({"changes": [deletes(8), sets(9, ODD), sets(7)]})))
    script.ask(*edits(0, 1, 2, 3, 4, 5, 6, 7, 8), sizes="4096,1")
    script.note("Refused edits aren't among them.")
    script.ask(request("DELETE", "/features/99"), put(2**63 - 1), put(5, tiles.feature({"points": [[0, 0]]}, 3, 2)), *edits(6, 7, 8, 9))
    script.admin()
    script.ask(*edits(1, 7, 8, 9))


def published(script):
    script.say("A publication takes those up to its beginning out of the journal, once it is installed.")
    begin(script)
    script.ask(*(put(number) for number in range(5)), *edits(1, 5, 6))
    script.ask(PUBLISH, *edits(0, 1, 5, 6, 7), put(9), *edits(5, 6, 7, 8))
    script.note("By steps: edits in between stay. One that is cancelled takes none.")
    script.ask(BEGIN, put(10), *edits(5, 6, 7, 8), CANCEL, *edits(5, 6, 7, 8), BEGIN, put(11), put(12, ODD), STEP, *edits(6, 7, 8, 9, 10), sizes="4096")
    script.admin()
    script.ask(*edits(7, 8, 9, 10, 11))


def ring(script):
    script.say("A journal of 16 places: full, and then often gone round, with records of one sector and of three.")
    begin(script, 64)
    script.ask(*(put(number) for number in range(17)), *edits(1, 9, 16, 17, 18))
    number = 16
    for turn in range(6):
        script.ask(BEGIN, STEP, *edits(number, number + 1))
        made = [*tagged(1000 + turn, 3), put(4), *tagged(1000, 5), put(6, ODD)]
        script.ask(*made)
        script.ask(*edits(*range(number, number + 6)))
        number += 4
        if turn % 2:
            script.admin()
            script.ask(*edits(number - 3, number))
    script.note("All are released, and one is there again.")
    script.ask(PUBLISH, *edits(number, number + 1), put(1), *edits(number, number + 1, number + 2))


def versions(script):
    script.say("A disk of the first version, then upgraded: its records are listed beside those of the second.")
    script.first(64)
    script.admin()
    script.ask(put(7), request("DELETE", "/features/7"), *edits(1, 2, 3), at(3, sets(1)), *edits(3))
    script.upgrade()
    script.admin()
    script.ask(batch_of([1, 2]), put(9), *edits(1, 2, 3, 4, 5), at(5, sets(1)), *edits(5))


def bounds(script):
    script.say("A list ends with the edit with which its texts have 16,384 bytes: edits of some 16,000 bytes, of 30,000, and many small ones.")
    begin(script, 4096)
    for letters in (990, 991, 992, 993):
        script.ask(*tagged(letters, 1))
    script.ask(*(part for number in range(4) for part in large_put(number)))
    script.ask(*edits(*range(1, 10)), sizes="4096")
    for size in (16383 - 30, 16384 - 30, 16385 - 30):
        script.disk(4096)
        script.admin()
        text = ",".join('"k%02d":"%s"' % (tag, "x" * 1000) for tag in range(15))
        body = '{"layer":"p","minzoom":0,"maxzoom":2,"geometry":{"points":[[0,0]]},"tags":{%s,"z":"%s"}}' % (text, "y" * (size - 15 * 1007))
        script.ask(request("PUT", "/features/1", body.encode()), put(2), *edits(1, 2), sizes="4096")
    script.note("Many of one sector.")
    begin(script, 4096)
    for start in range(0, 960, 48):
        script.ask(*(put(start + number) for number in range(48)))
    script.ask(*edits(1, 300, 631, 632, 633, 900, 960, 961), sizes="4096")


def failing(script):
    script.say("Each read of a list fails in turn: nothing is listed, and nothing else is changed by that.")
    for number in range(1, 9):
        script.disk(256)
        script.ask(put(7), *tagged(1000, 8), put(9))
        script.admin("from", number)
        script.ask(*edits(1), *edits(3), *edits(4), request("GET", "/features/9"), sizes="4096")


def broken(script):
    script.say("A broken service lists the edits that were acknowledged, and not the one in doubt, as long as its disk can be read.")
    for kind, number in (("lost", 2), ("made", 2), ("lost", 1), ("made", 1)):
        with_point(script)
        script.admin(kind, number)
        script.ask(put(8), *edits(1, 2, 3), at(2, sets(9)), at(3, sets(9)), *edits(1, 2), sizes="4096")
        script.admin()
        script.ask(*edits(1, 2, 3))


# ---- pages


def paged(script):
    script.say("Features by pages: none, some with gaps, numbers at both ends, and what is behind the last.")
    begin(script)
    script.ask(*pages(0, LAST))
    script.ask(put(7), put(LAST), put(0, ODD), put(8), put(300))
    script.ask(*pages(0, 1, 6, 7, 8, 9, 299, 300, 301, LAST - 1, LAST), sizes="4096,1")
    script.ask(request("DELETE", "/features/8"), *pages(7, 8, 9), request("DELETE", f"/features/{LAST}"), *pages(300, 301))
    script.note("More than a page: entries of 90 bytes, and of 30,000.")
    begin(script, 8192)
    for start in range(0, 1600, 64):
        script.ask(batch_of([3 * number + 1 for number in range(start, start + 64)]))
    script.ask(*pages(0, 1, 2, 1000, 2000, 2200, 2400, 2500, 2600, 2700, 4798, 4799), sizes="4096")
    script.ask(*(part for number in range(10000, 10006) for part in large_put(number)))
    script.ask(*pages(4000, 9999, 10000, 10001, 10003, 10005, 10006), sizes="4096")


def page_bounds(script):
    script.say("A page ends with the feature with which its entries have 65,536 bytes of JSON.")
    for more in (-1, 0, 1):
        begin(script, 4096)
        script.ask(*(part for number in (1, 2) for part in large_put(number)))
        held = sum(len(spelled({"feature": script.stand.service.map[number], "id": number})) for number in (1, 2))
        rest = 65536 - held - len(spelled({"feature": tiles.feature({"points": [[0, 0]]}, tags={"t": ""}), "id": 3})) + more
        tags = {}
        while rest > 1000:
            rest -= 900 + 8
            tags[f"u{len(tags):02d}"] = "v" * 900
        script.ask(put(3, tiles.feature({"points": [[0, 0]]}, tags={"t": "w" * rest, **tags})), put(4), *pages(1, 2, 3, 4), sizes="4096")


# ---- edits under a number


def numbered(script):
    script.say("Edits under a number: the next one, one that is sent again, and others.")
    for sizes in ("4096", "1"):
        begin(script)
        script.ask(at(0, sets(7)), at(2, sets(7)), at(1, sets(7)), at(1, sets(7)), at(2, deletes(7)), at(2, deletes(7)), at(LAST, sets(7)), *edits(1), sizes=sizes)
    script.note("What is refused takes no number; the body is read before the number is compared.")
    script.ask(at(3, deletes(7)), at(3), at(9), at(3, sets(1), deletes(1)), request("POST", AT + "3", b"{"), request("POST", AT + "9", b"{}"), at(3, sets(2**63)))
    script.ask(at(3, sets(1, ODD), sets(2)), put(3), at(4, sets(4)), at(5, sets(4)), *edits(1, 4))
    script.note("After a publication, in one, and once the disk is opened again.")
    script.ask(PUBLISH, at(5, sets(5)), at(6, sets(5)), BEGIN, at(7, deletes(5)), STEP, *edits(6, 7))
    script.admin()
    script.ask(at(7, sets(6)), at(8, sets(6)), *edits(7))
    script.note("A full journal.")
    begin(script, 64)
    script.ask(*(at(number, sets(number)) for number in range(1, 19)), PUBLISH, at(17, sets(17)), at(18, sets(18)), *edits(17))


def set_at(number, edit, feature=None, *fields):
    """The request of a feature under a number."""
    body = BODY if feature is None else spelled(feature)
    return request("PUT", f"/admin/features/{number}/at/{edit}", body, *fields)


def longest_at(number, edit):
    """The request of a feature under a number whose body has as many bytes as a body may have, none of them to spare."""
    front, point, back = b'{"layer":"p","minzoom":0,"maxzoom":0,"tags":{"t":"', b"[4000000000,4000000000]", b"]}}"
    middle = b'"},"geometry":{"points":['
    points, letters = divmod(MAX_BODY - len(front + middle + point + back), len(point) + 1)
    parts = [front, Often(letters, b"a"), middle, Often(points, point + b","), point + back]
    assert len(spelled_parts(parts)[0]) == MAX_BODY
    return [f"PUT /admin/features/{number}/at/{edit} HTTP/1.1\r\nhost: x\r\ncontent-length: {MAX_BODY}\r\n\r\n".encode(), *parts]


def numbered_features(script):
    script.say("A feature under a number: only where the paths under /admin/ are served, by PUT alone, with numbers below 2^63.")
    with_point(script)
    for opening in (script.again, script.admin):
        opening()
        for method in METHODS:
            script.ask(request(method, "/admin/features/7/at/9", BODY if method == "PUT" else b""))
        script.ask(*get("/admin/features/7/at/", "/admin/features/7/at", "/admin/features//at/2", "/admin/features/at/2", "/admin/features/7/at/2/", "/features/7/at/2"))
        script.ask(*(part for number in NO_NUMBERS for part in get(f"/admin/features/{number}/at/2", f"/admin/features/7/at/{number}")))
    script.note("The next one, one that is sent again, and others, between edits of other kinds.")
    for sizes in ("4096", "1"):
        begin(script)
        script.ask(set_at(7, 0), set_at(7, 2), set_at(7, 1), set_at(7, 1), set_at(8, 2, ODD), set_at(7, LAST), at(3, deletes(7)), set_at(7, 3), set_at(7, 4), put(9),
                   set_at(0, 6), set_at(2**63 - 1, 7), *edits(1), sizes=sizes)
    script.note("What is refused takes no number; the body is read before the numbers are compared.")
    for body in (b"", b"{", b"{}", BODY + b" ", BODY.replace(b'"p"', b'""')):
        script.ask(*(request("PUT", f"/admin/features/3/at/{edit}", body) for edit in (8, 9)))
    script.ask(*edits(7))
    script.note("After a publication, in one, and once the disk is opened again.")
    script.ask(PUBLISH, set_at(5, 9), set_at(5, 10), BEGIN, set_at(6, 10), STEP, set_at(6, 11), *edits(10))
    script.admin()
    script.ask(set_at(7, 11), set_at(7, 12), *edits(11))
    script.note("Conditions, where replies have tags: the number is compared first.")
    script.tags(5)
    script.admin()
    for field in ("if-match: *", "if-none-match: *", "if-match: x", 'if-none-match: "x"'):
        script.ask(*(set_at(number, edit, None, field) for number in (7, 70) for edit in (1, 13, 14, 15)))
    script.tags()
    script.note("A feature for whose text a body of changes has no room is set under its number, and takes no more than the body.")
    begin(script, 1024)
    script.ask(*longest_at(1, 1), *longest_at(1, 1), *longest_at(1, 2), *get(FEED + "3"))
    script.note("A full journal.")
    begin(script, 64)
    script.ask(*(set_at(number, number) for number in range(1, 19)), PUBLISH, set_at(17, 17), set_at(18, 18), *edits(17))


def after(digest, asked):
    """A request whose query names the digest of the map that it is to change."""
    line, end, rest = asked.partition(b" HTTP/1.1")
    return line + b"?after=" + digest.encode() + end + rest


def digests(script):
    script.say("Digests: of an empty map, after each kind of edit, and the same for the same features, whatever came before.")
    begin(script)
    ask = lambda: script.ask(*get(STATUS), *edits(script.stand.service.last + 1, 1))  # noqa: E731
    ask()
    for made in (put(7), put(8, ODD), put(7, ODD), put(7), request("DELETE", "/features/8"), batch_of([0, LAST]), at(6, deletes(0), deletes(LAST)),
                 set_at(7, 7, ODD), request("PUT", "/features/7", b"{"), set_at(7, 9), request("DELETE", "/features/9")):
        script.ask(made)
        ask()
    script.note("After a publication, in one, and once the disk is opened again.")
    script.ask(PUBLISH)
    ask_last = lambda: script.ask(*get(STATUS), *edits(script.stand.service.last + 1))  # noqa: E731
    ask_last()
    script.ask(BEGIN, put(9), STEP)
    ask_last()
    for kind in ("", "lost"):
        script.admin(kind, 2 if kind else 0)
        script.ask(put(10))
        ask_last()
    script.admin()
    ask_last()
    script.note("A list that ends before the last edit tells none: of edits of 16,000 bytes, from each number on.")
    begin(script, 4096)
    for letters in (990, 991, 992):
        script.ask(*tagged(letters, 1))
    script.ask(*(part for number in range(3) for part in large_put(number)))
    script.ask(*edits(*range(1, 8)), sizes="4096")


def under_digests(script):
    script.say("Edits that are made of a map of one digest, by both paths: with the right digest, a wrong one, and what is none.")
    begin(script)
    digest = lambda: script.stand.service.digest()  # noqa: E731
    number = lambda: script.stand.service.last + 1  # noqa: E731
    for make in (lambda edit: at(edit, sets(edit), deletes(edit - 1)) if edit > 1 else at(edit, sets(edit)), lambda edit: set_at(edit, edit, ODD)):
        for sizes in ("4096", "1"):
            right = digest()
            wrong = "%016x" % (int(right, 16) ^ 1)
            for word in (wrong, right[:15], right + "0", "", "0" * 16 if right != "0" * 16 else "1" * 16, "x" * 16, wrong.upper(), right + "&after=" + wrong,
                         wrong + "&after=" + right, right + "&x&after="):
                script.ask(after(word, make(number())), sizes=sizes)
            script.ask(*edits(number()))
            for word in (right, "%s&after=%s", "%s&x=1", "%s&&afterwards=1", "%s&after"):
                script.ask(after(word.replace("%s", digest()), make(number())), sizes=sizes)
            script.ask(after(right, make(number())), *get(STATUS), sizes=sizes)
    script.note("A digest behind other words; upper case is another digest; a path that makes no numbered edit looks at none.")
    script.ask(request("POST", f"{AT}{number()}?x&after={digest()}&y", spelled({"changes": [sets(1)]})))
    script.ask(request("POST", f"{AT}{number()}?x&after=0&y", spelled({"changes": [sets(2)]})))
    script.ask(after(digest().upper(), at(number(), sets(3))))
    script.ask(*(after("0", made) for made in (put(4), request("DELETE", "/features/4"), batch_of([4, 5]), *get(STATUS, FEED + "1"), PUBLISH)))
    script.note("The faults of a body come first, then a wrong number, then the digest; and then what the service refuses.")
    for digits in (digest(), "0"):
        script.ask(*(after(digits, request("POST", AT + str(edit), body)) for edit in (number(), number() + 1) for body in (b"{", b"{}", b'{"changes":[]}')))
        script.ask(*(after(digits, made) for made in (at(number() + 1, sets(1)), at(number() - 1, sets(1)), at(number(), deletes(999)))))
        script.ask(*(after(digits, made) for made in (set_at(1, number() + 1), request("PUT", f"/admin/features/1/at/{number()}", b"{"))))
    script.note("Before conditions on the feature, where replies have tags.")
    script.tags(5)
    script.admin()
    for digits in ("0", digest()):
        for field in ("if-none-match: *", "if-match: x", "if-match: *"):
            script.ask(after(digits, set_at(1, number(), None, field)))
    script.tags()
    script.note("After a publication, in one, once the disk is opened again, and of a service that is broken.")
    script.ask(PUBLISH, after("0", at(number(), sets(6))), after(digest(), at(number(), sets(6))))
    script.ask(BEGIN, after("0", set_at(7, number())), after(digest(), set_at(7, number())), STEP)
    script.admin()
    script.ask(after("0", at(number(), sets(8))), after(digest(), at(number(), sets(8))))
    script.admin("lost", 2)
    script.ask(put(9), after("0", at(number(), sets(9))), after(digest(), at(number(), sets(9))), *get(STATUS))
    script.note("A full journal.")
    begin(script, 64)
    for edit in range(1, 18):
        script.ask(after(digest(), set_at(edit, edit)))
    script.ask(after("0", set_at(17, number())), PUBLISH, after(digest(), set_at(17, number())))


BLOCKS = [who_may_ask, listed, published, ring, versions, bounds, failing, broken, paged, page_bounds, numbered, numbered_features, digests, under_digests]
