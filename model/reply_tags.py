"""Blocks of `reply_script.py` about entity tags and conditions on them: of the archive, of tiles, and of edits."""
import connections
import tiles
from reply_routes import CHECKED_EDIT, ONE_EDIT
from reply_stand import A, BEGIN, BODY, CANCEL, GET_ARCHIVE, PUBLISH, STEP, WORLD, put, request, spelled, with_point

# The number with which tags of tiles begin.
START = 17


def with_tags(block):
    """The block where replies have entity tags."""
    def tagged(script):
        script.tags(START)
        block(script)
        script.tags()
    return tagged


# ---- the archive


def part_of(first, last, *fields):
    return request("GET", "/map.pmtiles", b"", f"range: bytes={first}-{last}", *fields)


HEAD_OF_ARCHIVE = request("HEAD", "/map.pmtiles")


def tags(script):
    script.say("Entity tags: a whole archive has one, and so has its head, and a part of it; a refusal has none.")
    with_point(script)
    script.ask(GET_ARCHIVE, PUBLISH)
    shows = [GET_ARCHIVE, HEAD_OF_ARCHIVE, part_of(0, 6), part_of(999, 1000)]
    script.ask(*shows, sizes="4096,1")
    script.note("An edit, a beginning and a cancellation leave it as it is. The next publication has another one, also of the same bytes.")
    script.ask(put(8), BEGIN, HEAD_OF_ARCHIVE, CANCEL, HEAD_OF_ARCHIVE)
    script.ask(BEGIN, HEAD_OF_ARCHIVE, STEP, *shows)
    script.ask(PUBLISH, HEAD_OF_ARCHIVE, request("DELETE", "/features/8"), PUBLISH, *shows)
    script.note("It is the same after a restart. A map without tiles is published without an archive, and so without a tag.")
    script.again()
    script.ask(HEAD_OF_ARCHIVE, request("DELETE", "/features/7"), PUBLISH, HEAD_OF_ARCHIVE, put(7), PUBLISH, HEAD_OF_ARCHIVE)
    script.note("Features and metadata have none.")
    script.ask(request("GET", "/features/7"), request("GET", "/map/metadata"))


# Values of `if-range`: the archive's tag, another one, a weak one, a date, none.
OF_IF_RANGE = ['"1-1-223"', '"0-0-0"', 'W/"1-1-223"', "Sun, 06 Nov 1994 08:49:37 GMT", ""]


def conditions_of_ranges(script):
    script.say("A range under a condition is as none: the whole is sent, whatever the condition is.")
    with_point(script)
    script.ask(PUBLISH)
    for value in OF_IF_RANGE:
        script.ask(part_of(0, 6, f"if-range: {value}"), part_of(999, 1000, f"if-range: {value}"))
    script.note("In front of the range, in other letters, twice, on HEAD, and without a range; fields of other names are none.")
    script.ask(request("GET", "/map.pmtiles", b"", "IF-RANGE: x", "range: bytes=0-6"), part_of(0, 6, "If-Range: x", "If-Range: y"), sizes="4096,1")
    script.ask(request("HEAD", "/map.pmtiles", b"", "range: bytes=0-6", "if-range: x"), request("GET", "/map.pmtiles", b"", "if-range: x"))
    script.ask(part_of(0, 6, "if-ranges: x"), part_of(0, 6, "x-if-range: x"), part_of(0, 6, "if_range: x"))


# Values that name the tag of the archive, those that do so in the weak comparison alone, and those that don't.
NAMED = ["*", '"1-1-223"', '"a", "1-1-223"', '"1-1-223","b"', ' \t, ,W/"a" ,\t"1-1-223" \t,x', '*, "1-1-223"']
WEAKLY_NAMED = ['W/"1-1-223"', '"a" ,\tW/"1-1-223"\t, "b"']
NOT_NAMED = ["", ",", '"1-1-222"', '"01-1-223"', "1-1-223", "'1-1-223'", '"1-1-223', '"1-1-223""', '"1-1-223" "1-1-223"', '"1-1-223";"a"', '"1-1-223\u00a0"',
             '"1-1-223"\u00a0', '" 1-1-223 "', 'w/"1-1-223"', 'W/ "1-1-223"', 'W"1-1-223"', 'W/W/"1-1-223"', "**", "*,*", '*, "a"', '"*"', "W/*"]
MATCH, NONE_MATCH = 'if-match: "1-1-223"', 'if-none-match: "1-1-223"'
OTHER_MATCH, OTHER_NONE_MATCH = 'if-match: "1-1-222"', 'if-none-match: "1-1-222"'


def of_archive(*fields, method="GET"):
    return request(method, "/map.pmtiles", b"", *fields)


def named_tags(script):
    script.say("Conditions of reads of the archive: if-match that doesn't name its tag is 412, if-none-match that does, also weakly, is 304.")
    with_point(script)
    script.ask(PUBLISH)
    for value in NAMED + WEAKLY_NAMED + NOT_NAMED:
        script.ask(of_archive(f"if-match: {value}"), of_archive(f"if-none-match: {value}"))
    script.note("On HEAD; in other letters; of a request with a body.")
    for value in (NAMED[1], WEAKLY_NAMED[0], NOT_NAMED[2]):
        script.ask(*(of_archive(f"{name}: {value}", method="HEAD") for name in ("if-match", "if-none-match")), sizes="4096,1")
    script.ask(of_archive("IF-MATCH: x"), of_archive("If-None-Match:*"), request("GET", "/map.pmtiles", BODY, NONE_MATCH), sizes="4096,1")
    script.note("Several fields of one name are one list, in which an asterisk is no tag; fields of other names, and dates, aren't looked at.")
    script.ask(of_archive(OTHER_MATCH, MATCH), of_archive(MATCH, OTHER_MATCH), of_archive(OTHER_NONE_MATCH, NONE_MATCH), of_archive(NONE_MATCH, "if-none-match:"))
    script.ask(of_archive("if-match: *", OTHER_MATCH), of_archive("if-none-match: *", OTHER_NONE_MATCH), of_archive("if-none-match: *", "if-none-match: *"))
    script.ask(of_archive(OTHER_MATCH, 'if-none-match: "a"', OTHER_MATCH, "range: bytes=0-6"), part_of(0, 6, OTHER_MATCH, OTHER_MATCH), part_of(0, 6, OTHER_MATCH, MATCH))
    script.ask(of_archive(OTHER_MATCH, OTHER_MATCH), of_archive(NONE_MATCH, NONE_MATCH), of_archive(OTHER_MATCH, "If-Match:"))
    script.ask(of_archive(OTHER_MATCH, OTHER_MATCH, NONE_MATCH), of_archive(NONE_MATCH, OTHER_MATCH, "If-None-Match: *"))
    script.ask(of_archive("if-matches: x", "x-if-match: x", "if_match: x"), of_archive("if-none: *", "x-if-none-match: *", "if_none_match: *"))
    script.ask(of_archive("if-modified-since: Sun, 06 Nov 2044 08:49:37 GMT", "if-unmodified-since: Sun, 06 Nov 1994 08:49:37 GMT"))


def ordered_conditions(script):
    script.say("Several conditions: first if-match, then if-none-match, then if-range, then the range.")
    with_point(script)
    script.ask(PUBLISH)
    for fields in [(MATCH, NONE_MATCH), (OTHER_MATCH, NONE_MATCH), (MATCH, OTHER_NONE_MATCH), (OTHER_MATCH, OTHER_NONE_MATCH)]:
        script.ask(of_archive(*fields), of_archive(*fields[::-1]), of_archive(*fields, method="HEAD"))
        script.ask(part_of(0, 6, *fields), part_of(999, 1000, *fields), part_of(0, 6, *fields, "if-range: x"))
    for field in (MATCH, NONE_MATCH, OTHER_MATCH, OTHER_NONE_MATCH):
        script.ask(part_of(0, 6, field), part_of(999, 1000, field), part_of(0, 6, field, 'if-range: "1-1-223"'), sizes="4096,1")
    script.note("A connection stays behind such a reply, unless it is to be closed.")
    for fields in ([OTHER_MATCH], [NONE_MATCH]):
        for method in ("GET", "HEAD"):
            script.ask(*(of_archive(*fields, *more, method=method) for more in ([], [], ["connection: close"], [])), sizes="4096,1")
        script.ask(of_archive(*fields).replace(b"HTTP/1.1", b"HTTP/1.0"), A)
    script.note("A path, a method and what is wrong with a head are named before.")
    for field in (OTHER_MATCH, NONE_MATCH):
        script.ask(request("GET", "/map.pmtiles/", b"", field), *(of_archive(field, method=method) for method in ("PUT", "POST", "OPTIONS")))
        script.wait(of_archive(field, "host: y"))
    script.note("Neither reply reads the disk, and one that can't be written is broken off.")
    script.again("from", 1)
    script.ask(of_archive(OTHER_MATCH), of_archive(NONE_MATCH), of_archive(MATCH), of_archive(OTHER_NONE_MATCH))
    script.again()
    size = len(connections.outcome(script.stand.service, of_archive(NONE_MATCH), 4096).written)
    for room in (0, 30, size - 1, size):
        script.writer(10**9, room)
        script.ask(of_archive(NONE_MATCH), A)
    script.writer()


def conditions_in_time(script):
    script.say("Conditions of reads before and behind publications.")
    with_point(script)
    fields = ["if-match: *", "if-none-match: *", 'if-match: "0-0-0"', 'if-none-match: "0-0-0"']
    script.ask(*map(of_archive, fields), of_archive(fields[1], method="HEAD"))
    script.note("Also where a publication had no tiles, and so no archive.")
    script.ask(request("DELETE", "/features/7"), PUBLISH, *map(of_archive, fields[:2]), of_archive('if-none-match: "1-2-0"'), of_archive('if-match: "1-2-0"'))
    script.note("A client that has the archive gets it again only behind the next publication, not behind an edit, a beginning, or a restart.")
    with_point(script)
    script.ask(PUBLISH)
    shows = [of_archive(NONE_MATCH), of_archive(MATCH, method="HEAD"), part_of(0, 6, MATCH)]
    script.ask(*shows, put(8), *shows, BEGIN, *shows, CANCEL, *shows)
    script.again()
    script.ask(*shows, PUBLISH, *shows, of_archive('if-none-match: "1-1-223", "2-2-234"'), of_archive('if-match: "2-2-234"', method="HEAD"))
    script.note("Another archive of the same bytes has another tag.")
    script.ask(request("DELETE", "/features/8"), PUBLISH, *shows, of_archive('if-none-match: "3-3-223"'), of_archive('if-match: "3-3-223"', method="HEAD"))
    script.note("Features, metadata and the status have no tag: they are sent whatever the condition is.")
    script.admin()
    paths = ["/features/7", "/map/metadata", "/admin/status", "/admin/features/from/0"]
    for field in ('if-match: "1-1-222"', 'if-none-match: "3-3-223"', "if-none-match: *"):
        script.ask(*(request(method, path, b"", field) for path in paths for method in ("GET", "HEAD")))


# ---- where replies have no tags


def untagged(script):
    script.say("Where replies have no entity tags, fields about tags aren't looked at: reads and edits are made as without them.")
    with_point(script)
    script.ask(PUBLISH)
    script.ask(GET_ARCHIVE, HEAD_OF_ARCHIVE, part_of(0, 6), part_of(999, 1000), sizes="4096,1")
    fields = [MATCH, NONE_MATCH, OTHER_MATCH, OTHER_NONE_MATCH, "if-match: *", "if-none-match: *", "if-range: x"]
    for field in fields:
        script.ask(of_archive(field), of_archive(field, method="HEAD"), part_of(0, 6, field), part_of(999, 1000, field))
        script.ask(request("GET", "/map/0/0/0.hex", b"", field), request("HEAD", "/map/0/0/0.mvt", b"", field), request("GET", "/features/7", b"", field))
    script.ask(part_of(0, 6, *fields), of_archive(*fields), sizes="4096,1")
    for number, field in enumerate(fields, 20):
        script.ask(request("PUT", f"/features/{number}", BODY, field), request("DELETE", f"/features/{number}", b"", field))
    script.ask(request("POST", "/edits", ONE_EDIT, "if-match: *"), *(request("POST", "/publish" + name, b"", "if-match: x") for name in ("/begin", "/cancel", "")))


# ---- tiles


def tile_at(zoom, column, row, *fields, method="GET", ending="hex"):
    return request(method, f"/map/{zoom}/{column}/{row}.{ending}", b"", *fields)


def named(number, weak=True):
    return f'if-none-match: {"W/" if weak else ""}"{START}-{number}"'


def tags_of_tiles(script):
    script.say("Tags of tiles: who names the tag that a tile has gets 304, also of an empty one; an edit in the tile changes it, one far away doesn't.")
    script.disk(256)
    script.ask(tile_at(0, 0, 0), tile_at(0, 0, 0, named(0)), tile_at(0, 0, 0, named(1)), tile_at(0, 0, 0, method="HEAD"), sizes="4096,1")
    script.ask(put(7), tile_at(0, 0, 0), tile_at(0, 0, 0, ending="mvt"), tile_at(0, 0, 0, named(1)), tile_at(0, 0, 0, named(0)), sizes="4096")
    script.ask(tile_at(0, 0, 0, named(1), method="HEAD"), tile_at(0, 0, 0, named(1), ending="mvt"), tile_at(0, 0, 0, named(1, False)), tile_at(0, 0, 0, "if-none-match: *"))
    far = tiles.feature({"points": [[WORLD, WORLD]]})
    script.ask(put(8, far), *(tile_at(*place) for place in ((0, 0, 0), (2, 0, 0), (2, 3, 3), (2, 1, 1))))
    script.ask(tile_at(2, 0, 0, named(1)), tile_at(2, 3, 3, named(1)), tile_at(2, 3, 3, named(2)), tile_at(2, 1, 1, named(0)))
    script.note("A place above the last zoom has none.")
    script.ask(tile_at(20, 0, 0), tile_at(19, 0, 0), tile_at(20, 0, 0, named(0)))
    script.note("Other tags, other letters, lists and several fields; if-match isn't looked at, nor is the range or its condition.")
    for value in (f'"{START}-1"', f'W/"{START}-01"', f'w/"{START}-1"', f'W/"{START + 1}-1"', f"{START}-1", f'"a", W/"{START}-1"', f'"a,{START}-1"', ""):
        script.ask(tile_at(2, 0, 0, f"if-none-match: {value}"), tile_at(2, 0, 0, f"If-None-Match: {value}", "if-none-match: x"))
    script.ask(tile_at(2, 0, 0, "if-none-match: x", named(1)), tile_at(2, 0, 0, "if-none-match: *", "if-none-match: x"), tile_at(2, 0, 0, "if-match: x"))
    script.ask(tile_at(2, 0, 0, "if-match: x", named(1)), tile_at(2, 0, 0, "range: bytes=0-1", "if-range: x", named(1)), tile_at(2, 0, 0, "range: bytes=0-1"))
    script.note("A publication leaves the tags; a tile that is read from it has the same. They begin anew when the disk is opened: edits that are published have none.")
    script.ask(PUBLISH, *(tile_at(*place) for place in ((2, 0, 0), (2, 3, 3), (2, 1, 1))), tile_at(2, 0, 0, named(1)))
    script.again()
    script.ask(*(tile_at(*place) for place in ((2, 0, 0), (2, 3, 3))), put(9), tile_at(2, 0, 0), tile_at(2, 3, 3))
    script.again()
    script.ask(*(tile_at(*place) for place in ((2, 0, 0), (2, 3, 3))), request("DELETE", "/features/7"), tile_at(2, 0, 0), tile_at(2, 3, 3))
    script.note("Nothing is read where the tag is named.")
    script.ask(PUBLISH)
    script.again("from", 1)
    script.ask(tile_at(2, 0, 0, named(0)), tile_at(2, 0, 0), tile_at(2, 0, 0, named(1)))


def numbers_of_tiles(script):
    script.say("The number of a tile is that of the newest edit in its cells, of the smallest that it fits: cells of three sizes, 32 in a row, and of the last 256 too.")
    script.disk(4096)
    bits = (27, 22, 17)
    for bit in bits:
        cell = 2**bit
        script.ask(put(1, tiles.feature({"points": [[0, 0]]})), put(2, tiles.feature({"points": [[cell, 0], [0, cell]]})))
        script.ask(put(3, tiles.feature({"points": [[33 * cell % (WORLD + 1), 0]]})), put(4, tiles.feature({"lines": [[[5 * cell, 0], [36 * cell % (WORLD + 1), cell]]]})))
        script.ask(put(5, tiles.feature({"points": [[257 * cell % (WORLD + 1), 0]]})))
        for zoom in (0, 5, 9, 10, 31 - bit, min(19, 33 - bit), min(19, 36 - bit), 19):
            script.ask(*(tile_at(zoom, number % 2**zoom, 0, method="HEAD") for number in (0, 1, 2, 7, 8, 9, 32, 33, 64, 128, 129, 257, 2**zoom - 1)))
        script.ask(request("DELETE", "/features/4"), *(tile_at(zoom, 0, 0, method="HEAD") for zoom in range(0, 20, 3)))


# ---- edits

EDIT_CONDITIONS = ["if-match: *", 'IF-MATCH: "1-1-223"', "if-match:", "if-none-match: *", 'If-None-Match: "a", W/"b"', "If-Match: \t* ", "if-none-match: *, *"]


def edits_of(number, *fields):
    return [request("PUT", f"/features/{number}", BODY, *fields), request("DELETE", f"/features/{number}", b"", *fields)]


def edits_under_conditions(script):
    script.say("A feature is set or deleted under if-match: * only where it is, under if-none-match: * only where it isn't; other conditions are refused.")
    with_point(script)
    shows = [request("GET", f"/features/{number}") for number in (7, 8)]
    for field in EDIT_CONDITIONS:
        for number in (7, 8):
            for edit in edits_of(number, field):
                script.ask(put(7), request("DELETE", "/features/8"), edit, *shows, sizes="4096")
    script.note("Both conditions, or several fields of one, are no asterisk.")
    for fields in [("if-match: *", "if-none-match: *"), ("if-match: *", "if-match: *"), ("if-none-match: *", "if-none-match: *"),
                   ("if-match: *", 'if-match: "a"'), ("if-none-match: *", "if-none-match:"), ("if-match: *", "if-none-match:")]:
        script.ask(put(7), *edits_of(7, *fields), *edits_of(8, *fields), *shows, sizes="4096,1")
    script.note("One edit each, its number told; what comes behind it on the connection is answered.")
    script.ask(request("PUT", "/features/30", BODY, "if-none-match: *"), request("PUT", "/features/30", BODY, "if-none-match: *"), *edits_of(30, "if-match: *"),
               *edits_of(30, "if-match: *"), request("DELETE", "/features/30", b"", "if-none-match: *"), shows[0])
    script.note("The body is read before: what is wrong with it is named first. What the feature breaks beyond that is named behind the look.")
    for body in (b"", b"{", b"[]", BODY.replace(b'"p"', b'""'), BODY.replace(b'"minzoom":0', b'"minzoom":3')):
        script.ask(*(request("PUT", f"/features/{number}", body, field) for number in (7, 9) for field in ("if-match: *", "if-none-match: *", 'if-match: "a"')))
    wide = spelled(tiles.feature({"lines": [[[0, 0], [WORLD, 0]]]}, 19, 19))
    script.ask(*(request("PUT", f"/features/{number}", wide, field) for number in (7, 9) for field in ("if-match: *", "if-none-match: *")))
    script.note("On a disk that fails: the look makes no call.")
    script.again("from", 1)
    script.ask(*edits_of(7, "if-none-match: *"), *edits_of(9, "if-match: *"), *edits_of(7, 'if-match: "a"'), *edits_of(7, "if-match: *"), put(7))


OF_ARCHIVE = [tags, conditions_of_ranges, named_tags, ordered_conditions, conditions_in_time]
BLOCKS = [untagged, *map(with_tags, [*OF_ARCHIVE, tags_of_tiles, numbers_of_tiles, edits_under_conditions])]
