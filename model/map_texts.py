"""Blocks of `map_script.py` about the limits of features and batches, and about the texts and records of edits."""
import string

from map_json import BOTH_WAYS
from map_lines import LAST, drawn, said
from map_stand import POINT


# ---- limits of features


SMALL = {"id": 7, "layer": 1, "minzoom": 0, "maxzoom": 2, "points": 1, "tags": 2, "key": 1, "text": 1}
SIZES = [
    ({}, None), ({"id": 2**63 - 1}, None), ({"id": 2**63}, "E2 Number"), ({"layer": 0}, "E3 Layer"), ({"layer": 64}, None),
    ({"layer": 65}, "E3 Layer"), ({"minzoom": 16, "maxzoom": 16}, None), ({"maxzoom": 17}, None), ({"minzoom": 3}, "E4 Zoom"),
    ({"minzoom": 19, "maxzoom": 19}, None), ({"maxzoom": 20}, "E4 Zoom"), ({"minzoom": 20, "maxzoom": 20}, "E4 Zoom"), ({"maxzoom": 255}, "E4 Zoom"),
    ({"points": 0}, "E5 Geometry"), ({"points": 65536}, "E5 Geometry"), ({"points": 65535}, "E8 Long"), ({"tags": 64}, None),
    ({"tags": 65}, "E6 Tags"), ({"key": 0}, "E6 Tags"), ({"key": 64}, None), ({"key": 65}, "E6 Tags"), ({"text": 1024}, None),
    ({"text": 1025}, "E7 Value"), ({"points": 4093, "tags": 0}, None), ({"points": 4094, "tags": 0}, "E8 Long")]
FIRST_FAULTS = [
    ({"id": 2**63, "layer": 0}, "E3 Layer"), ({"layer": 65, "maxzoom": 20}, "E3 Layer"), ({"minzoom": 3, "points": 0}, "E4 Zoom"),
    ({"points": 0, "tags": 65}, "E5 Geometry"), ({"key": 65, "text": 1025}, "E6 Tags"), ({"text": 1025, "points": 4094}, "E7 Value"),
    ({"id": 2**64 - 1, "points": 4094}, "E2 Number")]
# What the keys of up to 65 tags begin with.
FIRST_BYTES = string.digits + string.ascii_letters + "-._"
# The text that gives 7 a point at the world's corner, up to its tags.
POINT_7 = "010700000000000000" "0170" "0002" "01" "0100" "0000000000000000"


def more(text, count):
    """The text so many times, as the script spells it."""
    return f"<{count}:{text}>" if count else ""


def word(first, length):
    """A JSON string of so many bytes, of which all but the first are `e`."""
    return f'"{first}{more("e", length - 1)}"' if length else '""'


def sized(changes):
    """The line about a feature of points with these numbers."""
    of = SMALL | changes
    points = f"[[0,0]{more(',[0,0]', of['points'] - 1)}]" if of["points"] else "[]"
    tags = ",".join(f"{word(first, of['key'])}:{word('t', of['text'])}" for first in FIRST_BYTES[:of["tags"]])
    return (f'text {of["id"]} {{"layer":{word("l", of["layer"])},"minzoom":{of["minzoom"]},"maxzoom":{of["maxzoom"]},'
            f'"geometry":{{"points":{points}}},"tags":{{{tags}}}}}')


def listed(kind, lists):
    """The line about a feature of these lines or polygons."""
    return f"text 7 {said(drawn(kind, lists, maxzoom=2))}"


def tagged(*tags):
    """The text that gives 7 a point with tags of these texts."""
    return f"{POINT_7}{len(tags):02x}{''.join(tags)}"


def truths(*keys):
    """The same with tags of these keys, each true."""
    return tagged(*(f"{len(key.encode()):02x}{key.encode().hex()}05" for key in keys))


def negative(number):
    """The same with a tag `c` of this number, as one below 0 is spelled."""
    return tagged(f"016303{number.to_bytes(8, 'little', signed=True).hex()}")


def limit_lines():
    yield "# Limits from both sides: number, bytes of the layer's name, zooms, points, tags, bytes of each key and of each text."
    yield from ((sized(changes), told) for changes, told in SIZES)
    yield "# Of two faults the first is named. A number is looked at once its feature is read."
    yield from ((sized(changes), told) for changes, told in FIRST_FAULTS)
    yield "# So many lines of so many points, and polygons of so many rings of so many points."
    yield from [(listed("lines", [[[0, 0]] * points] * count), told) for count, points, told in
                [(0, 3, "E5 Geometry"), (1, 1, "E5 Geometry"), (1, 2, None), (2, 3, None)]]
    yield from [(listed("polygons", [[[[0, 0]] * points] * rings] * count), told) for count, rings, points, told in
                [(1, 0, 3, "E5 Geometry"), (1, 1, 1, "E5 Geometry"), (1, 1, 2, "E5 Geometry"), (1, 2, 3, None), (0, 0, 0, "E5 Geometry"),
                 (2, 1, 3, None)]]
    yield "# What no JSON says: keys ascend by their bytes, and what is spelled as a number below 0 is one."
    for text in [truths("a", "b"), truths("a", "aa"), truths("Z", "a"), truths("z", "é"), negative(-1), negative(-2**63)]:
        yield f"record 1 {text}", f"{text} 01{text}"
    for text in [truths("a", "a"), truths("aa", "a"), truths("é", "z"), negative(0)]:
        yield f"record 1 {text}", "Bad"


# ---- texts


LINE = {"layer": "é", "minzoom": 3, "maxzoom": 16, "geometry": {"lines": [[[1, 2], [LAST, 256]]]},
        "tags": {"a": "x", "b": -2, "c": 3, "d": True, "é": False}}
POLYGONS = {"layer": "hole", "minzoom": 0, "maxzoom": 0, "tags": {}, "geometry": {"polygons": [
    [[[0, 0], [9, 0], [9, 9]], [[1, 1], [2, 1], [2, 2]]], [[[20, 20], [30, 20], [30, 30]]]]}}
LINE_TEXT = ("010201000000000000" "02c3a9" "0310" "02" "0100" "0200" "01000000" "02000000" "ffffffff" "00010000" "05"
             "0161" "01010078" "0162" "03feffffffffffffff" "0163" "020300000000000000" "0164" "05" "02c3a9" "04")
POLYGONS_TEXT = ("01ffffffffffffff7f" "04686f6c65" "0000" "03" "0200"
                 "0200" "0300" "00000000" "00000000" "09000000" "00000000" "09000000" "09000000"
                 "0300" "01000000" "01000000" "02000000" "01000000" "02000000" "02000000"
                 "0100" "0300" "14000000" "14000000" "1e000000" "14000000" "1e000000" "1e000000" "00")


def change(word):
    """The change of a word, as JSON: `7+` gives 7 a point at the world's corner, `7-` takes its feature away."""
    number = int(word[:-1])
    return {"put": number, "feature": POINT} if word.endswith("+") else {"delete": number}


def batch(*words):
    return f"changes {said({'changes': [change(word) for word in words]})}"


def text_lines():
    yield "# The texts of edits: a point (the worked example of docs/FORMATS.md), a line with tags of all kinds, polygons, one with a hole."
    yield f"text 7 {said(POINT)}", "0107000000000000000170000201010000000000" "0000000000"
    yield f"text 258 {said(LINE)}", LINE_TEXT
    yield f"text 9223372036854775807 {said(POLYGONS)}", POLYGONS_TEXT
    yield f"text 1 {BOTH_WAYS[4][0]}", ("010100000000000000" "0170" "0102" "01" "0100" "01000000" "02000000" "02"
                                        "0162" "030000000000000080" "0163" "02ffffffffffffffff")
    yield f"text 9223372036854775808 {said(POLYGONS)}", "E2 Number"
    yield "# Of texts that take a feature away: that of the change, and that of the edit with its count of changes."
    yield "deleted 265", "020901000000000000 01020901000000000000"
    yield "deleted 9223372036854775807"
    yield "deleted 9223372036854775808", "E2 Number"
    yield "# Edits of several changes, each of which gives a number a point at the world's corner or takes its feature away."
    yield batch("7+", "9-"), "02" "01070000000000000001700002010100000000000000000000" "020900000000000000"
    yield batch("7+"), "01" "01070000000000000001700002010100000000000000000000"
    yield from [(batch(), "E10 Batch"), (batch("7+", "7-"), "E11 Twice"), (batch("7+", "8+", "7+"), "E11 Twice"), batch("7+", "8+", "9-"),
                (batch(f"{2**63}-"), "E2 Number"), (batch("7-", f"{2**63}+"), "E2 Number"), (batch(f"{2**63}-", f"{2**63}-"), "E11 Twice")]
    yield batch(*(f"{number}-" for number in range(64)))
    yield batch(*(f"{number}-" for number in range(65))), "E10 Batch"


# ---- edits as JSON, and the records of edits


def record_lines():
    deleted, point = "020700000000000000", "01080000000000000001700002010100000000000000000000"
    yield "# The records of edits: of version 1 the text of one change, of version 2 that of an edit. Whole texts alone are read."
    yield f"record 1 {deleted}", f"{deleted} 01{deleted}"
    yield f"record 2 01{deleted}", f"01{deleted} 01{deleted}"
    yield from [f"record 1 {point}", f"record 2 01{point}", f"record 2 02{deleted}{point}", f"record 2 02{point}{deleted}"]
    yield "# Records of features of each kind: a line with tags of all kinds, polygons, one with a hole."
    yield f"record 1 {LINE_TEXT}", f"{LINE_TEXT} 01{LINE_TEXT}"
    yield f"record 1 {POLYGONS_TEXT}", f"{POLYGONS_TEXT} 01{POLYGONS_TEXT}"
    for first, second in [(LINE_TEXT, POLYGONS_TEXT), (POLYGONS_TEXT, LINE_TEXT)]:
        yield f"record 2 03{first}{deleted}{second}", f"03{first}{deleted}{second} 03{first}{deleted}{second}"
    yield f"record 2 03{LINE_TEXT}{deleted}{LINE_TEXT}", "Bad"
    yield "# Cut short, longer, of another version, without a change, with too many, of a number twice."
    for text in ["1 ", "2 ", f"1 {deleted[:-2]}", f"2 01{deleted[:-2]}", f"1 {deleted}00", f"2 01{deleted}00", f"1 01{deleted}", f"2 {deleted}",
                 f"1 {point[:-2]}",
                 f"0 {deleted}", f"3 01{deleted}", f"3 {deleted}", f"4294967297 {deleted}", "2 00", f"2 00{deleted}", f"2 41{deleted * 65}",
                 f"2 02{deleted}{deleted}", f"2 02{deleted}{deleted[:18]}", f"2 02{deleted}", f"1 {deleted}{deleted}", "1 03", "1 02ffffffffffffffff"]:
        yield f"record {text}", "Bad"
    many = "".join(f"02{number:02x}00000000000000" for number in range(64))
    yield f"record 2 40{many}"
    yield "# The longest texts, and one byte more: 32,768 bytes of changes."
    for length, fault in [(8, None), (9, "Bad")]:
        text = f"010700000000000000{length:02x}{'70' * length}000201fd0f<4093:0000000000000000>00"
        lines = [f"record 1 {text}", f"record 2 01{text}"]
        yield from [(line, fault) if fault else line for line in lines]
