"""Blocks of `map_script.py` about features and edits as JSON."""


# ---- features as JSON


# The members of a feature without a fault, as JSON.
MEMBERS = {"layer": '"p"', "minzoom": "0", "maxzoom": "2", "geometry": '{"points":[[0,0]]}', "tags": "{}"}


def object_with(**members):
    """The text of a feature's object with other texts for these members; None leaves a member out."""
    texts = {name: text for name, text in (MEMBERS | members).items() if text is not None}
    return "{" + ",".join(f'"{name}":{text}' for name, text in texts.items()) + "}"


BOTH_WAYS = [
    (object_with(), '{"geometry":{"points":[[0,0]]},"layer":"p","maxzoom":2,"minzoom":0,"tags":{}}'),
    (object_with(tags='{"d":true,"c":3,"b":-2,"a":"x"}'),
     '{"geometry":{"points":[[0,0]]},"layer":"p","maxzoom":2,"minzoom":0,"tags":{"a":"x","b":-2,"c":3,"d":true}}'),
    (object_with(layer='"l"', maxzoom="8", geometry='{"lines":[[[0,0],[16384,0]]]}'),
     '{"geometry":{"lines":[[[0,0],[16384,0]]]},"layer":"l","maxzoom":8,"minzoom":0,"tags":{}}'),
    (object_with(layer='"w"', minzoom="16", maxzoom="16", geometry='{"polygons":[[[[0,0],[4294967295,0],[0,4294967295]]]]}',
                 tags='{"a":1,"a":2}'),
     '{"geometry":{"polygons":[[[[0,0],[4294967295,0],[0,4294967295]]]]},"layer":"w","maxzoom":16,"minzoom":16,"tags":{"a":2}}'),
    (object_with(minzoom="1", geometry='{"points":[[1,2]]}', tags='{"c":18446744073709551615,"b":-9223372036854775808}'),
     '{"geometry":{"points":[[1,2]]},"layer":"p","maxzoom":2,"minzoom":1,"tags":{"b":-9223372036854775808,"c":18446744073709551615}}'),
    (object_with(minzoom="17", maxzoom="19"), '{"geometry":{"points":[[0,0]]},"layer":"p","maxzoom":19,"minzoom":17,"tags":{}}'),
    (object_with(minzoom="19", maxzoom="19"), '{"geometry":{"points":[[0,0]]},"layer":"p","maxzoom":19,"minzoom":19,"tags":{}}'),
]


def with_each(name, texts):
    return [object_with(**{name: text}) for text in texts]


MEMBER_FAULTS = [
    *with_each("layer", ["5", "null", '["p"]']),
    *with_each("minzoom", ["256", "-1", "1.5", "1.0", "1e0", "-0", '"1"']),
    *with_each("maxzoom", ["256", "1.5", '"1"', "null"]),
    *with_each("geometry", ["[[0,0]]", "{}", '{"points":5}', '{"points":{}}', '{"points":[[0,0]],"lines":[[[0,0],[1,1]]]}',
                            '{"point":[[0,0]]}']),
    *with_each("tags", ["[]", "null"]),
    "null", "5", "[]", "{}",
    *[object_with(**{name: None}) for name in MEMBERS],
    object_with(id="7"), object_with(zoom="7"),
    # In front of another fault.
    object_with(layer='""', maxzoom="256"), object_with(minzoom="3", geometry='{"points":5}'),
]
LAYER_FAULTS = [object_with(layer='""'), object_with(layer='""', minzoom="3")]
ZOOM_FAULTS = [object_with(minzoom="3"), *with_each("maxzoom", ["20", "255"]), object_with(minzoom="20", maxzoom="20"),
               object_with(minzoom="3", geometry='{"points":[]}')]
GEOMETRY_FAULTS = [
    *with_each("geometry", [
        '{"points":[]}', '{"points":[[4294967296,0]]}', '{"points":[[0,4294967296]]}', '{"points":[[-1,0]]}', '{"points":[[0,1.5]]}',
        '{"points":[[0,-0]]}', '{"points":[[1e0,0]]}', '{"points":[["1",0]]}', '{"points":[[]]}', '{"points":[[1]]}', '{"points":[[1,2,3]]}',
        '{"points":[[0,0],5]}', '{"points":[[[0,0]]]}', '{"lines":[]}', '{"lines":[[]]}', '{"lines":[[[0,0]]]}', '{"lines":[[0,0],[1,1]]}',
        '{"lines":[[[0,0],[1,1]],5]}', '{"polygons":[]}', '{"polygons":[[]]}', '{"polygons":[[[[0,0],[1,1]]]]}',
        '{"polygons":[[[0,0],[1,1],[2,2]]]}', '{"polygons":[[[[0,0],[1,1],[2,0]],[[0,0]]]]}']),
    object_with(geometry='{"points":[]}', tags='{"":1}'), object_with(geometry='{"points":[]}', tags='{"a":null}'),
]
TAG_FAULTS = with_each("tags", ['{"":1}', '{"":null}'])
VALUE_FAULTS = with_each("tags", [
    '{"a":null}', '{"a":1,"b":null}', '{"a":1.5}', '{"a":1.0}', '{"a":1e0}', '{"a":-0}', '{"a":[1]}', '{"a":{}}',
    '{"a":18446744073709551616}', '{"a":-9223372036854775809}'])
NO_JSON = ["", "{", object_with() + "}", object_with(layer="p"), object_with(tags='{"a":1e999}'), object_with(tags='{"a":"\t"}'),
           object_with(tags='{"a":NaN}'), object_with(tags='{"a":1,}'), object_with(minzoom="00")]
KEY_65 = '{"a":null,"<65:k>":1}'
LENGTHS = [
    (object_with(layer='"<64:w>"'), None), (object_with(layer='"<65:w>"'), "E3 Layer"),
    (object_with(layer='"<32:é>"'), None), (object_with(layer='"<32:é>w"'), "E3 Layer"),
    (object_with(tags='{"<64:k>":1}'), None), (object_with(tags=KEY_65), "E6 Tags"),
    (object_with(tags='{"a":"<1024:v>"}'), None), (object_with(tags='{"a":"<1025:v>"}'), "E7 Value"),
    (object_with(tags="{" + ",".join(f'"{k}":{k}' for k in range(10, 74)) + "}"), None),
    (object_with(tags="{" + ",".join(f'"{k}":{k}' for k in range(10, 75)) + "}"), "E6 Tags"),
    (object_with(geometry='{"points":[[0,0]<65534:,[0,0]>]}'), "E8 Long"), (object_with(geometry='{"points":[[0,0]<65535:,[0,0]>]}'), "E5 Geometry"),
]
# The longest text of points of one layer with a name of one byte, and one point more.
LONGEST = [(object_with(geometry='{"points":[[0,0]<4092:,[0,0]>]}'), None), (object_with(geometry='{"points":[[0,0]<4093:,[0,0]>]}'), "E8 Long"),
           (object_with(geometry='{"points":[[0,0]<65534:,[0,0]>]}'), "E8 Long")]


def json_lines():
    yield "# Features as JSON, read and written: the members in the order of their bytes, the last value of a key that is repeated."
    yield from ((f"json {text}", written) for text, written in BOTH_WAYS)
    yield "# What is no JSON text."
    yield from ((f"json {text}", "Json") for text in NO_JSON)
    for what, fault, texts in [
            ("Members that are missing, unknown or of another JSON kind, and faults that come behind this one.", "E1 Member", MEMBER_FAULTS),
            ("A layer without a name.", "E3 Layer", LAYER_FAULTS), ("Zooms that no feature has.", "E4 Zoom", ZOOM_FAULTS),
            ("Geometries that no feature has.", "E5 Geometry", GEOMETRY_FAULTS), ("Keys that no tag has.", "E6 Tags", TAG_FAULTS),
            ("Values that no tag has.", "E7 Value", VALUE_FAULTS)]:
        yield f"# {what}"
        yield from ((f"json {text}", fault) for text in texts)
    yield "# The limits of lengths, from both sides."
    yield from ((f"json {text}", fault) if fault else f"json {text}" for text, fault in LENGTHS)
    yield "# The limit of the text."
    yield from ((f"text 7 {text}", fault) if fault else f"text 7 {text}" for text, fault in LONGEST)


# ---- edits as JSON, and the records of edits


POINT_JSON = '{"layer":"p","minzoom":0,"maxzoom":2,"geometry":{"points":[[0,0]]},"tags":{}}'
# How it is shown: members in the order of their names.
POINT_SHOWN = '{"geometry":{"points":[[0,0]]},"layer":"p","maxzoom":2,"minzoom":0,"tags":{}}'
# The same without a name, with a bad geometry, and without a member.
NAMELESS, SHAPELESS, BROKEN = POINT_JSON.replace('"p"', '""'), POINT_JSON.replace("[[0,0]]", "[]"), POINT_JSON.replace(',"tags":{}', "")


def put_json(number, feature=POINT_JSON):
    return f'{{"put":{number},"feature":{feature}}}'


def delete_json(number):
    return f'{{"delete":{number}}}'


def changes_json(*changes):
    return f'changes {{"changes":[{",".join(changes)}]}}'


def checked_json(*changes):
    return f'checked {{"changes":[{",".join(changes)}]}}'


def seen_json(change, feature="null"):
    """A change, and the feature that its author saw."""
    return f'{change[:-1]},"was":{feature}}}'


def checked_lines():
    yield "# Edits as JSON, with what their author saw of each number: the text of the edit, and what was seen."
    yield (checked_json(seen_json(put_json(7)), seen_json(delete_json(9), POINT_JSON)),
           "02" "01070000000000000001700002010100000000000000000000" "020900000000000000 null " + POINT_SHOWN)
    yield checked_json(f'{{"was":{POINT_JSON},"put":8,"feature":{POINT_JSON}}}'), "01" f"01080000000000000001700002010100000000000000000000 {POINT_SHOWN}"
    yield checked_json(seen_json(put_json(7), POINT_JSON.replace("{}", '{"b":1,"a":[]}'.replace("[]", "true"))))
    yield checked_json(*(seen_json(delete_json(number)) for number in range(64)))
    yield "# E1, of the members of any change, of its feature, and of what was seen."
    for change in [put_json(7), delete_json(7), seen_json(put_json(7), "7"), seen_json(delete_json(7), BROKEN), seen_json(put_json(7, BROKEN)),
                   seen_json(delete_json(7))[:-1] + ',"more":1}']:
        yield checked_json(change), "E1 Member"
    yield checked_json(seen_json(delete_json(1)), delete_json(2)), "E1 Member"
    yield checked_json(seen_json(delete_json(7)), seen_json(delete_json(7), BROKEN)), "E1 Member"
    yield "# E10 and E11, then the faults of the changes, and then those of what was seen."
    yield from [(checked_json(), "E10 Batch"), (checked_json(*(seen_json(delete_json(number)) for number in range(65))), "E10 Batch")]
    yield checked_json(seen_json(delete_json(7), NAMELESS), seen_json(delete_json(7))), "E11 Twice"
    yield checked_json(seen_json(put_json(2**63), NAMELESS)), "E2 Number"
    yield checked_json(seen_json(put_json(1), NAMELESS), seen_json(put_json(2, SHAPELESS)))
    yield checked_json(seen_json(put_json(1), SHAPELESS), seen_json(put_json(2), NAMELESS))
    yield checked_json(seen_json(put_json(1)), seen_json(put_json(2), NAMELESS))


def changes_lines():
    yield "# Edits as JSON, and the texts of these."
    yield changes_json(put_json(7), delete_json(9)), "02" "01070000000000000001700002010100000000000000000000" "020900000000000000"
    yield changes_json('{"feature":%s,"put":8,"put":7}' % POINT_JSON), "01" "01070000000000000001700002010100000000000000000000"
    yield from [changes_json(delete_json(0)), changes_json(delete_json(2**63 - 1)), changes_json(*map(delete_json, range(64)))]
    yield from [changes_json(put_json(1), put_json(2), put_json(3), delete_json(4)), changes_json(put_json(2), put_json(1))]
    yield "# E1, of the object and of any change, before all others."
    for text in ["[]", "null", "{}", '{"changes":{}}', '{"changes":null}', '{"changes":[],"more":1}', '{"change":[]}', '{"changes":[7]}']:
        yield f"changes {text}", "E1 Member"
    for change in ["{}", "[]", '{"put":7}', '{"feature":%s}' % POINT_JSON, '{"delete":7,"put":7}', '{"delete":7,"feature":%s}' % POINT_JSON,
                   put_json(7, BROKEN), put_json(7, "7"), put_json(-1), put_json("7.0"), put_json('"7"'), put_json(2**64), delete_json(-1),
                   delete_json("null"), delete_json("1e0"), delete_json(2**64), '{"put":7,"feature":%s,"more":1}' % POINT_JSON]:
        yield changes_json(change), "E1 Member"
        yield changes_json(put_json(2**63), put_json(2**63), change), "E1 Member"
    yield changes_json(*["{}"] * 65), "E1 Member"
    yield "# E10, of the count, before E11, of the numbers."
    yield changes_json(), "E10 Batch"
    yield changes_json(*[delete_json(7)] * 65), "E10 Batch"
    yield changes_json(*map(delete_json, range(65))), "E10 Batch"
    for numbers in ([7, 7], [7, 8, 7], [8, 7, 7], [2**63, 2**63], [*range(63), 0], [*range(63), 62]):
        yield changes_json(*map(delete_json, numbers)), "E11 Twice"
    yield changes_json(put_json(7), delete_json(7)), "E11 Twice"
    yield changes_json(put_json(7, NAMELESS), put_json(2**63), delete_json(7)), "E11 Twice"
    yield "# E2 to E7 of the first change that has one."
    yield from [(changes_json(delete_json(2**63)), "E2 Number"), (changes_json(put_json(2**63, NAMELESS)), "E2 Number"),
                (changes_json(delete_json(2**64 - 1), put_json(7, NAMELESS)), "E2 Number"), (changes_json(put_json(7, NAMELESS)), "E3 Layer"),
                (changes_json(put_json(7, NAMELESS), delete_json(2**63)), "E3 Layer"), (changes_json(put_json(7), put_json(8, SHAPELESS)), "E5 Geometry"),
                (changes_json(put_json(7, SHAPELESS), put_json(8, NAMELESS)), "E5 Geometry")]
    yield "# E8 of all texts together: 32,768 bytes are within the limit."
    wide = POINT_JSON.replace("[[0,0]]", "[[0,0]<2044:,[0,0]>]")
    for layer, fault in [("pppppp", None), ("ppppppp", "E8 Long")]:
        line = changes_json(put_json(1, wide), put_json(2, wide.replace('"p"', f'"{layer}"')), delete_json(3))
        yield (line, fault) if fault else line
