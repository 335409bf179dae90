"""Lines of `map_script.py` about features and edits as JSON made to do harm, and about snapshots, edits and records that are cut short or damaged:
each answer is by the models, and a line about JSON has beside it what RFC 8259 and docs/HTTP.md say.
"""
from disk import Change, edit_text, text_of
from map_stand import POINT
from read_hostile import cut, damaged

MEMBERS = {"layer": '"p"', "minzoom": "0", "maxzoom": "2", "geometry": '{"points":[[0,0]]}', "tags": "{}"}
E7, JSON = "E7 Value", "Json"
OTHER_WORDS = ["NaN", "Infinity", "True", "nul", "'x'", "0x1", "1_0", "+1", ".5", "5.", "1e", "1e+", "- 1", "00", "-01", "1 2", "[1,]", "{,}", "/**/1",
               "1//", "", ",", ":", "]", '"']


def feature(**members):
    """The text of a feature, with other texts for these members."""
    return "{" + ",".join(f'"{name}":{text}' for name, text in (MEMBERS | members).items()) + "}"


def tagged(value):
    """A feature with a tag of this value."""
    return feature(tags=f'{{"a":{value}}}')


def values():
    """Values of a tag, and what a feature with it is answered; None where it has no fault."""
    yield "# A value of a tag is nested in two objects: 125 more are within the limit of 127, and 126 aren't."
    for deep, wanted in [(1, E7), (125, E7), (126, JSON), (127, JSON), (128, JSON), (5000, JSON)]:
        yield f"<{deep}:[><{deep}:]>", wanted
        yield f'<{deep}:{{"b":>0<{deep}:}}>', wanted
    yield "# Brackets in a text are none, and marks behind a backslash."
    yield from [('"<300:[>"', None), ('"<300:\\\\>[{"', None), ('"\\"<300:[>"', None), ('"<1024:\\\\>"', None), ('"<1025:\\\\>"', E7)]
    yield "# Numbers of 60,000 digits."
    yield from [("<60000:9>", JSON), ("-<60000:9>", JSON), ("0.<60000:0>1", E7), ("0.<60000:9>", E7), ("1<60000:0>e-60000", E7), ("1<60000:0>", JSON),
                ("1e<60000:9>", JSON), ("1e-<60000:9>", E7), ("1e<60000:0>1", E7), ("0e<60000:9>", E7), ("<60000:0>", JSON), ("1.<60000:0>", E7)]
    yield "# Numbers at the ends of 64 bits and of a double."
    yield from [("18446744073709551615", None), ("18446744073709551616", E7), ("-9223372036854775808", None), ("-9223372036854775809", E7),
                ("1<308:0>", E7), ("1<309:0>", JSON), ("1e308", E7), ("1e309", JSON), ("-1e309", JSON), ("1e-500", E7), ("0e500", E7), ("-0.0", E7)]
    yield "# Halves of surrogate pairs, in a value, a key and what a repeated key loses."
    yield from [('"\\ud800"', JSON), ('"\\udfff"', JSON), ('"\\ud800\\ud800"', JSON), ('"\\udc00\\ud800"', JSON), ('"\\ud83cx"', JSON), ('"\\ud83c\\n"', JSON),
                ('"\\ud83c\\udf0d"', None), ('"\\uD83C\\uDF0D"', None), ('1,"\\ud800":1', JSON), ('"\\ud800","a":1', JSON), ('["\\ud800"],"a":1', JSON),
                ('"\\ud83c', JSON), ('"\\ud83', JSON)]
    yield "# NUL and other bytes below a blank, in escapes; escapes that are none; a byte order mark."
    yield from [('"\\u0000"', None), ('1,"\\u0000":1', None), ('"\\b\\f\\n\\r\\t\\/"', None), ('"\\0"', JSON), ('"\\a"', JSON), ('"\\x41"', JSON),
                ('"\\u12"', JSON), ('"\\u+123"', JSON), ('"\\U0041"', JSON), ('"\ufeff"', None), ("\ufeff1", JSON), ("\u00a01", JSON)]
    yield "# Keys that are repeated: the last value counts, and all are read."
    yield from [('null,"a":2', None), ('2,"a":null', E7), ('1<3000:,"a":1>', None), ('1,"\\u0061":2', None), ('1,"A":2', None), ('x,"a":1', JSON)]
    yield "# Words of other readers."
    yield from ((word, JSON) for word in OTHER_WORDS)


def json_lines():
    for found in values():
        yield found if isinstance(found, str) else (f"json {tagged(found[0])}", found[1])
    yield "# Members that are repeated, byte order marks around an object, and texts that never end."
    yield from [('json {"layer":5,' + feature()[1:], None), (f'json {feature()[:-1]},"layer":5}}', "E1 Member"),
                (f'json {feature()[:-1]},"layer":""}}', "E3 Layer"), (f"json \ufeff{feature()}", JSON),
                (f"json {feature()}\ufeff", JSON), (f"json {feature()}{feature()}", JSON)]
    yield from ((f"json <60000:{text}>", JSON) for text in ["[", '{"a":', "]", '"', "-", "\\"])


def changes(*texts):
    """A line with an edit of these changes."""
    return f'changes {{"changes":[{",".join(texts)}]}}'


def put(number, text=None):
    return f'{{"put":{number},"feature":{text or feature()}}}'


def delete(number):
    return f'{{"delete":{number}}}'


def changes_lines():
    e1, e2, e10, e11 = "E1 Member", "E2 Number", "E10 Batch", "E11 Twice"
    yield "# Edits whose values are nested: a tag of a change is in five lists and objects, so 122 more are within the limit of 127, and 123 aren't."
    for deep, wanted in [(122, E7), (123, JSON), (5000, JSON)]:
        yield changes(delete(1), put(2, tagged(f"<{deep}:[><{deep}:]>"))), wanted
    for deep, wanted in [(125, e1), (126, JSON), (30000, JSON)]:
        yield changes(f"<{deep}:[><{deep}:]>"), wanted
        yield changes(delete(1), f'<{deep}:{{"put":>1<{deep}:}}>'), wanted
    yield "# Ids of 60,000 digits, at the ends of 64 bits, with fractions and exponents."
    for number, wanted in [("<60000:9>", JSON), ("1<60000:0>", JSON), ("0.<60000:0>", e1), ("1.<60000:0>", e1), ("1e-<60000:9>", e1), ("<60000:0>", JSON),
                           ("18446744073709551615", e2), ("18446744073709551616", e1), ("9223372036854775808", e2), ("9223372036854775807", None),
                           ("-9223372036854775808", e1), ("-0", e1), ("1e1", e1), ("01", JSON), ("0x1", JSON), ("", JSON)]:
        yield changes(delete(number)), wanted
        yield changes(put(1), put(number)), wanted
    yield "# Members that are repeated: the last one counts, and all are read. Escapes in their names."
    yield from [(f'changes {{"changes":5,"changes":[{delete(1)}]}}', None), (f'changes {{"changes":[{delete(1)}],"changes":5}}', e1),
                (f'changes {{"changes":[{delete(1)}],"changes":[]}}', e10), (changes('{"delete":"x","delete":2}'), None),
                (changes('{"delete":2,"delete":"x"}'), e1), (changes('{"put":1,"put":2,"feature":5,"feature":%s}' % feature()), None),
                (changes('{"delete":1<3000:,"delete":2>}'), None), (changes('{"\\u0064elete":2}'), None), (changes('{"delete\\u0000":2}'), e1),
                (changes('{"\\ud800":2}'), JSON), (changes('{"delete":2,"\\ud83c\\udf0d":1}'), e1), (f"changes \ufeff{changes(delete(1))[8:]}", JSON)]
    yield "# One id twice, far apart, in as many changes as there may be; the same among more; as many changes as a body has bytes for."
    yield changes(*map(delete, [5, *range(6, 68), 5])), e11
    yield changes(*map(delete, [*range(62), 2**63 - 1, 2**63 - 1])), e11
    yield changes(put(5), *map(delete, range(6, 68)), put(5, tagged("null"))), e11
    yield changes(*map(delete, [5, *range(6, 69), 5])), e10
    yield 'changes {"changes":[{"delete":1}<4600:,{"delete":1}>]}', e10
    yield 'changes {"changes":[{}<20000:,{}>]}', e1
    yield f'changes {{"changes":[{put(1)}<500:,{put(1)}>]}}', e10
    yield f'changes {{"changes":[{put(1)}<500:,{put(1)}>,[]]}}', e1
    yield "# 64 changes of the widest reach are within the limits of their texts."
    yield changes(*(put(number, feature(minzoom="9", maxzoom="9", geometry='{"lines":[[[0,0],[4294967295,4294967295]]]}')) for number in range(64))), None
    yield "# Texts that never end, or go on behind their end."
    yield from ((f"changes {text}", JSON) for text in ['{"changes":<60000:[>', '<12000:{"changes":>', '{"changes":[<12000:{"put":>', '{"changes":["<60000:a>',
                                                       f"{changes(delete(1))[8:]}<1000:}}>", f"{changes(delete(1))[8:]}{changes(delete(1))[8:]}", '{"changes"'])


def text_lines():
    point, other = Change(7, POINT), Change(9, POINT | {"layer": "q"})
    yield "# The snapshot of two points, cut behind each byte, and with each byte changed to 0, 255 and its neighbours."
    snapshot = text_of(point) + text_of(other)
    yield "map 0"
    yield from each("restore", snapshot)
    yield "# The same of an edit of two changes, in a map of its own."
    yield "map 0"
    yield from each("make", edit_text([point, Change(9, None)]))
    yield "# The same of the records of a change and of an edit."
    yield from each("record 1", text_of(point))
    yield from each("record 2", edit_text([point, Change(9, None)]))


def each(word, data):
    """A line for each place at which a text may be cut, and for each damage of a byte."""
    for line in [*cut([""], data), *damaged([""], data)]:
        change = line.strip()
        if change.startswith(".."):
            yield f"{word} {data[: int(change[2:])].hex()}"
        else:
            at, _, byte = change.partition("=")
            yield f"{word} {(data[: int(at)] + bytes.fromhex(byte) + data[int(at) + 1 :]).hex()}"


PARTS = [json_lines, changes_lines, text_lines]


def lines():
    """Each line; one with an answer that is wanted is beside it."""
    for found in (line for part in PARTS for line in part()):
        yield found[0] if isinstance(found, tuple) and found[1] is None else found
