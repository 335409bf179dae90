"""Tests of vtmap/gateway/ and of vtmap/geometry/gml.py without a server. Filters are those of OGC 09-026 (Filter
Encoding 2.0) and 04-095 (1.1), geometries those of GML 2 and 3, requests those of OGC 17-069 (OGC API Features)."""
import json
import math
import types
import unittest
import xml.etree.ElementTree as tree

import stand
from vtmap.client.feed import Leader
from vtmap.faults import Refused, Stopped
from vtmap.files.geopackage import Unreadable
from vtmap.gateway import ogc_api
from vtmap.gateway.actions import Action, actions_of, is_given, number_and_version, parsed
from vtmap.gateway.filters import box_of, is_like, numbers, parts_of_like, test_of
from vtmap.gateway.live_map import LiveMap
from vtmap.gateway.names import map_name, xml_name
from vtmap.gateway.saves import Saves
from vtmap.gateway.sessions import Session
from vtmap.gateway.tables import Table, View, around, is_within, meets, signed, version_of
from vtmap.gateway.transaction import Conflict, Transaction
from vtmap.gateway.wfs_texts import VERSIONS, capabilities, chosen, features, schema
from vtmap.gateway.wishes import changed, fault_of, new_feature
from vtmap.geometry.gml import geometry_of, gml_of
from vtmap.geometry.wholes import Whole
from vtmap.geometry.world import EARTH, WORLD, metres
from vtmap.markup import said, sayable

FES = 'xmlns="http://www.opengis.net/fes/2.0" xmlns:gml="http://www.opengis.net/gml/3.2"'
GML = 'xmlns:gml="http://www.opengis.net/gml"'
HALF = 20037508.342789244


def view(number, place, **tags):
    """A point of the map."""
    feature = stand.feature({"points": [place]}, **tags)
    return View(Whole(number, feature, {number: feature}))


# A point in each quarter of the world.
VIEWS = [
    view(1, [2**30, 2**30], name="Ash", height=5),
    view(2, [3 * 2**30, 2**30], name="ash", height=12, is_old=True),
    view(3, [2**30, 3 * 2**30], name="Beech*"),
    view(4, [3 * 2**30, 3 * 2**30], height=-3),
]
TABLE = Table(("p", "points"), VIEWS, {})


def found(inner):
    """The ids of the points that a filter is true of."""
    test = test_of(tree.fromstring(f"<Filter {FES}>{inner}</Filter>"), TABLE, Session())
    return [one.number for one in VIEWS if test(one)]


def compare(name, column, *literals, more=""):
    """A comparison."""
    values = "".join(f"<Literal>{one}</Literal>" for one in literals)
    return f"<{name} {more}><ValueReference>v:{column}</ValueReference>{values}</{name}>"


class Filters(unittest.TestCase):
    def test_comparisons_of_numbers(self):
        for name, wanted in [
            ("EqualTo", [1]),
            ("NotEqualTo", [2, 4]),
            ("LessThan", [4]),
            ("GreaterThan", [2]),
            ("LessThanOrEqualTo", [1, 4]),
            ("GreaterThanOrEqualTo", [1, 2]),
        ]:
            self.assertEqual(found(compare(f"PropertyIs{name}", "height", "5")), wanted, name)

    def test_numbers_are_compared_as_numbers(self):
        self.assertEqual(found(compare("PropertyIsEqualTo", "height", "5.0")), [1])
        self.assertEqual(found(compare("PropertyIsLessThan", "height", "7")), [1, 4])

    def test_texts(self):
        self.assertEqual(found(compare("PropertyIsEqualTo", "name", "ash")), [2])
        self.assertEqual(found(compare("PropertyIsEqualTo", "is_old", "true")), [2])

    def test_what_isnt_there_meets_no_comparison(self):
        self.assertEqual(found(compare("PropertyIsNotEqualTo", "name", "ash")), [1, 3])

    def test_null(self):
        self.assertEqual(found(compare("PropertyIsNull", "name")), [4])
        self.assertEqual(found("<Not>" + compare("PropertyIsNil", "name") + "</Not>"), [1, 2, 3])

    def test_between(self):
        inner = "<ValueReference>height</ValueReference><LowerBoundary><Literal>-3</Literal></LowerBoundary>"
        inner += "<UpperBoundary><Literal>5</Literal></UpperBoundary>"
        self.assertEqual(found(f"<PropertyIsBetween>{inner}</PropertyIsBetween>"), [1, 4])

    def test_and_or_not(self):
        tall, ash = compare("PropertyIsGreaterThan", "height", "5"), compare("PropertyIsEqualTo", "name", "Ash")
        self.assertEqual(
            (found(f"<And>{tall}{ash}</And>"), found(f"<Or>{tall}{ash}</Or>"), found(f"<Not>{ash}</Not>")),
            ([], [1, 2], [2, 3, 4]),
        )

    def test_like(self):
        for literal, more, wanted in [
            ("*s*", "", [1, 2]),
            ("A.h", "", [1]),
            ("a??", "", []),
            ("ash", 'matchCase="false"', [1, 2]),
            ("Beech!*", "", [3]),
            ("B*!*", "", [3]),
            ("h", "", []),
        ]:
            more += ' wildCard="*" singleChar="." escapeChar="!"'
            self.assertEqual(found(compare("PropertyIsLike", "name", literal, more=more)), wanted, literal)

    def test_parts_of_a_pattern_dont_overlap(self):
        element = tree.fromstring('<PropertyIsLike wildCard="%" singleChar="_" escape="\\"/>')
        for literal, text, wanted in [
            ("ab%ba", "aba", False),
            ("ab%ba", "abba", True),
            ("%", "", True),
            ("a%b%c", "axxbyyc", True),
            ("a%b%c", "acb", False),
        ]:
            self.assertEqual(is_like(parts_of_like(element, literal), text), wanted, (literal, text))

    def test_a_pattern_of_many_wildcards_ends_soon(self):
        element = tree.fromstring('<PropertyIsLike wildCard="%" singleChar="_" escape="\\"/>')
        self.assertFalse(is_like(parts_of_like(element, "%a" * 200 + "b"), "a" * 1000))

    def test_box(self):
        corners = f"<gml:lowerCorner>{-HALF} 0</gml:lowerCorner><gml:upperCorner>0 {HALF}</gml:upperCorner>"
        self.assertEqual(found(f"<BBOX><gml:Envelope>{corners}</gml:Envelope></BBOX>"), [1])

    def test_ids(self):
        ids = "".join(f'<ResourceId rid="p.points.{number}.{"0" * 16}"/>' for number in (2, 4))
        self.assertEqual(found(ids), [2, 4])

    def test_what_isnt_taken(self):
        for inner in (
            "<DWithin/>",
            "<And/>",
            "<PropertyIsEqualTo><Literal>1</Literal></PropertyIsEqualTo>",
            '<ResourceId rid="p.7"/>',
            "<BBOX/>",
            compare("PropertyIsEqualTo", "name", "a", "b"),
        ):
            with self.assertRaises(Refused, msg=inner):
                found(inner)

    def test_bbox_parameter(self):
        self.assertEqual(box_of(f"{-HALF},{-HALF},{HALF},{HALF}"), (0, 0, WORLD, WORLD))
        self.assertEqual(box_of(f"0,0,{9 * HALF},{9 * HALF},urn:ogc:def:crs:EPSG::3857"), (2**31, 0, WORLD, 2**31))
        self.assertIsNone(box_of(""))
        for text in ("1,2,3", "1,2,3,x", "1,2,3,nan", "1,2,3,4,EPSG:4326"):
            self.assertRaises(Refused, box_of, text)
        self.assertEqual(numbers(["1", "2", "3", "4.5"]), [1, 2, 3, 4.5])


class Boxes(unittest.TestCase):
    def test_meets(self):
        self.assertEqual(
            [meets((0, 0, 5, 5), other) for other in [(5, 5, 9, 9), (6, 0, 9, 5), (0, 6, 5, 9), (1, 1, 2, 2)]],
            [True, False, False, True],
        )

    def test_within(self):
        self.assertEqual(
            [is_within(one, (0, 0, 5, 5)) for one in [(0, 0, 5, 5), (1, 1, 6, 2), (-1, 0, 2, 2)]], [True, False, False]
        )

    def test_around(self):
        self.assertEqual(around([(1, 9, 3, 10), (0, 4, 2, 20)]), (0, 4, 3, 20))


class Names(unittest.TestCase):
    def test_names_of_xml(self):
        for name, wanted in [
            ("name", "name"),
            ("addr:street", "addr.street"),
            ("a b", "a·b"),
            ("1st", "_x0031_st"),
            ("a/b", "a_x002F_b"),
            (":a", "_x003A_a"),
            ("Höhe", "Höhe"),
            ("_x0041_", "_x005F_x0041_"),
            ("\U0001f600", "_x1F600_"),
        ]:
            self.assertEqual(xml_name(name), wanted)
            self.assertEqual(map_name(wanted), name)
            tree.fromstring(f"<{xml_name(name)}/>")

    def test_names_differ_by_more_than_their_case(self):
        self.assertNotEqual(xml_name("Name", {"name"}).lower(), "name")
        self.assertEqual(map_name(xml_name("Name", {"name"})), "Name")

    def test_texts_of_xml(self):
        for value in ("<a href='x'>&\"", "two\r\nlines", "tab\t"):
            self.assertEqual(tree.fromstring(f"<a>{said(value)}</a>").text.replace("\r", ""), value.replace("\r", ""))
        self.assertEqual(sayable("a\0b\x1f\ufffe"), "a\ufffdb\ufffd\ufffd")


class Tables(unittest.TestCase):
    def test_columns(self):
        self.assertEqual(
            TABLE.columns, {"height": ("height", "INTEGER"), "is_old": ("is_old", "BOOLEAN"), "name": ("name", "TEXT")}
        )
        self.assertEqual(
            (TABLE.name, TABLE.zooms, TABLE.is_several, TABLE.box),
            ("p.points", (0, 2), False, (2**30, 2**30, 3 * 2**30, 3 * 2**30)),
        )

    def test_a_version_changes_with_the_feature(self):
        one = version_of({7: stand.feature(a=1, b=2)})
        self.assertEqual(one, version_of({7: stand.feature(b=2, a=1)}))
        self.assertNotEqual(one, version_of({7: stand.feature(a=1, b=3)}))
        self.assertNotEqual(one, version_of({8: stand.feature(a=1, b=2)}))
        self.assertRegex(one, "^[0-9a-f]{24}$")


class Gml(unittest.TestCase):
    SHAPES = [
        {"points": [[1, 2]]},
        {"points": [[1, 2], [3, 4]]},
        {"lines": [[[0, 0], [2**32 - 1, 2**32 - 1]]]},
        {"polygons": [[[[0, 0], [9, 0], [9, 9]], [[5, 1], [6, 1], [6, 2]]], [[[20, 20], [29, 20], [29, 29]]]]},
    ]

    def test_there_and_back(self):
        for shape in self.SHAPES:
            is_several = len(next(iter(shape.values()))) > 1
            text = gml_of(shape, is_several, "EPSG:3857").replace(" ", f" {GML} ", 1)
            self.assertEqual(geometry_of(tree.fromstring(text)), shape)

    def test_a_point(self):
        x, y = metres((2**31, 2**31))
        self.assertEqual(
            gml_of({"points": [[2**31, 2**31]]}, False, "EPSG:3857"),
            f'<gml:Point srsName="EPSG:3857"><gml:pos>{x:.4f} {y:.4f}</gml:pos></gml:Point>',
        )
        self.assertAlmostEqual(x, EARTH / 2**33, places=9)

    def read(self, text):
        return geometry_of(tree.fromstring(text.replace(">", f" {GML}>", 1)))

    def test_gml_2(self):
        place = [3 * 2**30, 2**30]
        quarter = HALF / 2
        self.assertEqual(
            self.read(f"<gml:Point><gml:coordinates>{quarter},{quarter}</gml:coordinates></gml:Point>"),
            {"points": [place]},
        )
        self.assertEqual(
            self.read(
                f"<gml:Point><gml:coord><gml:X>{quarter}</gml:X><gml:Y>{quarter}</gml:Y></gml:coord></gml:Point>"
            ),
            {"points": [place]},
        )

    def test_heights_are_left_out(self):
        self.assertEqual(
            self.read(
                '<gml:LineString srsDimension="3"><gml:posList>0 0 7 10000000 0 7</gml:posList></gml:LineString>'
            ),
            {"lines": [[[2**31, 2**31], [math.floor((10000000 / EARTH + 0.5) * 2**32), 2**31]]]},
        )

    def test_a_curve_of_segments(self):
        segments = "".join(
            f"<gml:LineStringSegment><gml:posList>{places}</gml:posList></gml:LineStringSegment>"
            for places in ("0 0 0 100", "0 100 0 200")
        )
        (line,) = self.read(f"<gml:Curve><gml:segments>{segments}</gml:segments></gml:Curve>")["lines"]
        self.assertEqual(len(line), 3)

    def test_what_isnt_taken(self):
        for text in (
            '<gml:Point srsName="EPSG:25832"><gml:pos>0 0</gml:pos></gml:Point>',
            "<gml:Point><gml:pos>0 x</gml:pos></gml:Point>",
            "<gml:Point><gml:pos>30000000 0</gml:pos></gml:Point>",
            "<gml:Solid></gml:Solid>",
            "<gml:Polygon><gml:exterior></gml:exterior></gml:Polygon>",
            "<gml:LineString></gml:LineString>",
        ):
            with self.assertRaises(Unreadable, msg=text):
                self.read(text)


class Actions(unittest.TestCase):
    def test_a_transaction(self):
        fid = "p.points.7." + "0" * 16
        some = f'<Filter {FES}><ResourceId rid="{fid}"/></Filter>'
        body = f"""<Transaction xmlns:v="urn:vtserve"><Insert><v:p.points><v:name>x</v:name></v:p.points></Insert>
            <Update typeName="v:p.points"><Property><ValueReference>v:name</ValueReference><Value>y</Value></Property>
            <Property><ValueReference>v:height</ValueReference></Property>{some}</Update>
            <Delete typeName="v:p.points">{some}</Delete></Transaction>"""
        insert, update, delete = actions_of(parsed(body.encode()))
        self.assertEqual((insert.name, insert.type, insert.values), ("Insert", "p.points", {"name": "x"}))
        self.assertEqual(
            (update.name, update.type, update.fids, update.values),
            ("Update", "p.points", [fid], {"name": "y", "height": None}),
        )
        self.assertEqual((delete.name, delete.fids), ("Delete", [fid]))

    def test_a_document_type_is_refused(self):
        for body in (b'<!DOCTYPE a [<!ENTITY b "c">]><a>&b;</a>', b"<a", b"", b"\xff"):
            self.assertRaises(Unreadable, parsed, body)

    def test_an_edit_of_all_features_is_refused(self):
        for inner in ("", f"<Filter {FES}/>", f"<Filter {FES}><PropertyIsEqualTo/></Filter>"):
            with self.assertRaises(Unreadable, msg=inner):
                actions_of(parsed(f'<Transaction><Delete typeName="p.points">{inner}</Delete></Transaction>'.encode()))

    def test_ids(self):
        version = signed("0123456789abcdef")
        for fid in (f"p.points.352.{version}", f"a.b.c.352.{version}-2", "p.points.352.0123456789abcdef"):
            self.assertEqual(number_and_version(fid), (352, version))
        for fid in (
            "p.points.352",
            "p.points.x.0123456789abcdef",
            "p.<b>.352.0123456789abcdef",
            "p.points.352.0123456789ABCDEF",
        ):
            self.assertFalse(number_and_version(fid), fid)

    def test_ids_that_were_given_are_signed(self):
        version = signed("0123456789abcdef")
        other = "0" if version[-1] != "0" else "1"
        self.assertTrue(is_given(f"p.points.352.{version}"))
        for made in ("0123456789abcdef", version[:-1] + other, "1" + version[1:]):
            self.assertFalse(is_given(f"p.points.352.{made}"), made)


class Wishes(unittest.TestCase):
    def update(self, feature=None, **values):
        (action,) = actions_of(parsed(b"<T><Insert><p.points><name>x</name></p.points></Insert></T>"))
        action.values = values
        return changed(feature or stand.feature(name="x", height=5), action, TABLE, 7)

    def test_values_by_their_types(self):
        self.assertEqual(
            self.update(name="7", height=" 12 ", is_old="true")["tags"], {"name": "7", "height": 12, "is_old": True}
        )
        self.assertEqual(self.update(name=None)["tags"], {"height": 5})

    def test_what_isnt_taken(self):
        for values in (
            {"height": "tall"},
            {"is_old": "perhaps"},
            {"minzoom": "9"},
            {"maxzoom": "20"},
            {"maxzoom": {"points": [[0, 0]]}},
            {"feature_id": "8"},
            {"geom": None},
            {"name": "x" * 1025},
        ):
            with self.assertRaises(Refused, msg=values):
                self.update(**values)

    def test_a_new_feature_needs_a_shape(self):
        self.assertEqual(fault_of(new_feature(TABLE)), "it has no shape")
        self.assertIsNone(fault_of({**new_feature(TABLE), "geometry": {"points": [[0, 0]]}}))

    def test_limits_of_tags(self):
        self.assertIsNone(fault_of(stand.feature(**{f"k{at}": 2**64 - 1 for at in range(64)})))
        for tags in (
            {f"k{at}": 1 for at in range(65)},
            {"k": 2**64},
            {"k": -(2**63) - 1},
            {"ß" * 33: 1},
            {"": 1},
            {"k": "ß" * 513},
        ):
            self.assertIsNotNone(fault_of(stand.feature(**tags)))


class Sessions(unittest.TestCase):
    def test_an_id_stays_after_a_save(self):
        session = Session()
        before, after = signed("0" * 16), signed("1" * 16)
        fid = session.fid(TABLE, 7, before)
        self.assertEqual((fid, session.held(fid)), (f"p.points.7.{before}", (7, before)))
        for note in session.saved(fid, TABLE, 7, before, after):
            session.note(*note)
        self.assertEqual((session.held(fid), session.fid(TABLE, 7, after)), ((7, after), fid))

    def test_a_version_that_comes_back_gets_another_id(self):
        session = Session()
        before, after = signed("0" * 16), signed("1" * 16)
        fid = session.fid(TABLE, 7, before)
        for note in session.saved(fid, TABLE, 7, before, after):
            session.note(*note)
        again = session.fid(TABLE, 7, before)
        self.assertEqual((again != fid, session.held(again)), (True, (7, before)))

    def test_who_pans_gets_no_second_version(self):
        session, old = Session(), VIEWS[0]
        new = view(1, [2**30, 2**30], name="Oak")
        self.assertEqual(list(session.pinned(TABLE, (0, 0, 2**31, 2**31), [old])), [old])
        self.assertEqual(list(session.pinned(TABLE, (0, 0, 2**31, WORLD), [new])), [old])
        # The same box again is asked for when the layer is loaded anew.
        self.assertEqual(list(session.pinned(TABLE, (0, 0, 2**31, 2**31), [new])), [new])

    def test_another_id(self):
        self.assertRaises(Refused, Session().held, "somewhere.7")


class Known:
    """A server with these features, as `LiveMap` asks it."""

    address = "http://127.0.0.1:1"

    def __init__(self, now, edits=()):
        self.now, self.edits = now, list(edits)

    def known(self):
        return {"edits": len(self.edits)}

    def features(self):
        return self.now.items()

    def edits_from(self, number):
        return self.edits[number - 1 :], len(self.edits)


class Live(unittest.TestCase):
    def test_edits_are_followed(self):
        server = Known({7: stand.feature(name="x")})
        live = LiveMap(server, {})
        live.look()
        server.edits = [
            {"edit": 1, "changes": [{"put": 8, "feature": stand.feature(name="y")}]},
            {"edit": 2, "changes": [{"delete": 7}]},
        ]
        live.look()
        self.assertEqual(
            (live.edits, set(live.views), [one.number for one in live.tables()["p.points"].views]), (2, {8}, [8])
        )

    def test_pieces_are_one_view(self):
        left, right = (stand.feature({"lines": [line]}, whole=7) for line in ([[0, 0], [5, 0]], [[5, 0], [9, 0]]))
        live = LiveMap(Known({7: left, 9: right}), {})
        live.look()
        self.assertEqual((set(live.views), live.views[7].feature["geometry"]), ({7}, {"lines": [[[0, 0], [9, 0]]]}))
        live.take({9: None})
        self.assertEqual(live.views[7].feature["geometry"], {"lines": [[[0, 0], [5, 0]]]})

    def test_a_table_goes_with_its_last_feature(self):
        live = LiveMap(Known({7: stand.feature()}), {})
        live.look()
        live.take({7: None})
        self.assertEqual(live.tables(), {})


class Transactions(unittest.TestCase):
    def setUp(self):
        self.live = LiveMap(Known({7: stand.feature()}), {})
        self.live.look()
        self.new = Action("Insert", "p.points", [], {"geom": {"points": [[1, 1]]}})
        # The GIS still shows a feature that others have deleted. Its id would be the next one.
        self.gone = f"p.points.8.{signed('0' * 16)}"

    def test_a_new_feature_gets_no_id_that_is_named(self):
        task = Transaction(self.live, Session(), [self.new, Action("Delete", "p.points", [self.gone])])
        self.assertEqual([(change.number, change.body is None) for change in task.changes()], [(9, False)])
        self.assertEqual([fid.split(".")[2] for fid in task.saved()[1]], ["9"])

    def test_a_change_of_what_is_gone_is_none_of_a_new_feature(self):
        with self.assertRaises(Conflict) as refused:
            Transaction(self.live, Session(), [self.new, Action("Update", "p.points", [self.gone], {"name": "x"})])
        self.assertEqual(refused.exception.features, ["p 8 (deleted)"])

    def test_new_ids_go_on_after_those_that_others_took(self):
        task = Transaction(self.live, Session(), [self.new, self.new, Action("Delete", "p.points", [self.gone])])
        task.renumber(11)
        self.assertEqual(sorted(task.wishes), [12, 13])

    def test_a_server_that_tells_nothing_of_its_journal(self):
        client = Leader("http://127.0.0.1:1")
        client.status = lambda: None
        saves = Saves(types.SimpleNamespace(client=client), None)
        self.assertRaises(Stopped, saves.see_room, [])


class Documents(unittest.TestCase):
    def test_versions(self):
        self.assertEqual(
            [chosen(names).name for names in ("2.0.0", "1.1.0", "3.0.0,1.1.0", "2.0.2", "")],
            ["2.0.0", "1.1.0", "1.1.0", "1.1.0", "1.1.0"],
        )

    def test_they_are_xml(self):
        odd = Table(("<&>", "points"), [view(1, [0, 0], **{'a"<': "]]>&\0"})], {})
        for version in VERSIONS.values():
            for text in (
                capabilities(version, [TABLE, odd], "http://h/?a=1&b=2"),
                schema(version, [TABLE, odd]),
                features(version, [(odd, odd.views[0])], ["x"], 1),
            ):
                tree.fromstring(text)

    def test_a_feature(self):
        root = tree.fromstring(features(VERSIONS["2.0.0"], [(TABLE, VIEWS[0])], ["p.points.1.x"], 4))
        self.assertEqual((root.get("numberMatched"), root.get("numberReturned")), ("4", "1"))
        (member,) = root.iter("{urn:vtserve}p.points")
        self.assertEqual(
            {child.tag.rpartition("}")[2]: child.text for child in member if not len(child)},
            {"feature_id": "1", "height": "5", "name": "Ash", "minzoom": "0", "maxzoom": "2"},
        )


class Ogc(unittest.TestCase):
    def setUp(self):
        self.api = ogc_api.OgcApi(
            LiveMap(Known({one.number: one.feature for one in VIEWS}), {}), lambda: self.api.live.look()
        )

    def ask(self, path, **given):
        return json.loads(self.api.answer(path, given, "http://h/ogc")[1])

    def test_pages(self):
        first = self.ask("/collections/p.points/items", limit="3")
        (after,) = (link["href"] for link in first["links"] if link["rel"] == "next")
        self.assertEqual(
            ([one["id"] for one in first["features"]], first["numberMatched"], after.endswith("limit=3&after=3")),
            ([1, 2, 3], 4, True),
        )
        last = self.ask("/collections/p.points/items", limit="3", after="3")
        self.assertEqual(
            ([one["id"] for one in last["features"]], [link["rel"] for link in last["links"]]),
            ([4], ["self", "collection", "alternate", "alternate"]),
        )

    def test_boxes(self):
        ids = lambda bbox: [one["id"] for one in self.ask("/collections/p.points/items", bbox=bbox)["features"]]
        self.assertEqual(
            (ids("-180,0,0,85"), ids("0,-85,180,0"), ids("45,-85,-45,85"), ids("-180,-90,0,180,90,9")),
            ([1], [4], [1, 2, 3, 4], [1, 2, 3, 4]),
        )

    def test_queryables(self):
        self.assertEqual([one["id"] for one in self.ask("/collections/p.points/items", height="12")["features"]], [2])

    def test_one(self):
        self.assertEqual(self.ask("/collections/p.points/items/3")["properties"], {"name": "Beech*"})

    def test_what_isnt_taken(self):
        for given in (
            {"limit": "0"},
            {"limit": "x"},
            {"bbox": "1,2,3"},
            {"bbox": "0,50,10,40"},
            {"f": "html"},
            {"datetime": "soon"},
            {"other": "1"},
        ):
            with self.assertRaises(Refused, msg=given):
                self.ask("/collections/p.points/items", **given)
        for path in ("/collections/other", "/collections/p.points/items/9", "/collections/p.points/other", "/other"):
            with self.assertRaises(ogc_api.Unknown, msg=path):
                self.ask(path)


if __name__ == "__main__":
    unittest.main()
