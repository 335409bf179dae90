"""Tests of vtmap/files/map_schema.py: what is a schema (docs/FORMATS.md, "The schema"), what it refuses, and what is
added to it."""
import json
import os
import unittest

import stand
from vtmap.files.map_schema import Schema, SchemaFile, WrongSchema, missing, parsed, schema_of

TOWN = {
    "layers": {
        "building": {
            "title": "Buildings",
            "kinds": ["areas"],
            "minzoom": 14,
            "maxzoom": 16,
            "label": "name",
            "fields": {
                "floors": {"type": "integer", "label": "Floors", "required": True},
                "use": {"type": "text", "choices": ["home", "shop"]},
                "built": {"type": "date"},
                "height": {"type": "number"},
                "listed": {"type": "boolean"},
                "name": {},
            },
        },
        "well": {},
    }
}


def town():
    """The schema of the town."""
    return parsed(json.dumps(TOWN))


class Reading(unittest.TestCase):
    def test_what_is_left_out(self):
        schema = town()
        self.assertEqual(schema.layers["well"], (None, (), None, None, {}))
        self.assertEqual(schema.layers["building"].fields["name"], ("text", None, None, False))
        self.assertEqual((schema.layers["building"].zooms, schema.tables()), ((14, 16), {("building", "polygons")}))
        self.assertEqual(parsed("{}").layers, {})

    def test_it_is_written_as_it_was_read(self):
        self.assertEqual(parsed(town().text()).layers, town().layers)

    def test_what_is_no_schema(self):
        field = '{"layers":{"a":{"fields":{"b":%s}}}}'
        for text, why in [
            ("", "is no JSON"),
            ("[" * 100000, "is no JSON"),
            ("[]", "is no object"),
            ('{"layer":{}}', "there is no 'layer'"),
            ('{"layers":[]}', "at most 1,000 layers"),
            ('{"layers":{"a":{},"a":{}}}', "is there twice: a"),
            ('{"layers":{"":{}}}', "1 to 64 bytes"),
            ('{"layers":{"\\ud800":{}}}', "1 to 64 bytes"),
            (field % '{"choices":["\\ud800"]}', "that a tag can have"),
            ('{"layers":{"%s":{}}}' % ("ä" * 33), "1 to 64 bytes"),
            ('{"layers":{"a":{"kinds":["circles"]}}}', "points, lines, areas"),
            ('{"layers":{"a":{"minzoom":3}}}', "zooms from 0 to 19"),
            ('{"layers":{"a":{"minzoom":5,"maxzoom":4}}}', "zooms from 0 to 19"),
            ('{"layers":{"a":{"minzoom":true,"maxzoom":4}}}', "zooms from 0 to 19"),
            ('{"layers":{"a":{"minzoom":0,"maxzoom":20}}}', "zooms from 0 to 19"),
            ('{"layers":{"a":{"label":"b"}}}', "there is no field 'b'"),
            ('{"layers":{"a":{"title":""}}}', "title is a text"),
            (field % '{"type":"real"}', "layer a, field b: type is one of text, integer, number, boolean, date"),
            (field % '{"required":1}', "required is true or false"),
            (field % '{"choices":[]}', "1 to 1,000 values"),
            (field % '{"choices":[1]}', "the choice 1 is no text"),
            (field % '{"type":"integer","choices":[true]}', "the choice True is no integer"),
            (field % '{"type":"date","choices":["2026-02-30"]}', "is no date"),
            (field % '{"type":"integer","choices":[18446744073709551616]}', "that a tag can have"),
            (field % '{"kind":"text"}', "there is no 'kind'"),
        ]:
            with self.assertRaises(WrongSchema, msg=text) as found:
                parsed(text)
            self.assertIn(why, str(found.exception))
        fields = ",".join(f'"f{at}":{{}}' for at in range(65))
        self.assertRaises(WrongSchema, parsed, '{"layers":{"a":{"fields":{%s}}}}' % fields)
        self.assertRaises(WrongSchema, parsed, " " * 2**20 + "{}")


class Judging(unittest.TestCase):
    def fault(self, before=None, **after):
        return town().layers["building"].fault(before, after)

    def test_what_fits(self):
        self.assertIsNone(self.fault(floors=3, use="shop", built="2026-11-29", height="12.5", listed=False, other="x"))
        self.assertIsNone(self.fault(floors=3, height=12))

    def test_what_doesnt(self):
        for tags, why in [
            ({"floors": "3"}, "floors is '3', no integer"),
            ({"floors": True}, "floors is True, no integer"),
            ({"floors": 3, "use": "barn"}, "use is 'barn': one of 'home', 'shop' is needed"),
            ({"floors": 3, "built": "2026-02-30"}, "built is '2026-02-30', no date"),
            ({"floors": 3, "built": "20261129"}, "built is '20261129', no date"),
            ({"floors": 3, "height": "tall"}, "height is 'tall', no number"),
            ({"floors": 3, "listed": 1}, "listed is 1, no boolean"),
            ({"floors": 3, "name": 7}, "name is 7, no text"),
            ({"use": "home"}, "floors is required"),
        ]:
            self.assertEqual(self.fault(**tags), why)

    def test_what_a_feature_had_is_no_fault(self):
        old = {"use": "barn", "built": "long ago"}
        self.assertIsNone(self.fault(old, use="barn", built="long ago", name="x"))
        self.assertEqual(self.fault(old, use="mill"), "use is 'mill': one of 'home', 'shop' is needed")
        self.assertEqual(self.fault({"floors": 3}, name="x"), "floors is required")
        self.assertEqual(self.fault({"floors": 1}, floors=True), "floors is True, no integer")

    def test_values_of_another_type(self):
        layer = town().layers["building"]
        texts = {"floors": " 3 ", "listed": "True", "height": "1.5", "name": 7, "use": "home", "other": "9"}
        wanted = {"floors": 3, "listed": True, "height": "1.5", "name": "7", "use": "home", "other": "9"}
        self.assertEqual(layer.fitted(texts), wanted)
        self.assertEqual(layer.fitted({"floors": "3", "name": 7}, {"floors": "3"}), {"floors": "3", "name": "7"})

    def test_what_has_no_field(self):
        layer = town().layers["building"]
        self.assertEqual(layer.unknown({"floors": 1, "roof": "flat", "whole": 7}), ["roof"])
        told = "building has no field 'roof': `vtmap schema add building roof` makes it"
        self.assertEqual(missing("building", "roof"), told)
        self.assertIn("`vtmap schema add 'tree spots' a 'b c'` makes them", missing("tree spots", "a", "b c"))
        self.assertIn(r"add 'a'\''b' c", missing("a'b", "c"))
        self.assertEqual(missing("a", "--file=x"), "a has no field '--file=x': its schema.json may get it")


class Adding(unittest.TestCase):
    def added(self, more):
        return town().added(parsed(json.dumps({"layers": more}))).layers

    def test_fields_choices_and_layers(self):
        layers = self.added(
            {
                "building": {"fields": {"roof": {"choices": ["flat"]}, "use": {"choices": ["barn", "home"]}}},
                "tree": {"kinds": ["points"], "minzoom": 12, "maxzoom": 16},
            }
        )
        self.assertEqual(layers["building"].fields["use"].choices, ["home", "shop", "barn"])
        self.assertEqual(layers["building"].fields["roof"].choices, ["flat"])
        self.assertEqual(layers["building"].fields["floors"], ("integer", "Floors", None, True))
        self.assertEqual((layers["building"].zooms, layers["building"].title), ((14, 16), "Buildings"))
        self.assertEqual((layers["tree"].kinds, layers["tree"].zooms), (("points",), (12, 16)))

    def test_what_is_there_otherwise(self):
        for fields in ({"floors": {"type": "text"}}, {"name": {"choices": ["x"]}}):
            self.assertRaises(WrongSchema, self.added, {"building": {"fields": fields}})
        many = {f"f{at}": {} for at in range(60)}
        self.assertRaises(WrongSchema, self.added, {"building": {"fields": many}})

    def test_of_a_map(self):
        features = [
            stand.feature(name="x", floors=1, mixed=1),
            stand.feature({"lines": [[[0, 0], [1, 1]]]}, first=1, name="y", mixed="a", whole=3),
            stand.feature(first=1, open=True),
        ]
        wanted = {"floors": "integer", "mixed": "text", "name": "text", "open": "boolean"}
        (layer,) = schema_of(features).layers.values()
        self.assertEqual({tag: field.type for tag, field in layer.fields.items()}, wanted)
        self.assertEqual((layer.kinds, layer.zooms), (("points", "lines"), (1, 2)))


class Files(stand.InFolder):
    def test_it_is_read_anew_when_it_changes(self):
        path = self.path("schema.json")
        file = SchemaFile(path)
        self.assertEqual((file.now.layers, file.look()), ({}, False))
        self.path("schema.json", json.dumps(TOWN))
        self.assertEqual((file.look(), file.look(), len(file.now.layers)), (True, False, 2))
        self.path("schema.json", json.dumps(TOWN) + " ")
        self.assertEqual((file.look(), len(file.now.layers)), (False, 2))
        self.path("schema.json", "{")
        self.assertEqual((file.look(), len(file.now.layers)), (False, 2))
        os.remove(path)
        self.assertEqual((file.look(), file.now.layers), (True, {}))

    def test_what_is_added_is_in_the_file(self):
        file = SchemaFile(self.path("schema.json"))
        file.add(parsed('{"layers":{"tree":{"fields":{"kind":{}}}}}'))
        file.add(parsed('{"layers":{"tree":{"fields":{"height":{"type":"number"}}}}}'))
        self.assertTrue(file.look())
        self.assertEqual(list(file.now.layers["tree"].fields), ["kind", "height"])
        self.path("schema.json", "{")
        self.assertRaises(WrongSchema, file.add, Schema())
        with open(file.path, encoding="utf-8") as left:
            self.assertEqual(left.read(), "{")


if __name__ == "__main__":
    unittest.main()
