// Tests of web/files.js and edits.js. What the import makes of the same files was seen by `vtmap import`, whose rules these are.
import assert from "node:assert/strict";
import test from "node:test";

import { groupsOf } from "./web/edits.js";
import { featuresIn, numeral, rowsOf } from "./web/files.js";
import { MAX_CHANGES, WORDS } from "./web/import_rules.js";
import { bytesOf, text } from "./web/server.js";
import { WORLD } from "./web/world.js";

const read = (name, content) => featuresIn(name, typeof content === "string" ? new TextEncoder().encode(content) : content);
const collection = (...rows) => JSON.stringify({ type: "FeatureCollection", features: rows.map(([geometry, properties]) => ({ type: "Feature", properties, geometry })) });
const POINT = { type: "Point", coordinates: [0, 0] }, MIDDLE = [WORLD / 2, WORLD / 2];

test("files: tags of GeoJSON are those of the import", () => {
    const { features, notes } = read("a.geojson", collection(
        [{ type: "Point", coordinates: [0, 0, 3] }, { name: "A", n: 5, r: 0.5, b: true, nul: null, l: [1, 2], o: { a: 1 }, mix: 5, bi: true, small: 0.00001, whole: 5.0 }],
        [POINT, { name: "B", n: 6, r: 2, b: false, l: [3], mix: "x", bi: 3, late: 1, x: "" }]));
    assert.deepEqual(features.map(({ tags }) => tags), [
        { name: "A", n: 5, r: "0.5", b: true, mix: "5", bi: 1, small: "1e-05", whole: 5 }, { name: "B", n: 6, r: 2, b: false, mix: "x", bi: 3, late: 1, x: "" },
    ]);
    assert.deepEqual(features.map(({ layer, geometry }) => [layer, geometry]), [["a", { points: [MIDDLE] }], ["a", { points: [MIDDLE] }]]);
    assert.deepEqual(notes, [["the field l is dropped: a list or an object is no value of a tag", 2], ["the field o is dropped: a list or an object is no value of a tag", 1],
        [WORDS.heights, 1]]);
});
test("files: geometries of GeoJSON, each kind", () => {
    const ring = [[0, 0], [90, 0], [90, 66.51326044311186], [0, 0]], quarter = WORLD / 4;
    const { features } = read("a.json", collection([{ type: "Polygon", coordinates: [ring] }, {}], [{ type: "MultiPolygon", coordinates: [[ring], [ring]] }, {}],
        [{ type: "LineString", coordinates: ring.slice(0, 2) }, {}], [{ type: "MultiLineString", coordinates: [ring.slice(0, 2)] }, {}],
        [{ type: "MultiPoint", coordinates: [[0, 0], [90, 0]] }, {}]));
    const east = [3 * quarter, 2 * quarter], corner = features[0].geometry.polygons[0][0][2];
    assert.ok(Math.abs(corner[0] - 3 * quarter) <= 1 && Math.abs(corner[1] - quarter) <= 1);
    assert.deepEqual(features.map(({ geometry }) => geometry), [{ polygons: [[[MIDDLE, east, corner]]] }, { polygons: [[[MIDDLE, east, corner]], [[MIDDLE, east, corner]]] },
        { lines: [[MIDDLE, east]] }, { lines: [[MIDDLE, east]] }, { points: [MIDDLE, east] }]);
});
test("files: what can't be put is refused by the words of the import, or has no geometry", () => {
    const { features, notes, refused } = read("a.json", collection([null, {}], [{ type: "Polygon", coordinates: [] }, {}],
        [{ type: "GeometryCollection", geometries: [] }, {}], [{ type: "Point", coordinates: [7, 89] }, {}], [{ type: "Point", coordinates: ["7", null] }, {}],
        [{ type: "LineString", coordinates: [7, 54] }, {}]));
    assert.deepEqual([features, notes], [[], [[WORDS.nowhere, 2]]]);
    assert.deepEqual(refused, [[3, "a GEOMETRYCOLLECTION is no kind of geometry that a feature has"], [4, WORDS.outside],
        ...[5, 6].map(at => [at, "its coordinates aren't those of its kind of geometry"])]);
});
test("files: a collection's name is the layer, and other coordinates are refused", () => {
    const system = name => ({ type: "name", properties: { name } });
    const given = { name: "wells", type: "FeatureCollection", features: [{ type: "Feature", properties: null, geometry: POINT }] };
    assert.equal(read("a.json", JSON.stringify({ ...given, crs: system("urn:ogc:def:crs:OGC:1.3:CRS84") })).features[0].layer, "wells");
    assert.throws(() => read("a.json", JSON.stringify({ ...given, crs: system("urn:ogc:def:crs:EPSG::25832") })), /EPSG::25832/);
    for (const wrong of ["{", '{"type":"FeatureCollection"}', "{]"]) {
        assert.throws(() => read("a.json", wrong), { message: "it is no GeoJSON" });
    }
});
test("files: a table is read as the import reads it", () => {
    const { features, notes, refused } = read("b.csv", 'nr;name;Lon;LAT;h\r\n1;"Well; ""old""";0;0;\n2;Pump;0.0;-0;3\n3;None;;;\n4;Bad;1.000,5;54;x\n');
    assert.deepEqual(features.map(({ tags, geometry }) => [tags, geometry.points[0]]),
        [[{ nr: "1", name: 'Well; "old"', h: "" }, MIDDLE], [{ nr: "2", name: "Pump", h: "3" }, MIDDLE]]);
    assert.deepEqual([notes, refused], [[[WORDS.nowhere, 1]],
        [[4, "its Lon is '1.000,5' and its LAT is '54': two numbers are needed, as 7.25 or 7,25, without separators of thousands"]]]);
    assert.throws(() => read("c.csv", "name,x,y\na,1,2\n"), { message: /no columns lon and lat .* \(it has name, x, y\)/ });
});
test("files: encodings of a table", () => {
    const latin = Uint8Array.from([..."lon,lat,name\n0,0,caf"].map(letter => letter.charCodeAt()).concat([0xe9, 10]));
    const { features, notes } = read("c.csv", latin);
    assert.deepEqual([features[0].tags, notes.length], [{ name: "café" }, 1]);
    const wide = Uint8Array.from([0xff, 0xfe, ..."lon,lat,name\n0,0,ж\n"].flatMap((letter, at) => at < 2 ? [letter] : [letter.charCodeAt() & 255, letter.charCodeAt() >> 8]));
    assert.deepEqual(read("c.csv", wide).features[0].tags, { name: "ж" });
    assert.deepEqual(read("c.csv", "\ufefflon,lat,name\n0,0,x\n").features[0].tags, { name: "x" });
});
test("files: separators and quotes of a table", () => {
    assert.deepEqual(rowsOf('a\tb\n"1\n2"\t3\n'), [["a", "b"], ["1\n2", "3"]]);
    assert.deepEqual(rowsOf("a;b,c\n1;2,3"), [["a;b", "c"], ["1;2", "3"]]);
    assert.deepEqual(rowsOf('"a;b"|c\n\n1|2'), [["a;b", "c"], ["1", "2"]]);
});
test("files: numbers as Python writes them", () => {
    const pairs = [[5, "5"], [-0.5, "-0.5"], [1e22, "1e+22"], [0.00001, "1e-05"], [0.0001, "0.0001"], [1.5e16, "1.5e+16"], [2 ** 53 + 2, "9007199254740994.0"], [1e-300, "1e-300"]];
    assert.deepEqual(pairs.map(([number]) => numeral(number)), pairs.map(([, shown]) => shown));
});
test("edits: groups of at most 64 changes, each of which fits into a request", () => {
    const rows = Array.from({ length: 200 }, (_, put) => ({ put, feature: { note: "x".repeat(put % 3 ? 10 : 1500) } })), groups = groupsOf(rows);
    assert.deepEqual(groups.flat(), rows);
    assert.ok(groups.every(group => group.length <= MAX_CHANGES && bytesOf(text({ changes: group })) <= 65536));
    assert.ok(groups.slice(0, -1).every((group, at) => group.length === MAX_CHANGES || bytesOf(text([...group, groups[at + 1][0]])) > 60000));
});
