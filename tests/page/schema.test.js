// Tests of web/schema.js and cut.js: worked examples, and cases whose answers run.py has of the modules of vtmap whose rules these are.
import assert from "node:assert/strict";
import { readFileSync } from "node:fs";
import test from "node:test";

import { Cut, cutOf } from "./web/cut.js";
import { featuresIn } from "./web/files.js";
import { Schema, layersFor, layersOf, missing, repr } from "./web/schema.js";

const { faults, cuts, missings } = JSON.parse(readFileSync(new URL("cases.json", import.meta.url)), (key, value) =>
    typeof value?.big === "string" ? BigInt(value.big) : value);
const BUILDING = {
    title: "Buildings", kinds: ["areas"], minzoom: 14, maxzoom: 16,
    fields: { house: { type: "integer", label: "House number", required: true }, use: { choices: ["home", "shop"] }, built: { type: "date" } },
};
const building = layersOf({ layers: { building: BUILDING } }).get("building");

test("schema: what is changed is refused, what was there isn't", () => {
    assert.equal(building.fault(null, { house: 7, use: "home", built: "2024-02-29" }), null);
    assert.equal(building.fault(null, { house: 7, use: "barn" }), "use is 'barn': one of 'home', 'shop' is needed");
    assert.equal(building.fault({ house: 7, use: "barn" }, { house: 7, use: "barn", built: "2023-02-29" }), "built is '2023-02-29', no date");
    assert.equal(building.fault({ house: 7, use: "barn" }, { house: 7, use: "barn" }), null);
    assert.equal(building.fault({ use: "barn" }, { use: "shop" }), null);
    assert.equal(building.fault({ house: 7 }, {}), "house is required");
    assert.equal(building.fault(null, {}, tag => building.nameOf(tag)), "House number is required");
});
test("schema: a value that says one of its field's type becomes one", () => {
    assert.deepEqual(building.fitted({ house: " 7 ", use: 5, other: "7" }), { house: 7, use: "5", other: "7" });
    assert.deepEqual(building.fitted({ house: "7" }, { house: "7" }), { house: "7" });
    assert.deepEqual(building.fitted({ house: "9007199254740993" }), { house: 9007199254740993n });
});
test("schema: layers for a kind of shape, with title and zooms; no schema has none", () => {
    const layers = layersOf({ layers: { building: BUILDING, tree: { kinds: ["points"] } } });
    assert.deepEqual(layersFor(layers, "polygons").map(({ name, title, zooms }) => [name, title, zooms]), [["building", "Buildings", { minzoom: 14, maxzoom: 16 }]]);
    assert.deepEqual([layersFor(layers, "points").map(({ name }) => name), layersOf(null).size], [["tree"], 0]);
    assert.deepEqual(building.unknown({ house: 7, roof: "flat", whole: 3 }), ["roof"]);
});
test("schema: it is read anew when it has another tag, and stays if the server doesn't say", async () => {
    const replies = [{ tag: "a", schema: { layers: { building: BUILDING } } }, null, new Error(), { tag: null, schema: null }], asked = [];
    const schema = new Schema({ schema: async known => {
        asked.push(known);
        const reply = replies.shift();
        if (reply instanceof Error) {
            throw reply;
        }
        return reply;
    } });
    const sizes = [];
    for (let at = 0; at < 4; at++) {
        sizes.push((await schema.look()).size);
    }
    assert.deepEqual([sizes, asked], [[1, 1, 1, 0], [null, "a", "a", "a"]]);
});
test("schema: the same rules and words as vtmap/files/map_schema.py", () => {
    assert.ok(faults.length > 300);
    for (const { row, before, tags, fitted, fault, unknown } of faults) {
        const layer = layersOf({ layers: { a: row } }).get("a"), told = JSON.stringify([row, before, tags], (key, value) => typeof value === "bigint" ? `${value}n` : value);
        const made = layer.fitted(tags, before);
        assert.deepEqual([made, layer.fault(before, made), layer.unknown(made)], [fitted, fault, unknown], told);
    }
    for (const { layer, tags, told } of missings) {
        assert.equal(missing(layer, tags), told);
    }
});
test("schema: values as Python writes them", () => {
    const pairs = [["a", "'a'"], ["it's", "\"it's\""], ["'\"", "'\\'\"'"], ["a\nb\u0007\u00a0\u{1f600}", "'a\\nb\\x07\\xa0\u{1f600}'"], [true, "True"], [5, "5"]];
    assert.deepEqual(pairs.map(([value]) => repr(value)), pairs.map(([, told]) => told));
});
test("cut: the same rules and words as vtmap/files/cut_text.py", () => {
    assert.ok(cuts.length > 20 && cuts.some(({ told }) => told === null));
    for (const { text, columns, told } of cuts) {
        assert.equal(cutOf(text, columns), told, JSON.stringify(text));
    }
});
test("cut: a table that has lost its end is refused, unless somebody says that it is whole", () => {
    const bytes = new TextEncoder().encode("nr,name,lon,lat\n1,Well,7.5,54.5\n2,Pump,7.505,5");
    assert.throws(() => featuresIn("cut.csv", bytes), fault => fault instanceof Cut
        && fault.message === "its last line has no end, and its first one has one ('2,Pump,7.505,5')");
    assert.equal(featuresIn("cut.csv", bytes, true).features.length, 2);
});
