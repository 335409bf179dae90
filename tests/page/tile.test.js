// Tests of web/tile.js: worked tiles of docs/FORMATS.md, HTTP.md and of the standard (Mapbox Vector Tile 2.1).
import assert from "node:assert/strict";
import test from "node:test";

import { decode } from "./web/tile.js";

const bytes = hex => Uint8Array.from(hex.match(/../g) ?? [], part => parseInt(part, 16));
const hex = number => number.toString(16).padStart(2, "0");
/** A field of bytes, and one of an integer below 128. */
const field = (number, content) => hex(number << 3 | 2) + hex(content.length / 2) + content;
const integer = (number, value) => hex(number << 3) + hex(value);
const textOf = word => [...new TextEncoder().encode(word)].map(hex).join("");
/** A tile of one layer `p` with one feature of a type, a geometry, tags, keys and values. */
const tileOf = (type, geometry, { tags = "", keys = [], values = [], id = integer(1, 7) } = {}) => {
    const feature = id + (tags && field(2, tags)) + integer(3, type) + field(4, geometry);
    const more = keys.map(key => field(3, textOf(key))).join("") + values.map(value => field(4, value)).join("");
    return bytes(field(3, integer(15, 2) + field(1, textOf("p")) + field(2, feature) + more));
};
const only = tile => decode(tile)[0].features[0];

test("tile: the example of FORMATS.md", () => {
    const [layer, ...others] = decode(bytes("1a130a017012090807180122030900002880207802"));
    assert.deepEqual([layer.name, others.length], ["p", 0]);
    assert.deepEqual(layer.features, [{ id: 7, kind: "points", chains: [[[0, 0]]], tags: {} }]);
});

test("tile: no bytes are no layers", () => assert.deepEqual(decode(bytes("")), []));

// The examples of the standard, 4.3.5.
test("tile: a point", () => assert.deepEqual(only(tileOf(1, "093222")).chains, [[[25, 17]]]));
test("tile: several points", () => assert.deepEqual(only(tileOf(1, "110a0e0309")).chains, [[[5, 7]], [[3, 2]]]));
test("tile: a line", () => {
    const found = only(tileOf(2, "0904041200101000"));
    assert.deepEqual([found.kind, found.chains], ["lines", [[[2, 2], [2, 10], [10, 10]]]]);
});
test("tile: several lines", () => {
    assert.deepEqual(only(tileOf(2, "09040412001010000911110a0408")).chains, [[[2, 2], [2, 10], [10, 10]], [[1, 1], [3, 5]]]);
});
test("tile: a polygon, whose ring is closed by a command without a point", () => {
    const found = only(tileOf(3, "09060c120a0c182c0f"));
    assert.deepEqual([found.kind, found.chains], ["polygons", [[[3, 6], [8, 12], [20, 34]]]]);
});

test("tile: a value of each kind", () => {
    // A text, an integer above 2^53 in field 5, -2 as zigzag in field 6, true and false in field 7.
    const values = [field(1, textOf("Straße")), "28" + "ffffffffffffffffff01", "3003", "3801", "3800"];
    const { tags } = only(tileOf(1, "090000", { keys: ["a", "b", "c", "d", "e"], values, tags: "00000101020203030404" }));
    assert.deepEqual(tags, { a: "Straße", b: 2n ** 64n - 1n, c: -2, d: true, e: false });
});

test("tile: the least number", () => {
    assert.deepEqual(only(tileOf(1, "090000", { keys: ["a"], values: ["30" + "ffffffffffffffffff01"], tags: "0000" })).tags, { a: -(2n ** 63n) });
});

test("tile: an id that a number would round", () => {
    assert.equal(only(tileOf(1, "090000", { id: "08" + "ffffffffffffffff7f" })).id, 2n ** 63n - 1n);
    assert.equal(only(tileOf(1, "090000", { id: "08" + "ffffffffffffff0f" })).id, Number.MAX_SAFE_INTEGER);
});
