// Tests of web/server.js, whole.js, style.js, search.js, refusals.js and maplibre.js over replies that are known.
import assert from "node:assert/strict";
import test from "node:test";

import { maplibreStyle } from "./web/maplibre.js";
import { WHY } from "./web/refusals.js";
import { search, titleOf } from "./web/search.js";
import { Server, bytesOf, canonical } from "./web/server.js";
import { Style, isOutline, plain, width } from "./web/style.js";
import { PIECE, changeAll, changedOf, piecesOf, wholeOf } from "./web/whole.js";

const feature = (tags, more = {}) => ({ layer: "p", minzoom: 0, maxzoom: 2, geometry: { points: [[0, 0]] }, tags, ...more });

/** Runs a function while `fetch` gives these replies, each once, and notes what is asked. */
async function over(replies, run) {
    const known = globalThis.fetch, asked = [];
    globalThis.fetch = async (url, words) => {
        asked.push([words?.method ?? "GET", url.pathname + url.search]);
        const [status, content] = replies.shift();
        return new Response(status === 204 || status === 304 ? null : content, { status, headers: { ETag: '"7"' } });
    };
    try {
        return [await run(new Server("http://127.0.0.1/")), asked];
    } finally {
        globalThis.fetch = known;
    }
}

test("server: a feature, or none", async () => {
    const [found, asked] = await over([[200, JSON.stringify(feature({}))], [404, "NotFound\n"]], async server =>
        [await server.feature(7), await server.feature(8)]);
    assert.deepEqual([found, asked], [[feature({}), null], [["GET", "/features/7"], ["GET", "/features/8"]]]);
});
test("server: a refusal says why", async () => {
    await over([[400, "E8 Long\n"]], server => assert.rejects(server.feature(7), { message: `${WHY["E8 Long"]} (E8 Long)` }));
    await over([[502, "<html><title>502 Bad Gateway</title>"]], server => assert.rejects(server.feature(7), { message: `${WHY[502]} (502)` }));
});
test("server: a tile, and one that hasn't changed", async () => {
    const [found, asked] = await over([[200, Uint8Array.of(1, 2)], [304]], async server =>
        [await server.tile("1/0/0", 5, null), await server.tile("1/0/0", 6, '"7"')]);
    assert.deepEqual([...found[0].bytes], [1, 2]);
    assert.deepEqual([found[1].bytes, asked[1]], [null, ["GET", "/map/1/0/0.mvt?edit=6"]]);
});
test("server: who may not edit", async () => {
    for (const status of [401, 403, 404]) {
        const [found] = await over([[status, ""]], server => server.status(false));
        assert.deepEqual(found, { refused: status });
    }
});
test("server: changes after an edit", async () => {
    const edits = [{ edit: 6, changes: [{ delete: 1 }] }, { edit: 7, changes: [{ delete: 2 }] }];
    const [found] = await over([[200, JSON.stringify({ edits, last: 7 })]], server => server.changesAfter(5, 7));
    assert.deepEqual(found, [{ delete: 1 }, { delete: 2 }]);
    const [none] = await over([[410, "Gone"]], server => server.changesAfter(5, 7));
    assert.equal(none, null);
});
test("server: equal features have one text", () => {
    assert.equal(canonical(feature({ a: 1, b: 2 })), canonical({ tags: { b: 2, a: 1 }, geometry: { points: [[0, 0]] }, maxzoom: 2, minzoom: 0, layer: "p" }));
    assert.notEqual(canonical(feature({ a: 1 })), canonical(feature({ a: "1" })));
});
test("server: bytes", () => assert.equal(bytesOf("aß€"), 6));

test("refusals: none has the marks of Markdown", () => {
    assert.ok(Object.values(WHY).every(text => !/[*`]/.test(text)));
    assert.equal(WHY["E4 Zoom"], "zooms go from 0 to 19, the first at most the last");
});

/** A map of features, as `Server` has it: `edit` makes changes if each feature is what it was. */
const mapOf = features => ({
    features, edits: [],
    async feature(id) {
        return this.features.get(id) ?? null;
    },
    async from(id) {
        const next = [...this.features.keys()].filter(key => key >= id).sort((one, other) => one - other)[0];
        return next === undefined ? null : { id: next, feature: this.features.get(next) };
    },
    async edit(changes) {
        changes.forEach(change => assert.equal(canonical(this.features.get(change.put ?? change.delete) ?? null), canonical(change.was)));
        changes.forEach(change => "put" in change ? this.features.set(change.put, change.feature) : this.features.delete(change.delete));
        return this.edits.push(changes);
    },
    async lastEdit() {
        return this.edits.length;
    },
});
const pieces = () => new Map([[7, feature({ name: "x", whole: 7 })], [8, feature({ name: "x", whole: 7 }, { layer: "p-outline" })],
    [9, feature({ name: "y" })], [7 + PIECE, feature({ name: "x", whole: 7 })]]);

test("whole: all its pieces", async () => {
    const found = await piecesOf(mapOf(pieces()), 7);
    assert.deepEqual(found.map(({ id }) => id), [7, 8, 7 + PIECE]);
    assert.deepEqual(wholeOf(found), feature({ name: "x" }));
    assert.equal(wholeOf([]), null);
});
test("whole: all pieces get the tags, and the outline keeps its layer", async () => {
    const map = mapOf(pieces());
    await changeAll(map, await piecesOf(map, 7), feature({ name: "z" }, { layer: "q" }));
    assert.deepEqual([7, 8, 7 + PIECE].map(id => [map.features.get(id).layer, map.features.get(id).tags]),
        [["q", { name: "z", whole: 7 }], ["q-outline", { name: "z", whole: 7 }], ["q", { name: "z", whole: 7 }]]);
    assert.deepEqual(map.features.get(9), feature({ name: "y" }));
});
test("whole: deleted, its first piece last", async () => {
    const map = mapOf(pieces());
    await changeAll(map, await piecesOf(map, 7), null);
    assert.deepEqual([[...map.features.keys()], map.edits.flat().map(change => change.delete)], [[9], [7 + PIECE, 8, 7]]);
});
test("whole: what somebody else has changed is left as it is", async () => {
    const map = mapOf(pieces()), before = await piecesOf(map, 7);
    map.features.set(8, feature({ name: "theirs", whole: 7 }));
    await assert.rejects(changeAll(map, before, feature({ name: "mine" })), { message: "Changed 8" });
    assert.deepEqual([map.edits, changedOf(await piecesOf(map, 7), before).tags], [[], { name: "theirs" }]);
});

const STYLE = { background: "#fff", rules: [
    { layer: "road", when: { kind: "main" }, line: "#111111", width: 4 }, { layer: "road", line: "#222222" },
    { layer: "*", colours: ["#a00000", "#00b000"] },
] };
test("style: the first rule that is of a feature draws it", () => {
    const style = new Style(STYLE);
    assert.ok(style.know(["tree", "road", "lake", "lake-outline"]));
    assert.equal(style.know(["lake", "road", "tree"]), false);
    assert.deepEqual([style.placeOf("road", { kind: "main" }), style.placeOf("road", {}), style.placeOf("other", {})], [0, 1, -1]);
    assert.deepEqual([style.colourOf("lake"), style.colourOf("tree"), style.colourOf("road")], ["#a00000", "#00b000", "#111111"]);
    style.hidden.add("lake");
    assert.deepEqual([style.placeOf("lake", {}), style.placeOf("lake-outline", {})], [-1, -1]);
});
test("style: names of layers and widths", () => {
    assert.deepEqual([isOutline("a-outline"), plain("a-outline"), plain("a")], [true, "a", "a"]);
    assert.deepEqual([width({ width: 4 }, 15), width({ width: 4 }, 16), width({}, 0)], [4, 6, 0.7]);
});
test("style: MapLibre's", () => {
    const style = new Style(STYLE);
    style.know(["road"]);
    const made = maplibreStyle(style, [{ id: "road", maxzoom: 14 }], "http://h/{z}/{x}/{y}.mvt");
    assert.deepEqual([made.version, made.sources.map.maxzoom, made.layers.map(({ id }) => id)], [8, 14, ["background", "0 road line", "1 road line"]]);
    // A feature of the first rule isn't drawn by the second one.
    assert.deepEqual(made.layers[2].filter, ["all", ["==", ["geometry-type"], "LineString"], ["all"], ["!", ["all", ["==", ["get", "kind"], "main"]]]]);
});

test("search: an id, and texts in view", async () => {
    const view = { features: () => [{ id: 1, layer: "p", tags: { name: "Old Mill" } }, { id: 2, layer: "p", tags: { use: "garden" } }, { id: 7, layer: "p", tags: {} }] };
    const ids = async (text, server) => (await search(server, view, text)).map(({ id }) => id);
    const server = { feature: async id => id === "7" ? feature({ name: "x" }) : null };
    assert.deepEqual([await ids("mill"), await ids("use=gar"), await ids("use=mill"), await ids("7", server), await ids("7")], [[1], [2], [], [7], [7]]);
});
test("search: titles", () => {
    assert.deepEqual([titleOf({ layer: "p-outline", id: 7, tags: { name: "Mill", use: "old garden" } }, "garden"), titleOf({ layer: "p", id: 7, tags: {} }, "7")],
        ["p 7: old garden", "p 7"]);
});
