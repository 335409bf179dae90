// Tests of web/world.js, shape.js, neighbours.js and place.js. Places are those of Web Mercator: the equator and the prime meridian meet in the middle
// of the world, which ends at 85.0511287798 degrees.
import assert from "node:assert/strict";
import test from "node:test";

import { Neighbours } from "./web/neighbours.js";
import { publishedBox } from "./web/place.js";
import { begun, described, followed, grabbed, isLarge, isWhole, listsOf, remove, stepsOf } from "./web/shape.js";
import { WORLD, bounds, distance, fromDegrees, isInside, rounded, toDegrees } from "./web/world.js";

const EDGE = 85.05112877980659;
const SQUARE = [[0, 0], [10, 0], [10, 10], [0, 10]];
const near = (found, wanted, most) => found.forEach((part, at) => assert.ok(Math.abs(part - wanted[at]) <= most, `${found}, wanted ${wanted}`));
const same = place => place;

test("world: the middle and the corners", () => {
    assert.deepEqual(fromDegrees(0, 0), [2 ** 31, 2 ** 31]);
    near(fromDegrees(-180, EDGE), [0, 0], 0.01);
    near(fromDegrees(180, -EDGE), [WORLD, WORLD], 0.01);
    near(fromDegrees(90, 66.51326044311186), [3 * 2 ** 30, 2 ** 30], 0.01);
});
test("world: degrees", () => {
    near(toDegrees([2 ** 30, 2 ** 31]), [-90, 0], 1e-9);
    near(toDegrees([0, 0]), [-180, EDGE], 1e-9);
});
test("world: the nearest point that a feature can have", () => assert.deepEqual(rounded([-5, WORLD + 5.5]), [0, WORLD - 1]));
test("world: a point of a feature is the square that it is in", () => assert.deepEqual(rounded([1.9, 7]), [1, 7]));
test("world: the distance of a segment", () => {
    assert.deepEqual([[5, 3], [-3, 4], [14, 3]].map(point => distance(point, [0, 0], [10, 0])), [3, 5, 5]);
    assert.equal(distance([3, 4], [0, 0], [0, 0]), 5);
});
test("world: inside by the even-odd rule", () => {
    const hole = [[3, 3], [7, 3], [7, 7], [3, 7]];
    assert.deepEqual([[1, 1], [5, 5], [11, 5], [-1, 5]].map(point => isInside(point, [SQUARE, hole])), [true, false, false, false]);
});
test("world: bounds", () => assert.deepEqual(bounds([[5, 9], [2, 3], [7, 1]]), [2, 1, 7, 9]));

test("shape: in words", () => {
    assert.equal(described({ points: [[0, 0]] }), "1 point");
    assert.equal(described({ lines: [SQUARE, SQUARE] }), "2 lines, 8 points");
    assert.equal(described({ polygons: [[SQUARE, SQUARE]] }), "1 area, 8 points");
});
test("shape: what has points enough", () => {
    assert.deepEqual(["points", "lines", "polygons"].map(kind => isWhole(begun(kind))), [false, false, false]);
    assert.deepEqual([isWhole({ lines: [[[0, 0], [1, 1]]] }), isWhole({ polygons: [[[[0, 0], [1, 1]]]] })], [true, false]);
});
test("shape: a corner is dragged", () => {
    const shape = { lines: [[[0, 0], [100, 0]]] };
    grabbed(shape, [102, 3], same)([50.7, 60]);
    assert.deepEqual(shape, { lines: [[[0, 0], [50, 60]]] });
});
test("shape: a drag in the middle of an edge adds a corner", () => {
    const shape = { lines: [[[0, 0], [100, 0]]] };
    grabbed(shape, [50, 1], same)([50, 60]);
    assert.deepEqual(shape, { lines: [[[0, 0], [50, 60], [100, 0]]] });
});
test("shape: nothing is near", () => assert.equal(grabbed({ lines: [[[0, 0], [100, 0]]] }, [30, 30], same), undefined));
test("shape: a corner is removed while enough are left", () => {
    const shape = { polygons: [[structuredClone(SQUARE).map(([x, y]) => [x * 10, y * 10])]] };
    remove(shape, [0, 0], same);
    assert.equal(shape.polygons[0][0].length, 3);
    remove(shape, [100, 0], same);
    assert.equal(shape.polygons[0][0].length, 3);
});
test("shape: lists", () => assert.deepEqual(listsOf({ polygons: [[SQUARE]] }), [{ points: SQUARE, isClosed: true }]));

const ring = points => ({ polygons: [[points]] });
test("shape: steps of a history", () => {
    const moved = [[0, 0], [12, 0], [10, 10], [0, 10]], added = [[0, 0], [5, 0], [10, 0], [10, 10], [0, 10]];
    assert.deepEqual(stepsOf([ring(SQUARE), ring(moved)]), [{ from: [10, 0], to: [12, 0] }]);
    assert.deepEqual(stepsOf([ring(SQUARE), ring(added)]), [{ added: [5, 0], between: [[0, 0], [10, 0]] }]);
    assert.deepEqual(stepsOf([ring(added), ring(SQUARE)]), [{ removed: [5, 0], between: [[0, 0], [10, 0]] }]);
    assert.deepEqual(stepsOf([ring(SQUARE), ring(SQUARE)]), []);
});
test("shape: a neighbour follows", () => {
    // The square at the right shares the edge from (10,0) to (10,10).
    const right = ring([[10, 0], [20, 0], [20, 10], [10, 10]]);
    assert.deepEqual(followed(right, [{ from: [10, 0], to: [12, 0] }]), ring([[12, 0], [20, 0], [20, 10], [10, 10]]));
    assert.deepEqual(followed(right, [{ added: [9, 5], between: [[10, 0], [10, 10]] }]), ring([[10, 0], [20, 0], [20, 10], [10, 10], [9, 5]]));
    assert.deepEqual(followed(right, [{ removed: [3, 3], between: [[0, 0], [1, 1]] }]), right);
});
test("shape: a neighbour keeps its shape", () => {
    const steps = [{ from: [0, 0], to: [10, 0] }, { from: [0, 10], to: [10, 0] }];
    assert.throws(() => followed(ring([[0, 0], [10, 0], [0, 10]]), steps), /would lose its shape/);
});
test("shape: what MapLibre draws wrong", () => {
    // At zoom 10 a tile has 4,096 units of 2^10.
    const line = wide => ({ geometry: { lines: [[[0, 0], [wide, 0]]] }, maxzoom: 10 });
    assert.deepEqual([isLarge(line(4000 * 2 ** 10)), isLarge(line(4100 * 2 ** 10)), isLarge({ geometry: { points: [[0, 0], [WORLD, 0]] }, maxzoom: 10 })],
        [false, true, false]);
});

/** A view of features whose pixels are units of the world. */
const viewOf = features => ({ scale: 1, toScreen: same, toWorld: same, squares: () => [0], squaresAt: () => [0], featuresOf: () => features });
const corner = (id, points, tags = {}) => ({ id, tags, chains: [points] });

test("neighbours: a corner snaps to the nearest one of another feature", async () => {
    const server = { feature: async id => ({ geometry: { points: [[100.25, 50]] }, id }) };
    const others = new Neighbours(viewOf([corner(1, [[100, 50]]), corner(2, [[104, 50]]), corner(7, [[101, 50]])]), server, 7);
    const found = others.cornerAt([101, 50]);
    assert.deepEqual([found.tiled, found.place, await found.exact], [[100, 50], [100, 50], [100.25, 50]]);
    // Now it is known where it is.
    assert.deepEqual(others.cornerAt([101, 50]).place, [100.25, 50]);
});
test("neighbours: none is near", () => {
    const others = new Neighbours(viewOf([corner(1, [[100, 50]])]), { feature: async () => null }, null);
    assert.equal(others.cornerAt([111, 50]), null);
});
test("neighbours: corners that are shared move along", async () => {
    const was = { geometry: ring([[10, 0], [20, 0], [20, 10], [10, 10]]), tags: {} };
    const touching = [corner(1, was.geometry.polygons[0][0]), corner(2, [[10, 0]], { whole: 2 }), corner(3, [[99, 99]])];
    const others = new Neighbours(viewOf(touching), { feature: async () => was }, 7);
    others.look(ring(SQUARE));
    assert.deepEqual([...others.touching], [1]);
    await others.feature(1);
    const [moved, ...rest] = others.moved([ring(SQUARE), ring([[0, 0], [12, 0], [10, 10], [0, 10]])]);
    assert.deepEqual([moved.id, moved.was, moved.feature.geometry, rest.length], [1, was, ring([[12, 0], [20, 0], [20, 10], [10, 10]]), 0]);
});

/** The box of the archive of these tiles, by the ids that PMTiles gives them. */
const boxOf = async ids => {
    const steps = ids.map((id, at) => id - (ids[at - 1] ?? 0)), known = globalThis.fetch;
    globalThis.fetch = async () => new Response(Uint8Array.from([...new Array(127).fill(0), steps.length, ...steps]), { status: 206 });
    try {
        return await publishedBox("http://127.0.0.1/");
    } finally {
        globalThis.fetch = known;
    }
};
test("place: where the published tiles are", async () => {
    // The specification of PMTiles 3: 0/0/0 is 0, 1/0/0 is 1, 1/0/1 is 2, 1/1/1 is 3, 1/1/0 is 4, 2/0/0 is 5.
    assert.deepEqual(await boxOf([0]), [0, 0, WORLD, WORLD]);
    assert.deepEqual(await boxOf([0, 2]), [0, WORLD / 2, WORLD / 2, WORLD]);
    assert.deepEqual(await boxOf([0, 3]), [WORLD / 2, WORLD / 2, WORLD, WORLD]);
    assert.deepEqual(await boxOf([0, 4]), [WORLD / 2, 0, WORLD, WORLD / 2]);
    assert.deepEqual(await boxOf([0, 1, 5]), [0, 0, WORLD / 4, WORLD / 4]);
    assert.deepEqual(await boxOf([0, 1, 4]), [0, 0, WORLD, WORLD / 2]);
});
