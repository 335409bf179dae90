// Tests of web/sheet.js: what a scale means on a printed page.
import assert from "node:assert/strict";
import test from "node:test";

import { PAPERS, SCALES, barOf, isSame, scaleFor, sizesOf, unitsOf } from "./web/sheet.js";
import { WORLD } from "./web/world.js";

const EQUATOR = 40075016.685578488;

test("sheet: a millimetre at 1 : 1,000 is a metre on the ground", () => {
    assert.ok(Math.abs(unitsOf(1000, 0) * EQUATOR / WORLD - 1) < 1e-9);
    // At 60° the map is drawn twice as large.
    assert.ok(Math.abs(unitsOf(1000, 60) * EQUATOR / WORLD - 2) < 1e-9);
});
test("sheet: the map, the legend and all else fit on the paper", () => {
    for (const [name, [short, long]] of Object.entries(PAPERS)) {
        for (const isLandscape of [true, false]) {
            for (const entries of [0, 1, 7, 30]) {
                const { paper, sheet, map, columns } = sizesOf(name, isLandscape, entries), rows = Math.ceil(entries / columns);
                assert.deepEqual(paper, isLandscape ? [long, short] : [short, long]);
                assert.deepEqual([sheet[0], map[0]], [paper[0] - 20, paper[0] - 20]);
                assert.ok(map[1] + 11 + 12 + rows * 5.5 <= sheet[1] + 1e-9 && sheet[1] < paper[1] - 20, `${name} ${entries}`);
            }
        }
    }
});
test("sheet: a bar is 1, 2 or 5 times a power of ten, and at most 60 mm long", () => {
    for (const scale of SCALES) {
        const { metres, length } = barOf(scale);
        assert.match(String(metres), /^[125]0*$/);
        assert.ok(length <= 60 && length > 20 && Math.abs(length * scale / 1000 - metres) < 1e-6, `${scale}: ${metres}, ${length}`);
    }
});
test("sheet: the scale at first is the largest one that shows a box", () => {
    const side = 1000 * WORLD / EQUATOR;
    assert.equal(scaleFor([side, side], 0, [200, 200]), 5000);
    assert.equal(scaleFor([side, side], 0, [199, 200]), 10000);
    assert.equal(scaleFor([side, 3 * side], 0, [200, 200]), 20000);
    assert.equal(scaleFor([WORLD, WORLD], 0, [200, 200]), SCALES.at(-1));
});
test("sheet: a scale that isn't the same on the whole map", () => {
    assert.deepEqual([isSame(54.6, 54.4), isSame(60, 50), isSame(30, -30), isSame(3, -3)], [true, false, false, true]);
});
