// Tests of web/slices.js: work a part at a time.
import assert from "node:assert/strict";
import test from "node:test";

import { Slices, each } from "./web/slices.js";

/** A clock that each look at it moves on by a millisecond. */
const clock = () => {
    let time = 0;
    return () => time++;
};

test("slices: a list is gone through, with a stop after each so many", () => {
    const seen = [], parts = each([..."abcde"], 2, (letter, at) => seen.push(letter + at)), stops = [];
    for (let part = parts.next(); !part.done; part = parts.next()) {
        stops.push(seen.length);
    }
    assert.deepEqual([seen, stops], [["a0", "b1", "c2", "d3", "e4"], [2, 4]]);
});
test("slices: work goes on where the time was over, in its order", async () => {
    const seen = [];
    let woken = 0;
    const slices = new Slices(() => woken++), parts = function* (name) {
        for (let at = 0; at < 4; at++) {
            seen.push(name + at);
            yield;
        }
        return name;
    };
    const both = [slices.done(parts("a")), slices.done(parts("b"))];
    slices.run(3, clock());
    assert.deepEqual([seen, woken], [["a0", "a1"], 3]);
    slices.run(100, clock());
    assert.deepEqual(seen, ["a0", "a1", "a2", "a3", "b0", "b1", "b2", "b3"]);
    assert.deepEqual([await Promise.all(both), woken], [["a", "b"], 4]);
    slices.run(100, clock());
    assert.equal(woken, 4);
});
test("slices: what is ended is left, what fails says so, and the rest is done", async () => {
    const ends = new AbortController(), slices = new Slices(() => {});
    let steps = 0;
    const endless = slices.done(function* () {
        for (;;) {
            steps++;
            yield;
        }
    }(), ends.signal);
    const failing = slices.done(function* () {
        yield;
        throw new Error("torn");
    }()), last = slices.done(function* () {
        yield;
        return 7;
    }());
    slices.run(3, clock());
    ends.abort();
    slices.run(100, clock());
    await assert.rejects(endless, { name: "AbortError" });
    await assert.rejects(failing, { message: "torn" });
    assert.deepEqual([await last, steps], [7, 2]);
});
