// Tests of the colours of the map, by the contrast of WCAG 2.2 (1.4.3 for texts: 4.5; 1.4.11 for what is drawn: 3).
import assert from "node:assert/strict";
import { readFileSync } from "node:fs";
import test from "node:test";

import { Style } from "./web/style.js";

const read = name => readFileSync(new URL(`web/${name}`, import.meta.url), "utf8");
const given = JSON.parse(read("style.json"));
const partsOf = colour => colour.startsWith("#") ? [1, 3, 5, 7].map(from => parseInt(colour.slice(from, from + 2) || "ff", 16)).map((part, at) => at < 3 ? part : part / 255)
    : colour.match(/[\d.]+/g).map(Number);

/** A colour over another one. */
const over = (colour, ground) => {
    const [red, green, blue, alpha = 1] = partsOf(colour), below = partsOf(ground);
    return `rgb(${[red, green, blue].map((part, at) => part * alpha + below[at] * (1 - alpha)).join(", ")})`;
};
/** The relative luminance of a colour, and the contrast of two. */
const luminance = colour => partsOf(colour).slice(0, 3).map(part => part / 255 <= 0.04045 ? part / 255 / 12.92 : ((part / 255 + 0.055) / 1.055) ** 2.4)
    .reduce((sum, part, at) => sum + part * [0.2126, 0.7152, 0.0722][at], 0);
function contrast(one, other) {
    const [dark, light] = [luminance(one), luminance(other)].sort((first, second) => first - second);
    return (light + 0.05) / (dark + 0.05);
}

/** What of a style can't be seen: rules, colours and what is below them, if the map has so many layers that no rule names. */
function unseen(given, others) {
    const style = new Style(given), found = [];
    style.know(Array.from({ length: others }, (_, at) => `other ${at}`));
    const grounds = [style.background];
    for (const rule of style.rules) {
        const see = (name, ...colours) => grounds.forEach(ground => {
            const best = Math.max(...colours.map(colour => contrast(over(colour, ground), ground)));
            best < 3 && found.push(`${name} of ${rule.layer} on ${ground}: ${best.toFixed(2)}`);
        });
        rule.area && see("area", rule.edge ?? rule.area);
        rule.line && see("line", rule.line, ...(rule.casing ? [rule.casing] : []));
        rule.point && see("point", rule.point);
        // What lets the rest show through is no ground of its own for the layers beside it: they are seen by their edges.
        rule.area && !rule.isOwn && grounds.push(rule.area);
    }
    return found;
}

test("contrast: black and white, and the examples of WCAG's own understanding", () => {
    assert.equal(contrast("#000000", "#ffffff"), 21);
    assert.equal(contrast("#777777", "#ffffff").toFixed(2), "4.48");
    assert.equal(contrast("#767676", "#ffffff").toFixed(2), "4.54");
    assert.equal(over("#00000080", "#ffffff").slice(0, 7), "rgb(127");
});
test("contrast: what the map draws is seen", () => assert.deepEqual(unseen(given, given.rules.at(-1).colours.length), []));
test("contrast: colours that can't be told from what is below them are found", () => {
    assert.deepEqual(unseen({ background: "#ffffff", rules: [{ layer: "park", area: "#cccccc", edge: "#bbbbbb" }, { layer: "path", line: "#8f8f8f" }] }, 0),
        ["area of park on #ffffff: 1.92", "line of path on #cccccc: 2.01"]);
});
test("contrast: what is edited is seen by its white edge, and names by theirs", () => {
    const draw = read("draw.js"), [, mine, theirs] = draw.match(/MINE = "(#\w+)", THEIRS = "(#\w+)"/);
    assert.ok(contrast(mine, "#ffffff") >= 3 && contrast(theirs, "#ffffff") >= 3);
    const [, halo] = draw.match(/strokeStyle = "(#\w{8})"/), [, text] = draw.match(/fillStyle = "(#\w{6})";\n\s*context.fillText/);
    const grounds = [given.background, ...given.rules.flatMap(rule => [rule.area, rule.edge, rule.line, rule.casing, ...(rule.colours ?? [])]).filter(Boolean)];
    assert.deepEqual(grounds.filter(ground => contrast(text, over(halo, ground)) < 4.5), []);
});
