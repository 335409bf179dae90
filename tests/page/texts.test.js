// Tests of web/texts.js: each language has each text, and the page has its texts from there alone.
import assert from "node:assert/strict";
import { readFileSync, readdirSync } from "node:fs";
import test from "node:test";

import { WORDS } from "./web/import_rules.js";
import { WHY } from "./web/refusals.js";
import { LANGUAGES, language, languageOf, texts } from "./web/texts.js";

const WEB = new URL("web/", import.meta.url);
// Modules that aren't of the page: texts themselves, and those of two pages of their own.
const OTHERS = ["texts.js", "refusals.js", "import_rules.js", "features.js", "map.js", "maplibre.js"];
// Literals that read like a text and are none: truths as Python writes them; fields and methods of HTTP, names of keys, fonts; members of GeoJSON and elements of KML.
const KNOWN = /^(True|False|Accept|Content-Type|ETag|If-None-Match|Range|Backspace|Enter|Escape|Delete|End|Home|Page(Up|Down)|Arrow\w+)$|^Changed\b|DejaVu/;
const OF_FILES = /^(Multi|Feature(Collection)?|LinearRing|ExtendedData|Data|SchemaData|SimpleData|Name|Folder, Document|Placemark|Files|GEOMETRYCOLLECTION)$/;
// How a literal is handed to what shows it.
const SHOWN = /\b(?:button|hint|open|tell|told|Error)\(\s*["`]([^"`]*[A-Za-z]{2}[^"`]*)["`]/g;

/** The texts of a language by their names, those of lists in them too. */
const all = (given, before = "") => Object.entries(given).flatMap(([name, text]) =>
    typeof text === "object" ? all(text, `${before}${name}.`) : [[before + name, text]]);

test("texts: each language has each of them, of the same kind", () => {
    const kinds = given => all(given).map(([name, text]) => [name, typeof text, text.length * (typeof text === "function")]).sort();
    for (const given of Object.values(LANGUAGES)) {
        assert.deepEqual(kinds(given), kinds(LANGUAGES.en));
        assert.ok(all(given).every(([, text]) => text.length > 0 || typeof text === "function"));
    }
});
test("texts: a text has the values that it is given", () => {
    for (const [name, given] of Object.entries(LANGUAGES)) {
        for (const [key, text] of all(given).filter(([, text]) => typeof text === "function")) {
            const values = Array.from({ length: text.length }, (_, at) => `${at + 7}7`), made = text(...values);
            assert.ok(values.every(value => made.includes(value)), `${name} ${key}: ${made}`);
        }
    }
});
test("texts: the reasons of refusals and the words of the import are those of the commands", () => {
    assert.deepEqual([LANGUAGES.en.refusals, LANGUAGES.en.import], [WHY, WORDS]);
    assert.deepEqual([LANGUAGES.de.refusals, LANGUAGES.de.import].map(Object.keys), [WHY, WORDS].map(Object.keys));
    const places = words => Object.entries(words).map(([name, text]) => [name, text.match(/\{\w+\}/g)]);
    assert.deepEqual(places(LANGUAGES.de.import), places(WORDS));
});
test("texts: no German text is the English one, but for words that both have", () => {
    const english = new Map(all(LANGUAGES.en)), same = all(LANGUAGES.de).filter(([name, text]) => typeof text === "string" && text === english.get(name));
    assert.deepEqual(same, []);
});
test("texts: of one and of several", () => {
    assert.deepEqual([1, 2].map(LANGUAGES.de.count.lines), ["1 Linie", "2 Linien"]);
    assert.deepEqual([1, 2].map(LANGUAGES.en.count.polygons), ["1 area", "2 areas"]);
});
test("texts: the browser's first language that there is, or English", () => {
    assert.deepEqual([["de-AT", "en"], ["fr", "de"], ["EN-us", "de"], ["fr"], []].map(languageOf), ["de", "de", "en", "en", "en"]);
    assert.equal(texts, LANGUAGES[language]);
});
test("texts: the page's HTML has none of its own, and knows those that it names", () => {
    const html = readFileSync(new URL("index.html", WEB), "utf8").replace(/<!--[^]*?-->/g, "").replace(/<title>vtserve<\/title>/, "");
    assert.deepEqual(html.replace(/<[^>]*>/g, "").match(/[A-Za-z]+/g), null);
    assert.deepEqual(html.match(/ (aria-label|title|placeholder|alt)=/g), null);
    const named = [...html.matchAll(/ data-(?:text|label|title|placeholder)="([^"]*)"/g)].map(([, name]) => name);
    assert.deepEqual([named.length > 10, named.filter(name => typeof texts[name] !== "string")], [true, []]);
});
test("texts: no module has one", () => {
    const found = readdirSync(WEB).filter(name => name.endsWith(".js") && !OTHERS.includes(name)).flatMap(name => {
        const code = readFileSync(new URL(name, WEB), "utf8").replace(/\/\*\*[^]*?\*\//g, "").replace(/^\s*\/\/.*$/gm, "");
        const literals = [...code.matchAll(/"((?:[^"\\\n]|\\.)*)"|`((?:[^`\\]|\\.)*)`/g)].map(([, one, other]) => one ?? other.replace(/\$\{[^}]*\}/g, ""));
        const prose = literals.filter(text => /[a-z]{2,} [a-z]{2,}/i.test(text) && !/[=[\]{}<>#]/.test(text) || /^[A-Z][a-z]+/.test(text));
        return [...prose, ...[...code.matchAll(SHOWN)].map(([, text]) => text.replace(/\$\{[^}]*\}/g, "")).filter(text => /[a-z]{2}/i.test(text))]
            .filter(text => !KNOWN.test(text) && !OF_FILES.test(text)).map(text => `${name}: ${text}`);
    });
    assert.deepEqual(found, []);
});
