// Tests of web/attached.js: which values of tags are files.
import assert from "node:assert/strict";
import test from "node:test";

import { fileOf, nameFor } from "./web/attached.js";

const HASH = "0123456789abcdef".repeat(4);

test("files: a path, or an address that ends in one", () => {
    assert.deepEqual(fileOf(`files/${HASH}.jpg`), { path: `files/${HASH}.jpg`, isPicture: true });
    assert.deepEqual(fileOf(`https://maps.example.org/north/files/${HASH}.pdf`), { path: `files/${HASH}.pdf`, isPicture: false });
});
test("files: what isn't one", () => {
    const others = [`files/${HASH}.svg`, `files/${HASH}.html`, `files/${HASH.slice(1)}.jpg`, `files/${HASH}.jpg.html`, `javascript:alert(1)//files/${HASH}.jpg`,
        `javascript://x/files/${HASH}.jpg`, `data://x/files/${HASH}.jpg`,
        `files/../files/${HASH}.jpg`, `//evil.example/files/${HASH}.jpg`, `https://a b/files/${HASH}.jpg`, "photo.jpg", "", 7, true, null, undefined];
    others.forEach(value => assert.equal(fileOf(value), null, String(value)));
});
test("files: the name of a tag for another one", () => {
    const [photo, document] = ["jpg", "pdf"].map(end => `files/${HASH}.${end}`);
    assert.deepEqual([nameFor(photo, []), nameFor(photo, ["photo"]), nameFor(photo, ["photo", "photo 2", "x"]), nameFor(document, ["photo"])],
        ["photo", "photo 2", "photo 3", "document"]);
});
