// Decodes a vector tile as vtserve encodes it (Mapbox Vector Tile 2.1).
import { each } from "./slices.js";

// How many features, or values, are decoded without a stop, and fields of a layer.
const AT_ONCE = 200, FIELDS_AT_ONCE = 4000;
const text = (decoder => bytes => decoder.decode(bytes))(new TextDecoder());
const KINDS = [null, "points", "lines", "polygons"];

class Reader {
    constructor(bytes) {
        Object.assign(this, { bytes, at: 0 });
    }

    get hasMore() {
        return this.at < this.bytes.length;
    }

    /** A varint: a number, or a BigInt where a number would be rounded. */
    varint() {
        const from = this.at;
        let value = 0, scale = 1;
        do {
            value += (this.bytes[this.at] & 127) * scale;
            scale *= 128;
        } while (this.bytes[this.at++] > 127);
        return Number.isSafeInteger(value) ? value : this.bytes.subarray(from, this.at).reduceRight((sum, byte) => sum << 7n | BigInt(byte & 127), 0n);
    }
}

/** The integers of a packed field. */
function integers(bytes) {
    const reader = new Reader(bytes), found = [];
    while (reader.hasMore) {
        found.push(reader.varint());
    }
    return found;
}

/** Reads so many fields of a message, each an integer or bytes, into lists by their numbers. */
function read(reader, found, most) {
    for (let count = 0; reader.hasMore && count < most; count++) {
        const key = reader.varint(), value = reader.varint(), isBytes = (key & 7) === 2;
        (found[key >> 3] ??= []).push(isBytes ? reader.bytes.subarray(reader.at, reader.at + value) : value);
        reader.at += isBytes ? value : 0;
    }
}

/** The fields of a message: a function from a field's number to its values. */
function message(bytes) {
    const found = [];
    read(new Reader(bytes), found, Infinity);
    return number => found[number] ?? [];
}

/** The same of a long message, read a part at a time. */
function* longMessage(bytes) {
    const reader = new Reader(bytes), found = [];
    while (reader.hasMore) {
        read(reader, found, FIELDS_AT_ONCE);
        yield;
    }
    return number => found[number] ?? [];
}

/** The integer of a zigzag form. */
function signed(number) {
    return typeof number === "bigint" ? number >> 1n ^ -(number & 1n) : number % 2 ? -(number + 1) / 2 : number / 2;
}

function valueOf(bytes) {
    const all = message(bytes);
    return all(1).map(text)[0] ?? all(5)[0] ?? all(6).map(signed)[0] ?? all(7)[0] === 1;
}

/** The lists of points of a geometry's commands. Each MoveTo begins one, so several points are a list each. */
function chains(commands) {
    const found = [];
    let x = 0, y = 0;
    for (let at = 0; at < commands.length;) {
        const command = commands[at] & 7, count = command === 7 ? 0 : commands[at] >> 3;
        for (const end = ++at + 2 * count; at < end; at += 2) {
            [x, y] = [x + signed(commands[at]), y + signed(commands[at + 1])];
            command === 1 ? found.push([[x, y]]) : found.at(-1).push([x, y]);
        }
    }
    return found;
}

function featureOf(bytes, keys, values) {
    const all = message(bytes), pairs = all(2).flatMap(integers);
    const tags = pairs.flatMap((key, at) => at % 2 ? [] : [[keys[key], values[pairs[at + 1]]]]);
    return { id: all(1)[0], kind: KINDS[all(3)[0]], chains: chains(all(4).flatMap(integers)), tags: Object.fromEntries(tags) };
}

/** The layers of a tile, decoded a part at a time: the name of each, and its features with id, kind, lists of points and tags. */
export function* decoded(bytes) {
    const found = [];
    for (const layer of message(bytes)(3)) {
        const all = yield* longMessage(layer), keys = all(3).map(text), values = [], features = [];
        yield* each(all(4), AT_ONCE, row => values.push(valueOf(row)));
        yield* each(all(2), AT_ONCE, row => features.push(featureOf(row, keys, values)));
        found.push({ name: text(all(1)[0]), features });
    }
    return found;
}

/** The layers of a tile at once. */
export function decode(bytes) {
    const parts = decoded(bytes);
    for (let part = parts.next(); ; part = parts.next()) {
        if (part.done) {
            return part.value;
        }
    }
}
