// The schema of a map, schema.json: which layers and fields it is to have (docs/FORMATS.md, "The schema"), by the rules and words of
// vtmap/files/map_schema.py. A value that a feature has already is never refused by it, nor is a layer that it doesn't name.
import { texts } from "./texts.js";

const NUMBER = /^-?[0-9]+(\.[0-9]+)?([eE][-+]?[0-9]+)?$/, WHOLE_NUMBER = /^-?[0-9]{1,19}$/, DATE = /^[0-9]{4}-[0-9]{2}-[0-9]{2}$/;
const TRUTHS = new Map([["true", true], ["false", false]]);
const KINDS = { points: "points", lines: "lines", polygons: "areas" };
// What Python shows by a number: control characters, and spaces but the usual one.
const HIDDEN = /[\p{C}\p{Zl}\p{Zp}]|(?! )\p{Zs}/u;
const ESCAPES = { "\\": "\\\\", "\n": "\\n", "\r": "\\r", "\t": "\\t" };
// How many choices are named in a refusal.
const MOST_NAMED = 12;

const isWhole = value => Number.isInteger(value) || typeof value === "bigint";
/** The integer of digits: a BigInt if a number would round it. */
const integerOf = digits => Number.isSafeInteger(Number(digits)) ? Number(digits) + 0 : BigInt(digits);

/** Whether a text is a day, as 2026-11-29. */
export const isDate = text => DATE.test(text) && !text.startsWith("0000") && (new Date(`${text}T00:00:00Z`).toJSON() ?? "").startsWith(text);

function escaped(letter) {
    const code = letter.codePointAt(0), [mark, digits] = code < 256 ? ["x", 2] : code < 65536 ? ["u", 4] : ["U", 8];
    return `\\${mark}${code.toString(16).padStart(digits, "0")}`;
}

/** A value as Python writes it, as the words of the commands have it. */
export function repr(value) {
    if (typeof value !== "string") {
        return value === true ? "True" : value === false ? "False" : String(value);
    }
    const quote = value.includes("'") && !value.includes('"') ? '"' : "'";
    return quote + [...value].map(letter => ESCAPES[letter] ?? (letter === quote ? `\\${quote}` : HIDDEN.test(letter) ? escaped(letter) : letter)).join("") + quote;
}

/** A name in one line. */
const shown = name => HIDDEN.test(name) ? repr(name) : name;
/** A name as the word of a command. */
const word = name => /^[\p{L}\p{N}_.:-]+$/u.test(name) ? name : `'${shown(name).replaceAll("'", "'\\''")}'`;

/** What to do for fields that a layer doesn't have. */
export function missing(layer, tags) {
    const named = tags.map(tag => repr(shown(tag))).join(texts.and), words = [layer, ...tags].map(word).join(" ");
    // The command would take such a name for an option.
    const isOption = [layer, ...tags].some(name => name.startsWith("-"));
    return isOption ? texts.noFieldByHand(shown(layer), named) : texts[tags.length > 1 ? "noFields" : "noField"](shown(layer), named, words);
}

class Field {
    constructor({ type = "text", label = null, choices = null, required = false }) {
        Object.assign(this, { type, label, choices, required });
    }

    /** A value of another type that says one of this, as that one; otherwise the value. */
    fitted(value) {
        if (this.type === "text" && isWhole(value)) {
            return String(value);
        }
        if (typeof value !== "string") {
            return value;
        }
        const text = value.trim();
        return this.type === "integer" && WHOLE_NUMBER.test(text) ? integerOf(text) : this.type === "boolean" ? TRUTHS.get(text.toLowerCase()) ?? value : value;
    }

    isOfType(value) {
        const isText = typeof value === "string";
        return {
            text: isText, integer: isWhole(value), boolean: typeof value === "boolean", number: isWhole(value) || isText && NUMBER.test(value),
            date: isText && isDate(value),
        }[this.type];
    }

    /** Why a tag of this name can't have a value, or null. */
    fault(name, value) {
        if (!this.isOfType(value)) {
            return texts.isNo(name, repr(value), texts.noType[this.type]);
        }
        if (!this.choices || this.choices.includes(value)) {
            return null;
        }
        const named = this.choices.slice(0, MOST_NAMED).map(repr).join(", ") + (this.choices.length > MOST_NAMED ? ", .." : "");
        return texts.isNoChoice(name, repr(value), this.choices.length > 1 ? texts.oneOf(named) : named);
    }
}

class Layer {
    constructor(name, { title = null, kinds = [], minzoom, maxzoom, fields = {} }) {
        Object.assign(this, { name, title, kinds, zooms: minzoom === undefined ? null : { minzoom, maxzoom } });
        this.fields = new Map(Object.entries(fields).map(([tag, row]) => [tag, new Field(row)]));
    }

    /** What people read in place of a tag. */
    nameOf(tag) {
        return this.fields.get(tag)?.label ?? tag;
    }

    /** Tags whose values have the types of their fields, where they say such a value. Values from before stay as they are. */
    fitted(tags, before) {
        const isOld = (tag, value) => Object.hasOwn(before ?? {}, tag) && before[tag] === value;
        return Object.fromEntries(Object.entries(tags).map(([tag, value]) => [tag, isOld(tag, value) ? value : this.fields.get(tag)?.fitted(value) ?? value]));
    }

    /** The tags for which there is no field. */
    unknown(tags) {
        return Object.keys(tags).filter(tag => !this.fields.has(tag) && tag !== "whole");
    }

    /**
     * Why a feature can't have these tags, or null. `before`: those that it had, null if it is new. What it had already is no fault. `name(tag)` is what
     * a tag is called.
     */
    fault(before, after, name = shown) {
        const old = before ?? {}, isOld = (tag, value) => Object.hasOwn(old, tag) && old[tag] === value;
        for (const [tag, value] of Object.entries(after)) {
            const fault = !isOld(tag, value) && this.fields.get(tag)?.fault(name(tag), value);
            if (fault) {
                return fault;
            }
        }
        const lacking = [...this.fields].find(([tag, { required }]) => required && !Object.hasOwn(after, tag) && (!before || Object.hasOwn(old, tag)));
        return lacking ? texts.isRequired(name(lacking[0])) : null;
    }
}

/** The layers of a schema by their names; of no schema there are none. */
export function layersOf(schema) {
    return new Map(Object.entries(schema?.layers ?? {}).map(([name, row]) => [name, new Layer(name, row)]));
}

/** The layers that may get a new feature of a kind of geometry. */
export const layersFor = (layers, kind) => [...layers.values()].filter(({ kinds }) => kinds.includes(KINDS[kind]));

/** The schema of the map of a server. */
export class Schema {
    layers = new Map();
    tag = null;

    constructor(server) {
        this.server = server;
    }

    /** The layers, read anew if they have changed. If the server doesn't say, they are as they were. */
    async look() {
        const found = await this.server.schema(this.tag).catch(() => null);
        if (found) {
            this.tag = found.tag;
            this.layers = layersOf(found.schema);
        }
        return this.layers;
    }
}
