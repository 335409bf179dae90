// The features of a file that the page is given: GeoJSON, CSV, GPX or KML, by the rules of `vtmap import`, with longitudes and latitudes (WGS 84).
import { Cut, cutOf } from "./cut.js";
import { COLUMNS, NUMBER } from "./import_rules.js";
import { texts } from "./texts.js";
import { WORLD, fromDegrees, rounded } from "./world.js";

const KINDS = { Point: "points", MultiPoint: "points", LineString: "lines", MultiLineString: "lines", Polygon: "polygons", MultiPolygon: "polygons" };
// Names of longitude and latitude, which are the only coordinates that GeoJSON has since RFC 7946.
const DEGREES = /^(urn:ogc:def:crs:(OGC:[\d.]*:CRS84|EPSG:[\d.]*:4326)|EPSG:4326)$/;
const SEPARATORS = [",", ";", "\t", "|"];
const isNumber = text => new RegExp(NUMBER).test(text);

/** Why a feature of a file isn't put. */
class Unfit extends Error {
}

/** A feature without a geometry: nothing is wrong with it, but no map can show it. */
class Nowhere extends Error {
}

/** What a person should know of many features: each note once, with how many features it is of. */
class Notes extends Map {
    add(note) {
        this.set(note, (this.get(note) ?? 0) + 1);
    }
}

/** A text with values in its places, as the words of the import have them. */
const filled = (words, values) => words.replace(/\{(\w+)\}/g, (place, name) => values[name]);

/** The text of a file's bytes: UTF-8, or UTF-16 as a program marks it, or else Windows-1252. */
function textOf(bytes, notes) {
    const mark = [bytes[0], bytes[1]].join(), wide = { "255,254": "utf-16le", "254,255": "utf-16be" }[mark];
    try {
        return new TextDecoder(wide ?? "utf-8", { fatal: true }).decode(bytes);
    } catch {
        notes.add(texts.notUtf8);
        return new TextDecoder("windows-1252").decode(bytes);
    }
}

/** A number as Python writes it, which the import is written in. */
export function numeral(number) {
    if (Number.isInteger(number) && Math.abs(number) <= 2 ** 53) {
        return String(number);
    }
    const [digits, power] = number.toExponential().split("e"), exponent = Number(power), shown = String(number);
    if (exponent < -4 || exponent >= 16) {
        return `${digits}e${exponent < 0 ? "-" : "+"}${String(Math.abs(exponent)).padStart(2, "0")}`;
    }
    return shown.includes(".") ? shown : `${shown}.0`;
}

/** A point of the world. Heights are dropped. */
function pointOf([longitude, latitude, ...heights], flat) {
    if (!Number.isFinite(longitude) || !Number.isFinite(latitude)) {
        throw new Unfit(texts.noNumbers);
    }
    const point = fromDegrees(longitude, latitude);
    if (!point.every(part => part >= -1 && part <= WORLD)) {
        throw new Unfit(texts.import.outside);
    }
    flat.hasHeights ||= heights.length > 0;
    return rounded(point);
}

/** A ring without the point that repeats its first one. */
const opened = ring => ring.length > 1 && String(ring[0]) === String(ring.at(-1)) ? ring.slice(0, -1) : ring;

/** The geometry of a feature of the map. `several`: the coordinates of points, lines, or lists of rings. */
function geometryOf(kind, several, notes) {
    const flat = {}, line = points => points.map(point => pointOf(point, flat));
    const made = kind === "points" ? line(several) : kind === "lines" ? several.map(line).filter(list => list.length)
        : several.map(rings => rings.map(ring => opened(line(ring))).filter(ring => ring.length)).filter(rings => rings.length);
    if (!made.length) {
        throw new Nowhere();
    }
    flat.hasHeights && notes.add(texts.import.heights);
    return { [kind]: made };
}

/** The geometry of one of GeoJSON. */
function fromJson(geometry, notes) {
    const { type, coordinates } = geometry ?? {}, kind = KINDS[type];
    if (!geometry || kind && !coordinates?.length) {
        throw new Nowhere();
    }
    if (!kind) {
        throw new Unfit(filled(texts.import.noKind, { kind: String(type).toUpperCase() }));
    }
    return geometryOf(kind, type.startsWith("Multi") ? coordinates : [coordinates], notes);
}

/** A value of JSON. An integer that a number would round is a BigInt. */
function parsed(text) {
    return JSON.parse(text, (key, value, context) => {
        if (typeof value !== "number" || Math.abs(value) <= Number.MAX_SAFE_INTEGER || !Number.isInteger(value)) {
            return value;
        }
        if (!context?.source) {
            throw new Error(texts.rounds);
        }
        return /^-?\d+$/.test(context.source) ? BigInt(context.source) : value;
    });
}

/**
 * The kinds of the values of each column, by which all of a column become texts, numbers or booleans: a column has one type in what other programs
 * write and read.
 */
function kindsOf(rows) {
    const kinds = new Map();
    for (const [name, value] of rows.flatMap(Object.entries)) {
        kinds.has(name) || kinds.set(name, new Set());
        value === null || kinds.get(name).add(typeof value === "bigint" ? "number" : typeof value);
    }
    return kinds;
}

/** The tags of a row. */
function tagsOf(row, kinds, notes) {
    const tags = {};
    for (const [name, value] of Object.entries(row)) {
        const of = kinds.get(name), isText = of.has("string") || of.has("object") && of.size > 1;
        if (value !== null && typeof value === "object") {
            notes.add(filled(texts.import.dropped, { name, what: texts.import.list }));
        } else if (value !== null) {
            const plain = !isText && of.has("number") && typeof value === "boolean" ? Number(value) : value;
            const isReal = typeof plain === "number" && !(Number.isInteger(plain) && Math.abs(plain) <= 2 ** 53);
            tags[name] = isReal ? numeral(plain) : isText ? String(plain) : plain;
        }
    }
    return tags;
}

function geojson(text, name, notes) {
    const given = parsed(text), rows = given.type === "FeatureCollection" ? given.features : given.type === "Feature" ? [given] : [{ geometry: given }];
    const system = given.crs?.properties?.name;
    if (!Array.isArray(rows) || system && !DEGREES.test(system)) {
        throw new Error(system ? texts.noDegrees(system) : texts.noGeojson);
    }
    const kinds = kindsOf(rows.map(row => row?.properties ?? {})), layer = typeof given.name === "string" && given.name ? given.name : name;
    return rows.map(row => ({ layer, tags: () => tagsOf(row?.properties ?? {}, kinds, notes), geometry: () => fromJson(row?.geometry, notes) }));
}

/** The separator of a table: the one that its first line has, outside of quotes; a comma if there are several kinds. */
function separatorOf(line) {
    const found = new Set([...line.replace(/"[^"]*"/g, "")].filter(letter => SEPARATORS.includes(letter)));
    return found.size === 1 ? [...found][0] : ",";
}

/** The rows of a table, each a list of cells. */
export function rowsOf(text) {
    const separator = separatorOf(text.split(/\r?\n/, 1)[0]), rows = [[""]];
    let isQuoted = false;
    for (let at = 0; at < text.length; at++) {
        const letter = text[at], row = rows.at(-1);
        if (isQuoted ? letter === '"' && text[at + 1] === '"' : false) {
            row[row.length - 1] += text[at++];
        } else if (letter === '"' && (isQuoted || row.at(-1) === "")) {
            isQuoted = !isQuoted;
        } else if (!isQuoted && letter === separator) {
            row.push("");
        } else if (!isQuoted && (letter === "\n" || letter === "\r")) {
            rows.push([""]);
            at += letter === "\r" && text[at + 1] === "\n" ? 1 : 0;
        } else {
            row[row.length - 1] += letter;
        }
    }
    return rows.filter(row => row.length > 1 || row[0] !== "");
}

/** Where a row of a table is. */
function placeIn(row, names, notes) {
    const cells = names.map(name => (row[name] ?? "").trim());
    if (!cells.some(Boolean)) {
        throw new Nowhere();
    }
    if (!cells.every(isNumber)) {
        throw new Unfit(filled(texts.import.twoNumbers, { told: names.map((name, at) => texts.isSaid(name, cells[at])).join(texts.and) }));
    }
    return geometryOf("points", [cells.map(cell => Number(cell.replace(",", ".")))], notes);
}

function csv(text, name, notes, isWhole) {
    const [head = [], ...rows] = rowsOf(text), known = new Map(head.map(column => [column.toLowerCase(), column]));
    const names = COLUMNS.find(pair => pair.every(column => known.has(column)))?.map(column => known.get(column));
    if (!names) {
        throw new Error(texts.noColumns(head.join(", ")));
    }
    const cut = isWhole ? null : cutOf(text, head.length);
    if (cut) {
        throw new Cut(cut);
    }
    return rows.map(cells => Object.fromEntries(cells.slice(0, head.length).map((cell, at) => [head[at], cell]))).map(row => ({
        layer: name, geometry: () => placeIn(row, names, notes), tags: () => Object.fromEntries(Object.entries(row).filter(([column]) => !names.includes(column))),
    }));
}

const children = (element, ...names) => [...element.children].filter(each => names.includes(each.localName));
const textIn = (element, ...names) => children(element, ...names)[0]?.textContent.trim();
/** A number of a text: whole, or as the import writes others. */
const value = text => isNumber(text) ? (number => Number.isSafeInteger(number) ? number : numeral(number))(Number(text)) : text;
/** A moment without parts of a second that are none. */
const moment = text => text.replace(/\.0+(?=Z|[+-]|$)/, "");

// The fields of a thing of GPX, in their order: texts, numbers, and its moment.
const GPX_TEXTS = ["name", "cmt", "desc", "src", "sym", "type", "fix"];
const GPX_NUMBERS = ["ele", "magvar", "geoidheight", "number", "sat", "hdop", "vdop", "pdop", "ageofdgpsdata", "dgpsid"];

function gpxTags(element) {
    const pairs = [...element.children].flatMap(each => {
        const { localName, textContent } = each, text = textContent.trim();
        return GPX_TEXTS.includes(localName) ? [[localName, text]] : GPX_NUMBERS.includes(localName) ? [[localName, value(text)]]
            : localName === "time" ? [["time", moment(text)]] : [];
    });
    const links = children(element, "link").flatMap((link, at) => [["href", link.getAttribute("href")], ["text", textIn(link, "text")], ["type", textIn(link, "type")]]
        .filter(([, text]) => text).map(([part, text]) => [`link${at + 1}_${part}`, text]));
    return Object.fromEntries([...pairs, ...links].filter(([, text]) => text !== ""));
}

function gpx(root, notes) {
    const points = elements => elements.map(element => [element.getAttribute("lon"), element.getAttribute("lat")].map(Number));
    const thing = (layer, kind, listed) => element => ({
        layer, tags: () => gpxTags(element), geometry: () => geometryOf(kind, listed(element), notes),
    });
    return [
        ...children(root, "wpt").map(thing("waypoints", "points", element => points([element]))),
        ...children(root, "rte").map(thing("routes", "lines", element => [points(children(element, "rtept"))])),
        ...children(root, "trk").map(thing("tracks", "lines", element => children(element, "trkseg").map(part => points(children(part, "trkpt"))))),
    ];
}

/** The coordinates of an element of KML. */
const places = element => (textIn(element, "coordinates") ?? "").split(/\s+/).filter(Boolean).map(place => place.split(",").map(Number));

/** The geometries of an element of KML: of each its kind and its coordinates. */
function shapesOf(element) {
    const ring = each => places(children(each, "LinearRing")[0] ?? each);
    return [...element.children].flatMap(each => ({
        Point: () => [["points", places(each)]],
        LineString: () => [["lines", [places(each)]]],
        LinearRing: () => [["lines", [places(each)]]],
        Polygon: () => [["polygons", [[...children(each, "outerBoundaryIs"), ...children(each, "innerBoundaryIs")].map(ring)]]],
        MultiGeometry: () => shapesOf(each),
    })[each.localName]?.() ?? []);
}

function kmlGeometry(element, notes) {
    const shapes = shapesOf(element), kinds = new Set(shapes.map(([kind]) => kind));
    if (!kinds.size) {
        throw new Nowhere();
    }
    if (kinds.size > 1) {
        throw new Unfit(filled(texts.import.noKind, { kind: "GEOMETRYCOLLECTION" }));
    }
    return geometryOf([...kinds][0], shapes.flatMap(([, lists]) => lists), notes);
}

function kmlTags(element) {
    const data = children(element, "ExtendedData").flatMap(each => [
        ...children(each, "Data").map(one => [one.getAttribute("name"), textIn(one, "value")]),
        ...children(each, "SchemaData").flatMap(schema => children(schema, "SimpleData")).map(one => [one.getAttribute("name"), one.textContent.trim()]),
    ]);
    const own = [["Name", textIn(element, "name")], ["description", textIn(element, "description")]];
    return Object.fromEntries([...own, ...data].filter(([name, text]) => name && text));
}

function kml(root, name, notes) {
    const layerOf = element => textIn(element.parentElement.closest("Folder, Document") ?? root, "name") || name;
    return [...root.getElementsByTagName("*")].filter(each => each.localName === "Placemark").map(element => ({
        layer: layerOf(element), tags: () => kmlTags(element), geometry: () => kmlGeometry(element, notes),
    }));
}

/** The features of a text of XML: GPX or KML. */
function fromXml(text, name, notes) {
    const root = new DOMParser().parseFromString(text, "application/xml").documentElement;
    if (root.localName === "gpx") {
        return gpx(root, notes);
    }
    if (root.localName !== "kml") {
        throw new Error(texts.noFile);
    }
    return kml(root, name, notes);
}

/** The features of a text, by what it begins with. */
function read(text, name, notes, isWhole) {
    const first = text.trimStart()[0];
    if (first === "{") {
        try {
            return geojson(text, name, notes);
        } catch (fault) {
            throw fault instanceof SyntaxError ? new Error(texts.noGeojson) : fault;
        }
    }
    return first === "<" ? fromXml(text, name, notes) : csv(text, name, notes, isWhole);
}

/**
 * The `features` of a file of this name, each with its number in it, its layer, its geometry and its tags; the `notes` on what is dropped of how many of
 * them; and what is `refused`: the number of each in the file, and why. A file that can't be read is an error: a `Cut` if it has lost its end and nobody
 * says that it `isWhole`.
 */
export function featuresIn(fileName, bytes, isWhole = false) {
    const notes = new Notes(), features = [], refused = [], name = fileName.replace(/\.[^.]*$/, "");
    for (const [at, one] of read(textOf(bytes, notes), name, notes, isWhole).entries()) {
        try {
            features.push({ at: at + 1, layer: one.layer, tags: one.tags(), geometry: one.geometry() });
        } catch (fault) {
            if (fault instanceof Nowhere) {
                notes.add(texts.import.nowhere);
            } else if (fault instanceof Unfit || fault instanceof TypeError) {
                // What isn't nested as its kind has it isn't what is looked for.
                refused.push([at + 1, fault instanceof Unfit ? fault.message : texts.noNumbers]);
            } else {
                throw fault;
            }
        }
    }
    return { features, notes: [...notes], refused };
}
