// Draws decoded tiles, names, and the shape that is edited.
import { each } from "./slices.js";
import { isOutline, width } from "./style.js";
import { bounds } from "./world.js";

export const EXTENT = 4096;
// Features that are prepared without a stop, points that are drawn at once, and names that are looked at and written without a stop.
const FEATURES_AT_ONCE = 200, POINTS_AT_ONCE = 2000, NAMES_AT_ONCE = 100;
// Pixels of a square in which names are sought that are in the way of another one.
const CELL = 64;
export const MINE = "#d4007a", THEIRS = "#0057b8";

/** Adds lists of points to a path: rings if they are closed. */
function trace(path, chains, isClosed) {
    for (const [first, ...rest] of chains) {
        path.moveTo(...first);
        rest.forEach(point => path.lineTo(...point));
        isClosed && path.closePath();
    }
}

/** Adds a feature's lists of points to what is drawn at once, or begins the next such part: of each its points, its path and the box of both. */
function add(parts, chains, isClosed) {
    if (!parts.length || parts.at(-1).points.length > POINTS_AT_ONCE) {
        parts.push({ points: [], path: new Path2D(), box: bounds([]) });
    }
    const part = parts.at(-1), points = chains.flat();
    trace(part.path, chains, isClosed);
    part.points.push(...points);
    part.box = bounds([part.box.slice(0, 2), part.box.slice(2), ...points]);
}

// The tiles that were prepared so far.
let count = 0;

/**
 * What is drawn of a tile: for each rule its parts in units of the tile, the names, and a number of its own. Of see-through areas that overlap and are
 * in two parts, the second lets the first show.
 */
export function* prepared(layers, style) {
    const rules = style.rules.map(() => ({ area: [], edge: [], line: [], points: [] })), names = [];
    for (const { name: layer, features } of layers) {
        yield* each(features, FEATURES_AT_ONCE, ({ id, kind, chains, tags }) => {
            const place = style.placeOf(layer, tags), rule = style.rules[place], drawn = rules[place];
            if (!rule) {
                return;
            }
            if (kind === "polygons") {
                add(drawn.area, chains, true);
                "whole" in tags || add(drawn.edge, chains, true);
            } else if (kind === "lines") {
                add(isOutline(layer) ? drawn.edge : drawn.line, chains, false);
            } else {
                add(drawn.points, chains, false);
            }
            if (rule.name in tags && !isOutline(layer)) {
                names.push({ key: tags.whole ?? id, text: String(tags[rule.name]), from: rule.from ?? 0, kind, ...nameOf(kind, chains) });
            }
        });
    }
    return { rules, names, number: ++count };
}

/** Where a feature's name is written: at its point, in the middle of its box, or along the longest segment of its lines. */
function nameOf(kind, chains) {
    if (kind !== "lines") {
        const [west, north, east, south] = bounds(chains[0]);
        return { at: [(west + east) / 2, (north + south) / 2], turn: 0 };
    }
    const segments = chains.flatMap(chain => chain.slice(1).map(([x, y], before) => {
        const [fromX, fromY] = chain[before];
        return { at: [(x + fromX) / 2, (y + fromY) / 2], length: Math.hypot(x - fromX, y - fromY), turn: Math.atan((y - fromY) / (x - fromX || 1e-9)) };
    }));
    return segments.reduce((one, other) => one.length < other.length ? other : one);
}

function stroke(context, path, colour, pixels) {
    context.strokeStyle = colour;
    context.lineWidth = pixels;
    path ? context.stroke(path) : context.stroke();
}

function dot(context, [x, y], radius, colour, unit) {
    context.beginPath();
    context.arc(x, y, radius * unit, 0, 2 * Math.PI);
    context.fillStyle = colour;
    context.fill();
    stroke(context, null, "#ffffff", 1.5 * unit);
}

/** Draws a tile, or what of it meets a box of its units. The context has the tile's units; a pixel has `unit` of them. */
export function* drawTile(context, { rules }, style, zoom, unit, [west, north, east, south]) {
    context.lineJoin = context.lineCap = "round";
    for (const [at, kinds] of style.order) {
        const { area, edge, line, points } = rules[at], rule = style.rules[at], pixels = width(rule, zoom), reach = (pixels + 12) * unit;
        const meets = ({ box }) => box[0] <= east + reach && box[2] >= west - reach && box[1] <= south + reach && box[3] >= north - reach;
        const draw = (parts, colour, action) => each(colour ? parts.filter(meets) : [], 1, action);
        if (kinds.includes("areas")) {
            context.fillStyle = rule.area;
            yield* draw(area, rule.area, ({ path }) => context.fill(path));
            yield* draw(edge, rule.edge, ({ path }) => stroke(context, path, rule.edge, unit));
        }
        if (kinds.includes("lines")) {
            yield* draw(line, rule.casing, ({ path }) => stroke(context, path, rule.casing, (pixels + 1.5) * unit));
            yield* draw(line, rule.line, ({ path }) => stroke(context, path, rule.line, pixels * unit));
        }
        if (kinds.includes("points")) {
            yield* draw(points, rule.point, part => part.points.forEach(point => dot(context, point, 5, rule.point, unit)));
        }
    }
}

/** Marks some features of a tile. A piece of a cut polygon has no edge: the outline of the whole is a line. */
export function mark(context, features, unit) {
    for (const { kind, chains, tags } of features) {
        const path = new Path2D();
        trace(path, chains, kind === "polygons");
        kind === "points" && chains.forEach(([point]) => dot(context, point, 8, MINE, unit));
        context.fillStyle = MINE + "22";
        kind === "polygons" && context.fill(path);
        kind === "polygons" && "whole" in tags || stroke(context, path, MINE, 3 * unit);
    }
}

/** Boxes of the screen, none of which may lie over another. */
class Taken {
    cells = new Map();

    /** Whether a box is free, which is taken then if it `isWanted`. */
    isFree(box, isWanted) {
        const [west, north, east, south] = box.map(at => Math.floor(at / CELL)), names = [];
        for (let row = north; row <= south; row++) {
            for (let column = west; column <= east; column++) {
                names.push(`${column} ${row}`);
            }
        }
        const isApart = other => box[0] > other[2] || box[2] < other[0] || box[1] > other[3] || box[3] < other[1];
        const isFree = names.every(name => (this.cells.get(name) ?? []).every(isApart));
        isFree && isWanted && names.forEach(name => this.cells.has(name) ? this.cells.get(name).push(box) : this.cells.set(name, [box]));
        return isFree;
    }
}

/**
 * Writes the names of tiles that are in a box of the screen: each feature's once, none over another, those of points first, and along a line only if it
 * is long enough. Of each tile it is given what is `drawn` of it, and the square that it has on the screen.
 */
export function* drawNames(context, tiles, zoom, [west, north, east, south]) {
    const taken = new Taken(), written = new Set();
    Object.assign(context, { font: '12px "DejaVu Sans", Verdana, sans-serif', textBaseline: "middle", lineJoin: "round", lineWidth: 3 });
    const write = ({ key, text, kind, at, turn, length, from: first }, { left: west0, top: north0, side, from, part }) => {
        const unit = part / side, x = west0 + (at[0] - from[0]) / unit, y = north0 + (at[1] - from[1]) / unit;
        // Most names of a full map are in the way of another one: that their own place is taken costs least to know.
        if (first > zoom || written.has(key) || x < west || x > east || y < north || y > south || !taken.isFree([x, y, x, y], false)) {
            return;
        }
        const wide = context.measureText(text).width, left = kind === "points" ? 9 : -wide / 2;
        const across = Math.abs(Math.cos(turn)) * wide / 2 + 4, high = Math.abs(Math.sin(turn)) * wide / 2 + 8, middle = x + left + wide / 2;
        if (!(length / unit < wide) && taken.isFree([middle - across, y - high, middle + across, y + high], true)) {
            written.add(key);
            context.save();
            context.translate(x, y);
            context.rotate(turn);
            context.strokeStyle = "#ffffffd0";
            context.strokeText(text, left, 0);
            context.fillStyle = "#222222";
            context.fillText(text, left, 0);
            context.restore();
        }
    };
    for (const arePoints of [true, false]) {
        for (const tile of tiles) {
            yield* each(tile.tile.drawn.names, NAMES_AT_ONCE, name => (name.kind === "points") === arePoints && write(name, tile));
        }
    }
}

/** Draws lists of screen points, with handles at its points and smaller ones where a point can be added. */
export function drawShape(context, chains, colour, hasHandles) {
    for (const { points, isClosed } of chains.filter(({ points }) => points.length)) {
        const path = new Path2D();
        trace(path, [points], isClosed);
        // White below it, so that it is seen on each colour of the map.
        stroke(context, path, "#ffffff", 4);
        context.setLineDash(hasHandles ? [] : [6, 4]);
        stroke(context, path, colour, 2);
        context.setLineDash([]);
        context.fillStyle = colour + "22";
        isClosed && context.fill(path);
        hasHandles && middles(points, isClosed).forEach(({ point }) => dot(context, point, 4, colour + "88", 1));
        (hasHandles || points.length === 1) && points.forEach(point => dot(context, point, 6, colour, 1));
    }
}

/** Marks the corner of a shape that is chosen. */
export function drawChosen(context, [x, y]) {
    context.beginPath();
    context.arc(x, y, 11, 0, 2 * Math.PI);
    stroke(context, null, "#ffffff", 5);
    stroke(context, null, MINE, 2.5);
}

/** The middle of each segment of a list, with the place that a new point there has in it. */
export function middles(points, isClosed) {
    const all = isClosed && points.length > 2 ? [...points, points[0]] : points;
    return all.slice(1).map(([x, y], at) => ({ at: at + 1, point: [(x + all[at][0]) / 2, (y + all[at][1]) / 2] }));
}
