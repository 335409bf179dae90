// The geometry of a feature as lists of points, and what the mouse does to them.
import { middles } from "./draw.js";
import { texts } from "./texts.js";
import { bounds, rounded } from "./world.js";

// Pixels within which the mouse meets a handle, and a finger.
export const REACH = 9, REACH_OF_FINGERS = 22;
const LEAST = { points: 1, lines: 2, polygons: 3 };

export const kindOf = geometry => Object.keys(geometry)[0];

/** The lists of a geometry that the mouse changes, and whether they are rings. */
export function listsOf(geometry) {
    const kind = kindOf(geometry), lists = geometry[kind];
    return (kind === "points" ? [lists] : kind === "lines" ? lists : lists.flat()).map(points => ({ points, isClosed: kind === "polygons" }));
}

/** The lists of a geometry as they are drawn: each point alone, or the lines, or the rings. */
export function chainsOf(geometry) {
    return geometry.points ? geometry.points.map(point => ({ points: [point], isClosed: false })) : listsOf(geometry);
}

export const pointsOf = geometry => listsOf(geometry).flatMap(({ points }) => points);

/** A geometry that begins with no point, and whether it has points enough. */
export const begun = kind => ({ [kind]: { points: [], lines: [[]], polygons: [[[]]] }[kind] });
export const isWhole = geometry => listsOf(geometry).every(({ points }) => points.length >= LEAST[kindOf(geometry)]);

/** A geometry in words: `2 lines, 17 points`. */
export function described(geometry) {
    const kind = kindOf(geometry), shown = texts.count[kind](geometry[kind].length);
    return kind === "points" ? shown : `${shown}, ${texts.count.points(pointsOf(geometry).length)}`;
}

/** The corners of a geometry in their order: of each its place in the world, its list and where it is in that. */
export const cornersOf = geometry => listsOf(geometry).flatMap(({ points }, list) => points.map((place, at) => ({ place, list, at })));

/** That of some places with a `place` each which is nearest to a point of the screen, within so many pixels, or undefined. */
function nearest(found, point, toScreen, reach) {
    const far = ({ place }) => Math.hypot(...toScreen(place).map((part, axis) => part - point[axis]));
    const near = found.map(one => ({ one, far: far(one) })).filter(({ far }) => far <= reach);
    return near.length ? near.reduce((best, other) => other.far < best.far ? other : best).one : undefined;
}

/** The corner of a geometry at a point of the screen, or undefined. */
export const cornerNear = (geometry, point, toScreen, reach = REACH) => nearest(cornersOf(geometry), point, toScreen, reach);

/** What a drag that begins at a point of the screen does: it moves the point there, or adds one. A function of the place, or undefined. */
export function grabbed(geometry, point, toScreen, reach = REACH) {
    const lists = listsOf(geometry), corner = cornerNear(geometry, point, toScreen, reach);
    if (corner) {
        return place => lists[corner.list].points[corner.at] = rounded(place);
    }
    const edges = geometry.points ? [] : lists.flatMap(({ points, isClosed }) => middles(points, isClosed).map(({ at, point }) => ({ place: point, points, at })));
    const middle = nearest(edges, point, toScreen, reach);
    if (middle) {
        middle.points.splice(middle.at, 0, rounded(middle.place));
        return place => middle.points[middle.at] = rounded(place);
    }
}

/** Removes a corner, if enough are left. Returns whether they are. */
export function removeCorner(geometry, { list, at }) {
    const { points } = listsOf(geometry)[list], areEnough = points.length > LEAST[kindOf(geometry)];
    areEnough && points.splice(at, 1);
    return areEnough;
}

/** Removes the point at a point of the screen, if enough are left. */
export function remove(geometry, point, toScreen) {
    const corner = cornerNear(geometry, point, toScreen);
    corner && removeCorner(geometry, corner);
}

/**
 * How a shape became another, step by step: a corner is moved (`from`, `to`), or is `added` or `removed` `between` two others. Each geometry
 * of a history differs from the one before by one corner.
 */
export function stepsOf(history) {
    return history.slice(1).flatMap((after, at) => listsOf(after).flatMap(({ points }, place) => {
        const before = listsOf(history[at])[place]?.points ?? [], differs = Math.max(points.length, before.length) - Math.min(points.length, before.length);
        const first = [...points, null].findIndex((point, index) => String(point) !== String(before[index] ?? null));
        const between = list => [list.at(first - 1), list[(first + 1) % list.length]];
        if (first < 0 || differs > 1) {
            return [];
        }
        return points.length === before.length ? [{ from: before[first], to: points[first] }]
            : points.length > before.length ? [{ added: points[first], between: between(points) }] : [{ removed: before[first], between: between(before) }];
    }));
}

/** A geometry whose corners follow the steps of a neighbour's, where it has the same ones. Fails if it would lose its shape. */
export function followed(geometry, steps) {
    const made = structuredClone(geometry), is = (one, other) => String(one) === String(other);
    for (const { points, isClosed } of listsOf(made)) {
        for (const { from, to, added, removed, between } of steps) {
            const next = at => points[isClosed ? (at + 1) % points.length : at + 1];
            const isEdge = (one, other) => between.some((end, at) => is(end, one) && is(between[1 - at], other));
            if (from) {
                points.forEach((point, at) => is(point, from) && (points[at] = to));
            } else if (added) {
                const at = points.findIndex((point, at) => isEdge(point, next(at)));
                at >= 0 && points.splice(at + 1, 0, added);
            } else {
                const at = points.findIndex((point, at) => is(point, removed) && isEdge(points.at(isClosed ? at - 1 : Math.max(at - 1, 0)), next(at)));
                at >= 0 && points.splice(at, 1);
            }
        }
        const twice = kindOf(geometry) === "points" ? [] : points.filter((point, at) => is(point, points[at + 1] ?? (isClosed ? points[0] : null)));
        twice.forEach(point => points.splice(points.indexOf(point), 1));
        if (points.length < LEAST[kindOf(geometry)]) {
            throw new Error(texts.neighbourLost);
        }
    }
    return made;
}

/** Whether MapLibre draws a shape wrong at its last zoom: a segment, or an area, is larger than a tile (docs/HTTP.md, "Large features"). */
export function isLarge({ geometry, maxzoom }) {
    const segments = (geometry.lines ?? []).flatMap(line => line.slice(1).map((point, at) => [line[at], point]));
    return [...segments, ...(geometry.polygons ?? []).map(([outer]) => outer)].some(points => {
        const [west, north, east, south] = bounds(points);
        return Math.max(east - west, south - north) > 4031 * 2 ** (20 - maxzoom);
    });
}
