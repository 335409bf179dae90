// The neighbours of a feature that is edited: a corner that is dragged snaps to theirs, and corners that they share with it can move along.
import { followed, pointsOf, stepsOf } from "./shape.js";
import { bounds } from "./world.js";

// Pixels within which a corner snaps, and within which two corners of tiles may be one.
const SNAP = 10, SAME = 2;
const far = (one, other) => Math.hypot(one[0] - other[0], one[1] - other[1]);
const nearest = (points, point) => points.reduce((one, other) => far(other, point) < far(one, point) ? other : one, [Infinity, Infinity]);

export class Neighbours {
    /** Of the feature with this id, or of a new one (null). */
    constructor(view, server, own) {
        // Features by their ids as the map had them when they were first asked for, what asks for them, and who may share a corner.
        Object.assign(this, { view, server, own, known: new Map(), asked: new Map(), touching: new Set() });
    }

    /** The features of others in some squares of the view, or those of them whose box meets one of the screen. */
    others(squares, box) {
        return squares.flatMap(square => this.view.featuresOf(square, box)).filter(({ id, tags }) => id !== this.own && tags.whole !== this.own);
    }

    /** A feature as the map has it, or null. */
    async feature(id) {
        this.asked.has(id) || this.asked.set(id, this.server.feature(id));
        this.known.set(id, await this.asked.get(id));
        return this.known.get(id);
    }

    /** Asks for a feature anew. */
    forget(id) {
        [this.known, this.asked].forEach(all => all.delete(id));
    }

    /**
     * The corner of a neighbour at a place of the world, or null. It is `tiled` where a tile has it, which rounds; `place` is where it is as
     * far as is known, and `exact` a promise of where it is.
     */
    cornerAt(place) {
        const point = this.view.toScreen(place), found = { corner: [Infinity, Infinity] };
        const [x, y] = point;
        for (const { id, chains } of this.others(this.view.squaresAt(point, SNAP), [x - SNAP, y - SNAP, x + SNAP, y + SNAP])) {
            const corner = nearest(chains.flat(), point);
            far(corner, point) < Math.min(far(found.corner, point), SNAP) && Object.assign(found, { id, corner });
        }
        if (found.id === undefined) {
            return null;
        }
        const tiled = this.view.toWorld(found.corner), reach = SNAP / this.view.scale;
        const exactly = feature => [feature ? nearest(pointsOf(feature.geometry), tiled) : tiled].find(at => far(at, tiled) < reach) ?? tiled;
        const known = this.known.get(found.id);
        return { tiled, place: known ? exactly(known) : tiled, exact: this.feature(found.id).then(exactly) };
    }

    /** Notes who in view has a corner where a shape has one. What the import has cut doesn't move along. */
    look(geometry) {
        const own = pointsOf(geometry).map(this.view.toScreen), [west, north, east, south] = bounds(own);
        const isNear = ([x, y]) => x >= west - SAME && x <= east + SAME && y >= north - SAME && y <= south + SAME;
        for (const { id, tags, chains } of this.others(this.view.squares(), [west - SAME, north - SAME, east + SAME, south + SAME])) {
            "whole" in tags || chains.flat().filter(isNear).some(corner => far(nearest(own, corner), corner) < SAME) && this.touching.add(id);
        }
    }

    /** What neighbours become by the changes of a shape, as far as they are known: of each its id, what it `was`, and the `feature`. */
    moved(history) {
        const steps = stepsOf(history), all = [...this.touching].map(id => ({ id, was: this.known.get(id) })).filter(({ was }) => was);
        return all.map(({ id, was }) => ({ id, was, feature: { ...was, geometry: followed(was.geometry, steps) } }))
            .filter(({ was, feature }) => JSON.stringify(was.geometry) !== JSON.stringify(feature.geometry));
    }
}
