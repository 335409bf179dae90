// What the view shows, drawn a part at a time on canvases of their own: a square of the map on each, and the names on one. A drag moves them.
import { drawNames, drawTile, prepared } from "./draw.js";

// Squares that are kept beside those on the screen, and how many zooms up one is sought that has a part to show meanwhile.
const MAX_KEPT = 40, MAX_UP = 5;
// Pixels by which the names reach beyond the screen on each side.
const AROUND = 200;
const nameOf = ({ z, column, row }) => `${z}/${column}/${row}`;

/** A canvas of so many pixels, and what draws on it. */
function canvasOf(width, height) {
    const canvas = Object.assign(document.createElement("canvas"), { width, height });
    return { canvas, context: canvas.getContext("2d") };
}

export class Raster {
    /** `slices` does the work; `failed` is told of a fault. */
    constructor(style, slices, failed) {
        // The squares by their names: what is `shown` of each, and what is `begun`.
        Object.assign(this, { style, slices, failed, version: 0, squares: new Map(), names: null, namesBegun: null });
    }

    /** Does work, unless it is ended, and calls a function once it is done. */
    work(parts, { ends: { signal } }, then) {
        this.slices.done(parts, signal).then(then, fault => signal.aborted || this.failed(fault));
    }

    /** Draws all anew, in a style that has changed. */
    restyle() {
        this.version++;
    }

    /**
     * Draws squares as far as they are drawn, and begins what isn't. Each has its `content`: a tile, the corner `from` which the square shows it, and
     * the `part` of the tile that it shows, in units of the tile; or null. `ratio` is how many pixels of the canvas a pixel of the screen has.
     */
    draw(context, squares, zoom, ratio) {
        for (const square of squares) {
            const name = nameOf(square), known = this.squares.get(name) ?? {};
            this.squares.delete(name);
            this.squares.set(name, known);
            square.content && this.begin(known, square, zoom, ratio);
            const sides = [square.left, square.top, square.left + square.side, square.top + square.side].map(at => Math.round(at * ratio));
            known.shown || this.drawOther(context, square, sides);
            known.shown ? this.copy(context, known.shown, sides, [0, 0, 1, 1]) : known.begun && this.copy(context, known.begun, sides, [0, 0, 1, 1]);
        }
        for (const [name, known] of this.squares) {
            if (this.squares.size <= squares.length + MAX_KEPT) {
                break;
            }
            known.begun?.ends.abort();
            this.squares.delete(name);
        }
        const shown = new Set(squares.map(nameOf));
        this.squares.forEach(({ begun }, name) => shown.has(name) || begun?.ends.abort());
    }

    /** Begins to draw a square, unless it is drawn, or begun, as it is to be. */
    begin(known, { side, content: { tile, from, part } }, zoom, ratio) {
        const { version } = this, long = side * ratio, isSame = other => other && other.tile === tile.layers && other.version === version
            && other.long === long && other.part === part && other.from.join() === from.join();
        known.begun?.ends.signal.aborted && (known.begun = null);
        if (isSame(known.shown) || isSame(known.begun)) {
            return;
        }
        known.begun?.ends.abort();
        // A pixel more at the right and at the bottom, since sides on the screen are rounded.
        const length = Math.ceil(long) + 1, drawn = { ...canvasOf(length, length), tile: tile.layers, version, long, part, from, ends: new AbortController() };
        known.begun = drawn;
        this.work(this.parts(drawn, tile, zoom, ratio), drawn, () => {
            known.shown = drawn;
            known.begun = known.begun === drawn ? null : known.begun;
        });
    }

    /** Draws a square: its tile is prepared first, if it isn't. */
    * parts({ context, long, part, from, version }, tile, zoom, ratio) {
        if (tile.drawn?.version !== version || tile.drawn.layers !== tile.layers) {
            const { layers } = tile;
            tile.drawn = { ...yield* prepared(layers, this.style), version, layers };
        }
        const scale = long / part;
        context.setTransform(scale, 0, 0, scale, -from[0] * scale, -from[1] * scale);
        yield* drawTile(context, tile.drawn, this.style, zoom, ratio / scale, [from[0], from[1], from[0] + part, from[1] + part]);
    }

    /** Copies a part of a square, in shares of it, to the pixels between some sides. Its own pixels are copied as they are. */
    copy(context, { canvas, long }, [west, north, east, south], [left, top, wide, high]) {
        const isOwn = wide === 1 && Math.abs(long - (east - west)) <= 1;
        const from = isOwn ? [0, 0, Math.min(east - west, canvas.width), Math.min(south - north, canvas.height)] : [left, top, wide, high].map(at => at * long);
        context.drawImage(canvas, ...from, west, north, ...(isOwn ? from.slice(2) : [east - west, south - north]));
    }

    /** Draws what a square has in common with squares of other zooms that are drawn. */
    drawOther(context, { z, column, row }, [west, north, east, south]) {
        for (let up = 1; up <= Math.min(z, MAX_UP); up++) {
            const share = 1 / 2 ** up, { shown } = this.squares.get(`${z - up}/${column >> up}/${row >> up}`) ?? {};
            if (shown) {
                this.copy(context, shown, [west, north, east, south], [column % 2 ** up * share, row % 2 ** up * share, share, share]);
                return;
            }
        }
        const [middle, centre] = [Math.round((west + east) / 2), Math.round((north + south) / 2)];
        for (const [at, sides] of [[west, north, middle, centre], [middle, north, east, centre], [west, centre, middle, south], [middle, centre, east, south]].entries()) {
            const { shown } = this.squares.get(`${z + 1}/${2 * column + at % 2}/${2 * row + (at >> 1)}`) ?? {};
            shown && this.copy(context, shown, sides, [0, 0, 1, 1]);
        }
    }

    /**
     * Draws the names of squares of a view whose screen has a `size`. What is drawn of them is moved, and drawn anew once it no longer reaches to the
     * edges of the screen, or is of other squares.
     */
    drawNames(context, squares, view, size, ratio) {
        const { names } = this, { zoom } = view, known = squares.filter(({ content }) => content?.tile.drawn?.version === this.version);
        const of = [zoom, ratio, this.version, ...size, ...new Set(known.map(({ content }) => content.tile.drawn.number))].join();
        const [x, y] = names ? view.toScreen(names.corner) : [], isNear = names && Math.abs(x + AROUND) < AROUND && Math.abs(y + AROUND) < AROUND;
        const isBegun = this.namesBegun?.of === of && !this.namesBegun.ends.signal.aborted;
        if (known.length && !(names?.of === of && isNear) && !isBegun) {
            this.beginNames(known, view, size, ratio, of);
        }
        if (names && names.zoom === zoom) {
            context.drawImage(names.canvas, Math.round(x * ratio), Math.round(y * ratio));
        }
    }

    beginNames(squares, view, size, ratio, of) {
        this.namesBegun?.ends.abort();
        const { zoom } = view;
        const [wide, high] = size.map(part => part + 2 * AROUND), drawn = { ...canvasOf(wide * ratio, high * ratio), zoom, of, ends: new AbortController() };
        drawn.corner = view.toWorld([-AROUND, -AROUND]);
        drawn.context.setTransform(ratio, 0, 0, ratio, AROUND * ratio, AROUND * ratio);
        this.namesBegun = drawn;
        const tiles = new Map(squares.map(({ left, top, side, content }) => [content.tile, { left, top, side, ...content }]));
        this.work(drawNames(drawn.context, [...tiles.values()], zoom, [-AROUND, -AROUND, size[0] + AROUND, size[1] + AROUND]), drawn, () => {
            this.names = drawn;
            this.namesBegun = this.namesBegun === drawn ? null : this.namesBegun;
        });
    }
}
