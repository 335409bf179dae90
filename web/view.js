// The view of the map: where it is, the tiles that it shows, and what mouse and wheel do to it.
import { Backdrop } from "./backdrop.js";
import { EXTENT, mark } from "./draw.js";
import { Raster } from "./raster.js";
import { pointsOf } from "./shape.js";
import { Slices } from "./slices.js";
import { decoded } from "./tile.js";
import { WORLD, bounds, fromDegrees, toDegrees } from "./world.js";

// Pixels of a tile at its own zoom, the greatest zoom of the view, tiles that are kept, how many zooms up a substitute is sought, and how many
// zooms up the tiles are whose tags are looked at: four have all that a screen shows.
const SIDE = 512, MAX_ZOOM = 21, MAX_TILES = 300, MAX_UP = 5, TAGS_UP = 2;
// Seconds after which no cache has a tile from before an edit: ten in that of nginx, and no more in the browser's.
const CACHED = 12;
// Milliseconds of a frame in which tiles are decoded and drawn.
const WORK = 12;
// The part of a tile's side by which the box of a feature is taken larger: a tile has what reaches into it.
const MARGIN = 1 / 16;
const clamped = (value, least, greatest) => Math.min(Math.max(value, least), greatest);
const nameOf = ({ z, column, row }) => `${z}/${column}/${row}`;

/** Whether changes may have changed a tile: they are of features that it has, or that lie in it now. */
function isTouched(name, { layers }, changes) {
    const [z, column, row] = name.split("/").map(Number), side = WORLD / 2 ** z, ids = new Set(changes.map(change => change.put ?? change.delete));
    const meets = ({ geometry, minzoom, maxzoom }) => {
        const [west, north, east, south] = bounds(pointsOf(geometry)).map((at, axis) => at / side - [column, row][axis % 2]);
        return minzoom <= z && z <= maxzoom && west <= 1 + MARGIN && east >= -MARGIN && north <= 1 + MARGIN && south >= -MARGIN;
    };
    return layers.some(({ features }) => features.some(({ id }) => ids.has(id))) || changes.some(({ feature }) => feature && meets(feature));
}

/** Whether the box of lists of points meets a box. */
function meets(chains, [[west, north], [east, south]]) {
    let [left, top, right, bottom] = [Infinity, Infinity, -Infinity, -Infinity];
    for (const chain of chains) {
        for (const [x, y] of chain) {
            left = x < left ? x : left;
            right = x > right ? x : right;
            top = y < top ? y : top;
            bottom = y > bottom ? y : bottom;
        }
    }
    return left <= east && right >= west && top <= south && bottom >= north;
}

export class View {
    /**
     * `hooks`: what a click does (`select`), what a drag moves (`grab`), what is drawn above (`over`), and what reports a fault (`failed`). The first two
     * are told whether a finger touches the screen, which is less exact than a mouse.
     */
    constructor(canvas, server, style, hooks) {
        Object.assign(this, { canvas, server, style, hooks, context: canvas.getContext("2d"), centre: [WORLD / 2, WORLD / 2], zoom: 1 });
        // The tiles by their names: the `edit` of which each is, its `tag`, its `layers`, what is `drawn` of them, when it was `asked` for, and the
        // request that `loads` it. `tags`: those of the tiles above, as they were when the tiles in view were asked for. `selected()`: the id of the
        // feature that is marked, if there is one.
        Object.assign(this, { tiles: new Map(), tags: new Map(), edit: 0, maxzoom: 0, selected: () => null });
        this.slices = new Slices(() => this.redraw());
        this.raster = new Raster(style, this.slices, hooks.failed);
        this.backdrop = style.backdrop && new Backdrop(style.backdrop, () => this.redraw());
        this.toScreen = point => point.map((part, axis) => (part - this.centre[axis]) * this.scale + this.middle[axis]);
        this.listen();
        new ResizeObserver(() => this.redraw()).observe(canvas);
    }

    /** Pixels of a unit of the world. */
    get scale() {
        return SIDE * 2 ** this.zoom / WORLD;
    }

    get middle() {
        return [this.canvas.clientWidth / 2, this.canvas.clientHeight / 2];
    }

    toWorld(point) {
        return point.map((part, axis) => this.centre[axis] + (part - this.middle[axis]) / this.scale);
    }

    /** Goes to a place that is written as zoom/latitude/longitude. Returns whether it is one. */
    goTo(text) {
        const [zoom, latitude, longitude] = text.split("/").map(Number), isPlace = Number.isFinite(zoom + latitude + longitude);
        isPlace && this.move(fromDegrees(longitude, latitude), zoom);
        return isPlace;
    }

    /** Shows a box of the world, beside a panel that covers so many pixels at the right and at the bottom. */
    show([west, north, east, south], covered = [0, 0]) {
        const [wide, high] = this.middle.map((half, axis) => 2 * half - covered[axis]), share = Math.max((east - west) / wide, (south - north) / high, 1);
        this.zoom = clamped(Math.min(Math.log2(WORLD / SIDE / share) - 0.2, 17), 0, MAX_ZOOM);
        this.move([(west + east) / 2, (north + south) / 2].map((at, axis) => at + covered[axis] / 2 / this.scale));
    }

    move(centre, zoom = this.zoom) {
        this.isPlaced = true;
        this.centre = centre.map(part => clamped(part, 0, WORLD));
        this.zoom = clamped(zoom, 0, MAX_ZOOM);
        const [longitude, latitude] = toDegrees(this.centre);
        history.replaceState(null, "", `#${this.zoom.toFixed(2)}/${latitude.toFixed(6)}/${longitude.toFixed(6)}`);
        this.redraw();
    }

    /** Changes the zoom and keeps the place below a point of the screen. */
    zoomBy(step, point = this.middle) {
        const before = this.toWorld(point);
        this.zoom = clamped(this.zoom + step, 0, MAX_ZOOM);
        this.move(this.toWorld(point).map((part, axis) => this.centre[axis] + before[axis] - part));
    }

    /**
     * Shows the map with an edit. If the `changes` since the last one are known, only tiles that they may have changed are asked for again, and
     * otherwise all; what there is of them is shown until then. The cache of nginx knows no edits of those who edit from elsewhere by a
     * password, so once its time is over, tiles that came since then are asked for once more.
     */
    showEdit(edit, changes) {
        const now = Math.max(this.edit, edit), isCurrent = (name, tile) => tile.layers && tile.edit === this.edit && !isTouched(name, tile, changes);
        changes && this.tiles.forEach((tile, name) => isCurrent(name, tile) && (tile.edit = now));
        this.edit = now;
        this.shown ??= performance.now();
        clearTimeout(this.again);
        this.again = setTimeout(() => {
            this.tiles.forEach(tile => tile.asked >= this.shown && (tile.edit = -1));
            this.shown = null;
            this.redraw();
        }, CACHED * 1000);
        this.redraw();
    }

    /** Draws the tiles in a changed style. */
    restyle() {
        this.raster.restyle();
        this.redraw();
    }

    redraw() {
        this.frame ??= requestAnimationFrame(() => {
            this.frame = null;
            this.draw();
        });
    }

    /** The zoom of the tiles on the screen. */
    get tileZoom() {
        return Math.min(Math.floor(this.zoom), this.maxzoom);
    }

    /**
     * The tags of the tiles of smaller zooms that those on the screen lie in. An edit counts for a tile by its place, whatever the zooms of its
     * features: while none of these tags changes, no tile on the screen does.
     */
    async tagsAbove() {
        const names = this.squares(Math.max(this.tileZoom - TAGS_UP, 0)).map(nameOf);
        return new Map(await Promise.all(names.map(async name => [name, await this.server.tagOf(name, this.tags.get(name))])));
    }

    /** Whether these tags are known, so that the tiles on the screen are as they were. */
    hasSeen(tags) {
        return [...tags].every(([name, tag]) => tag !== null && tag === this.tags.get(name));
    }

    /** The tiles on the screen, those of the map or of another zoom: each with the square that it has there. */
    squares(z = this.tileZoom) {
        const side = SIDE * 2 ** (this.zoom - z), corner = this.toScreen([0, 0]), found = [];
        const [west, north] = corner.map(at => Math.max(Math.floor(-at / side), 0));
        const [east, south] = corner.map((at, axis) => Math.min(Math.floor((2 * this.middle[axis] - at) / side), 2 ** z - 1));
        for (let row = north; row <= south; row++) {
            for (let column = west; column <= east; column++) {
                found.push({ z, column, row, side, left: corner[0] + column * side, top: corner[1] + row * side });
            }
        }
        return found;
    }

    /** What there is to draw in a square: its tile, or the part of one above it that begins `from` there and is `part` long. */
    contentOf({ z, column, row, side }) {
        const first = Math.max(z - this.tileZoom, 0);
        for (let up = first; up <= Math.min(z, first + MAX_UP); up++) {
            const tile = this.tiles.get(`${z - up}/${column >> up}/${row >> up}`), part = EXTENT / 2 ** up;
            if (tile?.layers) {
                return { tile, part, from: [column % 2 ** up * part, row % 2 ** up * part], unit: part / side };
            }
        }
        return null;
    }

    draw() {
        this.slices.run(WORK);
        const { canvas, context, style } = this, ratio = devicePixelRatio, size = this.middle.map(half => 2 * half);
        const [wide, high] = size.map(length => Math.round(length * ratio));
        canvas.width === wide && canvas.height === high || Object.assign(canvas, { width: wide, height: high });
        context.setTransform(1, 0, 0, 1, 0, 0);
        context.fillStyle = style.background;
        context.fillRect(0, 0, wide, high);
        this.isPlaced && this.backdrop?.draw(context, this, ratio);
        this.load(this.squares().map(nameOf));
        // Tiles of the last zoom of the map are larger than a square beyond it.
        const squares = this.squares(Math.floor(this.zoom)).map(square => ({ ...square, content: this.contentOf(square) }));
        this.raster.draw(context, squares, this.zoom, ratio);
        squares.filter(({ content }) => content).forEach(square => this.markSquare(square, ratio));
        this.raster.drawNames(context, squares, this, size, ratio);
        context.setTransform(ratio, 0, 0, ratio, 0, 0);
        this.hooks.over(context);
    }

    /** Marks what is selected of a square. */
    markSquare({ left, top, side, content: { tile, part, from, unit } }, ratio) {
        const { context } = this, id = this.selected() ?? null, [west, north, long] = [left, top, side].map(at => at * ratio), scale = long / part;
        if (tile.marked?.id !== id || tile.marked.layers !== tile.layers) {
            const isOf = feature => (feature.tags.whole ?? feature.id) === id;
            tile.marked = { id, layers: tile.layers, features: id === null ? [] : tile.layers.flatMap(({ features }) => features.filter(isOf)) };
        }
        if (tile.marked.features.length) {
            context.save();
            context.beginPath();
            context.rect(west, north, long, long);
            context.clip();
            context.setTransform(scale, 0, 0, scale, west - from[0] * scale, north - from[1] * scale);
            mark(context, tile.marked.features, unit);
            context.restore();
        }
    }

    /** Asks for the tiles of these names that aren't of the last edit that is known, and for no other any more. */
    load(names) {
        for (const [name, tile] of this.tiles) {
            if (!names.includes(name)) {
                tile.loads?.abort();
                this.tiles.size > MAX_TILES && this.tiles.delete(name);
            }
        }
        for (const name of names) {
            const tile = this.tiles.get(name) ?? { edit: -1 };
            this.tiles.delete(name);
            this.tiles.set(name, tile);
            !tile.loads && tile.edit < this.edit && this.fetch(name, tile, this.edit);
        }
    }

    async fetch(name, tile, edit) {
        Object.assign(tile, { loads: new AbortController(), asked: performance.now() });
        const { signal } = tile.loads;
        try {
            const { tag, bytes } = await this.server.tile(name, edit, tile.tag, signal);
            const layers = bytes && await this.slices.done(decoded(bytes), signal);
            Object.assign(tile, { edit, ...(layers ? { layers, tag } : {}) });
        } catch (fault) {
            signal.aborted || this.hooks.failed(fault);
            await new Promise(resolve => setTimeout(resolve, signal.aborted ? 0 : 3000));
        }
        tile.loads = null;
        this.redraw();
    }

    /** The features within so many pixels of a point of the screen, each with its layer and its lists of points in pixels. */
    near([x, y], reach) {
        return this.squaresAt([x, y], reach).flatMap(square => this.featuresOf(square, [x - reach, y - reach, x + reach, y + reach]));
    }

    /** The squares within so many pixels of a point of the screen. */
    squaresAt([x, y], reach) {
        return this.squares().filter(({ left, top, side }) => left <= x + reach && x - reach < left + side && top <= y + reach && y - reach < top + side);
    }

    /**
     * The features of the tile in a square that the style draws, each with its layer and its lists of points in pixels: all, or those whose box meets
     * one of the screen.
     */
    featuresOf(square, [west, north, east, south] = [-Infinity, -Infinity, Infinity, Infinity]) {
        const { tile, from, unit } = this.contentOf(square) ?? { tile: { layers: [] } };
        const toPixels = ([column, row]) => [square.left + (column - from[0]) / unit, square.top + (row - from[1]) / unit];
        const inTile = ([x, y]) => [(x - square.left) * unit + from?.[0], (y - square.top) * unit + from?.[1]];
        const near = [inTile([west, north]), inTile([east, south])], isShown = (name, { chains, tags }) => meets(chains, near) && this.style.placeOf(name, tags) >= 0;
        return tile.layers.flatMap(({ name, features }) => features.filter(feature => isShown(name, feature)).map(feature => ({
            ...feature, layer: name, chains: feature.chains.map(chain => chain.map(toPixels)),
        })));
    }

    /** Zooms as two fingers that were at two points of the screen are now at two others, and keeps the place between them there. */
    pinch(before, after) {
        const middle = ([[x, y], [toX, toY]]) => [(x + toX) / 2, (y + toY) / 2], far = ([[x, y], [toX, toY]]) => Math.max(Math.hypot(toX - x, toY - y), 1);
        this.centre = this.centre.map((part, axis) => part - (middle(after)[axis] - middle(before)[axis]) / this.scale);
        this.zoomBy(Math.log2(far(after) / far(before)), middle(after));
    }

    /** The features in view, as `near` gives them, but for their points: each once, with its `box` of the world, and pieces of a whole as one. */
    features() {
        const found = new Map(), [wide, high] = this.middle.map(half => 2 * half);
        for (const square of this.squares()) {
            for (const feature of this.featuresOf(square)) {
                const [west, north, east, south] = bounds(feature.chains.flat()), id = feature.tags.whole ?? feature.id;
                if (west <= wide && east >= 0 && north <= high && south >= 0) {
                    const corners = [[west, north], [east, south]].map(point => this.toWorld(point)), { box } = found.get(id) ?? {};
                    const joined = bounds([...corners, ...(box ? [box.slice(0, 2), box.slice(2)] : [])]);
                    found.set(id, { ...feature, id, own: feature.id, box: joined });
                }
            }
        }
        return [...found.values()];
    }

    /** Moves the map so that a panel, which covers so many pixels at the right and at the bottom, leaves the middle of a box free. */
    uncover([west, north, east, south], covered) {
        const over = this.toScreen([(west + east) / 2, (north + south) / 2]).map((at, axis) => at - (2 * this.middle[axis] - covered[axis] - 40));
        over.some(pixels => pixels > 0) ? this.move(this.centre.map((at, axis) => at + Math.max(over[axis], 0) / this.scale)) : this.redraw();
    }

    listen() {
        const place = event => [event.offsetX, event.offsetY], isTouched = event => event.pointerType === "touch";
        // What one finger, or the mouse, drags, and where each finger is.
        let drag = null;
        const fingers = new Map(), on = (name, action) => this.canvas.addEventListener(name, action);
        on("pointerdown", event => {
            this.canvas.setPointerCapture(event.pointerId);
            fingers.set(event.pointerId, place(event));
            // With a second finger nothing is dragged any more: two of them zoom.
            drag = fingers.size > 1 ? null : {
                from: place(event), last: place(event), isClick: event.button === 0,
                moves: event.button === 0 && this.hooks.grab(place(event), isTouched(event)),
            };
        });
        on("pointermove", event => {
            const point = place(event);
            if (fingers.size === 2 && fingers.has(event.pointerId)) {
                const before = [...fingers.values()];
                this.pinch(before, [...fingers.set(event.pointerId, point).values()]);
            }
            if (drag && !(drag.isClick &&= Math.hypot(point[0] - drag.from[0], point[1] - drag.from[1]) < 4)) {
                const moved = () => this.centre.map((part, axis) => part - (point[axis] - drag.last[axis]) / this.scale);
                drag.moves ? drag.moves(this.toWorld(point), event.altKey) : this.move(moved());
                drag.last = point;
                this.redraw();
            }
        });
        const lifted = event => {
            fingers.delete(event.pointerId);
            drag = null;
        };
        on("pointerup", event => {
            drag?.isClick && this.hooks.select(place(event), event.altKey, isTouched(event));
            lifted(event);
        });
        on("lostpointercapture", lifted);
        on("wheel", event => {
            event.preventDefault();
            this.zoomBy(-event.deltaY * (event.deltaMode ? 30 : 1) / 300, place(event));
        });
        addEventListener("hashchange", () => this.goTo(location.hash.slice(1)));
    }
}
