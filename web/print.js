// Prints what is in the middle of the view, with a scale, a bar and a legend: the browser makes a PDF of it, or paper.
import { drawNames, drawTile, prepared } from "./draw.js";
import { actions, button, byId, element, open, table, tell } from "./panel.js";
import { MARGIN, PAPERS, SCALES, barOf, isSame, scaleFor, sizesOf, unitsOf } from "./sheet.js";
import { width } from "./style.js";
import { language, texts } from "./texts.js";
import { decoded } from "./tile.js";
import { WORLD, toDegrees } from "./world.js";

// Pixels of an inch of the page, as those of the screen are counted, and as many times more dots; pixels of a tile at its own zoom; and the milliseconds
// that images of a backdrop are waited for.
const INCH = 25.4, PIXELS = 96, RATIO = 2, SIDE = 512, PATIENCE = 10_000;
const SVG = "http://www.w3.org/2000/svg";
const pixelsOf = length => length / INCH * PIXELS;

/** An element of a drawing. */
function drawing(name, attributes, ...children) {
    const made = document.createElementNS(SVG, name);
    Object.entries(attributes).forEach(([key, value]) => made.setAttribute(key, value));
    made.append(...children);
    return made;
}

/** How a rule draws, in a small picture. */
function sample(rule, { areas, lines, points }, zoom) {
    const wide = Math.min(width(rule, zoom), 7), parts = [];
    areas && rule.area && parts.push(drawing("rect", { x: 1, y: 1, width: 26, height: 12, fill: rule.area, stroke: rule.edge ?? "none" }));
    lines && rule.casing && parts.push(drawing("path", { d: "M2 7H26", stroke: rule.casing, "stroke-width": wide + 1.5 }));
    lines && rule.line && parts.push(drawing("path", { d: "M2 7H26", stroke: rule.line, "stroke-width": wide }));
    points && rule.point && parts.push(drawing("circle", { cx: 14, cy: 7, r: 5, fill: rule.point, stroke: "#ffffff", "stroke-width": 1.5 }));
    return drawing("svg", { width: 28, height: 14, "aria-hidden": true }, ...parts);
}

/** What a legend says of a rule. */
const labelOf = ({ layer, when }) => [layer, ...Object.values(when ?? {})].join(", ");

export class Print {
    form = null;

    constructor(view, server, style) {
        Object.assign(this, { view, server, style, names: [], dialog: () => window.print() });
        addEventListener("afterprint", () => this.end());
    }

    /** Whether the panel asks how to print. */
    get isOpen() {
        return Boolean(this.form?.title.isConnected) && !byId("panel").hidden;
    }

    /** Asks how to print. */
    begin(leave) {
        const choice = (rows, value) => {
            const made = element("select", {}, ...rows.map(([name, text]) => element("option", { value: name }, text)));
            return Object.assign(made, { value, onchange: () => this.view.redraw() });
        };
        const isWide = this.view.middle[0] > this.view.middle[1], latitude = toDegrees(this.view.centre)[1];
        const seen = this.view.middle.map(half => 2 * half / this.view.scale), first = scaleFor(seen, latitude, sizesOf("A4", isWide, 0).map);
        this.form = {
            title: element("input", { maxLength: 100 }),
            paper: choice(Object.keys(PAPERS).map(name => [name, name]), "A4"),
            sides: choice([["wide", texts.landscape], ["high", texts.portrait]], isWide ? "wide" : "high"),
            scale: choice(SCALES.map(scale => [scale, `1 : ${scale.toLocaleString(language)}`]), first),
        };
        const rows = [[texts.printTitle, this.form.title], [texts.paper, this.form.paper], [texts.orientation, this.form.sides], [texts.scale, this.form.scale]];
        rows.forEach(([label, field]) => field.ariaLabel = label);
        open(texts.printMap, table(rows), element("p", { className: "hint" }, texts.printHelp),
            actions(button(texts.print, () => this.print()), button(texts.cancel, leave)));
        this.view.redraw();
    }

    /** What the form says. */
    get wanted() {
        const { title, paper, sides, scale } = this.form;
        return { title: title.value.trim(), paper: paper.value, isLandscape: sides.value === "wide", scale: Number(scale.value) };
    }

    /** The part of the world that is printed: a view of so many millimetres. */
    frameOf(scale, size) {
        const { view } = this, centre = [...view.centre], middle = size.map(length => pixelsOf(length) / 2);
        const zoom = Math.log2(pixelsOf(1) / unitsOf(scale, toDegrees(centre)[1]) * WORLD / SIDE);
        const frame = Object.create(view, { zoom: { value: zoom }, centre: { value: centre }, middle: { value: middle } });
        Object.defineProperty(frame, "toScreen", { value: point => point.map((at, axis) => (at - centre[axis]) * frame.scale + middle[axis]) });
        return frame;
    }

    /** Draws on the screen what the page will show. */
    over(context) {
        if (this.isOpen) {
            const { paper, isLandscape, scale } = this.wanted, { view } = this, frame = this.frameOf(scale, sizesOf(paper, isLandscape, this.names.length).map);
            const halves = frame.middle.map(half => half / frame.scale * view.scale), [left, top] = view.middle.map((at, axis) => at - halves[axis]);
            for (const [colour, pixels] of [["#ffffff", 5], ["#0b57d0", 2.5]]) {
                Object.assign(context, { strokeStyle: colour, lineWidth: pixels });
                context.strokeRect(left, top, 2 * halves[0], 2 * halves[1]);
            }
        }
    }

    /** Makes the page, and has the browser print it. */
    async print() {
        const { title, paper, isLandscape, scale } = this.wanted;
        tell(texts.drawsPage);
        const squares = await this.squaresOf(this.frameOf(scale, sizesOf(paper, isLandscape, 0).map));
        const entries = this.entriesOf(squares), sizes = sizesOf(paper, isLandscape, entries.length), frame = this.frameOf(scale, sizes.map);
        this.names = entries;
        const canvas = await this.drawnOn(frame, squares);
        this.end();
        this.sheet = this.sheetOf(title, canvas, frame, scale, sizes, entries);
        this.before = document.title;
        document.title = title || texts.title;
        document.body.append(this.sheet);
        tell(texts.pageIsDrawn);
        this.dialog();
    }

    /** Removes the page. */
    end() {
        this.sheet?.remove();
        document.title = this.sheet ? this.before : document.title;
        this.sheet = null;
    }

    /** The squares of a frame with their tiles, prepared. */
    async squaresOf(frame) {
        const { view, server, style } = this, tiles = new Map(), { signal } = new AbortController();
        await Promise.all(frame.squares().map(async ({ z, column, row }) => {
            const name = `${z}/${column}/${row}`, known = view.tiles.get(name);
            const { layers } = known?.layers && known.edit === view.edit ? known : { layers: await this.layersOf(await server.tile(name, view.edit, undefined, signal)) };
            tiles.set(name, { drawn: await view.slices.done(prepared(layers, style)) });
        }));
        return { frame, tiles };
    }

    /** The layers of a tile that was asked for. */
    async layersOf({ bytes }) {
        return bytes ? this.view.slices.done(decoded(bytes)) : [];
    }

    /** What the legend has: rules that draw something in the frame, in the order in which the legend of the map has their layers. */
    entriesOf({ frame, tiles }) {
        const found = new Map(), squares = frame.squares();
        for (const { z, column, row, left, top, side } of squares) {
            const unit = 4096 / side, sides = [-left, -top, 2 * frame.middle[0] - left, 2 * frame.middle[1] - top].map(at => at * unit);
            const meets = ({ box }) => box[0] <= sides[2] && box[2] >= sides[0] && box[1] <= sides[3] && box[3] >= sides[1];
            tiles.get(`${z}/${column}/${row}`).drawn.rules.forEach(({ area, line, points }, at) => {
                const kinds = { areas: area.some(meets), lines: line.some(meets), points: points.some(meets) }, known = found.get(at) ?? {};
                Object.values(kinds).some(Boolean) && found.set(at, Object.fromEntries(Object.entries(kinds).map(([kind, is]) => [kind, is || known[kind]])));
            });
        }
        return [...found].sort(([one], [other]) => one - other).map(([at, kinds]) => ({ rule: this.style.rules[at], kinds }));
    }

    /** A canvas with a frame of the map. */
    async drawnOn(frame, { tiles }) {
        const { view, style } = this, [wide, high] = frame.middle.map(half => Math.round(2 * half * RATIO));
        const canvas = element("canvas", { width: wide, height: high }), context = canvas.getContext("2d");
        context.fillStyle = style.background;
        context.fillRect(0, 0, wide, high);
        await this.drawBackdrop(context, frame);
        const squares = frame.squares().map(square => ({ ...square, tile: tiles.get(`${square.z}/${square.column}/${square.row}`) }));
        for (const { left, top, side, tile } of squares) {
            const scale = side * RATIO / 4096, [west, north, east, south] = [left, top, left + side, top + side].map(at => Math.round(at * RATIO));
            context.save();
            context.beginPath();
            context.rect(west, north, east - west, south - north);
            context.clip();
            context.setTransform(scale, 0, 0, scale, left * RATIO, top * RATIO);
            await view.slices.done(drawTile(context, tile.drawn, style, frame.zoom, RATIO / scale, [0, 0, 4096, 4096]));
            context.restore();
        }
        context.setTransform(RATIO, 0, 0, RATIO, 0, 0);
        const named = squares.map(({ left, top, side, tile }) => ({ left, top, side, tile, from: [0, 0], part: 4096 }));
        await view.slices.done(drawNames(context, named, frame.zoom, [0, 0, 2 * frame.middle[0], 2 * frame.middle[1]]));
        return canvas;
    }

    /** Draws the images below the map once they are there, or as many as come in time. */
    async drawBackdrop(context, frame) {
        const { backdrop } = this.view, end = performance.now() + PATIENCE;
        backdrop?.draw(context, frame, RATIO);
        while (backdrop && ![...backdrop.images.values()].every(image => image.complete) && performance.now() < end) {
            await new Promise(resolve => setTimeout(resolve, 100));
        }
        backdrop?.draw(context, frame, RATIO);
    }

    /** The page: the title, the map, the scale, and the legend. */
    sheetOf(title, canvas, frame, scale, { paper, sheet, map, columns }, entries) {
        const millimetres = ([wide, high]) => `width: ${wide}mm; height: ${high}mm`, { metres, length } = barOf(scale);
        const corner = [-1, 1].map(side => toDegrees([frame.centre[0], frame.centre[1] + side * frame.middle[1] / frame.scale])[1]);
        const shown = metres < 1000 ? `${metres.toLocaleString(language)} m` : `${(metres / 1000).toLocaleString(language)} km`;
        const told = isSame(...corner) ? "" : ` ${texts.inTheMiddle}`, credit = byId("credit").textContent;
        canvas.style = millimetres(map);
        return element("section", { id: "sheet", style: millimetres(sheet) },
            element("style", {}, `@page { size: ${paper[0]}mm ${paper[1]}mm; margin: ${MARGIN}mm; }`),
            element("h1", {}, title || texts.title), canvas,
            element("div", { className: "foot" },
                element("span", { className: "bar", style: `width: ${length}mm` }, shown),
                element("b", {}, `1 : ${scale.toLocaleString(language)}${told}`),
                element("span", {}, new Date().toLocaleDateString(language)), element("span", { className: "from" }, [location.host, credit].filter(Boolean).join(" · "))),
            element("ul", { style: `columns: ${columns}` }, ...entries.map(({ rule, kinds }) => element("li", {}, sample(rule, kinds, frame.zoom), labelOf(rule)))));
    }
}
