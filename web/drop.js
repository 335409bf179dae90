// A file that is dropped on the page: its features are shown first, then sent by checked edits, and can be taken back as one.
import { Cut } from "./cut.js";
import { THEIRS } from "./draw.js";
import { nextId } from "./editor.js";
import { groupsOf } from "./edits.js";
import { featuresIn } from "./files.js";
import { actions, button, close, covered, element, open, table, tell } from "./panel.js";
import { missing } from "./schema.js";
import { Changed, Refused } from "./server.js";
import { chainsOf, isLarge, pointsOf } from "./shape.js";
import { texts } from "./texts.js";
import { bounds } from "./world.js";

// The bytes and the features that the page takes of a file, and the lines that it shows of each list.
const MAX_BYTES = 20 * 2 ** 20, MAX_FEATURES = 5000, MAX_LINES = 20;
// The zooms of a layer that the map doesn't have yet: those of the import.
const ZOOMS = [0, 14];
// Refusals of what a feature is.
const OF_FEATURES = [400, 413];

const hint = text => element("p", { className: "hint" }, text);
const listOf = lines => lines.length
    ? [element("ul", { className: "notes" }, ...lines.slice(0, MAX_LINES).map(line => element("li", {}, line)), ...(lines.length > MAX_LINES
        ? [element("li", {}, texts.more(lines.length - MAX_LINES))] : []))] : [];

export class Drop {
    // The file that is shown, or null: its `name`, its `features`, what is `refused` of it, what is `sent`, the numbers of its `edits`, and what is drawn.
    file = null;
    isSending = false;

    /** `layers()` are those of the map, `schema` is its `Schema`; `saved(edit)` is called after each edit. */
    constructor(view, server, layers, schema, saved) {
        Object.assign(this, { view, server, layers, schema, saved });
    }

    /** Reads a file, and shows what it has. One that seems to be cut is read if the person says that it `isWhole`. */
    async begin(given, isWhole = false) {
        if (given.size > MAX_BYTES) {
            throw new Error(texts.tooLargeFile(given.name, `${MAX_BYTES / 2 ** 20} MiB`));
        }
        const bytes = new Uint8Array(await given.arrayBuffer());
        try {
            await this.take(given.name, featuresIn(given.name, bytes, isWhole));
        } catch (fault) {
            if (!(fault instanceof Cut)) {
                throw fault;
            }
            const told = element("p", { className: "fault", role: "alert" }, texts.seemsCut(given.name, fault.message));
            open(given.name, told, actions(button(texts.itIsWhole, () => this.begin(given, true)), button(texts.cancel, () => this.end())));
        }
    }

    /** Shows what is read of a file of this name. */
    async take(name, { features, notes, refused }) {
        if (features.length > MAX_FEATURES) {
            throw new Error(texts.tooLargeFile(name, texts.found(MAX_FEATURES)));
        }
        await this.schema.look();
        this.file = { name, features, notes, refused, sent: [], edits: [], drawn: drawnOf(features) };
        this.show();
        features.length && this.view.show(bounds(features.flatMap(({ geometry }) => pointsOf(geometry))), covered());
        this.view.redraw();
    }

    /** The zooms of a layer, by the schema, by the map, or those of the import. */
    zoomsOf(layer) {
        const known = this.layers().find(({ id }) => id === layer), { minzoom, maxzoom } = this.schema.layers.get(layer)?.zooms ?? known ?? {};
        return minzoom === undefined ? ZOOMS : [minzoom, maxzoom];
    }

    /** The fields of the form by the layers of the file: the name of the layer, its first and its last zoom. */
    fieldsOf(names) {
        return new Map(names.map(layer => {
            const [name, first, last] = [[texts.layer, layer], ...this.zoomsOf(layer).map((zoom, at) => [at ? texts.lastZoom : texts.firstZoom, zoom])]
                .map(([what, value]) => element("input", { ariaLabel: names.length > 1 ? `${what}: ${layer}` : what, value }));
            name.onchange = () => {
                this.schema.layers.has(name.value) && ([first.value, last.value] = this.zoomsOf(name.value));
                this.file.told.replaceChildren(...this.lines());
            };
            return [layer, [name, first, last]];
        }));
    }

    /** What is told of the file: notes, what is refused, and for which attributes the schema has no field. */
    lines() {
        const { file } = this, { layers } = this.schema, { refused, unknown } = this.held();
        const named = new Set([...file.fields.values()].map(([name]) => name.value).filter(name => layers.get(name)?.zooms));
        const zooms = [...named].map(name => texts.bySchema(...this.zoomsOf(name), name)), notes = file.notes.map(([note, count]) => texts.notesOf(note, count));
        const faults = [...file.refused, ...refused].map(([at, why]) => texts.refusedAt(at, why));
        const without = element("label", { className: "along" }, file.without, texts.putWithout);
        return [...listOf([...notes, ...zooms, ...unknown, ...faults]), ...(unknown.length ? [without] : [])];
    }

    /** Shows what is read of the file, and what of it would be refused. */
    show() {
        const { file } = this, { name, features } = file, names = [...new Set(features.map(({ layer }) => layer))];
        const without = element("input", { type: "checkbox" }), told = element("div");
        Object.assign(file, { fields: this.fieldsOf(names), without, told });
        const rows = names.flatMap(layer => [texts.layer, texts.firstZoom, texts.lastZoom].map((what, at) => [what, file.fields.get(layer)[at]])
            .concat([[texts.features, String(features.filter(feature => feature.layer === layer).length)]]));
        told.append(...this.lines());
        const sends = features.length ? [button(texts.sendAll(features.length), () => this.send())] : [];
        open(texts.fileOf(name, features.length), ...(rows.length ? [table(rows)] : []), told,
            hint(features.length ? texts.fileHelp : texts.nothingToSend), actions(...sends, button(texts.cancel, () => this.end())));
    }

    /** Sends what isn't sent yet. If that fails it can be called again: what was made isn't made twice. */
    async send() {
        const { file } = this;
        file.left ??= this.rowsOf();
        this.isSending = true;
        try {
            while (file.left.length) {
                await this.sendNext(file);
                tell(texts.sending(file.sent.length, file.sent.length + file.left.length));
            }
        } finally {
            this.isSending = false;
            file.edits.length && await this.saved(file.edits.at(-1));
        }
        this.tellSent(file);
    }

    /**
     * The features of the file with values of the types of the schema's fields, by the layers that the form names; what the schema refuses of them; and what
     * is to be done for attributes for which it has no field.
     */
    held() {
        const { file } = this, refused = [], others = new Map(), rows = [];
        for (const feature of file.features) {
            const layer = file.fields.get(feature.layer)[0].value, rules = this.schema.layers.get(layer);
            const tags = rules?.fitted(feature.tags, null) ?? feature.tags;
            rules && others.set(layer, new Set([...others.get(layer) ?? [], ...rules.unknown(tags)]));
            const fault = rules?.fault(null, tags);
            fault ? refused.push([feature.at, fault]) : rows.push({ ...feature, tags });
        }
        return { rows, refused, unknown: [...others].filter(([, tags]) => tags.size).map(([layer, tags]) => missing(layer, [...tags])) };
    }

    /** What the features of the file are on the map, by the fields of the form. What the schema refuses, or is too large for that, is refused. */
    rowsOf() {
        const { file } = this, { rows, refused, unknown } = this.held(), whole = ({ value }) => /^\d{1,2}$/.test(value.trim()) ? Number(value) : value;
        if (unknown.length && !file.without.checked) {
            throw new Error(unknown.join("; "));
        }
        const made = rows.map(({ at, layer, tags, geometry }) => {
            const [name, first, last] = file.fields.get(layer);
            return { at, id: null, feature: { layer: name.value, minzoom: whole(first), maxzoom: whole(last), geometry, tags } };
        });
        const large = made.filter(({ feature }) => isLarge(feature));
        file.refused = [...file.refused, ...refused, ...large.map(({ at }) => [at, texts.tooLargeToCut])];
        return made.filter(row => !large.includes(row));
    }

    /** Sends the next edit. New features keep their ids until somebody else takes one. */
    async sendNext(file) {
        if (file.left[0].id === null) {
            const first = await nextId(this.server);
            file.left.forEach((row, at) => row.id = first + at);
        }
        const most = file.most ?? Infinity, [group] = groupsOf(file.left.slice(0, Math.min(most, MAX_FEATURES)), changeOf);
        try {
            file.edits.push(await this.server.edit(group.map(changeOf)));
            file.left.splice(0, group.length);
            file.sent.push(...group);
            file.most = undefined;
        } catch (fault) {
            if (fault instanceof Changed) {
                file.left.forEach(row => row.id = null);
            } else if (fault instanceof Refused && OF_FEATURES.includes(fault.status) && group.length > 1) {
                // One of them is refused: it is found by halves.
                file.most = Math.ceil(group.length / 2);
            } else if (fault instanceof Refused && OF_FEATURES.includes(fault.status)) {
                file.refused.push([group[0].at, fault.message]);
                file.left.shift();
            } else {
                throw fault;
            }
        }
    }

    /** Shows what was sent, and what was refused. */
    tellSent({ name, sent, edits, refused }) {
        const told = texts.sentOf(name, sent.length), ids = sent.map(({ id }) => id), lines = refused.map(([at, why]) => texts.refusedAt(at, why));
        const shown = edits.length > 1 ? `${edits[0]}–${edits.at(-1)}` : String(edits[0]);
        this.file.drawn = null;
        tell(told);
        open(told, ...(sent.length ? [hint(texts.sentAs(shown, Math.min(...ids), Math.max(...ids)))] : []), ...listOf(lines),
            actions(...(sent.length ? [button(texts.takeAllBack, () => this.takeBack())] : []), button(texts.close, () => this.end())));
        this.view.redraw();
    }

    /** Deletes what was sent, but for what somebody has changed since. */
    async takeBack() {
        const { file } = this;
        file.gone ??= 0;
        let edit = null;
        this.isSending = true;
        try {
            while (file.sent.length) {
                const [group] = groupsOf(file.sent, deletionOf);
                try {
                    edit = await this.server.edit(group.map(deletionOf));
                    file.gone += group.length;
                    file.sent.splice(0, group.length);
                } catch (fault) {
                    const changed = fault instanceof Changed && file.sent.findIndex(({ id }) => fault.message === `Changed ${id}`);
                    if (changed === false || changed < 0) {
                        throw fault;
                    }
                    file.kept = (file.kept ?? 0) + 1;
                    file.sent.splice(changed, 1);
                }
            }
        } finally {
            this.isSending = false;
            edit === null || await this.saved(edit);
        }
        this.end();
        tell(texts.tookBack(file.gone, file.kept ?? 0));
    }

    /** Closes the file. */
    end() {
        this.file = null;
        close();
        this.view.redraw();
    }

    /** Draws what is shown of the file. */
    over(context) {
        const { drawn } = this.file ?? {}, { view } = this;
        if (!drawn) {
            return;
        }
        const [x, y] = view.toScreen(drawn.corner), { scale } = view, path = new Path2D();
        path.addPath(drawn.path, new DOMMatrix([scale, 0, 0, scale, x, y]));
        context.fillStyle = `${THEIRS}33`;
        context.fill(path);
        for (const [colour, width] of [["#ffffff", 5], [THEIRS, 2.5]]) {
            Object.assign(context, { strokeStyle: colour, lineWidth: width, lineCap: "round", lineJoin: "round" });
            context.stroke(path);
        }
        for (const place of drawn.points) {
            const [across, down] = view.toScreen(place);
            context.beginPath();
            context.arc(across, down, 6, 0, 2 * Math.PI);
            Object.assign(context, { fillStyle: THEIRS, strokeStyle: "#ffffff", lineWidth: 2 });
            context.fill();
            context.stroke();
        }
    }
}

const changeOf = ({ id, feature }) => ({ put: id, feature, was: null });
const deletionOf = ({ id, feature }) => ({ delete: id, was: feature });

/** What is drawn of features: their lines and rings as a path from a corner of the world on, and their points. */
function drawnOf(features) {
    const all = features.flatMap(({ geometry }) => chainsOf(geometry)), [west, north] = bounds(all.flatMap(({ points }) => points)), path = new Path2D();
    for (const { points: [first, ...rest], isClosed } of all.filter(({ points }) => points.length > 1)) {
        path.moveTo(first[0] - west, first[1] - north);
        rest.forEach(([x, y]) => path.lineTo(x - west, y - north));
        isClosed && path.closePath();
    }
    return { corner: [west, north], path, points: all.filter(({ points }) => points.length === 1).map(({ points }) => points[0]) };
}
