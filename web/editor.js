// What is edited: a draft of one feature, which is saved as a checked edit, and what becomes of it if somebody else was faster.
import { conflictOf } from "./conflict.js";
import { MINE, THEIRS, drawChosen, drawShape } from "./draw.js";
import { formOf } from "./form.js";
import { actions, button, close, covered, element, open, table, tell } from "./panel.js";
import { Neighbours } from "./neighbours.js";
import { Schema, layersFor, missing } from "./schema.js";
import { Changed, canonical } from "./server.js";
import {
    REACH, REACH_OF_FINGERS, begun, chainsOf, cornerNear, cornersOf, described, grabbed, isLarge, isWhole, listsOf, pointsOf, remove, removeCorner,
} from "./shape.js";
import { isOutline } from "./style.js";
import { texts } from "./texts.js";
import { bounds, rounded } from "./world.js";
import { PIECE, changeAll, changedOf, lost, piecesOf, wholeOf } from "./whole.js";

const hint = text => element("p", { className: "hint" }, text);

/** The id after the greatest one in use, those of pieces aside. If somebody takes it first, an edit that puts it is refused. */
export async function nextId(server) {
    const { last } = await server.value("admin/status");
    let [least, end] = last < PIECE ? [Number(last ?? 0) + 1, 0] : [1, PIECE];
    while (least < end) {
        const middle = Math.floor((least + end) / 2), row = await server.from(middle);
        [least, end] = row?.id < PIECE ? [row.id + 1, end] : [least, middle];
    }
    return least;
}

export class Editor {
    // The draft, or null: the `feature` (null: it is to be deleted) and its `form`; its `id` (null: not known yet), what it `was` (null:
    // nothing), its `pieces` if it is cut, what was `sent` since then, earlier geometries (`undo`), whether it `isNew`, `isDrawn` just now or
    // `isSent` just now, whether its shape `isFixed`, and `theirs` in a conflict (null: it was deleted). Its `neighbours`, and whether they come `along`. The corner of its shape
    // that is `chosen`: the one that was touched last.
    draft = null;

    /** `saved(edit)` is called after each edit. */
    constructor(view, server, layers, saved) {
        Object.assign(this, { view, server, layers, saved, schema: new Schema(server) });
    }

    /** Begins to edit a feature of a tile, or to delete it, as the map has it now. */
    async begin({ id, own, tags: { whole } }, deletes) {
        const found = Number.isSafeInteger(whole) ? await piecesOf(this.server, whole) : [], pieces = found.length ? found : null;
        // Pieces without the first one, and what only has a tag `whole`, are features of their own.
        const was = pieces ? wholeOf(pieces) : await this.server.feature(own);
        if (!was) {
            throw new Error(texts.deletedByOthers);
        }
        // A new feature may have been begun meanwhile.
        if (!this.draft) {
            const neighbours = new Neighbours(this.view, this.server, pieces ? id : own);
            this.draft = { id: pieces ? id : own, was, pieces, sent: [], feature: deletes ? null : structuredClone(was), undo: [], neighbours };
            deletes ? this.ask() : await this.openForm();
        }
    }

    /** Asks whether a feature is to be what it was once, which is drawn; `now`: what the map has (null: nothing); `told`: an element that says what differs. */
    putBack(id, now, feature, told) {
        // A new feature may have been begun meanwhile.
        if (this.draft) {
            return;
        }
        const neighbours = new Neighbours(this.view, this.server, id);
        this.draft = { id, was: now, pieces: null, sent: [], feature, undo: [], neighbours, isFixed: true };
        open(texts.putsBack(feature.layer, id), told, hint(described(feature.geometry)),
            actions(button(texts.putItBack, () => this.send(feature)), button(texts.cancel, () => this.drop())));
        this.uncover(feature);
    }

    /** Begins to draw a new feature. */
    draw(kind) {
        // A layer of which the style draws such features, if there is one.
        const layers = this.layers().filter(({ id }) => !isOutline(id)), drawn = layers.find(({ id }) => this.view.style.draws(id, kind));
        const layer = drawn ?? layers[0] ?? { id: "", minzoom: 10, maxzoom: 16 };
        const feature = { layer: layer.id, minzoom: layer.minzoom, maxzoom: layer.maxzoom, geometry: begun(kind), tags: { name: "" } };
        this.draft = { id: null, isNew: true, was: null, sent: [], feature, undo: [], isDrawn: true, neighbours: new Neighbours(this.view, this.server, null) };
        const more = kind === "points" ? [] : [button(texts.done, () => this.finish()), button(texts.undo, () => this.takeBack())];
        const how = kind === "points" ? texts.keysOfPoint : `${texts.drawingEnds} ${texts.keysOfPoint}`;
        open(texts.clickWhere, hint(how), actions(...more, button(texts.cancel, () => this.drop())));
        this.view.canvas.focus();
    }

    /** Adds a point to what is drawn. */
    add(place, isFree) {
        const [{ points }] = listsOf(this.draft.feature.geometry), at = points.length, corner = isFree ? null : this.draft.neighbours.cornerAt(place);
        // The second click of a double one is at the same place.
        const where = String(corner?.tiled ?? rounded(place));
        if (where !== this.draft.clicked) {
            this.draft.clicked = where;
            this.draft.added = {};
            this.snap(place, corner, point => points[at] = rounded(point), this.draft.added);
            this.draft.feature.geometry.points && this.finish();
        }
    }

    /** Takes the last point of what is drawn back. */
    takeBack() {
        if (!this.draft.isDrawn) {
            return;
        }
        listsOf(this.draft.feature.geometry)[0].points.pop();
        Object.assign(this.draft.added ?? {}, { corner: null });
        this.draft.clicked = null;
        this.view.redraw();
    }

    /** Puts a point to a place, or to a corner there: at once, and again when it is known exactly where that is, if it is still the one of `last`. */
    snap(place, corner, put, last) {
        const { draft } = this;
        last.corner = corner;
        put(corner?.place ?? place);
        const known = corner?.exact.then(exact => {
            if (last.corner === corner && draft === this.draft && !draft.isSent) {
                put(exact);
                this.view.redraw();
            }
        }).catch(() => {});
        draft.isExact = Promise.all([draft.isExact, known]);
    }

    /** Saves the draft as shape and form say, once it is known where its points are. */
    async save() {
        await this.draft.isExact;
        return this.send(this.held(this.read(), this.draft.was));
    }

    /** Ends the drawing, if there are points enough. */
    finish() {
        if (this.draft?.isDrawn && isWhole(this.draft.feature.geometry)) {
            this.draft.isDrawn = false;
            return this.openForm();
        }
        return undefined;
    }

    /** The layers of the map and those of the schema, which come first: of a new feature those that may get its kind of shape. */
    layersToChoose({ geometry }, isNew) {
        const { layers } = this.schema, own = this.layers().filter(({ id }) => !isOutline(id)), known = new Map(own.map(layer => [layer.id, layer]));
        const named = isNew ? layersFor(layers, Object.keys(geometry)[0]) : [...layers.values()];
        const first = named.map(({ name, title, zooms }) => ({ ...known.get(name), ...zooms, id: name, title }));
        return [...first, ...own.filter(({ id }) => !named.some(({ name }) => name === id)).map(layer => ({ ...layer, title: layers.get(layer.id)?.title }))];
    }

    /** Gives a new feature a layer of the schema that may have it, if there is one, and the zooms of its layer. */
    fit(feature, layers) {
        const named = layers.filter(({ id }) => this.schema.layers.has(id)), layer = named.find(({ id }) => id === feature.layer) ?? named[0];
        layer && Object.assign(feature, { layer: layer.id }, layer.minzoom === undefined ? {} : { minzoom: layer.minzoom, maxzoom: layer.maxzoom });
    }

    /** Why the schema refuses a feature in place of what it was (null: a new one) is an error. Returns it with values of the types of its fields. */
    held(feature, was) {
        const rules = this.schema.layers.get(feature.layer), before = was?.tags ?? null, onMap = this.layers().find(({ id }) => id === feature.layer);
        if (!rules) {
            return feature;
        }
        const tags = rules.fitted(feature.tags, before), known = { ...onMap?.fields, ...before };
        const unknown = rules.unknown(tags).filter(tag => !Object.hasOwn(known, tag));
        const fault = unknown.length ? missing(feature.layer, unknown) : rules.fault(before, tags, tag => rules.nameOf(tag));
        if (fault) {
            throw new Error(fault);
        }
        return { ...feature, tags };
    }

    /** Opens the form, by the schema as it is now. */
    async openForm() {
        const { draft } = this, { feature, pieces, was, id } = draft;
        await this.schema.look();
        if (draft !== this.draft) {
            return;
        }
        const layers = this.layersToChoose(feature, !was);
        was || this.fit(feature, layers);
        draft.form = formOf(feature, layers, !was, file => this.server.keep(file), this.schema.layers);
        const shape = pieces ? texts.cutShape(pieces.length) : `${described(feature.geometry)}. ${texts.shapeHelp} ${texts.keysOfShape}`;
        const large = !pieces && isLarge(feature) ? [hint(texts.tooLarge)] : [];
        const along = element("input", { type: "checkbox", onchange: ({ target }) => this.bring(target.checked) });
        const asked = pieces ? [] : [element("label", { className: "along" }, along, texts.along)];
        open(was ? texts.editOf(feature.layer, id) : texts.newFeature, this.draft.form, hint(shape), ...asked, ...large,
            actions(button(texts.save, () => this.save()), button(texts.cancel, () => this.drop()), ...this.buttonsOfShape(pieces)));
        this.uncover(feature);
    }

    /** What a shape is changed by without a keyboard. */
    buttonsOfShape(pieces) {
        return pieces ? [] : [button(texts.undo, () => this.undo()), button(texts.removePoint, () => this.removeChosen())];
    }

    ask() {
        const { id, was, pieces } = this.draft, shape = pieces ? texts.pieces(pieces.length) : described(was.geometry);
        open(texts.deletes(was.layer, id), table(Object.entries(was.tags).map(([name, value]) => [name, String(value)])), hint(shape),
            actions(button(texts.deleteIt, () => this.send(null)), button(texts.cancel, () => this.drop())));
    }

    /** The feature that shape and form say. */
    read() {
        return { ...this.draft.feature, ...this.draft.form.read() };
    }

    /**
     * Saves a feature, or deletes it (null), as a checked edit. If that is refused, or no reply comes, it can be called again. What is as it was
     * makes no edit.
     */
    async send(feature) {
        const { draft } = this, { was, pieces, sent } = draft, isSame = !pieces && !sent.length && canonical(feature) === canonical(was);
        Object.assign(draft, { feature, isSent: true });
        try {
            const edit = isSame ? null : pieces ? await changeAll(this.server, pieces, feature) : await this.put(draft, structuredClone(feature));
            this.drop();
            if (edit === null) {
                tell(texts.unchanged(was.layer, draft.id));
                return;
            }
            tell(texts.saved(draft.id, draft.others, edit));
            await this.saved(edit);
        } catch (fault) {
            if (!(fault instanceof Changed)) {
                throw fault;
            }
            await this.openConflict(draft);
        } finally {
            draft.isSent = false;
        }
    }

    /**
     * Makes the edit of a draft that isn't cut, and returns its number. A new feature keeps its id until somebody else takes it. If an earlier
     * request of the draft was made and its reply was lost, the map has what was sent: then this is a change of that.
     */
    async put(draft, feature) {
        draft.id ??= await nextId(this.server);
        const { id, was, sent, neighbours } = draft, others = await this.alongOf(draft);
        sent.push(feature);
        draft.others = others.length;
        try {
            return await this.server.edit([feature ? { put: id, feature, was } : { delete: id, was }, ...others]);
        } catch (fault) {
            if (!(fault instanceof Changed)) {
                throw fault;
            }
            const other = others.find(({ put }) => fault.message === `Changed ${put}`);
            if (other) {
                neighbours.forget(other.put);
                throw new Error(texts.neighbourChanged(other.put));
            }
            const now = await this.server.feature(id), isOwn = now && sent.some(one => canonical(one) === canonical(now));
            if (!isOwn && !draft.isNew) {
                throw fault;
            }
            others.forEach(({ put }) => neighbours.forget(put));
            Object.assign(draft, isOwn ? { was: now, isNew: false } : { id: null, sent: [] });
            return this.put(draft, feature);
        }
    }

    /** The shapes of a draft, from the first one on. */
    historyOf(draft) {
        return [...draft.undo.map(JSON.parse), draft.feature.geometry];
    }

    /** The changes of the neighbours that come along with a draft. In a conflict none do. */
    async alongOf(draft) {
        if (!draft.along || !draft.feature || draft.theirs !== undefined) {
            return [];
        }
        await Promise.all([...draft.neighbours.touching].map(id => draft.neighbours.feature(id)));
        return draft.neighbours.moved(this.historyOf(draft)).map(({ id, was, feature }) => ({ put: id, feature, was }));
    }

    /** Has the neighbours come along, or not. */
    async bring(along) {
        const { draft } = this;
        draft.along = along;
        await Promise.all(along ? [...draft.neighbours.touching].map(id => draft.neighbours.feature(id)) : []).catch(() => {});
        this.view.redraw();
    }

    /** Shows both versions of a feature that somebody else has changed. What is saved from here replaces what is shown as theirs. */
    async openConflict(draft) {
        const { id, was } = draft, pieces = draft.pieces && await piecesOf(this.server, id);
        const theirs = pieces ? changedOf(pieces, draft.pieces) : await this.server.feature(id);
        const mine = draft.feature && { ...draft.feature, ...(pieces && theirs ? { geometry: theirs.geometry } : {}) };
        Object.assign(draft, { was: theirs, theirs, sent: [], pieces: pieces && !theirs ? lost(draft.pieces) : pieces });
        const save = chosen => this.send(chosen && this.held(chosen, theirs ?? was));
        open(texts.changedByTwo((was ?? mine).layer, id), ...conflictOf({ was, theirs, mine }, save, () => this.drop()));
        tell(theirs ? texts.othersChanged : texts.othersDeleted, true);
        this.uncover(mine ?? was);
    }

    /** Moves the map so that the panel doesn't cover a feature. */
    uncover({ geometry }) {
        this.view.uncover(bounds(pointsOf(geometry)), covered());
    }

    drop() {
        this.draft = null;
        close();
        this.view.redraw();
    }

    /** Whether something would be lost if the draft were dropped. */
    get hasChanges() {
        const { isDrawn, isNew, isSent, form, was } = this.draft ?? {};
        if (isSent) {
            return true;
        }
        try {
            // A drawing that has ended waits for the schema, and then for its form.
            return isDrawn || isNew && !form ? pointsOf(this.draft.feature.geometry).length > 0 : Boolean(form) && canonical(this.read()) !== canonical(was);
        } catch {
            return true;
        }
    }

    /** Whether somebody else has changed what is edited. While it is sent, a change may be the page's own, and the reply tells of others. */
    async isOvertaken() {
        const { draft } = this, { id, was, pieces, theirs } = draft ?? {};
        const isChanged = Boolean(was) && !pieces && theirs === undefined && canonical(await this.server.feature(id)) !== canonical(was);
        return isChanged && draft === this.draft && !draft.isSent;
    }

    /** The geometry whose points the mouse moves, or undefined: what is sent just now doesn't change. */
    get shape() {
        const { form, pieces, theirs, feature, isSent } = this.draft ?? {};
        return form && !pieces && !isSent && theirs === undefined ? feature.geometry : undefined;
    }

    /** Changes the shape so that it can be undone. Returns what the change does. */
    change(action) {
        const before = JSON.stringify(this.shape);
        this.draft.neighbours.look(this.shape);
        this.bring(this.draft.along);
        const done = action(this.shape, this.view.toScreen);
        (done || before !== JSON.stringify(this.shape)) && this.draft.undo.push(before);
        this.view.redraw();
        return done;
    }

    /** What a drag does that begins at a point of the screen, by a mouse or a finger, or undefined. The corner there is chosen. */
    grab(point, isTouched = false) {
        const reach = isTouched ? REACH_OF_FINGERS : REACH;
        const moves = this.shape && this.change((shape, toScreen) => grabbed(shape, point, toScreen, reach));
        const last = {}, { neighbours } = this.draft ?? {};
        moves && this.chooseAt(point, reach);
        return moves && ((place, isFree) => this.snap(place, isFree ? null : neighbours.cornerAt(place), moves, last));
    }

    /** Chooses the corner at a point of the screen. Returns whether there is one. */
    chooseAt(point, reach = REACH) {
        const corner = cornerNear(this.shape, point, this.view.toScreen, reach);
        this.draft.chosen = corner ?? this.draft.chosen;
        return Boolean(corner);
    }

    /** Chooses the next corner of the shape, or the one before. Returns its place, its number and how many there are. */
    choose(by) {
        const all = cornersOf(this.shape), { chosen } = this.draft, now = all.findIndex(({ list, at }) => list === chosen?.list && at === chosen?.at);
        const next = now < 0 ? by < 0 ? all.length - 1 : 0 : (now + by + all.length) % all.length;
        this.draft.chosen = all[next];
        return { place: all[next].place, number: next + 1, count: all.length };
    }

    remove(point) {
        this.shape && this.change((shape, toScreen) => remove(shape, point, toScreen));
    }

    /** Removes the corner at a point of the screen, or else the one that is chosen. */
    removeAt(point) {
        this.chooseAt(point);
        this.removeChosen();
    }

    /** Removes the corner that is chosen, and says what became of it. */
    removeChosen() {
        const { shape, draft: { chosen } } = this, isThere = shape && chosen && listsOf(shape)[chosen.list]?.points.length > chosen.at;
        const isRemoved = isThere && this.change(() => removeCorner(shape, chosen));
        this.draft.chosen = isRemoved ? null : chosen;
        tell(isRemoved ? texts.removed(described(shape)) : isThere ? texts.tooFew : texts.chooseFirst, !isRemoved);
    }

    /** Takes the last change of the shape back. */
    undo() {
        const now = JSON.stringify(this.shape), { undo = [] } = this.shape ? this.draft : {};
        // A corner that was touched and not moved is no change.
        while (undo.at(-1) === now) {
            undo.pop();
        }
        tell(undo.length ? texts.takenBack : texts.nothingToUndo, !undo.length);
        if (undo.length) {
            this.draft.feature.geometry = JSON.parse(undo.pop());
            this.draft.chosen = null;
        }
        this.view.redraw();
    }

    /** The neighbours that come along, as they will be. If one would lose its shape, saving says so. */
    get others() {
        try {
            return this.draft?.along && this.shape ? this.draft.neighbours.moved(this.historyOf(this.draft)) : [];
        } catch {
            return [];
        }
    }

    /** Draws the shapes of the draft. */
    over(context) {
        const { feature, pieces, theirs, isFixed } = this.draft ?? {};
        const onScreen = ({ geometry }) => chainsOf(geometry).map(chain => ({ ...chain, points: chain.points.map(this.view.toScreen) }));
        theirs && !pieces && drawShape(context, onScreen(theirs), THEIRS, false);
        this.others.forEach(other => drawShape(context, onScreen(other.feature), THEIRS, false));
        feature && !pieces && drawShape(context, onScreen(feature), MINE, theirs === undefined && !isFixed);
        const { list, at } = this.shape && this.draft.chosen || {}, place = list === undefined ? null : listsOf(this.shape)[list]?.points[at];
        place && drawChosen(context, this.view.toScreen(place));
    }
}
