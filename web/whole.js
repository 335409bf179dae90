// Features that the import cut into pieces: each piece has the tag `whole` with the id of the first piece.
import { groupsOf } from "./edits.js";
import { Changed, canonical } from "./server.js";
import { isOutline } from "./style.js";

// With `--id` of the import, pieces after the first have its id plus a multiple of this.
export const PIECE = 2 ** 40;

/**
 * The pieces of a whole and of its outline: of each its id, the feature that it `was` (null: none), the `model` whose shape it keeps, and what
 * was `sent` as it since then: one of these is on the map if the reply was lost.
 */
export async function piecesOf(server, whole) {
    const found = new Map();
    for (let row = await server.from(whole); row?.feature.tags.whole === whole; row = await server.from(row.id + 1)) {
        found.set(row.id, row.feature);
    }
    // If no other feature has an id between them, these were found already.
    const next = async id => found.get(id) ?? await server.feature(id);
    for (let id = whole + PIECE, was = await next(id); was?.tags.whole === whole; was = await next(id += PIECE)) {
        found.set(id, was);
    }
    return [...found].map(([id, was]) => ({ id, was, model: was, sent: [] }));
}

/** The feature that people see of pieces, with the shape of the first one; null if there is none. */
export function wholeOf([piece]) {
    const { whole, ...tags } = piece?.was.tags ?? {};
    return piece ? { ...piece.was, tags } : null;
}

/** The feature that people see of pieces that somebody else has changed: of the first piece that isn't what it was `before`. */
export function changedOf(pieces, before) {
    const known = new Map(before.map(({ id, was }) => [id, canonical(was)]));
    return wholeOf([pieces.find(({ id, was }) => known.get(id) !== canonical(was)) ?? pieces[0]].filter(Boolean));
}

/** The pieces of a whole of which the map has none any more, to be put back. */
export function lost(pieces) {
    return pieces.map(piece => ({ ...piece, was: null, sent: [] }));
}

/** A piece with the layer, the zooms and the tags of a feature; null if the feature is to be deleted. */
function pieceOf({ layer, geometry, tags: { whole } }, feature) {
    return feature && { ...feature, layer: isOutline(layer) ? feature.layer + "-outline" : feature.layer, geometry, tags: { ...feature.tags, whole } };
}

/** Looks at pieces. Each has to be what it was, or what was sent as it: this is what it was from now on. */
async function lookAt(server, pieces) {
    const now = new Map((await piecesOf(server, pieces[0].model.tags.whole)).map(({ id, was }) => [id, was]));
    const others = [...now.keys()].filter(id => !pieces.some(piece => piece.id === id));
    for (const piece of pieces) {
        const found = now.get(piece.id) ?? null;
        if ([piece.was, ...piece.sent].some(known => canonical(known) === canonical(found))) {
            piece.was = found;
        } else {
            others.push(piece.id);
        }
    }
    if (others.length) {
        throw new Changed(`Changed ${others[0]}`);
    }
}

const changeOf = ({ piece: { id, was }, feature }) => feature ? { put: id, feature, was } : { delete: id, was };

/**
 * Gives all pieces the layer, the zooms and the tags of a feature, or deletes them if it is null. Returns the number of the last edit, or null if
 * nothing was to be changed. Many pieces take several edits, so it looks first whether somebody else has changed one. Whatever a call has done
 * before it failed, another one with the same pieces goes on from there. The first piece is deleted last: by it the others are found.
 */
export async function changeAll(server, pieces, feature) {
    await lookAt(server, pieces);
    const rows = (feature ? pieces : [...pieces].reverse()).map(piece => ({ piece, feature: pieceOf(piece.model, feature) }));
    let edit = null;
    for (const group of groupsOf(rows.filter(({ piece, feature }) => canonical(piece.was) !== canonical(feature)), changeOf)) {
        group.forEach(({ piece, feature }) => piece.sent.push(feature));
        edit = await server.edit(group.map(changeOf));
        group.forEach(({ piece, feature }) => piece.was = feature);
    }
    return edit ?? (pieces.some(({ sent }) => sent.length) ? server.lastEdit() : null);
}
