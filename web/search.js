// What is found of a text: the feature of that id, and what in view has the text in a tag.
import { bounds } from "./world.js";
import { pointsOf } from "./shape.js";
import { plain } from "./style.js";

/** Whether a tag has a text; one such as `use=garden` also says which tag. */
const hasText = (text, name, value) => (text.includes("=") ? `${name}=${value}` : String(value)).toLowerCase().includes(text.toLowerCase());

/** The name of a feature that is found: its tag that has the text, or else its name. */
export function titleOf({ layer, id, tags }, text) {
    const { whole, ...own } = tags, [, value] = text ? Object.entries(own).find(pair => hasText(text, ...pair)) ?? [] : [];
    return `${plain(layer)} ${id}` + (value ?? own.name ? `: ${value ?? own.name}` : "");
}

/** The feature of an id that a text says, from the server, or null. */
async function byId(server, text) {
    const feature = server && /^\d{1,20}$/.test(text) ? await server.feature(text).catch(() => null) : null;
    const own = Number.isSafeInteger(Number(text)) ? Number(text) : feature && BigInt(text);
    return feature && { ...feature, id: feature.tags.whole ?? own, own, box: bounds(pointsOf(feature.geometry)) };
}

/**
 * The features that a text says, as tiles have them, each with its `box`; the one of an id also with its zooms. No text says all in view. Who may
 * not edit has no `server` to ask: the browser would want a password.
 */
export async function search(server, view, text) {
    const exact = await byId(server, text);
    const inView = view.features().filter(({ id, tags }) => {
        const { whole, ...own } = tags;
        return id !== exact?.id && (!text || String(id) === text || Object.entries(own).some(pair => hasText(text, ...pair)));
    });
    return exact ? [exact, ...inView] : inView;
}
