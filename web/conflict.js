// Two versions of a feature side by side: what is on the map now, and what was to be saved.
import { button, element } from "./panel.js";
import { text } from "./server.js";
import { described } from "./shape.js";
import { texts } from "./texts.js";

// The members of a feature beside its tags, by the names that people see.
const FIXED = { layer: texts.layer, minzoom: texts.firstZoom, maxzoom: texts.lastZoom, geometry: texts.shape };

/** The parts of a feature: its members, and each tag by its name behind a colon. */
export function partsOf(feature) {
    const fixed = Object.keys(FIXED).map(key => [key, feature?.[key]]);
    const tags = Object.entries(feature?.tags ?? {}).map(([name, value]) => [`:${name}`, value]);
    return new Map([...(feature ? fixed : []), ...tags]);
}

/** The name that people see of a part. */
export const shownName = part => part.startsWith(":") ? texts.tagNamed(part.slice(1)) : FIXED[part];

/** A value of a part as people see it. */
export const shownValue = (part, value) => value === undefined ? "–" : part === "geometry" ? described(value) : String(value);

/** The feature that has these parts. */
function withParts(parts) {
    const fixed = Object.keys(FIXED).map(key => [key, parts.get(key)]);
    const tags = [...parts].filter(([part, value]) => part.startsWith(":") && value !== undefined).map(([part, value]) => [part.slice(1), value]);
    return { ...Object.fromEntries(fixed), tags: Object.fromEntries(tags) };
}

/**
 * The parts of a panel for a conflict. `was` is what the author saw, `theirs` what is on the map now, `mine` what was to be saved; null is
 * no feature. `save(feature)` saves what the author chooses, which replaces `theirs`; `leave()` keeps theirs.
 */
export function conflictOf({ was, theirs, mine }, save, leave) {
    const told = text => element("p", {}, text);
    if (!theirs) {
        const back = mine ? [button(texts.putBack, () => save(mine))] : [];
        return [told(texts.othersDeleted), ...back, button(texts.leaveDeleted, leave)];
    }
    if (!mine) {
        return [told(texts.othersChanged), button(texts.deleteAllTheSame, () => save(null)), button(texts.keepIt, leave)];
    }
    const versions = [was, theirs, mine].map(partsOf), chosen = new Map();
    const names = [...new Set(versions.slice(1).flatMap(parts => [...parts.keys()]))];
    const heads = [texts.before, texts.onTheMap, texts.yours];
    const rows = names.map(part => {
        const name = shownName(part), values = versions.map(parts => parts.get(part)), [before, now, own] = values.map(value => text(value));
        const isMine = now === before, isOpen = now !== own && !isMine && own !== before;
        isOpen || chosen.set(part, values[isMine ? 2 : 1]);
        const shown = values.map(value => shownValue(part, value));
        const choice = at => element("input", {
            type: "radio", name, ariaLabel: `${name}, ${heads[at]}: ${shown[at]}`, checked: !isOpen && isMine === (at === 2),
            onchange: () => chosen.set(part, values[at]),
        });
        // A choice is as large as its cell.
        const cells = shown.map((value, at) => element("td", {}, now === own || at === 0 ? value : element("label", {}, choice(at), value)));
        return element("tr", { className: now === own ? "" : "differs" }, element("th", { scope: "row" }, name), ...cells);
    });
    const saveChosen = () => {
        const open = names.find(part => !chosen.has(part));
        if (open) {
            throw new Error(texts.choose(shownName(open)));
        }
        return save(withParts(chosen));
    };
    const head = element("tr", {}, ...["", ...heads].map(name => element("th", { scope: "col" }, name)));
    return [told(texts.chooseParts), element("table", {}, head, ...rows), button(texts.saveChosen, saveChosen), button(texts.keepTheirs, leave)];
}
