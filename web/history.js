// The history of a feature: who has changed it, when and how, and what it was before, which can be put back. The gateway tells it by the log of edits
// (`vtmap wfs --history`), to those who edit alone.
import { partsOf, shownName, shownValue } from "./conflict.js";
import { actions, button, element, open } from "./panel.js";
import { canonical, text } from "./server.js";
import { language, texts } from "./texts.js";

const hint = shown => element("p", { className: "hint" }, shown);

/** A time as people of the browser's country read it. */
const COUNTRY = globalThis.navigator?.languages?.find(name => name.toLowerCase().startsWith(language)) ?? language;
export const timeOf = shown => new Date(shown).toLocaleString(COUNTRY, { dateStyle: "medium", timeStyle: "short" });

/** What a version of a feature has that another one hasn't: the name, the value before and the one after of each part. */
export function differences(before, after) {
    const [old, now] = [before, after].map(partsOf), names = [...new Set([...old.keys(), ...now.keys()])];
    return names.filter(part => text(old.get(part)) !== text(now.get(part)))
        .map(part => [shownName(part), shownValue(part, old.get(part)), shownValue(part, now.get(part))]);
}

/** A table of what differs; of what is new or gone only its tags. */
function tableOf(before, after) {
    const rows = before && after ? differences(before, after).map(([name, old, now]) => [name, `${old} → ${now}`])
        : Object.entries((after ?? before).tags).map(([name, value]) => [name, String(value)]);
    return element("table", {}, ...rows.map(([name, shown]) => element("tr", {}, element("th", { scope: "row" }, name), element("td", {}, shown))));
}

/** What a change did to its feature. */
const kindOf = ({ was, feature }) => was === undefined ? texts.wasPut : !feature ? texts.wasDeleted : !was ? texts.wasMade : texts.wasChanged;

export class History {
    /** `close()` closes the panel. */
    constructor(server, editor, close) {
        Object.assign(this, { server, editor, close });
    }

    /** The history of a feature, or null if none is kept. */
    async of(id) {
        const told = await this.server.value(`wfs/history/${id}`).catch(fault => [405, 502, 504].includes(fault.status) ? null : Promise.reject(fault));
        return told;
    }

    /** Shows the history of a feature in the panel. A piece of a cut feature can't be put back alone. */
    async open(layer, id, isCut) {
        const told = await this.of(id);
        if (!told) {
            throw new Error(texts.noHistory);
        }
        this.show(layer, id, isCut, told);
    }

    /** Shows the history of a feature that the map no longer has, by the text of its id. Returns whether there is one. */
    async openLost(text) {
        const told = await this.of(text).catch(() => null), last = told?.changes.map(({ was, feature }) => feature ?? was).find(Boolean);
        last && this.show(last.layer, told.id, "whole" in last.tags, told);
        return Boolean(last);
    }

    show(layer, id, isCut, { changes, more }) {
        const rows = changes.map(change => change.missed ? hint(texts.missedEdits(...change.missed, timeOf(change.time))) : this.row(id, isCut, change));
        const notes = [...(changes.length ? [] : [hint(texts.noChanges)]), ...(more ? [hint(texts.moreChanges)] : []), ...(isCut ? [hint(texts.cutHistory)] : [])];
        open(texts.historyOf(layer, id), ...rows, ...notes, actions(button(texts.close, this.close)));
    }

    /** A change: when, by whom, what, and a button that puts back what was before. */
    row(id, isCut, change) {
        const { time, since, person, edit, was, feature } = change;
        const when = since ? texts.between(timeOf(since), timeOf(time)) : timeOf(time), who = person || texts.nobodyKnown;
        const head = element("p", {}, element("strong", {}, kindOf(change)), ` ${texts.byWhom(when, who, edit)}`);
        const canBeBack = was && !isCut, name = texts.putBefore(when);
        const back = canBeBack ? [Object.assign(button(texts.putBackBefore, () => this.ask(id, was)), { ariaLabel: `${texts.putBackBefore}: ${name}` })] : [];
        return element("section", { className: "change" }, head, ...(was || feature ? [tableOf(was, feature)] : []), ...back);
    }

    /** Shows what would be put back, and asks. */
    async ask(id, feature) {
        const now = await this.server.feature(id);
        if (canonical(now) === canonical(feature)) {
            throw new Error(texts.isSo);
        }
        this.editor.putBack(id, now, feature, tableOf(now, feature));
    }
}
