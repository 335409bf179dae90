// Changes of features in groups that are an edit each.
import { MAX_CHANGES } from "./import_rules.js";
import { bytesOf, text } from "./server.js";

// The bytes of an edit's changes: less than those of a request's body.
const MAX_BYTES = 60000;

/** Rows in groups, each of which fits into an edit. `changeOf` gives the change of a row. */
export function groupsOf(rows, changeOf = row => row) {
    const groups = [];
    let bytes = 0;
    for (const row of rows) {
        const own = bytesOf(text(changeOf(row))) + 1, last = groups.at(-1), fits = last && last.length < MAX_CHANGES && bytes + own <= MAX_BYTES;
        bytes = fits ? bytes + own : own;
        fits ? last.push(row) : groups.push([row]);
    }
    return groups;
}
