// Whether a table has lost its end: a download that broke off, or a program that was still writing. By the rules and words of vtmap/files/cut_text.py.
import { repr } from "./schema.js";
import { texts } from "./texts.js";

const SEPARATORS = [",", ";", "\t", "|"];
// How many bytes of the last line are shown.
const SHOWN = 40;

/** A file seems to be cut. */
export class Cut extends Error {
}

/**
 * The number of fields of each record of a text that has some. `isOpen`: its last field has no end. `isWrong`: something comes after the end of a quoted
 * field, or a line ends within a row by a carriage return alone: nobody knows then what its fields are.
 */
function records(text, separator) {
    const counts = [];
    let state = "start", count = 0, isEmpty = true;
    const end = () => {
        isEmpty || counts.push(count + 1);
        [state, count, isEmpty] = ["start", 0, true];
    };
    for (let at = 0; at < text.length; at++) {
        const letter = text[at];
        if (state === "quoted") {
            state = letter === '"' ? "closed" : state;
        } else if (letter === "\n" || letter === "\r") {
            while (letter === "\r" && "\r\n".includes(text[at + 1] ?? "-") && text[at] !== "\n") {
                at++;
            }
            if (text[at] === "\r" && at + 1 < text.length) {
                return { counts, isWrong: true };
            }
            end();
        } else if (letter === separator) {
            [state, count, isEmpty] = ["start", count + 1, false];
        } else if (letter === '"' && (state === "start" || state === "closed")) {
            [state, isEmpty] = ["quoted", false];
        } else if (state === "closed") {
            return { counts, isWrong: true };
        } else {
            [state, isEmpty] = ["plain", false];
        }
    }
    const isOpen = state === "quoted";
    end();
    return { counts, isOpen };
}

/** How many fields a line has, as far as it is a whole record. */
function fieldsOf(line, separator) {
    const { counts, isOpen, isWrong } = records(line, separator);
    return isOpen || isWrong ? 0 : counts[0] ?? 0;
}

/** Why a table seems to be cut, or null. `columns`: how many its head has. */
export function cutOf(text, columns) {
    const head = text.slice(0, text.indexOf("\n") + 1 || undefined), lines = text.replace(/[\r\n]+$/, ""), last = lines.slice(lines.search(/[^\r\n]*$/));
    const told = repr(new TextDecoder().decode(new TextEncoder().encode(last).slice(0, SHOWN)));
    if (!/[\r\n]$/.test(head)) {
        return null;
    }
    if (!/[\r\n]$/.test(text)) {
        return texts.noLineEnd(told);
    }
    const separator = columns < 2 ? undefined : SEPARATORS.find(one => fieldsOf(head, one) === columns);
    if (separator === undefined || fieldsOf(last, separator) >= columns) {
        return null;
    }
    // The last line may be the end of a field of several lines.
    const { counts, isOpen, isWrong } = records(text, separator), count = counts.at(-1) ?? columns;
    return isWrong ? null : isOpen ? texts.noFieldEnd(told) : count < columns ? texts.tooFewFields(count, columns, told) : null;
}
