// The server of the map: tiles, features, and checked edits, which are made only if each feature is what its author saw (docs/HTTP.md).
import { MAX_FILE } from "./attached.js";
import { MAX_BODY } from "./import_rules.js";
import { texts } from "./texts.js";

// Why a machine may not edit: nobody has logged in, nginx doesn't let this address edit, or the server runs without --admin.
const MAY_NOT = [401, 403, 404];
// Seconds without a reply after which none is awaited any more: nginx answers within 75.
const PATIENCE = 80;
// Seconds that a form waits for the schema.
const SCHEMA_PATIENCE = 10;
// Lists of edits that are asked for before all tiles are asked for instead.
const MAX_LISTS = 4;

/** The length of a text as UTF-8. */
export const bytesOf = text => new TextEncoder().encode(text).length;

/** A feature isn't what the author of an edit saw. Nothing was changed. */
export class Changed extends Error {
}

/** A refusal with its cause and the status of the reply. Nothing was changed. */
export class Refused extends Error {
    constructor(text, status) {
        super(text);
        this.status = status;
    }
}

/** The refusal of a reply. */
function refusal(status, word) {
    // nginx refuses with a page of its own.
    const reasons = texts.refusals, why = reasons[Object.keys(reasons).find(key => word.startsWith(key)) ?? status];
    const told = word.startsWith("<") ? "" : word.trim();
    return new Refused(why ? `${why} (${told || status})` : `${status} ${told}`, status);
}

/** A value of the server's JSON. An integer that a number of JavaScript would round is a BigInt. */
function parse(json) {
    return JSON.parse(json, (key, value, context) => {
        if (typeof value !== "number" || Number.isSafeInteger(value)) {
            return value;
        }
        if (!context?.source) {
            throw new Error(texts.rounds);
        }
        return BigInt(context.source);
    });
}

/** A value as JSON. */
export function text(value) {
    return JSON.stringify(value, (key, part) => typeof part === "bigint" ? JSON.rawJSON(String(part)) : part);
}

/** A text of a feature that equal features have in common: members and tags in order. */
export function canonical(feature) {
    const inOrder = object => Object.fromEntries(Object.entries(object).sort(([one], [other]) => one < other ? -1 : 1));
    return text(feature && inOrder({ ...feature, tags: inOrder(feature.tags) }));
}

export class Server {
    /** The server at an address that ends in a slash. */
    constructor(base) {
        this.base = base;
        // The number of the last edit that is known of.
        this.known = 0;
    }

    async ask(path, words) {
        try {
            const reply = await fetch(new URL(path, this.base), { cache: "no-store", signal: AbortSignal.timeout(PATIENCE * 1000), ...words });
            return { status: reply.status, tag: reply.headers.get("ETag"), content: await reply.arrayBuffer() };
        } catch (fault) {
            throw words?.signal?.aborted ? fault : new Error(texts.noAnswer);
        }
    }

    /** The value of a reply, or null if there is none. */
    async value(path) {
        const { status, content } = await this.ask(path), word = new TextDecoder().decode(content);
        if (status !== 200 && status !== 404) {
            throw refusal(status, word);
        }
        return status === 200 ? parse(word) : null;
    }

    /** A tile of the map with this edit: its bytes and its tag. Without bytes it is the one that had the tag `known`. */
    async tile(name, edit, known, signal) {
        const headers = known ? { "If-None-Match": known } : {};
        const { status, tag, content } = await this.ask(`map/${name}.mvt?edit=${edit}`, { signal, headers, cache: "default" });
        if (status !== 200 && status !== 204 && status !== 304) {
            throw refusal(status, new TextDecoder().decode(content));
        }
        return { tag, bytes: status === 304 ? null : new Uint8Array(content) };
    }

    /** Keeps a photo or a file. Returns its path, which is a tag's value then. */
    async keep(file) {
        if (file.size > MAX_FILE) {
            throw new Error(texts.tooLargeFile(file.name, `${MAX_FILE / 2 ** 20} MiB`));
        }
        const headers = { "Content-Type": file.type || "application/octet-stream" };
        const { status, content } = await this.ask("files/", { method: "POST", body: file, headers }), told = new TextDecoder().decode(content);
        if (status !== 201) {
            throw texts.fileRefusals[status] ? new Refused(`${texts.fileRefusals[status]} (${status})`, status) : refusal(status, told);
        }
        return JSON.parse(told).path;
    }

    /** The schema of the map and its tag, or null if it still has the tag `known`. Without a gateway, or a schema of it, the schema is null. */
    async schema(known) {
        const headers = known ? { "If-None-Match": known } : {}, signal = AbortSignal.timeout(SCHEMA_PATIENCE * 1000);
        const { status, tag, content } = await this.ask("pages/schema.json", { headers, signal });
        return status === 304 ? null : { tag, schema: status === 200 ? parse(new TextDecoder().decode(content)) : null };
    }

    /** The tag of a tile that had the tag `known`; null without `--etags`. The tile itself isn't sent. */
    async tagOf(name, known) {
        const headers = known ? { "If-None-Match": known } : {};
        const { status, tag } = await this.ask(`map/${name}.mvt`, { method: "HEAD", headers });
        if (status !== 200 && status !== 204 && status !== 304) {
            throw refusal(status, "");
        }
        return tag;
    }

    /** The changes of the edits after one, up to another; null if the server doesn't list them, or they are many. */
    async changesAfter(edit, last) {
        const found = [];
        for (let at = edit + 1, asked = 0; at <= last; asked++) {
            const reply = asked < MAX_LISTS ? await this.value(`admin/edits/from/${at}`).catch(() => null) : null;
            if (!reply?.edits.length) {
                return null;
            }
            found.push(...reply.edits.flatMap(one => one.changes));
            at = reply.edits.at(-1).edit + 1;
        }
        return found;
    }

    /**
     * What the server tells of itself. If this machine may not edit, only why: `refused` is the status of the refusal. Without `logsIn` the
     * browser sends no password and asks the person for none.
     */
    async status(logsIn) {
        const { status, content } = await this.ask("admin/status", { credentials: logsIn ? "same-origin" : "omit" });
        if (MAY_NOT.includes(status)) {
            return { refused: status };
        }
        if (status !== 200) {
            throw new Error(texts.noAnswerOf(status));
        }
        const told = parse(new TextDecoder().decode(content));
        this.known = told.edits;
        return told;
    }

    /** The number of the last edit. */
    async lastEdit() {
        this.known = (await this.value("admin/status")).edits;
        return this.known;
    }

    /** The layers of the map with this edit. */
    async layers(edit) {
        return (await this.value(`map/metadata?edit=${edit}`)).vector_layers;
    }

    feature(id) {
        return this.value(`features/${id}`);
    }

    /** The first feature with this id or a greater one, or null. */
    from(id) {
        return this.value(`admin/features/from/${id}`);
    }

    /** Makes changes as one edit, and returns its number. What gets no reply is sent again only if it wasn't made. */
    async edit(changes) {
        const body = text({ changes });
        if (bytesOf(body) > MAX_BODY) {
            throw refusal(413, "");
        }
        const send = () => this.ask("admin/edits", { method: "POST", body, headers: { "Content-Type": "application/json" } });
        const sendAgain = async () => {
            const edit = await this.madeAs(changes);
            return edit === null ? send() : { edit };
        };
        const { edit, status, content } = await send().catch(sendAgain).catch(() => {
            throw new Error(texts.madeOrNot);
        });
        if (edit !== undefined) {
            return edit;
        }
        const word = new TextDecoder().decode(content).trim();
        if (status === 409 && word.startsWith("Changed")) {
            // It may be this very edit that changed the feature, by a request whose reply was lost.
            if (await this.isMade(changes)) {
                return this.lastEdit();
            }
            throw new Changed(word);
        }
        if (status !== 200) {
            throw refusal(status, word);
        }
        this.known = parse(word).edit;
        return this.known;
    }

    /**
     * The number of an edit whose reply didn't come, or null if it wasn't made. A creation that somebody deleted since isn't made again: the list of
     * edits tells it. If the server doesn't list them, nobody can tell, and this fails.
     */
    async madeAs(changes) {
        const before = this.known, last = await this.lastEdit();
        const key = list => list.map(({ put, feature = null, ...rest }) => `${put ?? rest.delete} ${canonical(feature)}`).sort().join();
        for (let at = before + 1; at <= last;) {
            const reply = await this.value(`admin/edits/from/${at}`).catch(() => null);
            if (!reply?.edits.length) {
                if (await this.isMade(changes)) {
                    return last;
                }
                if (changes.some(change => change.was === null)) {
                    throw new Error(texts.madeOrNot);
                }
                return null;
            }
            const made = reply.edits.find(one => key(one.changes) === key(changes));
            if (made) {
                return made.edit;
            }
            at = reply.edits.at(-1).edit + 1;
        }
        return null;
    }

    /** Whether each feature is what these changes make of it. */
    async isMade(changes) {
        const now = await Promise.all(changes.map(change => this.feature(change.put ?? change.delete)));
        return changes.every(({ feature = null }, at) => canonical(now[at]) === canonical(feature));
    }
}
