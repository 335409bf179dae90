// Photos and files of features: a tag has the path of one, files/HASH.jpg, which the gateway keeps (`vtmap wfs --files`).
/** The most bytes of one. */
export const MAX_FILE = 20 * 2 ** 20;
const PATH = /^(?:https?:\/\/[^\s"<>]+\/)?(files\/[0-9a-f]{64}\.(jpg|png|gif|webp|pdf))$/;

/** The path of the file that a tag's value names, and whether it is a picture; or null. */
export function fileOf(value) {
    const [, path, end] = typeof value === "string" ? PATH.exec(value) ?? [] : [];
    return path ? { path, isPicture: end !== "pdf" } : null;
}

/** A free name for the tag of another file. */
export function nameFor(path, taken) {
    const first = fileOf(path)?.isPicture ? "photo" : "document";
    for (let at = 1; ; at++) {
        const name = at > 1 ? `${first} ${at}` : first;
        if (!taken.includes(name)) {
            return name;
        }
    }
}
