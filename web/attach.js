// How photos and files of features are shown and chosen.
import { fileOf } from "./attached.js";
import { button, element } from "./panel.js";
import { texts } from "./texts.js";

// What may be chosen.
const KINDS = "image/jpeg,image/png,image/gif,image/webp,application/pdf";

/** How a tag's value is shown: a file as a picture, or as a link to it. */
export function shown(value, name, base) {
    const file = fileOf(value);
    if (!file) {
        return String(value);
    }
    const href = new URL(file.path, base).href, link = element("a", { href, target: "_blank", rel: "noopener" });
    const picture = element("img", { src: href, alt: name, onerror: () => picture.replaceWith(texts.noPicture) });
    link.append(file.isPicture ? picture : texts.openFile(name));
    return link;
}

/** A button with which a person chooses a file, and the field that it opens. `take(file)` is called with it, as what a button does. */
export function chooses(name, take) {
    const taking = button(name, async () => {
        const [file] = field.files;
        field.value = "";
        await take(file);
    });
    const field = element("input", { type: "file", accept: KINDS, hidden: true, onchange: () => field.files.length && taking.onclick() });
    return [element("button", { type: "button", onclick: () => field.click() }, name), field];
}
