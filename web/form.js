// The form of a feature: its layer, its zooms and its tags, by the schema of the map if it names the layer.
import { chooses } from "./attach.js";
import { nameFor } from "./attached.js";
import { button, element, table } from "./panel.js";
import { isDate } from "./schema.js";
import { texts } from "./texts.js";

const KINDS = { string: texts.text, number: texts.number, bigint: texts.number, boolean: texts.yesNo };

const field = (ariaLabel, value, more) => element("input", { ariaLabel, value, ...more });
const choice = (ariaLabel, names, chosen, onchange) =>
    element("select", { ariaLabel, onchange }, ...names.map(name => element("option", { selected: name === chosen }, name)));

/** A field of as many lines as its text needs. */
function lines(ariaLabel, value) {
    const made = element("textarea", { ariaLabel, value, rows: 1 });
    made.oninput = () => {
        made.style.height = "auto";
        made.style.height = `${made.offsetHeight - made.clientHeight + made.scrollHeight}px`;
    };
    requestAnimationFrame(made.oninput);
    return made;
}

/** The integer that a text says. */
function integer(shown, what) {
    if (!/^-?\d+$/.test(shown.trim())) {
        throw new Error(texts.noInteger(what, shown));
    }
    return Number.isSafeInteger(Number(shown)) ? Number(shown) + 0 : BigInt(shown);
}

/** The row of a tag. Its `read()` gives name and value, or nothing for a new row without a value. */
function tagRow(name, value, isNew) {
    const { text, number, yesNo, yes, no } = texts, key = lines(texts.tag, name), cell = element("td");
    const kind = choice(texts.kindOfValue, [text, number, yesNo], KINDS[typeof value], () => fill(cell.firstChild.value));
    const fill = shown => cell.replaceChildren(kind.value === yesNo ? choice(texts.value, [yes, no], shown) : lines(texts.value, shown));
    fill(value === true ? yes : value === false ? no : String(value));
    const removes = Object.assign(button("×", () => row.remove()), { ariaLabel: texts.removeTag(name) });
    const row = element("tr", {}, element("td", {}, key), cell, element("td", {}, kind), element("td", {}, removes));
    row.read = () => {
        const shown = cell.firstChild.value, read = { [text]: () => shown, [number]: () => integer(shown, key.value), [yesNo]: () => shown === yes };
        return isNew && !shown ? null : [key.value, read[kind.value]()];
    };
    row.isEmpty = () => cell.firstChild.value === "";
    // What it says, a text if it isn't of its kind.
    row.pair = () => {
        const shown = cell.firstChild.value, isWrong = kind.value === number && !/^-?\d+$/.test(shown.trim());
        return row.isEmpty() ? null : isWrong ? [key.value, shown] : row.read();
    };
    return row;
}

/** A list of values to choose from, the first of them nothing. One that the feature has is there, too. Its `read()` gives the chosen one. */
function list(ariaLabel, choices, value) {
    const values = [undefined, ...choices, ...(value === undefined || choices.includes(value) ? [] : [value])];
    const names = values.map(one => one === undefined ? "–" : one === true ? texts.yes : one === false ? texts.no : String(one));
    const made = element("select", { ariaLabel }, ...names.map((name, at) => element("option", { selected: values[at] === value }, name)));
    made.read = () => values[made.selectedIndex];
    return made;
}

/** What a person enters a value of a field with. Its `read()` gives the value, or undefined for none: what isn't changed stays as it was. */
function entryOf(ariaLabel, { type, choices }, value) {
    if (choices || type === "boolean") {
        return list(ariaLabel, choices ?? [true, false], value);
    }
    const shown = value === undefined ? "" : String(value), isDay = type === "date" && (shown === "" || isDate(shown));
    const modes = { integer: "numeric", number: "decimal" };
    const made = type === "text" ? lines(ariaLabel, shown) : field(ariaLabel, shown, isDay ? { type: "date" } : { inputMode: modes[type] ?? "text" });
    const first = made.value, isNumber = type === "number" && value !== undefined && typeof value !== "string";
    made.read = () => {
        // A day that was only begun has no value.
        const text = made.validity.badInput ? texts.noDay : type === "text" ? made.value : made.value.trim();
        // A number that was one stays one, as in QGIS.
        return text === first ? value : text === "" ? undefined : isNumber && /^-?\d+$/.test(text) ? integer(text, ariaLabel) : text;
    };
    return made;
}

/** The row of a field of the schema, with the value that the feature has (undefined: none). */
function fieldRow(tag, rules, value) {
    const name = rules.label ?? tag, entry = entryOf(name, rules, value), title = rules.required ? `${name} *` : name;
    rules.required && (entry.ariaRequired = "true");
    return Object.assign(table([[title, entry]]).rows[0], { tag, entry });
}

/**
 * The layer of a feature, to be named or chosen from a list of names and titles. `changed()` is called once it is another one. Without a list of the
 * schema's any name can be entered; with it by its last entry.
 */
function layerField(layer, layers, isListed, changed) {
    const name = field(texts.layer, layer, { onchange: changed });
    name.setAttribute("list", "layers");
    if (!isListed) {
        return { name, shown: name };
    }
    const all = layers.some(({ id }) => id === layer) || !layer ? layers : [{ id: layer }, ...layers];
    const options = all.map(({ id, title }) => element("option", { value: id, selected: id === layer }, title && title !== id ? `${title} (${id})` : id));
    const chosen = element("select", { ariaLabel: texts.layer }, ...options, element("option", { value: "" }, texts.otherLayer));
    chosen.onchange = () => {
        name.value = chosen.value;
        if (chosen.value === "") {
            chosen.replaceWith(name);
            name.focus();
        }
        changed();
    };
    return { name, shown: chosen };
}

/**
 * The form of a feature. Its `read()` gives the layer, the zooms and the tags that it says, or throws why it can't. `keep(file)` keeps a photo or a file,
 * and returns the value of the tag that names it. `layers` are those of the map and of the schema, `schema` the rules of layers by their names: of such a
 * layer the form has the fields, and beside them the tags that the feature has. A new feature gets the zooms of its layer.
 */
export function formOf({ layer, minzoom, maxzoom, tags }, layers, isNew, keep, schema = new Map()) {
    const names = element("datalist", { id: "layers" }, ...layers.map(({ id, title }) => element("option", { value: id, label: title ?? id })));
    const [first, last] = [field(texts.firstZoom, minzoom), field(texts.lastZoom, maxzoom)];
    const rows = element("tbody", { className: "tags" }), held = element("tbody"), heldTable = element("table", {}, held);
    const hint = element("p", { className: "hint" }, texts.requiredMark);
    const { name, shown } = layerField(layer, layers, schema.size > 0, () => changeLayer());
    const tagOf = row => row.cells[0].firstChild.value;
    const entered = () => [...held.children].map(({ tag, entry }) => [tag, entry.read()]).filter(([, value]) => value !== undefined);

    /** Shows tags: those for which the layer has a field by their fields, in its order, the others each by its name. */
    const show = values => {
        const rules = schema.get(name.value), fields = [...rules?.fields ?? []];
        const others = [...values].filter(([tag, value]) => !rules?.fields.has(tag) && !(rules && isNew && value === ""));
        held.replaceChildren(...fields.map(([tag, one]) => fieldRow(tag, one, isNew && values.get(tag) === "" ? undefined : values.get(tag))));
        heldTable.hidden = !fields.length;
        rows.append(...others.map(pair => tagRow(...pair, isNew)));
        hint.hidden = !fields.some(([, { required }]) => required);
    };
    /** Takes what was entered over to the fields of another layer. What isn't of its kind yet stays as it is. */
    const changeLayer = () => {
        const rules = schema.get(name.value), values = new Map(entered());
        for (const row of [...rows.children].filter(row => rules?.fields.has(tagOf(row)) || rules && isNew && row.isEmpty())) {
            const [tag, value] = row.pair() ?? [];
            tag !== undefined && values.set(tag, value);
            row.remove();
        }
        show(values);
        const zooms = isNew && (rules?.zooms ?? layers.find(({ id }) => id === name.value));
        zooms && zooms.minzoom !== undefined && Object.assign(first, { value: zooms.minzoom }) && Object.assign(last, { value: zooms.maxzoom });
    };

    show(new Map(Object.entries(tags)));
    const fixed = table([[texts.layer, shown], [texts.firstZoom, first], [texts.lastZoom, last]]);
    const attach = async file => {
        const path = await keep(file), given = entered().map(([tag]) => tag);
        const free = nameFor(path, [...[...rows.children].map(tagOf), ...given]), own = [...held.children].find(({ tag }) => tag === free);
        own?.entry.matches("textarea") ? Object.assign(own.entry, { value: path }).oninput() : rows.append(tagRow(free, path, true));
    };
    const adding = [button(texts.addTag, () => rows.append(tagRow("", "", true))), ...chooses(texts.addFile, attach)];
    const made = element("form", {}, names, fixed, ...(schema.size ? [heldTable, hint] : []), element("table", {}, rows), ...adding);
    made.read = () => {
        const pairs = [...entered(), ...[...rows.children].map(row => row.read()).filter(Boolean)];
        const twice = pairs.find(([key], at) => pairs.findIndex(pair => pair[0] === key) < at);
        if (twice) {
            throw new Error(texts.twice(twice[0]));
        }
        const zooms = { minzoom: integer(first.value, texts.firstZoom), maxzoom: integer(last.value, texts.lastZoom) };
        return { layer: name.value, ...zooms, tags: Object.fromEntries(pairs) };
    };
    return made;
}
