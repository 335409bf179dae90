// The page: what is selected, and how the parts of this folder work together.
import { shown } from "./attach.js";
import { Drop } from "./drop.js";
import { Editor } from "./editor.js";
import { Here } from "./here.js";
import { History, timeOf } from "./history.js";
import { Keys } from "./keys.js";
import { actions, button, byId, close, covered, element, open, table, tell } from "./panel.js";
import { publishedBox } from "./place.js";
import { Print } from "./print.js";
import { search, titleOf } from "./search.js";
import { Server } from "./server.js";
import { pointsOf } from "./shape.js";
import { Style, isOutline, plain } from "./style.js";
import { language, texts } from "./texts.js";
import { Told } from "./told.js";
import { View } from "./view.js";
import { WORLD, bounds, distance, isInside } from "./world.js";

// Seconds between two looks at the map, of those who edit, of those who are told of edits, and of those who don't edit: nginx keeps tiles for these.
const BETWEEN_LOOKS = { editor: 4, told: 60, viewer: 30 };
// Seconds after which it is tried again to be told of edits.
const BETWEEN_TRIES = 60;
// How many of the features that are found are listed.
const MAX_FOUND = 50;
// The time whose map is shown, as the address of the page says it, and what is known of that map; of the map of now null.
const at = new URL(location.href).searchParams.get("at");
const BASE = new URL("../", location.href);
let server = new Server(BASE), past = null;
let style, view, editor, drop, keys, here, print, history, layers;
// Why this machine may not edit, as `Server.status` says it, or undefined; whether the first look is over; whether the last one got no answer.
let refused, isBegun = false, isAway = false;
// The next look, whether one is under way, and the edit that was told of meanwhile.
let next, isLooking = false, missed = 0;
// Who tells of edits, and when it was tried last to be told.
let told, tried = -Infinity;
// The feature that is selected, as a tile has it, and those that clicks at the same place have selected before.
let selected = null, clicked = { at: [0, 0], ids: [] };

/**
 * How well a point of the screen meets a feature: points before lines before areas, small areas before large ones; Infinity if it doesn't. A finger
 * meets what is `wide` times as far away as a mouse does.
 */
function rank(point, { kind, chains, tags }, wide) {
    if (kind === "polygons") {
        const [west, north, east, south] = bounds(chains.flat());
        return !isInside(point, chains) ? Infinity : "whole" in tags ? 1e15 : 20 + (east - west) * (south - north);
    }
    const far = Math.min(...chains.flatMap(chain => chain.map((place, at) => distance(point, chain[Math.max(at - 1, 0)], place))));
    return kind === "points" ? far < 11 * wide ? far / 11 : Infinity : far < 6 * wide ? 10 + far : Infinity;
}

/** Selects a feature at a point of the screen, the next one if one there is selected already. */
function select(point, isFree = false, isTouched = false) {
    if (editor.draft || drop.file) {
        editor.draft?.isDrawn && editor.add(view.toWorld(point), isFree);
        view.redraw();
        return;
    }
    const wide = isTouched ? 2 : 1;
    const found = view.near(point, 11 * wide).map(feature => ({ ...feature, id: feature.tags.whole ?? feature.id, own: feature.id, rank: rank(point, feature, wide) }));
    const hit = found.filter(({ rank }) => rank < Infinity).sort((one, other) => one.rank - other.rank);
    const before = Math.hypot(point[0] - clicked.at[0], point[1] - clicked.at[1]) < 4 ? clicked.ids : [];
    selected = hit.find(({ id }) => !before.includes(id)) ?? hit[0] ?? null;
    clicked = { at: point, ids: before.includes(selected?.id) ? [selected.id] : [...before, selected?.id] };
    selected ? show(selected) : close();
    selected || keys.areUsed && tell(texts.nothingHere);
    view.redraw();
}

/** Shows a feature as a tile has it. */
function show(feature) {
    const { whole, ...tags } = feature.tags, parts = [table(Object.entries(tags).map(([name, value]) => [name, shown(value, name, BASE)]))];
    whole === undefined || parts.push(element("p", { className: "hint" }, texts.piece));
    const before = () => history.open(plain(feature.layer), feature.id, whole !== undefined);
    const edits = refused ? [] : [button(texts.edit, () => editor.begin(feature, false)), button(texts.delete, () => editor.begin(feature, true)), button(texts.history, before)];
    open(`${plain(feature.layer)} ${feature.id}`, ...parts, actions(...edits, button(texts.close, leave)));
}

/** Closes the panel of what is selected. */
function leave() {
    close();
    view.redraw();
}

/** Goes to a feature that was found, at a zoom that shows it, and selects it. */
function goTo(feature) {
    const { box, minzoom = 0, maxzoom = view.maxzoom } = feature;
    const inView = view.features().some(({ id }) => id === feature.id);
    inView || view.show(box);
    inView || view.move(view.centre, Math.max(Math.min(view.zoom, maxzoom < view.maxzoom ? maxzoom + 0.9 : Infinity), minzoom));
    selected = feature;
    show(feature);
    view.uncover(box, covered());
}

/** Finds what a text says: the one feature, or a list of them. */
async function find(text) {
    if (editor.draft || drop.file) {
        throw new Error(texts.finishFirst);
    }
    const found = await search(refused && !past ? null : server, view, text), more = found.length - MAX_FOUND;
    if (found.length > 1) {
        const rows = found.slice(0, MAX_FOUND).map(feature => Object.assign(button(titleOf(feature, text), () => goTo(feature)), { className: "found" }));
        const rest = more > 0 ? [element("p", { className: "hint" }, texts.more(more))] : [];
        open(texts.found(found.length), ...rows, ...rest, actions(button(texts.close, leave)));
    } else {
        const isId = !refused && /^\d+$/.test(text), none = text ? texts.nothingHas(text) + (isId ? texts.noId : "") : texts.nothingInView;
        found.length ? goTo(found[0]) : isId && await history.openLost(text) ? tell(texts.isLost(text)) : tell(none, true);
    }
}

/** Shows the map with an edit. */
async function showEdit(edit) {
    const changes = isBegun && !refused && edit > view.edit ? await server.changesAfter(view.edit, edit) : null;
    layers = await server.layers(Math.max(edit, view.edit));
    view.showEdit(edit, changes);
    view.maxzoom = Math.max(0, ...layers.map(layer => layer.maxzoom));
    style.know(layers.map(({ id }) => id)) && view.restyle();
    const toggle = (id, isShown) => {
        isShown ? style.hidden.delete(id) : style.hidden.add(id);
        view.restyle();
    };
    const row = (checked, toggles, ...parts) => element("label", {}, element("input", {
        type: "checkbox", checked, onchange: ({ target }) => toggles(target.checked),
    }), ...parts);
    const rows = layers.filter(({ id }) => !isOutline(id)).map(({ id }) =>
        row(!style.hidden.has(id), isShown => toggle(id, isShown), element("i", { style: `background: ${style.colourOf(id)}` }), id));
    const backdrop = isShown => {
        view.backdrop.isHidden = !isShown;
        view.redraw();
    };
    const legend = byId("legend").lastElementChild, all = [...rows, ...(view.backdrop ? [row(!view.backdrop.isHidden, backdrop, ` ${texts.backdrop}`)] : [])];
    // A row that has the focus keeps it.
    const focused = [...legend.querySelectorAll("input")].indexOf(document.activeElement);
    legend.replaceChildren(...all);
    all[focused]?.firstElementChild.focus();
}

/** Says what a look has seen. */
function tellSeen({ features, edits }) {
    tell(past ? texts.isPast(past.edit) : refused === 401 ? texts.logInToEdit : refused ? texts.mayNotEdit : texts.seen(features, edits));
}

/** Looks whether somebody else has edited the map, and shows it. Who may not edit isn't told of edits, and looks at the tags of tiles. */
async function look() {
    const tags = refused ? await view.tagsAbove() : null;
    const status = refused ? { edits: view.edit + (view.hasSeen(tags) ? 0 : 1) } : await server.status(true), isNew = status.edits > view.edit;
    if (status.refused) {
        throw new Error(texts.mayNotEditNow);
    }
    isNew && await showEdit(status.edits);
    view.tags = tags ?? view.tags;
    (isAway || isNew && !refused) && tellSeen(status);
    isAway = false;
    isNew && await editor.isOvertaken() && tell(texts.overtaken, true);
}

/** Writes the texts of the page's own elements. */
function translate() {
    document.documentElement.lang = language;
    document.title = texts.title;
    const properties = { text: "textContent", label: "ariaLabel", title: "title", placeholder: "placeholder" };
    for (const [name, property] of Object.entries(properties)) {
        document.querySelectorAll(`[data-${name}]`).forEach(each => each[property] = texts[each.dataset[name]]);
    }
}

/** Takes a file that is dropped or chosen, if the person may edit. */
async function take([file]) {
    if (editor.hasChanges || drop.file) {
        throw new Error(texts.finishFirst);
    }
    if (refused) {
        throw new Error(refused === 401 ? texts.logInToEdit : texts.mayNotEdit);
    }
    editor.draft && editor.drop();
    await drop.begin(file);
}

function listenToFiles() {
    const chosen = byId("chosen"), takes = files => files.length && take(files).catch(fault => tell(fault.message, true));
    const hasFiles = event => event.dataTransfer?.types.includes("Files"), mark = isOver => document.body.classList.toggle("takes", isOver);
    byId("file").onclick = () => chosen.click();
    chosen.onchange = () => {
        takes([...chosen.files]);
        chosen.value = "";
    };
    addEventListener("dragover", event => {
        hasFiles(event) && event.preventDefault();
        mark(hasFiles(event) && !refused);
    });
    addEventListener("dragleave", () => mark(false));
    addEventListener("drop", event => {
        mark(false);
        hasFiles(event) && event.preventDefault();
        takes([...event.dataTransfer.files]);
    });
}

function listen() {
    byId("nearer").onclick = () => view.zoomBy(1);
    byId("farther").onclick = () => view.zoomBy(-1);
    byId("here").hidden = !Here.isPossible;
    byId("here").onclick = () => here.go().then(metres => tell(texts.hereWithin(metres)), fault => tell(fault.message, true));
    byId("print").onclick = () => editor.draft || drop.file ? tell(texts.finishFirst, true) : print.begin(leave);
    byId("adding").onclick = ({ target }) => target.value && !editor.hasChanges && !drop.file && editor.draw(target.value);
    listenToFiles();
    byId("search").onsubmit = event => {
        event.preventDefault();
        find(event.target.firstElementChild.value.trim()).catch(fault => tell(fault.message, true));
    };
    view.canvas.ondblclick = () => editor.finish();
    view.canvas.oncontextmenu = event => {
        event.preventDefault();
        editor.remove([event.offsetX, event.offsetY]);
    };
    addEventListener("keydown", ({ key, ctrlKey, metaKey, target }) => {
        const { isDrawn } = editor.draft ?? {}, isText = target.matches("input, textarea");
        key === "Enter" && !target.matches("button, input, textarea, select, summary") && editor.finish();
        key === "Escape" && !editor.hasChanges && !drop.isSending && (drop.file ? drop.end() : editor.drop());
        key === "Backspace" && isDrawn && !isText && editor.takeBack();
        key === "z" && (ctrlKey || metaKey) && !isText && (isDrawn ? editor.takeBack() : editor.draft && editor.undo());
        view.redraw();
    });
    byId("login").onclick = () => logIn().catch(fault => tell(fault.message, true));
    addEventListener("beforeunload", event => (editor.hasChanges || drop.isSending) && event.preventDefault());
}

/** The box of the published map, or of the first feature if nothing is published, or else of the world. */
async function boxOfMap() {
    const first = refused ? null : await server.from(0);
    return await publishedBox(server.base) ?? (first ? bounds(pointsOf(first.feature.geometry)) : [0, 0, WORLD, WORLD]);
}

/** Learns whether this machine may edit, and the layers of the map. If the person `logsIn`, the browser asks for a password where nginx wants one. */
async function begin(logsIn) {
    const status = await server.status(logsIn);
    ({ refused } = status);
    byId("adding").hidden = Boolean(refused);
    byId("login").hidden = refused !== 401;
    await showEdit(status.edits ?? 0);
    isAway = false;
    return status;
}

/** The first look. */
async function arrive() {
    const status = await begin(false);
    view.goTo(location.hash.slice(1)) || view.goTo(style.centre ?? "") || view.show(await boxOfMap());
    isBegun = true;
    tellSeen(status);
}

async function logIn() {
    tellSeen(await begin(true));
    lookLater();
}

/** Looks, and again after a while. */
async function watch() {
    isLooking = true;
    try {
        await (!isBegun ? arrive() : document.hidden || past || look());
    } catch (fault) {
        isAway = true;
        tell(isBegun ? fault.message : texts.asksAgain(fault.message), true);
    }
    isLooking = false;
    beTold();
    lookLater();
}

function lookLater() {
    clearTimeout(next);
    const who = isBegun && refused ? "viewer" : told.isOpen && !isAway ? "told" : "editor";
    next = setTimeout(watch, isBegun && missed > view.edit ? 0 : BETWEEN_LOOKS[who] * 1000);
    missed = 0;
}

/** Begins to be told of edits, if the person may edit and sees the page. */
async function beTold() {
    if (!isBegun || refused || past || document.hidden || told.ending || performance.now() < tried + BETWEEN_TRIES * 1000) {
        return;
    }
    tried = performance.now();
    await told.begin() && lookLater();
}

/** Hears of an edit, or that nobody tells of edits any more: null. */
function hear(edit) {
    if (isLooking) {
        missed = edit ?? missed;
    } else if (edit === null || edit > view.edit || isAway) {
        watch();
    }
}

/** A page that comes into view again looks at once. One that nobody sees isn't told of edits. */
function listenToView() {
    document.addEventListener("visibilitychange", () => {
        if (document.hidden) {
            told.end();
            lookLater();
        } else if (isBegun && !isLooking) {
            tried = -Infinity;
            watch();
        }
    });
}

/** Finds the map of an earlier time, which is only looked at, and says in the page that it isn't that of now. Nothing works until it is there. */
async function goBack() {
    const nav = document.querySelector("nav"), now = element("a", { href: location.pathname + location.hash }, texts.goToNow), row = byId("past");
    // What is in view stays in view.
    now.onclick = () => now.href = location.pathname + location.hash;
    nav.inert = true;
    row.replaceChildren(texts.isMade, " ", now);
    row.hidden = false;
    try {
        past = await server.value(`at/${encodeURIComponent(at)}/about`);
    } catch (fault) {
        row.replaceChildren(now);
        throw fault.status === 502 ? new Error(texts.noPast) : fault;
    }
    if (!past) {
        row.replaceChildren(now);
        throw new Error(texts.noPast);
    }
    server = new Server(new URL(`at/${past.edit}/`, server.base));
    row.replaceChildren(past.time ? texts.mapOf(timeOf(past.time)) : texts.mapAfter(past.edit), " ", now);
    nav.inert = false;
}

async function start() {
    translate();
    at && await goBack();
    style = new Style(await (await fetch("style.json")).json());
    view = new View(byId("map"), server, style, {
        select, grab: (point, isTouched) => editor.grab(point, isTouched),
        over: context => {
            here.over(context);
            drop.over(context);
            print.over(context);
            editor.over(context);
            keys.over(context);
        },
        failed: fault => isAway || tell(texts.noTile(fault.message), true),
    });
    view.selected = () => editor.draft || byId("panel").hidden ? null : selected?.id;
    here = new Here(view);
    print = new Print(view, server, style);
    editor = new Editor(view, server, () => layers, showEdit);
    history = new History(server, editor, leave);
    drop = new Drop(view, server, () => layers, editor.schema, showEdit);
    keys = new Keys(view, editor, select);
    Object.assign(byId("credit"), { textContent: style.backdrop?.credit ?? "", hidden: !style.backdrop?.credit });
    told = new Told(BASE, hear);
    listen();
    listenToView();
    await watch();
}

start().catch(fault => tell(fault.message, true));
