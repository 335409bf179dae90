// The elements of the page, its panel, and the line at its foot.
export const byId = id => document.getElementById(id);
const panel = byId("panel");
// What had the focus before the panel took it.
let opener = null;

/** An element with properties and children. */
export function element(name, properties, ...children) {
    const made = Object.assign(document.createElement(name), properties);
    made.append(...children);
    return made;
}

/** A table of rows of texts and elements, the first of each row its heading. */
export function table(rows) {
    return element("table", {}, ...rows.map(([name, ...cells]) => element("tr", {}, element("th", { scope: "row" }, name), ...cells.map(cell => element("td", {}, cell)))));
}

/** Shows at the end of the panel, above its buttons, why something failed: a screen reader says it at once. */
function complain(fault) {
    const shown = element("p", { className: "fault", role: "alert" }, fault.message), buttons = panel.querySelector(".actions");
    buttons ? buttons.before(shown) : panel.append(shown);
    shown.scrollIntoView({ block: "nearest" });
}

/** A button. While what it does goes on, no button and no field of the panel works; if it fails, the panel tells why. */
export function button(name, action) {
    const switched = isOff => panel.querySelectorAll("button, input, textarea, select").forEach(each => each.disabled = isOff);
    const onclick = async () => {
        const focused = document.activeElement;
        panel.querySelector("p.fault")?.remove();
        switched(true);
        await Promise.resolve().then(action).catch(complain);
        switched(false);
        // What is switched off loses the focus.
        panel.contains(focused) && document.activeElement === document.body && focused.focus();
    };
    return element("button", { type: "button", onclick }, name);
}

/** The buttons that end what the panel shows: they stay in view. */
export const actions = (...buttons) => element("div", { className: "actions" }, ...buttons);

/** Opens the panel, which has the focus then. */
export function open(title, ...parts) {
    const heading = element("h2", { id: "panel-title", tabIndex: -1 }, title), focused = document.activeElement;
    // A button that is switched off has lost the focus to the body.
    opener = !panel.contains(focused) && focused !== document.body ? focused : panel.hidden ? null : opener;
    panel.replaceChildren(heading, ...parts);
    panel.hidden = false;
    panel.scrollTop = 0;
    // What is scrolled into view isn't below the buttons.
    panel.style.setProperty("--actions", `${panel.querySelector(".actions")?.offsetHeight ?? 0}px`);
    heading.focus({ preventScroll: true });
}

/** Closes the panel. If it has the focus, what had it before gets it back, or the map. */
export function close() {
    const hasFocus = panel.contains(document.activeElement) || document.activeElement === document.body;
    panel.hidden = true;
    hasFocus && (opener?.checkVisibility() ? opener : byId("map")).focus({ preventScroll: true });
}

/** The pixels that the panel covers at the right of the page, and at its bottom: it is there on a narrow screen. */
export function covered() {
    const { left, top } = panel.getBoundingClientRect(), isBelow = left < 20;
    return panel.hidden ? [0, 0] : isBelow ? [0, innerHeight - top + 10] : [innerWidth - left + 10, 0];
}

export function tell(text, isFault = false) {
    Object.assign(byId("told"), { textContent: text, className: isFault ? "fault" : "" });
}
