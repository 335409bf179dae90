// What keys do while the map has the focus. The middle of the map, which a cross shows then, is where the pointer of a mouse would be.
import { MINE } from "./draw.js";
import { tell } from "./panel.js";
import { described } from "./shape.js";
import { texts } from "./texts.js";

// Pixels that an arrow moves the map by, alone and with Shift.
const STEP = 64, SMALL_STEP = 4;
const ARROWS = { ArrowLeft: [-1, 0], ArrowRight: [1, 0], ArrowUp: [0, -1], ArrowDown: [0, 1] };

export class Keys {
    // What is held, and moves with the map: the `shape` that it is of, what that `was`, and what moves it (`moves`); or null. Whether keys are used,
    // or a mouse.
    held = null;
    areUsed = false;

    /** `select(point)` does what a click does. */
    constructor(view, editor, select) {
        Object.assign(this, { view, editor, select });
        const on = (name, action) => view.canvas.addEventListener(name, action);
        on("keydown", event => this.press(event) && event.preventDefault());
        on("pointerdown", () => this.use(false));
        on("focus", () => this.use(view.canvas.matches(":focus-visible")));
        on("blur", () => this.use(false));
    }

    /** Notes whether keys are used. What is held then stays where it is once they aren't. */
    use(areUsed) {
        this.areUsed = areUsed;
        this.held = areUsed ? this.held : null;
        this.view.redraw();
    }

    /** Does what a key does. Returns whether it does anything. */
    press(event) {
        const { key, shiftKey, altKey, ctrlKey, metaKey } = event, arrow = ARROWS[key];
        // What was held is held no more if its shape is another one, as after Ctrl+Z.
        this.held = this.held?.shape === this.editor.shape ? this.held : null;
        const by = arrow?.map(part => part * (shiftKey ? SMALL_STEP : STEP));
        const action = !arrow ? this.actions[key] : !altKey || this.held ? () => this.step(by, altKey) : null;
        if (ctrlKey || metaKey || altKey && !arrow || !action) {
            return false;
        }
        // Escape lets go of what is held, and does nothing else then.
        key === "Escape" && event.stopPropagation();
        this.use(true);
        action();
        return true;
    }

    /** What keys do but for arrows. */
    get actions() {
        const { view, editor } = this, nearer = () => view.zoomBy(1), next = by => () => this.goOn(by);
        return {
            "+": nearer, "=": nearer, "-": () => view.zoomBy(-1), " ": () => this.act(),
            Enter: () => editor.draft?.isDrawn ? editor.finish() : this.act(),
            ...(editor.shape ? { PageDown: next(1), PageUp: next(-1), Delete: () => editor.removeAt(view.middle) } : {}),
            ...(this.held ? { Escape: () => this.letGo(true) } : {}),
        };
    }

    /** Moves the map by pixels, and what is held with it. */
    step(by, isFree) {
        const { view } = this;
        view.move(view.centre.map((part, axis) => part + by[axis] / view.scale));
        this.held?.moves(view.toWorld(view.middle), isFree);
    }

    /** Selects what is in the middle, adds a point there to what is drawn, or takes the point there of what is edited, or puts it down. */
    act() {
        const { view, editor } = this;
        if (this.held) {
            this.letGo(false);
        } else if (editor.shape) {
            const was = JSON.stringify(editor.shape), moves = editor.grab(view.middle);
            this.held = moves ? { shape: editor.shape, was, moves } : null;
            tell(moves ? texts.held : texts.noCorner, !moves);
        } else {
            this.select(view.middle);
            editor.draft?.isDrawn && tell(described(editor.draft.feature.geometry));
        }
    }

    /** Puts down what is held: where it is, or where it was. */
    letGo(isTakenBack) {
        const { was } = this.held;
        this.held = null;
        isTakenBack && JSON.stringify(this.editor.shape) !== was && this.editor.undo();
        tell(isTakenBack ? texts.takenBack : texts.putDown);
    }

    /** Goes to the next corner of what is edited, or to the one before. */
    goOn(by) {
        const { place, number, count } = this.editor.choose(by);
        this.held = null;
        this.view.move(place);
        tell(texts.cornerOf(number, count));
    }

    /** Draws the cross. */
    over(context) {
        if (this.areUsed && document.activeElement === this.view.canvas) {
            const [x, y] = this.view.middle, { held } = this;
            for (const [strokeStyle, lineWidth] of [["#ffffff", 5], [held ? MINE : "#1a1a1a", 2]]) {
                Object.assign(context, { strokeStyle, lineWidth });
                context.beginPath();
                for (const [across, down] of Object.values(ARROWS)) {
                    context.moveTo(x + 5 * across, y + 5 * down);
                    context.lineTo(x + 16 * across, y + 16 * down);
                }
                context.stroke();
            }
        }
    }
}
