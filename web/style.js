// The style of the map, from style.json: `background` is the colour below everything, `centre` where the map opens if its address doesn't say
// it ("zoom/latitude/longitude", or null for where its features are), and `rules` are drawn in their order, the first one undermost. Below them
// all is the `backdrop`, if there is one: {"tiles": "https://HOST/{z}/{x}/{y}.png", "maxzoom": 19, "side": 256, "credit": "whose it is"}. The
// host has to be named in nginx.conf too (`$backdrop`): otherwise the browser doesn't ask it.
//
// A rule is of one layer, or of "*", all layers that no rule names. If it has `when`, it is of the features with these tags. A feature is
// drawn by the first rule that is of it. `area`, `edge`, `line`, `casing` and `point` are colours; `width` is that of lines in pixels at
// zoom 15; `name` is the tag that is written beside the feature, from the zoom `from` on. If the rule of "*" has `colours` (as #a1b2c3) in
// place of these, each of its layers gets the next of them, in the order of their names; an area lets what is below it show.
//
// So that people see it who see little, what a rule draws has a contrast of 3 with what may lie below it: the background, and the areas of the rules
// before it. A line has it by its own colour or by its casing, an area by its edge (tests/page/contrast.test.js).
//
// The import cuts large polygons: a piece has the tag `whole`, and the outlines are lines of the layer LAYER-outline. So a piece has no
// edge, and the lines of LAYER-outline are drawn as edges of LAYER.
const OUTLINE = "-outline";
// What rules draw, and the opacity of areas in a colour of their layer's own.
const PARTS = ["areas", "lines", "points"], OPACITY = 0.43;

export const isOutline = layer => layer.endsWith(OUTLINE);
/** The layer that people know a layer of a tile by. */
export const plain = layer => isOutline(layer) ? layer.slice(0, -OUTLINE.length) : layer;
/** The width of a rule's lines in pixels. */
export const width = (rule, zoom) => Math.max((rule.width ?? 2) * 1.5 ** (zoom - 15), 0.7);

/** The rule of one of the layers of "*": the one at this place. */
function ownRule({ colours, ...rest }, layer, at) {
    const colour = colours[at % colours.length], parts = [1, 3, 5].map(from => parseInt(colour.slice(from, from + 2), 16));
    return { ...rest, layer, isOwn: true, area: `rgba(${parts.join(", ")}, ${OPACITY})`, edge: colour, line: colour, point: colour };
}

export class Style {
    constructor({ background, centre, backdrop, rules }) {
        Object.assign(this, { background, centre, backdrop, given: rules, hidden: new Set() });
        this.know([]);
    }

    /**
     * Learns the layers of the map: those that no rule names get one each. Returns whether that changes the rules. `order` is that of drawing,
     * places of rules with the parts that are drawn then: of layers with a colour of their own all areas are below all lines, and these below
     * all points.
     */
    know(layers) {
        const named = new Set(this.given.map(rule => rule.layer)), before = JSON.stringify(this.rules);
        const others = [...new Set(layers.map(plain))].filter(layer => !named.has(layer)).sort();
        this.rules = this.given.flatMap(rule => rule.colours ? others.map((layer, at) => ownRule(rule, layer, at)) : [rule]);
        const own = [...this.rules.keys()].filter(at => this.rules[at].isOwn), inParts = PARTS.flatMap(part => own.map(at => [at, [part]]));
        this.order = this.rules.flatMap(({ isOwn }, at) => !isOwn ? [[at, PARTS]] : at === own[0] ? inParts : []);
        return before !== JSON.stringify(this.rules);
    }

    /** The rules of a layer. */
    rulesOf(layer) {
        const own = this.rules.filter(rule => rule.layer === plain(layer));
        return own.length ? own : this.rules.filter(rule => rule.layer === "*");
    }

    /** The place of a feature's rule in `rules`, or -1 if it isn't drawn. */
    placeOf(layer, tags) {
        const isOf = rule => Object.entries(rule.when ?? {}).every(([key, value]) => tags[key] === value);
        return this.hidden.has(plain(layer)) ? -1 : this.rules.indexOf(this.rulesOf(layer).find(isOf));
    }

    /** Whether a rule of a layer draws features of a kind. */
    draws(layer, kind) {
        return this.rulesOf(layer).some(rule => rule[{ points: "point", lines: "line", polygons: "area" }[kind]]);
    }

    /** The colour that the legend shows of a layer. */
    colourOf(layer) {
        return this.rulesOf(layer).map(rule => rule.isOwn ? rule.edge : rule.area ?? rule.line ?? rule.point)[0];
    }
}
