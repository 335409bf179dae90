// The style of the page as MapLibre GL JS (and Mapbox GL JS) know it. Names aren't written: MapLibre would need fonts for them.
import { isOutline } from "./style.js";

// What each part of a rule is drawn with.
const PART_OF = { area: "areas", edge: "areas", casing: "lines", line: "lines", point: "points" };
const is = kind => ["==", ["geometry-type"], kind];
const has = (tags = {}) => ["all", ...Object.entries(tags).map(([key, value]) => ["==", ["get", key], value])];

/** The layers that draw a layer of the tiles by one of its rules: features that an earlier rule is of are left out. */
function drawn(id, layer, rule, earlier) {
    const of = [has(rule.when), ...earlier.map(({ when }) => ["!", has(when)])];
    const made = (part, type, filter, paint) => ({
        id: `${id} ${layer} ${part}`, type, source: "map", "source-layer": layer, filter: ["all", ...filter, ...of], paint,
    });
    const edge = { "line-color": rule.edge ?? "", "line-width": 1 };
    const wide = more => ["interpolate", ["exponential", 1.5], ["zoom"], ...[10, 20].flatMap(zoom => [zoom, (rule.width ?? 2) * 1.5 ** (zoom - 15) + more])];
    const line = (part, colour, more) => ({
        ...made(part, "line", [is("LineString")], { "line-color": colour, "line-width": wide(more) }), layout: { "line-cap": "round", "line-join": "round" },
    });
    const point = { "circle-color": rule.point ?? "", "circle-radius": 5, "circle-stroke-color": "#ffffff", "circle-stroke-width": 1.5 };
    if (isOutline(layer)) {
        return rule.edge ? [made("edge", "line", [is("LineString")], edge)] : [];
    }
    return [
        rule.area && made("area", "fill", [is("Polygon")], { "fill-color": rule.area, "fill-antialias": false }),
        rule.edge && made("edge", "line", [is("Polygon"), ["!", ["has", "whole"]]], edge),
        rule.casing && line("casing", rule.casing, 1.5),
        rule.line && line("line", rule.line, 0),
        rule.point && made("point", "circle", [is("Point")], point),
    ].filter(Boolean);
}

/** The style for MapLibre of a style of the page, for the layers that the map has and the style knows, with its tiles at an address. */
export function maplibreStyle(style, layers, tiles) {
    // MapLibre enlarges the tiles of the greatest zoom that features have for greater ones.
    const maxzoom = Math.max(0, ...layers.map(layer => layer.maxzoom));
    const drawnOf = (at, layer) => drawn(at, layer, style.rules[at], style.rulesOf(layer).slice(0, style.rulesOf(layer).indexOf(style.rules[at])));
    const made = style.order.flatMap(([at, parts]) => layers.filter(({ id }) => style.rulesOf(id).includes(style.rules[at]))
        .flatMap(({ id }) => drawnOf(at, id)).filter(({ id }) => parts.includes(PART_OF[id.split(" ").at(-1)])));
    const { tiles: below, side = 256, maxzoom: last = 19, credit = "" } = style.backdrop ?? {};
    const backdrop = below ? { backdrop: { type: "raster", tiles: [below], tileSize: side, maxzoom: last, attribution: credit } } : {};
    return {
        version: 8,
        sources: { map: { type: "vector", tiles: [tiles], minzoom: 0, maxzoom }, ...backdrop },
        layers: [
            { id: "background", type: "background", paint: { "background-color": style.background } },
            ...Object.keys(backdrop).map(id => ({ id, type: "raster", source: id })), ...made,
        ],
    };
}
