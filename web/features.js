// The features of the map by Leaflet, in the colours of style.json: each collection of the OGC API Features, page by page.
import { Style } from "./style.js";

const json = async path => (await fetch(path)).json();

// The features of a collection.
async function featuresOf(collection) {
    const found = [];
    let next = collection.links.find(link => link.rel === "items").href;
    while (next) {
        const page = await json(next);
        found.push(...page.features);
        next = page.links.find(link => link.rel === "next")?.href;
    }
    return found;
}

// The layer and the tags of a feature.
function about(feature) {
    const text = document.createElement("pre");
    text.textContent = `${feature.layer} ${feature.id}\n${JSON.stringify(feature.properties, null, 1)}`;
    return text;
}

// A text as HTML: Leaflet takes the names of layers as such.
const asHtml = text => Object.assign(document.createElement("span"), { textContent: text }).innerHTML;

// How a feature is drawn, by the rule that is of it.
function drawn(feature) {
    const rule = style.rules[style.placeOf(feature.layer, feature.properties)] ?? {};
    const isArea = feature.geometry.type.endsWith("Polygon");
    const isLine = feature.geometry.type.endsWith("LineString");
    const fill = { fillColor: isArea ? rule.area : rule.point, fillOpacity: 1 };
    return { color: isArea ? rule.edge : isLine ? rule.casing ?? rule.line : "#fff", weight: isLine ? 3 : 1, ...(isLine ? {} : fill) };
}

const style = new Style(await json("style.json"));
const map = L.map("map", { preferCanvas: true });
const control = L.control.layers().addTo(map);
const { collections } = await json("../ogc/collections");
const loaded = await Promise.all(collections.map(async collection => ({ collection, features: await featuresOf(collection) })));
const place = ({ features: [first] }) => first ? style.placeOf(first.layer, first.properties) : -1;
const layers = loaded.sort((one, other) => place(one) - place(other)).map(({ collection, features }) => {
    const layer = L.geoJSON(features, { style: drawn, pointToLayer: (_, at) => L.circleMarker(at, { radius: 5 }) });
    control.addOverlay(layer.bindPopup(clicked => about(clicked.feature)), asHtml(collection.title));
    return layer;
});
map.fitBounds(L.featureGroup(layers).getBounds());
layers.forEach(layer => layer.addTo(map));
