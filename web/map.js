// The map by MapLibre GL JS. It opens where its address says (#zoom/latitude/longitude), or style.json, or else where the published map is.
import { maplibreStyle } from "./maplibre.js";
import { publishedBox } from "./place.js";
import { Style, plain } from "./style.js";
import { toDegrees } from "./world.js";

const base = new URL("../", location.href);
const json = async path => (await fetch(path)).json();

const style = new Style(await json("style.json"));
const { vector_layers: layers } = await json(new URL("map/metadata", base));
style.know(layers.map(({ id }) => id));
const [zoom, latitude, longitude] = (style.centre ?? "").split("/").map(Number);
const box = style.centre ? null : await publishedBox(base);
maplibregl.setWorkerUrl("maplibre-gl-csp-worker.js");
const map = new maplibregl.Map({
    container: "map",
    hash: true,
    ...(style.centre ? { zoom, center: [longitude, latitude] } : {}),
    ...(box ? { bounds: [toDegrees([box[0], box[3]]), toDegrees([box[2], box[1]])] } : {}),
    style: maplibreStyle(style, layers, `${base}map/{z}/{x}/{y}.mvt`),
});
map.addControl(new maplibregl.NavigationControl());
map.on("click", event => {
    const [feature] = map.queryRenderedFeatures(event.point);
    if (feature) {
        const text = document.createElement("pre");
        text.textContent = `${plain(feature.sourceLayer)} ${feature.id}\n${JSON.stringify(feature.properties, null, 1)}`;
        new maplibregl.Popup().setLngLat(event.lngLat).setDOMContent(text).addTo(map);
    }
});
