// How large the parts of a printed page are, and what a scale means on it. Lengths are millimetres.
import { WORLD } from "./world.js";

const EQUATOR = 40075016.685578488;
/** Papers by their names: the short side and the long one. */
export const PAPERS = { A4: [210, 297], A3: [297, 420] };
/** The scales that are offered, each as what 1 stands for. */
export const SCALES = [250, 500, 1000, 2000, 2500, 5000, 10_000, 20_000, 25_000, 50_000, 100_000, 200_000, 250_000, 500_000, 1_000_000, 2_500_000, 5_000_000,
    10_000_000, 25_000_000, 50_000_000, 100_000_000];
/** What is left free at each side of the paper. */
export const MARGIN = 10;
// The title, the line with the scale, a row of the legend and the width of one of its entries; what is left free at the foot, so that no second page begins.
const TITLE = 11, FOOT = 12, ROW = 5.5, ENTRY = 46, SLACK = 1;
// The longest bar, and the part of a scale by which it may differ on a page without being told.
const BAR = 60, SAME = 0.01;

/** The paper, what is printed of it, and the map on it, for a legend of so many entries: each its width and height. */
export function sizesOf(paper, isLandscape, entries) {
    const [short, long] = PAPERS[paper], sides = isLandscape ? [long, short] : [short, long], [wide, high] = sides.map(side => side - 2 * MARGIN);
    const columns = Math.floor(wide / ENTRY), rows = Math.ceil(entries / columns);
    return { paper: sides, sheet: [wide, high - SLACK], map: [wide, Math.max(high - SLACK - TITLE - FOOT - rows * ROW, high / 3)], columns };
}

/** How many units of the world a millimetre of the page is long, at a latitude. */
export function unitsOf(scale, latitude) {
    return scale / 1000 * WORLD / EQUATOR / Math.cos(latitude * Math.PI / 180);
}

/** The largest of the scales at which a box of the world, of a width and a height, fits on a map. */
export function scaleFor([wide, high], latitude, [across, down]) {
    return SCALES.find(scale => wide <= across * unitsOf(scale, latitude) && high <= down * unitsOf(scale, latitude)) ?? SCALES.at(-1);
}

/** The bar of a scale: of 1, 2 or 5 times a power of ten the longest that fits. Its metres, and its millimetres. */
export function barOf(scale) {
    const most = BAR * scale / 1000, power = 10 ** Math.floor(Math.log10(most)), metres = power * [5, 2, 1].find(times => times * power <= most);
    return { metres, length: metres / scale * 1000 };
}

/** Whether a scale is the same on the whole of a map, from one latitude to another. */
export function isSame(north, south) {
    const shares = [north, south, Math.sign(north) !== Math.sign(south) ? 0 : north].map(latitude => Math.cos(latitude * Math.PI / 180));
    return Math.min(...shares) / Math.max(...shares) > 1 - SAME;
}
