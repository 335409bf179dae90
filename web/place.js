// Where the features of a map are, for a page whose address doesn't say where to look: where the tiles of the last published archive are.
import { WORLD } from "./world.js";

/** Zoom, column and row of a tile of an archive: PMTiles numbers the tiles of each zoom along a Hilbert curve, zoom after zoom. */
function tileOf(id) {
    let z = 0, column = 0, row = 0;
    for (; id >= 4 ** z; z++) {
        id -= 4 ** z;
    }
    for (let side = 1; side < 2 ** z; side *= 2, id = Math.floor(id / 4)) {
        const right = Math.floor(id / 2) % 2, down = (id + right) % 2;
        if (!down) {
            [column, row] = right ? [side - 1 - row, side - 1 - column] : [row, column];
        }
        [column, row] = [column + side * right, row + side * down];
    }
    return { z, column, row };
}

/** The box of the world of the tiles of the greatest zoom in the archive's root directory, or null if nothing is published. */
export async function publishedBox(base) {
    const reply = await fetch(new URL("map.pmtiles", base), { headers: { Range: "bytes=0-16383" } });
    if (reply.status !== 206) {
        return null;
    }
    // After a header of 127 bytes the directory: the number of its entries, then each one's id as the distance from the one before.
    const content = new Uint8Array(await reply.arrayBuffer()), tiles = [];
    let at = 127;
    const varint = () => {
        let value = 0, scale = 1;
        do {
            value += (content[at] & 127) * scale;
            scale *= 128;
        } while (content[at++] > 127);
        return value;
    };
    for (let left = varint(), id = 0; left > 0; left--) {
        tiles.push(tileOf(id += varint()));
    }
    const last = tiles.filter(tile => tile.z === tiles.at(-1).z), columns = last.map(tile => tile.column), rows = last.map(tile => tile.row);
    return [Math.min(...columns), Math.min(...rows), Math.max(...columns) + 1, Math.max(...rows) + 1].map(at => at * WORLD / 2 ** last[0].z);
}
