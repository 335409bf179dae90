// The backdrop of the map: images of another server below it, if style.json has a `backdrop`.
const MAX_IMAGES = 300, MAX_UP = 4;

export class Backdrop {
    /** `tiles` is an address with {z}, {x} and {y}; `side` the pixels of an image, `maxzoom` the last zoom that has some. `loaded` is called after each. */
    constructor({ tiles, side = 256, maxzoom = 19 }, loaded) {
        Object.assign(this, { tiles, side, maxzoom, loaded, images: new Map(), isHidden: false });
    }

    /** The image of a tile, which is asked for if it `isWanted`; nothing until it is there. */
    image(z, column, row, isWanted) {
        const name = `${z}/${column}/${row}`, image = this.images.get(name) ?? (isWanted ? new Image() : null);
        if (image && !image.src) {
            image.onload = this.loaded;
            image.src = this.tiles.replace("{z}", z).replace("{x}", column).replace("{y}", row);
            this.images.size < MAX_IMAGES || this.images.delete(this.images.keys().next().value);
            this.images.set(name, image);
        }
        return image?.complete && image.naturalWidth ? image : null;
    }

    /** Draws what a view shows, of tiles that aren't there the part of one above. */
    draw(context, view, ratio) {
        const z = Math.min(Math.max(Math.round(view.zoom + Math.log2(512 / this.side)), 0), this.maxzoom);
        for (const { column, row, left, top, side } of this.isHidden ? [] : view.squares(z)) {
            const [west, north, east, south] = [left, top, left + side, top + side].map(at => Math.round(at * ratio));
            for (let up = 0, image = null; up <= Math.min(MAX_UP, z) && !image; up++) {
                image = this.image(z - up, column >> up, row >> up, up === 0);
                const part = image && image.naturalWidth / 2 ** up;
                image && context.drawImage(image, column % 2 ** up * part, row % 2 ** up * part, part, part, west, north, east - west, south - north);
            }
        }
    }
}
