// The world of the map: integers from 0 to 2^32 - 1 in Web Mercator, y downwards (docs/HTTP.md, "Coordinates").
export const WORLD = 2 ** 32;

/** The point of the world of a longitude and a latitude, not rounded. */
export function fromDegrees(longitude, latitude) {
    return [longitude / 360 + 0.5, 0.5 - Math.asinh(Math.tan(latitude * Math.PI / 180)) / (2 * Math.PI)].map(part => part * WORLD);
}

/** Longitude and latitude of a point of the world. */
export function toDegrees([x, y]) {
    return [x / WORLD * 360 - 180, Math.atan(Math.sinh(Math.PI * (1 - 2 * y / WORLD))) * 180 / Math.PI];
}

/** The nearest point that a feature can have. */
export function rounded(point) {
    return point.map(part => Math.min(Math.max(Math.floor(part), 0), WORLD - 1));
}

/** The distance of a point from a segment. */
export function distance([x, y], [fromX, fromY], [toX, toY]) {
    const wide = toX - fromX, high = toY - fromY;
    const share = Math.min(Math.max(((x - fromX) * wide + (y - fromY) * high) / (wide * wide + high * high || 1), 0), 1);
    return Math.hypot(x - fromX - share * wide, y - fromY - share * high);
}

/** Whether a point is inside of rings, by the even-odd rule. */
export function isInside([x, y], rings) {
    const crossed = rings.flatMap(ring => ring.filter(([toX, toY], at) => {
        const [fromX, fromY] = ring.at(at - 1);
        return (fromY > y) !== (toY > y) && x < fromX + (y - fromY) / (toY - fromY) * (toX - fromX);
    }));
    return crossed.length % 2 === 1;
}

/** West, north, east and south of points. */
export function bounds(points) {
    return points.reduce(([west, north, east, south], [x, y]) => [Math.min(west, x), Math.min(north, y), Math.max(east, x), Math.max(south, y)],
        [Infinity, Infinity, -Infinity, -Infinity]);
}
