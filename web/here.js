// Where the person is, if the browser tells it: it asks the person first, and tells it only to pages that come by TLS or from the same machine.
import { texts } from "./texts.js";
import { WORLD, fromDegrees } from "./world.js";

// The zoom that shows it, the seconds that a browser may take, and the length of the equator in metres.
const ZOOM = 17, PATIENCE = 20, EQUATOR = 40075016.685578488;
const COLOUR = "#0b57d0";

export class Here {
    // Where it is in the world, and within how many units of it; null if that isn't known.
    found = null;

    constructor(view) {
        this.view = view;
    }

    /** Whether a browser may tell it. */
    static get isPossible() {
        return isSecureContext && "geolocation" in navigator;
    }

    /** Goes there. Returns within how many metres that is. */
    async go() {
        const { coords } = await new Promise((resolve, reject) => navigator.geolocation.getCurrentPosition(resolve, reject, {
            enableHighAccuracy: true, timeout: 1000 * PATIENCE, maximumAge: 10000,
        })).catch(({ code, PERMISSION_DENIED }) => {
            throw new Error(code === PERMISSION_DENIED ? texts.hereRefused : texts.hereUnknown);
        });
        const { longitude, latitude, accuracy } = coords, units = WORLD / EQUATOR / Math.cos(latitude * Math.PI / 180);
        this.found = { place: fromDegrees(longitude, latitude), reach: accuracy * units };
        this.view.move(this.found.place, Math.max(this.view.zoom, ZOOM));
        return Math.round(accuracy);
    }

    over(context) {
        if (this.found) {
            const [x, y] = this.view.toScreen(this.found.place), circle = radius => {
                context.beginPath();
                context.arc(x, y, radius, 0, 2 * Math.PI);
            };
            circle(Math.max(this.found.reach * this.view.scale, 10));
            Object.assign(context, { fillStyle: `${COLOUR}22`, strokeStyle: COLOUR, lineWidth: 1.5 });
            context.fill();
            context.stroke();
            circle(6);
            Object.assign(context, { fillStyle: COLOUR, strokeStyle: "#ffffff", lineWidth: 2 });
            context.fill();
            context.stroke();
        }
    }
}
