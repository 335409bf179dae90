// Work that is done a part at a time, so that no frame of a drag waits for it: generators, each `yield` of which is a place to stop.
export class Slices {
    // The work that is left: what does it, and what is told once it is done.
    left = [];

    /** `wakes` is called when there is work, and when some is done: what it makes is to be shown. */
    constructor(wakes) {
        this.wakes = wakes;
    }

    /** Does the work of a generator, unless `signal` ends it. Returns a promise of what it returns. */
    done(parts, signal) {
        return new Promise((resolve, reject) => {
            this.left.push({ parts, signal, resolve, reject });
            this.wakes();
        });
    }

    /** Works for so many milliseconds, or a little longer: as long as the part takes that has been begun. */
    run(milliseconds, now = () => performance.now()) {
        const end = now() + milliseconds;
        let isDone = false;
        while (this.left.length && now() < end) {
            const [work] = this.left, { done, value } = this.step(work);
            done && this.left.shift();
            done && work.resolve(value);
            isDone ||= done;
        }
        (this.left.length || isDone) && this.wakes();
    }

    /** Does a part of some work. What has failed, or was ended, is done. */
    step({ parts, signal, reject }) {
        if (signal?.aborted) {
            return { done: true, value: reject(signal.reason) };
        }
        try {
            return parts.next();
        } catch (fault) {
            return { done: true, value: reject(fault) };
        }
    }
}

/** Calls a function for each item of a list, and stops after each so many. */
export function* each(list, count, action) {
    for (let at = 0; at < list.length; at++) {
        action(list[at], at);
        if (at % count === count - 1) {
            yield;
        }
    }
}
