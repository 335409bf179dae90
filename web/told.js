// The gateway tells the page of edits as they are made, by an event stream (docs/OFFICE.md). Where it doesn't, the page asks again and again.

// Seconds without a word of the gateway after which the stream has ended: it says something each 15.
const SILENCE = 40;

export class Told {
    /** Reads the stream at the server's address. `heard` gets the number of each edit, of several at once the last one. */
    constructor(base, heard) {
        this.base = base;
        this.heard = heard;
        // What ends the stream that is read, and whether one is.
        this.ending = null;
        this.isOpen = false;
    }

    /** Begins to read, unless that is done already. Returns whether the gateway tells of edits. */
    async begin() {
        if (this.ending) {
            return this.isOpen;
        }
        const ending = this.ending = new AbortController();
        try {
            const reply = await fetch(new URL("wfs/events", this.base), { cache: "no-store", headers: { Accept: "text/event-stream" }, signal: ending.signal });
            this.isOpen = reply.status === 200 && (reply.headers.get("Content-Type") ?? "").startsWith("text/event-stream");
            this.isOpen ? this.read(reply.body.getReader(), ending) : ending.abort();
        } catch {
            this.isOpen = false;
        }
        if (!this.isOpen && this.ending === ending) {
            this.ending = null;
        }
        return this.isOpen;
    }

    /** Reads a stream to its end. */
    async read(reader, ending) {
        const decoder = new TextDecoder();
        let held = "", silence;
        try {
            for (;;) {
                silence = setTimeout(() => ending.abort(), SILENCE * 1000);
                const { done, value } = await reader.read();
                clearTimeout(silence);
                if (done) {
                    break;
                }
                const lines = (held + decoder.decode(value, { stream: true })).split("\n");
                held = lines.pop();
                const numbers = lines.filter(line => line.startsWith("data: ")).map(line => Number(line.slice(6)));
                numbers.length && this.heard(numbers.at(-1));
            }
        } catch {
            // The gateway, or the way to it, is gone.
        } finally {
            clearTimeout(silence);
            if (this.ending === ending) {
                this.ending = null;
                this.isOpen = false;
                this.heard(null);
            }
        }
    }

    /** Ends the stream: a browser opens few connections to a server, and a page that nobody sees needs none of them. */
    end() {
        const { ending } = this;
        this.ending = null;
        this.isOpen = false;
        ending?.abort();
    }
}
