// Messages to a worker that never returns to its events, through memory that it shares with a window: one text at a time, its
// length first, which is 0 while there is none.

// Longer than the longest text that a window sends.
const BYTES = 8 << 20;

export const makeMail = () => new SharedArrayBuffer(BYTES);

/** The window's side. */
export class Sender {
    constructor(buffer) {
        Object.assign(this, {length: new Int32Array(buffer, 0, 1), bytes: new Uint8Array(buffer, 4), waiting: [], timer: 0});
    }

    send(text) {
        this.waiting.push(new TextEncoder().encode(text));
        this.put();
    }

    put() {
        clearTimeout(this.timer);
        if (this.waiting.length === 0) return;
        if (Atomics.load(this.length, 0) === 0) {
            const next = this.waiting.shift();
            this.bytes.set(next);
            Atomics.store(this.length, 0, next.length);
            Atomics.notify(this.length, 0);
        }
        if (this.waiting.length > 0) this.timer = setTimeout(() => this.put(), 0);
    }
}

/** The worker's side. */
export class Receiver {
    constructor(buffer) {
        Object.assign(this, {length: new Int32Array(buffer, 0, 1), bytes: new Uint8Array(buffer, 4)});
    }

    /** The next text, or null. Waits for one for so many milliseconds. */
    receive(patience = 0) {
        if (patience > 0) Atomics.wait(this.length, 0, 0, patience);
        const length = Atomics.load(this.length, 0);
        if (length === 0) return null;
        const text = new TextDecoder().decode(this.bytes.slice(0, length));
        Atomics.store(this.length, 0, 0);
        return text;
    }
}
