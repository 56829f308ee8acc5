// A session: all items that a board was given, as the stream that the program reads. Another program makes the same board of it.
import {joined, messageBytes, opening, runItem} from "./wire.js";

// The most bytes of a session that is kept, and the least of a chunk that is written for good.
const MOST_BYTES = 16 << 20, CHUNK_BYTES = 65536;

export class Session {
    /** A new session, or one of chunks that were kept. The name tells this board from others that had its place. */
    constructor(name, chunks = [opening()]) {
        const size = chunks.reduce((sum, each) => sum + each.length, 0);
        Object.assign(this, {name, chunks: [...chunks], size, run: null, changedFrom: 0, isChanged: false, isUrgent: false});
    }

    /** Whether it has become too long, and is lost. */
    get isFull() {
        return this.size > MOST_BYTES;
    }

    add(frames) {
        this.closeRun();
        this.append(messageBytes(frames));
        this.isUrgent = true;
    }

    /** Adds a run. One that follows another one is the same as a longer one, since only `more` was answered before. */
    addRun(moment, count) {
        this.run = this.run || {moment, count: 0n};
        this.run.count += BigInt(count);
        this.isChanged = true;
    }

    closeRun() {
        const bytes = this.runBytes();
        this.run = null;
        this.append(bytes);
    }

    runBytes() {
        return this.run ? messageBytes(runItem(this.run.moment, this.run.count)) : new Uint8Array(0);
    }

    append(bytes) {
        if (bytes.length === 0) return;
        this.size += bytes.length;
        this.isChanged = true;
        if (this.isFull) return void (this.chunks = []);
        const last = this.chunks.length - 1;
        if (last < 0 || this.chunks[last].length >= CHUNK_BYTES) this.chunks.push(bytes);
        else this.chunks[last] = joined([this.chunks[last], bytes]);
    }

    /** What has changed since the last call, {name, count, changed}, of which `changed` has numbered chunks. */
    changes() {
        const last = this.chunks.length - 1, from = this.changedFrom;
        const changed = this.chunks.slice(from).map((bytes, at) => [from + at, bytes]);
        if (this.run) changed[changed.length - 1] = [last, joined([this.chunks[last], this.runBytes()])];
        Object.assign(this, {changedFrom: last, isChanged: false, isUrgent: false});
        return {name: this.name, count: this.chunks.length, changed};
    }

    bytes() {
        return joined([...this.chunks, this.runBytes()]);
    }
}
