// A board: what its program is given, item by item, and what becomes of the answers. It knows neither how the program reads nor
// how windows are reached. Each piece of its work is a generator that yields an item and gets the answer.
import {later} from "../language.js";
import {
    MOST_BYTES, Reader, bytesOf, joinItem, leaveItem, messageBytes, messageItem, numberOf, postOf, runItem, subscribeItem, textOf,
} from "./wire.js";

const CHANNELS = ["shell", "control", "stdin", "iopub"];

// The slices of a run: so many that it takes some milliseconds, after which messages are looked at.
const FEWEST = 1, MOST = 4096, SHORT = 4, LONG = 12;

// The newest texts that ran, for windows that are opened later: how many, and their most characters in all.
const MOST_TEXTS = 20, MOST_CHARACTERS = 500000;

// What a slice is in the progress of a session that is played again, and any other item.
const SLICE = 1, ITEM = 10;

const TOO_MANY = later("Sixteen windows look at this board, which is the most");
const moment = () => Math.floor(Date.now() / 1000);

export class Board {
    /** A board with a session, which is played first. The host has `deliver(window, text)`, `opened(window)`,
     *  `refuse(window, sentence)`, `isBehind()`, which tells whether a window hasn't taken what it was given, `ended(isRestart)`,
     *  `progress(done, all)`, and `keep()` to keep the session; a window is any object. */
    constructor(session, host) {
        const answer = {word: "", number: 0};
        Object.assign(this, {session, host, answer, plans: [], windows: new Map(), owners: new Map(), texts: []});
        Object.assign(this, {isBusy: false, isReplaying: true, isRestart: false, isAsleep: false, isOver: false, count: 64});
        this.life = this.live();
    }

    /** The next item as bytes; null if there is nothing to do until a window has something. */
    next() {
        const {value} = this.life.next(this.answer);
        if (value === null) return null;
        if (!this.isReplaying) this.record(value);
        return messageBytes(value);
    }

    record(item) {
        if (item[0] === "run") return this.session.addRun(numberOf(item[1]), numberOf(item[2]));
        this.session.add(item);
        this.host.keep();
    }

    /** Takes a message of the program: a post, or the answer to the last item. */
    hear(frames) {
        const word = textOf(frames[0]);
        if (word === "post") return this.isReplaying || this.deliver(postOf(frames));
        this.answer = {word, number: word === "joined" ? numberOf(frames[1]) : 0};
        if (["more", "idle", "ended", "arrived"].includes(word)) this.isBusy = word === "more" || word === "arrived";
    }

    /** The program's header names a session that all boards share. Its windows see the board's own in its place. */
    deliver({connections, parts: [header, parent, metadata, content]}) {
        const own = header.replace('"session":"lab80-web"', `"session":"${this.session.name}"`);
        const rest = `"header":${own},"parent_header":${parent},"metadata":${metadata},"content":${content},"buffers":[]}`;
        for (const each of connections) {
            const {window, channel} = this.owners.get(each) || {};
            if (window) this.host.deliver(window, `{"channel":"${channel}",${rest}`);
        }
    }

    // ---- what windows want

    join(window) {
        this.plans.push(this.joining(window));
    }

    leave(window) {
        this.plans.push(this.leaving(window));
    }

    /** Takes a message of a window, in the form of a server's WebSocket. Returns a sentence if it is too long for the program. */
    send(window, message) {
        const {length} = bytesOf(JSON.stringify(message.content));
        if (length > MOST_BYTES) return later("A message of {0} bytes is too long for the board: {1} are the most", [length, MOST_BYTES]);
        this.plans.push(this.sending(window, message));
        return "";
    }

    // ---- its life

    * live() {
        yield* this.replay();
        this.isReplaying = false;
        for (;;) {
            const plan = this.plans.shift();
            if (plan) yield* plan;
            else if (this.isBusy && !this.isAsleep && !this.host.isBehind()) yield* this.run(moment());
            else yield null;
        }
    }

    * joining(window) {
        const connections = {};
        this.windows.set(window, connections);
        const identity = crypto.getRandomValues(new Uint8Array(16));
        for (const channel of CHANNELS) {
            const {word, number} = yield joinItem(channel, identity);
            if (word !== "joined") {
                yield* this.leaving(window);
                return this.host.refuse(window, TOO_MANY);
            }
            connections[channel] = number;
            this.owners.set(number, {window, channel});
        }
        this.host.opened(window);
        yield subscribeItem(connections.iopub, moment());
    }

    * leaving(window) {
        const connections = Object.values(this.windows.get(window) || {});
        this.windows.delete(window);
        for (const each of connections) {
            this.owners.delete(each);
            yield leaveItem(each);
        }
    }

    * sending(window, message) {
        const connection = (this.windows.get(window) || {})[message.channel];
        if (connection === undefined) return;
        this.note(message.header.msg_type, message.content);
        yield messageItem(connection, moment(), message);
    }

    * run(at, most = this.count) {
        const count = Math.min(most, this.count), began = performance.now();
        const {word} = yield runItem(at, count);
        const took = performance.now() - began;
        if (took < SHORT && count === this.count) this.count = Math.min(MOST, this.count * 2);
        else if (took > LONG) this.count = Math.max(FEWEST, this.count >> 1);
        if (word === "ended" && !this.isReplaying) this.host.ended(this.isRestart);
        return {word, count};
    }

    /** Notes what is wanted of a message later: a shutdown that is a restart, and texts that run. */
    note(type, content) {
        if (type === "shutdown_request") this.isRestart = content.restart === true;
        if (type !== "execute_request" || typeof content.code !== "string" || content.code.trim() === "") return;
        this.texts = [content.code, ...this.texts.filter(each => each !== content.code)].slice(0, MOST_TEXTS);
        let left = MOST_CHARACTERS;
        this.texts = this.texts.filter(each => (left -= each.length) >= 0);
    }

    // ---- a session that is played again

    /** Gives the program the items of the session, and then takes leave of the windows that were there. */
    * replay() {
        const items = new Reader().read(this.session.bytes()), open = new Set();
        const all = items.reduce((sum, each) => sum + weightOf(each), 0);
        let done = 0;
        for (const frames of items) {
            const kind = textOf(frames[0]);
            const {word, number} = kind === "run" ? yield* this.playRun(frames, done, all) : yield frames;
            if (kind === "message") this.noteFrames(frames);
            if (word === "joined") open.add(number);
            if (word === "left") open.delete(numberOf(frames[1]));
            this.host.progress(done += weightOf(frames), all);
        }
        this.isReplaying = false;
        for (const each of open) yield leaveItem(each);
    }

    /** Plays a long run as short ones. */
    * playRun([, at, number], done, all) {
        let left = numberOf(number), answer = this.answer;
        while (left > 0) {
            const {word, count} = yield* this.run(numberOf(at), left);
            left -= count;
            answer = {word};
            this.host.progress(done += SLICE * count, all);
            if (word !== "more") break;
        }
        return answer;
    }

    noteFrames(frames) {
        try {
            const from = frames.findIndex(each => textOf(each) === "<IDS|MSG>") + 2;
            this.note(JSON.parse(textOf(frames[from])).msg_type, JSON.parse(textOf(frames[from + 3])));
        } catch {
            // a message that the program refuses too
        }
    }
}

const weightOf = frames => textOf(frames[0]) === "run" ? SLICE * numberOf(frames[2]) : ITEM;
