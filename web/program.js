// Runs lab80_web, a program in WebAssembly whose only imports are `read` and `write`. While it waits for input it is suspended
// (JavaScript Promise Integration), or, where the browser has no such thing, this worker sleeps.
import {later, t} from "../language.js";
import {canSuspend} from "./abilities.js";
import {Reader, textOf} from "./wire.js";

// Milliseconds after which events are looked at, and those of a worker that sleeps, which then keeps its session.
const BREATH = 5, NAP = 500;

// Its addresses have 32 bits, which all browsers have; with 64 bits it would be slower.
export const MODULE = "web/lab80_web32.wasm";

const IMPORTS = ["env.read", "env.write"], EXPORTS = ["main", "memory"];

/** Whether a module has the imports and exports of lab80_web. */
function isOurs(module) {
    const has = WebAssembly.Module.exports(module).map(({name}) => name);
    const wants = WebAssembly.Module.imports(module).map(each => `${each.module}.${each.name}`);
    return EXPORTS.every(each => has.includes(each)) && wants.every(each => IMPORTS.includes(each));
}

/** Why a module can't be used: `why` is a text that is translated where it is shown. */
class Unusable extends Error {
    constructor(text, values) {
        super(t(text, values));
        this.why = later(text, values);
    }
}

/** Loads the module at an address, which may be a URL. Fails with an Unusable. */
export async function loadModule(place) {
    const address = String(place), reply = await fetch(address).catch(() => ({ok: false, status: 0}));
    if (!reply.ok && !reply.status) throw new Unusable(later("Its file {0} isn't there"), [address]);
    if (!reply.ok) throw new Unusable(later("Its file {0} isn't there ({1})"), [address, reply.status]);
    const module = await WebAssembly.compile(await reply.arrayBuffer()).catch(fault => {
        throw new Unusable(later("Its file {0} is damaged ({1})"), [address, fault.message]);
    });
    if (!isOurs(module)) throw new Unusable(later("Its file {0} is another program's"), [address]);
    return module;
}

const pings = new MessageChannel();
let pinged = null, breathed = 0;
pings.port1.onmessage = () => pinged();

/** Lets events be handled, if it is time. (setTimeout would wait for four milliseconds.) */
function breath() {
    if (performance.now() - breathed < BREATH) return null;
    return new Promise(done => { pinged = done; pings.port2.postMessage(0); }).then(() => { breathed = performance.now(); });
}

/** The standard streams of one program for a board. */
class Streams {
    constructor(board, opening) {
        Object.assign(this, {board, input: opening, reader: new Reader(), said: "", memory: null});
    }

    bytesAt(at, count) {
        return new Uint8Array(this.memory.buffer, Number(at), Number(count));
    }

    give(at, room) {
        const count = Math.min(Number(room), this.input.length);
        this.bytesAt(at, count).set(this.input.subarray(0, count));
        this.input = this.input.subarray(count);
        return BigInt(count);
    }

    write(fd, at, count) {
        if (fd === 2) this.said += textOf(this.bytesAt(at, count));
        else for (const each of this.reader.read(this.bytesAt(at, count))) this.board.hear(each);
        return count;
    }
}

/** Runs a module's program for a board until it ends, and then returns why, in words. The host's `wake()`, which is set here,
 *  tells that a window has something. Where nothing can be suspended, `listen(patience)` takes what windows have, for which it
 *  waits so many milliseconds. */
export async function runProgram(module, board, opening, host) {
    const streams = new Streams(board, opening), write = (...given) => streams.write(...given);
    const read = canSuspend ? new WebAssembly.Suspending(suspended(streams, host)) : sleeping(streams, host);
    const {exports} = await WebAssembly.instantiate(module, {env: {read, write}});
    streams.memory = exports.memory;
    try {
        const main = canSuspend ? WebAssembly.promising(exports.main) : exports.main, status = await main(0, 0n);
        const said = streams.said.trim();
        return said ? later("Its program has ended with {0}: {1}", [status, said]) : later("Its program has ended with {0}", [status]);
    } catch (fault) {
        return later("Its program has failed ({0})", [fault.message]);
    }
}

/** Bytes for the program, at once if there are any. */
const suspended = (streams, host) => {
    async function later(at, room) {
        while (streams.input.length === 0) {
            await breath();
            // a board that another one has replaced
            if (streams.board.isOver) await new Promise(() => {});
            streams.input = streams.board.next() || await new Promise(done => { host.wake = () => done(new Uint8Array(0)); });
        }
        return streams.give(at, room);
    }
    return (fd, at, room) => streams.input.length > 0 ? streams.give(at, room) : later(at, room);
};

const sleeping = (streams, host) => (fd, at, room) => {
    while (streams.input.length === 0) {
        host.listen(0);
        streams.input = streams.board.next() || new Uint8Array(0);
        if (streams.input.length === 0) host.listen(NAP);
    }
    return streams.give(at, room);
};
