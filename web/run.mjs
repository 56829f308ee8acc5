// Runs a WebAssembly module of lab80_web as the program itself runs: standard input to standard output.
//
//     node [--experimental-wasm-memory64] web/run.mjs MODULE
//
// The status is the program's. A module with 64-bit addresses needs the flag in a node before 24.

/**
 * Runs the program of a compiled module to its end. `read(place)` fills the front of a place and returns how many bytes it
 * filled, 0 at the end; `write(file, bytes)` takes all of them. What either throws is a read or a write that fails. Returns the
 * program's status.
 */
export function runProgram(module, read, write) {
    let memory;
    // The memory's buffer is another one after the memory has grown.
    const bytes = (at, size) => new Uint8Array(memory.buffer, Number(at), Number(size));
    const tried = (act) => {
        try {
            return BigInt(act());
        } catch (fault) {
            return -1n;
        }
    };
    const env = {
        read: (_, at, size) => tried(() => read(bytes(at, size))),
        write: (file, at, size) => tried(() => (write(file, bytes(at, size)), size)),
    };
    const {exports} = new WebAssembly.Instance(module, {env});
    memory = exports.memory;
    return exports.main(0, 0n);
}

/** Runs a program on an input of bytes. Returns its status, its output as bytes, and what it told by standard error. */
export function runOn(module, input) {
    const written = {1: [], 2: []};
    let at = 0;
    const read = (place) => {
        const part = input.subarray(at, at + place.length);
        place.set(part);
        at += part.length;
        return part.length;
    };
    const status = runProgram(module, read, (file, bytes) => written[file].push(bytes.slice()));
    return {status, output: joined(written[1]), told: new TextDecoder().decode(joined(written[2]))};
}

function joined(parts) {
    const whole = new Uint8Array(parts.reduce((size, part) => size + part.length, 0));
    parts.reduce((at, part) => (whole.set(part, at), at + part.length), 0);
    return whole;
}

async function main(path) {
    const {readFileSync, readSync, writeSync} = await import("node:fs");
    const write = (file, bytes) => {
        for (let done = 0; done < bytes.length;) {
            done += writeSync(file, bytes, done);
        }
    };
    process.exitCode = runProgram(new WebAssembly.Module(readFileSync(path)), (place) => readSync(0, place), write);
}

if (globalThis.process?.argv[1]?.endsWith("run.mjs")) {
    await main(process.argv[2]);
}
