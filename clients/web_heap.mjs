// Tests the heap and the arithmetic of web/host.c, in a module of that file alone whose memory can't grow above a limit: random
// calls against a model of the blocks in use, and products and shifts against JavaScript's.
//
//     node web_heap.mjs MODULE LIMIT SEED STEPS
import {readFileSync} from "node:fs";

// Where results are written: in the stack, of which these calls need little, and that from its other end.
const RESULT = 64;

// The most blocks in use.
const MOST = 300;

const [path, limit, seed, steps] = process.argv.slice(2);
const host = new WebAssembly.Instance(new WebAssembly.Module(readFileSync(path)), {}).exports;
const view = () => new DataView(host.memory.buffer);
const bytes = (at, size) => new Uint8Array(host.memory.buffer, at, size);

let state = Number(seed) >>> 0;

/** A random number below a limit, by a xorshift generator. */
function below(count) {
    state ^= state << 13;
    state ^= state >>> 17;
    state ^= state << 5;
    return (state >>> 0) % count;
}

function expect(isSo, text) {
    if (!isSo) {
        throw new Error(`${text} (seed ${seed})`);
    }
}

// ---- the heap

// The blocks in use, by their addresses: their sizes and what they are filled with. Of those that were freed, how much was asked
// for at the address at most, for which there is room.
const used = new Map(), freed = new Map();

/** What an allocation has answered: an address, or null for a failure, whose pointer isn't null. */
function answered() {
    const at = Number(view().getBigUint64(RESULT + 8, true));
    expect(at !== 0, "a null pointer");
    return view().getBigUint64(RESULT, true) === 0n ? null : at;
}

function allocate(size, alignment) {
    host.rattle_alloc(BigInt(RESULT), BigInt(size), BigInt(alignment));
    return answered();
}

function isFilled(at, size, filling) {
    return bytes(at, size).every((byte, index) => byte === (filling + 7 * index) % 256);
}

/** A block has been given: it is aligned, in the memory, and apart from all others. It is filled anew. */
function take(at, size, alignment) {
    const [end, room] = [at + Math.max(size, alignment), Math.max(size, freed.get(at) ?? 0)];
    expect(at % 16 === 0, `an address that isn't aligned: ${at}`);
    expect(end <= host.memory.buffer.byteLength, `a block that ends at ${end}`);
    for (const [other, block] of used) {
        expect(end <= other || other + block.size <= at, `blocks at ${at} and ${other} that overlap`);
    }
    const filling = below(256);
    bytes(at, size).forEach((_, index, place) => place[index] = filling + 7 * index);
    freed.delete(at);
    used.set(at, {size, alignment, filling, room});
}

/** An allocation has failed: nothing that was freed has room for it. */
function lack(size) {
    for (const [at, room] of freed) {
        expect(room < size, `${size} bytes are refused, and there are ${room} at ${at}`);
    }
}

function free(at) {
    const {size, filling, room} = used.get(at);
    expect(isFilled(at, size, filling), `the block at ${at} has changed`);
    used.delete(at);
    freed.set(at, room);
    host.rattle_dealloc(BigInt(at));
}

/** Makes a block one of another size, of which a part is kept. */
function resize(at, size) {
    const block = used.get(at), kept = Math.min(block.size, size) - below(2) * below(Math.min(block.size, size) + 1);
    host.rattle_realloc(BigInt(RESULT), BigInt(at), BigInt(kept), BigInt(size), BigInt(block.alignment));
    const moved = answered();
    if (moved === null) {
        expect(size > block.size, `a block of ${block.size} bytes can't become one of ${size}`);
        expect(isFilled(at, block.size, block.filling), `the block at ${at} has changed`);
        lack(size);
        return;
    }
    expect(isFilled(moved, kept, block.filling), `what was at ${at} isn't at ${moved}`);
    used.delete(at);
    if (moved !== at) {
        freed.set(at, block.room);
    } else {
        freed.set(at, Math.max(block.room, size));
    }
    take(moved, size, block.alignment);
}

/** A size: mostly small, sometimes a power of two, seldom a large part of the memory. */
function anySize() {
    const kind = below(20);
    return kind < 12 ? below(200) : kind < 16 ? 1 << below(17) : kind < 19 ? below(20_000) : below(Number(limit) / 4);
}

function act() {
    const kind = below(5), places = [...used.keys()], at = places[below(places.length || 1)];
    if (kind < 2 && used.size < MOST) {
        const size = anySize(), alignment = 1 << below(5), found = allocate(size, alignment);
        if (found === null) {
            lack(size);
        } else {
            take(found, size, alignment);
        }
    } else if (kind < 4 && at !== undefined) {
        resize(at, anySize());
    } else if (at !== undefined) {
        free(at);
    }
}

/** What no memory has is refused, and nothing changes. */
function refuse() {
    const before = host.memory.buffer.byteLength;
    for (const size of [2n ** 32n, 2n ** 32n + 1n, 2n ** 40n, 2n ** 40n + 1n, 2n ** 48n, 2n ** 62n, 2n ** 63n - 1n]) {
        expect(allocate(size, 1) === null, `${size} bytes are there`);
    }
    expect(host.memory.buffer.byteLength === before, "the memory has grown for what it has no room for");
}

/** The same sizes again and again need no more memory than at first, in whatever order their blocks are freed. */
function repeat() {
    const sizes = Array.from({length: 200}, () => below(5_000));
    let enough = 0;
    for (let round = 0; round < 20; round += 1) {
        const places = sizes.map((size) => allocate(size, 1));
        expect(!places.includes(null), "too little memory for the same sizes");
        places.forEach((at, index) => take(at, sizes[index], 1));
        places.sort(() => below(3) - 1).forEach(free);
        enough ||= host.memory.buffer.byteLength;
        expect(host.memory.buffer.byteLength === enough, "the memory grows for the same sizes");
    }
}

// ---- numbers of 128 bits

const NUMBERS = [0n, 1n, 2n ** 32n - 1n, 2n ** 32n, 2n ** 63n, 2n ** 64n - 1n, 2n ** 64n, 2n ** 96n + 5n, 2n ** 128n - 1n];

const parts = (number) => [BigInt.asUintN(64, number), number >> 64n];

const result = () => view().getBigUint64(RESULT, true) | view().getBigUint64(RESULT + 8, true) << 64n;

function anyNumber() {
    const number = [0, 1, 2, 3].reduce((sum) => sum << 32n | BigInt(below(2 ** 32)), 0n);
    return number >> BigInt(below(128));
}

function calculate(x, y) {
    host.__multi3(BigInt(RESULT), ...parts(x), ...parts(y));
    expect(result() === BigInt.asUintN(128, x * y), `${x} * ${y} = ${result()}`);
    for (let places = 0; places < 128; places += 1) {
        host.__lshrti3(BigInt(RESULT), ...parts(x), places);
        expect(result() === x >> BigInt(places), `${x} >> ${places} = ${result()}`);
        host.__ashlti3(BigInt(RESULT), ...parts(x), places);
        expect(result() === BigInt.asUintN(128, x << BigInt(places)), `${x} << ${places} = ${result()}`);
    }
}

repeat();
refuse();
for (let step = 0; step < Number(steps); step += 1) {
    act();
}
refuse();
[...used.keys()].forEach(free);
NUMBERS.forEach((x) => NUMBERS.forEach((y) => calculate(x, y)));
for (let count = 0; count < 500; count += 1) {
    calculate(anyNumber(), anyNumber());
}
expect(host.memory.buffer.byteLength <= Number(limit), "the memory is above its limit");
