// Looks at the memory that devices show. Each look uses some of the kernel's journal, so memory is looked at in blocks, each of
// them as often as it changes: at most four times a second while a program runs, and once it stops, waits or ends only when
// something has happened.
import {LOOKS, PRESSES} from "../shared.js";
import {board, mayRun} from "./board.js";
import {byId, numberOf} from "./dom.js";
import {Refusal, isOpen} from "./line.js";
import {otherPanels} from "./live.js";
import {seen, tellLook} from "./look.js";
import {on} from "./signals.js";

// Milliseconds: between two looks at most, from a press to the look at what it has done, the longest pause of a block that stays as
// it is, and that while a program waits.
const TICK = 250, AFTER_PRESS = 20, LONGEST = 2000, WHILE_WAITING = 5000;

// The most bytes of a request, and the most requests of a look.
const BLOCK_BYTES = 256, MOST_AT_ONCE = 8;

// So many requests may be sent quickly, and then on average so many a second; all panels that look at the board share that.
const MOST_ALLOWED = 600, ALLOWED_A_SECOND = 3;
export const allowedLooks = {count: MOST_ALLOWED, since: 0};

function countAllowed(now) {
    const more = (now - allowedLooks.since) / 1000 * ALLOWED_A_SECOND / (1 + otherPanels());
    Object.assign(allowedLooks, {count: Math.min(MOST_ALLOWED, allowedLooks.count + more), since: now});
    return Math.floor(allowedLooks.count);
}

/** What devices want to see, each piece {start, count}, and the function that draws them. */
export const followed = {wanted: () => [], draw: () => {}};

// ---- blocks

// Each {start, end, bytes, same, due, changed}: the bytes seen last, how many looks in a row have found them as they were, the
// time before which it isn't looked at, and when it was found changed last.
let blocks = [];

/** The blocks that hold some pieces. */
function blocksOf(pieces) {
    const found = [];
    for (const {start, count} of [...pieces].sort((one, other) => one.start - other.start)) {
        for (let at = start; at < start + count;) {
            const last = found[found.length - 1], isNear = last !== undefined && at < last.start + BLOCK_BYTES;
            const block = isNear ? last : {start: at, end: at, bytes: null, same: 0, due: 0, changed: 0};
            if (!isNear) found.push(block);
            at = Math.min(start + count, block.start + BLOCK_BYTES);
            block.end = Math.max(block.end, at);
        }
    }
    return found;
}

/** Keeps the blocks in step with what is wanted. */
function renew() {
    const wanted = blocksOf(followed.wanted()), isSame = (one, other) => one.start === other.start && one.end === other.end;
    if (wanted.length === blocks.length && wanted.every((each, at) => isSame(each, blocks[at]))) return;
    blocks = wanted.map(each => blocks.find(other => isSame(each, other)) || each);
}

/** The bytes from an address on as they were seen last; null if they weren't all seen yet. */
export function seenBytes(start, count) {
    const bytes = new Uint8Array(count);
    for (let at = 0; at < count;) {
        const block = blocks.find(each => each.start <= start + at && start + at < each.end);
        if (block === undefined || block.bytes === null) return null;
        const from = start + at - block.start, part = block.bytes.slice(from, from + count - at);
        bytes.set(part, at);
        at += part.length;
    }
    return bytes;
}

// ---- when

const isFollowing = () => mayRun() && byId("follow").checked;

/** After how long a block is looked at again, if nothing happens before. */
function pauseFor({same}) {
    if (!isFollowing()) return Infinity;
    // what a press has done is mostly there at once, and by the second look
    if (board.waits) return same > 0 ? WHILE_WAITING : 2 * TICK;
    return Math.min(LONGEST, TICK * 2 ** Math.max(0, same - 1)) * (1 + otherPanels());
}

/** Looks at all blocks, since something may have changed: at the next tick, or after so many milliseconds. */
export function lookAnew(soon = TICK) {
    for (const each of blocks) Object.assign(each, {same: -1, due: 0});
    if (soon < TICK) setTimeout(look, soon);
}

/** The blocks to look at now, those first that have changed last. */
function due(now) {
    const found = blocks.filter(each => each.due <= now).sort((one, other) => other.changed - one.changed);
    return found.slice(0, Math.min(MOST_AT_ONCE, countAllowed(now)));
}

// ---- looks

let isLooking = false;

async function look() {
    if (isLooking || document.hidden || !isOpen()) return;
    renew();
    const now = performance.now(), wanted = due(now);
    if (wanted.length === 0) return;
    isLooking = true;
    try {
        await lookAt(wanted, now);
    } catch (fault) {
        if (!(fault instanceof Refusal) || fault.message !== "Dropped") tellLook(fault);
    } finally {
        isLooking = false;
    }
}

async function lookAt(wanted, now) {
    allowedLooks.count -= wanted.length;
    // what happens while the answers are under way leads to another look
    for (const each of wanted) each.due = Infinity;
    try {
        const found = await Promise.all(wanted.map(({start, end}) => seen(5, start, end - start)));
        wanted.forEach((each, at) => note(each, found[at].map(({value}) => numberOf(value)), now));
    } catch (fault) {
        for (const each of wanted) each.due = Math.min(each.due, now + TICK);
        throw fault;
    }
    followed.draw();
}

function note(block, bytes, now) {
    const isSame = block.bytes !== null && bytes.every((byte, at) => byte === block.bytes[at]);
    block.same = isSame ? block.same + 1 : 0;
    if (!isSame) block.changed = now;
    block.bytes = bytes;
    if (block.due === Infinity) block.due = now + pauseFor(block);
}

// ---- what has happened

const CHANGING = new Set(["execute_request", "debug_request", "interrupt_request"]);

on("message", ({header: {msg_type: type}, content, parent_header: parent = {}}) => {
    const isDone = type === "status" && content.execution_state === "idle" && CHANGING.has(parent.msg_type);
    if (isDone && parent.username === PRESSES) lookAnew(AFTER_PRESS);
    // what a program prints that waited says that something has happened
    else if (isDone && parent.username !== LOOKS || board.waits && type === "stream") lookAnew();
});

let didWait = false;

on("state", () => {
    if (didWait && !board.waits) lookAnew();
    didWait = board.waits;
});

on("looked", () => lookAnew(0));

on("forget", () => { blocks = []; });

export function beginFollowing() {
    setInterval(look, TICK);
    document.addEventListener("visibilitychange", () => document.hidden || lookAnew(0));
}
