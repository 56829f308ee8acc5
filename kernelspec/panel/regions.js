// What is where in memory: what the texts that ran have loaded, the stack, PC, and what has changed; as a kind for each byte, and
// in sentences.
import {namesIn} from "../shared.js";
import {board, known, register, symbolValue} from "./board.js";
import {hexadecimal} from "./dom.js";
import {t} from "./language.js";
import {CODE, DATA, MEMORY, isLoaded, layoutOf} from "./layout.js";
import {labelsAt} from "./names.js";

export const EMPTY = 0, OTHER = 3, STACK = 4;
export {CODE, DATA, MEMORY};

// The most characters of all texts that are read, the newest first.
const MOST_READ = 1 << 21;

// A stack that would be longer has been moved, or begins elsewhere.
const MOST_STACK = 4096;

// ---- what was loaded

const read = {symbols: null, version: -1, layouts: []};

/** The layouts of the texts, oldest first. A name's value is that of the newest text that defines it. */
function layouts() {
    if (read.symbols === board.symbols && read.version === known.version) return read.layouts;
    const found = [], taken = new Set();
    let left = MOST_READ;
    for (const {text, fault} of [...known.texts.values()].reverse()) {
        if (fault || (left -= text.length) < 0) continue;
        found.unshift(layoutOf(text, name => taken.has(name) ? undefined : symbolValue(name)));
        for (const name of namesIn(text)) taken.add(name.toUpperCase());
    }
    return Object.assign(read, {symbols: board.symbols, version: known.version, layouts: found}).layouts;
}

// ---- the stack

/** Where the stack is, {from, until}: from SP up to where a text has set it, or to the end of memory, where it is at power-on; null
 *  if neither is near. */
function stackOf(sp, stacks) {
    const from = sp === 0 ? MEMORY : sp, ends = stacks.map(each => each || MEMORY).filter(each => each >= from);
    const until = Math.min(MEMORY, ...ends);
    return until - from <= MOST_STACK ? {from, until} : null;
}

// ---- all of it

/** What is where: {kinds, stack, pc, sp, bytes, before}, with a kind for each byte. */
export function regionsOf(bytes, before) {
    const kinds = Uint8Array.from(bytes, byte => byte === 0 ? EMPTY : OTHER);
    const there = layouts().filter(each => isLoaded(each, bytes));
    for (const {at, length, kind} of there.flatMap(({statements}) => statements)) kinds.fill(kind, at, at + length);
    const [sp, pc] = [register("SP"), register("PC")], stack = stackOf(sp, there.flatMap(({stacks}) => stacks));
    if (stack) kinds.fill(STACK, stack.from, stack.until);
    return {kinds, stack, pc, sp, bytes, before};
}

export const isChanged = ({bytes, before}, at) => before !== null && before[at] !== bytes[at];

// ---- in words

const WORDS = {
    at: (from, until) => from === until ? hexadecimal(from, 4) : t("{0} to {1}", [hexadecimal(from, 4), hexadecimal(until, 4)]),
    several: (ranges, more) => more === 0 ? ranges.join(t(", ")) : t("{0} and {1} more", [ranges.join(t(", ")), more]),
    [CODE]: where => t("Code is at {0}.", [where]),
    [DATA]: where => t("Data is at {0}.", [where]),
    [OTHER]: where => t("Other bytes that aren't 00 are at {0}.", [where]),
    stack: (from, until) => t("The stack is at {0}.", [WORDS.at(from, until)]),
    noStack: at => t("The stack is empty, and begins below {0}.", [at]),
    pc: (at, labels) => labels.length > 0 ? t("PC is {0}, {1}.", [at, labels.join(t(", "))]) : t("PC is {0}.", [at]),
    changed: (count, where) => count === 1 ? t("1 byte has changed since the last picture: {0}.", [where])
        : t("{0} bytes have changed since the last picture: {1}.", [count, where]),
    empty: t("All bytes are 00."),
};

// So many ranges are named.
const NAMED = 4;

/** Ranges of addresses in words. */
const inWords = ranges =>
    WORDS.several(ranges.slice(0, NAMED).map(each => WORDS.at(...each)), Math.max(0, ranges.length - NAMED));

/** The ranges of addresses, each first and last, between two, for which something holds. */
export function rangesOf(holds, from, until) {
    const ranges = [];
    for (let at = from; at < until; ++at) {
        if (!holds(at)) continue;
        const last = ranges[ranges.length - 1];
        if (last && last[1] === at - 1) last[1] = at;
        else ranges.push([at, at]);
    }
    return ranges;
}

const countOf = ranges => ranges.reduce((sum, [first, last]) => sum + last - first + 1, 0);

const isBetween = (at, from, until) => from <= at && at < until;

function stackInWords({stack}, from, until) {
    if (!stack || stack.until <= from || stack.from >= until) return [];
    if (stack.from === stack.until) return [WORDS.noStack(hexadecimal(stack.until % MEMORY, 4))];
    return [WORDS.stack(stack.from, stack.until - 1)];
}

/** What is where between two addresses, in sentences. */
export function told(regions, from = 0, until = MEMORY) {
    const {kinds, pc} = regions, said = [];
    for (const kind of [CODE, DATA, OTHER]) {
        const ranges = rangesOf(at => kinds[at] === kind, from, until);
        if (ranges.length > 0) said.push(WORDS[kind](inWords(ranges)));
    }
    if (kinds.subarray(from, until).every(kind => kind === EMPTY)) said.push(WORDS.empty);
    said.push(...stackInWords(regions, from, until));
    if (isBetween(pc, from, until)) said.push(WORDS.pc(hexadecimal(pc, 4), labelsAt(pc).slice(0, 3)));
    const changed = rangesOf(at => isChanged(regions, at), from, until);
    if (changed.length > 0) said.push(WORDS.changed(countOf(changed), inWords(changed)));
    return said.join(" ");
}
