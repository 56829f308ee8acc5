// What a program does that its author hardly wants: an unbalanced stack at a RET, registers that come back exchanged, code that
// overwrites code, a run into memory that no cell has loaded. Only what was seen step by step is judged, and what some programs do
// on purpose isn't told. An ES module without dependencies.
//
// Steps are {instruction, name, bytes, before, after, wrote, isInterrupt}: an instruction as it is disassembled and as it is shown,
// its bytes, the values before and after it, by the names of registers and flags, and what it has stored, pairs of address and byte.

// How a sentence is said, with values in the place of {0} or {name}: in English, unless a page sets another function.
let t = (text, values = []) => text.replace(/\{(\w+)\}/g, (whole, name) => values[name] ?? whole);

/** Sets the function that translates sentences, with the same arguments. */
export const speakBy = translate => { t = translate; };

const hex = (value, digits = 4) => value.toString(16).toUpperCase().padStart(digits, "0") + "H";

// ---- the sentences

const WORDS = {
    // which instruction at which address
    at: (instruction, at) => t("{0} at {1}", [instruction, hex(at)]),
    interrupted: at => t("a button at {0}", [hex(at)]),
    unbalanced: (ret, sp, {to: routine, by, sp: was}, to) => t("The stack isn't balanced: at {ret} SP is {sp}, but it was {was} when "
        + "the routine at {routine} began, by {by}. So the return leads to {to}",
    {ret, sp: hex(sp), was: hex(was), routine: hex(routine), by, to: hex(to)}),
    emptied: (ret, sp, set, to) => t("The stack is empty: at {ret} SP is {sp}, where {set} has set it. So the return leads to {to}",
        {ret, sp: hex(sp), set, to: hex(to)}),
    exchanged: (ret, pairs, saves, gives) => t("Registers come back exchanged: at {ret} {pairs}, since {saves}, and {gives}",
        {ret, pairs, saves, gives}),
    has: (name, of) => t("{0} has what was in {1}", [name, of]),
    list: parts => parts.length < 2 ? parts.join("") : parts.slice(0, -1).join(t(", ")) + t(" and ") + parts[parts.length - 1],
    overwritten: (by, at, was, value, instruction) => t("The program overwrites its code: {by} puts {value} in place of {was} at {at}, "
        + "which is in {instruction}, that has run already", {by, value: hex(value, 2), was: hex(was, 2), at: hex(at), instruction}),
    rewritten: (at, pc, by) => t("The program runs code that it has overwritten: the byte at {at}, of the instruction at {pc}, comes "
        + "from {by}", {at: hex(at), pc: hex(pc), by}),
    zeros: (from, to) => t("The run leaves its program: after {from} it is at {to}, where no cell has loaded anything and memory is "
        + "00H, which is NOP. Is a HLT, a JMP or a RET missing?", {from, to: hex(to)}),
    unloaded: (from, to, byte) => t("The run leaves its program: after {from} it is at {to}, where no cell has loaded anything. The "
        + "byte there is {byte}", {from, to: hex(to), byte: hex(byte, 2)}),
};

// ---- instructions

const FLAG_BITS = {S: 7, Z: 6, AC: 4, P: 2, CY: 0};
const flagByte = m => Object.entries(FLAG_BITS).reduce((byte, [name, bit]) => byte | m[name] << bit, 2);

// By the names that PUSH and POP have for them.
const PAIRS = {
    B: {name: "BC", value: m => m.B * 256 + m.C}, D: {name: "DE", value: m => m.D * 256 + m.E},
    H: {name: "HL", value: m => m.H * 256 + m.L}, PSW: {name: "PSW", value: m => m.A * 256 + flagByte(m)},
};

const pairOf = instruction => instruction.slice(instruction.indexOf(" ") + 1);

const hasMoved = ({before, after}, by) => after.SP === (before.SP + by & 65535);
const isCall = step => /^(?:C(?:ALL|NZ|Z|NC|C|PO|PE|P|M)|RST) /.test(step.instruction) && hasMoved(step, -2);
const isReturn = step => /^R(?:ET|NZ|Z|NC|C|PO|PE|P|M)$/.test(step.instruction) && hasMoved(step, 2);
const isPush = ({instruction}) => instruction.startsWith("PUSH ");

const placeOf = ({name, before, isInterrupt}) => isInterrupt ? WORDS.interrupted(before.PC) : WORDS.at(name, before.PC);

// ---- what was seen

/** Judges the steps of a run, one after the other. */
export class Watcher {
    constructor() {
        this.begin();
    }

    /** Forgets everything: another program may run. */
    begin() {
        // by addresses the bytes of instructions that ran, {by, byte, hasLabel}, and what was stored, {by, isTold, isNamed}; and
        // the sentences so far
        Object.assign(this, {ran: new Map(), stored: new Map(), told: new Set()});
        this.lose();
    }

    /** Forgets the calls, since what came then wasn't seen. */
    lose() {
        // the routines that have begun and not ended, each {by, to, sp, values, saves, restores, isMoved, isTaken}; the words that
        // were pushed outside of them; where the stack was set; and the step before
        Object.assign(this, {calls: [], loose: [], base: null, last: null});
    }

    /** The sentences on a step, each once in a run. `there` is where it led, {isLoaded, isData, hasLabel, bytes}: whether a cell
     *  has loaded what is at PC, whether as data, whether PC has a label, and the bytes of the instruction there; `from` is where
     *  it began, {isLoaded, hasLabel}. */
    judge(step, there, from) {
        this.noteRun(step, from);
        const returned = this.judgeReturn(step, there), stored = this.judgeStores(step);
        // that a wrong return leads astray is said already
        const found = [...returned, ...stored, ...returned.length > 0 ? [] : this.judgePlace(step, there, from)];
        this.noteStack(step);
        this.last = step;
        const news = found.filter(each => !this.told.has(each));
        for (const each of news) this.told.add(each);
        return news;
    }

    // ---- the stack

    judgeReturn(step, there) {
        if (!isReturn(step)) return [];
        const {calls, base} = this, {before: {SP: sp}, after: {PC: to}} = step;
        const above = calls[calls.length - 2], top = calls[calls.length - 1];
        if (top && top.sp === sp) return this.judgeSaves(step, top);
        if (calls.some(each => each.sp === sp) || this.isJump(sp, there)) return [];
        const isLeft = top && sp < top.sp && !top.isMoved && !top.isTaken;
        const isTaken = top && above && top.sp < sp && sp < above.sp && !top.isMoved && !above.isMoved;
        if (isLeft || isTaken) return [WORDS.unbalanced(placeOf(step), sp, top, to)];
        return base && sp === base.sp && !there.isLoaded ? [WORDS.emptied(placeOf(step), sp, base.by, to)] : [];
    }

    /** Whether a RET goes where the program means it to go: to a label in its code whose address it has pushed. */
    isJump(at, there) {
        return there.isLoaded && there.hasLabel && !there.isData && this.pushes().some(({sp}) => sp === at);
    }

    /** A routine that has restored all that it saved, but to other registers, which still have it. */
    judgeSaves(step, {restores}) {
        const taken = restores.filter(({save}) => save.isSave), wrong = taken.filter(({save, pair}) => save.pair !== pair);
        const from = new Set(taken.map(({save}) => save.pair)), into = new Set(taken.map(({pair}) => pair));
        const isWhole = from.size === taken.length && into.size === taken.length && [...into].every(each => from.has(each));
        // PUSH B, PUSH D, POP B, POP D is how registers are exchanged
        if (!isWhole || taken.some(({isAtOnce}) => isAtOnce)) return [];
        const isKept = taken.every(({save, pair}) => PAIRS[pair].value(step.before) === save.value);
        const isSeen = wrong.some(({save, pair}) => taken.find(each => each.save.pair === pair).save.value !== save.value);
        if (!isKept || !isSeen) return [];
        const told = wrong.map(({save, pair}) => WORDS.has(PAIRS[pair].name, PAIRS[save.pair].name));
        const [saves, gives] = [wrong.map(({save}) => save.by), wrong.map(({by}) => by)].map(WORDS.list);
        return [WORDS.exchanged(placeOf(step), WORDS.list(told), saves, gives)];
    }

    noteStack(step) {
        const {instruction, before, after} = step;
        this.dropSaves(({sp}) => step.wrote.some(([at]) => at === sp || at === (sp + 1 & 65535)));
        if (step.isInterrupt || isCall(step)) this.noteCall(step);
        else if (/^(?:LXI SP|SPHL)/.test(instruction)) this.noteMove(step);
        else if (isPush(step)) this.notePush(step);
        else if (instruction.startsWith("POP ")) this.notePop(step);
        else if (isReturn(step)) this.calls = this.calls.filter(({sp}) => sp > before.SP);
        this.dropSaves(({sp}) => sp < after.SP);
        for (const each of this.calls) each.isTaken = each.isTaken || after.SP > each.sp;
    }

    /** The words that the current routine has pushed. */
    pushes() {
        const top = this.calls[this.calls.length - 1];
        return top ? top.saves : this.loose;
    }

    dropSaves(isGone) {
        const kept = this.pushes().filter(each => !isGone(each));
        this.pushes().splice(0, Infinity, ...kept);
    }

    noteCall(step) {
        const {after} = step, none = {saves: [], restores: [], isMoved: false, isTaken: false};
        this.calls.push({by: placeOf(step), to: after.PC, sp: after.SP, values: after, ...none});
    }

    noteMove(step) {
        for (const each of this.calls) each.isMoved = true;
        this.base = step.instruction === "SPHL" ? null : {sp: step.after.SP, by: placeOf(step)};
        this.pushes().length = 0;
    }

    notePush(step) {
        const {instruction, before, after} = step, pair = pairOf(instruction), value = PAIRS[pair].value(before);
        const top = this.calls[this.calls.length - 1], isSave = top !== undefined && PAIRS[pair].value(top.values) === value;
        this.pushes().push({pair, value, sp: after.SP, by: placeOf(step), isSave});
    }

    notePop(step) {
        const {instruction, before} = step, top = this.calls[this.calls.length - 1];
        const save = this.pushes().find(({sp}) => sp === before.SP), isAtOnce = this.last !== null && isPush(this.last);
        if (save && top) top.restores.push({pair: pairOf(instruction), save, by: placeOf(step), isAtOnce});
    }

    // ---- code

    noteRun({name, bytes, before: {PC: pc}, isInterrupt}, {hasLabel}) {
        if (isInterrupt) return;
        const by = WORDS.at(name, pc);
        bytes.forEach((byte, offset) => this.ran.set(pc + offset & 65535, {by, byte, hasLabel}));
    }

    judgeStores(step) {
        const by = placeOf(step), found = [], isNamed = /^(?:STA|SHLD) /.test(step.instruction);
        for (const [at, value] of step.wrote) {
            const part = this.ran.get(at);
            // a byte in place of an equal one changes nothing, and a change of an instruction that is named is meant
            const isMeant = !part || part.byte === value || isNamed && part.hasLabel;
            if (!isMeant) found.push(WORDS.overwritten(by, at, part.byte, value, part.by));
            this.stored.set(at, {by, isNamed, isTold: part !== undefined});
        }
        return found.slice(0, 1);
    }

    judgePlace(step, there, from) {
        const {PC: pc} = step.after, at = there.bytes.map((_, offset) => pc + offset & 65535);
        const isOwn = at.every(each => this.stored.has(each));
        if (!there.isLoaded) return from.isLoaded && !isOwn ? [this.leaving(step, pc, there.bytes[0])] : [];
        const isStored = each => {
            const {isTold, isNamed} = this.stored.get(each) || {isTold: true};
            return !isTold && !(isNamed && there.hasLabel);
        };
        const found = there.isData ? undefined : at.find(isStored);
        if (found === undefined) return [];
        const stored = this.stored.get(found);
        stored.isTold = true;
        return [WORDS.rewritten(found, pc, stored.by)];
    }

    leaving(step, to, byte) {
        return byte === 0 ? WORDS.zeros(placeOf(step), to) : WORDS.unloaded(placeOf(step), to, byte);
    }
}
